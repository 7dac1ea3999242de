"""The constructors and the kinds of types of DB-API 2.0."""
import datetime

Date, Time, Timestamp, Binary = datetime.date, datetime.time, datetime.datetime, bytes
DateFromTicks, TimestampFromTicks = datetime.date.fromtimestamp, datetime.datetime.fromtimestamp


def TimeFromTicks(ticks: float) -> datetime.time:  # noqa: N802 (the name is DB-API's)
    """The time of a day."""
    return datetime.datetime.fromtimestamp(ticks).time()


class _Kind:
    """A kind of types, which is equal to the number of each: `cursor.description[0][1] == NUMBER`."""

    def __init__(self, *numbers: int) -> None:
        self._numbers = frozenset(numbers)

    def __eq__(self, other: object) -> bool:
        return other in self._numbers

    __hash__ = None  # type: ignore[assignment]


STRING, BINARY, NUMBER = _Kind(18, 19, 25, 114, 142, 1042, 1043), _Kind(17), _Kind(20, 21, 23, 700, 701, 1700)
DATETIME, ROWID = _Kind(1082, 1083, 1114, 1184, 1186, 1266), _Kind(26)
