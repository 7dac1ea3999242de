"""A prepared statement, and what statements come to."""
import re
from array import array
from typing import Any, Callable, Dict, List, Mapping, NamedTuple, Optional, Sequence, Tuple

from . import errors, events
from .reading import Field
from .registry import Decoder, Type


class Statement(NamedTuple):
    """A prepared statement: its name, what encodes its parameters, its columns, what decodes them, and the formats of both."""
    name: str
    encoders: List[Callable[[Any], bytes]]
    formats: bytes
    fields: List[Field]
    decoders: Tuple[Decoder, ...]
    result_formats: bytes


class Result(NamedTuple):
    """What a statement came to: its columns, its rows, and the server's tag; whether a portal has further rows."""
    fields: List[Field]
    rows: List[Any]
    tag: str
    has_more: bool = False


def as_row(values: Optional[Sequence[Any]]) -> Sequence[Any]:
    """The values of a statement's parameters: a list or a tuple; None is none of them."""
    if isinstance(values, (list, tuple)) or values is None:
        return values or ()
    if isinstance(values, Sequence) and not isinstance(values, (str, bytes, bytearray, memoryview)):
        return tuple(values)
    raise TypeError('parameters: a list or a tuple is expected, not %s' % type(values).__name__)


def as_given(sql: str, values: Optional[Sequence[Any]]) -> Tuple[str, Sequence[Any]]:
    """A statement with `$1`, `$2`, .. in the places of its values."""
    return sql, as_row(values)


def placed(sql: str, values: Any) -> Tuple[str, Sequence[Any]]:
    """A statement with `%s` or `%(name)s` in the places of its values, and `%%` for a percent sign, as one with `$1`, `$2`, .., and its values in this
    order. Without parameters it is sent as it is."""
    names: List[Optional[str]] = []
    if values is None:
        return sql, ()

    def number(found: 're.Match[str]') -> str:
        name, sign = found.groups()
        if sign == '%':
            return sign
        if name is None and sign != 's':
            raise errors.ProgrammingError('`%` stands before `s`, `(name)s` or another `%`')
        if name is None or name not in names:
            names.append(name)
        return '$%d' % (len(names) if name is None else names.index(name) + 1)
    text = re.sub(r'%(?:\((\w+)\)s|(.?))', number, sql, flags=re.DOTALL)
    if names.count(None) == len(names) and not isinstance(values, Mapping):
        return text, as_row(values)
    if None in names or not isinstance(values, Mapping) or not set(names) <= set(values):
        raise errors.ProgrammingError('parameters: `%s` go with a list, and `%(name)s` with a mapping of all the names')
    return text, [values[name] for name in names]


def formats_of(types: Sequence[Type]) -> bytes:
    return array('h', [0 if one.is_text else 1 for one in types]).tobytes()


def gathered(results: Dict[Optional[int], Result], found: List[events.Event]) -> List[Result]:
    """The results by their requests, with the rows and tags that came."""
    for event in found:
        kept = results.get(event.request)
        if kept is None:
            continue
        if isinstance(event, events.Rows):
            kept.rows.extend(event.rows)
        elif isinstance(event, events.CommandCompleted):
            results[event.request] = Result(kept.fields, kept.rows, event.tag)
        elif isinstance(event, events.Completed) and event.kind == 'PortalSuspended':
            results[event.request] = kept._replace(has_more=True)
    return list(results.values())


def results_of(found: List[events.Event]) -> List[Result]:
    """The results of a simple query."""
    results: List[Result] = []
    fields: List[Field] = []
    rows: List[Tuple[Any, ...]] = []
    for event in found:
        if isinstance(event, events.Columns):
            fields = event.fields
        elif isinstance(event, events.Rows):
            rows += event.rows
        elif isinstance(event, events.CommandCompleted):
            results.append(Result(fields, rows, event.tag))
            fields, rows = [], []
    return results


def count_of(tag: str) -> int:
    """How many rows a command was about, by its tag; -1 where it says none."""
    word = tag.rsplit(' ', 1)[-1]
    return int(word) if word.isdigit() else -1
