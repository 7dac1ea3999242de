"""python -m postgres_protocol.query "host=.. port=.. user=.. password=.. dbname=.." "SELECT .." [VALUE ..]: runs a statement, and prints its rows.

The first word is a connection string or a URL, as libpq has them. The values take the places of $1, $2 and so on, as texts.
"""
import sys
from typing import List

from .client import Error, connect
from .registry import Registry, Type


class _Texts(Registry):
    """All types as texts, as psql shows them."""

    def get(self, oid: int) -> Type:
        return super().get(-1)


def main(arguments: List[str]) -> int:
    """The program."""
    if len(arguments) < 2:
        print(__doc__, file=sys.stderr)
        return 2
    try:
        connection = connect(arguments[0], autocommit=True, registry=_Texts())
        for row in connection.execute(arguments[1], arguments[2:]):
            print('\t'.join('NULL' if value is None else value for value in row))
        connection.close()
    except Error as error:
        print('query: %s' % error, file=sys.stderr)
        return 1
    return 0


if __name__ == '__main__':
    sys.exit(main(sys.argv[1:]))
