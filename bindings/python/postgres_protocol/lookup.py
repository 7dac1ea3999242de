"""What the catalog says: types of a database's own by their names (enums, composite types, ranges, domains, and those of the modules hstore, ltree and citext), and
the columns of a table."""
from typing import List, Sequence

from .auth import escape_identifier
from .errors import NotSupportedError, ProgrammingError
from .registry import Registry, Type, composite_type, label_type, range_decoder, range_encoder
from .results import Statement
from .session import Flow, Session
from .values import get_hstore, put_hstore

_TEXT = 25
#: (A server before version 12 has no generated columns, nor `attgenerated`.)
_COLUMNS = ("SELECT attname::text FROM pg_catalog.pg_attribute a WHERE attrelid = $1::regclass AND attnum > 0 AND NOT attisdropped "
            "AND coalesce(to_jsonb(a)->>'attgenerated', '') = '' ORDER BY attnum")
_NUMBER = 'SELECT to_regtype($1)::oid'
_SOUGHT = '''SELECT t.typarray, t.typname::text, t.typtype::text, coalesce(r.rngsubtype, t.typbasetype), ARRAY(SELECT a.atttypid FROM pg_attribute a
    WHERE a.attrelid = t.typrelid AND a.attnum > 0 AND NOT a.attisdropped ORDER BY a.attnum) FROM pg_type t LEFT JOIN pg_range r ON r.rngtypid = t.oid WHERE t.oid = $1'''


def look_up(session: Session, name: str) -> Flow:
    """Adds the type of this name, and its arrays, to those that the connection knows; the type."""
    oid = (yield from session._run(_NUMBER, [[name]]))[1][0].rows[0][0]
    if oid is None:
        raise ProgrammingError('there is no type %r' % name)
    kept = yield from _added(session, oid)
    session.forget()
    return kept


def _added(session: Session, oid: int) -> Flow:
    """The same by its number; what it is made of is added before it."""
    array, name, kind, base, fields = (yield from session._run(_SOUGHT, [[oid]]))[1][0].rows[0]
    for inner in (base, *fields):
        if inner and session.registry.get(inner).is_text:
            yield from _added(session, inner)
    kept = _made(session.registry, oid, name, kind, base, fields)
    session.registry.add(kept, array)
    return kept


def _made(registry: Registry, oid: int, name: str, kind: str, base: int, fields: List[int]) -> Type:
    inner = registry.get(base or _TEXT)
    if kind == 'c':
        return composite_type(name, oid, [registry.get(field) for field in fields])
    if kind == 'r':
        return Type(oid, name, range_decoder(inner.decode), range_encoder(inner.encode))
    if kind in ('d', 'e') or name == 'citext':
        return inner._replace(oid=oid, name=name)
    if name == 'hstore':
        return Type(oid, name, get_hstore, put_hstore)
    if name in ('ltree', 'lquery', 'ltxtquery'):
        return label_type(name, oid)
    raise NotSupportedError('%s: its binary format is not known' % name)


def columns_of(session: Session, table: str, names: Sequence[str]) -> Flow:
    """The COPY of rows of values to a table, and the types of its columns: of those of these names, or of all that aren't generated."""
    if not names:
        names = [row[0] for row in (yield from session._run(_COLUMNS, [[table]]))[1][0].rows]
    quoted = ', '.join(escape_identifier(name.encode()).decode() for name in names)
    statement: Statement = yield from session.describe('SELECT %s FROM %s' % (quoted, table))
    return 'COPY %s %s FROM STDIN (FORMAT binary)' % (table, quoted and '(%s)' % quoted), known_types(session, statement)


def known_types(session: Session, statement: Statement) -> List[Type]:
    """The types of a statement's columns, all of which have to be known in the binary format."""
    kept = [session.registry.get(field.type_oid) for field in statement.fields]
    if any(one.is_text for one in kept):
        raise ProgrammingError('columns of types that are not known here: %s' % [one.oid for one in kept if one.is_text])
    return kept
