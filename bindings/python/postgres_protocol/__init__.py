"""The byte level of PostgreSQL, over the proved library for C (`libpostgres_protocol.so`).

Build a client's messages (`query`, `parse`, `bind`, ..), iterate over a server's (`messages`), read what lists they have (`row`, `fields`,
`error_fields`, ..) or whole batches of rows (`rows`), log in (`Scram`), escape texts (`escape_literal`, `escape_identifier`), and write and
read values in the binary format (`put`, `get`, `put_inet`, `get_array`, ..). A `Stream` keeps what a connection sends, and rejects what is not
allowed there; a `Dialogue` says which message answers which request.

`postgres_protocol.registry` makes values of Python's of a type's bytes. `postgres_protocol.connection` has a connection without input or output,
`postgres_protocol.client` a client with the interface of DB-API 2.0, and `postgres_protocol.aio` one for asyncio. Calls that take bytes take
`bytes`, `bytearray` and `memoryview`.
"""
from importlib.metadata import version as _version

from ._library import STATUSES, ProtocolError
from ._rows import rows
from .auth import Scram, escape_identifier, escape_literal, md5_answer, saslprep, scram_verifier
from .dialogue import REQUESTS, Dialogue, Taken
from .reading import KINDS, Field, Message, error_fields, fields, formats, mechanisms, messages, options, row, types
from .registry import INFINITY, NEGATIVE_INFINITY, Registry, Type
from .search import Lexeme, Operand, Operator, Position, get_tsquery, get_tsvector, put_tsquery, put_tsvector
from .shapes import (Box, Circle, Line, Lseg, Path, Point, Snapshot, Tid, get_box, get_char, get_circle, get_label, get_line, get_lseg, get_macaddr8,
                     get_multirange, get_path, get_point, get_polygon, get_record, get_snapshot, get_tid, put_box, put_char, put_cidr, put_circle, put_inet_any,
                     put_label, put_line, put_lseg, put_macaddr8, put_multirange, put_path, put_point, put_polygon, put_record, put_snapshot, put_tid)
from .stream import Stream
from .values import (Address, Array, Interval, Range, Side, get, get_array, get_hstore, get_inet, get_interval, get_jsonb, get_macaddr, get_numeric, get_range,
                     get_timetz, get_uuid, get_varbit, put, put_array, put_hstore, put_inet, put_interval, put_jsonb, put_macaddr, put_numeric, put_range,
                     put_timetz, put_uuid, put_varbit)
from .writing import (VERSION_3_0, VERSION_3_2, bind, cancel_request, close, copy_data, copy_data_head, copy_done, copy_fail, describe, execute, flush, parse,
                      password_message, query, sasl_initial_response, sasl_response, ssl_request, startup, sync, terminate)

__version__ = _version('postgres_protocol')

__all__ = [
    'INFINITY', 'KINDS', 'NEGATIVE_INFINITY', 'REQUESTS', 'STATUSES', 'VERSION_3_0', 'VERSION_3_2', '__version__', 'bind', 'cancel_request',
    'close', 'copy_data', 'copy_data_head', 'copy_done', 'copy_fail', 'describe', 'error_fields', 'escape_identifier', 'escape_literal',
    'execute', 'fields', 'flush', 'formats', 'get', 'get_array', 'get_box', 'get_char', 'get_circle', 'get_hstore', 'get_inet', 'get_interval',
    'get_jsonb', 'get_label', 'get_line', 'get_lseg', 'get_macaddr', 'get_macaddr8', 'get_multirange', 'get_numeric', 'get_path', 'get_point',
    'get_polygon', 'get_range', 'get_record', 'get_snapshot', 'get_tid', 'get_timetz', 'get_tsquery', 'get_tsvector', 'get_uuid', 'get_varbit', 'md5_answer', 'mechanisms', 'messages',
    'options', 'parse', 'password_message', 'put', 'put_array', 'put_box', 'put_char', 'put_cidr', 'put_circle', 'put_hstore', 'put_inet',
    'put_inet_any', 'put_interval', 'put_jsonb', 'put_label', 'put_line', 'put_lseg', 'put_macaddr', 'put_macaddr8', 'put_multirange',
    'put_numeric', 'put_path', 'put_point', 'put_polygon', 'put_range', 'put_record', 'put_snapshot', 'put_tid', 'put_timetz', 'put_tsquery', 'put_tsvector', 'put_uuid', 'put_varbit', 'query',
    'row', 'rows', 'sasl_initial_response', 'sasl_response', 'saslprep', 'scram_verifier', 'ssl_request', 'startup', 'sync', 'terminate', 'types',
    'Address', 'Array', 'Box', 'Circle', 'Dialogue', 'Field', 'Interval', 'Lexeme', 'Line', 'Lseg', 'Message', 'Operand', 'Operator', 'Path', 'Point', 'Position', 'ProtocolError', 'Range',
    'Registry', 'Scram', 'Side', 'Snapshot', 'Stream', 'Taken', 'Tid', 'Type',
]
