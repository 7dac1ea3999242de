"""Values as Python's, by the numbers of their types. The bytes are those that PostgreSQL 15 sends for these values."""
import datetime
import enum
import ipaddress
import uuid
from decimal import Decimal

import postgres_protocol as pg
from postgres_protocol.registry import INFINITY, NEGATIVE_INFINITY, Registry, Type, apply, composite_type, label_type

UTC = datetime.timezone.utc
ONE, TWO, THREE, FOUR, NONE = '3ff0000000000000', '4000000000000000', '4008000000000000', '4010000000000000', '0000000000000000'
#: A type's number, a value, and its bytes.
VALUES = (
    (16, True, '01'), (17, b'\x00\xff', '00ff'), (20, -1, 'ffffffffffffffff'), (21, 258, '0102'), (23, -5, 'fffffffb'), (25, 'h\u00e9', '68c3a9'),
    (26, 4294967295, 'ffffffff'), (114, {'a': [1, None]}, '7b2261223a205b312c206e756c6c5d7d'), (700, 1.5, '3fc00000'), (701, -0.25, 'bfd0000000000000'),
    (829, '08:00:2b:01:02:03', '08002b010203'), (869, ipaddress.ip_interface('192.168.0.1/24'), '02180004c0a80001'),
    (869, ipaddress.ip_interface('::1/128'), '0380001000000000000000000000000000000001'),
    (1082, datetime.date(2000, 1, 2), '00000001'), (1082, datetime.date(1999, 12, 31), 'ffffffff'), (1082, INFINITY, '7fffffff'), (1082, NEGATIVE_INFINITY, '80000000'),
    (1083, datetime.time(0, 0, 1), '00000000000f4240'), (1114, datetime.datetime(2000, 1, 1, 0, 0, 1), '00000000000f4240'),
    (1114, datetime.datetime(1999, 12, 31, 23, 59, 59, 999999), 'ffffffffffffffff'), (1114, INFINITY, '7fffffffffffffff'),
    (1186, INFINITY, '7fffffffffffffff7fffffff7fffffff'), (1186, NEGATIVE_INFINITY, '80000000000000008000000080000000'),
    (1187, [INFINITY, NEGATIVE_INFINITY], '0000000100000000000004a20000000200000001000000107fffffffffffffff7fffffff7fffffff0000001080000000000000008000000080000000'),
    (1184, datetime.datetime(2000, 1, 1, 0, 0, 1, tzinfo=UTC), '00000000000f4240'), (1184, NEGATIVE_INFINITY, '8000000000000000'),
    (1186, pg.Interval(14, -3, 4000000), '00000000003d0900fffffffd0000000e'),
    (1266, datetime.time(12, 0, tzinfo=datetime.timezone(datetime.timedelta(hours=2))), '0000000a0eebb000ffffe3e0'),
    (1560, '101', '00000003a0'), (1562, '', '00000000'), (1562, '111111110', '00000009ff00'),
    (1700, Decimal('0'), '0000000000000000'), (1700, Decimal('12345.6700'), '000300010000000400010929' '1a2c'), (1700, Decimal('-0.01'), '0001ffff400000020064'),
    (1700, Decimal('NaN'), '00000000c0000000'), (1700, Decimal('Infinity'), '00000000d0000020'), (1700, Decimal('10000'), '00010001000000000001'),
    (2950, uuid.UUID('00010203-0405-0607-0809-0a0b0c0d0e0f'), '000102030405060708090a0b0c0d0e0f'), (3220, 2 ** 32 + 2, '0000000100000002'), (6437, 2 ** 64 - 1, 'ffffffffffffffff'),
    (3802, {'a': 1}, '017b2261223a20317d'),
    (1007, [1, None, -3], '00000001' '00000001' '00000017' '00000003' '00000001' '0000000400000001' 'ffffffff' '00000004fffffffd'),
    (1007, [[1, 2], [3, 4]], '00000002' '00000000' '00000017' '00000002' '00000001' '00000002' '00000001' '0000000400000001' '0000000400000002' '0000000400000003' '0000000400000004'),
    (1007, [], '00000000' '00000000' '00000017'), (1009, ['a', 'bc'], '00000001' '00000000' '00000019' '00000002' '00000001' '0000000161' '000000026263'),
    (1231, [Decimal('1.5')], '00000001' '00000000' '000006a4' '00000001' '00000001' '0000000c' '0002000000000001' '0001' '1388'),
    (3904, pg.Range(('in', 1), ('ex', 5)), '02' '0000000400000001' '0000000400000005'), (3904, pg.Range(None, None), '01'),
    (3912, pg.Range(('none', None), ('ex', datetime.date(2000, 1, 2))), '08' '0000000400000001'),
    # (the bytes of these are those of crates/test_rows/data: shapes.rows, values.rows, texts.rows)
    (600, pg.Point(1.5, -2.0), '3ff8000000000000' 'c000000000000000'), (603, pg.Box(pg.Point(3.0, 4.0), pg.Point(1.0, 2.0)), THREE + FOUR + ONE + TWO),
    (628, pg.Line(1.0, 2.0, 3.0), ONE + TWO + THREE), (601, pg.Lseg(pg.Point(1.0, 2.0), pg.Point(3.0, -4.5)), ONE + TWO + THREE + 'c012000000000000'),
    (718, pg.Circle(pg.Point(1.0, 2.0), 3.0), ONE + TWO + THREE),
    (604, [pg.Point(0.0, 0.0), pg.Point(1.0, 1.0), pg.Point(2.0, 0.0)], '00000003' + NONE + NONE + ONE + ONE + TWO + NONE),
    (602, pg.Path([pg.Point(1.0, 2.0), pg.Point(3.0, 4.0)], False), '0000000002' + ONE + TWO + THREE + FOUR), (602, pg.Path([], True), '0100000000'),
    (27, pg.Tid(42, 7), '0000002a0007'), (774, '08:00:2b:01:02:03:04:05', '08002b0102030405'), (650, ipaddress.ip_interface('10.1.0.0/16'), '021001040a010000'),
    (650, ipaddress.ip_interface('2001:4f8:3:ba::/64'), '03400110200104f8000300ba0000000000000000'),
    (4451, [pg.Range(('in', 1), ('ex', 5)), pg.Range(('in', 7), ('ex', 9))],
     '00000002' '00000011' '02' '0000000400000001' '0000000400000005' '00000011' '02' '0000000400000007' '0000000400000009'), (4451, [], '00000000'),
)
# As PostgreSQL 15 sends them (tsvectorsend, tsquerysend): 'a':1A,2B 'cat':3 'fat'; and 'a':* & !( 'b':C | 'c' ), 'a' <2> 'b'.
VALUES += (
    (3614, [pg.Lexeme('a', (pg.Position(1, 'A'), pg.Position(2, 'B'))), pg.Lexeme('cat', (pg.Position(3),)), pg.Lexeme('fat')],
     '00000003' '6100' '0002' 'c001' '8002' '63617400' '0001' '0003' '66617400' '0000'), (3614, [], '00000000'),
    (3615, [pg.Operator('&'), pg.Operator('!'), pg.Operator('|'), pg.Operand('c'), pg.Operand('b', 'C'), pg.Operand('a', '', True)],
     '00000006' '0202' '0201' '0203' '0100006300' '0102006200' '0100016100'), (3615, [], '00000000'),
    (3615, [pg.Operator('<->', 2), pg.Operand('b'), pg.Operand('a', 'AB')], '00000003' '02040002' '0100006200' '01 0c 00 61 00'.replace(' ', '')),
    (3643, [[pg.Lexeme('a')], []], '00000001' '00000000' '00000e1e' '00000002' '00000001' '00000008' '00000001' '6100' '0000' '00000004' '00000000'),
)
# As PostgreSQL 15.18 sends them.
VALUES += (
    (790, -1234, 'fffffffffffffb2e'), (791, [123, None], '00000001' '00000001' '00000316' '00000002' '00000001' '00000008' '000000000000007b' 'ffffffff'),
    (5069, 2 ** 64 - 1, 'ff' * 8), (271, [1, 2 ** 64 - 1], '00000001' '00000000' '000013cd' '00000002' '00000001' '00000008' '0000000000000001' '00000008' + 'ff' * 8),
    (4072, '$."a"[*]?(@ > 1)', '01242e2261225b2a5d3f2840203e203129'), (4073, ['$'], '00000001' '00000000' '00000fe8' '00000001' '00000001' '00000002' '0124'),
    (22, [1, -2, 32767], '00000001' '00000000' '00000015' '00000003' '00000000' '000000020001' '00000002fffe' '000000027fff'),
    (22, [], '00000001' '00000000' '00000015' '00000000' '00000000'), (30, [], '00000001' '00000000' '0000001a' '00000000' '00000000'),
    (30, [23, 4294967295], '00000001' '00000000' '0000001a' '00000002' '00000000' '0000000400000017' '00000004ffffffff'),
    (1006, [[1, 2], [3]], '00000001' '00000000' '00000016' '00000002' '00000001' '00000020' '00000001' '00000000' '00000015' '00000002' '00000000' '000000020001' '000000020002'
     '0000001a' '00000001' '00000000' '00000015' '00000001' '00000000' '000000020003'),
    (1013, [None, [23, 4294967295]], '00000001' '00000001' '0000001e' '00000002' '00000001' 'ffffffff' '00000024' '00000001' '00000000' '0000001a' '00000002' '00000000'
     '0000000400000017' '00000004ffffffff'),
)
#: A type's number, a value that it doesn't take, and the exception.
WRONG = ((23, 'x', TypeError), (23, 2 ** 31, OverflowError), (16, 1, TypeError), (25, b'x', TypeError), (25, [1], TypeError), (1184, datetime.datetime(2000, 1, 1), TypeError),
         (1266, datetime.time(1, 0), TypeError), (1007, [[1], [2, 3]], ValueError), (1700, 'abc', pg.ProtocolError), (1700, '1e200000', pg.ProtocolError),
         (3614, [pg.Lexeme('a', (pg.Position(16384),))], OverflowError), (3614, [pg.Lexeme('a\0')], pg.ProtocolError), (3615, [pg.Operator('-')], ValueError),
         (790, 2 ** 63, OverflowError), (5069, -1, OverflowError), (22, [1, None], TypeError), (22, [32768], OverflowError), (30, [-1], OverflowError))
# Values that other types have, or that lack a part: none of them is made to fit.
WRONG += ((17, 5, TypeError), (17, [1, 2], TypeError), (17, 'x', TypeError), (1009, 'abc', TypeError), (869, 'fe80::1%eth0', ValueError), (1700, '1_0', pg.ProtocolError), (1700, True, pg.ProtocolError), (1009, {'a'}, TypeError), (1009, {'a': 1}, TypeError), (1009, iter(['a']), TypeError),
          (1007, range(3), TypeError), (600, (1.0,), ValueError), (600, (), ValueError), (600, (1.0, 2.0, 3.0), ValueError), (628, (1.0, 2.0), ValueError), (603, ((1.0, 2.0), (3.0,)), ValueError),
          (603, ((1.0, 2.0),), ValueError), (601, ((1.0,), (2.0, 3.0, 4.0)), ValueError), (718, ((1.0,), 2.0), ValueError), (718, ((1.0, 2.0), 3.0, 4.0), ValueError), (27, (1, 2, 3), ValueError), (27, (1,), ValueError),
          (1083, datetime.time(1, 0, tzinfo=UTC), TypeError), (1083, datetime.datetime(2000, 1, 1), TypeError), (1266, datetime.datetime(2000, 1, 1, tzinfo=UTC), TypeError),
          (1266, datetime.time(1, 0, tzinfo=datetime.timezone(datetime.timedelta(microseconds=1))), TypeError), (1562, '1_0', TypeError), (1562, ' 1', TypeError), (1560, '2', TypeError), (1562, 10, TypeError),
          (1114, datetime.datetime(2000, 1, 1, tzinfo=UTC), TypeError), (1114, datetime.date(2000, 1, 1), TypeError), (1082, datetime.datetime(2000, 1, 1), TypeError), (99999, [1], TypeError),
          (99999, {'a': 1}, TypeError), (99999, object(), TypeError))


class Color(str, enum.Enum):
    """Members that are texts and numbers, which Python shows by their names."""
    RED = 'red'


class Size(enum.IntEnum):
    BIG = 3


#: Values of other types as texts, which the server reads as the same values.
SHOWN = ((5, b'5'), (True, b'true'), (-0.5, b'-0.5'), (float('inf'), b'inf'), (Decimal('1.50'), b'1.50'), (datetime.date(2026, 1, 2), b'2026-01-02'),
         (datetime.datetime(2026, 1, 2, 3, 4, tzinfo=datetime.timezone.utc), b'2026-01-02 03:04:00+00:00'), (ipaddress.ip_interface('10.0.0.1/8'), b'10.0.0.1/8'),
         (Color.RED, b'red'), (Size.BIG, b'3'))


def check_typed(same, raises):
    """Each value is written and read."""
    registry = Registry()
    for oid, value, data in VALUES:
        kept = registry.get(oid)
        same('encode %s %r' % (kept.name, value), kept.encode(value).hex(), data)
        read = apply(kept.decode, bytes.fromhex(data))
        same('decode %s %r' % (kept.name, value), (str(read), type(read)), (str(value), type(value)))
    for value, text in SHOWN:
        same('%r as a text' % (value,), registry.get(25).encode(value), text)
    record = '00000003' '00000017' '00000004' '00000001' '000002c1' '00000001' '78' '000002c1' 'ffffffff'  # (1,x,)
    same('a record', apply(registry.get(2249).decode, bytes.fromhex(record)), (1, b'x', None))
    snapshot = '00000003' '000000000000000a' '0000000000000014' '000000000000000a' '000000000000000e' '000000000000000f'  # 10:20:10,14,15
    for oid in (2970, 5038):
        same('a snapshot', apply(registry.get(oid).decode, bytes.fromhex(snapshot)), pg.Snapshot(10, 20, [10, 14, 15]))
        same('a snapshot, written', registry.get(oid).encode(pg.Snapshot(10, 20, [10, 14, 15])).hex(), snapshot)
    same('a snapshot of none', pg.get_snapshot(bytes.fromhex('00000000' '0000000000000001' 'ffffffffffffffff')), (1, 2 ** 64 - 1, []))
    same('a record, written', pg.put_record([(23, b'\0\0\0\1'), (705, b'x'), (705, None)]).hex(), record)
    for name, value in (('ltree', 'Top.Science.Astronomy'), ('lquery', 'Top.*{,2}.sport@'), ('ltxtquery', 'Europe & Russia@*')):
        kept = label_type(name, 99998)
        same(name, (kept.encode(value), apply(kept.decode, b'\1' + value.encode())), (b'\1' + value.encode(), value))
    check_composite(same, registry)
    same('char', (pg.put_char(-1), pg.get_char(b'\x80')), (b'\xff', -128))
    same('a netmask of 33 bits', pg.put_inet_any(bytes([127, 0, 0, 1]), 33).hex(), '022100047f000001')
    for oid, value, error in WRONG:
        try:
            same('%d takes no %r' % (oid, value), registry.get(oid).encode(value), error)
        except Exception as raised:
            same('%d takes no %r' % (oid, value), type(raised), error)
    one = pg.Range(('in', 1), ('ex', 5))
    span = '02' '00000004' '00000001' '00000004' '00000005'
    same('an array of tuples', registry.get(1010).encode([pg.Tid(0, 0), None, pg.Tid(4294967295, 65535)]).hex(),
         '00000001' '00000001' '0000001b' '00000003' '00000001' '00000006' '000000000000' 'ffffffff' '00000006' 'ffffffffffff')
    same('an array of ranges', registry.get(3905).encode([one]).hex(), '00000001' '00000000' '00000f40' '00000001' '00000001' '00000011' + span)
    same('an array of lists that are values', registry.get(6150).encode([[one], []]).hex(),
         '00000001' '00000000' '00001163' '00000002' '00000001' '00000019' '00000001' '00000011' + span + '00000004' '00000000')
    same('a type that is not known', (registry.get(99999).encode(5), registry.get(99999).is_text), (b'5', True))
    registry.add(Type(99999, 'point', lambda data: tuple(map(ord, data.decode())), bytes))
    same('a type of the user', apply(registry.get(99999).decode, b'ab'), (97, 98))
    same('a date past Python', [type(e) for e in [_error(lambda: apply(registry.get(1082).decode, b'\x7f\0\0\0'))]], [OverflowError])


def check_composite(same, registry):
    """Composite types, with nulls, in an array and in one another: (a int4, b text), and (p pair, ps pair[], n numeric). The bytes are the server's."""
    pair = composite_type('pair', 16394, [registry.get(23), registry.get(25)])
    registry.add(pair, 16393)
    nest = composite_type('nest', 16397, [pair, registry.get(16393), registry.get(1700)])
    both = '00000002' '00000017' '0000000400000001' '00000019' '0000000178'
    half = '00000002' '00000017' '0000000400000002' '00000019' 'ffffffff'
    array = '00000001' '00000001' '0000400a' '00000002' '00000001' '00000018' + half + 'ffffffff'
    for kept, value, data in ((pair, (1, 'x'), both), (pair, (2, None), half), (pair, (None, None), '00000002' '00000017' 'ffffffff' '00000019' 'ffffffff'),
                              (registry.get(16393), [(2, None), None], array),
                              (nest, ((1, 'x'), [(2, None), None], Decimal('1.50')), '00000003' '0000400a' '00000019' + both + '00004009' '00000034' + array
                               + '000006a4' '0000000c' '0002000000000002' '0001' '1388')):
        same('encode %s %r' % (kept.name, value), kept.encode(value).hex(), data)
        same('decode %s %r' % (kept.name, value), apply(kept.decode, bytes.fromhex(data)), value)
    same('a composite in a record', apply(registry.get(2249).decode, bytes.fromhex('00000001' '0000400a' '00000019' + both)), ((1, 'x'),))
    same('no composite', [type(_error(call)) for call in (lambda: pair.encode((1,)), lambda: pair.encode('ab'), lambda: pair.encode([1, 'x']), lambda: pair.encode(('x', 1)),
                                                          lambda: pair.decode(bytes.fromhex(both[:8] + '00000019' + both[16:])), lambda: pair.decode(b'\0\0\0\0'),
                                                          lambda: composite_type('other', 1, [registry.get(99999)]))],
         [ValueError, TypeError, TypeError, TypeError, ValueError, ValueError, ValueError])


def _error(call):
    try:
        return call()
    except Exception as raised:
        return raised
