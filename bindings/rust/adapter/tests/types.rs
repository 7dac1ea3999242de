//! Values: the bytes that PostgreSQL 15.18 sent for them, where nothing else is said.
use bytes::{BufMut, BytesMut};
use fallible_iterator::FallibleIterator;
use postgres_protocol::IsNull;
use postgres_protocol::types::{self, ArrayDimension, RangeBound};
use std::error::Error;
use std::net::{IpAddr, Ipv4Addr, Ipv6Addr};

type Written<T> = Result<T, Box<dyn Error + Sync + Send>>;

// array[1,null,-3]
const ARRAY: &[u8] = b"\0\0\0\x01\0\0\0\x01\0\0\0\x17\0\0\0\x03\0\0\0\x01\0\0\0\x04\0\0\0\x01\xff\xff\xff\xff\0\0\0\x04\xff\xff\xff\xfd";

fn int4(value: Option<i32>, buf: &mut BytesMut) -> Written<IsNull> {
    match value {
        Some(value) => {
            types::int4_to_sql(value, buf);
            Ok(IsNull::No)
        }
        None => Ok(IsNull::Yes),
    }
}

#[test]
fn arrays_both_ways() {
    let mut buf = BytesMut::new();
    let dimensions = [ArrayDimension { len: 3, lower_bound: 1 }];
    types::array_to_sql(dimensions, 23, [Some(1), None, Some(-3)], int4, &mut buf).unwrap();
    assert_eq!(&buf[..], ARRAY);
    let array = types::array_from_sql(ARRAY).unwrap();
    assert_eq!((array.has_nulls(), array.element_type()), (true, 23));
    assert_eq!(array.dimensions().map(|d| Ok((d.len, d.lower_bound))).collect::<Vec<_>>().unwrap(), [(3, 1)]);
    let values: Vec<_> = array.values().map(|v| v.map(types::int4_from_sql).transpose()).collect().unwrap();
    assert_eq!(values, [Some(1), None, Some(-3)]);
}

#[test]
fn an_iterator_gives_its_error_again() {
    let array = types::array_from_sql(&ARRAY[..ARRAY.len() - 1]).unwrap();
    let mut values = array.values();
    assert!(values.next().unwrap().is_some() && values.next().unwrap().is_some());
    for _ in 0..2 {
        assert!(values.next().is_err());
        assert_eq!(values.size_hint(), (0, Some(0)));
    }
}

#[test]
fn a_failing_serializer_leaves_the_buffer() {
    let mut buf = BytesMut::from(&b"before"[..]);
    let dimensions = || [ArrayDimension { len: 1, lower_bound: 1 }];
    let failing = |_: i32, buf: &mut BytesMut| -> Written<IsNull> {
        buf.put_u8(1);
        Err("no".into())
    };
    assert_eq!(types::array_to_sql(dimensions(), 23, [1], failing, &mut buf).unwrap_err().to_string(), "no");
    assert_eq!(&buf[..], b"before");
    let lower = |buf: &mut BytesMut| int4(Some(1), buf).map(RangeBound::Inclusive);
    assert!(types::range_to_sql(lower, |_| Err("no".into()), &mut buf).is_err());
    assert_eq!(&buf[..], b"before");
}

#[test]
fn addresses_both_ways() {
    for (addr, netmask, bytes) in [
        (IpAddr::V4(Ipv4Addr::new(192, 168, 100, 128)), 25, &b"\x02\x19\0\x04\xc0\xa8\x64\x80"[..]),
        (IpAddr::V6(Ipv6Addr::LOCALHOST), 128, &b"\x03\x80\0\x10\0\0\0\0\0\0\0\0\0\0\0\0\0\0\0\x01"[..]),
    ] {
        let mut buf = BytesMut::new();
        types::inet_to_sql(addr, netmask, &mut buf);
        assert_eq!(&buf[..], bytes);
        let inet = types::inet_from_sql(bytes).unwrap();
        assert_eq!((inet.addr(), inet.netmask()), (addr, netmask));
    }
    assert!(types::inet_from_sql(b"\x02\x21\0\x04\x7f\0\0\x01").is_err());
}

// By IEEE 754 and the manual: big-endian numbers of 4 and 8 bytes.
#[test]
fn numbers_of_floating_point() {
    let mut buf = BytesMut::new();
    types::float4_to_sql(1.5, &mut buf);
    types::float8_to_sql(-2.0, &mut buf);
    types::point_to_sql(1.0, 0.5, &mut buf);
    assert_eq!(&buf[..12], b"\x3f\xc0\0\0\xc0\0\0\0\0\0\0\0");
    assert_eq!(types::float4_from_sql(&buf[..4]).unwrap(), 1.5);
    assert_eq!(types::float8_from_sql(&buf[4..12]).unwrap(), -2.0);
    let point = types::point_from_sql(&buf[12..]).unwrap();
    assert_eq!((point.x(), point.y()), (1.0, 0.5));
}

// From here on by the layout that a server sends, worked by hand.
#[test]
fn paths_and_their_counts() {
    let mut buf = BytesMut::new();
    types::path_to_sql(true, [(1.0, 2.0)], &mut buf).unwrap();
    let path = types::path_from_sql(&buf).unwrap();
    assert!(path.closed());
    assert_eq!(path.points().map(|p| Ok((p.x(), p.y()))).collect::<Vec<_>>().unwrap(), [(1.0, 2.0)]);
    assert!(types::path_from_sql(b"\x01\xff\xff\xff\xff").is_err());
}

#[test]
fn texts_and_pairs() {
    assert_eq!(types::text_from_sql("é".as_bytes()).unwrap(), "é");
    assert!(types::text_from_sql(b"abc\xff").is_err());
    let mut buf = BytesMut::new();
    types::hstore_to_sql([("a", Some("b")), ("c", None)], &mut buf).unwrap();
    assert_eq!(&buf[..], b"\0\0\0\x02\0\0\0\x01a\0\0\0\x01b\0\0\0\x01c\xff\xff\xff\xff");
    let pairs: Vec<_> = types::hstore_from_sql(&buf).unwrap().collect().unwrap();
    assert_eq!(pairs, [("a", Some("b")), ("c", None)]);
    let mut buf = BytesMut::new();
    types::varbit_to_sql(12, [0xaa, 0xf0].into_iter(), &mut buf).unwrap();
    assert_eq!((types::varbit_from_sql(&buf).unwrap().len(), types::varbit_from_sql(&buf).unwrap().bytes()), (12, &[0xaa, 0xf0][..]));
    let mut buf = BytesMut::new();
    types::varbit_to_sql(40_000, std::iter::repeat(0xff).take(5_000), &mut buf).unwrap();
    assert_eq!((buf.len(), &buf[..5]), (5_004, &b"\0\0\x9c\x40\xff"[..]));
}
