//! Values that postgres-types has no Rust type for, by the calls of postgres-protocol itself: read into words, and written.
use bytes::BytesMut;
use fallible_iterator::FallibleIterator;
use postgres_protocol::types::{self, Range, RangeBound};
use postgres_protocol::IsNull as Null;
use postgres_types::{to_sql_checked, FromSql, IsNull, ToSql, Type};
use std::error::Error;

type Failure = Box<dyn Error + Sync + Send>;

/// A value in words.
pub struct Shown(pub String);

impl<'a> FromSql<'a> for Shown {
    fn from_sql(ty: &Type, raw: &'a [u8]) -> Result<Shown, Failure> {
        Ok(Shown(match *ty {
            Type::INT4_RANGE => shown_range(types::range_from_sql(raw)?)?,
            Type::POINT => types::point_from_sql(raw).map(|p| format!("({}, {})", p.x(), p.y()))?,
            Type::BOX => {
                let (upper, lower) = types::box_from_sql(raw).map(|b| (b.upper_right(), b.lower_left()))?;
                format!("({}, {}), ({}, {})", upper.x(), upper.y(), lower.x(), lower.y())
            }
            Type::PATH => {
                let path = types::path_from_sql(raw)?;
                let points: Vec<_> = path.points().map(|p| Ok((p.x(), p.y()))).collect()?;
                format!("{} {:?}", if path.closed() { "closed" } else { "open" }, points)
            }
            Type::VARBIT => types::varbit_from_sql(raw).map(|bits| format!("{} bits {:x?}", bits.len(), bits.bytes()))?,
            Type::INET | Type::CIDR => types::inet_from_sql(raw).map(|inet| format!("{}/{}", inet.addr(), inet.netmask()))?,
            Type::UUID => format!("{:x?}", types::uuid_from_sql(raw)?),
            Type::MACADDR => format!("{:x?}", types::macaddr_from_sql(raw)?),
            Type::TIMESTAMPTZ => types::timestamp_from_sql(raw)?.to_string(),
            Type::DATE => types::date_from_sql(raw)?.to_string(),
            Type::TIME => types::time_from_sql(raw)?.to_string(),
            Type::PG_LSN => types::lsn_from_sql(raw)?.to_string(),
            Type::INT4_ARRAY => shown_array(raw)?,
            _ => return Err(format!("no words for {ty}").into()),
        }))
    }

    fn accepts(_: &Type) -> bool {
        true
    }
}

fn shown_range(range: Range<'_>) -> Result<String, Failure> {
    let number = |bytes: Option<&[u8]>| bytes.map_or(Ok("null".to_string()), |bytes| types::int4_from_sql(bytes).map(|n| n.to_string()));
    let bound = |bound: RangeBound<Option<&[u8]>>| {
        Ok::<_, Failure>(match bound {
            RangeBound::Inclusive(bytes) => format!("{} included", number(bytes)?),
            RangeBound::Exclusive(bytes) => format!("{} excluded", number(bytes)?),
            RangeBound::Unbounded => "unbounded".to_string(),
        })
    };
    match range {
        Range::Empty => Ok("empty".to_string()),
        Range::Nonempty(lower, upper) => Ok(format!("{} to {}", bound(lower)?, bound(upper)?)),
    }
}

fn shown_array(raw: &[u8]) -> Result<String, Failure> {
    let array = types::array_from_sql(raw)?;
    let dimensions: Vec<_> = array.dimensions().map(|d| Ok((d.len, d.lower_bound))).collect()?;
    let values: Vec<_> = array.values().map(|v| v.map(types::int4_from_sql).transpose()).collect()?;
    Ok(format!("{dimensions:?} {values:?} nulls {}", array.has_nulls()))
}

/// A range of `int4`, the lower bound included and the upper not; no bound where there is no number.
#[derive(Debug)]
pub struct Between(pub Option<i32>, pub Option<i32>);

/// Writes the number of a bound, if it has one.
fn bound(number: Option<i32>, of: fn(Null) -> RangeBound<Null>, out: &mut BytesMut) -> RangeBound<Null> {
    match number {
        Some(number) => {
            types::int4_to_sql(number, out);
            of(Null::No)
        }
        None => RangeBound::Unbounded,
    }
}

impl ToSql for Between {
    fn to_sql(&self, _: &Type, out: &mut BytesMut) -> Result<IsNull, Failure> {
        types::range_to_sql(|out| Ok(bound(self.0, RangeBound::Inclusive, out)), |out| Ok(bound(self.1, RangeBound::Exclusive, out)), out)?;
        Ok(IsNull::No)
    }

    fn accepts(ty: &Type) -> bool {
        *ty == Type::INT4_RANGE
    }

    to_sql_checked!();
}
