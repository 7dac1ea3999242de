//! Ranges, points and addresses.

use crate::IsNull;
use crate::proved::pgp_types as proved;
use crate::status::{Boxed, ample, boxed, either};
use crate::types::PathPoints;
use bytes::BytesMut;
use std::net::IpAddr;

pub use proved::{Range, RangeBound};

/// Writes a range that is empty.
#[inline]
pub fn empty_range_to_sql(buf: &mut BytesMut) {
    ample(proved::empty_range_to_sql(buf))
}

/// Writes a range, whose bounds these closures write.
pub fn range_to_sql<F, G>(
    lower: F,
    upper: G,
    buf: &mut BytesMut,
) -> Result<(), Boxed>
where
    F: FnOnce(&mut BytesMut) -> Result<RangeBound<IsNull>, Boxed>,
    G: FnOnce(&mut BytesMut) -> Result<RangeBound<IsNull>, Boxed>,
{
    proved::range_to_sql(lower, upper, buf).map_err(either)
}

/// Reads a range.
#[inline]
pub fn range_from_sql(buf: &[u8]) -> Result<Range<'_>, Boxed> {
    proved::range_from_sql(buf).map_err(boxed)
}

/// Writes a point.
#[inline]
pub fn point_to_sql(x: f64, y: f64, buf: &mut BytesMut) {
    ample(proved::point_to_sql(x.to_bits(), y.to_bits(), buf))
}

/// Reads a point.
#[inline]
pub fn point_from_sql(buf: &[u8]) -> Result<Point, Boxed> {
    proved::point_from_sql(buf).map(Point).map_err(boxed)
}

/// A point.
#[derive(Copy, Clone)]
pub struct Point(pub(super) proved::Point);

impl Point {
    /// Its first number.
    #[inline]
    pub fn x(&self) -> f64 {
        f64::from_bits(self.0.x())
    }

    /// Its second number.
    #[inline]
    pub fn y(&self) -> f64 {
        f64::from_bits(self.0.y())
    }
}

/// Writes a box, as two points.
#[inline]
pub fn box_to_sql(x1: f64, y1: f64, x2: f64, y2: f64, buf: &mut BytesMut) {
    ample(proved::box_to_sql(x1.to_bits(), y1.to_bits(), x2.to_bits(), y2.to_bits(), buf))
}

/// Reads a box.
#[inline]
pub fn box_from_sql(buf: &[u8]) -> Result<Box, Boxed> {
    proved::box_from_sql(buf).map(Box).map_err(boxed)
}

/// A box.
#[derive(Copy, Clone)]
pub struct Box(proved::Box);

impl Box {
    /// Its upper right corner.
    #[inline]
    pub fn upper_right(&self) -> Point {
        Point(self.0.upper_right())
    }

    /// Its lower left corner.
    #[inline]
    pub fn lower_left(&self) -> Point {
        Point(self.0.lower_left())
    }
}

/// Writes a path.
#[inline]
pub fn path_to_sql<I>(
    closed: bool,
    points: I,
    buf: &mut BytesMut,
) -> Result<(), Boxed>
where
    I: IntoIterator<Item = (f64, f64)>,
{
    let points = points.into_iter().map(|(x, y)| (x.to_bits(), y.to_bits()));
    proved::path_to_sql(closed, points, buf).map_err(boxed)
}

/// Reads a path.
#[inline]
pub fn path_from_sql(buf: &[u8]) -> Result<Path<'_>, Boxed> {
    proved::path_from_sql(buf).map(Path).map_err(boxed)
}

/// A path.
pub struct Path<'a>(proved::Path<'a>);

impl<'a> Path<'a> {
    /// Its last point is joined to its first.
    #[inline]
    pub fn closed(&self) -> bool {
        self.0.closed()
    }

    /// Its points.
    #[inline]
    pub fn points(&self) -> PathPoints<'a> {
        PathPoints(self.0.points())
    }
}

/// Writes an `inet`.
#[inline]
pub fn inet_to_sql(addr: IpAddr, netmask: u8, buf: &mut BytesMut) {
    ample(proved::inet_to_sql(addr, netmask, buf))
}

/// Reads an `inet` or a `cidr`.
#[inline]
pub fn inet_from_sql(buf: &[u8]) -> Result<Inet, Boxed> {
    match proved::inet_from_sql(buf) {
        // Each family by itself: else the address goes through memory.
        Ok(inet) => match inet.addr() {
            IpAddr::V4(addr) => Ok(Inet { addr: IpAddr::V4(addr), netmask: inet.netmask() }),
            IpAddr::V6(addr) => Ok(Inet { addr: IpAddr::V6(addr), netmask: inet.netmask() }),
        },
        Err(e) => Err(boxed(e)),
    }
}

/// An `inet` or a `cidr`.
pub struct Inet {
    addr: IpAddr,
    netmask: u8,
}

impl Inet {
    /// The address.
    #[inline]
    pub fn addr(&self) -> IpAddr {
        self.addr
    }

    /// How many bits of the address name the network.
    #[inline]
    pub fn netmask(&self) -> u8 {
        self.netmask
    }
}
