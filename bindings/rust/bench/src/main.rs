//! Times works of the original (0.6.4, which Debian has) and of this package in turn: the least nanoseconds of a unit, and the ratio. Each
//! work keeps what it reads or writes, as a program does: a value of which only the length is asked may never be made.
//! `bench TURNS` says how many turns, 400 otherwise, and `bench TURNS WORK` the number of the one work. `bench SIDE WORK UNITS` makes so many
//! units of one work, the original's (0) or the package's (1), for a tool that counts instructions.
use bytes::{BufMut, BytesMut};
use std::hint::black_box;
use std::time::{Duration, Instant};

const TURN: Duration = Duration::from_micros(200);

macro_rules! works {
    ($name:ident, $of:ident) => {
        mod $name {
            use super::*;
            use fallible_iterator::FallibleIterator;
            use $of::IsNull;
            use $of::message::backend::Message;
            use $of::message::frontend;
            use $of::types::{self, ArrayDimension};

            pub fn bind(buf: &mut BytesMut) -> usize {
                buf.clear();
                let int4 = |value: i32, buf: &mut BytesMut| {
                    buf.put_i32(value);
                    Ok(IsNull::No)
                };
                let _ = frontend::bind("", "s1", [1], black_box([1, 2, 3, 4, 5]), int4, [1], buf);
                kept(buf)
            }

            pub fn query(buf: &mut BytesMut) -> usize {
                buf.clear();
                frontend::query(black_box("SELECT id, name FROM city LIMIT 9"), buf).unwrap();
                kept(buf)
            }

            pub fn row(buf: &mut BytesMut) -> usize {
                buf.clear();
                buf.extend_from_slice(black_box(ROW));
                let Some(Message::DataRow(row)) = Message::parse(buf).unwrap() else { panic!() };
                let cells = row.ranges().map(|range| Ok(range.map(|range| &row.buffer()[range])));
                cells.fold(0, |sum, cell| Ok(sum + black_box(cell).map_or(0, <[u8]>::len))).unwrap()
            }

            pub fn command_complete(buf: &mut BytesMut) -> usize {
                buf.clear();
                buf.extend_from_slice(black_box(b"C\0\0\0\x0dSELECT 1\0"));
                let Some(Message::CommandComplete(body)) = Message::parse(buf).unwrap() else { panic!() };
                black_box(body.tag().unwrap()).len()
            }

            pub fn array_written(buf: &mut BytesMut) -> usize {
                buf.clear();
                let int4 = |value: i32, buf: &mut BytesMut| {
                    types::int4_to_sql(value, buf);
                    Ok(IsNull::No)
                };
                types::array_to_sql([ArrayDimension { len: 100, lower_bound: 1 }], 23, black_box(0)..100, int4, buf).unwrap();
                kept(buf)
            }

            pub fn array_read(buf: &mut BytesMut) -> usize {
                let array = types::array_from_sql(black_box(&buf[..])).unwrap();
                array.values().fold(0, |sum, value| Ok(sum + black_box(types::int4_from_sql(value.unwrap())?) as usize)).unwrap()
            }

            pub fn inets_read(_: &mut BytesMut) -> usize {
                let mut bits = 0;
                for value in black_box([b"\x02\x19\0\x04\xc0\xa8\x64\x80"; 8]) {
                    let inet = types::inet_from_sql(value).unwrap();
                    black_box(inet.addr());
                    bits += usize::from(black_box(inet.netmask()));
                }
                bits
            }

            pub fn text_read(_: &mut BytesMut) -> usize {
                black_box(types::text_from_sql(black_box(b"Reykjavik harbor")).unwrap()).len()
            }

            pub fn text_handed_on(_: &mut BytesMut) -> usize {
                black_box(types::text_from_sql(black_box(b"Reykjavik harbor"))).map_or(0, str::len)
            }

            pub fn label_read(_: &mut BytesMut) -> usize {
                black_box(types::ltree_from_sql(black_box(b"\x01Top.Harbors.Reykjavik")).unwrap()).len()
            }

            pub fn hstore_read(_: &mut BytesMut) -> usize {
                let entries = types::hstore_from_sql(black_box(b"\0\0\0\x02\0\0\0\x04city\0\0\0\x09Reykjavik\0\0\0\x05berth\xff\xff\xff\xff"));
                entries.unwrap().fold(0, |sum, entry| Ok(sum + black_box(entry).0.len())).unwrap()
            }

            pub fn escape(_: &mut BytesMut) -> usize {
                black_box($of::escape::escape_literal(black_box("it's a text of 32 bytes, it has."))).len()
            }

            pub fn verifier(_: &mut BytesMut) -> usize {
                black_box($of::password::scram_sha_256(black_box(b"secret"))).len()
            }

            pub const WORKS: [(&str, fn(&mut BytesMut) -> usize); 13] = [
                ("bind of five int4", bind),
                ("query of 33 bytes", query),
                ("row of 8, parsed, its ranges", row),
                ("CommandComplete, its tag", command_complete),
                ("array of 100 int4, written", array_written),
                ("array of 100 int4, read", array_read),
                ("8 inet, read", inets_read),
                ("text of 16, read", text_read),
                ("text of 16, its Result", text_handed_on),
                ("ltree of 21, read", label_read),
                ("hstore of two, read", hstore_read),
                ("literal of 32, escaped", escape),
                ("verifier of 4096 rounds", verifier),
            ];
        }
    };
}

works!(original, theirs);
works!(erased, ours);

const ROW: &[u8] = b"D\0\0\0\x46\0\x08\0\0\0\x04aaaa\0\0\0\x04bbbb\0\0\0\x04cccc\0\0\0\x04dddd\0\0\0\x04eeee\0\0\0\x04ffff\0\0\0\x04gggg\0\0\0\x04hhhh";

/// What was written, all of it, for anyone to read.
fn kept(buf: &BytesMut) -> usize {
    black_box(&buf[..]).len()
}

/// Nanoseconds of a unit, in a turn of so many.
fn turn(work: fn(&mut BytesMut) -> usize, units: u32, buf: &mut BytesMut) -> f64 {
    let start = Instant::now();
    for _ in 0..units {
        black_box(work(buf));
    }
    start.elapsed().as_nanos() as f64 / f64::from(units)
}

/// A buffer that holds an array, for the work that reads one.
fn buffer() -> BytesMut {
    let mut buf = BytesMut::with_capacity(4096);
    original::array_written(&mut buf);
    buf
}

/// The least nanoseconds of a unit, of the original and of the package.
fn least(first: fn(&mut BytesMut) -> usize, second: fn(&mut BytesMut) -> usize, turns: u32) -> [f64; 2] {
    let mut least = [f64::MAX; 2];
    let once = turn(first, 1, &mut buffer()).max(1.0);
    let units = (TURN.as_nanos() as f64 / once).clamp(1.0, 20_000.0) as u32;
    for i in 0..turns {
        // Either side is first in every other turn.
        for (work, at) in if i % 2 == 0 { [(first, 0), (second, 1)] } else { [(second, 1), (first, 0)] } {
            least[at] = least[at].min(turn(work, units, &mut buffer()));
        }
    }
    least
}

fn main() {
    let words: Vec<u32> = std::env::args().skip(1).map(|word| word.parse().expect("a number")).collect();
    if let [side, work, units] = words[..] {
        let (_, work) = [original::WORKS, erased::WORKS][side as usize][work as usize];
        turn(work, units, &mut buffer());
        return;
    }
    let turns = words.first().copied().unwrap_or(400);
    println!("{:30} {:>12} {:>12} {:>6}", "nanoseconds, least of turns", "original", "erased", "ratio");
    let (from, count) = words.get(1).map_or((0, usize::MAX), |work| (*work as usize, 1));
    for ((name, first), (_, second)) in original::WORKS.into_iter().zip(erased::WORKS).skip(from).take(count) {
        let [first, second] = least(first, second, turns);
        println!("{name:30} {first:12.1} {second:12.1} {:6.2}", second / first);
    }
}
