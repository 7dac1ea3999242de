//! One stream, cut at every place: it is read the same.

use super::data::Frames;
use super::sum::Sum;
use super::tally::Tally;
use super::ways::{read, Way};

/// Each cutting into at most three pieces, and one into single bytes.
fn cuttings(way: Way, bytes: &[u8]) -> Tally {
    let mut tally = Tally::default();
    for cut in 0..=bytes.len() {
        let (front, back) = bytes.split_at(cut);
        for more in 0..=back.len() {
            let (middle, last) = back.split_at(more);
            tally.add(read(way, &[front, middle, last]));
        }
    }
    tally.add(read(way, &bytes.chunks(1).collect::<Vec<_>>()));
    tally
}

/// The sum of what each front of the stream comes to, in place or this way in two halves.
fn fronts(way: Way, bytes: &[u8]) -> u64 {
    let mut sum = Sum::new();
    for len in 0..=bytes.len() {
        let front = &bytes[..len];
        let (left, right) = front.split_at(len / 2);
        let reading = if way == Way::InPlace {
            read(way, &[front])
        } else {
            read(way, &[left, right])
        };
        sum.plain(&reading.value().to_be_bytes());
    }
    sum.value()
}

/// Reads the stream of this text in every cutting, each way.
pub(crate) fn run(text: &str, out: &mut String) {
    let bytes = Frames::parse(text).bytes;
    for way in Way::ALL {
        let cuttings = match way {
            Way::InPlace => String::new(),
            _ => format!("{}; ", cuttings(way, &bytes)),
        };
        *out += &format!("{}: {cuttings}fronts {:016x}\n", way.name(), fronts(way, &bytes));
    }
}
