//! A whole session of a server, with each byte replaced.

use super::data::Frames;
use super::reading::Reading;
use super::sum::Sum;
use super::tally::Tally;
use super::ways::{read, Way};
use std::ops::Range;

/// What the changes of one frame came to.
struct Changes<'a> {
    /// The number of the frame, and what the session is read as where nothing is changed.
    at: usize,
    before: &'a Reading,
    /// What the changed frame was read as, where all others were read as before.
    alone: Tally,
    /// What was read from the changed frame on, where others changed too.
    more: Tally,
    /// How often the frames in front weren't read as before, or the ways of reading differed. It has to be 0.
    wrong: u64,
    streams: u64,
    sum: Sum,
}

impl<'a> Changes<'a> {
    fn new(at: usize, before: &'a Reading) -> Changes<'a> {
        let (alone, more) = (Tally::default(), Tally::default());
        Changes {
            at,
            before,
            alone,
            more,
            wrong: 0,
            streams: 0,
            sum: Sum::new(),
        }
    }

    /// Whether the frames behind the changed one are read as before, and nothing is left.
    fn is_back_same(&self, received: &Reading) -> bool {
        let back = |of: &'a Reading| of.entries.get(self.at + 1..);
        let behind = received.entries.get(self.at + 1..);
        !received.is_stopped && received.rest == 0 && behind.is_some() && behind == back(self.before)
    }

    /// Adds what came in the place of the frame and after it.
    fn add(&mut self, received: &Reading) {
        self.streams += 1;
        self.sum.plain(&received.value().to_be_bytes());
        let front = received.entries.get(..self.at);
        if front.is_none() || front != self.before.entries.get(..self.at) {
            self.wrong += 1;
        }
        if self.is_back_same(received) {
            received
                .entries
                .get(self.at)
                .into_iter()
                .for_each(|entry| self.alone.add(entry));
        } else {
            received
                .entries
                .iter()
                .skip(self.at)
                .for_each(|entry| self.more.add(entry));
            self.more.add(if received.is_stopped { "stopped" } else { "waits" });
        }
    }

    /// Replaces the byte at this place by each value in turn, and reads the bytes in place and as a stream that is cut before it.
    fn replace(&mut self, place: usize, bytes: &mut [u8]) {
        let old = bytes[place];
        for new in [0, 1, 127, 128, 255, old.wrapping_add(1)] {
            bytes[place] = new;
            let (front, back) = bytes.split_at(place);
            let received = read(Way::Whole, &[front, back]);
            self.add(&received);
            if read(Way::InPlace, &[bytes]).value() != received.value() {
                self.wrong += 1;
            }
        }
        bytes[place] = old;
    }
}

/// The frame of this number, which stands at these places, with each byte replaced.
fn show_frame(at: usize, places: Range<usize>, before: &Reading, bytes: &mut [u8], out: &mut String) {
    let mut changes = Changes::new(at, before);
    for place in places {
        changes.replace(place, bytes);
    }
    let Changes {
        alone,
        more,
        wrong,
        streams,
        sum,
        ..
    } = changes;
    *out += &format!(
        "{} {}: {streams} streams, {wrong} wrong, {:016x}\n",
        at + 1,
        before.entries[at],
        sum.value()
    );
    *out += &format!("  alone: {alone}\n  more: {more}\n");
}

/// Reads the session of this text with each byte replaced.
pub(crate) fn run(text: &str, out: &mut String) {
    let Frames { mut bytes, ends } = Frames::parse(text);
    let before = read(Way::InPlace, &[&bytes]);
    let mut start = 0;
    for (at, end) in ends.into_iter().enumerate() {
        show_frame(at, start..end, &before, &mut bytes, out);
        start = end;
    }
}
