//! What `pgwire` and `pgtrace` come to where a request of memory is refused: the first, then the second, until none is. What is listed here stands in
//! tests/programs/*.runs too, with where it is from.

use crate::memory::refused_at;
use crate::programs::listing;
use crate::programs::process::Words;
use crate::programs::wire;
use erased::kit::Global;
use erased::proved::pgtrace_session::files::Recordings;
use erased::proved::pgtrace_session::run::run as trace;
use erased::proved::pgwire_engines::run::run_own;
use std::io::{self, Read};

/// Room for all that a program writes.
fn room() -> Vec<u8> {
    Vec::with_capacity(10_000)
}

/// Runs on the words of a process, whose name is no text, where the request of memory of this number is refused. Whether one is, and whether that was
/// reported, with nothing written.
fn wire_at(ran: &wire::Ran, number: u64) -> (bool, bool) {
    let env = Words {
        name: Some(b"\xff"),
        words: ran.words,
    };
    let (mut input, mut output, mut errors) = (ran.input, room(), room());
    let run = || run_own(Global, &env, &mut input, &mut output, &mut errors);
    let (status, is_refused) = refused_at(number, run);
    let is_reported = status == 1 && !errors.is_empty();
    let wanted: (u8, &[u8], &[u8]) = match is_reported {
        true => (1, b"", b"pgwire: out of memory\n"),
        false => (ran.status, ran.output.as_bytes(), b""),
    };
    assert_eq!(
        (number, status, output.as_slice(), errors.as_slice()),
        (number, wanted.0, wanted.1, wanted.2)
    );
    (is_refused, is_reported)
}

#[test]
fn pgwire_writes_nothing_with_each_request_refused() {
    for ran in wire::READ.iter().chain(&wire::TEXTS) {
        // room that is asked for ahead may be refused and passed over
        let asks_ahead = ran.words == ["backend"];
        let mut reports = 0;
        for number in 1.. {
            let (is_refused, is_reported) = wire_at(ran, number);
            assert!(is_refused == is_reported || is_refused && asks_ahead);
            if !is_refused {
                break;
            }
            reports += u64::from(is_reported);
        }
        assert!(reports > 4, "{:?}: {reports}", ran.words);
    }
}

/// An input that gives so many bytes at a time, beside which each file has these bytes.
struct Recorded {
    input: &'static [u8],
    file: &'static [u8],
    step: usize,
}

impl Read for Recorded {
    fn read(&mut self, buf: &mut [u8]) -> io::Result<usize> {
        let step = self.step.min(buf.len());
        self.input.read(&mut buf[..step])
    }
}

impl Recordings for Recorded {
    type File = Recorded;

    fn open(&self, _name: &str) -> io::Result<Recorded> {
        Ok(Recorded {
            input: self.file,
            file: b"",
            step: self.step,
        })
    }
}

/// A log-in, and a query that is answered after a millisecond.
static QUERY: &[u8] = b"pgtrace recording 1\n\
    >\x00\x00\x00\x00\x00\x0fB@\x00\x00\x00\x10\x00\x00\x00\x10\x00\x03\x00\x00user\x00a\x00\x00\
    <\x00\x00\x00\x00\x00\x0fB@\x00\x00\x00\x0fR\x00\x00\x00\x08\x00\x00\x00\x00Z\x00\x00\x00\x05I\
    >\x00\x00\x00\x00\x00\x0fB@\x00\x00\x00\x07Q\x00\x00\x00\x06a\x00\
    <\x00\x00\x00\x00\x00\x0fF(\x00\x00\x00\x0bI\x00\x00\x00\x04Z\x00\x00\x00\x05I";

/// A statement that is parsed, bound, described and executed.
const STATEMENT: &[u8] = b"pgtrace recording 1\n\
    >\x00\x00\x00\x00\x00\x0fB@\x00\x00\x00\x10\x00\x00\x00\x10\x00\x03\x00\x00user\x00a\x00\x00\
    <\x00\x00\x00\x00\x00\x0fB@\x00\x00\x00\x0fR\x00\x00\x00\x08\x00\x00\x00\x00Z\x00\x00\x00\x05I\
    >\x00\x00\x00\x00\x00\x0fB@\x00\x00\x00-P\x00\x00\x00\x09\x00b\x00\x00\x00B\x00\x00\x00\x0c\x00\x00\x00\x00\x00\x00\x00\x00D\x00\x00\x00\x06P\x00E\x00\x00\x00\x09\x00\x00\x00\x00\x00S\x00\x00\x00\x04\
    <\x00\x00\x00\x00\x00\x0fB@\x00\x00\x00>1\x00\x00\x00\x042\x00\x00\x00\x04T\x00\x00\x00\x1a\x00\x01n\x00\x00\x00\x00\x00\x00\x00\x00\x00\x00\x17\x00\x04\xff\xff\xff\xff\x00\x00D\x00\x00\x00\x0b\x00\x01\x00\x00\x00\x015C\x00\x00\x00\x06x\x00Z\x00\x00\x00\x05I";

/// Words and an input, and what `pgtrace` writes beside what `listing` has: a row with its column's name; the recording in a file; and the table of two.
const LISTED: [(&[&str], &[u8], &str); 3] = [
    (
        &["session", "--names", "--only", "DataRow,Execute"],
        STATEMENT,
        "    0.000000 >         46       10 E Execute              portal \"\" rows 0 query \"b\"\n    0.000000 <         52       12 D DataRow              values 1 \"5\" columns 1 \"n\"\n",
    ),
    (
        &["session", "a", "--only", "Query"],
        b"",
        "    0.000000 >         16        7 Q Query                query \"a\"\n",
    ),
    (
        &["session", "a", "--summary", "b"],
        b"",
        "   count   errors       rows      total  share      least     median   greatest ms\n       2        0          0      2.000 100.0%      1.000      1.000      1.000 \"a\"\n",
    ),
];

/// Runs where the request of memory of this number is refused: then whole lines are written of the front, so many bytes as are returned, and that is reported.
fn front_at(words: &[&str], mut input: Recorded, (lines, reported): (&[u8], &str), number: u64) -> Option<usize> {
    let (mut output, mut errors) = (room(), room());
    let run = || trace(Global, false, words, &mut input, &mut output, &mut errors);
    let (status, is_refused) = refused_at(number, run);
    let said = if is_refused {
        "pgtrace: out of memory\n"
    } else {
        reported
    };
    assert_eq!(
        (number, status, errors.as_slice()),
        (number, u8::from(is_refused), said.as_bytes())
    );
    assert!(lines.starts_with(&output) && (is_refused || output.len() == lines.len()));
    assert!(output.is_empty() || output.ends_with(b"\n"));
    is_refused.then_some(output.len())
}

/// Where the bytes come one at a time, some lines are written before memory lacks.
#[test]
fn pgtrace_writes_a_front_with_each_request_refused() {
    let told = listing::LISTINGS
        .iter()
        .map(|listed| (listed.words, listed.bytes, listed.whole(), listed.reported));
    let more = LISTED
        .iter()
        .map(|(words, input, output)| (*words, *input, output.as_bytes().to_vec(), ""));
    let mut longest = 0;
    for (words, input, lines, reported) in told.chain(more) {
        for step in [10_000, 1] {
            let recorded = || Recorded {
                input,
                file: QUERY,
                step,
            };
            let fronts = (1..).map_while(|number| front_at(words, recorded(), (&lines, reported), number));
            let fronts: Vec<_> = fronts.collect();
            assert!(fronts.len() > 2, "{words:?}: {}", fronts.len());
            longest = longest.max(fronts[fronts.len() - 1]);
        }
    }
    assert!(longest > 0);
}
