//! What no clause says of listings: that they come wherever the bytes are cut, and a front of them whatever fails. What is listed of these streams and
//! recordings stands in tests/programs/pgtrace.runs too, with where it is from.

use crate::programs::failing::{Alone, FailingReader, FailingWriter, PieceReader};
use erased::kit::calls::Fail;
use erased::kit::Global;
use erased::proved::pgtrace_session::run::run;
use erased::proved::pgtrace_lines::pipe::Pipe;
use std::cell::Cell;
use std::io::{Read, Write};

/// Bytes, and what is listed of them.
pub(crate) struct Listing {
    pub(crate) words: &'static [&'static str],
    pub(crate) bytes: &'static [u8],
    lines: &'static [&'static str],
    /// The place behind which each is written.
    places: &'static [usize],
    last: &'static str,
    pub(crate) reported: &'static str,
    /// The cuts that are there in each cutting, and the place of the first of nine that may be.
    cuts: u64,
    place: u32,
}

pub(crate) static LISTINGS: [Listing; 5] = [
    // A refusal to encrypt, the end of a log-in, a setting, a state and a key, and the front of another state.
    Listing {
        words: &["server"],
        bytes: b"NR\x00\x00\x00\x08\x00\x00\x00\x00S\x00\x00\x00\x08n\x00\n\x00Z\x00\x00\x00\x05IK\x00\x00\x00\x0c\x00\x00\x00\x01abcdZ\x00",
        lines: &[
            "         0        1 N SSLResponse or GSSENCResponse\n",
            "         1        9 R AuthenticationOk\n",
            "        10        9 S ParameterStatus      name \"n\" value \"\\x0a\"\n",
            "        19        6 Z ReadyForQuery        idle\n",
            "        25       13 K BackendKeyData       process 1 key (4 bytes)\n",
        ],
        places: &[1, 10, 19, 25, 38],
        last: "rest 2\n",
        reported: "",
        cuts: 0,
        place: 0,
    },
    // The question for TLS, a startup packet, a password, a query, and the front of a further message.
    Listing {
        words: &["client", "--password-kind", "password"],
        bytes: b"\x00\x00\x00\x08\x04\xd2\x16/\x00\x00\x00\x10\x00\x03\x00\x00user\x00a\x00\x00p\x00\x00\x00\x07pw\x00Q\x00\x00\x00\x06x\x00X\x00",
        lines: &[
            "         0        8 - SSLRequest\n",
            "         8       16 - StartupMessage       version 196608 parameters \"user\" \"a\"\n",
            "        24        8 p PasswordMessage      password (2 bytes)\n",
            "        32        7 Q Query                query \"x\"\n",
        ],
        places: &[8, 24, 32, 39],
        last: "rest 2\n",
        reported: "",
        cuts: 0,
        place: 4,
    },
    // A replication stream begins, and has a keepalive.
    Listing {
        words: &["server", "--resume"],
        bytes: b"W\x00\x00\x00\x07\x00\x00\x00d\x00\x00\x00\x16k\x00\x00\x00\x00\x00\x00\x00\x01\x00\x00\x00\x00\x00\x00\x00\x02\x00",
        lines: &[
            "         0        8 W CopyBothResponse     format 0 columns 0\n",
            "         8       23 d CopyData             PrimaryKeepalive end 0/1 clock 2 reply 0\n",
        ],
        places: &[8, 31],
        last: "rest 0\n",
        reported: "",
        cuts: 0,
        place: 5,
    },
    // A client asks for TLS, which the server refuses; logs in with a password, by a clock that was set back; and the first byte of a message comes.
    Listing {
        words: &["session"],
        bytes: b"pgtrace recording 1\n\
    >\x00\x00\x00\x00\x00\x0fB@\x00\x00\x00\x08\x00\x00\x00\x08\x04\xd2\x16/\
    <\x00\x00\x00\x00\x00\x0fCx\x00\x00\x00\x01N\
    >\x00\x00\x00\x00\x00\x10\xc8\xe0\x00\x00\x00\x10\x00\x00\x00\x10\x00\x03\x00\x00user\x00a\x00\x00\
    <\x00\x00\x00\x00\x00\x12O\x80\x00\x00\x00\x09R\x00\x00\x00\x08\x00\x00\x00\x03\
    >\x00\x00\x00\x00\x00\x0fB?\x00\x00\x00\x08p\x00\x00\x00\x07ab\x00\
    <\x00\x00\x00\x00\x00\x13\xd6!\x00\x00\x00\x0aR\x00\x00\x00\x08\x00\x00\x00\x00Z",
        lines: &[
            "    0.000000 >          0        8 - SSLRequest\n",
            "    0.000312 <          0        1 N SSLResponse\n",
            "    0.100000 >          8       16 - StartupMessage       version 196608 parameters \"user\" \"a\"\n",
            "    0.200000 <          1        9 R AuthenticationCleartextPassword\n",
            "   -0.000001 >         24        8 p PasswordMessage      password (2 bytes)\n",
            "    0.300001 <         10        9 R AuthenticationOk\n",
        ],
        places: &[41, 55, 84, 106, 127, 150],
        last: "             < rest 1\n",
        reported: "",
        cuts: 0,
        place: 20,
    },
    // A chunk, and the first two bytes of another.
    Listing {
        words: &["session"],
        bytes: b"pgtrace recording 1\n<\x00\x00\x00\x00\x00\x00\x00\x01\x00\x00\x00\x01N>\x00",
        lines: &["    0.000000 <          0        1 N SSLResponse or GSSENCResponse\n"],
        places: &[34],
        last: "",
        reported: "pgtrace: the recording ends inside a chunk\n",
        cuts: 1 << 19,
        place: 26,
    },
];

impl Listing {
    /// The lines of what is whole in so many bytes.
    fn front(&self, end: usize) -> Vec<u8> {
        let whole = self.places.iter().zip(self.lines).filter(|(place, _)| **place <= end);
        whole.flat_map(|(_, line)| line.bytes()).collect()
    }

    /// All lines.
    pub(crate) fn whole(&self) -> Vec<u8> {
        [self.front(self.bytes.len()).as_slice(), self.last.as_bytes()].concat()
    }

    /// The program ends so on this input, and says this; how that ended in memory is for who calls.
    fn ends<R: Read, W: Write>(&self, input: &mut R, output: &mut W, (status, reported): (u8, &str)) {
        let mut errors = Vec::new();
        let ended = run(Global, false, self.words, &mut Alone(input), output, &mut errors);
        assert_eq!(ended, status);
        assert!(errors.as_slice() == reported.as_bytes());
    }
}

#[test]
fn bytes_are_listed_however_they_are_cut() -> Result<(), Fail> {
    for listing in &LISTINGS {
        let lines = listing.whole();
        for cuts in 0..512u64 {
            let mut input = PieceReader {
                rest: listing.bytes,
                cuts: listing.cuts | cuts.wrapping_shl(listing.place),
                interrupted: false,
            };
            let mut output = Vec::new();
            let ended = (0, listing.reported);
            listing.ends(&mut input, &mut output, ended);
            assert!(output.as_slice() == lines.as_slice());
        }
    }
    Ok(())
}

#[test]
fn what_came_whole_is_listed_where_a_read_fails() -> Result<(), Fail> {
    for listing in &LISTINGS {
        for end in 0..=listing.bytes.len() {
            let (rest, _) = listing.bytes.split_at(end);
            let lines = listing.front(end);
            for step in [1usize, 7] {
                let mut input = FailingReader { rest, step };
                let mut output = Vec::new();
                let ended = (1, "pgtrace: read failed\n");
                listing.ends(&mut input, &mut output, ended);
                assert!(output.as_slice() == lines.as_slice());
            }
        }
    }
    Ok(())
}

/// A writer that takes so many bytes.
fn writer(left: usize) -> FailingWriter {
    FailingWriter {
        left,
        taken: Vec::new(),
    }
}

#[test]
fn a_failing_writer_took_a_front() -> Result<(), Fail> {
    for listing in &LISTINGS {
        let lines = listing.whole();
        for left in 0..=lines.len() {
            let (mut input, mut output) = (listing.bytes, writer(left));
            let ended = (1, "pgtrace: write failed\n");
            listing.ends(&mut input, &mut output, ended);
            assert!(lines.starts_with(output.taken.as_slice()));
            assert_eq!(output.taken.len(), left);
        }
    }
    Ok(())
}

/// Lists into a pipe that is closed behind so many bytes: a front was written, nothing is said, and the status is 0.
fn ends_quietly(listing: &Listing, left: usize, lines: &[u8]) {
    let pipe = Pipe {
        is_closed: Cell::new(false),
    };
    let (mut input, mut output) = (listing.bytes, writer(left));
    let mut errors = Vec::new();
    let status = run(
        Global,
        false,
        listing.words,
        &mut Alone(pipe.source(&mut input)),
        &mut pipe.sink(&mut output),
        &mut pipe.sink(&mut errors),
    );
    assert_eq!(status, 0);
    assert!(lines.starts_with(output.taken.as_slice()));
    assert_eq!(output.taken.len(), left);
    assert!(errors.is_empty());
}

#[test]
fn a_closed_pipe_ends_quietly() -> Result<(), Fail> {
    for listing in &LISTINGS {
        let lines = listing.whole();
        for left in 0..lines.len() {
            ends_quietly(listing, left, lines.as_slice());
        }
    }
    Ok(())
}
