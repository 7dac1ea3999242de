//! A client's connection that is read in place, which asks for no memory, and what it holds once a large message was read; and a dialogue by itself. What a
//! connection does where a request is refused stands in the rows of `test_rows`. Messages are after the formats of the PostgreSQL manual.

use crate::memory::{live, refused, within};
use erased::kit::asking::counted;
use erased::kit::Global;
use erased::proved::pgp_base::Error;
use erased::proved::postgres_protocol::dialogue::{Dialogue, Event, Kind, Request};
use erased::proved::postgres_protocol::session::{Connection, Ways};

/// How often a call is made: more often than there is room for at first.
const ROUNDS: u64 = 24;

/// The answers of a server that asks for no password.
const LOGIN: &[u8] = b"R\0\0\0\x08\0\0\0\0K\0\0\0\x0c\0\0\0\x01\0\0\0\x02Z\0\0\0\x05I";

/// What they are to the startup packet, whose name is 0.
const LOGGED: [Event; 3] = [Event::Part(0), Event::Part(0), Event::Last(0)];

/// These are the next events, of messages that are read in place and have to be there then.
fn are_next(connection: &mut Connection<'_>, events: &[Event]) {
    for event in events {
        assert!(
            matches!(connection.advance(), Ok(Some(next)) if next == *event),
            "{event:?}"
        );
        assert!(connection.message().is_some());
    }
}

/// A connection that logs in without a password, with nothing left to send, to which the answers came.
fn trusting(limit: u32) -> Connection<'static> {
    let ways = Ways {
        scram: None,
        md5: None,
        cleartext: None,
        none: true,
        least_rounds: 0,
        encrypted: false,
    };
    let mut connection = Connection::new(Global, ways, limit);
    assert!(matches!(connection.start(&[("user", "u")]), Ok(0)));
    connection.sent(connection.to_send().len());
    assert!(connection.feed(LOGIN).is_ok());
    connection
}

/// A notice without fields.
const NOTICE: &[u8] = b"N\0\0\0\x05\0";

/// Messages that are read in place ask for no memory: a log-in without a password, and notices.
#[test]
fn messages_in_place_with_each_allocation_refused() {
    let asked = refused(|| {
        let mut connection = trusting(1_000);
        for _ in 0..ROUNDS {
            assert!(connection.feed(NOTICE).is_ok());
        }
        counted(|| {
            are_next(&mut connection, &LOGGED);
            are_next(&mut connection, &[Event::Aside; ROUNDS as usize]);
            assert!(matches!(connection.advance(), Ok(None)));
        });
        Ok(())
    });
    assert_eq!(asked, 0);
}

/// The bytes for a large message.
const LARGE: usize = 16 << 20;

/// How many of them may be used behind the message: a sixteenth.
const LITTLE: isize = 1 << 20;

/// A column, and the front of a row whose value has two million bytes.
const FRONT: &[u8] =
    b"T\0\0\0\x1a\0\x01a\0\0\0\0\0\0\0\0\0\0\x19\xff\xff\xff\xff\xff\xff\0\0D\0\x1e\x84\x8a\0\x01\0\x1e\x84\x80";

/// More than two million bytes are used while the row is there, and little once the next bytes used up what was left of its room, which is all of the room that
/// the crate `bytes` shows.
#[test]
fn the_room_of_a_large_message_is_given_back() {
    within(LARGE, || {
        let mut connection = trusting(4_000_000);
        are_next(&mut connection, &LOGGED);
        assert!(connection.query("SELECT 1").is_ok());
        assert!(connection.feed(FRONT).is_ok());
        for _ in 0..250 {
            assert!(connection.feed(&[b'v'; 8000]).is_ok());
        }
        are_next(&mut connection, &[Event::Part(1), Event::Part(1)]);
        assert!(live() > 2_000_000, "{}", live());
        assert!(connection.feed(b"C\0\0\0\x0dSELECT 1\0Z\0\0\0\x05I").is_ok());
        are_next(&mut connection, &[Event::Part(1), Event::Last(1)]);
        for _ in 0..20_000 {
            assert!(connection.feed(NOTICE).is_ok());
            are_next(&mut connection, &[Event::Aside]);
        }
        assert!(live() < LITTLE, "{}", live());
    });
}

/// A request for which memory is refused is not pending, and those before it are. Asked once more, each is awaited once, in the order in which they were asked.
#[test]
fn dialogues_with_each_allocation_refused() {
    let asked = refused(|| {
        let mut dialogue = Dialogue::new(Global);
        let mut ended = Ok(());
        for name in 0..ROUNDS {
            if counted(|| dialogue.ask(Request::Query, name)).is_err() {
                assert_eq!(ended, Ok(()));
                assert_eq!(dialogue.is_idle(), name == 0);
                assert!(dialogue.ask(Request::Query, name).is_ok());
                ended = Err(Error::OutOfMemory);
            }
        }
        for name in 0..ROUNDS {
            assert_eq!(dialogue.take(Kind::EmptyQueryResponse), Ok(Event::Part(name)));
            assert_eq!(dialogue.take(Kind::ReadyForQuery), Ok(Event::Last(name)));
        }
        assert!(dialogue.is_idle());
        ended
    });
    assert!(asked > 1, "{asked}");
}
