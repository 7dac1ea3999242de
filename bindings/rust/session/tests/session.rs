//! What this package adds, over the same messages and the same exchange of psql as the other tests.
use bytes::BytesMut;
use postgres_protocol::authentication::sasl;
use postgres_session::scram::{ChannelBinding, ChannelOffer, NoPrep, ScramServer, ScramSha256, StoredVerifier};
use postgres_session::dialogue::{Asked, Dialogue, Event, Kind, Queue, Refusal, Request, Slots};
use postgres_session::message::client::{ClientMessage, ClientMessages, PasswordKind};
use postgres_session::message::in_place::{Message, Messages};
use postgres_protocol::message::frontend;
use postgres_session::message::reply;
use postgres_session::serving::Serving;
use postgres_session::{ClientStream, Connection, StreamParser, Versions, VersionsError, Ways};
use std::collections::VecDeque;
use std::panic::{catch_unwind, UnwindSafe};
use postgres_session::{values, Error, Global};

#[test]
fn messages_in_place() {
    let mut messages = Messages::new(b"C\0\0\0\x0dSELECT 1\0Z\0\0\0\x06IIZ\0\0\0\x05");
    assert!(matches!(messages.next(), Ok(Some(Message::CommandComplete(body))) if body.tag() == Ok("SELECT 1")));
    assert!(matches!(messages.next(), Err(Error::NotDrained)));
    assert!(matches!(messages.next(), Ok(None)));
    assert_eq!(messages.rest(), b"Z\0\0\0\x05");
}

#[test]
fn a_clients_messages_read_back() {
    let mut buf = BytesMut::new();
    frontend::startup_message([("user", "alice")], &mut buf).unwrap();
    frontend::query("SELECT 1", &mut buf).unwrap();
    let mut messages = ClientMessages::new(&buf);
    let kind = PasswordKind::Password;
    assert!(matches!(messages.next(kind), Ok(Some(ClientMessage::Startup { .. }))));
    assert!(matches!(messages.next(kind), Ok(Some(ClientMessage::Query(b"SELECT 1")))));
    assert!(matches!(messages.next(kind), Ok(None)));
}

// As libpq of PostgreSQL 18 has `min_protocol_version` and `max_protocol_version`.
#[test]
fn versions_by_their_names() {
    let named = Versions::named;
    assert_eq!(named(None, None), Ok(Versions::Only3_0));
    assert_eq!(named(Some("3.0"), Some("latest")), Ok(Versions::UpTo3_2));
    assert_eq!(named(None, Some("3.2")), Ok(Versions::UpTo3_2));
    assert_eq!(named(Some("3.2"), None), Ok(Versions::Only3_2));
    assert_eq!(named(Some("latest"), Some("3.2")), Ok(Versions::Only3_2));
    assert_eq!(named(Some("3.2"), Some("3.0")), Err(VersionsError::Reversed));
    for none in ["3.1", "3", "", "Latest"] {
        assert_eq!(named(None, Some(none)), Err(VersionsError::Unknown(none.to_owned())));
    }
    let ways = Ways { scram: None, md5: None, cleartext: None, none: true, least_rounds: 1, encrypted: false };
    let mut connection = Connection::new(Global, ways, 1 << 20);
    connection.start_version(Versions::UpTo3_2, &[("user", "al")]).unwrap();
    assert_eq!(connection.to_send(), b"\0\0\0\x11\0\x03\0\x02user\0al\0\0");
}

#[test]
fn a_servers_messages_written() {
    let mut buf = BytesMut::new();
    reply::command_complete(b"SELECT 1", &mut buf).unwrap();
    assert_eq!(&buf[..], b"C\0\0\0\x0dSELECT 1\0");
}

#[test]
fn a_server_accepts_the_client_and_the_client_the_server() {
    let verifier = StoredVerifier::of_password(Global, b"secret", vec![7; 16], 4096, &NoPrep).ok().unwrap();
    let mut server = ScramServer::with_nonce(verifier, ChannelOffer::NotOffered, "fyko+d2lbbFgONRv9qkxdaw".to_string());
    let mut client = sasl::ScramSha256::new(b"secret", sasl::ChannelBinding::unsupported());
    let first = server.first(client.message()).ok().unwrap();
    client.update(&first).unwrap();
    let last = server.finish(client.message()).ok().unwrap();
    client.finish(&last).unwrap();
}

// The bytes that PostgreSQL 15.20 sent.
#[test]
fn a_numeric() {
    let numeric = values::numeric_from_sql(b"\0\x03\0\x01\0\0\0\x01\x04\xd2\x16\x2e\x23\x28").unwrap();
    let mut text = BytesMut::new();
    values::numeric_to_text(&numeric, &mut text).unwrap();
    assert_eq!(&text[..], b"12345678.9");
}

// The bytes that PostgreSQL 15's `interval_send` and `jsonb_send` give by the manual: microseconds, days, months; a version, and the text.
#[test]
fn an_interval_and_json() {
    let interval = values::Interval { microseconds: 1_000_000, days: 2, months: 13 };
    let mut buf = BytesMut::new();
    values::interval_to_sql(interval, &mut buf).unwrap();
    assert_eq!(&buf[..], b"\0\0\0\0\0\x0f\x42\x40\0\0\0\x02\0\0\0\x0d");
    assert_eq!(values::interval_from_sql(&buf), Ok(interval));
    assert_eq!(values::jsonb_from_sql(b"\x01[1]"), Ok("[1]"));
}

/// An unencrypted connection that was let in without a password, and has sent nothing since.
fn admitted() -> Connection<'static> {
    let ways = Ways { scram: None, md5: None, cleartext: None, none: true, least_rounds: 1, encrypted: false };
    let mut connection = Connection::new(Global, ways, 1 << 20);
    let startup = connection.start(&[("user", "alice")]).unwrap();
    assert_eq!(connection.to_send(), b"\0\0\0\x14\0\x03\0\0user\0alice\0\0");
    connection.sent(20);
    assert!(connection.send(&ClientMessage::Sync).is_err());
    connection.feed(b"R\0\0\0\x08\0\0\0\0Z\0\0\0\x05I").unwrap();
    assert!(matches!(connection.next(), Ok(Some((Event::Part(name), _))) if name == startup));
    assert!(matches!(connection.next(), Ok(Some((Event::Last(name), _))) if name == startup));
    assert!(connection.is_logged_in() && connection.is_idle());
    connection
}

#[test]
fn a_connection_says_what_answers_what() {
    let mut connection = admitted();
    let first = connection.send(&ClientMessage::Query(b"SELECT 1")).unwrap();
    let second = connection.send(&ClientMessage::Query(b"")).unwrap();
    assert_eq!(connection.to_send(), b"Q\0\0\0\x0dSELECT 1\0Q\0\0\0\x05\0");
    connection.feed(b"C\0\0\0\x0dSELECT 1\0Z\0\0\0\x05II\0\0\0\x04Z\0\0").unwrap();
    let mut events = Vec::new();
    while let Some((event, _)) = connection.next().unwrap() {
        events.push(event);
    }
    assert_eq!(events, [Event::Part(first), Event::Last(first), Event::Part(second)]);
    assert!(!connection.is_idle());
}

#[test]
fn a_dialogue_by_itself() {
    let mut dialogue = Dialogue::new(Global);
    dialogue.ask(Request::Query, 7).ok().unwrap();
    assert_eq!(dialogue.take(Kind::NoticeResponse), Ok(Event::Aside));
    assert_eq!(dialogue.take(Kind::CommandComplete), Ok(Event::Part(7)));
    assert_eq!(dialogue.take(Kind::ReadyForQuery), Ok(Event::Last(7)));
    assert_eq!(dialogue.take(Kind::CommandComplete), Err(Refusal::Unexpected));
}

#[test]
fn streams_in_pieces() {
    let mut parser = StreamParser::new(Global);
    for piece in b"1\0\0\0\x04?\0\0\0\x04Z\0\0\0\x05I".chunks(2) {
        parser.feed(piece).unwrap();
    }
    assert_eq!((parser.results().len(), parser.rest().len(), parser.stopped()), (3, 0, false));
    assert!(matches!(parser.take()[..], [Ok(Message::ParseComplete), Err(Error::UnknownTag(b'?')), Ok(Message::ReadyForQuery(_))]));
    let mut stream = ClientStream::new(Global);
    stream.startup_message(&[("user", "alice")]).unwrap();
    stream.terminate().unwrap();
    assert_eq!(stream.bytes(), b"\0\0\0\x14\0\x03\0\0user\0alice\0\0X\0\0\0\x04");
}

/// What a call says whose conditions don't hold.
fn said<T>(call: impl FnOnce() -> T + UnwindSafe) -> &'static str {
    catch_unwind(call).err().unwrap().downcast_ref::<&str>().unwrap()
}

#[test]
fn conditions_are_assertions() {
    assert_eq!(said(|| ClientStream::new(Global).sync()), "sync: no startup packet was written");
    assert_eq!(said(|| ClientStream::new(Global).startup_message(&[("", "x")])), "startup_message: a parameter without a name");
    assert_eq!(
        said(|| {
            let mut stream = ClientStream::new(Global);
            stream.startup_message(&[("user", "alice")]).unwrap();
            stream.ssl_request()
        }),
        "ssl_request: the startup packet was written"
    );
    assert_eq!(said(|| ClientStream::over(BytesMut::from(&b"x"[..])).is_open()), "over: a buffer that holds bytes");
    assert_eq!(said(|| admitted().sent(1)), "sent: more than was to be sent");
    assert_eq!(said(|| Serving::new().trust(&mut BytesMut::new())), "trust: the startup packet is not what came last");
    assert_eq!(said(|| Slots::resume(&mut [], 1, 0).awaits_none()), "resume: an end before the start");
    assert_eq!(said(|| Slots::resume(&mut [], 0, 1).awaits_none()), "resume: an end behind the room");
    let waiting = VecDeque::from([Asked { request: Request::Query, name: 1 }]);
    assert_eq!(said(|| Dialogue::over(waiting).is_idle()), "over: a queue that holds requests");
    let prep = NoPrep;
    let nonce = "a,b".to_string();
    assert!(said(|| ScramSha256::with_nonce(Global, b"", ChannelBinding::unsupported(), nonce, &prep).is_ok()).starts_with("with_nonce: a nonce"));
}

// An error says what it is and what it comes from.
#[test]
fn errors_have_words_and_sources() {
    let mut connection = admitted();
    let e = connection.feed(b"?\0\0\0\x04").and_then(|()| connection.next().map(drop)).unwrap_err();
    assert_eq!(e.to_string(), "the server's message is malformed");
    assert_eq!(std::error::Error::source(&e).unwrap().downcast_ref(), Some(&Error::UnknownTag(b'?')));
}
