//! A client's connection and a server's core play pipelined sessions with each other: they log in by SCRAM-SHA-256, and each row has
//! to belong to the request whose number it carries, whatever the server's bytes are cut into.

use crate::session::dice::Dice;
use crate::session::log_in::{by_password, served};
use bytes::{Bytes, BytesMut};
use erased::kit::AsSlice as _;
use erased::proved::pgp_client::Event;
use erased::proved::pgp_frontend_read::{ClientMessage, ClientMessages};
use erased::proved::pgp_message::{DataRowBody, Message};
use erased::proved::pgp_message_write::{self as reply, Column, ErrorField};
use erased::proved::pgp_session::serving::{Serving, ServingEvent, ServingPhase};
use erased::proved::pgp_session::Connection;

/// The column of each row.
const COLUMN: Column<'static> = Column {
    name: b"n",
    table_oid: 0,
    column_id: 0,
    type_oid: 25,
    type_size: -1,
    type_modifier: -1,
    format: 0,
};

/// What the server's end has done: whether it skips what comes before the next Sync.
struct Server {
    serving: Serving,
    read: usize,
    opened: bool,
    skipping: bool,
}

/// Whether a request of this text has the server fail.
fn fails(text: &[u8]) -> bool {
    text.first() == Some(&b'x')
}

/// Appends the answer to a request that names itself: rows with its text, or an error.
fn answers(message: &ClientMessage<'_>, skipping: &mut bool, out: &mut BytesMut) -> bool {
    match message {
        ClientMessage::Sync => {
            *skipping = false;
            reply::ready_for_query(b'I', out).is_ok()
        }
        _ if *skipping => true,
        ClientMessage::Query(text) => answers_query(text, out),
        ClientMessage::Parse { query, .. } => {
            *skipping = fails(query);
            if fails(query) {
                puts_error(out)
            } else {
                reply::parse_complete(out).is_ok()
            }
        }
        ClientMessage::Describe { .. } => reply::parameter_description(&[], out).is_ok() && reply::no_data(out).is_ok(),
        ClientMessage::Execute { portal, .. } => {
            *skipping = fails(portal);
            puts_rows(portal, out)
        }
        _ => true,
    }
}

fn answers_query(text: &[u8], out: &mut BytesMut) -> bool {
    (fails(text) || reply::row_description(&[COLUMN], out).is_ok())
        && puts_rows(text, out)
        && reply::ready_for_query(b'I', out).is_ok()
}

/// A row of this text, twice, with a notice between them, or an error.
fn puts_rows(text: &[u8], out: &mut BytesMut) -> bool {
    if fails(text) {
        return puts_error(out);
    }
    reply::data_row(&[Some(text)], out).is_ok()
        && reply::notice_response(&[], out).is_ok()
        && reply::data_row(&[Some(text)], out).is_ok()
        && reply::command_complete(b"SELECT 2", out).is_ok()
}

fn puts_error(out: &mut BytesMut) -> bool {
    let field = ErrorField {
        code: b'C',
        value: b"42601",
    };
    reply::error_response(&[field], out).is_ok()
}

impl Server {
    fn new() -> Server {
        Server {
            serving: Serving::new(),
            read: 0,
            opened: false,
            skipping: false,
        }
    }

    /// Takes all messages that the client has written, and appends the answers.
    fn takes(&mut self, sent: &[u8], out: &mut BytesMut) -> bool {
        let (_, rest) = sent.split_at(self.read.min(sent.len()));
        let mut messages = ClientMessages::resume(rest, self.opened);
        let mut taken = true;
        for _ in 0..1_000 {
            match messages.next(self.serving.kind()) {
                Ok(Some(message)) => {
                    taken &= self.steps(&message, out);
                    drop(message);
                }
                _ => break,
            }
        }
        self.opened = messages.is_open();
        self.read = sent.len().saturating_sub(messages.rest().len());
        taken
    }

    /// Takes one of them.
    fn steps(&mut self, message: &ClientMessage<'_>, out: &mut BytesMut) -> bool {
        match self.serving.step(message, out) {
            Ok(ServingEvent::LoggedIn) => reply::ready_for_query(b'I', out).is_ok(),
            Ok(ServingEvent::Requested) => answers(message, &mut self.skipping, out),
            Ok(_) if self.serving.phase == ServingPhase::Named => match served() {
                Some(server) => self.serving.ask_scram(server, out).is_ok(),
                None => false,
            },
            Ok(_) => true,
            Err(_) => false,
        }
    }
}

/// The text by which a request names itself; `x` before it has the server fail.
fn text_of(name: u64, fails: bool) -> String {
    let sign = if fails { "x" } else { "" };
    format!("{sign}{name}")
}

/// Sends a Query, or a series of an extended query that a Sync may end, the first of which has this name. Returns the last one's name, if all were
/// sent.
fn ask(connection: &mut Connection<'_>, dice: &mut Dice, name: u64) -> Option<u64> {
    let text = text_of(name, dice.below(5) == 0);
    let portal = text_of(name + 2, dice.below(5) == 0);
    send(connection, dice, &text, &portal)
}

/// Sends them with these texts.
fn send(connection: &mut Connection<'_>, dice: &mut Dice, text: &str, portal: &str) -> Option<u64> {
    if dice.below(2) == 0 {
        return connection.query(text).ok();
    }
    let last = series(connection, text, portal);
    if dice.below(3) == 0 {
        return last;
    }
    connection.sync().ok()
}

/// Sends a Parse, a Describe, and an Execute. Returns the last one's name.
fn series(connection: &mut Connection<'_>, text: &str, portal: &str) -> Option<u64> {
    if connection.parse("", text, None::<u32>).is_err() || connection.describe(b'S', "").is_err() {
        return None;
    }
    connection.execute(portal, 0).ok()
}

/// What came of a session: its rows, those that carry another number than their request's, and errors.
struct Tally {
    rows: u64,
    astray: u64,
    failed: u64,
}

impl Tally {
    fn new() -> Tally {
        Tally {
            rows: 0,
            astray: 0,
            failed: 0,
        }
    }

    /// Counts a message.
    fn count(&mut self, event: Event, message: &Message<Bytes>) {
        match (event, message) {
            (Event::Part(name), Message::DataRow(row)) => {
                self.rows += 1;
                let text = text_of(name, false);
                if !has_text(row, text.as_bytes()) {
                    self.astray += 1;
                }
            }
            (_, Message::ErrorResponse(_)) => self.failed = self.failed + 1,
            _ => {}
        }
    }
}

/// Whether this is the first value of a row.
fn has_text(row: &DataRowBody<Bytes>, text: &[u8]) -> bool {
    match row.column(0) {
        Ok(Some(Some(value))) => value == text,
        _ => false,
    }
}

/// Takes all messages that are there; false where one can't be taken.
fn hears(connection: &mut Connection<'_>, tally: &mut Tally) -> bool {
    for _ in 0..100_000 {
        match connection.next() {
            Ok(Some((event, message))) => {
                tally.count(event, &message);
                drop(message);
                if event == Event::Ended {
                    return true;
                }
            }
            Ok(None) => return true,
            Err(_) => return false,
        }
    }
    false
}

/// The client takes these bytes, in pieces.
fn delivered(connection: &mut Connection<'_>, bytes: &[u8], dice: &mut Dice, tally: &mut Tally) -> bool {
    let mut rest = bytes;
    for _ in 0..100_000 {
        if rest.is_empty() {
            return true;
        }
        let cut = dice.below(40) + 1;
        let (piece, more) = rest.split_at(rest.len().min(cut as usize));
        if connection.feed(piece).is_err() || !hears(connection, tally) {
            return false;
        }
        rest = more;
    }
    false
}

/// The server takes what was sent, and its answers go to the client.
fn meet(connection: &mut Connection<'_>, server: &mut Server, dice: &mut Dice, tally: &mut Tally) -> bool {
    let mut out = BytesMut::new();
    let served = server.takes(connection.to_send(), &mut out);
    delivered(connection, out.as_slice(), dice, tally) & served
}

/// The log-in.
fn greet(connection: &mut Connection<'_>, server: &mut Server, dice: &mut Dice, tally: &mut Tally) -> bool {
    let mut met = connection.start(&[("user", "user")]).is_ok();
    for _ in 0..3 {
        met &= meet(connection, server, dice, tally);
    }
    met
}

/// A session of some requests, of which several are sent before the server takes them; whether all could be sent and taken, and nothing is awaited then.
fn is_played(connection: &mut Connection<'_>, server: &mut Server, seed: u64, tally: &mut Tally) -> bool {
    let mut dice = Dice(seed);
    let mut met = greet(connection, server, &mut dice, tally);
    let mut name = 1_u64;
    for _ in 0..dice.below(12) {
        match ask(connection, &mut dice, name) {
            Some(last) => name = last + 1,
            None => met = false,
        }
        if dice.below(3) == 0 {
            met &= meet(connection, server, &mut dice, tally);
        }
    }
    met &= connection.sync().is_ok();
    met &= meet(connection, server, &mut dice, tally);
    met && connection.is_idle()
}

/// Whether the client's log-in fails, and the server is done with it.
fn is_denied(connection: &mut Connection<'_>, server: &mut Server, tally: &mut Tally) -> bool {
    greet(connection, server, &mut Dice(1), tally)
        && !connection.is_logged_in()
        && tally.failed == 1
        && server.serving.phase == ServingPhase::Over
}

/// Whether a client with this password plays the session of a seed, or is denied where there is none.
fn has_met(password: &[u8], seed: Option<u64>, tally: &mut Tally) -> bool {
    let mut connection = by_password(password);
    let mut server = Server::new();
    is_met(&mut connection, &mut server, seed, tally)
}

fn is_met(connection: &mut Connection<'_>, server: &mut Server, seed: Option<u64>, tally: &mut Tally) -> bool {
    match seed {
        Some(seed) => is_played(connection, server, seed, tally),
        None => is_denied(connection, server, tally),
    }
}

/// Half of the requests are Queries, a fifth of whose texts fail, and as many of the texts of the others: of some 5,500 requests more than
/// 1,000 fail that the server doesn't skip, and come to more than 5,000 rows.
#[test]
fn a_thousand_sessions_of_both_ends() {
    let mut tally = Tally::new();
    for seed in 0..1_000_u64 {
        assert!(has_met(b"pencil", Some(seed), &mut tally));
    }
    assert_eq!(tally.astray, 0, "{:?}", 0);
    assert!(tally.rows > 5_000);
    assert!(tally.failed > 1_000);
}

#[test]
fn another_password_is_not_let_in() {
    let mut tally = Tally::new();
    assert!(has_met(b"pencils", None, &mut tally));
}
