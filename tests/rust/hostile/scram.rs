//! An exchange of SCRAM-SHA-256 with one round, in which each byte of the server's texts is replaced.

use super::data::Frames;
use super::server::{Server, Texts};
use super::tally::Tally;
use erased::kit::Global;
use erased::proved::pgp_auth::authentication::sasl::{ChannelBinding, NoPrep, ScramError, ScramSha256};

/// The password and the nonce are those of the Rust crate's own test.
const PASSWORD: &[u8] = b"foobar";

const NONCE: &str = "9IZ2O01zb9IgiIZ1WJ/zgpJB";

const SENT: Texts<'static> = Texts {
    bare: "n=,r=9IZ2O01zb9IgiIZ1WJ/zgpJB",
    first: "r=9IZ2O01zb9IgiIZ1WJ/zgpJBjx/oIRLs02gGSHcw1KEty3eY,s=fs3IXBy7U7+IvVjZ,i=1",
    last: "c=biws,r=9IZ2O01zb9IgiIZ1WJ/zgpJBjx/oIRLs02gGSHcw1KEty3eY",
};

type Outcome = Result<(), ScramError>;

/// A client that has sent its first text.
fn begun() -> ScramSha256 {
    let nonce = NONCE.to_string();
    ScramSha256::with_nonce(Global, PASSWORD, ChannelBinding::unsupported(), nonce, &NoPrep)
        .ok()
        .unwrap()
}

fn place_of(outcome: &Outcome) -> usize {
    match outcome {
        Err(ScramError::UnexpectedCharacter(at) | ScramError::Trailing(at)) => *at,
        _ => 0,
    }
}

/// The name of how a step ended.
fn name_of(outcome: &Outcome) -> String {
    outcome.as_ref().map_or_else(ToString::to_string, |()| "Ok".to_string())
}

/// How steps ended, by name, and the sum of the places that their errors tell.
#[derive(Default)]
struct Ends {
    tally: Tally,
    places: usize,
}

impl Ends {
    /// Adds a step's end. `goes on` comes before it where there is a text to send.
    fn add(&mut self, has_text: bool, outcome: &Outcome) {
        if has_text {
            self.tally.add("goes on");
        }
        self.places += place_of(outcome);
        self.tally.add(name_of(outcome));
    }

    /// Shows what the changes of a byte came to.
    fn show(&self, what: &str, place: usize, out: &mut String) {
        *out += &format!("{what} {place}: {}; places {}\n", self.tally, self.places);
    }
}

/// An exchange that can be changed: its server, and the server's last text.
struct Exchange {
    server: Server,
    answer: String,
}

impl Exchange {
    /// A client that took this first text: whether the server takes its answer, and how it ends with the last text of
    /// the exchange that wasn't changed.
    fn add_taken(&self, first: &[u8], client: &mut ScramSha256, ends: &mut Ends) {
        let texts = (
            std::str::from_utf8(first),
            std::str::from_utf8(client.message().unwrap_or(b"")),
        );
        let is_accepted = matches!(texts, (Ok(first), Ok(last)) if self.server.accepts(SENT.bare, first, last));
        let ended = name_of(&client.finish(self.answer.as_bytes()));
        ends.tally.add(format!("Ok {is_accepted} {ended}"));
    }

    /// An exchange with this text in the place of the server's first.
    fn add_first(&self, first: &[u8], ends: &mut Ends) {
        let mut client = begun();
        match client.update(first) {
            Ok(()) => self.add_taken(first, &mut client, ends),
            outcome => ends.add(client.message().is_some(), &outcome),
        }
    }

    /// An exchange with this text in the place of the server's last.
    fn add_last(&self, last: &[u8], ends: &mut Ends) {
        let mut client = begun();
        assert!(client.update(SENT.first.as_bytes()).is_ok());
        let outcome = client.finish(last);
        ends.add(client.message().is_some(), &outcome);
    }

    /// The steps in any order, of which the bits say which is the last one, `finish`. After each: how it ended, whether
    /// there is a text to send, and how many codes were made.
    fn show_turns(&self, turns: u8, out: &mut String) {
        let mut client = begun();
        *out += "turns";
        for turn in 0..4 {
            let (step, outcome) = match (turns >> turn) % 2 {
                1 => ("finish", client.finish(self.answer.as_bytes())),
                _ => ("update", client.update(SENT.first.as_bytes())),
            };
            let (has_text, hmacs) = (client.message().is_some(), client.hmacs());
            *out += &format!(", {step} {} {has_text} {hmacs}", name_of(&outcome));
        }
        *out += "\n";
    }
}

/// Shows what the changes of each byte of a text come to, a line each.
fn show_changes(what: &str, text: &str, add: impl Fn(&[u8], &mut Ends), out: &mut String) {
    let mut bytes = text.as_bytes().to_vec();
    for place in 0..bytes.len() {
        let (old, mut ends) = (bytes[place], Ends::default());
        for new in (0..=255).filter(|new| *new != old) {
            bytes[place] = new;
            add(&bytes, &mut ends);
        }
        bytes[place] = old;
        ends.show(what, place, out);
    }
}

/// The exchange of the server that holds the keys of this text, two lines of 64 digits: as it is, with each byte replaced, and its steps out of turn.
pub(crate) fn run(text: &str, out: &mut String) {
    let keys = Frames::parse(text).bytes;
    let (stored_key, server_key) = keys.split_at(32);
    let server = Server {
        stored_key: stored_key.try_into().unwrap(),
        server_key: server_key.try_into().unwrap(),
    };
    let exchange = Exchange {
        server,
        answer: server.answer(SENT),
    };
    let mut ends = Ends::default();
    exchange.add_first(SENT.first.as_bytes(), &mut ends);
    ends.show("unchanged", 0, out);
    show_changes("first", SENT.first, |text, ends| exchange.add_first(text, ends), out);
    show_changes(
        "last",
        &exchange.answer,
        |text, ends| exchange.add_last(text, ends),
        out,
    );
    (0..16).for_each(|turns| exchange.show_turns(turns, out));
}
