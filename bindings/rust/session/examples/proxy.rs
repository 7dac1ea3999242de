//! A proxy: `proxy PORT HOST:PORT STATEMENT..` passes sessions on to the server, byte for byte, and lets none of these statements through. In the
//! place of one the server gets another that fails, so that its error comes in its order. Requests for TLS are declined.
use postgres_session::message::client::{forward, ClientMessage, ClientMessages, PasswordKind};
use postgres_session::message::in_place::{Message, Messages};
use postgres_session::proxy::{pass_on, Passed};
use postgres_session::{BytesMut, Error as Fault};
use std::error::Error;
use tokio::io::{AsyncReadExt, AsyncWriteExt};
use tokio::net::{TcpListener, TcpStream};

const REFUSAL: &[u8] = b"DO $$BEGIN RAISE insufficient_privilege USING MESSAGE = 'the proxy lets no such statement through'; END$$";
/// The most bytes of a message that isn't whole.
const LIMIT: usize = 1 << 26;

/// What came of both sides and wasn't read, and what is on its way to them.
struct Session {
    asked: BytesMut,
    answered: BytesMut,
    to_server: BytesMut,
    to_client: BytesMut,
    /// Whether the startup packet came.
    is_open: bool,
    /// Which message of tag `p` the server waits for.
    kind: PasswordKind,
}

impl Session {
    /// Passes the client's whole messages on.
    fn pass_on_asked(&mut self, refused: &[&[u8]]) -> Result<(), Box<dyn Error>> {
        let mut messages = ClientMessages::resume(&self.asked, self.is_open);
        loop {
            let mut ahead = ClientMessages::resume(messages.rest(), messages.is_open());
            let first = ahead.next(self.kind)?;
            if let Some(ClientMessage::SslRequest | ClientMessage::GssEncRequest) = first {
                self.to_client.extend_from_slice(b"N");
                messages = ahead;
                continue;
            }
            match (pass_on(refused, self.kind, &mut messages, &mut self.to_server)?, first) {
                (Some(Passed::HeldBack), Some(ClientMessage::Parse { name, param_types, .. })) => {
                    forward(&ClientMessage::Parse { name, query: REFUSAL, param_types }, &mut self.to_server)?;
                }
                (Some(Passed::HeldBack), _) => forward(&ClientMessage::Query(REFUSAL), &mut self.to_server)?,
                (Some(Passed::Forwarded), _) => {}
                (None, _) => break,
            }
        }
        let (left, is_open) = (messages.rest().len(), messages.is_open());
        self.is_open = is_open;
        let _ = self.asked.split_to(self.asked.len() - left);
        if left > LIMIT { Err("the client's message is too long".into()) } else { Ok(()) }
    }

    /// Passes the server's whole messages on, also those that have no reader here.
    fn pass_on_answered(&mut self) -> Result<(), Box<dyn Error>> {
        let mut messages = Messages::new(&self.answered);
        loop {
            match messages.next() {
                Ok(Some(Message::AuthenticationSasl(_))) => self.kind = PasswordKind::Initial,
                Ok(Some(Message::AuthenticationSaslContinue(_))) => self.kind = PasswordKind::Response,
                Ok(Some(_)) => {}
                Ok(None) => break,
                Err(Fault::InvalidLength) => return Err(Fault::InvalidLength.into()),
                Err(_) => {}
            }
        }
        let left = messages.rest().len();
        self.to_client.extend_from_slice(&self.answered.split_to(self.answered.len() - left));
        if left > LIMIT { Err("the server's message is too long".into()) } else { Ok(()) }
    }
}

/// A side is read while nothing waits to be written to the other, so that a slow one slows the other, and neither waits for both.
async fn serve(mut client: TcpStream, address: &str, refused: &[&[u8]]) -> Result<(), Box<dyn Error>> {
    let mut server = TcpStream::connect(address).await?;
    let (mut from_client, mut to_client) = client.split();
    let (mut from_server, mut to_server) = server.split();
    let new = BytesMut::new;
    let mut session = Session { asked: new(), answered: new(), to_server: new(), to_client: new(), is_open: false, kind: PasswordKind::Password };
    loop {
        tokio::select! {
            count = from_client.read_buf(&mut session.asked), if session.to_server.is_empty() => match count? {
                0 => return Ok(()),
                _ => session.pass_on_asked(refused)?,
            },
            count = from_server.read_buf(&mut session.answered), if session.to_client.is_empty() => match count? {
                0 => return Ok(()),
                _ => session.pass_on_answered()?,
            },
            count = to_server.write_buf(&mut session.to_server), if !session.to_server.is_empty() => { count?; }
            count = to_client.write_buf(&mut session.to_client), if !session.to_client.is_empty() => { count?; }
        }
    }
}

#[tokio::main(flavor = "current_thread")]
async fn main() -> Result<(), Box<dyn Error>> {
    let words: Vec<String> = std::env::args().skip(1).collect();
    let (port, address, statements) = match &words[..] {
        [port, address, statements @ ..] => (port, address.clone(), statements.to_vec()),
        _ => return Err("proxy PORT HOST:PORT STATEMENT..".into()),
    };
    let listener = TcpListener::bind(("127.0.0.1", port.parse()?)).await?;
    eprintln!("proxy: listening on port {port}");
    loop {
        let (client, _) = listener.accept().await?;
        let (address, statements) = (address.clone(), statements.clone());
        tokio::spawn(async move {
            let refused: Vec<&[u8]> = statements.iter().map(|text| text.as_bytes()).collect();
            if let Err(e) = serve(client, &address, &refused).await.map_err(|e| e.to_string()) {
                eprintln!("proxy: {e}");
            }
        });
    }
}
