//! A server: `server PORT PASSWORD` logs each client in with SCRAM-SHA-256, and sends each query's text back as its one row. psql can talk to
//! it. It serves one client at a time.
use postgres_session::message::client::{ClientMessage, ClientParser, Limits};
use postgres_session::message::reply::{self, Column};
use postgres_session::scram::{ChannelOffer, SaslPrepRfc4013, ScramServer, StoredVerifier, ThreadRng};
use postgres_session::serving::{answer_versions, startup_options, Serving, ServingEvent};
use postgres_session::{BytesMut, Global};
use std::error::Error;
use std::io::{Read, Write};
use std::net::{TcpListener, TcpStream};

/// The one row that a query gets.
fn echo(query: &[u8], out: &mut BytesMut) -> Result<(), postgres_session::Error> {
    let column = Column { name: b"query", table_oid: 0, column_id: 0, type_oid: 25, type_size: -1, type_modifier: -1, format: 0 };
    reply::row_description(&[column], out)?;
    reply::data_row(&[Some(query)], out)?;
    reply::command_complete(b"SELECT 1", out)?;
    reply::ready_for_query(b'I', out)
}

/// What a message comes to: the log-in is the core's, and what is asked behind it this server's.
fn answer(serving: &mut Serving, message: ClientMessage<'_>, password: &[u8], out: &mut BytesMut) -> Result<bool, Box<dyn Error>> {
    match serving.step(&message, out)? {
        ServingEvent::Named => {
            if let ClientMessage::Startup { minor, parameters } = message {
                answer_versions(minor, &startup_options(Global, parameters)?, out)?;
            }
            let salt = (0..16).map(|_| rand()).collect();
            let stored = StoredVerifier::of_password(Global, password, salt, 4096, &SaslPrepRfc4013::new(Global))?;
            let exchange = ScramServer::new(Global, stored, ChannelOffer::NotOffered, &mut ThreadRng)?;
            serving.ask_scram(exchange, out)?;
        }
        ServingEvent::LoggedIn => reply::ready_for_query(b'I', out)?,
        ServingEvent::Requested => match message {
            ClientMessage::Query(query) => echo(query, out)?,
            _ => return Ok(false),
        },
        ServingEvent::Refused | ServingEvent::Cancelled | ServingEvent::Ended => return Ok(false),
        ServingEvent::Ignored | ServingEvent::Unencrypted | ServingEvent::Challenged => {}
    }
    Ok(true)
}

/// A byte that nobody foresees.
fn rand() -> u8 {
    use postgres_session::scram::Rng;
    let mut byte = [0];
    ThreadRng.fill_bytes(&mut byte);
    byte[0]
}

fn serve(mut client: TcpStream, password: &[u8]) -> Result<(), Box<dyn Error>> {
    let (mut serving, mut parser) = (Serving::new(), ClientParser::new(Global, Limits { opening: 10_004, tagged: 1 << 20 }));
    let (mut room, mut out) = ([0; 8192], BytesMut::new());
    loop {
        let count = client.read(&mut room)?;
        if count == 0 {
            return Ok(());
        }
        let mut piece = &room[..count];
        while let Some(frame) = parser.next(&mut piece)? {
            let message = frame.message(serving.kind())?;
            let goes_on = answer(&mut serving, message, password, &mut out)?;
            client.write_all(&out)?;
            out.clear();
            if !goes_on {
                return Ok(());
            }
        }
    }
}

fn main() -> Result<(), Box<dyn Error>> {
    let words: Vec<String> = std::env::args().skip(1).collect();
    let (port, password) = match &words[..] {
        [port, password] => (port, password),
        _ => return Err("server PORT PASSWORD".into()),
    };
    let listener = TcpListener::bind(("127.0.0.1", port.parse()?))?;
    for client in listener.incoming() {
        if let Err(e) = serve(client?, password.as_bytes()) {
            eprintln!("server: {e}");
        }
    }
    Ok(())
}
