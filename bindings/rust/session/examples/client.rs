//! A blocking client: `client HOST:PORT USER DATABASE QUERY`, with the password in PGPASSWORD. It prints each row, a tab between columns.
use postgres_session::message::client::ClientMessage;
use postgres_session::scram::{ChannelBinding, SaslPrepRfc4013, ScramSha256, ThreadRng};
use postgres_session::{Bytes, Connection, Event, FallibleIterator, Global, Message, Ways};
use std::error::Error;
use std::io::{Read, Write};
use std::net::TcpStream;

/// Sends what is to be sent, and reads until the server's next message is there.
fn next(connection: &mut Connection<'_>, server: &mut TcpStream) -> Result<(Event, Message<Bytes>), Box<dyn Error>> {
    server.write_all(connection.to_send())?;
    connection.sent(connection.to_send().len());
    let mut piece = [0; 8192];
    loop {
        if let Some(next) = connection.next()? {
            return Ok(next);
        }
        match server.read(&mut piece)? {
            0 => return Err("the server closed the connection".into()),
            count => connection.feed(&piece[..count])?,
        }
    }
}

/// The answer to the request of this name: rows are printed, and an error is one of this call.
fn answer(connection: &mut Connection<'_>, server: &mut TcpStream, name: u64) -> Result<(), Box<dyn Error>> {
    loop {
        let (event, message) = next(connection, server)?;
        match message {
            Message::DataRow(row) => {
                let (mut columns, mut texts) = (row.ranges(), Vec::new());
                while let Some(place) = columns.next()? {
                    texts.push(place.map_or("NULL".into(), |place| String::from_utf8_lossy(&row.buffer()[place])));
                }
                println!("{}", texts.join("\t"));
            }
            Message::ErrorResponse(body) => {
                let (mut fields, mut words) = (body.fields(), Vec::new());
                while let Some(field) = fields.next()? {
                    if matches!(field.type_(), b'C' | b'M') {
                        words.push(field.value()?.to_string());
                    }
                }
                return Err(words.join(": ").into());
            }
            _ => {}
        }
        if event == Event::Last(name) {
            return Ok(());
        }
    }
}

fn main() -> Result<(), Box<dyn Error>> {
    let words: Vec<String> = std::env::args().skip(1).collect();
    let (address, user, database, query) = match &words[..] {
        [address, user, database, query] => (address, user, database, query),
        _ => return Err("client HOST:PORT USER DATABASE QUERY".into()),
    };
    let password = std::env::var("PGPASSWORD").unwrap_or_default();
    let prep = SaslPrepRfc4013::new(Global);
    let scram = ScramSha256::new(Global, password.as_bytes(), ChannelBinding::unsupported(), &prep, &mut ThreadRng)?;
    let ways = Ways { scram: Some(scram), md5: None, cleartext: None, none: password.is_empty(), least_rounds: 4096, encrypted: false };
    let mut connection = Connection::new(Global, ways, 1 << 26);
    let mut server = TcpStream::connect(address)?;
    let startup = connection.start(&[("user", user), ("database", database)])?;
    answer(&mut connection, &mut server, startup)?;
    let name = connection.send(&ClientMessage::Query(query.as_bytes()))?;
    answer(&mut connection, &mut server, name)
}
