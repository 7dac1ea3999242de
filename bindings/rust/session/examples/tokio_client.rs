//! A client over tokio's sockets that sends its requests together: `tokio_client HOST:PORT USER DATABASE QUERY..`. For each query it prints how
//! many rows came, or the error, though all were on their way before the first was answered.
use postgres_session::message::client::ClientMessage;
use postgres_session::scram::{ChannelBinding, SaslPrepRfc4013, ScramSha256, ThreadRng};
use postgres_session::{Bytes, Connection, Event, Global, Message, Ways};
use std::error::Error;
use tokio::io::{AsyncReadExt, AsyncWriteExt};
use tokio::net::TcpStream;

struct Client {
    connection: Connection<'static>,
    server: TcpStream,
}

impl Client {
    /// The server's next message, behind what is to be sent.
    async fn next(&mut self) -> Result<(Event, Message<Bytes>), Box<dyn Error>> {
        self.server.write_all(self.connection.to_send()).await?;
        self.connection.sent(self.connection.to_send().len());
        loop {
            if let Some(next) = self.connection.next()? {
                return Ok(next);
            }
            let mut piece = [0; 8192];
            match self.server.read(&mut piece).await? {
                0 => return Err("the server closed the connection".into()),
                count => self.connection.feed(&piece[..count])?,
            }
        }
    }

    /// How many rows answer the request of this name, or that it failed.
    async fn rows(&mut self, name: u64) -> Result<Option<usize>, Box<dyn Error>> {
        let mut rows = Some(0);
        loop {
            let (event, message) = self.next().await?;
            match message {
                Message::DataRow(_) => rows = rows.map(|count| count + 1),
                Message::ErrorResponse(_) => rows = None,
                _ => {}
            }
            if event == Event::Last(name) {
                return Ok(rows);
            }
        }
    }
}

#[tokio::main(flavor = "current_thread")]
async fn main() -> Result<(), Box<dyn Error>> {
    let words: Vec<String> = std::env::args().skip(1).collect();
    let (address, user, database, queries) = match &words[..] {
        [address, user, database, queries @ ..] => (address, user, database, queries),
        _ => return Err("tokio_client HOST:PORT USER DATABASE QUERY..".into()),
    };
    let password = std::env::var("PGPASSWORD").unwrap_or_default();
    let prep = SaslPrepRfc4013::new(Global);
    let scram = ScramSha256::new(Global, password.as_bytes(), ChannelBinding::unsupported(), &prep, &mut ThreadRng)?;
    let ways = Ways { scram: Some(scram), md5: None, cleartext: None, none: password.is_empty(), least_rounds: 4096, encrypted: false };
    let mut client = Client { connection: Connection::new(Global, ways, 1 << 26), server: TcpStream::connect(address).await? };
    let startup = client.connection.start(&[("user", user), ("database", database)])?;
    client.rows(startup).await?.ok_or("the server refuses the log-in")?;
    let sent: Result<Vec<u64>, _> = queries.iter().map(|query| client.connection.send(&ClientMessage::Query(query.as_bytes()))).collect();
    for (query, name) in queries.iter().zip(sent?) {
        match client.rows(name).await? {
            Some(count) => println!("{query}: {count} rows"),
            None => println!("{query}: an error"),
        }
    }
    Ok(())
}
