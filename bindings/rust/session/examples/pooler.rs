//! A pooler in transaction mode: `pooler PORT HOST:PORT USER DATABASE COUNT`. Any number of clients share COUNT connections of this user; one is lent
//! to a client from its first request on, for as long as `pooler::Session` doesn't say that it is idle. The password, of the clients too, is in
//! PGPASSWORD. What a session keeps (settings, prepared statements with names) stays with the connection; cancel requests end nowhere.
use postgres_session::dialogue::Event;
use postgres_session::message::client::{ClientMessage, ClientMessages, PasswordKind};
use postgres_session::message::in_place::{Message, Messages};
use postgres_session::message::reply;
use postgres_session::pooler::Session;
use postgres_session::scram::{ChannelBinding, ChannelOffer, Rng, SaslPrepRfc4013, ScramServer, ScramSha256, StoredVerifier, ThreadRng};
use postgres_session::serving::{Serving, ServingEvent};
use postgres_session::{BytesMut, Connection, Error as Fault, Global, Ways};
use std::cell::RefCell;
use std::error::Error;
use std::rc::Rc;
use tokio::io::{AsyncReadExt, AsyncWriteExt};
use tokio::net::{TcpListener, TcpStream};
use tokio::sync::{mpsc, Mutex};
use tokio::task::{spawn_local, LocalSet};

/// The most bytes of a message that isn't whole.
const LIMIT: usize = 1 << 26;

/// A connection that is logged in, and what is known of its session.
struct Server {
    stream: TcpStream,
    session: Session,
}

/// The connections that nobody has; of one that was lost there is none, and who takes its place makes another.
struct Pool {
    address: String,
    user: String,
    database: String,
    password: Vec<u8>,
    free: Mutex<mpsc::UnboundedReceiver<Option<Server>>>,
    back: mpsc::UnboundedSender<Option<Server>>,
    /// The settings that the server reported last in a log-in, as messages.
    settings: RefCell<BytesMut>,
}

impl Pool {
    async fn log_in(&self) -> Result<Server, Box<dyn Error>> {
        let prep = SaslPrepRfc4013::new(Global);
        let scram = ScramSha256::new(Global, &self.password, ChannelBinding::unsupported(), &prep, &mut ThreadRng)?;
        let ways = Ways { scram: Some(scram), md5: None, cleartext: None, none: self.password.is_empty(), least_rounds: 4096, encrypted: false };
        let (mut connection, mut session) = (Connection::new(Global, ways, 1 << 20), Session::new(Global));
        let mut stream = TcpStream::connect(&self.address).await?;
        let startup = connection.start(&[("user", &self.user), ("database", &self.database)])?;
        if let Some(packet) = ClientMessages::new(connection.to_send()).next(PasswordKind::Password)? {
            session.sent(&packet)?;
        }
        let (mut settings, mut piece) = (BytesMut::new(), [0; 8192]);
        loop {
            while let Some((event, message)) = connection.next()? {
                session.received(&message)?;
                match message {
                    Message::ErrorResponse(_) => return Err("the server refuses the log-in".into()),
                    Message::ParameterStatus(body) => reply::parameter_status(body.name_bytes(), body.value_bytes(), &mut settings)?,
                    _ => {}
                }
                if event == Event::Last(startup) {
                    self.settings.replace(settings);
                    return Ok(Server { stream, session });
                }
            }
            stream.write_all(connection.to_send()).await?;
            connection.sent(connection.to_send().len());
            match stream.read(&mut piece).await? {
                0 => return Err("the server closed the connection".into()),
                count => connection.feed(&piece[..count])?,
            }
        }
    }

    /// A connection, in the order in which it was asked for. One that said something while nobody had it is lost, or its server goes down.
    async fn take(&self) -> Result<Server, Box<dyn Error>> {
        match self.free.lock().await.recv().await.flatten() {
            Some(server) if server.stream.try_read(&mut [0]).is_err() => Ok(server),
            _ => self.log_in().await.map_err(|e| {
                self.give_back(None);
                e
            }),
        }
    }

    fn give_back(&self, server: Option<Server>) {
        // (who takes them lives as long as the pool)
        let _ = self.back.send(server);
    }
}

/// What is on its way between a client and the connection that is lent to it.
struct Loan<'a> {
    session: &'a mut Session,
    asked: &'a mut BytesMut,
    answered: BytesMut,
    to_server: BytesMut,
    to_client: BytesMut,
}

impl Loan<'_> {
    /// The client's whole messages.
    fn pass_on_asked(&mut self) -> Result<(), Box<dyn Error>> {
        let mut messages = ClientMessages::resume(self.asked, true);
        while let Some((message, bytes)) = messages.next_with_bytes(PasswordKind::Password)? {
            self.session.sent(&message)?;
            self.to_server.extend_from_slice(bytes);
        }
        let left = messages.rest().len();
        let _ = self.asked.split_to(self.asked.len() - left);
        if left > LIMIT { Err("the client's message is too long".into()) } else { Ok(()) }
    }

    /// The server's whole messages; an error that ends its session is one.
    fn pass_on_answered(&mut self) -> Result<(), Box<dyn Error>> {
        let mut messages = Messages::new(&self.answered);
        loop {
            match messages.next() {
                Ok(Some(message)) => self.session.received(&message)?,
                Err(Fault::UnknownTag(b'V')) => self.session.received_function_result()?,
                Ok(None) => break,
                Err(e) => return Err(e.into()),
            };
        }
        let left = messages.rest().len();
        self.to_client.extend_from_slice(&self.answered.split_to(self.answered.len() - left));
        if left > LIMIT { Err("the server's message is too long".into()) } else { Ok(()) }
    }

    fn is_over(&self) -> bool {
        self.to_server.is_empty() && self.to_client.is_empty() && self.session.is_idle(self.asked, &self.answered)
    }
}

/// Lends the connection until it is idle: true; false where one of both closed theirs. Each side is read while nothing waits to be written to the other.
async fn lend(server: &mut Server, client: &mut TcpStream, asked: &mut BytesMut) -> Result<bool, Box<dyn Error>> {
    let (mut from_client, mut to_client) = client.split();
    let (mut from_server, mut to_server) = server.stream.split();
    let mut loan = Loan { session: &mut server.session, asked, answered: BytesMut::new(), to_server: BytesMut::new(), to_client: BytesMut::new() };
    loan.pass_on_asked()?;
    while !loan.is_over() {
        tokio::select! {
            count = from_client.read_buf(loan.asked), if loan.to_server.is_empty() => match count? {
                0 => return Ok(false),
                _ => loan.pass_on_asked()?,
            },
            count = from_server.read_buf(&mut loan.answered), if loan.to_client.is_empty() => match count? {
                0 => return Ok(false),
                _ => loan.pass_on_answered()?,
            },
            count = to_server.write_buf(&mut loan.to_server), if !loan.to_server.is_empty() => { count?; }
            count = to_client.write_buf(&mut loan.to_client), if !loan.to_client.is_empty() => { count?; }
        }
    }
    Ok(true)
}

/// Asks for the password, or lets in without one.
fn ask(pool: &Pool, serving: &mut Serving, out: &mut BytesMut) -> Result<bool, Box<dyn Error>> {
    if pool.password.is_empty() {
        serving.trust(out)?;
        return Ok(true);
    }
    let mut salt = vec![0; 16];
    ThreadRng.fill_bytes(&mut salt);
    let stored = StoredVerifier::of_password(Global, &pool.password, salt, 4096, &SaslPrepRfc4013::new(Global))?;
    serving.ask_scram(ScramServer::new(Global, stored, ChannelOffer::NotOffered, &mut ThreadRng)?, out)?;
    Ok(false)
}

/// Logs a client in; whether it came in.
async fn admit(pool: &Pool, client: &mut TcpStream, asked: &mut BytesMut) -> Result<bool, Box<dyn Error>> {
    let (mut serving, mut out, mut is_open, mut is_in) = (Serving::new(), BytesMut::new(), false, false);
    while !is_in {
        let mut messages = ClientMessages::resume(asked, is_open);
        let event = match messages.next(serving.kind())? {
            Some(message) => serving.step(&message, &mut out)?,
            None => {
                if asked.len() > LIMIT || client.read_buf(asked).await? == 0 {
                    return Ok(false);
                }
                continue;
            }
        };
        let left = messages.rest().len();
        is_open = messages.is_open();
        let _ = asked.split_to(asked.len() - left);
        is_in = match event {
            ServingEvent::Named => ask(pool, &mut serving, &mut out)?,
            ServingEvent::LoggedIn => true,
            ServingEvent::Unencrypted | ServingEvent::Challenged => false,
            _ => break,
        };
        if is_in {
            out.extend_from_slice(&pool.settings.borrow());
            reply::ready_for_query(b'I', &mut out)?;
        }
        client.write_all(&out).await?;
        out.clear();
    }
    client.write_all(&out).await?;
    Ok(is_in)
}

/// A client's session, from the log-in on: for each request a connection.
async fn serve(pool: &Pool, mut client: TcpStream) -> Result<(), Box<dyn Error>> {
    let mut asked = BytesMut::new();
    let mut goes_on = admit(pool, &mut client, &mut asked).await?;
    while goes_on {
        match ClientMessages::resume(&asked, true).next(PasswordKind::Password)? {
            Some(ClientMessage::Terminate) => return Ok(()),
            Some(_) => {}
            None => {
                goes_on = asked.len() <= LIMIT && client.read_buf(&mut asked).await? > 0;
                continue;
            }
        }
        let mut server = pool.take().await?;
        let lent = lend(&mut server, &mut client, &mut asked).await;
        goes_on = matches!(lent, Ok(true));
        pool.give_back(if goes_on { Some(server) } else { None });
        lent?;
    }
    Ok(())
}

async fn run(words: &[String]) -> Result<(), Box<dyn Error>> {
    let (port, address, user, database, count) = match words {
        [port, address, user, database, count] => (port, address.clone(), user.clone(), database.clone(), count.parse::<usize>()?),
        _ => return Err("pooler PORT HOST:PORT USER DATABASE COUNT".into()),
    };
    let (back, free) = mpsc::unbounded_channel();
    let password = std::env::var("PGPASSWORD").unwrap_or_default().into_bytes();
    let pool = Rc::new(Pool { address, user, database, password, free: Mutex::new(free), back, settings: RefCell::default() });
    pool.give_back(Some(pool.log_in().await?));
    (1..count).for_each(|_| pool.give_back(None));
    let listener = TcpListener::bind(("127.0.0.1", port.parse()?)).await?;
    eprintln!("pooler: listening on port {port}");
    loop {
        let (client, _) = listener.accept().await?;
        let pool = Rc::clone(&pool);
        spawn_local(async move {
            if let Err(e) = serve(&pool, client).await {
                eprintln!("pooler: {e}");
            }
        });
    }
}

#[tokio::main(flavor = "current_thread")]
async fn main() -> Result<(), Box<dyn Error>> {
    let words: Vec<String> = std::env::args().skip(1).collect();
    LocalSet::new().run_until(run(&words)).await
}
