//! A server's core, on the example of RFC 7677 and messages of the PostgreSQL manual's formats. MD5 texts are python3's.

use bytes::BytesMut;
use erased::kit::calls::Fail;
use erased::kit::AsSlice as _;
use erased::kit::Global;
use erased::proved::pgp_session::serving::{
    answer_versions, startup_names, Denial, Method, Serving, ServingEvent, ServingPhase, StartupNames,
};
use erased::proved::postgres_protocol::authentication::sasl::{is_nonce, ChannelOffer, ScramServer, StoredVerifier};
use erased::proved::postgres_protocol::message::client::{ClientMessage, ClientMessages, PasswordKind};
use erased::proved::postgres_protocol::Error;
use erased::proved::pgp_frontend::ProtocolVersion;

const STORED: &[u8] =
    b"SCRAM-SHA-256$4096:W22ZaJ0SNY7soEsUEjb6gQ==$WG5d8oPm3OtcPnkdi4Uo7BkeZkBFzpcXkuLmtbsT4qY=:wfPLwcE6nTWhTAmQ7tl2KeoiWGPlZqQxSrmfPwDl2dU=";

const FIRST: &[u8] = b"n,,n=user,r=rOprNGfwEbeRWgbNEkqO";

const FINAL: &[u8] =
    b"c=biws,r=rOprNGfwEbeRWgbNEkqO%hvYDpWUa2RaTCAfuxFIlj)hNlF$k0,p=dHzbZapWIk4jUhN+Ute9ytag9zjfMHgsqmmiz7AndVQ=";

const ANSWERS: &[u8] =
    b"R\0\0\0\x17\0\0\0\x0aSCRAM-SHA-256\0\0R\0\0\0\x5e\0\0\0\x0br=rOprNGfwEbeRWgbNEkqO%hvYDpWUa2RaTCAfuxFIlj)hNlF$k0,s=W22ZaJ0SNY7soEsUEjb6gQ==,i=4096R\0\0\0\x36\0\0\0\x0cv=6rriTRBi23WpRR/wtup+mMhUZUn/dB5nLTJRsjl95G4=R\0\0\0\x08\0\0\0\0";

const DENIED: &[u8] = b"E\0\0\0\x3aSFATAL\0VFATAL\0C28P01\0Mpassword authentication failed\0\0";

const MISPLACED: &[u8] = b"E\0\0\0\x2eSFATAL\0VFATAL\0C08P01\0Mprotocol violation\0\0";

const NOT_ALLOWED: &[u8] = b"E\0\0\0\x3fSFATAL\0VFATAL\0C28000\0Minvalid authorization specification\0\0";

/// A session whose startup packet came.
fn named() -> Serving {
    Serving {
        phase: ServingPhase::Named,
        method: Method::Nothing,
    }
}

/// What the session makes of the message.
fn observed(serving: &mut Serving, message: ClientMessage<'_>, out: &mut BytesMut) -> Option<ServingEvent> {
    let observed = serving.step(&message, out);
    drop(message);
    observed.ok()
}

/// What it makes of the next message of a client's bytes.
fn read(serving: &mut Serving, from: &mut ClientMessages<'_>, out: &mut BytesMut) -> Option<ServingEvent> {
    match from.next(serving.kind()) {
        Ok(Some(message)) => {
            let observed = serving.step(&message, out);
            drop(message);
            observed.ok()
        }
        _ => None,
    }
}

/// An exchange with the server's nonce of the RFC.
fn exchange() -> Result<ScramServer, Fail> {
    let nonce = "%hvYDpWUa2RaTCAfuxFIlj)hNlF$k0".to_string();
    if !is_nonce(&nonce) {
        return Err(Error::NotUtf8.into());
    }
    let verifier = StoredVerifier::parse(Global, STORED)?;
    Ok(ScramServer::with_nonce(verifier, ChannelOffer::NotOffered, nonce))
}

/// The two questions for encryption, and a startup packet.
const OPENING: &[u8] = b"\0\0\0\x08\x04\xd2\x16\x2f\0\0\0\x08\x04\xd2\x16\x30\0\0\0\x13\0\x03\0\0user\0user\0\0";

#[test]
fn a_client_opens() -> Result<(), Fail> {
    let mut serving = Serving::new();
    let mut from = ClientMessages::new(OPENING);
    let mut out = BytesMut::new();
    let event = read(&mut serving, &mut from, &mut out);
    assert_eq!(event, Some(ServingEvent::Unencrypted));
    let event = read(&mut serving, &mut from, &mut out);
    assert_eq!(event, Some(ServingEvent::Unencrypted));
    let event = read(&mut serving, &mut from, &mut out);
    assert_eq!(event, Some(ServingEvent::Named));
    assert_eq!(out.as_slice(), b"NN".as_slice());
    let mut refused = BytesMut::new();
    serving.deny(Denial::NotAllowed, &mut refused)?;
    assert_eq!(refused.as_slice(), NOT_ALLOWED);
    Ok(())
}

/// A startup packet that names the user twice, and a database.
const NAMES: &[u8] = b"\0\0\0\x22\0\x03\0\0user\0a\0database\0b\0user\0c\0\0";

// As PostgreSQL 18.6 has it: 3.1 is spoken as 3.0 is, and nothing is said of it.
#[test]
fn versions_that_are_spoken_have_no_answer() -> Result<(), Fail> {
    for (minor, version) in [(0, ProtocolVersion::V3_0), (1, ProtocolVersion::V3_0), (2, ProtocolVersion::V3_2)] {
        let mut out = BytesMut::new();
        assert!(answer_versions(minor, &[], &mut out)? == version);
        assert!(out.is_empty());
    }
    Ok(())
}

#[test]
fn the_last_of_two_names_counts() -> Result<(), Fail> {
    let mut from = ClientMessages::new(NAMES);
    let names = match from.next(PasswordKind::Password) {
        Ok(Some(ClientMessage::Startup { parameters, .. })) => Some(startup_names(parameters)),
        _ => None,
    };
    let (user, database): (&[u8], &[u8]) = (b"c", b"b");
    let wanted = StartupNames {
        user: Some(user),
        database: Some(database),
    };
    assert_eq!(names, Some(wanted));
    Ok(())
}

#[test]
fn a_proof_logs_a_client_in() -> Result<(), Fail> {
    let mut serving = named();
    let mut out = BytesMut::new();
    serving.ask_scram(exchange()?, &mut out)?;
    let first = ClientMessage::SaslInitialResponse {
        mechanism: b"SCRAM-SHA-256",
        response: Some(FIRST),
    };
    let event = observed(&mut serving, first, &mut out);
    assert_eq!(event, Some(ServingEvent::Challenged));
    let last = ClientMessage::SaslResponse(FINAL);
    let event = observed(&mut serving, last, &mut out);
    assert_eq!(event, Some(ServingEvent::LoggedIn));
    assert_eq!(out.as_slice(), ANSWERS);
    assert!(serving.phase == ServingPhase::Open);
    Ok(())
}

/// The proof of the RFC, with another letter at its front.
const FALSE: &[u8] =
    b"c=biws,r=rOprNGfwEbeRWgbNEkqO%hvYDpWUa2RaTCAfuxFIlj)hNlF$k0,p=eHzbZapWIk4jUhN+Ute9ytag9zjfMHgsqmmiz7AndVQ=";

#[test]
fn another_proof_does_not() -> Result<(), Fail> {
    let mut serving = named();
    let mut asked = BytesMut::new();
    serving.ask_scram(exchange()?, &mut asked)?;
    let first = ClientMessage::SaslInitialResponse {
        mechanism: b"SCRAM-SHA-256",
        response: Some(FIRST),
    };
    let event = observed(&mut serving, first, &mut asked);
    assert_eq!(event, Some(ServingEvent::Challenged));
    let mut out = BytesMut::new();
    let last = ClientMessage::SaslResponse(FALSE);
    let event = observed(&mut serving, last, &mut out);
    assert_eq!(event, Some(ServingEvent::Refused));
    assert_eq!(out.as_slice(), DENIED);
    Ok(())
}

/// What a session that asks for the password in clear text makes of this one.
fn reported(stored: StoredVerifier, text: &[u8], out: &mut BytesMut) -> Result<Option<ServingEvent>, Fail> {
    let mut serving = named();
    serving.ask_password(stored, &mut BytesMut::new())?;
    Ok(observed(&mut serving, ClientMessage::PasswordMessage(text), out))
}

#[test]
fn a_password_logs_a_client_in() -> Result<(), Fail> {
    let mut out = BytesMut::new();
    let stored = StoredVerifier::parse(Global, STORED)?;
    let event = reported(stored, b"pencil", &mut out)?;
    assert_eq!(event, Some(ServingEvent::LoggedIn));
    assert_eq!(out.as_slice(), b"R\0\0\0\x08\0\0\0\0".as_slice());
    Ok(())
}

#[test]
fn an_unknown_user_is_denied() -> Result<(), Fail> {
    let mut out = BytesMut::new();
    let stored = StoredVerifier::mock(Global, b"secret", b"nobody")?;
    let event = reported(stored, b"pencil", &mut out)?;
    assert_eq!(event, Some(ServingEvent::Refused));
    assert_eq!(out.as_slice(), DENIED);
    Ok(())
}

/// What a session that asks for MD5 makes of this answer.
fn digested(text: &[u8], out: &mut BytesMut) -> Result<Option<ServingEvent>, Fail> {
    let mut serving = named();
    let stored = b"md520c46e3762c864548e296b33c3406aa9".to_vec();
    serving.ask_md5([1, 2, 3, 4], stored, out)?;
    Ok(observed(&mut serving, ClientMessage::PasswordMessage(text), out))
}

#[test]
fn a_digest_logs_a_client_in() -> Result<(), Fail> {
    let mut out = BytesMut::new();
    let answer = b"md54376eb6913b38f9aaff38dc7cf19ca76";
    let event = digested(answer, &mut out)?;
    assert_eq!(event, Some(ServingEvent::LoggedIn));
    let wanted = b"R\0\0\0\x0c\0\0\0\x05\x01\x02\x03\x04R\0\0\0\x08\0\0\0\0";
    assert_eq!(out.as_slice(), wanted.as_slice());
    let event = digested(b"pencil", &mut out)?;
    assert_eq!(event, Some(ServingEvent::Refused));
    Ok(())
}

#[test]
fn a_message_out_of_place_ends_a_session() -> Result<(), Fail> {
    let mut serving = named();
    let mut out = BytesMut::new();
    let query = ClientMessage::Query(b"SELECT 1");
    let event = observed(&mut serving, query, &mut out);
    assert_eq!(event, Some(ServingEvent::Refused));
    assert_eq!(out.as_slice(), MISPLACED);
    let event = observed(&mut serving, ClientMessage::Sync, &mut out);
    assert_eq!(event, Some(ServingEvent::Ignored));
    Ok(())
}

#[test]
fn requests_are_handed_on() -> Result<(), Fail> {
    let mut serving = named();
    let mut out = BytesMut::new();
    serving.trust(&mut out)?;
    let query = ClientMessage::Query(b"SELECT 1");
    let event = observed(&mut serving, query, &mut out);
    assert_eq!(event, Some(ServingEvent::Requested));
    let event = observed(&mut serving, ClientMessage::Terminate, &mut out);
    assert_eq!(event, Some(ServingEvent::Ended));
    assert_eq!(out.as_slice(), b"R\0\0\0\x08\0\0\0\0".as_slice());
    Ok(())
}
