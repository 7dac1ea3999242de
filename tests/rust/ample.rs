//! Large values with ample memory: none is refused for its size.

use crate::checks::made;
use crate::reads::{brings, buffer, next_row};
use bytes::BytesMut;
use erased::kit::calls::Fail;
use erased::kit::Global;
use erased::proved::pgp_auth::authentication::md5_hash;
use erased::proved::pgp_auth::authentication::sasl::NoPrep;
use erased::proved::pgp_auth::escape::{escape_identifier, escape_literal};
use erased::proved::pgp_auth::password::{md5, scram_sha_256_salt};
use erased::proved::pgp_base::{BindError, Buffer, Error, IsNull};
use erased::proved::pgp_frontend::{bind, query, startup_message, CopyData};
use erased::proved::pgp_message::Message;
use erased::proved::pgp_types::text_to_sql;
use erased::proved::postgres_protocol::lawful::row_int4;
use erased::proved::postgres_protocol::session::StreamParser;

// The piece again and again, between two ends.
pub(crate) fn joined(open: &str, piece: &str, count: usize, close: &str) -> String {
    format!("{open}{}{close}", piece.repeat(count))
}

// The same of bytes.
pub(crate) fn joined_bytes(open: &[u8], piece: &[u8], count: usize, close: &[u8]) -> Vec<u8> {
    [open, &piece.repeat(count), close].concat()
}

// How a piece of a text stands in a string constant and in an identifier.
struct Escape {
    piece: &'static str,
    open: &'static str,
    in_literal: &'static str,
    in_identifier: &'static str,
}

const ESCAPES: [Escape; 5] = [
    Escape {
        piece: "a",
        open: "'",
        in_literal: "a",
        in_identifier: "a",
    },
    Escape {
        piece: "'",
        open: "'",
        in_literal: "''",
        in_identifier: "'",
    },
    Escape {
        piece: "\"",
        open: "'",
        in_literal: "\"",
        in_identifier: "\"\"",
    },
    Escape {
        piece: "\\",
        open: " E'",
        in_literal: "\\\\",
        in_identifier: "\\",
    },
    Escape {
        piece: "é'\"",
        open: "'",
        in_literal: "é''\"",
        in_identifier: "é'\"\"",
    },
];

// So many pieces, escaped in both ways.
fn is_escaped(escape: &Escape, count: usize) {
    let text = joined("", escape.piece, count, "");
    let literal = joined(escape.open, escape.in_literal, count, "'");
    let identifier = joined("\"", escape.in_identifier, count, "\"");
    assert!(escape_literal(Global, &text) == Ok(literal));
    assert!(escape_identifier(Global, &text) == Ok(identifier));
}

#[test]
fn long_texts_are_escaped() {
    for escape in &ESCAPES {
        is_escaped(escape, 100);
        is_escaped(escape, 100_000);
    }
}

const SALT: [u8; 16] = [1, 2, 3, 4, 5, 6, 7, 8, 9, 10, 11, 12, 13, 14, 15, 16];

// The texts were made by python3's `hashlib` and `hmac`.
#[test]
fn long_passwords_have_verifiers() {
    let short = joined("", "p", 1000, "");
    let password = joined("", "p", 100_000, "");
    let name = joined("", "u", 100_000, "");
    let verifier = scram_sha_256_salt(Global, short.as_bytes(), SALT, &NoPrep);
    let wanted =
        "SCRAM-SHA-256$4096:AQIDBAUGBwgJCgsMDQ4PEA==$MqHTeIBAypAlamHflntsk3zPy83+iYEDYEVin3aoA0I=:7QXhJ4hzUp9xadcB9Htgr/vq1ByQLTHpg7TSvQUfst8=";
    made(verifier, wanted);
    let key = md5(Global, password.as_bytes(), &name);
    made(key, "md553bd144500396c93c81d33cd009a3acd");
    let (name, password) = (name.as_bytes(), password.as_bytes());
    let answer = md5_hash(Global, name, password, [1, 2, 3, 4]);
    made(answer, "md56c6ea7c94ba1b5d4ec344a8c55f0595e");
}

fn copy(data: &[u8], buf: &mut BytesMut) -> Result<(), Error> {
    match CopyData::new(data)?.write(buf) {
        Ok(()) => Ok(()),
        Err(_) => Err(Error::OutOfMemory),
    }
}

// A piece of a copy has the same frame in both directions.
#[test]
fn a_megabyte_is_copied() {
    let data = joined("", "0123456789", 100_000, "");
    let mut buf = BytesMut::new();
    assert_eq!(copy(data.as_bytes(), &mut buf), Ok(()));
    assert_eq!(buf.len(), 1_000_005);
    assert!(buf.as_slice().starts_with(b"d\0\x0f\x42\x44"));
    assert_eq!(brings(&mut buf, data.as_bytes()), Ok(true));
    assert!(buf.is_empty());
}

// Asks for the text as a literal.
fn query_literal(text: &str, buf: &mut BytesMut) -> Result<(), Error> {
    let literal = escape_literal(Global, text)?;
    query(&joined("SELECT ", &literal, 1, ""), buf)
}

// A literal of 100,002 bytes in a query of 100,009.
#[test]
fn a_long_literal_is_sent() {
    let text = joined("", "a", 100_000, "");
    let mut buf = BytesMut::new();
    assert_eq!(query_literal(&text, &mut buf), Ok(()));
    let front = b"Q\0\x01\x86\xaeSELECT '";
    let sent = joined_bytes(front, b"a", 100_000, b"'\0");
    assert!(buf.as_slice() == sent.as_slice());
}

// The value is the text itself.
#[test]
fn a_long_text_is_a_value() {
    let text = joined("", "0123456789", 10_000, "");
    let mut buf = BytesMut::new();
    assert_eq!(text_to_sql(&text, &mut buf), Ok(()));
    assert_eq!(buf.len(), 100_000);
    assert!(buf.as_slice() == text.as_bytes());
}

// How many of the columns are the number 42.
fn columns_of_42(buf: &mut BytesMut) -> Result<usize, Error> {
    let row = next_row(buf)?;
    let mut count = 0usize;
    for value in &row_int4(Global, &row)? {
        if *value == Some(Ok(42)) {
            count += 1;
        }
    }
    Ok(count)
}

// A row of 1,000 numbers, in a frame of 8,007 bytes.
#[test]
fn a_long_row_has_numbers() {
    let open = b"D\0\0\x1f\x46\x03\xe8";
    let row = joined_bytes(open, b"\0\0\0\x04\0\0\0\x2a", 1000, b"");
    let mut buf = buffer(&row);
    assert_eq!(columns_of_42(&mut buf), Ok(1000));
    assert!(buf.is_empty());
}

fn feed(parser: &mut StreamParser, piece: &[u8]) -> Result<(), Error> {
    if parser.failed() {
        return Err(Error::OutOfMemory);
    }
    parser.feed(piece)
}

fn feed_two_thousand(parser: &mut StreamParser) -> Result<(), Error> {
    for _ in 0..2000 {
        feed(parser, b"1\0\0\0\x04")?;
    }
    Ok(())
}

// How long the last result's piece of a copy is.
fn last_copied(parser: &StreamParser) -> usize {
    match parser.results().last() {
        Some(Ok(Message::CopyData(body))) => body.data().len(),
        _ => 0,
    }
}

// A frame of a megabyte, cut in its middle, comes after 2,000 results that nobody took.
#[test]
fn a_megabyte_is_fed() {
    let mut parser = StreamParser::new(Global);
    assert_eq!(feed_two_thousand(&mut parser), Ok(()));
    let front = joined("d\0\x0f\x42\x44", "0123456789", 50_000, "");
    let back = joined("", "0123456789", 50_000, "");
    assert_eq!(feed(&mut parser, front.as_bytes()), Ok(()));
    assert_eq!(parser.results().len(), 2000);
    assert_eq!(parser.rest().len(), 500_005);
    assert_eq!(feed(&mut parser, back.as_bytes()), Ok(()));
    assert_eq!(last_copied(&parser), 1_000_000);
    assert_eq!(feed(&mut parser, b"1\0\0\0\x04"), Ok(()));
    assert_eq!(parser.results().len(), 2002);
    assert_eq!(parser.headers(), 2002);
    assert!(parser.rest().is_empty());
}

fn bind_names<B: Buffer>(names: &[&str], buf: &mut B) -> Result<(), BindError<Error>> {
    bind(
        "",
        "",
        None::<i16>,
        names,
        |name: &&str, buf: &mut B| -> Result<IsNull, Error> {
            text_to_sql(name, buf)?;
            Ok(IsNull::No)
        },
        None::<i16>,
        buf,
    )
}

// 10,000 names, as values of a message and as parameters of a startup packet.
#[test]
fn a_long_list_of_names_is_sent() -> Result<(), Fail> {
    let names = vec!["name"; 10_000];
    let parameters = vec![("name", "of"); 10_000];
    let mut buf = BytesMut::new();
    assert_eq!(bind_names(&names, &mut buf), Ok(()));
    let open = b"B\0\x01\x38\x8c\0\0\0\0\x27\x10";
    let sent = joined_bytes(open, b"\0\0\0\x04name", 10_000, b"\0\0");
    assert!(buf.as_slice() == sent.as_slice());
    let mut packet = BytesMut::new();
    let answer = startup_message(parameters.iter().copied(), &mut packet);
    assert_eq!(answer, Ok(()));
    let open = b"\0\x01\x38\x89\0\x03\0\0";
    let sent = joined_bytes(open, b"name\0of\0", 10_000, b"\0");
    assert!(packet.as_slice() == sent.as_slice());
    Ok(())
}
