//! Passwords, by python3's hashlib, and texts in SQL, by the PostgreSQL manual.
use postgres_protocol::{authentication, escape, password};

#[test]
fn md5() {
    assert_eq!(password::md5(b"secret", "foo"), "md54ab2c5d00339c4b2a4e921d2dc4edec7");
    assert_eq!(authentication::md5_hash(b"md5_user", b"password", [0x2a, 0x3d, 0x8f, 0xe0]), "md562af4dd09bbb41884907a838a3233294");
}

#[test]
fn a_verifier_has_its_own_salt() {
    let (first, second) = (password::scram_sha_256(b"secret"), password::scram_sha_256(b"secret"));
    assert!(first.starts_with("SCRAM-SHA-256$4096:"));
    assert_ne!(first, second);
}

#[test]
fn quotes() {
    assert_eq!(escape::escape_literal("f'oo"), "'f''oo'");
    assert_eq!(escape::escape_literal("f\\oo"), " E'f\\\\oo'");
    assert_eq!(escape::escape_identifier("f\"oo"), "\"f\"\"oo\"");
}
