//! The server's side of SCRAM: the exchange of RFC 7677.

use crate::memory::refused;
use erased::kit::asking::counted;
use erased::kit::Global;
use erased::proved::pgp_auth::authentication::sasl::{
    is_nonce, ChannelOffer, ScramServer, ServerError, StoredVerifier, VerifierError,
};
use erased::proved::pgp_base::Error;

/// Of the password `pencil`; the keys are python3's.
const STORED: &[u8] =
    b"SCRAM-SHA-256$4096:W22ZaJ0SNY7soEsUEjb6gQ==$WG5d8oPm3OtcPnkdi4Uo7BkeZkBFzpcXkuLmtbsT4qY=:wfPLwcE6nTWhTAmQ7tl2KeoiWGPlZqQxSrmfPwDl2dU=";

const FIRST: &[u8] = b"n,,n=user,r=rOprNGfwEbeRWgbNEkqO";

const FINAL: &[u8] =
    b"c=biws,r=rOprNGfwEbeRWgbNEkqO%hvYDpWUa2RaTCAfuxFIlj)hNlF$k0,p=dHzbZapWIk4jUhN+Ute9ytag9zjfMHgsqmmiz7AndVQ=";

fn verifier(is_mock: bool) -> Result<StoredVerifier, Error> {
    if is_mock {
        return StoredVerifier::mock(Global, b"secret", b"user");
    }
    StoredVerifier::parse(Global, STORED).map_err(|e| {
        assert!(matches!(e, VerifierError::OutOfMemory));
        Error::OutOfMemory
    })
}

fn begun(is_mock: bool) -> Result<ScramServer, Error> {
    let nonce = Global.text_of("%hvYDpWUa2RaTCAfuxFIlj)hNlF$k0")?;
    assert!(is_nonce(&nonce));
    Ok(ScramServer::with_nonce(
        verifier(is_mock)?,
        ChannelOffer::NotOffered,
        nonce,
    ))
}

/// Whether the proof is accepted. After a first text that was refused memory the exchange is over, and its last step takes no memory.
fn is_accepted(server: &mut ScramServer) -> Result<bool, Error> {
    let first = server.first(FIRST).map(|_| ());
    let end = server.finish(FINAL);
    match first {
        Ok(()) => {
            assert!(!matches!(end, Err(ServerError::OtherExchange)));
            Ok(end.is_ok())
        }
        Err(e) => {
            assert!(matches!(e, ServerError::OutOfMemory) && matches!(end, Err(ServerError::WrongState)));
            Err(Error::OutOfMemory)
        }
    }
}

#[test]
fn servers_with_each_allocation_refused() {
    for is_mock in [false, true] {
        let asked = refused(|| {
            let accepted = counted(|| is_accepted(&mut begun(is_mock)?))?;
            assert_eq!(accepted, !is_mock);
            Ok(())
        });
        assert!(asked >= 3, "{asked}");
    }
}
