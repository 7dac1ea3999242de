//! Exchanges with drawn nonces, what is drawn or asked for besides, and names.

mod drawn;
mod mapped;
mod met;

use erased::kit::calls::Fail;
use erased::proved::pgp_auth::authentication::sasl::{ScramError, SCRAM_SHA_256, SCRAM_SHA_256_PLUS};

#[test]
fn names_of_the_mechanisms() {
    assert_eq!(SCRAM_SHA_256, "SCRAM-SHA-256");
    assert_eq!(SCRAM_SHA_256_PLUS, "SCRAM-SHA-256-PLUS");
}

// The names that no row has.
#[test]
fn refusals_show_their_names() -> Result<(), Fail> {
    let refusals: [(ScramError, u8, &str); 2] = [
        (ScramError::OutOfMemory, 1, "OutOfMemory"),
        (ScramError::WrongState, 2, "WrongState"),
    ];
    for (refusal, number, name) in refusals {
        let text = format!("{refusal}");
        assert_eq!(text.as_str(), name);
        assert_eq!(refusal.number(), number);
        drop(refusal);
    }
    Ok(())
}
