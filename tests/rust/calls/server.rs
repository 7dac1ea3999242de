//! What no row of `test_rows` says of a client's messages that are read: lists of as many items as a count says.

use bytes::BytesMut;
use erased::kit::AsSlice as _;
use erased::proved::pgp_base::FallibleIterator;
use erased::proved::pgp_frontend::parse;
use erased::proved::pgp_frontend_read::{ClientMessage, ClientMessages, PasswordKind};

/// How many items a count says at the most.
const MOST: u32 = 65_535;

/// How many items the iterator gives, and their sum.
fn weighed(mut walk: impl FallibleIterator<Item = u32>) -> (u32, u64) {
    let (mut items, mut sum) = (0u32, 0u64);
    for _ in 0..=MOST {
        let item = match walk.next() {
            Ok(Some(item)) => item,
            _ => {
                break;
            }
        };
        items += 1;
        sum = sum.saturating_add(item.into());
    }
    (items, sum)
}

// The numbers 0 to 65,534 come to 65,534 * 65,535 / 2.
#[test]
fn a_list_as_long_as_its_count_is_read() {
    let mut buf = BytesMut::new();
    assert_eq!(parse("", "", 0..MOST, &mut buf), Ok(()));
    let mut messages = ClientMessages::resume(buf.as_slice(), true);
    match messages.next(PasswordKind::Password) {
        Ok(Some(ClientMessage::Parse { param_types, .. })) => {
            assert_eq!(weighed(param_types), (MOST, 2_147_385_345));
        }
        _ => panic!("what was wanted didn't come"),
    }
    assert_eq!(messages.rest(), b"".as_slice());
}
