//! The proved library against the reference.

use compare::capi::ProvedWithNull;

mod suite;

suite!(compare::capi::Proved);

/// Lists of all lengths, of which the empty ones are lent as NULL.
#[test]
fn empty_lists_as_null() {
    suite::empty::no_bytes::<ProvedWithNull>();
    suite::books::<ProvedWithNull>();
    suite::bodies::<ProvedWithNull>();
    suite::listing_lengths::<ProvedWithNull>();
    suite::writing::no_tunes::<ProvedWithNull>();
    suite::writing::any_lists::<ProvedWithNull>();
    suite::decode_lengths::<ProvedWithNull>();
    suite::dead::wrong_lengths::<ProvedWithNull>();
    suite::wear::wrong_lengths::<ProvedWithNull>();
    suite::cable::wrong_lengths::<ProvedWithNull>();
}
