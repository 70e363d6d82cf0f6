//! The shortest files: that of no bytes, which is a book of no tunes, and those
//! of one byte and of two.

use super::{check_listing, expect_known};
use compare::book::{listing, LISTING_MAX};
use compare::call::Call;
use compare::library::Library;
use compare::random::Random;

/// What is asked for, as the number of a tune and as a place of the contents.
const NUMBERS: [u32; 9] = [0, 1, 2, 9_999, 10_000, 65_535, 65_536, 1 << 31, u32::MAX];

/// A file with no tunes in it, whether it is a book or not.
fn check_file<L: Library>(book: &[u8], is_book: bool) {
    let (count, refusal) = match is_book {
        true => (Ok(vec![0]), 8),
        false => (Err(5), 5),
    };
    let book = book.to_vec();
    expect_known::<L>(Call::Open { book: book.clone() }, count);
    for number in NUMBERS {
        let (place, book) = (number, book.clone());
        let pull = Call::TuneBody {
            number,
            book: book.clone(),
        };
        expect_known::<L>(pull, Err(refusal));
        expect_known::<L>(Call::TuneAt { place, book }, Err(refusal));
    }
}

/// The listing of a file, into a text that holds something before.
fn check_text<L: Library>(book: &[u8], text: &str, before: &[u8]) {
    assert_eq!(listing(book), text, "{book:?}");
    check_listing::<L>(book, before);
}

pub fn no_bytes<L: Library>() {
    let before = Random::new(7_000).bytes(LISTING_MAX);
    check_file::<L>(&[], true);
    check_text::<L>(&[], "", &before);
}

/// All files of one byte.
pub fn one_byte<L: Library>() {
    let before = Random::new(7_100).bytes(LISTING_MAX);
    for byte in 0..=255 {
        check_file::<L>(&[byte], false);
        check_text::<L>(&[byte], "book refused 5\n", &before);
    }
}

/// All files of two bytes: a book is only that of zeros.
pub fn two_bytes<L: Library>() {
    for bytes in 0..=u16::MAX {
        check_file::<L>(&bytes.to_be_bytes(), bytes == 0);
    }
}
