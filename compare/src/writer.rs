//! The writing of tune books: from tune numbers, counts of cards, and strikes
//! to contents and bodies.

use crate::book::{check_tune_numbers, CARD_BYTES, LONGEST_BOOK};
use crate::code::{encode, length, Card};
use crate::refusal::Refusal;
use crate::strike::{self, check_fields, Fields};

const ENTRY_BYTES: usize = 8;

/// Tunes as `write_book` takes them.
#[derive(Clone, PartialEq, Eq, Debug, Default)]
pub struct Tunes {
    pub numbers: Vec<u16>,
    /// The counts of cards.
    pub counts: Vec<u16>,
    /// A bell, a force and a delay for each card.
    pub strikes: Vec<u16>,
}

/// The bytes of a book with these counts of cards.
pub fn book_size(counts: &[u16]) -> Result<usize, Refusal> {
    // No list is so long that this could overflow.
    let cards: u128 = counts.iter().map(|count| u128::from(*count)).sum();
    let contents = 2 + (ENTRY_BYTES * counts.len()) as u128;
    let size = contents + CARD_BYTES as u128 * cards;
    match size > LONGEST_BOOK as u128 {
        true => Err(Refusal::BookSize),
        false => Ok(size as usize),
    }
}

/// The book of some tunes, for a lent book of `book_len` bytes. The strikes
/// are a bell, a force and a delay for each card of the first tune, then for
/// those of the second, and so on.
pub fn write_book(
    numbers: &[u16],
    counts: &[u16],
    strikes: &[u16],
    book_len: usize,
) -> Result<Vec<u8>, Refusal> {
    check_fields(strikes)?;
    length(counts.len(), numbers.len())?;
    let size = book_size(counts)?;
    check_tune_numbers(numbers.iter().map(|number| u32::from(*number)))?;
    if counts.contains(&0) {
        return Err(Refusal::Layout);
    }
    let counts = || counts.iter().map(|count| usize::from(*count));
    length(strikes.len(), 3 * counts().sum::<usize>())?;
    length(book_len, size)?;
    let (strikes, _) = strikes.as_chunks();
    let mut cards = strikes.iter().map(|strike| card(*strike));
    let bodies = counts().map(|count| body(&cards.by_ref().take(count).collect::<Vec<Card>>()));
    let tunes: Vec<(u16, Vec<u8>)> = numbers.iter().copied().zip(bodies).collect();
    Ok(book(&tunes))
}

/// The card of a strike; and of what would be one, but for its bell.
pub fn card(strike: Fields) -> Card {
    encode(2, &strike::message(strike), 6).expect("a message")
}

/// The bytes of some cards, one after the other.
pub fn body(cards: &[Card]) -> Vec<u8> {
    let symbols = cards.iter().flatten();
    symbols.flat_map(|symbol| symbol.to_be_bytes()).collect()
}

/// A well-formed book of tunes with these numbers and bodies.
pub fn book(tunes: &[(u16, Vec<u8>)]) -> Vec<u8> {
    let mut book = (tunes.len() as u16).to_be_bytes().to_vec();
    let mut offset = 2 + ENTRY_BYTES * tunes.len();
    for (number, body) in tunes {
        book.extend(number.to_be_bytes());
        book.extend((offset as u32).to_be_bytes());
        book.extend(((body.len() / CARD_BYTES) as u16).to_be_bytes());
        offset += body.len();
    }
    book.extend(tunes.iter().flat_map(|(_, body)| body));
    book
}
