//! The operations as the C interface has them, for the implementations that
//! are compared with the reference.

/// Every function returns 0 when done, or the number of a refusal, which
/// leaves the lists and the numbers that it was lent as they were.
pub trait Library {
    /// "Press".
    fn encode(k: u32, message: &[u16], word: &mut [u16]) -> u32;

    /// "Weigh".
    fn weight(symbols: &[u16], rank: &mut u32) -> u32;

    /// "Test".
    fn syndrome(k: u32, received: &[u16], values: &mut [u16]) -> u32;

    /// "Mend".
    fn decode(
        k: u32,
        received: &[u16],
        word: &mut [u16],
        message: &mut [u16],
        distance: &mut u32,
    ) -> u32;

    /// "Mend" with dead lines: bit i of a mask is line i. The rank is that of
    /// the difference without them.
    fn decode_dead(
        k: u32,
        received: &[u16],
        dead_rows: u32,
        dead_columns: u32,
        word: &mut [u16],
        message: &mut [u16],
        rank: &mut u32,
    ) -> u32;

    /// "Open".
    fn open(book: &[u8], tunes: &mut u32) -> u32;

    /// "Pull".
    fn tune_body(book: &[u8], number: u32, offset: &mut u32, length: &mut u32) -> u32;

    /// "Read"; the strike is the bell, the force, the delay and the damage.
    fn read_card(body: &[u8], number: u32, strike: &mut [u32; 4]) -> u32;

    /// "Length".
    fn total_delay(body: &[u8], ticks: &mut u32) -> u32;

    /// "Worn"; the card is 0 if none is damaged.
    fn damaged_card(body: &[u8], card: &mut u32) -> u32;

    /// The largest sum of weights over so many cards in a row, and the number of
    /// the first card of the first such run.
    fn wear(body: &[u8], width: u32, sum: &mut u32, first: &mut u32) -> u32;

    /// The tune at a place of the contents, counted from 0.
    fn tune_at(book: &[u8], place: u32, number: &mut u32, cards: &mut u32) -> u32;

    /// The listing of a book, or the line that says its refusal, at the start
    /// of the text; the rest of the text stays as it was.
    fn list(book: &[u8], text: &mut [u8], written: &mut usize) -> u32;

    /// The book of some tunes: their numbers, their counts of cards, and a
    /// bell, a force and a delay for each card.
    fn write_book(numbers: &[u16], counts: &[u16], strikes: &[u16], book: &mut [u8]) -> u32;

    /// How long a book with these counts of cards is.
    fn book_size(counts: &[u16], size: &mut usize) -> u32;

    /// The signed numbers of a card's symbols.
    fn levels(card: &[u16], levels: &mut [i16]) -> u32;

    /// The card whose symbols have these signed numbers.
    fn symbols(levels: &[i16], card: &mut [u16]) -> u32;

    /// The card of 36 samples of the cable.
    fn receive(samples: &[i16], card: &mut [u16]) -> u32;
}
