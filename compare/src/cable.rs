//! Levels on the tower cable: a digit 1 goes as plus one, a digit 2 as minus
//! one and a digit 0 as rest, so that a symbol is a signed number. That of a
//! symbol is found by carrying, and the symbol of a number by trying all.

use crate::code::{length, Card};
use crate::digits::Digits;
use crate::field::SYMBOLS;
use crate::refusal::Refusal;
use std::sync::OnceLock;

/// The least sample that is a plus; its negative is the greatest that is a
/// minus.
const STRONG: i16 = 8_192;

/// The number of a symbol.
pub fn signed(symbol: u16) -> Result<i16, Refusal> {
    let number = numbers().get(usize::from(symbol));
    number.copied().ok_or(Refusal::Range)
}

/// The symbol of a number.
pub fn symbol(number: i16) -> Result<u16, Refusal> {
    let place = numbers().iter().position(|other| *other == number);
    place.map(|place| place as u16).ok_or(Refusal::Range)
}

/// The numbers of a card's symbols, for a lent list of `levels_len`.
pub fn levels(card: &[u16], levels_len: usize) -> Result<[i16; 6], Refusal> {
    length(card.len(), 6)?;
    length(levels_len, 6)?;
    let mut levels = [0; 6];
    for (level, symbol) in levels.iter_mut().zip(card) {
        *level = signed(*symbol)?;
    }
    Ok(levels)
}

/// The card whose symbols have these numbers, for a lent card of `card_len`
/// symbols.
pub fn symbols(levels: &[i16], card_len: usize) -> Result<Card, Refusal> {
    length(levels.len(), 6)?;
    length(card_len, 6)?;
    let mut card = [0; 6];
    for (place, number) in card.iter_mut().zip(levels) {
        *place = symbol(*number)?;
    }
    Ok(card)
}

/// The card of 36 samples, for a lent card of `card_len` symbols.
pub fn receive(samples: &[i16], card_len: usize) -> Result<Card, Refusal> {
    length(samples.len(), 36)?;
    let numbers: Vec<i16> = samples.chunks(6).map(number).collect();
    symbols(&numbers, card_len)
}

/// The numbers of all symbols.
fn numbers() -> &'static [i16] {
    static NUMBERS: OnceLock<Vec<i16>> = OnceLock::new();
    NUMBERS.get_or_init(|| (0..SYMBOLS).map(carried).collect())
}

/// A symbol with every 2 carried: it becomes a minus one when 3 are taken from
/// its place.
fn carried(symbol: u16) -> i16 {
    let digits = Digits::of_number(symbol.into());
    let twos = (0..6).filter(|place| digits.digit(*place) == 2);
    twos.fold(symbol as i16, |number, place| number - 3 * 3i16.pow(place))
}

/// The number of six samples, the lowest digit first.
fn number(samples: &[i16]) -> i16 {
    let levels = samples.iter().map(|sample| (sample / STRONG).signum());
    levels.rev().fold(0, |number, level| 3 * number + level)
}
