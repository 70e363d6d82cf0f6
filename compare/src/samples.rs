//! Inputs for the tests and the programs: messages, errors of a given rank,
//! cards with damage and with dead lines, samples of the cable, books, and
//! tunes as lists and as text.

use crate::code;
use crate::digits::Digits;
use crate::field::{of_small, SMALL_NUMBERS, SYMBOLS};
use crate::random::Random;
use crate::rank::{rank, square, symbols, Square};
use crate::strike::{self, Fields, LARGEST_FIELDS, LARGEST_MESSAGE_BELL};
use crate::writer::Tunes;

pub use crate::writer::{body, book, card as strike_card};

/// The cards of the paper's book: two without damage, one with damage of rank
/// 1, and one that is refused.
pub const PAPER_CARDS: [code::Card; 4] = [
    [1, 3, 9, 27, 81, 243],
    [3, 279, 233, 650, 423, 163],
    [2, 3, 9, 27, 81, 243],
    [729, 3, 9, 27, 81, 243],
];

/// A message and a card made of its word and an error.
pub struct Sent {
    pub message: Vec<u16>,
    pub word: code::Card,
    pub received: code::Card,
}

pub fn message(random: &mut Random, k: u32) -> Vec<u16> {
    random.numbers(2 * k as usize, SMALL_NUMBERS)
}

/// Any six symbols.
pub fn card(random: &mut Random) -> code::Card {
    std::array::from_fn(|_| random.below(SYMBOLS.into()) as u16)
}

/// An error of exactly this rank: a sum of products of a symbol and a list of
/// six digits.
pub fn error(random: &mut Random, wanted: u32) -> Square {
    loop {
        let sum: Square = (0..wanted).map(|_| product(random)).sum();
        if rank(sum) == wanted {
            return sum;
        }
    }
}

fn product(random: &mut Random) -> Square {
    let symbol = Digits::of_number(random.below(SYMBOLS.into()));
    let factors = Digits::of_number(random.below(SYMBOLS.into()));
    (0..6)
        .map(|place| symbol.shift_up(6 * place).scale(factors.digit(place)))
        .sum()
}

/// A card with an error of the given rank added.
pub fn damaged(random: &mut Random, card: &code::Card, damage: u32) -> code::Card {
    symbols(square(card) + error(random, damage))
}

/// A strike card with the widest values, and damage.
pub fn widest_card(random: &mut Random) -> code::Card {
    damaged(random, &strike_card(LARGEST_FIELDS), 2)
}

/// The book with the longest listing: as many tunes as there can be, each of a
/// refused card, with high numbers; and for the last one the widest card too.
pub fn longest_listing() -> Vec<u8> {
    let refused = strike_card([LARGEST_FIELDS[0] + 1, 0, 0]);
    let numbers = 9_999 - 3_275..=9_999;
    let mut tunes: Vec<(u16, Vec<u8>)> = numbers.map(|n| (n, body(&[refused]))).collect();
    tunes[3_275].1 = body(&[refused, widest_card(&mut Random::new(6))]);
    book(&tunes)
}

/// A random message's word with an error of the given rank. For k = 2 four of
/// ten messages have a bell over the largest.
pub fn sent(random: &mut Random, k: u32, damage: u32) -> Sent {
    let message = message(random, k);
    sent_message(random, k, message, damage)
}

/// The same for k = 2, of a message that means a strike.
pub fn sent_strike(random: &mut Random, damage: u32) -> Sent {
    let message = strike::message(fields(random));
    sent_message(random, 2, message.to_vec(), damage)
}

/// The same for k = 2, of a message with a bell over the largest.
pub fn sent_no_bell(random: &mut Random, damage: u32) -> Sent {
    let [last, ..] = LARGEST_FIELDS;
    let over = 1 + random.below(u64::from(LARGEST_MESSAGE_BELL - last)) as u16;
    let [_, force, delay] = fields(random);
    let message = strike::message([last + over, force, delay]);
    sent_message(random, 2, message.to_vec(), damage)
}

fn sent_message(random: &mut Random, k: u32, message: Vec<u16>, damage: u32) -> Sent {
    let word = code::encode(k, &message, 6).expect("a message");
    let received = damaged(random, &word, damage);
    Sent {
        message,
        word,
        received,
    }
}

/// Masks of dead rows and of dead columns.
pub type Masks = [u32; 2];

/// How many lines are dead.
pub fn dead_lines(dead: Masks) -> u32 {
    dead[0].count_ones() + dead[1].count_ones()
}

/// A mask of so many lines.
pub fn mask(random: &mut Random, lines: u32) -> u32 {
    loop {
        let mask = random.below(64) as u32;
        if mask.count_ones() == lines {
            return mask;
        }
    }
}

/// All masks with which cards are decoded for k.
pub fn allowed_masks(k: u32) -> Vec<Masks> {
    let masks = (0..64 * 64).map(|number| [number / 64, number % 64]);
    masks.filter(|dead| dead_lines(*dead) <= 6 - k).collect()
}

/// The largest rank of damage in live lines that is always decoded, for masks
/// that are allowed.
pub fn live_radius(k: u32, dead: Masks) -> u32 {
    (6 - k - dead_lines(dead)) / 2
}

/// The digits of a square in dead lines, with 0 for all others.
pub fn dead_part(square: Square, dead: Masks) -> Square {
    let [dead_rows, dead_columns] = dead;
    let is_dead = |place: &u32| (dead_rows >> (place % 6) | dead_columns >> (place / 6)) & 1 == 1;
    (0..36)
        .filter(is_dead)
        .map(|place| square.part(place, 1).shift_up(place))
        .sum()
}

/// The digits of a square in live lines, with 0 for all others.
pub fn live_part(square: Square, dead: Masks) -> Square {
    square - dead_part(square, dead)
}

/// A random message's word with an error of the given rank in live lines, and
/// with anything in dead ones.
pub fn sent_dead(random: &mut Random, k: u32, dead: Masks, damage: u32) -> Sent {
    let sent = sent(random, k, 0);
    let error = live_error(random, dead, damage) + dead_part(square(&card(random)), dead);
    Sent {
        received: symbols(square(&sent.word) + error),
        ..sent
    }
}

/// An error of exactly this rank, with 0 in dead lines.
fn live_error(random: &mut Random, dead: Masks, wanted: u32) -> Square {
    loop {
        let sum: Square = (0..wanted).map(|_| product(random)).sum();
        let error = live_part(sum, dead);
        if rank(error) == wanted {
            return error;
        }
    }
}

/// A card most of whose symbols are 0, or all the same.
pub fn sparse_card(random: &mut Random) -> code::Card {
    if random.chance(4) {
        return [random.below(SYMBOLS.into()) as u16; 6];
    }
    let mut card = [0; 6];
    for _ in 0..=random.below(3) {
        card[random.below(6) as usize] = random.below(SYMBOLS.into()) as u16;
    }
    card
}

/// A random message's word with an error whose symbols are in the small
/// field, so that its rank is at most 3.
pub fn small_field_damage(random: &mut Random, k: u32) -> code::Card {
    let word = sent(random, k, 0).word;
    let error = std::array::from_fn(|_| match random.chance(2) {
        true => of_small(random.below(SMALL_NUMBERS.into()) as u16).symbol(),
        false => 0,
    });
    symbols(square(&word) + square(&error))
}

/// The least and the greatest sample that stands for each digit.
const SAMPLES: [[i16; 2]; 3] = [[-8_191, 8_191], [8_192, 32_767], [-32_768, -8_192]];

/// Any sample that stands for a digit, often the least or the greatest.
fn sample(random: &mut Random, digit: u64) -> i16 {
    let [least, greatest] = SAMPLES[digit as usize];
    match random.below(8) {
        0 => least,
        1 => greatest,
        _ => {
            let count = 1 + i32::from(greatest) - i32::from(least);
            least + random.below(count as u64) as i16
        }
    }
}

/// A card on the cable: a sample for each digit.
pub fn on_cable(random: &mut Random, card: &code::Card) -> Vec<i16> {
    let square = square(card);
    (0..36)
        .map(|place| sample(random, square.digit(place)))
        .collect()
}

/// What a list to be filled may hold before.
pub fn junk(random: &mut Random, count: usize) -> Vec<u16> {
    random.numbers(count, u16::MAX)
}

/// What a list of signed numbers may hold.
pub fn signed_junk(random: &mut Random, count: usize) -> Vec<i16> {
    (0..count).map(|_| random.bits() as i16).collect()
}

/// A strike, with fields in their ranges.
fn fields(random: &mut Random) -> Fields {
    LARGEST_FIELDS.map(|most| random.below(u64::from(most) + 1) as u16)
}

/// So many strikes, in their ranges.
pub fn strikes(random: &mut Random, count: usize) -> Vec<u16> {
    (0..count).flat_map(|_| fields(random)).collect()
}

/// So many tune numbers, rising from 1 at least to 9,999 at most.
pub fn tune_numbers(random: &mut Random, count: usize) -> Vec<u16> {
    let mut last = 0;
    let number = |_| {
        last += 1 + random.below(9_999 / count as u64) as u16;
        last
    };
    (0..count).map(number).collect()
}

/// Tunes with so many cards each.
pub fn tunes(random: &mut Random, counts: &[u16]) -> Tunes {
    let cards = counts.iter().map(|count| usize::from(*count)).sum();
    Tunes {
        numbers: tune_numbers(random, counts.len()),
        counts: counts.to_vec(),
        strikes: strikes(random, cards),
    }
}

/// The listing of a book of these tunes without damage.
pub fn listing(tunes: &Tunes) -> String {
    let mut text = String::new();
    let mut strikes = tunes.strikes.chunks_exact(3);
    for (number, count) in tunes.numbers.iter().zip(&tunes.counts) {
        text += &format!("tune {number} {count}\n");
        let mut ticks = 0;
        for (card, strike) in (1..=*count).zip(&mut strikes) {
            text += &format!("{card} {} {} {} 0\n", strike[0], strike[1], strike[2]);
            ticks += u32::from(strike[2]);
        }
        text += &format!("ticks {ticks}\n");
    }
    text
}

/// A text that says the tunes, with blanks, empty lines and comments.
pub fn text(random: &mut Random, tunes: &Tunes) -> Vec<u8> {
    let mut text = String::new();
    let mut strikes = tunes.strikes.chunks(3);
    for (number, count) in tunes.numbers.iter().zip(&tunes.counts) {
        text += &lines(random, "tune", &[*number]);
        for strike in strikes.by_ref().take((*count).into()) {
            text += &lines(random, "", strike);
        }
    }
    if random.chance(3) {
        // The last line needs no end.
        text.pop();
    }
    text.into_bytes()
}

/// A line of a word, if there is one, and numbers; at times after others that
/// say nothing.
fn lines(random: &mut Random, word: &str, numbers: &[u16]) -> String {
    let mut lines = String::new();
    while random.chance(6) {
        let nothing = ["", "\r", " \t ", "#", "# tune 1", "\t#1 2 3", "#\0\u{e9}"];
        lines += *random.pick(&nothing);
        lines += "\n";
    }
    lines += *random.pick(&["", "", "", " ", "\t"]);
    lines += word;
    for (place, number) in numbers.iter().enumerate() {
        if place > 0 || !word.is_empty() {
            lines += *random.pick(&[" ", " ", " ", "  ", "\t", " \t\r "]);
        }
        if random.chance(8) {
            let most = if random.chance(20) { 100 } else { 3 };
            lines += &"0".repeat(random.below(most) as usize);
        }
        lines += &number.to_string();
    }
    lines += *random.pick(&["", "", "", " ", "\r"]);
    lines + "\n"
}
