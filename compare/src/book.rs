//! Tune books: their contents, their bodies of strike cards, the listing, and
//! the report of wear.

use crate::code::{decode, Card};
use crate::refusal::Refusal;
use crate::strike::meaning;
use std::collections::HashMap;
use std::fmt::Write;
use std::ops::Range;
use std::sync::Mutex;

pub const LONGEST_BOOK: usize = 65_536;
pub const LONGEST_BODY: usize = 65_532;

/// A text to be filled with a listing has at least this length: no listing is
/// longer.
pub const LISTING_MAX: usize = 131_072;

/// A run of cards whose wear is asked for has at most this width.
const WIDEST_RUN: usize = 64;

/// The width of the runs that are reported of a book.
const REPORTED_WIDTH: usize = 8;

/// What a refused card weighs: more than any damage that is mended.
const REFUSED_WEIGHT: u32 = 3;

pub(crate) const CARD_BYTES: usize = 12;

#[derive(Clone, Copy, PartialEq, Eq, Debug)]
pub struct Strike {
    pub bell: u32,
    pub force: u32,
    pub delay: u32,
    /// The rank of the card's damage.
    pub damage: u32,
}

/// Some cards in a row: the sum of their weights, and the number of the first,
/// counted from 1.
#[derive(Clone, Copy, PartialEq, Eq, Debug)]
pub struct Run {
    pub sum: u32,
    pub first: u32,
}

/// One entry of the contents.
struct Entry {
    tune: u32,
    offset: usize,
    cards: usize,
}

impl Entry {
    fn body(&self) -> Range<usize> {
        self.offset..self.offset + CARD_BYTES * self.cards
    }
}

/// The count of tunes ("Open").
pub fn open(book: &[u8]) -> Result<u32, Refusal> {
    Ok(contents(book)?.len() as u32)
}

/// Where in the book the body of a tune lies ("Pull").
pub fn tune_body(book: &[u8], number: u32) -> Result<Range<usize>, Refusal> {
    let entries = contents(book)?;
    let entry = entries.iter().find(|entry| entry.tune == number);
    Ok(entry.ok_or(Refusal::NoSuchTune)?.body())
}

/// The number and the count of cards of the tune at a place of the contents,
/// counted from 0.
pub fn tune_at(book: &[u8], place: u32) -> Result<[u32; 2], Refusal> {
    let entries = contents(book)?;
    let entry = entries.get(place as usize).ok_or(Refusal::NoSuchTune)?;
    Ok([entry.tune, entry.cards as u32])
}

/// The strike of a body's card, counted from 1 ("Read").
pub fn read_card(body: &[u8], number: u32) -> Result<Strike, Refusal> {
    let cards = cards(body)?;
    let place = (number as usize).checked_sub(1);
    let card = place.and_then(|place| cards.get(place));
    strike(card.ok_or(Refusal::NoSuchCard)?)
}

/// The delays of all cards together; or the refusal of the first card that
/// `read_card` refuses, if there is one ("Length").
pub fn total_delay(body: &[u8]) -> Result<u32, Refusal> {
    let strikes: Result<Vec<Strike>, Refusal> = cards(body)?.iter().map(strike).collect();
    Ok(strikes?.iter().map(|strike| strike.delay).sum())
}

/// The lowest number of a card that `read_card` refuses or finds damaged, if
/// there is such a card ("Worn").
pub fn damaged_card(body: &[u8]) -> Result<Option<u32>, Refusal> {
    let cards = cards(body)?;
    let worn = |card: &Card| strike(card).map_or(true, |strike| strike.damage > 0);
    let numbered = (1..).zip(&cards);
    Ok(numbered
        .filter(|(_, card)| worn(card))
        .map(|(number, _)| number)
        .min())
}

/// The heaviest of all runs of so many cards, and the first of those that weigh
/// the same. A card weighs the rank of its damage, or 3 if `read_card` refuses
/// it.
pub fn wear(body: &[u8], width: u32) -> Result<Run, Refusal> {
    let cards = cards(body)?;
    let width = width as usize;
    if width == 0 || width > WIDEST_RUN || width > cards.len() {
        return Err(Refusal::Width);
    }
    let weights: Vec<u32> = cards.iter().map(card_weight).collect();
    let sums = weights.windows(width).map(|run| run.iter().sum());
    let sums: Vec<u32> = sums.collect();
    let largest = sums.iter().max().expect("a run");
    let place = sums.iter().position(|sum| sum == largest);
    Ok(Run {
        sum: *largest,
        first: 1 + place.expect("its place") as u32,
    })
}

/// What a card weighs in a run.
fn card_weight(card: &Card) -> u32 {
    strike(card).map_or(REFUSED_WEIGHT, |strike| strike.damage)
}

/// The listing of a book, for a lent text of `text_len` bytes.
pub fn list(book: &[u8], text_len: usize) -> Result<String, Refusal> {
    match text_len < LISTING_MAX {
        true => Err(Refusal::Length),
        false => Ok(listing(book)),
    }
}

/// What the listing program prints for a book.
pub fn listing(book: &[u8]) -> String {
    tune_by_tune(book, list_tune)
}

/// What the program that reports wear prints for a book.
pub fn wear_report(book: &[u8]) -> String {
    tune_by_tune(book, report_tune)
}

/// The texts of all tunes in the order of the contents, each made of its entry
/// and its body; or the line that says that the book is refused.
fn tune_by_tune(book: &[u8], text: impl Fn(&Entry, &[u8]) -> String) -> String {
    match contents(book) {
        Ok(entries) => entries
            .iter()
            .map(|entry| text(entry, &book[entry.body()]))
            .collect(),
        Err(refusal) => format!("book refused {}\n", refusal.number()),
    }
}

fn list_tune(entry: &Entry, body: &[u8]) -> String {
    let mut text = format!("tune {} {}\n", entry.tune, entry.cards);
    for (number, card) in (1..).zip(cards(body).expect("a tune's body")) {
        list_card(&mut text, number, &card);
    }
    match total_delay(body) {
        Ok(ticks) => writeln!(text, "ticks {ticks}"),
        Err(_) => writeln!(text, "ticks unknown"),
    }
    .unwrap();
    text
}

fn list_card(text: &mut String, number: u32, card: &Card) {
    match strike(card) {
        Ok(s) => writeln!(
            text,
            "{number} {} {} {} {}",
            s.bell, s.force, s.delay, s.damage
        ),
        Err(refusal) => writeln!(text, "{number} refused {}", refusal.number()),
    }
    .unwrap();
}

fn report_tune(entry: &Entry, body: &[u8]) -> String {
    if entry.cards < REPORTED_WIDTH {
        return format!("{} short\n", entry.tune);
    }
    let run = wear(body, REPORTED_WIDTH as u32).expect("a tune with enough cards");
    format!("{} {} {}\n", entry.tune, run.sum, run.first)
}

fn big_endian(bytes: &[u8]) -> usize {
    bytes.iter().fold(0, |n, byte| n << 8 | usize::from(*byte))
}

fn contents(book: &[u8]) -> Result<Vec<Entry>, Refusal> {
    // A file of no bytes is a book of no tunes.
    if book.is_empty() {
        return Ok(vec![]);
    }
    if book.len() > LONGEST_BOOK {
        return Err(Refusal::BookSize);
    }
    let (count, rest) = book.split_at_checked(2).ok_or(Refusal::BookSize)?;
    let count = big_endian(count);
    let entries = rest.get(..8 * count).ok_or(Refusal::BookSize)?;
    let entries: Vec<Entry> = entries.chunks_exact(8).map(entry).collect();
    check_tune_numbers(entries.iter().map(|entry| entry.tune))?;
    check_layout(&entries, book.len())?;
    Ok(entries)
}

fn entry(bytes: &[u8]) -> Entry {
    Entry {
        tune: big_endian(&bytes[..2]) as u32,
        offset: big_endian(&bytes[2..6]),
        cards: big_endian(&bytes[6..]),
    }
}

/// Of the contents of a book, and of the numbers that are to be its contents.
pub(crate) fn check_tune_numbers(numbers: impl Iterator<Item = u32>) -> Result<(), Refusal> {
    let numbers: Vec<u32> = numbers.collect();
    let in_range = numbers.iter().all(|number| (1..=9_999).contains(number));
    let rising = numbers.windows(2).all(|pair| pair[0] < pair[1]);
    match in_range && rising {
        true => Ok(()),
        false => Err(Refusal::TuneNumbers),
    }
}

fn check_layout(entries: &[Entry], book_len: usize) -> Result<(), Refusal> {
    let mut end = 2 + 8 * entries.len();
    for entry in entries {
        if entry.cards == 0 || entry.offset != end {
            return Err(Refusal::Layout);
        }
        end = entry.body().end;
    }
    match end == book_len {
        true => Ok(()),
        false => Err(Refusal::Layout),
    }
}

/// The cards of a body.
fn cards(body: &[u8]) -> Result<Vec<Card>, Refusal> {
    if body.len() > LONGEST_BODY || !body.len().is_multiple_of(CARD_BYTES) {
        return Err(Refusal::Length);
    }
    let card = |bytes: &[u8]| std::array::from_fn(|i| big_endian(&bytes[2 * i..2 * i + 2]) as u16);
    Ok(body.chunks_exact(CARD_BYTES).map(card).collect())
}

/// The strike of one card. Each card is decoded once and then remembered,
/// because decoding tries all 531,441 messages.
fn strike(card: &Card) -> Result<Strike, Refusal> {
    static KNOWN: Mutex<Option<HashMap<Card, Result<Strike, Refusal>>>> = Mutex::new(None);
    let known = || KNOWN.lock().expect("no holder of the lock panics");
    if let Some(answer) = known().as_ref().and_then(|map| map.get(card)) {
        return *answer;
    }
    let answer = decode(2, card, 6, 4).and_then(|decoded| {
        let [bell, force, delay] = meaning(&decoded.message)?.map(u32::from);
        Ok(Strike {
            bell,
            force,
            delay,
            damage: decoded.distance,
        })
    });
    known()
        .get_or_insert_with(HashMap::new)
        .insert(*card, answer);
    answer
}
