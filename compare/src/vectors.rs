//! Some hundreds of calls, for a program that reads them as lines (see
//! `call`): the paper's cases, edges, and random inputs. The lists are short.

use crate::cable;
use crate::call::Call;
use crate::code::{self, Card};
use crate::random::Random;
use crate::samples::{self, junk, signed_junk, Masks, PAPER_CARDS};
use crate::writer::{book_size, Tunes};

/// The seed of the calls that are stored with the program.
pub const STORED: u64 = 1;

/// What lists to be filled hold before.
const FILL: u16 = 99;

/// What lists of signed numbers to be filled hold before.
const SIGNED_FILL: i16 = -99;

/// What books to be filled hold before.
const FILL_BYTE: u8 = 9;

pub fn calls(seed: u64) -> Vec<Call> {
    let mut calls = paper_cases();
    let random = &mut Random::new(seed);
    for k in 1..=5 {
        calls.extend(message_calls(random, k));
        calls.extend(card_calls(random, k));
    }
    calls.extend(book_calls(random));
    calls.extend(body_calls(random));
    calls.extend(hole_calls());
    calls.extend(bell_calls(random));
    calls.extend(no_bell_calls(random));
    calls.extend(place_calls(random));
    calls.extend(empty_file_calls());
    calls.extend(write_calls(random));
    calls.extend(size_calls());
    calls.extend(dead_cases());
    calls.extend(dead_calls(random));
    calls.extend(dead_refusals(random));
    calls.extend(single_calls(random));
    calls.extend(level_calls(random));
    calls.extend(level_refusals(random));
    calls.extend(threshold_calls());
    calls.extend(receive_calls(random));
    calls.extend(wear_cases());
    calls.extend(wear_refusals());
    calls.extend(wear_calls(random));
    calls.extend(wide_runs());
    calls
}

fn encode(k: u32, message: &[u16]) -> Call {
    Call::Encode {
        k,
        message: message.to_vec(),
        word: vec![FILL; 6],
    }
}

fn weight(symbols: &[u16]) -> Call {
    Call::Weight {
        symbols: symbols.to_vec(),
    }
}

/// With a list to fill that is as long as it should be, if k is 1 to 5.
fn syndrome(k: u32, received: &[u16]) -> Call {
    Call::Syndrome {
        k,
        received: received.to_vec(),
        values: vec![FILL; 12u32.saturating_sub(2 * k.min(6)) as usize],
    }
}

/// With lists to fill that are as long as they should be, if k is 1 to 5.
fn decode(k: u32, received: &[u16]) -> Call {
    Call::Decode {
        k,
        received: received.to_vec(),
        word: vec![FILL; 6],
        message: vec![FILL; 2 * k.min(6) as usize],
    }
}

/// With lists to fill that are as long as they should be, if k is 1 to 5.
fn decode_dead(k: u32, dead: Masks, received: &[u16]) -> Call {
    Call::DecodeDead {
        k,
        dead_rows: dead[0],
        dead_columns: dead[1],
        received: received.to_vec(),
        word: vec![FILL; 6],
        message: vec![FILL; 2 * k.min(6) as usize],
    }
}

fn open(book: &[u8]) -> Call {
    Call::Open {
        book: book.to_vec(),
    }
}

fn tune_body(book: &[u8], number: u32) -> Call {
    Call::TuneBody {
        number,
        book: book.to_vec(),
    }
}

fn read_card(body: &[u8], number: u32) -> Call {
    Call::ReadCard {
        number,
        body: body.to_vec(),
    }
}

fn total_delay(body: &[u8]) -> Call {
    Call::TotalDelay {
        body: body.to_vec(),
    }
}

fn damaged_card(body: &[u8]) -> Call {
    Call::DamagedCard {
        body: body.to_vec(),
    }
}

fn tune_at(book: &[u8], place: u32) -> Call {
    Call::TuneAt {
        place,
        book: book.to_vec(),
    }
}

/// With a book to fill that is as long as it should be, if there is one.
fn write_book(tunes: &Tunes) -> Call {
    let size = book_size(&tunes.counts).unwrap_or(22);
    write_book_of(tunes, size)
}

/// With a book of so many bytes to fill.
fn write_book_of(tunes: &Tunes, size: usize) -> Call {
    let tunes = tunes.clone();
    Call::WriteBook {
        numbers: tunes.numbers,
        counts: tunes.counts,
        strikes: tunes.strikes,
        book: vec![FILL_BYTE; size],
    }
}

fn levels(card: &[u16]) -> Call {
    Call::Levels {
        card: card.to_vec(),
        levels: vec![SIGNED_FILL; 6],
    }
}

fn symbols(levels: &[i16]) -> Call {
    Call::Symbols {
        levels: levels.to_vec(),
        card: vec![FILL; 6],
    }
}

fn receive(samples: &[i16]) -> Call {
    Call::Receive {
        samples: samples.to_vec(),
        card: vec![FILL; 6],
    }
}

fn wear(body: &[u8], width: u32) -> Call {
    Call::Wear {
        width,
        body: body.to_vec(),
    }
}

/// The paper's cases, with and without a star, and its book.
fn paper_cases() -> Vec<Call> {
    let body = samples::body(&PAPER_CARDS);
    let book = samples::book(&[(7, body.clone())]);
    let mut calls = vec![
        encode(1, &[1, 0]),
        encode(1, &[0, 1]),
        encode(2, &[0, 1, 0, 0]),
        encode(2, &[0, 0, 0, 1]),
        decode(1, &[1, 3, 9, 0, 0, 0]),
        decode(2, &[1, 3, 0, 0, 0, 0]),
        decode(3, &[1, 3, 0, 0, 0, 0]),
        decode(3, &[1, 0, 0, 0, 0, 0]),
        decode(4, &[1; 6]),
        decode(5, &[1, 0, 0, 0, 0, 0]),
        weight(&[728; 6]),
        weight(&[729, 0, 0, 0, 0, 0]),
        encode(1, &[26, 26]),
        encode(1, &[26, 27]),
        open(&[0]),
        open(&[0, 0]),
        open(&[0, 0, 0]),
        open(&book),
        tune_body(&book, 7),
        total_delay(&body),
    ];
    for k in [0, 6, u32::MAX] {
        calls.extend([
            encode(k, &vec![0; 2 * k.min(6) as usize]),
            syndrome(k, &[0; 6]),
            decode(k, &[0; 6]),
        ]);
    }
    calls.extend((0..=5).map(|number| read_card(&body, number)));
    calls
}

fn message_calls(random: &mut Random, k: u32) -> Vec<Call> {
    let message = || samples::message(&mut Random::new(u64::from(k)), k);
    let mut calls = vec![];
    for _ in 0..10 {
        calls.push(encode(k, &samples::message(random, k)));
    }
    for value in [26, 27, 65_535] {
        let mut message = message();
        *message.last_mut().expect("a message") = value;
        calls.push(encode(k, &message));
    }
    calls.push(encode(k, &message()[1..]));
    calls.push(encode(k, &[message(), vec![27]].concat()));
    for word_len in [5, 7] {
        calls.push(Call::Encode {
            k,
            message: message(),
            word: junk(random, word_len),
        });
    }
    calls
}

fn card_calls(random: &mut Random, k: u32) -> Vec<Call> {
    let mut cards: Vec<Card> = vec![];
    for damage in [0, 0, 0, 0, 1, 1, 1, 1, 2, 2, 2, 2, 3, 3, 4, 5, 6] {
        cards.push(samples::sent(random, k, damage).received);
    }
    cards.extend((0..4).map(|_| samples::card(random)));
    cards.extend((0..2).map(|_| samples::sparse_card(random)));
    cards.extend((0..2).map(|_| samples::small_field_damage(random, k)));
    for symbol in [728, 729, 65_535] {
        let mut card = samples::sent(random, k, 0).word;
        card[random.below(6) as usize] = symbol;
        cards.push(card);
    }
    let mut calls = vec![];
    for card in &cards {
        calls.push(decode(k, card));
    }
    for card in cards.iter().step_by(2) {
        calls.extend([weight(card), syndrome(k, card)]);
    }
    calls.extend(wrong_lengths(random, k));
    calls
}

fn wrong_lengths(random: &mut Random, k: u32) -> Vec<Call> {
    let (message_len, values_len) = (2 * k as usize, 12 - 2 * k as usize);
    let mut calls = vec![weight(&[0; 5]), weight(&[729; 7])];
    for [card, other] in [[5, 0], [7, 0], [6, 1]] {
        calls.push(Call::Syndrome {
            k,
            received: random.numbers(card, 1_000),
            values: junk(random, values_len + other),
        });
    }
    for [card, word, other] in [[5, 6, 0], [6, 7, 0], [6, 6, 1]] {
        calls.push(Call::Decode {
            k,
            received: random.numbers(card, 1_000),
            word: junk(random, word),
            message: junk(random, message_len + other),
        });
    }
    calls
}

/// Cards that are read without damage.
fn words(random: &mut Random, count: usize) -> Vec<Card> {
    (0..count)
        .map(|_| samples::sent_strike(random, 0).word)
        .collect()
}

fn book_calls(random: &mut Random) -> Vec<Call> {
    let tunes: Vec<(u16, Vec<u8>)> = [(3, 1), (700, 3), (9_999, 2)]
        .map(|(number, cards)| (number, samples::body(&words(random, cards))))
        .to_vec();
    let book = samples::book(&tunes);
    let mut calls = vec![open(&book)];
    for number in [0, 2, 3, 4, 700, 9_999, 10_000, 65_539] {
        calls.push(tune_body(&book, number));
    }
    for len in [2, 3, 9, 10, 25, 26, 27, book.len() - 12, book.len() - 1] {
        calls.push(open(&book[..len]));
    }
    calls.push(open(&[book.clone(), vec![0]].concat()));
    for numbers in [[0, 1], [3, 3], [4, 3], [256, 255], [9_999, 10_000]] {
        let tunes = numbers.map(|number| (number, vec![0; 12]));
        calls.push(open(&samples::book(&tunes)));
    }
    // Faults in each byte of the contents.
    for place in 0..26 {
        let mut faulty = book.clone();
        faulty[place] ^= *random.pick(&[1, 2, 16, 128, 255]);
        calls.push(open(&faulty));
        calls.push(tune_body(&faulty, 700));
    }
    calls
}

fn body_calls(random: &mut Random) -> Vec<Call> {
    let mut calls = vec![];
    for damage in 0..24 {
        let mut cards = words(random, 4);
        let place = random.below(4) as usize;
        cards[place] = samples::damaged(random, &cards[place], damage % 4);
        if damage > 20 {
            cards[place][damage as usize % 6] = 729;
        }
        let body = samples::body(&cards);
        calls.extend([1 + place as u32, 1, 4].map(|number| read_card(&body, number)));
        calls.extend([total_delay(&body), damaged_card(&body)]);
    }
    let body = samples::body(&words(random, 3));
    for len in [0, 1, 11, 12, 13, 24, 35] {
        let body = &body[..len];
        calls.extend([read_card(body, 1), total_delay(body), damaged_card(body)]);
    }
    for number in [0, 3, 4, 65_537, u32::MAX] {
        calls.push(read_card(&body, number));
    }
    calls
}

/// A mended card and a refused one, either before the other; and two that are
/// refused for another reason each.
fn hole_calls() -> Vec<Call> {
    let [whole, mended, outside] = [1, 2, 729].map(|first| [first, 3, 9, 27, 81, 243]);
    let far = [1, 3, 9, 0, 0, 0];
    let no_bell = samples::strike_card([48, 0, 0]);
    let mut calls = vec![];
    for cards in [
        [whole, mended, outside],
        [whole, outside, mended],
        [whole, far, outside],
        [mended, outside, far],
        [whole, mended, far],
        [whole, no_bell, mended],
        [mended, no_bell, whole],
        [whole, no_bell, far],
        [whole, far, no_bell],
        [no_bell, outside, whole],
        [outside, no_bell, whole],
        [whole, whole, no_bell],
    ] {
        let body = samples::body(&cards);
        calls.extend([total_delay(&body), damaged_card(&body)]);
    }
    calls
}

/// The last bells of registers and the first, the largest of a strike and the
/// largest of a message, damaged and whole; and every value 1 of a message, with
/// values 0 about those that make the largest bell.
fn bell_calls(random: &mut Random) -> Vec<Call> {
    let mut calls = vec![];
    for bell in [26, 27, 47, 48, 53, 54, 80] {
        for (force, damage) in [(0, 0), (8, 0), (4, 1), (7, 2), (1, 3)] {
            let card = samples::strike_card([bell, force, 700 + bell % 27]);
            let body = samples::body(&[samples::damaged(random, &card, damage)]);
            calls.push(read_card(&body, 1));
            if force == 8 {
                calls.extend([total_delay(&body), damaged_card(&body), wear(&body, 1)]);
            }
        }
    }
    for second in 0..27 {
        for first in [[20, 21], [0, 26]][usize::from(second % 2)] {
            let card = code::encode(2, &[first, second, 2, second], 6).expect("a message");
            calls.push(read_card(&samples::body(&[card]), 1));
        }
    }
    calls
}

/// A card with a bell over the largest among cards that are read: in each place,
/// with damage of each rank that is mended; and one with a symbol out of range
/// besides.
fn no_bell_calls(random: &mut Random) -> Vec<Call> {
    let mut calls = vec![];
    for place in 0..3 {
        for damage in 0..3 {
            let mut cards = words(random, 3);
            cards[place as usize] = samples::sent_no_bell(random, damage).received;
            let body = samples::body(&cards);
            calls.extend([1, 2].map(|number| read_card(&body, place + number)));
            calls.extend([total_delay(&body), damaged_card(&body)]);
            calls.push(wear(&body, 1 + damage));
        }
    }
    let mut outside = samples::sent_no_bell(random, 0).word;
    outside[5] = 729;
    calls.push(read_card(&samples::body(&[outside]), 1));
    calls
}

/// Places of the contents: all of them, those past the last, some that are a
/// place in their low bits or after a product by the 8 bytes of an entry, and
/// books that are refused or have no tunes.
fn place_calls(random: &mut Random) -> Vec<Call> {
    let one = || vec![0; 12];
    let book = samples::book(&[(1, one()), (256, [one(), one()].concat()), (9_999, one())]);
    let places = [0, 1, 2, 3, 4, 255, 256, 65_536, 65_538, 1 << 29, 1 << 31];
    let mut calls: Vec<Call> = places.map(|place| tune_at(&book, place)).to_vec();
    calls.push(tune_at(&book, u32::MAX));
    for book in [&[][..], &[0], &[0, 0], &[0, 0, 0], &[0, 1], &[255; 10]] {
        calls.extend([0, 1].map(|place| tune_at(book, place)));
    }
    for len in [9, 25, 26, book.len() - 1] {
        calls.push(tune_at(&book[..len], 0));
    }
    for numbers in [[0, 1], [3, 3], [9_999, 10_000]] {
        let tunes = numbers.map(|number| (number, one()));
        calls.push(tune_at(&samples::book(&tunes), 0));
    }
    // A fault in each byte of the contents.
    let small = samples::book(&[(3, one()), (700, one())]);
    for place in 0..18 {
        let mut faulty = small.clone();
        faulty[place] ^= *random.pick(&[1, 2, 16, 128, 255]);
        calls.push(tune_at(&faulty, 1 + place as u32 % 2));
    }
    calls
}

/// The file of no bytes, from which no tune can be pulled; files of one byte,
/// which are refused first; and no tunes, for books that are not two bytes long.
fn empty_file_calls() -> Vec<Call> {
    let mut calls = vec![tune_at(&[], u32::MAX)];
    for book in [&[][..], &[1], &[255]] {
        calls.push(open(book));
    }
    for number in [0, 1, 9_999, 10_000, u32::MAX] {
        calls.push(tune_body(&[], number));
    }
    for book in [&[0][..], &[1], &[255], &[0, 0]] {
        calls.push(tune_body(book, 1));
    }
    for size in [0, 1, 3] {
        calls.push(write_book_of(&Tunes::default(), size));
    }
    calls
}

/// Books to be written: good ones, as many tunes and cards as the program
/// takes, each boundary, and each refusal before those that come after it.
fn write_calls(random: &mut Random) -> Vec<Call> {
    let mut calls = vec![];
    for counts in [&[][..], &[1], &[3], &[1, 2], &[2, 1, 1], &[1; 16], &[32]] {
        calls.push(write_book(&samples::tunes(random, counts)));
    }
    for strike in [
        [0, 0, 0],
        [1, 0, 0],
        [0, 1, 0],
        [0, 0, 1],
        [0, 0, 5],
        [0, 0, 135],
        [0, 8, 0],
        [26, 8, 728],
        [27, 0, 0],
        [27, 8, 0],
        [47, 0, 0],
        [47, 8, 728],
    ] {
        calls.push(write_book(&tunes(&[7], &[1], &strike)));
    }
    // Each field out of its range, of whole strikes and of a part of one.
    for (place, field) in [
        (0, 48),
        (0, 53),
        (0, 54),
        (0, 80),
        (0, 303),
        (1, 9),
        (1, 26),
        (2, 729),
        (3, 65_535),
        (4, 264),
        (5, 65_535),
    ] {
        let mut tunes = samples::tunes(random, &[1, 1]);
        tunes.strikes[place] = field;
        calls.push(write_book(&tunes));
    }
    for strikes in [&[48][..], &[0, 9], &[47, 8, 728, 48], &[0, 0, 0, 47, 9]] {
        calls.push(write_book(&tunes(&[1], &[1], strikes)));
    }
    for numbers in [
        [0, 1],
        [3, 3],
        [4, 3],
        [256, 255],
        [9_998, 9_999],
        [9_999, 10_000],
    ] {
        calls.push(write_book(&tunes(&numbers, &[1, 1], &[1, 2, 3, 4, 5, 6])));
    }
    calls.extend(wrong_books());
    calls
}

fn tunes(numbers: &[u16], counts: &[u16], strikes: &[u16]) -> Tunes {
    Tunes {
        numbers: numbers.to_vec(),
        counts: counts.to_vec(),
        strikes: strikes.to_vec(),
    }
}

/// Wrong lengths, and each refusal with all that come after it.
fn wrong_books() -> Vec<Call> {
    let good = tunes(&[3, 700], &[1, 1], &[1, 2, 3, 4, 5, 6]);
    let mut calls = vec![];
    for size in [0, 30, 41, 43, 54] {
        calls.push(write_book_of(&good, size));
    }
    for len in [0, 3, 5, 7, 9] {
        let mut tunes = good.clone();
        tunes.strikes.resize(len, 0);
        calls.push(write_book(&tunes));
    }
    for (numbers, counts) in [(0, 2), (1, 2), (3, 2), (2, 0), (2, 1), (2, 3)] {
        let mut tunes = good.clone();
        tunes.numbers.resize(numbers, 800);
        tunes.counts.resize(counts, 1);
        calls.push(write_book(&tunes));
    }
    for counts in [
        [0, 2],
        [1, 0],
        [0, 0],
        [5_459, 1],
        [1, 65_535],
        [65_535, 65_535],
    ] {
        calls.push(write_book(&tunes(&[3, 700], &counts, &[1, 2, 3, 4, 5, 6])));
    }
    for (numbers, counts, strikes) in [
        (&[0][..], &[0, 65_535][..], &[48][..]),
        (&[0], &[0, 65_535], &[0, 9]),
        (&[0], &[0, 65_535], &[47, 8]),
        (&[0, 0], &[0, 65_535], &[47]),
        (&[0, 0], &[0, 5_459], &[47]),
        (&[1, 2], &[0, 5_459], &[47]),
        (&[1, 2], &[1, 5_458], &[47]),
        (&[], &[], &[0, 0, 0]),
    ] {
        calls.push(write_book_of(&tunes(numbers, counts, strikes), 3));
    }
    calls
}

/// Sizes of books: small ones, and about the largest.
fn size_calls() -> Vec<Call> {
    let mut calls = vec![];
    for counts in [
        &[][..],
        &[0],
        &[1],
        &[0, 0],
        &[2, 3, 4],
        &[1; 16],
        &[5_460],
        &[5_461],
        &[5_462],
        &[5_458, 1],
        &[5_459, 1],
        &[1, 5_457, 1],
        &[1, 5_458, 1],
        &[0, 0, 0, 5_458],
        &[0, 0, 0, 5_459],
        &[65_535],
        &[32_768, 32_769],
        &[65_535; 16],
    ] {
        calls.push(Call::BookSize {
            counts: counts.to_vec(),
        });
    }
    calls
}

/// Words of few digits, with what is wrong in dead lines or outside of them:
/// rows and columns, those of the lowest and those of the highest bits, dead
/// ones that meet, and all rows but one.
fn dead_cases() -> Vec<Call> {
    let lost = [1, 3, 9, 0, 0, 0];
    let mut calls = vec![];
    for dead in [
        [0, 0],
        [0, 56],
        [56, 0],
        [24, 32],
        [32, 48],
        [0, 32],
        [0, 7],
        [7, 56],
        [31, 0],
        [0, 62],
    ] {
        calls.push(decode_dead(1, dead, &lost));
    }
    for dead in [[0, 1], [1, 0], [0, 32], [32, 0]] {
        calls.push(decode_dead(5, dead, &[1, 0, 0, 0, 0, 0]));
        calls.push(decode_dead(5, dead, &[0, 0, 0, 0, 0, 728]));
    }
    for dead in [[1, 4], [4, 1], [1, 1]] {
        calls.push(decode_dead(4, dead, &[2, 2, 7, 2, 0, 1]));
    }
    calls.push(decode_dead(3, [21, 0], &[0; 6]));
    calls.push(decode_dead(2, [21, 8], &[728; 6]));
    calls
}

/// For each k and each number of dead rows and of dead columns, damage in live
/// lines of every rank within the bound; for each k and each number of dead
/// lines the rank beyond it, and any card.
fn dead_calls(random: &mut Random) -> Vec<Call> {
    let mut calls = vec![];
    for k in 1..=5 {
        for lines in 0..=6 - k {
            for rows in 0..=lines {
                let dead = [rows, lines - rows].map(|lines| samples::mask(random, lines));
                for damage in 0..=samples::live_radius(k, dead) {
                    let sent = samples::sent_dead(random, k, dead, damage);
                    calls.push(decode_dead(k, dead, &sent.received));
                }
            }
        }
        for lines in 1..=6 - k {
            let dead = [lines / 2, lines - lines / 2].map(|lines| samples::mask(random, lines));
            let beyond = samples::live_radius(k, dead) + 1;
            let sent = samples::sent_dead(random, k, dead, beyond);
            calls.push(decode_dead(k, dead, &sent.received));
            if lines > 1 {
                calls.push(decode_dead(k, dead, &samples::card(random)));
            }
        }
    }
    calls
}

/// Masks over 63, too many lines, and each refusal before those that come
/// after it.
fn dead_refusals(random: &mut Random) -> Vec<Call> {
    let mut calls = vec![];
    for mask in [64, 256, u32::MAX] {
        calls.push(decode_dead(2, [mask, 0], &[0; 6]));
    }
    for mask in [64, 65, 1 << 31] {
        calls.push(decode_dead(2, [0, mask], &[0; 6]));
    }
    for k in 1..=5 {
        let most = (1 << (6 - k)) - 1;
        let word = samples::sent(random, k, 0).word;
        for dead in [[most, 32], [32, most]] {
            calls.push(decode_dead(k, dead, &word));
        }
    }
    for k in [0, 6, u32::MAX] {
        calls.push(decode_dead(k, [64, 63], &[729; 5]));
    }
    for [card, word, other] in [[5, 6, 0], [7, 6, 0], [6, 5, 0], [6, 7, 0], [6, 6, 1]] {
        calls.push(Call::DecodeDead {
            k: 2,
            dead_rows: 64,
            dead_columns: 63,
            received: vec![729; card],
            word: junk(random, word),
            message: junk(random, 4 + other),
        });
    }
    calls.push(decode_dead(2, [63, 63], &[0, 0, 0, 0, 0, 729]));
    calls.push(decode_dead(2, [64, 63], &[728; 6]));
    calls.push(decode_dead(2, [63, 64], &[728; 6]));
    calls.push(decode_dead(2, [63, 0], &[728; 6]));
    calls.push(decode_dead(2, [1, 2], &[65_535, 0, 0, 0, 0, 0]));
    calls
}

/// One symbol or one number: the request's cases, those of few digits, those
/// about the least and the greatest, and random ones.
fn single_calls(random: &mut Random) -> Vec<Call> {
    let mut calls = vec![];
    for symbol in [
        0, 2, 364, 728, 1, 3, 5, 6, 7, 8, 243, 363, 365, 486, 727, 729, 730, 1_024, 32_768, 65_535,
    ] {
        calls.push(Call::Signed { symbol });
    }
    for number in [
        -32_768, -1_093, -729, -366, -365, -364, -363, -243, -122, -121, -2, -1, 0, 1, 2, 121, 122,
        363, 364, 365, 366, 728, 729, 32_767,
    ] {
        calls.push(Call::Symbol { number });
    }
    for _ in 0..2 {
        let card = samples::card(random);
        calls.extend(card.map(|symbol| Call::Signed { symbol }));
        let numbers = numbers_of(&samples::card(random));
        calls.extend(numbers.map(|number| Call::Symbol { number }));
    }
    calls
}

/// Cards as levels, and back.
fn level_calls(random: &mut Random) -> Vec<Call> {
    let mut calls = vec![];
    for card in [
        [0; 6],
        [364; 6],
        [728; 6],
        [1, 3, 9, 27, 81, 243],
        [2, 6, 18, 54, 162, 486],
        [2, 5, 14, 41, 122, 365],
    ] {
        calls.extend([levels(&card), symbols(&numbers_of(&card))]);
    }
    for _ in 0..12 {
        let card = samples::card(random);
        calls.push(Call::Levels {
            card: card.to_vec(),
            levels: signed_junk(random, 6),
        });
        calls.push(Call::Symbols {
            levels: numbers_of(&card).to_vec(),
            card: junk(random, 6),
        });
    }
    calls
}

fn numbers_of(card: &Card) -> [i16; 6] {
    cable::levels(card, 6).expect("a card")
}

/// A symbol or a number out of range in the first place, in the last or in
/// all; and wrong lengths, whatever the list holds.
fn level_refusals(random: &mut Random) -> Vec<Call> {
    let mut calls = vec![];
    for symbol in [729, 65_535] {
        for place in [0, 5] {
            let mut card = samples::card(random);
            card[place] = symbol;
            calls.push(levels(&card));
        }
        calls.push(levels(&[symbol; 6]));
    }
    for number in [-32_768, -365, 365, 32_767] {
        for place in [0, 5] {
            let mut numbers = numbers_of(&samples::card(random));
            numbers[place] = number;
            calls.push(symbols(&numbers));
        }
        calls.push(symbols(&[number; 6]));
    }
    for [read, filled] in [[0, 6], [5, 6], [7, 6], [6, 0], [6, 5], [6, 7], [16, 16]] {
        for symbol in [0, 729] {
            calls.push(Call::Levels {
                card: vec![symbol; read],
                levels: signed_junk(random, filled),
            });
        }
        for number in [0, 365] {
            calls.push(Call::Symbols {
                levels: vec![number; read],
                card: junk(random, filled),
            });
        }
    }
    calls
}

/// The samples next to the thresholds, and the least and the greatest: each in
/// every place, and each alone, among rests and among others.
fn threshold_calls() -> Vec<Call> {
    let edges = [8_191, 8_192, -8_191, -8_192, -32_768, 32_767];
    let mut calls = vec![];
    for turn in 0..6 {
        let edge = |place: usize| edges[(place + place / 6 + turn) % 6];
        let samples: [i16; 36] = std::array::from_fn(edge);
        calls.push(receive(&samples));
    }
    for (turn, edge) in edges.into_iter().enumerate() {
        let strong = [9_000, -9_000][turn % 2];
        for (other, place) in [(0, 7 * turn), (strong, 35 - turn)] {
            let mut samples = [other; 36];
            samples[place] = edge;
            calls.push(receive(&samples));
        }
    }
    calls
}

/// Random cards, sent strongly or just so that they are received; and wrong
/// lengths.
fn receive_calls(random: &mut Random) -> Vec<Call> {
    let mut calls = vec![];
    for _ in 0..6 {
        let samples: [i16; 36] = std::array::from_fn(|_| *random.pick(&[0, 30_000, -30_000]));
        calls.push(receive(&samples));
        let card = samples::card(random);
        calls.push(Call::Receive {
            samples: samples::on_cable(random, &card),
            card: junk(random, 6),
        });
    }
    for [samples, card] in [
        [0, 6],
        [6, 6],
        [35, 6],
        [37, 6],
        [48, 6],
        [36, 0],
        [36, 5],
        [36, 7],
    ] {
        calls.push(Call::Receive {
            samples: vec![8_192; samples],
            card: junk(random, card),
        });
    }
    calls
}

/// A body of cards near the word of zeros, which are short as text: each with
/// damage of rank 0, 1 or 2, or refused with 3 or 4. Those of the last kind, which
/// are refused with 13, are not as short.
fn worn_body(kinds: &[usize]) -> Vec<u8> {
    let cards = [
        [0; 6],
        [1, 0, 0, 0, 0, 0],
        [1, 3, 0, 0, 0, 0],
        [729, 0, 0, 0, 0, 0],
        [1, 3, 9, 0, 0, 0],
        samples::strike_card([48, 0, 0]),
    ];
    let picked: Vec<Card> = kinds.iter().map(|kind| cards[*kind]).collect();
    samples::body(&picked)
}

/// So many cards without damage, but for some places with cards of a kind.
fn worn_places(count: usize, worn: &[(usize, usize)]) -> Vec<u8> {
    let mut kinds = vec![0; count];
    for (place, kind) in worn {
        kinds[*place] = *kind;
    }
    worn_body(&kinds)
}

/// The paper's body; runs at the beginning, at the end and in between; runs
/// that weigh the same; and refused cards, which weigh more than others.
fn wear_cases() -> Vec<Call> {
    let paper = samples::body(&PAPER_CARDS);
    let mut calls: Vec<Call> = (0..=5).map(|width| wear(&paper, width)).collect();
    for (kinds, width) in [
        (&[0][..], 1),
        (&[3], 1),
        (&[0, 0, 0], 2),
        (&[0, 1, 2], 1),
        (&[2, 1, 0], 1),
        (&[2, 3], 1),
        (&[2, 4], 1),
        (&[5], 1),
        (&[2, 5], 1),
        (&[5, 2], 1),
        (&[4, 5], 1),
        (&[5, 3, 4], 2),
        (&[0, 5, 0, 1, 2], 2),
        (&[0, 2, 1, 0, 5], 3),
        (&[3, 4], 1),
        (&[4, 3], 2),
        (&[1, 0, 1], 1),
        (&[1, 0, 1], 2),
        (&[0, 2, 1, 0, 3], 2),
        (&[0, 2, 2, 0, 3], 2),
        (&[0, 1, 4, 0, 2, 2], 2),
        (&[1, 1, 1, 1, 1], 3),
        (&[2, 2, 2, 3, 0, 3], 3),
        (&[3, 4, 3, 4, 3, 4, 3, 4], 8),
        (&[4, 0, 0, 0, 0, 0, 0, 2, 0], 8),
        (&[1, 0, 0, 0, 0, 0, 0, 0, 2, 0], 8),
        (&[1, 0, 0, 0, 0, 0, 0, 0, 0, 3], 8),
        (&[2, 0, 0, 0, 0, 0, 0, 0, 0, 2], 8),
    ] {
        calls.push(wear(&worn_body(kinds), width));
    }
    calls
}

/// Widths out of range, and bytes that are no body, which are refused first.
fn wear_refusals() -> Vec<Call> {
    let mut calls = vec![];
    for width in [0, 1, 8, 64, 65, u32::MAX] {
        calls.push(wear(&[], width));
    }
    for width in [0, 2, 63, 64, 65, 257, 65_537, 1 << 31, u32::MAX] {
        calls.push(wear(&worn_body(&[3]), width));
    }
    for (count, width) in [(7, 8), (8, 9)] {
        calls.push(wear(&worn_places(count, &[]), width));
    }
    for len in [1, 11, 13] {
        calls.extend([0, 1, 65, u32::MAX].map(|width| wear(&vec![0; len], width)));
    }
    calls
}

/// Random cards, of all kinds and of all words.
fn wear_calls(random: &mut Random) -> Vec<Call> {
    let mut calls = vec![];
    for width in [1, 2, 3, 8] {
        let all = [0, 0, 1, 2, 3, 4, 5];
        let kinds: Vec<usize> = (0..10).map(|_| *random.pick(&all)).collect();
        calls.push(wear(&worn_body(&kinds), width));
    }
    for width in 1..=3 {
        let damages = random.numbers(4, 4).into_iter().map(u32::from);
        let cards: Vec<Card> = damages
            .map(|damage| samples::sent(random, 2, damage).received)
            .collect();
        calls.push(wear(&samples::body(&cards), width));
    }
    calls
}

/// Widths about the largest: all cards, all but the first, and the last ones;
/// the first of two runs that weigh the same; and one too many.
fn wide_runs() -> Vec<Call> {
    vec![
        wear(&worn_places(64, &[(0, 1), (63, 2)]), 64),
        wear(&worn_places(65, &[(0, 2), (64, 4)]), 64),
        wear(&worn_places(65, &[(2, 1), (64, 1)]), 63),
        wear(&worn_places(70, &[(0, 1), (2, 3), (68, 3), (69, 1)]), 64),
        wear(&worn_places(65, &[(0, 1)]), 65),
    ]
}
