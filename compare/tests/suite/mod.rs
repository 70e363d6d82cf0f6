//! The comparison of an implementation with the reference, on all operations:
//! random inputs, damage of every rank, and every boundary.

use compare::book::{self, LISTING_MAX, LONGEST_BODY, LONGEST_BOOK};
use compare::call::{wide, Call, Outcome};
use compare::code::{self, radius, Card};
use compare::lent::{reading, Lent};
use compare::library::Library;
use compare::random::Random;
use compare::samples::{self, junk};
use compare::strike::{meaning, LARGEST_FIELDS};

pub mod bells;
pub mod cable;
pub mod dead;
pub mod empty;
pub mod wear;
pub mod writing;

/// Values of k that are refused. Some are right in their low 8 or 16 bits.
const WRONG_K: [u32; 14] = [
    0,
    6,
    7,
    11,
    255,
    256,
    258,
    65_536,
    65_538,
    1 << 31,
    (1 << 31) + 2,
    u32::MAX - 4,
    u32::MAX - 1,
    u32::MAX,
];

/// Symbols about the largest, 728, and about sizes of words.
const EDGE_SYMBOLS: [u16; 10] = [0, 727, 728, 729, 730, 1_023, 1_024, 32_767, 32_768, 65_535];

/// Message values about the largest, 26.
const EDGE_VALUES: [u16; 9] = [0, 25, 26, 27, 28, 255, 256, 728, 65_535];

/// Every short length, and long ones that are right in their low 8 or 16 bits.
fn lengths() -> impl Iterator<Item = usize> {
    (0..=13).chain([256, 260, 262, 65_536, 65_540, 65_542])
}

/// Runs a call with each symbol of a card replaced by each edge symbol.
fn with_edges(card: &[u16], edges: &[u16], check: impl Fn(Vec<u16>)) {
    for place in 0..card.len() {
        for edge in edges {
            let mut changed = card.to_vec();
            changed[place] = *edge;
            check(changed);
        }
    }
}

pub fn encode<L: Library>() {
    let mut random = Random::new(100);
    for k in 1..=5 {
        let check = |message, word| Call::Encode { k, message, word }.check::<L>();
        for _ in 0..10_000 {
            check(samples::message(&mut random, k), junk(&mut random, 6));
        }
        let message = samples::message(&mut random, k);
        let word = junk(&mut random, 6);
        with_edges(&message, &EDGE_VALUES, |message| {
            check(message, word.clone())
        });
        for message_len in lengths() {
            for word_len in lengths() {
                for bound in [27, 32] {
                    let message = random.numbers(message_len, bound);
                    check(message, junk(&mut random, word_len));
                }
            }
        }
    }
    for k in WRONG_K {
        for message_len in 0..=13 {
            let message = random.numbers(message_len, 32);
            let word = junk(&mut random, 6 + message_len % 2);
            Call::Encode { k, message, word }.check::<L>();
        }
    }
    // All messages for k = 1.
    for number in 0..729 {
        let message = vec![number % 27, number / 27];
        let word = vec![0; 6];
        Call::Encode {
            k: 1,
            message,
            word,
        }
        .check::<L>();
    }
}

pub fn weight<L: Library>() {
    let mut random = Random::new(200);
    let check = |symbols| Call::Weight { symbols }.check::<L>();
    for turn in 0..20_000 {
        let card = match turn % 10 {
            7 => samples::sparse_card(&mut random),
            8.. => samples::card(&mut random),
            rank => samples::damaged(&mut random, &[0; 6], rank),
        };
        check(card.to_vec());
    }
    let card = samples::card(&mut random);
    with_edges(&card, &EDGE_SYMBOLS, check);
    for len in lengths() {
        check(random.numbers(len, 729));
        check(random.numbers(len, 1_000));
    }
}

/// Words with damage of every rank, and cards of other kinds.
fn cards(random: &mut Random, k: u32, count: u32) -> Vec<Card> {
    let card = |turn| match turn % 10 {
        7 => samples::card(random),
        8 => samples::sparse_card(random),
        9 => samples::small_field_damage(random, k),
        damage => samples::sent(random, k, damage).received,
    };
    (0..count).map(card).collect()
}

pub fn syndrome<L: Library>() {
    let mut random = Random::new(300);
    for k in 1..=5 {
        let values_len = 12 - 2 * k as usize;
        let check = |received, values| {
            Call::Syndrome {
                k,
                received,
                values,
            }
            .check::<L>()
        };
        for card in cards(&mut random, k, 10_000) {
            check(card.to_vec(), junk(&mut random, values_len));
        }
        let card = samples::card(&mut random);
        let values = junk(&mut random, values_len);
        with_edges(&card, &EDGE_SYMBOLS, |card| check(card, values.clone()));
        for card_len in lengths() {
            for values_len in lengths() {
                for bound in [729, 1_000] {
                    let card = random.numbers(card_len, bound);
                    check(card, junk(&mut random, values_len));
                }
            }
        }
    }
    for k in WRONG_K {
        for values_len in 0..=13 {
            let received = random.numbers(6 - values_len % 2, 1_000);
            let values = junk(&mut random, values_len);
            Call::Syndrome {
                k,
                received,
                values,
            }
            .check::<L>();
        }
    }
}

fn decode_call(random: &mut Random, k: u32, received: Vec<u16>) -> Call {
    Call::Decode {
        k,
        received,
        word: junk(random, 6),
        message: junk(random, 2 * k as usize),
    }
}

/// Against the reference's own search.
pub fn decode<L: Library>(k: u32) {
    let mut random = Random::new(400 + u64::from(k));
    let count = if k == 2 { 6_000 } else { 20_000 };
    for card in cards(&mut random, k, count) {
        decode_call(&mut random, k, card.to_vec()).check::<L>();
    }
    let card = samples::sent(&mut random, k, radius(k)).received;
    with_edges(&card, &EDGE_SYMBOLS, |card| {
        decode_call(&mut Random::new(1), k, card).check::<L>()
    });
}

/// Against the words that were damaged: within the radius there is no other.
pub fn decode_known<L: Library>() {
    let mut random = Random::new(500);
    for k in 1..=5 {
        for turn in 0..10_000 {
            let damage = turn % (radius(k) + 1);
            let sent = samples::sent(&mut random, k, damage);
            let known = Outcome {
                status: 0,
                numbers: wide(&[damage]),
                lists: vec![wide(&sent.word), wide(&sent.message)],
            };
            decode_call(&mut random, k, sent.received.to_vec()).expect::<L>(&known);
        }
    }
}

pub fn decode_lengths<L: Library>() {
    let mut random = Random::new(600);
    let mut check = |k, lens: [usize; 3], bound| {
        Call::Decode {
            k,
            received: random.numbers(lens[0], bound),
            word: junk(&mut random, lens[1]),
            message: junk(&mut random, lens[2]),
        }
        .check::<L>()
    };
    for k in 1..=5 {
        let right = [6, 6, 2 * k as usize];
        for list in 0..3 {
            for len in lengths() {
                let mut lens = right;
                lens[list] = len;
                check(k, lens, 729);
                check(k, lens, 1_000);
            }
        }
        for number in 0..1_000 {
            let lens = [number / 100, number / 10 % 10, number % 10].map(|digit| digit + 3);
            check(k, lens, 1_000);
        }
    }
    for k in WRONG_K {
        for message_len in 0..=13 {
            check(k, [6, 6, message_len], 1_000);
            check(k, [message_len, 5, 4], 1_000);
        }
    }
}

/// Strike cards of all kinds, damaged and whole. One in five is read for sure;
/// the bells of the others may be over the largest.
fn strike_cards(random: &mut Random, count: u32) -> Vec<Card> {
    let mut cards = cards(random, 2, count);
    for card in cards.iter_mut().step_by(12) {
        card[random.below(6) as usize] = *random.pick(&EDGE_SYMBOLS);
    }
    for (turn, card) in (0..).zip(cards.iter_mut().step_by(5)) {
        *card = samples::sent_strike(random, turn % 3).received;
    }
    cards
}

/// Strike cards that are read without damage.
fn whole_cards(random: &mut Random, count: u32) -> Vec<Card> {
    (0..count)
        .map(|_| samples::sent_strike(random, 0).word)
        .collect()
}

/// A body of `count` of the cards.
fn body_of(random: &mut Random, cards: &[Card], count: usize) -> Vec<u8> {
    let picked: Vec<Card> = (0..count).map(|_| *random.pick(cards)).collect();
    samples::body(&picked)
}

/// A well-formed book with up to five tunes of up to four cards.
fn small_book(random: &mut Random, cards: &[Card]) -> Vec<u8> {
    let mut number = 0;
    let mut tunes = vec![];
    for _ in 0..random.below(6) {
        number += 1 + random.below(2_000 - 1) as u16;
        let count = 1 + random.below(4) as usize;
        tunes.push((number, body_of(random, cards, count)));
    }
    samples::book(&tunes)
}

fn numbers_in(book: &[u8]) -> Vec<u32> {
    let entries = book.get(2..).unwrap_or(&[]).chunks_exact(8).take(8);
    entries
        .map(|entry| u32::from(entry[0]) << 8 | u32::from(entry[1]))
        .collect()
}

/// Places of a book's contents, and others: some are a place in their low 16
/// bits, or after a product by the 8 bytes of an entry.
fn places_in(book: &[u8]) -> [u32; 8] {
    let count = match book {
        [high, low, ..] => u32::from(*high) << 8 | u32::from(*low),
        _ => 0,
    };
    let last = count.saturating_sub(1);
    [0, 1, last, count, 65_536, 1 << 29, 1 << 31, u32::MAX]
}

/// Opens a book, and asks for its tunes, their neighbours, and others.
fn check_book<L: Library>(book: Vec<u8>) {
    let mut numbers = vec![0, 1, 9_999, 10_000, 65_536, u32::MAX];
    for number in numbers_in(&book) {
        numbers.extend([number, number + 1, number.wrapping_sub(1), number + 65_536]);
    }
    Call::Open { book: book.clone() }.check::<L>();
    for number in numbers {
        let book = book.clone();
        Call::TuneBody { number, book }.check::<L>();
    }
    for place in places_in(&book) {
        let book = book.clone();
        Call::TuneAt { place, book }.check::<L>();
    }
}

pub fn books<L: Library>() {
    let mut random = Random::new(700);
    let cards = strike_cards(&mut random, 50);
    for _ in 0..3_000 {
        check_book::<L>(small_book(&mut random, &cards));
    }
    for len in 0..200 {
        check_book::<L>(random.bytes(len));
        check_book::<L>(vec![0; len]);
    }
    for _ in 0..100 {
        let book = small_book(&mut random, &cards);
        for len in 0..book.len() {
            check_book::<L>(book[..len].to_vec());
        }
        for extra in [1, 2, 7, 8, 11, 12, 13, 24] {
            check_book::<L>([book.clone(), random.bytes(extra)].concat());
        }
    }
}

/// Single-byte faults: every byte of the contents to every value.
pub fn book_faults<L: Library>() {
    let mut random = Random::new(800);
    let cards = strike_cards(&mut random, 50);
    for _ in 0..12 {
        let book = small_book(&mut random, &cards);
        for place in 0..book.len().min(2 + 8 * 6) {
            for byte in 0..=255 {
                let mut book = book.clone();
                book[place] = byte;
                Call::Open { book: book.clone() }.check::<L>();
                Call::TuneAt {
                    place: random.below(6) as u32,
                    book: book.clone(),
                }
                .check::<L>();
                let numbers = numbers_in(&book);
                if !numbers.is_empty() {
                    let number = *random.pick(&numbers);
                    Call::TuneBody { number, book }.check::<L>();
                }
            }
        }
    }
    for _ in 0..5_000 {
        let mut book = small_book(&mut random, &cards);
        for _ in 0..=random.below(3) {
            let place = random.below(book.len() as u64) as usize;
            book[place] = random.bits() as u8;
        }
        check_book::<L>(book);
    }
}

/// Books about the largest size, with as many tunes as there can be, and with
/// counts of cards whose bytes pass 2^16 and 2^32.
pub fn large_books<L: Library>() {
    let body = |cards: usize| vec![0; 12 * cards];
    check_book::<L>(samples::book(&[(1, body(5_460))]));
    let largest = samples::book(&[(1, body(1)), (5_000, body(5_457)), (9_999, body(1))]);
    assert_eq!(largest.len(), LONGEST_BOOK - 2);
    for extra in [0, 1, 2, 3, 4, 12, LONGEST_BOOK] {
        check_book::<L>([largest.clone(), vec![0; extra]].concat());
    }
    let tunes: Vec<(u16, Vec<u8>)> = (1..=3_276).map(|number| (number, body(1))).collect();
    let most_tunes = samples::book(&tunes);
    check_book::<L>(most_tunes.clone());
    for number in [3_275, 3_276, 3_277] {
        let book = most_tunes.clone();
        Call::TuneBody { number, book }.check::<L>();
    }
    check_book::<L>(wrapping_book(&[5_462], 1 << 16));
    // 5,462 counts that come to 2^32 + 8 bytes.
    let mut counts = vec![65_535; 5_462];
    let mut excess = 65_535 * 5_462 - ((1u64 << 32) + 8) / 12;
    for count in &mut counts {
        let less = excess.min(65_534);
        *count -= less;
        excess -= less;
    }
    check_book::<L>(wrapping_book(&counts, 1 << 32));
    for count in [65_535u16, 8_192, 8_191, 8_190] {
        for len in [65_530, 65_535, 65_536, 65_537] {
            let mut book = vec![0; len];
            book[..2].copy_from_slice(&count.to_be_bytes());
            check_book::<L>(book);
        }
    }
}

/// A book that would be well-formed if sums were taken modulo `modulus`.
fn wrapping_book(counts: &[u64], modulus: u64) -> Vec<u8> {
    let mut book = (counts.len() as u16).to_be_bytes().to_vec();
    let mut end = 2 + 8 * counts.len() as u64;
    for (number, count) in (1u16..).zip(counts) {
        book.extend(number.to_be_bytes());
        book.extend(((end % modulus) as u32).to_be_bytes());
        book.extend((*count as u16).to_be_bytes());
        end += 12 * count;
    }
    assert!(end > modulus && end % modulus >= book.len() as u64);
    book.resize((end % modulus) as usize, 0);
    book
}

/// Every operation on a body, and all of its cards.
fn check_body<L: Library>(body: Vec<u8>) {
    let count = body.len() as u32 / 12;
    for number in (0..=count + 1).chain([65_536, 65_537, u32::MAX]) {
        let body = body.clone();
        Call::ReadCard { number, body }.check::<L>();
    }
    for width in [0, 1, 2, count, count + 1, u32::MAX] {
        let body = body.clone();
        Call::Wear { width, body }.check::<L>();
    }
    Call::TotalDelay { body: body.clone() }.check::<L>();
    Call::DamagedCard { body }.check::<L>();
}

/// What the reference says to a card: 0 if it is read, or the refusal.
fn read_status(card: &Card) -> u32 {
    let body = samples::body(&[*card]);
    Call::ReadCard { number: 1, body }.expected().status
}

pub fn bodies<L: Library>() {
    let mut random = Random::new(900);
    let all = strike_cards(&mut random, 1_500);
    let whole = whole_cards(&mut random, 300);
    let statuses: Vec<u32> = all.iter().map(read_status).collect();
    for status in [0, 3, 4, 13] {
        let count = statuses.iter().filter(|other| **other == status).count();
        assert!(count > 50, "only {count} of 1,500 cards give {status}");
    }
    for turn in 0..1_500 {
        let cards = if turn % 3 == 0 { &whole } else { &all };
        let count = random.below(12) as usize;
        let body = body_of(&mut random, cards, count);
        check_body::<L>(body);
    }
    // One card that may be damaged, among whole ones.
    for turn in 0..300 {
        let count = 1 + random.below(8) as usize;
        let mut body = body_of(&mut random, &whole, count);
        let place = 12 * random.below(count as u64) as usize;
        body[place..place + 12].copy_from_slice(&samples::body(&all[turn..turn + 1]));
        check_body::<L>(body);
    }
    for len in 0..120 {
        let mut body = body_of(&mut random, &all, 10);
        body.truncate(len);
        check_body::<L>(body);
    }
}

/// How many kinds of cards there are.
const KINDS: usize = 6;

/// Cards of a kind each, with their delay or the number of their refusal:
/// whole, damaged with rank 1 and with rank 2, too far from every word, with a
/// symbol out of range, and with a bell over the largest.
fn kinds(random: &mut Random) -> [(Card, Result<u32, u32>); KINDS] {
    let mut read = |damage| {
        let sent = samples::sent_strike(random, damage);
        let [_, _, delay] = meaning(&sent.message).expect("a strike");
        (sent.received, Ok(delay.into()))
    };
    let [whole, one, two] = [0, 1, 2].map(&mut read);
    let far = far_card(random, &whole.0);
    let mut outside = whole.0;
    outside[random.below(6) as usize] = 729;
    let damage = random.below(3) as u32;
    let no_bell = samples::sent_no_bell(random, damage).received;
    [
        whole,
        one,
        two,
        (far, Err(4)),
        (outside, Err(3)),
        (no_bell, Err(13)),
    ]
}

/// A word with damage that cannot be mended.
fn far_card(random: &mut Random, word: &Card) -> Card {
    loop {
        let far = samples::damaged(random, word, 3);
        if code::decode(2, &far, 6, 4).is_err() {
            return far;
        }
    }
}

/// The outcome of a call that fills no list: the numbers given back, or the
/// refusal.
fn outcome(known: Result<Vec<u32>, u32>) -> Outcome {
    Outcome {
        status: known.as_ref().err().map_or(0, |refusal| *refusal),
        numbers: wide(&known.unwrap_or_default()),
        lists: vec![],
    }
}

/// The numbers or the refusal are known: the reference answers with them, and
/// so does the implementation.
fn expect_known<L: Library>(call: Call, known: Result<Vec<u32>, u32>) {
    let known = outcome(known);
    assert_eq!(call.expected(), known, "{call:?}");
    call.expect::<L>(&known);
}

/// Bodies of four cards, of all kinds in every order. The first card that is
/// not whole is damaged, whatever its kind. The first that is refused leaves
/// no length, whatever its place.
pub fn kinds_in_order<L: Library>() {
    let mut random = Random::new(1_050);
    for order in 0..KINDS.pow(4) {
        let kinds = kinds(&mut random);
        let places = [0, 1, 2, 3].map(|place| order / KINDS.pow(place) % KINDS);
        let body = samples::body(&places.map(|kind| kinds[kind].0));
        let damaged = places.iter().position(|kind| *kind > 0);
        let damaged = damaged.map_or(0, |place| place as u32 + 1);
        expect_known::<L>(Call::DamagedCard { body: body.clone() }, Ok(vec![damaged]));
        let refused = places.iter().find(|kind| **kind > 2);
        let length = match refused {
            Some(kind) => kinds[*kind].1,
            None => Ok(places.iter().flat_map(|kind| kinds[*kind].1).sum()),
        };
        expect_known::<L>(Call::TotalDelay { body }, length.map(|ticks| vec![ticks]));
    }
}

/// Single-byte faults: every byte of some bodies.
pub fn body_faults<L: Library>() {
    let mut random = Random::new(1_000);
    let whole = whole_cards(&mut random, 50);
    for _ in 0..20 {
        let body = body_of(&mut random, &whole, 3);
        for place in 0..body.len() {
            for flip in [1, 2, 4, 1 + random.below(255) as u8] {
                let mut body = body.clone();
                body[place] ^= flip;
                let number = 1 + place as u32 / 12;
                Call::ReadCard {
                    number,
                    body: body.clone(),
                }
                .check::<L>();
                Call::Wear {
                    width: number,
                    body: body.clone(),
                }
                .check::<L>();
                Call::TotalDelay { body: body.clone() }.check::<L>();
                Call::DamagedCard { body }.check::<L>();
            }
        }
    }
}

pub fn large_bodies<L: Library>() {
    let mut random = Random::new(1_100);
    let all = strike_cards(&mut random, 200);
    let whole = whole_cards(&mut random, 200);
    let longest = LONGEST_BODY / 12;
    let slowest = samples::strike_card(LARGEST_FIELDS);
    let no_bell = samples::sent_no_bell(&mut random, 0).word;
    let mut bodies = vec![
        body_of(&mut random, &all, longest),
        body_of(&mut random, &whole, longest),
        body_of(&mut random, &[slowest], longest),
        body_of(&mut random, &whole, longest + 1),
    ];
    // Only the last, or the first, is damaged, or is refused.
    for (place, flip) in [
        (LONGEST_BODY - 1, 1),
        (11, 1),
        (LONGEST_BODY - 2, 128),
        (10, 128),
    ] {
        let mut body = body_of(&mut random, &whole, longest);
        body[place] ^= flip;
        bodies.push(body);
    }
    // Or its bell is over the largest.
    for place in [longest - 1, 0] {
        let mut body = body_of(&mut random, &whole, longest);
        body[12 * place..][..12].copy_from_slice(&samples::body(&[no_bell]));
        bodies.push(body);
    }
    for extra in [1, 4, 5] {
        bodies.push(vec![0; LONGEST_BODY + extra]);
        bodies.push(vec![0; LONGEST_BODY - extra]);
    }
    for body in bodies {
        let count = body.len() as u32 / 12;
        for number in [0, 1, 2, count - 1, count, count + 1, u32::MAX] {
            let body = body.clone();
            Call::ReadCard { number, body }.check::<L>();
        }
        Call::TotalDelay { body: body.clone() }.check::<L>();
        Call::DamagedCard { body }.check::<L>();
    }
}

/// What the written length holds before a call.
const UNWRITTEN: usize = 2_718_281_828;

/// Lists a book into a text that holds something before.
fn check_listing<L: Library>(book: &[u8], before: &[u8]) {
    let call = format!("{} bytes, {:?} ..", book.len(), &book[..book.len().min(50)]);
    let (mut text, mut written) = (Lent::new(before), UNWRITTEN);
    let status = reading(&call, book, |b| L::list(b, text.list(), &mut written));
    let text = text.values(&call);
    let (expected_status, listing, expected_written) = match book::list(book, before.len()) {
        Ok(listing) => (0, listing.clone(), listing.len()),
        Err(refusal) => (refusal.number(), String::new(), UNWRITTEN),
    };
    assert_eq!(
        (status, written),
        (expected_status, expected_written),
        "{call}"
    );
    let (listed, rest) = text.split_at(listing.len());
    if listed != listing.as_bytes() {
        assert_eq!(String::from_utf8_lossy(listed), listing, "{call}");
    }
    let unchanged = rest == &before[listing.len()..];
    assert!(unchanged, "{call}\nchanges the text past the listing");
}

/// A book of tunes with these cards each, and the highest numbers.
fn high_numbers(count: u16, body: &[u8]) -> Vec<u8> {
    let numbers = 10_000 - count..10_000;
    let tunes: Vec<(u16, Vec<u8>)> = numbers.map(|number| (number, body.to_vec())).collect();
    samples::book(&tunes)
}

pub fn listings<L: Library>() {
    let mut random = Random::new(1_200);
    let before = random.bytes(LISTING_MAX);
    let cards = strike_cards(&mut random, 300);
    for _ in 0..1_000 {
        check_listing::<L>(&small_book(&mut random, &cards), &before);
    }
    for len in 0..100 {
        check_listing::<L>(&random.bytes(len), &before);
        check_listing::<L>(&vec![0; len], &before);
    }
    for _ in 0..20 {
        let book = small_book(&mut random, &cards);
        for len in 0..book.len() {
            check_listing::<L>(&book[..len], &before);
        }
    }
}

/// Single-byte faults in the contents.
pub fn listing_faults<L: Library>() {
    let mut random = Random::new(1_300);
    let before = random.bytes(LISTING_MAX);
    let cards = strike_cards(&mut random, 50);
    for _ in 0..40 {
        let book = small_book(&mut random, &cards);
        for place in 0..book.len().min(2 + 8 * 6) {
            for flip in [1, 2, 128, 255, 1 + random.below(255) as u8] {
                let mut book = book.clone();
                book[place] ^= flip;
                check_listing::<L>(&book, &before);
            }
        }
    }
}

pub fn large_listings<L: Library>() {
    let mut random = Random::new(1_400);
    let before = random.bytes(LISTING_MAX);
    let all = strike_cards(&mut random, 200);
    let whole = whole_cards(&mut random, 200);
    let widest = vec![samples::widest_card(&mut random)];
    let no_bell = vec![samples::sent_no_bell(&mut random, 2).received];
    for cards in [&all, &whole, &widest, &vec![[729; 6]], &no_bell] {
        for number in [1, 9_999] {
            let body = body_of(&mut random, cards, 5_460);
            check_listing::<L>(&samples::book(&[(number, body)]), &before);
        }
        let bodies = [1, 5_457, 1].map(|count| body_of(&mut random, cards, count));
        let [first, second, third] = bodies;
        let book = samples::book(&[(1, first), (5_000, second), (9_999, third)]);
        for extra in [0, 1, 2, 3, 200_000] {
            check_listing::<L>(&[book.clone(), vec![0; extra]].concat(), &before);
        }
        for [tunes, cards_each] in [[3_276, 1], [2_047, 2], [409, 12]] {
            let body = body_of(&mut random, cards, cards_each);
            check_listing::<L>(&high_numbers(tunes as u16, &body), &before);
        }
    }
}

/// Texts of other lengths: shorter ones are refused, whatever the book.
pub fn listing_lengths<L: Library>() {
    let mut random = Random::new(1_500);
    let widest = samples::widest_card(&mut random);
    let books = [
        vec![],
        vec![0, 0],
        vec![0, 0, 0],
        samples::book(&[(7, samples::body(&[widest]))]),
        high_numbers(3_276, &samples::body(&[widest])),
        samples::longest_listing(),
        vec![0; LONGEST_BOOK + 1],
    ];
    let short = [0, 1, 15, 16, 50, 65_536, 127_777, LISTING_MAX - 1];
    let long = [0, 1, 2, 100, LISTING_MAX].map(|extra| LISTING_MAX + extra);
    for book in books {
        for len in short.into_iter().chain(long) {
            check_listing::<L>(&book, &random.bytes(len));
        }
    }
}

/// The tests of one implementation.
#[macro_export]
macro_rules! suite {
    ($library:ty) => {
        #[test]
        fn encode() {
            suite::encode::<$library>();
        }

        #[test]
        fn weight() {
            suite::weight::<$library>();
        }

        #[test]
        fn syndrome() {
            suite::syndrome::<$library>();
        }

        #[test]
        fn decode_k1() {
            suite::decode::<$library>(1);
        }

        #[test]
        fn decode_k2() {
            suite::decode::<$library>(2);
        }

        #[test]
        fn decode_k3() {
            suite::decode::<$library>(3);
        }

        #[test]
        fn decode_k4() {
            suite::decode::<$library>(4);
        }

        #[test]
        fn decode_k5() {
            suite::decode::<$library>(5);
        }

        #[test]
        fn decode_known() {
            suite::decode_known::<$library>();
        }

        #[test]
        fn decode_lengths() {
            suite::decode_lengths::<$library>();
        }

        #[test]
        fn dead_all_masks_k1() {
            suite::dead::all_masks::<$library>(1);
        }

        #[test]
        fn dead_all_masks_k2() {
            suite::dead::all_masks::<$library>(2);
        }

        #[test]
        fn dead_all_masks_k3() {
            suite::dead::all_masks::<$library>(3);
        }

        #[test]
        fn dead_all_masks_k4() {
            suite::dead::all_masks::<$library>(4);
        }

        #[test]
        fn dead_all_masks_k5() {
            suite::dead::all_masks::<$library>(5);
        }

        #[test]
        fn dead_known() {
            suite::dead::known::<$library>();
        }

        #[test]
        fn dead_digits() {
            suite::dead::dead_digits::<$library>();
        }

        #[test]
        fn dead_no_line() {
            suite::dead::no_line::<$library>();
        }

        #[test]
        fn dead_too_many_lines() {
            suite::dead::too_many_lines::<$library>();
        }

        #[test]
        fn dead_wrong_masks() {
            suite::dead::wrong_masks::<$library>();
        }

        #[test]
        fn dead_edge_symbols() {
            suite::dead::edge_symbols::<$library>();
        }

        #[test]
        fn dead_faults() {
            suite::dead::faults::<$library>();
        }

        #[test]
        fn dead_wrong_lengths() {
            suite::dead::wrong_lengths::<$library>();
        }

        #[test]
        fn books() {
            suite::books::<$library>();
        }

        #[test]
        fn book_faults() {
            suite::book_faults::<$library>();
        }

        #[test]
        fn large_books() {
            suite::large_books::<$library>();
        }

        #[test]
        fn empty_no_bytes() {
            suite::empty::no_bytes::<$library>();
        }

        #[test]
        fn empty_one_byte() {
            suite::empty::one_byte::<$library>();
        }

        #[test]
        fn empty_two_bytes() {
            suite::empty::two_bytes::<$library>();
        }

        #[test]
        fn bodies() {
            suite::bodies::<$library>();
        }

        #[test]
        fn kinds_in_order() {
            suite::kinds_in_order::<$library>();
        }

        #[test]
        fn bells_all_messages() {
            suite::bells::all_messages::<$library>();
        }

        #[test]
        fn bells_at_edges() {
            suite::bells::edges::<$library>();
        }

        #[test]
        fn bells_over_the_largest() {
            suite::bells::over_the_largest::<$library>();
        }

        #[test]
        fn bells_and_other_refusals() {
            suite::bells::other_refusals::<$library>();
        }

        #[test]
        fn bells_in_bodies() {
            suite::bells::in_bodies::<$library>();
        }

        #[test]
        fn body_faults() {
            suite::body_faults::<$library>();
        }

        #[test]
        fn large_bodies() {
            suite::large_bodies::<$library>();
        }

        #[test]
        fn wear_all_widths() {
            suite::wear::all_widths::<$library>();
        }

        #[test]
        fn wear_known_weights() {
            suite::wear::known_weights::<$library>();
        }

        #[test]
        fn wear_one_card() {
            suite::wear::one_card::<$library>();
        }

        #[test]
        fn wear_equal_cards() {
            suite::wear::equal_cards::<$library>();
        }

        #[test]
        fn wear_equal_runs() {
            suite::wear::equal_runs::<$library>();
        }

        #[test]
        fn wear_wrong_lengths() {
            suite::wear::wrong_lengths::<$library>();
        }

        #[test]
        fn wear_large_bodies() {
            suite::wear::large_bodies::<$library>();
        }

        #[test]
        fn listings() {
            suite::listings::<$library>();
        }

        #[test]
        fn listing_faults() {
            suite::listing_faults::<$library>();
        }

        #[test]
        fn large_listings() {
            suite::large_listings::<$library>();
        }

        #[test]
        fn listing_lengths() {
            suite::listing_lengths::<$library>();
        }

        #[test]
        fn write_tunes() {
            suite::writing::tunes::<$library>();
        }

        #[test]
        fn write_all_strikes() {
            suite::writing::all_strikes::<$library>();
        }

        #[test]
        fn write_faults() {
            suite::writing::faults::<$library>();
        }

        #[test]
        fn write_fields() {
            suite::writing::fields::<$library>();
        }

        #[test]
        fn write_lists() {
            suite::writing::lists::<$library>();
        }

        #[test]
        fn write_any_lists() {
            suite::writing::any_lists::<$library>();
        }

        #[test]
        fn write_large_books() {
            suite::writing::large_books::<$library>();
        }

        #[test]
        fn write_long_lists() {
            suite::writing::long_lists::<$library>();
        }

        #[test]
        fn write_long_strikes() {
            suite::writing::long_strikes::<$library>();
        }

        #[test]
        fn write_wrapping_sums() {
            suite::writing::wrapping_sums::<$library>();
        }

        #[test]
        fn book_sizes() {
            suite::writing::sizes::<$library>();
        }

        #[test]
        fn written_and_read() {
            suite::writing::written_and_read::<$library>();
        }

        #[test]
        fn read_and_written() {
            suite::writing::read_and_written::<$library>();
        }

        #[test]
        fn write_no_tunes() {
            suite::writing::no_tunes::<$library>();
        }

        #[test]
        fn write_shortest_books() {
            suite::writing::shortest_books::<$library>();
        }

        #[test]
        fn clean_books_are_written_again() {
            suite::writing::clean_books::<$library>();
        }

        #[test]
        fn cable_all_symbols() {
            suite::cable::all_symbols::<$library>();
        }

        #[test]
        fn cable_all_numbers() {
            suite::cable::all_numbers::<$library>();
        }

        #[test]
        fn cable_any_lists() {
            suite::cable::any_lists::<$library>();
        }

        #[test]
        fn cable_there_and_back() {
            suite::cable::there_and_back::<$library>();
        }

        #[test]
        fn cable_negatives() {
            suite::cable::negatives::<$library>();
        }

        #[test]
        fn cable_thresholds() {
            suite::cable::thresholds::<$library>();
        }

        #[test]
        fn cable_all_samples() {
            suite::cable::all_samples::<$library>();
        }

        #[test]
        fn cable_sent_and_decoded() {
            suite::cable::sent_and_decoded::<$library>();
        }

        #[test]
        fn cable_wrong_lengths() {
            suite::cable::wrong_lengths::<$library>();
        }
    };
}
