//! The writing of books: random tunes, all faults in all combinations, every
//! boundary, and books read back and written again.

use super::expect_known;
use compare::book::LONGEST_BOOK;
use compare::call::{wide, Call, Outcome};
use compare::library::Library;
use compare::random::Random;
use compare::samples;
use compare::strike::LARGEST_FIELDS;
use compare::writer::{book_size, Tunes};

/// Numbers about the largest bell, 47, the largest force, 8, and the largest
/// delay, 728, and about the ends of registers; some are in range in their low 8
/// bits.
const EDGE_FIELDS: [u16; 26] = [
    0, 1, 7, 8, 9, 10, 26, 27, 46, 47, 48, 53, 54, 80, 81, 255, 256, 264, 303, 727, 728, 729, 730,
    768, 32_768, 65_535,
];

fn call(tunes: &Tunes, book: Vec<u8>) -> Call {
    let tunes = tunes.clone();
    Call::WriteBook {
        numbers: tunes.numbers,
        counts: tunes.counts,
        strikes: tunes.strikes,
        book,
    }
}

/// Writes tunes into a book of the right length, if there is one.
fn check_tunes<L: Library>(random: &mut Random, tunes: &Tunes) {
    let size = book_size(&tunes.counts).unwrap_or(LONGEST_BOOK);
    call(tunes, random.bytes(size)).check::<L>();
}

/// Up to `most` counts of 1 to 8 cards.
fn some_counts(random: &mut Random, most: u64) -> Vec<u16> {
    let count = random.below(most + 1) as usize;
    let counts = random.numbers(count, 8);
    counts.into_iter().map(|count| count + 1).collect()
}

pub fn tunes<L: Library>() {
    let mut random = Random::new(1_600);
    for turn in 0..5_000 {
        let counts = some_counts(&mut random, turn % 20);
        let tunes = samples::tunes(&mut random, &counts);
        check_tunes::<L>(&mut random, &tunes);
    }
}

/// Every strike there is, in full books, which are read back.
pub fn all_strikes<L: Library>() {
    let mut random = Random::new(1_700);
    let strike = |n: u32| [n % 48, n / 48 % 9, n / 48 / 9].map(|field| field as u16);
    let strikes: Vec<u16> = (0..48 * 9 * 729).flat_map(strike).collect();
    for strikes in strikes.chunks(3 * 5_460) {
        let tunes = Tunes {
            numbers: vec![1 + random.below(9_999) as u16],
            counts: vec![strikes.len() as u16 / 3],
            strikes: strikes.to_vec(),
        };
        check_tunes::<L>(&mut random, &tunes);
        check_read_back::<L>(&mut random, &tunes);
    }
}

/// What can be wrong with a call, in the order of the tests, and the refusal
/// for each.
#[derive(Clone, Copy)]
enum Fault {
    Field,
    Lists,
    Size,
    Number,
    NoCards,
    Strikes,
    Book,
}

const FAULTS: [(Fault, u32); 7] = [
    (Fault::Field, 10),
    (Fault::Lists, 2),
    (Fault::Size, 5),
    (Fault::Number, 6),
    (Fault::NoCards, 7),
    (Fault::Strikes, 2),
    (Fault::Book, 2),
];

/// Every set of faults: the first of them gives the refusal.
pub fn faults<L: Library>() {
    let mut random = Random::new(1_800);
    for set in 0..1 << FAULTS.len() {
        let has = |fault: Fault| set >> fault as u32 & 1 == 1;
        let first = FAULTS.iter().find(|(fault, _)| has(*fault));
        let status = first.map_or(0, |(_, refusal)| *refusal);
        for _ in 0..150 {
            let call = faulty_call(&mut random, has);
            let expected = call.expected();
            assert_eq!(expected.status, status, "{call:?}");
            call.expect::<L>(&expected);
        }
    }
}

/// A call with some faults. Where the book would be too large, its strikes
/// and the lent book may be wrong besides.
fn faulty_call(random: &mut Random, has: impl Fn(Fault) -> bool) -> Call {
    let mut tunes = Tunes {
        counts: faulty_counts(random, has(Fault::Size), has(Fault::NoCards)),
        ..Tunes::default()
    };
    let cards: usize = tunes.counts.iter().map(|count| usize::from(*count)).sum();
    let mut book_len = 2 + 8 * tunes.counts.len() + 12 * cards;
    tunes.numbers = samples::tune_numbers(random, tunes.counts.len());
    tunes.strikes = samples::strikes(random, cards);
    if has(Fault::Size) && (cards > 20_000 || !random.chance(8)) {
        let count = 1 + random.below(10) as usize;
        tunes.strikes = samples::strikes(random, count);
        book_len = random.below(100) as usize;
    }
    if has(Fault::Number) {
        spoil_number(random, &mut tunes.numbers);
    }
    if has(Fault::Lists) {
        let list = match random.chance(2) {
            true => &mut tunes.numbers,
            false => &mut tunes.counts,
        };
        spoil_length(random, list);
    }
    if has(Fault::Strikes) {
        spoil_length(random, &mut tunes.strikes);
    }
    if has(Fault::Field) {
        spoil_field(random, &mut tunes.strikes);
    }
    let mut book = random.bytes(book_len);
    if has(Fault::Book) {
        spoil_length(random, &mut book);
    }
    call(&tunes, book)
}

/// Two to six counts: at least one that is too large or not 0, and at least
/// one that is 0, if such are wanted.
fn faulty_counts(random: &mut Random, too_large: bool, zero: bool) -> Vec<u16> {
    let mut counts = some_counts(random, 4);
    if too_large {
        counts.push(*random.pick(&[5_461, 5_462, 6_000, 10_923, 32_768, 65_535]));
    } else {
        counts.push(1 + random.below(3) as u16);
    }
    match zero {
        true => counts.push(0),
        false => counts.push(1),
    }
    let places = counts.len() as u64;
    for place in 0..counts.len() {
        counts.swap(place, random.below(places) as usize);
    }
    counts
}

/// Breaks the range or the rise of two or more tune numbers.
fn spoil_number(random: &mut Random, numbers: &mut [u16]) {
    let place = random.below(numbers.len() as u64 - 1) as usize;
    match random.below(5) {
        0 => numbers[0] = 0,
        1 => *numbers.last_mut().unwrap() = *random.pick(&[10_000, 16_384, 65_535]),
        2 => numbers[place] = numbers[place + 1],
        3 => numbers.swap(place, place + 1),
        _ => numbers[place] = *random.pick(&[0, 10_000, 40_000]),
    }
}

/// Makes a list a little longer or shorter, but not empty if it has three
/// values or more.
fn spoil_length<T: Copy + Default>(random: &mut Random, list: &mut Vec<T>) {
    let least = if list.len() > 3 { 3 } else { 2 };
    let less = 1 + random.below(least) as usize;
    let more = 1 + random.below(14) as usize;
    let len = match random.chance(2) {
        true if list.len() >= less => list.len() - less,
        _ => list.len() + more,
    };
    list.truncate(len);
    while list.len() < len {
        // As three places before, where the same field of a strike stands.
        let place = list.len().checked_sub(3);
        list.push(place.map_or(T::default(), |place| list[place]));
    }
}

/// Puts one or more numbers of a strike list out of their range.
fn spoil_field(random: &mut Random, strikes: &mut [u16]) {
    for _ in 0..=random.below(3) {
        let place = random.below(strikes.len() as u64) as usize;
        strikes[place] = match place % 3 {
            0 => *random.pick(&[48, 49, 53, 54, 80, 81, 255, 256, 303, 728, 65_535]),
            1 => *random.pick(&[9, 10, 26, 27, 47, 255, 256, 264, 728, 65_535]),
            _ => *random.pick(&[729, 730, 1_000, 32_768, 65_535]),
        };
    }
}

/// So many numbers of a strike list, in their ranges.
fn some_fields(random: &mut Random, len: usize) -> Vec<u16> {
    let mut strikes = samples::strikes(random, len.div_ceil(3));
    strikes.truncate(len);
    strikes
}

/// Numbers about the largest fields, at every place of strike lists of every
/// short length, whether that is right or not.
pub fn fields<L: Library>() {
    let mut random = Random::new(1_900);
    for len in 0..=12 {
        for place in 0..len {
            for edge in EDGE_FIELDS {
                let mut tunes = samples::tunes(&mut random, &[1, 2]);
                tunes.strikes = some_fields(&mut random, len);
                tunes.strikes[place] = edge;
                check_tunes::<L>(&mut random, &tunes);
            }
        }
    }
}

/// Tune numbers and counts about their limits, and lists of all short
/// lengths.
pub fn lists<L: Library>() {
    let mut random = Random::new(2_000);
    let edges = [0, 1, 2, 255, 256, 257, 9_998, 9_999, 10_000, 16_383, 65_535];
    for first in edges {
        for second in edges {
            for third in edges {
                let mut tunes = samples::tunes(&mut random, &[1, 2, 1]);
                tunes.numbers = vec![first, second, third];
                check_tunes::<L>(&mut random, &tunes);
            }
        }
    }
    for number in 0..=u16::MAX {
        let mut tunes = samples::tunes(&mut random, &[1]);
        tunes.numbers = vec![number];
        check_tunes::<L>(&mut random, &tunes);
    }
    for number in 0..5 * 5 * 14 {
        let [numbers_len, counts_len, strikes_len] = [number % 5, number / 5 % 5, number / 25];
        let counts = random.numbers(counts_len, 3);
        let size = book_size(&counts).expect("a small book");
        for book_len in [0, 1, 2, 10, 22, size - 1, size, size + 1, size + 12] {
            let tunes = Tunes {
                numbers: (1..=numbers_len as u16).collect(),
                counts: counts.clone(),
                strikes: some_fields(&mut random, strikes_len),
            };
            call(&tunes, random.bytes(book_len)).check::<L>();
        }
    }
}

/// Lists of any lengths, that have little to do with each other.
pub fn any_lists<L: Library>() {
    let mut random = Random::new(2_100);
    for _ in 0..5_000 {
        let [numbers, counts, fields] = [5, 5, 20].map(|most_len| random.below(most_len) as usize);
        let mut tunes = Tunes {
            numbers: random.numbers(numbers, 100),
            counts: random.numbers(counts, 4),
            strikes: some_fields(&mut random, fields),
        };
        if fields > 0 && random.chance(3) {
            spoil_field(&mut random, &mut tunes.strikes);
        }
        let len = random.below(100) as usize;
        call(&tunes, random.bytes(len)).check::<L>();
    }
}

/// Tunes with rising numbers as long as there are such, and strikes of zeros.
fn silent_tunes(counts: Vec<u16>, strikes_len: usize) -> Tunes {
    Tunes {
        numbers: (1..=counts.len()).map(|number| number as u16).collect(),
        counts,
        strikes: vec![0; strikes_len],
    }
}

/// Counts, none of them 0, with this sum.
fn counts_with_sum(len: usize, sum: u64) -> Vec<u16> {
    let mut rest = sum - len as u64;
    let mut count = || {
        let more = rest.min(65_534);
        rest -= more;
        more as u16 + 1
    };
    let counts = (0..len).map(|_| count()).collect();
    assert_eq!(rest, 0, "{len} counts have no such sum");
    counts
}

/// The books of the largest sizes. No book has 65,535 or 65,536 bytes: their
/// sizes are 2 more than a multiple of 4.
pub fn large_books<L: Library>() {
    let mut random = Random::new(2_200);
    let sizes = [
        (vec![5_460], 65_530),
        (vec![1, 5_458], 65_526),
        (vec![1, 5_457, 1], 65_534),
        (vec![1; 3_276], 65_522),
        ([vec![1; 3_275], vec![2]].concat(), 65_534),
        (vec![2; 2_047], 65_506),
        (counts_with_sum(100, 5_394), 65_530),
    ];
    for (counts, size) in sizes {
        assert_eq!(book_size(&counts), Ok(size));
        let mut tunes = samples::tunes(&mut random, &counts);
        check_tunes::<L>(&mut random, &tunes);
        for len in [0, size - 12, size - 1, size + 1, size + 12, size + 65_536] {
            call(&tunes, random.bytes(len)).check::<L>();
        }
        // One card more, or one less.
        *tunes.counts.last_mut().unwrap() += 1;
        check_tunes::<L>(&mut random, &tunes);
        tunes.strikes.extend([0; 3]);
        check_tunes::<L>(&mut random, &tunes);
        call(&tunes, random.bytes(size + 12)).check::<L>();
        tunes.strikes.truncate(tunes.strikes.len() - 6);
        check_tunes::<L>(&mut random, &tunes);
    }
}

/// Lists that are too long, or right in the low 16 bits of their lengths.
pub fn long_lists<L: Library>() {
    let mut random = Random::new(2_300);
    for len in [
        3_277, 8_190, 8_191, 8_192, 9_999, 65_535, 65_536, 65_538, 70_000,
    ] {
        for count in [0, 1, 2, 65_535] {
            let tunes = silent_tunes(vec![count; len], 3 * len);
            check_tunes::<L>(&mut random, &tunes);
            let mut tunes = silent_tunes(vec![count; len], 6);
            check_tunes::<L>(&mut random, &tunes);
            tunes.numbers.pop();
            check_tunes::<L>(&mut random, &tunes);
            tunes.strikes.push(48);
            check_tunes::<L>(&mut random, &tunes);
        }
    }
    for [numbers, counts, strikes, book] in [[1, 0, 0, 0], [0, 1, 0, 0], [0, 0, 1, 0], [0, 0, 0, 1]]
    {
        let mut tunes = samples::tunes(&mut random, &[1, 2]);
        tunes.numbers.resize(2 + numbers * 65_536, 9_999);
        tunes.counts.resize(2 + counts * 65_536, 0);
        tunes.strikes.resize(9 + strikes * 65_536, 0);
        call(&tunes, random.bytes(54 + book * 65_536)).check::<L>();
    }
}

/// Long strike lists with one number out of its range, or none.
pub fn long_strikes<L: Library>() {
    let mut random = Random::new(2_400);
    for len in [16_379, 16_380, 199_998, 199_999, 200_000] {
        let mut tunes = samples::tunes(&mut random, &[5_460]);
        tunes.strikes = some_fields(&mut random, len);
        check_tunes::<L>(&mut random, &tunes);
        for place in [0, 1, 2, len / 2, len - 4, len - 3, len - 2, len - 1] {
            let most = LARGEST_FIELDS[place % 3];
            for edge in [most, most + 1, 65_535] {
                let mut tunes = tunes.clone();
                tunes.strikes[place] = edge;
                check_tunes::<L>(&mut random, &tunes);
            }
        }
    }
}

/// Counts whose sum, or whose book's size, is right in its low bits.
fn wrapping_counts() -> Vec<Vec<u16>> {
    let mut all = vec![
        counts_with_sum(2, (1 << 16) + 2),
        counts_with_sum(3, (1 << 16) + 4),
        counts_with_sum(4, (1 << 17) + 4),
        counts_with_sum(65_540, (1 << 32) + 2),
    ];
    // A size that is 65,534 more than a multiple of 2^16 or 2^32.
    for (bits, len) in [
        (16, 1),
        (16, 2),
        (16, 100),
        (32, 5_462),
        (32, 8_189),
        (32, 70_000),
    ] {
        let bodies = |turns: u64| (turns << bits) + 65_534 - 2 - 8 * len;
        let bodies = (1..=3).map(bodies).find(|bytes| bytes % 12 == 0);
        all.push(counts_with_sum(len as usize, bodies.unwrap() / 12));
    }
    all
}

pub fn wrapping_sums<L: Library>() {
    let mut random = Random::new(2_500);
    for counts in wrapping_counts() {
        Call::BookSize {
            counts: counts.clone(),
        }
        .check::<L>();
        for strikes_len in [0, 3, 6, 9, 12, 16_380] {
            let tunes = silent_tunes(counts.clone(), strikes_len);
            for len in [2, 30, 42, 54, 65_534] {
                call(&tunes, random.bytes(len)).check::<L>();
            }
        }
    }
}

pub fn sizes<L: Library>() {
    let mut random = Random::new(2_600);
    let check = |counts| Call::BookSize { counts }.check::<L>();
    for _ in 0..5_000 {
        check(some_counts(&mut random, 30));
        let len = random.below(8) as usize;
        check(samples::junk(&mut random, len));
        // About the largest size.
        let len = 1 + random.below(3_300);
        let cards = (LONGEST_BOOK as u64 - 2).saturating_sub(8 * len) / 12;
        let sum = (cards + 3).saturating_sub(random.below(6)).max(len);
        check(counts_with_sum(len as usize, sum));
    }
    for len in [
        0, 1, 2, 3_276, 3_277, 8_190, 8_191, 8_192, 9_999, 65_535, 65_536, 70_000,
    ] {
        for count in [0, 1, 2, 5_460, 65_535] {
            check(vec![count; len]);
        }
    }
    for count in 0..=u16::MAX {
        check(vec![count]);
    }
}

fn done(status: u32) -> Result<(), u32> {
    match status {
        0 => Ok(()),
        refusal => Err(refusal),
    }
}

/// What is read of a book: its tunes, and the damage of each card; or the
/// refusal of the book or of a card.
fn read_book<L: Library>(book: &[u8]) -> Result<(Tunes, Vec<u32>), u32> {
    let (mut tunes, mut damages) = (Tunes::default(), vec![]);
    let mut count = 0;
    done(L::open(book, &mut count))?;
    for place in 0..count {
        let [mut number, mut cards, mut offset, mut length] = [0; 4];
        assert_eq!(L::tune_at(book, place, &mut number, &mut cards), 0);
        assert_eq!(L::tune_body(book, number, &mut offset, &mut length), 0);
        let body = &book[offset as usize..][..length as usize];
        assert_eq!(length, 12 * cards);
        tunes.numbers.push(number as u16);
        tunes.counts.push(cards as u16);
        for number in 1..=cards {
            let mut strike = [0; 4];
            done(L::read_card(body, number, &mut strike))?;
            let [fields @ .., damage] = strike;
            tunes.strikes.extend(fields.map(|field| field as u16));
            damages.push(damage);
        }
    }
    Ok((tunes, damages))
}

fn write_book<L: Library>(random: &mut Random, tunes: &Tunes) -> Vec<u8> {
    let mut size = 0;
    assert_eq!(L::book_size(&tunes.counts, &mut size), 0);
    let mut book = random.bytes(size);
    let status = L::write_book(&tunes.numbers, &tunes.counts, &tunes.strikes, &mut book);
    assert_eq!(status, 0, "{tunes:?}");
    book
}

/// Counts of small books, and of the largest.
fn readable_counts(random: &mut Random) -> Vec<Vec<u16>> {
    let mut all: Vec<Vec<u16>> = (0..2_000).map(|_| some_counts(random, 8)).collect();
    all.extend([
        vec![5_460],
        vec![1, 5_457, 1],
        vec![1; 3_276],
        vec![2; 2_047],
    ]);
    all
}

/// A book that was written shows the same tunes, without damage.
pub fn written_and_read<L: Library>() {
    let mut random = Random::new(2_700);
    for counts in readable_counts(&mut random) {
        let tunes = samples::tunes(&mut random, &counts);
        check_read_back::<L>(&mut random, &tunes);
    }
}

fn check_read_back<L: Library>(random: &mut Random, tunes: &Tunes) {
    let book = write_book::<L>(random, tunes);
    let (read, damages) = read_book::<L>(&book).unwrap();
    assert_eq!(read, *tunes);
    assert!(damages.iter().all(|damage| *damage == 0));
}

/// A book without damage has the same bytes when what is read of it is
/// written again; one that can be mended has those that it had before.
pub fn read_and_written<L: Library>() {
    let mut random = Random::new(2_800);
    for counts in readable_counts(&mut random) {
        let numbers = samples::tune_numbers(&mut random, counts.len());
        let (mut clean, mut damaged) = (vec![], vec![]);
        for (number, count) in numbers.into_iter().zip(counts) {
            let sent: Vec<samples::Sent> = (0..count)
                .map(|turn| samples::sent_strike(&mut random, turn as u32 % 3))
                .collect();
            let bytes = |card: fn(&samples::Sent) -> [u16; 6]| {
                samples::body(&sent.iter().map(card).collect::<Vec<_>>())
            };
            clean.push((number, bytes(|sent| sent.word)));
            damaged.push((number, bytes(|sent| sent.received)));
        }
        let clean = samples::book(&clean);
        let (tunes, damages) = read_book::<L>(&clean).unwrap();
        assert!(damages.iter().all(|damage| *damage == 0));
        assert!(write_book::<L>(&mut random, &tunes) == clean, "{tunes:?}");
        let (mended, _) = read_book::<L>(&samples::book(&damaged)).unwrap();
        assert_eq!(mended, tunes);
    }
}

/// No tunes are written as two zeros, and into no book of another length.
pub fn no_tunes<L: Library>() {
    let mut random = Random::new(2_900);
    expect_known::<L>(Call::BookSize { counts: vec![] }, Ok(vec![2]));
    for len in 0..=30 {
        let before = random.bytes(len);
        let (status, after) = match len {
            2 => (0, vec![0, 0]),
            _ => (2, before.clone()),
        };
        let known = Outcome {
            status,
            numbers: vec![],
            lists: vec![wide(&after)],
        };
        let call = call(&Tunes::default(), before);
        assert_eq!(call.expected(), known, "{call:?}");
        call.expect::<L>(&known);
    }
}

/// Good tunes, for a book of no bytes or of one: none is so short.
pub fn shortest_books<L: Library>() {
    let mut random = Random::new(2_910);
    for turn in 0..2_000 {
        let counts = some_counts(&mut random, turn % 20);
        let tunes = samples::tunes(&mut random, &counts);
        for len in [0, 1] {
            let call = call(&tunes, random.bytes(len));
            let expected = call.expected();
            assert_eq!(expected.status, 2, "{call:?}");
            call.expect::<L>(&expected);
        }
    }
}

/// Whether a book is opened and its cards are all read without damage. Panics
/// unless such a book has the same bytes when what is read of it is written
/// again. The file of no bytes alone has others: those of no tunes.
fn check_clean<L: Library>(random: &mut Random, book: &[u8]) -> bool {
    match read_book::<L>(book) {
        Ok((tunes, damages)) if damages.iter().all(|damage| *damage == 0) => {
            let known = if book.is_empty() { &[0, 0] } else { book };
            assert_eq!(write_book::<L>(random, &tunes), known);
            true
        }
        _ => false,
    }
}

/// Books that were written, all their beginnings, and single-byte faults in
/// each place: some of them are clean still.
pub fn clean_books<L: Library>() {
    let mut random = Random::new(2_920);
    assert!(check_clean::<L>(&mut random, &[]));
    assert!(check_clean::<L>(&mut random, &[0, 0]));
    let mut clean_faults = 0;
    for _ in 0..300 {
        let counts = some_counts(&mut random, 4);
        let tunes = samples::tunes(&mut random, &counts);
        let book = write_book::<L>(&mut random, &tunes);
        for len in 0..=book.len() {
            let is_clean = check_clean::<L>(&mut random, &book[..len]);
            assert_eq!(is_clean, len == 0 || len == book.len());
        }
        for place in 0..book.len() {
            let mut faulty = book.clone();
            faulty[place] ^= 1 + random.below(255) as u8;
            clean_faults += usize::from(check_clean::<L>(&mut random, &faulty));
        }
    }
    assert!(clean_faults > 100, "only {clean_faults}");
}
