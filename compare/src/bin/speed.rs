//! Prints how long the proved library and the fast Rust implementation take,
//! in one run and on the same inputs, and the ratio of the two. Both are
//! called through the same interface, without inlining. The lists to fill are
//! made once and not cleared between calls.
//!
//! The rows of whole books, of the damage that is named: `read book` reads
//! each card and then takes the length; `listing in memory` makes the text;
//! `list_book process` runs the program `list_book`, or the program
//! `fast_listing`, from its start to its end, with the book in a file and the
//! output in a pipe; `write book` writes the book of its strikes. A book has
//! one tune of 5,460 cards, or where the damage is `0 tunes`, 3,276 tunes of
//! one card. Only hopeless cards are refused. `book size` asks for the size of a
//! book of 3,276 tunes.
//!
//! A call of `wear` is of the body of such a book with one tune. Its damage is
//! the width, and the damage of the cards.
//!
//! The damage of `decode_dead` is the number of dead rows, that of dead
//! columns, and the rank of the damage in live lines. The dead lines of each
//! card are others, and filled at random. For each k and each number of dead
//! lines only that row is printed which takes the proved library longest;
//! the others can be named. With no dead line it is `decode`.
//!
//! `levels`, `symbols` and `receive` are of random cards, and a call of each
//! is of one card; the samples are any of their levels.
//!
//! With the name of an operation as arguments it prints only the rows of that.
//! With the words of a row before its times it makes only that row's calls,
//! once each: for a tool that counts instructions.

use compare::book::LISTING_MAX;
use compare::cable;
use compare::capi::Proved;
use compare::code::{radius, Card};
use compare::fast::Fast;
use compare::library::Library;
use compare::random::Random;
use compare::samples::{self, Masks};
use compare::writer::{book_size, Tunes};
use std::fs::{self, File};
use std::hint::black_box;
use std::io::Read;
use std::path::{Path, PathBuf};
use std::process::{self, Command, Stdio};
use std::time::{Duration, Instant};

/// How many inputs each row is measured on.
const INPUTS: usize = 5_000;

/// How many measurements are taken at least, and for how long at least. The
/// fastest counts: what else runs on the machine can only add to a time.
const ROUNDS: usize = 9;
const ROW: Duration = Duration::from_millis(500);

/// How long one measurement takes at least.
const MEASUREMENT: Duration = Duration::from_millis(1);

/// As many cards as a book with one tune can have.
const FULL_BOOK: usize = 5_460;

/// As many tunes as a book can have.
const MOST_TUNES: usize = 3_276;

/// The damage of a row's cards.
#[derive(Clone, Copy)]
enum Damage {
    Rank(u32),
    Hopeless,
}

/// What the rows of whole books are measured on: one tune with cards of some
/// damage, or as many tunes as there can be, of one card without damage.
#[derive(Clone, Copy)]
enum Book {
    Full(Damage),
    MostTunes,
}

fn main() {
    print_row(["operation", "k", "damage", "proved ns", "rust ns", "ratio"]);
    encode_rows();
    syndrome_rows();
    rank_rows();
    decode_rows();
    decode_dead_rows();
    read_book_rows();
    wear_rows();
    listing_rows();
    process_rows();
    write_book_rows();
    book_size_row();
    levels_row();
    symbols_row();
    receive_row();
}

fn encode_rows() {
    for k in 1..=5 {
        let names = ["encode", &k.to_string(), "-"];
        if !is_wanted(names) {
            continue;
        }
        let random = &mut Random::new(k.into());
        let messages: Vec<Vec<u16>> = (0..INPUTS).map(|_| samples::message(random, k)).collect();
        row(
            names,
            INPUTS,
            || encode_all::<Proved>(k, &messages),
            || encode_all::<Fast>(k, &messages),
        );
    }
}

fn syndrome_rows() {
    for k in 1..=5 {
        let names = ["syndrome", &k.to_string(), &radius(k).to_string()];
        if !is_wanted(names) {
            continue;
        }
        let cards = cards(k, Damage::Rank(radius(k)), INPUTS);
        row(
            names,
            INPUTS,
            || syndrome_all::<Proved>(k, &cards),
            || syndrome_all::<Fast>(k, &cards),
        );
    }
}

fn rank_rows() {
    for rank in 0..=6 {
        let names = ["rank", "-", &rank.to_string()];
        if !is_wanted(names) {
            continue;
        }
        let random = &mut Random::new(rank.into());
        let cards: Vec<Card> = (0..INPUTS)
            .map(|_| samples::damaged(random, &[0; 6], rank))
            .collect();
        row(
            names,
            INPUTS,
            || rank_all::<Proved>(&cards),
            || rank_all::<Fast>(&cards),
        );
    }
}

fn decode_rows() {
    for k in 1..=5 {
        for damage in damages(k) {
            let names = ["decode", &k.to_string(), &damage.name()];
            if !is_wanted(names) {
                continue;
            }
            let cards = cards(k, damage, INPUTS);
            row(
                names,
                INPUTS,
                || decode_all::<Proved>(k, &cards),
                || decode_all::<Fast>(k, &cards),
            );
        }
    }
}

fn decode_dead_rows() {
    for k in 1..=5 {
        for lines in 1..=6 - k {
            let cases = DeadCase::all(k, lines);
            if let Some(case) = cases.iter().find(|case| case.names().join(" ") == wanted()) {
                case.row();
            }
            if is_wanted(["decode_dead", "", ""]) {
                let times = cases.into_iter().map(|case| (case.proved_time(), case));
                let (_, slowest) = times
                    .max_by(|(one, _), (other, _)| one.total_cmp(other))
                    .expect("a case");
                slowest.row();
            }
        }
    }
}

fn read_book_rows() {
    for damage in damages(2) {
        let names = ["read book", "2", &damage.name()];
        if !is_wanted(names) {
            continue;
        }
        let book = Book::Full(damage).bytes();
        row(
            names,
            1,
            || read_book::<Proved>(&book),
            || read_book::<Fast>(&book),
        );
    }
}

fn wear_rows() {
    for damage in damages(2) {
        for width in [1, 8, 64] {
            let names = ["wear", "2", &format!("{width} {}", damage.name())];
            if !is_wanted(names) {
                continue;
            }
            let body = full_body(damage);
            row(
                names,
                1,
                || wear::<Proved>(&body, width),
                || wear::<Fast>(&body, width),
            );
        }
    }
}

fn listing_rows() {
    for kind in Book::all() {
        let names = ["listing in memory", "2", &kind.name()];
        if !is_wanted(names) {
            continue;
        }
        let book = kind.bytes();
        let (mut proved, mut rust) = (vec![0; LISTING_MAX], vec![0; LISTING_MAX]);
        row(
            names,
            1,
            || list::<Proved>(&book, &mut proved),
            || list::<Fast>(&book, &mut rust),
        );
        assert!(proved == rust, "the listings disagree");
    }
}

fn process_rows() {
    for kind in Book::all() {
        let names = ["list_book process", "2", &kind.name()];
        if !is_wanted(names) {
            continue;
        }
        let (proved_program, rust_program) = (proved_program(), rust_program());
        let book = std::env::temp_dir().join(format!("speed-{}.book", process::id()));
        fs::write(&book, kind.bytes()).expect("a file in the temporary folder");
        let (mut proved, mut rust) = (vec![], vec![]);
        row(
            names,
            1,
            || run(&proved_program, &book, &mut proved),
            || run(&rust_program, &book, &mut rust),
        );
        assert!(proved == rust, "the programs disagree");
        fs::remove_file(book).expect("the file that was written");
    }
}

fn write_book_rows() {
    for (damage, counts) in [
        ("0", vec![FULL_BOOK as u16]),
        ("0 tunes", vec![1; MOST_TUNES]),
    ] {
        let names = ["write book", "2", damage];
        if !is_wanted(names) {
            continue;
        }
        let tunes = samples::tunes(&mut Random::new(2), &counts);
        let size = book_size(&counts).expect("a book");
        let (mut proved, mut rust) = (vec![0; size], vec![0; size]);
        row(
            names,
            1,
            || write_book::<Proved>(&tunes, &mut proved),
            || write_book::<Fast>(&tunes, &mut rust),
        );
        assert!(proved == rust, "the books disagree");
    }
}

fn book_size_row() {
    let names = ["book size", "-", "-"];
    if !is_wanted(names) {
        return;
    }
    let counts = [1; MOST_TUNES];
    row(
        names,
        1,
        || size_of::<Proved>(&counts),
        || size_of::<Fast>(&counts),
    );
}

fn levels_row() {
    let names = ["levels", "-", "-"];
    if !is_wanted(names) {
        return;
    }
    let cards = random_cards();
    row(
        names,
        INPUTS,
        || levels_all::<Proved>(&cards),
        || levels_all::<Fast>(&cards),
    );
}

fn symbols_row() {
    let names = ["symbols", "-", "-"];
    if !is_wanted(names) {
        return;
    }
    let numbers = |card| cable::levels(card, 6).expect("a card");
    let lists: Vec<[i16; 6]> = random_cards().iter().map(|card| numbers(card)).collect();
    row(
        names,
        INPUTS,
        || symbols_all::<Proved>(&lists),
        || symbols_all::<Fast>(&lists),
    );
}

fn receive_row() {
    let names = ["receive", "-", "-"];
    if !is_wanted(names) {
        return;
    }
    let random = &mut Random::new(2);
    let lists: Vec<Vec<i16>> = random_cards()
        .iter()
        .map(|card| samples::on_cable(random, card))
        .collect();
    row(
        names,
        INPUTS,
        || receive_all::<Proved>(&lists),
        || receive_all::<Fast>(&lists),
    );
}

/// The program of the repository.
fn proved_program() -> PathBuf {
    let path = Path::new(env!("CARGO_MANIFEST_DIR")).join("../target/bin/list_book");
    built(path, "rt check list_book` in the repository")
}

/// The program of this package, beside this one.
fn rust_program() -> PathBuf {
    let this = std::env::current_exe().expect("this program's path");
    built(
        this.with_file_name("fast_listing"),
        "cargo build --release --offline`",
    )
}

fn built(program: PathBuf, command: &str) -> PathBuf {
    if !program.is_file() {
        eprintln!("no {}: run `{command} first", program.display());
        process::exit(1);
    }
    program
}

impl Book {
    fn all() -> Vec<Book> {
        let full = damages(2).into_iter().map(Book::Full);
        full.chain([Book::MostTunes]).collect()
    }

    fn name(self) -> String {
        match self {
            Book::Full(damage) => damage.name(),
            Book::MostTunes => "0 tunes".to_string(),
        }
    }

    fn bytes(self) -> Vec<u8> {
        match self {
            Book::Full(damage) => samples::book(&[(1, full_body(damage))]),
            Book::MostTunes => {
                let cards = strike_cards(Damage::Rank(0), MOST_TUNES);
                let bodies = cards.into_iter().map(|card| samples::body(&[card]));
                samples::book(&(1..).zip(bodies).collect::<Vec<_>>())
            }
        }
    }
}

/// What a row of `decode_dead` is measured on.
struct DeadCase {
    k: u32,
    rows: u32,
    columns: u32,
    damage: Damage,
}

impl DeadCase {
    /// All cases with so many dead lines.
    fn all(k: u32, lines: u32) -> Vec<DeadCase> {
        let mut cases = vec![];
        for rows in 0..=lines {
            let columns = lines - rows;
            let ranks = 0..=(6 - k - lines) / 2;
            let mut damages: Vec<Damage> = ranks.map(Damage::Rank).collect();
            // Else every card is near a word.
            if lines < 6 - k || rows * columns > 0 {
                damages.push(Damage::Hopeless);
            }
            cases.extend(damages.into_iter().map(|damage| DeadCase {
                k,
                rows,
                columns,
                damage,
            }));
        }
        cases
    }

    fn names(&self) -> [String; 3] {
        let damage = format!("{} {} {}", self.rows, self.columns, self.damage.name());
        ["decode_dead".to_string(), self.k.to_string(), damage]
    }

    fn cards(&self) -> Vec<(Card, Masks)> {
        let k = self.k;
        let random = &mut Random::new(k.into());
        let card = |_| {
            let dead = [self.rows, self.columns].map(|lines| samples::mask(random, lines));
            let card = match self.damage {
                Damage::Rank(rank) => samples::sent_dead(random, k, dead, rank).received,
                Damage::Hopeless => hopeless_card(random, |card| decode_dead(k, card, dead)),
            };
            (card, dead)
        };
        (0..INPUTS).map(card).collect()
    }

    /// About how long the proved library takes.
    fn proved_time(&self) -> f64 {
        let cards = self.cards();
        let mut proved = || decode_dead_all::<Proved>(self.k, &cards);
        let repeats = repeats(&mut proved);
        let times = (0..ROUNDS).map(|_| time(&mut proved, repeats));
        times.fold(f64::INFINITY, f64::min)
    }

    fn row(&self) {
        let [operation, k, damage] = &self.names();
        let cards = self.cards();
        row(
            [operation, k, damage],
            INPUTS,
            || decode_dead_all::<Proved>(self.k, &cards),
            || decode_dead_all::<Fast>(self.k, &cards),
        );
    }
}

impl Damage {
    fn name(self) -> String {
        match self {
            Damage::Rank(rank) => rank.to_string(),
            Damage::Hopeless => "hopeless".to_string(),
        }
    }
}

fn damages(k: u32) -> Vec<Damage> {
    let ranks = (0..=radius(k)).map(Damage::Rank);
    ranks.chain([Damage::Hopeless]).collect()
}

fn cards(k: u32, damage: Damage, count: usize) -> Vec<Card> {
    let random = &mut Random::new(k.into());
    let card = |_| match damage {
        Damage::Rank(rank) => samples::sent(random, k, rank).received,
        Damage::Hopeless => hopeless_card(random, |card| decode(k, card)),
    };
    (0..count).map(card).collect()
}

/// Cards that are refused only if they are hopeless: their bells are those of
/// strikes.
fn strike_cards(damage: Damage, count: usize) -> Vec<Card> {
    let random = &mut Random::new(2);
    match damage {
        Damage::Rank(rank) => (0..count)
            .map(|_| samples::sent_strike(random, rank).received)
            .collect(),
        Damage::Hopeless => cards(2, damage, count),
    }
}

/// The body of a book with one tune and as many cards as there can be.
fn full_body(damage: Damage) -> Vec<u8> {
    samples::body(&strike_cards(damage, FULL_BOOK))
}

/// Cards of any symbols.
fn random_cards() -> Vec<Card> {
    let random = &mut Random::new(1);
    (0..INPUTS).map(|_| samples::card(random)).collect()
}

/// A card that is refused.
fn hopeless_card(random: &mut Random, decode: impl Fn(&Card) -> u32) -> Card {
    loop {
        let card = samples::card(random);
        if decode(&card) != 0 {
            return card;
        }
    }
}

fn decode(k: u32, card: &Card) -> u32 {
    let mut message = vec![0; 2 * k as usize];
    Fast::decode(k, card, &mut [0; 6], &mut message, &mut 0)
}

fn decode_dead(k: u32, card: &Card, [rows, columns]: Masks) -> u32 {
    let mut message = vec![0; 2 * k as usize];
    Fast::decode_dead(k, card, rows, columns, &mut [0; 6], &mut message, &mut 0)
}

// Each of these gives back a sum of what the calls gave, which must be the
// same for both implementations.

fn encode_all<L: Library>(k: u32, messages: &[Vec<u16>]) -> u64 {
    let mut word = [0; 6];
    let mut sum = 0;
    for message in messages {
        sum += u64::from(L::encode(k, message, &mut word));
        sum += u64::from(word[0]);
    }
    sum
}

fn syndrome_all<L: Library>(k: u32, cards: &[Card]) -> u64 {
    let mut values = vec![0; 12 - 2 * k as usize];
    let mut sum = 0;
    for card in cards {
        sum += u64::from(L::syndrome(k, card, &mut values));
        sum += u64::from(values[0]);
    }
    sum
}

fn rank_all<L: Library>(cards: &[Card]) -> u64 {
    let mut rank = 0;
    let mut sum = 0;
    for card in cards {
        sum += u64::from(L::weight(card, &mut rank));
        sum += u64::from(rank);
    }
    sum
}

fn decode_all<L: Library>(k: u32, cards: &[Card]) -> u64 {
    let mut word = [0; 6];
    let mut message = vec![0; 2 * k as usize];
    let mut distance = 0;
    let mut sum = 0;
    for card in cards {
        sum += u64::from(L::decode(k, card, &mut word, &mut message, &mut distance));
        sum += u64::from(distance) + u64::from(message[0]);
    }
    sum
}

fn decode_dead_all<L: Library>(k: u32, cards: &[(Card, Masks)]) -> u64 {
    let mut word = [0; 6];
    let mut message = vec![0; 2 * k as usize];
    let mut rank = 0;
    let mut sum = 0;
    for (card, [rows, columns]) in cards {
        let status = L::decode_dead(k, card, *rows, *columns, &mut word, &mut message, &mut rank);
        sum += u64::from(status) + u64::from(rank) + u64::from(message[0]);
    }
    sum
}

/// Reads every card of a book with the tune 1, and then its length.
fn read_book<L: Library>(book: &[u8]) -> u64 {
    let (mut tunes, mut offset, mut length) = (0, 0, 0);
    assert_eq!(L::open(book, &mut tunes), 0);
    assert_eq!(L::tune_body(book, 1, &mut offset, &mut length), 0);
    let body = &book[offset as usize..][..length as usize];
    let mut sum = 0;
    let mut strike = [0; 4];
    for number in 1..=length / 12 {
        sum += u64::from(L::read_card(body, number, &mut strike));
        sum += strike.iter().map(|part| u64::from(*part)).sum::<u64>();
    }
    let mut ticks = 0;
    sum += u64::from(L::total_delay(body, &mut ticks));
    sum + u64::from(ticks)
}

fn wear<L: Library>(body: &[u8], width: u32) -> u64 {
    let (mut sum, mut first) = (0, 0);
    assert_eq!(L::wear(body, width, &mut sum, &mut first), 0);
    u64::from(sum) + u64::from(first)
}

/// Lists a book; gives back the length of the listing.
fn list<L: Library>(book: &[u8], text: &mut [u8]) -> u64 {
    let mut written = 0;
    assert_eq!(L::list(book, text, &mut written), 0);
    written as u64
}

/// Writes a book; gives back a byte of its last card.
fn write_book<L: Library>(tunes: &Tunes, book: &mut [u8]) -> u64 {
    let status = L::write_book(&tunes.numbers, &tunes.counts, &tunes.strikes, book);
    assert_eq!(status, 0);
    book.last().copied().map_or(0, u64::from)
}

fn size_of<L: Library>(counts: &[u16]) -> u64 {
    let mut size = 0;
    assert_eq!(L::book_size(black_box(counts), &mut size), 0);
    size as u64
}

fn levels_all<L: Library>(cards: &[Card]) -> u64 {
    let mut levels = [0; 6];
    let mut sum = 0;
    for card in cards {
        sum += u64::from(L::levels(card, &mut levels));
        sum += u64::from(levels[0] as u16);
    }
    sum
}

fn symbols_all<L: Library>(lists: &[[i16; 6]]) -> u64 {
    let mut card = [0; 6];
    let mut sum = 0;
    for levels in lists {
        sum += u64::from(L::symbols(levels, &mut card));
        sum += u64::from(card[0]);
    }
    sum
}

fn receive_all<L: Library>(lists: &[Vec<i16>]) -> u64 {
    let mut card = [0; 6];
    let mut sum = 0;
    for samples in lists {
        sum += u64::from(L::receive(samples, &mut card));
        sum += u64::from(card[0]);
    }
    sum
}

/// Runs a program on a book; gives back the length of what it printed.
fn run(program: &Path, book: &Path, text: &mut Vec<u8>) -> u64 {
    let mut child = Command::new(program)
        .stdin(File::open(book).expect("the file that was written"))
        .stdout(Stdio::piped())
        .spawn()
        .expect("a program that runs");
    text.clear();
    let mut output = child.stdout.take().expect("a pipe");
    output.read_to_end(text).expect("what the program prints");
    assert!(child.wait().expect("a program that ends").success());
    text.len() as u64
}

/// The rows that are asked for: an operation, a row, or all if it is empty.
fn wanted() -> String {
    let words: Vec<String> = std::env::args().skip(1).collect();
    words.join(" ")
}

fn is_wanted(names: [&str; 3]) -> bool {
    ["", names[0], &names.join(" ")].contains(&wanted().as_str())
}

/// Measures both in turn and prints a line. Each runs `calls` calls.
fn row(
    names: [&str; 3],
    calls: usize,
    mut proved: impl FnMut() -> u64,
    mut rust: impl FnMut() -> u64,
) {
    let [operation, k, damage] = names;
    assert_eq!(proved(), rust(), "{operation} {k} {damage} disagree");
    if wanted() == names.join(" ") {
        println!("{operation} {k} {damage}: {calls} calls");
        return;
    }
    let (proved_repeats, rust_repeats) = (repeats(&mut proved), repeats(&mut rust));
    let (mut proved_time, mut rust_time) = (f64::INFINITY, f64::INFINITY);
    let start = Instant::now();
    let mut rounds = 0;
    while rounds < ROUNDS || start.elapsed() < ROW {
        proved_time = proved_time.min(time(&mut proved, proved_repeats));
        rust_time = rust_time.min(time(&mut rust, rust_repeats));
        rounds += 1;
    }
    let (proved, rust) = (proved_time / calls as f64, rust_time / calls as f64);
    let ratio = proved / rust;
    print_row([
        operation,
        k,
        damage,
        &format!("{proved:.0}"),
        &format!("{rust:.0}"),
        &format!("{ratio:.2}"),
    ]);
}

fn print_row(cells: [&str; 6]) {
    let [operation, k, damage, proved, rust, ratio] = cells;
    println!("{operation:<17} {k:<2} {damage:<12} {proved:>9} {rust:>12} {ratio:>7}");
}

/// How often to run something for a measurement, found while warming up.
fn repeats(run: &mut impl FnMut() -> u64) -> u32 {
    let start = Instant::now();
    let mut count = 0;
    while start.elapsed() < MEASUREMENT {
        black_box(run());
        count += 1;
    }
    count
}

/// Nanoseconds of one run.
fn time(run: &mut impl FnMut() -> u64, repeats: u32) -> f64 {
    let start = Instant::now();
    for _ in 0..repeats {
        black_box(run());
    }
    start.elapsed().as_nanos() as f64 / f64::from(repeats)
}
