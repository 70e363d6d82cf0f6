//! A fast implementation in plain Rust, for the comparison of speed: products
//! by logarithms, and decoding by a search over information subspaces. With
//! dead lines it decodes by algebra, as the proved library does (`dead`). The
//! levels of the cable are in tables (`cable`).

use crate::book::LISTING_MAX;
use crate::library::Library;
use crate::refusal::Refusal;

mod cable;
mod dead;

/// An element packed into two bytes: bit i of the low byte for a coefficient
/// of z^i that is 1, of the high byte for one that is 2.
type Packed = u16;
type Card = [Packed; 6];

/// Logarithms to the base z are below this.
const ORDER: usize = 728;

/// The logarithm that stands for 0: sums with it are past all others.
const LOG_ZERO: u16 = 2 * ORDER as u16;

/// The logarithm of -1.
const LOG_MINUS_ONE: usize = ORDER / 2;

/// Tables with an entry for every packed element have this size.
const PLACES: usize = 1 << 12;

static PACKED: [Packed; 729] = packed_symbols();
static SYMBOLS: [u16; PLACES] = symbols_of_packed();
static POWERS: [Packed; 2 * LOG_ZERO as usize + 1] = powers();
static LOGS: [u16; PLACES] = logs();
static CUBES: [Packed; LOG_ZERO as usize + 1] = cubes();
/// The logarithm of x^27 - x, by that of x.
static OUTSIDE_LOGS: [u16; LOG_ZERO as usize + 1] = outside_logs();
static SMALL: [Packed; 27] = small_numbers();
/// The small numbers m and n of m + gamma · n.
static PAIRS: [[u8; 2]; PLACES] = small_pairs();
/// The logarithms of d(s)^(3^i), at [i][s], for the dual basis d of the powers
/// of z: a polynomial's coefficient of y^(3^i) is the sum of its values at
/// z^s times these.
static DUAL_LOGS: [[u16; 6]; 6] = dual_logs();
/// The logarithms of (z^s)^(3^i), at [s][i].
static POINT_LOGS: [[u16; 6]; 6] = point_logs();
/// The small number of x + x^27, by a logarithm of x.
static TRACES: [u8; 2 * LOG_ZERO as usize + 1] = traces();
/// The words for k = 2 of a bell, of a force, and of a delay, with zeros for
/// the rest of the strike: a strike's word is the sum of its three. (The bell
/// and the force share value 1 of the message, but none of its digits.)
static BELL_WORDS: [Card; 48] = bell_words();
static FORCE_WORDS: [Card; 9] = words(1, 0);
static DELAY_WORDS: [Card; 729] = delay_words();
/// A logarithm times entry i is that of the power 3^i.
const CUBINGS: [usize; 6] = [1, 3, 9, 27, 81, 243];

const fn add(a: Packed, b: Packed) -> Packed {
    let mixed = a | b.swap_bytes();
    ((a | b) ^ mixed).swap_bytes() ^ mixed
}

const fn sub(a: Packed, b: Packed) -> Packed {
    add(a, b.swap_bytes())
}

/// The place of an element in the tables.
const fn place(x: Packed) -> usize {
    (x & 0x3f | x >> 2 & 0xfc0) as usize
}

const fn pack(symbol: u16) -> Packed {
    let mut packed = 0;
    let mut rest = symbol;
    let mut bit = 0;
    while bit < 6 {
        packed |= [0, 1, 0x100][(rest % 3) as usize] << bit;
        rest /= 3;
        bit += 1;
    }
    packed
}

const fn packed_symbols() -> [Packed; 729] {
    let mut table = [0; 729];
    let mut symbol = 0;
    while symbol < 729 {
        table[symbol] = pack(symbol as u16);
        symbol += 1;
    }
    table
}

const fn symbols_of_packed() -> [u16; PLACES] {
    let mut table = [0; PLACES];
    let mut symbol = 0;
    while symbol < 729 {
        table[place(pack(symbol))] = symbol;
        symbol += 1;
    }
    table
}

const fn powers() -> [Packed; 2 * LOG_ZERO as usize + 1] {
    // z^6 = z^4 + 2z^2 + z + 1.
    let carry = pack(81 + 2 * 9 + 3 + 1);
    let mut table = [0; 2 * LOG_ZERO as usize + 1];
    let mut power = 1;
    let mut exponent = 0;
    while exponent < 2 * ORDER {
        table[exponent] = power;
        let shifted = power << 1 & 0x3f3f;
        power = match power & 0x2020 {
            0x20 => add(shifted, carry),
            0x2000 => sub(shifted, carry),
            _ => shifted,
        };
        exponent += 1;
    }
    table
}

const fn logs() -> [u16; PLACES] {
    let powers = powers();
    let mut table = [LOG_ZERO; PLACES];
    let mut exponent = 0;
    while exponent < ORDER {
        table[place(powers[exponent])] = exponent as u16;
        exponent += 1;
    }
    table
}

const fn cubes() -> [Packed; LOG_ZERO as usize + 1] {
    let powers = powers();
    let mut table = [0; LOG_ZERO as usize + 1];
    let mut exponent = 0;
    while exponent < ORDER {
        table[exponent] = powers[3 * exponent % ORDER];
        exponent += 1;
    }
    table
}

const fn outside_logs() -> [u16; LOG_ZERO as usize + 1] {
    let (powers, logs) = (powers(), logs());
    let mut table = [LOG_ZERO; LOG_ZERO as usize + 1];
    let mut exponent = 0;
    while exponent < ORDER {
        let outside = sub(powers[27 * exponent % ORDER], powers[exponent]);
        table[exponent] = logs[place(outside)];
        exponent += 1;
    }
    table
}

const fn small_numbers() -> [Packed; 27] {
    let powers = powers();
    let mut table = [0; 27];
    let mut number = 1;
    while number < 27 {
        // One less in the lowest digit that is not 0 is a smaller number.
        let (less, unit) = match number {
            n if n % 3 > 0 => (n - 1, 0),
            n if n % 9 > 0 => (n - 3, 28),
            n => (n - 9, 56),
        };
        table[number] = add(table[less], powers[unit]);
        number += 1;
    }
    table
}

const fn small_pairs() -> [[u8; 2]; PLACES] {
    let (powers, logs, small) = (powers(), logs(), small_numbers());
    let mut table = [[0; 2]; PLACES];
    let mut pair = 0;
    while pair < 729 {
        let (m, n) = (pair % 27, pair / 27);
        let times_gamma = powers[1 + logs[place(small[n])] as usize];
        table[place(add(small[m], times_gamma))] = [m as u8, n as u8];
        pair += 1;
    }
    table
}

/// Where f is the modulus, the dual basis is b(s) / f'(z) for the quotient
/// b(0) + b(1)y + .. + b(5)y^5 of f(y) by y - z.
const fn dual_logs() -> [[u16; 6]; 6] {
    let (powers, logs) = (powers(), logs());
    let modulus: [Packed; 6] = [pack(2), pack(2), pack(1), 0, pack(2), 0];
    let derivative = logs[place(pack(2 * 27 + 2 * 3 + 2))] as usize;
    let mut table = [[0; 6]; 6];
    let mut quotient = 1;
    let mut s = 6;
    while s > 0 {
        s -= 1;
        let mut log = (logs[place(quotient)] as usize + ORDER - derivative) % ORDER;
        let mut i = 0;
        while i < 6 {
            table[i][s] = log as u16;
            log = 3 * log % ORDER;
            i += 1;
        }
        let times_z = powers[logs[place(quotient)] as usize + 1];
        quotient = add(times_z, modulus[s]);
    }
    table
}

const fn point_logs() -> [[u16; 6]; 6] {
    let mut table = [[0; 6]; 6];
    let mut entry = 0;
    while entry < 36 {
        let (s, i) = (entry / 6, entry % 6);
        table[s][i] = (s * CUBINGS[i] % ORDER) as u16;
        entry += 1;
    }
    table
}

const fn traces() -> [u8; 2 * LOG_ZERO as usize + 1] {
    let (powers, pairs) = (powers(), small_pairs());
    let mut table = [0; 2 * LOG_ZERO as usize + 1];
    let mut exponent = 0;
    while exponent < 2 * ORDER {
        let trace = add(powers[exponent], powers[27 * exponent % ORDER]);
        table[exponent] = pairs[place(trace)][0];
        exponent += 1;
    }
    table
}

/// The words of the polynomials c·v·y^(3^i), by the first small numbers v, for
/// the logarithm of c.
const fn words<const COUNT: usize>(i: usize, log: usize) -> [Card; COUNT] {
    let (powers, logs, small) = (powers(), logs(), small_numbers());
    let mut table = [[0; 6]; COUNT];
    let mut entry = 6;
    while entry < COUNT * 6 {
        let (value, s) = (entry / 6, entry % 6);
        let product = logs[place(small[value])] as usize + log + s * CUBINGS[i];
        table[value][s] = powers[product % ORDER];
        entry += 1;
    }
    table
}

const fn bell_words() -> [Card; 48] {
    let (low, second): ([Card; 27], [Card; 27]) = (words(0, 0), words(1, 0));
    let mut table = [[0; 6]; 48];
    let mut entry = 0;
    while entry < 48 * 6 {
        let (bell, s) = (entry / 6, entry % 6);
        table[bell][s] = add(low[bell % 27][s], second[9 * (bell / 27)][s]);
        entry += 1;
    }
    table
}

const fn delay_words() -> [Card; 729] {
    let (high, low): ([Card; 27], [Card; 27]) = (words(1, 1), words(2, 1));
    let mut table = [[0; 6]; 729];
    let mut entry = 0;
    while entry < 729 * 6 {
        let (delay, s) = (entry / 6, entry % 6);
        table[delay][s] = add(high[delay / 27][s], low[delay % 27][s]);
        entry += 1;
    }
    table
}

fn log(x: Packed) -> usize {
    LOGS[place(x)].into()
}

/// The sum of products, given the logarithms of their factors.
fn weighted_sum(logs: &[u16], weight_logs: &[u16]) -> Packed {
    let products = logs.iter().zip(weight_logs);
    products.fold(0, |sum, (x, weight)| {
        add(sum, POWERS[usize::from(x + weight)])
    })
}

fn logs_of(card: &Card) -> [u16; 6] {
    card.map(|x| LOGS[place(x)])
}

fn symbols_of(card: &Card) -> [u16; 6] {
    card.map(|x| SYMBOLS[place(x)])
}

/// The rank, if it is at most `limit`: each column is reduced by those before
/// it that were independent.
fn rank_within(columns: &Card, limit: usize) -> Option<u32> {
    let mut basis = [(0, 0); 6];
    let mut rank = 0;
    for column in columns {
        let mut rest = *column;
        for (pivot, vector) in &basis[..rank] {
            // Without branches, which could not be foreseen.
            let once = Packed::from(rest & pivot != 0).wrapping_neg();
            let twice = Packed::from(rest & pivot << 8 != 0).wrapping_neg();
            rest = sub(rest, vector & once | vector.swap_bytes() & twice);
        }
        if rest != 0 {
            if rank == limit {
                return None;
            }
            let places = (rest | rest >> 8) & 0x3f;
            let pivot = places & places.wrapping_neg();
            let vector = if rest & pivot != 0 {
                rest
            } else {
                rest.swap_bytes()
            };
            basis[rank] = (pivot, vector);
            rank += 1;
        }
    }
    Some(rank as u32)
}

/// Where the search is: the polynomials that agree with the card at the
/// points so far are g + q(m) for a known g and m, m being 0 at the points.
struct State {
    /// The card less the values of g at 1, z, .. z^5.
    difference: Card,
    /// The values of m, and their logarithms.
    vanishing: Card,
    vanishing_logs: [u16; 6],
    /// The lowest coefficient of g.
    lowest: Packed,
    /// The logarithm of the lowest coefficient of m.
    vanishing_lowest: usize,
}

impl State {
    fn start(received: Card) -> State {
        State {
            difference: received,
            vanishing: [0, 1, 2, 3, 4, 5].map(|s| POWERS[s]),
            vanishing_logs: [0, 1, 2, 3, 4, 5],
            lowest: 0,
            vanishing_lowest: 0,
        }
    }

    /// Takes in a point, at which the difference and m have these values.
    fn with_point(&self, difference: Packed, vanishing: Packed) -> State {
        let u = log(vanishing);
        let e = match log(difference) {
            zero if zero == LOG_ZERO.into() => zero,
            d => reduce(d + ORDER - u),
        };
        let square = reduce(2 * u);
        let mut next = State {
            difference: [0; 6],
            vanishing: [0; 6],
            vanishing_logs: [0; 6],
            lowest: add(self.lowest, POWERS[e + self.vanishing_lowest]),
            vanishing_lowest: reduce(square + self.vanishing_lowest + LOG_MINUS_ONE),
        };
        for s in 0..6 {
            let m = usize::from(self.vanishing_logs[s]);
            next.difference[s] = sub(self.difference[s], POWERS[e + m]);
            next.vanishing[s] = sub(CUBES[m], POWERS[square + m]);
        }
        next.vanishing_logs = logs_of(&next.vanishing);
        next
    }

    /// The card less the only word g + gamma·b·m of the code: b puts the
    /// lowest coefficient into the small field.
    fn finish(&self) -> Card {
        let outside = OUTSIDE_LOGS[log(self.lowest)];
        if outside == LOG_ZERO {
            return self.difference;
        }
        let gamma_m = OUTSIDE_LOGS[reduce(self.vanishing_lowest + 1)];
        let b = usize::from(outside) + ORDER - usize::from(gamma_m) + LOG_MINUS_ONE;
        let gamma_b = reduce(b + 1);
        std::array::from_fn(|s| {
            let m = usize::from(self.vanishing_logs[s]);
            sub(self.difference[s], POWERS[gamma_b + m])
        })
    }
}

/// A logarithm below three times the order, made smaller than the order.
fn reduce(log: usize) -> usize {
    match log {
        _ if log < ORDER => log,
        _ if log < 2 * ORDER => log - ORDER,
        _ => log - 2 * ORDER,
    }
}

/// The card less the word within the radius, and the rank of that.
///
/// Each column in turn gets a relation (its error is a combination of those
/// of the free columns before it), or is free; after k relations only one
/// word is left.
fn search(
    state: &State,
    relations: usize,
    column: usize,
    free: &[usize],
    radius: usize,
) -> Option<(Card, u32)> {
    if relations == 0 {
        let error = state.finish();
        return rank_within(&error, radius).map(|rank| (error, rank));
    }
    let found = each_combination(state, column, free, |difference, vanishing| {
        let next = state.with_point(difference, vanishing);
        search(&next, relations - 1, column + 1, free, radius)
    });
    if found.is_some() || free.len() == radius {
        return found;
    }
    let mut more = [column; 2];
    more[..free.len()].copy_from_slice(free);
    let free = &more[..free.len() + 1];
    search(state, relations, column + 1, free, radius)
}

/// Goes through a column plus all combinations of the (at most two) free
/// ones, until `try_point` finds something at the sum.
fn each_combination<T>(
    state: &State,
    column: usize,
    free: &[usize],
    try_point: impl Fn(Packed, Packed) -> Option<T>,
) -> Option<T> {
    let at = |s: usize| (state.difference[s], state.vanishing[s]);
    let along = |start, step: usize| {
        let ((d, m), (step_d, step_m)) = (start, at(step));
        [
            start,
            (sub(d, step_d), sub(m, step_m)),
            (add(d, step_d), add(m, step_m)),
        ]
    };
    let try_point = |(d, m)| try_point(d, m);
    match *free {
        [] => try_point(at(column)),
        [a] => along(at(column), a).into_iter().find_map(try_point),
        [a, b, ..] => along(at(column), a)
            .into_iter()
            .find_map(|start| along(start, b).into_iter().find_map(try_point)),
    }
}

fn radius(k: usize) -> usize {
    (6 - k) / 2
}

struct Decoded {
    word: Card,
    /// The message is the first 2k of these.
    message: [u16; 10],
    distance: u32,
}

/// The word within the radius, and its distance.
fn nearest(k: usize, received: Card) -> Result<(Card, u32), Refusal> {
    let found = search(&State::start(received), k, 0, &[], radius(k));
    let (error, distance) = found.ok_or(Refusal::Undecodable)?;
    let word = std::array::from_fn(|s| sub(received[s], error[s]));
    Ok((word, distance))
}

fn decode(k: usize, received: Card) -> Result<Decoded, Refusal> {
    let (word, distance) = nearest(k, received)?;
    let word_logs = logs_of(&word);
    Ok(Decoded {
        word,
        message: message_of(k, |i| coefficient(&word_logs, i)),
        distance,
    })
}

/// The coefficient of y^(3^i), given the logarithms of a card.
fn coefficient(card_logs: &[u16; 6], i: usize) -> Packed {
    weighted_sum(card_logs, &DUAL_LOGS[i])
}

/// The message of a polynomial with these coefficients.
fn message_of(k: usize, coefficient: impl Fn(usize) -> Packed) -> [u16; 10] {
    let pair = |i: usize| PAIRS[place(coefficient(i))].map(u16::from);
    let mut message = [0; 10];
    message[0] = pair(0)[0];
    for i in 1..k {
        message[2 * i - 1..2 * i + 1].copy_from_slice(&pair(i));
    }
    message[2 * k - 1] = pair(k)[1];
    message
}

fn encode(k: usize, message: &[u16]) -> Card {
    let small = |value: u16| SMALL[usize::from(value)];
    let gamma_small = |value: u16| POWERS[1 + log(small(value))];
    let mut logs = [LOG_ZERO; 6];
    logs[0] = LOGS[place(small(message[0]))];
    for i in 1..k {
        let coefficient = add(small(message[2 * i - 1]), gamma_small(message[2 * i]));
        logs[i] = LOGS[place(coefficient)];
    }
    logs[k] = LOGS[place(gamma_small(message[2 * k - 1]))];
    word_of(k, &logs)
}

/// The values of a polynomial, given the logarithms of its coefficients, of
/// which those after number k are not used.
fn word_of(k: usize, logs: &[u16; 6]) -> Card {
    std::array::from_fn(|s| weighted_sum(&logs[..=k], &POINT_LOGS[s][..=k]))
}

fn syndrome(k: usize, received: &Card, values: &mut [u16]) {
    let received_logs = logs_of(received);
    // The list mu is z^13 to the power 3^(6-k) times the dual basis.
    let sum = |i: usize| {
        let scale = 13 * CUBINGS[(6 - k + i) % 6] % ORDER;
        reduce_or_zero(log(coefficient(&received_logs, i)) + scale)
    };
    let trace = |log: usize| u16::from(TRACES[log]);
    values[0] = trace(sum(0) + CUBINGS[6 - k]);
    for (i, pair) in (k + 1..6).zip(values[1..].chunks_exact_mut(2)) {
        let sum = sum(i);
        pair.copy_from_slice(&[trace(sum), trace(sum + 1)]);
    }
    values[11 - 2 * k] = trace(sum(k));
}

fn reduce_or_zero(log: usize) -> usize {
    match log {
        _ if log >= LOG_ZERO.into() => LOG_ZERO.into(),
        _ => reduce(log),
    }
}

fn parameter(k: u32) -> Result<usize, Refusal> {
    match k {
        1..=5 => Ok(k as usize),
        _ => Err(Refusal::Parameter),
    }
}

fn length(actual: usize, wanted: usize) -> Result<(), Refusal> {
    match actual == wanted {
        true => Ok(()),
        false => Err(Refusal::Length),
    }
}

fn card(symbols: &[u16]) -> Result<Card, Refusal> {
    let symbols: [u16; 6] = symbols.try_into().map_err(|_| Refusal::Length)?;
    match symbols.iter().all(|symbol| *symbol < 729) {
        true => Ok(symbols.map(|symbol| PACKED[usize::from(symbol)])),
        false => Err(Refusal::Range),
    }
}

fn big_endian(bytes: &[u8]) -> usize {
    bytes.iter().fold(0, |n, byte| n << 8 | usize::from(*byte))
}

/// The entries of a well-formed book.
fn contents(book: &[u8]) -> Result<&[[u8; 8]], Refusal> {
    match book.len() {
        // A file of no bytes is a book of no tunes.
        0 => return Ok(&[]),
        2..=65_536 => {}
        _ => return Err(Refusal::BookSize),
    }
    let count = big_endian(&book[..2]);
    let bytes = book.get(2..2 + 8 * count).ok_or(Refusal::BookSize)?;
    let (entries, _) = bytes.as_chunks();
    check_tune_numbers(entries.iter().map(|entry| big_endian(&entry[..2])))?;
    let mut end = 2 + 8 * count;
    for entry in entries {
        let (offset, cards) = (big_endian(&entry[2..6]), big_endian(&entry[6..]));
        if cards == 0 || offset != end {
            return Err(Refusal::Layout);
        }
        end += 12 * cards;
    }
    match end == book.len() {
        true => Ok(entries),
        false => Err(Refusal::Layout),
    }
}

fn check_tune_numbers(numbers: impl Iterator<Item = usize>) -> Result<(), Refusal> {
    let mut last = 0;
    for number in numbers {
        if number <= last || number > 9_999 {
            return Err(Refusal::TuneNumbers);
        }
        last = number;
    }
    Ok(())
}

fn cards(body: &[u8]) -> Result<&[[u8; 12]], Refusal> {
    match body.as_chunks() {
        (cards, []) if cards.len() <= 5_461 => Ok(cards),
        _ => Err(Refusal::Length),
    }
}

fn card_of_bytes(bytes: &[u8; 12]) -> Result<Card, Refusal> {
    let symbols: [u16; 6] =
        std::array::from_fn(|i| u16::from_be_bytes([bytes[2 * i], bytes[2 * i + 1]]));
    card(&symbols)
}

/// The bell, the force, the delay and the damage.
fn strike(bytes: &[u8; 12]) -> Result<[u32; 4], Refusal> {
    let decoded = decode(2, card_of_bytes(bytes)?)?;
    let [first, second, high, low, ..] = decoded.message.map(u32::from);
    let bell = bell(first, second)?;
    Ok([bell, second % 9, 27 * high + low, decoded.distance])
}

/// The bell of a message's first two values.
fn bell(first: u32, second: u32) -> Result<u32, Refusal> {
    match 27 * (second / 9) + first {
        bell if bell > 47 => Err(Refusal::NoSuchBell),
        bell => Ok(bell),
    }
}

/// The damage of a card that is read. Of its strike only the bell is worked
/// out.
fn damage(bytes: &[u8; 12]) -> Result<u32, Refusal> {
    let (word, distance) = nearest(2, card_of_bytes(bytes)?)?;
    let word_logs = logs_of(&word);
    let value = |i: usize| PAIRS[place(coefficient(&word_logs, i))][0].into();
    bell(value(0), value(1))?;
    Ok(distance)
}

/// What a card weighs in a run: the rank of its damage, or 3 if it is refused.
fn card_weight(bytes: &[u8; 12]) -> u32 {
    damage(bytes).unwrap_or(3)
}

/// The largest sum over so many cards in a row, and the number of the first
/// card at which it begins. Each sum is the one before it, with the card that
/// enters and without the one that leaves.
fn wear(body: &[[u8; 12]], width: usize) -> Result<[u32; 2], Refusal> {
    if !(1..=64).contains(&width) || width > body.len() {
        return Err(Refusal::Width);
    }
    let weights: Vec<u32> = body.iter().map(card_weight).collect();
    let mut sum = weights[..width].iter().sum();
    let mut heaviest = [sum, 1];
    let moves = weights[width..].iter().zip(&weights);
    for (first, (enters, leaves)) in (2..).zip(moves) {
        sum = sum + enters - leaves;
        if sum > heaviest[0] {
            heaviest = [sum, first];
        }
    }
    Ok(heaviest)
}

/// A space and the digits of each number below 1,000, with zeros behind them.
static FIELDS: [[u8; 4]; 1_000] = fields();

const fn fields() -> [[u8; 4]; 1_000] {
    let mut table = [[b' ', b'0', b'0', b'0']; 1_000];
    let mut number = 0;
    while number < 1_000 {
        let mut rest = number;
        let mut place = 1 + (number > 9) as usize + (number > 99) as usize;
        while place > 0 {
            table[number][place] = b'0' + (rest % 10) as u8;
            rest /= 10;
            place -= 1;
        }
        number += 1;
    }
    table
}

/// A text at the start of its room.
struct Text<'a> {
    room: &'a mut [u8; LISTING_MAX],
    len: usize,
}

impl Text<'_> {
    fn push<const N: usize>(&mut self, bytes: &[u8; N]) {
        self.room[self.len..][..N].copy_from_slice(bytes);
        self.len += N;
    }

    fn number(&mut self, number: usize) {
        let count = number.checked_ilog10().map_or(1, |log| log as usize + 1);
        let mut rest = number as u32;
        for digit in self.room[self.len..][..count].iter_mut().rev() {
            *digit = b'0' + (rest % 10) as u8;
            rest /= 10;
        }
        self.len += count;
    }

    /// A space and a number below 1,000. Without branches, which could not be
    /// foreseen: it writes up to two bytes past the number, so at least two
    /// more must follow.
    fn field(&mut self, number: u32) {
        self.push(&FIELDS[number as usize]);
        self.len -= usize::from(number < 10) + usize::from(number < 100);
    }
}

fn list(book: &[u8], text: &mut Text) {
    let entries = match contents(book) {
        Ok(entries) => entries,
        Err(refusal) => {
            text.push(b"book refused ");
            text.number(refusal.number() as usize);
            return text.push(b"\n");
        }
    };
    // A file of no bytes has no place where bodies could begin.
    let bodies = book.get(2 + 8 * entries.len()..).unwrap_or_default();
    let (mut cards, _) = bodies.as_chunks();
    for entry in entries {
        let (body, rest) = cards.split_at(big_endian(&entry[6..]));
        list_tune(big_endian(&entry[..2]), body, text);
        cards = rest;
    }
}

fn list_tune(number: usize, body: &[[u8; 12]], text: &mut Text) {
    text.push(b"tune ");
    text.number(number);
    text.push(b" ");
    text.number(body.len());
    text.push(b"\n");
    let mut ticks = Some(0);
    for (number, card) in (1..).zip(body) {
        text.number(number);
        let delay = list_card(card, text);
        ticks = ticks.and_then(|ticks| Some(ticks + delay?));
    }
    text.push(b"ticks ");
    match ticks {
        Some(ticks) => text.number(ticks),
        None => text.push(b"unknown"),
    }
    text.push(b"\n");
}

/// The line of a card after its number; gives back its delay, if it has one.
fn list_card(card: &[u8; 12], text: &mut Text) -> Option<usize> {
    let delay = match strike(card) {
        Ok(strike) => {
            for part in strike {
                text.field(part);
            }
            Some(strike[2] as usize)
        }
        Err(refusal) => {
            text.push(b" refused");
            text.field(refusal.number());
            None
        }
    };
    text.push(b"\n");
    delay
}

fn book_size(counts: &[u16]) -> Result<usize, Refusal> {
    // The contents of more tunes would be too long. So few counts have a sum
    // below 2^32.
    if counts.len() > 8_191 {
        return Err(Refusal::BookSize);
    }
    let cards: u32 = counts.iter().map(|count| u32::from(*count)).sum();
    match 2 + 8 * counts.len() + 12 * cards as usize {
        size if size > 65_536 => Err(Refusal::BookSize),
        size => Ok(size),
    }
}

/// Each number, taken as bell, force and delay by turns, is in its range.
fn check_fields(strikes: &[u16]) -> Result<(), Refusal> {
    let (strikes, rest) = strikes.as_chunks();
    let is_wrong = |[bell, force, delay]: &[u16; 3]| *bell > 47 || *force > 8 || *delay > 728;
    let rest_is_wrong = rest.iter().zip([47, 8]).any(|(field, most)| *field > most);
    match strikes.iter().any(is_wrong) || rest_is_wrong {
        true => Err(Refusal::StrikeField),
        false => Ok(()),
    }
}

/// Fills the book with contents and cards, if nothing is refused.
fn write_book(
    numbers: &[u16],
    counts: &[u16],
    strikes: &[u16],
    book: &mut [u8],
) -> Result<(), Refusal> {
    check_fields(strikes)?;
    length(counts.len(), numbers.len())?;
    let size = book_size(counts)?;
    check_tune_numbers(numbers.iter().map(|number| usize::from(*number)))?;
    if counts.contains(&0) {
        return Err(Refusal::Layout);
    }
    let contents = 2 + 8 * counts.len();
    // Three numbers for the twelve bytes of a card.
    length(strikes.len(), (size - contents) / 4)?;
    length(book.len(), size)?;
    let (contents, bodies) = book.split_at_mut(contents);
    write_contents(numbers, counts, contents);
    let (strikes, _) = strikes.as_chunks();
    let (cards, _) = bodies.as_chunks_mut();
    for (card, strike) in cards.iter_mut().zip(strikes) {
        *card = card_of(strike);
    }
    Ok(())
}

fn write_contents(numbers: &[u16], counts: &[u16], contents: &mut [u8]) {
    let mut offset = contents.len() as u64;
    contents[..2].copy_from_slice(&(counts.len() as u16).to_be_bytes());
    let (entries, _) = contents[2..].as_chunks_mut();
    for ((entry, number), count) in entries.iter_mut().zip(numbers).zip(counts) {
        let [number, count] = [*number, *count].map(u64::from);
        *entry = (number << 48 | offset << 16 | count).to_be_bytes();
        offset += 12 * count;
    }
}

/// The bytes of a strike's card.
fn card_of(strike: &[u16; 3]) -> [u8; 12] {
    let [bell, force, delay] = strike.map(usize::from);
    let (bell, force) = (&BELL_WORDS[bell], &FORCE_WORDS[force]);
    let delay = &DELAY_WORDS[delay];
    let word = std::array::from_fn(|s| add(add(bell[s], force[s]), delay[s]));
    let symbols = symbols_of(&word);
    std::array::from_fn(|place| symbols[place / 2].to_be_bytes()[place % 2])
}

/// Tests the arguments of a decoding, and fills what it finds.
fn fill_decoded(
    k: u32,
    received: &[u16],
    word: &mut [u16],
    message: &mut [u16],
    distance: &mut u32,
    decode: impl FnOnce(usize, Card) -> Result<Decoded, Refusal>,
) -> Result<(), Refusal> {
    let k = parameter(k)?;
    length(received.len(), 6)?;
    length(word.len(), 6)?;
    length(message.len(), 2 * k)?;
    let decoded = decode(k, card(received)?)?;
    word.copy_from_slice(&symbols_of(&decoded.word));
    message.copy_from_slice(&decoded.message[..2 * k]);
    *distance = decoded.distance;
    Ok(())
}

/// 0, or the number of the refusal.
fn status(run: impl FnOnce() -> Result<(), Refusal>) -> u32 {
    run().err().map_or(0, Refusal::number)
}

/// The fast implementation. Nothing is inlined, as nothing is through the C
/// interface.
pub struct Fast;

impl Library for Fast {
    #[inline(never)]
    fn encode(k: u32, message: &[u16], word: &mut [u16]) -> u32 {
        status(|| {
            let k = parameter(k)?;
            length(message.len(), 2 * k)?;
            length(word.len(), 6)?;
            if message.iter().any(|value| *value > 26) {
                return Err(Refusal::Range);
            }
            word.copy_from_slice(&symbols_of(&encode(k, message)));
            Ok(())
        })
    }

    #[inline(never)]
    fn weight(symbols: &[u16], rank: &mut u32) -> u32 {
        status(|| {
            *rank = rank_within(&card(symbols)?, 6).expect("the rank is at most 6");
            Ok(())
        })
    }

    #[inline(never)]
    fn syndrome(k: u32, received: &[u16], values: &mut [u16]) -> u32 {
        status(|| {
            let k = parameter(k)?;
            length(received.len(), 6)?;
            length(values.len(), 12 - 2 * k)?;
            syndrome(k, &card(received)?, values);
            Ok(())
        })
    }

    #[inline(never)]
    fn decode(
        k: u32,
        received: &[u16],
        word: &mut [u16],
        message: &mut [u16],
        distance: &mut u32,
    ) -> u32 {
        status(|| fill_decoded(k, received, word, message, distance, decode))
    }

    #[inline(never)]
    fn decode_dead(
        k: u32,
        received: &[u16],
        dead_rows: u32,
        dead_columns: u32,
        word: &mut [u16],
        message: &mut [u16],
        rank: &mut u32,
    ) -> u32 {
        let decode = |k, card| dead::decode(k, card, dead_rows, dead_columns);
        status(|| fill_decoded(k, received, word, message, rank, decode))
    }

    #[inline(never)]
    fn open(book: &[u8], tunes: &mut u32) -> u32 {
        status(|| {
            *tunes = contents(book)?.len() as u32;
            Ok(())
        })
    }

    #[inline(never)]
    fn tune_body(book: &[u8], number: u32, offset: &mut u32, length: &mut u32) -> u32 {
        status(|| {
            let entries = contents(book)?;
            let bears_number = |entry: &&[u8; 8]| big_endian(&entry[..2]) == number as usize;
            let entry = entries.iter().find(bears_number);
            let entry = entry.ok_or(Refusal::NoSuchTune)?;
            *offset = big_endian(&entry[2..6]) as u32;
            *length = 12 * big_endian(&entry[6..]) as u32;
            Ok(())
        })
    }

    #[inline(never)]
    fn read_card(body: &[u8], number: u32, answer: &mut [u32; 4]) -> u32 {
        status(|| {
            let place = (number as usize).wrapping_sub(1);
            let card = cards(body)?.get(place).ok_or(Refusal::NoSuchCard)?;
            *answer = strike(card)?;
            Ok(())
        })
    }

    #[inline(never)]
    fn total_delay(body: &[u8], ticks: &mut u32) -> u32 {
        let delay = |card: &[u8; 12]| strike(card).map(|strike| strike[2]);
        status(|| {
            *ticks = cards(body)?
                .iter()
                .map(delay)
                .sum::<Result<u32, Refusal>>()?;
            Ok(())
        })
    }

    #[inline(never)]
    fn damaged_card(body: &[u8], card: &mut u32) -> u32 {
        let is_damaged = |card: &[u8; 12]| damage(card) != Ok(0);
        status(|| {
            let place = cards(body)?.iter().position(is_damaged);
            *card = place.map_or(0, |place| place as u32 + 1);
            Ok(())
        })
    }

    #[inline(never)]
    fn wear(body: &[u8], width: u32, sum: &mut u32, first: &mut u32) -> u32 {
        status(|| {
            [*sum, *first] = wear(cards(body)?, width as usize)?;
            Ok(())
        })
    }

    #[inline(never)]
    fn tune_at(book: &[u8], place: u32, number: &mut u32, cards: &mut u32) -> u32 {
        status(|| {
            let entry = contents(book)?.get(place as usize);
            let entry = entry.ok_or(Refusal::NoSuchTune)?;
            *number = big_endian(&entry[..2]) as u32;
            *cards = big_endian(&entry[6..]) as u32;
            Ok(())
        })
    }

    #[inline(never)]
    fn list(book: &[u8], text: &mut [u8], written: &mut usize) -> u32 {
        status(|| {
            let room = text.first_chunk_mut().ok_or(Refusal::Length)?;
            let mut text = Text { room, len: 0 };
            list(book, &mut text);
            *written = text.len;
            Ok(())
        })
    }

    #[inline(never)]
    fn write_book(numbers: &[u16], counts: &[u16], strikes: &[u16], book: &mut [u8]) -> u32 {
        status(|| write_book(numbers, counts, strikes, book))
    }

    #[inline(never)]
    fn book_size(counts: &[u16], size: &mut usize) -> u32 {
        status(|| {
            *size = book_size(counts)?;
            Ok(())
        })
    }

    #[inline(never)]
    fn levels(card: &[u16], levels: &mut [i16]) -> u32 {
        status(|| cable::levels(card, levels))
    }

    #[inline(never)]
    fn symbols(levels: &[i16], card: &mut [u16]) -> u32 {
        status(|| cable::symbols(levels, card))
    }

    #[inline(never)]
    fn receive(samples: &[i16], card: &mut [u16]) -> u32 {
        status(|| cable::receive(samples, card))
    }
}
