//! The rank-metric code for k = 1 to 5: encode, weight, syndrome and decode,
//! each from its definition. Decoding tries everything: all messages for
//! k = 1 and 2, all errors within the radius for k = 3 to 5.

use crate::digits::Digits;
use crate::field::{of_small, small_number, solve, Element, SMALL_NUMBERS, SYMBOLS};
use crate::rank::{column, rank, rank_within, square, symbols, Square};
use crate::refusal::Refusal;
use std::collections::HashMap;
use std::sync::OnceLock;

/// The six symbols of a word or a received card.
pub type Card = [u16; 6];

#[derive(Clone, PartialEq, Eq, Debug)]
pub struct Decoded {
    pub word: Card,
    pub message: Vec<u16>,
    /// The rank of the difference between the word and the received card, or
    /// of what is left of it without dead lines.
    pub distance: u32,
}

/// The word of a message, for a lent word of `word_len` symbols ("Press").
pub fn encode(k: u32, message: &[u16], word_len: usize) -> Result<Card, Refusal> {
    let k = parameter(k)?;
    length(message.len(), 2 * k)?;
    length(word_len, 6)?;
    below(message, SMALL_NUMBERS)?;
    Ok(symbols(word(k, message)))
}

/// The rank of six symbols ("Weigh").
pub fn weight(card: &[u16]) -> Result<u32, Refusal> {
    Ok(rank(square(&checked_card(card)?)))
}

/// The test values of a card, for a lent list of `values_len` ("Test").
pub fn syndrome(k: u32, received: &[u16], values_len: usize) -> Result<Vec<u16>, Refusal> {
    let k = parameter(k)?;
    length(received.len(), 6)?;
    length(values_len, 12 - 2 * k)?;
    Ok(test_values(k, &checked_card(received)?))
}

/// The word within the radius and its message ("Mend").
pub fn decode(
    k: u32,
    received: &[u16],
    word_len: usize,
    message_len: usize,
) -> Result<Decoded, Refusal> {
    let (k, received) = decode_arguments(k, received, word_len, message_len)?;
    match k {
        1 => decode_by_messages(k, &received),
        2 => decode_by_index(square(&received)),
        _ => decode_by_errors(k, square(&received)),
    }
    .ok_or(Refusal::Undecodable)
}

/// The tests that every decoding begins with.
pub(crate) fn decode_arguments(
    k: u32,
    received: &[u16],
    word_len: usize,
    message_len: usize,
) -> Result<(usize, Card), Refusal> {
    let k = parameter(k)?;
    length(received.len(), 6)?;
    length(word_len, 6)?;
    length(message_len, 2 * k)?;
    Ok((k, checked_card(received)?))
}

/// The largest rank of damage that is always decoded.
pub fn radius(k: u32) -> u32 {
    (6 - k) / 2
}

fn parameter(k: u32) -> Result<usize, Refusal> {
    match k {
        1..=5 => Ok(k as usize),
        _ => Err(Refusal::Parameter),
    }
}

pub(crate) fn length(actual: usize, wanted: usize) -> Result<(), Refusal> {
    match actual == wanted {
        true => Ok(()),
        false => Err(Refusal::Length),
    }
}

fn below(values: &[u16], bound: u16) -> Result<(), Refusal> {
    match values.iter().all(|value| *value < bound) {
        true => Ok(()),
        false => Err(Refusal::Range),
    }
}

fn checked_card(symbols: &[u16]) -> Result<Card, Refusal> {
    let card = symbols.try_into().map_err(|_| Refusal::Length)?;
    below(symbols, SYMBOLS)?;
    Ok(card)
}

fn gamma() -> Element {
    Element::z()
}

/// The places 1, z, .. z^5 at which a message's polynomial is evaluated.
fn points() -> [Element; 6] {
    let mut power = Element::one();
    std::array::from_fn(|_| {
        let point = power;
        power = power * Element::z();
        point
    })
}

fn word(k: usize, message: &[u16]) -> Square {
    let polynomial = polynomial(k, message);
    pack(&points().map(|point| evaluate(&polynomial, point)))
}

/// Six elements as one list of digits, the first element lowest.
fn pack(elements: &[Element]) -> Digits {
    elements.iter().rev().fold(Digits::ZERO, |packed, element| {
        packed.shift_up(6) + element.digits()
    })
}

/// The coefficients of y, y^3, y^9, .. in a message's polynomial.
fn polynomial(k: usize, message: &[u16]) -> [Element; 6] {
    let mut coefficients = [Element::ZERO; 6];
    coefficients[0] = of_small(message[0]);
    for i in 1..k {
        coefficients[i] = of_small(message[2 * i - 1]) + gamma() * of_small(message[2 * i]);
    }
    coefficients[k] = gamma() * of_small(message[2 * k - 1]);
    coefficients
}

fn evaluate(coefficients: &[Element; 6], point: Element) -> Element {
    let last = coefficients.iter().rposition(|c| *c != Element::ZERO);
    let mut power = point;
    let mut value = Element::ZERO;
    for coefficient in &coefficients[..last.map_or(0, |place| place + 1)] {
        value = value + *coefficient * power;
        power = power.frobenius(1);
    }
    value
}

/// The coefficients of y, y^3, .. y^243 of the only such polynomial with the
/// card's symbols as values at 1, z, .. z^5.
fn interpolate(card: Square) -> [Element; 6] {
    let matrix = points().map(|point| std::array::from_fn(|i| point.frobenius(i as u32)));
    solve(matrix, symbols(card).map(Element::of_symbol))
}

/// What parts a card from the code: zero exactly for the words of the code,
/// since those are the cards whose polynomial has its lowest coefficient in
/// the small field, the one of y^(3^k) in gamma times the small field, and
/// none above. It is additive.
fn residue(k: usize, card: Square) -> Digits {
    let coefficients = interpolate(card);
    let outside = |x: Element| x.pow(27) - x;
    let mut parts = vec![
        outside(coefficients[0]),
        outside(coefficients[k] * gamma().inverse()),
    ];
    parts.extend(&coefficients[k + 1..]);
    pack(&parts)
}

/// The message of a word of the code.
pub(crate) fn message_of(k: usize, word: Square) -> Vec<u16> {
    let coefficients = interpolate(word);
    let in_small_field = |x| small_number(x).expect("a word's coefficient");
    let mut message = vec![in_small_field(coefficients[0])];
    for coefficient in &coefficients[1..k] {
        message.extend(small_pair(*coefficient));
    }
    message.push(in_small_field(coefficients[k] * gamma().inverse()));
    message
}

/// The small numbers m and n for which the element is m + gamma · n.
fn small_pair(element: Element) -> [u16; 2] {
    (0..SMALL_NUMBERS)
        .find_map(|n| Some([small_number(element - gamma() * of_small(n))?, n]))
        .expect("1 and gamma are a basis over the small field")
}

/// The list mu of the parity matrix, from its six equations.
fn parity_points(k: usize) -> &'static [Element; 6] {
    static MU: [OnceLock<[Element; 6]>; 6] = [const { OnceLock::new() }; 6];
    MU[k].get_or_init(|| {
        let matrix =
            std::array::from_fn(|i| points().map(|point| Element::frobenius(point, i as u32)));
        let mut right = [Element::ZERO; 6];
        right[0] = Element::z().pow(13).frobenius(6 - k as u32);
        solve(matrix, right)
    })
}

fn test_values(k: usize, card: &Card) -> Vec<u16> {
    let sum = |i: usize| -> Element {
        let terms = card.iter().zip(parity_points(k));
        terms
            .map(|(symbol, mu)| Element::of_symbol(*symbol) * mu.frobenius(i as u32))
            .sum()
    };
    let mut values = vec![gamma().frobenius(6 - k as u32) * sum(0)];
    for i in k + 1..6 {
        values.extend([sum(i), gamma() * sum(i)]);
    }
    values.push(sum(k));
    let small =
        |value: Element| small_number(value.trace()).expect("a trace is in the small field");
    values.into_iter().map(small).collect()
}

/// The words of all messages, by the messages' numbers (see `message_at`).
/// Words are sums of those of the single values.
pub(crate) fn all_words(k: usize) -> &'static [Square] {
    static WORDS: [OnceLock<Vec<Square>>; 3] = [const { OnceLock::new() }; 3];
    WORDS[k].get_or_init(|| {
        (0..2 * k).fold(vec![Digits::ZERO], |words, place| {
            let single = single_value_words(k, place);
            let with_words = |single: Square| words.iter().map(move |word| *word + single);
            single.into_iter().flat_map(with_words).collect()
        })
    })
}

/// The words of the messages with any value at one place and 0 elsewhere.
pub(crate) fn single_value_words(k: usize, place: usize) -> Vec<Square> {
    let single = |value| {
        let mut message = vec![0; 2 * k];
        message[place] = value;
        word(k, &message)
    };
    (0..SMALL_NUMBERS).map(single).collect()
}

/// The message whose values are the base-27 digits of a number.
fn message_at(k: usize, number: usize) -> Vec<u16> {
    (0..2 * k as u32)
        .map(|place| (number / 27usize.pow(place) % 27) as u16)
        .collect()
}

/// Tries all messages (k = 1 and 2, whose radius is 2).
pub fn decode_by_messages(k: usize, received: &Card) -> Option<Decoded> {
    let received = square(received);
    nearest(k, 0..all_words(k).len(), |word| within_two(received - word))
}

/// The rank, if it is at most 2: then the columns have at most 9 combinations.
fn within_two(difference: Square) -> Option<u32> {
    rank_within::<9>(difference)
}

/// The only word with a distance among those of the messages with the given
/// numbers.
pub(crate) fn nearest(
    k: usize,
    numbers: impl Iterator<Item = usize>,
    distance: impl Fn(Square) -> Option<u32>,
) -> Option<Decoded> {
    let words = all_words(k);
    let mut found: Option<Decoded> = None;
    for number in numbers {
        let word = words[number];
        if let Some(distance) = distance(word) {
            let word = symbols(word);
            let only = found.is_none_or(|before| before.word == word);
            assert!(only, "two words within the radius");
            found = Some(Decoded {
                word,
                message: message_at(k, number),
                distance,
            });
        }
    }
    found
}

/// Tries the messages for k = 2 whose words agree with the card in some
/// combination of the first three columns. No other word lies within rank 2,
/// where every three columns have a combination that is 0.
fn decode_by_index(received: Square) -> Option<Decoded> {
    let agreeing = |factors: u64| {
        let symbol = combination(received, factors);
        &index()[factors as usize][symbol]
    };
    let numbers = combinations_of_three().flat_map(agreeing);
    let numbers = numbers.map(|number| *number as usize);
    nearest(2, numbers, |word| within_two(received - word))
}

/// The numbers whose base-3 digits are the factors of three columns, one for
/// each combination and its negative.
fn combinations_of_three() -> impl Iterator<Item = u64> {
    (1..27).filter(|factors| is_normal(*factors))
}

/// The symbol that the combination of the first three columns is.
fn combination(card: Square, factors: u64) -> usize {
    let columns = std::array::from_fn(|place| column(card, place as u32));
    combine(&columns, Digits::of_number(factors)).number() as usize
}

/// The numbers of the messages for k = 2, by the combination of the columns
/// of their words and then by the symbol that this is.
fn index() -> &'static [Vec<Vec<u32>>] {
    static INDEX: OnceLock<Vec<Vec<Vec<u32>>>> = OnceLock::new();
    INDEX.get_or_init(|| {
        let mut index = vec![vec![Vec::new(); SYMBOLS.into()]; 27];
        for factors in combinations_of_three() {
            for (number, word) in (0..).zip(all_words(2)) {
                index[factors as usize][combination(*word, factors)].push(number);
            }
        }
        index
    })
}

/// For k = 3 to 5, where the radius is 1 or 0: all errors within it.
fn decode_by_errors(k: usize, received: Square) -> Option<Decoded> {
    let error = errors_by_residue(k).get(&residue(k, received))?;
    let word = received - *error;
    Some(Decoded {
        word: symbols(word),
        message: message_of(k, word),
        distance: rank(*error),
    })
}

/// All errors within the radius, by their residues, which are different.
fn errors_by_residue(k: usize) -> &'static HashMap<Digits, Square> {
    static ERRORS: [OnceLock<HashMap<Digits, Square>>; 6] = [const { OnceLock::new() }; 6];
    ERRORS[k].get_or_init(|| {
        let mut errors = HashMap::from([(Digits::ZERO, Digits::ZERO)]);
        if k < 5 {
            for symbol in (1..u64::from(SYMBOLS)).filter(|symbol| is_normal(*symbol)) {
                add_errors(k, Digits::of_number(symbol), &mut errors);
            }
            assert_eq!(errors.len(), 1 + 728 * 728 / 2);
        }
        errors
    })
}

/// Whether the highest digit that is not 0 is a 1: true of one of each
/// symbol and its negative.
pub(crate) fn is_normal(symbol: u64) -> bool {
    symbol == 1 || symbol > 2 && is_normal(symbol / 3)
}

/// Adds the errors of rank 1 whose columns are multiples of one symbol.
fn add_errors(k: usize, symbol: Digits, errors: &mut HashMap<Digits, Square>) {
    let single: [Square; 6] = std::array::from_fn(|place| symbol.shift_up(6 * place as u32));
    let residues = single.map(|error| residue(k, error));
    for number in 1..u64::from(SYMBOLS) {
        let factors = Digits::of_number(number);
        let before = errors.insert(combine(&residues, factors), combine(&single, factors));
        assert!(before.is_none(), "two errors with one residue");
    }
}

/// The sum of the items, each times its digit.
fn combine(items: &[Digits; 6], factors: Digits) -> Digits {
    let items = (0..).zip(items);
    items
        .map(|(place, item)| item.scale(factors.digit(place)))
        .sum()
}
