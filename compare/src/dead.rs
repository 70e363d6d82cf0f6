//! Decoding with lines that are known to be dead, from its definition: they
//! are struck out of the difference between the card and a word, and the rank
//! of what is left decides. For k = 1 all messages are tried. For k = 2 to 5
//! everything is tried that the live digits of an error can be, a space of
//! such errors at a time, by elimination over the digits.

use crate::code::{
    all_words, decode_arguments, is_normal, message_of, nearest, single_value_words, Card, Decoded,
};
use crate::digits::Digits;
use crate::rank::{column, column_rank_within, square, symbols, Square};
use crate::refusal::Refusal;
use std::sync::OnceLock;

/// The word near a card, its message, and the rank of what is left of their
/// difference when the dead lines are struck out. Bit i of a mask is line i.
pub fn decode_dead(
    k: u32,
    received: &[u16],
    dead_rows: u32,
    dead_columns: u32,
    word_len: usize,
    message_len: usize,
) -> Result<Decoded, Refusal> {
    let (k, received) = decode_arguments(k, received, word_len, message_len)?;
    if dead_rows > 63 || dead_columns > 63 {
        return Err(Refusal::Range);
    }
    let lines = Lines::without(dead_rows, dead_columns);
    if lines.dead() > 6 - k {
        return Err(Refusal::DeadLines);
    }
    match k {
        1 => decode_by_messages(k, &received, &lines),
        _ => decode_by_spaces(k, &received, &lines),
    }
    .ok_or(Refusal::Undecodable)
}

/// The lines of a square that are live.
pub struct Lines {
    rows: Vec<u32>,
    columns: Vec<u32>,
}

/// What is left of a square: the digits in live lines, moved together. The
/// first column is lowest.
type Left = Digits;

impl Lines {
    pub fn without(dead_rows: u32, dead_columns: u32) -> Lines {
        let live = |dead: u32| (0..6).filter(|line| dead >> line & 1 == 0).collect();
        Lines {
            rows: live(dead_rows),
            columns: live(dead_columns),
        }
    }

    /// How many lines are dead.
    pub fn dead(&self) -> usize {
        12 - self.rows.len() - self.columns.len()
    }

    /// The largest p for which 2p and the dead lines are at most 6 - k.
    pub fn radius(&self, k: usize) -> usize {
        (6 - k - self.dead()) / 2
    }

    /// The rank of what is left of a square, if it is at most 2.
    pub fn rank(&self, square: Square) -> Option<u32> {
        let left = self.strike(square);
        let height = self.height();
        let columns = (0..self.columns.len() as u32).map(|place| left.part(place * height, height));
        column_rank_within::<9>(columns)
    }

    /// How many digits are left of a column.
    fn height(&self) -> u32 {
        self.rows.len() as u32
    }

    fn strike(&self, square: Square) -> Left {
        self.columns.iter().rev().fold(Digits::ZERO, |left, place| {
            left.shift_up(self.height()) + self.strike_rows(column(square, *place))
        })
    }

    fn strike_rows(&self, column: Digits) -> Digits {
        self.rows.iter().rev().fold(Digits::ZERO, |left, row| {
            left.shift_up(1) + column.part(*row, 1)
        })
    }

    /// Errors whose combinations are all those with columns in the space that
    /// has this basis.
    fn errors(&self, space: &[u64]) -> Vec<Left> {
        let places = (0..self.columns.len() as u32).map(|place| place * self.height());
        let error = |place, column| Digits::of_number(column).shift_up(place);
        places
            .flat_map(|place| space.iter().map(move |column| error(place, *column)))
            .collect()
    }
}

/// Tries all messages (k = 1 and 2). The lines must not be too many.
pub fn decode_by_messages(k: usize, received: &Card, lines: &Lines) -> Option<Decoded> {
    let (received, radius) = (square(received), lines.radius(k) as u32);
    let distance = |word| lines.rank(received - word).filter(|rank| *rank <= radius);
    nearest(k, 0..all_words(k).len(), distance)
}

/// Tries all spaces in which the columns of an error can lie: it has a rank
/// within the radius exactly if they lie in a space of that dimension. The
/// lines must not be too many.
pub fn decode_by_spaces(k: usize, received: &Card, lines: &Lines) -> Option<Decoded> {
    let received = square(received);
    let mut words = Sums::default();
    for word in unit_words(k) {
        words.insert(lines.strike(*word), *word);
    }
    let mut found: Option<Square> = None;
    for space in spaces(lines.height(), lines.radius(k)) {
        let mut sums = words.clone();
        for error in lines.errors(&space) {
            sums.insert(error, Digits::ZERO);
        }
        if let Some(word) = sums.word_of(lines.strike(received)) {
            let only = found.is_none_or(|before| before == word);
            assert!(only, "two words within the radius");
            found = Some(word);
        }
    }
    let word = found?;
    Some(Decoded {
        word: symbols(word),
        message: message_of(k, word),
        distance: lines.rank(received - word).expect("a rank within 2"),
    })
}

/// The words of the messages with a single digit, which is 1: all other words
/// are combinations of these.
fn unit_words(k: usize) -> &'static [Square] {
    static WORDS: [OnceLock<Vec<Square>>; 6] = [const { OnceLock::new() }; 6];
    WORDS[k].get_or_init(|| {
        let units = |place| {
            let words = single_value_words(k, place);
            [1, 3, 9].map(|value: usize| words[value])
        };
        (0..2 * k).flat_map(units).collect()
    })
}

/// A basis of each space of a dimension, among vectors of so many digits,
/// which are given as numbers.
///
/// The highest digit of each vector is a 1, above that of the vectors before,
/// and at the places of theirs it is 0: no other basis of the space is such.
fn spaces(digits: u32, dimension: usize) -> Vec<Vec<u64>> {
    if dimension == 0 {
        return vec![vec![]];
    }
    let mut all = vec![];
    for space in spaces(digits, dimension - 1) {
        for vector in (1..3u64.pow(digits)).filter(|vector| is_normal(*vector)) {
            if space.iter().all(|before| follows(vector, *before)) {
                all.push([&space[..], &[vector]].concat());
            }
        }
    }
    all
}

/// Whether a vector ends above another, with 0 where that ends.
fn follows(vector: u64, before: u64) -> bool {
    let end = before.ilog(3);
    vector.ilog(3) > end && Digits::of_number(vector).digit(end) == 0
}

/// Live digits of a word and an error together.
#[derive(Clone, Copy)]
struct Sum {
    left: Left,
    word: Square,
}

impl Sum {
    fn scale(self, factor: u64) -> Sum {
        Sum {
            left: self.left.scale(factor),
            word: self.word.scale(factor),
        }
    }

    fn less(self, other: Sum) -> Sum {
        Sum {
            left: self.left - other.left,
            word: self.word - other.word,
        }
    }
}

/// Sums of which none is a combination of others. Each has a place at which it
/// is 1 and those after it are 0.
#[derive(Clone, Default)]
struct Sums(Vec<(u32, Sum)>);

impl Sums {
    /// What is left of a sum less the combination that makes it 0 at the
    /// places of all.
    fn reduce(&self, sum: Sum) -> Sum {
        self.0.iter().fold(sum, |rest, (place, other)| {
            rest.less(other.scale(rest.left.digit(*place)))
        })
    }

    fn insert(&mut self, left: Left, word: Square) {
        let rest = self.reduce(Sum { left, word });
        let place = (0..36).find(|place| rest.left.digit(*place) != 0);
        let place = place.expect("words that differ by more than such an error");
        self.0.push((place, rest.scale(rest.left.digit(place))));
    }

    /// The word of the combination that has these live digits, if there is
    /// one.
    fn word_of(&self, left: Left) -> Option<Square> {
        let word = Digits::ZERO;
        let rest = self.reduce(Sum { left, word });
        (rest.left == Digits::ZERO).then_some(-rest.word)
    }
}

#[cfg(test)]
mod tests {
    use super::spaces;
    use crate::digits::Digits;
    use std::collections::BTreeSet;

    /// The vectors of a space.
    fn vectors(space: &[u64]) -> BTreeSet<u64> {
        let combinations = 3u64.pow(space.len() as u32);
        let vector = |number| {
            let factors = Digits::of_number(number);
            let terms = (0..).zip(space);
            let sum: Digits = terms
                .map(|(place, vector)| Digits::of_number(*vector).scale(factors.digit(place)))
                .sum();
            sum.number()
        };
        (0..combinations).map(vector).collect()
    }

    /// All spaces are there, once each: their number is known.
    #[test]
    fn spaces_are_counted() {
        for digits in 1..=6u32 {
            let all = 3usize.pow(digits);
            for (dimension, count) in [
                (0, 1),
                (1, (all - 1) / 2),
                (2, (all - 1) * (all - 3) / (8 * 6)),
            ] {
                let spaces = spaces(digits, dimension);
                assert_eq!(spaces.len(), count);
                let different: BTreeSet<BTreeSet<u64>> =
                    spaces.iter().map(|space| vectors(space)).collect();
                assert_eq!(different.len(), count);
                let size = 3usize.pow(dimension as u32);
                assert!(different.iter().all(|space| space.len() == size));
            }
        }
    }
}
