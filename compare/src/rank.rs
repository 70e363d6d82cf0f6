//! The rank of a card's square of digits, by counting: columns of rank r have
//! 3^r different combinations.

use crate::digits::Digits;

/// A card's six symbols as one list of 36 digits, the first symbol lowest.
pub type Square = Digits;

pub fn square(symbols: &[u16; 6]) -> Square {
    symbols.iter().rev().fold(Digits::ZERO, |square, symbol| {
        square.shift_up(6) + Digits::of_number((*symbol).into())
    })
}

pub fn symbols(square: Square) -> [u16; 6] {
    std::array::from_fn(|place| column(square, place as u32).number() as u16)
}

pub fn column(square: Square, place: u32) -> Digits {
    square.part(6 * place, 6)
}

pub fn rank(square: Square) -> u32 {
    rank_within::<729>(square).expect("six columns have at most 729 combinations")
}

/// The rank, if the columns have at most `LIMIT` combinations.
pub fn rank_within<const LIMIT: usize>(square: Square) -> Option<u32> {
    column_rank_within::<LIMIT>((0..6).map(|place| column(square, place)))
}

/// The rank of any columns, if they have at most `LIMIT` combinations.
///
/// The combinations of the columns so far are all listed. A column that is
/// one of them adds none; any other makes them three times as many.
pub fn column_rank_within<const LIMIT: usize>(
    columns: impl Iterator<Item = Digits>,
) -> Option<u32> {
    let mut combinations = [Digits::ZERO; LIMIT];
    let mut count = 1;
    let mut rank = 0;
    for column in columns {
        if combinations[..count].contains(&column) {
            continue;
        }
        if 3 * count > LIMIT {
            return None;
        }
        for i in 0..count {
            combinations[count + i] = combinations[i] + column;
            combinations[2 * count + i] = combinations[i] - column;
        }
        count *= 3;
        rank += 1;
    }
    Some(rank)
}

#[cfg(test)]
mod tests {
    use super::*;
    use crate::random::Random;
    use std::collections::HashSet;

    /// All 729 combinations of the columns, with no shortcut.
    fn distinct_combinations(square: Square) -> usize {
        let all = (0..729).map(|number| {
            let factors = Digits::of_number(number);
            (0..6)
                .map(|place| column(square, place).scale(factors.digit(place)))
                .sum::<Digits>()
        });
        all.collect::<HashSet<_>>().len()
    }

    fn determinant(square: Square, rows: &[u32], columns: &[u32]) -> i64 {
        let Some((first, rest)) = columns.split_first() else {
            return 1;
        };
        let mut sum = 0;
        for (i, row) in rows.iter().enumerate() {
            let others: Vec<u32> = rows.iter().copied().filter(|r| r != row).collect();
            let sign = if i % 2 == 0 { 1 } else { -1 };
            let entry = column(square, *first).digit(*row) as i64;
            sum += sign * entry * determinant(square, &others, rest);
        }
        sum.rem_euclid(3)
    }

    fn places(set: u32) -> Vec<u32> {
        (0..6).filter(|place| set >> place & 1 == 1).collect()
    }

    /// The largest order of a minor that is not 0.
    fn rank_by_minors(square: Square) -> u32 {
        let sets = |order: u32| (0..64u32).filter(move |set| set.count_ones() == order);
        (0..=6)
            .rev()
            .find(|order| {
                sets(*order).any(|rows| {
                    sets(*order)
                        .any(|columns| determinant(square, &places(rows), &places(columns)) != 0)
                })
            })
            .expect("the minor of order 0 is 1")
    }

    #[test]
    fn three_ways_to_the_rank_agree() {
        let mut random = Random::new(1);
        let mut seen = [0; 7];
        for turn in 0..700 {
            let square = crate::samples::error(&mut random, turn % 7);
            let rank = rank(square);
            assert_eq!(distinct_combinations(square), 3usize.pow(rank));
            assert_eq!(rank_by_minors(square), rank);
            assert_eq!(rank_within::<9>(square), (rank <= 2).then_some(rank));
            seen[rank as usize] += 1;
        }
        assert_eq!(seen, [100; 7]);
    }
}
