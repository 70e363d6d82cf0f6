//! Lists of base-3 digits, packed into two bit planes: one for the digits
//! that are 1, one for those that are 2. Sums and differences work on all
//! digits at once.

use std::ops::{Add, Neg, Sub};

/// At most 64 digits; the lowest digit is bit 0 of both planes.
#[derive(Clone, Copy, PartialEq, Eq, Hash, Debug, Default)]
pub struct Digits {
    ones: u64,
    twos: u64,
}

impl Digits {
    pub const ZERO: Digits = Digits { ones: 0, twos: 0 };

    /// The base-3 digits of a number.
    pub const fn of_number(number: u64) -> Digits {
        let mut digits = Digits::ZERO;
        let mut rest = number;
        let mut place = 0;
        while rest > 0 {
            digits.ones |= ((rest % 3 == 1) as u64) << place;
            digits.twos |= ((rest % 3 == 2) as u64) << place;
            rest /= 3;
            place += 1;
        }
        digits
    }

    /// The number with these base-3 digits (at most 40 of them).
    pub fn number(self) -> u64 {
        (0..40).rev().fold(0, |n, place| 3 * n + self.digit(place))
    }

    pub fn digit(self, place: u32) -> u64 {
        (self.ones >> place & 1) + 2 * (self.twos >> place & 1)
    }

    /// The digits moved up by `places`, with zeros below.
    pub fn shift_up(self, places: u32) -> Digits {
        Digits {
            ones: self.ones << places,
            twos: self.twos << places,
        }
    }

    /// `count` (below 64) of the digits, from place `from` on.
    pub fn part(self, from: u32, count: u32) -> Digits {
        let mask = (1 << count) - 1;
        Digits {
            ones: self.ones >> from & mask,
            twos: self.twos >> from & mask,
        }
    }

    /// Every digit times the digit `factor`, modulo 3.
    pub fn scale(self, factor: u64) -> Digits {
        let (same, swapped) = (u64::from(factor == 1), u64::from(factor == 2));
        Digits {
            ones: (same * self.ones) | (swapped * self.twos),
            twos: (same * self.twos) | (swapped * self.ones),
        }
    }
}

impl Add for Digits {
    type Output = Digits;

    fn add(self, other: Digits) -> Digits {
        let mixed = (self.ones | other.twos) ^ (self.twos | other.ones);
        Digits {
            ones: (self.twos | other.twos) ^ mixed,
            twos: (self.ones | other.ones) ^ mixed,
        }
    }
}

impl Neg for Digits {
    type Output = Digits;

    fn neg(self) -> Digits {
        Digits {
            ones: self.twos,
            twos: self.ones,
        }
    }
}

impl Sub for Digits {
    type Output = Digits;

    fn sub(self, other: Digits) -> Digits {
        self + -other
    }
}

impl std::iter::Sum for Digits {
    fn sum<I: Iterator<Item = Digits>>(items: I) -> Digits {
        items.fold(Digits::ZERO, Add::add)
    }
}

#[cfg(test)]
mod tests {
    use super::Digits;

    #[test]
    fn digits_are_counted_modulo_3() {
        for a in 0..729 {
            for b in 0..729 {
                let sum = Digits::of_number(a) + Digits::of_number(b);
                let difference = Digits::of_number(a) - Digits::of_number(b);
                for place in 0..6 {
                    let digit = |n: u64| n / 3u64.pow(place) % 3;
                    assert_eq!(sum.digit(place), (digit(a) + digit(b)) % 3);
                    assert_eq!(difference.digit(place), (3 + digit(a) - digit(b)) % 3);
                }
            }
            assert_eq!(Digits::of_number(a).number(), a);
        }
    }
}
