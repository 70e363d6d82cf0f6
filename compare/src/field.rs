//! The field of 729 elements as polynomials of degree below 6 over the digits
//! modulo 3, reduced by z^6 + 2z^4 + z^2 + 2z + 2, and its small field of 27
//! elements. Products are polynomial products: there are no logarithms here.

use crate::digits::Digits;
use std::iter::Sum;
use std::ops::{Add, Mul, Neg, Sub};
use std::sync::OnceLock;

/// Symbols are the numbers below this.
pub const SYMBOLS: u16 = 729;

/// Small numbers, which stand for the elements of the small field, are the
/// numbers below this.
pub const SMALL_NUMBERS: u16 = 27;

/// z^6 + 2z^4 + z^2 + 2z + 2.
const MODULUS: Digits = Digits::of_number(729 + 2 * 81 + 9 + 2 * 3 + 2);

/// A polynomial of degree below 6; digit i is the coefficient of z^i.
#[derive(Clone, Copy, PartialEq, Eq, Hash, Debug)]
pub struct Element(Digits);

impl Element {
    pub const ZERO: Element = Element(Digits::ZERO);

    pub fn of_symbol(symbol: u16) -> Element {
        assert!(symbol < SYMBOLS, "{symbol} is no symbol");
        Element(Digits::of_number(symbol.into()))
    }

    pub fn symbol(self) -> u16 {
        self.0.number() as u16
    }

    pub fn of_digits(digits: Digits) -> Element {
        Element(digits)
    }

    pub fn digits(self) -> Digits {
        self.0
    }

    pub fn one() -> Element {
        Element::of_symbol(1)
    }

    /// The polynomial z.
    pub fn z() -> Element {
        Element::of_symbol(3)
    }

    fn times_z(self) -> Element {
        let product = self.0.shift_up(1);
        Element(product - MODULUS.scale(product.digit(6)))
    }

    pub fn pow(self, exponent: u32) -> Element {
        let bits = u32::BITS - exponent.leading_zeros();
        let mut result = Element::one();
        for place in (0..bits).rev() {
            result = result * result;
            if exponent >> place & 1 == 1 {
                result = result * self;
            }
        }
        result
    }

    /// The power 3^times.
    pub fn frobenius(self, times: u32) -> Element {
        (0..times).fold(self, |x, _| x * x * x)
    }

    /// The inverse of a nonzero element.
    pub fn inverse(self) -> Element {
        assert!(self != Element::ZERO, "zero has no inverse");
        self.pow(u32::from(SYMBOLS) - 2)
    }

    /// The trace to the small field.
    pub fn trace(self) -> Element {
        self + self.pow(27)
    }
}

impl Add for Element {
    type Output = Element;

    fn add(self, other: Element) -> Element {
        Element(self.0 + other.0)
    }
}

impl Sub for Element {
    type Output = Element;

    fn sub(self, other: Element) -> Element {
        Element(self.0 - other.0)
    }
}

impl Neg for Element {
    type Output = Element;

    fn neg(self) -> Element {
        Element(-self.0)
    }
}

impl Mul for Element {
    type Output = Element;

    fn mul(self, other: Element) -> Element {
        (0..6).rev().fold(Element::ZERO, |product, place| {
            product.times_z() + Element(self.0.scale(other.0.digit(place)))
        })
    }
}

impl Sum for Element {
    fn sum<I: Iterator<Item = Element>>(items: I) -> Element {
        items.fold(Element::ZERO, Add::add)
    }
}

/// The element that each small number stands for.
fn small_field() -> &'static [Element; 27] {
    static SMALL_FIELD: OnceLock<[Element; 27]> = OnceLock::new();
    SMALL_FIELD.get_or_init(|| {
        let h = Element::z().pow(28);
        std::array::from_fn(|number| {
            let digits = Digits::of_number(number as u64);
            let term = |place, power| Element(Element::digits(power).scale(digits.digit(place)));
            term(0, Element::one()) + term(1, h) + term(2, h * h)
        })
    })
}

/// The element that a small number stands for.
pub fn of_small(number: u16) -> Element {
    small_field()[usize::from(number)]
}

/// The small number that stands for an element, if it is in the small field.
pub fn small_number(element: Element) -> Option<u16> {
    let place = small_field().iter().position(|x| *x == element)?;
    Some(place as u16)
}

/// The only solution x of matrix · x = right, by elimination.
pub fn solve(matrix: [[Element; 6]; 6], right: [Element; 6]) -> [Element; 6] {
    let mut rows: [[Element; 7]; 6] = std::array::from_fn(|i| {
        std::array::from_fn(|j| if j < 6 { matrix[i][j] } else { right[i] })
    });
    for column in 0..6 {
        let pivot = (column..6)
            .find(|i| rows[*i][column] != Element::ZERO)
            .expect("the matrix is invertible");
        rows.swap(column, pivot);
        let scale = rows[column][column].inverse();
        rows[column] = rows[column].map(|x| x * scale);
        let pivot_row = rows[column];
        for (i, row) in rows.iter_mut().enumerate() {
            if i != column {
                let factor = row[column];
                for (x, pivot) in row.iter_mut().zip(pivot_row) {
                    *x = *x - factor * pivot;
                }
            }
        }
    }
    rows.map(|row| row[6])
}
