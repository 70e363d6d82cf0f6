//! Decoding with dead lines, by algebra. A dead row is forgotten by a step
//! y^3 - A·y after the card's polynomial, a dead column by a step y^3 - B·y
//! before it. After the steps the error has the rank of what is left of it, so
//! that its last coefficients give the others; then the steps are undone.
//!
//! The steps take the word's polynomial to one that ends with y^(3^n), where
//! n is k plus the number of dead lines, and the coefficient there is
//! z^(3^r)·s, for r dead rows and a small symbol s. Where n is even that hides
//! a coefficient of the error, and all 27 are tried.

use super::{
    add, coefficient, dual_logs, log, logs, logs_of, message_of, place, powers, rank_within,
    reduce_or_zero, sub, word_of, Card, Decoded, Packed, CUBES, CUBINGS, LOG_MINUS_ONE, LOG_ZERO,
    ORDER, PAIRS, POWERS,
};
use crate::refusal::Refusal;

/// The logarithms of A by masks of rows: that of the step for the highest row,
/// after the steps for the others.
static ROW_STEPS: [u16; 64] = row_steps();
/// The logarithms of B^(3^i) by masks of columns, as for rows.
static COLUMN_STEPS: [[u16; 6]; 64] = with_cubings(column_steps());
/// The logarithms of what the lowest coefficient is multiplied by when all
/// steps of a mask are undone.
static ROW_FACTORS: [u16; 64] = factors(row_steps());
static COLUMN_FACTORS: [u16; 64] = factors(column_steps());
/// The logarithms of the small symbols.
static SMALL_LOGS: [u16; 27] = small_logs();

/// The steps must take the powers of z of dead rows to 0.
const fn row_steps() -> [u16; 64] {
    steps([0, 1, 2, 3, 4, 5], 3)
}

/// The steps must not have a value with the power of z of a dead column in it:
/// its product by that column's dual symbol d must have the trace 0. The trace
/// of d·(y^3 - B·y) is that of (d^243 - B·d)·y, so they must take d to 0.
const fn column_steps() -> [u16; 64] {
    steps(dual_logs()[0], 243)
}

/// The logarithms of the multipliers A for which the steps x^exponent - A·x
/// take the symbols of all lines of a mask to 0: that of the highest line goes
/// through the steps for the others, and what comes out is a zero of its own.
const fn steps(symbol_logs: [u16; 6], exponent: usize) -> [u16; 64] {
    let (powers, logs) = (powers(), logs());
    let mut table = [0; 64];
    let mut mask = 1usize;
    while mask < 64 {
        let highest = mask.ilog2() as usize;
        let mut log = symbol_logs[highest] as usize;
        let mut line = 0;
        while line < highest {
            if mask >> line & 1 == 1 {
                let multiplier = table[mask & ((2 << line) - 1)] as usize;
                let value = sub(powers[exponent * log % ORDER], powers[multiplier + log]);
                log = logs[place(value)] as usize;
            }
            line += 1;
        }
        table[mask] = ((exponent - 1) * log % ORDER) as u16;
        mask += 1;
    }
    table
}

const fn with_cubings(steps: [u16; 64]) -> [[u16; 6]; 64] {
    let mut table = [[0; 6]; 64];
    let mut entry = 0;
    while entry < 64 * 6 {
        let (mask, i) = (entry / 6, entry % 6);
        table[mask][i] = (steps[mask] as usize * CUBINGS[i] % ORDER) as u16;
        entry += 1;
    }
    table
}

/// A step is undone by a division of the lowest coefficient by -A.
const fn factors(steps: [u16; 64]) -> [u16; 64] {
    let mut table = [0; 64];
    let mut mask = 1usize;
    while mask < 64 {
        let others = table[mask ^ 1 << mask.ilog2()] as usize;
        let factor = others + ORDER - steps[mask] as usize + LOG_MINUS_ONE;
        table[mask] = (factor % ORDER) as u16;
        mask += 1;
    }
    table
}

const fn small_logs() -> [u16; 27] {
    let mut table = [LOG_ZERO; 27];
    let mut power = 0;
    while power < 26 {
        table[power + 1] = 28 * power as u16;
        power += 1;
    }
    table
}

/// The masks of the lines up to each line of a mask, the lowest first.
fn prefixes(mask: usize) -> impl Iterator<Item = usize> {
    let mut above = mask;
    std::iter::from_fn(move || {
        above &= above.checked_sub(1)?;
        Some(mask ^ above)
    })
}

/// The same, the highest first.
fn prefixes_down(mask: usize) -> impl Iterator<Item = usize> {
    let mut rest = mask;
    std::iter::from_fn(move || {
        let prefix = rest;
        rest ^= 1 << rest.checked_ilog2()?;
        Some(prefix)
    })
}

/// The step for the highest row of a mask.
fn row_step(mask: usize, h: &Card) -> Card {
    let step = usize::from(ROW_STEPS[mask]);
    let logs = logs_of(h).map(usize::from);
    std::array::from_fn(|i| sub(CUBES[logs[(i + 5) % 6]], POWERS[logs[i] + step]))
}

/// The step for the highest column of a mask.
fn column_step(mask: usize, h: &Card) -> Card {
    let logs = logs_of(h);
    let product = |i: usize| POWERS[usize::from(logs[i] + COLUMN_STEPS[mask][i])];
    std::array::from_fn(|i| sub(h[(i + 5) % 6], product(i)))
}

/// Undoes a step, of the lowest coefficients of a polynomial that has none
/// below them.
fn undo_row_step(mask: usize, f: &mut [Packed]) {
    let inverse = ORDER - usize::from(ROW_STEPS[mask]);
    let mut before = 0;
    for x in f {
        *x = POWERS[log(sub(CUBES[log(before)], *x)) + inverse];
        before = *x;
    }
}

fn undo_column_step(mask: usize, f: &mut [Packed]) {
    let mut before = 0;
    for (x, step) in f.iter_mut().zip(COLUMN_STEPS[mask]) {
        *x = POWERS[log(sub(before, *x)) + ORDER - usize::from(step)];
        before = *x;
    }
}

/// The logarithm of a power.
fn power(log: usize, exponent: usize) -> usize {
    match log {
        _ if log == LOG_ZERO.into() => log,
        _ => log * exponent % ORDER,
    }
}

/// The logarithm of a product.
fn product(a: usize, b: usize) -> usize {
    reduce_or_zero(a + b)
}

/// The logarithm of the inverse, or of 0 for 0.
fn inverse(log: usize) -> usize {
    match log {
        _ if log == LOG_ZERO.into() => log,
        _ => ORDER - log,
    }
}

/// The number c + f·u for a small symbol u, given the logarithms of f and u.
#[derive(Clone, Copy)]
struct Affine {
    constant: Packed,
    factor: usize,
}

impl Affine {
    fn at(self, u: usize) -> Packed {
        add(self.constant, POWERS[self.factor + u])
    }

    /// This number times one with the given logarithm.
    fn times(self, x: usize) -> Affine {
        Affine {
            constant: POWERS[log(self.constant) + x],
            factor: product(self.factor, x),
        }
    }

    fn plus(self, constant: Packed) -> Affine {
        Affine {
            constant: add(self.constant, constant),
            ..self
        }
    }
}

/// The quotient of two such numbers.
fn quotient(numerator: Affine, denominator: Affine, u: usize) -> Packed {
    POWERS[log(numerator.at(u)) + inverse(log(denominator.at(u)))]
}

/// A card and its dead lines.
struct Dead {
    k: usize,
    received: Card,
    rows: usize,
    columns: usize,
    radius: usize,
}

/// The word near a card but for its dead lines.
pub(super) fn decode(
    k: usize,
    received: Card,
    dead_rows: u32,
    dead_columns: u32,
) -> Result<Decoded, Refusal> {
    if dead_rows > 63 || dead_columns > 63 {
        return Err(Refusal::Range);
    }
    let lines = (dead_rows.count_ones() + dead_columns.count_ones()) as usize;
    if lines > 6 - k {
        return Err(Refusal::DeadLines);
    }
    if lines == 0 {
        return super::decode(k, received);
    }
    let dead = Dead {
        k,
        received,
        rows: dead_rows as usize,
        columns: dead_columns as usize,
        radius: (6 - k - lines) / 2,
    };
    let h = dead.stepped();
    let found = match k + lines {
        2 => dead.try_doubles(&h),
        3 => dead.find_single(&h),
        4 => dead.try_singles(&h),
        5 => dead.check(&h),
        _ => dead.try_clean(&h),
    };
    found.ok_or(Refusal::Undecodable)
}

impl Dead {
    /// The coefficients of the card's polynomial after all steps.
    fn stepped(&self) -> Card {
        let logs = logs_of(&self.received);
        let spectrum = std::array::from_fn(|i| coefficient(&logs, i));
        let h = prefixes(self.rows).fold(spectrum, |h, mask| row_step(mask, &h));
        prefixes(self.columns).fold(h, |h, mask| column_step(mask, &h))
    }

    /// The logarithm of what undoing all steps multiplies the lowest
    /// coefficient by.
    fn factor(&self) -> usize {
        let factors = [ROW_FACTORS[self.rows], COLUMN_FACTORS[self.columns]];
        product(factors[0].into(), factors[1].into())
    }

    /// The logarithm of z^(3^(r + i)), for r dead rows.
    fn top(&self, i: u32) -> usize {
        CUBINGS[((self.rows.count_ones() + i) % 6) as usize]
    }

    /// What is near the card, if the steps take its coefficients up to number
    /// k to these.
    fn check(&self, f: &Card) -> Option<Decoded> {
        let k = self.k;
        let mut f = *f;
        let known = &mut f[..=k];
        prefixes_down(self.columns).for_each(|mask| undo_column_step(mask, known));
        prefixes_down(self.rows).for_each(|mask| undo_row_step(mask, known));
        if PAIRS[place(f[0])][1] != 0 || PAIRS[place(f[k])][0] != 0 {
            return None;
        }
        let word = word_of(k, &logs_of(&f));
        let live = (0x3f & !self.rows as Packed) * 0x101;
        let left = std::array::from_fn(|s| match self.columns >> s & 1 {
            0 => sub(self.received[s], word[s]) & live,
            _ => 0,
        });
        let distance = rank_within(&left, self.radius)?;
        Some(Decoded {
            word,
            message: message_of(k, |i| f[i]),
            distance,
        })
    }

    /// Checks what `candidate` makes of each small symbol u for which the
    /// lowest coefficient is small when the steps are undone: `lowest`, given
    /// the logarithm of u.
    fn each(
        &self,
        lowest: impl Fn(usize) -> Packed,
        candidate: impl Fn(usize) -> Card,
    ) -> Option<Decoded> {
        let logs = SMALL_LOGS.iter().map(|log| usize::from(*log));
        logs.filter(|u| PAIRS[place(lowest(*u))][1] == 0)
            .find_map(|u| self.check(&candidate(u)))
    }

    /// n = 6: the error is 0, and z^(3^r)·s comes round to the lowest
    /// coefficient.
    fn try_clean(&self, h: &Card) -> Option<Decoded> {
        let lowest = Affine {
            constant: h[0],
            factor: product(self.top(0), LOG_MINUS_ONE),
        };
        let undone = lowest.times(self.factor());
        let candidate = |u| {
            let mut f = *h;
            f[0] = lowest.at(u);
            f
        };
        self.each(|u| undone.at(u), candidate)
    }

    /// n = 3: the error has rank 1 at most, so each coefficient is the same
    /// multiple of the cube of the one before, counted modulo 6.
    fn find_single(&self, h: &Card) -> Option<Decoded> {
        let ratio = product(log(h[5]), inverse(power(log(h[4]), 3)));
        self.check(&self.less_chain(h, ratio))
    }

    /// The coefficients less those of an error of rank 1 with this ratio and
    /// the last coefficient of these.
    fn less_chain(&self, h: &Card, ratio: usize) -> Card {
        let mut f = *h;
        let mut error = log(h[5]);
        for x in &mut f[..=self.k] {
            error = product(ratio, power(error, 3));
            *x = sub(*x, POWERS[error]);
        }
        f
    }

    /// n = 4: the same, where the coefficient before the last is hidden. With
    /// u = s^3 its cube is h(4)^3 - z^(3^(r+1))·u.
    fn try_singles(&self, h: &Card) -> Option<Decoded> {
        if h[5] == 0 {
            // Then the error is 0.
            return self.check(h);
        }
        let last = log(h[5]);
        let cube = Affine {
            constant: CUBES[log(h[4])],
            factor: product(self.top(1), LOG_MINUS_ONE),
        };
        let inverse_cube = |u| inverse(log(cube.at(u)));
        let factor = self.factor();
        let constant = POWERS[log(h[0]) + factor];
        let error = product(power(last, 4), factor);
        self.each(
            |u| sub(constant, POWERS[error + inverse_cube(u)]),
            |u| self.less_chain(h, product(last, inverse_cube(u))),
        )
    }

    /// n = 2 (so k = 1): the error e has rank 2 at most, so for some A and B
    /// e(i)^9 + A·e(i+1)^3 + B·e(i+2) is 0 for all i, counted modulo 6. The
    /// coefficient e(2) is hidden: with u = s^9 its ninth power is
    /// h(2)^9 - z^(3^(r+2))·u.
    fn try_doubles(&self, h: &Card) -> Option<Decoded> {
        let [_, _, _, e3, e4, e5] = h.map(log);
        // The determinant of the equations for i = 2 and 3.
        let minor = sub(POWERS[power(e3, 3) + e5], POWERS[power(e4, 4)]);
        if minor == 0 {
            // Then the error has rank 1 at most.
            return self.find_single(h);
        }
        let minor = log(minor);
        let ninth = Affine {
            constant: POWERS[power(log(h[2]), 9)],
            factor: product(self.top(2), LOG_MINUS_ONE),
        };
        let minus = |x: usize| product(x, LOG_MINUS_ONE);
        // -A and -B times the determinant.
        let a = ninth
            .times(e5)
            .plus(POWERS[minus(product(power(e3, 9), e4))]);
        let b = ninth.times(minus(power(e4, 3))).plus(POWERS[power(e3, 12)]);
        // e(0) and e(1) times -B times the determinant, for i = 4 and 5.
        let zeroth = a
            .times(minus(power(e5, 3)))
            .plus(POWERS[power(e4, 9) + minor]);
        let first = POWERS[power(e5, 9) + minor];
        let factor = self.factor();
        let constant = POWERS[log(h[0]) + factor];
        let undone = zeroth.times(factor);
        let candidate = |u| {
            let mut f = *h;
            let error = quotient(zeroth, b, u);
            let rest = sub(first, POWERS[product(log(a.at(u)), power(log(error), 3))]);
            f[0] = sub(f[0], error);
            f[1] = sub(f[1], POWERS[log(rest) + inverse(log(b.at(u)))]);
            f
        };
        self.each(|u| sub(constant, quotient(undone, b, u)), candidate)
    }
}
