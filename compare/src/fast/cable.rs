//! Levels on the tower cable, by tables of all symbols and of all numbers.

use crate::refusal::Refusal;

/// The numbers of the symbols are from -MOST to MOST.
const MOST: i16 = 364;

/// The least sample that is a plus; its negative is the greatest that is a
/// minus.
const STRONG: i16 = 8_192;

static NUMBERS: [i16; 729] = numbers();
/// The symbol of each number, from -MOST on.
static SYMBOLS: [u16; 729] = symbols_of_numbers();
/// The powers of 3 by which the digits of a card are multiplied.
static POWERS: [u16; 36] = powers();

const fn numbers() -> [i16; 729] {
    let mut table = [0; 729];
    let mut symbol = 1;
    while symbol < 729 {
        let level = [0, 1, -1][symbol % 3];
        table[symbol] = 3 * table[symbol / 3] + level;
        symbol += 1;
    }
    table
}

const fn symbols_of_numbers() -> [u16; 729] {
    let numbers = numbers();
    let mut table = [0; 729];
    let mut symbol = 0;
    while symbol < 729 {
        table[(numbers[symbol] + MOST) as usize] = symbol as u16;
        symbol += 1;
    }
    table
}

const fn powers() -> [u16; 36] {
    let mut table = [1; 36];
    let mut place = 0;
    while place < 36 {
        table[place] = 3u16.pow(place as u32 % 6);
        place += 1;
    }
    table
}

pub fn levels(card: &[u16], levels: &mut [i16]) -> Result<(), Refusal> {
    fill(card, levels, |symbol| {
        NUMBERS.get(usize::from(symbol)).copied()
    })
}

pub fn symbols(levels: &[i16], card: &mut [u16]) -> Result<(), Refusal> {
    fill(levels, card, |number| {
        // Those below -MOST come out above all others.
        let place = number.wrapping_add(MOST) as u16;
        SYMBOLS.get(usize::from(place)).copied()
    })
}

/// Fills a list of six with the entries of a table, if all are found.
fn fill<T: Copy, U: Copy + Default>(
    list: &[T],
    lent: &mut [U],
    entry: impl Fn(T) -> Option<U>,
) -> Result<(), Refusal> {
    let list: &[T; 6] = list.try_into().map_err(|_| Refusal::Length)?;
    let lent: &mut [U; 6] = lent.try_into().map_err(|_| Refusal::Length)?;
    let mut found = [U::default(); 6];
    for (place, item) in found.iter_mut().zip(list) {
        *place = entry(*item).ok_or(Refusal::Range)?;
    }
    *lent = found;
    Ok(())
}

pub fn receive(samples: &[i16], card: &mut [u16]) -> Result<(), Refusal> {
    let samples: &[i16; 36] = samples.try_into().map_err(|_| Refusal::Length)?;
    let card: &mut [u16; 6] = card.try_into().map_err(|_| Refusal::Length)?;
    let mut terms = [0; 36];
    for (place, term) in terms.iter_mut().enumerate() {
        *term = digit(samples[place]) * POWERS[place];
    }
    let (columns, _) = terms.as_chunks::<6>();
    for (symbol, column) in card.iter_mut().zip(columns) {
        *symbol = column.iter().sum();
    }
    Ok(())
}

/// Without branches, which could not be foreseen.
fn digit(sample: i16) -> u16 {
    u16::from(sample >= STRONG) + 2 * u16::from(sample <= -STRONG)
}
