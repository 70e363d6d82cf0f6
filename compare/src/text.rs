//! Tunes as text, and what the program `press_book` makes of it.
//!
//! A text is lines of words between blanks: spaces, tabs and carriage returns.
//! `tune NUMBER` begins a tune, and `BELL FORCE DELAY` is a card of the tune
//! that it follows. A line without words, or whose first word begins with `#`,
//! says nothing.

use crate::writer::{book_size, write_book, Tunes};

/// A text has at most so many bytes.
pub const LONGEST_TEXT: usize = 131_072;

/// What the program writes to its two outputs.
#[derive(Clone, PartialEq, Eq, Debug)]
pub struct Pressed {
    pub out: Vec<u8>,
    pub err: String,
}

/// What the program makes of a text.
pub fn press(text: &[u8]) -> Pressed {
    match pressed(text) {
        Ok(book) => Pressed {
            out: book,
            err: String::new(),
        },
        Err(reason) => Pressed {
            out: vec![],
            err: reason + "\n",
        },
    }
}

/// The book of a text, or why there is none.
fn pressed(text: &[u8]) -> Result<Vec<u8>, String> {
    if text.len() > LONGEST_TEXT {
        return Err(format!("text refused: more than {LONGEST_TEXT} bytes"));
    }
    let tunes = read(text)?;
    // Where there is no size, the book is refused whatever is lent.
    let size = book_size(&tunes.counts).unwrap_or(0);
    write_book(&tunes.numbers, &tunes.counts, &tunes.strikes, size)
        .map_err(|refusal| format!("book refused {}", refusal.number()))
}

/// What a text says, or the first line with a mistake and what is wrong.
pub fn read(text: &[u8]) -> Result<Tunes, String> {
    let mut tunes = Tunes::default();
    for (number, line) in (1..).zip(text.split(|byte| *byte == b'\n')) {
        let read = read_line(line, &mut tunes);
        read.map_err(|mistake| format!("line {number}: {mistake}"))?;
    }
    Ok(tunes)
}

fn read_line(line: &[u8], tunes: &mut Tunes) -> Result<(), &'static str> {
    let blank = |byte: &u8| [b' ', b'\t', b'\r'].contains(byte);
    let words: Vec<&[u8]> = line.split(blank).filter(|word| !word.is_empty()).collect();
    let numbers: Vec<Option<u16>> = words.iter().map(|word| number(word)).collect();
    match (&words[..], &numbers[..]) {
        ([], _) | ([[b'#', ..], ..], _) => {}
        ([b"tune", ..], [_, Some(number)]) => {
            tunes.numbers.push(*number);
            tunes.counts.push(0);
        }
        ([b"tune", ..], _) => return Err("a tune needs one number"),
        (_, [Some(bell), Some(force), Some(delay)]) => {
            let count = tunes.counts.last_mut();
            *count.ok_or("a strike before the first tune")? += 1;
            tunes.strikes.extend([bell, force, delay]);
        }
        _ => return Err("neither a tune nor a strike of three numbers"),
    }
    Ok(())
}

/// The number that a word is, or 65,535 for every larger one.
fn number(word: &[u8]) -> Option<u16> {
    if !word.iter().all(u8::is_ascii_digit) {
        return None;
    }
    let value = word.iter().fold(0, |value, digit| {
        (10 * value + u32::from(digit - b'0')).min(u16::MAX.into())
    });
    Some(value as u16)
}
