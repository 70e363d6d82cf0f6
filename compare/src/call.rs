//! Calls of all operations but the listing, and what comes of them: by the
//! reference, and by another implementation.
//!
//! Both can be printed as one line of decimal numbers, a negative one with a
//! minus sign before its digits. A call's line is the number of the operation
//! (1 to 19, in the order of `Call`), then its numbers if it has any (k, masks,
//! a tune's or a card's number, a place of the contents, a symbol or the number
//! of one, a width), then its lists, each as its length and its values. An
//! outcome's line is the status (0 or the refusal), then the numbers given back
//! if the status is 0, then the final values of the lists that the call lends to
//! be filled, without their lengths.

use crate::lent::{reading, Lent, UNTOUCHED};
use crate::library::Library;
use crate::refusal::Refusal;
use crate::{book, cable, code, dead, writer};

/// What each place of a list to be filled holds before a call for one symbol
/// or number. It is neither.
const UNTOUCHED_PLACE: i16 = 31_415;

/// Lists to be filled (`word`, `values`, the `message` of `Decode` and
/// `DecodeDead`, the `book` of `WriteBook`, the `levels` of `Levels`, and the
/// `card` of `Symbols` and `Receive`) are given with what they hold before.
#[derive(Clone, Debug)]
pub enum Call {
    Encode {
        k: u32,
        message: Vec<u16>,
        word: Vec<u16>,
    },
    Weight {
        symbols: Vec<u16>,
    },
    Syndrome {
        k: u32,
        received: Vec<u16>,
        values: Vec<u16>,
    },
    Decode {
        k: u32,
        received: Vec<u16>,
        word: Vec<u16>,
        message: Vec<u16>,
    },
    Open {
        book: Vec<u8>,
    },
    TuneBody {
        number: u32,
        book: Vec<u8>,
    },
    ReadCard {
        number: u32,
        body: Vec<u8>,
    },
    TotalDelay {
        body: Vec<u8>,
    },
    DamagedCard {
        body: Vec<u8>,
    },
    TuneAt {
        place: u32,
        book: Vec<u8>,
    },
    WriteBook {
        numbers: Vec<u16>,
        counts: Vec<u16>,
        strikes: Vec<u16>,
        book: Vec<u8>,
    },
    BookSize {
        counts: Vec<u16>,
    },
    DecodeDead {
        k: u32,
        dead_rows: u32,
        dead_columns: u32,
        received: Vec<u16>,
        word: Vec<u16>,
        message: Vec<u16>,
    },
    Signed {
        symbol: u16,
    },
    Symbol {
        number: i16,
    },
    Levels {
        card: Vec<u16>,
        levels: Vec<i16>,
    },
    Symbols {
        levels: Vec<i16>,
        card: Vec<u16>,
    },
    Receive {
        samples: Vec<i16>,
        card: Vec<u16>,
    },
    Wear {
        width: u32,
        body: Vec<u8>,
    },
}

#[derive(Clone, PartialEq, Eq, Debug)]
pub struct Outcome {
    pub status: u32,
    /// The numbers given back; none on a refusal.
    pub numbers: Vec<i64>,
    /// The final values of the lists to be filled.
    pub lists: Vec<Vec<i64>>,
}

/// The numbers given back and the lists filled.
type Answer = (Vec<i64>, Vec<Vec<i64>>);

impl Call {
    pub fn line(&self) -> String {
        let (operation, parameters, lists) = self.parts();
        let mut numbers = vec![operation];
        numbers.extend(parameters);
        for list in lists {
            numbers.push(list.len() as i64);
            numbers.extend(list);
        }
        decimal(numbers)
    }

    fn parts(&self) -> (i64, Vec<i64>, Vec<Vec<i64>>) {
        match self {
            Call::Encode { k, message, word } => (1, wide(&[*k]), vec![wide(message), wide(word)]),
            Call::Weight { symbols } => (2, vec![], vec![wide(symbols)]),
            Call::Syndrome {
                k,
                received,
                values,
            } => (3, wide(&[*k]), vec![wide(received), wide(values)]),
            Call::Decode {
                k,
                received,
                word,
                message,
            } => {
                let lists = vec![wide(received), wide(word), wide(message)];
                (4, wide(&[*k]), lists)
            }
            Call::Open { book } => (5, vec![], vec![wide(book)]),
            Call::TuneBody { number, book } => (6, wide(&[*number]), vec![wide(book)]),
            Call::ReadCard { number, body } => (7, wide(&[*number]), vec![wide(body)]),
            Call::TotalDelay { body } => (8, vec![], vec![wide(body)]),
            Call::DamagedCard { body } => (9, vec![], vec![wide(body)]),
            Call::TuneAt { place, book } => (10, wide(&[*place]), vec![wide(book)]),
            Call::WriteBook {
                numbers,
                counts,
                strikes,
                book,
            } => {
                let lists = vec![wide(numbers), wide(counts), wide(strikes), wide(book)];
                (11, vec![], lists)
            }
            Call::BookSize { counts } => (12, vec![], vec![wide(counts)]),
            Call::DecodeDead {
                k,
                dead_rows,
                dead_columns,
                received,
                word,
                message,
            } => {
                let numbers = wide(&[*k, *dead_rows, *dead_columns]);
                let lists = vec![wide(received), wide(word), wide(message)];
                (13, numbers, lists)
            }
            Call::Signed { symbol } => (14, wide(&[*symbol]), vec![]),
            Call::Symbol { number } => (15, wide(&[*number]), vec![]),
            Call::Levels { card, levels } => (16, vec![], vec![wide(card), wide(levels)]),
            Call::Symbols { levels, card } => (17, vec![], vec![wide(levels), wide(card)]),
            Call::Receive { samples, card } => (18, vec![], vec![wide(samples), wide(card)]),
            Call::Wear { width, body } => (19, wide(&[*width]), vec![wide(body)]),
        }
    }

    /// What the reference says.
    pub fn expected(&self) -> Outcome {
        match self.answer() {
            Ok((numbers, lists)) => Outcome {
                status: 0,
                numbers,
                lists,
            },
            Err(refusal) => Outcome {
                status: refusal.number(),
                numbers: vec![],
                lists: self.lists_to_fill(),
            },
        }
    }

    fn answer(&self) -> Result<Answer, Refusal> {
        Ok(match self {
            Call::Encode { k, message, word } => {
                let word = code::encode(*k, message, word.len())?;
                (vec![], vec![wide(&word)])
            }
            Call::Weight { symbols } => (wide(&[code::weight(symbols)?]), vec![]),
            Call::Syndrome {
                k,
                received,
                values,
            } => {
                let values = code::syndrome(*k, received, values.len())?;
                (vec![], vec![wide(&values)])
            }
            Call::Decode {
                k,
                received,
                word,
                message,
            } => decoded(code::decode(*k, received, word.len(), message.len())?),
            Call::Open { book } => (wide(&[book::open(book)?]), vec![]),
            Call::TuneBody { number, book } => {
                let body = book::tune_body(book, *number)?;
                (vec![body.start as i64, body.len() as i64], vec![])
            }
            Call::ReadCard { number, body } => {
                let s = book::read_card(body, *number)?;
                (wide(&[s.bell, s.force, s.delay, s.damage]), vec![])
            }
            Call::TotalDelay { body } => (wide(&[book::total_delay(body)?]), vec![]),
            Call::DamagedCard { body } => {
                let card = book::damaged_card(body)?.unwrap_or(0);
                (wide(&[card]), vec![])
            }
            Call::TuneAt { place, book } => (wide(&book::tune_at(book, *place)?), vec![]),
            Call::WriteBook {
                numbers,
                counts,
                strikes,
                book,
            } => {
                let book = writer::write_book(numbers, counts, strikes, book.len())?;
                (vec![], vec![wide(&book)])
            }
            Call::BookSize { counts } => (vec![writer::book_size(counts)? as i64], vec![]),
            Call::DecodeDead {
                k,
                dead_rows: rows,
                dead_columns: columns,
                received,
                word,
                message,
            } => {
                let (word, message) = (word.len(), message.len());
                decoded(dead::decode_dead(
                    *k, received, *rows, *columns, word, message,
                )?)
            }
            Call::Signed { symbol } => (wide(&[cable::signed(*symbol)?]), vec![]),
            Call::Symbol { number } => (wide(&[cable::symbol(*number)?]), vec![]),
            Call::Levels { card, levels } => {
                let levels = cable::levels(card, levels.len())?;
                (vec![], vec![wide(&levels)])
            }
            Call::Symbols { levels, card } => {
                let card = cable::symbols(levels, card.len())?;
                (vec![], vec![wide(&card)])
            }
            Call::Receive { samples, card } => {
                let card = cable::receive(samples, card.len())?;
                (vec![], vec![wide(&card)])
            }
            Call::Wear { width, body } => {
                let run = book::wear(body, *width)?;
                (wide(&[run.sum, run.first]), vec![])
            }
        })
    }

    fn lists_to_fill(&self) -> Vec<Vec<i64>> {
        match self {
            Call::Encode { word, .. } => vec![wide(word)],
            Call::Syndrome { values, .. } => vec![wide(values)],
            Call::Decode { word, message, .. } | Call::DecodeDead { word, message, .. } => {
                vec![wide(word), wide(message)]
            }
            Call::WriteBook { book, .. } => vec![wide(book)],
            Call::Levels { levels, .. } => vec![wide(levels)],
            Call::Symbols { card, .. } | Call::Receive { card, .. } => vec![wide(card)],
            _ => vec![],
        }
    }

    /// What an implementation makes of the call. Panics if it changes a list
    /// that is not lent to be filled, or writes outside a list.
    ///
    /// No function takes a single symbol or number: `Signed` and `Symbol` give
    /// theirs in all six places of a list.
    pub fn run<L: Library>(&self) -> Outcome {
        match self {
            Call::Encode { k, message, word } => {
                let mut word = Lent::new(word);
                let status = reading(self, message, |m| L::encode(*k, m, word.list()));
                outcome(status, &[], vec![wide(&word.values(self))])
            }
            Call::Weight { symbols } => {
                let mut rank = UNTOUCHED;
                let status = reading(self, symbols, |s| L::weight(s, &mut rank));
                outcome(status, &[rank], vec![])
            }
            Call::Syndrome {
                k,
                received,
                values,
            } => {
                let mut values = Lent::new(values);
                let status = reading(self, received, |r| L::syndrome(*k, r, values.list()));
                outcome(status, &[], vec![wide(&values.values(self))])
            }
            Call::Decode {
                k,
                received,
                word,
                message,
            } => {
                let (mut word, mut message) = (Lent::new(word), Lent::new(message));
                let mut distance = UNTOUCHED;
                let status = reading(self, received, |r| {
                    L::decode(*k, r, word.list(), message.list(), &mut distance)
                });
                let lists = vec![wide(&word.values(self)), wide(&message.values(self))];
                outcome(status, &[distance], lists)
            }
            Call::Open { book } => {
                let mut tunes = UNTOUCHED;
                let status = reading(self, book, |b| L::open(b, &mut tunes));
                outcome(status, &[tunes], vec![])
            }
            Call::TuneBody { number, book } => {
                let (mut offset, mut length) = (UNTOUCHED, UNTOUCHED);
                let status = reading(self, book, |b| {
                    L::tune_body(b, *number, &mut offset, &mut length)
                });
                outcome(status, &[offset, length], vec![])
            }
            Call::ReadCard { number, body } => {
                let mut strike = [UNTOUCHED; 4];
                let status = reading(self, body, |b| L::read_card(b, *number, &mut strike));
                outcome(status, &strike, vec![])
            }
            Call::TotalDelay { body } => {
                let mut ticks = UNTOUCHED;
                let status = reading(self, body, |b| L::total_delay(b, &mut ticks));
                outcome(status, &[ticks], vec![])
            }
            Call::DamagedCard { body } => {
                let mut card = UNTOUCHED;
                let status = reading(self, body, |b| L::damaged_card(b, &mut card));
                outcome(status, &[card], vec![])
            }
            Call::TuneAt { place, book } => {
                let (mut number, mut cards) = (UNTOUCHED, UNTOUCHED);
                let status = reading(self, book, |b| {
                    L::tune_at(b, *place, &mut number, &mut cards)
                });
                outcome(status, &[number, cards], vec![])
            }
            Call::WriteBook {
                numbers,
                counts,
                strikes,
                book,
            } => {
                let mut book = Lent::new(book);
                let status = reading(self, numbers, |n| {
                    reading(self, counts, |c| {
                        reading(self, strikes, |s| L::write_book(n, c, s, book.list()))
                    })
                });
                outcome(status, &[], vec![wide(&book.values(self))])
            }
            Call::BookSize { counts } => {
                let mut size = UNTOUCHED as usize;
                let status = reading(self, counts, |c| L::book_size(c, &mut size));
                let size = u32::try_from(size).unwrap_or(u32::MAX);
                outcome(status, &[size], vec![])
            }
            Call::DecodeDead {
                k,
                dead_rows: rows,
                dead_columns: columns,
                received,
                word,
                message,
            } => {
                let (mut word, mut message) = (Lent::new(word), Lent::new(message));
                let mut rank = UNTOUCHED;
                let status = reading(self, received, |r| {
                    let (word, message) = (word.list(), message.list());
                    L::decode_dead(*k, r, *rows, *columns, word, message, &mut rank)
                });
                let lists = vec![wide(&word.values(self)), wide(&message.values(self))];
                outcome(status, &[rank], lists)
            }
            Call::Signed { symbol } => {
                let mut levels = Lent::new(&[UNTOUCHED_PLACE; 6]);
                let status = reading(self, &[*symbol; 6], |c| L::levels(c, levels.list()));
                outcome_of_six(status, wide(&levels.values(self)))
            }
            Call::Symbol { number } => {
                let mut card = Lent::new(&[UNTOUCHED_PLACE as u16; 6]);
                let status = reading(self, &[*number; 6], |l| L::symbols(l, card.list()));
                outcome_of_six(status, wide(&card.values(self)))
            }
            Call::Levels { card, levels } => {
                let mut levels = Lent::new(levels);
                let status = reading(self, card, |c| L::levels(c, levels.list()));
                outcome(status, &[], vec![wide(&levels.values(self))])
            }
            Call::Symbols { levels, card } => {
                let mut card = Lent::new(card);
                let status = reading(self, levels, |l| L::symbols(l, card.list()));
                outcome(status, &[], vec![wide(&card.values(self))])
            }
            Call::Receive { samples, card } => {
                let mut card = Lent::new(card);
                let status = reading(self, samples, |s| L::receive(s, card.list()));
                outcome(status, &[], vec![wide(&card.values(self))])
            }
            Call::Wear { width, body } => {
                let (mut sum, mut first) = (UNTOUCHED, UNTOUCHED);
                let status = reading(self, body, |b| L::wear(b, *width, &mut sum, &mut first));
                outcome(status, &[sum, first], vec![])
            }
        }
    }

    /// Panics, with the call, if the implementation and the reference
    /// disagree.
    pub fn check<L: Library>(&self) {
        self.expect::<L>(&self.expected());
    }

    /// As `check`, where the outcome is known.
    pub fn expect<L: Library>(&self, expected: &Outcome) {
        let outcome = self.run::<L>();
        assert!(
            outcome == *expected,
            "{self:?}\ngives    {}\nexpected {}",
            outcome.line(),
            expected.line()
        );
    }
}

impl Outcome {
    pub fn line(&self) -> String {
        let mut numbers = vec![i64::from(self.status)];
        numbers.extend(&self.numbers);
        numbers.extend(self.lists.iter().flatten());
        decimal(numbers)
    }
}

/// The answer of a decoding.
fn decoded(decoded: code::Decoded) -> Answer {
    let lists = vec![wide(&decoded.word), wide(&decoded.message)];
    (wide(&[decoded.distance]), lists)
}

/// Numbers of any type, as an outcome has them.
pub fn wide<T: Copy + Into<i64>>(list: &[T]) -> Vec<i64> {
    list.iter().map(|value| (*value).into()).collect()
}

fn decimal(numbers: Vec<i64>) -> String {
    let words: Vec<String> = numbers.iter().map(i64::to_string).collect();
    words.join(" ")
}

/// The outcome of an implementation. Numbers that a refusal left alone are
/// left out; any others show.
fn outcome(status: u32, numbers: &[u32], lists: Vec<Vec<i64>>) -> Outcome {
    let untouched = numbers.iter().all(|number| *number == UNTOUCHED);
    let numbers = match status != 0 && untouched {
        true => vec![],
        false => wide(numbers),
    };
    Outcome {
        status,
        numbers,
        lists,
    }
}

/// The outcome of a call for one symbol or number, from the list that was
/// filled for six of it. If all six came out the same, that is the number given
/// back; otherwise more of them show. A list that a refusal left alone gives
/// none.
fn outcome_of_six(status: u32, mut list: Vec<i64>) -> Outcome {
    list.dedup();
    if status != 0 && list == [i64::from(UNTOUCHED_PLACE)] {
        list.clear();
    }
    Outcome {
        status,
        numbers: list,
        lists: vec![],
    }
}
