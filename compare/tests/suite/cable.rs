//! Levels on the tower cable: all symbols, all numbers, all samples, and wrong
//! lengths.

use super::{cards, decode_call, lengths};
use compare::call::{wide, Call, Outcome};
use compare::code::Card;
use compare::digits::Digits;
use compare::field::Element;
use compare::library::Library;
use compare::random::Random;
use compare::rank::symbols;
use compare::samples::{self, junk, signed_junk};

/// Samples next to the thresholds, and the least and the greatest, with the
/// digits that they stand for.
const EDGE_SAMPLES: [(i16, u64); 6] = [
    (-32_768, 2),
    (-8_192, 2),
    (-8_191, 0),
    (8_191, 0),
    (8_192, 1),
    (32_767, 1),
];

/// The numbers that symbols have.
const NUMBERS: std::ops::RangeInclusive<i16> = -364..=364;

fn levels_call(random: &mut Random, card: &[u16]) -> Call {
    Call::Levels {
        card: card.to_vec(),
        levels: signed_junk(random, 6),
    }
}

fn symbols_call(random: &mut Random, levels: &[i16]) -> Call {
    Call::Symbols {
        levels: levels.to_vec(),
        card: junk(random, 6),
    }
}

fn receive_call(random: &mut Random, samples: &[i16]) -> Call {
    Call::Receive {
        samples: samples.to_vec(),
        card: junk(random, 6),
    }
}

/// The outcome of a call that fills a list.
fn filled<T: Copy + Into<i64>>(list: &[T]) -> Outcome {
    Outcome {
        status: 0,
        numbers: vec![],
        lists: vec![wide(list)],
    }
}

/// The numbers that an implementation gives for a card.
fn numbers_of<L: Library>(card: Card) -> [i16; 6] {
    let mut levels = [0; 6];
    assert_eq!(L::levels(&card, &mut levels), 0, "{card:?}");
    levels
}

/// Six symbols that follow each other.
fn following(first: u16) -> Card {
    std::array::from_fn(|place| (first + place as u16) % 729)
}

/// So many numbers from -most to most.
fn numbers(random: &mut Random, count: usize, most: i16) -> Vec<i16> {
    let numbers = random.numbers(count, 2 * most as u16 + 1);
    let signed = |number: u16| (i32::from(number) - i32::from(most)) as i16;
    numbers.into_iter().map(signed).collect()
}

/// All numbers of 16 bits as a symbol, alone and in each place of a card.
pub fn all_symbols<L: Library>() {
    let mut random = Random::new(4_000);
    for symbol in 0..=u16::MAX {
        let call = Call::Signed { symbol };
        assert_eq!(call.expected().status, if symbol > 728 { 3 } else { 0 });
        call.check::<L>();
        for place in 0..6 {
            let mut card = samples::card(&mut random);
            card[place] = symbol;
            levels_call(&mut random, &card).check::<L>();
        }
    }
}

/// All numbers, alone and in each place of a list: among zeros, and those that
/// symbols have also among others.
pub fn all_numbers<L: Library>() {
    let mut random = Random::new(4_100);
    for number in i16::MIN..=i16::MAX {
        let inside = NUMBERS.contains(&number);
        let call = Call::Symbol { number };
        assert_eq!(call.expected().status, if inside { 0 } else { 3 });
        call.check::<L>();
        for place in 0..6 {
            let mut levels = vec![0; 6];
            levels[place] = number;
            symbols_call(&mut random, &levels).check::<L>();
            if inside {
                levels = numbers(&mut random, 6, 364);
                levels[place] = number;
                symbols_call(&mut random, &levels).check::<L>();
            }
        }
    }
}

/// Any symbols, and any numbers: all, most or few in their range.
pub fn any_lists<L: Library>() {
    let mut random = Random::new(4_200);
    for (symbols, most) in [(729, 364), (740, 370), (900, 450), (u16::MAX, i16::MAX)] {
        for _ in 0..5_000 {
            let card = random.numbers(6, symbols);
            levels_call(&mut random, &card).check::<L>();
            let levels = numbers(&mut random, 6, most);
            symbols_call(&mut random, &levels).check::<L>();
        }
    }
}

/// The two ways undo each other, for all symbols and all numbers in each
/// place.
pub fn there_and_back<L: Library>() {
    let mut random = Random::new(4_300);
    for first in 0..729 {
        let card = following(first);
        let levels = numbers_of::<L>(card);
        assert!(levels.iter().all(|number| NUMBERS.contains(number)));
        symbols_call(&mut random, &levels).expect::<L>(&filled(&card));

        let levels = following(first).map(|number| number as i16 - 364);
        let mut card = [0; 6];
        assert_eq!(L::symbols(&levels, &mut card), 0, "{levels:?}");
        levels_call(&mut random, &card).expect::<L>(&filled(&levels));
    }
}

/// The field's negative of a symbol has the negated number.
pub fn negatives<L: Library>() {
    for first in 0..729 {
        let card = following(first);
        let negative = card.map(|symbol| (-Element::of_symbol(symbol)).symbol());
        let negated = numbers_of::<L>(card).map(|number| -number);
        assert_eq!(numbers_of::<L>(negative), negated, "{card:?}");
    }
}

/// Each edge sample in each place, with the others at rest, all plus, all
/// minus, and any.
pub fn thresholds<L: Library>() {
    let mut random = Random::new(4_400);
    for (sample, digit) in EDGE_SAMPLES {
        for place in 0..36 {
            for turn in 0..20 {
                let mut digits = match turn {
                    0..=2 => vec![turn; 36],
                    _ => (0..36).map(|_| random.below(3)).collect(),
                };
                digits[place] = digit;
                let card = card_of(&digits);
                let mut samples = samples::on_cable(&mut random, &card);
                samples[place] = sample;
                let call = receive_call(&mut random, &samples);
                assert_eq!(call.expected(), filled(&card), "{call:?}");
                call.expect::<L>(&filled(&card));
            }
        }
    }
}

/// The card with these digits.
fn card_of(digits: &[u64]) -> Card {
    let digit = |(place, digit): (u32, &u64)| Digits::of_number(*digit).shift_up(place);
    symbols((0..).zip(digits).map(digit).sum())
}

/// All samples, each in some place, among any others and among rests.
pub fn all_samples<L: Library>() {
    let mut random = Random::new(4_500);
    for sample in i16::MIN..=i16::MAX {
        let place = random.below(36) as usize;
        for mut samples in [signed_junk(&mut random, 36), vec![0; 36]] {
            samples[place] = sample;
            receive_call(&mut random, &samples).check::<L>();
        }
    }
}

/// A card that was sent is received, and then decodes as it would have done.
pub fn sent_and_decoded<L: Library>() {
    let mut random = Random::new(4_600);
    for k in 1..=5 {
        for card in cards(&mut random, k, 500) {
            let samples = samples::on_cable(&mut random, &card);
            receive_call(&mut random, &samples).expect::<L>(&filled(&card));
            let mut received = [0; 6];
            assert_eq!(L::receive(&samples, &mut received), 0);
            let decode = |card: &Card| decode_call(&mut Random::new(1), k, card.to_vec());
            decode(&received).expect::<L>(&decode(&card).expected());
        }
    }
}

/// Wrong lengths, whether symbols and numbers are in their range or not.
pub fn wrong_lengths<L: Library>() {
    let mut random = Random::new(4_700);
    for read in lengths() {
        for written in lengths() {
            for (symbols, most) in [(729, 364), (2_000, 1_000)] {
                Call::Levels {
                    card: random.numbers(read, symbols),
                    levels: signed_junk(&mut random, written),
                }
                .check::<L>();
                Call::Symbols {
                    levels: numbers(&mut random, read, most),
                    card: junk(&mut random, written),
                }
                .check::<L>();
            }
        }
    }
    for read in (0..=80).chain([256, 256 + 36, 65_536, 65_536 + 36]) {
        for written in lengths() {
            Call::Receive {
                samples: signed_junk(&mut random, read),
                card: junk(&mut random, written),
            }
            .check::<L>();
        }
    }
}
