//! Decoding with dead lines: all masks, live damage of every rank, and every
//! boundary.

use super::{cards, lengths, with_edges, EDGE_SYMBOLS, WRONG_K};
use compare::call::{wide, Call, Outcome};
use compare::code::Card;
use compare::library::Library;
use compare::random::Random;
use compare::rank::{square, symbols};
use compare::samples::{self, junk, Masks};

/// Masks that are refused. Some are right in their low 6, 8 or 16 bits.
const WRONG_MASKS: [u32; 17] = [
    64,
    65,
    96,
    127,
    128,
    129,
    255,
    256,
    257,
    256 + 63,
    65_535,
    65_536,
    65_537,
    1 << 31,
    (1 << 31) + 1,
    u32::MAX - 63,
    u32::MAX,
];

fn call(random: &mut Random, k: u32, dead: Masks, received: &[u16]) -> Call {
    Call::DecodeDead {
        k,
        dead_rows: dead[0],
        dead_columns: dead[1],
        received: received.to_vec(),
        word: junk(random, 6),
        message: junk(random, 2 * k as usize),
    }
}

/// The outcome of a call that finds the word of a card.
fn found(sent: samples::Sent, rank: u32) -> Outcome {
    Outcome {
        status: 0,
        numbers: wide(&[rank]),
        lists: vec![wide(&sent.word), wide(&sent.message)],
    }
}

/// For all masks that are allowed: damage in live lines of every rank up to
/// one too many, with anything in dead lines, or nothing, or zeros; and cards
/// of all kinds.
pub fn all_masks<L: Library>(k: u32) {
    let mut random = Random::new(3_000 + u64::from(k));
    for dead in samples::allowed_masks(k) {
        let mut cards: Vec<Card> = vec![
            [0; 6],
            samples::card(&mut random),
            samples::card(&mut random),
            samples::sparse_card(&mut random),
            samples::small_field_damage(&mut random, k),
        ];
        for damage in 0..=samples::live_radius(k, dead) + 1 {
            for _ in 0..4 {
                let sent = samples::sent_dead(&mut random, k, dead, damage);
                cards.push(sent.received);
            }
            let sent = samples::sent_dead(&mut random, k, dead, damage);
            let (word, received) = (square(&sent.word), square(&sent.received));
            let live = samples::live_part(received, dead);
            cards.push(symbols(live));
            cards.push(symbols(live + samples::dead_part(word, dead)));
        }
        for card in cards {
            call(&mut random, k, dead, &card).check::<L>();
        }
    }
}

/// Against the words that were damaged: within the bound there is no other.
pub fn known<L: Library>() {
    let mut random = Random::new(3_100);
    for k in 1..=5 {
        for dead in samples::allowed_masks(k) {
            for damage in 0..=samples::live_radius(k, dead) {
                for _ in 0..20 {
                    let sent = samples::sent_dead(&mut random, k, dead, damage);
                    let call = call(&mut random, k, dead, &sent.received);
                    call.expect::<L>(&found(sent, damage));
                }
            }
        }
    }
}

/// What is in dead lines does not matter.
pub fn dead_digits<L: Library>() {
    let mut random = Random::new(3_200);
    for k in 1..=5 {
        for dead in samples::allowed_masks(k) {
            for turn in 0..samples::live_radius(k, dead) + 3 {
                let card = match turn {
                    0 => samples::card(&mut random),
                    _ => samples::sent_dead(&mut random, k, dead, turn - 1).received,
                };
                let outcome = call(&mut Random::new(1), k, dead, &card).run::<L>();
                let other = square(&samples::card(&mut random));
                let other =
                    samples::live_part(square(&card), dead) + samples::dead_part(other, dead);
                call(&mut Random::new(1), k, dead, &symbols(other)).expect::<L>(&outcome);
            }
        }
    }
}

/// With no dead line it is the same as `decode`.
pub fn no_line<L: Library>() {
    let mut random = Random::new(3_300);
    for k in 1..=5 {
        for card in cards(&mut random, k, 4_000) {
            let (word, message) = (junk(&mut random, 6), junk(&mut random, 2 * k as usize));
            let decode = Call::Decode {
                k,
                received: card.to_vec(),
                word: word.clone(),
                message: message.clone(),
            };
            let call = Call::DecodeDead {
                k,
                dead_rows: 0,
                dead_columns: 0,
                received: card.to_vec(),
                word,
                message,
            };
            call.expect::<L>(&decode.expected());
            call.expect::<L>(&decode.run::<L>());
        }
    }
}

/// All pairs of masks: 11 is given exactly if too many lines are dead, whether
/// a word is near or not.
pub fn too_many_lines<L: Library>() {
    let mut random = Random::new(3_400);
    for k in 1..=5 {
        for number in 0..64 * 64 {
            let dead = [number / 64, number % 64];
            let sent = samples::sent(&mut random, k, 0);
            for card in [sent.word, samples::card(&mut random)] {
                let call = call(&mut random, k, dead, &card);
                let status = call.run::<L>().status;
                let too_many = samples::dead_lines(dead) > 6 - k;
                assert_eq!(status == 11, too_many, "{call:?}");
                if too_many {
                    call.check::<L>();
                }
            }
        }
    }
}

/// Masks over 63, of rows, of columns and of both, whether too many lines
/// would be dead or not.
pub fn wrong_masks<L: Library>() {
    let mut random = Random::new(3_500);
    for k in 1..=5 {
        for wrong in WRONG_MASKS {
            for other in [0, 1, 32, 63].into_iter().chain(WRONG_MASKS) {
                for dead in [[wrong, other], [other, wrong]] {
                    let sent = samples::sent(&mut random, k, 0);
                    let call = call(&mut random, k, dead, &sent.word);
                    assert_eq!(call.expected().status, 3, "{call:?}");
                    call.check::<L>();
                }
            }
        }
        // The largest mask that is none too large.
        for dead in [[63, 0], [0, 63], [63, 63]] {
            let call = call(&mut random, k, dead, &[0; 6]);
            assert_eq!(call.expected().status, 11, "{call:?}");
            call.check::<L>();
        }
    }
}

pub fn edge_symbols<L: Library>() {
    let mut random = Random::new(3_600);
    for k in 1..=5 {
        let masks = samples::allowed_masks(k);
        for dead in [[0, 0], [63, 63], [64, 0]]
            .iter()
            .chain(masks.iter().step_by(11))
        {
            let card = samples::card(&mut random);
            with_edges(&card, &EDGE_SYMBOLS, |card| {
                call(&mut Random::new(1), k, *dead, &card).check::<L>()
            });
        }
    }
}

/// What can be wrong with a call, in the order of the tests, and the refusal
/// for each.
#[derive(Clone, Copy)]
enum Fault {
    Parameter,
    Received,
    Word,
    Message,
    Symbol,
    Mask,
    Lines,
    Hopeless,
}

const FAULTS: [(Fault, u32); 8] = [
    (Fault::Parameter, 1),
    (Fault::Received, 2),
    (Fault::Word, 2),
    (Fault::Message, 2),
    (Fault::Symbol, 3),
    (Fault::Mask, 3),
    (Fault::Lines, 11),
    (Fault::Hopeless, 4),
];

/// Every set of faults: the first of them gives the refusal.
pub fn faults<L: Library>() {
    let mut random = Random::new(3_700);
    for set in 0..1 << FAULTS.len() {
        let has = |fault: Fault| set >> fault as u32 & 1 == 1;
        let first = FAULTS.iter().find(|(fault, _)| has(*fault));
        let status = first.map_or(0, |(_, refusal)| *refusal);
        for turn in 0..100 {
            let call = faulty_call(&mut random, 1 + turn % 5, has);
            let expected = call.expected();
            assert_eq!(expected.status, status, "{call:?}");
            call.expect::<L>(&expected);
        }
    }
}

fn faulty_call(random: &mut Random, k: u32, has: impl Fn(Fault) -> bool) -> Call {
    let mut dead = masks(random, k, has(Fault::Hopeless));
    let mut received = match has(Fault::Hopeless) {
        true => hopeless_card(random, k, dead).to_vec(),
        false => {
            let damage = random.below(u64::from(samples::live_radius(k, dead)) + 1);
            let sent = samples::sent_dead(random, k, dead, damage as u32);
            sent.received.to_vec()
        }
    };
    if has(Fault::Lines) {
        while samples::dead_lines(dead) <= 6 - k {
            let lines = &mut dead[random.below(2) as usize];
            *lines |= 1 << random.below(6);
        }
    }
    if has(Fault::Mask) {
        let wrong = *random.pick(&[64, 128, 1 << 15, 1 << 16, 1 << 31]);
        dead[random.below(2) as usize] |= wrong;
    }
    if has(Fault::Symbol) {
        received[random.below(6) as usize] = *random.pick(&[729, 730, 1_024, 65_535]);
    }
    let [mut word, mut message] = [6, 2 * k as usize].map(|len| junk(random, len));
    let lists = [
        (Fault::Received, &mut received),
        (Fault::Word, &mut word),
        (Fault::Message, &mut message),
    ];
    for (fault, list) in lists {
        if has(fault) {
            let len = match random.chance(2) {
                true => list.len() - 1 - random.below(2) as usize,
                false => list.len() + 1 + random.below(7) as usize,
            };
            list.resize(len, 0);
        }
    }
    Call::DecodeDead {
        k: if has(Fault::Parameter) {
            *random.pick(&WRONG_K)
        } else {
            k
        },
        dead_rows: dead[0],
        dead_columns: dead[1],
        received,
        word,
        message,
    }
}

/// Masks that are allowed, and with which some card is hopeless if that is
/// wanted: there is none if as many rows as possible are dead, or as many
/// columns.
fn masks(random: &mut Random, k: u32, hopeless: bool) -> Masks {
    let masks = samples::allowed_masks(k);
    loop {
        let dead = *random.pick(&masks);
        let only = dead[0] == 0 || dead[1] == 0;
        if !(hopeless && only && samples::dead_lines(dead) == 6 - k) {
            return dead;
        }
    }
}

fn hopeless_card(random: &mut Random, k: u32, dead: Masks) -> Card {
    loop {
        let card = samples::card(random);
        if call(random, k, dead, &card).expected().status == 4 {
            return card;
        }
    }
}

pub fn wrong_lengths<L: Library>() {
    let mut random = Random::new(3_800);
    let mut check = |k, lens: [usize; 3], bound| {
        let [dead_rows, dead_columns] = match random.below(4) {
            0 => [63, 1],
            1 => [1, 64],
            2 => [0, 0],
            _ => [4, 0],
        };
        Call::DecodeDead {
            k,
            dead_rows,
            dead_columns,
            received: random.numbers(lens[0], bound),
            word: junk(&mut random, lens[1]),
            message: junk(&mut random, lens[2]),
        }
        .check::<L>()
    };
    for k in 1..=5 {
        for list in 0..3 {
            for len in lengths() {
                let mut lens = [6, 6, 2 * k as usize];
                lens[list] = len;
                check(k, lens, 729);
                check(k, lens, 1_000);
            }
        }
        for number in 0..1_000 {
            let lens = [number / 100, number / 10 % 10, number % 10].map(|digit| digit + 3);
            check(k, lens, 1_000);
        }
    }
    for k in WRONG_K {
        for message_len in 0..=13 {
            check(k, [6, 6, message_len], 1_000);
            check(k, [message_len, 5, 4], 1_000);
        }
    }
}
