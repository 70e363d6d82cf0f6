//! What messages mean: all of them; bells about the ends of registers and about
//! the largest, 47; and cards with a bell over it.

use super::{body_of, check_listing, expect_known, far_card, outcome, whole_cards};
use compare::book::LISTING_MAX;
use compare::call::Call;
use compare::code::Card;
use compare::lent::UNTOUCHED;
use compare::library::Library;
use compare::random::Random;
use compare::samples;

/// Each bell about the end of a register or the largest, with values 0 and 1 of
/// its message if the force is 0.
const EDGE_BELLS: [(u16, [u16; 2]); 9] = [
    (0, [0, 0]),
    (26, [26, 0]),
    (27, [0, 9]),
    (46, [19, 9]),
    (47, [20, 9]),
    (48, [21, 9]),
    (53, [26, 9]),
    (54, [0, 18]),
    (80, [26, 18]),
];

fn press<L: Library>(message: [u16; 4]) -> Card {
    let mut word = [0; 6];
    assert_eq!(L::encode(2, &message, &mut word), 0, "{message:?}");
    word
}

fn read(body: &[u8], number: u32) -> Call {
    let body = body.to_vec();
    Call::ReadCard { number, body }
}

/// The book of one tune of these strikes, or the refusal.
fn write<L: Library>(strikes: &[[u16; 3]]) -> Result<Vec<u8>, u32> {
    let mut book = vec![0; 10 + 12 * strikes.len()];
    let count = strikes.len() as u16;
    match L::write_book(&[1], &[count], strikes.as_flattened(), &mut book) {
        0 => Ok(book),
        refusal => Err(refusal),
    }
}

/// All messages. Those with the same bell and force are one body, with every
/// delay in order.
pub fn all_messages<L: Library>() {
    for register in 0..3 {
        for first in 0..27 {
            for force in 0..9 {
                let bell = 27 * register + first;
                check_delays::<L>(first, 9 * register + force, bell, force);
            }
        }
    }
}

/// Every delay, after two values that mean a bell and a force: each card is read
/// as its strike and the strikes are written as the same cards, if there is
/// the bell; else all cards are refused, and so are the strikes.
fn check_delays<L: Library>(first: u16, second: u16, bell: u16, force: u16) {
    let delays = (0..27).flat_map(|high| (0..27).map(move |low| [high, low]));
    let cards: Vec<Card> = delays
        .map(|[high, low]| press::<L>([first, second, high, low]))
        .collect();
    let body = samples::body(&cards);
    let is_read = bell <= 47;
    for delay in 0..729 {
        let mut answer = [UNTOUCHED; 4];
        let status = L::read_card(&body, delay + 1, &mut answer);
        let known = match is_read {
            true => (0, [bell.into(), force.into(), delay, 0]),
            false => (13, [UNTOUCHED; 4]),
        };
        assert_eq!((status, answer), known, "{first} {second} {delay}");
    }
    let strikes: Vec<[u16; 3]> = (0..729).map(|delay| [bell, force, delay]).collect();
    let written = write::<L>(&strikes).map(|book| book[10..].to_vec());
    assert_eq!(written, is_read.then_some(body.clone()).ok_or(10));
    let length = is_read.then_some((0..729).sum()).ok_or(13);
    let [damaged, weight] = if is_read { [0, 0] } else { [1, 64 * 3] };
    // Without the reference, which would take its time for all these cards.
    for (call, known) in [
        (
            Call::TotalDelay { body: body.clone() },
            length.map(|ticks| vec![ticks]),
        ),
        (Call::DamagedCard { body: body.clone() }, Ok(vec![damaged])),
        (Call::Wear { width: 64, body }, Ok(vec![weight, 1])),
    ] {
        call.expect::<L>(&outcome(known));
    }
}

/// Cards and strikes of the bells at edges, with each force; and the force that
/// there is not.
pub fn edges<L: Library>() {
    let mut random = Random::new(6_000);
    for (bell, [first, second]) in EDGE_BELLS {
        for force in 0..=8 {
            let [high, low] = [0, 1].map(|_| random.below(27) as u16);
            let word = press::<L>([first, second + force, high, low]);
            let delay = 27 * high + low;
            for damage in 0..=2 {
                let card = samples::damaged(&mut random, &word, damage);
                let strike = [bell, force, delay].map(u32::from);
                let known = match bell > 47 {
                    true => Err(13),
                    false => Ok([&strike[..], &[damage]].concat()),
                };
                expect_known::<L>(read(&samples::body(&[card]), 1), known);
            }
            let known = match bell > 47 {
                true => Err(10),
                false => Ok(samples::body(&[word])),
            };
            let written = write::<L>(&[[bell, force, delay]]);
            assert_eq!(written.map(|book| book[10..].to_vec()), known);
        }
        for force in [9, 10, 17, 26] {
            assert_eq!(write::<L>(&[[bell, force, 0]]), Err(10));
        }
    }
}

/// A card with a bell over the largest is refused with 13 if it can be mended,
/// with 4 if it cannot, and with 3 if a symbol of it is out of range.
pub fn over_the_largest<L: Library>() {
    let mut random = Random::new(6_100);
    for turn in 0..2_000 {
        let sent = samples::sent_no_bell(&mut random, turn % 3);
        let far = far_card(&mut random, &sent.word);
        for (card, refusal) in [(sent.word, 13), (sent.received, 13), (far, 4)] {
            check_refused::<L>(card, refusal);
            let mut outside = card;
            outside[random.below(6) as usize] = 729 + random.below(64_807) as u16;
            check_refused::<L>(outside, 3);
        }
    }
}

/// A card that is refused: it leaves no length, is damaged, and weighs 3.
fn check_refused<L: Library>(card: Card, refusal: u32) {
    let body = samples::body(&[card]);
    expect_known::<L>(read(&body, 1), Err(refusal));
    expect_known::<L>(Call::TotalDelay { body: body.clone() }, Err(refusal));
    expect_known::<L>(Call::DamagedCard { body: body.clone() }, Ok(vec![1]));
    expect_known::<L>(Call::Wear { width: 1, body }, Ok(vec![3, 1]));
}

/// What is no body, and a card that there is not, come before what is wrong with
/// the card.
pub fn other_refusals<L: Library>() {
    let mut random = Random::new(6_200);
    for count in 1..20 {
        let sent = samples::sent_no_bell(&mut random, 0);
        let body = samples::body(&vec![sent.word; count]);
        let count = count as u32;
        for number in [0, 1, count, count + 1, u32::MAX] {
            let status = match (1..=count).contains(&number) {
                true => 13,
                false => 9,
            };
            expect_known::<L>(read(&body, number), Err(status));
            expect_known::<L>(read(&body[1..], number), Err(2));
            expect_known::<L>(read(&[&body[..], &[0]].concat(), number), Err(2));
        }
    }
}

/// One card with a bell over the largest, in each place of a body of others that
/// are read: those are read still. It has no length, and the card is the damaged
/// one and the heaviest.
pub fn in_bodies<L: Library>() {
    let mut random = Random::new(6_300);
    let before = random.bytes(LISTING_MAX);
    let whole = whole_cards(&mut random, 100);
    for count in 1..=20 {
        for place in 0..count {
            let damage = random.below(3) as u32;
            let card = samples::sent_no_bell(&mut random, damage).received;
            let mut body = body_of(&mut random, &whole, count);
            body[12 * place..][..12].copy_from_slice(&samples::body(&[card]));
            for number in 1..=count {
                let status = if number == place + 1 { 13 } else { 0 };
                let call = read(&body, number as u32);
                assert_eq!(call.expected().status, status, "{call:?}");
                call.check::<L>();
            }
            let number = place as u32 + 1;
            check_listing::<L>(&samples::book(&[(7, body.clone())]), &before);
            expect_known::<L>(Call::TotalDelay { body: body.clone() }, Err(13));
            expect_known::<L>(Call::DamagedCard { body: body.clone() }, Ok(vec![number]));
            expect_known::<L>(Call::Wear { width: 1, body }, Ok(vec![3, number]));
        }
    }
}
