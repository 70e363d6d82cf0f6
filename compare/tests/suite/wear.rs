//! Wear: all widths, bodies of many lengths with few and with many worn cards,
//! runs that weigh the same, and every boundary.

use super::{body_of, expect_known, kinds, strike_cards, whole_cards, KINDS};
use compare::book::LONGEST_BODY;
use compare::call::Call;
use compare::code::Card;
use compare::library::Library;
use compare::random::Random;
use compare::samples;
use std::cmp::Reverse;

/// Widths that are refused for every body. Some are right in their low 8 or 16
/// bits, or after a product by the 12 bytes of a card.
const WRONG_WIDTHS: [u32; 20] = [
    0,
    65,
    66,
    127,
    128,
    256,
    256 + 1,
    256 + 64,
    5_461,
    65_535,
    65_536,
    65_536 + 8,
    u32::MAX / 12 + 1,
    1 << 30,
    (1 << 30) + 1,
    1 << 31,
    (1 << 31) + 1,
    u32::MAX - 63,
    u32::MAX - 1,
    u32::MAX,
];

/// What a card of each of the `kinds` weighs.
const WEIGHTS: [u32; KINDS] = [0, 1, 2, 3, 3, 3];

fn call(body: &[u8], width: u32) -> Call {
    let body = body.to_vec();
    Call::Wear { width, body }
}

/// All widths that are right for some body, and wrong ones.
fn check_widths<L: Library>(body: &[u8]) {
    for width in (1..=64).chain(WRONG_WIDTHS) {
        call(body, width).check::<L>();
    }
}

/// A body of so many cards, one in `one_in` of which is worn.
fn worn_body(
    random: &mut Random,
    whole: &[Card],
    worn: &[Card],
    count: usize,
    one_in: u64,
) -> Vec<u8> {
    let card = |_| match random.chance(one_in) {
        true => *random.pick(worn),
        false => *random.pick(whole),
    };
    samples::body(&(0..count).map(card).collect::<Vec<Card>>())
}

/// A card of each of the `kinds`.
fn cards_of_kinds(random: &mut Random) -> [Card; KINDS] {
    kinds(random).map(|(card, _)| card)
}

/// A body of such cards, by their kinds.
fn body_of_kinds(cards: &[Card; KINDS], kinds: &[usize]) -> Vec<u8> {
    let picked: Vec<Card> = kinds.iter().map(|kind| cards[*kind]).collect();
    samples::body(&picked)
}

/// The sum and the first card for cards of these kinds, by the weights of all
/// beginnings of the body.
fn known(kinds: &[usize], width: usize) -> Result<Vec<u32>, u32> {
    if width == 0 || width > 64.min(kinds.len()) {
        return Err(12);
    }
    let mut beginnings = vec![0];
    for kind in kinds {
        beginnings.push(beginnings[beginnings.len() - 1] + WEIGHTS[*kind]);
    }
    let runs = beginnings.iter().zip(&beginnings[width..]);
    let sums = runs.map(|(start, end)| end - start).zip((1..).map(Reverse));
    let (sum, Reverse(first)) = sums.max().expect("a run");
    Ok(vec![sum, first])
}

/// Bodies of many lengths, of random cards.
pub fn all_widths<L: Library>() {
    let mut random = Random::new(5_000);
    let whole = whole_cards(&mut random, 100);
    let mut worn = strike_cards(&mut random, 200);
    worn.extend((0..200).map(|turn| samples::sent_strike(&mut random, 1 + turn % 2).received));
    let counts = (0..=10).chain([16, 31, 62, 63, 64, 65, 66, 67, 100, 127, 128, 129, 200]);
    for count in counts {
        for one_in in [1, 2, 5, 20, 100] {
            for _ in 0..4 {
                let body = worn_body(&mut random, &whole, &worn, count, one_in);
                check_widths::<L>(&body);
            }
        }
    }
}

/// Bodies of four cards, of all kinds in every order; and longer ones.
pub fn known_weights<L: Library>() {
    let mut random = Random::new(5_100);
    for order in 0..KINDS.pow(4) {
        let cards = cards_of_kinds(&mut random);
        let kinds = [0, 1, 2, 3].map(|place| order / KINDS.pow(place) % KINDS);
        let body = body_of_kinds(&cards, &kinds);
        for width in 0..=5 {
            let known = known(&kinds, width as usize);
            expect_known::<L>(call(&body, width), known);
        }
    }
    for turn in 0..400 {
        let cards = cards_of_kinds(&mut random);
        let count = random.below(150) as usize;
        // No whole cards, or up to a half of them.
        let picked = &[1, 2, 3, 4, 5, 0, 0, 0, 0, 0][..5 + turn % 6];
        let kinds: Vec<usize> = (0..count).map(|_| *random.pick(picked)).collect();
        let body = body_of_kinds(&cards, &kinds);
        for width in [0, 1, 2, 3, 8, 20, 63, 64, 65] {
            let known = known(&kinds, width as usize);
            expect_known::<L>(call(&body, width), known);
        }
    }
}

/// One worn card among whole ones: the first run that has it is given.
fn check_one_card<L: Library>(cards: &[Card; KINDS], kind: usize, place: usize, count: usize) {
    let mut kinds = vec![0; count];
    kinds[place] = kind;
    let body = body_of_kinds(cards, &kinds);
    for width in [1, 2, 8, 63, 64] {
        let first = (place + 2).saturating_sub(width).max(1);
        let known = vec![WEIGHTS[kind], first as u32];
        expect_known::<L>(call(&body, width as u32), Ok(known));
    }
}

/// A worn card of each kind in each place.
pub fn one_card<L: Library>() {
    let mut random = Random::new(5_200);
    let cards = cards_of_kinds(&mut random);
    for count in [64, 65, 70, 130] {
        for kind in 1..KINDS {
            for place in 0..count {
                check_one_card::<L>(&cards, kind, place, count);
            }
        }
    }
}

/// Cards that all weigh the same: the first run is given.
pub fn equal_cards<L: Library>() {
    let mut random = Random::new(5_300);
    let cards = cards_of_kinds(&mut random);
    for kinds in [&[0][..], &[1], &[2], &[3], &[4], &[5], &[3, 4], &[4, 5, 3]] {
        let weight = WEIGHTS[kinds[0]];
        for count in [1, 2, 8, 9, 64, 65, 66, 100] {
            let kinds: Vec<usize> = kinds.iter().copied().cycle().take(count).collect();
            let body = body_of_kinds(&cards, &kinds);
            for width in 1..=count.min(64) as u32 {
                let known = vec![width * weight, 1];
                expect_known::<L>(call(&body, width), Ok(known));
            }
        }
    }
}

/// The same run twice, with whole cards before, between and after: no other
/// run of its width weighs more, and none before it as much.
pub fn equal_runs<L: Library>() {
    let mut random = Random::new(5_400);
    let cards = cards_of_kinds(&mut random);
    for run in [&[1][..], &[2], &[3], &[1, 1], &[2, 5], &[3, 0, 1], &[1; 8]] {
        let sum = run.iter().map(|kind| WEIGHTS[*kind]).sum();
        for gaps in gaps() {
            let [before, between, after] = gaps.map(|count| vec![0; count]);
            let kinds = [&before[..], run, &between, run, &after].concat();
            let body = body_of_kinds(&cards, &kinds);
            let known = vec![sum, 1 + before.len() as u32];
            expect_known::<L>(call(&body, run.len() as u32), Ok(known));
        }
    }
}

/// Counts of cards before, between and after two runs.
fn gaps() -> impl Iterator<Item = [usize; 3]> {
    const COUNTS: [usize; 7] = [0, 1, 2, 7, 8, 63, 64];
    (0..7 * 7 * 7).map(|n| [n / 49, n / 7 % 7, n % 7].map(|place| COUNTS[place]))
}

/// Bodies of every short length and about those of the widest runs, with right
/// and with wrong widths: what is no body is refused first.
pub fn wrong_lengths<L: Library>() {
    let mut random = Random::new(5_500);
    let cards = strike_cards(&mut random, 100);
    for len in (0..=120).chain(12 * 63 - 1..=12 * 65 + 1) {
        let mut body = body_of(&mut random, &cards, 66);
        body.truncate(len);
        let count = len as u32 / 12;
        let widths = [1, 2, 8, 63, 64, count, count + 1];
        for width in widths.into_iter().chain(WRONG_WIDTHS) {
            let call = call(&body, width);
            let expected = call.expected();
            assert_eq!(expected.status == 2, len % 12 > 0, "{call:?}");
            call.expect::<L>(&expected);
        }
    }
}

/// Bodies about the largest.
pub fn large_bodies<L: Library>() {
    let mut random = Random::new(5_600);
    let longest = LONGEST_BODY / 12;
    let whole = whole_cards(&mut random, 200);
    let worn = strike_cards(&mut random, 200);
    let cards = cards_of_kinds(&mut random);
    let mut bodies = vec![
        body_of_kinds(&cards, &vec![3; longest]),
        body_of_kinds(&cards, &vec![4; longest]),
        body_of_kinds(&cards, &vec![5; longest]),
        body_of(&mut random, &worn, longest + 1),
    ];
    for one_in in [1, 5, 100, 2_000] {
        bodies.push(worn_body(&mut random, &whole, &worn, longest, one_in));
    }
    for extra in [1, 11, 12, LONGEST_BODY] {
        bodies.push(vec![0; LONGEST_BODY + extra]);
    }
    bodies.push(vec![0; LONGEST_BODY - 1]);
    for body in bodies {
        for width in [1, 2, 8, 63, 64].into_iter().chain(WRONG_WIDTHS) {
            call(&body, width).check::<L>();
        }
    }
    for place in [0, 63, 64, 255, 256, 4_095, 4_096, longest - 64, longest - 1] {
        check_one_card::<L>(&cards, 1 + place % 5, place, longest);
    }
}
