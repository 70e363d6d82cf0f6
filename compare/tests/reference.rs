//! The reference alone: every case of the paper, and the facts that the paper
//! states of the field and the code. Needs no proved library.

use compare::book;
use compare::cable;
use compare::code::{decode, decode_by_messages, encode, radius, syndrome, weight, Card, Decoded};
use compare::dead::{self, decode_dead, Lines};
use compare::digits::Digits;
use compare::field::{of_small, small_number, Element};
use compare::random::Random;
use compare::rank::{rank, square, symbols, Square};
use compare::refusal::Refusal;
use compare::samples::{self, Masks, PAPER_CARDS};
use compare::strike;
use compare::text::{self, press, LONGEST_TEXT};
use compare::writer::{book_size, write_book, Tunes};
use std::collections::HashSet;

fn power_of_z(exponent: u32) -> u16 {
    Element::z().pow(exponent).symbol()
}

fn mend(k: u32, received: Card) -> Result<Decoded, Refusal> {
    decode(k, &received, 6, 2 * k as usize)
}

fn zero_word(k: u32, distance: u32) -> Result<Decoded, Refusal> {
    Ok(Decoded {
        word: [0; 6],
        message: vec![0; 2 * k as usize],
        distance,
    })
}

#[test]
fn field_cases() {
    assert_eq!([6, 8, 28].map(power_of_z), [103, 31, 650]);
    assert_eq!(Element::of_symbol(650).frobenius(1).symbol(), 649);
    assert_eq!([1, 3, 9].map(|c| of_small(c).symbol()), [1, 650, 137]);
}

#[test]
fn field_facts() {
    let powers: HashSet<u16> = (0..728).map(power_of_z).collect();
    assert_eq!(powers.len(), 728);
    assert_eq!(power_of_z(728), 1);
    assert_eq!(power_of_z(13), 377);
    // The norm of gamma = z.
    assert_eq!(power_of_z(364), 2);
    for symbol in 0..729 {
        let x = Element::of_symbol(symbol);
        assert_eq!(small_number(x).is_some(), x.pow(27) == x);
        assert_eq!(x.symbol(), symbol);
        if symbol > 0 {
            assert_eq!(x * x.inverse(), Element::one());
        }
    }
}

#[test]
fn encode_cases() {
    let cases: [(u32, &[u16], Card); 4] = [
        (1, &[1, 0], [1, 3, 9, 27, 81, 243]),
        (1, &[0, 1], [3, 81, 309, 279, 377, 56]),
        (2, &[0, 1, 0, 0], [1, 27, 103, 93, 633, 538]),
        (2, &[0, 0, 0, 1], [3, 279, 233, 650, 423, 163]),
    ];
    for (k, message, word) in cases {
        assert_eq!(encode(k, message, 6), Ok(word));
    }
}

#[test]
fn decode_cases() {
    assert_eq!(mend(1, [1, 3, 9, 0, 0, 0]), Err(Refusal::Undecodable));
    assert_eq!(mend(2, [1, 3, 0, 0, 0, 0]), zero_word(2, 2));
    assert_eq!(mend(3, [1, 3, 0, 0, 0, 0]), Err(Refusal::Undecodable));
    assert_eq!(mend(3, [1, 0, 0, 0, 0, 0]), zero_word(3, 1));
    assert_eq!(mend(4, [1; 6]), zero_word(4, 1));
    assert_eq!(mend(5, [1, 0, 0, 0, 0, 0]), Err(Refusal::Undecodable));
}

#[test]
fn boundary_cases() {
    for k in [0, 6, u32::MAX] {
        assert_eq!(encode(k, &[], 0), Err(Refusal::Parameter));
        assert_eq!(syndrome(k, &[], 0), Err(Refusal::Parameter));
        assert_eq!(decode(k, &[], 0, 0), Err(Refusal::Parameter));
    }
    assert_eq!(weight(&[728; 6]), Ok(1));
    assert_eq!(weight(&[729; 6]), Err(Refusal::Range));
    assert!(encode(1, &[26, 26], 6).is_ok());
    assert_eq!(encode(1, &[26, 27], 6), Err(Refusal::Range));
    assert_eq!(book::open(&[]), Ok(0));
    assert_eq!(book::open(&[0]), Err(Refusal::BookSize));
    assert_eq!(book::open(&[0, 0]), Ok(0));
    assert_eq!(book::open(&[0, 0, 0]), Err(Refusal::Layout));
}

#[test]
fn order_of_refusals() {
    for k in 1..=5 {
        let values = 2 * k as usize;
        assert_eq!(encode(k, &[27; 9], 6), Err(Refusal::Length));
        assert_eq!(encode(k, &vec![27; values], 5), Err(Refusal::Length));
        assert_eq!(encode(k, &vec![27; values], 6), Err(Refusal::Range));
        assert_eq!(syndrome(k, &[729; 6], 11), Err(Refusal::Length));
        assert_eq!(syndrome(k, &[729; 5], 12 - values), Err(Refusal::Length));
        assert_eq!(syndrome(k, &[729; 6], 12 - values), Err(Refusal::Range));
        assert_eq!(decode(k, &[729; 6], 7, values), Err(Refusal::Length));
        assert_eq!(decode(k, &[729; 6], 6, 11), Err(Refusal::Length));
        assert_eq!(decode(k, &[729; 6], 6, values), Err(Refusal::Range));
    }
    assert_eq!(weight(&[729; 5]), Err(Refusal::Length));
}

#[test]
fn listing_case() {
    let bytes = samples::book(&[(7, samples::body(&PAPER_CARDS))]);
    assert_eq!(bytes[..10], [0, 1, 0, 7, 0, 0, 0, 10, 0, 4]);
    let text = "tune 7 4\n1 1 0 0 0\n2 0 0 1 0\n3 1 0 0 1\n4 refused 3\nticks unknown\n";
    assert_eq!(book::listing(&bytes), text);

    let body = &bytes[book::tune_body(&bytes, 7).unwrap()];
    assert_eq!(book::damaged_card(body), Ok(Some(3)));
    assert_eq!(book::damaged_card(&body[..24]), Ok(None));
    assert_eq!(book::total_delay(body), Err(Refusal::Range));
    assert_eq!(book::total_delay(&body[..36]), Ok(1));
    assert_eq!(book::read_card(body, 0), Err(Refusal::NoSuchCard));
    assert_eq!(book::read_card(body, 5), Err(Refusal::NoSuchCard));
    assert_eq!(book::tune_body(&bytes, 8), Err(Refusal::NoSuchTune));
    assert_eq!(book::listing(&[0]), "book refused 5\n");
    assert_eq!(book::listing(&vec![0; 65_537]), "book refused 5\n");
    assert_eq!(book::listing(&[0, 0]), "");

    assert_eq!(book::tune_at(&bytes, 0), Ok([7, 4]));
    assert_eq!(book::tune_at(&bytes, 1), Err(Refusal::NoSuchTune));
    assert_eq!(book::tune_at(&[0, 0], 0), Err(Refusal::NoSuchTune));
    assert_eq!(book::tune_at(&[0], 0), Err(Refusal::BookSize));
    assert_eq!(book::list(&bytes, 131_072), Ok(text.to_string()));
    assert_eq!(book::list(&bytes, 131_071), Err(Refusal::Length));
    assert_eq!(book::list(&[0], 131_071), Err(Refusal::Length));
}

/// The longest listing fits: the most lines to a byte of the book are those
/// of tunes with one card, and these are longest if the card is refused for its
/// bell.
#[test]
fn longest_listing() {
    let book = samples::longest_listing();
    assert!(book.len() + 12 > book::LONGEST_BOOK);
    let text = book::listing(&book);
    assert!(text.contains("tune 9998 1\n1 refused 13\nticks unknown\n"));
    assert!(text.ends_with("tune 9999 2\n1 refused 13\n2 47 8 728 2\nticks unknown\n"));
    assert_eq!(text.len(), 39 * 3_276 + 13);
    assert!(text.len() <= book::LISTING_MAX);
}

/// The first refused card decides, whatever comes after it; and the body
/// comes before its cards.
#[test]
fn hole_case() {
    let (word, far, outside) = ([1, 3, 9, 27, 81, 243], [1, 3, 9, 0, 0, 0], [729; 6]);
    let no_bell = samples::strike_card([48, 0, 0]);
    let length = |cards: &[Card]| book::total_delay(&samples::body(cards));
    assert_eq!(length(&[word, no_bell, far]), Err(Refusal::NoSuchBell));
    assert_eq!(length(&[word, far, no_bell]), Err(Refusal::Undecodable));
    assert_eq!(length(&[no_bell, outside]), Err(Refusal::NoSuchBell));
    assert_eq!(length(&[outside, no_bell]), Err(Refusal::Range));
    assert_eq!(length(&[word, far, outside]), Err(Refusal::Undecodable));
    assert_eq!(length(&[word, outside, far]), Err(Refusal::Range));
    assert_eq!(length(&[word, word, far]), Err(Refusal::Undecodable));
    assert_eq!(length(&[far, word]), Err(Refusal::Undecodable));
    let body = samples::body(&[outside, word]);
    assert_eq!(book::total_delay(&body[..23]), Err(Refusal::Length));
}

/// The sum of the heaviest run, and its first card.
fn heaviest(body: &[u8], width: u32) -> Result<[u32; 2], Refusal> {
    book::wear(body, width).map(|run| [run.sum, run.first])
}

/// The cards of the paper's book weigh 0, 0, 1 and 3.
#[test]
fn wear_case() {
    let body = samples::body(&PAPER_CARDS);
    assert_eq!(heaviest(&body, 1), Ok([3, 4]));
    assert_eq!(heaviest(&body, 2), Ok([4, 3]));
    assert_eq!(heaviest(&body, 3), Ok([4, 2]));
    assert_eq!(heaviest(&body, 4), Ok([4, 1]));
    for width in [0, 5, 64, 65, u32::MAX] {
        assert_eq!(heaviest(&body, width), Err(Refusal::Width));
        assert_eq!(heaviest(&[], width), Err(Refusal::Width));
        assert_eq!(heaviest(&body[..47], width), Err(Refusal::Length));
    }
    assert_eq!(heaviest(&[], 1), Err(Refusal::Width));
    assert_eq!(heaviest(&body[..47], 1), Err(Refusal::Length));
    // Of runs that weigh the same, the first.
    assert_eq!(heaviest(&body[..24], 1), Ok([0, 1]));
    let twice = [&body[..], &body].concat();
    assert_eq!(heaviest(&twice, 1), Ok([3, 4]));
    assert_eq!(heaviest(&twice, 2), Ok([4, 3]));
    assert_eq!(heaviest(&twice, 6), Ok([8, 3]));
}

/// What is refused weighs 3, for each reason, and rank 2 less.
#[test]
fn weights_of_cards() {
    let [two, far, outside] = [[1, 3, 0, 0, 0, 0], [1, 3, 9, 0, 0, 0], [729; 6]];
    let body = samples::body(&[two, far, outside, two]);
    assert_eq!(heaviest(&body, 1), Ok([3, 2]));
    assert_eq!(heaviest(&body, 2), Ok([6, 2]));
    assert_eq!(heaviest(&body, 3), Ok([8, 1]));
    assert_eq!(heaviest(&body, 4), Ok([10, 1]));
    assert_eq!(heaviest(&body[12..], 1), Ok([3, 1]));
    assert_eq!(heaviest(&body[24..], 1), Ok([3, 1]));
    assert_eq!(heaviest(&body[36..], 1), Ok([2, 1]));
    let no_bell = samples::strike_card([48, 0, 0]);
    let body = samples::body(&[two, no_bell, far, two]);
    assert_eq!(heaviest(&body, 1), Ok([3, 2]));
    assert_eq!(heaviest(&body, 2), Ok([6, 2]));
    assert_eq!(heaviest(&body[12..24], 1), Ok([3, 1]));
}

#[test]
fn widest_runs() {
    let mut body = vec![0; 65_532];
    assert_eq!(heaviest(&body, 64), Ok([0, 1]));
    // A symbol out of range in the last card.
    body[65_530] = 255;
    assert_eq!(heaviest(&body, 64), Ok([3, 5_461 - 63]));
    assert_eq!(heaviest(&body, 65), Err(Refusal::Width));
    assert_eq!(heaviest(&vec![0; 65_544], 64), Err(Refusal::Length));
    assert_eq!(heaviest(&vec![0; 65_544], 65), Err(Refusal::Length));
    assert_eq!(heaviest(&[0; 12 * 64], 64), Ok([0, 1]));
    assert_eq!(heaviest(&[0; 12 * 63], 64), Err(Refusal::Width));
}

#[test]
fn wear_report_case() {
    let four = samples::body(&PAPER_CARDS);
    let eight = [&four[..], &four].concat();
    let ten = [&eight[..], &four[24..]].concat();
    let book = samples::book(&[
        (7, four),
        (8, eight[12..].to_vec()),
        (300, eight),
        (9_999, ten),
    ]);
    let text = "7 short\n8 short\n300 8 1\n9999 12 3\n";
    assert_eq!(book::wear_report(&book), text);
    assert_eq!(book::wear_report(&[0, 0]), "");
    assert_eq!(book::wear_report(&[0]), "book refused 5\n");
    assert_eq!(book::wear_report(&vec![0; 65_537]), "book refused 5\n");
    assert_eq!(book::wear_report(&[0, 0, 0]), "book refused 7\n");
}

/// Values 2 and 3 are 27·m2 + m3, not the other way round.
#[test]
fn delay_case() {
    let word = encode(2, &[0, 0, 0, 5], 6).unwrap();
    assert_eq!(book::total_delay(&samples::body(&[word])), Ok(5));
    let word = encode(2, &[0, 0, 5, 0], 6).unwrap();
    assert_eq!(book::total_delay(&samples::body(&[word, word])), Ok(270));
    assert_eq!(book::total_delay(&[]), Ok(0));
}

/// What is read of the card of a message, with damage of this rank.
fn read_message(message: &[u16], damage: u32) -> Result<[u32; 4], Refusal> {
    let word = encode(2, message, 6).unwrap();
    let card = samples::damaged(&mut Random::new(1), &word, damage);
    let strike = book::read_card(&samples::body(&[card]), 1)?;
    Ok([strike.bell, strike.force, strike.delay, strike.damage])
}

/// Value 1 is the register and the force, and value 0 the rest of the bell.
#[test]
fn bell_cases() {
    let cases = [
        ([0, 0, 0, 0], [0, 0, 0]),
        ([1, 0, 0, 0], [1, 0, 0]),
        ([0, 1, 0, 0], [0, 1, 0]),
        ([26, 8, 0, 0], [26, 8, 0]),
        ([0, 9, 0, 0], [27, 0, 0]),
        ([0, 10, 0, 1], [27, 1, 1]),
        ([20, 9, 1, 0], [47, 0, 27]),
        ([20, 17, 26, 26], [47, 8, 728]),
    ];
    for (message, strike) in cases {
        let [bell, force, delay] = strike.map(u32::from);
        assert_eq!(strike::meaning(&message), Ok(strike));
        assert_eq!(strike::message(strike), message);
        for damage in 0..=2 {
            let read = [bell, force, delay, damage];
            assert_eq!(read_message(&message, damage), Ok(read));
        }
    }
    // Bells 48, 53, 54 and 80.
    for message in [[21, 9, 0, 0], [26, 17, 0, 5], [0, 18, 26, 26], [26; 4]] {
        assert_eq!(strike::meaning(&message), Err(Refusal::NoSuchBell));
        for damage in 0..=2 {
            assert_eq!(read_message(&message, damage), Err(Refusal::NoSuchBell));
        }
    }
}

/// Every message has one bell, force and delay, and every strike one message.
#[test]
fn all_messages_mean_strikes() {
    let mut strikes = HashSet::new();
    for number in 0..27u32.pow(4) {
        let message = [0, 1, 2, 3].map(|place| (number / 27u32.pow(place) % 27) as u16);
        let Ok(strike) = strike::meaning(&message) else {
            assert!(message[1] >= 18 || message[1] >= 9 && message[0] > 20);
            continue;
        };
        assert!(strike.iter().zip([47, 8, 728]).all(|(f, most)| *f <= most));
        assert_eq!(strike::message(strike), message);
        assert!(strikes.insert(strike));
    }
    assert_eq!(strikes.len(), 48 * 9 * 729);
}

/// Every pair of values 0 and 1, with some delay and some damage.
#[test]
fn all_bells_and_forces_are_read() {
    let mut random = Random::new(15);
    for register in 0..3 {
        for first in 0..27 {
            for force in 0..9 {
                let [high, low] = [0, 1].map(|_| random.below(27) as u16);
                let message = [first, 9 * register + force, high, low];
                let bell = 27 * register + first;
                let damage = random.below(3) as u32;
                let [bell, force, delay] = [bell, force, 27 * high + low].map(u32::from);
                let read = match bell > 47 {
                    true => Err(Refusal::NoSuchBell),
                    false => Ok([bell, force, delay, damage]),
                };
                assert_eq!(read_message(&message, damage), read);
            }
        }
    }
}

/// What is wrong with the body, with the number and with the card's symbols, and
/// that no word is near, all come before the bell.
#[test]
fn no_such_bell() {
    let word = samples::strike_card([48, 0, 0]);
    let outside = [729, word[1], word[2], word[3], word[4], word[5]];
    let far = symbols(square(&word) + square(&[1, 3, 9, 0, 0, 0]));
    let body = samples::body(&[word, far, outside]);
    let refused = |body: &[u8], number| book::read_card(body, number).err();
    assert_eq!(refused(&body[1..], 0), Some(Refusal::Length));
    assert_eq!(refused(&body[1..], 1), Some(Refusal::Length));
    assert_eq!(refused(&body, 0), Some(Refusal::NoSuchCard));
    assert_eq!(refused(&body[..12], 2), Some(Refusal::NoSuchCard));
    assert_eq!(refused(&body, 3), Some(Refusal::Range));
    assert_eq!(refused(&body, 2), Some(Refusal::Undecodable));
    assert_eq!(refused(&body, 1), Some(Refusal::NoSuchBell));
    assert_eq!(Refusal::NoSuchBell.number(), 13);
    // The card is mended all the same.
    let decoded = mend(2, word).unwrap();
    assert_eq!((decoded.message, decoded.distance), (vec![21, 9, 0, 0], 0));

    let text = "tune 7 1\n1 refused 13\nticks unknown\n";
    assert_eq!(
        book::listing(&samples::book(&[(7, body[..12].to_vec())])),
        text
    );
    let read = samples::strike_card([47, 8, 5]);
    let body = samples::body(&[read, word, read]);
    let text = "tune 7 3\n1 47 8 5 0\n2 refused 13\n3 47 8 5 0\nticks unknown\n";
    assert_eq!(book::listing(&samples::book(&[(7, body.clone())])), text);
    assert_eq!(book::damaged_card(&body), Ok(Some(2)));
    assert_eq!(book::damaged_card(&body[..12]), Ok(None));
    assert_eq!(book::total_delay(&body[24..]), Ok(5));
}

#[test]
fn book_refusals() {
    let body = samples::body(&[[1, 3, 9, 27, 81, 243]]);
    let good = samples::book(&[(3, body.clone()), (4, body.clone())]);
    assert_eq!(book::open(&good), Ok(2));
    let changed = |place: usize, byte: u8| {
        let mut book = good.clone();
        book[place] = byte;
        book::open(&book)
    };
    assert_eq!(changed(0, 1), Err(Refusal::BookSize));
    assert_eq!(changed(3, 4), Err(Refusal::TuneNumbers));
    assert_eq!(changed(3, 0), Err(Refusal::TuneNumbers));
    assert_eq!(changed(10, 0x28), Err(Refusal::TuneNumbers));
    assert_eq!(changed(7, 19), Err(Refusal::Layout));
    assert_eq!(changed(9, 0), Err(Refusal::Layout));
    assert_eq!(changed(17, 2), Err(Refusal::Layout));
    // Tune numbers come before the layout, in all entries.
    let mut both = good.clone();
    both[9] = 0;
    both[11] = 3;
    assert_eq!(book::open(&both), Err(Refusal::TuneNumbers));

    for (number, result) in [(9_999, Ok(1)), (10_000, Err(Refusal::TuneNumbers))] {
        assert_eq!(
            book::open(&samples::book(&[(number, body.clone())])),
            result
        );
    }
    let longest = samples::book(&[(1, vec![0; 12 * 5_460])]);
    assert_eq!((longest.len(), book::open(&longest)), (65_530, Ok(1)));
    assert_eq!(book::total_delay(&[0; 65_532]), Ok(0));
    assert_eq!(book::total_delay(&[0; 65_544]), Err(Refusal::Length));
    assert_eq!(book::total_delay(&[0; 13]), Err(Refusal::Length));
}

/// A file of no bytes is a book of no tunes.
#[test]
fn empty_file() {
    for number in [0, 1, 9_999, 10_000, u32::MAX] {
        assert_eq!(book::tune_body(&[], number), Err(Refusal::NoSuchTune));
        assert_eq!(book::tune_at(&[], number), Err(Refusal::NoSuchTune));
    }
    assert_eq!(book::listing(&[]), "");
    assert_eq!(book::wear_report(&[]), "");
    assert_eq!(book::list(&[], 131_072), Ok(String::new()));
    assert_eq!(book::list(&[], 131_071), Err(Refusal::Length));
}

/// A file of one byte is no book, and one of two only if they are zeros.
#[test]
fn shortest_files() {
    for byte in 0..=255 {
        assert_eq!(book::open(&[byte]), Err(Refusal::BookSize));
        assert_eq!(book::tune_body(&[byte], 1), Err(Refusal::BookSize));
        assert_eq!(book::tune_at(&[byte], 0), Err(Refusal::BookSize));
        assert_eq!(book::listing(&[byte]), "book refused 5\n");
        assert_eq!(book::wear_report(&[byte]), "book refused 5\n");
    }
    for count in 1..=u16::MAX {
        assert_eq!(book::open(&count.to_be_bytes()), Err(Refusal::BookSize));
    }
    assert_eq!(book::tune_body(&[0, 0], 1), Err(Refusal::NoSuchTune));
}

/// The readable strikes of the paper's book.
#[test]
fn writing_case() {
    let strikes = [1, 0, 0, 0, 0, 1, 1, 0, 0];
    let book = write_book(&[7], &[3], &strikes, 46).unwrap();
    let cards = [
        [1, 3, 9, 27, 81, 243],
        [3, 279, 233, 650, 423, 163],
        [1, 3, 9, 27, 81, 243],
    ];
    assert_eq!(book[..10], [0, 1, 0, 7, 0, 0, 0, 10, 0, 3]);
    assert_eq!(book[10..], samples::body(&cards));
    let text = "tune 7 3\n1 1 0 0 0\n2 0 0 1 0\n3 1 0 0 0\nticks 1\n";
    assert_eq!(book::listing(&book), text);

    // The second body begins where the first ends.
    let book = write_book(&[7, 300], &[1, 2], &strikes, 54).unwrap();
    assert_eq!(book[..10], [0, 2, 0, 7, 0, 0, 0, 18, 0, 1]);
    assert_eq!(book[10..18], [1, 44, 0, 0, 0, 30, 0, 2]);
    assert_eq!(book[18..], samples::body(&cards));
    // No tunes are written as two bytes, and never as none.
    assert_eq!(write_book(&[], &[], &[], 2), Ok(vec![0, 0]));
    for book_len in [0, 1, 3] {
        let refused = write_book(&[], &[], &[], book_len);
        assert_eq!(refused, Err(Refusal::Length));
    }

    // The force is in value 1, and the delay 27·m2 + m3.
    let book = write_book(&[1], &[1], &[0, 1, 0], 22).unwrap();
    assert_eq!(book[10..], samples::body(&[[1, 27, 103, 93, 633, 538]]));
    for (strike, message) in [
        ([0, 0, 5], [0, 0, 0, 5]),
        ([0, 0, 135], [0, 0, 5, 0]),
        ([26, 8, 728], [26, 8, 26, 26]),
        ([27, 0, 0], [0, 9, 0, 0]),
        ([47, 8, 0], [20, 17, 0, 0]),
    ] {
        let book = write_book(&[1], &[1], &strike, 22).unwrap();
        assert_eq!(
            book[10..],
            samples::body(&[encode(2, &message, 6).unwrap()])
        );
    }
}

#[test]
fn writing_refusals() {
    let refused = |numbers: &[u16], counts: &[u16], strikes: &[u16], book_len| {
        write_book(numbers, counts, strikes, book_len)
            .err()
            .map_or(0, Refusal::number)
    };
    assert_eq!(refused(&[1], &[1], &[47, 8, 728], 22), 0);
    for bell in [48, 53, 54, 80, 81, 65_535] {
        assert_eq!(refused(&[1], &[1], &[bell, 0, 0], 22), 10);
    }
    for strikes in [[0, 9, 0], [0, 26, 0], [47, 9, 0], [0, 0, 729]] {
        assert_eq!(refused(&[1], &[1], &strikes, 22), 10);
    }
    // Each refusal with all that come after it.
    assert_eq!(refused(&[0, 0], &[0, 65_535, 0], &[0, 0, 0, 48], 1), 10);
    assert_eq!(refused(&[0, 0], &[0, 65_535, 0], &[0, 0, 0, 47, 9], 1), 10);
    assert_eq!(refused(&[0, 0], &[0, 65_535, 0], &[0, 0, 728, 47], 1), 2);
    assert_eq!(refused(&[0, 0], &[0, 65_535], &[0], 1), 5);
    assert_eq!(refused(&[0, 0], &[0, 1], &[0], 1), 6);
    assert_eq!(refused(&[1, 2], &[0, 1], &[0], 1), 7);
    assert_eq!(refused(&[1, 2], &[1, 1], &[0; 5], 42), 2);
    assert_eq!(refused(&[1, 2], &[1, 1], &[0; 6], 41), 2);
    assert_eq!(refused(&[1, 2], &[1, 1], &[0; 6], 42), 0);
    for (numbers, refusal) in [
        ([1, 9_999], 0),
        ([1, 10_000], 6),
        ([0, 1], 6),
        ([2, 2], 6),
        ([3, 2], 6),
    ] {
        assert_eq!(refused(&numbers, &[1, 1], &[0; 6], 42), refusal);
    }
}

#[test]
fn book_sizes() {
    for (counts, size) in [
        (vec![], 2),
        (vec![0], 10),
        (vec![1], 22),
        (vec![5_460], 65_530),
    ] {
        assert_eq!(book_size(&counts), Ok(size));
    }
    assert_eq!(book_size(&[5_461]), Err(Refusal::BookSize));
    assert_eq!(book_size(&[1, 5_457, 1]), Ok(65_534));
    assert_eq!(book_size(&[1; 3_276]), Ok(65_522));
    assert_eq!(book_size(&[1; 3_277]), Err(Refusal::BookSize));
    assert_eq!(book_size(&[0; 8_191]), Ok(65_530));
    assert_eq!(book_size(&[0; 8_192]), Err(Refusal::BookSize));
    assert_eq!(book_size(&[65_535; 70_000]), Err(Refusal::BookSize));
}

/// What was written shows the same strikes in the same places, and is written
/// again from what it shows.
#[test]
fn written_books_are_read() {
    let mut random = Random::new(7);
    for _ in 0..30 {
        let len = random.below(5) as usize;
        let counts: Vec<u16> = random
            .numbers(len, 4)
            .iter()
            .map(|count| count + 1)
            .collect();
        let tunes = samples::tunes(&mut random, &counts);
        let size = book_size(&counts).unwrap();
        let book = write_book(&tunes.numbers, &tunes.counts, &tunes.strikes, size).unwrap();
        assert_eq!(book::listing(&book), samples::listing(&tunes));
    }
}

/// What the program makes of a text: the book's bytes, or what it says.
fn pressed(text: &str) -> Result<Vec<u8>, String> {
    let pressed = press(text.as_bytes());
    match pressed.err.is_empty() {
        true => Ok(pressed.out),
        false => {
            assert!(pressed.out.is_empty());
            let line = pressed.err.strip_suffix('\n');
            Err(line.expect("a line").to_string())
        }
    }
}

#[test]
fn texts() {
    let book = write_book(&[7, 300], &[1, 2], &[1, 0, 0, 0, 0, 1, 47, 8, 728], 54).unwrap();
    let texts = [
        "tune 7\n1 0 0\ntune 300\n0 0 1\n47 8 728\n",
        "tune 7\n1 0 0\ntune 300\n0 0 1\n47 8 728",
        "tune 7\r\n1 0 0\r\ntune 300\r\n0 0 1\r\n47 8 728\r\n",
        "\ttune\t7\n1 \t 0\r0 \n tune  300\n\n0 0 1\n \t\r\n47 8 728\n\n",
        "# A tune.\ntune 007\n#1 2 3\n0001 00 0\n  # tune 8\ntune 300\n0 0 1\n#\n47 8 728\n#",
    ];
    for text in texts {
        assert_eq!(pressed(text), Ok(book.clone()), "{text:?}");
    }
    for text in ["", "\n", "\n\n", " \t\r", "#", "# tune 1\n\n#1 2 3"] {
        assert_eq!(pressed(text), Ok(vec![0, 0]), "{text:?}");
    }
}

#[test]
fn texts_with_mistakes() {
    let tune = "a tune needs one number";
    let neither = "neither a tune nor a strike of three numbers";
    let before = "a strike before the first tune";
    let mistakes = [
        ("tune", 1, tune),
        ("\n#\ntune\n", 3, tune),
        ("tune x", 1, tune),
        ("tune 1 2", 1, tune),
        ("tune 1 #", 1, tune),
        ("tune -1", 1, tune),
        ("tune 1\u{b}", 1, tune),
        ("tune1", 1, neither),
        ("Tune 1", 1, neither),
        ("tunes 1", 1, neither),
        ("\0", 1, neither),
        ("tune 1\n1 2", 2, neither),
        ("tune 1\n1 2 3 4", 2, neither),
        ("tune 1\n1 2 3 # soft", 2, neither),
        ("tune 1\n1 2 +3", 2, neither),
        ("tune 1\n1,2,3", 2, neither),
        ("tune 1\n1 2 0x3", 2, neither),
        ("tune 1\n1 2 3\n\n7", 4, neither),
        ("1 2 3", 1, before),
        ("\n1 2 99999\ntune x", 2, before),
        ("1 2\n1 2 3", 1, neither),
        // Mistakes come before refusals.
        ("tune 0\n48 0 0\ntune 0\ntune", 4, tune),
    ];
    for (text, line, mistake) in mistakes {
        assert_eq!(
            pressed(text),
            Err(format!("line {line}: {mistake}")),
            "{text:?}"
        );
    }
}

#[test]
fn refused_texts() {
    let strikes = |count: usize| "0 0 0\n".repeat(count);
    let tunes = |count: u32| {
        (1..=count)
            .map(|n| format!("tune {n}\n"))
            .collect::<String>()
    };
    let large = "9".repeat(100);
    let refused = [
        (format!("tune 1\n{large} 0 0"), 10),
        (format!("tune 1\n0 {large} 0"), 10),
        (format!("tune {large}\n0 0 729\ntune 1"), 10),
        ("tune 1\n48 0 0".to_string(), 10),
        ("tune 1\n47 8 728\n0 9 0".to_string(), 10),
        ("tune 1\n65536 65544 0".to_string(), 10),
        ("tune 1\n".to_string() + &strikes(5_461), 5),
        (tunes(8_192), 5),
        (format!("tune {large}\n0 0 0"), 6),
        ("tune 65537\n0 0 0".to_string(), 6),
        ("tune 0\ntune 10000".to_string(), 6),
        ("tune 2\n0 0 0\ntune 2\n0 0 0".to_string(), 6),
        (tunes(8_191), 7),
        ("tune 1".to_string(), 7),
        ("tune 1\n0 0 0\ntune 2\ntune 3\n0 0 0".to_string(), 7),
    ];
    for (text, refusal) in refused {
        assert_eq!(
            pressed(&text),
            Err(format!("book refused {refusal}")),
            "{text:?}"
        );
    }
    let full = pressed(&("tune 1\n".to_string() + &strikes(5_460)));
    assert_eq!(full.map(|book| book.len()), Ok(65_530));
}

#[test]
fn long_texts() {
    let comment = |len| "#".repeat(len);
    assert_eq!(pressed(&comment(LONGEST_TEXT)), Ok(vec![0, 0]));
    let refusal = Err("text refused: more than 131072 bytes".to_string());
    assert_eq!(pressed(&comment(LONGEST_TEXT + 1)), refusal);
    assert_eq!(
        pressed(&("tune\n".to_string() + &comment(LONGEST_TEXT))),
        refusal
    );
}

/// A text says the tunes that it was made of.
#[test]
fn texts_of_tunes() {
    let mut random = Random::new(8);
    for _ in 0..2_000 {
        let len = random.below(6) as usize;
        let counts = random.numbers(len, 6);
        let tunes = Tunes {
            numbers: samples::junk(&mut random, len),
            ..samples::tunes(&mut random, &counts)
        };
        let text = samples::text(&mut random, &tunes);
        assert_eq!(text::read(&text), Ok(tunes));
    }
}

/// The words of all messages but that of zeros.
fn words(k: u32) -> impl Iterator<Item = Square> {
    (1..27u32.pow(2 * k)).map(move |number| {
        let digits = (0..2 * k).map(|place| (number / 27u32.pow(place) % 27) as u16);
        let message: Vec<u16> = digits.collect();
        square(&encode(k, &message, 6).unwrap())
    })
}

/// Words of k = 1 and 2 have at least the rank 7 - k, and some have it. For
/// k = 3 and 4 decoding asserts it of what it needs: errors of rank 1 have
/// different residues.
#[test]
fn least_distance() {
    for k in 1..=2u32 {
        assert_eq!(words(k).map(rank).min(), Some(7 - k));
    }
}

/// The test values are zero exactly for the words: they are zero for words,
/// additive, and take 27^(12 - 2k) values, so that 27^(2k) cards have zeros.
#[test]
fn syndrome_facts() {
    let mut random = Random::new(2);
    for k in 1..=5u32 {
        let count = 12 - 2 * k as usize;
        let values = |card: &Card| syndrome(k, card, count).unwrap();
        let packed = |card: &Card| -> Digits {
            let digits = (0u32..).zip(values(card));
            digits
                .map(|(i, value)| Digits::of_number(value.into()).shift_up(3 * i))
                .sum()
        };
        for _ in 0..200 {
            let word = samples::sent(&mut random, k, 0).word;
            assert_eq!(values(&word), vec![0; count]);
            let (a, b) = (samples::card(&mut random), samples::card(&mut random));
            let sum = symbols(square(&a) + square(&b));
            assert_eq!(packed(&sum), packed(&a) + packed(&b));
        }
        let units = (0..36).map(|place| packed(&symbols(Digits::of_number(1).shift_up(place))));
        assert_eq!(independent(units.collect()), 3 * count);
    }
}

/// How many of the lists are no combination of those before them.
fn independent(mut lists: Vec<Digits>) -> usize {
    let mut count = 0;
    for place in 0..36 {
        let Some(found) = lists.iter().position(|list| list.digit(place) != 0) else {
            continue;
        };
        let pivot = lists.swap_remove(found);
        let pivot = pivot.scale(pivot.digit(place));
        for list in &mut lists {
            *list = *list - pivot.scale(list.digit(place));
        }
        count += 1;
    }
    count
}

/// The index that `decode` uses for k = 2 loses no word.
#[test]
fn all_messages_give_the_same() {
    let mut random = Random::new(5);
    for turn in 0..300 {
        let card = match turn % 5 {
            4 => samples::card(&mut random),
            damage => samples::sent(&mut random, 2, damage).received,
        };
        assert_eq!(mend(2, card).ok(), decode_by_messages(2, &card));
    }
}

#[test]
fn damage_within_the_radius_is_decoded() {
    let mut random = Random::new(3);
    for k in 1..=5 {
        for turn in 0..60 {
            let damage = turn % (radius(k) + 1);
            let sent = samples::sent(&mut random, k, damage);
            let decoded = Decoded {
                word: sent.word,
                message: sent.message,
                distance: damage,
            };
            assert_eq!(mend(k, sent.received), Ok(decoded));
        }
    }
}

#[test]
fn damage_beyond_the_radius_is_never_taken_for_the_word() {
    let mut random = Random::new(4);
    for k in 1..=5 {
        for turn in 0..60 {
            let damage = radius(k) + 1 + turn % (6 - radius(k));
            let sent = samples::sent(&mut random, k, damage);
            let Ok(decoded) = mend(k, sent.received) else {
                continue;
            };
            assert_ne!(decoded.word, sent.word);
            assert_eq!(encode(k, &decoded.message, 6), Ok(decoded.word));
            let difference = square(&sent.received) - square(&decoded.word);
            assert_eq!(rank(difference), decoded.distance);
            assert!(decoded.distance <= radius(k));
        }
    }
}

fn mend_dead(k: u32, received: Card, dead: Masks) -> Result<Decoded, Refusal> {
    decode_dead(k, &received, dead[0], dead[1], 6, 2 * k as usize)
}

/// Cases that can be seen: words of few digits, with what is wrong in dead
/// lines or outside of them.
#[test]
fn dead_cases() {
    let one = |rank| {
        Ok(Decoded {
            word: [1, 3, 9, 27, 81, 243],
            message: vec![1, 0],
            distance: rank,
        })
    };
    // Three symbols are lost: too many, unless they are known.
    let lost = [1, 3, 9, 0, 0, 0];
    assert_eq!(mend(1, lost), Err(Refusal::Undecodable));
    assert_eq!(mend_dead(1, lost, [0, 0b11_1000]), one(0));
    assert_eq!(mend_dead(1, lost, [0b11_1000, 0]), one(0));
    assert_eq!(mend_dead(1, lost, [0b01_1000, 0b10_0000]), one(0));
    assert_eq!(mend_dead(1, lost, [0, 0b11_0000]), one(1));
    assert_eq!(mend_dead(1, lost, [0b10_0000, 0b01_0000]), one(1));
    assert_eq!(mend_dead(1, lost, [0, 0b10_0000]), one(2));
    assert_eq!(mend_dead(1, lost, [0b10_0000, 0]), one(2));
    assert_eq!(mend_dead(1, lost, [0, 0b11_1111]), Err(Refusal::DeadLines));
    // Line 0 is bit 0, a column is a symbol, and a row is a digit.
    let zero = zero_word(5, 0);
    assert_eq!(mend_dead(5, [1, 0, 0, 0, 0, 0], [0, 1]), zero);
    assert_eq!(mend_dead(5, [0, 0, 0, 0, 0, 728], [0, 32]), zero);
    assert_eq!(mend_dead(5, [1, 2, 0, 0, 1, 2], [1, 0]), zero);
    assert_eq!(mend_dead(5, [243, 0, 486, 0, 0, 243], [32, 0]), zero);
    assert_eq!(mend_dead(4, [2, 2, 7, 2, 0, 1], [1, 4]), zero_word(4, 0));
    for dead in [[0, 32], [32, 0], [2, 0], [0, 2]] {
        assert_ne!(mend_dead(5, [1, 0, 0, 0, 0, 0], dead), zero);
    }
    assert_ne!(mend_dead(5, [1, 2, 0, 0, 1, 2], [0, 1]), zero);
    assert_ne!(mend_dead(5, [0, 0, 0, 0, 0, 728], [32, 0]), zero);
}

#[test]
fn order_of_refusals_with_dead_lines() {
    let refused = |k, card: &[u16], dead: Masks, word_len, message_len| {
        decode_dead(k, card, dead[0], dead[1], word_len, message_len)
            .err()
            .map_or(0, Refusal::number)
    };
    for k in 1..=5 {
        let values = 2 * k as usize;
        for dead in [[64, 63], [63, 64], [0, u32::MAX], [1 << 31, 0]] {
            assert_eq!(refused(0, &[729; 5], dead, 5, 11), 1);
            assert_eq!(refused(6, &[729; 6], dead, 6, 12), 1);
            assert_eq!(refused(k, &[729; 5], dead, 6, values), 2);
            assert_eq!(refused(k, &[729; 6], dead, 7, values), 2);
            assert_eq!(refused(k, &[729; 6], dead, 6, values + 1), 2);
            assert_eq!(refused(k, &[0; 6], dead, 6, values), 3);
        }
        assert_eq!(refused(k, &[729; 6], [63, 63], 6, values), 3);
        assert_eq!(refused(k, &[728; 6], [63, 63], 6, values), 11);
        // As many lines as there may be, and one more.
        let most = (1 << (6 - k)) - 1;
        assert_eq!(refused(k, &[0; 6], [most, 0], 6, values), 0);
        assert_eq!(refused(k, &[0; 6], [0, most], 6, values), 0);
        assert_eq!(refused(k, &[0; 6], [most, 32], 6, values), 11);
        assert_eq!(refused(k, &[0; 6], [32, most], 6, values), 11);
    }
    assert_eq!(refused(4, &[1, 3, 9, 27, 81, 0], [1, 2], 6, 8), 4);
}

/// Cards for k with dead lines: errors in live lines of every rank up to one
/// too many, and any card.
fn cards_with_dead_lines(random: &mut Random, k: u32, dead: Masks) -> Vec<Card> {
    let damages = 0..=samples::live_radius(k, dead) + 1;
    let mut cards: Vec<Card> = damages
        .map(|damage| samples::sent_dead(random, k, dead, damage).received)
        .collect();
    cards.push(samples::card(random));
    cards
}

/// What is found has the rank that is said, if dead lines are made 0 too, and
/// is within the bound.
fn check_dead(k: u32, card: Card, dead: Masks, found: &Decoded) {
    let difference = square(&card) - square(&found.word);
    assert_eq!(rank(samples::live_part(difference, dead)), found.distance);
    assert!(2 * found.distance + samples::dead_lines(dead) <= 6 - k);
    assert_eq!(encode(k, &found.message, 6), Ok(found.word));
}

/// Both ways to decode give the same for k = 1, for all masks.
#[test]
fn two_ways_to_decode_with_dead_lines_agree() {
    let mut random = Random::new(9);
    for dead in samples::allowed_masks(1) {
        let lines = Lines::without(dead[0], dead[1]);
        for card in cards_with_dead_lines(&mut random, 1, dead) {
            let decoded = dead::decode_by_messages(1, &card, &lines);
            assert_eq!(dead::decode_by_spaces(1, &card, &lines), decoded);
            if let Some(decoded) = decoded {
                check_dead(1, card, dead, &decoded);
            }
        }
    }
}

/// The same for k = 2 and some masks, with as many rows and columns as there
/// may be.
#[test]
fn all_messages_give_the_same_with_dead_lines() {
    let mut random = Random::new(10);
    for dead in [
        [0, 0],
        [1, 0],
        [0, 16],
        [8, 8],
        [3, 0],
        [0, 40],
        [4, 48],
        [25, 0],
        [9, 33],
        [30, 0],
        [0, 51],
    ] {
        let lines = Lines::without(dead[0], dead[1]);
        for card in cards_with_dead_lines(&mut random, 2, dead) {
            let decoded = mend_dead(2, card, dead).ok();
            assert_eq!(decoded, dead::decode_by_messages(2, &card, &lines));
        }
    }
}

/// With no dead line it is the same as `decode`.
#[test]
fn no_dead_line() {
    let mut random = Random::new(11);
    for k in 1..=5 {
        for turn in 0..60 {
            let card = match turn % 6 {
                5 => samples::card(&mut random),
                damage => samples::sent(&mut random, k, damage).received,
            };
            assert_eq!(mend_dead(k, card, [0, 0]), mend(k, card));
        }
    }
}

/// What is left of a word other than 0 has at least the rank 7 - k, less the
/// number of dead lines. So no two words are near a card.
#[test]
fn least_distance_with_dead_lines() {
    let check = |k: u32, dead: Masks, words: &[Square]| {
        let least = words
            .iter()
            .map(|word| rank(samples::live_part(*word, dead)))
            .min();
        assert!(least >= Some(7 - k - samples::dead_lines(dead)));
    };
    let one: Vec<Square> = words(1).collect();
    for dead in samples::allowed_masks(1) {
        check(1, dead, &one);
    }
    let two: Vec<Square> = words(2).collect();
    for dead in [[1, 0], [0, 32], [2, 2], [48, 3]] {
        check(2, dead, &two);
    }
}

/// With one dead line every card is decoded for k = 5: there are as many words
/// as live digits can be read.
#[test]
fn one_dead_line_for_the_largest_code() {
    let mut random = Random::new(12);
    for dead in samples::allowed_masks(5) {
        for _ in 0..50 {
            let card = samples::card(&mut random);
            match mend_dead(5, card, dead) {
                Ok(decoded) => check_dead(5, card, dead, &decoded),
                refused => {
                    assert_eq!(refused, Err(Refusal::Undecodable));
                    assert_eq!(dead, [0, 0]);
                }
            }
        }
    }
}

#[test]
fn damage_in_live_lines_within_the_bound_is_decoded() {
    let mut random = Random::new(13);
    for k in 1..=5 {
        for dead in samples::allowed_masks(k) {
            let damage = random.below(u64::from(samples::live_radius(k, dead)) + 1) as u32;
            let sent = samples::sent_dead(&mut random, k, dead, damage);
            let decoded = Decoded {
                word: sent.word,
                message: sent.message,
                distance: damage,
            };
            assert_eq!(mend_dead(k, sent.received, dead), Ok(decoded));
        }
    }
}

/// The request's cases, and numbers by hand.
#[test]
fn cable_cases() {
    for (symbol, number) in [
        (0, 0),
        (2, -1),
        (364, 364),
        (728, -364),
        (1, 1),
        (3, 3),
        (5, 3 - 1),
        (6, -3),
        (7, -3 + 1),
        (8, -3 - 1),
        (485, 243 - 81 - 27 - 9 - 3 - 1),
        (486, -243),
    ] {
        assert_eq!(cable::signed(symbol), Ok(number));
        assert_eq!(cable::symbol(number), Ok(symbol));
    }
    for symbol in [729, 730, 32_768, u16::MAX] {
        assert_eq!(cable::signed(symbol), Err(Refusal::Range));
    }
    for number in [i16::MIN, -729, -365, 365, 729, i16::MAX] {
        assert_eq!(cable::symbol(number), Err(Refusal::Range));
    }
    let card = [0, 2, 364, 728, 5, 485];
    let numbers = [0, -1, 364, -364, 2, 122];
    assert_eq!(cable::levels(&card, 6), Ok(numbers));
    assert_eq!(cable::symbols(&numbers, 6), Ok(card));
}

/// The sum of the levels of a symbol's digits, times the powers of 3.
fn sum_of_levels(symbol: u16) -> i16 {
    let digits = Digits::of_number(symbol.into());
    let level = |place| [0, 1, -1][digits.digit(place) as usize];
    (0..6).map(|place| level(place) * 3i16.pow(place)).sum()
}

/// Numbers are what the request says, a symbol has each from -364 to 364, and
/// the field's negative has the negated number.
#[test]
fn cable_facts() {
    for symbol in 0..729 {
        let number = sum_of_levels(symbol);
        assert_eq!(cable::signed(symbol), Ok(number));
        assert_eq!(cable::symbol(number), Ok(symbol));
        let negative = (-Element::of_symbol(symbol)).symbol();
        assert_eq!(cable::signed(negative), Ok(-number));
    }
    for number in i16::MIN..=i16::MAX {
        let inside = (-364..=364).contains(&number);
        assert_eq!(cable::symbol(number).is_ok(), inside);
    }
}

#[test]
fn samples_of_the_cable() {
    for (sample, digit) in [
        (i16::MIN, 2),
        (-8_193, 2),
        (-8_192, 2),
        (-8_191, 0),
        (-1, 0),
        (0, 0),
        (1, 0),
        (8_191, 0),
        (8_192, 1),
        (8_193, 1),
        (i16::MAX, 1),
    ] {
        // Symbol by symbol, the lowest digit first.
        for place in 0..36 {
            let mut samples = [0; 36];
            samples[place] = sample;
            let mut card = [0; 6];
            card[place / 6] = digit * 3u16.pow(place as u32 % 6);
            assert_eq!(cable::receive(&samples, 6), Ok(card));
        }
    }
    let mut random = Random::new(14);
    for _ in 0..1_000 {
        let card = samples::card(&mut random);
        let samples = samples::on_cable(&mut random, &card);
        assert_eq!(cable::receive(&samples, 6), Ok(card));
    }
}

#[test]
fn order_of_refusals_of_the_cable() {
    for [read, filled] in [[5, 6], [7, 6], [6, 5], [6, 7], [0, 6], [6, 0]] {
        let (card, numbers) = (vec![729; read], vec![365; read]);
        assert_eq!(cable::levels(&card, filled), Err(Refusal::Length));
        assert_eq!(cable::symbols(&numbers, filled), Err(Refusal::Length));
    }
    for [read, filled] in [[35, 6], [37, 6], [36, 5], [36, 7], [0, 6], [6, 6]] {
        let samples = vec![0; read];
        assert_eq!(cable::receive(&samples, filled), Err(Refusal::Length));
    }
    for place in 0..6 {
        let (mut card, mut numbers) = ([728; 6], [-364; 6]);
        card[place] = 729;
        numbers[place] = -365;
        assert_eq!(cable::levels(&card, 6), Err(Refusal::Range));
        assert_eq!(cable::symbols(&numbers, 6), Err(Refusal::Range));
    }
}
