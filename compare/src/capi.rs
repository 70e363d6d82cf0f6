//! The proved library, through the C interface of its crate `capi`. Nothing
//! checks these declarations against that crate: they are kept the same by
//! hand.

use crate::library::Library;
use std::ptr;

mod raw {
    // Passed to the linker with the final program, and kept out of this
    // package's own library.
    #[link(name = "capi", kind = "static", modifiers = "-bundle")]
    extern "C" {
        pub fn lucetcoral_encode(
            k: u32,
            message: *const u16,
            message_len: usize,
            word: *mut u16,
            word_len: usize,
        ) -> u32;
        pub fn lucetcoral_weight(symbols: *const u16, symbols_len: usize, rank: *mut u32) -> u32;
        pub fn lucetcoral_syndrome(
            k: u32,
            received: *const u16,
            received_len: usize,
            values: *mut u16,
            values_len: usize,
        ) -> u32;
        pub fn lucetcoral_decode(
            k: u32,
            received: *const u16,
            received_len: usize,
            word: *mut u16,
            word_len: usize,
            message: *mut u16,
            message_len: usize,
            distance: *mut u32,
        ) -> u32;
        pub fn lucetcoral_decode_dead(
            k: u32,
            received: *const u16,
            received_len: usize,
            dead_rows: u32,
            dead_columns: u32,
            word: *mut u16,
            word_len: usize,
            message: *mut u16,
            message_len: usize,
            rank: *mut u32,
        ) -> u32;
        pub fn lucetcoral_open(book: *const u8, book_len: usize, tunes: *mut u32) -> u32;
        pub fn lucetcoral_tune_body(
            book: *const u8,
            book_len: usize,
            number: u32,
            offset: *mut u32,
            length: *mut u32,
        ) -> u32;
        pub fn lucetcoral_read_card(
            body: *const u8,
            body_len: usize,
            number: u32,
            bell: *mut u32,
            force: *mut u32,
            delay: *mut u32,
            damage: *mut u32,
        ) -> u32;
        pub fn lucetcoral_total_delay(body: *const u8, body_len: usize, ticks: *mut u32) -> u32;
        pub fn lucetcoral_damaged_card(body: *const u8, body_len: usize, card: *mut u32) -> u32;
        pub fn lucetcoral_wear(
            body: *const u8,
            body_len: usize,
            width: u32,
            sum: *mut u32,
            first: *mut u32,
        ) -> u32;
        pub fn lucetcoral_tune_at(
            book: *const u8,
            book_len: usize,
            place: u32,
            number: *mut u32,
            cards: *mut u32,
        ) -> u32;
        pub fn lucetcoral_list(
            book: *const u8,
            book_len: usize,
            text: *mut u8,
            text_len: usize,
            written: *mut usize,
        ) -> u32;
        pub fn lucetcoral_write_book(
            numbers: *const u16,
            numbers_len: usize,
            counts: *const u16,
            counts_len: usize,
            strikes: *const u16,
            strikes_len: usize,
            book: *mut u8,
            book_len: usize,
        ) -> u32;
        pub fn lucetcoral_book_size(counts: *const u16, counts_len: usize, size: *mut usize)
            -> u32;
        pub fn lucetcoral_levels(
            card: *const u16,
            card_len: usize,
            levels: *mut i16,
            levels_len: usize,
        ) -> u32;
        pub fn lucetcoral_symbols(
            levels: *const i16,
            levels_len: usize,
            card: *mut u16,
            card_len: usize,
        ) -> u32;
        pub fn lucetcoral_receive(
            samples: *const i16,
            samples_len: usize,
            card: *mut u16,
            card_len: usize,
        ) -> u32;
    }
}

/// The proved library. Its calls are sound for all arguments: each pointer
/// comes from a reference, or from a slice with its own length, or is NULL with
/// the length 0, and the contracts ask nothing more.
pub struct Proved<const EMPTY_AS_NULL: bool = false>;

/// The same, with every empty list lent as NULL.
pub type ProvedWithNull = Proved<true>;

impl<const EMPTY_AS_NULL: bool> Proved<EMPTY_AS_NULL> {
    fn start<T>(list: &[T]) -> *const T {
        match EMPTY_AS_NULL && list.is_empty() {
            true => ptr::null(),
            false => list.as_ptr(),
        }
    }

    fn start_mut<T>(list: &mut [T]) -> *mut T {
        match EMPTY_AS_NULL && list.is_empty() {
            true => ptr::null_mut(),
            false => list.as_mut_ptr(),
        }
    }
}

impl<const EMPTY_AS_NULL: bool> Library for Proved<EMPTY_AS_NULL> {
    fn encode(k: u32, message: &[u16], word: &mut [u16]) -> u32 {
        let (message, message_len) = (Self::start(message), message.len());
        let (word, word_len) = (Self::start_mut(word), word.len());
        unsafe { raw::lucetcoral_encode(k, message, message_len, word, word_len) }
    }

    fn weight(symbols: &[u16], rank: &mut u32) -> u32 {
        unsafe { raw::lucetcoral_weight(Self::start(symbols), symbols.len(), rank) }
    }

    fn syndrome(k: u32, received: &[u16], values: &mut [u16]) -> u32 {
        let (received, received_len) = (Self::start(received), received.len());
        let (values, values_len) = (Self::start_mut(values), values.len());
        unsafe { raw::lucetcoral_syndrome(k, received, received_len, values, values_len) }
    }

    fn decode(
        k: u32,
        received: &[u16],
        word: &mut [u16],
        message: &mut [u16],
        distance: &mut u32,
    ) -> u32 {
        unsafe {
            raw::lucetcoral_decode(
                k,
                Self::start(received),
                received.len(),
                Self::start_mut(word),
                word.len(),
                Self::start_mut(message),
                message.len(),
                distance,
            )
        }
    }

    fn decode_dead(
        k: u32,
        received: &[u16],
        dead_rows: u32,
        dead_columns: u32,
        word: &mut [u16],
        message: &mut [u16],
        rank: &mut u32,
    ) -> u32 {
        unsafe {
            raw::lucetcoral_decode_dead(
                k,
                Self::start(received),
                received.len(),
                dead_rows,
                dead_columns,
                Self::start_mut(word),
                word.len(),
                Self::start_mut(message),
                message.len(),
                rank,
            )
        }
    }

    fn open(book: &[u8], tunes: &mut u32) -> u32 {
        unsafe { raw::lucetcoral_open(Self::start(book), book.len(), tunes) }
    }

    fn tune_body(book: &[u8], number: u32, offset: &mut u32, length: &mut u32) -> u32 {
        unsafe { raw::lucetcoral_tune_body(Self::start(book), book.len(), number, offset, length) }
    }

    fn read_card(body: &[u8], number: u32, strike: &mut [u32; 4]) -> u32 {
        let (body, body_len) = (Self::start(body), body.len());
        let [bell, force, delay, damage] = strike;
        unsafe { raw::lucetcoral_read_card(body, body_len, number, bell, force, delay, damage) }
    }

    fn total_delay(body: &[u8], ticks: &mut u32) -> u32 {
        unsafe { raw::lucetcoral_total_delay(Self::start(body), body.len(), ticks) }
    }

    fn damaged_card(body: &[u8], card: &mut u32) -> u32 {
        unsafe { raw::lucetcoral_damaged_card(Self::start(body), body.len(), card) }
    }

    fn wear(body: &[u8], width: u32, sum: &mut u32, first: &mut u32) -> u32 {
        unsafe { raw::lucetcoral_wear(Self::start(body), body.len(), width, sum, first) }
    }

    fn tune_at(book: &[u8], place: u32, number: &mut u32, cards: &mut u32) -> u32 {
        unsafe { raw::lucetcoral_tune_at(Self::start(book), book.len(), place, number, cards) }
    }

    fn list(book: &[u8], text: &mut [u8], written: &mut usize) -> u32 {
        let (book, book_len) = (Self::start(book), book.len());
        let (text, text_len) = (Self::start_mut(text), text.len());
        unsafe { raw::lucetcoral_list(book, book_len, text, text_len, written) }
    }

    fn write_book(numbers: &[u16], counts: &[u16], strikes: &[u16], book: &mut [u8]) -> u32 {
        unsafe {
            raw::lucetcoral_write_book(
                Self::start(numbers),
                numbers.len(),
                Self::start(counts),
                counts.len(),
                Self::start(strikes),
                strikes.len(),
                Self::start_mut(book),
                book.len(),
            )
        }
    }

    fn book_size(counts: &[u16], size: &mut usize) -> u32 {
        unsafe { raw::lucetcoral_book_size(Self::start(counts), counts.len(), size) }
    }

    fn levels(card: &[u16], levels: &mut [i16]) -> u32 {
        let (card, card_len) = (Self::start(card), card.len());
        let (levels, levels_len) = (Self::start_mut(levels), levels.len());
        unsafe { raw::lucetcoral_levels(card, card_len, levels, levels_len) }
    }

    fn symbols(levels: &[i16], card: &mut [u16]) -> u32 {
        let (levels, levels_len) = (Self::start(levels), levels.len());
        let (card, card_len) = (Self::start_mut(card), card.len());
        unsafe { raw::lucetcoral_symbols(levels, levels_len, card, card_len) }
    }

    fn receive(samples: &[i16], card: &mut [u16]) -> u32 {
        let (samples, samples_len) = (Self::start(samples), samples.len());
        let (card, card_len) = (Self::start_mut(card), card.len());
        unsafe { raw::lucetcoral_receive(samples, samples_len, card, card_len) }
    }
}
