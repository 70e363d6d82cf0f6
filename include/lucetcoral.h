/* Lucetcoral's C interface: cards, levels on the cable, tune books, their wear, their listing and their writing, in numbers and lists only.
   docs/SPECIFICATION.md says what each operation does; the sections cited below are its sections.

   ANSWERS. Each function returns LUCETCORAL_DONE, 0, or the number of a refusal. If it is done, what it answers is in the lists and numbers that
   it was lent to fill. A refusal changes nothing that is lent. Tests run in the order in which the numbers stand at each function, and the first
   that fails gives the refusal. Each function is proved (crates/capi) to do this, to end, and to do nothing undefined, for all numbers and for
   lists of every length.

   LISTS AND POINTERS. A list is a pointer and a count of entries, not of bytes. The pointer must be valid and aligned for that many entries.
   - With a count of 0 it may be NULL, or any other pointer: nothing is read or written through it. The list is then empty. Most functions refuse
     an empty list; an empty book has no tunes, an empty body has 0 ticks and no damaged card, and a book may be written of no tunes.
   - A pointer to a single number must be valid and aligned, and never NULL, even in a call that is refused.
   - What a call is lent to fill must not overlap anything else that it is lent, and need not be initialised.
   - While a call runs, nothing else may write what it was lent, or read what it was lent to fill.

   OWNERSHIP. All memory is the caller's. Nothing is allocated, and no pointer is kept after the return.

   THREADS. The library has no state. Any number of threads may call it at once, each with memory lent as above.

   STACK. No call was seen to use more than 4.8 KiB of stack: measured with cards of every damage and with dead lines, and full books, not proved.
   8 KiB leave room.

   PLATFORM. The archive is target/staticlib/libcapi.a, which `tools/build capi` writes: position-independent code for Linux on any x86-64
   processor, with the System V calling convention. It needs memcpy, memmove and memset of a C library at most, calls nothing else, and leaves
   errno alone. Only tests compare this header with the archive, so both must come from one revision. */
#ifndef LUCETCORAL_H
#define LUCETCORAL_H

#include <stddef.h>
#include <stdint.h>

#ifdef __cplusplus
extern "C" {
#endif

/* The version of this interface. As long as MAJOR is 0, MINOR is raised by every change of what a call takes, answers or refuses and of every
   name or number below, PATCH by all other changes. The archive holds no version of its own. */
#define LUCETCORAL_VERSION_MAJOR 0
#define LUCETCORAL_VERSION_MINOR 9
#define LUCETCORAL_VERSION_PATCH 0

/* What a function returns (section 7). */
enum lucetcoral_refusal {
    LUCETCORAL_DONE = 0,          /* no refusal */
    LUCETCORAL_DIMENSION = 1,     /* k is not 1 to 5 */
    LUCETCORAL_LENGTH = 2,        /* a list has the wrong length */
    LUCETCORAL_RANGE = 3,         /* a symbol is above 728, a value of a message above 26, a mask above 63, or a signed number
                                     not -364 to 364 */
    LUCETCORAL_UNDECODABLE = 4,   /* no word of the code is near the card */
    LUCETCORAL_BOOK_SIZE = 5,     /* a book has more than 65,536 bytes, or too few for its contents */
    LUCETCORAL_TUNE_NUMBER = 6,   /* a tune number is not 1 to 9,999, or not above the one before it */
    LUCETCORAL_LAYOUT = 7,        /* a tune has no cards, or the bodies do not adjoin from the contents to the end of the book */
    LUCETCORAL_NO_SUCH_TUNE = 8,  /* the book has no tune of that number, or at that place */
    LUCETCORAL_NO_SUCH_CARD = 9,  /* the card number is 0, or past the last */
    LUCETCORAL_STRIKE_FIELD = 10, /* a bell is above 47, a force above 8, or a delay above 728 */
    LUCETCORAL_DEAD_LINES = 11,   /* more lines are dead than 6 - k */
    LUCETCORAL_WIDTH = 12,        /* the width of a run is 0, above 64, or above the count of cards */
    LUCETCORAL_NO_SUCH_BELL = 13  /* the bell of a card is above 47 */
};

/* The code (sections 1 to 4). */
#define LUCETCORAL_K_MIN 1
#define LUCETCORAL_K_MAX 5
#define LUCETCORAL_CARD_SYMBOLS 6                  /* symbols of a card, and of a word */
#define LUCETCORAL_SYMBOL_MAX 728
#define LUCETCORAL_VALUE_MAX 26                    /* of a value of a message, and of a test value */
#define LUCETCORAL_MESSAGE_VALUES(k) (2 * (k))     /* values of a message for k from 1 to 5: at most 10 */
#define LUCETCORAL_TEST_VALUES(k) (12 - 2 * (k))   /* test values for k from 1 to 5: at most 10 */
#define LUCETCORAL_RADIUS(k) ((6 - (k)) / 2)       /* the greatest rank of damage that is undone, for k from 1 to 5 */
#define LUCETCORAL_MASK_MAX 63                     /* of a mask of dead rows or columns: bit i, worth 2^i, is line i */
#define LUCETCORAL_DEAD_LINES_MAX(k) (6 - (k))     /* dead rows and columns together, for k from 1 to 5 */

/* Levels on the cable (section 3.6). */
#define LUCETCORAL_LEVELS_MAX 364        /* of a signed number of a symbol; the least is -364 */
#define LUCETCORAL_CARD_SAMPLES 36       /* samples of a card: symbol by symbol, the lowest digit first */
#define LUCETCORAL_SAMPLE_THRESHOLD 8192 /* a sample of this or above is plus, digit 1; of its negative or below minus, digit 2 */

/* Tune books (section 5). */
#define LUCETCORAL_BOOK_MAX 65536 /* bytes of a book */
#define LUCETCORAL_BODY_MAX 65532 /* bytes of a body */
#define LUCETCORAL_CARD_BYTES 12  /* bytes of a card in a body */
#define LUCETCORAL_TUNE_NUMBER_MIN 1
#define LUCETCORAL_TUNE_NUMBER_MAX 9999
#define LUCETCORAL_WIDTH_MAX 64   /* cards of a run */

/* Strikes (section 6). The message of a strike has the values bell % 27, 9 * (bell / 27) + force, delay / 27 and delay % 27. */
#define LUCETCORAL_STRIKE_K 2 /* the k of all cards in books */
#define LUCETCORAL_BELL_MAX 47
#define LUCETCORAL_FORCE_MAX 8
#define LUCETCORAL_DELAY_MAX 728
#define LUCETCORAL_TICK_MILLISECONDS 20

/* No listing has more bytes than this (section 9.1). */
#define LUCETCORAL_LISTING_MAX 131072

/* Encode (8.1; Press): fills the word, 6 symbols, of a message of 2k values. 1, 2, 3. */
uint32_t lucetcoral_encode(uint32_t k, const uint16_t *message, size_t message_len, uint16_t *word, size_t word_len);

/* Weigh (8.2): the rank of a card of 6 symbols, 0 to 6. 2, 3. */
uint32_t lucetcoral_weight(const uint16_t *symbols, size_t symbols_len, uint32_t *rank);

/* Syndrome (8.3; Test): fills the 12 - 2k test values of a card of 6 symbols. They are all 0 exactly for words. 1, 2, 3. */
uint32_t lucetcoral_syndrome(uint32_t k, const uint16_t *received, size_t received_len, uint16_t *values, size_t values_len);

/* Decode (8.4; Mend): fills the word near a card of 6 symbols, 6 symbols, and its message, 2k values, and gives the rank of the difference between
   word and card. 1, 2, 3, 4. */
uint32_t lucetcoral_decode(uint32_t k, const uint16_t *received, size_t received_len, uint16_t *word, size_t word_len, uint16_t *message,
                           size_t message_len, uint32_t *distance);

/* Decode with dead lines (8.17): as Decode, where the rows and columns of two masks count for nothing. They are struck out of the difference between
   word and card, and `rank` is the rank of what is left: twice that and the number of dead lines are at most 6 - k. There is never a second such
   word, and with both masks 0 it is Decode. Row i is the digit worth 3^i of every symbol, column j is symbol j. 1, 2, 3, 11, 4. */
uint32_t lucetcoral_decode_dead(uint32_t k, const uint16_t *received, size_t received_len, uint32_t dead_rows, uint32_t dead_columns, uint16_t *word,
                                size_t word_len, uint16_t *message, size_t message_len, uint32_t *rank);

/* Levels (8.20): fills the 6 signed numbers, -364 to 364, of a card of 6 symbols. Each is the sum of 3^i times the level of digit i, where digit 1 is
   plus one and digit 2 minus one. 2, 3. */
uint32_t lucetcoral_levels(const uint16_t *card, size_t card_len, int16_t *levels, size_t levels_len);

/* Symbols (8.21): fills the card of 6 symbols that has these 6 signed numbers, and undoes Levels. 2, 3. */
uint32_t lucetcoral_symbols(const int16_t *levels, size_t levels_len, uint16_t *card, size_t card_len);

/* Receive (8.22): fills the card of 6 symbols to whose digits' levels 36 samples fall: sample 6j + i is that of digit i of symbol j. Every number is a
   sample. 2. */
uint32_t lucetcoral_receive(const int16_t *samples, size_t samples_len, uint16_t *card, size_t card_len);

/* Open (8.5): the number of tunes of a book, 0 if it has no bytes. 5, 6, 7. */
uint32_t lucetcoral_open(const uint8_t *book, size_t book_len, uint32_t *tunes);

/* Pull (8.6): the part of the book that is the tune's body, as its offset in the book and its length. 5, 6, 7, 8. */
uint32_t lucetcoral_tune_body(const uint8_t *book, size_t book_len, uint32_t number, uint32_t *offset, uint32_t *length);

/* Tune by place (8.8): the tune number and the count of cards of the entry at a place of the contents, counted from 0. Each call opens the book.
   5, 6, 7, 8. */
uint32_t lucetcoral_tune_at(const uint8_t *book, size_t book_len, uint32_t place, uint32_t *number, uint32_t *cards);

/* Read (8.9): card `number`, counted from 1, of a body: a strike and the rank of its damage. 2, 9, 3, 4, 13. */
uint32_t lucetcoral_read_card(const uint8_t *body, size_t body_len, uint32_t number, uint32_t *bell, uint32_t *force, uint32_t *delay,
                              uint32_t *damage);

/* Length (8.10): the sum of the delays of all cards of a body, in ticks. 2; then the refusal of the first card that Read refuses, 3, 4 or 13: a body
   with such a card has no length, and `ticks` stays as it was. */
uint32_t lucetcoral_total_delay(const uint8_t *body, size_t body_len, uint32_t *ticks);

/* Worn (8.11): the lowest number of a card of a body that Read refuses or gives a damage of 1 or more; 0 exactly if there is none. 2. */
uint32_t lucetcoral_damaged_card(const uint8_t *body, size_t body_len, uint32_t *card);

/* Wear (8.23): the largest sum of wear over `width` cards in a row of a body, and the number of the first card at which a run with that sum begins. A
   card wears by the rank of its damage, or by 3 if Read refuses it. 2, 12. */
uint32_t lucetcoral_wear(const uint8_t *body, size_t body_len, uint32_t width, uint32_t *sum, uint32_t *first);

/* Listing (8.12): the text that lists a book, as the program list_book prints it ("book refused N" for a book that Open refuses), at the start of
   `text`. The rest of `text` stays as it was. `written` is the length of the listing; no 0 is written at its end. 2 if text_len is below
   LUCETCORAL_LISTING_MAX. */
uint32_t lucetcoral_list(const uint8_t *book, size_t book_len, uint8_t *text, size_t text_len, size_t *written);

/* Write (8.13): fills a book, contents and cards, with tunes. `numbers` has the tune numbers and `counts` the counts of cards, in the order of the
   contents. `strikes` has three numbers for each card, bell, force and delay: for the cards of the first tune, then for those of the second, and so
   on. `book` is as long as Book size says. 10 for any number of `strikes`, taken as bell, force and delay by turns; 2 if there are not as many
   counts as tune numbers; 5; 6; 7 for a count of 0; 2 if `strikes` or `book` is not as long as the counts ask. */
uint32_t lucetcoral_write_book(const uint16_t *numbers, size_t numbers_len, const uint16_t *counts, size_t counts_len, const uint16_t *strikes,
                               size_t strikes_len, uint8_t *book, size_t book_len);

/* Book size (8.14): the length of a book of tunes with these counts of cards, in bytes. 5. */
uint32_t lucetcoral_book_size(const uint16_t *counts, size_t counts_len, size_t *size);

#ifdef __cplusplus
}
#endif

#endif
