/* Writes a book of two tunes and reads it back, card by card.
   cc -I include examples/press.c target/staticlib/libcapi.a -o press && ./press */
#include <stdio.h>

#include "lucetcoral.h"

enum { TUNES = 2, CARDS = 5 };

static const uint16_t numbers[TUNES] = {7, 12};
static const uint16_t counts[TUNES] = {2, 3};
static const uint16_t strikes[3 * CARDS] = {
    4, 6, 24, 5, 4, 24,           /* tune 7: bell, force and delay of two cards */
    8, 7, 24, 0, 0, 12, 34, 5, 18 /* tune 12: three cards, the second a rest */
};

static uint8_t book[LUCETCORAL_BOOK_MAX];

/* Prints the cards of a body. */
static void print_body(const uint8_t *body, size_t length) {
    uint32_t bell, force, delay, damage;
    for (uint32_t card = 1; lucetcoral_read_card(body, length, card, &bell, &force, &delay, &damage) == LUCETCORAL_DONE; card++) {
        printf("%u: bell %u force %u delay %u damage %u\n", (unsigned)card, (unsigned)bell, (unsigned)force, (unsigned)delay, (unsigned)damage);
    }
}

int main(void) {
    size_t size;
    uint32_t refusal = lucetcoral_book_size(counts, TUNES, &size);
    if (refusal == LUCETCORAL_DONE) {
        refusal = lucetcoral_write_book(numbers, TUNES, counts, TUNES, strikes, 3 * CARDS, book, size);
    }
    if (refusal != LUCETCORAL_DONE) {
        printf("book refused %u\n", (unsigned)refusal);
        return 1;
    }
    printf("a book of %lu bytes\n", (unsigned long)size);
    for (int tune = 0; tune < TUNES; tune++) {
        uint32_t offset, length;
        if (lucetcoral_tune_body(book, size, numbers[tune], &offset, &length) != LUCETCORAL_DONE) {
            return 1; /* never: the book has both */
        }
        printf("tune %u\n", (unsigned)numbers[tune]);
        print_body(book + offset, length);
    }
    return 0;
}
