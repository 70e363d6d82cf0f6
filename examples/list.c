/* Lists the tunes of a book in a file: first each tune's number and count of cards, then the whole listing.
   cc -I include examples/list.c target/staticlib/libcapi.a -o list && ./list examples/damaged.book */
#include <stdio.h>

#include "lucetcoral.h"

/* One byte more than a book may have: a longer file is then refused. */
static uint8_t book[LUCETCORAL_BOOK_MAX + 1];
static uint8_t text[LUCETCORAL_LISTING_MAX];

int main(int argc, char **argv) {
    FILE *file = argc == 2 ? fopen(argv[1], "rb") : NULL;
    if (file == NULL) {
        fprintf(stderr, "usage: list BOOK\n");
        return 2;
    }
    size_t length = fread(book, 1, sizeof book, file);
    int failed = ferror(file);
    fclose(file);
    if (failed) {
        fprintf(stderr, "cannot read the book\n"); /* not to be taken for an empty file, a book of no tunes */
        return 2;
    }

    uint32_t number, cards;
    for (uint32_t place = 0; lucetcoral_tune_at(book, length, place, &number, &cards) == LUCETCORAL_DONE; place++) {
        printf("tune %u has %u cards\n", (unsigned)number, (unsigned)cards);
    }

    size_t written;
    if (lucetcoral_list(book, length, text, sizeof text, &written) != LUCETCORAL_DONE) {
        return 1; /* never: the text is long enough */
    }
    fwrite(text, 1, written, stdout);
    return 0;
}
