/* Encodes a strike, damages the card in one row and one column, and mends it. Build: cc -I include examples/mend.c target/staticlib/libcapi.a */
#include "lucetcoral.h"
#include <stdio.h>

enum { K = LUCETCORAL_STRIKE_K, SYMBOLS = LUCETCORAL_CARD_SYMBOLS, VALUES = LUCETCORAL_MESSAGE_VALUES(K) };

int main(void) {
    const uint16_t strike[VALUES] = {12, 9 * 1 + 7, 1, 5}; /* register 1: bell 27 + 12, force 7, delay 27 + 5 ticks */
    uint16_t card[SYMBOLS], word[SYMBOLS], message[VALUES];
    uint32_t distance = 0;
    uint32_t refusal = lucetcoral_encode(K, strike, VALUES, card, SYMBOLS);
    if (refusal != LUCETCORAL_DONE) {
        printf("encode refused %u\n", (unsigned)refusal);
        return 1;
    }
    card[3] = (uint16_t)((card[3] + 100) % (LUCETCORAL_SYMBOL_MAX + 1)); /* a column */
    for (int j = 0; j < SYMBOLS; j++) /* the lowest row */
        card[j] = (uint16_t)(card[j] - card[j] % 3);
    refusal = lucetcoral_decode(K, card, SYMBOLS, word, SYMBOLS, message, VALUES, &distance);
    if (refusal == LUCETCORAL_UNDECODABLE) {
        printf("too much damage\n");
        return 1;
    }
    if (refusal != LUCETCORAL_DONE) {
        printf("decode refused %u\n", (unsigned)refusal);
        return 1;
    }
    printf("bell %u force %u delay %u damage %u\n", 27u * (message[1] / 9u) + message[0], message[1] % 9u, 27u * message[2] + message[3],
           (unsigned)distance);
    return 0;
}
