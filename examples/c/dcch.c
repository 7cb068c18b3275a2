/* Decodes a DCCH block: as it was sent, with wrong bits, and where it cannot be decoded. */
#include <stdio.h>

#include "bts136.h"

static void tell(const char *what, const uint8_t *block, size_t block_len, uint8_t dvcc) {
    uint8_t information[109];
    struct bts136_block answer = bts136_dcch_decode_forward(block, block_len, dvcc, false, information, 109);
    if (answer.refusal != 0) {
        printf("%s: refused with number %d\n", what, answer.refusal);
        return;
    }
    printf("%s: accepted, corrected %d\n  ", what, answer.corrected);
    for (size_t place = 0; place < 109; place++) putchar('0' + information[place]);
    putchar('\n');
}

int main(void) {
    static const uint8_t zeros[260];
    static const size_t wrong[] = {10, 100, 200};
    uint8_t information[109], block[260];
    for (size_t place = 0; place < 109; place++) information[place] = place % 3 == 0;
    if (bts136_dcch_encode_forward(information, 109, 0x5a, false, block, 260).refusal != 0) return 1;

    tell("as sent", block, 260, 0x5a);
    for (size_t n = 0; n < 3; n++) block[wrong[n]] ^= 1;
    tell("three wrong bits", block, 260, 0x5a);
    tell("another colour code", block, 260, 0x5b);
    tell("one bit short", block, 259, 0x5a);
    tell("nothing but zeros", zeros, 260, 0);
    return 0;
}
