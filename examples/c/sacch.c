/* Listens on SACCH from the middle of a word on, with a wrong bit on the way. */
#include <inttypes.h>
#include <stdio.h>
#include <string.h>

#include "bts136.h"

enum { DVCC = 0x5a, WORDS = 5, SENT = 11 * WORDS };

static void tell(int field, const struct bts136_pushed *pushed) {
    if (pushed->kind == BTS136_WORD)
        printf("field %d: word %012" PRIx64 ", corrected %d\n", field, pushed->message, pushed->corrected);
    else if (pushed->kind != BTS136_PENDING)
        printf("field %d: number %d\n", field, pushed->refusal);
}

int main(void) {
    uint16_t sent[SENT];
    struct bts136_encoder encoder = bts136_sacch_new_encoder();
    for (int word = 1; word <= WORDS; word++) {
        struct bts136_fields made = bts136_sacch_encode_word(encoder, word == WORDS, word * UINT64_C(0x123456789a), DVCC);
        memcpy(sent + 11 * (word - 1), made.fields, sizeof made.fields);
        encoder = made.encoder;
    }
    sent[30] ^= 1 << (11 - 4);

    struct bts136_receiver receiver = bts136_sacch_new_receiver();
    for (int place = 3; place < SENT; place++) {
        struct bts136_pushed pushed = bts136_sacch_pushed(receiver, sent[place], DVCC);
        tell(place - 2, &pushed);
        receiver = pushed.receiver;
    }
    return 0;
}
