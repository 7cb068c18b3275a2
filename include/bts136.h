/*
 * The channel codecs of IS-136 (DCCH, FACCH, SACCH, ACELP CC1, VSELP), proved in Rattle. `rt lib` in crates/bts136 builds the library,
 * crates/bts136/out/libbts136.a, which needs memcpy, memmove and memset and nothing else.
 *
 * Bits are bytes 0 and 1, first sent first. A slice is a pointer and its length: the pointer is to as many elements as the length says,
 * and may be null where that is 0; slices of one call do not overlap. Where a length is not the right one nothing is read, so that a
 * wrong length is refused and no crash. The library allocates nothing, keeps no pointer and has no state of its own: it may be called
 * from any thread. No call takes more than 20,000 bytes of stack. The slowest, a FACCH word of noise, takes up to some 30 microseconds on
 * one core of an x86-64 machine; every other call 5 or less. `dvcc` is the colour code, any byte. `broadcast` says that the checksum is
 * complemented.
 *
 * Every call answers any input. `refusal` is 0 where it is accepted, else a number of `enum bts136_refusal`. What is wrong is looked
 * for in this order: every length in the order of the arguments, the state, the symbols; then what a search tells: 4, 5, 6, 3. On a
 * refusal nothing is written, states come back as they were, and every other field of the answer is 0, but for `expected` and `actual`
 * where the number is 1. A rejection (BTS136_REJECTED, with 3, 5 or 6 in a push) is no refusal: the receiver has moved, and the one that
 * comes back is the one to go on with.
 */
#ifndef BTS136_H
#define BTS136_H

#include <stdbool.h>
#include <stddef.h>
#include <stdint.h>

#ifdef __cplusplus
extern "C" {
#endif

enum bts136_refusal {
    BTS136_LENGTH = 1,                    /* a slice has not the exact length: see expected and actual */
    BTS136_SYMBOL = 2,                    /* a byte is no bit, or a number is too large for what it stands for */
    BTS136_CRC = 3,                       /* the checksum differs; for a soft block also a reliability that is not finite */
    BTS136_INSUFFICIENT_OBSERVATIONS = 4, /* fewer than 65 bits of a FACCH word were observed */
    BTS136_AMBIGUOUS = 5,                 /* two different words are equally near */
    BTS136_RESERVED = 6,                  /* the second bit of a SACCH word is set */
    BTS136_LINE = 7,                      /* a line that the program `frames` does not know; no call answers it */
    BTS136_STATE = 8                      /* a state is out of its range */
};

/* What a push tells: the field `kind` of bts136_pushed. */
enum bts136_kind {
    BTS136_PENDING = 0,  /* no word yet */
    BTS136_WORD = 1,     /* a word */
    BTS136_REJECTED = 2, /* the rows are no word; the receiver has moved */
    BTS136_REFUSED = 3   /* the call was refused; the receiver is as it was */
};

/* The lock of a receiver that has none. */
#define BTS136_UNLOCKED 255

/* ---- records, all by value */

/* One step of a convolutional code. */
struct bts136_step {
    uint8_t refusal;   /* 0, 2 or 8 */
    uint8_t next;      /* the next state, 0 to 31 */
    uint8_t output[4]; /* the coded bits, 0 or 1; those that the code does not have are 0 */
};

/* A checksum, or the register of one. */
struct bts136_crc {
    uint8_t refusal; /* 0 or 2 */
    uint16_t value;  /* 16 bits, or 0 to 127 where it has 7 */
};

/* A bare search. */
struct bts136_search {
    uint8_t refusal; /* 0, 1 or 2 */
    size_t expected; /* with number 1, the length that was expected */
    size_t actual;   /* with number 1, the length that came */
    uint16_t metric; /* the fewest disagreements, at most the length of the block */
    bool tie;        /* whether another word has as few */
};

/* A decoded DCCH block. */
struct bts136_block {
    uint8_t refusal;    /* 0, 1, 2 or 3 */
    size_t expected;    /* with number 1, the length that was expected */
    size_t actual;      /* with number 1, the length that came */
    uint16_t corrected; /* corrected coded bits, at most the length of the block */
};

/* A call that only writes bits. */
struct bts136_written {
    uint8_t refusal; /* 0, 1 or 2 */
    size_t expected; /* with number 1, the length that was expected */
    size_t actual;   /* with number 1, the length that came */
};

/* A FACCH word decoded. */
struct bts136_facch_word {
    uint8_t refusal;    /* 0 to 5 */
    size_t expected;    /* with number 1, the length that was expected */
    size_t actual;      /* with number 1, the length that came */
    bool continuation;  /* the first bit of the word */
    uint64_t message;   /* 48 bits, the first highest */
    uint16_t corrected; /* observed bits that disagree with the word, at most 260 */
    uint16_t observed;  /* observed bits, 65 to 260 */
};

/* The SACCH encoder. Any value may be given; one out of these ranges is refused with 8. */
struct bts136_encoder {
    uint8_t memory;    /* the last five inputs, 0 to 31 */
    uint16_t rows[12]; /* the rows of the last twelve slots, twelve bits each, the first highest: 0 to 4095 */
    size_t cursor;     /* the place of the oldest row, 0 to 11 */
};

/* One field of SACCH, and the encoder after it. */
struct bts136_field {
    uint8_t refusal;               /* 0, 2 or 8 */
    struct bts136_encoder encoder; /* the encoder after the call */
    uint16_t field;                /* twelve bits, the first highest: 0 to 4095 */
};

/* The eleven fields of a SACCH word, and the encoder after them. */
struct bts136_fields {
    uint8_t refusal;               /* 0, 2 or 8 */
    struct bts136_encoder encoder; /* the encoder after the call */
    uint16_t fields[11];           /* twelve bits each, the first highest: 0 to 4095 */
};

/* A SACCH word decoded. */
struct bts136_sacch_word {
    uint8_t refusal;    /* 0, 1, 2, 3, 5 or 6 */
    size_t expected;    /* with number 1, the length that was expected */
    size_t actual;      /* with number 1, the length that came */
    bool continuation;  /* the first bit of the word */
    uint64_t message;   /* 48 bits, the first highest */
    uint16_t corrected; /* corrected coded bits, at most 132 */
    uint8_t ending;     /* the encoder's memory after the word, 0 to 31 */
};

/* The SACCH deinterleaver. Any value may be given; one out of these ranges is refused with 8. */
struct bts136_deinterleaver {
    uint16_t fields[12]; /* the last twelve fields, 0 to 4095 */
    size_t cursor;       /* the place of the next field, 0 to 11 */
    size_t received;     /* how many fields came, 0 to 12, where it stops */
};

/* A row of SACCH, and the deinterleaver after it. */
struct bts136_row {
    uint8_t refusal;                           /* 0, 2 or 8 */
    bool complete;                             /* whether the field completed a row: so does each from the twelfth on */
    uint16_t row;                              /* twelve bits, the first highest: 0 to 4095 */
    struct bts136_deinterleaver deinterleaver; /* the deinterleaver after the call */
};

/* The SACCH receiver. Any value may be given; one out of these ranges is refused with 8. */
struct bts136_receiver {
    uint16_t fields[12]; /* the last twelve fields, 0 to 4095 */
    size_t field_cursor; /* the place of the next field, 0 to 11 */
    size_t received;     /* how many fields came, 0 to 12, where it stops */
    uint16_t rows[11];   /* the last eleven rows, 0 to 4095 */
    size_t row_cursor;   /* the place of the next row, 0 to 10 */
    size_t available;    /* how many rows came, 0 to 11, where it stops */
    uint8_t phase;       /* rows counted round, 0 to 10 */
    uint8_t lock;        /* the phase at which words end, 0 to 10, or BTS136_UNLOCKED */
};

/* What a push answers, and the receiver after it. */
struct bts136_pushed {
    uint8_t kind;                    /* of enum bts136_kind */
    uint8_t refusal;                 /* with BTS136_REJECTED 3, 5 or 6; with BTS136_REFUSED 2 or 8; else 0 */
    bool continuation;               /* the first bit of the word */
    uint64_t message;                /* 48 bits, the first highest */
    uint16_t corrected;              /* corrected coded bits, at most 132 */
    uint8_t ending;                  /* the encoder's memory after the word, 0 to 31 */
    struct bts136_receiver receiver; /* the receiver after the push */
};

/* A speech frame decoded. */
struct bts136_frame {
    uint8_t refusal;    /* 0, 1, 2 or 5 */
    size_t expected;    /* with number 1, the length that was expected */
    size_t actual;      /* with number 1, the length that came */
    bool valid;         /* whether the checksum is right; a frame with a wrong one is accepted all the same */
    uint16_t corrected; /* corrected protected bits, at most 178 in VSELP and 208 in ACELP */
};

/* ---- steps, checksums and the bare searches */

/* One step of the code of DCCH, SACCH and VSELP, with 2 coded bits. Refused: 8 for a state above 31, then 2 for an input above 1. */
struct bts136_step bts136_dcch_transition(uint8_t state, uint8_t input);
/* One step of the code of FACCH, with 4 coded bits. Refused as above. */
struct bts136_step bts136_facch_transition(uint8_t state, uint8_t input);
/* One step of the code of ACELP CC1, with 2 coded bits. Refused as above. */
struct bts136_step bts136_acelp_transition(uint8_t state, uint8_t input);

/* The 16-bit checksum of any number of bits under a colour code. Refused: 2. */
struct bts136_crc bts136_checksum(const uint8_t *information, size_t information_len, uint8_t dvcc, bool broadcast);
/*
 * The register of that checksum after any number of bits, from a given one, not complemented. From 0 over the eight bits of a colour code, the
 * highest first, it is a register to hold; from there over the information it is the checksum under that colour code. Refused: 2.
 */
struct bts136_crc bts136_checksum_from(uint16_t register_before, const uint8_t *information, size_t information_len);
/* The 7-bit checksum of any number of a speech frame's bits. Refused: 2. */
struct bts136_crc bts136_checksum7(const uint8_t *information, size_t information_len);

/*
 * The nearest word from state 0 that ends in five zeros: the search of DCCH. coded has 10 to 260 bits, an even number; word gets half
 * as many. Of words equally near, it is the one with a zero at the last place where they differ. Refused: 1 (expected is 260 where
 * coded is wrong), 2.
 */
struct bts136_search bts136_viterbi(const uint8_t *coded, size_t coded_len, uint8_t *word, size_t word_len);
/* A nearest word over all 32 starting memories: the search of SACCH. Which of equally near ones is not said. Lengths and refusals as above. */
struct bts136_search bts136_viterbi_free(const uint8_t *coded, size_t coded_len, uint8_t *word, size_t word_len);

/* ---- DCCH */

/* Codes 109 bits of information into the 260 of a forward block. Refused: 1 for information, then block; 2. */
struct bts136_written bts136_dcch_encode_forward(
    const uint8_t *information, size_t information_len, uint8_t dvcc, bool broadcast, uint8_t *block, size_t block_len);
/* Codes 101 bits of information into the 244 of a normal reverse block. Refused as above. */
struct bts136_written bts136_dcch_encode_reverse_normal(
    const uint8_t *information, size_t information_len, uint8_t dvcc, bool broadcast, uint8_t *block, size_t block_len);
/* Codes 79 bits of information into the 200 of an abbreviated reverse block. Refused as above. */
struct bts136_written bts136_dcch_encode_reverse_abbreviated(
    const uint8_t *information, size_t information_len, uint8_t dvcc, bool broadcast, uint8_t *block, size_t block_len);

/*
 * Decodes the 260 bits of a forward block to the nearest word and writes its 109 bits of information. corrected is the number of bits
 * in which block and word disagree. Of words equally near, it is the one with a zero at the last place where they differ. Refused: 1
 * for block, then information; 2; 3.
 */
struct bts136_block bts136_dcch_decode_forward(
    const uint8_t *block, size_t block_len, uint8_t dvcc, bool broadcast, uint8_t *information, size_t information_len);
/* The same of the 244 bits of a normal reverse block, with 101 of information. */
struct bts136_block bts136_dcch_decode_reverse_normal(
    const uint8_t *block, size_t block_len, uint8_t dvcc, bool broadcast, uint8_t *information, size_t information_len);
/* The same of the 200 bits of an abbreviated reverse block, with 79 of information. */
struct bts136_block bts136_dcch_decode_reverse_abbreviated(
    const uint8_t *block, size_t block_len, uint8_t dvcc, bool broadcast, uint8_t *information, size_t information_len);

/*
 * Decodes the 260 reliabilities of a forward block and writes 109 bits of information. A positive reliability favours zero, a negative
 * one favours one, and a bit that disagrees costs its size. Costs are summed in doubles, in the original's order; where they are whole
 * numbers of size at most 2^40, nothing rounds and the word is one of least cost, ties as above. In corrected a reliability of zero
 * counts as a received zero. Refused: 1 for block, then information; 3, at once where a reliability is not finite.
 */
struct bts136_block bts136_dcch_decode_soft_forward(
    const double *block, size_t block_len, uint8_t dvcc, bool broadcast, uint8_t *information, size_t information_len);
/* The same of the 244 reliabilities of a normal reverse block, with 101 bits of information. */
struct bts136_block bts136_dcch_decode_soft_reverse_normal(
    const double *block, size_t block_len, uint8_t dvcc, bool broadcast, uint8_t *information, size_t information_len);
/* The same of the 200 reliabilities of an abbreviated reverse block, with 79 bits of information. */
struct bts136_block bts136_dcch_decode_soft_reverse_abbreviated(
    const double *block, size_t block_len, uint8_t dvcc, bool broadcast, uint8_t *information, size_t information_len);

/* ---- FACCH */

/* Codes a word into 260 bits. message has 48 bits, the first highest. Refused: 1; 2 for a message of 2^48 or more. */
struct bts136_written bts136_facch_encode(bool continuation, uint64_t message, uint8_t dvcc, uint8_t *coded, size_t coded_len);
/* Decodes the 260 bits of a word to the one nearest word. Refused: 1, 2, 5, 3. */
struct bts136_facch_word bts136_facch_decode(const uint8_t *coded, size_t coded_len, uint8_t dvcc);
/* The same, where the byte 2 is a bit that was not observed; disagreements are counted over observed bits. Refused: 1, 2, 4, 5, 3. */
struct bts136_facch_word bts136_facch_decode_erased(const uint8_t *coded, size_t coded_len, uint8_t dvcc);

/* The slot that finishes the previous word (even rows) and starts the current one (odd rows), 260 bits each. Refused: 1, 2. */
struct bts136_written bts136_facch_interleave(
    const uint8_t *previous, size_t previous_len, const uint8_t *current, size_t current_len, uint8_t *slot, size_t slot_len);
/* The word that starts in the first slot and is finished in the second, 260 bits each. Refused: 1, 2. */
struct bts136_written bts136_facch_deinterleave(
    const uint8_t *first, size_t first_len, const uint8_t *second, size_t second_len, uint8_t *coded, size_t coded_len);
/* The 130 bits of the word that starts in a slot of 260, at their places of 260; the others are 2. Refused: 1, 2. */
struct bts136_written bts136_facch_observe_start(const uint8_t *slot, size_t slot_len, uint8_t *coded, size_t coded_len);
/* The same of the word that ends in the slot. */
struct bts136_written bts136_facch_observe_end(const uint8_t *slot, size_t slot_len, uint8_t *coded, size_t coded_len);

/* ---- SACCH */

/* The fresh encoder. */
struct bts136_encoder bts136_sacch_new_encoder(void);
/* The fresh encoder, whatever was given. */
struct bts136_encoder bts136_sacch_reset(struct bts136_encoder encoder);
/* Codes six bits, the first highest, into the next field. Refused: 8; 2 for six bits above 63. */
struct bts136_field bts136_sacch_encode_bits(struct bts136_encoder encoder, uint8_t six);
/* Codes a word into the next eleven fields. message has 48 bits, the first highest. Refused: 8; 2 for a message of 2^48 or more. */
struct bts136_fields bts136_sacch_encode_word(struct bts136_encoder encoder, bool continuation, uint64_t message, uint8_t dvcc);

/* Decodes the 132 coded bits of a word to the one nearest word, whatever memory the encoder began with. Refused: 1, 2, 5, 6, 3. */
struct bts136_sacch_word bts136_sacch_decode(const uint8_t *coded, size_t coded_len, uint8_t dvcc);

/* The fresh deinterleaver. */
struct bts136_deinterleaver bts136_sacch_new_deinterleaver(void);
/* The fresh deinterleaver, whatever was given. */
struct bts136_deinterleaver bts136_sacch_reset_deinterleaver(struct bts136_deinterleaver deinterleaver);
/*
 * Takes the next field of a channel, twelve bits, the first highest. Give the deinterleaver of the last answer. From the twelfth field
 * on each completes a row. Refused: 8; 2 for a field above 4095.
 */
struct bts136_row bts136_sacch_deinterleave(struct bts136_deinterleaver deinterleaver, uint16_t field);

/* The fresh receiver. */
struct bts136_receiver bts136_sacch_new_receiver(void);
/* The fresh receiver, whatever was given: after a gap or a handoff. */
struct bts136_receiver bts136_sacch_discontinuity(struct bts136_receiver receiver);
/*
 * Pushes the next field of a channel, twelve bits, the first highest. Give the receiver of the last answer. Unlocked, each field from
 * the 22nd is a trial; a word locks, and then each eleventh field is one; a rejection (5, 6, 3) unlocks. Refused: 8; 2 for a field
 * above 4095.
 */
struct bts136_pushed bts136_sacch_pushed(struct bts136_receiver receiver, uint16_t field, uint8_t dvcc);
/* The same with a word or nothing: a rejection is BTS136_PENDING. Refused as above. */
struct bts136_pushed bts136_sacch_push(struct bts136_receiver receiver, uint16_t field, uint8_t dvcc);

/* ---- VSELP */

/* Codes 77 bits of class one and 82 of class two into a frame of 260. Refused: 1 in the order of the arguments; 2. */
struct bts136_written bts136_speech_encode(
    const uint8_t *class_one, size_t class_one_len, const uint8_t *class_two, size_t class_two_len, uint8_t *frame, size_t frame_len);
/* Decodes a frame of 260 bits to the one nearest word and writes 77 and 82 bits; valid tells its checksum. Refused: 1, 2, 5. */
struct bts136_frame bts136_speech_decode_candidate(
    const uint8_t *frame, size_t frame_len, uint8_t *class_one, size_t class_one_len, uint8_t *class_two, size_t class_two_len);
/* The slot that finishes the previous frame (even rows) and starts the current one (odd rows), 260 bits each. Refused: 1, 2. */
struct bts136_written bts136_speech_interleave(
    const uint8_t *previous, size_t previous_len, const uint8_t *current, size_t current_len, uint8_t *slot, size_t slot_len);
/* The frame that starts in the first slot and is finished in the second, 260 bits each. Refused: 1, 2. */
struct bts136_written bts136_speech_deinterleave(
    const uint8_t *first, size_t first_len, const uint8_t *second, size_t second_len, uint8_t *frame, size_t frame_len);

/* ---- ACELP CC1 */

/* Codes 148 bits of speech, in the codec's order, into a frame of 260. Refused: 1, 2. */
struct bts136_written bts136_acelp_encode(const uint8_t *speech, size_t speech_len, uint8_t *frame, size_t frame_len);
/* Decodes a frame of 260 bits to the one nearest word and writes 148 bits in the codec's order; valid tells its checksum. Refused: 1, 2, 5. */
struct bts136_frame bts136_acelp_decode(const uint8_t *frame, size_t frame_len, uint8_t *speech, size_t speech_len);

/*
 * The slot of 260 bits where a frame lies in one slot. history has 780 bits: three frames, oldest first, of which as many of the newest
 * are read as a frame has slots. Refused: 1, 2.
 */
struct bts136_written bts136_acelp_interleave_one(const uint8_t *history, size_t history_len, uint8_t *slot, size_t slot_len);
/* The same where a frame lies over two slots. */
struct bts136_written bts136_acelp_interleave_two(const uint8_t *history, size_t history_len, uint8_t *slot, size_t slot_len);
/* The same where a frame lies over three slots. */
struct bts136_written bts136_acelp_interleave_three(const uint8_t *history, size_t history_len, uint8_t *slot, size_t slot_len);

/*
 * The frame of 260 bits that lies in one slot. slots has 780 bits: three slots, oldest first, of which as many of the oldest are read
 * as the frame has. Refused: 1, 2.
 */
struct bts136_written bts136_acelp_deinterleave_one(const uint8_t *slots, size_t slots_len, uint8_t *frame, size_t frame_len);
/* The same where it lies over two slots. */
struct bts136_written bts136_acelp_deinterleave_two(const uint8_t *slots, size_t slots_len, uint8_t *frame, size_t frame_len);
/* The same where it lies over three slots. */
struct bts136_written bts136_acelp_deinterleave_three(const uint8_t *slots, size_t slots_len, uint8_t *frame, size_t frame_len);

#ifdef __cplusplus
}
#endif

#endif
