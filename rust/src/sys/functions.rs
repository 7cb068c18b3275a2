//! The functions of the archive.
//!
//! A slice is a pointer and its length. Safety, for each of them: the pointer is to as many elements
//! as the length says (it may be null where that is 0), and slices of one call do not overlap. Any
//! bytes and any lengths will do; what does not fit is refused.
#![allow(clippy::missing_safety_doc)]
use super::records::*;

unsafe extern "C" {
    // Steps, checksums and the bare searches.
    /// One step of the code of DCCH, SACCH and VSELP.
    pub safe fn bts136_dcch_transition(state: u8, input: u8) -> Step;
    /// One step of the code of FACCH.
    pub safe fn bts136_facch_transition(state: u8, input: u8) -> Step;
    /// One step of the code of ACELP CC1.
    pub safe fn bts136_acelp_transition(state: u8, input: u8) -> Step;
    /// The 16-bit checksum of any number of bits under a colour code, complemented for
    /// broadcast.
    pub fn bts136_checksum(
        information: *const u8,
        information_len: usize,
        dvcc: u8,
        broadcast: bool,
    ) -> Crc;
    /// The register of that checksum after any number of bits, from a given one, not complemented.
    pub fn bts136_checksum_from(
        register_before: u16,
        information: *const u8,
        information_len: usize,
    ) -> Crc;
    /// The 7-bit checksum of any number of a speech frame's bits.
    pub fn bts136_checksum7(information: *const u8, information_len: usize) -> Crc;
    /// The nearest word from state 0 that ends in five zeros: the search of DCCH. 10 to 260
    /// bits, an even number, and half as many to write.
    pub fn bts136_viterbi(
        coded: *const u8,
        coded_len: usize,
        word: *mut u8,
        word_len: usize,
    ) -> Search;
    /// A nearest word over all 32 starting memories: the search of SACCH. Lengths as in
    /// `viterbi`.
    pub fn bts136_viterbi_free(
        coded: *const u8,
        coded_len: usize,
        word: *mut u8,
        word_len: usize,
    ) -> Search;

    // DCCH.
    /// Codes 109 bits into the 260 of a forward block.
    pub fn bts136_dcch_encode_forward(
        information: *const u8,
        information_len: usize,
        dvcc: u8,
        broadcast: bool,
        block: *mut u8,
        block_len: usize,
    ) -> Written;
    /// Codes 101 bits into the 244 of a normal reverse block.
    pub fn bts136_dcch_encode_reverse_normal(
        information: *const u8,
        information_len: usize,
        dvcc: u8,
        broadcast: bool,
        block: *mut u8,
        block_len: usize,
    ) -> Written;
    /// Codes 79 bits into the 200 of an abbreviated reverse block.
    pub fn bts136_dcch_encode_reverse_abbreviated(
        information: *const u8,
        information_len: usize,
        dvcc: u8,
        broadcast: bool,
        block: *mut u8,
        block_len: usize,
    ) -> Written;
    /// Decodes the 260 bits of a forward block into 109.
    pub fn bts136_dcch_decode_forward(
        block: *const u8,
        block_len: usize,
        dvcc: u8,
        broadcast: bool,
        information: *mut u8,
        information_len: usize,
    ) -> Block;
    /// Decodes the 244 bits of a normal reverse block into 101.
    pub fn bts136_dcch_decode_reverse_normal(
        block: *const u8,
        block_len: usize,
        dvcc: u8,
        broadcast: bool,
        information: *mut u8,
        information_len: usize,
    ) -> Block;
    /// Decodes the 200 bits of an abbreviated reverse block into 79.
    pub fn bts136_dcch_decode_reverse_abbreviated(
        block: *const u8,
        block_len: usize,
        dvcc: u8,
        broadcast: bool,
        information: *mut u8,
        information_len: usize,
    ) -> Block;
    /// Decodes the 260 reliabilities of a forward block into 109 bits.
    pub fn bts136_dcch_decode_soft_forward(
        block: *const f64,
        block_len: usize,
        dvcc: u8,
        broadcast: bool,
        information: *mut u8,
        information_len: usize,
    ) -> Block;
    /// Decodes the 244 reliabilities of a normal reverse block into 101 bits.
    pub fn bts136_dcch_decode_soft_reverse_normal(
        block: *const f64,
        block_len: usize,
        dvcc: u8,
        broadcast: bool,
        information: *mut u8,
        information_len: usize,
    ) -> Block;
    /// Decodes the 200 reliabilities of an abbreviated reverse block into 79 bits.
    pub fn bts136_dcch_decode_soft_reverse_abbreviated(
        block: *const f64,
        block_len: usize,
        dvcc: u8,
        broadcast: bool,
        information: *mut u8,
        information_len: usize,
    ) -> Block;

    // FACCH.
    /// Codes a word into 260 bits.
    pub fn bts136_facch_encode(
        continuation: bool,
        message: u64,
        dvcc: u8,
        coded: *mut u8,
        coded_len: usize,
    ) -> Written;
    /// Decodes the 260 bits of a word.
    pub fn bts136_facch_decode(coded: *const u8, coded_len: usize, dvcc: u8) -> FacchWord;
    /// Decodes the 260 bits of a word, where 2 is one that was not observed.
    pub fn bts136_facch_decode_erased(coded: *const u8, coded_len: usize, dvcc: u8) -> FacchWord;
    /// The slot that finishes the previous word and starts the current one, 260 bits each.
    pub fn bts136_facch_interleave(
        previous: *const u8,
        previous_len: usize,
        current: *const u8,
        current_len: usize,
        slot: *mut u8,
        slot_len: usize,
    ) -> Written;
    /// The word that starts in the first slot and is finished in the second, 260 bits each.
    pub fn bts136_facch_deinterleave(
        first: *const u8,
        first_len: usize,
        second: *const u8,
        second_len: usize,
        coded: *mut u8,
        coded_len: usize,
    ) -> Written;
    /// The bits of the word that starts in a slot; 2 where it carries none.
    pub fn bts136_facch_observe_start(
        slot: *const u8,
        slot_len: usize,
        coded: *mut u8,
        coded_len: usize,
    ) -> Written;
    /// The bits of the word that ends in a slot; 2 where it carries none.
    pub fn bts136_facch_observe_end(
        slot: *const u8,
        slot_len: usize,
        coded: *mut u8,
        coded_len: usize,
    ) -> Written;

    // SACCH.
    /// The fresh encoder.
    pub safe fn bts136_sacch_new_encoder() -> Encoder;
    /// The fresh encoder, whatever was given.
    pub safe fn bts136_sacch_reset(encoder: Encoder) -> Encoder;
    /// Codes six bits, the first highest, into the next field.
    pub safe fn bts136_sacch_encode_bits(encoder: Encoder, six: u8) -> Field;
    /// Codes a word into the next eleven fields.
    pub safe fn bts136_sacch_encode_word(
        encoder: Encoder,
        continuation: bool,
        message: u64,
        dvcc: u8,
    ) -> Fields;
    /// Decodes the 132 bits of a word, whatever memory the encoder began with.
    pub fn bts136_sacch_decode(coded: *const u8, coded_len: usize, dvcc: u8) -> SacchWord;
    /// The fresh deinterleaver.
    pub safe fn bts136_sacch_new_deinterleaver() -> Deinterleaver;
    /// The fresh deinterleaver, whatever was given.
    pub safe fn bts136_sacch_reset_deinterleaver(deinterleaver: Deinterleaver) -> Deinterleaver;
    /// Takes a field; from the twelfth on each completes a row.
    pub safe fn bts136_sacch_deinterleave(deinterleaver: Deinterleaver, field: u16) -> Row;
    /// The fresh receiver.
    pub safe fn bts136_sacch_new_receiver() -> Receiver;
    /// The fresh receiver, whatever was given.
    pub safe fn bts136_sacch_discontinuity(receiver: Receiver) -> Receiver;
    /// Pushes a field: Pending, a word, a rejection or a refusal.
    pub safe fn bts136_sacch_pushed(receiver: Receiver, field: u16, dvcc: u8) -> Pushed;
    /// Pushes a field; a rejection is Pending.
    pub safe fn bts136_sacch_push(receiver: Receiver, field: u16, dvcc: u8) -> Pushed;

    // VSELP.
    /// Codes 77 and 82 bits into a frame of 260.
    pub fn bts136_speech_encode(
        class_one: *const u8,
        class_one_len: usize,
        class_two: *const u8,
        class_two_len: usize,
        frame: *mut u8,
        frame_len: usize,
    ) -> Written;
    /// Decodes a frame of 260 bits into 77 and 82.
    pub fn bts136_speech_decode_candidate(
        frame: *const u8,
        frame_len: usize,
        class_one: *mut u8,
        class_one_len: usize,
        class_two: *mut u8,
        class_two_len: usize,
    ) -> Frame;
    /// The slot that finishes the previous frame and starts the current one, 260 bits each.
    pub fn bts136_speech_interleave(
        previous: *const u8,
        previous_len: usize,
        current: *const u8,
        current_len: usize,
        slot: *mut u8,
        slot_len: usize,
    ) -> Written;
    /// The frame that starts in the first slot and is finished in the second, 260 bits each.
    pub fn bts136_speech_deinterleave(
        first: *const u8,
        first_len: usize,
        second: *const u8,
        second_len: usize,
        frame: *mut u8,
        frame_len: usize,
    ) -> Written;

    // ACELP CC1.
    /// Codes 148 bits, in the codec's order, into a frame of 260.
    pub fn bts136_acelp_encode(
        speech: *const u8,
        speech_len: usize,
        frame: *mut u8,
        frame_len: usize,
    ) -> Written;
    /// Decodes a frame of 260 bits into 148, in the codec's order.
    pub fn bts136_acelp_decode(
        frame: *const u8,
        frame_len: usize,
        speech: *mut u8,
        speech_len: usize,
    ) -> Frame;
    /// The slot of 260 bits where frames lie over one slot: 780 bits of three frames, oldest
    /// first.
    pub fn bts136_acelp_interleave_one(
        history: *const u8,
        history_len: usize,
        slot: *mut u8,
        slot_len: usize,
    ) -> Written;
    /// The slot of 260 bits where frames lie over two slots: 780 bits of three frames, oldest
    /// first.
    pub fn bts136_acelp_interleave_two(
        history: *const u8,
        history_len: usize,
        slot: *mut u8,
        slot_len: usize,
    ) -> Written;
    /// The slot of 260 bits where frames lie over three slots: 780 bits of three frames, oldest
    /// first.
    pub fn bts136_acelp_interleave_three(
        history: *const u8,
        history_len: usize,
        slot: *mut u8,
        slot_len: usize,
    ) -> Written;
    /// The frame of 260 bits that lies over one slot: 780 bits of three slots, oldest first.
    pub fn bts136_acelp_deinterleave_one(
        slots: *const u8,
        slots_len: usize,
        frame: *mut u8,
        frame_len: usize,
    ) -> Written;
    /// The frame of 260 bits that lies over two slots: 780 bits of three slots, oldest first.
    pub fn bts136_acelp_deinterleave_two(
        slots: *const u8,
        slots_len: usize,
        frame: *mut u8,
        frame_len: usize,
    ) -> Written;
    /// The frame of 260 bits that lies over three slots: 780 bits of three slots, oldest first.
    pub fn bts136_acelp_deinterleave_three(
        slots: *const u8,
        slots_len: usize,
        frame: *mut u8,
        frame_len: usize,
    ) -> Written;
}
