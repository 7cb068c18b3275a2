//! Every call of the library on slices of bytes, safe on any bytes and any lengths: what does not
//! fit is refused with a number, and then nothing is written.
//!
//! Bits are bytes 0 and 1, reliabilities doubles; answers are the records of [`sys`]. The calls on
//! states are methods of [`Encoder`], [`Deinterleaver`] and [`Receiver`].
//!
//! ```
//! use bts136::flat;
//!
//! let mut coded = [0; 260];
//! assert_eq!(flat::facch_encode(false, 0x123456789abc, 0x5a, &mut coded).refusal, 0);
//! coded[17] ^= 1;
//! let word = flat::facch_decode(&coded, 0x5a);
//! assert_eq!((word.refusal, word.message, word.corrected), (0, 0x123456789abc, 1));
//!
//! let short = flat::facch_decode(&coded[..259], 0x5a);
//! assert_eq!((short.refusal, short.expected, short.actual), (1, 260, 259));
//! ```
// Each pointer below comes with the length of the slice that it is taken from, and slices that are
// lent to one call do not overlap. The library writes within them and keeps none.
use crate::sys::{self, *};

/// Calls that read a slice and write one.
macro_rules! one_to_one {
    ($(
        $(#[$doc:meta])*
        $call:ident = $function:ident($from:ident, $to:ident) -> $answer:ty;
    )*) => {$(
        $(#[$doc])*
        pub fn $call($from: &[u8], $to: &mut [u8]) -> $answer {
            unsafe { sys::$function($from.as_ptr(), $from.len(), $to.as_mut_ptr(), $to.len()) }
        }
    )*};
}

/// Calls that read two slices and write one.
macro_rules! two_to_one {
    ($(
        $(#[$doc:meta])*
        $call:ident = $function:ident($one:ident, $two:ident, $to:ident);
    )*) => {$(
        $(#[$doc])*
        pub fn $call($one: &[u8], $two: &[u8], $to: &mut [u8]) -> Written {
            let (out, out_len) = ($to.as_mut_ptr(), $to.len());
            let (one, two) = ($one.as_ptr(), $two.as_ptr());
            unsafe { sys::$function(one, $one.len(), two, $two.len(), out, out_len) }
        }
    )*};
}

/// Calls on a DCCH block, each with the type of what it reads and of what it answers.
macro_rules! blocks {
    ($(
        $(#[$doc:meta])*
        $call:ident = $function:ident($from:ident: $type:ty, $to:ident) -> $answer:ty;
    )*) => {$(
        $(#[$doc])*
        pub fn $call($from: &[$type], dvcc: u8, broadcast: bool, $to: &mut [u8]) -> $answer {
            let (out, out_len) = ($to.as_mut_ptr(), $to.len());
            unsafe { sys::$function($from.as_ptr(), $from.len(), dvcc, broadcast, out, out_len) }
        }
    )*};
}

/// One step of the code of DCCH, SACCH and VSELP.
pub fn dcch_transition(state: u8, input: u8) -> Step {
    sys::bts136_dcch_transition(state, input)
}

/// One step of the code of FACCH.
pub fn facch_transition(state: u8, input: u8) -> Step {
    sys::bts136_facch_transition(state, input)
}

/// One step of the code of ACELP CC1.
pub fn acelp_transition(state: u8, input: u8) -> Step {
    sys::bts136_acelp_transition(state, input)
}

/// The 16-bit checksum of any number of bits under a colour code, complemented for broadcast.
pub fn checksum(information: &[u8], dvcc: u8, broadcast: bool) -> Crc {
    unsafe { sys::bts136_checksum(information.as_ptr(), information.len(), dvcc, broadcast) }
}

/// The register of that checksum after any number of bits, from a given one, not complemented.
pub fn checksum_from(register: u16, information: &[u8]) -> Crc {
    unsafe { sys::bts136_checksum_from(register, information.as_ptr(), information.len()) }
}

/// The 7-bit checksum of any number of a speech frame's bits.
pub fn checksum7(information: &[u8]) -> Crc {
    unsafe { sys::bts136_checksum7(information.as_ptr(), information.len()) }
}

one_to_one! {
    /// The nearest word from state 0 that ends in five zeros: the search of DCCH. 10 to 260
    /// bits, an even number, and half as many to write.
    viterbi = bts136_viterbi(coded, word) -> Search;
    /// A nearest word over all 32 starting memories: the search of SACCH. Lengths as in
    /// `viterbi`.
    viterbi_free = bts136_viterbi_free(coded, word) -> Search;
}

blocks! {
    /// Codes 109 bits into the 260 of a forward block.
    dcch_encode_forward = bts136_dcch_encode_forward(information: u8, block) -> Written;
    /// Codes 101 bits into the 244 of a normal reverse block.
    dcch_encode_reverse_normal = bts136_dcch_encode_reverse_normal(information: u8, block) -> Written;
    /// Codes 79 bits into the 200 of an abbreviated reverse block.
    dcch_encode_reverse_abbreviated =
        bts136_dcch_encode_reverse_abbreviated(information: u8, block) -> Written;
    /// Decodes the 260 bits of a forward block into 109.
    dcch_decode_forward = bts136_dcch_decode_forward(block: u8, information) -> Block;
    /// Decodes the 244 bits of a normal reverse block into 101.
    dcch_decode_reverse_normal = bts136_dcch_decode_reverse_normal(block: u8, information) -> Block;
    /// Decodes the 200 bits of an abbreviated reverse block into 79.
    dcch_decode_reverse_abbreviated =
        bts136_dcch_decode_reverse_abbreviated(block: u8, information) -> Block;
    /// Decodes the 260 reliabilities of a forward block into 109 bits.
    dcch_decode_soft_forward = bts136_dcch_decode_soft_forward(block: f64, information) -> Block;
    /// Decodes the 244 reliabilities of a normal reverse block into 101 bits.
    dcch_decode_soft_reverse_normal =
        bts136_dcch_decode_soft_reverse_normal(block: f64, information) -> Block;
    /// Decodes the 200 reliabilities of an abbreviated reverse block into 79 bits.
    dcch_decode_soft_reverse_abbreviated =
        bts136_dcch_decode_soft_reverse_abbreviated(block: f64, information) -> Block;
}

/// Codes a word into 260 bits.
pub fn facch_encode(continuation: bool, message: u64, dvcc: u8, coded: &mut [u8]) -> Written {
    let (out, out_len) = (coded.as_mut_ptr(), coded.len());
    unsafe { sys::bts136_facch_encode(continuation, message, dvcc, out, out_len) }
}

/// Decodes the 260 bits of a word.
pub fn facch_decode(coded: &[u8], dvcc: u8) -> FacchWord {
    unsafe { sys::bts136_facch_decode(coded.as_ptr(), coded.len(), dvcc) }
}

/// Decodes the 260 bits of a word, where 2 is one that was not observed.
pub fn facch_decode_erased(coded: &[u8], dvcc: u8) -> FacchWord {
    unsafe { sys::bts136_facch_decode_erased(coded.as_ptr(), coded.len(), dvcc) }
}

two_to_one! {
    /// The slot that finishes the previous word and starts the current one, 260 bits each.
    facch_interleave = bts136_facch_interleave(previous, current, slot);
    /// The word that starts in the first slot and is finished in the second, 260 bits each.
    facch_deinterleave = bts136_facch_deinterleave(first, second, coded);
}

one_to_one! {
    /// The bits of the word that starts in a slot; 2 where it carries none.
    facch_observe_start = bts136_facch_observe_start(slot, coded) -> Written;
    /// The bits of the word that ends in a slot; 2 where it carries none.
    facch_observe_end = bts136_facch_observe_end(slot, coded) -> Written;
}

/// Decodes the 132 bits of a word, whatever memory the encoder began with.
pub fn sacch_decode(coded: &[u8], dvcc: u8) -> SacchWord {
    unsafe { sys::bts136_sacch_decode(coded.as_ptr(), coded.len(), dvcc) }
}

impl Encoder {
    /// The fresh encoder.
    pub fn fresh() -> Self {
        sys::bts136_sacch_new_encoder()
    }
    /// The fresh encoder, whatever this one is.
    pub fn reset(self) -> Self {
        sys::bts136_sacch_reset(self)
    }
    /// Codes six bits, the first highest, into the next field.
    pub fn encode_bits(self, six: u8) -> Field {
        sys::bts136_sacch_encode_bits(self, six)
    }
    /// Codes a word into the next eleven fields.
    pub fn encode_word(self, continuation: bool, message: u64, dvcc: u8) -> Fields {
        sys::bts136_sacch_encode_word(self, continuation, message, dvcc)
    }
}

impl Deinterleaver {
    /// The fresh deinterleaver.
    pub fn fresh() -> Self {
        sys::bts136_sacch_new_deinterleaver()
    }
    /// The fresh deinterleaver, whatever this one is.
    pub fn reset(self) -> Self {
        sys::bts136_sacch_reset_deinterleaver(self)
    }
    /// Takes a field; from the twelfth on each completes a row.
    pub fn push(self, field: u16) -> Row {
        sys::bts136_sacch_deinterleave(self, field)
    }
}

impl Receiver {
    /// The fresh receiver.
    pub fn fresh() -> Self {
        sys::bts136_sacch_new_receiver()
    }
    /// The fresh receiver, whatever this one is.
    pub fn discontinuity(self) -> Self {
        sys::bts136_sacch_discontinuity(self)
    }
    /// Pushes a field: Pending, a word, a rejection or a refusal.
    pub fn pushed(self, field: u16, dvcc: u8) -> Pushed {
        sys::bts136_sacch_pushed(self, field, dvcc)
    }
    /// Pushes a field; a rejection is Pending.
    pub fn push(self, field: u16, dvcc: u8) -> Pushed {
        sys::bts136_sacch_push(self, field, dvcc)
    }
}

two_to_one! {
    /// Codes 77 and 82 bits into a frame of 260.
    speech_encode = bts136_speech_encode(class_one, class_two, frame);
    /// The slot that finishes the previous frame and starts the current one, 260 bits each.
    speech_interleave = bts136_speech_interleave(previous, current, slot);
    /// The frame that starts in the first slot and is finished in the second, 260 bits each.
    speech_deinterleave = bts136_speech_deinterleave(first, second, frame);
}

/// Decodes a frame of 260 bits into 77 and 82.
pub fn speech_decode_candidate(frame: &[u8], class_one: &mut [u8], class_two: &mut [u8]) -> Frame {
    let (from, len) = (frame.as_ptr(), frame.len());
    let (one, one_len) = (class_one.as_mut_ptr(), class_one.len());
    let (two, two_len) = (class_two.as_mut_ptr(), class_two.len());
    unsafe { sys::bts136_speech_decode_candidate(from, len, one, one_len, two, two_len) }
}

one_to_one! {
    /// Codes 148 bits, in the codec's order, into a frame of 260.
    acelp_encode = bts136_acelp_encode(speech, frame) -> Written;
    /// Decodes a frame of 260 bits into 148, in the codec's order.
    acelp_decode = bts136_acelp_decode(frame, speech) -> Frame;
    /// The slot of 260 bits where frames lie over one slot: 780 bits of three frames, oldest
    /// first.
    acelp_interleave_one = bts136_acelp_interleave_one(history, slot) -> Written;
    /// The slot of 260 bits where frames lie over two slots: 780 bits of three frames, oldest
    /// first.
    acelp_interleave_two = bts136_acelp_interleave_two(history, slot) -> Written;
    /// The slot of 260 bits where frames lie over three slots: 780 bits of three frames, oldest
    /// first.
    acelp_interleave_three = bts136_acelp_interleave_three(history, slot) -> Written;
    /// The frame of 260 bits that lies over one slot: 780 bits of three slots, oldest first.
    acelp_deinterleave_one = bts136_acelp_deinterleave_one(slots, frame) -> Written;
    /// The frame of 260 bits that lies over two slots: 780 bits of three slots, oldest first.
    acelp_deinterleave_two = bts136_acelp_deinterleave_two(slots, frame) -> Written;
    /// The frame of 260 bits that lies over three slots: 780 bits of three slots, oldest first.
    acelp_deinterleave_three = bts136_acelp_deinterleave_three(slots, frame) -> Written;
}
