//! SACCH: encoder, decoder, deinterleaver and receiver, as `phy::sacch` has them.
//!
//! Encoder, deinterleaver and receiver go to and from the library's records ([`sys::Encoder`],
//! [`sys::Deinterleaver`], [`sys::Receiver`]), so that they can be stored. An error also has its
//! [`number`](SacchError::number).
//!
//! ```
//! use bts136::sacch::{SacchEncoder, SacchReceiver};
//!
//! let mut encoder = SacchEncoder::default();
//! let mut receiver = SacchReceiver::default();
//! let mut heard = Vec::new();
//! for message in [[true; 48], [false; 48], [true; 48]] {
//!     for field in encoder.encode_word(false, &message, 0x5a) {
//!         heard.extend(receiver.push(field, 0x5a));
//!     }
//! }
//! // A word is heard eleven slots after its last field was sent.
//! assert_eq!(heard.len(), 2);
//! assert_eq!(heard[1].message, [false; 48]);
//! ```
// Names and the texts of errors are those of 136-bts, sacch.rs (see NOTICE).
use crate::bits::{bytes, packed, unpacked};
use crate::refusal::{Refusal, never};
use crate::{flat, sys};
use std::error::Error;
use std::fmt;

/// The bits of a field; `phy::traffic` has it.
pub const SACCH_BITS: usize = 12;
/// The bits of a message.
pub const MESSAGE_BITS: usize = 48;
/// The bits of a word: two of header, the message and 16 of checksum.
pub const WORD_BITS: usize = MESSAGE_BITS + 2 + 16;
/// The bits of a coded word.
pub const CODED_WORD_BITS: usize = WORD_BITS * 2;
/// The slots of a word.
pub const WORD_SLOTS: usize = WORD_BITS / DATA_BITS_PER_SLOT;
const DATA_BITS_PER_SLOT: usize = SACCH_BITS / 2;

/// A word decoded.
#[derive(Debug, Clone, PartialEq, Eq)]
pub struct SacchWord {
    /// The first bit of the word.
    pub continuation: bool,
    /// The message, first sent bit first.
    pub message: [bool; MESSAGE_BITS],
    /// How many coded bits disagree with the word's.
    pub corrected_coded_bits: u16,
    /// The encoder's memory after the word.
    pub final_encoder_state: u8,
}

/// Why a word is rejected.
#[derive(Debug, Clone, Copy, PartialEq, Eq)]
pub enum SacchError {
    /// Two different words are equally near.
    Ambiguous,
    /// The second bit of the nearest word is set.
    Reserved,
    /// The checksum of the nearest word differs.
    Crc,
}

impl SacchError {
    /// The number: 5, 6 or 3.
    pub fn number(self) -> u8 {
        Refusal::from(self).number()
    }
    fn of(number: u8) -> Self {
        match number {
            3 => Self::Crc,
            5 => Self::Ambiguous,
            6 => Self::Reserved,
            other => never(other),
        }
    }
}

impl From<SacchError> for Refusal {
    fn from(error: SacchError) -> Self {
        match error {
            SacchError::Ambiguous => Self::Ambiguous,
            SacchError::Reserved => Self::Reserved,
            SacchError::Crc => Self::Crc,
        }
    }
}

impl fmt::Display for SacchError {
    fn fmt(&self, f: &mut fmt::Formatter<'_>) -> fmt::Result {
        write!(f, "SACCH decode failed: {self:?}")
    }
}

impl Error for SacchError {}

/// The encoder: its memory, and the rows that are still to send. `default` is the fresh one.
#[derive(Debug, Clone, PartialEq, Eq)]
pub struct SacchEncoder(sys::Encoder);

impl Default for SacchEncoder {
    fn default() -> Self {
        Self(sys::Encoder::fresh())
    }
}

impl SacchEncoder {
    /// Starts anew.
    pub fn reset(&mut self) {
        self.0 = self.0.reset();
    }
    /// The fields of a word (IS-54-B 2.7.3.1.2).
    pub fn encode_word(
        &mut self,
        continuation: bool,
        message: &[bool; MESSAGE_BITS],
        dvcc: u8,
    ) -> [[bool; SACCH_BITS]; WORD_SLOTS] {
        let made = self.0.encode_word(continuation, packed(message), dvcc);
        if made.refusal != 0 {
            never(made.refusal)
        }
        self.0 = made.encoder;
        made.fields.map(|field| unpacked(field.into()))
    }
    /// The field of six bits.
    pub fn encode_bits(&mut self, bits: [bool; DATA_BITS_PER_SLOT]) -> [bool; SACCH_BITS] {
        let made = self.0.encode_bits(packed(&bits) as u8);
        if made.refusal != 0 {
            never(made.refusal)
        }
        self.0 = made.encoder;
        unpacked(made.field.into())
    }
}

impl From<SacchEncoder> for sys::Encoder {
    fn from(encoder: SacchEncoder) -> Self {
        encoder.0
    }
}

impl TryFrom<sys::Encoder> for SacchEncoder {
    type Error = Refusal;

    /// Refused with 8 where something is out of its range.
    fn try_from(record: sys::Encoder) -> Result<Self, Refusal> {
        match record.encode_bits(0).refusal {
            0 => Ok(Self(record)),
            8 => Err(Refusal::State),
            other => never(other),
        }
    }
}

/// The deinterleaver: the last twelve fields. `default` is the fresh one.
#[derive(Debug, Clone, PartialEq, Eq)]
pub struct SacchDeinterleaver(sys::Deinterleaver);

impl Default for SacchDeinterleaver {
    fn default() -> Self {
        Self(sys::Deinterleaver::fresh())
    }
}

impl SacchDeinterleaver {
    /// Starts anew.
    pub fn reset(&mut self) {
        self.0 = self.0.reset();
    }
    /// Takes the next field of the channel; from the twelfth on each completes a row (IS-54-B
    /// 2.7.3.1.2.1).
    pub fn push(&mut self, slot: [bool; SACCH_BITS]) -> Option<[bool; SACCH_BITS]> {
        let pushed = self.0.push(packed(&slot) as u16);
        if pushed.refusal != 0 {
            never(pushed.refusal)
        }
        self.0 = pushed.deinterleaver;
        pushed.complete.then(|| unpacked(pushed.row.into()))
    }
}

impl From<SacchDeinterleaver> for sys::Deinterleaver {
    fn from(deinterleaver: SacchDeinterleaver) -> Self {
        deinterleaver.0
    }
}

impl TryFrom<sys::Deinterleaver> for SacchDeinterleaver {
    type Error = Refusal;

    /// Refused with 8 where something is out of its range.
    fn try_from(record: sys::Deinterleaver) -> Result<Self, Refusal> {
        match record.push(0).refusal {
            0 => Ok(Self(record)),
            8 => Err(Refusal::State),
            other => never(other),
        }
    }
}

/// Decodes the coded bits of a word, whatever memory the encoder began with.
pub fn decode(coded: &[bool; CODED_WORD_BITS], dvcc: u8) -> Result<SacchWord, SacchError> {
    let answer = flat::sacch_decode(&bytes(coded), dvcc);
    match answer.refusal {
        0 => Ok(SacchWord {
            continuation: answer.continuation,
            message: unpacked(answer.message),
            corrected_coded_bits: answer.corrected,
            final_encoder_state: answer.ending,
        }),
        number => Err(SacchError::of(number)),
    }
}

/// What a push tells.
#[derive(Debug, Clone, PartialEq, Eq)]
pub enum ReceiveOutcome {
    /// No word yet.
    Pending,
    /// A word.
    Word(SacchWord),
    /// The last eleven rows are no word; a lock is dropped.
    Rejected(SacchError),
}

/// The receiver: it finds where words begin. `default` is the fresh one.
///
/// With clean fields of words sent one after another, of which no eleven rows other than a word's
/// decode to one, the first word comes by the 42nd field and then each eleventh gives the next.
#[derive(Debug, Clone, PartialEq, Eq)]
pub struct SacchReceiver(sys::Receiver);

impl Default for SacchReceiver {
    fn default() -> Self {
        Self(sys::Receiver::fresh())
    }
}

impl SacchReceiver {
    /// Starts anew: after a gap or a handoff.
    pub fn discontinuity(&mut self) {
        self.0 = self.0.discontinuity();
    }
    /// Takes the next field of the channel; a word, or nothing.
    pub fn push(&mut self, slot: [bool; SACCH_BITS], dvcc: u8) -> Option<SacchWord> {
        match self.push_outcome(slot, dvcc) {
            ReceiveOutcome::Word(word) => Some(word),
            ReceiveOutcome::Pending | ReceiveOutcome::Rejected(_) => None,
        }
    }
    /// Takes the next field of the channel, and tells why there is no word.
    pub fn push_outcome(&mut self, slot: [bool; SACCH_BITS], dvcc: u8) -> ReceiveOutcome {
        let pushed = self.0.pushed(packed(&slot) as u16, dvcc);
        self.0 = pushed.receiver;
        match pushed.kind {
            sys::PENDING => ReceiveOutcome::Pending,
            sys::WORD => ReceiveOutcome::Word(SacchWord {
                continuation: pushed.continuation,
                message: unpacked(pushed.message),
                corrected_coded_bits: pushed.corrected,
                final_encoder_state: pushed.ending,
            }),
            sys::REJECTED => ReceiveOutcome::Rejected(SacchError::of(pushed.refusal)),
            _ => never(pushed.refusal),
        }
    }
}

impl From<SacchReceiver> for sys::Receiver {
    fn from(receiver: SacchReceiver) -> Self {
        receiver.0
    }
}

impl TryFrom<sys::Receiver> for SacchReceiver {
    type Error = Refusal;

    /// Refused with 8 where something is out of its range.
    fn try_from(record: sys::Receiver) -> Result<Self, Refusal> {
        let tried = record.pushed(0, 0);
        match (tried.kind, tried.refusal) {
            (sys::REFUSED, 8) => Err(Refusal::State),
            (sys::REFUSED, other) => never(other),
            _ => Ok(Self(record)),
        }
    }
}
