//! The records that calls take and answer, by value.
//!
//! `refusal` is 0 for an accepted call, else a number of [`Refusal`](crate::Refusal); then every
//! other field is 0, but for `expected` and `actual` with number 1, and for states, which come
//! back as they were.

/// One step of a convolutional code.
#[repr(C)]
#[derive(Clone, Copy, Debug, PartialEq, Eq)]
pub struct Step {
    /// 0, 2 or 8.
    pub refusal: u8,
    /// The next state, 0 to 31.
    pub next: u8,
    /// The coded bits, 0 or 1; those that the code does not have are 0.
    pub output: [u8; 4],
}

/// A checksum, or the register of one.
#[repr(C)]
#[derive(Clone, Copy, Debug, PartialEq, Eq)]
pub struct Crc {
    /// 0 or 2.
    pub refusal: u8,
    /// 16 bits, or 0 to 127 where it has 7.
    pub value: u16,
}

/// A bare search.
#[repr(C)]
#[derive(Clone, Copy, Debug, PartialEq, Eq)]
pub struct Search {
    /// 0, 1 or 2.
    pub refusal: u8,
    /// With number 1, the length that was expected.
    pub expected: usize,
    /// With number 1, the length that came.
    pub actual: usize,
    /// The fewest disagreements, at most the length of the block.
    pub metric: u16,
    /// Whether another word has as few.
    pub tie: bool,
}

/// A decoded DCCH block.
#[repr(C)]
#[derive(Clone, Copy, Debug, PartialEq, Eq)]
pub struct Block {
    /// 0, 1, 2 or 3.
    pub refusal: u8,
    /// With number 1, the length that was expected.
    pub expected: usize,
    /// With number 1, the length that came.
    pub actual: usize,
    /// Corrected coded bits, at most the length of the block.
    pub corrected: u16,
}

/// A call that only writes bits.
#[repr(C)]
#[derive(Clone, Copy, Debug, PartialEq, Eq)]
pub struct Written {
    /// 0, 1 or 2.
    pub refusal: u8,
    /// With number 1, the length that was expected.
    pub expected: usize,
    /// With number 1, the length that came.
    pub actual: usize,
}

/// A FACCH word decoded.
#[repr(C)]
#[derive(Clone, Copy, Debug, Default, PartialEq, Eq)]
pub struct FacchWord {
    /// 0 to 5.
    pub refusal: u8,
    /// With number 1, the length that was expected.
    pub expected: usize,
    /// With number 1, the length that came.
    pub actual: usize,
    /// The first bit of the word.
    pub continuation: bool,
    /// 48 bits, the first highest.
    pub message: u64,
    /// Observed bits that disagree with the word, at most 260.
    pub corrected: u16,
    /// Observed bits, 65 to 260.
    pub observed: u16,
}

/// The SACCH encoder. Any value may be given; one out of its range is refused with 8.
#[repr(C)]
#[derive(Clone, Copy, Debug, PartialEq, Eq)]
pub struct Encoder {
    /// The last five inputs, 0 to 31.
    pub memory: u8,
    /// The rows of the last twelve slots, twelve bits each, the first highest: 0 to 4095.
    pub rows: [u16; 12],
    /// The place of the oldest row, 0 to 11.
    pub cursor: usize,
}

/// One field of SACCH, and the encoder after it.
#[repr(C)]
#[derive(Clone, Copy, Debug, PartialEq, Eq)]
pub struct Field {
    /// 0, 2 or 8.
    pub refusal: u8,
    /// The encoder after the call.
    pub encoder: Encoder,
    /// Twelve bits, the first highest: 0 to 4095.
    pub field: u16,
}

/// The eleven fields of a SACCH word, and the encoder after them.
#[repr(C)]
#[derive(Clone, Copy, Debug, PartialEq, Eq)]
pub struct Fields {
    /// 0, 2 or 8.
    pub refusal: u8,
    /// The encoder after the call.
    pub encoder: Encoder,
    /// Twelve bits each, the first highest: 0 to 4095.
    pub fields: [u16; 11],
}

/// A SACCH word decoded.
#[repr(C)]
#[derive(Clone, Copy, Debug, Default, PartialEq, Eq)]
pub struct SacchWord {
    /// 0, 1, 2, 3, 5 or 6.
    pub refusal: u8,
    /// With number 1, the length that was expected.
    pub expected: usize,
    /// With number 1, the length that came.
    pub actual: usize,
    /// The first bit of the word.
    pub continuation: bool,
    /// 48 bits, the first highest.
    pub message: u64,
    /// Corrected coded bits, at most 132.
    pub corrected: u16,
    /// The encoder's memory after the word, 0 to 31.
    pub ending: u8,
}

/// The SACCH deinterleaver. Any value may be given; one out of its range is refused with 8.
#[repr(C)]
#[derive(Clone, Copy, Debug, PartialEq, Eq)]
pub struct Deinterleaver {
    /// The last twelve fields, 0 to 4095.
    pub fields: [u16; 12],
    /// The place of the next field, 0 to 11.
    pub cursor: usize,
    /// How many fields came, 0 to 12, where it stops.
    pub received: usize,
}

/// A row of SACCH, and the deinterleaver after it.
#[repr(C)]
#[derive(Clone, Copy, Debug, PartialEq, Eq)]
pub struct Row {
    /// 0, 2 or 8.
    pub refusal: u8,
    /// Whether the field completed a row: so does each from the twelfth on.
    pub complete: bool,
    /// Twelve bits, the first highest: 0 to 4095.
    pub row: u16,
    /// The deinterleaver after the call.
    pub deinterleaver: Deinterleaver,
}

/// The SACCH receiver. Any value may be given; one out of its range is refused with 8.
#[repr(C)]
#[derive(Clone, Copy, Debug, PartialEq, Eq)]
pub struct Receiver {
    /// The last twelve fields, 0 to 4095.
    pub fields: [u16; 12],
    /// The place of the next field, 0 to 11.
    pub field_cursor: usize,
    /// How many fields came, 0 to 12, where it stops.
    pub received: usize,
    /// The last eleven rows, 0 to 4095.
    pub rows: [u16; 11],
    /// The place of the next row, 0 to 10.
    pub row_cursor: usize,
    /// How many rows came, 0 to 11, where it stops.
    pub available: usize,
    /// Rows counted round, 0 to 10.
    pub phase: u8,
    /// The phase at which words end, 0 to 10, or [`UNLOCKED`].
    pub lock: u8,
}

/// The `lock` of a receiver that has none.
pub const UNLOCKED: u8 = 255;

/// What a push answers, and the receiver after it.
#[repr(C)]
#[derive(Clone, Copy, Debug, PartialEq, Eq)]
pub struct Pushed {
    /// [`PENDING`], [`WORD`], [`REJECTED`] or [`REFUSED`].
    pub kind: u8,
    /// With [`REJECTED`] 3, 5 or 6; with [`REFUSED`] 2 or 8; else 0.
    pub refusal: u8,
    /// The first bit of the word.
    pub continuation: bool,
    /// 48 bits, the first highest.
    pub message: u64,
    /// Corrected coded bits, at most 132.
    pub corrected: u16,
    /// The encoder's memory after the word, 0 to 31.
    pub ending: u8,
    /// The receiver after the push; with [`REFUSED`] the one that was given.
    pub receiver: Receiver,
}

/// No word yet.
pub const PENDING: u8 = 0;
/// A word.
pub const WORD: u8 = 1;
/// The rows are no word. The receiver has moved.
pub const REJECTED: u8 = 2;
/// The call was refused. The receiver is as it was.
pub const REFUSED: u8 = 3;

/// A speech frame decoded.
#[repr(C)]
#[derive(Clone, Copy, Debug, Default, PartialEq, Eq)]
pub struct Frame {
    /// 0, 1, 2 or 5.
    pub refusal: u8,
    /// With number 1, the length that was expected.
    pub expected: usize,
    /// With number 1, the length that came.
    pub actual: usize,
    /// Whether the checksum is right. A frame with a wrong one is accepted all the same.
    pub valid: bool,
    /// Corrected protected bits, at most 178 in VSELP and 208 in ACELP.
    pub corrected: u16,
}
