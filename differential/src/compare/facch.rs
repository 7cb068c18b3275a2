//! FACCH words coded, put into slots and taken out, and decoded with any places observed, beside
//! an independent count of the nearest words.
use crate::blocks::bytes;
use crate::calls::{array, only_bits, refusal, writes};
use crate::phy::facch::{self, CODED_BITS, FacchError, FacchWord, MESSAGE_BITS, WordHalf};
use crate::port::Refused;
use crate::port_facch as port;
use crate::port_facch::{SYMBOL, Word, Written};
use crate::port_sacch::{number, unpacked};
use crate::prng::Prng;
use crate::reference_facch::nearest;

pub const MESSAGES: u64 = 1 << MESSAGE_BITS;
/// Below as many observed bits the Rust does not search.
pub const WORD_BITS: usize = 65;
const UNOBSERVED: u8 = 2;

#[track_caller]
pub fn encode(continuation: bool, message: u64, dvcc: u8, room: usize) -> Written {
    let wanted = match refusal(&[], &[(CODED_BITS, room)]) {
        Some(length) => Err(length),
        None if message >= MESSAGES => Err(SYMBOL),
        None => Ok(bytes(&facch::encode(
            continuation,
            &unpacked(message),
            dvcc,
        ))),
    };
    writes((continuation, message, dvcc), room, wanted, |lent| {
        port::encode(continuation, message, dvcc, lent)
    })
}

/// The two words or slots as the Rust takes them, or the refusal.
fn two(a: &[u8], b: &[u8], room: usize) -> Result<[[bool; CODED_BITS]; 2], Written> {
    match refusal(&[(CODED_BITS, a), (CODED_BITS, b)], &[(CODED_BITS, room)]) {
        Some(refusal) => Err(refusal),
        None => Ok([array(a), array(b)]),
    }
}

#[track_caller]
pub fn interleave(previous: &[u8], current: &[u8], room: usize) -> Written {
    let rust = |[a, b]: [_; 2]| bytes(&facch::interleave(&a, &b));
    let wanted = two(previous, current, room).map(rust);
    writes((previous, current), room, wanted, |lent| {
        port::interleave(previous, current, lent)
    })
}

#[track_caller]
pub fn deinterleave(first: &[u8], second: &[u8], room: usize) -> Written {
    let rust = |[a, b]: [_; 2]| bytes(&facch::deinterleave(&a, &b));
    let wanted = two(first, second, room).map(rust);
    writes((first, second), room, wanted, |lent| {
        port::deinterleave(first, second, lent)
    })
}

#[track_caller]
pub fn observe(end: bool, slot: &[u8], room: usize) -> Written {
    let half = if end { WordHalf::End } else { WordHalf::Start };
    let wanted = match refusal(&[(CODED_BITS, slot)], &[(CODED_BITS, room)]) {
        Some(refusal) => Err(refusal),
        None => Ok(received(&facch::observe_half(&array(slot), half)).to_vec()),
    };
    writes((end, slot), room, wanted, |lent| {
        port::observe(end, slot, lent)
    })
}

pub type Observed = [Option<bool>; CODED_BITS];

/// The bits as the port takes them.
pub fn received(observed: &Observed) -> [u8; CODED_BITS] {
    observed.map(|bit| bit.map_or(UNOBSERVED, u8::from))
}

/// The Rust's answer as the port gives it.
fn wanted(rust: &Result<FacchWord, FacchError>) -> Word {
    match rust {
        Ok(word) => Word {
            continuation: word.continuation,
            message: number(&word.message),
            corrected: word.corrected_coded_bits,
            observed: word.observed_coded_bits as u16,
            ..Word::refused(0)
        },
        Err(FacchError::InsufficientObservations) => Word::refused(4),
        Err(FacchError::Ambiguous) => Word::refused(5),
        Err(FacchError::Crc) => Word::refused(3),
    }
}

/// Any bytes: the refusal of their length, or of one above the largest that has a meaning.
fn refused(coded: &[u8], largest: u8) -> Option<Word> {
    if coded.len() != CODED_BITS {
        return Some(Word::length(CODED_BITS, coded.len()));
    }
    let symbols = coded.iter().all(|byte| *byte <= largest);
    (!symbols).then_some(Word::refused(2))
}

/// The Rust's answer, which is also compared with the independent count.
#[track_caller]
fn rust(coded: &[u8; CODED_BITS], dvcc: u8) -> Word {
    let observed = coded.map(|byte| (byte != UNOBSERVED).then_some(byte == 1));
    let rust = facch::decode_erased(&observed, dvcc);
    if observed.iter().flatten().count() >= WORD_BITS {
        let (least, count) = nearest(coded);
        let ambiguous = rust == Err(FacchError::Ambiguous);
        assert_eq!(ambiguous, count > 1, "{coded:?}");
        if let Ok(word) = &rust {
            assert_eq!(u32::from(word.corrected_coded_bits), least, "{coded:?}");
        }
    }
    wanted(&rust)
}

/// `decode_erased`, and where all is observed `decode` too.
#[track_caller]
pub fn decode_erased(coded: &[u8], dvcc: u8) -> Word {
    let wanted = match refused(coded, UNOBSERVED) {
        Some(refusal) => refusal,
        None => rust(coded.try_into().expect("260 bytes"), dvcc),
    };
    let answer = port::decode_erased(coded, dvcc);
    assert_eq!(answer, wanted, "{dvcc} {coded:?}");
    if only_bits(coded) {
        assert_eq!(port::decode(coded, dvcc), wanted, "{dvcc} {coded:?}");
    }
    answer
}

#[track_caller]
pub fn decode(coded: &[u8], dvcc: u8) -> Word {
    let rust = || wanted(&facch::decode(&array(coded), dvcc));
    let wanted = refused(coded, 1).unwrap_or_else(rust);
    let answer = port::decode(coded, dvcc);
    assert_eq!(answer, wanted, "{dvcc} {coded:?}");
    answer
}

/// A word as it was sent.
pub struct Sent {
    pub dvcc: u8,
    pub coded: [bool; CODED_BITS],
}

pub fn sent(p: &mut Prng) -> Sent {
    let dvcc = p.byte();
    let coded = facch::encode(p.bit(), &unpacked(p.draw() % MESSAGES), dvcc);
    Sent { dvcc, coded }
}

/// All places in a random order.
pub fn shuffled(p: &mut Prng) -> Vec<usize> {
    let mut order: Vec<usize> = (0..CODED_BITS).collect();
    for at in 0..CODED_BITS {
        let other = at + p.below(CODED_BITS - at);
        order.swap(at, other);
    }
    order
}

pub fn only(coded: &[bool; CODED_BITS], places: &[usize]) -> Observed {
    let mut observed = [None; CODED_BITS];
    for place in places {
        observed[*place] = Some(coded[*place]);
    }
    observed
}

/// Keeps that many places, chosen at random.
pub fn keep(p: &mut Prng, coded: &[bool; CODED_BITS], kept: usize) -> Observed {
    only(coded, &shuffled(p)[..kept])
}

/// What one slot carries of a word.
pub fn half(coded: &[bool; CODED_BITS], half: WordHalf) -> Observed {
    facch::observe_half(&facch::interleave(coded, coded), half)
}

/// That many flips, some perhaps of the same place.
pub fn flip(p: &mut Prng, coded: &mut [bool; CODED_BITS], flips: usize) {
    for _ in 0..flips {
        let place = p.below(CODED_BITS);
        coded[place] ^= true;
    }
}

/// Halfway between two words, under the first one's colour code: a tie wherever a third one is not
/// nearer.
pub fn between(p: &mut Prng) -> Sent {
    let (one, other) = (sent(p), sent(p));
    let mut coded = one.coded;
    let apart: Vec<usize> = (0..CODED_BITS)
        .filter(|place| one.coded[*place] != other.coded[*place])
        .collect();
    for place in &apart[..apart.len() / 2] {
        coded[*place] ^= true;
    }
    Sent { coded, ..one }
}
