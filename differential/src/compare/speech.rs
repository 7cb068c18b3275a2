//! VSELP frames coded, decoded and put into slots, the decoder beside an independent count of the
//! nearest words.
use crate::blocks::bytes;
use crate::calls::{array, refusal, writes};
use crate::compare::frames::Codec;
use crate::lent::Lent;
use crate::phy::speech as rust;
use crate::phy::speech::{CHANNEL_BITS, CLASS_ONE_BITS, CLASS_TWO_BITS, CrcStatus};
use crate::phy::speech::{SpeechBits, SpeechCandidate, SpeechError};
use crate::port::{Of, Refused};
use crate::port_facch::Written;
use crate::port_speech::speech as port;
use crate::port_speech::{Frame, accepted};
use crate::prng::Prng;
use crate::reference;

pub const INPUTS: usize = 89;

/// The frames that the decoder is tried on.
pub const FRAMES: Codec = Codec {
    inputs: INPUTS,
    sent: |p| rust::encode(&any_bits(p)),
    placed,
    decode: |frame| decode(&bytes(frame), CLASS_ONE_BITS, CLASS_TWO_BITS),
};

#[track_caller]
pub fn encode(one: &[u8], two: &[u8], room: usize) -> Written {
    let inputs = [(CLASS_ONE_BITS, one), (CLASS_TWO_BITS, two)];
    let wanted = match refusal(&inputs, &[(CHANNEL_BITS, room)]) {
        Some(refusal) => Err(refusal),
        None => Ok(bytes(&rust::encode(&SpeechBits {
            class_one: array(one),
            class_two: array(two),
        }))),
    };
    writes((one, two), room, wanted, |lent| {
        port::encode(one, two, lent)
    })
}

/// The two slices to write have room for so many bits.
#[track_caller]
pub fn decode(frame: &[u8], one: usize, two: usize) -> Frame {
    let (mut first, mut second) = (Lent::new(one), Lent::new(two));
    let answer = port::decode_candidate(frame, first.lend(), second.lend());
    let rooms = [(CLASS_ONE_BITS, one), (CLASS_TWO_BITS, two)];
    let candidate = match refusal(&[(CHANNEL_BITS, frame)], &rooms) {
        Some(refusal) => Err(Frame::of(refusal)),
        None => candidate(&array(frame)).ok_or(Frame::refused(5)),
    };
    match candidate {
        Ok(candidate) => {
            let valid = candidate.crc == CrcStatus::Valid;
            let wanted = accepted(valid, candidate.frame.corrected_coded_bits);
            assert_eq!(answer, wanted, "{frame:?}");
            let SpeechBits {
                class_one,
                class_two,
            } = &candidate.frame.bits;
            first.holds(Some(&bytes(class_one)), frame);
            second.holds(Some(&bytes(class_two)), frame);
        }
        Err(refusal) => {
            assert_eq!(answer, refusal, "{frame:?}");
            first.holds(None, frame);
            second.holds(None, frame);
        }
    }
    answer
}

/// The Rust's answer, which is also compared with the count; nothing where it is Ambiguous.
#[track_caller]
fn candidate(frame: &[bool; CHANNEL_BITS]) -> Option<SpeechCandidate> {
    let candidate = rust::decode_candidate(frame);
    let nearest = reference::ended(&protected(frame));
    let ambiguous = candidate == Err(SpeechError::Ambiguous);
    assert_eq!(ambiguous, nearest.words > 1, "{frame:?}");
    if ambiguous {
        return None;
    }
    let candidate = candidate.expect("no checksum is refused");
    // A failed checksum is a status here; the original's wrapper makes it an error.
    let failed = rust::decode(frame) == Err(SpeechError::Crc);
    assert_eq!(candidate.crc == CrcStatus::Failed, failed, "{frame:?}");
    let corrected = u32::from(candidate.frame.corrected_coded_bits);
    assert_eq!(corrected, nearest.metric, "{frame:?}");
    Some(candidate)
}

fn protected(frame: &[bool]) -> Vec<bool> {
    (0..CHANNEL_BITS)
        .filter(|place| !rust::probe::is_class_two(*place))
        .map(|place| frame[place])
        .collect()
}

/// The two frames or slots as the Rust takes them, or the refusal.
fn both(a: &[u8], b: &[u8], room: usize) -> Result<[[bool; CHANNEL_BITS]; 2], Written> {
    let inputs = [(CHANNEL_BITS, a), (CHANNEL_BITS, b)];
    match refusal(&inputs, &[(CHANNEL_BITS, room)]) {
        Some(refusal) => Err(refusal),
        None => Ok([array(a), array(b)]),
    }
}

#[track_caller]
pub fn interleave(previous: &[u8], current: &[u8], room: usize) -> Written {
    let rust = |[a, b]: [_; 2]| bytes(&rust::interleave(&a, &b));
    let wanted = both(previous, current, room).map(rust);
    writes((previous, current), room, wanted, |lent| {
        port::interleave(previous, current, lent)
    })
}

#[track_caller]
pub fn deinterleave(first: &[u8], second: &[u8], room: usize) -> Written {
    let rust = |[a, b]: [_; 2]| bytes(&rust::deinterleave(&a, &b));
    let wanted = both(first, second, room).map(rust);
    writes((first, second), room, wanted, |lent| {
        port::deinterleave(first, second, lent)
    })
}

pub fn any_bits(p: &mut Prng) -> SpeechBits {
    SpeechBits {
        class_one: p.array(),
        class_two: p.array(),
    }
}

/// A frame with these protected bits and any class two.
pub fn placed(p: &mut Prng, coded: &[bool]) -> [bool; CHANNEL_BITS] {
    let mut coded = coded.iter();
    std::array::from_fn(|place| match rust::probe::is_class_two(place) {
        true => p.bit(),
        false => *coded.next().expect("178 protected bits"),
    })
}
