//! ACELP CC1 frames coded, decoded and put into slots, the decoder beside an independent count of
//! the nearest words. The codec's bits are converted by the original's `codec_bits` and
//! `from_codec_bits`.
use crate::blocks::bytes;
use crate::calls::{array, lend, refusal, writes};
use crate::codec::mr74::Parameters;
use crate::compare::frames::Codec;
use crate::phy::acelp_cc1 as rust;
use crate::phy::acelp_cc1::{CHANNEL_BITS, DecodedFrame, Interleaving, PROTECTED_BITS};
use crate::port::{Of, Refused};
use crate::port_facch::Written;
use crate::port_speech::acelp as port;
use crate::port_speech::{Frame, accepted};
use crate::prng::Prng;
use crate::reference;

pub const SPEECH: usize = 148;
pub const INPUTS: usize = 108;
pub const THREE: usize = 3 * CHANNEL_BITS;
const PERIOD: usize = 27;
pub const MODES: [Interleaving; 3] = [Interleaving::One, Interleaving::Two, Interleaving::Three];

/// The frames that the decoder is tried on.
pub const FRAMES: Codec = Codec {
    inputs: INPUTS,
    sent: |p| coded(&p.array()),
    placed,
    decode: |frame| decode(&bytes(frame), SPEECH),
};

/// The Rust's frame.
pub fn coded(speech: &[bool; SPEECH]) -> [bool; CHANNEL_BITS] {
    rust::encode(&Parameters::from_codec_bits(speech))
}

#[track_caller]
pub fn encode(speech: &[u8], room: usize) -> Written {
    let wanted = match refusal(&[(SPEECH, speech)], &[(CHANNEL_BITS, room)]) {
        Some(refusal) => Err(refusal),
        None => Ok(bytes(&coded(&array(speech)))),
    };
    writes(speech, room, wanted, |lent| port::encode(speech, lent))
}

#[track_caller]
pub fn decode(frame: &[u8], room: usize) -> Frame {
    let call = |lent: &mut [u8]| port::decode(frame, lent);
    let decoded = match refusal(&[(CHANNEL_BITS, frame)], &[(SPEECH, room)]) {
        Some(refusal) => Err(Frame::of(refusal)),
        None => decoded(&array(frame)).ok_or(Frame::refused(5)),
    };
    match decoded {
        Ok(decoded) => {
            let wanted = accepted(decoded.crc_valid, decoded.corrected_coded_bits);
            let speech = bytes(&decoded.parameters.codec_bits());
            lend(frame, room, wanted, Some(&speech), call)
        }
        Err(refusal) => lend(frame, room, refusal, None, call),
    }
}

/// The Rust's answer, which is also compared with the count; nothing where it is Ambiguous.
#[track_caller]
fn decoded(frame: &[bool; CHANNEL_BITS]) -> Option<DecodedFrame> {
    let decoded = rust::decode(frame).ok();
    let nearest = reference::punctured(&frame[..PROTECTED_BITS], PERIOD);
    assert_eq!(decoded.is_none(), nearest.words > 1, "{frame:?}");
    if let Some(decoded) = &decoded {
        let corrected = u32::from(decoded.corrected_coded_bits);
        assert_eq!(corrected, nearest.metric, "{frame:?}");
    }
    decoded
}

/// What is sent of the coded bits of all steps.
fn sent(coded: &[bool]) -> Vec<bool> {
    coded
        .chunks_exact(2)
        .enumerate()
        .filter(|(step, _)| !rust::probe::punctured(*step))
        .flat_map(|(_, pair)| pair.to_vec())
        .collect()
}

/// A frame with what is sent of a block of the code, and any unprotected bits.
pub fn placed(p: &mut Prng, coded: &[bool]) -> [bool; CHANNEL_BITS] {
    let protected = sent(coded);
    let mut frame: [bool; CHANNEL_BITS] = p.array();
    frame[..PROTECTED_BITS].copy_from_slice(&protected);
    frame
}

/// Three frames or slots as the Rust takes them, or the refusal.
fn three(given: &[u8], room: usize) -> Result<[[bool; CHANNEL_BITS]; 3], Written> {
    match refusal(&[(THREE, given)], &[(CHANNEL_BITS, room)]) {
        Some(refusal) => Err(refusal),
        None => Ok(std::array::from_fn(|at| {
            array(&given[at * CHANNEL_BITS..(at + 1) * CHANNEL_BITS])
        })),
    }
}

#[track_caller]
pub fn interleave(history: &[u8], mode: Interleaving, room: usize) -> Written {
    let wanted = three(history, room).map(|three| bytes(&rust::interleave(&three, mode)));
    writes((mode, history), room, wanted, |lent| {
        port::interleave(history, mode, lent)
    })
}

#[track_caller]
pub fn deinterleave(slots: &[u8], mode: Interleaving, room: usize) -> Written {
    let wanted = three(slots, room).map(|three| bytes(&rust::deinterleave(&three, mode)));
    writes((mode, slots), room, wanted, |lent| {
        port::deinterleave(slots, mode, lent)
    })
}
