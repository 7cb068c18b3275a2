//! What the decoders of both speech codecs are tried on: frames as sent with wrong bits in them,
//! and blocks of every kind put into frames.
use crate::blocks::{Ends, KINDS, Kind, flip};
use crate::port_speech::Frame as Answer;
use crate::prng::Prng;

pub const FRAME: usize = 260;
pub type Frame = [bool; FRAME];

/// The most wrong bits that a frame gets.
pub const MOST_WRONG: usize = 12;

/// A codec's side of the trials.
pub struct Codec {
    /// Inputs of its code.
    pub inputs: usize,
    /// A frame as the original sends it.
    pub sent: fn(&mut Prng) -> Frame,
    /// A frame with these coded bits, and any that are not protected.
    pub placed: fn(&mut Prng, &[bool]) -> Frame,
    /// What both sides answer to a frame.
    pub decode: fn(&Frame) -> Answer,
}

impl Codec {
    /// Frames with so many wrong bits.
    pub fn damaged(
        &self,
        p: &mut Prng,
        flips: usize,
        frames: usize,
        mut decode: impl FnMut(&Frame),
    ) {
        for _ in 0..frames {
            let mut frame = (self.sent)(p);
            flip(p, &mut frame, flips);
            decode(&frame);
        }
    }

    /// Frames with blocks of one kind.
    pub fn of_kind(&self, p: &mut Prng, kind: Kind, frames: usize, mut decode: impl FnMut(&Frame)) {
        for _ in 0..frames {
            let block = Ends::Zero.block(p, kind, self.inputs);
            decode(&(self.placed)(p, &block));
        }
    }
}

/// The trials, with what the answers must hold.
pub mod tried {
    use super::{Codec, KINDS, Kind, MOST_WRONG, Prng};
    use crate::calls::FrameAnswers;
    use crate::tally::Tally;

    #[track_caller]
    pub fn damaged(name: &'static str, seed: u64, codec: &Codec) {
        let mut p = Prng(seed);
        let mut tally = Tally::new(name);
        for flips in 0..=MOST_WRONG {
            let mut answers = FrameAnswers::default();
            codec.damaged(&mut p, flips, 2500, |frame| {
                answers.count(&(codec.decode)(frame))
            });
            assert!(flips > 0 || answers.valid == answers.calls());
            let what = format!("{flips} wrong bits, {}", answers.text());
            tally.part(&what, answers.calls());
        }
        tally.end();
    }

    #[track_caller]
    pub fn every_kind(name: &'static str, seed: u64, codec: &Codec) {
        let mut p = Prng(seed);
        let mut tally = Tally::new(name);
        for kind in KINDS {
            let mut answers = FrameAnswers::default();
            codec.of_kind(&mut p, kind, 4000, |frame| {
                answers.count(&(codec.decode)(frame))
            });
            assert!(kind != Kind::Near || answers.ambiguous > 0);
            assert!(kind != Kind::Noise || answers.failed > 0);
            tally.part(&format!("{kind:?}, {}", answers.text()), answers.calls());
        }
        tally.end();
    }
}
