//! SACCH: lists of the encoder's and the deinterleaver's calls, windows, streams into the receiver, and the listening rule.
use super::spoil::{SHARE, spoil};
use crate::counts::Compared;
use differential::air::{MESSAGES, any_deinterleaver, any_encoder, any_receiver};
use differential::blocks::{Ends, Kind, bytes, code, flip};
use differential::compare::dcch::burst;
use differential::compare::listening::{self, Sent, latest_start};
use differential::compare::sacch::{self, WORD, word};
use differential::compare::sacch_deinterleaver;
use differential::compare::sacch_encoder::{self, Calls, bad_cursor, bad_memory, bad_row, list};
use differential::compare::sacch_receiver::{self, Air, Answers, Part, spoilt};
use differential::phy::sacch::{SacchDeinterleaver, SacchEncoder};
use differential::prng::Prng;

pub fn encoder(p: &mut Prng) -> Compared {
    if p.below(SHARE) == 0 {
        return bad_encoder(p);
    }
    let rust = match p.below(4) {
        0 => SacchEncoder::default(),
        _ => any_encoder(p),
    };
    let mut calls = Calls::default();
    list(p, &mut calls, rust);
    let answered = calls.words + calls.sixes + calls.resets;
    Compared::some(answered, 0).and(Compared::some(calls.refusals, 2))
}

/// A state with a part past its bound: both calls refuse it, whatever they are given, and it can be
/// reset.
fn bad_encoder(p: &mut Prng) -> Compared {
    let port = match p.below(3) {
        0 => {
            let memory = 32 + p.below(224) as u8;
            bad_memory(p, memory)
        }
        1 => {
            let cursor = [12, 13, 256, usize::MAX, 12 + p.below(1 << 40)][p.below(5)];
            bad_cursor(p, cursor)
        }
        _ => {
            let (place, row) = (
                p.below(12),
                [4096, 4096 + p.below(61440) as u16][p.below(2)],
            );
            bad_row(p, place, row)
        }
    };
    let message = if p.bit() {
        p.draw()
    } else {
        p.draw() % MESSAGES
    };
    let six = p.byte();
    sacch_encoder::refused_state(p, port, six, message);
    Compared::some(2, 8).and(Compared::one(0))
}

pub fn deinterleaver(p: &mut Prng) -> Compared {
    if p.below(SHARE) == 0 {
        return bad_deinterleaver(p);
    }
    let rust = match p.below(4) {
        0 => SacchDeinterleaver::default(),
        _ => any_deinterleaver(p),
    };
    let mut calls = sacch_deinterleaver::Calls::default();
    sacch_deinterleaver::list(p, &mut calls, rust);
    let answered = calls.rows + calls.pending + calls.resets;
    Compared::some(answered, 0).and(Compared::some(calls.refusals, 2))
}

/// A state with a part past its bound, which can be reset.
fn bad_deinterleaver(p: &mut Prng) -> Compared {
    let port = match p.below(3) {
        0 => {
            let cursor = [12, 13, usize::MAX, 12 + p.below(1 << 40)][p.below(4)];
            sacch_deinterleaver::bad_cursor(p, cursor)
        }
        1 => {
            let received = [13, 14, usize::MAX, 13 + p.below(1 << 40)][p.below(4)];
            sacch_deinterleaver::bad_received(p, received)
        }
        _ => {
            let (place, field) = (p.below(12), 4096 + p.below(61440) as u16);
            sacch_deinterleaver::bad_field(p, place, field)
        }
    };
    sacch_deinterleaver::refused_state(port, p.draw() as u16);
    Compared::one(8).and(Compared::one(0))
}

/// A word as sent from any memory, one time in eight with its reserved bit set, with wrong bits,
/// with one wrong in the first five pairs or the last, or with a burst; or a block of any kind.
fn window(p: &mut Prng, dvcc: u8) -> Vec<bool> {
    let reserved = p.below(8) == 0;
    let mut coded = code(Ends::Free.start(p), &word(p, reserved, dvcc));
    match p.below(8) {
        0 => {}
        1 | 2 => {
            let flips = 1 + p.below(12);
            flip(p, &mut coded, flips);
        }
        3 => coded[p.below(10)] ^= true,
        4 => coded[130 + p.below(2)] ^= true,
        5 => {
            let run = 1 + p.below(24);
            burst(p, &mut coded, run);
        }
        _ => {
            let kind = Kind::any(p);
            coded = Ends::Free.block(p, kind, WORD);
        }
    }
    coded
}

pub fn decode(p: &mut Prng) -> Compared {
    let dvcc = p.byte();
    let mut coded = bytes(&window(p, dvcc));
    spoil(p, &mut [&mut coded], &mut []);
    let heard = if p.below(8) == 0 { p.byte() } else { dvcc };
    Compared::one(sacch::decode(&coded, heard).refusal)
}

pub fn receiver(p: &mut Prng) -> Compared {
    if p.below(SHARE) == 0 {
        return bad_receiver(p);
    }
    let air = match p.below(6) {
        0 | 1 => Air::Clean,
        2 => Air::Damaged(120),
        3 => Air::Damaged(10 + p.below(60)),
        4 => Air::Fades,
        _ => Air::Noise,
    };
    let mut answers = Answers::default();
    answers.stream(p, air);
    Compared(answers.by_number())
}

/// A record with a part past its bound, by one or by any number.
fn bad_receiver(p: &mut Prng) -> Compared {
    let (part, room) = match p.below(8) {
        0 => (Part::FieldCursor, usize::MAX),
        1 => (Part::Received, usize::MAX),
        2 => (Part::RowCursor, usize::MAX),
        3 => (Part::Available, usize::MAX),
        // 255 is no lock.
        4 => (Part::Lock, 255 - 11),
        5 => (Part::Phase, 256 - 11),
        6 => (Part::Field(p.below(12)), 65536 - 4096),
        _ => (Part::Row(p.below(11)), 65536 - 4096),
    };
    let past = if p.bit() { 0 } else { p.below(room) };
    let port = spoilt(p, part, past);
    let field = p.draw() as u16;
    sacch_receiver::refused_state(p, port, &[field]);
    Compared::one(8).and(Compared::one(0))
}

/// Fields of streams that meet the premise.
pub fn listening(p: &mut Prng) -> Compared {
    let sent = Sent::draw(p, |p| 5 + p.below(4));
    let latest = p.below(8) == 0;
    let (a, start) = match latest {
        true => (3, latest_start(p)),
        false => (1 + p.below(22), any_receiver(p)),
    };
    let Some(heard) = listening::rule(p, &sent, a, &start) else {
        return Compared::default();
    };
    assert!(!latest || heard.first == Some(42), "{start:?} {sent:?}");
    let answers = heard.answers.iter();
    answers
        .map(|answer| Compared::one(answer.refusal))
        .fold(Compared::default(), Compared::and)
}
