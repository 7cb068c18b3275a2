//! SACCH's receiver, push by push over streams from any state: the answer and every field of the
//! state.
use crate::air::{any_encoder, any_receiver, any_word, fields};
use crate::phy::sacch::SacchReceiver;
use crate::phy::sacch::probe::{State, receiver, state};
use crate::port::Of;
use crate::port_sacch::{PENDING, Pushed, REFUSED, REJECTED, Receiver, WORD};
use crate::port_sacch::{nothing, unpacked, word_only};
use crate::prng::Prng;

/// How often each answer came.
#[derive(Default)]
pub struct Answers {
    pub pending: u64,
    pub words: u64,
    pub rejected: [u64; 7],
    pub refused: u64,
    pub discontinuities: u64,
}

impl Answers {
    fn count(&mut self, answer: &Pushed) {
        match answer.kind {
            PENDING => self.pending += 1,
            WORD => self.words += 1,
            REJECTED => self.rejected[usize::from(answer.refusal)] += 1,
            _ => self.refused += 1,
        }
    }
    pub fn calls(&self) -> u64 {
        self.by_number().iter().sum()
    }
    /// By the number of the rejection or refusal; a field above 4095 is 2. At 0 those without.
    pub fn by_number(&self) -> [u64; 9] {
        let mut numbers = [0; 9];
        numbers[..7].copy_from_slice(&self.rejected);
        numbers[0] = self.pending + self.words + self.discontinuities;
        numbers[2] += self.refused;
        numbers
    }
    pub fn text(&self) -> String {
        let [_, _, _, crc, _, ambiguous, reserved] = self.rejected;
        format!(
            "{} words, {} pending, {crc} checksum, {ambiguous} ambiguous, {reserved} reserved, {} \
             refused, {} discontinuities",
            self.words, self.pending, self.refused, self.discontinuities
        )
    }
    /// Pushes a field on both ends.
    #[track_caller]
    pub fn push(&mut self, rust: &mut SacchReceiver, field: u16, dvcc: u8) {
        let before = Receiver::of(&state(rust));
        let outcome = rust.push_outcome(unpacked(field.into()), dvcc);
        let wanted = Pushed::of((&outcome, Receiver::of(&state(rust))));
        both_ways(before, field, dvcc, wanted);
        self.count(&wanted);
    }
    /// A field that is refused with Symbol leaves the receiver.
    #[track_caller]
    fn refuse(&mut self, p: &mut Prng, rust: &SacchReceiver) {
        let port = Receiver::of(&state(rust));
        let field = 4096 + p.below(61440) as u16;
        let wanted = nothing(REFUSED, 2, port);
        both_ways(port, field, p.byte(), wanted);
        self.count(&wanted);
    }
    #[track_caller]
    fn discontinuity(&mut self, rust: &mut SacchReceiver) {
        let before = Receiver::of(&state(rust));
        rust.discontinuity();
        let wanted = Receiver::of(&state(rust));
        assert_eq!(before.discontinuity(), wanted, "{before:?}");
        self.discontinuities += 1;
    }
    /// A stream, with refused fields, other colour codes and discontinuities between.
    #[track_caller]
    pub fn stream(&mut self, p: &mut Prng, air: Air) {
        let dvcc = p.byte();
        let start = if p.below(4) == 0 {
            State::default()
        } else {
            any_receiver(p)
        };
        let mut rust = receiver(&start);
        let words: Vec<_> = (0..3 + p.below(6)).map(|_| any_word(p)).collect();
        let sent = fields(&mut any_encoder(p), &words, dvcc);
        for (n, field) in sent[p.below(22)..].iter().enumerate() {
            if p.below(12) == 0 {
                self.refuse(p, &rust);
            }
            if p.below(150) == 0 {
                self.discontinuity(&mut rust);
            }
            let code = if p.below(40) == 0 { p.byte() } else { dvcc };
            let field = air.heard(p, n, *field);
            self.push(&mut rust, field, code);
        }
    }
}

/// One push of either way.
#[track_caller]
pub fn both_ways(port: Receiver, field: u16, dvcc: u8, wanted: Pushed) {
    assert_eq!(port.pushed(field, dvcc), wanted, "{port:?} {field} {dvcc}");
    let word = port.push(field, dvcc);
    assert_eq!(word, word_only(wanted), "push: {port:?} {field} {dvcc}");
}

/// What happens to a stream on the way.
#[derive(Clone, Copy, Debug)]
pub enum Air {
    Clean,
    /// One bit in so many is wrong.
    Damaged(usize),
    /// Noise for eleven fields at a time, now and then.
    Fades,
    Noise,
}

impl Air {
    pub fn heard(self, p: &mut Prng, n: usize, field: u16) -> u16 {
        let mut wrong = 0;
        for place in 0..12 {
            let hit = match self {
                Air::Clean => false,
                Air::Damaged(often) => p.below(often) == 0,
                Air::Fades => n / 11 % 5 == 3 && p.bit(),
                Air::Noise => p.bit(),
            };
            wrong |= u16::from(hit) << place;
        }
        field ^ wrong
    }
}

/// A part of the record that can be out of its range.
#[derive(Clone, Copy, Debug)]
pub enum Part {
    FieldCursor,
    Received,
    RowCursor,
    Available,
    Lock,
    Phase,
    Field(usize),
    Row(usize),
}

/// Any accepted receiver, but for one part that is past its bound by so much.
pub fn spoilt(p: &mut Prng, part: Part, past: usize) -> Receiver {
    let mut port = Receiver::of(&any_receiver(p));
    let beyond = |bound: usize| bound + past.min(usize::MAX - bound);
    match part {
        Part::FieldCursor => port.field_cursor = beyond(12),
        Part::Received => port.received = beyond(13),
        Part::RowCursor => port.row_cursor = beyond(11),
        Part::Available => port.available = beyond(12),
        Part::Lock => port.lock = beyond(11) as u8,
        Part::Phase => port.phase = beyond(11) as u8,
        Part::Field(place) => port.fields[place] = beyond(4096) as u16,
        Part::Row(place) => port.rows[place] = beyond(4096) as u16,
    }
    port
}

/// A receiver refused with 8, also before Symbol, and fresh after a discontinuity.
#[track_caller]
pub fn refused_state(p: &mut Prng, port: Receiver, fields: &[u16]) {
    for field in fields {
        both_ways(port, *field, p.byte(), nothing(REFUSED, 8, port));
    }
    assert_eq!(port.discontinuity(), Receiver::fresh(), "{port:?}");
}
