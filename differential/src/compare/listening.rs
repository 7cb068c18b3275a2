//! The listening rule of document 01 on the port, over streams from any encoder, any receiver and
//! any first field, with refused calls between; whether a stream meets the rule's premise is
//! decided by the Rust.
use crate::air::{Given, MESSAGES, any_encoder, any_receiver, any_word};
use crate::phy::sacch;
use crate::phy::sacch::probe::{State, encoder_state};
use crate::port::Of;
use crate::port_sacch::{Encoder, PENDING, Pushed, REFUSED, Receiver, WORD, unpacked};
use crate::prng::Prng;

/// A list of encoder calls: the fields, the rows, and the memory after each word.
#[derive(Debug)]
pub struct Sent {
    dvcc: u8,
    words: Vec<Given>,
    fields: Vec<u16>,
    rows: Vec<u16>,
    memories: Vec<u8>,
}

impl Sent {
    pub fn draw(p: &mut Prng, words: impl FnOnce(&mut Prng) -> usize) -> Self {
        let dvcc = p.byte();
        let words = (0..words(p)).map(|_| any_word(p)).collect();
        send(p, dvcc, words)
    }
    /// Rows a + n - 22 to a + n - 12, counted from 1.
    fn window(&self, a: usize, n: usize) -> &[u16] {
        &self.rows[a + n - 23..a + n - 12]
    }
}

fn send(p: &mut Prng, dvcc: u8, words: Vec<Given>) -> Sent {
    let mut encoder = Encoder::of(encoder_state(&any_encoder(p)));
    let (mut fields, mut rows, mut memories) = (vec![], vec![], vec![]);
    for word in &words {
        while p.below(3) == 0 {
            let message = MESSAGES + p.draw() % MESSAGES;
            encoder = encoder.encode_word(p.bit(), message, p.byte()).encoder;
            encoder = encoder.encode_bits(64 + p.byte() / 2).encoder;
        }
        let sent = encoder.encode_word(word.continuation, word.message, dvcc);
        assert_eq!(sent.refusal, 0, "{encoder:?} {word:?}");
        // Of the twelve stored rows, the newest eleven are this word's.
        let newest = (1..12).map(|age| sent.encoder.rows[(sent.encoder.cursor + age) % 12]);
        rows.extend(newest);
        fields.extend(sent.fields);
        memories.push(sent.encoder.memory);
        encoder = sent.encoder;
    }
    Sent {
        dvcc,
        words,
        fields,
        rows,
        memories,
    }
}

/// Whether eleven rows decode to a word, by the Rust.
fn decodes(rows: &[u16], dvcc: u8) -> bool {
    let bits: Vec<bool> = rows
        .iter()
        .flat_map(|row| unpacked::<12>((*row).into()))
        .collect();
    sacch::decode(&bits[..].try_into().unwrap(), dvcc).is_ok()
}

/// The answers to the fields from the a-th on, n counted from 1 in `answers[n - 1]`.
fn listen(p: &mut Prng, sent: &Sent, a: usize, start: &State) -> Vec<Pushed> {
    let mut port = Receiver::of(start);
    let mut answers = vec![];
    for field in &sent.fields[a - 1..] {
        while p.below(4) == 0 {
            let refused = port.pushed(4096 + u16::from(p.byte()), p.byte());
            assert_eq!((refused.kind, refused.receiver), (REFUSED, port));
        }
        let answer = port.pushed(*field, sent.dvcc);
        assert_ne!(answer.kind, REFUSED, "{port:?} {field}");
        port = answer.receiver;
        answers.push(answer);
    }
    answers
}

/// The first field from 22 on that gives a word; every clause of the rule is checked.
#[track_caller]
fn check(sent: &Sent, a: usize, answers: &[Pushed]) -> Option<usize> {
    let mut first = None;
    for n in 22..=answers.len() {
        let answer = &answers[n - 1];
        let about = || format!("field {n} from {a} of {sent:?}");
        let begins = (a + n - 22) % 11 == 1;
        if answer.kind == WORD {
            assert!(begins, "a word off a boundary: {}", about());
            let k = (a + n - 22) / 11;
            let given = &sent.words[k];
            let told = (answer.continuation, answer.message, answer.corrected);
            let wanted = (given.continuation, given.message, 0);
            assert_eq!(told, wanted, "{}", about());
            assert_eq!(answer.ending, sent.memories[k], "{}", about());
        }
        match first {
            Some(f) if (n - f) % 11 == 0 => assert_eq!(answer.kind, WORD, "{}", about()),
            Some(_) => assert_eq!(answer.kind, PENDING, "{}", about()),
            None if answer.kind == WORD => first = Some(n),
            None => assert!(n < 42, "no word by 42: {}", about()),
        }
    }
    first
}

/// A stream that met the premise.
pub struct Heard {
    pub answers: Vec<Pushed>,
    /// The first field from 22 on that gave a word.
    pub first: Option<usize>,
}

/// Listens from the a-th field on and checks the rule; nothing where the premise is not met.
#[track_caller]
pub fn rule(p: &mut Prng, sent: &Sent, a: usize, start: &State) -> Option<Heard> {
    let answers = listen(p, sent, a, start);
    let off = |n: &usize| (a + n - 22) % 11 != 1;
    let false_word = (22..=answers.len())
        .filter(off)
        .any(|n| decodes(sent.window(a, n), sent.dvcc));
    if false_word {
        return None;
    }
    Some(Heard {
        first: check(sent, a, &answers),
        answers,
    })
}

/// Locked beside the boundary, so that the first word comes with field 42 of those from the third
/// on. No rows yet: the first comes with field 12, and with field 32 the phase has moved by 21.
pub fn latest_start(p: &mut Prng) -> State {
    let mut start = any_receiver(p);
    (start.received, start.available) = (0, 0);
    start.locked = Some((start.phase + 21) % 11);
    start
}
