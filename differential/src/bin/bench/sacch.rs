//! SACCH words coded and decoded, and pushes of every kind.
use crate::{Case, DVCC, INPUTS};
use differential::air::{Given, any_word};
use differential::air::{MESSAGES, fields};
use differential::blocks::{Ends, bytes, flip};
use differential::phy::sacch::probe::{State, receiver, state};
use differential::phy::sacch::{self, SacchEncoder};
use differential::port::Of;
use differential::port_sacch::{self as port, Encoder, Receiver, unpacked};
use differential::prng::Prng;
use differential::timing::Contender;
use std::hint::black_box;

pub fn cases(p: &mut Prng) -> Vec<Case> {
    let mut cases = vec![encode_bits(p), encode_word(p)];
    for (what, flips) in [("clean", Some(0)), ("3-flips", Some(3)), ("random", None)] {
        cases.push(decode(p, what, flips));
    }
    cases.push(push(p, "unlocked-clean", true, false));
    cases.push(push(p, "unlocked-random", false, false));
    cases.push(push(p, "locked-waiting", true, true));
    cases.push(stream(p));
    cases
}

fn encode_bits(p: &mut Prng) -> Case {
    let sixes: [u8; INPUTS] = std::array::from_fn(|_| p.below(64) as u8);
    let mut encoder = Encoder::fresh();
    let port = Contender::new("port", move |i| {
        let made = encoder.encode_bits(black_box(sixes[i % INPUTS]));
        encoder = made.encoder;
        black_box(made.field);
    });
    let bits = sixes.map(|six| unpacked(six.into()));
    let mut encoder = SacchEncoder::default();
    let rust = Contender::new("rust", move |i| {
        black_box(encoder.encode_bits(black_box(bits[i % INPUTS])));
    });
    Case {
        name: "sacch-encode-bits".into(),
        contenders: vec![port, rust],
    }
}

fn encode_word(p: &mut Prng) -> Case {
    let messages: [u64; INPUTS] = std::array::from_fn(|_| p.draw() % MESSAGES);
    let mut encoder = Encoder::fresh();
    let port = Contender::new("port", move |i| {
        let made = encoder.encode_word(false, black_box(messages[i % INPUTS]), DVCC);
        encoder = made.encoder;
        black_box(made.fields);
    });
    let bits = messages.map(unpacked);
    let mut encoder = SacchEncoder::default();
    let rust = Contender::new("rust", move |i| {
        black_box(encoder.encode_word(false, black_box(&bits[i % INPUTS]), DVCC));
    });
    Case {
        name: "sacch-encode-word".into(),
        contenders: vec![port, rust],
    }
}

/// The coded bits of a word, from any memory.
fn window(p: &mut Prng, given: Given) -> [bool; 132] {
    let mut encoder = sacch::probe::encoder(Ends::Free.start(p), Default::default(), 0);
    let mut coded = vec![];
    encoder.encode_word(given.continuation, &unpacked(given.message), DVCC);
    let (_, rows, cursor) = sacch::probe::encoder_state(&encoder);
    (1..12).for_each(|age| coded.extend(rows[(cursor + age) % 12]));
    coded.try_into().unwrap()
}

fn decode(p: &mut Prng, what: &str, flips: Option<usize>) -> Case {
    let windows: [[bool; 132]; INPUTS] = std::array::from_fn(|_| {
        let Some(flips) = flips else {
            return p.array();
        };
        let given = any_word(p);
        let mut coded = window(p, given);
        flip(p, &mut coded, flips);
        coded
    });
    let lent = windows.map(|window| bytes(&window));
    let port = Contender::new("port", move |i| {
        black_box(port::decode(black_box(&lent[i % INPUTS]), DVCC));
    });
    let rust = Contender::new("rust", move |i| {
        let _ = black_box(sacch::decode(black_box(&windows[i % INPUTS]), DVCC));
    });
    Case {
        name: format!("sacch-decode-{what}"),
        contenders: vec![port, rust],
    }
}

/// A receiver in the midst of a stream of fields, clean or noise, and the next field.
fn heard(p: &mut Prng, clean: bool, locked: bool) -> (State, u64) {
    let words = std::array::from_fn::<Given, 4, _>(|_| any_word(p));
    let mut sent = fields(&mut SacchEncoder::default(), &words, DVCC);
    if !clean {
        sent.fill_with(|| p.below(4096) as u16);
    }
    let next = 22 + p.below(11);
    let mut receiver = sacch::SacchReceiver::default();
    for field in &sent[..next] {
        receiver.push_outcome(unpacked((*field).into()), DVCC);
    }
    let mut state = state(&receiver);
    // The phase that has just been is not the next one.
    state.locked = locked.then_some(state.phase);
    (state, sent[next].into())
}

/// One push: a trial where the receiver is unlocked, none where it is locked to another phase. The
/// receivers are taken in turn, as the inputs of every case: of one alone the Rust's branches
/// would be learnt by heart.
fn push(p: &mut Prng, what: &str, clean: bool, locked: bool) -> Case {
    let (states, slots): (Vec<State>, Vec<u64>) =
        (0..INPUTS).map(|_| heard(p, clean, locked)).unzip();
    let starts: Vec<Receiver> = states.iter().map(Receiver::of).collect();
    let same = slots.clone();
    let port = Contender::new("port", move |i| {
        let field = black_box(slots[i % INPUTS]) as u16;
        black_box(black_box(starts[i % INPUTS]).pushed(field, DVCC));
    });
    let rust = Contender::new("rust", move |i| {
        let field = unpacked(black_box(same[i % INPUTS]));
        let mut receiver = receiver(black_box(&states[i % INPUTS]));
        black_box(receiver.push_outcome(field, DVCC));
        black_box(&receiver);
    });
    Case {
        name: format!("sacch-push-{what}"),
        contenders: vec![port, rust],
    }
}

/// A call is one field of a clean stream on a receiver that is locked: one in eleven is a trial.
fn stream(p: &mut Prng) -> Case {
    let words: Vec<Given> = (0..INPUTS).map(|_| any_word(p)).collect();
    let mut encoder = SacchEncoder::default();
    // The second time round the memory is the one that the last word leaves.
    fields(&mut encoder, &words, DVCC);
    let sent = fields(&mut encoder, &words, DVCC);
    let same: Vec<[bool; 12]> = sent.iter().map(|field| unpacked((*field).into())).collect();
    let mut receiver = Receiver::fresh();
    let port = Contender::new("port", move |i| {
        let pushed = receiver.pushed(black_box(sent[i % sent.len()]), DVCC);
        receiver = pushed.receiver;
        black_box(pushed.kind);
    });
    let mut receiver = sacch::SacchReceiver::default();
    let rust = Contender::new("rust", move |i| {
        black_box(receiver.push_outcome(black_box(same[i % same.len()]), DVCC));
    });
    Case {
        name: "sacch-push-stream".into(),
        contenders: vec![port, rust],
    }
}
