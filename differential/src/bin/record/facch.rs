//! FACCH words and the slots that carry them.
use crate::corners::{Call, call};
use crate::{hexadecimal, section};
use differential::blocks::text;
use differential::compare::facch::{MESSAGES, Observed, between, flip, half, keep, received, sent};
use differential::phy::facch::{CODED_BITS, WordHalf};
use differential::prng::Prng;

/// Wrong bits of words that are decoded.
const FLIPS: [usize; 10] = [0, 1, 2, 5, 10, 15, 20, 25, 30, 40];
/// Observed bits of words of which some are erased. Fewer than 65 are not searched.
const KEPT: [usize; 8] = [64, 65, 66, 80, 100, 130, 200, 259];

pub fn calls(p: &mut Prng) {
    section("FACCH encode: continuation, message, DVCC");
    encoded(p);
    section("FACCH decode: DVCC, coded bits");
    call("facch decode 0", &[260], &[]).corners();
    println!("facch decode 1 :260x0");
    decoded(p);
    section("FACCH decode_erased: DVCC, coded bits, 2 where one is not observed");
    Call {
        swept: &["1", "2", "3"],
        ..call("facch decode_erased 0", &[260], &[])
    }
    .corners();
    few_observed();
    erased_words(p);
    section("FACCH slots: half of a word that begins (0) or ends (1), two words, two slots");
    slots(p);
}

fn encoded(p: &mut Prng) {
    for message in [0, MESSAGES - 1, MESSAGES, u64::MAX] {
        for room in [260, 0, 259, 261] {
            println!("facch encode 0 {message:x} ff _{room}");
        }
    }
    for _ in 0..8 {
        let numbers = [p.bit().into(), p.draw() % MESSAGES, p.byte().into()];
        println!("facch encode {} _260", hexadecimal(&numbers));
    }
}

fn decoded(p: &mut Prng) {
    for flips in FLIPS {
        let mut word = sent(p);
        flip(p, &mut word.coded, flips);
        println!("facch decode {:x} :{}", word.dvcc, text(&word.coded));
    }
    let word = sent(p);
    println!("facch decode {:x} :{}", word.dvcc ^ 1, text(&word.coded));
    for _ in 0..4 {
        let tie = between(p);
        println!("facch decode {:x} :{}", tie.dvcc, text(&tie.coded));
        println!("facch decode {:x} :{}", p.byte(), text(&p.bits(CODED_BITS)));
    }
}

/// Zeros observed from the first place on, and at every fourth place.
fn few_observed() {
    for (dvcc, coded) in [
        (0, "260x2"),
        (0, "64x0,196x2"),
        (0, "65x0,195x2"),
        (1, "65x0,195x2"),
        (0, "64x0,195x2,0"),
        (0, "256x0222,4x2"),
        (0, "260x0222"),
        (1, "260x0222"),
        (0, "64x0,195x2,3"),
        (0, "259x2,#ff"),
        (1, "260x0"),
    ] {
        println!("facch decode_erased {dvcc} :{coded}");
    }
}

fn erased(dvcc: u8, observed: &Observed) {
    let digits: String = received(observed).iter().map(u8::to_string).collect();
    println!("facch decode_erased {dvcc:x} :{digits}");
}

fn erased_words(p: &mut Prng) {
    for kept in KEPT {
        let mut word = sent(p);
        let flips = p.below(kept / 40 + 1);
        flip(p, &mut word.coded, flips);
        erased(word.dvcc, &keep(p, &word.coded, kept));
        let noise = p.array();
        erased(p.byte(), &keep(p, &noise, kept));
    }
    for part in [WordHalf::Start, WordHalf::End] {
        for flips in [0, 2, 8] {
            let mut word = sent(p);
            flip(p, &mut word.coded, flips);
            erased(word.dvcc, &half(&word.coded, part));
        }
    }
}

fn slots(p: &mut Prng) {
    for half in 0..2 {
        let name = format!("facch observe_half {half}");
        call(&name, &[260], &[260]).corners();
        for _ in 0..2 {
            println!("{name} :{} _260", text(&p.bits(260)));
        }
    }
    for name in ["facch interleave", "facch deinterleave"] {
        call(name, &[260, 260], &[260]).corners();
        for _ in 0..2 {
            println!(
                "{name} :{} :{} _260",
                text(&p.bits(260)),
                text(&p.bits(260))
            );
        }
    }
}
