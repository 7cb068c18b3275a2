//! Register steps, checksums and the bare search.
use crate::corners::call;
use crate::section;
use differential::blocks::{Ends, KINDS, text};
use differential::prng::Prng;

pub fn calls(p: &mut Prng) {
    for code in ["dcch", "facch", "acelp"] {
        section(&format!("register steps of {code}: state and input"));
        for state in (0..34).chain([255]) {
            for input in 0..3 {
                println!("step {code} {state:x} {input:x}");
            }
        }
        println!("step {code} 0 ff");
    }
    section("checksums of 16 bits: DVCC, broadcast or not, information");
    checksums(p);
    section("registers of that checksum: the one before, information");
    registers(&mut Prng(0x1021));
    section("checksums of seven bits: information");
    checksums7(p);
    section("nearest words of DCCH's code: coded bits, room for the word");
    searches(p);
}

/// First the lengths that the codecs use and those about a byte's, with and without a colour.
fn checksums(p: &mut Prng) {
    for len in [0, 1, 2, 7, 8, 9, 15, 16, 17, 49, 50, 79, 101, 109] {
        for dvcc in [0, 1, 255] {
            checksum(&p.bits(len), dvcc, 0);
        }
        checksum(&p.bits(len), 0, 1);
    }
    for _ in 0..47 {
        let len = p.below(161);
        checksum(&p.bits(len), p.byte(), 0);
        checksum(&p.bits(len), p.byte(), 1);
    }
    for ones in [":", ":1", ":300x1"] {
        println!("coding checksum 1 0 {ones}");
        println!("coding checksum 0 1 {ones}");
    }
    for run in ["*,299x0", "299x0,*", "300x0@2", "300x0@3"] {
        println!("coding checksum 0 0 :{run}");
    }
}

fn checksum(information: &[bool], dvcc: u8, broadcast: u8) {
    println!(
        "coding checksum {dvcc:x} {broadcast} :{}",
        text(information)
    );
}

/// From the registers at the ends, from those that the colour codes 1 and ff leave, and from others.
/// Drawn apart, so that the calls around them stay as they are.
fn registers(p: &mut Prng) {
    for len in [0, 1, 2, 3, 4, 5, 8, 49, 50, 79, 101, 109] {
        for register in [0, 1, 0x1021, 0x1ef0, 0x7fff, 0x8000, 0xffff] {
            register_after(register, &p.bits(len));
        }
    }
    for _ in 0..40 {
        let len = p.below(161);
        register_after(p.below(1 << 16), &p.bits(len));
    }
    for run in ["300x1", "*,299x0", "299x0,*", "300x0@2", "300x0@3"] {
        println!("coding checksum_from ffff :{run}");
    }
}

fn register_after(register: usize, information: &[bool]) {
    println!("coding checksum_from {register:x} :{}", text(information));
}

fn checksums7(p: &mut Prng) {
    for len in (0..20).chain([12; 20]).chain([48; 40]) {
        checksum7(&p.bits(len));
    }
    for _ in 0..20 {
        let len = p.below(161);
        checksum7(&p.bits(len));
    }
    for ones in ["", "1", "300x1", "*,299x0", "299x0,*", "300x0@2", "300x0@3"] {
        println!("coding checksum7 :{ones}");
    }
}

fn checksum7(information: &[bool]) {
    println!("coding checksum7 :{}", text(information));
}

/// The corners, the shortest and the longest block among them; then four blocks of each kind and
/// length, less the clean ones: two.
fn searches(p: &mut Prng) {
    call("coding search", &[260], &[130]).corners();
    for (coded, room) in [(8, 4), (9, 5), (10, 5), (12, 5), (258, 129), (262, 131)] {
        println!("coding search :{coded}x0 _{room}");
    }
    for inputs in [130, 122, 100] {
        for kind in KINDS.into_iter().chain(KINDS.into_iter().skip(1)) {
            for _ in 0..2 {
                let coded = Ends::Zero.block(p, kind, inputs);
                println!("coding search :{} _{inputs}", text(&coded));
            }
        }
    }
}
