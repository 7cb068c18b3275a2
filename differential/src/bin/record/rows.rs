//! The SACCH deinterleaver: at its bounds, in any state, and as rows come.
use crate::{hexadecimal, section};
use differential::air::any_deinterleaver;
use differential::phy::sacch::SacchDeinterleaver;
use differential::port_sacch::unpacked;
use differential::prng::Prng;
use differential::records::deinterleaver_numbers;

pub fn calls(p: &mut Prng) {
    section("SACCH deinterleaver at its bounds: field, deinterleaver");
    for (cursor, received) in [(0, 0), (11, 12), (12, 0), (u64::MAX, 0), (0, 13), (12, 13)] {
        for field in [0, 4095, 4096, 65535] {
            push(field, &of(cursor, received));
        }
    }
    for stored in [4095, 4096, 65535] {
        for at in 0..12 {
            let mut before = of(0, 11);
            before[at] = stored;
            push(4095, &before);
        }
    }
    println!("sacch reset_deinterleaver {}", hexadecimal(&of(12, 13)));
    println!("sacch reset_deinterleaver {}", hexadecimal(&of(0, 0)));
    section("SACCH deinterleavers in any state, and a fresh one over sixteen fields");
    for _ in 0..12 {
        let before = deinterleaver_numbers(&any_deinterleaver(p));
        push(p.below(4096) as u64, &before);
    }
    let mut rust = SacchDeinterleaver::default();
    for _ in 0..16 {
        let field = p.below(4096) as u64;
        push(field, &deinterleaver_numbers(&rust));
        rust.push(unpacked(field));
    }
}

fn push(field: u64, before: &[u64]) {
    println!("sacch deinterleave {field:x} {}", hexadecimal(before));
}

/// Zeros but for the cursor and the count.
fn of(cursor: u64, received: u64) -> Vec<u64> {
    let mut numbers = vec![0; 14];
    (numbers[12], numbers[13]) = (cursor, received);
    numbers
}
