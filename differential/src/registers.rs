//! The original's checksum from any register. It starts from 0 alone; but each register is what one
//! colour code and eight bits after it leave, so these are given before the information.
use crate::phy::dcch::CrcMode;
use crate::phy::dcch::probe::checksum;
use std::sync::LazyLock;

/// For each register, the colour code and the bits that leave it.
static LEFT_BY: LazyLock<Vec<(u8, [bool; 8])>> = LazyLock::new(|| {
    let mut found = vec![None; 1 << 16];
    for dvcc in 0..=u8::MAX {
        for byte in 0..=u8::MAX {
            let first = eight(byte);
            let register = checksum(&first, dvcc, CrcMode::Addressed);
            found[usize::from(register)] = Some((dvcc, first));
        }
    }
    let each = found.into_iter().map(|one| one.expect("no bits leave it"));
    each.collect()
});

/// The bits of a byte, the highest first.
pub fn eight(byte: u8) -> [bool; 8] {
    std::array::from_fn(|place| byte >> (7 - place) & 1 == 1)
}

/// The colour code and the bits after it that leave a register.
pub fn left_by(register: u16) -> (u8, [bool; 8]) {
    LEFT_BY[usize::from(register)]
}

pub fn checksum_from(register: u16, information: &[bool]) -> u16 {
    let (dvcc, first) = left_by(register);
    checksum(&[&first, information].concat(), dvcc, CrcMode::Addressed)
}
