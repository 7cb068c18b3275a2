//! Bits as the library has them: bytes 0 and 1, or numbers with the first bit highest.
use crate::refusal::never;
use crate::sys::Written;

pub(crate) fn bytes<const N: usize>(bits: &[bool; N]) -> [u8; N] {
    bits.map(u8::from)
}

pub(crate) fn byte_list(bits: &[bool]) -> Vec<u8> {
    bits.iter().map(|bit| u8::from(*bit)).collect()
}

pub(crate) fn bools<const N: usize>(bytes: &[u8; N]) -> [bool; N] {
    bytes.map(|byte| byte != 0)
}

pub(crate) fn bool_list(bytes: &[u8]) -> Vec<bool> {
    bytes.iter().map(|byte| *byte != 0).collect()
}

pub(crate) fn packed(bits: &[bool]) -> u64 {
    let with = |number, bit: &bool| number << 1 | u64::from(*bit);
    bits.iter().fold(0, with)
}

pub(crate) fn unpacked<const N: usize>(number: u64) -> [bool; N] {
    std::array::from_fn(|place| number >> (N - 1 - place) & 1 != 0)
}

/// The bytes that a call writes, where it cannot be refused.
pub(crate) fn written<const N: usize>(call: impl FnOnce(&mut [u8]) -> Written) -> [u8; N] {
    let mut bytes = [0; N];
    match call(&mut bytes).refusal {
        0 => bytes,
        other => never(other),
    }
}
