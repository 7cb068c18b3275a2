//! Calls made wrong: lengths and bytes that are no bits, at a fixed share of all.
use differential::prng::Prng;

/// One call in so many is spoilt.
pub const SHARE: usize = 8;

/// Any length, those next to the right one and those that a narrower number would take for it
/// favoured.
pub fn length(p: &mut Prng, right: usize) -> usize {
    match p.below(8) {
        0 => 0,
        1 | 2 => right.saturating_sub(1),
        3 | 4 => right + 1,
        5 => right + (1 << [8, 15, 16][p.below(3)]),
        _ => p.below(2 * right + 2),
    }
}

/// A byte that is no bit at some place.
pub fn byte(p: &mut Prng, bytes: &mut [u8]) {
    if !bytes.is_empty() {
        let place = p.below(bytes.len());
        // 2 more often: FACCH's unobserved bit.
        bytes[place] = [2, 3, 2 + p.below(254) as u8][p.below(3)];
    }
}

/// Spoils one call in `SHARE`: a length of an input or of a slice to write, a byte of an input, or
/// two of these.
pub fn spoil(p: &mut Prng, inputs: &mut [&mut Vec<u8>], rooms: &mut [usize]) {
    if p.below(SHARE) != 0 {
        return;
    }
    for _ in 0..1 + p.below(2) {
        let which = p.below(inputs.len() + rooms.len());
        match inputs.get_mut(which) {
            Some(bytes) if p.bit() => byte(p, bytes),
            Some(bytes) => {
                let (len, fill) = (length(p, bytes.len()), p.below(3) as u8);
                bytes.resize(len, fill);
            }
            None => {
                let room = &mut rooms[which - inputs.len()];
                *room = length(p, *room);
            }
        }
    }
}
