//! The word of the DCCH code that costs least where reliabilities are whole numbers: nothing
//! rounds, and each state carries its word whole, so there is no walk back.
use crate::phy::dcch::probe::transition;

const STATES: usize = 32;
const TAIL: usize = 5;

/// A word's total cost, and the word with its first input lowest. The order is the order of
/// choice: of words that cost the same, the one with a zero at the last place where they differ.
type Carried = (u64, u128);

/// What a coded bit costs where this was received.
pub fn cost(bit: bool, received: i64) -> u64 {
    if bit == (received < 0) {
        0
    } else {
        received.unsigned_abs()
    }
}

/// The least of all words that end in five zeros, and its cost.
pub fn least(coded: &[i64]) -> (Vec<bool>, u64) {
    let steps = coded.len() / 2;
    let open = steps - TAIL;
    let mut into: [Option<Carried>; STATES] = [None; STATES];
    into[0] = Some((0, 0));
    for (step, pair) in coded.chunks_exact(2).enumerate() {
        let mut after = [None; STATES];
        for (state, carried) in into.iter().enumerate() {
            let Some((sum, word)) = carried else { continue };
            let inputs = if step < open { 2 } else { 1 };
            for input in [false, true].into_iter().take(inputs) {
                let (next, output) = transition(state as u8, input);
                let more = cost(output[0], pair[0]) + cost(output[1], pair[1]);
                let longer = if input { word | 1 << step } else { *word };
                let place: &mut Option<Carried> = &mut after[usize::from(next)];
                let here = (sum + more, longer);
                *place = Some(place.map_or(here, |other| other.min(here)));
            }
        }
        into = after;
    }
    let (cost, word) = into[0].expect("the tail leads to state 0");
    let bits = (0..steps).map(|step| step < open && word >> step & 1 != 0);
    (bits.collect(), cost)
}
