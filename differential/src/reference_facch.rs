//! An independent count of the FACCH words nearest to what was observed: over each start, the
//! fewest disagreements and how many words have them, without survivors or a traceback.
use crate::phy::facch::CODED_BITS;

const STATES: usize = 32;
const STEPS: usize = 65;
/// The inputs that each output bit adds up, the newest lowest: octal 67, 71, 75 and 53 reversed.
const TAPS: [u8; 4] = [0b111011, 0b100111, 0b101111, 0b110101];

/// Unobserved places are 2. The newest input is the state's lowest bit.
fn cost(received: &[u8], state: usize, input: usize) -> u32 {
    let register = (state * 2 + input) as u8;
    let sent = TAPS.map(|taps| (register & taps).count_ones() as u8 % 2);
    let wrong = |(sent, got): (&u8, &u8)| *got != 2 && got != sent;
    sent.iter()
        .zip(received)
        .filter(|pair| wrong(*pair))
        .count() as u32
}

/// The coded bits of a word of 65 bits, by its bits' indices: the input of a step is the bit five
/// places on, and the memory before it the five bits before that, round the word.
pub fn coded(word: &[bool; STEPS]) -> [bool; CODED_BITS] {
    std::array::from_fn(|place| {
        let (step, taps) = (place / TAPS.len(), TAPS[place % TAPS.len()]);
        let tapped = (0..6).filter(|back| taps >> back & 1 == 1);
        tapped.fold(false, |sum, back| sum ^ word[(step + 5 - back) % STEPS])
    })
}

/// Places, 65 of them, at which the coded bits tell every word apart, taken in that order of all.
pub fn independent(order: &[usize]) -> Vec<usize> {
    let units: Vec<[bool; CODED_BITS]> = (0..STEPS)
        .map(|at| coded(&std::array::from_fn(|bit| bit == at)))
        .collect();
    let mut pivots = [0u128; STEPS];
    let mut places = vec![];
    for place in order {
        let mut row = (0..STEPS).fold(0, |row, bit| row | u128::from(units[bit][*place]) << bit);
        while row != 0 && pivots[row.ilog2() as usize] != 0 {
            row ^= pivots[row.ilog2() as usize];
        }
        if row != 0 {
            pivots[row.ilog2() as usize] = row;
            places.push(*place);
        }
    }
    places
}

/// The fewest disagreements over the words that start and end in a state, and how many have them.
fn around(received: &[u8; CODED_BITS], start: usize) -> (u32, u64) {
    let mut best = [(u32::MAX, 0u64); STATES];
    best[start] = (0, 1);
    for step in received.chunks(CODED_BITS / STEPS) {
        let mut next = [(u32::MAX, 0u64); STATES];
        for state in (0..STATES).filter(|state| best[*state].1 > 0) {
            for input in 0..2 {
                let (metric, count) = best[state];
                let metric = metric + cost(step, state, input);
                let there = &mut next[(state * 2 + input) % STATES];
                if metric < there.0 {
                    *there = (metric, count);
                } else if metric == there.0 {
                    there.1 = there.1.saturating_add(count);
                }
            }
        }
        best = next;
    }
    best[start]
}

/// The fewest disagreements over all words, and how many words have them. Each word has one start.
pub fn nearest(received: &[u8; CODED_BITS]) -> (u32, u64) {
    let around = (0..STATES).map(|start| around(received, start));
    around.fold((u32::MAX, 0), |least, one| match one.0.cmp(&least.0) {
        std::cmp::Ordering::Less => one,
        std::cmp::Ordering::Equal => (least.0, least.1.saturating_add(one.1)),
        std::cmp::Ordering::Greater => least,
    })
}
