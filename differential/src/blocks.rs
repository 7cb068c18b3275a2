//! Coded blocks of the DCCH code to search: clean, damaged, noise, and halfway between two words.
use crate::phy::dcch::probe::transition;
use crate::prng::Prng;

const TAIL: usize = 5;
const MOST_FLIPS: usize = 40;
const BURST: usize = 12;
const RUN: usize = 4;
const DRAWS: usize = 20;

/// Where the memory starts and ends: at zero, as DCCH's, or anywhere, as SACCH's.
#[derive(Clone, Copy, Debug, PartialEq, Eq)]
pub enum Ends {
    Zero,
    Free,
}

#[derive(Clone, Copy, Debug, PartialEq, Eq)]
pub enum Kind {
    Clean,
    /// 1 to 40 wrong bits.
    Damaged,
    /// Twelve bits in a row that say nothing.
    Burst,
    Noise,
    /// Halfway between two words that differ in a few inputs: mostly a tie.
    Near,
    /// Halfway between two unrelated words.
    Far,
}

pub const KINDS: [Kind; 6] = [
    Kind::Clean,
    Kind::Damaged,
    Kind::Burst,
    Kind::Noise,
    Kind::Near,
    Kind::Far,
];

impl Kind {
    pub fn any(p: &mut Prng) -> Self {
        KINDS[p.below(KINDS.len())]
    }
}

pub fn bytes(bits: &[bool]) -> Vec<u8> {
    bits.iter().map(|bit| u8::from(*bit)).collect()
}

/// The bits as characters, first sent first.
pub fn text(bits: &[bool]) -> String {
    bits.iter()
        .map(|bit| if *bit { '1' } else { '0' })
        .collect()
}

pub fn code(start: u8, word: &[bool]) -> Vec<bool> {
    let mut state = start;
    let mut coded = Vec::with_capacity(2 * word.len());
    for input in word {
        let (next, output) = transition(state, *input);
        coded.extend(output);
        state = next;
    }
    coded
}

/// Flips that many distinct places, or all there are.
pub fn flip(p: &mut Prng, block: &mut [bool], count: usize) {
    let mut places: Vec<usize> = (0..block.len()).collect();
    flip_among(p, block, &mut places, count);
}

fn flip_among(p: &mut Prng, block: &mut [bool], places: &mut [usize], count: usize) {
    for taken in 0..count.min(places.len()) {
        let other = taken + p.below(places.len() - taken);
        places.swap(taken, other);
        block[places[taken]] ^= true;
    }
}

impl Ends {
    pub fn start(self, p: &mut Prng) -> u8 {
        match self {
            Ends::Zero => 0,
            Ends::Free => p.below(32) as u8,
        }
    }
    /// How many of a word's inputs are not forced to zero.
    fn open(self, steps: usize) -> usize {
        match self {
            Ends::Zero => steps - TAIL,
            Ends::Free => steps,
        }
    }
    pub fn word(self, p: &mut Prng, steps: usize) -> Vec<bool> {
        let mut word = p.bits(self.open(steps));
        word.resize(steps, false);
        word
    }
    pub fn block(self, p: &mut Prng, kind: Kind, steps: usize) -> Vec<bool> {
        let (start, word) = (self.start(p), self.word(p, steps));
        self.around(p, kind, start, &word)
    }
    /// A block of that kind made from this word.
    pub fn around(self, p: &mut Prng, kind: Kind, start: u8, word: &[bool]) -> Vec<bool> {
        let steps = word.len();
        let mut coded = code(start, word);
        match kind {
            Kind::Clean => {}
            Kind::Damaged => {
                let count = 1 + p.below(MOST_FLIPS);
                flip(p, &mut coded, count);
            }
            Kind::Burst => {
                let run = BURST.min(coded.len());
                let at = p.below(coded.len() - run + 1);
                coded[at..at + run].fill_with(|| p.bit());
            }
            Kind::Noise => coded.fill_with(|| p.bit()),
            Kind::Near => go_halfway(p, &mut coded, |p| {
                code(start, &neighbour(p, word, self.open(steps)))
            }),
            Kind::Far => go_halfway(p, &mut coded, |p| code(self.start(p), &self.word(p, steps))),
        }
        coded
    }
}

/// The word with a short run of its first `open` inputs changed.
fn neighbour(p: &mut Prng, word: &[bool], open: usize) -> Vec<bool> {
    let mut other = word.to_vec();
    if open > 0 {
        let at = p.below(open);
        let run = RUN.min(open - at);
        for bit in &mut other[at..at + run] {
            *bit ^= p.bit();
        }
        other[at] = !word[at];
    }
    other
}

/// Goes half of the way to another block. An odd distance has no middle, so then another is drawn;
/// not for ever, since a short word may have none at an even distance.
fn go_halfway(p: &mut Prng, coded: &mut [bool], mut other: impl FnMut(&mut Prng) -> Vec<bool>) {
    let mut places = differing(coded, &other(p));
    for _ in 0..DRAWS {
        if places.len().is_multiple_of(2) {
            break;
        }
        places = differing(coded, &other(p));
    }
    let half = places.len() / 2;
    flip_among(p, coded, &mut places, half);
}

fn differing(one: &[bool], other: &[bool]) -> Vec<usize> {
    (0..one.len())
        .filter(|place| one[*place] != other[*place])
        .collect()
}
