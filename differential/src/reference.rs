//! How few disagreements a word of the DCCH code can have with a block, and how many words have
//! as few. Words are counted, never searched for, so it shares nothing with a decoder.
use crate::phy::dcch::probe::transition;
use std::cmp::Ordering;
use std::sync::LazyLock;

const STATES: usize = 32;
const MEMORY: usize = 5;

/// A next state and the outputs on the way.
type Step = (usize, [bool; 2]);

/// The steps from each state, by input.
static STEPS: LazyLock<[[Step; 2]; STATES]> = LazyLock::new(|| {
    std::array::from_fn(|state| {
        [false, true].map(|input| {
            let (next, output) = transition(state as u8, input);
            (usize::from(next), output)
        })
    })
});

fn differing(output: &[bool; 2], pair: &[bool]) -> u32 {
    u32::from(output[0] != pair[0]) + u32::from(output[1] != pair[1])
}

/// The fewest disagreements of some words, and how many of them have as few (`u64::MAX`: or more).
#[derive(Clone, Copy, Debug, PartialEq, Eq)]
pub struct Nearest {
    pub metric: u32,
    pub words: u64,
}

impl Nearest {
    pub const NONE: Nearest = Nearest {
        metric: u32::MAX,
        words: 0,
    };
    pub fn word(metric: u32) -> Self {
        Nearest { metric, words: 1 }
    }
    /// Of two disjoint sets of words together.
    pub fn or(self, other: Self) -> Self {
        match self.metric.cmp(&other.metric) {
            Ordering::Less => self,
            Ordering::Greater => other,
            Ordering::Equal => Nearest {
                words: self.words.saturating_add(other.words),
                ..self
            },
        }
    }
    fn after(self, cost: u32) -> Self {
        Nearest {
            metric: self.metric.saturating_add(cost),
            ..self
        }
    }
}

pub fn disagreements(start: usize, word: &[bool], coded: &[bool]) -> u32 {
    let mut state = start;
    let mut sum = 0;
    for (input, pair) in word.iter().zip(coded.chunks_exact(2)) {
        let (next, output) = &STEPS[state][usize::from(*input)];
        sum += differing(output, pair);
        state = *next;
    }
    sum
}

/// A word's fewest disagreements over the 32 starting memories.
pub fn weight(word: &[bool], coded: &[bool]) -> u32 {
    (0..STATES)
        .map(|start| disagreements(start, word, coded))
        .min()
        .unwrap()
}

/// Carries the words that lead into each state through a step; a step that sent nothing costs
/// nothing.
fn step(into: [Nearest; STATES], pair: Option<&[bool]>) -> [Nearest; STATES] {
    let mut after = [Nearest::NONE; STATES];
    for (words, steps) in into.iter().zip(STEPS.iter()) {
        for (next, output) in steps {
            let cost = pair.map_or(0, |pair| differing(output, pair));
            after[*next] = after[*next].or(words.after(cost));
        }
    }
    after
}

/// Through the pairs of a block.
fn carry(into: [Nearest; STATES], coded: &[bool]) -> [Nearest; STATES] {
    coded
        .chunks_exact(2)
        .fold(into, |into, pair| step(into, Some(pair)))
}

/// The empty word, in state 0.
fn empty() -> [Nearest; STATES] {
    let mut into = [Nearest::NONE; STATES];
    into[0] = Nearest::word(0);
    into
}

/// Over the words from state 0 to state 0.
pub fn ended(coded: &[bool]) -> Nearest {
    carry(empty(), coded)[0]
}

/// The same where the last step of every `period` sends nothing. ACELP's code is DCCH's with the
/// register reversed, so their words have the same coded bits.
pub fn punctured(sent: &[bool], period: usize) -> Nearest {
    let mut into = empty();
    for part in sent.chunks(2 * (period - 1)) {
        into = step(carry(into, part), None);
    }
    into[0]
}

/// Over all words of five inputs or more, each by its `weight`. After five inputs the memory holds
/// these and nothing of the start, so from there each state stands for one beginning.
pub fn free(coded: &[bool]) -> Nearest {
    let (head, rest) = coded.split_at(2 * MEMORY);
    let mut into = [Nearest::NONE; STATES];
    for beginning in words(MEMORY) {
        let state = beginning
            .iter()
            .fold(0, |state: usize, input| STEPS[state][usize::from(*input)].0);
        into[state] = Nearest::word(weight(&beginning, head));
    }
    carry(into, rest)
        .into_iter()
        .fold(Nearest::NONE, Nearest::or)
}

/// All words of that many inputs.
pub fn words(inputs: usize) -> impl Iterator<Item = Vec<bool>> {
    (0..1u32 << inputs).map(move |word| (0..inputs).map(|i| word >> i & 1 != 0).collect())
}
