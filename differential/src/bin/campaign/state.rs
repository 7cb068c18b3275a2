//! The counters of a run, and the file that keeps them.
use crate::counts::{Compared, Counts, NUMBERS};
use crate::entries::ENTRIES;
use std::fs;
use std::path::Path;
use std::time::Duration;

const ARCHIVE: &[u8] = include_bytes!(env!("PORT_LINKED"));
const FORM: &str = "campaign 1";

/// The size of the archive that was compared, and its FNV-1a hash of 64 bits.
#[derive(Clone, Copy, PartialEq, Eq)]
pub struct Archive {
    pub bytes: usize,
    pub hash: u64,
}

impl Archive {
    pub fn linked() -> Self {
        let step = |hash: u64, byte: &u8| (hash ^ u64::from(*byte)).wrapping_mul(0x100_0000_01b3);
        Archive {
            bytes: ARCHIVE.len(),
            hash: ARCHIVE.iter().fold(0xcbf2_9ce4_8422_2325, step),
        }
    }
}

/// Of each entry, in the order of `ENTRIES`, and how long it has taken.
pub struct State {
    pub seed: u64,
    pub archive: Archive,
    pub elapsed: Duration,
    pub entries: Vec<Counts>,
}

impl State {
    pub fn fresh(seed: u64) -> Self {
        State {
            seed,
            archive: Archive::linked(),
            elapsed: Duration::ZERO,
            entries: vec![Counts::default(); ENTRIES.len()],
        }
    }
    pub fn calls(&self) -> u64 {
        self.entries
            .iter()
            .map(|entry| entry.compared.calls())
            .sum()
    }
    pub fn differences(&self) -> u64 {
        self.entries.iter().map(|entry| entry.differences).sum()
    }
    pub fn text(&self) -> String {
        let Archive { bytes, hash } = self.archive;
        let (seed, elapsed) = (self.seed, self.elapsed.as_millis());
        let mut text = format!("{FORM}\nseed {seed}\narchive {bytes} {hash}\nelapsed {elapsed}\n");
        for (entry, counts) in ENTRIES.iter().zip(&self.entries) {
            let line = numbered(counts).map(|number| number.to_string());
            text += &format!("{} {}\n", entry.name, line.join(" "));
        }
        text
    }
    /// Nothing where the text is of no state of these entries.
    fn of(text: &str) -> Option<Self> {
        let mut lines = text.lines();
        if lines.next() != Some(FORM) {
            return None;
        }
        let mut numbers = |name: &str| numbers(lines.next()?, name);
        let [seed] = numbers("seed")?[..] else {
            return None;
        };
        let [bytes, hash] = numbers("archive")?[..] else {
            return None;
        };
        let [elapsed] = numbers("elapsed")?[..] else {
            return None;
        };
        let entries = ENTRIES.iter().map(|entry| counts(&numbers(entry.name)?));
        Some(State {
            seed,
            archive: Archive {
                bytes: bytes as usize,
                hash,
            },
            elapsed: Duration::from_millis(elapsed),
            entries: entries.collect::<Option<_>>()?,
        })
    }
    /// The state in the file, or a fresh one where there is no file.
    pub fn resumed(file: &Path, seed: u64) -> Result<Self, String> {
        let name = file.display();
        if !file.exists() {
            return Ok(State::fresh(seed));
        }
        let text = fs::read_to_string(file).map_err(|wrong| format!("{name}: {wrong}"))?;
        let state = State::of(&text).ok_or(format!("{name} is no state of this program"))?;
        if state.seed != seed {
            let of = state.seed;
            return Err(format!(
                "{name} is of seed {of}, not {seed}: remove it or name another"
            ));
        }
        if state.archive != Archive::linked() {
            return Err(format!(
                "{name} is of another archive: remove it or name another"
            ));
        }
        Ok(state)
    }
}

/// The numbers of a line after its name.
fn numbers(line: &str, name: &str) -> Option<Vec<u64>> {
    let rest = line.strip_prefix(name)?.strip_prefix(' ')?;
    rest.split(' ').map(|number| number.parse().ok()).collect()
}

/// Rounds, differences, nanoseconds, then the calls by number.
fn numbered(counts: &Counts) -> [u64; 3 + NUMBERS] {
    let head = [counts.rounds, counts.differences, counts.nanoseconds];
    std::array::from_fn(|at| match at {
        0..3 => head[at],
        _ => counts.compared.0[at - 3],
    })
}

fn counts(numbers: &[u64]) -> Option<Counts> {
    let [rounds, differences, nanoseconds, compared @ ..] = numbers else {
        return None;
    };
    Some(Counts {
        rounds: *rounds,
        compared: Compared(compared.try_into().ok()?),
        differences: *differences,
        nanoseconds: *nanoseconds,
    })
}
