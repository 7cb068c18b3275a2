//! What was compared.
use std::ops::AddAssign;

/// The numbers of document 01's refusals go to 8.
pub const NUMBERS: usize = 9;

/// How many calls were answered by each number of document 01, as a refusal or as a push that is
/// Rejected; at 0 those that were answered by none.
#[derive(Clone, Copy, Default)]
pub struct Compared(pub [u64; NUMBERS]);

impl Compared {
    /// So many calls with this refusal, or 0.
    pub fn some(calls: u64, refusal: u8) -> Self {
        let mut compared = Compared::default();
        compared.0[usize::from(refusal)] = calls;
        compared
    }
    pub fn one(refusal: u8) -> Self {
        Compared::some(1, refusal)
    }
    pub fn and(mut self, other: Self) -> Self {
        self += other;
        self
    }
    pub fn calls(&self) -> u64 {
        self.0.iter().sum()
    }
}

impl AddAssign for Compared {
    fn add_assign(&mut self, other: Self) {
        for (sum, more) in self.0.iter_mut().zip(other.0) {
            *sum += more;
        }
    }
}

/// All of an entry so far.
#[derive(Clone, Copy, Default)]
pub struct Counts {
    pub rounds: u64,
    pub compared: Compared,
    pub differences: u64,
    pub nanoseconds: u64,
}
