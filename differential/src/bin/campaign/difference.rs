//! One round and its verdict. A comparison panics where both sides differ; here that is caught.
use crate::arguments::Round;
use crate::counts::Compared;
use differential::prng::Prng;
use std::panic::{catch_unwind, set_hook};
use std::sync::Mutex;

pub enum Verdict {
    Same(Compared),
    /// Where it was seen, the input and both answers.
    Differs(String),
}

static SEEN: Mutex<String> = Mutex::new(String::new());

/// Keeps what a panic says instead of printing it.
pub fn silence() {
    set_hook(Box::new(|panic| {
        *SEEN.lock().unwrap() = panic.to_string();
    }));
}

impl Round {
    pub fn verdict(&self) -> Verdict {
        let (draw, mut p) = (self.entry.draw, self.prng());
        match catch_unwind(move || draw(&mut p)) {
            Ok(compared) => Verdict::Same(compared),
            Err(_) => Verdict::Differs(SEEN.lock().unwrap().clone()),
        }
    }
    fn prng(&self) -> Prng {
        let name = self.entry.name.bytes();
        let name = name.fold(0, |sum, byte| mixed(sum ^ u64::from(byte)));
        let drawn = mixed(mixed(mixed(self.seed) ^ name) ^ self.number);
        // The generator stays at 0 once it is there.
        Prng(drawn.max(1))
    }
}

/// splitmix64's.
fn mixed(number: u64) -> u64 {
    let mut z = number.wrapping_add(0x9e37_79b9_7f4a_7c15);
    z = (z ^ z >> 30).wrapping_mul(0xbf58_476d_1ce4_e5b9);
    z = (z ^ z >> 27).wrapping_mul(0x94d0_49bb_1331_11eb);
    z ^ z >> 31
}
