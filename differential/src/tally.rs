//! Counts the calls that a test compared and prints them, so that an empty run is seen.
pub struct Tally {
    subject: &'static str,
    total: u64,
}

impl Tally {
    pub fn new(subject: &'static str) -> Self {
        Tally { subject, total: 0 }
    }
    pub fn part(&mut self, what: &str, calls: u64) {
        assert!(calls > 0, "{}, {what}: nothing was compared", self.subject);
        println!("{}, {what}: {calls} calls compared", self.subject);
        self.total += calls;
    }
    pub fn end(self) {
        println!(
            "{}, total: {} calls compared, 0 differ",
            self.subject, self.total
        );
    }
}

/// That many, times the number in DIFFERENTIAL_SCALE where it is set: a longer run of the tests
/// whose calls take the Rust milliseconds.
pub fn scaled(count: usize) -> usize {
    let scale = std::env::var("DIFFERENTIAL_SCALE").map_or(1, |text| {
        text.parse().expect("DIFFERENTIAL_SCALE is a whole number")
    });
    count * scale
}
