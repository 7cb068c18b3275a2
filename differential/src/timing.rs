//! Times contenders by turns, so that a change of the machine's pace falls on all of them, and by
//! the processor time of this thread, in which what else the machine does does not count. The wall
//! clock beside it tells how busy the machine was.
use std::time::{Duration, Instant};

const SAMPLES: usize = 31;
const SAMPLE: Duration = Duration::from_millis(3);

/// What C calls `struct timespec`.
#[repr(C)]
struct Timespec {
    seconds: i64,
    nanoseconds: i64,
}

/// CLOCK_THREAD_CPUTIME_ID of Linux.
const THREAD: i32 = 3;

unsafe extern "C" {
    fn clock_gettime(clock: i32, time: *mut Timespec) -> i32;
}

fn processor_time() -> Duration {
    let mut time = Timespec {
        seconds: 0,
        nanoseconds: 0,
    };
    // SAFETY: the record is as C has it, and lives as long as the call.
    let status = unsafe { clock_gettime(THREAD, &mut time) };
    assert_eq!(status, 0, "the processor time of a thread");
    Duration::new(time.seconds as u64, time.nanoseconds as u32)
}

/// How long something took.
#[derive(Clone, Copy)]
struct Taken {
    processor: Duration,
    wall: Duration,
}

pub struct Contender {
    pub name: &'static str,
    calls: Box<dyn FnMut(usize)>,
}

impl Contender {
    pub fn new(name: &'static str, mut call: impl FnMut(usize) + 'static) -> Self {
        let calls = Box::new(move |count| (0..count).for_each(&mut call));
        Contender { name, calls }
    }
    /// Makes that many calls, numbered from 0.
    pub fn run(&mut self, count: usize) {
        (self.calls)(count);
    }
    fn sample(&mut self, count: usize) -> Taken {
        let (wall, processor) = (Instant::now(), processor_time());
        self.run(count);
        Taken {
            processor: processor_time() - processor,
            wall: wall.elapsed(),
        }
    }
    /// How many calls fill a sample.
    fn pace(&mut self) -> usize {
        let mut count = 1;
        while self.sample(count).processor < SAMPLE {
            count *= 2;
        }
        count
    }
}

/// Nanoseconds a call, and how many times as long all samples took by the wall clock.
pub struct Time {
    pub least: f64,
    pub median: f64,
    pub waited: f64,
}

pub fn times(contenders: &mut [Contender]) -> Vec<Time> {
    let paces: Vec<usize> = contenders.iter_mut().map(Contender::pace).collect();
    let mut samples: Vec<Vec<Taken>> = vec![vec![]; contenders.len()];
    for round in 0..SAMPLES {
        for turn in 0..contenders.len() {
            // Nobody always follows the same one.
            let who = (round + turn) % contenders.len();
            samples[who].push(contenders[who].sample(paces[who]));
        }
    }
    let taken = samples.iter().zip(paces);
    taken
        .map(|(samples, pace)| summary(samples, pace))
        .collect()
}

fn summary(samples: &[Taken], pace: usize) -> Time {
    let call = |taken: &Taken| taken.processor.as_nanos() as f64 / pace as f64;
    let mut calls: Vec<f64> = samples.iter().map(call).collect();
    calls.sort_by(f64::total_cmp);
    let processor: Duration = samples.iter().map(|taken| taken.processor).sum();
    let wall: Duration = samples.iter().map(|taken| taken.wall).sum();
    Time {
        least: calls[0],
        median: calls[calls.len() / 2],
        waited: wall.as_secs_f64() / processor.as_secs_f64(),
    }
}
