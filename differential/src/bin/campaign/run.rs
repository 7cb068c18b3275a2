//! A run: the entry that has had least of its share of the time goes next, round after round.
use crate::arguments::{Plan, Round};
use crate::counts::Compared;
use crate::difference::Verdict;
use crate::entries::ENTRIES;
use crate::progress::{Progress, line};
use crate::state::State;
use crate::summary::summary;
use std::fs::{self, OpenOptions};
use std::io::Write;
use std::path::Path;
use std::time::{Duration, Instant};

/// How long an entry goes on at a time, and how often the files are written.
const TURN: Duration = Duration::from_millis(5);
const SAVE: Duration = Duration::from_secs(1);
/// Of each entry so many differences are written down; the others are counted.
const TOLD: u64 = 20;

pub struct Run {
    plan: Plan,
    state: State,
    begun: Instant,
    before: Duration,
    saved: Instant,
    progress: Progress,
}

impl Run {
    pub fn new(plan: Plan) -> Result<Self, String> {
        let state = State::resumed(&plan.state, plan.seed)?;
        let fresh = state.elapsed.is_zero();
        if fresh {
            write(&plan.differences, "")?;
        }
        let run = Run {
            before: state.elapsed,
            plan,
            state,
            begun: Instant::now(),
            saved: Instant::now(),
            progress: Progress::new(),
        };
        run.save()?;
        run.say_how(fresh);
        Ok(run)
    }
    /// A run that is not fresh goes on, or has nothing left to do.
    fn say_how(&self, fresh: bool) {
        let (from, state) = (line(&self.state), self.plan.state.display());
        if self.state.elapsed >= self.plan.time {
            let ways = format!("give more --minutes or remove {state}");
            self.progress
                .tell(&format!("the time was over before: {ways}"));
        } else if !fresh {
            self.progress.tell(&format!("goes on from {from}"));
        }
    }
    /// Goes on until the time is over; how many differences there were.
    pub fn finish(mut self) -> Result<u64, String> {
        while self.state.elapsed < self.plan.time {
            let entry = self.next();
            self.turn(entry)?;
            self.state.elapsed = self.before + self.begun.elapsed();
            if self.saved.elapsed() >= SAVE {
                self.save()?;
                self.saved = Instant::now();
            }
            self.progress.say(&self.state);
        }
        self.save()?;
        let (line, summary) = (line(&self.state), self.plan.summary.display());
        self.progress
            .tell(&format!("{line}; the table is in {summary}"));
        Ok(self.state.differences())
    }
    /// The entry that has had least of its share.
    fn next(&self) -> usize {
        let had = |at: &usize| self.state.entries[*at].nanoseconds / ENTRIES[*at].share;
        (0..ENTRIES.len()).min_by_key(had).expect("entries")
    }
    fn turn(&mut self, at: usize) -> Result<(), String> {
        let begun = Instant::now();
        while begun.elapsed() < TURN {
            self.round(at)?;
        }
        self.state.entries[at].nanoseconds += begun.elapsed().as_nanos() as u64;
        Ok(())
    }
    /// A round ends with its first difference.
    fn round(&mut self, at: usize) -> Result<(), String> {
        let counts = &mut self.state.entries[at];
        let round = Round {
            entry: &ENTRIES[at],
            number: counts.rounds,
            seed: self.plan.seed,
        };
        counts.rounds += 1;
        match round.verdict() {
            Verdict::Same(compared) => counts.compared += compared,
            Verdict::Differs(text) => {
                counts.compared += Compared::one(0);
                counts.differences += 1;
                if counts.differences <= TOLD {
                    self.tell(&round, &text)?;
                }
            }
        }
        Ok(())
    }
    /// Writes a difference down, and the counters at once, so that it is not met again.
    fn tell(&mut self, round: &Round, text: &str) -> Result<(), String> {
        let file = &self.plan.differences;
        let name = file.display();
        self.progress
            .tell(&format!("a difference: {round}, told in {name}"));
        let opened = OpenOptions::new().append(true).create(true).open(file);
        opened
            .and_then(|mut file| writeln!(file, "{round}\n{text}\n"))
            .map_err(|wrong| format!("{name}: {wrong}"))?;
        self.save()
    }
    fn save(&self) -> Result<(), String> {
        let table = summary(&self.state, &self.plan.differences);
        write(&self.plan.summary, &table)?;
        write(&self.plan.state, &self.state.text())
    }
}

/// All of it or nothing, so that a stop between leaves the file whole.
fn write(file: &Path, text: &str) -> Result<(), String> {
    let told = |wrong| format!("{}: {wrong}", file.display());
    if let Some(folder) = file.parent() {
        fs::create_dir_all(folder).map_err(told)?;
    }
    let mut new = file.as_os_str().to_owned();
    new.push(".new");
    fs::write(&new, text).map_err(told)?;
    fs::rename(&new, file).map_err(told)
}
