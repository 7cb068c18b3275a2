//! What the command line asks for.
use crate::entries::{ENTRIES, Entry};
use std::fmt;
use std::path::PathBuf;
use std::str::FromStr;
use std::time::Duration;

const HELP: &str = "\
Compares the port with the Rust, call by call, for as long as it is told.

    cargo run --release --offline --bin campaign -- [ARGUMENT VALUE]..

    --minutes M        how long in all, the time before a stop included (20)
    --seed S           what the calls are drawn from (1)
    --state FILE       the counters, written each second: started again with them, a stopped run
                       goes on where it was (target/campaign/state)
    --summary FILE     the table of calls, refusals and differences, in Markdown, written with them
                       (target/campaign/summary.md)
    --differences FILE each difference with its input and both answers, the port's left; of each
                       entry the first 20 (target/campaign/differences.txt)
    --entry NAME --round K [--seed S]
                       that round of that entry alone

The status is 0 without a difference, 1 with one, 2 where an argument or a file is wrong.
A line of progress goes to standard error: each second on a terminal, else each minute.

Entries:
";

pub struct Plan {
    pub seed: u64,
    pub time: Duration,
    pub state: PathBuf,
    pub summary: PathBuf,
    pub differences: PathBuf,
}

/// Its calls depend on these three alone.
pub struct Round {
    pub entry: &'static Entry,
    pub number: u64,
    pub seed: u64,
}

impl fmt::Display for Round {
    fn fmt(&self, f: &mut fmt::Formatter<'_>) -> fmt::Result {
        let (name, number, seed) = (self.entry.name, self.number, self.seed);
        write!(f, "--entry {name} --round {number} --seed {seed}")
    }
}

pub enum Asked {
    Help,
    Again(Round),
    Run(Plan),
}

pub fn help() -> String {
    let names = ENTRIES.iter().map(|entry| format!("    {}\n", entry.name));
    HELP.to_string() + &names.collect::<String>()
}

/// Each argument at most once, each with a value.
#[derive(Default)]
struct Given<'a> {
    minutes: Option<&'a str>,
    seed: Option<&'a str>,
    state: Option<&'a str>,
    summary: Option<&'a str>,
    differences: Option<&'a str>,
    entry: Option<&'a str>,
    round: Option<&'a str>,
}

impl<'a> Given<'a> {
    fn read(words: &'a [String]) -> Result<Self, String> {
        let mut given = Given::default();
        for pair in words.chunks(2) {
            let place = given.place(&pair[0])?;
            let [argument, value] = pair else {
                return Err(format!("{} has no value", pair[0]));
            };
            if place.replace(value).is_some() {
                return Err(format!("{argument} is given twice"));
            }
        }
        Ok(given)
    }
    fn place(&mut self, argument: &str) -> Result<&mut Option<&'a str>, String> {
        Ok(match argument {
            "--minutes" => &mut self.minutes,
            "--seed" => &mut self.seed,
            "--state" => &mut self.state,
            "--summary" => &mut self.summary,
            "--differences" => &mut self.differences,
            "--entry" => &mut self.entry,
            "--round" => &mut self.round,
            other => return Err(format!("there is no argument `{other}`; --help lists them")),
        })
    }
    fn plan(&self) -> Result<Plan, String> {
        let file = |given: Option<&str>, name: &str| match given {
            Some(given) => PathBuf::from(given),
            None => PathBuf::from("target/campaign").join(name),
        };
        Ok(Plan {
            seed: number("--seed", self.seed.unwrap_or("1"))?,
            time: minutes(self.minutes.unwrap_or("20"))?,
            state: file(self.state, "state"),
            summary: file(self.summary, "summary.md"),
            differences: file(self.differences, "differences.txt"),
        })
    }
    fn again(&self, entry: &str, round: &str) -> Result<Round, String> {
        let named = ENTRIES.iter().find(|known| known.name == entry);
        Ok(Round {
            entry: named.ok_or(format!("--entry: there is no `{entry}`; --help lists them"))?,
            number: number("--round", round)?,
            seed: number("--seed", self.seed.unwrap_or("1"))?,
        })
    }
}

fn number<T: FromStr>(argument: &str, text: &str) -> Result<T, String> {
    let wrong = |_| format!("{argument}: `{text}` is no whole number below 2^64");
    text.parse().map_err(wrong)
}

fn minutes(text: &str) -> Result<Duration, String> {
    let time = text.parse().ok().map(|minutes: f64| 60.0 * minutes);
    let time = time.and_then(|seconds| Duration::try_from_secs_f64(seconds).ok());
    time.filter(|time| !time.is_zero())
        .ok_or(format!("--minutes: `{text}` is no number above 0"))
}

pub fn asked(words: &[String]) -> Result<Asked, String> {
    if words.iter().any(|word| word == "--help") {
        return Ok(Asked::Help);
    }
    let given = Given::read(words)?;
    match (given.entry, given.round) {
        (None, None) => given.plan().map(Asked::Run),
        (Some(entry), Some(round)) => given.again(entry, round).map(Asked::Again),
        (Some(_), None) => Err("--entry needs a --round".into()),
        (None, Some(_)) => Err("--round needs an --entry".into()),
    }
}
