//! The long comparison: calls of every entry, drawn from its whole domain, made on the port and on
//! the Rust until the time is over. `campaign --help` says how it is told what to do.
mod arguments;
mod counts;
mod difference;
mod entries;
mod progress;
mod run;
mod state;
mod summary;

use arguments::{Asked, Plan, Round, asked};
use difference::{Verdict, silence};
use run::Run;
use std::process::ExitCode;
use summary::refusals;

const DIFFERS: u8 = 1;
const WRONG_USE: u8 = 2;

fn main() -> ExitCode {
    silence();
    let words: Vec<String> = std::env::args().skip(1).collect();
    let done = match asked(&words) {
        Ok(Asked::Help) => {
            print!("{}", arguments::help());
            Ok(0)
        }
        Ok(Asked::Again(round)) => Ok(again(&round)),
        Ok(Asked::Run(plan)) => campaign(plan),
        Err(wrong) => Err(wrong),
    };
    let status = done.unwrap_or_else(|wrong| {
        eprintln!("campaign: {wrong}");
        WRONG_USE
    });
    ExitCode::from(status)
}

fn campaign(plan: Plan) -> Result<u8, String> {
    let differences = Run::new(plan)?.finish()?;
    Ok(if differences > 0 { DIFFERS } else { 0 })
}

/// One round alone.
fn again(round: &Round) -> u8 {
    match round.verdict() {
        Verdict::Same(compared) => {
            let (calls, refusals) = (compared.calls(), refusals(&compared));
            println!("{round}: {calls} calls compared, refusals {refusals}, no difference");
            0
        }
        Verdict::Differs(text) => {
            println!("{round}\n{text}");
            DIFFERS
        }
    }
}
