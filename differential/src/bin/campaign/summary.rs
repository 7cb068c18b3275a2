//! The summary of a run, in Markdown.
use crate::counts::Compared;
use crate::entries::ENTRIES;
use crate::state::State;
use std::path::Path;

/// 1234567 as 1,234,567.
pub fn grouped(number: u64) -> String {
    let digits = number.to_string();
    let mut text = String::new();
    for (place, digit) in digits.chars().enumerate() {
        if place > 0 && (digits.len() - place).is_multiple_of(3) {
            text.push(',');
        }
        text.push(digit);
    }
    text
}

/// With the file that tells the differences.
pub fn summary(state: &State, differences: &Path) -> String {
    let seconds = state.elapsed.as_secs();
    let mut text = format!(
        "Seed {}, {} minutes {} seconds, archive of {} bytes, FNV-1a {:016x}.\n\n\
         | entry | calls | refusals among them, by number | differences |\n|---|---|---|---|\n",
        state.seed,
        seconds / 60,
        seconds % 60,
        grouped(state.archive.bytes as u64),
        state.archive.hash
    );
    let mut all = Compared::default();
    for (entry, counts) in ENTRIES.iter().zip(&state.entries) {
        let name = format!("`{}`", entry.name);
        text += &row(&name, &counts.compared, counts.differences);
        all += counts.compared;
    }
    text += &row("all", &all, state.differences());
    if state.differences() > 0 {
        text += &format!("\nThe differences are told in {}.\n", differences.display());
    }
    text
}

fn row(name: &str, compared: &Compared, differences: u64) -> String {
    let (calls, differences) = (grouped(compared.calls()), grouped(differences));
    let refusals = refusals(compared);
    format!("| {name} | {calls} | {refusals} | {differences} |\n")
}

/// By their numbers, as `2: 17, 3: 1,234`.
pub fn refusals(compared: &Compared) -> String {
    let numbers = compared.0.iter().enumerate().skip(1);
    let met = numbers.filter(|(_, calls)| **calls > 0);
    let told: Vec<String> = met
        .map(|(number, calls)| format!("{number}: {}", grouped(*calls)))
        .collect();
    match told.is_empty() {
        true => "none".into(),
        false => told.join(", "),
    }
}
