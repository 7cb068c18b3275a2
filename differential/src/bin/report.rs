//! Makes the table and the figure of docs/BENCHMARKS.md from what `bench` printed:
//! `report table RUN [INSTRUCTIONS]` prints Markdown, `report figure RUN` an SVG of the ratios.
use std::collections::HashMap;
use std::env::args;
use std::fmt::Write;
use std::fs;
use std::process::exit;

/// The median nanoseconds a call of the port, of the original and of libosmocore's two forms, where
/// the case has them.
struct Row {
    case: String,
    port: f64,
    original: f64,
    osmocore: [Option<f64>; 2],
}

fn main() {
    let words: Vec<String> = args().skip(1).collect();
    let words: Vec<&str> = words.iter().map(String::as_str).collect();
    match words[..] {
        ["table", run] => print!("{}", table(&rows(&read(run)), &HashMap::new())),
        ["table", run, counts] => print!("{}", table(&rows(&read(run)), &counted(&read(counts)))),
        ["figure", run] => print!("{}", figure(&rows(&read(run)))),
        _ => stop("report table RUN [INSTRUCTIONS], or report figure RUN"),
    }
}

fn stop(message: &str) -> ! {
    eprintln!("{message}");
    exit(2)
}

fn read(path: &str) -> String {
    fs::read_to_string(path).unwrap_or_else(|error| stop(&format!("{path}: {error}")))
}

/// Each case with the port's line first and the original's after it.
fn rows(run: &str) -> Vec<Row> {
    let mut rows: Vec<Row> = vec![];
    for line in run.lines().skip(1) {
        let words: Vec<&str> = line.split_whitespace().collect();
        let [case, who, _least, median, _ratio] = words[..] else {
            stop(&format!("no line of a benchmark: {line}"))
        };
        let median = median.parse().unwrap_or_else(|_| stop(line));
        match (who, rows.last_mut()) {
            ("port", _) => rows.push(Row {
                case: case.into(),
                port: median,
                original: f64::NAN,
                osmocore: [None; 2],
            }),
            ("rust" | "rust+checksum", Some(row)) if row.case == case => row.original = median,
            ("osmocore-k6", Some(row)) if row.case == case => row.osmocore[0] = Some(median),
            ("osmocore-k7", Some(row)) if row.case == case => row.osmocore[1] = Some(median),
            _ => stop(&format!("no contender of the case before: {line}")),
        }
    }
    rows.retain(|row| !row.original.is_nan());
    rows
}

/// Instructions a call by the name that `bench list` gives.
fn counted(text: &str) -> HashMap<String, u64> {
    let pair = |line: &str| {
        let (name, count) = line.split_once(' ')?;
        Some((name.to_string(), count.parse().ok()?))
    };
    text.lines().filter_map(pair).collect()
}

/// 1234567 as 1,234,567.
fn grouped(number: u64) -> String {
    let digits = number.to_string();
    let groups: Vec<&str> = digits
        .as_bytes()
        .rchunks(3)
        .rev()
        .map(|group| std::str::from_utf8(group).unwrap())
        .collect();
    groups.join(",")
}

fn nanoseconds(time: f64) -> String {
    grouped(time.round() as u64)
}

fn table(rows: &[Row], counts: &HashMap<String, u64>) -> String {
    let mut out = String::from(
        "| case | port, ns | original, ns | original / port | libosmocore, K = 6, ns | K = 7, ns | port, instructions | original, instructions |\n|---|---|---|---|---|---|---|---|\n",
    );
    for row in rows {
        let count = |who: &str| {
            let names = [
                format!("{}/{who}", row.case),
                format!("{}/{who}+checksum", row.case),
            ];
            let found = names.iter().find_map(|name| counts.get(name));
            found.map_or(String::new(), |count| grouped(*count))
        };
        writeln!(
            out,
            "| {} | {} | {} | {:.2} | {} | {} | {} | {} |",
            row.case,
            nanoseconds(row.port),
            nanoseconds(row.original),
            row.original / row.port,
            row.osmocore[0].map_or(String::new(), nanoseconds),
            row.osmocore[1].map_or(String::new(), nanoseconds),
            count("port"),
            count("rust")
        )
        .unwrap();
    }
    out
}

const LEFT: f64 = 250.0;
const WIDTH: f64 = 460.0;
const STEP: f64 = 18.0;
const TOP: f64 = 46.0;
/// The scale goes from a tenth to ten thousand.
const LOWEST: f64 = -1.0;
const HIGHEST: f64 = 4.0;

fn place(ratio: f64) -> f64 {
    let along = (ratio.log10() - LOWEST) / (HIGHEST - LOWEST);
    LEFT + WIDTH * along.clamp(0.0, 1.0)
}

/// Bars on a logarithmic scale, from the line at 1.
fn figure(rows: &[Row]) -> String {
    let height = TOP + STEP * rows.len() as f64 + 12.0;
    let mut out = format!(
        "<svg xmlns=\"http://www.w3.org/2000/svg\" width=\"800\" height=\"{height}\" font-family=\"sans-serif\" font-size=\"12\">\n\
         <rect width=\"100%\" height=\"100%\" fill=\"white\"/>\n\
         <text x=\"12\" y=\"20\" font-size=\"14\">How many times as fast as the original (logarithmic; left of the line at 1: slower)</text>\n"
    );
    for power in -1..=4 {
        let (ratio, x) = (10f64.powi(power), place(10f64.powi(power)));
        writeln!(
            out,
            "<line x1=\"{x}\" y1=\"{}\" x2=\"{x}\" y2=\"{height}\" stroke=\"{}\"/><text x=\"{x}\" y=\"{}\" text-anchor=\"middle\" fill=\"#555\">{ratio}</text>",
            TOP - 8.0,
            if power == 0 { "#333" } else { "#ddd" },
            TOP - 10.0
        )
        .unwrap();
    }
    for (index, row) in rows.iter().enumerate() {
        out.push_str(&bar(row, TOP + STEP * index as f64));
    }
    out + "</svg>\n"
}

fn bar(row: &Row, y: f64) -> String {
    let ratio = row.original / row.port;
    let (one, end) = (place(1.0), place(ratio));
    let fill = if ratio < 1.0 { "#b5533c" } else { "#2f6f9f" };
    format!(
        "<text x=\"{}\" y=\"{}\" text-anchor=\"end\">{}</text><rect x=\"{:.1}\" y=\"{}\" width=\"{:.1}\" height=\"12\" fill=\"{fill}\"/><text x=\"{:.1}\" y=\"{}\">{ratio:.2}</text>\n",
        LEFT - 8.0,
        y + 11.0,
        row.case,
        one.min(end),
        y + 1.0,
        (end - one).abs(),
        one.max(end) + 5.0,
        y + 11.0
    )
}
