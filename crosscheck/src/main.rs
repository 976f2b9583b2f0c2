//! A second program for the packing bench, written from the documents alone,
//! and drivers that hold the planner's programs against it.

mod board;
mod compare;
mod cost;
mod damage;
mod events;
mod follow;
mod generate;
mod listing;
mod process;
mod random;
mod run;
mod selfcheck;
mod sheet;
mod solve;
mod speed;
mod task;
mod worst;

use std::fs::File;
use std::io::{self, Read, Write};
use std::path::PathBuf;
use std::process::ExitCode;

use compare::{Case, Comparison};
use cost::KindName;

const USAGE: &str = "\
crosscheck bench                    print the listing of the sheet on standard input
crosscheck follow KIND SHEETFILE    follow a run, with events on standard input
crosscheck compare --bench PATH --follow PATH [--seed N] [--sheets N] [--runs N]
                   [--only CASE] [--keep DIR] [--stats]
crosscheck speed --bench PATH [--times N] [--only SHEET]
crosscheck worst SHEET               print one of the sheets that take the most work
crosscheck selfcheck [REPOSITORY]
";

const DEFAULT_SEED: u64 = 20_260_417;

fn main() -> ExitCode {
    let arguments: Vec<String> = match std::env::args_os()
        .skip(1)
        .map(|argument| argument.into_string())
        .collect()
    {
        Ok(arguments) => arguments,
        Err(_) => return complain("an argument is no text"),
    };
    let Some((command, rest)) = arguments.split_first() else {
        return complain(USAGE.trim_end());
    };
    let done = match command.as_str() {
        "bench" if rest.is_empty() => print_listing(),
        "follow" => follow_sheet(rest),
        "compare" => start_comparison(rest),
        "speed" => start_speed(rest),
        "worst" if rest.len() == 1 => print_worst(&rest[0]),
        "selfcheck" if rest.len() < 2 => Ok(selfcheck::selfcheck(rest.first().map(PathBuf::from))),
        _ => Err(USAGE.trim_end().to_string()),
    };
    match done {
        Ok(true) => ExitCode::SUCCESS,
        Ok(false) => ExitCode::FAILURE,
        Err(what) => complain(&what),
    }
}

fn complain(what: &str) -> ExitCode {
    eprintln!("{what}");
    ExitCode::FAILURE
}

fn in_words(error: io::Error) -> String {
    error.to_string()
}

/// Reads so much that a sheet that is too long is seen to be so.
fn read_sheet(from: impl Read) -> io::Result<Vec<u8>> {
    let mut bytes = Vec::new();
    from.take(sheet::LONGEST as u64 + 1)
        .read_to_end(&mut bytes)?;
    Ok(bytes)
}

fn print_listing() -> Result<bool, String> {
    let bytes = read_sheet(io::stdin().lock()).map_err(in_words)?;
    let mut out = io::stdout().lock();
    out.write_all(&listing::answer(&bytes)).map_err(in_words)?;
    out.flush().map_err(in_words)?;
    Ok(true)
}

fn print_worst(name: &str) -> Result<bool, String> {
    let sheets = worst::worst_sheets();
    let Some(found) = sheets.iter().find(|worst| worst.name == name) else {
        return Err(format!("{name} is no worst sheet"));
    };
    let bytes = sheet::spell(&found.sheet);
    io::stdout().write_all(&bytes).map_err(in_words)?;
    Ok(true)
}

fn follow_sheet(arguments: &[String]) -> Result<bool, String> {
    let [kind, path] = arguments else {
        return Err("follow KIND SHEETFILE is due".to_string());
    };
    let kind = KindName::from_word(kind).ok_or("the kind is energy, peak or care")?;
    let bytes = File::open(path)
        .and_then(read_sheet)
        .map_err(|error| format!("{path}: {error}"))?;
    let mut input = io::stdin().lock();
    let mut output = io::stdout().lock();
    follow::follow(kind, &bytes, &mut input, &mut output).map_err(in_words)?;
    Ok(true)
}

/// The options of a command, each with a value but for those that are marks.
struct Options {
    given: Vec<(String, String)>,
}

impl Options {
    fn read(arguments: &[String], known: &[&str], marks: &[&str]) -> Result<Options, String> {
        let mut given = Vec::new();
        let mut left = arguments.iter();
        while let Some(name) = left.next() {
            if marks.contains(&name.as_str()) {
                given.push((name.clone(), String::new()));
            } else if known.contains(&name.as_str()) {
                let value = left.next().ok_or(format!("{name} has no value"))?;
                given.push((name.clone(), value.clone()));
            } else {
                return Err(format!("{name} is not known"));
            }
        }
        Ok(Options { given })
    }

    fn value(&self, name: &str) -> Option<&str> {
        let found = self.given.iter().rev().find(|(given, _)| given == name);
        found.map(|(_, value)| value.as_str())
    }

    fn number(&self, name: &str, otherwise: u64) -> Result<u64, String> {
        match self.value(name) {
            Some(text) => text.parse().map_err(|_| format!("{name} wants a number")),
            None => Ok(otherwise),
        }
    }
}

fn start_comparison(arguments: &[String]) -> Result<bool, String> {
    let known = [
        "--bench", "--follow", "--seed", "--sheets", "--runs", "--only", "--keep",
    ];
    let options = Options::read(arguments, &known, &["--stats"])?;
    let only = match options.value("--only") {
        Some(name) => Some(Case::from_name(name).ok_or("a case is s or r and its number")?),
        None => None,
    };
    let settings = Comparison {
        bench: options.value("--bench").map(PathBuf::from),
        follow: options.value("--follow").map(PathBuf::from),
        seed: options.number("--seed", DEFAULT_SEED)?,
        sheets: options.number("--sheets", 3_000)?,
        runs: options.number("--runs", 1_000)?,
        only,
        keep: PathBuf::from(options.value("--keep").unwrap_or(".")),
        statistics: options.value("--stats").is_some(),
    };
    if settings.bench.is_none() && settings.sheets > 0 {
        return Err("--bench PATH is due, or --sheets 0".to_string());
    }
    if settings.follow.is_none() && settings.runs > 0 {
        return Err("--follow PATH is due, or --runs 0".to_string());
    }
    compare::compare(&settings).map_err(in_words)
}

fn start_speed(arguments: &[String]) -> Result<bool, String> {
    let options = Options::read(arguments, &["--bench", "--times", "--only"], &[])?;
    let bench = options.value("--bench").ok_or("--bench PATH is due")?;
    let times = options.number("--times", 5)?.max(1);
    speed::speed(&PathBuf::from(bench), times, options.value("--only")).map_err(in_words)
}
