//! How long the worst sheets take.

use std::io;
use std::path::Path;
use std::time::{Duration, Instant};

use crate::board::{self, Board};
use crate::cost::{Care, Energy, Peak};
use crate::listing;
use crate::process::{self, Ending};
use crate::sheet::{self, Sheet};
use crate::solve::solve;
use crate::worst::{Worst, worst_sheets};

/// A slow program is waited for, so that its time is known.
const PATIENCE: Duration = Duration::from_secs(3_600);

/// Times the program at a path and our own on each sheet. True where every
/// listing is ours.
pub fn speed(bench: &Path, times: u64, only: Option<&str>) -> io::Result<bool> {
    let own = std::env::current_exe()?;
    println!("best of {times}, in milliseconds; ratio is bench by own process");
    println!(
        "{:<20} {:>6} {:>9} {:>8} {:>16} {:>10} {:>10} {:>10} {:>7}",
        "sheet", "bytes", "positions", "moves", "rounds", "bench", "own", "in-process", "ratio"
    );
    let mut all_alike = true;
    let worst = worst_sheets();
    for Worst { name, sheet } in &worst {
        if only.is_some_and(|only| only != *name) {
            continue;
        }
        let bytes = sheet::spell(sheet);
        let Ok(board) = board::join(sheet) else {
            println!("{name}: the sheet cannot be joined");
            all_alike = false;
            continue;
        };
        let due = listing::answer(&bytes);
        let inside = best(times, || listing::answer(&bytes) == due);
        let own = best(times, || prints(&own, &["bench"], &bytes, &due));
        let other = best(times, || prints(bench, &[], &bytes, &due));
        println!(
            "{:<20} {:>6} {:>9} {:>8} {:>16} {:>10} {:>10} {:>10} {:>7}",
            name,
            bytes.len(),
            board.count(),
            board.steps.len(),
            rounds(sheet, &board),
            in_milliseconds(other),
            in_milliseconds(own),
            in_milliseconds(inside),
            ratio(other, own),
        );
        all_alike &= other.is_some() && own.is_some() && inside.is_some();
    }
    Ok(all_alike)
}

/// The shortest of several times; none where an answer is not the one due.
fn best(times: u64, mut answers: impl FnMut() -> bool) -> Option<Duration> {
    let mut best: Option<Duration> = None;
    for _ in 0..times {
        let begun = Instant::now();
        let alike = answers();
        let took = begun.elapsed();
        if !alike {
            return None;
        }
        best = Some(best.map_or(took, |shortest| shortest.min(took)));
    }
    best
}

fn prints(program: &Path, arguments: &[&str], bytes: &[u8], due: &[u8]) -> bool {
    let outcome = process::run(program, arguments, bytes, PATIENCE);
    outcome.ending == Ending::Status(0) && outcome.stdout == due
}

/// The numbers of rounds for the three kinds.
fn rounds(sheet: &Sheet, board: &Board) -> String {
    let energy = solve::<Energy>(board, sheet.budget).rounds;
    let peak = solve::<Peak>(board, sheet.budget).rounds;
    let care = solve::<Care>(board, sheet.budget).rounds;
    format!("{energy}/{peak}/{care}")
}

fn in_milliseconds(time: Option<Duration>) -> String {
    match time {
        Some(time) => format!("{:.1}", time.as_secs_f64() * 1_000.0),
        None => "differs".to_string(),
    }
}

fn ratio(bench: Option<Duration>, own: Option<Duration>) -> String {
    match (bench, own) {
        (Some(bench), Some(own)) => format!("{:.2}", bench.as_secs_f64() / own.as_secs_f64()),
        _ => "-".to_string(),
    }
}
