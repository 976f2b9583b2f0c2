//! Comparing other programs with our own answers, on random input.

use std::collections::BTreeMap;
use std::fs;
use std::io;
use std::path::{Path, PathBuf};

use crate::cost::KindName;
use crate::damage::{damaged, noise};
use crate::events::{blind_events, events};
use crate::follow::answers;
use crate::generate::{any_sheet, sheet_for_runs, sheet_to_damage};
use crate::listing;
use crate::process::{self, Ending, Outcome, PATIENCE};
use crate::random::{Random, case_seed};
use crate::sheet;

/// The comparison stops at so many differences.
const ENOUGH: u64 = 20;

#[derive(Clone, Copy, Debug, PartialEq, Eq)]
pub enum Stream {
    Sheets,
    Runs,
}

impl Stream {
    fn letter(self) -> char {
        match self {
            Stream::Sheets => 's',
            Stream::Runs => 'r',
        }
    }
}

/// One case, named by its stream and its number in it.
#[derive(Clone, Copy, Debug, PartialEq, Eq)]
pub struct Case {
    pub stream: Stream,
    pub number: u64,
}

impl Case {
    fn name(self) -> String {
        format!("{}{}", self.stream.letter(), self.number)
    }

    pub fn from_name(name: &str) -> Option<Case> {
        let stream = match name.chars().next()? {
            's' => Stream::Sheets,
            'r' => Stream::Runs,
            _ => return None,
        };
        let number = name[1..].parse().ok()?;
        Some(Case { stream, number })
    }

    fn seed(self, base: u64) -> u64 {
        case_seed(base, self.stream.letter() as u64, self.number)
    }
}

pub struct Comparison {
    pub bench: Option<PathBuf>,
    pub follow: Option<PathBuf>,
    pub seed: u64,
    pub sheets: u64,
    pub runs: u64,
    pub only: Option<Case>,
    pub keep: PathBuf,
    pub statistics: bool,
}

/// How the bytes of a case came about.
#[derive(Clone, Copy, Debug, PartialEq, Eq)]
enum Origin {
    Sound,
    Damaged,
    Noise,
}

/// A sheet for `bench`.
fn sheet_case(seed: u64) -> (Origin, Vec<u8>) {
    let random = &mut Random::new(seed);
    match random.weighted(&[55, 42, 3]) {
        0 => (Origin::Sound, sheet::spell(&any_sheet(random))),
        1 => {
            let sound = sheet_to_damage(random);
            (Origin::Damaged, damaged(random, sound))
        }
        _ => (Origin::Noise, noise(random)),
    }
}

/// How `follow` is called.
#[derive(Clone, Copy, Debug, PartialEq, Eq)]
enum Call {
    /// All events are written without waiting for answers.
    AllAtOnce,
    /// Each line waits for the answer to the one before.
    InTurn,
    Wrong(WrongCall),
}

/// Arguments that are an error.
#[derive(Clone, Copy, Debug, PartialEq, Eq)]
enum WrongCall {
    Nothing,
    NoFile,
    OneMore,
    Kind(&'static str),
    MissingFile,
    Folder,
}

const WRONG_CALLS: [WrongCall; 10] = [
    WrongCall::Nothing,
    WrongCall::NoFile,
    WrongCall::OneMore,
    WrongCall::Kind("Energy"),
    WrongCall::Kind("energ"),
    WrongCall::Kind("care "),
    WrongCall::Kind(""),
    WrongCall::Kind("bruise"),
    WrongCall::MissingFile,
    WrongCall::Folder,
];

struct RunCase {
    kind: KindName,
    sheet: Vec<u8>,
    events: Vec<u8>,
    call: Call,
}

fn run_case(seed: u64) -> RunCase {
    let random = &mut Random::new(seed);
    let kind = *random.pick(&KindName::ALL);
    let call = match random.weighted(&[92, 6, 2]) {
        0 => Call::AllAtOnce,
        1 => Call::InTurn,
        _ => Call::Wrong(*random.pick(&WRONG_CALLS)),
    };
    let (sheet, events) = match random.weighted(&[88, 5, 6, 1]) {
        0 => {
            let sheet = sheet_for_runs(random, kind);
            (sheet::spell(&sheet), events(random, kind, &sheet))
        }
        1 => {
            let sheet = any_sheet(random);
            (sheet::spell(&sheet), events(random, kind, &sheet))
        }
        2 => {
            let sound = sheet_to_damage(random);
            let events = events(random, kind, &sound);
            (damaged(random, sound), events)
        }
        _ => (noise(random), blind_events(random)),
    };
    RunCase {
        kind,
        sheet,
        events,
        call,
    }
}

/// Counts of what was compared.
#[derive(Default)]
struct Tally {
    sound: u64,
    damaged: u64,
    noise: u64,
    sheets_refused: u64,
    runs: u64,
    events: u64,
    differences: u64,
    /// How often each sort of answer was ours, by its first words.
    sorts: BTreeMap<String, u64>,
    most_positions: usize,
    most_rounds: u32,
}

impl Tally {
    fn count(&mut self, sort: String) {
        *self.sorts.entry(sort).or_default() += 1;
    }

    fn count_listing(&mut self, answer: &[u8]) {
        let text = String::from_utf8_lossy(answer);
        let mut words = text.lines().next().unwrap_or("").split(' ');
        if words.next() == Some("refused") {
            self.sheets_refused += 1;
            self.count(format!("sheet refused {}", words.next().unwrap_or("")));
            return;
        }
        let mut lines = 0;
        for line in text.lines() {
            let words: Vec<&str> = line.split(' ').collect();
            if KindName::from_word(words[0]).is_some() {
                let rounds = words[1].parse().unwrap_or(0);
                self.most_rounds = self.most_rounds.max(rounds);
                self.count(format!("listing {} {}", words[0], words[2]));
                self.count(format!("listing with {}", rounds_in_words(rounds)));
            } else {
                lines += 1;
            }
        }
        self.most_positions = self.most_positions.max(lines / 3);
    }

    fn count_run(&mut self, answer: &[u8]) {
        let text = String::from_utf8_lossy(answer);
        self.runs += 1;
        self.events += (text.lines().count() as u64).saturating_sub(1);
        for line in text.lines() {
            let words: Vec<&str> = line.split(' ').collect();
            match words[..] {
                ["refused", number, ..] => self.count(format!("run refused {number}")),
                _ => self.count(format!("run {}", words[0])),
            }
        }
    }

    fn print_sorts(&self) {
        for (sort, times) in &self.sorts {
            println!("{times:8} {sort}");
        }
        println!("{:8} positions at most", self.most_positions);
        println!("{:8} rounds at most", self.most_rounds);
    }
}

fn rounds_in_words(rounds: u32) -> &'static str {
    match rounds {
        0 => "rounds 0",
        1 => "rounds 1",
        2..5 => "rounds 2 to 4",
        5..16 => "rounds 5 to 15",
        16..100 => "rounds 16 to 99",
        100..1_000 => "rounds 100 to 999",
        _ => "rounds 1000 or more",
    }
}

/// What is to come of a call.
struct Expected {
    stdout: Vec<u8>,
    status: i32,
    /// Whether a line on standard error is due.
    complains: bool,
}

/// How an outcome differs from what was expected, if it does.
fn difference(expected: &Expected, outcome: &Outcome) -> Option<String> {
    if outcome.ending != Ending::Status(expected.status) {
        let (is, due) = (&outcome.ending, expected.status);
        return Some(format!("it ends with {is:?}, and Status({due}) is due"));
    }
    if outcome.stdout != expected.stdout {
        return Some(first_different_line(&expected.stdout, &outcome.stdout));
    }
    if expected.complains {
        let lines = outcome.stderr.iter().filter(|&&b| b == b'\n').count();
        if lines != 1 || outcome.stderr.last() != Some(&b'\n') {
            return Some("one line on standard error is due".to_string());
        }
    }
    None
}

fn first_different_line(own: &[u8], other: &[u8]) -> String {
    let mut own = own.split(|&b| b == b'\n');
    let mut other = other.split(|&b| b == b'\n');
    let mut number = 1;
    loop {
        let (ours, theirs) = (own.next(), other.next());
        if ours != theirs {
            let show = |line: Option<&[u8]>| match line {
                Some(line) => format!("{:?}", String::from_utf8_lossy(line)),
                None => "nothing".to_string(),
            };
            return format!("line {number}: own {}, other {}", show(ours), show(theirs));
        }
        if ours.is_none() {
            return "no line".to_string();
        }
        number += 1;
    }
}

struct Comparer<'a> {
    settings: &'a Comparison,
    tally: Tally,
    /// A folder of our own for the sheets that `follow` reads.
    folder: PathBuf,
}

impl Comparer<'_> {
    fn compare(&mut self, case: Case) -> io::Result<()> {
        match case.stream {
            Stream::Sheets => self.compare_sheet(case),
            Stream::Runs => self.compare_run(case),
        }
    }

    fn compare_sheet(&mut self, case: Case) -> io::Result<()> {
        let Some(bench) = &self.settings.bench else {
            return Ok(());
        };
        let (origin, bytes) = sheet_case(case.seed(self.settings.seed));
        match origin {
            Origin::Sound => self.tally.sound += 1,
            Origin::Damaged => self.tally.damaged += 1,
            Origin::Noise => self.tally.noise += 1,
        }
        let expected = Expected {
            stdout: listing::answer(&bytes),
            status: 0,
            complains: false,
        };
        self.tally.count_listing(&expected.stdout);
        let outcome = process::run(bench, &[], &bytes, PATIENCE);
        if let Some(what) = difference(&expected, &outcome) {
            let files = [
                ("sheet", bytes.as_slice()),
                ("own", &expected.stdout),
                ("bench", &outcome.stdout),
            ];
            self.report(case, &format!("bench: {what}"), &files)?;
        }
        Ok(())
    }

    fn compare_run(&mut self, case: Case) -> io::Result<()> {
        let Some(follow) = &self.settings.follow else {
            return Ok(());
        };
        let run = run_case(case.seed(self.settings.seed));
        let path = self.folder.join("sheet");
        fs::write(&path, &run.sheet)?;
        let path = path.to_string_lossy();
        let missing = self.folder.join("missing");
        let missing = missing.to_string_lossy();
        let folder = self.folder.to_string_lossy();
        let kind = run.kind.word();
        let arguments: Vec<&str> = match run.call {
            Call::AllAtOnce | Call::InTurn => vec![kind, &path],
            Call::Wrong(WrongCall::Nothing) => vec![],
            Call::Wrong(WrongCall::NoFile) => vec![kind],
            Call::Wrong(WrongCall::OneMore) => vec![kind, &path, &path],
            Call::Wrong(WrongCall::Kind(word)) => vec![word, &path],
            Call::Wrong(WrongCall::MissingFile) => vec![kind, &missing],
            Call::Wrong(WrongCall::Folder) => vec![kind, &folder],
        };
        let wrong = matches!(run.call, Call::Wrong(_));
        let expected = Expected {
            stdout: match wrong {
                true => Vec::new(),
                false => answers(run.kind, &run.sheet, &run.events),
            },
            status: i32::from(wrong),
            complains: wrong,
        };
        self.tally.count_run(&expected.stdout);
        let outcome = if run.call == Call::InTurn {
            let lines: Vec<&[u8]> = run.events.split_inclusive(|&b| b == b'\n').collect();
            let due = expected.stdout.iter().filter(|&&b| b == b'\n').count();
            process::talk(follow, &arguments, &lines, due)
        } else {
            process::run(follow, &arguments, &run.events, PATIENCE)
        };
        if let Some(what) = difference(&expected, &outcome) {
            let what = format!("follow {}: {what}", arguments.join(" "));
            let files = [
                ("sheet", run.sheet.as_slice()),
                ("events", &run.events),
                ("own", &expected.stdout),
                ("follow", &outcome.stdout),
            ];
            self.report(case, &what, &files)?;
        }
        Ok(())
    }

    /// Prints a difference and keeps its files.
    fn report(&mut self, case: Case, what: &str, files: &[(&str, &[u8])]) -> io::Result<()> {
        self.tally.differences += 1;
        let seed = case.seed(self.settings.seed);
        println!("case {} (seed {seed:#018x}) differs: {what}", case.name());
        fs::create_dir_all(&self.settings.keep)?;
        for (ending, bytes) in files {
            let name = format!("{}.{ending}", case.name());
            fs::write(self.settings.keep.join(name), bytes)?;
        }
        let place = self.settings.keep.join(case.name());
        println!("  kept in {}.*", place.display());
        Ok(())
    }
}

/// Makes the comparison; true where nothing differs.
pub fn compare(settings: &Comparison) -> io::Result<bool> {
    let folder = std::env::temp_dir().join(format!("crosscheck-{}", std::process::id()));
    fs::create_dir_all(&folder)?;
    let mut comparer = Comparer {
        settings,
        tally: Tally::default(),
        folder,
    };
    let done = compare_all(&mut comparer);
    remove(&comparer.folder);
    done?;
    let tally = &comparer.tally;
    if settings.statistics {
        tally.print_sorts();
    }
    println!(
        "{} sheets ({} sound, {} damaged, {} noise; {} refused) and {} runs ({} events), seed {}: {}",
        tally.sound + tally.damaged + tally.noise,
        tally.sound,
        tally.damaged,
        tally.noise,
        tally.sheets_refused,
        tally.runs,
        tally.events,
        settings.seed,
        match tally.differences {
            0 => "no difference".to_string(),
            1 => "1 difference".to_string(),
            many => format!("{many} differences"),
        }
    );
    Ok(tally.differences == 0)
}

fn compare_all(comparer: &mut Comparer) -> io::Result<()> {
    let settings = comparer.settings;
    if let Some(case) = settings.only {
        return comparer.compare(case);
    }
    for (stream, count) in [
        (Stream::Sheets, settings.sheets),
        (Stream::Runs, settings.runs),
    ] {
        for number in 0..count {
            comparer.compare(Case { stream, number })?;
            if comparer.tally.differences >= ENOUGH {
                println!("stopped here");
                return Ok(());
            }
        }
    }
    Ok(())
}

fn remove(folder: &Path) {
    let _ = fs::remove_file(folder.join("sheet"));
    let _ = fs::remove_dir(folder);
}
