//! The examples of the documents, and the stored refusals of the repository's
//! sheet cases where that folder is found.

use std::fs;
use std::path::{Path, PathBuf};

use crate::cost::KindName;
use crate::follow::answers;
use crate::listing;

/// The sheet that the documents' refusals change.
const FOUR_POSITIONS: [&str; 16] = [
    "positions 4",
    "a - 0",
    "p - 1",
    "a - 2",
    "a r 4",
    "moves 5",
    "0 1 0 3",
    "0 3 2 1",
    "1 2 0 0",
    "1 3 0 0",
    "2 3 0 4",
    "states 0",
    "arrows 0",
    "rules 0",
    "start 1",
    "0 0 5",
];

const FOUR_POSITIONS_LISTING: &str = "\
energy 2 within 1
0 a 1 1
1 p 4 0
2 a 4 0
3 a 0 -
peak 2 within 1
0 a 1 1
1 p 4 0
2 a 4 0
3 a 0 -
care 3 over 0/7
0 a 0/7 0
1 p 0/4 0
2 a 0/4 0
3 a 0/0 -
";

const FOUR_POSITIONS_RUN: &str = "\
begin 0 0 0 arm
go 1 0 0 0 moving
refused 52
there 3 1 1 ended
refused 51
end 3 1 1 ended
";

/// Lines of the sheet above with others in their place, and the fault. Of two
/// lines in one place a `/` stands between.
const CHANGED_LINES: [(&[(usize, &str)], &str); 51] = [
    (&[(6, "move 5")], "2 6 1"),
    (&[(1, "Positions 4")], "2 1 1"),
    (&[(12, "arrows 0")], "2 12 1"),
    (&[(12, " 0")], "2 12 1"),
    (&[(6, "move x")], "2 6 1"),
    (&[(2, "a - 07")], "3 2 3"),
    (&[(2, "a - 00")], "3 2 3"),
    (&[(2, "a - -1")], "3 2 3"),
    (&[(2, "a - ")], "3 2 3"),
    (&[(7, "0 1 0 ")], "3 7 4"),
    (&[(1, "positions +4")], "3 1 2"),
    (&[(7, "0 1 0 12345678901")], "3 7 4"),
    (&[(2, "a - 0\r")], "3 2 3"),
    (&[(2, "a - 65536")], "4 2 3"),
    (&[(1, "positions 0")], "4 1 2"),
    (&[(1, "positions 4097")], "4 1 2"),
    (&[(7, "0 4 0 3")], "4 7 2"),
    (&[(7, "0 1 1001 3")], "4 7 3"),
    (&[(7, "0 1 0 1000001")], "4 7 4"),
    (&[(7, "0 9 5000 x")], "4 7 2"),
    (&[(12, "states 65")], "4 12 2"),
    (&[(13, "arrows 1")], "4 13 2"),
    (&[(14, "rules 6")], "4 14 2"),
    (&[(14, "rules 1/met 16")], "4 15 2"),
    (&[(15, "start 2")], "4 15 2"),
    (&[(16, "4 0 5")], "4 16 1"),
    (&[(16, "0 4294967296 5")], "4 16 2"),
    (&[(7, "0 1 0")], "5 7 0"),
    (&[(2, "a  - 0")], "5 2 0"),
    (&[(2, "")], "5 2 0"),
    (&[(1, "positions 4 ")], "5 1 0"),
    (&[(6, "moves x y")], "5 6 0"),
    (&[(6, "moves 6")], "5 12 0"),
    (&[(14, "rules 1/met 1 2")], "5 15 0"),
    (&[(14, "rules 1/before 1")], "5 15 0"),
    (&[(2, "b - 0")], "6 2 1"),
    (&[(2, "A - 0")], "6 2 1"),
    (&[(2, "a x 0")], "6 2 2"),
    (&[(12, "states 1/yes")], "6 13 1"),
    (&[(12, "states 1/")], "6 13 1"),
    (&[(14, "rules 1/always 1")], "6 15 1"),
    (&[(14, "rules 1/always")], "6 15 1"),
    (&[(14, "rules 1/")], "6 15 1"),
    (&[(8, "1 2 0 0"), (9, "0 3 2 1")], "7 9 0"),
    (&[(17, "")], "9 17 0"),
    (&[(6, "moves 5000")], "4 6 2"),
    (&[(9, "1 2 0 1")], "12 9 0"),
    (&[(9, "1 2 3 0")], "12 9 0"),
    (
        &[(5, "p r 4"), (6, "moves 6"), (11, "2 3 0 4/3 3 0 1")],
        "12 12 0",
    ),
    (&[(2, "p - 0"), (7, "1 2 0 0")], "7 8 0"),
    (&[(3, "p")], "5 3 0"),
];

/// The sheet with some of its lines changed. Line 17 is one more.
fn with_lines(changes: &[(usize, &str)]) -> Vec<u8> {
    let mut lines: Vec<&str> = FOUR_POSITIONS.to_vec();
    for &(number, text) in changes {
        if number > lines.len() {
            lines.push(text);
        } else {
            lines[number - 1] = text;
        }
    }
    let mut text = lines.join("\n");
    text.push('\n');
    text.replace('/', "\n").into_bytes()
}

/// The first lines of the sheet.
fn first_lines(count: usize) -> Vec<u8> {
    let mut bytes = Vec::new();
    for line in &FOUR_POSITIONS[..count] {
        bytes.extend_from_slice(line.as_bytes());
        bytes.push(b'\n');
    }
    bytes
}

/// A sheet of so many resting positions, with states and rules.
fn resting(positions: usize, states: usize, rules: usize) -> Vec<u8> {
    let mut text = format!("positions {positions}\n");
    text += &"a r 1\n".repeat(positions);
    text += &format!("moves 0\nstates {states}\n");
    text += &"y\n".repeat(states);
    text += &format!("arrows 0\nrules {rules}\n");
    text += &"met 0\n".repeat(rules);
    text += "start 1\n0 0 0\n";
    text.into_bytes()
}

/// Checks made so far.
#[derive(Default)]
struct Checks {
    agreed: usize,
    failed: usize,
}

impl Checks {
    fn check(&mut self, what: &str, own: &[u8], due: &[u8]) {
        if own == due {
            self.agreed += 1;
            return;
        }
        self.failed += 1;
        println!("{what}: own answer is");
        println!("{}", String::from_utf8_lossy(own));
        println!("and due is");
        println!("{}", String::from_utf8_lossy(due));
    }

    fn refusal(&mut self, what: &str, sheet: &[u8], fault: &str) {
        let due = format!("refused {fault}\n");
        self.check(what, &listing::answer(sheet), due.as_bytes());
    }
}

/// Runs all examples; true where all agree.
pub fn selfcheck(repository: Option<PathBuf>) -> bool {
    let mut checks = Checks::default();
    documents(&mut checks);
    println!("documents: {} agree", checks.agreed);
    let manifest = Path::new(env!("CARGO_MANIFEST_DIR")).join("..");
    let folders = match repository {
        Some(given) => vec![given],
        None => vec![PathBuf::from("."), manifest],
    };
    let cases = folders
        .iter()
        .map(|folder| folder.join("crates/sheet_cases"))
        .find(|folder| folder.is_dir());
    match cases {
        Some(folder) => stored_cases(&mut checks, &folder),
        None => println!("sheet cases: not found"),
    }
    println!("{} agree, {} differ", checks.agreed, checks.failed);
    checks.failed == 0
}

fn documents(checks: &mut Checks) {
    listing_and_run(checks);
    refusals(checks);
    small_boards(checks);
}

fn listing_and_run(checks: &mut Checks) {
    // In the listing's example no position has a sign.
    let plain = with_lines(&[(3, "p - 0"), (4, "a - 0"), (5, "a r 0")]);
    let due = FOUR_POSITIONS_LISTING.as_bytes();
    checks.check("listing", &listing::answer(&plain), due);
    checks.check("sample", &listing::answer(&with_lines(&[])), due);

    let events = b"go\nhand 0\nthere\ngo\nend\n";
    let own = answers(KindName::Energy, &plain, events);
    checks.check("run", &own, FOUR_POSITIONS_RUN.as_bytes());
    let own = answers(KindName::Care, &plain, events);
    checks.check("run over the budget", &own, b"refused 41\n");
}

fn refusals(checks: &mut Checks) {
    for (changes, fault) in CHANGED_LINES {
        checks.refusal(&format!("{changes:?}"), &with_lines(changes), fault);
    }
    checks.refusal("an empty sheet", b"", "1 1 0");
    checks.refusal("ends after line 5", &first_lines(5), "1 6 0");
    checks.refusal("ends after line 8", &first_lines(8), "1 9 0");
    let mut bytes = first_lines(16);
    bytes.pop();
    checks.refusal("no last LF", &bytes, "1 16 0");
    let mut bytes = first_lines(2);
    bytes.push(b'p');
    checks.refusal("ends within line 3", &bytes, "1 3 0");
    let mut bytes = first_lines(16);
    bytes.extend_from_slice(b"done");
    checks.refusal("a word after the end", &bytes, "9 17 0");

    let many = "positions 1\na - 0\nmoves 65\n".to_string() + &"0 0 0 0\n".repeat(65);
    checks.refusal("65 moves", many.as_bytes(), "8 68 0");
    checks.refusal("65,537 bytes", &[b'a'; 65_537], "11 0 0");
    checks.refusal("65,536 bytes", &[b'a'; 65_536], "1 1 0");
    checks.refusal("1,366 positions, one rule", &resting(1_366, 0, 1), "22 0 0");
    checks.refusal("65 positions, 64 states", &resting(65, 64, 0), "22 0 0");
    let own = listing::answer(&resting(1_365, 0, 1));
    let lines = own.iter().filter(|&&b| b == b'\n').count();
    checks.check(
        "lines of 4,095 positions",
        lines.to_string().as_bytes(),
        b"12288",
    );
}

/// Boards told in the words of the documents.
fn small_boards(checks: &mut Checks) {
    let energy = |sheet: &str| {
        let listing = String::from_utf8_lossy(&listing::answer(sheet.as_bytes())).into_owned();
        let end = listing.find("peak").unwrap_or(listing.len());
        listing[..end].to_string()
    };
    // The arm's choice must come from the first round of the cost.
    let circle = "positions 3\na - 0\na - 0\na r 0\nmoves 3\n0 1 0 0\n0 2 0 5\n1 0 0 0\n\
                  states 0\narrows 0\nrules 0\nstart 1\n0 0 5\n";
    let due = "energy 2 within 5\n0 a 5 1\n1 a 5 0\n2 a 0 -\n";
    checks.check("a circle", energy(circle).as_bytes(), due.as_bytes());

    // Joined with the rule `met 0`.
    let tail = "states 0\narrows 0\nrules 1\nmet 0\nstart 1\n0 0 0\n";
    let met = format!("positions 1\na r 1\nmoves 0\n{tail}");
    let due = "energy 0 within 0\n0 a none -\n1 a 0 -\n2 a none -\n";
    checks.check("met at once", energy(&met).as_bytes(), due.as_bytes());
    let not_met = format!("positions 1\na r 0\nmoves 0\n{tail}");
    let due = "energy 0 never none\n0 a none -\n1 a 0 -\n2 a none -\n";
    checks.check("not met", energy(&not_met).as_bytes(), due.as_bytes());
    let later = format!("positions 2\na - 0\na r 1\nmoves 1\n0 1 0 0\n{tail}");
    let due = "energy 1 within 0\n0 a 0 0\n1 a 0 0\n2 a none -\n\
               3 a none -\n4 a 0 -\n5 a none -\n";
    checks.check("met later", energy(&later).as_bytes(), due.as_bytes());
}

/// One stored case: its name and what is stored as its answer.
fn stored_answers(names: &str, stored: &str) -> Vec<(String, String)> {
    let mut cases: Vec<(String, String)> = Vec::new();
    let mut names = names.split_whitespace().peekable();
    for line in stored.lines() {
        let begun = names
            .peek()
            .and_then(|name| line.strip_prefix(name))
            .and_then(|rest| rest.strip_prefix(": "));
        match (begun, cases.last_mut()) {
            (Some(first), _) => {
                let name = names.next().unwrap_or_default().to_string();
                cases.push((name, format!("{first}\n")));
            }
            (None, Some((_, answer))) => {
                answer.push_str(line);
                answer.push('\n');
            }
            (None, None) => {}
        }
    }
    cases
}

/// Holds the stored refusals against our own. An accepted sheet must be
/// accepted, and where its listing is stored, the listing is compared too.
fn stored_cases(checks: &mut Checks, folder: &Path) {
    let text = |name: &str| fs::read_to_string(folder.join(name)).unwrap_or_default();
    let cases = stored_answers(&text("args"), &text("stdout"));
    let mut refused = 0;
    let mut listed = 0;
    let mut accepted = 0;
    for (name, due) in &cases {
        let bytes = match fs::read(folder.join("data").join(name)) {
            Ok(bytes) => bytes,
            Err(error) => {
                println!("{name}: {error}");
                checks.failed += 1;
                continue;
            }
        };
        let own = listing::answer(&bytes);
        if due.starts_with("refused ") {
            refused += 1;
            checks.check(name, &own, due.as_bytes());
        } else if due.starts_with("energy ") {
            listed += 1;
            checks.check(name, &own, due.as_bytes());
        } else {
            accepted += 1;
            let first: &[u8] = &own[..own.len().min(8)];
            let is_refused = first == b"refused ";
            checks.check(name, format!("{is_refused}").as_bytes(), b"false");
        }
    }
    println!("sheet cases: {refused} refused, {listed} listed, {accepted} only seen as accepted");
    if refused == 0 {
        println!("sheet cases: no stored refusal could be read");
        checks.failed += 1;
    }
}

#[cfg(test)]
mod tests {
    use super::*;

    #[test]
    fn the_documents_agree() {
        let mut checks = Checks::default();
        documents(&mut checks);
        assert_eq!(checks.failed, 0);
    }

    #[test]
    fn stored_answers_are_cut_at_names() {
        let cases = stored_answers("a-1\nb-2\n", "a-1: refused 1 1 0\nb-2: x\ny\n");
        assert_eq!(
            cases,
            [
                ("a-1".to_string(), "refused 1 1 0\n".to_string()),
                ("b-2".to_string(), "x\ny\n".to_string())
            ]
        );
    }
}
