//! Damages to sheets, and input that never was a sheet.

use crate::random::Random;
use crate::sheet::{self, Sheet, Turn};

/// Words that are wrong almost everywhere, or right only here and there.
const NASTY: [&str; 44] = [
    "",
    "07",
    "00",
    "+1",
    "-1",
    "0x1",
    "1.0",
    "1,0",
    "0",
    "1",
    "2",
    "5",
    "6",
    "15",
    "16",
    "64",
    "65",
    "256",
    "257",
    "4294967295",
    "4294967296",
    "4294967297",
    "9999999999",
    "10000000000",
    "0000000000",
    "65535",
    "65536",
    "1000",
    "1001",
    "1000000",
    "1000001",
    "4097",
    "4096",
    "a",
    "p",
    "r",
    "-",
    "y",
    "n",
    "met",
    "Met",
    "after",
    "positions",
    "start",
];

const SECTIONS: [&str; 6] = ["positions", "moves", "states", "arrows", "rules", "start"];

const ODD_BYTES: [u8; 12] = [
    b' ', b' ', b'\t', b'\r', b'\n', 0, 127, 128, 160, 255, b'0', b'/',
];

/// The text of a sheet, cut into lines. The last part has no LF.
struct Text {
    lines: Vec<Vec<u8>>,
    tail: Vec<u8>,
}

impl Text {
    fn cut(bytes: &[u8]) -> Text {
        let mut lines: Vec<Vec<u8>> = bytes.split(|&b| b == b'\n').map(Vec::from).collect();
        let tail = lines.pop().unwrap_or_default();
        Text { lines, tail }
    }

    /// The greatest values that the words of a line may have, by place. None
    /// stands for words that are no numbers.
    fn borders(&self, number: usize) -> Vec<Option<u64>> {
        let count = |section: &str| {
            let header = self.lines.iter().map(|line| words(line));
            let mut found = header.filter(|line| line[0] == section.as_bytes());
            let count = found.next().and_then(|line| value(line.get(1)?));
            count.unwrap_or(1).saturating_sub(1)
        };
        let here = words(&self.lines[number]);
        let most = [4_096, 4_096, 64, 256, 5, 1];
        if let Some(section) = SECTIONS.iter().position(|s| here[0] == s.as_bytes()) {
            return vec![None, Some(most[section])];
        }
        let before = &self.lines[..number];
        let sections = before.iter().filter(|line| is_header(line)).count();
        match sections {
            1 => vec![None, None, Some(65_535)],
            2 => {
                let last = Some(count("positions"));
                vec![last, last, Some(1_000), Some(1_000_000)]
            }
            4 => {
                let last = Some(count("states"));
                vec![last, Some(65_535), Some(65_535), last]
            }
            5 => vec![None, Some(15), Some(15)],
            6 => {
                let top = Some(u64::from(u32::MAX));
                vec![Some(count("positions")), top, top]
            }
            _ => vec![None],
        }
    }

    fn join(self) -> Vec<u8> {
        let mut bytes = Vec::new();
        for line in self.lines {
            bytes.extend(line);
            bytes.push(b'\n');
        }
        bytes.extend(self.tail);
        bytes
    }

    /// The number of a line: a header, a line near one, or any.
    fn some_line(&self, random: &mut Random) -> usize {
        if random.chance(40) {
            return random.below(self.lines.len());
        }
        let headers: Vec<usize> = (0..self.lines.len())
            .filter(|&number| is_header(&self.lines[number]))
            .collect();
        if headers.is_empty() {
            return random.below(self.lines.len());
        }
        let near = *random.pick(&headers) + *random.pick(&[0, 1, 1, 2]);
        near.min(self.lines.len() - 1)
    }
}

fn is_header(line: &[u8]) -> bool {
    SECTIONS.iter().any(|s| line.starts_with(s.as_bytes()))
}

/// The value of a word that is a number.
fn value(word: &[u8]) -> Option<u64> {
    std::str::from_utf8(word).ok()?.parse().ok()
}

fn words(line: &[u8]) -> Vec<Vec<u8>> {
    line.split(|&b| b == b' ').map(Vec::from).collect()
}

fn unwords(words: &[Vec<u8>]) -> Vec<u8> {
    words.join(&b' ')
}

/// The text of a sheet with one to several damages.
pub fn damaged(random: &mut Random, mut sheet: Sheet) -> Vec<u8> {
    if random.chance(20) {
        spoil_moves(random, &mut sheet);
        if random.chance(70) {
            return sheet::spell(&sheet);
        }
    }
    let mut bytes = sheet::spell(&sheet);
    let times = random.weighted(&[0, 60, 25, 10, 5]);
    for _ in 0..times {
        bytes = damage_once(random, bytes);
    }
    bytes
}

/// Faults that several lines of moves make together.
fn spoil_moves(random: &mut Random, sheet: &mut Sheet) {
    if sheet.moves.is_empty() {
        return;
    }
    let some = random.below(sheet.moves.len());
    match random.weighted(&[2, 2, 2, 2, 3, 2]) {
        0 => {
            // A person's moves that cost something.
            for m in &mut sheet.moves[some..] {
                if sheet.positions[m.from].turn == Turn::Person {
                    (m.bruise, m.energy) = *random.pick(&[(0, 1), (1, 0), (3, 4)]);
                }
            }
        }
        1 => {
            // The turn at a position whose moves may cost something.
            sheet.positions[sheet.moves[some].from].turn = Turn::Person;
        }
        2 => {
            let other = random.below(sheet.moves.len());
            sheet.moves.swap(some, other);
        }
        3 => {
            let wanted = random.between(63, 66);
            crowd(sheet, some, wanted);
        }
        4 => crowd_and_more(random, sheet, some),
        _ => {
            sheet.moves[some].from = random.below(sheet.positions.len());
        }
    }
}

/// Repeats a move until so many start at its position.
fn crowd(sheet: &mut Sheet, some: usize, wanted: usize) {
    let from = sheet.moves[some].from;
    let here = sheet.moves.iter().filter(|m| m.from == from).count();
    for _ in here..wanted {
        sheet.moves.insert(some, sheet.moves[some]);
    }
}

/// A 65th move at one position that is wrong in one more way: it comes after
/// moves of later positions, or it is a person's and costs, or both.
fn crowd_and_more(random: &mut Random, sheet: &mut Sheet, some: usize) {
    crowd(sheet, some, sheet::MOST_MOVES_AT_ONE);
    let mut wrong = sheet.moves[some];
    let place = if random.chance(50) {
        sheet.moves.len()
    } else {
        sheet.moves.partition_point(|m| m.from <= wrong.from)
    };
    if random.chance(60) {
        sheet.positions[wrong.from].turn = Turn::Person;
        for m in sheet.moves.iter_mut().filter(|m| m.from == wrong.from) {
            (m.bruise, m.energy) = (0, 0);
        }
        (wrong.bruise, wrong.energy) = *random.pick(&[(0, 1), (1, 0)]);
    }
    sheet.moves.insert(place, wrong);
}

fn damage_once(random: &mut Random, bytes: Vec<u8>) -> Vec<u8> {
    if bytes.is_empty() {
        return bytes;
    }
    match random.weighted(&[30, 50, 20]) {
        0 => damage_bytes(random, bytes),
        1 => damage_line(random, bytes),
        _ => damage_lines(random, bytes),
    }
}

/// Damages that do not ask for lines.
fn damage_bytes(random: &mut Random, mut bytes: Vec<u8>) -> Vec<u8> {
    let place = random.below(bytes.len());
    match random.weighted(&[3, 3, 5, 2, 3, 3, 1, 1, 2]) {
        0 => {
            bytes.pop();
        }
        1 => bytes.truncate(place),
        2 => {
            for _ in 0..random.between(1, 2) {
                bytes.insert(place, *random.pick(&ODD_BYTES));
            }
        }
        3 => {
            bytes.remove(place);
        }
        4 => bytes[place] = *random.pick(&ODD_BYTES),
        5 => {
            // Something after the last line.
            let more = *random.pick(&["\n", " ", "0 0 0\n", "done", "\r\n"]);
            bytes.extend_from_slice(more.as_bytes());
        }
        6 => {
            // Windows line ends.
            bytes = Text::cut(&bytes).lines.join(b"\r\n".as_slice());
        }
        7 => {
            // As long as a sheet may be, or a byte longer.
            let goal = random.between(sheet::LONGEST - 1, sheet::LONGEST + 2);
            let filler = *random.pick(b" \n0a");
            bytes.resize(goal, filler);
        }
        _ => bytes[place] ^= 1 << random.below(8),
    }
    bytes
}

/// Damages to the words of one line.
fn damage_line(random: &mut Random, bytes: Vec<u8>) -> Vec<u8> {
    let mut text = Text::cut(&bytes);
    if text.lines.is_empty() {
        return bytes;
    }
    let number = text.some_line(random);
    let mut line = words(&text.lines[number]);
    let place = random.below(line.len());
    match random.weighted(&[30, 12, 5, 5, 5, 5, 5, 10, 4, 4, 30]) {
        0 => line[place] = Vec::from(*random.pick(&NASTY)),
        1 => {
            for word in &mut line {
                if random.chance(50) {
                    *word = Vec::from(*random.pick(&NASTY));
                }
            }
        }
        2 => line.insert(place, Vec::new()),
        3 => line.push(Vec::new()),
        4 => line.insert(0, Vec::new()),
        5 => {
            line.remove(place);
        }
        6 => line.insert(place, Vec::from(*random.pick(&NASTY))),
        7 => line[place] = off_by_one(random, &line[place]),
        8 => {
            for byte in &mut line[place] {
                *byte = byte.to_ascii_uppercase();
            }
        }
        9 => line[0] = Vec::from(*random.pick(&SECTIONS)),
        _ => {
            // The greatest value there is, or the one past it.
            if let Some(&Some(most)) = text.borders(number).get(place) {
                let past = u64::from(random.chance(70));
                line[place] = (most + past).to_string().into_bytes();
            }
        }
    }
    text.lines[number] = unwords(&line);
    text.join()
}

/// The number next to one, where the word is a number.
fn off_by_one(random: &mut Random, word: &[u8]) -> Vec<u8> {
    let Some(number) = value(word) else {
        return Vec::from(word);
    };
    let other = if random.chance(50) {
        number.saturating_add(1)
    } else {
        number.saturating_sub(1)
    };
    other.to_string().into_bytes()
}

/// Damages to the order of lines.
fn damage_lines(random: &mut Random, bytes: Vec<u8>) -> Vec<u8> {
    let mut text = Text::cut(&bytes);
    if text.lines.is_empty() {
        return bytes;
    }
    let number = text.some_line(random);
    let next = (number + 1).min(text.lines.len() - 1);
    let other = random.below(text.lines.len());
    match random.below(7) {
        0 => {
            text.lines.remove(number);
        }
        1 => text.lines.insert(number, text.lines[number].clone()),
        2 => text.lines.swap(number, other),
        3 => text.lines.swap(number, next),
        4 => text.lines.insert(number, Vec::new()),
        5 => text.lines.truncate(number),
        _ => text.lines.insert(other, text.lines[number].clone()),
    }
    text.join()
}

/// Input that never was a sheet.
pub fn noise(random: &mut Random) -> Vec<u8> {
    match random.below(6) {
        0 => Vec::new(),
        1 => (0..random.between(1, 300)).map(|_| random.byte()).collect(),
        2 => {
            let length = random.between(sheet::LONGEST - 1, sheet::LONGEST + 2);
            vec![*random.pick(b"\n p0"); length]
        }
        3 => {
            let length = *random.pick(&[sheet::LONGEST, sheet::LONGEST + 1, 70_000, 200_000]);
            (0..length).map(|_| random.byte()).collect()
        }
        4 => line_of_words(random),
        _ => {
            let mut bytes = Vec::from("positions 1\n");
            for _ in 0..random.between(0, 6) {
                bytes.extend(line_of_words(random));
            }
            bytes
        }
    }
}

fn line_of_words(random: &mut Random) -> Vec<u8> {
    let count = random.between(1, 5);
    let words: Vec<Vec<u8>> = (0..count)
        .map(|_| Vec::from(*random.pick(&NASTY)))
        .collect();
    let mut line = unwords(&words);
    line.push(b'\n');
    line
}
