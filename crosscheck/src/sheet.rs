//! The cell sheet: what it holds, how its bytes are read, and how it is spelled.

use std::fmt;

/// The greatest number of bytes that a sheet may have.
pub const LONGEST: usize = 65_536;
/// The greatest number of positions, and of moves.
pub const MOST_POSITIONS: usize = 4_096;
/// The greatest number of moves that start at one position.
pub const MOST_MOVES_AT_ONE: usize = 64;

#[derive(Clone, Copy, Debug, PartialEq, Eq)]
pub enum Turn {
    Arm,
    Person,
}

#[derive(Clone, Copy, Debug, PartialEq, Eq)]
pub struct Position {
    pub turn: Turn,
    pub rests: bool,
    pub label: u16,
}

#[derive(Clone, Copy, Debug, PartialEq, Eq)]
pub struct Move {
    pub from: usize,
    pub to: usize,
    pub bruise: u32,
    pub energy: u32,
}

#[derive(Clone, Copy, Debug, PartialEq, Eq)]
pub struct Arrow {
    pub from: usize,
    pub need: u16,
    pub bar: u16,
    pub to: usize,
}

/// A rule speaks of signs 0 to 15.
#[derive(Clone, Copy, Debug, PartialEq, Eq)]
pub enum Rule {
    Met(u32),
    Never(u32),
    Before(u32, u32),
    After(u32, u32),
}

#[derive(Clone, Copy, Debug, PartialEq, Eq)]
pub struct Budget {
    pub bruise: u32,
    pub energy: u32,
}

#[derive(Clone, Debug, PartialEq, Eq)]
pub struct Sheet {
    pub positions: Vec<Position>,
    pub moves: Vec<Move>,
    /// One mark for each state of the automaton, true where it accepts.
    pub states: Vec<bool>,
    pub arrows: Vec<Arrow>,
    pub rules: Vec<Rule>,
    pub start: usize,
    pub budget: Budget,
}

/// The one fault of a refused sheet.
#[derive(Clone, Copy, Debug, PartialEq, Eq)]
pub struct Fault {
    pub number: u32,
    pub line: usize,
    pub word: usize,
}

impl Fault {
    pub const JOIN_TOO_LARGE: Fault = Fault::new(22, 0, 0);

    pub const fn new(number: u32, line: usize, word: usize) -> Fault {
        Fault { number, line, word }
    }
}

impl fmt::Display for Fault {
    fn fmt(&self, f: &mut fmt::Formatter<'_>) -> fmt::Result {
        write!(f, "refused {} {} {}", self.number, self.line, self.word)
    }
}

const ENDS_EARLY: u32 = 1;
const WRONG_SECTION: u32 = 2;
const NO_NUMBER: u32 = 3;
const OUT_OF_RANGE: u32 = 4;
const WRONG_WORD_COUNT: u32 = 5;
const UNKNOWN_MARK: u32 = 6;
const FROM_FALLS: u32 = 7;
const TOO_MANY_MOVES: u32 = 8;
const PAST_THE_END: u32 = 9;
const TOO_LONG: u32 = 11;
const PERSON_PAYS: u32 = 12;

/// No line of a sheet has more words than this.
const MOST_WORDS: usize = 4;

/// One line, cut at every space. Only the first four words are kept, for a
/// longer line is refused by its count.
struct Line<'a> {
    number: usize,
    count: usize,
    words: [&'a [u8]; MOST_WORDS],
}

impl<'a> Line<'a> {
    fn cut(number: usize, text: &'a [u8]) -> Line<'a> {
        let mut words: [&[u8]; MOST_WORDS] = [&[]; MOST_WORDS];
        let mut count = 0;
        for word in text.split(|&byte| byte == b' ') {
            if count < MOST_WORDS {
                words[count] = word;
            }
            count += 1;
        }
        Line {
            number,
            count,
            words,
        }
    }

    /// The word at a place, counted from 1.
    fn word(&self, place: usize) -> &'a [u8] {
        self.words[place - 1]
    }

    fn fault(&self, number: u32, word: usize) -> Fault {
        Fault::new(number, self.number, word)
    }

    fn expect_words(&self, count: usize) -> Result<(), Fault> {
        if self.count == count {
            Ok(())
        } else {
            Err(self.fault(WRONG_WORD_COUNT, 0))
        }
    }

    /// The number at a place, which must be one and lie within the range.
    fn number(&self, place: usize, low: u64, high: u64) -> Result<u64, Fault> {
        let value = read_number(self.word(place)).ok_or(self.fault(NO_NUMBER, place))?;
        if value < low || value > high {
            return Err(self.fault(OUT_OF_RANGE, place));
        }
        Ok(value)
    }

    /// A number below a count, as the name of a position or a state.
    fn name(&self, place: usize, count: usize) -> Result<usize, Fault> {
        let value = read_number(self.word(place)).ok_or(self.fault(NO_NUMBER, place))?;
        if value >= count as u64 {
            return Err(self.fault(OUT_OF_RANGE, place));
        }
        Ok(value as usize)
    }

    fn label(&self, place: usize) -> Result<u16, Fault> {
        Ok(self.number(place, 0, 65_535)? as u16)
    }

    fn sign(&self, place: usize) -> Result<u32, Fault> {
        Ok(self.number(place, 0, 15)? as u32)
    }

    fn small(&self, place: usize, high: u32) -> Result<u32, Fault> {
        Ok(self.number(place, 0, u64::from(high))? as u32)
    }
}

/// One to ten digits, the first no 0 unless it is the only one.
fn read_number(word: &[u8]) -> Option<u64> {
    if word.is_empty() || word.len() > 10 {
        return None;
    }
    if word[0] == b'0' && word.len() > 1 {
        return None;
    }
    let mut value = 0u64;
    for &byte in word {
        if !byte.is_ascii_digit() {
            return None;
        }
        value = value * 10 + u64::from(byte - b'0');
    }
    Some(value)
}

/// The lines of a sheet, taken one after another as they are due.
struct Lines<'a> {
    rest: &'a [u8],
    taken: usize,
}

impl<'a> Lines<'a> {
    fn due(&mut self) -> Result<Line<'a>, Fault> {
        let number = self.taken + 1;
        let end = self
            .rest
            .iter()
            .position(|&byte| byte == b'\n')
            .ok_or(Fault::new(ENDS_EARLY, number, 0))?;
        let line = Line::cut(number, &self.rest[..end]);
        self.rest = &self.rest[end + 1..];
        self.taken = number;
        Ok(line)
    }

    /// The count of a section's header.
    fn header(&mut self, section: &str, low: usize, high: usize) -> Result<usize, Fault> {
        let line = self.due()?;
        line.expect_words(2)?;
        if line.word(1) != section.as_bytes() {
            return Err(line.fault(WRONG_SECTION, 1));
        }
        Ok(line.number(2, low as u64, high as u64)? as usize)
    }
}

/// Reads a sheet, or answers its first fault.
pub fn read(bytes: &[u8]) -> Result<Sheet, Fault> {
    if bytes.len() > LONGEST {
        return Err(Fault::new(TOO_LONG, 0, 0));
    }
    let mut lines = Lines {
        rest: bytes,
        taken: 0,
    };

    let count = lines.header("positions", 1, MOST_POSITIONS)?;
    let mut positions = Vec::with_capacity(count);
    for _ in 0..count {
        positions.push(read_position(&lines.due()?)?);
    }

    let count = lines.header("moves", 0, 4_096)?;
    let moves = read_moves(&mut lines, count, &positions)?;

    let count = lines.header("states", 0, 64)?;
    let mut states = Vec::with_capacity(count);
    for _ in 0..count {
        states.push(read_state(&lines.due()?)?);
    }

    let most_arrows = if states.is_empty() { 0 } else { 256 };
    let count = lines.header("arrows", 0, most_arrows)?;
    let mut arrows = Vec::with_capacity(count);
    for _ in 0..count {
        arrows.push(read_arrow(&lines.due()?, states.len())?);
    }

    let count = lines.header("rules", 0, 5)?;
    let mut rules = Vec::with_capacity(count);
    for _ in 0..count {
        rules.push(read_rule(&lines.due()?)?);
    }

    lines.header("start", 1, 1)?;
    let (start, budget) = read_start(&lines.due()?, positions.len())?;
    if !lines.rest.is_empty() {
        return Err(Fault::new(PAST_THE_END, lines.taken + 1, 0));
    }
    Ok(Sheet {
        positions,
        moves,
        states,
        arrows,
        rules,
        start,
        budget,
    })
}

fn read_position(line: &Line) -> Result<Position, Fault> {
    line.expect_words(3)?;
    let turn = match line.word(1) {
        b"a" => Turn::Arm,
        b"p" => Turn::Person,
        _ => return Err(line.fault(UNKNOWN_MARK, 1)),
    };
    let rests = match line.word(2) {
        b"r" => true,
        b"-" => false,
        _ => return Err(line.fault(UNKNOWN_MARK, 2)),
    };
    let label = line.label(3)?;
    Ok(Position { turn, rests, label })
}

fn read_moves(lines: &mut Lines, count: usize, positions: &[Position]) -> Result<Vec<Move>, Fault> {
    let mut moves: Vec<Move> = Vec::with_capacity(count);
    // How many moves in a row started where the last one did.
    let mut alike = 0;
    for _ in 0..count {
        let line = lines.due()?;
        let new = read_move(&line, positions.len())?;
        match moves.last() {
            Some(last) if new.from < last.from => return Err(line.fault(FROM_FALLS, 0)),
            Some(last) if new.from == last.from => alike += 1,
            _ => alike = 1,
        }
        if alike > MOST_MOVES_AT_ONE {
            return Err(line.fault(TOO_MANY_MOVES, 0));
        }
        let costs = new.bruise > 0 || new.energy > 0;
        if costs && positions[new.from].turn == Turn::Person {
            return Err(line.fault(PERSON_PAYS, 0));
        }
        moves.push(new);
    }
    Ok(moves)
}

fn read_move(line: &Line, positions: usize) -> Result<Move, Fault> {
    line.expect_words(4)?;
    Ok(Move {
        from: line.name(1, positions)?,
        to: line.name(2, positions)?,
        bruise: line.small(3, 1_000)?,
        energy: line.small(4, 1_000_000)?,
    })
}

fn read_state(line: &Line) -> Result<bool, Fault> {
    line.expect_words(1)?;
    match line.word(1) {
        b"y" => Ok(true),
        b"n" => Ok(false),
        _ => Err(line.fault(UNKNOWN_MARK, 1)),
    }
}

fn read_arrow(line: &Line, states: usize) -> Result<Arrow, Fault> {
    line.expect_words(4)?;
    Ok(Arrow {
        from: line.name(1, states)?,
        need: line.label(2)?,
        bar: line.label(3)?,
        to: line.name(4, states)?,
    })
}

fn read_rule(line: &Line) -> Result<Rule, Fault> {
    match line.word(1) {
        b"met" => {
            line.expect_words(2)?;
            Ok(Rule::Met(line.sign(2)?))
        }
        b"never" => {
            line.expect_words(2)?;
            Ok(Rule::Never(line.sign(2)?))
        }
        b"before" => {
            line.expect_words(3)?;
            Ok(Rule::Before(line.sign(2)?, line.sign(3)?))
        }
        b"after" => {
            line.expect_words(3)?;
            Ok(Rule::After(line.sign(2)?, line.sign(3)?))
        }
        _ => Err(line.fault(UNKNOWN_MARK, 1)),
    }
}

fn read_start(line: &Line, positions: usize) -> Result<(usize, Budget), Fault> {
    line.expect_words(3)?;
    let start = line.name(1, positions)?;
    let bruise = line.small(2, u32::MAX)?;
    let energy = line.small(3, u32::MAX)?;
    Ok((start, Budget { bruise, energy }))
}

/// Spells a sheet, also one that reading would refuse.
pub fn spell(sheet: &Sheet) -> Vec<u8> {
    let mut text = format!("positions {}\n", sheet.positions.len());
    for position in &sheet.positions {
        let turn = turn_mark(position.turn);
        let mark = if position.rests { 'r' } else { '-' };
        text += &format!("{turn} {mark} {}\n", position.label);
    }
    text += &format!("moves {}\n", sheet.moves.len());
    for m in &sheet.moves {
        text += &format!("{} {} {} {}\n", m.from, m.to, m.bruise, m.energy);
    }
    text += &format!("states {}\n", sheet.states.len());
    for &accepts in &sheet.states {
        text += if accepts { "y\n" } else { "n\n" };
    }
    text += &format!("arrows {}\n", sheet.arrows.len());
    for arrow in &sheet.arrows {
        text += &format!("{} {} {} {}\n", arrow.from, arrow.need, arrow.bar, arrow.to);
    }
    text += &format!("rules {}\n", sheet.rules.len());
    for rule in &sheet.rules {
        text += &match rule {
            Rule::Met(p) => format!("met {p}\n"),
            Rule::Never(p) => format!("never {p}\n"),
            Rule::Before(p, q) => format!("before {p} {q}\n"),
            Rule::After(p, q) => format!("after {p} {q}\n"),
        };
    }
    let budget = sheet.budget;
    text += &format!(
        "start 1\n{} {} {}\n",
        sheet.start, budget.bruise, budget.energy
    );
    text.into_bytes()
}

/// The letter of a turn, in sheets and in listings.
pub fn turn_mark(turn: Turn) -> char {
    match turn {
        Turn::Arm => 'a',
        Turn::Person => 'p',
    }
}
