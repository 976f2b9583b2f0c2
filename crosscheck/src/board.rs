//! The board that is solved: a sheet's board with the automaton joined first
//! and the rules over it, kept in flat lists.

use crate::sheet::{Fault, MOST_POSITIONS, Sheet, Turn};
use crate::task::{Automaton, Rules};

#[derive(Clone, Copy, Debug, PartialEq, Eq)]
pub struct Step {
    pub target: u32,
    pub bruise: u32,
    pub energy: u32,
}

pub struct Board {
    pub start: usize,
    pub turns: Vec<Turn>,
    pub rests: Vec<bool>,
    /// Where the moves of each position begin, and at last where all end.
    pub rows: Vec<usize>,
    /// The moves of all positions, one position after another.
    pub steps: Vec<Step>,
}

impl Board {
    pub fn count(&self) -> usize {
        self.turns.len()
    }

    /// The moves of a position, in the order of their numbers.
    pub fn moves(&self, position: usize) -> &[Step] {
        &self.steps[self.rows[position]..self.rows[position + 1]]
    }
}

/// The two tasks of a sheet with what they make of each position's label.
struct Tasks {
    states: usize,
    digits: usize,
    /// The automaton's state after it reads a position's label, by position
    /// and state before.
    state_after: Vec<usize>,
    /// The same for the state of the rules.
    digits_after: Vec<usize>,
    state_accepts: Vec<bool>,
    digits_accept: Vec<bool>,
}

impl Tasks {
    fn of(sheet: &Sheet) -> Result<Tasks, Fault> {
        let automaton = Automaton::over(&sheet.states, &sheet.arrows);
        let rules = Rules::over(&sheet.rules);
        let (states, digits) = (automaton.states(), rules.states());
        if sheet.positions.len() * states > MOST_POSITIONS
            || sheet.positions.len() * states * digits > MOST_POSITIONS
        {
            return Err(Fault::JOIN_TOO_LARGE);
        }
        let mut state_after = Vec::new();
        let mut digits_after = Vec::new();
        for position in &sheet.positions {
            let label = position.label;
            state_after.extend((0..states).map(|state| automaton.next(state, label)));
            digits_after.extend((0..digits).map(|state| rules.next(state, label)));
        }
        Ok(Tasks {
            states,
            digits,
            state_after,
            digits_after,
            state_accepts: (0..states).map(|s| automaton.accepts(s)).collect(),
            digits_accept: (0..digits).map(|s| rules.accepts(s)).collect(),
        })
    }

    /// The joined position on coming to a position with two states.
    fn arrive(&self, position: usize, state: usize, digits: usize) -> usize {
        let state = self.state_after[position * self.states + state];
        let digits = self.digits_after[position * self.digits + digits];
        (position * self.states + state) * self.digits + digits
    }
}

/// Joins a sheet's board with its tasks.
pub fn join(sheet: &Sheet) -> Result<Board, Fault> {
    let tasks = Tasks::of(sheet)?;
    let count = sheet.positions.len() * tasks.states * tasks.digits;
    let mut board = Board {
        start: tasks.arrive(sheet.start, 0, 0),
        turns: Vec::with_capacity(count),
        rests: Vec::with_capacity(count),
        rows: Vec::with_capacity(count + 1),
        steps: Vec::with_capacity(sheet.moves.len() * tasks.states * tasks.digits),
    };
    board.rows.push(0);
    let mut first = 0;
    for (number, position) in sheet.positions.iter().enumerate() {
        let here = sheet.moves[first..]
            .iter()
            .take_while(|m| m.from == number)
            .count();
        let moves = &sheet.moves[first..first + here];
        first += here;
        for state in 0..tasks.states {
            for digits in 0..tasks.digits {
                board.turns.push(position.turn);
                board.rests.push(
                    position.rests && tasks.state_accepts[state] && tasks.digits_accept[digits],
                );
                board.steps.extend(moves.iter().map(|m| Step {
                    target: tasks.arrive(m.to, state, digits) as u32,
                    bruise: m.bruise,
                    energy: m.energy,
                }));
                board.rows.push(board.steps.len());
            }
        }
    }
    Ok(board)
}

/// The joined position where the work would begin, for each position of the
/// sheet.
pub fn starts(sheet: &Sheet) -> Result<Vec<usize>, Fault> {
    let tasks = Tasks::of(sheet)?;
    let count = sheet.positions.len();
    Ok((0..count).map(|p| tasks.arrive(p, 0, 0)).collect())
}
