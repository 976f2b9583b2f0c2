//! Solving a board for one kind of cost, in rounds.

use std::mem;

use crate::board::Board;
use crate::cost::Cost;
use crate::sheet::{Budget, Turn};

/// A cost or none. None is above every cost.
#[derive(Clone, Copy, Debug, PartialEq, Eq, PartialOrd, Ord)]
pub enum Value<C> {
    Cost(C),
    None,
}

#[derive(Clone, Copy, Debug, PartialEq, Eq)]
pub enum Verdict {
    Within,
    Over,
    Never,
}

impl Verdict {
    pub fn word(self) -> &'static str {
        match self {
            Verdict::Within => "within",
            Verdict::Over => "over",
            Verdict::Never => "never",
        }
    }
}

pub struct Plan<C> {
    pub rounds: u32,
    /// The final value of each position.
    pub values: Vec<Value<C>>,
    /// The chosen move of each position.
    pub choices: Vec<Option<u32>>,
    pub verdict: Verdict,
}

/// A move with its charge in the kind that is solved for.
struct Priced<C> {
    target: u32,
    charge: C,
}

/// The value through a move.
fn through<C: Cost>(step: &Priced<C>, values: &[Value<C>]) -> Value<C> {
    match values[step.target as usize] {
        Value::Cost(cost) => Value::Cost(step.charge.plus(cost)),
        Value::None => Value::None,
    }
}

/// The least value through the moves of a row; none where there are no moves.
fn least<C: Cost>(row: &[Priced<C>], values: &[Value<C>]) -> Value<C> {
    let costs = row.iter().filter_map(|step| match through(step, values) {
        Value::Cost(cost) => Some(cost),
        Value::None => None,
    });
    costs.min().map_or(Value::None, Value::Cost)
}

/// The greatest value through the moves of a row; none where there are no
/// moves.
fn greatest<C: Cost>(row: &[Priced<C>], values: &[Value<C>]) -> Value<C> {
    let mut best = None;
    for step in row {
        match through(step, values) {
            Value::Cost(cost) => best = best.max(Some(cost)),
            Value::None => return Value::None,
        }
    }
    best.map_or(Value::None, Value::Cost)
}

/// The lowest move through which a value is reached.
fn lowest<C: Cost>(row: &[Priced<C>], values: &[Value<C>], value: Value<C>) -> Option<u32> {
    row.iter()
        .position(|step| through(step, values) == value)
        .map(|number| number as u32)
}

pub fn solve<C: Cost>(board: &Board, budget: Budget) -> Plan<C> {
    let count = board.count();
    let steps: Vec<Priced<C>> = board
        .steps
        .iter()
        .map(|step| Priced {
            target: step.target,
            charge: C::charge(step.bruise, step.energy),
        })
        .collect();
    let row = |position: usize| &steps[board.rows[position]..board.rows[position + 1]];

    let at_first = |&rests: &bool| match rests {
        true => Value::Cost(C::zero()),
        false => Value::None,
    };
    let mut old: Vec<Value<C>> = board.rests.iter().map(at_first).collect();
    let mut new = old.clone();
    let mut choices: Vec<Option<u32>> = vec![None; count];
    let mut rounds = 0;
    loop {
        let mut changed = false;
        for position in (0..count).filter(|&position| !board.rests[position]) {
            let row = row(position);
            let value = match board.turns[position] {
                Turn::Arm => least(row, &old),
                Turn::Person => greatest(row, &old),
            };
            new[position] = value;
            if value != old[position] {
                changed = true;
                // Values never rise, so the last change is the first round
                // of the final value.
                if board.turns[position] == Turn::Arm {
                    choices[position] = lowest(row, &old, value);
                }
            }
        }
        if !changed {
            break;
        }
        rounds += 1;
        mem::swap(&mut old, &mut new);
    }

    // The person's moves are chosen from the final values.
    for position in 0..count {
        if board.turns[position] == Turn::Person && !board.rests[position] {
            choices[position] = lowest(row(position), &old, old[position]);
        }
    }
    let budget = C::charge(budget.bruise, budget.energy);
    let verdict = match old[board.start] {
        Value::Cost(cost) if cost <= budget => Verdict::Within,
        Value::Cost(_) => Verdict::Over,
        Value::None => Verdict::Never,
    };
    Plan {
        rounds,
        values: old,
        choices,
        verdict,
    }
}

#[cfg(test)]
mod tests {
    use super::*;
    use crate::board::join;
    use crate::cost::{Care, Energy, Peak};
    use crate::generate::any_sheet;
    use crate::random::Random;

    /// The value through a move of the board.
    fn through_move<C: Cost>(board: &Board, at: usize, number: usize, w: &[Value<C>]) -> Value<C> {
        let step = board.moves(at)[number];
        match w[step.target as usize] {
            Value::Cost(cost) => Value::Cost(C::charge(step.bruise, step.energy).plus(cost)),
            Value::None => Value::None,
        }
    }

    /// Round k from round k - 1, in the words of the documents.
    fn round<C: Cost>(board: &Board, before: &[Value<C>]) -> Vec<Value<C>> {
        let value = |at: usize| {
            let all = (0..board.moves(at).len()).map(|n| through_move(board, at, n, before));
            let value = match (board.rests[at], board.turns[at]) {
                (true, _) => Some(Value::Cost(C::zero())),
                (false, Turn::Arm) => all.min(),
                (false, Turn::Person) => all.max(),
            };
            value.unwrap_or(Value::None)
        };
        (0..board.count()).map(value).collect()
    }

    /// All rounds are kept here, and choices are made from them at the end.
    fn check<C: Cost + std::fmt::Debug>(board: &Board, budget: Budget) {
        let rest = |&rests: &bool| {
            if rests {
                Value::Cost(C::zero())
            } else {
                Value::None
            }
        };
        let mut rounds: Vec<Vec<Value<C>>> = vec![board.rests.iter().map(rest).collect()];
        loop {
            let next = round(board, &rounds[rounds.len() - 1]);
            if next == rounds[rounds.len() - 1] {
                break;
            }
            rounds.push(next);
        }
        let plan = solve::<C>(board, budget);
        let last = rounds.len() - 1;
        assert_eq!(plan.rounds as usize, last);
        assert_eq!(plan.values, rounds[last]);
        for at in 0..board.count() {
            let value = rounds[last][at];
            let numbers = 0..board.moves(at).len();
            let choice = match (board.rests[at], board.turns[at]) {
                (true, _) => None,
                (false, Turn::Arm) if value == Value::None => None,
                (false, Turn::Arm) => {
                    let first = (0..=last).find(|&k| rounds[k][at] == value).unwrap();
                    let before = &rounds[first - 1];
                    numbers
                        .into_iter()
                        .find(|&n| through_move(board, at, n, before) == value)
                }
                (false, Turn::Person) => {
                    let through = |n: usize| through_move(board, at, n, &rounds[last]);
                    let greatest = numbers.clone().map(through).max();
                    numbers.into_iter().find(|&n| Some(through(n)) == greatest)
                }
            };
            assert_eq!(plan.choices[at].map(|n| n as usize), choice);
        }
    }

    #[test]
    fn rounds_and_choices_are_those_of_the_definition() {
        for seed in 0..400 {
            let sheet = any_sheet(&mut Random::new(seed));
            match join(&sheet) {
                Ok(board) if board.count() < 600 => {
                    check::<Energy>(&board, sheet.budget);
                    check::<Peak>(&board, sheet.budget);
                    check::<Care>(&board, sheet.budget);
                }
                _ => {}
            }
        }
    }
}
