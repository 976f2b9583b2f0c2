//! What `bench` prints: the listing of a sheet, or its one refusal.

use crate::board::{self, Board};
use crate::cost::{Care, Cost, Energy, Peak, number};
use crate::sheet::{self, Budget, turn_mark};
use crate::solve::{Value, solve};

/// The answer to a sheet, all bytes of it.
pub fn answer(bytes: &[u8]) -> Vec<u8> {
    match sheet::read(bytes).and_then(|sheet| Ok((board::join(&sheet)?, sheet.budget))) {
        Ok((board, budget)) => listing(&board, budget),
        Err(fault) => format!("{fault}\n").into_bytes(),
    }
}

pub fn listing(board: &Board, budget: Budget) -> Vec<u8> {
    let mut out = Vec::new();
    block::<Energy>(board, budget, &mut out);
    block::<Peak>(board, budget, &mut out);
    block::<Care>(board, budget, &mut out);
    out
}

fn block<C: Cost>(board: &Board, budget: Budget, out: &mut Vec<u8>) {
    let plan = solve::<C>(board, budget);
    out.extend_from_slice(C::NAME.as_bytes());
    out.push(b' ');
    number(out, plan.rounds);
    out.push(b' ');
    out.extend_from_slice(plan.verdict.word().as_bytes());
    out.push(b' ');
    spell_value(plan.values[board.start], out);
    out.push(b'\n');
    for position in 0..board.count() {
        number(out, position as u32);
        out.push(b' ');
        out.push(turn_mark(board.turns[position]) as u8);
        out.push(b' ');
        spell_value(plan.values[position], out);
        out.push(b' ');
        match plan.choices[position] {
            Some(choice) => number(out, choice),
            None => out.push(b'-'),
        }
        out.push(b'\n');
    }
}

fn spell_value<C: Cost>(value: Value<C>, out: &mut Vec<u8>) {
    match value {
        Value::Cost(cost) => cost.spell(out),
        Value::None => out.extend_from_slice(b"none"),
    }
}
