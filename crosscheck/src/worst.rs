//! The sheets that take the most work.

use crate::sheet::{self, Arrow, Budget, Move, Position, Rule, Sheet, Turn};

pub struct Worst {
    pub name: &'static str,
    pub sheet: Sheet,
}

/// All of them, each a sheet that is accepted.
pub fn worst_sheets() -> Vec<Worst> {
    let named = |name, sheet| Worst { name, sheet };
    vec![
        named("counter", counter()),
        named("counter-with-exits", counter_with_exits()),
        named("chain", chain()),
        named("chain-twice", chain_twice()),
        named("one-rule", one_rule()),
        named("five-rules", five_rules()),
    ]
}

/// Arm's positions without signs, of which the last rests, and no tasks.
fn bare(count: usize) -> Sheet {
    let position = Position {
        turn: Turn::Arm,
        rests: false,
        label: 0,
    };
    let mut sheet = Sheet {
        positions: vec![position; count],
        moves: Vec::new(),
        states: Vec::new(),
        arrows: Vec::new(),
        rules: Vec::new(),
        start: 0,
        budget: Budget {
            bruise: 0,
            energy: u32::MAX,
        },
    };
    sheet.positions[count - 1].rests = true;
    sheet
}

fn lead(sheet: &mut Sheet, from: usize, to: usize, bruise: u32, energy: u32) {
    sheet.moves.push(Move {
        from,
        to,
        bruise,
        energy,
    });
}

/// Small costs that differ from move to move.
fn price(from: usize, number: usize) -> (u32, u32) {
    (
        ((from + 2 * number) % 3) as u32,
        (1 + (5 * from + 7 * number) % 9) as u32,
    )
}

/// Moves that lead no further: back to a position from 1 up, or to itself.
/// Position 0 has none, and doubles its way on instead.
fn fill(sheet: &mut Sheet, from: usize, count: usize) {
    for number in 0..count {
        let to = if from == 0 { 1 } else { 1 + number % from };
        let (bruise, energy) = price(from, number);
        lead(sheet, from, to, bruise, energy);
    }
}

/// 64 positions of 64 moves, with 64 states that count how often position 0
/// was passed: the only way to rest leads through all pairs.
fn counter() -> Sheet {
    let mut sheet = bare(64);
    sheet.positions[0].label = 1;
    sheet.states = vec![false; 64];
    sheet.states[63] = true;
    for from in 0..63 {
        sheet.arrows.push(arrow(from, 1, from + 1));
    }
    for from in 0..64 {
        fill(&mut sheet, from, 63);
        lead(&mut sheet, from, (from + 1) % 64, 0, 1);
    }
    sheet
}

fn arrow(from: usize, need: u16, to: usize) -> Arrow {
    Arrow {
        from,
        need,
        bar: 0,
        to,
    }
}

/// The same over 63 positions, and one more that leads to rest from everywhere
/// for the highest cost. So all positions have a cost almost from the first
/// round on, and each round improves one.
fn counter_with_exits() -> Sheet {
    let mut sheet = bare(64);
    let (last, exit) = (62, 63);
    sheet.positions[last].rests = true;
    sheet.positions[exit].rests = false;
    sheet.positions[0].label = 1;
    sheet.positions[exit].label = 2;
    sheet.states = vec![false; 64];
    sheet.states[63] = true;
    for from in 0..63 {
        sheet.arrows.push(arrow(from, 1, from + 1));
        sheet.arrows.push(arrow(from, 2, 63));
    }
    for from in 0..=last {
        lead(&mut sheet, from, exit, 1_000, 1_000_000);
        fill(&mut sheet, from, 62);
        lead(&mut sheet, from, (from + 1) % 63, 0, 1);
    }
    for _ in 0..64 {
        lead(&mut sheet, exit, last, 1_000, 1_000_000);
    }
    sheet
}

/// The longest chain without tasks whose sheet is short enough.
fn chain() -> Sheet {
    let mut count = sheet::MOST_POSITIONS;
    loop {
        let mut sheet = bare(count);
        for from in 0..count - 1 {
            lead(&mut sheet, from, from + 1, 0, 1);
        }
        if sheet::spell(&sheet).len() <= sheet::LONGEST {
            return sheet;
        }
        count -= 1;
    }
}

/// A chain of half the positions that must be gone along twice.
fn chain_twice() -> Sheet {
    let count = 2_048;
    let mut sheet = bare(count);
    sheet.positions[0].label = 1;
    sheet.states = vec![false, true];
    sheet.arrows.push(arrow(0, 1, 1));
    for from in 0..count {
        lead(&mut sheet, from, (from + 1) % count, 0, 1);
    }
    sheet
}

/// 1,365 positions with one rule: the way leads along all of them to meet a
/// sign, and then again to rest.
fn one_rule() -> Sheet {
    let count = 1_365;
    let mut sheet = bare(count);
    sheet.positions[0].label = 1;
    sheet.rules.push(Rule::Met(0));
    for from in 0..count {
        fill(&mut sheet, from, 2);
        lead(&mut sheet, from, (from + 1) % count, 0, 1);
    }
    sheet
}

/// 16 positions of 64 moves with five rules: a walk of ten positions, at its
/// end one of five places to visit and back to the beginning of the walk, and
/// rest when all five were visited.
fn five_rules() -> Sheet {
    let mut sheet = bare(16);
    let end_of_walk = 9;
    for visit in 0..5 {
        sheet.positions[10 + visit].label = 1 << visit;
        sheet.rules.push(Rule::Met(visit as u32));
    }
    for from in 0..16 {
        match from {
            0..9 => {
                fill(&mut sheet, from, 63);
                lead(&mut sheet, from, from + 1, 0, 1);
            }
            9 => {
                fill(&mut sheet, end_of_walk, 58);
                for place in 10..16 {
                    lead(&mut sheet, end_of_walk, place, 0, 1);
                }
            }
            _ => {
                for number in 0..64 {
                    let (bruise, energy) = price(from, number);
                    lead(&mut sheet, from, 0, bruise, energy);
                }
            }
        }
    }
    sheet
}

#[cfg(test)]
mod tests {
    use super::*;
    use crate::board::join;
    use crate::cost::Energy;
    use crate::solve::solve;

    #[test]
    fn worst_sheets_are_accepted() {
        for worst in worst_sheets() {
            let text = sheet::spell(&worst.sheet);
            assert_eq!(
                sheet::read(&text).as_ref(),
                Ok(&worst.sheet),
                "{}",
                worst.name
            );
            assert!(join(&worst.sheet).is_ok(), "{}", worst.name);
        }
    }

    #[test]
    fn a_chain_takes_a_round_for_each_position() {
        let sheet = chain_twice();
        let board = join(&sheet).expect("the sheet is joined");
        assert_eq!(solve::<Energy>(&board, sheet.budget).rounds, 4_095);
    }
}
