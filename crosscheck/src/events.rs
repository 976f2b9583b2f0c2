//! Random event lines for `follow`.

use crate::board::{self, Board};
use crate::cost::{Care, Cost, Energy, KindName, Peak};
use crate::follow::{Said, read_line};
use crate::random::Random;
use crate::run::{Run, State};
use crate::sheet::{Budget, Sheet};
use crate::solve::{Verdict, solve};

/// Lines that are no event, or nearly one.
const ODD_LINES: [&[u8]; 46] = [
    b"",
    b" ",
    b"Go",
    b"GO",
    b"go ",
    b" go",
    b"go go",
    b"go\r",
    b"go\0",
    b"g",
    b"goo",
    b"There",
    b"there ",
    b"ther",
    b"there 0",
    b"hand",
    b"hand ",
    b"hand  1",
    b"hand 1 ",
    b"hand 07",
    b"hand 00",
    b"hand 0 ",
    b"hand 01",
    b"hand -1",
    b"hand +1",
    b"hand -0",
    b"hand 1 2",
    b"hand\t1",
    b"hand1",
    b"hand 1\r",
    b"hand a",
    b"hand 0x0",
    b"hand 1.0",
    b" hand 1",
    b"Hand 1",
    b"hands 1",
    b"hand \xb2",
    b"hand 1\xff",
    b"\xff\xfe",
    b"\xc3\xa9",
    b"End",
    b"end ",
    b" end",
    b"ends",
    b"en",
    b"refused 52",
];

/// Numbers that may be read wrongly where a number type is too small.
const GREAT_NUMBERS: [&str; 12] = [
    "63",
    "64",
    "65",
    "255",
    "256",
    "65536",
    "4294967294",
    "4294967295",
    "4294967296",
    "4294967297",
    "18446744073709551616",
    "340282366920938463463374607431768211456",
];

/// Event lines for a sheet, mostly sensible ones for the kind.
pub fn events(random: &mut Random, kind: KindName, sheet: &Sheet) -> Vec<u8> {
    match board::join(sheet) {
        Ok(board) => match kind {
            KindName::Energy => events_on::<Energy>(random, &board, sheet.budget),
            KindName::Peak => events_on::<Peak>(random, &board, sheet.budget),
            KindName::Care => events_on::<Care>(random, &board, sheet.budget),
        },
        Err(_) => blind_events(random),
    }
}

/// Events of somebody who does not know the board.
pub fn blind_events(random: &mut Random) -> Vec<u8> {
    let lines = (0..random.between(0, 20))
        .map(|_| wrong_line(random))
        .collect();
    finish(random, lines)
}

fn events_on<C: Cost>(random: &mut Random, board: &Board, budget: Budget) -> Vec<u8> {
    let plan = solve::<C>(board, budget);
    if plan.verdict != Verdict::Within {
        return blind_events(random);
    }
    let mut run = Run::begin(board, &plan);
    let mut lines = Vec::new();
    let wildness = *random.pick(&[0, 3, 3, 15, 50]);
    let early_end = *random.pick(&[0, 0, 1, 5]);
    let mut after_end = random.between(0, 4);
    let most = random.between(20, 600);
    while lines.len() < most {
        let line = if random.chance(wildness) {
            wrong_line(random)
        } else if random.chance(early_end) {
            // What comes after is written all the same: nobody is to read it.
            after_end = 0;
            b"end".to_vec()
        } else {
            match run.state {
                State::Arm => b"go".to_vec(),
                State::Moving => b"there".to_vec(),
                State::Person => {
                    format!("hand {}", random.below(run.moves_here().max(1))).into_bytes()
                }
                State::Ended if after_end == 0 => break,
                State::Ended => {
                    after_end -= 1;
                    wrong_line(random)
                }
            }
        };
        if let Said::Event(event) = read_line(&line) {
            let _ = run.take(event);
        }
        lines.push(line);
    }
    finish(random, lines)
}

/// Any line, drawn without a look at the run.
fn wrong_line(random: &mut Random) -> Vec<u8> {
    match random.weighted(&[20, 20, 15, 15, 40, 3, 1, 1, 1, 2]) {
        0 => b"go".to_vec(),
        1 => b"there".to_vec(),
        2 => format!("hand {}", random.below(5)).into_bytes(),
        3 => format!("hand {}", random.pick(&GREAT_NUMBERS)).into_bytes(),
        4 => random.pick(&ODD_LINES).to_vec(),
        5 => (0..random.between(1, 40))
            .map(|_| random.byte())
            .filter(|&byte| byte != b'\n')
            .collect(),
        6 => {
            // A number of very many digits.
            let mut line = b"hand ".to_vec();
            line.resize(*random.pick(&[20, 300, 5_000, 70_000]), b'1');
            line
        }
        7 => vec![*random.pick(b"a g0"); *random.pick(&[64, 1_000, 4_096, 8_192, 100_000])],
        8 => {
            let mut line = random.pick(&[b"go".to_vec(), b"end".to_vec()]).clone();
            line.resize(random.between(4, 9_000), b' ');
            line
        }
        _ => {
            // A small number on top of what a number type holds.
            let small = random.below(3) as u128;
            let wrap = *random.pick(&[32, 64]);
            format!("hand {}", (1u128 << wrap) + small).into_bytes()
        }
    }
}

/// Puts the lines together, with or without an end and a last LF.
fn finish(random: &mut Random, mut lines: Vec<Vec<u8>>) -> Vec<u8> {
    if random.chance(70) {
        lines.push(b"end".to_vec());
        if random.chance(15) {
            lines.push(wrong_line(random));
        }
    }
    let mut bytes = Vec::new();
    for line in lines {
        bytes.extend(line);
        bytes.push(b'\n');
    }
    if random.chance(20) {
        bytes.pop();
    }
    bytes
}
