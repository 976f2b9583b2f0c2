//! The program `follow`: reads event lines and answers each with one line.

use std::io::{self, BufRead, Write};

use crate::board::{self, Board};
use crate::cost::{Care, Cost, Energy, KindName, Peak, number};
use crate::run::{Done, Event, Run};
use crate::sheet::{self, Budget};
use crate::solve::{Verdict, solve};

/// What a line says.
#[derive(Clone, Copy, Debug, PartialEq, Eq)]
pub enum Said {
    Event(Event),
    End,
    Unreadable,
}

/// Reads one line, without its LF.
pub fn read_line(line: &[u8]) -> Said {
    match line {
        b"go" => Said::Event(Event::Go),
        b"there" => Said::Event(Event::There),
        b"end" => Said::End,
        _ => match line.strip_prefix(b"hand ").and_then(read_digits) {
            Some(named) => Said::Event(Event::Hand(named)),
            None => Said::Unreadable,
        },
    }
}

/// One or more digits, the first no 0 unless it is the only one. A number past
/// 32 bits is read too, but names no move.
fn read_digits(word: &[u8]) -> Option<Option<u32>> {
    let plain = !word.is_empty() && word.iter().all(u8::is_ascii_digit);
    if !plain || (word[0] == b'0' && word.len() > 1) {
        return None;
    }
    let value = word.iter().try_fold(0u32, |value, &byte| {
        value.checked_mul(10)?.checked_add(u32::from(byte - b'0'))
    });
    Some(value)
}

/// Follows a sheet: answers the events of the input on the output.
pub fn follow(
    kind: KindName,
    bytes: &[u8],
    input: &mut dyn BufRead,
    output: &mut dyn Write,
) -> io::Result<()> {
    let joined = sheet::read(bytes).and_then(|sheet| Ok((board::join(&sheet)?, sheet.budget)));
    let (board, budget) = match joined {
        Ok(both) => both,
        Err(fault) => return answer(output, format!("{fault}").as_bytes()),
    };
    match kind {
        KindName::Energy => follow_board::<Energy>(&board, budget, input, output),
        KindName::Peak => follow_board::<Peak>(&board, budget, input, output),
        KindName::Care => follow_board::<Care>(&board, budget, input, output),
    }
}

fn follow_board<C: Cost>(
    board: &Board,
    budget: Budget,
    input: &mut dyn BufRead,
    output: &mut dyn Write,
) -> io::Result<()> {
    let plan = solve::<C>(board, budget);
    match plan.verdict {
        Verdict::Within => {}
        Verdict::Over => return answer(output, b"refused 41"),
        Verdict::Never => return answer(output, b"refused 42"),
    }
    let mut run = Run::begin(board, &plan);
    answer(output, &standing("begin", &run))?;
    let mut line = Vec::new();
    loop {
        line.clear();
        if input.read_until(b'\n', &mut line)? == 0 {
            return Ok(());
        }
        if line.last() == Some(&b'\n') {
            line.pop();
        }
        match read_line(&line) {
            Said::End => return answer(output, &standing("end", &run)),
            Said::Unreadable => answer(output, b"unreadable")?,
            Said::Event(event) => answer(output, &reply(&mut run, event))?,
        }
    }
}

fn reply<C: Cost>(run: &mut Run<C>, event: Event) -> Vec<u8> {
    match run.take(event) {
        Ok(Done::Go(chosen)) => standing(&format!("go {chosen}"), run),
        Ok(Done::There) => standing("there", run),
        Ok(Done::Hand) => standing("hand", run),
        Err(refusal) => format!("refused {}", refusal.number()).into_bytes(),
    }
}

/// A word and where the run stands.
fn standing<C: Cost>(word: &str, run: &Run<C>) -> Vec<u8> {
    let mut out = Vec::from(word);
    out.push(b' ');
    number(&mut out, run.position as u32);
    out.push(b' ');
    run.spent.spell(&mut out);
    out.push(b' ');
    number(&mut out, run.moves);
    out.push(b' ');
    out.extend_from_slice(run.state.word().as_bytes());
    out
}

/// Prints one line at once.
fn answer(output: &mut dyn Write, line: &[u8]) -> io::Result<()> {
    output.write_all(line)?;
    output.write_all(b"\n")?;
    output.flush()
}

/// All that `follow` prints for a list of event bytes.
pub fn answers(kind: KindName, bytes: &[u8], events: &[u8]) -> Vec<u8> {
    let mut out = Vec::new();
    let mut input = events;
    follow(kind, bytes, &mut input, &mut out).expect("writing to a list does not fail");
    out
}

#[cfg(test)]
mod tests {
    use super::*;

    #[test]
    fn lines_are_read_to_the_letter() {
        let hand = |named| Said::Event(Event::Hand(named));
        assert_eq!(read_line(b"hand 0"), hand(Some(0)));
        assert_eq!(read_line(b"hand 4294967295"), hand(Some(u32::MAX)));
        assert_eq!(read_line(b"hand 4294967296"), hand(None));
        assert_eq!(
            read_line(&[b"hand 1".to_vec(), vec![b'0'; 99]].concat()),
            hand(None)
        );
        for line in [
            "", "Go", "go ", " go", "hand", "hand ", "hand  1", "hand 07", "hand 1 ",
        ] {
            assert_eq!(read_line(line.as_bytes()), Said::Unreadable, "{line:?}");
        }
    }
}
