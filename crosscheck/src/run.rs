//! Runs: following the bench event by event.

use crate::board::Board;
use crate::cost::Cost;
use crate::sheet::Turn;
use crate::solve::Plan;

#[derive(Clone, Copy, Debug, PartialEq, Eq)]
pub enum State {
    Arm,
    Moving,
    Person,
    Ended,
}

impl State {
    pub fn word(self) -> &'static str {
        match self {
            State::Arm => "arm",
            State::Moving => "moving",
            State::Person => "person",
            State::Ended => "ended",
        }
    }
}

#[derive(Clone, Copy, Debug, PartialEq, Eq)]
pub enum Event {
    Go,
    There,
    /// The move that the person made; none where its number is too great for
    /// any move.
    Hand(Option<u32>),
}

/// What an accepted event answers.
#[derive(Clone, Copy, Debug, PartialEq, Eq)]
pub enum Done {
    Go(u32),
    There,
    Hand,
}

#[derive(Clone, Copy, Debug, PartialEq, Eq)]
pub enum Refusal {
    HasEnded,
    DoesNotFit,
    NoSuchMove,
}

impl Refusal {
    pub fn number(self) -> u32 {
        match self {
            Refusal::HasEnded => 51,
            Refusal::DoesNotFit => 52,
            Refusal::NoSuchMove => 53,
        }
    }
}

pub struct Run<'a, C> {
    board: &'a Board,
    plan: &'a Plan<C>,
    pub position: usize,
    pub spent: C,
    pub moves: u32,
    pub state: State,
}

impl<'a, C: Cost> Run<'a, C> {
    pub fn begin(board: &'a Board, plan: &'a Plan<C>) -> Run<'a, C> {
        Run {
            board,
            plan,
            position: board.start,
            spent: C::zero(),
            moves: 0,
            state: state_on_coming(board, board.start),
        }
    }

    /// Takes an event. A refusal changes nothing.
    pub fn take(&mut self, event: Event) -> Result<Done, Refusal> {
        match (self.state, event) {
            (State::Ended, _) => Err(Refusal::HasEnded),
            (State::Arm, Event::Go) => {
                let chosen = self.chosen()?;
                self.state = State::Moving;
                Ok(Done::Go(chosen))
            }
            (State::Moving, Event::There) => {
                let chosen = self.chosen()?;
                self.make(chosen)?;
                Ok(Done::There)
            }
            (State::Person, Event::Hand(named)) => {
                self.make(named.ok_or(Refusal::NoSuchMove)?)?;
                Ok(Done::Hand)
            }
            _ => Err(Refusal::DoesNotFit),
        }
    }

    /// How many moves there are where the run stands.
    pub fn moves_here(&self) -> usize {
        self.board.moves(self.position).len()
    }

    /// The chosen move, which must be there.
    fn chosen(&self) -> Result<u32, Refusal> {
        match self.plan.choices[self.position] {
            Some(choice) if (choice as usize) < self.moves_here() => Ok(choice),
            _ => Err(Refusal::NoSuchMove),
        }
    }

    fn make(&mut self, number: u32) -> Result<(), Refusal> {
        let moves = self.board.moves(self.position);
        let step = moves.get(number as usize).ok_or(Refusal::NoSuchMove)?;
        self.position = step.target as usize;
        self.spent = self.spent.plus(C::charge(step.bruise, step.energy));
        self.moves = self.moves.saturating_add(1);
        self.state = state_on_coming(self.board, self.position);
        Ok(())
    }
}

fn state_on_coming(board: &Board, position: usize) -> State {
    if board.rests[position] {
        State::Ended
    } else {
        match board.turns[position] {
            Turn::Arm => State::Arm,
            Turn::Person => State::Person,
        }
    }
}
