//! Random sheets that are well formed. Some are too large to be joined.

use crate::board::{self, Board};
use crate::cost::{Care, Cost, Energy, KindName, Peak};
use crate::random::Random;
use crate::sheet::{self, Arrow, Budget, Move, Position, Rule, Sheet, Turn};
use crate::solve::{Value, solve};

const TOP: u32 = u32::MAX;

/// How bruises and energies are drawn.
#[derive(Clone, Copy)]
enum Prices {
    Free,
    UpTo(usize, usize),
    Wide,
    Extreme,
    Mixed,
}

impl Prices {
    fn any(random: &mut Random) -> Prices {
        match random.weighted(&[1, 5, 4, 3, 2, 2, 1]) {
            0 => Prices::Free,
            1 => Prices::UpTo(1, 2),
            2 => Prices::UpTo(2, 5),
            3 => Prices::UpTo(0, 3),
            4 => Prices::Wide,
            5 => Prices::Mixed,
            _ => Prices::Extreme,
        }
    }

    fn draw(self, random: &mut Random) -> (u32, u32) {
        let (bruise, energy) = match self {
            Prices::Free => (0, 0),
            Prices::UpTo(bruise, energy) => (random.between(0, bruise), random.between(0, energy)),
            Prices::Wide => (random.between(0, 1_000), random.between(0, 1_000_000)),
            Prices::Extreme => (1_000 * random.below(2), 1_000_000 * random.below(2)),
            Prices::Mixed => match random.below(4) {
                0 => (1_000, 1_000_000),
                1 => (999, 999_999),
                _ => (random.between(0, 1), random.between(0, 4)),
            },
        };
        (bruise as u32, energy as u32)
    }
}

/// What the positions of one sheet are drawn by.
struct Taste {
    prices: Prices,
    persons: usize,
    rests: usize,
    /// The values of the few signs that labels and tasks speak of.
    signs: Vec<u32>,
    /// How many labels are drawn from all 16 signs, of a hundred.
    wild_labels: usize,
}

impl Taste {
    fn any(random: &mut Random) -> Taste {
        let mut signs: Vec<u32> = (0..random.between(1, 4))
            .map(|_| random.below(16) as u32)
            .collect();
        if random.chance(20) {
            signs.extend([0, 15]);
        }
        Taste {
            prices: Prices::any(random),
            persons: *random.pick(&[0, 10, 30, 50, 50, 70, 100]),
            rests: *random.pick(&[0, 5, 15, 25, 40, 60]),
            signs,
            wild_labels: *random.pick(&[0, 0, 0, 10, 100]),
        }
    }

    fn label(&self, random: &mut Random) -> u16 {
        if random.chance(self.wild_labels) {
            let any = random.next() as u16;
            return *random.pick(&[any, any, u16::MAX, 32_768]);
        }
        self.few_signs(random, 35)
    }

    /// Some of the few signs, each with a chance.
    fn few_signs(&self, random: &mut Random, percent: usize) -> u16 {
        let mut label = 0;
        for &sign in &self.signs {
            if random.chance(percent) {
                label |= 1 << sign;
            }
        }
        label
    }

    fn sign(&self, random: &mut Random) -> u32 {
        if random.chance(10) {
            random.below(16) as u32
        } else {
            *random.pick(&self.signs)
        }
    }

    fn position(&self, random: &mut Random) -> Position {
        let person = random.chance(self.persons);
        Position {
            turn: if person { Turn::Person } else { Turn::Arm },
            rests: random.chance(self.rests),
            label: self.label(random),
        }
    }
}

/// A board in the making: its moves stand with the positions they leave.
struct Draft {
    positions: Vec<Position>,
    moves: Vec<Vec<(usize, u32, u32)>>,
}

impl Draft {
    fn new(random: &mut Random, taste: &Taste, count: usize) -> Draft {
        let mut positions: Vec<Position> = (0..count).map(|_| taste.position(random)).collect();
        if random.chance(80) {
            // Mostly there is somewhere to rest.
            positions[random.below(count)].rests = true;
        }
        Draft {
            positions,
            moves: vec![Vec::new(); count],
        }
    }

    fn count(&self) -> usize {
        self.positions.len()
    }

    fn lead(&mut self, random: &mut Random, taste: &Taste, from: usize, to: usize) {
        let (bruise, energy) = taste.prices.draw(random);
        self.moves[from].push((to, bruise, energy));
    }

    /// Gives the positions other numbers.
    fn renumber(self, random: &mut Random) -> Draft {
        let count = self.count();
        let mut new_number: Vec<usize> = (0..count).collect();
        random.shuffle(&mut new_number);
        let mut positions = self.positions.clone();
        let mut moves = vec![Vec::new(); count];
        for (old, row) in self.moves.into_iter().enumerate() {
            let renamed =
                |(to, bruise, energy): (usize, u32, u32)| (new_number[to], bruise, energy);
            positions[new_number[old]] = self.positions[old];
            moves[new_number[old]] = row.into_iter().map(renamed).collect();
        }
        Draft { positions, moves }
    }

    /// The sheet of this board without tasks. A person's moves are free.
    fn sheet(self) -> Sheet {
        let mut moves = Vec::new();
        for (from, row) in self.moves.iter().enumerate() {
            let pays = self.positions[from].turn == Turn::Arm;
            for &(to, bruise, energy) in row.iter().take(sheet::MOST_MOVES_AT_ONE) {
                let (bruise, energy) = if pays { (bruise, energy) } else { (0, 0) };
                moves.push(Move {
                    from,
                    to,
                    bruise,
                    energy,
                });
            }
        }
        moves.truncate(4_096);
        Sheet {
            positions: self.positions,
            moves,
            states: Vec::new(),
            arrows: Vec::new(),
            rules: Vec::new(),
            start: 0,
            budget: Budget {
                bruise: 0,
                energy: 0,
            },
        }
    }
}

/// Moves from anywhere to anywhere.
fn scattered(random: &mut Random, taste: &Taste, count: usize) -> Draft {
    let mut draft = Draft::new(random, taste, count);
    let most = *random.pick(&[1, 2, 3, 3, 5]);
    for from in 0..count {
        for _ in 0..random.between(0, most) {
            let to = if random.chance(8) {
                from
            } else {
                random.below(count)
            };
            draft.lead(random, taste, from, to);
        }
    }
    draft
}

/// Moves mostly towards position 0, which mostly rests.
fn layered(random: &mut Random, taste: &Taste, count: usize) -> Draft {
    let mut draft = Draft::new(random, taste, count);
    draft.positions[0].rests = random.chance(95);
    let back = *random.pick(&[0, 5, 20]);
    let reach = *random.pick(&[1, 3, count]);
    for from in 0..count {
        for _ in 0..random.between(1, 4) {
            let to = if from == 0 || random.chance(back) {
                random.below(count)
            } else {
                from - random.between(1, reach.min(from))
            };
            draft.lead(random, taste, from, to);
        }
    }
    draft
}

/// One long way to position 0, so that there are many rounds.
fn chain(random: &mut Random, taste: &Taste, count: usize) -> Draft {
    let mut draft = Draft::new(random, taste, count);
    for position in &mut draft.positions {
        position.rests = false;
    }
    draft.positions[0].rests = true;
    let extra = *random.pick(&[0, 10, 40]);
    for from in 1..count {
        if random.chance(extra) && draft.positions[from].turn == Turn::Arm {
            let to = random.between(from, (from + 3).min(count - 1));
            draft.lead(random, taste, from, to);
        }
        draft.lead(random, taste, from, from - 1);
        if random.chance(extra) {
            draft.lead(random, taste, from, from - 1);
        }
        if random.chance(extra / 5) {
            // A way past some of the chain, that costs the most.
            let to = from - random.between(1, from.min(9));
            draft.moves[from].push((to, 1_000, 1_000_000));
        }
    }
    draft
}

/// A ring that costs nothing, with ways out of it that cost something.
fn ring(random: &mut Random, taste: &Taste, count: usize) -> Draft {
    let mut draft = Draft::new(random, taste, count);
    draft.positions[0].rests = true;
    for from in 1..count {
        let next = if from + 1 < count { from + 1 } else { 1 };
        draft.moves[from].push((next, 0, 0));
        if random.chance(40) {
            draft.lead(random, taste, from, 0);
        }
        if random.chance(20) {
            draft.moves[from].push((random.between(1, count - 1), 0, 0));
        }
        random.shuffle(&mut draft.moves[from]);
    }
    draft
}

/// Some positions with up to 64 moves.
fn crowded(random: &mut Random, taste: &Taste, count: usize) -> Draft {
    let mut draft = layered(random, taste, count);
    for from in 0..count {
        if random.chance(40) {
            let wanted = *random.pick(&[10, 33, 63, 64, 64]);
            let near = random.between(1, count);
            while draft.moves[from].len() < wanted {
                let to = random.below(near);
                draft.lead(random, taste, from, to);
            }
        }
    }
    draft
}

/// Adds so many states and rules to a sheet.
fn add_tasks(random: &mut Random, taste: &Taste, sheet: &mut Sheet, states: usize, rules: usize) {
    let accepting = *random.pick(&[30, 60, 100]);
    sheet.states = (0..states).map(|_| random.chance(accepting)).collect();
    if states > 0 {
        if random.chance(80) {
            sheet.states[random.below(states)] = true;
        }
        let arrows = match random.below(8) {
            0 => 0,
            1 => random.between(0, 256),
            _ => random.between(1, (2 * states + 2).min(256)),
        };
        sheet.arrows = (0..arrows)
            .map(|_| random_arrow(random, taste, states))
            .collect();
    }
    sheet.rules = (0..rules).map(|_| random_rule(random, taste)).collect();
}

fn random_arrow(random: &mut Random, taste: &Taste, states: usize) -> Arrow {
    let need = if random.chance(30) {
        0
    } else {
        taste.few_signs(random, 40)
    };
    let mut bar = if random.chance(50) {
        0
    } else {
        taste.few_signs(random, 30)
    };
    if !random.chance(15) {
        // Mostly an arrow that can fit.
        bar &= !need;
    }
    if random.chance(2) {
        bar = u16::MAX;
    }
    Arrow {
        from: random.below(states),
        need,
        bar,
        to: random.below(states),
    }
}

fn random_rule(random: &mut Random, taste: &Taste) -> Rule {
    let (p, q) = (taste.sign(random), taste.sign(random));
    match random.weighted(&[3, 1, 2, 3]) {
        0 => Rule::Met(p),
        1 => Rule::Never(p),
        2 => Rule::Before(p, q),
        _ => Rule::After(p, q),
    }
}

/// Numbers of states and rules whose join with so many positions stays within
/// a limit.
fn task_sizes(random: &mut Random, positions: usize, limit: usize) -> (usize, usize) {
    let mut rules = random.weighted(&[40, 22, 15, 10, 7, 6]);
    while rules > 0 && positions * 3usize.pow(rules as u32) > limit {
        rules -= 1;
    }
    let room = limit / (positions * 3usize.pow(rules as u32));
    let wanted = match random.weighted(&[45, 50, 5]) {
        0 => 0,
        1 => random.between(1, 5),
        _ => 64,
    };
    (wanted.min(room), rules)
}

/// Sizes at the limit of the join: positions, states, rules.
const AT_THE_LIMIT: [(usize, usize, usize); 14] = [
    (4_096, 0, 0),
    (4_096, 1, 0),
    (2_048, 2, 0),
    (1_024, 4, 0),
    (64, 64, 0),
    (65, 63, 0),
    (1_365, 0, 1),
    (1_365, 1, 1),
    (195, 7, 1),
    (455, 0, 2),
    (91, 5, 2),
    (50, 0, 4),
    (16, 0, 5),
    (8, 2, 5),
];

/// Sizes just past it.
const PAST_THE_LIMIT: [(usize, usize, usize); 12] = [
    (4_096, 2, 0),
    (2_049, 2, 0),
    (65, 64, 0),
    (1_366, 0, 1),
    (4_096, 0, 1),
    (456, 0, 2),
    (152, 0, 3),
    (51, 0, 4),
    (17, 0, 5),
    (6, 3, 5),
    (64, 22, 1),
    (1, 17, 5),
];

/// Takes moves away until the sheet is short enough.
fn shorten(sheet: &mut Sheet) {
    loop {
        let length = sheet::spell(sheet).len();
        if length <= sheet::LONGEST || sheet.moves.is_empty() {
            return;
        }
        let less = (length - sheet::LONGEST) / 23 + 1;
        let left = sheet.moves.len().saturating_sub(less);
        sheet.moves.truncate(left);
    }
}

fn limit_sheet(random: &mut Random, taste: &Taste) -> Sheet {
    let sizes = if random.chance(60) {
        AT_THE_LIMIT.as_slice()
    } else {
        PAST_THE_LIMIT.as_slice()
    };
    let &(positions, states, rules) = random.pick(sizes);
    let draft = if random.chance(50) {
        scattered(random, taste, positions)
    } else {
        layered(random, taste, positions)
    };
    let mut sheet = draft.sheet();
    add_tasks(random, taste, &mut sheet, states, rules);
    shorten(&mut sheet);
    sheet
}

/// A sheet of about the greatest length: some bytes below it, at it or past it.
fn longest_sheet(random: &mut Random) -> Sheet {
    let taste = Taste {
        prices: Prices::UpTo(1, 3),
        persons: 10,
        rests: 2,
        signs: vec![0, 1],
        wild_labels: 0,
    };
    let count = random.between(3_000, 4_096);
    let mut draft = chain(random, &taste, count);
    for position in &mut draft.positions {
        // Labels of one digit, so that there is room to lengthen them.
        position.label = random.below(10) as u16;
    }
    let mut sheet = draft.sheet();
    let goal = sheet::LONGEST - 1 + random.below(4);
    let missing = |sheet: &Sheet| goal.checked_sub(sheet::spell(sheet).len());
    while missing(&sheet).is_none() {
        let length = sheet::spell(&sheet).len();
        let left = sheet.moves.len().saturating_sub((length - goal) / 15 + 1);
        sheet.moves.truncate(left);
    }
    let mut missing = missing(&sheet).unwrap_or(0);
    for position in &mut sheet.positions {
        let longer = missing.min(4);
        missing -= longer;
        position.label = [position.label, 10, 100, 1_000, 10_000][longer];
    }
    sheet
}

/// A chain whose way goes through the board once in every state.
fn counting_sheet(random: &mut Random) -> Sheet {
    let taste = Taste {
        prices: Prices::UpTo(1, 3),
        persons: *random.pick(&[0, 30]),
        rests: 0,
        signs: vec![3],
        wild_labels: 0,
    };
    let states = random.between(2, 64);
    let most = (2_500 / states).min(300);
    let count = random.between(2, most);
    let mut draft = chain(random, &taste, count);
    for position in &mut draft.positions {
        position.label = 0;
    }
    let first = count - 1;
    draft.positions[first].label = 8;
    draft.lead(random, &taste, 0, first);
    let mut sheet = draft.sheet();
    sheet.states = vec![false; states];
    sheet.states[states - 1] = true;
    for from in 0..states - 1 {
        let (need, to) = (8, from + 1);
        sheet.arrows.push(Arrow {
            from,
            need,
            bar: 0,
            to,
        });
    }
    sheet
}

/// Any well-formed sheet. Where its start has no cost another is mostly drawn.
pub fn any_sheet(random: &mut Random) -> Sheet {
    loop {
        let mut sheet = draw_sheet(random);
        if choose_start_and_budget(random, &mut sheet, None) || random.chance(40) {
            return sheet;
        }
    }
}

fn draw_sheet(random: &mut Random) -> Sheet {
    match random.weighted(&[800, 90, 30, 45, 8, 4]) {
        0 => small_sheet(random),
        1 => medium_sheet(random),
        2 => chain_sheet(random),
        3 => {
            let taste = Taste::any(random);
            limit_sheet(random, &taste)
        }
        4 => counting_sheet(random),
        _ => longest_sheet(random),
    }
}

/// A well-formed sheet for damaging it, mostly a small one.
pub fn sheet_to_damage(random: &mut Random) -> Sheet {
    if random.chance(10) {
        return any_sheet(random);
    }
    let mut sheet = small_sheet(random);
    sheet.start = random.below(sheet.positions.len());
    sheet.budget = any_budget(random);
    sheet
}

fn small_sheet(random: &mut Random) -> Sheet {
    let taste = Taste::any(random);
    let count = random.between(1, 12);
    let draft = match random.weighted(&[35, 40, 10, 15]) {
        0 => scattered(random, &taste, count),
        1 => layered(random, &taste, count),
        2 => crowded(random, &taste, count),
        _ => ring(random, &taste, count.max(2)),
    };
    let draft = if random.chance(60) {
        draft.renumber(random)
    } else {
        draft
    };
    let mut sheet = draft.sheet();
    let limit = if random.chance(10) { 4_096 } else { 500 };
    let (states, rules) = task_sizes(random, sheet.positions.len(), limit);
    add_tasks(random, &taste, &mut sheet, states, rules);
    sheet
}

fn medium_sheet(random: &mut Random) -> Sheet {
    let taste = Taste::any(random);
    let count = random.between(13, 120);
    let draft = match random.below(4) {
        0 => scattered(random, &taste, count),
        1 => crowded(random, &taste, count),
        _ => layered(random, &taste, count),
    };
    let mut sheet = draft.renumber(random).sheet();
    let limit = if random.chance(10) { 4_096 } else { 1_000 };
    let (states, rules) = task_sizes(random, sheet.positions.len(), limit);
    add_tasks(random, &taste, &mut sheet, states, rules);
    shorten(&mut sheet);
    sheet
}

fn chain_sheet(random: &mut Random) -> Sheet {
    let taste = Taste::any(random);
    let count = if random.chance(10) {
        random.between(700, 2_000)
    } else {
        random.between(50, 400)
    };
    let draft = chain(random, &taste, count);
    let draft = match random.below(3) {
        0 => draft.renumber(random),
        _ => draft,
    };
    let mut sheet = draft.sheet();
    let (states, rules) = task_sizes(random, count, 1_200);
    add_tasks(random, &taste, &mut sheet, states, rules);
    shorten(&mut sheet);
    sheet
}

/// A sheet for runs of a kind; its verdict is mostly `within`.
pub fn sheet_for_runs(random: &mut Random, kind: KindName) -> Sheet {
    loop {
        let mut sheet = match random.weighted(&[25, 30, 25, 10, 5]) {
            0 => small_sheet(random),
            1 => way_for_two(random),
            2 => medium_sheet(random),
            3 => chain_sheet(random),
            _ => counting_sheet(random),
        };
        if choose_start_and_budget(random, &mut sheet, Some(kind)) || random.chance(5) {
            return sheet;
        }
    }
}

/// A board where arm and person both have moves on the way to rest.
fn way_for_two(random: &mut Random) -> Sheet {
    let taste = Taste {
        prices: Prices::any(random),
        persons: 50,
        rests: 3,
        signs: vec![0, 1],
        wild_labels: 0,
    };
    let count = random.between(3, 60);
    let mut draft = Draft::new(random, &taste, count);
    draft.positions[0].rests = true;
    for from in 1..count {
        for _ in 0..random.between(1, 5) {
            let to = from - random.between(1, from.min(4));
            draft.lead(random, &taste, from, to);
        }
        if draft.positions[from].turn == Turn::Arm && random.chance(30) {
            let to = random.below(count);
            draft.lead(random, &taste, from, to);
        }
        random.shuffle(&mut draft.moves[from]);
    }
    let draft = if random.chance(50) {
        draft.renumber(random)
    } else {
        draft
    };
    let mut sheet = draft.sheet();
    if random.chance(40) {
        let (states, rules) = task_sizes(random, count, 1_000);
        add_tasks(random, &taste, &mut sheet, states, rules.min(2));
    }
    sheet
}

/// Chooses the start and the budget by what the board costs; true where the
/// start has a cost, or the board cannot be joined.
fn choose_start_and_budget(random: &mut Random, sheet: &mut Sheet, kind: Option<KindName>) -> bool {
    sheet.start = random.below(sheet.positions.len());
    let for_runs = kind.is_some();
    let kind = kind.unwrap_or(*random.pick(&KindName::ALL));
    let cost = match (board::join(sheet), board::starts(sheet)) {
        (Ok(board), Ok(starts)) => {
            let costs = costs_as_care(&board, kind);
            if random.chance(if for_runs { 97 } else { 60 }) {
                sheet.start = better_start(random, sheet.start, &board, &starts, &costs);
            }
            costs[starts[sheet.start]]
        }
        _ => None,
    };
    sheet.budget = match cost {
        Some(cost) => budget_near(random, kind, cost, for_runs),
        None => any_budget(random),
    };
    cost.is_some() || board::join(sheet).is_err()
}

/// The costs of all positions, as the charges of moves that cost the same.
fn costs_as_care(board: &Board, kind: KindName) -> Vec<Option<Care>> {
    fn costs<C: Cost>(board: &Board, care: fn(C) -> Care) -> Vec<Option<Care>> {
        let budget = Budget {
            bruise: 0,
            energy: 0,
        };
        let plan = solve::<C>(board, budget);
        let one = |value: &Value<C>| match *value {
            Value::Cost(cost) => Some(care(cost)),
            Value::None => None,
        };
        plan.values.iter().map(one).collect()
    }
    match kind {
        KindName::Energy => costs::<Energy>(board, |cost| Care::charge(0, cost.0)),
        KindName::Peak => costs::<Peak>(board, |cost| Care::charge(0, cost.0)),
        KindName::Care => costs::<Care>(board, |cost| cost),
    }
}

/// A start that has a cost and does not rest, if some tries find one; of two
/// found the one that costs more.
fn better_start(
    random: &mut Random,
    at_first: usize,
    board: &Board,
    starts: &[usize],
    costs: &[Option<Care>],
) -> usize {
    let mut best = None;
    for _ in 0..30 {
        let start = random.below(starts.len());
        let pair = starts[start];
        if let (Some(cost), false) = (costs[pair], board.rests[pair]) {
            match best {
                None => best = Some((cost, start)),
                Some(found) => return found.max((cost, start)).1,
            }
        }
    }
    best.map_or(at_first, |(_, start)| start)
}

fn budget_near(random: &mut Random, kind: KindName, cost: Care, for_runs: bool) -> Budget {
    let care = kind == KindName::Care;
    let Care { bruise, energy } = cost;
    let loose = *random.pick(&[0, 1, 1_000, TOP]);
    let bruise = if care { bruise } else { loose };
    let (bruise, energy) = match random.weighted(&[40, if for_runs { 4 } else { 25 }, 10, 15, 5]) {
        0 => (bruise, energy),
        1 if energy > 0 => (bruise, energy - 1),
        1 if care && bruise > 0 => (bruise - 1, TOP),
        1 => (0, 0),
        2 => (bruise, energy + 1),
        3 => (TOP, TOP),
        _ => return any_budget(random),
    };
    Budget { bruise, energy }
}

fn any_budget(random: &mut Random) -> Budget {
    let draw = |random: &mut Random| *random.pick(&[0, 0, 1, 5, 1_000, 1_000_000, TOP - 1, TOP]);
    Budget {
        bruise: draw(random),
        energy: draw(random),
    }
}

#[cfg(test)]
mod tests {
    use super::*;

    #[test]
    fn a_spelled_sheet_is_read_back() {
        for seed in 0..300 {
            let sheet = any_sheet(&mut Random::new(seed));
            let text = sheet::spell(&sheet);
            if text.len() <= sheet::LONGEST {
                assert_eq!(sheet::read(&text), Ok(sheet), "seed {seed}");
            }
        }
    }
}
