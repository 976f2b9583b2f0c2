//! The two kinds of tasks, both read from a sheet.

use crate::sheet::{Arrow, Rule};

/// The automaton of a sheet. Without states it is one state that accepts.
pub struct Automaton<'a> {
    states: &'a [bool],
    arrows: &'a [Arrow],
}

impl<'a> Automaton<'a> {
    pub fn over(states: &'a [bool], arrows: &'a [Arrow]) -> Automaton<'a> {
        Automaton { states, arrows }
    }

    pub fn states(&self) -> usize {
        self.states.len().max(1)
    }

    /// The target of the first fitting arrow, or the state itself.
    pub fn next(&self, state: usize, label: u16) -> usize {
        self.arrows
            .iter()
            .find(|arrow| fits(arrow, state, label))
            .map_or(state, |arrow| arrow.to)
    }

    pub fn accepts(&self, state: usize) -> bool {
        self.states.is_empty() || self.states[state]
    }
}

fn fits(arrow: &Arrow, state: usize, label: u16) -> bool {
    arrow.from == state && label & arrow.need == arrow.need && label & arrow.bar == 0
}

/// The rules of a sheet. Their state has one base-3 digit for each rule, the
/// first rule's lowest.
pub struct Rules<'a> {
    rules: &'a [Rule],
}

impl<'a> Rules<'a> {
    pub fn over(rules: &'a [Rule]) -> Rules<'a> {
        Rules { rules }
    }

    pub fn states(&self) -> usize {
        3usize.pow(self.rules.len() as u32)
    }

    pub fn next(&self, state: usize, label: u16) -> usize {
        let mut left = state;
        let mut value = 1;
        let mut result = 0;
        for &rule in self.rules {
            result += value * next_digit(rule, left % 3, label);
            left /= 3;
            value *= 3;
        }
        result
    }

    pub fn accepts(&self, state: usize) -> bool {
        let mut left = state;
        for &rule in self.rules {
            if !digit_accepts(rule, left % 3) {
                return false;
            }
            left /= 3;
        }
        true
    }
}

fn next_digit(rule: Rule, digit: usize, label: u16) -> usize {
    let has = |sign: u32| label >> sign & 1 == 1;
    match (rule, digit) {
        (Rule::Met(p) | Rule::Never(p), 0) if has(p) => 1,
        (Rule::Before(p, _), 0) if has(p) => 1,
        (Rule::Before(_, q), 0) if has(q) => 2,
        (Rule::After(_, q), 0 | 1) if has(q) => 0,
        (Rule::After(p, _), 0) if has(p) => 1,
        _ => digit,
    }
}

fn digit_accepts(rule: Rule, digit: usize) -> bool {
    match rule {
        Rule::Met(_) => digit == 1,
        Rule::Never(_) | Rule::After(..) => digit == 0,
        Rule::Before(..) => digit < 2,
    }
}

#[cfg(test)]
mod tests {
    use super::*;

    /// Whether a rule holds of labels, in the words of the documents.
    fn holds(rule: Rule, labels: &[u16]) -> bool {
        let has = |label: &u16, sign: u32| label >> sign & 1 == 1;
        match rule {
            Rule::Met(p) => labels.iter().any(|l| has(l, p)),
            Rule::Never(p) => !labels.iter().any(|l| has(l, p)),
            Rule::Before(p, q) => (0..labels.len())
                .filter(|&i| has(&labels[i], q))
                .all(|i| labels[..=i].iter().any(|l| has(l, p))),
            Rule::After(p, q) => (0..labels.len())
                .filter(|&i| has(&labels[i], p))
                .all(|i| labels[i..].iter().any(|l| has(l, q))),
        }
    }

    fn accepts(rules: &[Rule], labels: &[u16]) -> bool {
        let task = Rules::over(rules);
        let last = labels.iter().fold(0, |state, &l| task.next(state, l));
        task.accepts(last)
    }

    #[test]
    fn rules_hold_as_their_words_say() {
        let rules = [
            Rule::Met(0),
            Rule::Never(1),
            Rule::Before(0, 1),
            Rule::Before(1, 1),
            Rule::After(0, 1),
            Rule::After(1, 1),
        ];
        for length in 0..=5u32 {
            for code in 0..4usize.pow(length) {
                let labels: Vec<u16> = (0..length)
                    .map(|i| (code / 4usize.pow(i) % 4) as u16)
                    .collect();
                for &one in &rules {
                    assert_eq!(accepts(&[one], &labels), holds(one, &labels));
                    for &two in &rules {
                        let both = holds(one, &labels) && holds(two, &labels);
                        assert_eq!(accepts(&[one, two], &labels), both);
                    }
                }
            }
        }
    }

    #[test]
    fn states_of_three_rules() {
        let rules = [Rule::Met(0), Rule::Never(1), Rule::After(0, 1)];
        let task = Rules::over(&rules);
        assert_eq!(task.states(), 27);
        assert_eq!(task.next(0, 1), 10);
        assert_eq!(task.next(10, 2), 4);
        // Digits without a meaning stay and do not accept.
        assert_eq!(task.next(26, 3), 26);
        assert!(!task.accepts(2));
    }

    #[test]
    fn the_first_fitting_arrow_is_followed() {
        let states = [false, true, false];
        let arrow = |from, need, bar, to| Arrow {
            from,
            need,
            bar,
            to,
        };
        let arrows = [arrow(0, 2, 1, 1), arrow(0, 2, 0, 2), arrow(2, 1, 1, 0)];
        let task = Automaton::over(&states, &arrows);
        assert_eq!(task.next(0, 2), 1);
        assert_eq!(task.next(0, 3), 2);
        assert_eq!(task.next(0, 1), 0);
        assert_eq!(task.next(2, 1), 2);
        assert!(task.accepts(1) && !task.accepts(2));
        let none = Automaton::over(&[], &[]);
        assert_eq!((none.states(), none.next(0, 7)), (1, 0));
        assert!(none.accepts(0));
    }
}
