//! The three ways of counting what moves cost.

use std::io::Write;

/// A cost. Its order is the order of the kind.
pub trait Cost: Copy + Ord + Default {
    const NAME: &'static str;

    /// The cost of one move.
    fn charge(bruise: u32, energy: u32) -> Self;

    /// The cost of what costs `self` and then, later, of what costs `later`.
    fn plus(self, later: Self) -> Self;

    fn spell(self, out: &mut Vec<u8>);

    /// The cost of no move.
    fn zero() -> Self {
        Self::default()
    }
}

#[derive(Clone, Copy, Debug, Default, PartialEq, Eq, PartialOrd, Ord)]
pub struct Energy(pub u32);

impl Cost for Energy {
    const NAME: &'static str = "energy";

    fn charge(_bruise: u32, energy: u32) -> Energy {
        Energy(energy)
    }

    fn plus(self, later: Energy) -> Energy {
        Energy(self.0.saturating_add(later.0))
    }

    fn spell(self, out: &mut Vec<u8>) {
        number(out, self.0);
    }
}

#[derive(Clone, Copy, Debug, Default, PartialEq, Eq, PartialOrd, Ord)]
pub struct Peak(pub u32);

impl Cost for Peak {
    const NAME: &'static str = "peak";

    fn charge(_bruise: u32, energy: u32) -> Peak {
        Peak(energy)
    }

    fn plus(self, later: Peak) -> Peak {
        Peak(self.0.max(later.0))
    }

    fn spell(self, out: &mut Vec<u8>) {
        number(out, self.0);
    }
}

/// The order of the fields is the order of comparison.
#[derive(Clone, Copy, Debug, Default, PartialEq, Eq, PartialOrd, Ord)]
pub struct Care {
    pub bruise: u32,
    pub energy: u32,
}

impl Cost for Care {
    const NAME: &'static str = "care";

    fn charge(bruise: u32, energy: u32) -> Care {
        Care { bruise, energy }
    }

    fn plus(self, later: Care) -> Care {
        match self.bruise.checked_add(later.bruise) {
            Some(bruise) => Care {
                bruise,
                energy: self.energy.saturating_add(later.energy),
            },
            None => Care {
                bruise: u32::MAX,
                energy: u32::MAX,
            },
        }
    }

    fn spell(self, out: &mut Vec<u8>) {
        number(out, self.bruise);
        out.push(b'/');
        number(out, self.energy);
    }
}

/// Appends a number in decimal.
pub fn number(out: &mut Vec<u8>, value: u32) {
    write!(out, "{value}").expect("writing to a list does not fail");
}

/// The name of a kind, where the kind is chosen at run time.
#[derive(Clone, Copy, Debug, PartialEq, Eq)]
pub enum KindName {
    Energy,
    Peak,
    Care,
}

impl KindName {
    pub const ALL: [KindName; 3] = [KindName::Energy, KindName::Peak, KindName::Care];

    pub fn word(self) -> &'static str {
        match self {
            KindName::Energy => Energy::NAME,
            KindName::Peak => Peak::NAME,
            KindName::Care => Care::NAME,
        }
    }

    pub fn from_word(word: &str) -> Option<KindName> {
        KindName::ALL.into_iter().find(|kind| kind.word() == word)
    }
}

#[cfg(test)]
mod tests {
    use super::*;

    const TOP: u32 = u32::MAX;

    #[test]
    fn sums_at_the_corners() {
        assert_eq!(Energy(2).plus(Energy(3)), Energy(5));
        assert_eq!(Energy(TOP - 1).plus(Energy(1)), Energy(TOP));
        assert_eq!(Energy(TOP).plus(Energy(1)), Energy(TOP));
        assert_eq!(Peak(2).plus(Peak(3)), Peak(3));
        assert_eq!(Peak(3).plus(Peak(2)), Peak(3));
        let sums = [
            ((1, 2), (3, 4), (4, 6)),
            ((0, TOP), (0, 1), (0, TOP)),
            ((1, 0), (TOP - 1, 5), (TOP, 5)),
            ((1, 0), (TOP, 0), (TOP, TOP)),
        ];
        for (first, later, sum) in sums {
            let care = |(bruise, energy)| Care { bruise, energy };
            assert_eq!(care(first).plus(care(later)), care(sum));
        }
    }

    #[test]
    fn bruise_decides_before_energy() {
        assert!(Care::charge(0, 9) < Care::charge(1, 0));
        assert!(Care::charge(1, 3) < Care::charge(1, 4));
    }
}
