//! Kronecker expansions, as document 02's W-202 gives them: "each input taken the Shannon way (every term has
//! it, plain or complemented) or either Davio way, one choice an input". The least one that gives a table is
//! searched in two ways: over every kind, and input by input.

mod every_kind;
mod three_ways;

pub use every_kind::Kinds;
pub use three_ways::least;

use crate::class::Cost;
use crate::evaluator::{bit, inputs, places};
use crate::family::Family;
use crate::text::products::{Product, counted, value};

/// How an input is taken, in the order of equal costs.
#[derive(Clone, Copy, Debug, PartialEq, Eq, PartialOrd, Ord)]
pub enum Letter {
    Shannon,
    PositiveDavio,
    NegativeDavio,
}

impl Letter {
    pub const ALL: [Letter; 3] = [Letter::Shannon, Letter::PositiveDavio, Letter::NegativeDavio];

    /// The letter in a listing.
    pub fn byte(self) -> u8 {
        match self {
            Letter::Shannon => b'S',
            Letter::PositiveDavio => b'P',
            Letter::NegativeDavio => b'N',
        }
    }

    /// The character in the cube of a term: "terms ascend with the bit set for the plain or present
    /// literal".
    pub fn character(self, set: bool) -> u8 {
        match (self, set) {
            (Letter::Shannon, true) => b'1',
            (Letter::Shannon, false) => b'0',
            (Letter::PositiveDavio, true) => b'1',
            (Letter::NegativeDavio, true) => b'0',
            (Letter::PositiveDavio | Letter::NegativeDavio, false) => b'-',
        }
    }
}

/// The letters of all n inputs, from xn down.
pub type Letters = Vec<Letter>;

/// The letters of every kind, 3^n of them, ascending.
pub fn every_letters(n: usize) -> Vec<Letters> {
    let with = |letters: Letters| Letter::ALL.map(|last| [&letters[..], &[last]].concat());
    inputs(n).fold(vec![Vec::new()], |all, _| all.into_iter().flat_map(with).collect())
}

/// The cube of term t, leftmost xn.
pub fn cube(letters: &[Letter], t: usize) -> Vec<u8> {
    let from_xn_down = inputs(letters.len()).rev();
    from_xn_down.zip(letters).map(|(i, letter)| letter.character(bit(t, i))).collect()
}

/// What expansions are compared by: products, literals, letters from xn down. They are of family one: "`K`
/// is for `table` only".
pub fn order(cost: Cost, letters: &Letters) -> ([usize; 2], Letters) {
    (Family::One.order(cost), letters.clone())
}

/// A kind with coefficients and what they cost.
#[derive(Clone, Debug, PartialEq, Eq)]
pub struct Expansion {
    pub letters: Letters,
    pub coefficients: Vec<u8>,
    pub cost: Cost,
}

impl Expansion {
    pub fn new(letters: Letters, coefficients: Vec<u8>) -> Self {
        let cost = counted(&products(&letters, &coefficients));
        Expansion { letters, coefficients, cost }
    }

    /// The products, ascending by term.
    pub fn products(&self) -> Vec<Product> {
        products(&self.letters, &self.coefficients)
    }

    /// The table that this expansion gives, point by point.
    pub fn table(&self) -> Vec<u8> {
        let products = self.products();
        (0..places(self.letters.len())).map(|p| value(&products, p)).collect()
    }
}

/// The terms whose coefficient is not 0.
fn products(letters: &[Letter], coefficients: &[u8]) -> Vec<Product> {
    let used = (0..coefficients.len()).filter(|&t| coefficients[t] != 0);
    used.map(|t| Product { cube: cube(letters, t), outputs: coefficients[t] }).collect()
}

#[cfg(test)]
mod tests {
    use super::*;
    use crate::seeded::Seeded;
    use crate::seeded::tables::{any_table, every_table};
    use std::collections::BTreeSet;

    /// The two searches agree, and what they find gives the table.
    fn agree(n: usize, kinds: &Kinds, table: &[u8]) {
        let found = least(n, table);
        assert_eq!(found, kinds.least(table), "n = {n}, {table:?}");
        assert_eq!(found.table(), table);
    }

    #[test]
    fn every_small_table() {
        for (n, m) in [(1, 1), (1, 2), (2, 1), (2, 2), (3, 1)] {
            let kinds = Kinds::new(n);
            every_table(n, m).for_each(|table| agree(n, &kinds, &table));
        }
    }

    #[test]
    fn drawn_tables() {
        let mut seeded = Seeded::new(5);
        for (n, rounds) in [(3, 400), (4, 200)] {
            let kinds = Kinds::new(n);
            for _ in 0..rounds {
                let m = seeded.within(1, 8);
                agree(n, &kinds, &any_table(&mut seeded, n, m));
            }
        }
    }

    #[test]
    fn found_expansions_give_the_table() {
        let mut seeded = Seeded::new(6);
        for n in 5..=8 {
            for m in [1, 4, 8] {
                let table = any_table(&mut seeded, n, m);
                assert_eq!(least(n, &table).table(), table);
            }
        }
    }

    /// No expansion of any kind that gives the table is before the least one, whatever its coefficients.
    #[test]
    fn no_rival_is_cheaper() {
        for n in 1..=3 {
            for letters in every_letters(n) {
                let mut given = BTreeSet::new();
                for coefficients in every_table(n, 1) {
                    let rival = Expansion::new(letters.clone(), coefficients);
                    let table = rival.table();
                    let first = least(n, &table);
                    let orders = [first, rival].map(|e| order(e.cost, &e.letters));
                    assert!(orders[0] <= orders[1]);
                    given.insert(table);
                }
                assert_eq!(given.len(), every_table(n, 1).count(), "each table is given once");
            }
        }
    }

    #[test]
    fn kinds_ascend_from_xn_down() {
        let written = |letters: &Letters| letters.iter().map(|x| char::from(x.byte())).collect();
        let two: Vec<String> = every_letters(2).iter().map(written).collect();
        assert_eq!(two.join(" "), "SS SP SN PS PP PN NS NP NN");
        assert!((1..=8).all(|n| every_letters(n).is_sorted()));
        assert_eq!(every_letters(8).len(), 6561);
    }
}
