//! The least expansion over every kind, with the coefficients found by elimination.

use super::{Expansion, Letters, cube, every_letters, order};
use crate::elimination::{Solved, eliminate};
use crate::evaluator::places;
use crate::text::products::Product;

/// Every kind of n inputs, each solved by elimination (n up to 4).
pub struct Kinds {
    solved: Vec<(Letters, Solved)>,
}

impl Kinds {
    pub fn new(n: usize) -> Self {
        let solve = |letters: Letters| (letters.clone(), solve(n, &letters));
        Kinds { solved: every_letters(n).into_iter().map(solve).collect() }
    }

    /// The expansions that give the table, one of each kind.
    pub fn rivals(&self, table: &[u8]) -> impl Iterator<Item = Expansion> {
        let expansion = |(letters, solved): &(Letters, Solved)| {
            Expansion::new(letters.clone(), solved.coefficients(table))
        };
        self.solved.iter().map(expansion)
    }

    /// The first of them in document 02's order.
    pub fn least(&self, table: &[u8]) -> Expansion {
        self.rivals(table).min_by_key(|e| order(e.cost, &e.letters)).expect("there is a kind")
    }
}

fn solve(n: usize, letters: &Letters) -> Solved {
    let cubes: Vec<Product> =
        (0..places(n)).map(|t| Product { cube: cube(letters, t), outputs: 0 }).collect();
    eliminate(places(n), |t, p| cubes[t].true_at(p))
}
