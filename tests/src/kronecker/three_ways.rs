//! The least expansion input by input, from xn down, each taken in the three ways.

use super::{Expansion, Letter, Letters, order};
use crate::class::Cost;
use crate::evaluator::{bit, inputs};

/// The first expansion in document 02's order that gives the table, for n up to 8.
pub fn least(n: usize, table: &[u8]) -> Expansion {
    let start: Vec<Term> = table.iter().map(|&byte| Term { byte, literals: 0 }).collect();
    let (_, letters) = least_with(n, Vec::new(), &start);
    let taken = inputs(n).rev().zip(&letters);
    let terms = taken.fold(start, |terms, (i, &letter)| take(i, letter, &terms));
    Expansion::new(letters, terms.iter().map(|term| term.byte).collect())
}

/// A place while some inputs are taken and the others are not: a term over the taken inputs, its literals,
/// and its coefficient where the other inputs are as in the place.
#[derive(Clone, Copy)]
struct Term {
    byte: u8,
    literals: usize,
}

/// The least cost, and the first letters that have it, where x1 to xi are left to take.
fn least_with(i: usize, letters: Letters, terms: &[Term]) -> (Cost, Letters) {
    if i == 0 {
        return (terms.iter().map(|term| Cost::of_term(term.literals, term.byte)).sum(), letters);
    }
    let with =
        |letter| least_with(i - 1, [&letters[..], &[letter]].concat(), &take(i, letter, terms));
    let ways = Letter::ALL.into_iter().map(with);
    ways.min_by_key(|(cost, letters)| order(*cost, letters)).expect("there are three ways")
}

/// The places after xi is taken. Shannon's terms have the bytes where xi is 0 and where it is 1. A Davio
/// term without xi has the byte where the literal is 0, and the one with it what that byte lacks where the
/// literal is 1.
fn take(i: usize, letter: Letter, terms: &[Term]) -> Vec<Term> {
    let other = 1 << (i - 1);
    let term = |t: usize| {
        let Term { byte: same, literals } = terms[t];
        let both = same ^ terms[t ^ other].byte;
        let with = literals + 1;
        match (letter, bit(t, i)) {
            (Letter::Shannon, _) => Term { byte: same, literals: with },
            (Letter::PositiveDavio, false) => Term { byte: same, literals },
            (Letter::NegativeDavio, false) => Term { byte: terms[t ^ other].byte, literals },
            (_, true) => Term { byte: both, literals: with },
        }
    };
    (0..terms.len()).map(term).collect()
}
