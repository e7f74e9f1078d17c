//! The least expansion block by block, from the fixed-polarity expansions.

use super::{Class, Cost, Expansion, Member, fixed_polarities, members_with, mixed_sets};
use crate::evaluator::{forward, holds, literals, number_of, places, with_polarities};
use crate::family::Family;

/// The first expansion in the family's order that gives the table, for n up to 8. The terms of a block together
/// have the values that they have in the fixed-polarity expansion with i outside M and plain literals in M, whatever
/// their polarities over M are; so each block is chosen by itself. Inverting outputs changes the coefficient of term
/// 0 only, the constant 1: the mask that costs least is that coefficient itself, and term 0 is then no product.
pub fn least(family: Family, n: usize, class: Class, table: &[u8]) -> Expansion {
    let expansions: Vec<Vec<u8>> = (0..places(n)).map(|w| forward(n, w, table)).collect();
    let of_set = |mixed| Blocks::new(n, class, mixed).least(family, &expansions);
    let candidates = mixed_sets(n, class.k()).map(of_set);
    candidates.min_by_key(|e| e.order(family)).expect("there is a mixed set")
}

/// How many places a block has at most: three inputs are mixed.
const PLACES: usize = 8;

/// The polarities over M that the places of a block have together. They are those of a member of k inputs, all of
/// them mixed.
type Choice = [usize; PLACES];

/// What a block costs under a choice.
struct Chosen {
    choice: Choice,
    coefficients: [u8; PLACES],
    cost: Cost,
    /// The inversion mask that the block asks for, as a number: the constant's coefficient in block 0, 0 in the
    /// others.
    inverted: usize,
}

/// The blocks that go with one mixed set.
struct Blocks {
    n: usize,
    class: Class,
    mixed: usize,
    /// What each block can choose, ascending.
    choices: Vec<Choice>,
    /// The terms of each block with their literals, by their places.
    terms: Vec<Vec<(usize, usize)>>,
}

impl Blocks {
    fn new(n: usize, class: Class, mixed: usize) -> Self {
        let k = class.k();
        let outside = number_of(n, |i| !holds(mixed, i));
        let inside: Vec<usize> = fixed_polarities(n, outside).collect();
        let term = |t| (t, literals(n, t));
        let terms_at = |base: usize| inside.iter().map(|part| term(base + part)).collect();
        let choice = |member: Member| {
            let mut polarities = [0; PLACES];
            (0..places(k)).for_each(|place| polarities[place] = member.polarity(k, place));
            polarities
        };
        Blocks {
            n,
            class,
            mixed,
            choices: members_with(k, class, places(k) - 1, 0).into_iter().map(choice).collect(),
            terms: fixed_polarities(n, mixed).map(terms_at).collect(),
        }
    }

    /// Block j under a choice, from the expansion with plain literals in M. Term 0 is no product.
    fn chosen(&self, j: usize, plain: &[u8], choice: Choice) -> Chosen {
        let mut coefficients = [0; PLACES];
        for (place, &(t, _)) in self.terms[j].iter().enumerate() {
            coefficients[place] = plain[t];
        }
        with_polarities(self.class.k(), |place| choice[place], &mut coefficients);
        let constant = if j == 0 { std::mem::take(&mut coefficients[0]) } else { 0 };
        let terms = self.terms[j].iter().zip(coefficients);
        let cost = terms.map(|(&(_, literals), c)| Cost::of_term(literals, c)).sum();
        Chosen { choice, coefficients, cost, inverted: constant.into() }
    }

    /// The polarities of the places as they are compared: in the free class that of a term that is not used counts
    /// as 0.
    fn compared(&self, chosen: &Chosen) -> Choice {
        let mut polarities = chosen.choice;
        if let Class::Free(_) = self.class {
            let unused = |place: &usize| chosen.coefficients[*place] == 0;
            (0..PLACES).filter(unused).for_each(|place| polarities[place] = 0);
        }
        polarities
    }

    /// The least choice of each block: by cost, then by the mask, then by the polarities. The literals of a block are
    /// those of its terms, outside M too.
    fn least_choices(&self, family: Family, plain: &[u8]) -> Vec<Chosen> {
        let least = |j: usize| {
            let every = self.choices.iter().map(|&choice| self.chosen(j, plain, choice));
            let order = |one: &Chosen| (family.order(one.cost), one.inverted, self.compared(one));
            every.min_by_key(order).expect("there is a choice")
        };
        (0..self.terms.len()).map(least).collect()
    }

    /// The least expansion with this mixed set.
    fn least(&self, family: Family, expansions: &[Vec<u8>]) -> Expansion {
        let order = |&fixed: &usize| {
            let blocks = self.least_choices(family, &expansions[fixed]);
            let total = blocks.iter().map(|chosen| chosen.cost).sum();
            (family.order(total), blocks[0].inverted, fixed)
        };
        let fixed = fixed_polarities(self.n, self.mixed).min_by_key(order);
        let fixed = fixed.expect("there is a fixed polarity");
        self.expansion(fixed, &self.least_choices(family, &expansions[fixed]))
    }

    /// The expansion with this i and these blocks.
    fn expansion(&self, fixed: usize, blocks: &[Chosen]) -> Expansion {
        let Blocks { n, class, mixed, .. } = *self;
        let mut coefficients = vec![0; places(n)];
        let mut polarities = vec![0; class.polarities(n)];
        for (terms, chosen) in self.terms.iter().zip(blocks) {
            for (place, &(t, _)) in terms.iter().enumerate() {
                coefficients[t] = chosen.coefficients[place];
                polarities[class.polarity_of(n, mixed, t)] = chosen.choice[place];
            }
        }
        let member = Member { class, mixed, fixed, polarities };
        Expansion::new(n, member, coefficients, blocks[0].inverted as u8)
    }
}
