//! The two classes of expansions with mixed inputs, with inverters on the outputs, and their costs. The least
//! expansion that gives a table, in the order of a family, is searched in two ways: over every member and every
//! inversion mask, and block by block.

mod block_search;
mod every_member;

pub use block_search::least;
pub use every_member::{Members, masks, members_with};

use crate::calls::MinimiseAnswer;
use crate::evaluator::{
    Refusal, complemented, forward, holds, inputs, judge_bits, judge_lengths, judge_sizes,
    literals, number_of, places, value, with_polarities,
};
use crate::family::Family;
use std::iter::Sum;

/// A class of expansions with its k, the number of mixed inputs.
#[derive(Clone, Copy, Debug, PartialEq, Eq)]
pub enum Class {
    /// Document 01's class: the terms of a block share one polarity over M.
    Block(usize),
    /// Document 02's free class: "each term having its own polarities in M".
    Free(usize),
}

impl Class {
    /// The number of mixed inputs.
    pub fn k(self) -> usize {
        match self {
            Class::Block(k) | Class::Free(k) => k,
        }
    }

    /// The same class with another number of mixed inputs.
    pub fn with_k(self, k: usize) -> Self {
        match self {
            Class::Block(_) => Class::Block(k),
            Class::Free(_) => Class::Free(k),
        }
    }

    /// Whether n inputs have such a class. Document 01: "k is above 3 or above n" is refusal 4; document 02: "`f` with
    /// a digit above 2 or above n" is so too.
    pub fn allowed(self, n: usize) -> bool {
        let most = match self {
            Class::Block(_) => 3,
            Class::Free(_) => 2,
        };
        self.k() <= most.min(n)
    }

    /// Every class that n inputs have: the block class at each k, then the free class.
    pub fn every(n: usize) -> impl Iterator<Item = Class> {
        Class::every_block(n).chain(Class::every_free(n))
    }

    /// The block class at every k that n inputs have.
    pub fn every_block(n: usize) -> impl Iterator<Item = Class> {
        (0..=3).map(Class::Block).filter(move |class| class.allowed(n))
    }

    /// The free class at every k that n inputs have.
    pub fn every_free(n: usize) -> impl Iterator<Item = Class> {
        (0..=2).map(Class::Free).filter(move |class| class.allowed(n))
    }

    /// How many polarities over M a member has: one for each block, or one for each term.
    pub fn polarities(self, n: usize) -> usize {
        match self {
            Class::Block(k) => places(n - k),
            Class::Free(_) => places(n),
        }
    }

    /// Which of these polarities term t has: that of its block, the bits of t at the inputs outside M, closed up; or
    /// its own.
    pub fn polarity_of(self, n: usize, mixed: usize, t: usize) -> usize {
        match self {
            Class::Block(_) => closed_up(n, t, |i| !holds(mixed, i)),
            Class::Free(_) => t,
        }
    }
}

/// A member: the mixed set M, the fixed polarity i, and the polarities over M, with the bits at the inputs of M
/// closed up. In the block class there is one for each block, in the free class one for each term.
#[derive(Clone, Debug, PartialEq, Eq)]
pub struct Member {
    pub class: Class,
    pub mixed: usize,
    pub fixed: usize,
    pub polarities: Vec<usize>,
}

impl Member {
    /// The polarity of term t: outside M it follows i, in M the polarity that its block has, or its own.
    pub fn polarity(&self, n: usize, t: usize) -> usize {
        let inside = self.polarities[self.class.polarity_of(n, self.mixed, t)];
        let in_mixed = |i| {
            let place = inputs(n).filter(|&other| other < i && holds(self.mixed, other)).count();
            complemented(inside, place + 1)
        };
        number_of(
            n,
            |i| if holds(self.mixed, i) { in_mixed(i) } else { complemented(self.fixed, i) },
        )
    }

    /// The member as these coefficients show it. Document 02 of the free class: "then the least polarity of term 0, 1,
    /// and so on, unused ones zero". The polarity of a term that is not used counts as 0, and so does its bit at
    /// an input that the term has not.
    fn shown(mut self, n: usize, coefficients: &[u8]) -> Self {
        if let Class::Free(_) = self.class {
            for (t, polarity) in self.polarities.iter_mut().enumerate() {
                let used = if coefficients[t] == 0 { 0 } else { in_mixed_set(n, self.mixed, t) };
                *polarity &= used;
            }
        }
        self
    }
}

/// The bits of t at the inputs of M, closed up.
fn in_mixed_set(n: usize, mixed: usize, t: usize) -> usize {
    closed_up(n, t, |i| holds(mixed, i))
}

/// The bits of x at the chosen inputs, closed up, lowest first.
pub fn closed_up(n: usize, x: usize, chosen: impl Fn(usize) -> bool) -> usize {
    let kept: Vec<usize> = inputs(n).filter(|&i| chosen(i)).collect();
    number_of(kept.len(), |place| holds(x, kept[place - 1]))
}

/// The mixed sets of exactly k inputs, ascending.
pub fn mixed_sets(n: usize, k: usize) -> impl Iterator<Item = usize> {
    (0..places(n)).filter(move |&set| literals(n, set) == k)
}

/// The fixed polarities with the bits of M zero, ascending.
pub fn fixed_polarities(n: usize, mixed: usize) -> impl Iterator<Item = usize> {
    (0..places(n)).filter(move |&w| inputs(n).all(|i| !(holds(mixed, i) && complemented(w, i))))
}

/// Whether some member has this M and i.
pub fn is_of_a_member(n: usize, k: usize, mixed: usize, fixed: usize) -> bool {
    mixed_sets(n, k).any(|set| set == mixed) && fixed_polarities(n, mixed).any(|w| w == fixed)
}

/// What coefficients cost. A family compares costs (`Family::order`).
#[derive(Clone, Copy, Debug, Default, PartialEq, Eq)]
pub struct Cost {
    pub products: usize,
    pub literals: usize,
}

impl Cost {
    pub const fn new(products: usize, literals: usize) -> Self {
        Cost { products, literals }
    }

    /// The cost of a term with this many literals.
    pub fn of_term(literals: usize, coefficient: u8) -> Self {
        let products = usize::from(coefficient != 0);
        Cost { products, literals: products * literals }
    }
}

impl Sum for Cost {
    fn sum<I: Iterator<Item = Cost>>(costs: I) -> Cost {
        costs.fold(Cost::default(), |sum, cost| Cost {
            products: sum.products + cost.products,
            literals: sum.literals + cost.literals,
        })
    }
}

/// What the terms give at each point where the outputs of the mask are inverted afterwards.
pub fn before_inverters(table: &[u8], inverted: u8) -> Vec<u8> {
    table.iter().map(|byte| byte ^ inverted).collect()
}

/// M, i, products, literals, inversion mask.
pub type Figures = [usize; 5];

/// A member with coefficients, an inversion mask and what they cost. Document 02: "Output inverters are free."
#[derive(Clone, Debug, PartialEq, Eq)]
pub struct Expansion {
    pub member: Member,
    pub coefficients: Vec<u8>,
    /// The inversion mask, "bit o for output o".
    pub inverted: u8,
    pub cost: Cost,
}

impl Expansion {
    pub fn new(n: usize, member: Member, coefficients: Vec<u8>, inverted: u8) -> Self {
        let cost = (0..places(n)).map(|t| Cost::of_term(literals(n, t), coefficients[t])).sum();
        Expansion { member: member.shown(n, &coefficients), coefficients, inverted, cost }
    }

    /// This member and this mask with the coefficients that give the table.
    pub fn giving(n: usize, member: Member, inverted: u8, table: &[u8]) -> Self {
        let mut coefficients = forward(n, 0, &before_inverters(table, inverted));
        with_polarities(n, |t| member.polarity(n, t), &mut coefficients);
        Expansion::new(n, member, coefficients, inverted)
    }

    /// The table that this expansion gives, point by point: "An output is the exclusive OR of its terms, then
    /// inverted where marked".
    pub fn table(&self, n: usize) -> Vec<u8> {
        let polarities: Vec<usize> = (0..places(n)).map(|t| self.member.polarity(n, t)).collect();
        let terms = |p| value(n, |t| polarities[t], &self.coefficients, p);
        (0..places(n)).map(|p| terms(p) ^ self.inverted).collect()
    }

    pub fn figures(&self) -> Figures {
        let (Member { mixed, fixed, .. }, cost) = (&self.member, self.cost);
        [*mixed, *fixed, cost.products, cost.literals, self.inverted.into()]
    }

    /// What expansions are compared by before the polarities over M: the cost in the family's order; equal costs
    /// "go to the least mask, then to the least M, i and φj", and in the free class "by mask, M, i, then the least
    /// polarity of term 0, 1, and so on".
    pub fn order(&self, family: Family) -> ([usize; 2], u8, usize, usize) {
        (family.order(self.cost), self.inverted, self.member.mixed, self.member.fixed)
    }
}

/// The judgement of the minimising call: 2, 3, 4, 8, 9.
pub fn judge_minimise(
    n: usize,
    m: usize,
    k: usize,
    table: &[u8],
    coefficients_length: usize,
    blocks_length: usize,
) -> Result<(), Refusal> {
    judge_sizes(n, m)?;
    if !Class::Block(k).allowed(n) {
        return Err(Refusal::without_line(4));
    }
    let size = places(n);
    judge_lengths(&[
        (table.len(), size),
        (coefficients_length, size),
        (blocks_length, places(n - k)),
    ])?;
    judge_bits(m, table)
}

/// The numbers of the minimising call's answer: number, line, M, i, products, literals, the inversion mask.
pub fn minimise_answer(judged: Result<&Expansion, Refusal>) -> MinimiseAnswer {
    match judged {
        Ok(found) => {
            let [mixed, fixed, products, literals, inverted] =
                found.figures().map(|number| number as u64);
            [0, 0, mixed, fixed, products, literals, inverted]
        }
        Err(Refusal { number, line }) => [number, line, 0, 0, 0, 0, 0],
    }
}

#[cfg(test)]
mod tests {
    use super::*;
    use crate::seeded::Seeded;
    use crate::seeded::listings::{any_mask, any_member};
    use crate::seeded::tables::{any_table, every_table, table_of};
    use std::collections::BTreeMap;

    /// The two searches agree for both families, and what they find gives the table.
    fn agree(members: &Members, m: usize, table: &[u8]) {
        let Members { n, class, .. } = *members;
        for family in Family::ALL {
            let found = least(family, n, class, table);
            assert_eq!(
                found,
                members.least(family, m, table),
                "{family:?}, n = {n}, m = {m}, {class:?}, {table:?}"
            );
            assert_eq!(found.table(n), table);
        }
    }

    #[test]
    fn every_small_table() {
        for (n, m) in [(1, 1), (1, 2), (1, 3), (2, 1), (2, 2), (3, 1)] {
            for class in Class::every(n) {
                let members = Members::new(n, class);
                every_table(n, m).for_each(|table| agree(&members, m, &table));
            }
        }
    }

    #[test]
    fn drawn_tables() {
        let mut seeded = Seeded::new(1);
        for (n, rounds) in [(1, 40), (2, 40), (3, 300), (4, 20)] {
            for class in Class::every(n).filter(|&class| Members::few(n, class)) {
                let members = Members::new(n, class);
                for _ in 0..rounds.min(200_000 / members.count()) {
                    let m = seeded.within(1, members.most_outputs());
                    agree(&members, m, &any_table(&mut seeded, n, m));
                }
            }
        }
    }

    /// No member with any coefficients and any mask is before the least expansion of the table that it gives. Of
    /// those equal up to i, the least has the least polarity in each block, and in the free class the first
    /// polarities term by term.
    #[test]
    fn no_rival_is_before() {
        for (n, m) in [(1, 1), (1, 2), (2, 1), (2, 2)] {
            for class in Class::every(n) {
                let answers =
                    |table: &Vec<u8>| Family::ALL.map(|family| least(family, n, class, table));
                let found: BTreeMap<Vec<u8>, [Expansion; 2]> =
                    every_table(n, m).map(|table| (table.clone(), answers(&table))).collect();
                every_rival(n, m, class, |rival| {
                    for (family, first) in Family::ALL.into_iter().zip(&found[&rival.table(n)]) {
                        let [ours, theirs] = [first, &rival].map(|e| e.order(family));
                        let tied = ours == theirs && not_after(&first.member, &rival.member);
                        assert!(ours < theirs || tied, "{rival:?}");
                    }
                });
            }
        }
    }

    /// Whether one member's polarities over M are not after another's: in each block, or in the order of the terms.
    fn not_after(one: &Member, other: &Member) -> bool {
        let [ours, theirs] = [one, other].map(|member| &member.polarities);
        match one.class {
            Class::Block(_) => ours.iter().zip(theirs).all(|(ours, theirs)| ours <= theirs),
            Class::Free(_) => ours <= theirs,
        }
    }

    /// Every member with every coefficients and every mask.
    fn every_rival(n: usize, m: usize, class: Class, try_one: impl Fn(Expansion)) {
        let of_set = |mixed| fixed_polarities(n, mixed).map(move |fixed| (mixed, fixed));
        for (mixed, fixed) in mixed_sets(n, class.k()).flat_map(of_set) {
            for member in members_with(n, class, mixed, fixed) {
                for (c, mask) in
                    every_table(n, m).flat_map(|c| masks(m).map(move |v| (c.clone(), v)))
                {
                    try_one(Expansion::new(n, member.clone(), c, mask));
                }
            }
        }
    }

    /// The outputs of a table inverted by themselves: it costs the same, and the least mask decides again.
    #[test]
    fn inverted_tables() {
        let mut seeded = Seeded::new(9);
        for round in 0..60 {
            let n = 2 + round % 2;
            let classes: Vec<Class> = Class::every(n).collect();
            let (m, class) = (seeded.within(1, 2), *seeded.pick(&classes));
            let (members, table) = (Members::new(n, class), any_table(&mut seeded, n, m));
            let costs = masks(m).map(|mask| {
                let inverted = before_inverters(&table, mask);
                agree(&members, m, &inverted);
                least(Family::One, n, class, &inverted).cost
            });
            let costs: Vec<Cost> = costs.collect();
            assert!(costs.iter().all(|cost| *cost == costs[0]), "{table:?}: {costs:?}");
        }
    }

    /// Document 02: "all one costs nothing", and so does every constant.
    #[test]
    fn constant_tables() {
        for (n, m) in [(1, 1), (2, 3), (3, 8), (4, 2), (5, 8), (6, 5), (7, 1), (8, 8)] {
            for byte in [0, 255, 0b1010_0110] {
                let table = table_of(n, m, |_| byte);
                for (family, class) in
                    Family::ALL.into_iter().flat_map(|f| Class::every(n).map(move |c| (f, c)))
                {
                    let found = least(family, n, class, &table);
                    let mixed = places(class.k()) - 1;
                    assert_eq!(found.order(family), ([0, 0], table[0], mixed, 0));
                    assert!(found.member.polarities.iter().all(|&polarity| polarity == 0));
                }
            }
        }
    }

    #[test]
    fn any_member_gives_the_table() {
        let mut seeded = Seeded::new(3);
        for round in 0..200 {
            let n = 1 + round % 8;
            for class in Class::every(n) {
                let m = seeded.within(1, 8);
                let table = any_table(&mut seeded, n, m);
                let (member, mask) = (any_member(&mut seeded, n, class), any_mask(&mut seeded, m));
                assert_eq!(Expansion::giving(n, member, mask, &table).table(n), table);
            }
        }
    }

    #[test]
    fn found_expansions_give_the_table() {
        let mut seeded = Seeded::new(2);
        for n in 5..=8 {
            for class in Class::every(n) {
                let table = any_table(&mut seeded, n, 8);
                for family in Family::ALL {
                    assert_eq!(least(family, n, class, &table).table(n), table);
                }
            }
        }
    }

    /// With at most one mixed input a block has one literal in M, so the two classes have the same expansions.
    #[test]
    fn classes_alike() {
        let mut seeded = Seeded::new(8);
        for n in 1..=8 {
            for k in [0, 1] {
                let m = seeded.within(1, 8);
                let table = any_table(&mut seeded, n, m);
                for family in Family::ALL {
                    let [block, free] =
                        [Class::Block(k), Class::Free(k)].map(|c| least(family, n, c, &table));
                    assert_eq!(block.order(family), free.order(family));
                    assert_eq!(block.coefficients, free.coefficients);
                    let polarities = |e: &Expansion, t| {
                        if e.coefficients[t] == 0 { 0 } else { t & e.member.polarity(n, t) }
                    };
                    assert!((0..places(n)).all(|t| polarities(&block, t) == polarities(&free, t)));
                }
            }
        }
    }

    /// "For tables with n of 2 or more `f2` never costs more than `f1`, nor `f1` more than `f0`"; and where k is the
    /// same, the free class never costs more than the block class.
    #[test]
    fn more_freedom_is_no_dearer() {
        let mut seeded = Seeded::new(10);
        for round in 0..48 {
            let n = 1 + round % 8;
            let m = seeded.within(1, 8);
            let table = any_table(&mut seeded, n, m);
            for family in Family::ALL {
                let cost = |class| least(family, n, class, &table).cost;
                let free: Vec<Cost> = Class::every_free(n).map(cost).collect();
                assert!(free.windows(2).all(|pair| family.no_dearer(pair[1], pair[0])), "{free:?}");
                let mut both = Class::every_block(n).map(cost).zip(&free);
                assert!(both.all(|(block, free)| family.no_dearer(*free, block)));
            }
        }
    }
}
