//! The least expansion over every member of a class and every inversion mask, with the coefficients found by
//! elimination.

use super::{
    Class, Expansion, Member, before_inverters, fixed_polarities, in_mixed_set, is_of_a_member,
    mixed_sets,
};
use crate::elimination::{Solved, eliminate};
use crate::evaluator::{places, term_true};
use crate::family::Family;

/// Every member of a class for n inputs, each solved by elimination (n up to 4, and up to 3 for `f2`).
pub struct Members {
    pub n: usize,
    pub class: Class,
    solved: Vec<(Member, Solved)>,
}

impl Members {
    pub fn new(n: usize, class: Class) -> Self {
        assert!(Members::few(n, class), "n = {n}, {class:?}");
        let solve = |member: Member| (member.clone(), solve(n, &member));
        let solved = members(n, class).into_iter().map(solve).collect();
        Members { n, class, solved }
    }

    /// Whether the members are few enough to try them all. `f2` of four inputs has 1,572,864 of them.
    pub fn few(n: usize, class: Class) -> bool {
        n < 4 || (n == 4 && class != Class::Free(2))
    }

    /// How many members there are.
    pub fn count(&self) -> usize {
        self.solved.len()
    }

    /// With how many outputs every mask is tried: there are 2^m of them for each member.
    pub fn most_outputs(&self) -> usize {
        [8, 8, 4, 2][self.n - 1]
    }

    /// The expansions that give the table of m outputs: of each member one with each mask. "Correctness is
    /// measured after the inverter, and rivals may choose inverters too."
    pub fn rivals(&self, m: usize, table: &[u8]) -> impl Iterator<Item = Expansion> {
        assert!(m <= self.most_outputs(), "n = {}, m = {m}", self.n);
        let wanted: Vec<(u8, Vec<u8>)> =
            masks(m).map(|mask| (mask, before_inverters(table, mask))).collect();
        self.solved.iter().flat_map(move |(member, solved)| {
            let expansion = |(mask, wanted): &(u8, Vec<u8>)| {
                Expansion::new(self.n, member.clone(), solved.coefficients(wanted), *mask)
            };
            wanted.iter().map(expansion).collect::<Vec<Expansion>>()
        })
    }

    /// The first of them: in the family's order, then by the least mask, then least M, then least i, then the least
    /// polarities over M.
    pub fn least(&self, family: Family, m: usize, table: &[u8]) -> Expansion {
        let mut tied: Vec<Expansion> = Vec::new();
        for rival in self.rivals(m, table) {
            let order = rival.order(family);
            if tied.first().is_some_and(|first| order < first.order(family)) {
                tied.clear();
            }
            if tied.first().is_none_or(|first| order == first.order(family)) {
                tied.push(rival);
            }
        }
        match self.class {
            Class::Block(_) => least_blocks(tied),
            Class::Free(_) => least_terms(tied),
        }
    }
}

/// Every inversion mask of m outputs, ascending.
pub fn masks(m: usize) -> impl Iterator<Item = u8> {
    0..=((1u16 << m) - 1) as u8
}

fn solve(n: usize, member: &Member) -> Solved {
    let polarities: Vec<usize> = (0..places(n)).map(|t| member.polarity(n, t)).collect();
    eliminate(places(n), |t, p| term_true(n, t, polarities[t], p))
}

/// Of expansions that differ in the block polarities only: the one that is least in each block.
fn least_blocks(tied: Vec<Expansion>) -> Expansion {
    let blocks = 0..tied[0].member.polarities.len();
    let least = |j| tied.iter().map(|e| e.member.polarities[j]).min().expect("some are tied");
    let wanted: Vec<usize> = blocks.map(least).collect();
    let found = tied.into_iter().find(|e| e.member.polarities == wanted);
    found.expect("the least polarities of the blocks stand together in a member")
}

/// Of expansions that differ in the terms' polarities only: the one with "the least polarity of term 0, 1, and so
/// on".
fn least_terms(tied: Vec<Expansion>) -> Expansion {
    let first =
        |one: &Expansion, other: &Expansion| one.member.polarities.cmp(&other.member.polarities);
    tied.into_iter().min_by(first).expect("some are tied")
}

fn members(n: usize, class: Class) -> Vec<Member> {
    let of_set = |mixed| fixed_polarities(n, mixed).map(move |fixed| (mixed, fixed));
    let pairs = mixed_sets(n, class.k()).flat_map(of_set);
    pairs.flat_map(|(mixed, fixed)| members_with(n, class, mixed, fixed)).collect()
}

/// Every member with this M and i, none where no member has them (n up to 4, and up to 3 for `f2`).
pub fn members_with(n: usize, class: Class, mixed: usize, fixed: usize) -> Vec<Member> {
    if !is_of_a_member(n, class.k(), mixed, fixed) {
        return Vec::new();
    }
    let member = |polarities| Member { class, mixed, fixed, polarities };
    every_list(&polarity_choices(n, class, mixed)).into_iter().map(member).collect()
}

/// What each polarity over M can be, ascending. A block can have any. A term is written with 0 at the inputs that it
/// has not.
fn polarity_choices(n: usize, class: Class, mixed: usize) -> Vec<Vec<usize>> {
    let any = 0..places(class.k());
    match class {
        Class::Block(_) => vec![any.collect(); class.polarities(n)],
        Class::Free(_) => {
            let within = |own| any.clone().filter(move |polarity| polarity & own == *polarity);
            let of_term = |t| within(in_mixed_set(n, mixed, t)).collect();
            (0..places(n)).map(of_term).collect()
        }
    }
}

/// Every list with one of the choices at each place, ascending.
fn every_list(choices: &[Vec<usize>]) -> Vec<Vec<usize>> {
    let longer = |lists: Vec<Vec<usize>>, last: &Vec<usize>| {
        let with = |list: Vec<usize>| last.iter().map(move |&x| [&list[..], &[x]].concat());
        lists.into_iter().flat_map(with).collect()
    };
    choices.iter().fold(vec![Vec::new()], longer)
}
