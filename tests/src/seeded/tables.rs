//! Tables: drawn at every bit, mostly zero, or with a rule behind them.

use super::Seeded;
use crate::evaluator::{holds, inputs, literals, places, term_true};

/// The bits of m outputs.
pub fn output_bits(m: usize) -> u8 {
    (0..m).map(|o| 1u8 << o).sum()
}

/// A table of m outputs whose byte p is `byte(p)` without the bits at m and above.
pub fn table_of(n: usize, m: usize, mut byte: impl FnMut(usize) -> u8) -> Vec<u8> {
    (0..places(n)).map(|p| byte(p) & output_bits(m)).collect()
}

/// Every table of n inputs and m outputs (m * 2^n below 32).
pub fn every_table(n: usize, m: usize) -> impl Iterator<Item = Vec<u8>> {
    (0..1usize << (m * places(n))).map(move |number| table_of(n, m, |p| (number >> (p * m)) as u8))
}

/// A table with every bit drawn.
pub fn random_table(seeded: &mut Seeded, n: usize, m: usize) -> Vec<u8> {
    table_of(n, m, |_| seeded.byte())
}

/// A table that is zero at most points.
pub fn sparse_table(seeded: &mut Seeded, n: usize, m: usize) -> Vec<u8> {
    table_of(n, m, |_| if seeded.once_in(12) { seeded.byte() } else { 0 })
}

/// A table with a rule behind it: see `STRUCTURES`.
pub fn structured_table(seeded: &mut Seeded, n: usize, m: usize) -> Vec<u8> {
    let structure = seeded.pick(&STRUCTURES);
    structure(seeded, n, m)
}

/// A table of any of the three sorts.
pub fn any_table(seeded: &mut Seeded, n: usize, m: usize) -> Vec<u8> {
    let maker = *seeded.pick(&[random_table, sparse_table, structured_table]);
    maker(seeded, n, m)
}

/// A table with each bit 1 once in `odds` draws.
pub fn bits_table(seeded: &mut Seeded, n: usize, m: usize, odds: usize) -> Vec<u8> {
    table_of(n, m, |_| (0..m).map(|o| u8::from(seeded.once_in(odds)) << o).sum())
}

/// A table whose outputs share products: each is the exclusive OR of some of at most three functions, inverted or
/// not.
pub fn combined_table(seeded: &mut Seeded, n: usize, m: usize) -> Vec<u8> {
    let few = seeded.within(1, 3);
    let functions = any_table(seeded, n, few);
    let combined: Vec<u8> = (0..m).map(|_| seeded.byte() & output_bits(few)).collect();
    let inverted = seeded.byte();
    let output = |p: usize, o: usize| (functions[p] & combined[o]).count_ones() as u8 % 2;
    table_of(n, m, |p| inverted ^ (0..m).map(|o| output(p, o) << o).sum::<u8>())
}

/// A table of n inputs and m outputs, drawn.
pub type Maker = fn(&mut Seeded, usize, usize) -> Vec<u8>;

const STRUCTURES: [Maker; 8] = [
    |_, n, m| table_of(n, m, |_| 0),
    |_, n, m| table_of(n, m, |_| 255),
    |_, n, m| table_of(n, m, |p| p as u8),
    |_, n, m| table_of(n, m, |p| (p % 16 + p / 16) as u8),
    |_, n, m| table_of(n, m, |p| literals(n, p) as u8),
    |seeded, n, m| {
        let point = seeded.below(places(n));
        table_of(n, m, |p| if p == point { 255 } else { 0 })
    },
    parities,
    few_cubes,
];

/// Each output is the parity of some inputs, complemented or not.
fn parities(seeded: &mut Seeded, n: usize, m: usize) -> Vec<u8> {
    let chosen: Vec<usize> = (0..m).map(|_| seeded.below(places(n))).collect();
    let flipped = seeded.byte();
    let parity =
        |p: usize, set: usize| inputs(n).filter(|&i| holds(p, i) && holds(set, i)).count() % 2;
    table_of(n, m, |p| flipped ^ (0..m).map(|o| (parity(p, chosen[o]) as u8) << o).sum::<u8>())
}

/// The exclusive OR of a few cubes with outputs of their own.
fn few_cubes(seeded: &mut Seeded, n: usize, m: usize) -> Vec<u8> {
    let cubes: Vec<(usize, usize, u8)> = (0..seeded.within(1, 5))
        .map(|_| (seeded.below(places(n)), seeded.below(places(n)), seeded.byte()))
        .collect();
    table_of(n, m, |p| {
        let at = cubes.iter().filter(|&&(t, w, _)| term_true(n, t, w, p));
        at.fold(0, |sum, cube| sum ^ cube.2)
    })
}

/// A byte times 2^power, in the field of 256 elements where 2^8 is 29.
fn times_power_of_2(byte: u8, power: usize) -> u8 {
    let doubled = |byte: u8| (byte << 1) ^ if byte < 128 { 0 } else { 29 };
    (0..power).fold(byte, |byte, _| doubled(byte))
}

/// A table of eight inputs and outputs whose listings are the longest, but at `f2`. Byte p is a product of one factor
/// for each input, in the field of 256 elements: 2 where the input is 0 and 1 where it is 1. A coefficient is then a
/// product of factors 1, 2 and 1 + 2, and never 0: a Kronecker expansion has all 256 products, and a member of the
/// class all but the constant, which is the mask. The constant's coefficient is the byte at the point that its
/// polarities name, so the least mask is the 1 at point 255: M is 2^k - 1, and i has all other inputs, a number
/// of three digits.
pub fn longest_listing_table() -> Vec<u8> {
    table_of(8, 8, |p| times_power_of_2(1, 8 - literals(8, p)))
}

/// A table of eight inputs and outputs whose listings at `f2` are the longest: M has three digits too. The rule is the
/// same but for x8, whose factors are 4 where it is 0 and 3 where it is 1. In the free class the constant's
/// coefficient can also be the exclusive OR of three of the four bytes of a block. With x1 and x8 mixed and all others
/// complemented these bytes are 8, 4, 6 and 3, so the mask can be 4 + 6 + 3 = 1. Where x8 is not mixed, the mask is 1 or
/// 7 times a power of 2, times 4 or 3, and never 1: M is 129 and i is 126.
pub fn longest_free_listing_table() -> Vec<u8> {
    let factor = |p| if holds(p, 8) { 3 } else { 4 };
    table_of(8, 8, |p| times_power_of_2(factor(p), 7 - literals(7, p)))
}
