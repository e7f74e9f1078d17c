//! Times the forward call on tables of eight inputs beside a butterfly written here.
//! Prints nanoseconds for each and their ratio, the best of several repeats.

use outside_cases::calls::{self, TransformAnswer};
use outside_cases::seeded::Seeded;
use outside_cases::timing::side_by_side;
use std::hint::black_box;

const SIZE: usize = 256;

type Call = fn(usize, usize, usize, &[u8], &mut [u8], &mut TransformAnswer);

/// The number of the first refusal, or 0: the checks that the call makes too.
fn refusal(n: usize, m: usize, w: usize, table: &[u8], filled: usize) -> u64 {
    if !(1..=8).contains(&n) {
        return 2;
    }
    if !(1..=8).contains(&m) {
        return 3;
    }
    if w >> n != 0 {
        return 7;
    }
    if table.len() != 1 << n || filled != 1 << n {
        return 8;
    }
    let used = table.iter().fold(0, |union, byte| union | byte);
    if usize::from(used) >> m != 0 { 9 } else { 0 }
}

/// One step for each input, in place; the polarity's bit says which cofactor is kept.
fn butterfly(
    n: usize,
    m: usize,
    w: usize,
    table: &[u8],
    coefficients: &mut [u8],
    answer: &mut TransformAnswer,
) {
    *answer = [refusal(n, m, w, table, coefficients.len()), 0];
    if answer[0] != 0 {
        return;
    }
    coefficients.copy_from_slice(table);
    for input in 0..n {
        let half = 1 << input;
        let complemented = w >> input & 1 == 1;
        for pair in coefficients.chunks_exact_mut(2 * half) {
            let (low, high) = pair.split_at_mut(half);
            step(low, high, complemented);
        }
    }
}

/// The two cofactors become the one where the literal is false, and their exclusive OR.
fn step(low: &mut [u8], high: &mut [u8], complemented: bool) {
    for (low, high) in low.iter_mut().zip(high) {
        let sum = *low ^ *high;
        *low = if complemented { *high } else { *low };
        *high = sum;
    }
}

/// One call on the table. The compiler cannot know its arguments nor drop what it fills.
fn work(call: Call, w: usize, table: &[u8]) -> impl FnMut() + use<'_> {
    let (mut coefficients, mut answer) = ([0; SIZE], [0; 2]);
    move || {
        let (table, filled) = (black_box(table), black_box(&mut coefficients));
        call(8, 8, black_box(w), table, filled, black_box(&mut answer));
    }
}

fn main() {
    let table = Seeded::new(1).bytes(SIZE);
    let (mut ours, mut theirs, mut answer) = ([0; SIZE], [0; SIZE], [0; 2]);
    println!("forward, n = 8, m = 8: nanoseconds, butterfly in Rust, ratio");
    for w in [0, 1, 128, 85, 170, 254, 255] {
        calls::forward(8, 8, w, &table, &mut ours, &mut answer);
        butterfly(8, 8, w, &table, &mut theirs, &mut answer);
        assert_eq!(ours, theirs, "the two disagree at w = {w}");
        let works: [&mut dyn FnMut(); 2] =
            [&mut work(calls::forward, w, &table), &mut work(butterfly, w, &table)];
        let [call, rust] = side_by_side(200, 2000, works);
        println!("w = {w:3}\t{:8.1}\t{:8.1}\t{:6.2}", call * 1e9, rust * 1e9, call / rust);
    }
}
