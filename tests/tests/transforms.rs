//! The forward and the backward call against the evaluator.

use outside_cases::calls::{self, TransformAnswer};
use outside_cases::evaluator::{self, judge_transform, places};
use outside_cases::lent::{Lent, answer};
use outside_cases::seeded::tables::{any_table, every_table, output_bits, random_table, table_of};
use outside_cases::seeded::{OUT_OF_RANGE, Seeded};

type Call = fn(usize, usize, usize, &[u8], &mut [u8], &mut TransformAnswer);

/// One of the two calls beside its meaning.
struct Direction {
    call: Call,
    meaning: fn(usize, usize, &[u8]) -> Vec<u8>,
}

const FORWARD: Direction = Direction { call: calls::forward, meaning: evaluator::forward };
const BACKWARD: Direction = Direction { call: calls::backward, meaning: evaluator::backward };
const BOTH: [Direction; 2] = [FORWARD, BACKWARD];

/// The numbers given to a call.
#[derive(Clone, Copy, Debug)]
struct Numbers {
    n: usize,
    m: usize,
    w: usize,
}

/// Makes the call with margins around every buffer. Gives the answer and the filled buffer.
fn run(call: Call, numbers: Numbers, given: &[u8], lent: &[u8]) -> (TransformAnswer, Lent<u8>) {
    let Numbers { n, m, w } = numbers;
    let given = Lent::new(given);
    let mut filled = Lent::new(lent);
    let answer = answer(|places| call(n, m, w, given.inside(), filled.inside_mut(), places));
    given.check_untouched();
    filled.check_margins();
    (answer, filled)
}

/// Compares one call with the judgement and the meaning.
fn check(direction: &Direction, numbers: Numbers, given: &[u8], lent: &[u8]) {
    let Numbers { n, m, w } = numbers;
    let (answer, filled) = run(direction.call, numbers, given, lent);
    match judge_transform(n, m, w, given, lent.len()) {
        Ok(()) => {
            assert_eq!(answer, [0, 0], "{numbers:?}");
            assert_eq!(filled.inside(), (direction.meaning)(n, w, given), "{numbers:?} {given:?}");
        }
        Err(refusal) => {
            assert_eq!(answer, [refusal.number, refusal.line], "{numbers:?} of {}", given.len());
            filled.check_untouched();
        }
    }
}

/// OR of two inputs: the terms under each polarity.
#[test]
fn marked_or() {
    for (w, terms) in [(0, vec![1, 2, 3]), (1, vec![0, 1, 3]), (2, vec![0, 2, 3]), (3, vec![0, 3])]
    {
        let (answer, c) = run(FORWARD.call, Numbers { n: 2, m: 1, w }, &[0, 1, 1, 1], &[255; 4]);
        assert_eq!(answer, [0, 0]);
        let c = c.inside();
        assert_eq!((0..4).filter(|&t| c[t] != 0).collect::<Vec<usize>>(), terms, "w = {w}");
    }
}

/// Marked entries of the block table: three inputs, one output, a function and its coefficients as bits.
#[test]
fn marked_block_entries() {
    for (g, phi, entry) in [(150, 0, 22), (150, 7, 23), (136, 0, 8), (12, 5, 64)] {
        let table = table_of(3, 1, |p| g >> p);
        let (answer, c) = run(FORWARD.call, Numbers { n: 3, m: 1, w: phi }, &table, &[255; 8]);
        assert_eq!(answer, [0, 0]);
        let bits = c.inside().iter().enumerate().map(|(t, &c)| c << t);
        assert_eq!(bits.sum::<u8>(), entry, "entry ({g}, {phi})");
    }
}

#[test]
fn every_small_table() {
    let mut seeded = Seeded::new(1);
    for (n, m) in [(1, 1), (1, 2), (2, 1), (2, 2)] {
        for table in every_table(n, m) {
            for w in 0..places(n) {
                for direction in &BOTH {
                    check(direction, Numbers { n, m, w }, &table, &seeded.bytes(places(n)));
                }
            }
        }
    }
}

#[test]
fn every_size_and_polarity() {
    let mut seeded = Seeded::new(2);
    for n in 1..=8 {
        for w in 0..places(n) {
            for m in (1..=8).filter(|m| n <= 5 || (w + m) % 4 == 0) {
                let given = any_table(&mut seeded, n, m);
                for direction in &BOTH {
                    check(direction, Numbers { n, m, w }, &given, &seeded.bytes(places(n)));
                }
            }
        }
    }
}

/// A single bit set in the given bytes reaches exactly the right places.
#[test]
fn single_bits() {
    let mut seeded = Seeded::new(3);
    for n in 1..=6 {
        for place in 0..places(n) {
            let (m, w) = (seeded.within(1, 8), seeded.below(places(n)));
            let mut given = vec![0; places(n)];
            given[place] = 1 << seeded.below(m);
            for direction in &BOTH {
                check(direction, Numbers { n, m, w }, &given, &seeded.bytes(places(n)));
            }
        }
    }
}

/// Each call undoes the other under the same polarity.
#[test]
fn inverse() {
    let mut seeded = Seeded::new(4);
    for round in 0..3000 {
        let n = 1 + round % 8;
        let numbers = Numbers { n, m: seeded.within(1, 8), w: seeded.below(places(n)) };
        let given = any_table(&mut seeded, n, numbers.m);
        for (first, second) in [(&FORWARD, &BACKWARD), (&BACKWARD, &FORWARD)] {
            let (_, between) = run(first.call, numbers, &given, &seeded.bytes(places(n)));
            let (answer, back) =
                run(second.call, numbers, between.inside(), &seeded.bytes(places(n)));
            assert_eq!(answer, [0, 0], "{numbers:?}");
            assert_eq!(back.inside(), given, "{numbers:?}");
        }
    }
}

#[test]
fn sizes_out_of_range() {
    let mut seeded = Seeded::new(5);
    for bad in OUT_OF_RANGE {
        for good in 1..=8 {
            for (n, m) in [(bad, good), (good, bad), (bad, bad)] {
                for w in [0, 1, usize::MAX] {
                    let length = if n == good { places(n) } else { 4 };
                    let given = random_table(&mut seeded, 8, 1)[..length].to_vec();
                    for direction in &BOTH {
                        check(direction, Numbers { n, m, w }, &given, &seeded.bytes(length));
                    }
                }
            }
        }
    }
}

#[test]
fn polarities_out_of_range() {
    let mut seeded = Seeded::new(6);
    for n in 1..=8 {
        let size = places(n);
        let bad = [size, size + 1, 2 * size - 1, 256, 257, 1 << 16, 1 << 32, 1 << 63, usize::MAX];
        for w in bad.into_iter().chain([size - 1]) {
            for m in 1..=8 {
                let given = random_table(&mut seeded, n, m);
                for direction in &BOTH {
                    check(direction, Numbers { n, m, w }, &given, &seeded.bytes(size));
                }
            }
        }
    }
}

/// Lengths beside the right one, for either buffer and for both.
#[test]
fn lengths() {
    let mut seeded = Seeded::new(7);
    for n in 1..=8 {
        let size = places(n);
        let lengths = [size, 0, 1, size - 1, size + 1, size / 2, size * 2, 256, 300];
        for given_length in lengths {
            for filled_length in lengths {
                let numbers = Numbers { n, m: seeded.within(1, 8), w: seeded.below(size) };
                let given = vec![seeded.byte() & output_bits(numbers.m); given_length];
                for direction in &BOTH {
                    check(direction, numbers, &given, &seeded.bytes(filled_length));
                }
            }
        }
    }
}

/// One bit at m or above, at any place.
#[test]
fn stray_bits() {
    let mut seeded = Seeded::new(8);
    for n in 1..=8 {
        for m in 1..=7 {
            let drawn = seeded.below(places(n));
            for place in [0, places(n) - 1, drawn] {
                for bit in m..8 {
                    let mut given = random_table(&mut seeded, n, m);
                    given[place] |= 1 << bit;
                    let numbers = Numbers { n, m, w: seeded.below(places(n)) };
                    for direction in &BOTH {
                        check(direction, numbers, &given, &seeded.bytes(places(n)));
                    }
                }
            }
        }
    }
}

/// Several faults at once: the first in the order 2, 3, 7, 8, 9 is returned.
#[test]
fn first_refusal() {
    let mut seeded = Seeded::new(9);
    for faults in 0..64usize {
        let has = |fault: usize| faults >> fault & 1 == 1;
        for _ in 0..40 {
            let good = seeded.within(1, 8);
            let n = if has(0) { *seeded.pick(&OUT_OF_RANGE) } else { good };
            let m = if has(1) { *seeded.pick(&OUT_OF_RANGE) } else { seeded.within(1, 7) };
            let w =
                if has(2) { places(good) << seeded.below(40) } else { seeded.below(places(good)) };
            let given_length = if has(3) { places(good) + 1 } else { places(good) };
            let filled_length = if has(4) { places(good) - 1 } else { places(good) };
            let stray = if has(5) { 128 } else { 0 };
            let given = vec![stray | (seeded.byte() & 1); given_length];
            for direction in &BOTH {
                check(direction, Numbers { n, m, w }, &given, &seeded.bytes(filled_length));
            }
        }
    }
}
