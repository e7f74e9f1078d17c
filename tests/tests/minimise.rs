//! The minimising call, which keeps to family one and to the block class, against both searches of the class.

use outside_cases::calls::{self, MinimiseAnswer};
use outside_cases::class::{
    Class, Cost, Expansion, Members, judge_minimise, least, minimise_answer,
};
use outside_cases::evaluator::{literals, places};
use outside_cases::family::Family;
use outside_cases::lent::{Lent, answer};
use outside_cases::marked::families::{COMPARED, Compared, OUTPUTS};
use outside_cases::marked::{DESIGNS, Marked};
use outside_cases::seeded::tables::{
    any_table, every_table, output_bits, random_table, sparse_table, structured_table, table_of,
};
use outside_cases::seeded::{OUT_OF_RANGE, Seeded};

/// The numbers given to the call.
#[derive(Clone, Copy, Debug)]
struct Numbers {
    n: usize,
    m: usize,
    k: usize,
}

/// What the call left behind.
struct Outcome {
    answer: MinimiseAnswer,
    coefficients: Lent<u8>,
    blocks: Lent<u8>,
}

/// Makes the call with margins around every buffer.
fn run(numbers: Numbers, table: &[u8], coefficients: &[u8], blocks: &[u8]) -> Outcome {
    let Numbers { n, m, k } = numbers;
    let table = Lent::new(table);
    let mut coefficients = Lent::new(coefficients);
    let mut blocks = Lent::new(blocks);
    let answer = answer(|places| {
        let filled = (coefficients.inside_mut(), blocks.inside_mut());
        calls::minimise(n, m, k, table.inside(), filled.0, filled.1, places)
    });
    table.check_untouched();
    coefficients.check_margins();
    blocks.check_margins();
    Outcome { answer, coefficients, blocks }
}

/// A call with buffers of the stated lengths, which hold drawn bytes.
fn run_sound(seeded: &mut Seeded, numbers: Numbers, table: &[u8]) -> Outcome {
    let size = places(numbers.n);
    let (coefficients, blocks) = (seeded.bytes(size), seeded.bytes(places(numbers.n - numbers.k)));
    run(numbers, table, &coefficients, &blocks)
}

/// Compares an outcome with the expansion that the call should find.
fn check_found(numbers: Numbers, table: &[u8], outcome: &Outcome, wanted: &Expansion) {
    assert_eq!(outcome.answer, minimise_answer(Ok(wanted)), "{numbers:?} {table:?}");
    let blocks: Vec<usize> = outcome.blocks.inside().iter().copied().map(usize::from).collect();
    assert_eq!(blocks, wanted.member.polarities, "{numbers:?} {table:?}");
    assert_eq!(outcome.coefficients.inside(), wanted.coefficients, "{numbers:?} {table:?}");
}

/// One sound design against the search block by block, and at every point.
fn check_design(seeded: &mut Seeded, numbers: Numbers, table: &[u8]) -> Expansion {
    let wanted = least(Family::One, numbers.n, Class::Block(numbers.k), table);
    assert_eq!(wanted.table(numbers.n), table);
    check_found(numbers, table, &run_sound(seeded, numbers, table), &wanted);
    wanted
}

#[test]
fn every_small_table() {
    let mut seeded = Seeded::new(21);
    for (n, m) in [(1, 1), (1, 2), (2, 1), (2, 2), (3, 1)] {
        for k in 0..=n {
            let (members, numbers) = (Members::new(n, Class::Block(k)), Numbers { n, m, k });
            for table in every_table(n, m) {
                let outcome = run_sound(&mut seeded, numbers, &table);
                check_found(numbers, &table, &outcome, &members.least(Family::One, m, &table));
            }
        }
    }
}

/// Drawn tables of up to four inputs against every member of the class with every inversion mask.
#[test]
fn against_every_member() {
    let mut seeded = Seeded::new(22);
    for (n, rounds) in [(1, 60), (2, 60), (3, 400), (4, 25)] {
        for k in 0..=n.min(3) {
            let members = Members::new(n, Class::Block(k));
            for _ in 0..rounds {
                let m = seeded.within(1, members.most_outputs());
                let (numbers, table) = (Numbers { n, m, k }, any_table(&mut seeded, n, m));
                let outcome = run_sound(&mut seeded, numbers, &table);
                check_found(numbers, &table, &outcome, &members.least(Family::One, m, &table));
            }
        }
    }
}

/// Tables of every size against the search block by block.
#[test]
fn every_size() {
    let mut seeded = Seeded::new(23);
    for n in 1..=8usize {
        for k in 0..=n.min(3) {
            for m in 1..=8 {
                for _ in 0..1 + 24 / places(n) {
                    for maker in [random_table, sparse_table, structured_table] {
                        let table = maker(&mut seeded, n, m);
                        check_design(&mut seeded, Numbers { n, m, k }, &table);
                    }
                }
            }
        }
    }
}

/// Tables that ignore inputs: many members cost the same there, so that ties decide.
#[test]
fn ties() {
    let mut seeded = Seeded::new(24);
    for round in 0..400 {
        let n = 2 + round % 5;
        let numbers = Numbers { n, m: seeded.within(1, 8), k: seeded.below(n.min(3) + 1) };
        let seen = seeded.below(places(n));
        let bytes = seeded.bytes(places(n));
        let table = table_of(n, numbers.m, |p| bytes[p & seen]);
        check_design(&mut seeded, numbers, &table);
    }
}

#[test]
fn marked_designs() {
    let mut seeded = Seeded::new(25);
    for Marked { n, m, k, table, figures } in DESIGNS {
        let numbers = Numbers { n, m, k };
        let outcome = run_sound(&mut seeded, numbers, table);
        assert_eq!(outcome.answer[..2], [0, 0]);
        assert_eq!(outcome.answer[2..], figures, "{numbers:?} {table:?}");
        check_design(&mut seeded, numbers, table);
    }
}

/// The designs on which the families choose differently: the call answers as family one does.
#[test]
fn compared_designs() {
    let mut seeded = Seeded::new(33);
    for Compared { n, k, table, one, .. } in COMPARED {
        let numbers = Numbers { n, m: OUTPUTS, k };
        let outcome = run_sound(&mut seeded, numbers, table);
        assert_eq!(outcome.answer[2..], one.map(|number| number as u64), "{table:?}");
        check_design(&mut seeded, numbers, table);
    }
}

/// All zero, all one and every other output one, for every n, m and k: a constant costs nothing.
#[test]
fn constant_tables() {
    let mut seeded = Seeded::new(26);
    for n in 1..=8usize {
        for (m, k) in (1..=8).flat_map(|m| (0..=n.min(3)).map(move |k| (m, k))) {
            for byte in [0, output_bits(m), 0b0101_0101 & output_bits(m)] {
                let outcome = run_sound(&mut seeded, Numbers { n, m, k }, &vec![byte; places(n)]);
                let mixed = places(k) as u64 - 1;
                assert_eq!(outcome.answer, [0, 0, mixed, 0, 0, 0, u64::from(byte)]);
                assert!(outcome.coefficients.inside().iter().all(|&c| c == 0));
                assert!(outcome.blocks.inside().iter().all(|&phi| phi == 0));
            }
        }
    }
}

/// One call with these lengths against the judgement.
fn check_judgement(seeded: &mut Seeded, numbers: Numbers, table: &[u8], lengths: [usize; 2]) {
    let outcome = run(numbers, table, &seeded.bytes(lengths[0]), &seeded.bytes(lengths[1]));
    let Numbers { n, m, k } = numbers;
    match judge_minimise(n, m, k, table, lengths[0], lengths[1]) {
        Ok(()) => {
            let wanted = least(Family::One, n, Class::Block(k), table);
            check_found(numbers, table, &outcome, &wanted)
        }
        Err(refusal) => {
            let wanted = minimise_answer(Err(refusal));
            assert_eq!(outcome.answer, wanted, "{numbers:?}, {} and {lengths:?}", table.len());
            outcome.coefficients.check_untouched();
            outcome.blocks.check_untouched();
        }
    }
}

#[test]
fn sizes_out_of_range() {
    let mut seeded = Seeded::new(27);
    for bad in OUT_OF_RANGE {
        for good in 1..=5 {
            for (n, m) in [(bad, good), (good, bad), (bad, bad)] {
                for k in [0, 1, 4, usize::MAX] {
                    let size = if n == good { places(n) } else { 4 };
                    let blocks = if k <= 1 { size >> k } else { 1 };
                    check_judgement(
                        &mut seeded,
                        Numbers { n, m, k },
                        &vec![1; size],
                        [size, blocks],
                    );
                }
            }
        }
    }
}

/// k above 3 or above n, for every n.
#[test]
fn mixed_inputs_out_of_range() {
    let mut seeded = Seeded::new(28);
    for n in 1..=8 {
        let high = [4, 5, 8, 9, 64, 66, 256, 258, 1 << 32 | 1, 1 << 63, 1 << 63 | 1, usize::MAX];
        for k in (0..=3).chain(high) {
            let m = seeded.within(1, 8);
            let table = any_table(&mut seeded, n, m);
            for blocks in [places(n.saturating_sub(k)), places(n)] {
                check_judgement(&mut seeded, Numbers { n, m, k }, &table, [places(n), blocks]);
            }
        }
    }
}

/// Lengths beside the right ones, for each buffer.
#[test]
fn lengths() {
    let mut seeded = Seeded::new(29);
    for n in 1..=8usize {
        let (size, k) = (places(n), seeded.below(n.min(3) + 1));
        let blocks = places(n - k);
        let others = |right: usize| [right, 0, 1, right - 1, right + 1, 2 * right, 256, 300];
        for (table, coefficients) in
            others(size).into_iter().flat_map(|a| others(size).map(|b| (a, b)))
        {
            for blocks in others(blocks) {
                if (table, coefficients, blocks) == (size, size, places(n - k)) && n > 5 {
                    continue;
                }
                let table = vec![1; table];
                check_judgement(
                    &mut seeded,
                    Numbers { n, m: 1, k },
                    &table,
                    [coefficients, blocks],
                );
            }
        }
    }
}

/// One bit at m or above, at any place.
#[test]
fn stray_bits() {
    let mut seeded = Seeded::new(30);
    for n in 1..=8usize {
        for m in 1..=7 {
            for bit in m..8 {
                let k = seeded.below(n.min(3) + 1);
                let mut table = random_table(&mut seeded, n, m);
                let place = *seeded.pick(&[0, places(n) - 1, places(n) / 2]);
                table[place] |= 1 << bit;
                let lengths = [places(n), places(n - k)];
                check_judgement(&mut seeded, Numbers { n, m, k }, &table, lengths);
            }
        }
    }
}

/// Several faults at once: the first in the order 2, 3, 4, 8, 9 is returned.
#[test]
fn first_refusal() {
    let mut seeded = Seeded::new(31);
    for faults in 1..128usize {
        let has = |fault: usize| faults >> fault & 1 == 1;
        for _ in 0..12 {
            let good = seeded.within(1, 8);
            let n = if has(0) { *seeded.pick(&OUT_OF_RANGE) } else { good };
            let m = if has(1) { *seeded.pick(&OUT_OF_RANGE) } else { seeded.within(1, 7) };
            let mixed = seeded.below(good.min(3) + 1);
            let k = if has(2) { *seeded.pick(&[4, 9, 256, 1 << 63, usize::MAX]) } else { mixed };
            let table_length = places(good) + usize::from(has(3));
            let coefficients = places(good) - usize::from(has(4));
            let blocks = places(good - mixed) + usize::from(has(5));
            let stray = if has(6) { 128 } else { 0 };
            let table = vec![stray | (seeded.byte() & 1); table_length];
            check_judgement(&mut seeded, Numbers { n, m, k }, &table, [coefficients, blocks]);
        }
    }
}

/// A function of the paper's Table 2 or 3, with its products and literals there.
struct Published {
    name: &'static str,
    n: usize,
    m: usize,
    byte: fn(usize) -> usize,
    products: usize,
    literals: usize,
}

/// How many inputs are 1.
fn ones(p: usize) -> usize {
    literals(8, p)
}

/// The sum of two numbers of three bits and a carry: the adder z4ml.
fn adder(p: usize) -> usize {
    p % 2 + p / 2 % 8 + p / 16 % 8
}

#[rustfmt::skip]
const PUBLISHED: [Published; 12] = [
    Published { name: "rd53", n: 5, m: 3, byte: ones, products: 20, literals: 45 },
    Published { name: "rd73", n: 7, m: 3, byte: ones, products: 63, literals: 189 },
    Published { name: "rd84", n: 8, m: 4, byte: ones, products: 107, literals: 352 },
    Published { name: "squar5", n: 5, m: 8, byte: |p| p * p / 4, products: 23, literals: 56 },
    Published { name: "xor5", n: 5, m: 1, byte: ones, products: 5, literals: 5 },
    Published { name: "rd53 output 2", n: 5, m: 1, byte: ones, products: 5, literals: 5 },
    Published { name: "rd73 output 2", n: 7, m: 1, byte: ones, products: 7, literals: 7 },
    Published { name: "rd84 output 2", n: 8, m: 1, byte: ones, products: 8, literals: 8 },
    Published { name: "z4ml output 1", n: 7, m: 1, byte: |p| adder(p) / 8, products: 15, literals: 56 },
    Published { name: "z4ml output 2", n: 7, m: 1, byte: |p| adder(p) / 4, products: 9, literals: 22 },
    Published { name: "z4ml output 3", n: 5, m: 1, byte: |p| (p % 2 + p / 2 % 4 + p / 8) / 2, products: 5, literals: 8 },
    Published { name: "z4ml output 4", n: 3, m: 1, byte: ones, products: 3, literals: 3 },
];

/// The paper's functions with three mixed inputs: the call's figures are the published ones. The paper has no
/// inverters, and none of these functions is cheaper with them.
#[test]
fn published_functions() {
    let mut seeded = Seeded::new(32);
    for Published { name, n, m, byte, products, literals } in PUBLISHED {
        let table = table_of(n, m, |p| byte(p) as u8);
        let found = check_design(&mut seeded, Numbers { n, m, k: 3 }, &table).cost;
        println!("{name}: {found:?}, published {products} and {literals}");
        assert_eq!(found, Cost { products, literals }, "{name}");
    }
}
