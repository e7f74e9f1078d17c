//! Times the text call on `K` texts beside two searches in C (`c/kronecker.c`): one of the same method, and a
//! plain one that shares the steps from xn down. The call's time includes reading the text and writing the
//! listing, which the searches in C do not do. Prints microseconds for each and the ratios, the best of
//! several repeats.

use outside_cases::c_kronecker::{self, KroneckerAnswer, letters};
use outside_cases::calls;
use outside_cases::evaluator::places;
use outside_cases::kronecker::Expansion;
use outside_cases::seeded::Seeded;
use outside_cases::seeded::tables::{random_table, sparse_table, structured_table};
use outside_cases::text::Design;
use outside_cases::text::kron::KronListing;
use outside_cases::timing::side_by_side;
use std::hint::black_box;

type Maker = fn(&mut Seeded, usize, usize) -> Vec<u8>;
type Search = fn(usize, &[u8], &mut [u8]) -> KroneckerAnswer;

const SORTS: [(&str, Maker); 3] =
    [("random", random_table), ("sparse", sparse_table), ("structured", structured_table)];

/// Longer than every listing.
const ROOM: usize = 6000;

/// The listing that the text call writes.
fn called(text: &[u8]) -> Vec<u8> {
    let (mut output, mut answer) = ([0; ROOM], [0; 3]);
    calls::compile(text, &mut output, &mut answer);
    assert_eq!(answer[..2], [0, 0], "{}", text.escape_ascii());
    output[..answer[2] as usize].to_vec()
}

/// The listing of what a search in C finds.
fn searched(search: Search, design: &Design) -> Vec<u8> {
    let mut coefficients = vec![0; places(design.n)];
    let [kind, ..] = search(design.n, &design.table, &mut coefficients);
    let expansion = Expansion::new(letters(design.n, kind), coefficients);
    KronListing::of(design.m, &expansion).bytes()
}

/// Seconds for the text call, for the search in C of the same method, and for the plain one. The runs fill
/// about the same time at each size.
fn seconds(design: &Design, text: &[u8]) -> [f64; 3] {
    let (n, mut output, mut answer) = (design.n, [0; ROOM], [0; 3]);
    let mut call = || calls::compile(black_box(text), black_box(&mut output), &mut answer);
    let in_c = |search: Search| {
        let mut coefficients = vec![0; places(n)];
        move || assert!(black_box(search(n, black_box(&design.table), &mut coefficients))[1] <= 256)
    };
    let (mut same, mut plain) = (in_c(c_kronecker::search), in_c(c_kronecker::plain));
    let runs = 4 << (2 * (8 - n));
    side_by_side(15, runs, [&mut call, &mut same, &mut plain])
}

fn main() {
    let mut seeded = Seeded::new(1);
    println!("n m sort\tmicroseconds\tC\tratio\tplain C\tratio");
    for n in 4..=8 {
        for m in [1, 4, 8] {
            for (sort, maker) in SORTS {
                let design = Design::kronecker(n, m, maker(&mut seeded, n, m));
                let text = design.text();
                for search in [c_kronecker::search, c_kronecker::plain] {
                    assert_eq!(called(&text), searched(search, &design), "the two disagree");
                }
                let [call, c, plain] = seconds(&design, &text).map(|seconds| seconds * 1e6);
                let ratios = [call / c, call / plain];
                print!("{n} {m} {sort}\t{call:.1}\t{c:.1}\t{:.2}", ratios[0]);
                println!("\t{plain:.1}\t{:.2}", ratios[1]);
            }
        }
    }
}
