//! Times the minimising call, which keeps to family one, beside the same method in C (`c/search.c`); then the
//! text call on texts of both families and both classes, beside the C code of each. The text call's time includes
//! reading the text and writing the listing, which the C code does not do. Prints microseconds for a design, the C
//! code's and the ratio, the best of several repeats.

use outside_cases::calls::{self, MinimiseAnswer};
use outside_cases::class::Class;
use outside_cases::family::Family;
use outside_cases::seeded::Seeded;
use outside_cases::seeded::tables::{random_table, sparse_table, structured_table};
use outside_cases::text::Design as Text;
use outside_cases::text::listing::Listing;
use outside_cases::timing::side_by_side;
use outside_cases::{c_search, evaluator::places};
use std::hint::black_box;

type Search = fn(usize, usize, usize, &[u8], &mut [u8], &mut [u8], &mut MinimiseAnswer);
type Maker = fn(&mut Seeded, usize, usize) -> Vec<u8>;

const SORTS: [(&str, Maker); 3] =
    [("random", random_table), ("sparse", sparse_table), ("structured", structured_table)];

/// One design, and what a search left of it.
struct Design<'a> {
    n: usize,
    m: usize,
    k: usize,
    table: &'a [u8],
}

impl Design<'_> {
    fn minimise(&self, search: Search) -> (Vec<u8>, Vec<u8>, MinimiseAnswer) {
        let mut coefficients = vec![0; places(self.n)];
        let (mut blocks, mut answer) =
            (vec![0; places(self.n - self.k)], MinimiseAnswer::default());
        let table = black_box(self.table);
        search(self.n, self.m, self.k, table, &mut coefficients, &mut blocks, &mut answer);
        (coefficients, blocks, answer)
    }

    /// Seconds for the call and for the C code. The runs fill about the same time at each size.
    fn seconds(&self) -> (f64, f64) {
        let work = |search: Search| move || drop(black_box(self.minimise(search)));
        let runs = 1 << (2 * (8 - self.n));
        let [call, c] =
            side_by_side(7, runs, [&mut work(calls::minimise), &mut work(c_search::minimise)]);
        (call, c)
    }
}

/// Longer than every listing.
const ROOM: usize = 6000;

/// The M, i, products, literals and inversion mask that the C code finds for a text.
fn in_c(text: &Text) -> [usize; 5] {
    let (sizes, table) = ([text.n, text.m], black_box(&text.table[..]));
    let (_, _, answer) = c_search::found(text.family, text.class(), sizes, table);
    [2, 3, 4, 5, 6].map(|place| answer[place] as usize)
}

/// Seconds for the text call and for the C code.
fn text_seconds(text: &Text) -> [f64; 2] {
    let (written, mut output, mut answer) = (text.text(), [0; ROOM], [0; 3]);
    calls::compile(&written, &mut output, &mut answer);
    let listing = Listing::read(text, &output[..answer[2] as usize]).expect("a sound listing");
    let Listing { mixed, fixed, stated, inverted, .. } = listing;
    let found = [mixed, fixed, stated.products, stated.literals, usize::from(inverted)];
    assert_eq!(found, in_c(text), "the two disagree");
    let mut call = || calls::compile(black_box(&written), black_box(&mut output), &mut answer);
    side_by_side(15, 8, [&mut call, &mut || assert!(black_box(in_c(text))[2] <= 256)])
}

/// The text call at eight inputs and outputs, for both families and with every k field.
fn texts(seeded: &mut Seeded) {
    println!("family k sort\tmicroseconds\tC\tratio");
    for (sort, maker) in SORTS {
        let table = maker(seeded, 8, 8);
        for (family, class) in
            Family::ALL.into_iter().flat_map(|f| Class::every(8).map(move |c| (f, c)))
        {
            let text = Text::of_class(8, 8, class, table.clone()).of_family(family);
            let [call, c] = text_seconds(&text).map(|seconds| seconds * 1e6);
            let (number, k) = (family.number(), text.kind.field());
            println!("{number} {k} {sort}\t{call:.1}\t{c:.1}\t{:.2}", call / c);
        }
    }
}

fn main() {
    let mut seeded = Seeded::new(1);
    println!("n m k sort\tmicroseconds\tC\tratio");
    for n in 4..=8 {
        for m in [1, 4, 8] {
            for k in 0..=3 {
                for (sort, maker) in SORTS {
                    let design = Design { n, m, k, table: &maker(&mut seeded, n, m) };
                    let found = design.minimise(calls::minimise);
                    assert_eq!(found, design.minimise(c_search::minimise), "the two disagree");
                    let (call, c) = design.seconds();
                    let ratio = call / c;
                    println!("{n} {m} {k} {sort}\t{:.1}\t{:.1}\t{ratio:.2}", call * 1e6, c * 1e6);
                }
            }
        }
    }
    texts(&mut seeded);
}
