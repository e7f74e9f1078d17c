//! Times the program `rmform` on tables of eight inputs, for both families and with every digit and `f2`, beside the
//! same method in C. What a run on empty input takes, the start of the process, is taken off. A program given as the
//! argument, as an `rmform` of an earlier commit, is timed in the same run, but for texts of which it writes no
//! listing; the listing may be another, as one of before there were inverters.

use outside_cases::c_search;
use outside_cases::class::Class;
use outside_cases::family::Family;
use outside_cases::program::{self, run_at};
use outside_cases::seeded::Seeded;
use outside_cases::seeded::tables::{random_table, table_of};
use outside_cases::text::Design;
use outside_cases::timing::side_by_side;
use std::env;
use std::hint::black_box;
use std::path::{Path, PathBuf};

const N: usize = 8;

/// How often each work is tried: enough that one program beside itself is told within a few hundredths.
const REPEATS: usize = 400;

/// Milliseconds for the design by each of two programs, the start of the process taken off, and by the C code.
fn milliseconds(design: &Design, programs: [&Path; 2]) -> [f64; 3] {
    let text = design.text();
    let (family, class, sizes) = (design.family, design.class(), [N, design.m]);
    let (mut coefficients, mut blocks) = ([0; 1 << N], vec![0; 1 << (N - class.k())]);
    let mut search = || {
        let (table, filled) = (black_box(&design.table[..]), &mut coefficients);
        c_search::minimise_for(family, class, sizes, table, filled, &mut blocks, &mut [0; 7]);
    };
    let run = |program: usize, input: &[u8]| {
        drop(black_box(run_at(programs[program], &[input], || ())));
    };
    let works: [&mut dyn FnMut(); 5] = [
        &mut || run(0, &text),
        &mut || run(0, b""),
        &mut || run(1, &text),
        &mut || run(1, b""),
        &mut search,
    ];
    let [first, first_start, second, second_start, c] = side_by_side(REPEATS, 1, works);
    [first - first_start, second - second_start, c].map(|seconds| seconds * 1e3)
}

fn main() {
    let rmform = program::path();
    let before = env::args().nth(1).map(PathBuf::from);
    let other = before.as_ref().unwrap_or(&rmform);
    let tables = [
        ("random", 8, random_table(&mut Seeded::new(1), N, 8)),
        ("rd84", 4, table_of(N, 4, |p| p.count_ones() as u8)),
    ];
    println!("milliseconds for a design of {N} inputs, without the start of the process");
    let more = before.as_ref().map_or("", |_| "\tbefore\trmform/before");
    println!("table\tfamily\tk\trmform\tC\trmform/C{more}");
    for (name, m, table) in tables {
        let classes: Vec<Class> = Class::every_block(N).chain([Class::Free(2)]).collect();
        for (family, &class) in
            Family::ALL.into_iter().flat_map(|f| classes.iter().map(move |c| (f, c)))
        {
            let design = Design::of_class(N, m, class, table.clone()).of_family(family);
            let written = [&rmform, other].map(|program| run_at(program, &[&design.text()], || ()));
            let listed = written.map(|bytes| bytes.starts_with(family.form_word().as_bytes()));
            assert!(listed[0], "a listing is written");
            let [ours, theirs, c] = milliseconds(&design, [&rmform, other]);
            let (number, k) = (family.number(), design.kind.field());
            print!("{name}\t{number}\t{k}\t{ours:.2}\t{c:.2}\t{:.2}", ours / c);
            match before {
                Some(_) if listed[1] => {
                    println!("\t{theirs:.2}\t{:.2}", ours / theirs);
                }
                Some(_) => println!("\t-\t-"),
                None => println!(),
            }
        }
    }
}
