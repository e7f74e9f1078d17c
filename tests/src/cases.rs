//! The cases of the program `cases`: what stands in its `stdin`, where each text follows a line with its
//! length in decimal digits, and in its `stdout`, with the listing of each text or its line `refused`,
//! number, line. Both come from the evaluator.

use crate::class::Class;
use crate::family::Family;
use crate::marked::families::{self, COMPARED, Compared, OUTPUTS};
use crate::marked::{ACCEPTED, DESIGNS, Marked, REFUSED, bytes, dash, free, kronecker};
use crate::seeded::Seeded;
use crate::seeded::tables::{
    any_table, longest_free_listing_table, longest_listing_table, random_table,
};
use crate::seeded::texts::{
    damaged_text, dash_text_of, free_text_of, kronecker_text, sound_text_of, with_dash_somewhere,
    with_f_somewhere, with_k_somewhere, with_other_k, with_other_word,
};
use crate::text::{Design, printed};
use std::fs::read;
use std::path::{Path, PathBuf};

/// The two files of the program, and how many texts they hold.
pub struct Cases {
    pub texts: usize,
    pub stdin: Vec<u8>,
    pub stdout: Vec<u8>,
}

impl Cases {
    /// The cases that the evaluator writes, the same in every run.
    pub fn written() -> Self {
        let mut seeded = Seeded::new(71);
        let block = [marked_texts(), sound_texts(&mut seeded), damaged_texts(&mut seeded)].concat();
        let kronecker = kronecker_texts(&mut Seeded::new(72));
        let families = family_texts(&mut Seeded::new(73));
        let free = free_texts(&mut Seeded::new(74));
        let texts = [block, kronecker, families, free, dash_texts(&mut Seeded::new(75))].concat();
        let framed =
            |text: &Vec<u8>| [format!("{}\n", text.len()).into_bytes(), text.clone()].concat();
        Cases {
            texts: texts.len(),
            stdin: texts.iter().flat_map(framed).collect(),
            stdout: texts.iter().flat_map(|text| printed(text)).collect(),
        }
    }
}

/// Where a stored file of the program is.
pub fn stored_path(name: &str) -> PathBuf {
    Path::new(env!("CARGO_MANIFEST_DIR")).join("../crates/cases").join(name)
}

/// What a stored file of the program holds.
#[track_caller]
pub fn stored(name: &str) -> Vec<u8> {
    let path = stored_path(name);
    read(&path).unwrap_or_else(|error| panic!("{}: {error}", path.display()))
}

/// The stored texts, each with what is stored for it.
pub fn stored_texts() -> Vec<(Vec<u8>, Vec<u8>)> {
    let (stdin, stdout) = (stored("stdin"), stored("stdout"));
    let (mut texts, mut written) = (&stdin[..], &stdout[..]);
    let mut cases = Vec::new();
    while !texts.is_empty() {
        cases.push((first_text(&mut texts).to_vec(), first_written(&mut written).to_vec()));
    }
    assert!(written.is_empty(), "{} bytes are left of stdout", written.len());
    cases
}

/// Takes the first text, after the line with its length.
fn first_text<'a>(texts: &mut &'a [u8]) -> &'a [u8] {
    let end = texts.iter().position(|&byte| byte == b'\n').expect("a line with a length");
    let line = std::str::from_utf8(&texts[..end]).ok();
    let length: usize = line.and_then(|line| line.parse().ok()).expect("a length");
    let text = texts.split_off(..end + 1 + length).expect("a text of this length");
    &text[end + 1..]
}

/// Takes the first listing, or the first line `refused`.
fn first_written<'a>(written: &mut &'a [u8]) -> &'a [u8] {
    let mut length = 0;
    for line in written.split_inclusive(|&byte| byte == b'\n') {
        length += line.len();
        if line == b"end\n" || line.starts_with(b"refused\t") {
            break;
        }
    }
    written.split_off(..length).expect("as many bytes as its lines have")
}

fn text_of(n: usize, m: usize, k: usize, table: Vec<u8>) -> Vec<u8> {
    Design::block(n, m, k, table).text()
}

/// The texts whose answers are written down by hand.
fn marked_texts() -> Vec<Vec<u8>> {
    let design = |&Marked { n, m, k, table, .. }: &Marked| text_of(n, m, k, table.to_vec());
    [accepted_and_refused(&ACCEPTED, &REFUSED), DESIGNS.iter().map(design).collect()].concat()
}

/// Marked texts that are accepted, and then those that are refused.
fn accepted_and_refused(
    accepted: &[(&[u8], &[u8])],
    refused: &[(&[u8], u64, u64)],
) -> Vec<Vec<u8>> {
    let accepted = accepted.iter().map(|(text, _)| bytes(text));
    accepted.chain(refused.iter().map(|(text, _, _)| bytes(text))).collect()
}

/// A text for every n, m and k. One design of eight inputs is drawn at every bit.
fn sound_texts(seeded: &mut Seeded) -> Vec<Vec<u8>> {
    let mut texts = vec![text_of(8, 8, 3, longest_listing_table())];
    for n in 1..=8usize {
        for k in 0..=n.min(3) {
            for m in 1..=8 {
                texts.push(text_of(n, m, k, any_table(seeded, n, m)));
            }
        }
    }
    texts.push(text_of(8, 8, 3, random_table(seeded, 8, 8)));
    texts
}

fn damaged_texts(seeded: &mut Seeded) -> Vec<Vec<u8>> {
    let damaged = |_| {
        let (_, text) = sound_text_of(seeded, Family::One, 4);
        damaged_text(seeded, &text)
    };
    (0..250).map(damaged).collect()
}

/// Texts with `K`: the marked ones, the longest listing, one for every n and m, and damaged ones.
fn kronecker_texts(seeded: &mut Seeded) -> Vec<Vec<u8>> {
    let mut texts = accepted_and_refused(&kronecker::ACCEPTED, &kronecker::REFUSED);
    texts.push(Design::kronecker(8, 8, longest_listing_table()).text());
    for n in 1..=8 {
        for m in 1..=8 {
            texts.push(Design::kronecker(n, m, any_table(seeded, n, m)).text());
        }
    }
    for damage in [damaged_text, with_k_somewhere] {
        for _ in 0..60 {
            let (_, text) = kronecker_text(seeded, 4);
            texts.push(damage(seeded, &text));
        }
    }
    texts
}

/// Texts of family two: the marked ones, the designs on which the families or their ties choose differently in
/// both families, the longest listing, one for every n and k, and damaged ones.
fn family_texts(seeded: &mut Seeded) -> Vec<Vec<u8>> {
    let mut texts = accepted_and_refused(&families::ACCEPTED, &families::REFUSED);
    for Compared { n, k, table, .. } in COMPARED {
        let design = Design::block(n, OUTPUTS, k, table.to_vec());
        texts.extend(Family::ALL.map(|family| design.clone().of_family(family).text()));
    }
    let mut push = |n, m, k, table| {
        texts.push(Design::block(n, m, k, table).of_family(Family::Two).text());
    };
    push(8, 8, 3, longest_listing_table());
    for n in 1..=8usize {
        for k in 0..=n.min(3) {
            let m = seeded.within(1, 8);
            push(n, m, k, any_table(seeded, n, m));
        }
    }
    push(8, 8, 3, random_table(seeded, 8, 8));
    for damage in [damaged_text, with_other_word, with_k_somewhere] {
        for _ in 0..60 {
            let (_, text) = sound_text_of(seeded, Family::Two, 4);
            texts.push(damage(seeded, &text));
        }
    }
    texts
}

/// Texts of the free class: the marked ones, the designs on which the classes differ, the longest listings, one for
/// every n and `f` field in each family, and damaged ones.
fn free_texts(seeded: &mut Seeded) -> Vec<Vec<u8>> {
    let mut texts = accepted_and_refused(&free::ACCEPTED, &free::REFUSED);
    let mut push = |n, m, class, family, table| {
        texts.push(Design::of_class(n, m, class, table).of_family(family).text());
    };
    for free::Compared { n, m, table, .. } in free::COMPARED {
        for (class, family) in classes_and_families(n) {
            push(n, m, class, family, table.to_vec());
        }
    }
    for family in Family::ALL {
        push(8, 8, Class::Free(2), family, longest_free_listing_table());
    }
    for n in 1..=8 {
        for (class, family) in classes_and_families(n) {
            let m = seeded.within(1, 8);
            push(n, m, class, family, any_table(seeded, n, m));
        }
    }
    push(8, 8, Class::Free(2), Family::One, random_table(seeded, 8, 8));
    for damage in [damaged_text, with_f_somewhere, with_other_k, with_other_word] {
        for round in 0..60 {
            let (_, text) = free_text_of(seeded, Family::ALL[round % 2], 4);
            texts.push(damage(seeded, &text));
        }
    }
    texts
}

/// Texts with `-`: the marked ones, the designs on which the classes differ, the longest listings, texts for every n in
/// each family, and damaged ones.
fn dash_texts(seeded: &mut Seeded) -> Vec<Vec<u8>> {
    let mut texts = accepted_and_refused(&dash::ACCEPTED, &dash::REFUSED);
    let mut push = |n, m, family, table| {
        texts.push(Design::dashed(n, m, table).of_family(family).text_with("-"));
    };
    for family in Family::ALL {
        for free::Compared { n, m, table, .. } in free::COMPARED {
            push(n, m, family, table.to_vec());
        }
        push(8, 8, family, longest_free_listing_table());
        for n in 1..=8 {
            for _ in 0..2 {
                let m = seeded.within(1, 8);
                push(n, m, family, any_table(seeded, n, m));
            }
        }
    }
    for damage in [damaged_text, with_dash_somewhere, with_other_k, with_other_word] {
        for round in 0..30 {
            let (_, text) = dash_text_of(seeded, Family::ALL[round % 2], 4);
            texts.push(damage(seeded, &text));
        }
    }
    texts
}

/// The free class at every k that n inputs have, in each family.
fn classes_and_families(n: usize) -> impl Iterator<Item = (Class, Family)> {
    Class::every_free(n).flat_map(|class| Family::ALL.map(|family| (class, family)))
}
