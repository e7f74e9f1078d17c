//! The program `rmcheck`: a table text and a listing, in two files, to one line.

use outside_cases::check::printed;
use outside_cases::class::Class;
use outside_cases::family::Family;
use outside_cases::marked::families::{EXAMPLE_LISTING_TWO, EXAMPLE_TWO};
use outside_cases::marked::pairs::{self, EXAMPLE_BEFORE, EXAMPLE_LISTING};
use outside_cases::marked::{EXAMPLE, bytes};
use outside_cases::program::{JUDGED_BYTES, Written, run_check};
use outside_cases::seeded::Seeded;
use outside_cases::seeded::listings::any_listing;
use outside_cases::seeded::tables::longest_listing_table;
use outside_cases::seeded::texts::{damaged_text, sound_text, with_other_k, with_other_word};
use outside_cases::text::Design;
use outside_cases::words::{explained, refusal};
use std::path::Path;

/// What the program writes for a table text and a listing.
fn written(text: &[u8], listing: &[u8]) -> Vec<u8> {
    let files = [Written::new(text), Written::new(listing)];
    run_check(&[files[0].path(), files[1].path()]).stdout
}

/// Compares with the evaluator, which is given what the program judges of each file.
#[track_caller]
fn check_files(text: &[u8], listing: &[u8]) {
    let judged = |bytes: &[u8]| bytes[..bytes.len().min(JUDGED_BYTES)].to_vec();
    let (judged_text, judged_listing) = (judged(text), judged(listing));
    let wanted = printed(&judged_text, &judged_listing);
    let files = [Written::new(text), Written::new(listing)];
    let output = run_check(&[files[0].path(), files[1].path()]);
    let of_listing = refusal(&wanted).is_some_and(|(number, _)| number > 10);
    let (file, refused) =
        if of_listing { (&files[1], &judged_listing) } else { (&files[0], &judged_text) };
    let said = explained(&wanted, file.path().to_str().expect("a name in text"), refused);
    let shown = |bytes: &[u8]| bytes.escape_ascii().to_string();
    let found = [output.stdout, output.stderr].map(|bytes| shown(&bytes));
    let wanted = [shown(&wanted), shown(said.as_bytes())];
    assert_eq!(found, wanted, "{}\n{}", shown(text), shown(listing));
}

/// The four lines, byte for byte.
#[test]
fn lines() {
    let (x2, own) = (bytes(b"table 2 1 0\non 2 1\non 3 1\nend\n"), bytes(EXAMPLE_LISTING));
    assert_eq!(written(&bytes(EXAMPLE), &own), b"same\n");
    assert_eq!(written(&x2, &bytes(b"form 2 1 0 0 0 0 0\ninv 0\nend\n")), b"differs\t2\n");
    assert_eq!(written(&x2, &bytes(b"form 2 1 0 1 0 0 0\ninv 0\nend\n")), b"not of the class\n");
    assert_eq!(written(&x2, &own), b"refused\t12\t1\n");
    assert_eq!(written(&x2, &bytes(b"form 2 1 0 0 0 0 0\n")), b"refused\t11\t2\n");
    assert_eq!(written(&x2, &bytes(b"form 2 1 0 0 0 0 0\ninv 1\nend\n")), b"differs\t0\n");
    assert_eq!(written(&bytes(EXAMPLE), &bytes(EXAMPLE_BEFORE)), b"refused\t11\t2\n");
    assert_eq!(written(b"", b""), b"refused\t6\t1\n");
    let (two, own_two) = (bytes(EXAMPLE_TWO), bytes(EXAMPLE_LISTING_TWO));
    assert_eq!(written(&two, &own_two), b"same\n");
    assert_eq!(written(&two, &own), b"refused\t12\t1\n");
    assert_eq!(written(&bytes(EXAMPLE), &own_two), b"refused\t12\t1\n");
    let kronecker = bytes(b"table 2 1 K\non 2 1\non 3 1\nend\n");
    assert_eq!(written(&kronecker, &own), b"refused\t12\t1\n");
    assert_eq!(written(&kronecker, &own_two), b"refused\t12\t1\n");
    let kron = bytes(b"kron 2 1 SP 1 1\nterm 1- 1\nend\n");
    assert_eq!(written(&kronecker, &kron), b"refused\t11\t1\n");
    let (free, digit) = (bytes(b"table 2 1 f2\nend\n"), bytes(b"table 2 1 2\nend\n"));
    let free_listing = bytes(b"form 2 1 f2 3 0 0 0\ninv 0\nend\n");
    assert_eq!(written(&free, &free_listing), b"same\n");
    assert_eq!(written(&digit, &free_listing), b"refused\t12\t1\n");
    let last = bytes(b"table 8 1 3\non 255 1\nend\n");
    assert_eq!(written(&last, &bytes(b"form 8 1 3 7 0 0 0\ninv 0\nend\n")), b"differs\t255\n");
}

#[test]
fn marked_pairs() {
    for (text, listing, _) in pairs::all() {
        check_files(&bytes(text), &bytes(listing));
    }
}

#[test]
fn drawn_pairs() {
    let mut seeded = Seeded::new(91);
    for round in 0..80 {
        let (design, text) = sound_text(&mut seeded, if round % 5 == 0 { 8 } else { 4 });
        let listing = any_listing(&mut seeded, &design).bytes();
        check_files(&text, &listing);
        check_files(&text, &damaged_text(&mut seeded, &listing));
        check_files(&damaged_text(&mut seeded, &text), &listing);
        check_files(&text, &with_other_word(&mut seeded, &listing));
        check_files(&with_other_word(&mut seeded, &text), &listing);
        check_files(&text, &with_other_k(&mut seeded, &listing));
        check_files(&with_other_k(&mut seeded, &text), &listing);
    }
}

/// The longest texts of each family and class beside a listing of all terms.
#[test]
fn longest() {
    for class in [Class::Block(3), Class::Free(2)] {
        let design = Design::of_class(8, 8, class, longest_listing_table());
        for design in Family::ALL.map(|family| design.clone().of_family(family)) {
            let listing = any_listing(&mut Seeded::new(92), &design).bytes();
            check_files(&design.text(), &listing);
        }
    }
}

/// Files of exactly 8,192 bytes, of one more, and of many more, sound up to where they are filled up.
#[test]
fn files_at_the_limit() {
    let (text, listing) = (bytes(EXAMPLE), bytes(EXAMPLE_LISTING));
    let filled = |start: &[u8], length: usize, byte: u8| {
        let mut bytes = start.to_vec();
        bytes.resize(length, byte);
        bytes
    };
    for length in [JUDGED_BYTES - 1, JUDGED_BYTES, JUDGED_BYTES + 1, 100_000] {
        for byte in [0, b'\n', b'-', 255] {
            let first = listing.split_inclusive(|&byte| byte == b'\n').next().expect("a line");
            for start in [&listing[..], first, b""] {
                check_files(&text, &filled(start, length, byte));
            }
            check_files(&filled(&text, length, byte), &listing);
            check_files(&filled(&text, length, byte), &filled(&listing, length, byte));
        }
    }
}

/// A missing argument is named on standard error, before the usage, and so is a file that cannot be read. With
/// `--help`, `-h` or an argument too many there is the usage alone. Standard output has nothing.
#[test]
fn missing_arguments_and_files() {
    let files = [Written::new(&bytes(EXAMPLE)), Written::new(&bytes(EXAMPLE_LISTING))];
    let [text, listing] = [files[0].path(), files[1].path()];
    let missing = &text.with_extension("missing");
    let folder = text.parent().expect("a folder");
    let (help, short) = (Path::new("--help"), Path::new("-h"));
    let usage = "usage: rmcheck TABLE LISTING\n";
    let named = |path: &Path| format!("{}: ", path.display());
    for (arguments, start, lines) in [
        (&[][..], "rmcheck: the argument TABLE is missing\n", 4),
        (&[text], "rmcheck: the argument LISTING is missing\n", 4),
        (&[missing], "rmcheck: the argument LISTING is missing\n", 4),
        (&[help], usage, 3),
        (&[text, short], usage, 3),
        (&[text, listing, listing], usage, 3),
        (&[text, missing], &named(missing), 1),
        (&[missing, listing], &named(missing), 1),
        (&[text, folder], &named(folder), 1),
        (&[folder, listing], &named(folder), 1),
    ] {
        let output = run_check(arguments);
        let said = String::from_utf8(output.stderr).expect("words");
        assert_eq!(output.stdout, b"", "{arguments:?}");
        assert!(said.starts_with(start) && said.lines().count() == lines, "{arguments:?}: {said}");
    }
}
