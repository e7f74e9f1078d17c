//! The program `rmquote`: a table text on standard input, or in a file, to one line.

use outside_cases::marked::families::EXAMPLE_TWO;
use outside_cases::marked::longest::longest_listings;
use outside_cases::marked::{EXAMPLE, accepted, bytes, refused};
use outside_cases::program::Written;
use outside_cases::seeded::Seeded;
use outside_cases::seeded::texts::{
    damaged_text, kronecker_text, sound_text, with_other_k, with_other_lines, with_other_word,
};
use outside_cases::text::quotation::Quotation;
use outside_cases::text_program::{RMFORM, RMQUOTE};

/// The line of each sort, byte for byte. The lengths are those of `tests/quote.rs`, and with `table2` a byte more.
#[test]
fn lines() {
    for (text, line) in [
        (EXAMPLE, &b"quote 1 2 41\n"[..]),
        (EXAMPLE_TWO, b"quote 1 2 42\n"),
        (b"table 2 1 2\nend\n", b"quote 0 0 29\n"),
        (b"table 2 1 K\non 0 1\non 1 1\non 2 1\non 3 1\nend\n", b"quote 1 0 30\n"),
        (b"table 3 3 f2\non 4 001\non 5 100\non 6 010\non 7 110\nend\n", b"quote 3 7 71\n"),
        (b"table 1 1 -\non 0 1\nend\n", b"quote 1 1 39\n"),
        (b"", b"refused 6 1\n"),
        (b"table 2 2 1\non 4 11\nend\n", b"refused 5 2\n"),
    ] {
        RMQUOTE.check(&bytes(text), &bytes(line));
    }
}

/// Every text that is accepted, with the counts and the length of the listing that is written down for it.
#[test]
fn accepted_texts() {
    for (text, listing) in accepted() {
        RMQUOTE.check(&bytes(text), &Quotation::of(&bytes(listing)).line());
    }
}

/// For every text that is refused the program writes what `rmform` writes, on standard output and on standard error: for
/// standard input, and for a file by its name.
#[test]
fn refused_texts() {
    for (text, number, line) in refused() {
        let text = bytes(text);
        RMQUOTE.check(&text, format!("refused\t{number}\t{line}\n").as_bytes());
        let file = Written::new(&text);
        for arguments in [&[][..], &[file.path()]] {
            let [quoted, formed] = [RMQUOTE, RMFORM].map(|program| program.run(arguments, &text));
            assert_eq!(quoted.stdout, formed.stdout, "{}", text.escape_ascii());
            assert_eq!(quoted.stderr, formed.stderr, "{}", text.escape_ascii());
            assert!(!quoted.stderr.is_empty(), "{}", text.escape_ascii());
        }
    }
}

#[test]
fn drawn_texts() {
    let mut seeded = Seeded::new(131);
    for round in 0..80 {
        let most_inputs = if round % 8 == 0 { 8 } else { 4 };
        for text_of in [sound_text, kronecker_text] {
            let (_, text) = text_of(&mut seeded, most_inputs);
            RMQUOTE.check_judged(&text);
            for change in [damaged_text, with_other_k, with_other_lines, with_other_word] {
                RMQUOTE.check_judged(&change(&mut seeded, &text));
            }
        }
    }
}

/// The longest texts and the longest listings.
#[test]
fn longest() {
    for (design, quotation) in longest_listings() {
        RMQUOTE.check(&design.text(), &quotation.line());
    }
}

#[test]
fn inputs_at_the_limit() {
    RMQUOTE.check_inputs_at_the_limit();
}

#[test]
fn input_in_pieces() {
    RMQUOTE.check_input_in_pieces();
}

#[test]
fn a_file_by_name() {
    RMQUOTE.check_a_file_by_name();
}

#[test]
fn usage_and_missing_files() {
    RMQUOTE.check_usage_and_missing_files();
}
