//! The program `rmform`: standard input to standard output.

use outside_cases::class::Class;
use outside_cases::family::Family;
use outside_cases::marked::{accepted, bytes, refused};
use outside_cases::seeded::Seeded;
use outside_cases::seeded::tables::{
    longest_free_listing_table, longest_listing_table, random_table,
};
use outside_cases::seeded::texts::{
    damaged_text, free_text_of, kronecker_text, sound_text, with_f_somewhere, with_k_somewhere,
    with_other_k, with_other_word,
};
use outside_cases::text::{Design, printed};
use outside_cases::text_program::RMFORM;

#[test]
fn accepted_texts() {
    for (text, listing) in accepted() {
        RMFORM.check(&bytes(text), &bytes(listing));
    }
}

#[test]
fn refused_texts() {
    for (text, number, line) in refused() {
        RMFORM.check(&bytes(text), format!("refused\t{number}\t{line}\n").as_bytes());
    }
}

#[test]
fn drawn_texts() {
    let mut seeded = Seeded::new(61);
    for round in 0..150 {
        let (_, text) = sound_text(&mut seeded, if round % 5 == 0 { 8 } else { 4 });
        RMFORM.check_judged(&text);
        RMFORM.check_judged(&damaged_text(&mut seeded, &text));
        RMFORM.check_judged(&with_other_word(&mut seeded, &text));
    }
}

#[test]
fn drawn_kronecker_texts() {
    let mut seeded = Seeded::new(63);
    for round in 0..80 {
        let (_, text) = kronecker_text(&mut seeded, if round % 5 == 0 { 8 } else { 4 });
        RMFORM.check_judged(&text);
        RMFORM.check_judged(&damaged_text(&mut seeded, &text));
        RMFORM.check_judged(&with_k_somewhere(&mut seeded, &text));
    }
}

#[test]
fn drawn_free_texts() {
    let mut seeded = Seeded::new(64);
    for round in 0..80 {
        let (family, most) = (Family::ALL[round % 2], if round % 5 == 0 { 8 } else { 4 });
        let (_, text) = free_text_of(&mut seeded, family, most);
        RMFORM.check_judged(&text);
        RMFORM.check_judged(&damaged_text(&mut seeded, &text));
        RMFORM.check_judged(&with_f_somewhere(&mut seeded, &text));
        RMFORM.check_judged(&with_other_k(&mut seeded, &text));
    }
}

/// All zero, all one and drawn tables of every size, with every k field.
#[test]
fn every_size() {
    let mut seeded = Seeded::new(62);
    for n in 1..=8usize {
        for class in Class::every(n) {
            let m = seeded.within(1, 8);
            let size = 1 << n;
            let drawn = random_table(&mut seeded, n, m);
            for table in [vec![0; size], vec![1; size], drawn] {
                for family in Family::ALL {
                    let design = Design::of_class(n, m, class, table.clone());
                    RMFORM.check_judged(&design.of_family(family).text());
                }
                RMFORM.check_judged(&Design::kronecker(n, m, table).text());
            }
        }
    }
}

/// The longest text and the longest listing of each family and each kind of k.
#[test]
fn longest() {
    let block = Design::block(8, 8, 3, longest_listing_table());
    let free = Design::free(8, 8, 2, longest_free_listing_table());
    for (design, lengths) in [
        (block.clone(), (4002, 5908)),
        (block.of_family(Family::Two), (4003, 5909)),
        (free.clone(), (4003, 5911)),
        (free.of_family(Family::Two), (4004, 5912)),
        (Design::kronecker(8, 8, longest_listing_table()), (4002, 5919)),
    ] {
        let text = design.text();
        assert_eq!((text.len(), printed(&text).len()), lengths);
        RMFORM.check_judged(&text);
    }
}

#[test]
fn inputs_at_the_limit() {
    RMFORM.check_inputs_at_the_limit();
}

#[test]
fn input_in_pieces() {
    RMFORM.check_input_in_pieces();
}

/// Texts that show a cause, each with the words that tell it.
#[test]
fn causes() {
    let binary = "its point is in binary, not in base ten";
    for (text, words) in [
        (&b"table\t3\t1\t1\non 3\t1\nend\n"[..], "it has a blank where a tab belongs"),
        (b"table\t3\t1\t1\r\non\t3\t1\r\nend\r\n", "it has a carriage return"),
        (b"table\t3\t1\t1\non\t3\t1\t0\nend\n", "it has too many fields"),
        (b"table\t3\t1\t1\non\t110\t1\nend\n", binary),
        (b"table\t4\t1\t1\non\t0110\t1\nend\n", binary),
        (b"table\t8\t1\t1\non\t11111111\t1\nend\n", binary),
        (b"table\t3\t1\t1\non\t3\t1\nend", "no line end follows it"),
    ] {
        let said = String::from_utf8(RMFORM.run(&[], text).stderr).expect("words");
        assert!(said.ends_with(&format!("; {words}\n")), "{said}");
        RMFORM.check_judged(text);
    }
    for text in [
        &b"table\t9\t1\t1\nend\n"[..],
        b"table\t4\t1\t1\non\t12\t1\non\t11\t1\nend\n",
        b"table\t1\t1\t1\non\t1\t1\non\t0\t1\nend\n",
        b"table\t9\t1\t1\non\t000000001\t1\nend\n",
        b"",
    ] {
        let said = String::from_utf8(RMFORM.run(&[], text).stderr).expect("words");
        assert!(!said.is_empty() && !said.contains(';'), "{said}");
        RMFORM.check_judged(text);
    }
}

#[test]
fn a_file_by_name() {
    RMFORM.check_a_file_by_name();
}

#[test]
fn usage_and_missing_files() {
    RMFORM.check_usage_and_missing_files();
}
