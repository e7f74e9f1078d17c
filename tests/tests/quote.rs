//! W-209, the quotation of a table text: beside quotations that are counted by hand, beside the evaluator's, and beside
//! compiling a copy of the text into a buffer long enough.

use outside_cases::calls::{self, QuoteAnswer};
use outside_cases::cases::stored_texts;
use outside_cases::class::{Class, Cost};
use outside_cases::evaluator::Refusal;
use outside_cases::examples::tables;
use outside_cases::family::Family;
use outside_cases::lent::{self, compiled, run_compile, run_quote};
use outside_cases::marked::families::EXAMPLE_TWO;
use outside_cases::marked::longest::longest_listings;
use outside_cases::marked::{EXAMPLE, accepted, bytes, refused};
use outside_cases::seeded::Seeded;
use outside_cases::seeded::tables::{
    Maker, any_table, combined_table, every_table, random_table, sparse_table,
};
use outside_cases::seeded::texts::{
    TELLING_BYTES, damaged_text, every_k_field, kronecker_text, sound_text, with_dash_somewhere,
    with_f_somewhere, with_k_somewhere, with_other_k, with_other_lines, with_other_word,
};
use outside_cases::text::quotation::{Quotation, answer, quote};
use outside_cases::text::{Design, Kind, read, stated_and_counted};
use outside_cases::words::refusal;
use std::collections::BTreeSet;
use std::fs;

/// The quotation of a text beside compiling a copy of it. Refused texts have the same number and line, which is one of
/// the text's own. For others the numbers are those of the listing in a buffer long enough: its length, the counts on
/// its first line and those of its `term` lines. A buffer of the quoted length is enough, and one byte less is too short.
#[track_caller]
fn check_copy(text: &[u8]) -> QuoteAnswer {
    let (quoted, compiled, shown) = (run_quote(text), compiled(text), text.escape_ascii());
    let listed = compiled.as_deref().map(Quotation::of).map_err(|refusal| *refusal);
    assert_eq!(quoted, answer(listed), "{shown}");
    let [number, line, products, literals, length] = quoted;
    if let Ok(listing) = compiled {
        let design = read(text).expect("the text is accepted");
        let cost = Cost::new(products as usize, literals as usize);
        assert_eq!(stated_and_counted(&design, &listing), Some([cost; 2]), "{shown}");
        for (room, wanted) in [(length, [0, 0, length]), (length - 1, [10, 0, 0])] {
            assert_eq!(run_compile(text, &vec![0; room as usize]).0, wanted, "{shown}");
        }
    } else {
        assert!((1..=6).contains(&number) && line > 0, "{shown}: {quoted:?}");
    }
    quoted
}

/// The same, and beside the evaluator's quotation.
#[track_caller]
fn check_text(text: &[u8]) -> QuoteAnswer {
    let quoted = check_copy(text);
    assert_eq!(quoted, answer(quote(text)), "{}", text.escape_ascii());
    quoted
}

/// The quotation of a text beside compiling a copy of it, and beside this listing or this line `refused`.
#[track_caller]
fn check_printed(text: &[u8], printed: &[u8]) {
    let wanted = match refusal(printed) {
        Some((number, line)) => Err(Refusal { number: number as u64, line: line as u64 }),
        None => Ok(Quotation::of(printed)),
    };
    assert_eq!(check_copy(text), answer(wanted), "{}", text.escape_ascii());
}

/// Texts with their listings, and products, literals and length counted in these by hand: a first line has one byte for
/// each character, tab and byte 10, and the other lines have 5 + m bytes (`inv`), 7 + n + m (`term`) and 4 (`end`).
#[rustfmt::skip]
const QUOTED: [(&[u8], &[u8], [u64; 3]); 23] = [
    // Document 01's example, as W-205 changed it: 19 + 7 + 11 + 4 bytes.
    (EXAMPLE, b"form 2 2 1 1 2 1 2\ninv 10\nterm 00 11\nend\n", [1, 2, 41]),
    // All zero and all one, at each k: 19 + 6 + 4.
    (b"table 2 1 0\nend\n", b"form 2 1 0 0 0 0 0\ninv 0\nend\n", [0, 0, 29]),
    (b"table 2 1 1\nend\n", b"form 2 1 1 1 0 0 0\ninv 0\nend\n", [0, 0, 29]),
    (b"table 2 1 2\nend\n", b"form 2 1 2 3 0 0 0\ninv 0\nend\n", [0, 0, 29]),
    (b"table 2 1 0\non 0 1\non 1 1\non 2 1\non 3 1\nend\n", b"form 2 1 0 0 0 0 0\ninv 1\nend\n", [0, 0, 29]),
    (b"table 2 1 1\non 0 1\non 1 1\non 2 1\non 3 1\nend\n", b"form 2 1 1 1 0 0 0\ninv 1\nend\n", [0, 0, 29]),
    (b"table 2 1 2\non 0 1\non 1 1\non 2 1\non 3 1\nend\n", b"form 2 1 2 3 0 0 0\ninv 1\nend\n", [0, 0, 29]),
    // Only point 0 on: 19 + 6 + 9 + 4.
    (b"table 1 1 0\non 0 1\nend\n", b"form 1 1 0 0 1 1 1\ninv 0\nterm 0 1\nend\n", [1, 1, 38]),
    // Document 01's last design, at each k: 19 + 7 + 2 x 11 + 4.
    (b"table 2 2 0\non 1 10\non 2 01\non 3 10\nend\n", b"form 2 2 0 0 1 2 3\ninv 10\nterm -0 10\nterm 10 01\nend\n", [2, 3, 52]),
    (b"table 2 2 1\non 1 10\non 2 01\non 3 10\nend\n", b"form 2 2 1 1 0 2 3\ninv 00\nterm -1 10\nterm 10 01\nend\n", [2, 3, 52]),
    (b"table 2 2 2\non 1 10\non 2 01\non 3 10\nend\n", b"form 2 2 2 3 0 2 3\ninv 10\nterm -0 10\nterm 10 01\nend\n", [2, 3, 52]),
    // `K` has no inverters: all one is a product. 16 + 4, 16 + 10 + 4, 16 + 2 x 11 + 4, 22 + 16 + 4.
    (b"table 2 2 K\nend\n", b"kron 2 2 SS 0 0\nend\n", [0, 0, 20]),
    (b"table 2 1 K\non 0 1\non 1 1\non 2 1\non 3 1\nend\n", b"kron 2 1 PP 1 0\nterm -- 1\nend\n", [1, 0, 30]),
    (b"table 2 2 K\non 0 10\non 1 10\non 3 01\nend\n", b"kron 2 2 SP 2 3\nterm 0- 10\nterm 11 01\nend\n", [2, 3, 42]),
    (b"table 8 1 K\non 255 1\nend\n", b"kron 8 1 SSSSSSSS 1 8\nterm 11111111 1\nend\n", [1, 8, 42]),
    // One design of both families. Family one has fewer products, family two the lower charge: 20 + 7 + 9 x 13 + 4, and
    // 23 + 7 + 10 x 13 + 4.
    (
        b"table 4 2 0\non 3 01\non 6 11\non 9 01\non 10 11\non 11 10\non 13 11\non 14 10\non 15 01\nend\n",
        b"form 4 2 0 0 0 9 24\ninv 00\nterm --11 01\nterm -11- 11\nterm -111 10\nterm 1--1 01\nterm 1-1- 11\n\
          term 1-11 01\nterm 11-1 10\nterm 111- 10\nterm 1111 10\nend\n",
        [9, 24, 148],
    ),
    (
        b"table2 4 2 0\non 3 01\non 6 11\non 9 01\non 10 11\non 11 10\non 13 11\non 14 10\non 15 01\nend\n",
        b"form2 4 2 0 0 11 10 19\ninv 10\nterm ---0 01\nterm --0- 11\nterm -1-- 11\nterm -1-0 10\nterm -10- 01\n\
          term 0--- 11\nterm 0-0- 10\nterm 0-00 01\nterm 01-- 10\nterm 0100 10\nend\n",
        [10, 19, 164],
    ),
    // `f2`, three products: 20 + 8 + 3 x 13 + 4.
    (
        b"table 3 3 f2\non 4 001\non 5 100\non 6 010\non 7 110\nend\n",
        b"form 3 3 f2 3 0 3 7\ninv 000\nterm 1-1 100\nterm 11- 010\nterm 100 001\nend\n",
        [3, 7, 71],
    ),
    // `-` is `f1` for one input, and `f2` for document 02's design of W-207: 20 + 6 + 9 + 4, 21 + 6 + 4 and
    // 20 + 7 + 2 x 12 + 4. The listing shows the longer field.
    (b"table 1 1 -\non 0 1\nend\n", b"form 1 1 f1 1 0 1 1\ninv 0\nterm 0 1\nend\n", [1, 1, 39]),
    (b"table2 1 1 -\nend\n", b"form2 1 1 f1 1 0 0 0\ninv 0\nend\n", [0, 0, 31]),
    (b"table 3 2 -\non 5 10\non 6 01\non 7 10\nend\n", b"form 3 2 f2 3 0 2 5\ninv 00\nterm 1-1 10\nterm 110 01\nend\n", [2, 5, 55]),
    // An i of three digits: 21 + 13 + 23 + 4, and 22 + 13 + 23 + 4.
    (b"table 8 8 0\non 0 00000001\nend\n", b"form 8 8 0 0 255 1 8\ninv 00000000\nterm 00000000 00000001\nend\n", [1, 8, 61]),
    (b"table 8 8 f1\non 0 00000001\nend\n", b"form 8 8 f1 1 254 1 8\ninv 00000000\nterm 00000000 00000001\nend\n", [1, 8, 62]),
];

#[test]
fn quotations_by_hand() {
    for (text, listing, [products, literals, length]) in QUOTED {
        let (text, listing) = (bytes(text), bytes(listing));
        let wanted = [0, 0, products, literals, length];
        assert_eq!(check_text(&text), wanted, "{}", text.escape_ascii());
        assert_eq!(compiled(&text), Ok(listing.clone()), "{}", text.escape_ascii());
        assert_eq!(listing.len() as u64, length, "{}", listing.escape_ascii());
    }
}

#[test]
fn marked_texts() {
    for (text, listing) in accepted() {
        check_printed(&bytes(text), &bytes(listing));
    }
    for (text, number, line) in refused() {
        let text = bytes(text);
        assert_eq!(check_text(&text), [number, line, 0, 0, 0], "{}", text.escape_ascii());
    }
}

/// The stored cases, beside the evaluator's answers that are stored with them.
#[test]
fn stored_cases() {
    let cases = stored_texts();
    assert!(cases.len() > 600, "{} texts", cases.len());
    for (text, printed) in cases {
        check_printed(&text, &printed);
    }
}

/// The designs of `examples/`, beside their stored listings and the evaluator's.
#[test]
fn examples() {
    let tables = tables();
    assert!(tables.len() >= 17, "{} designs", tables.len());
    for table in tables {
        let text = fs::read(&table).expect("a table text");
        let listing = fs::read(table.with_extension("listing")).expect("its listing");
        let wanted = answer(Ok(Quotation::of(&listing)));
        assert_eq!(check_text(&text), wanted, "{}", table.display());
    }
}

/// The texts of a table with every k field: the digits, the `f` fields and `-` in both families, and `K`.
fn texts_of(n: usize, m: usize, table: Vec<u8>) -> Vec<Vec<u8>> {
    let design = Design::block(n, m, 0, table);
    let classes = Class::every(n).map(|class| Kind::Mixed(class).field());
    let fields: Vec<String> = classes.chain(["-".to_string()]).collect();
    let designs = Family::ALL.map(|family| design.clone().of_family(family));
    let mixed = designs.iter().flat_map(|design| fields.iter().map(|k| design.text_with(k)));
    mixed.chain([design.text_with("K")]).collect()
}

/// Every table of at most two inputs and two outputs.
#[test]
fn every_small_table() {
    for (n, m) in [(1, 1), (1, 2), (2, 1), (2, 2)] {
        for text in every_table(n, m).flat_map(|table| texts_of(n, m, table)) {
            check_text(&text);
        }
    }
}

/// Drawn tables of every n and m, of four sorts up to six inputs. With more inputs the evaluator, which is slow there,
/// takes part at one m.
#[test]
fn every_size() {
    let mut seeded = Seeded::new(121);
    let makers: [Maker; 4] = [any_table, random_table, sparse_table, combined_table];
    for n in 1..=8 {
        let evaluated = seeded.within(1, 8);
        for m in 1..=8 {
            for maker in &makers[..if n < 7 { 4 } else { 1 }] {
                for text in texts_of(n, m, maker(&mut seeded, n, m)) {
                    let check = if n < 7 || m == evaluated { check_text } else { check_copy };
                    assert_eq!(check(&text)[..2], [0, 0], "{}", text.escape_ascii());
                }
            }
        }
    }
}

/// Sizes and k fields, sound or not, after the word of either family. Every refusal of a first line is among them.
#[test]
fn first_lines() {
    let mut numbers = BTreeSet::new();
    for (n, m) in [0, 1, 2, 3, 9].into_iter().flat_map(|n| [0, 1, 8, 9].map(|m| (n, m))) {
        for k in every_k_field() {
            for word in Family::ALL.map(Family::table_word) {
                let text = format!("{word}\t{n}\t{m}\t{k}\non\t1\t{}\nend\n", "1".repeat(m));
                numbers.insert(check_text(text.as_bytes())[0]);
            }
        }
    }
    assert_eq!(numbers, (0..=4).collect());
}

/// Texts with damage, with a letter or `-` somewhere, and with other k fields, first words and lines. Refusals of every
/// line are among them, and some texts are still sound.
#[test]
fn broken_texts() {
    let mut seeded = Seeded::new(122);
    let mut numbers = BTreeSet::new();
    for round in 0..1500 {
        let most_inputs = if round % 50 == 0 { 6 } else { 3 };
        for break_text in [
            damaged_text,
            with_k_somewhere,
            with_f_somewhere,
            with_dash_somewhere,
            with_other_k,
            with_other_word,
            with_other_lines,
        ] {
            for text_of in [sound_text, kronecker_text] {
                let (_, text) = text_of(&mut seeded, most_inputs);
                numbers.insert(check_text(&break_text(&mut seeded, &text))[0]);
            }
        }
    }
    assert!(numbers.is_superset(&[0, 1, 4, 5, 6].into()), "{numbers:?}");
}

/// A small text of each kind of k and of each family cut at every place, with every byte dropped, and with every byte
/// changed into each telling one. Where a text is cut, the bytes that follow it in memory do not count.
#[test]
fn every_place_edited() {
    for text in [
        EXAMPLE,
        EXAMPLE_TWO,
        b"table 2 2 K\non 0 01\non 3 10\nend\n",
        b"table 3 2 f2\non 5 10\non 6 01\non 7 10\nend\n",
        b"table2 1 2 -\non 0 01\non 1 11\nend\n",
    ] {
        let text = bytes(text);
        for place in 0..text.len() {
            let (before, after) = text.split_at(place);
            let cut = lent::answer(|places| calls::quote(before, places));
            assert_eq!(cut, check_text(before), "{}", before.escape_ascii());
            check_text(&[before, &after[1..]].concat());
            for &byte in TELLING_BYTES {
                check_text(&[before, &[byte], &after[1..]].concat());
            }
        }
    }
}

#[test]
fn longest() {
    for (design, quotation) in longest_listings() {
        let (text, wanted) = (design.text(), answer(Ok(quotation)));
        assert_eq!(check_text(&text), wanted, "{:?}, {:?}", design.family, design.kind);
    }
}

/// The longest text: `table2`, an `f` field and all 256 points. All one has no product, and its listing is a first line
/// of 21 bytes, `inv` with 13, and `end`. With other bytes at its end the text is refused.
#[test]
fn longest_text() {
    let text = Design::free(8, 8, 2, vec![255; 256]).of_family(Family::Two).text();
    assert_eq!(text.len(), 4004);
    assert_eq!(check_text(&text), [0, 0, 0, 0, 21 + 13 + 4]);
    let points = text.strip_suffix(b"end\n").expect("a text ends so");
    for (end, number, line) in [
        (&b""[..], 6, 258),
        (b"end", 1, 258),
        (b"end\n\n", 6, 259),
        (b"end\nend\n", 6, 259),
        (b"on 255 11111111\nend\n", 5, 258),
        (b"on 256 11111111\nend\n", 5, 258),
        (b"on 256 1111111\nend\n", 1, 258),
        (&[b'0'; 20_000], 1, 258),
    ] {
        let text = [points, &bytes(end)].concat();
        assert_eq!(check_text(&text), [number, line, 0, 0, 0], "{}", end.escape_ascii());
    }
}
