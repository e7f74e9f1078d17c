//! The reading call and the text call against the evaluator's own reader, search and writer.

use outside_cases::check::{Verdict, check};
use outside_cases::class::{Class, Members};
use outside_cases::evaluator::{Refusal, places};
use outside_cases::family::Family;
use outside_cases::kronecker::{Kinds, order};
use outside_cases::lent::{listed, run_compile, run_read, written};
use outside_cases::marked::families::{COMPARED, Compared, EXAMPLE_TWO, OUTPUTS};
use outside_cases::marked::longest::longest_listings;
use outside_cases::marked::{EXAMPLE, accepted, bytes, refused};
use outside_cases::seeded::Seeded;
use outside_cases::seeded::tables::{any_table, every_table, random_table};
use outside_cases::seeded::texts::{
    DASH_FIELDS, F_FIELDS, K_FIELDS, TELLING_BYTES, WORD_ENDS, damaged_text, dash_text_of,
    every_k_field, free_text_of, kronecker_text, sound_text, sound_text_of, with_dash_somewhere,
    with_f_somewhere, with_k_somewhere, with_other_k, with_other_word,
};
use outside_cases::text::kron::KronListing;
use outside_cases::text::listing::Listing;
use outside_cases::text::quotation::Quotation;
use outside_cases::text::{Design, Kind, compile, judge_output, judge_read, read, read_answer};

/// The reading call on one text, with a lent table of this length.
fn check_read(seeded: &mut Seeded, text: &[u8], table_length: usize) {
    let (answer, table) = run_read(text, &seeded.bytes(table_length));
    let (judged, shown) = (judge_read(text, table_length), text.escape_ascii());
    assert_eq!(answer, read_answer(&judged), "{shown}");
    match judged {
        Ok(Design { n, table: wanted, .. }) => {
            assert_eq!(table.inside()[..places(n)], wanted, "{shown}");
            assert!(table.inside()[places(n)..].iter().all(|&byte| byte == 0), "{shown}");
        }
        Err(_) => table.check_untouched(),
    }
}

/// The text call on one text, with an output buffer of this length, against what it should answer.
fn check_output(
    seeded: &mut Seeded,
    text: &[u8],
    compiled: &Result<Vec<u8>, Refusal>,
    output_length: usize,
) {
    let (answer, output) = run_compile(text, &seeded.bytes(output_length));
    let shown = text.escape_ascii();
    let judged = match compiled {
        Ok(listing) => judge_output(listing, output_length),
        Err(refusal) => Err(*refusal),
    };
    match judged {
        Ok(listing) => {
            assert_eq!(answer, [0, 0, listing.len() as u64], "{shown}");
            let (written, kept) = output.inside().split_at(listing.len());
            assert_eq!(written.escape_ascii().to_string(), listing.escape_ascii().to_string());
            assert_eq!(kept, &output.before()[listing.len()..], "{shown}");
            check_lines(text, written);
        }
        Err(Refusal { number, line }) => {
            assert_eq!(answer, [number, line, 0], "{shown}");
            output.check_untouched();
        }
    }
}

/// What the written listing's own lines say is the table, and the counts are theirs.
fn check_lines(text: &[u8], written: &[u8]) {
    let design = read(text).expect("the text is accepted");
    if let Kind::Mixed(_) = design.kind {
        assert_eq!(check(text, written), Ok(Verdict::Same), "{}", text.escape_ascii());
        return;
    }
    let listing = KronListing::read(written).expect("a sound listing");
    assert_eq!((listing.letters.len(), listing.m), (design.n, design.m));
    assert!((0..places(design.n)).all(|p| listing.value(p) == design.table[p]));
    assert_eq!(listing.stated, listing.counted());
}

/// Both calls on one text: a table of 256 bytes, and an output buffer that is long enough.
fn check_text(seeded: &mut Seeded, text: &[u8]) {
    check_read(seeded, text, 256);
    let compiled = compile(text);
    let length = compiled.as_ref().map_or(0, Vec::len) + seeded.below(20);
    check_output(seeded, text, &compiled, length);
}

#[test]
fn marked_texts() {
    let mut seeded = Seeded::new(41);
    for (text, listing) in accepted() {
        let text = bytes(text);
        check_read(&mut seeded, &text, 256);
        check_output(&mut seeded, &text, &Ok(bytes(listing)), 6000);
    }
    for (text, number, line) in refused() {
        let text = bytes(text);
        check_read(&mut seeded, &text, 256);
        check_output(&mut seeded, &text, &Err(Refusal { number, line }), 6000);
    }
}

#[test]
fn small_sound_texts() {
    let mut seeded = Seeded::new(42);
    for _ in 0..3000 {
        let (design, text) = sound_text(&mut seeded, 4);
        assert_eq!(read(&text), Ok(design));
        check_text(&mut seeded, &text);
    }
}

#[test]
fn sound_texts_of_every_size() {
    let mut seeded = Seeded::new(43);
    for _ in 0..120 {
        let (_, text) = sound_text(&mut seeded, 8);
        check_text(&mut seeded, &text);
    }
}

/// Every n, m and k field, sound or not, after the word of either family, with no point and with one.
#[test]
fn every_first_line() {
    let mut seeded = Seeded::new(44);
    for (n, m) in (0..10).flat_map(|n| (0..10).map(move |m| (n, m))) {
        for k in every_k_field() {
            for word in Family::ALL.map(Family::table_word) {
                let (first, outputs) = (format!("{word}\t{n}\t{m}\t{k}\n"), "1".repeat(m));
                let text = format!("{first}on\t1\t{outputs}\nend\n");
                check_read(&mut seeded, text.as_bytes(), 256);
                check_read(&mut seeded, format!("{first}end\n").as_bytes(), 256);
                if n < 4 {
                    check_text(&mut seeded, text.as_bytes());
                }
            }
        }
    }
}

#[test]
fn damaged_texts() {
    let mut seeded = Seeded::new(45);
    for round in 0..8000 {
        let (_, text) = sound_text(&mut seeded, if round % 50 == 0 { 6 } else { 3 });
        let damaged = damaged_text(&mut seeded, &text);
        check_text(&mut seeded, &damaged);
    }
}

/// A small text of the free class.
const FREE: &[u8] = b"table 3 2 f2\non 5 10\non 6 01\non 7 10\nend\n";

/// Small texts, one with several lines, one with three digits in a point, one of family two and one of the free
/// class.
fn small_texts() -> [Vec<u8>; 5] {
    let three_digits = b"table 8 3 0\non 128 010\nend\n";
    [EXAMPLE, b"table 3 1 -\non 0 1\non 7 1\nend\n", three_digits, EXAMPLE_TWO, FREE].map(bytes)
}

#[test]
fn cut_at_every_place() {
    let mut seeded = Seeded::new(46);
    for text in small_texts() {
        (0..text.len()).for_each(|length| check_text(&mut seeded, &text[..length]));
    }
}

/// Every byte of a small text of each family and of the free class changed into every other.
#[test]
fn every_byte_changed() {
    let mut seeded = Seeded::new(47);
    for text in [EXAMPLE, EXAMPLE_TWO, FREE].map(bytes) {
        for place in 0..text.len() {
            for byte in 0..=255 {
                let mut changed = text.clone();
                changed[place] = byte;
                check_text(&mut seeded, &changed);
            }
        }
    }
}

/// A byte dropped, doubled, swapped with the next one, or a telling byte put in, at every place.
#[test]
fn every_place_edited() {
    let mut seeded = Seeded::new(48);
    for text in small_texts() {
        for place in 0..text.len() {
            let (before, after) = text.split_at(place);
            check_text(&mut seeded, &[before, &after[1..]].concat());
            check_text(&mut seeded, &[before, &after[..1], after].concat());
            if let [first, second, rest @ ..] = after {
                check_text(&mut seeded, &[before, &[*second, *first], rest].concat());
            }
            for &byte in TELLING_BYTES {
                check_text(&mut seeded, &[before, &[byte], after].concat());
            }
        }
    }
}

/// Refusals with a line of several digits, and lines longer than any sound one.
#[test]
fn long_texts() {
    let mut seeded = Seeded::new(49);
    for (family, class, longest) in [
        (Family::One, Class::Block(3), 4002),
        (Family::Two, Class::Block(3), 4003),
        (Family::One, Class::Free(2), 4003),
        (Family::Two, Class::Free(2), 4004),
    ] {
        let text = Design::of_class(8, 8, class, vec![255; 256]).of_family(family).text();
        assert_eq!(text.len(), longest);
        check_text(&mut seeded, &text);
        for length in (0..text.len()).step_by(61) {
            check_text(&mut seeded, &text[..length]);
        }
        let last = text.strip_suffix(b"end\n").expect("a text ends so");
        check_text(&mut seeded, &[last, b"on\t256\t11111111\nend\n"].concat());
        check_text(&mut seeded, &[last, b"on\t255\t11111111\nend\n"].concat());
        check_text(&mut seeded, &[last, b"on\t254\t1111111\nend\n"].concat());
        check_text(&mut seeded, &[&text[..], &text].concat());
    }
    for byte in [0, 9, 10, b'0', b't', 255] {
        check_text(&mut seeded, &vec![byte; 20_000]);
        check_text(&mut seeded, &[&b"table\t1\t1\t0\non\t0\t1"[..], &vec![byte; 20_000]].concat());
        check_text(
            &mut seeded,
            &[&b"table\t1\t1\t0\n"[..], &vec![byte; 20_000], b"\nend\n"].concat(),
        );
    }
}

/// Output buffers of every length around the listing's.
#[test]
fn output_lengths() {
    let mut seeded = Seeded::new(50);
    let small = |text: &Vec<u8>| read(text).is_ok_and(|design| design.n < 5);
    for text in accepted().map(|(text, _)| bytes(text)).filter(small) {
        let compiled = compile(&text);
        let length = compiled.as_ref().map_or(0, Vec::len);
        (0..=length + 3).for_each(|lent| check_output(&mut seeded, &text, &compiled, lent));
    }
    for _ in 0..200 {
        let (_, text) = sound_text(&mut seeded, 5);
        let compiled = compile(&text);
        let length = compiled.as_ref().map_or(0, Vec::len);
        for lent in [0, 1, length / 2, length - 1, length, length + 1, 2 * length] {
            check_output(&mut seeded, &text, &compiled, lent);
        }
    }
}

/// A bad text is refused by its own number whatever is lent.
#[test]
fn bad_text_and_bad_buffer() {
    let mut seeded = Seeded::new(51);
    for (text, number, line) in refused() {
        let text = bytes(text);
        for length in [0, 1, 255, 257, 300] {
            check_read(&mut seeded, &text, length);
            check_output(&mut seeded, &text, &Err(Refusal { number, line }), length % 255);
        }
    }
}

/// Lent tables of another length than 256.
#[test]
fn table_lengths() {
    let mut seeded = Seeded::new(52);
    for _ in 0..100 {
        let (design, text) = sound_text(&mut seeded, 8);
        for length in [0, 1, places(design.n), 255, 256, 257, 300, 512] {
            check_read(&mut seeded, &text, length);
        }
    }
}

#[test]
fn longest_listing() {
    let mut seeded = Seeded::new(53);
    for (design, Quotation { length: longest, .. }) in longest_listings() {
        let text = design.text();
        let compiled = compile(&text);
        assert_eq!(compiled.as_ref().map_or(0, Vec::len), longest);
        for length in [0, longest - 1, longest, longest + 1, 8192] {
            check_output(&mut seeded, &text, &compiled, length);
        }
    }
}

/// Full tables of eight inputs.
#[test]
fn full_tables() {
    let mut seeded = Seeded::new(54);
    for field in ["0", "1", "-", "2", "3", "f0", "f1", "f2"] {
        for m in [1, 8] {
            let design = Design::block(8, m, 0, random_table(&mut seeded, 8, m));
            for family in Family::ALL {
                check_text(&mut seeded, &design.clone().of_family(family).text_with(field));
            }
        }
    }
}

/// Every table of at most two inputs and two outputs with `K`.
#[test]
fn every_small_kronecker_table() {
    let mut seeded = Seeded::new(55);
    for (n, m) in [(1, 1), (1, 2), (2, 1), (2, 2)] {
        for table in every_table(n, m) {
            check_text(&mut seeded, &Design::kronecker(n, m, table).text());
        }
    }
}

#[test]
fn kronecker_texts() {
    let mut seeded = Seeded::new(56);
    for round in 0..1200 {
        let (design, text) = kronecker_text(&mut seeded, if round % 20 == 0 { 8 } else { 5 });
        assert_eq!(read(&text), Ok(design));
        check_text(&mut seeded, &text);
    }
}

/// Every n and m with `K`, with tables of each sort.
#[test]
fn kronecker_texts_of_every_size() {
    let mut seeded = Seeded::new(57);
    for n in 1..=8 {
        for m in 1..=8 {
            for table in [any_table(&mut seeded, n, m), random_table(&mut seeded, n, m)] {
                check_text(&mut seeded, &Design::kronecker(n, m, table).text());
            }
        }
    }
}

/// The call's listing with `K` is before every rival: an expansion of each of the 3^n kinds that gives the
/// table.
#[test]
fn kronecker_rivals() {
    let mut seeded = Seeded::new(58);
    for n in 1..=4 {
        let kinds = Kinds::new(n);
        for _ in 0..100 {
            let m = seeded.within(1, 8);
            let design = Design::kronecker(n, m, any_table(&mut seeded, n, m));
            let ours = KronListing::read(&written(&design.text())).expect("a sound listing");
            for rival in kinds.rivals(&design.table) {
                assert_eq!(rival.table(), design.table);
                let [ours, rival] =
                    [order(ours.counted(), &ours.letters), order(rival.cost, &rival.letters)];
                assert!(ours <= rival, "{rival:?} is before {ours:?}");
            }
        }
    }
}

#[test]
fn damaged_kronecker_texts() {
    let mut seeded = Seeded::new(59);
    for round in 0..3000 {
        let (_, text) = kronecker_text(&mut seeded, if round % 50 == 0 { 6 } else { 3 });
        let damage = if round % 2 == 0 { damaged_text } else { with_k_somewhere };
        let damaged = damage(&mut seeded, &text);
        check_text(&mut seeded, &damaged);
    }
}

/// A `K`, or nearly so, in every field of every line, and at every place of a text.
#[test]
fn k_everywhere() {
    let with_k = b"table 2 2 K\non 0 01\non 3 10\nend\n";
    letter_everywhere(60, &[EXAMPLE, with_k, EXAMPLE_TWO], b"K", &K_FIELDS);
}

/// An `f` field, or nearly so, in every field of every line, and an `f` at every place of a text.
#[test]
fn f_everywhere() {
    let one_input = b"table 1 2 1\non 0 01\nend\n";
    letter_everywhere(68, &[EXAMPLE, one_input, EXAMPLE_TWO, FREE], b"f", &F_FIELDS);
}

/// A `-`, or nearly so, in every field of every line, and at every place of a text, with one input too.
#[test]
fn dash_everywhere() {
    let one_input = b"table 1 2 -\non 0 01\nend\n";
    let dashed = b"table 2 2 -\non 0 01\non 3 10\nend\n";
    letter_everywhere(70, &[EXAMPLE, one_input, dashed, EXAMPLE_TWO, FREE], b"-", &DASH_FIELDS);
}

/// These fields in every field of every line, and this letter at every place of each text.
fn letter_everywhere(seed: u64, texts: &[&[u8]], letter: &[u8], others: &[&str]) {
    let mut seeded = Seeded::new(seed);
    for text in texts.iter().map(|text| bytes(text)) {
        let lines: Vec<&[u8]> = text.split_inclusive(|&byte| byte == b'\n').collect();
        for (place, line) in lines.iter().enumerate() {
            let fields: Vec<&[u8]> = line[..line.len() - 1].split(|&byte| byte == 9).collect();
            for field in 0..fields.len() {
                for other in others {
                    let mut fields = fields.clone();
                    fields[field] = other.as_bytes();
                    let line = [fields.join(&b"\t"[..]), b"\n".to_vec()].concat();
                    let mut changed = lines.clone();
                    changed[place] = &line;
                    check_text(&mut seeded, &changed.concat());
                }
            }
        }
        for place in 0..text.len() {
            let (before, after) = text.split_at(place);
            check_text(&mut seeded, before);
            check_text(&mut seeded, &[before, letter, after].concat());
            check_text(&mut seeded, &[before, letter, &after[1..]].concat());
        }
    }
}

/// Output buffers of every length around the listing's, and lent tables of other lengths, with `K`.
#[test]
fn kronecker_buffers() {
    let mut seeded = Seeded::new(61);
    for _ in 0..60 {
        let (_, text) = kronecker_text(&mut seeded, 5);
        let compiled = compile(&text);
        let length = compiled.as_ref().map_or(0, Vec::len);
        for lent in (length - 3..=length + 3).chain([0, 1, length / 2, 2 * length]) {
            check_output(&mut seeded, &text, &compiled, lent);
        }
        for length in [0, 1, 32, 255, 256, 257, 512] {
            check_read(&mut seeded, &text, length);
        }
    }
}

/// The designs on which the families, or the ties of one, choose differently, with the figures of each.
#[test]
fn compared_designs() {
    let mut seeded = Seeded::new(62);
    for Compared { n, k, table, one, two, .. } in COMPARED {
        for (family, figures) in [(Family::One, one), (Family::Two, two)] {
            let design = Design::block(n, OUTPUTS, k, table.to_vec()).of_family(family);
            let text = design.text();
            check_text(&mut seeded, &text);
            assert_eq!(listed(&design).figures(), figures, "{design:?}");
        }
    }
}

/// The call's listing is before every rival in its family's order: each member with each inversion mask that
/// gives the table.
#[test]
fn family_rivals() {
    let mut seeded = Seeded::new(63);
    for n in 1..=4usize {
        for class in Class::every(n).filter(|&class| Members::few(n, class)) {
            let members = Members::new(n, class);
            for _ in 0..12 {
                let m = seeded.within(1, members.most_outputs());
                let design = Design::of_class(n, m, class, any_table(&mut seeded, n, m));
                for family in Family::ALL {
                    let written = listed(&design.clone().of_family(family));
                    let Listing { mixed, fixed, inverted, .. } = written;
                    let ours = (family.order(written.counted()), inverted, mixed, fixed);
                    let mut rivals = members.rivals(m, &design.table);
                    assert!(rivals.all(|rival| ours <= rival.order(family)));
                }
            }
        }
    }
}

/// Texts of family two of every n, class and k, with tables of each sort.
#[test]
fn family_texts_of_every_size() {
    let mut seeded = Seeded::new(64);
    for n in 1..=8usize {
        for class in Class::every(n) {
            for table in [any_table, random_table] {
                let m = seeded.within(1, 8);
                let design = Design::of_class(n, m, class, table(&mut seeded, n, m));
                check_text(&mut seeded, &design.of_family(Family::Two).text());
            }
        }
    }
}

/// First words around `table` and `table2`, with every kind of k.
#[test]
fn words_around() {
    let mut seeded = Seeded::new(65);
    for end in WORD_ENDS {
        for stem in ["table", "Table", "tabl", "form", ""] {
            for (n, k) in [
                (2, "1"),
                (2, "-"),
                (2, "K"),
                (2, "f2"),
                (9, "1"),
                (9, "K"),
                (9, "f2"),
                (2, "3"),
                (2, "f3"),
                (2, "x"),
            ] {
                let text = format!("{stem}{end}\t{n}\t2\t{k}\non\t3\t01\nend\n");
                check_text(&mut seeded, text.as_bytes());
            }
        }
    }
    for _ in 0..1500 {
        let (_, text) = sound_text(&mut seeded, 3);
        let changed = with_other_word(&mut seeded, &text);
        check_text(&mut seeded, &changed);
    }
}

/// Family two with damage, and with a `K` somewhere.
#[test]
fn damaged_family_texts() {
    let mut seeded = Seeded::new(66);
    for round in 0..3000 {
        let (_, text) =
            sound_text_of(&mut seeded, Family::Two, if round % 50 == 0 { 6 } else { 3 });
        let damage = [damaged_text, with_k_somewhere, with_other_word][round % 3];
        let damaged = damage(&mut seeded, &text);
        check_text(&mut seeded, &damaged);
    }
}

/// Texts of either family with damage, with a letter somewhere, and with other k fields and first words.
fn check_damaged(
    seed: u64,
    text_of: fn(&mut Seeded, Family, usize) -> (Design, Vec<u8>),
    with_letter: fn(&mut Seeded, &[u8]) -> Vec<u8>,
) {
    let mut seeded = Seeded::new(seed);
    for round in 0..4000 {
        let (family, most) = (Family::ALL[round % 2], if round % 50 == 0 { 6 } else { 3 });
        let (_, text) = text_of(&mut seeded, family, most);
        let damage = [damaged_text, with_letter, with_other_k, with_other_word][round % 4];
        let damaged = damage(&mut seeded, &text);
        check_text(&mut seeded, &damaged);
    }
}

#[test]
fn damaged_free_texts() {
    check_damaged(67, free_text_of, with_f_somewhere);
}

#[test]
fn damaged_dashed_texts() {
    check_damaged(93, dash_text_of, with_dash_somewhere);
}

/// Every table of at most two inputs and two outputs with every `f` field, in both families.
#[test]
fn every_small_free_table() {
    let mut seeded = Seeded::new(69);
    for (n, m) in [(1, 1), (1, 2), (2, 1), (2, 2)] {
        for (table, class) in every_table(n, m)
            .flat_map(|table| Class::every_free(n).map(move |c| (table.clone(), c)))
        {
            let design = Design::of_class(n, m, class, table);
            for family in Family::ALL {
                check_text(&mut seeded, &design.clone().of_family(family).text());
            }
        }
    }
}

/// With `-` a text is read and compiled as with `f1` for one input and with `f2` for more: the answers are the same, with
/// the same bytes, and the listing has that field.
fn check_dash(seeded: &mut Seeded, design: &Design) {
    let field = if design.n == 1 { "f1" } else { "f2" };
    let [dashed, written_out] = ["-", field].map(|field| design.text_with(field));
    check_text(seeded, &dashed);
    let table = seeded.bytes(256);
    let read = [&dashed, &written_out].map(|text| {
        let (answer, table) = run_read(text, &table);
        (answer, table.inside().to_vec())
    });
    assert_eq!(read[0], read[1], "{}", dashed.escape_ascii());
    let listing = written(&dashed);
    assert_eq!(listing, written(&written_out), "{}", dashed.escape_ascii());
    let shown = listing.split(|&byte| byte == b'\t' || byte == b'\n').nth(3);
    assert_eq!(shown, Some(field.as_bytes()), "{}", dashed.escape_ascii());
}

/// Every table of at most two inputs and two outputs with `-`, in both families.
#[test]
fn every_small_dashed_table() {
    let mut seeded = Seeded::new(91);
    for (n, m) in [(1, 1), (1, 2), (2, 1), (2, 2)] {
        for table in every_table(n, m) {
            let design = Design::dashed(n, m, table);
            for family in Family::ALL {
                check_dash(&mut seeded, &design.clone().of_family(family));
            }
        }
    }
}

/// Texts with `-` of every n and m, with tables of each sort, in both families.
#[test]
fn dashed_texts_of_every_size() {
    let mut seeded = Seeded::new(92);
    for (n, m) in (1..=8).flat_map(|n| (1..=8).map(move |m| (n, m))) {
        for table in [any_table, random_table] {
            let design = Design::dashed(n, m, table(&mut seeded, n, m));
            for family in Family::ALL {
                check_dash(&mut seeded, &design.clone().of_family(family));
            }
        }
    }
}
