//! The designs of `examples/`: `rmform` writes each stored listing, the evaluator agrees, and `rmcheck` says
//! `same` of a `form` or `form2` listing and refuses a `kron` listing with 11, line 1; the design that is there
//! with its outputs the other way round, the one with outputs left out, the one for both families, the one of the
//! free class beside every digit, and those with `-` beside what it means; and the edited listings of
//! `examples/checks/`, with the line that `rmcheck` writes for each.

use outside_cases::check;
use outside_cases::class::{Class, before_inverters};
use outside_cases::examples::{directory, tables};
use outside_cases::family::Family;
use outside_cases::outputs::Choice;
use outside_cases::program::{Written, run, run_check};
use outside_cases::seeded::tables::output_bits;
use outside_cases::text::listing::Listing;
use outside_cases::text::{Design, Kind, printed};
use std::fs::{read, read_dir};
use std::path::PathBuf;

fn design(text: &[u8]) -> Design {
    outside_cases::text::read(text).expect("a sound text")
}

fn is_kronecker(text: &[u8]) -> bool {
    design(text).kind == Kind::Kronecker
}

/// How the listing of this text begins.
fn first_word(text: &[u8]) -> &'static str {
    if is_kronecker(text) { "kron" } else { design(text).family.form_word() }
}

#[test]
fn listings_are_written() {
    let tables = tables();
    assert!(tables.len() >= 17, "{} designs", tables.len());
    for table in tables {
        let text = read(&table).expect("a table text");
        let listing = read(table.with_extension("listing")).expect("its listing");
        let first = listing.split(|&byte| byte == b'\t').next();
        assert_eq!(first, Some(first_word(&text).as_bytes()), "{}", table.display());
        assert_eq!(run(&[&text], || ()), listing, "{}", table.display());
        assert_eq!(printed(&text), listing, "{}", table.display());
    }
}

#[test]
fn listings_are_judged() {
    for table in tables() {
        let text = read(&table).expect("a table text");
        let wanted: &[u8] = if is_kronecker(&text) { b"refused\t11\t1\n" } else { b"same\n" };
        let listing = table.with_extension("listing");
        assert_eq!(run_check(&[&table, &listing]).stdout, wanted, "{}", table.display());
    }
}

/// One design with every output the other way round: the listing is the same but for the inverters.
#[test]
fn outputs_the_other_way_round() {
    let tables = ["bcd-7-segment.table", "bcd-7-segment-low.table"];
    let [plain, low] = tables.map(|name| {
        let table = directory().join(name);
        let design = design(&read(&table).expect("a table text"));
        let listing = read(table.with_extension("listing")).expect("its listing");
        (Listing::read(&design, &listing).expect("a sound listing"), design)
    });
    let mask = output_bits(plain.1.m);
    assert_eq!(before_inverters(&plain.1.table, mask), low.1.table);
    assert_eq!(Listing { inverted: plain.0.inverted ^ mask, ..plain.0 }, low.0);
}

/// One design with outputs left out: the text is made from the whole's, and it costs less.
#[test]
fn outputs_left_out() {
    let tables = ["bcd-7-segment.table", "bcd-7-segment-e-g.table"];
    let texts = tables.map(|name| read(directory().join(name)).expect("a table text"));
    assert_eq!(Choice::new(0b101_0000).of_text(&texts[0]), texts[1]);
    let [whole, left] = texts.map(|text| {
        let listing = run(&[&text], || ());
        Listing::read(&design(&text), &listing).expect("a sound listing").counted()
    });
    assert!(Family::One.order(left) < Family::One.order(whole));
}

/// One design for both families: the tables are the same, each listing is the cheaper one in its own family's
/// order, and beside the other text it is refused.
#[test]
fn families_side_by_side() {
    let tables = ["signed-multiplier.table", "signed-multiplier-family2.table"];
    let tables = tables.map(|name| directory().join(name));
    let listings = [&tables[0], &tables[1]].map(|table| table.with_extension("listing"));
    let designs = [&tables[0], &tables[1]].map(|table| design(&read(table).expect("a table text")));
    assert_eq!(designs[0].clone().of_family(Family::Two), designs[1]);
    let cost = |place: usize| {
        let listing = read(&listings[place]).expect("its listing");
        Listing::read(&designs[place], &listing).expect("a sound listing").counted()
    };
    let [one, two] = [cost(0), cost(1)];
    assert!(Family::One.order(one) < Family::One.order(two));
    assert!(Family::Two.order(two) < Family::Two.order(one));
    for pair in [[&tables[0], &listings[1]], [&tables[1], &listings[0]]] {
        assert_eq!(run_check(&pair.map(PathBuf::as_path)).stdout, b"refused\t12\t1\n");
    }
}

/// The design of the free class: at `f2` it is cheaper than at every digit, and beside the text with a digit its listing
/// is refused.
#[test]
fn free_class_beside_digits() {
    let table = directory().join("bus-requests.table");
    let own = design(&read(&table).expect("a table text"));
    assert_eq!(own.class(), Class::Free(2));
    let cost = |design: &Design| {
        let listing = run(&[&design.text()], || ());
        Listing::read(design, &listing).expect("a sound listing").counted()
    };
    for class in Class::every_block(own.n) {
        let digit = Design { kind: Kind::Mixed(class), ..own.clone() };
        assert!(Family::One.order(cost(&own)) < Family::One.order(cost(&digit)));
        let (text, listing) = (Written::new(&digit.text()), table.with_extension("listing"));
        assert_eq!(run_check(&[text.path(), &listing]).stdout, b"refused\t12\t1\n");
    }
}

/// The designs with `-`, of one input and of three, in both families: the listing is that of the text with `f1` or `f2`,
/// which is shown.
#[test]
fn dash_beside_what_it_means() {
    for (name, field) in
        [("lid-contact", "f1"), ("bus-requests-dash", "f2"), ("bus-requests-family2", "f2")]
    {
        let table = directory().join(name).with_extension("table");
        let (text, own) = (read(&table).expect("a table text"), table.with_extension("listing"));
        let design = design(&text);
        assert_eq!(text, design.text_with("-"), "{name}");
        let listing = read(&own).expect("its listing");
        assert_eq!(run(&[&design.text_with(field)], || ()), listing, "{name}");
        let shown = listing.split(|&byte| byte == b'\t').nth(3);
        assert_eq!(shown, Some(field.as_bytes()), "{name}");
        let digit = Written::new(&design.text_with("1"));
        assert_eq!(run_check(&[digit.path(), &own]).stdout, b"refused\t12\t1\n", "{name}");
    }
    let [written_out, dashed] = ["bus-requests.listing", "bus-requests-dash.listing"]
        .map(|name| read(directory().join(name)).expect("a listing"));
    assert_eq!(written_out, dashed);
}

const TILL: &str = "till-wake.table";
const BUS: &str = "bus-requests-dash.table";

/// The listings of `examples/checks/`, the table that each stands beside, and the line for it, by hand.
const CHECKS: [(&str, &str, &str); 12] = [
    ("against-i", TILL, "not of the class\n"),
    ("block-disagrees", TILL, "not of the class\n"),
    ("dash-shown", BUS, "refused\t11\t1\n"),
    ("dearer", TILL, "same\n"),
    ("differs", TILL, "differs\t4\n"),
    ("digit-for-dash", BUS, "refused\t12\t1\n"),
    ("inverted", TILL, "differs\t0\n"),
    ("inverter-and-constant", TILL, "same\n"),
    ("line-moved", TILL, "refused\t11\t5\n"),
    ("no-inverters", TILL, "refused\t11\t2\n"),
    ("other-family", TILL, "refused\t12\t1\n"),
    ("term-removed", TILL, "refused\t12\t1\n"),
];

#[test]
fn edited_listings_are_judged() {
    let directory = directory();
    let edited = read_dir(directory.join("checks")).expect("the edited listings are there");
    assert_eq!(edited.count(), CHECKS.len());
    for (name, table, line) in CHECKS {
        let table = directory.join(table);
        let path = directory.join("checks").join(name).with_extension("listing");
        let [text, listing] = [&table, &path].map(|path| read(path).expect("a file"));
        assert_eq!(run_check(&[&table, &path]).stdout, line.as_bytes(), "{name}");
        assert_eq!(check::printed(&text, &listing), line.as_bytes(), "{name}");
    }
}
