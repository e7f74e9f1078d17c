//! The fitter's check against the evaluator's: marked pairs, drawn pairs of several sorts, and every small
//! change of a listing.

use outside_cases::calls;
use outside_cases::check::{self, Verdict};
use outside_cases::class::{Class, Expansion, masks};
use outside_cases::evaluator::{Refusal, holds, places};
use outside_cases::family::Family;
use outside_cases::lent::{Lent, answer, listed, written};
use outside_cases::marked::families::{EXAMPLE_LISTING_TWO, EXAMPLE_TWO};
use outside_cases::marked::pairs::{self, EXAMPLE_BEFORE, EXAMPLE_LISTING};
use outside_cases::marked::{ACCEPTED, EXAMPLE, bytes, dash, families, free, kronecker, refused};
use outside_cases::seeded::Seeded;
use outside_cases::seeded::listings::{
    any_listing, any_member, break_line, change_counts, change_cube, change_mask, change_outputs,
    change_polarities, complement_where, drawn_listing, drop_term, empty_listing, other_class,
    trade_inverters, true_counts, with_broken_mask, with_other_byte, with_other_sizes,
};
use outside_cases::seeded::tables::{longest_listing_table, random_table};
use outside_cases::seeded::texts::{
    TELLING_BYTES, damaged_text, dash_text_of, kronecker_text, sound_text, with_dash_for_k,
    with_k_somewhere, with_other_k, with_other_lines, with_other_word,
};
use outside_cases::text::listing::Listing;
use outside_cases::text::{Design, Kind, compile};
use std::collections::BTreeMap;

/// How many pairs are drawn, the same number of each sort.
const PAIRS: usize = 15_360;

/// How often a sort gives each of its outcomes, at least.
const LEAST: usize = 5;

/// A table text and a listing.
struct Pair {
    text: Vec<u8>,
    listing: Vec<u8>,
}

/// What can be said of a pair, without its line or point.
#[derive(Clone, Copy, Debug, PartialEq, Eq, PartialOrd, Ord)]
enum Outcome {
    Same,
    Differs,
    NotOfClass,
    BadTable,
    BadListing,
    OtherListing,
}
use Outcome::*;

fn outcome(judged: Result<Verdict, Refusal>) -> Outcome {
    match judged {
        Ok(Verdict::Same) => Same,
        Ok(Verdict::Differs { .. }) => Differs,
        Ok(Verdict::NotOfClass) => NotOfClass,
        Err(Refusal { number: 11, .. }) => BadListing,
        Err(Refusal { number: 12, .. }) => OtherListing,
        Err(_) => BadTable,
    }
}

/// Makes the call with margins around every buffer, and compares its answer.
#[track_caller]
fn check_answer(text: &[u8], listing: &[u8], wanted: calls::CheckAnswer) {
    let (lent_text, lent_listing) = (Lent::new(text), Lent::new(listing));
    let found = answer(|places| calls::check(lent_text.inside(), lent_listing.inside(), places));
    lent_text.check_untouched();
    lent_listing.check_untouched();
    assert_eq!(found, wanted, "{}\n{}", text.escape_ascii(), listing.escape_ascii());
}

/// The call on one pair against the evaluator.
#[track_caller]
fn check_pair(text: &[u8], listing: &[u8]) -> Outcome {
    let judged = check::check(text, listing);
    check_answer(text, listing, check::answer(judged));
    outcome(judged)
}

/// A design, mostly of few inputs, and its text.
fn drawn(seeded: &mut Seeded) -> (Design, Vec<u8>) {
    let most_inputs = if seeded.once_in(25) { 8 } else { 4 };
    sound_text(seeded, most_inputs)
}

/// The same, with a table that is not constant: a constant one has no term.
fn drawn_with_terms(seeded: &mut Seeded) -> (Design, Vec<u8>) {
    let (design, text) = drawn(seeded);
    let constant = design.table.iter().all(|&byte| byte == design.table[0]);
    if constant { drawn_with_terms(seeded) } else { (design, text) }
}

type Change = fn(&mut Seeded, &mut Listing);

/// Our listing of a table that is not constant, with a change.
fn changed(seeded: &mut Seeded, change: Change) -> Pair {
    changed_twice(seeded, change, |_, _| ())
}

/// The same with two changes.
fn changed_twice(seeded: &mut Seeded, first: Change, second: Change) -> Pair {
    let (design, text) = drawn_with_terms(seeded);
    let mut listing = listed(&design);
    first(seeded, &mut listing);
    second(seeded, &mut listing);
    Pair { text, listing: listing.bytes() }
}

/// A sort of pairs, with the outcomes that it gives: each of them often enough, and no other.
struct Sort {
    name: &'static str,
    outcomes: &'static [Outcome],
    pair: fn(&mut Seeded) -> Pair,
}

const SORTS: [Sort; 48] = [
    Sort { name: "our listing", outcomes: &[Same], pair: own_listing },
    Sort {
        name: "a character of a cube",
        outcomes: &[Differs, NotOfClass, BadListing, OtherListing],
        pair: |seeded| changed(seeded, change_cube),
    },
    Sort {
        name: "a character of a cube or a term less, with true counts",
        outcomes: &[Differs, NotOfClass, BadListing],
        pair: |seeded| changed(seeded, change_with_true_counts),
    },
    Sort {
        name: "a character of the outputs",
        outcomes: &[Differs, BadListing],
        pair: |seeded| changed(seeded, change_outputs),
    },
    Sort {
        name: "a count",
        outcomes: &[OtherListing],
        pair: |seeded| changed(seeded, change_counts),
    },
    Sort {
        name: "a line, or the end",
        outcomes: &[Same, BadListing, OtherListing],
        pair: other_lines,
    },
    Sort {
        name: "M or i",
        outcomes: &[Same, NotOfClass],
        pair: |seeded| changed(seeded, change_polarities),
    },
    Sort {
        name: "a character of the mask",
        outcomes: &[Differs],
        pair: |seeded| changed(seeded, change_mask),
    },
    Sort {
        name: "M or i, and a character of the mask",
        outcomes: &[Differs, NotOfClass],
        pair: |seeded| changed_twice(seeded, change_polarities, change_mask),
    },
    Sort {
        name: "inverters exchanged for the constant",
        outcomes: &[Same],
        pair: |seeded| changed(seeded, trade_inverters),
    },
    Sort {
        name: "inverters exchanged for the constant, with wrong counts",
        outcomes: &[OtherListing],
        pair: |seeded| changed_twice(seeded, trade_inverters, change_counts),
    },
    Sort {
        name: "a broken mask",
        outcomes: &[BadListing],
        pair: |seeded| broken_mask(seeded, |_, _| ()),
    },
    Sort {
        name: "a broken mask, and wrong counts, a bad line, M or i",
        outcomes: &[BadListing],
        pair: |seeded| {
            let change = *seeded.pick(&[change_counts, break_line, change_polarities]);
            broken_mask(seeded, change)
        },
    },
    Sort {
        name: "a broken mask, and another n, m, k or family",
        outcomes: &[BadListing, OtherListing],
        pair: broken_mask_of_other_sizes,
    },
    Sort {
        name: "a broken mask beside a K text",
        outcomes: &[OtherListing],
        pair: broken_mask_beside_k,
    },
    Sort {
        name: "a listing of before there were inverters",
        outcomes: &[BadListing],
        pair: before_inverters,
    },
    Sort {
        name: "n, m or k",
        outcomes: &[BadListing, OtherListing],
        pair: |seeded| other_sizes_line(seeded, |_, _| ()),
    },
    Sort {
        name: "n, m or k, and a bad line",
        outcomes: &[BadListing, OtherListing],
        pair: |seeded| other_sizes_line(seeded, break_line),
    },
    Sort {
        name: "a count and a bad line",
        outcomes: &[BadListing],
        pair: |seeded| changed_twice(seeded, change_counts, break_line),
    },
    Sort {
        name: "a count, and M or i",
        outcomes: &[OtherListing],
        pair: |seeded| changed_twice(seeded, change_counts, change_polarities),
    },
    Sort {
        name: "M or i, and a character of the outputs",
        outcomes: &[Differs, NotOfClass, BadListing],
        pair: |seeded| changed_twice(seeded, change_polarities, change_outputs),
    },
    Sort {
        name: "one byte",
        outcomes: &[Same, Differs, NotOfClass, BadListing, OtherListing],
        pair: other_byte,
    },
    Sort {
        name: "a text and a listing, one or both damaged or changed",
        outcomes: &[Same, Differs, NotOfClass, BadTable, BadListing, OtherListing],
        pair: damaged_pair,
    },
    Sort { name: "any member", outcomes: &[Same], pair: member_of_the_table },
    Sort { name: "any member of another table", outcomes: &[Differs], pair: member_of_another },
    Sort {
        name: "a listing beside a text of other sizes",
        outcomes: &[OtherListing],
        pair: other_sizes,
    },
    Sort {
        name: "no term, with any M and i",
        outcomes: &[Same, Differs, NotOfClass],
        pair: no_term,
    },
    Sort {
        name: "cubes beside the table that they give",
        outcomes: &[Same, NotOfClass],
        pair: |seeded| cubes_beside(seeded, |_, _| ()),
    },
    Sort {
        name: "cubes beside that table with one byte changed",
        outcomes: &[Differs, NotOfClass],
        pair: |seeded| cubes_beside(seeded, change_table),
    },
    Sort {
        name: "a form listing of the table beside its K text",
        outcomes: &[OtherListing],
        pair: |seeded| form_beside_k(seeded, |_, listing| listing.to_vec()),
    },
    Sort {
        name: "a form listing with one byte changed beside a K text",
        outcomes: &[BadListing, OtherListing],
        pair: |seeded| form_beside_k(seeded, on_first_line),
    },
    Sort {
        name: "a form listing with other lines beside a K text",
        outcomes: &[BadListing, OtherListing],
        pair: |seeded| form_beside_k(seeded, with_other_lines),
    },
    Sort {
        name: "a kron listing beside its K text, or with a digit there",
        outcomes: &[BadListing],
        pair: kron_listing,
    },
    Sort {
        name: "a K text, as it is or with a K somewhere",
        outcomes: &[BadTable, BadListing, OtherListing],
        pair: k_somewhere,
    },
    Sort {
        name: "a listing of the other family",
        outcomes: &[OtherListing],
        pair: |seeded| other_family(seeded, |_, _| ()),
    },
    Sort {
        name: "a listing of the other family, with a bad line or wrong counts",
        outcomes: &[OtherListing],
        pair: |seeded| {
            let change = if seeded.once_in(2) { break_line } else { change_counts };
            other_family(seeded, change)
        },
    },
    Sort {
        name: "the first word of a listing",
        outcomes: &[Same, BadListing, OtherListing],
        pair: listing_word,
    },
    Sort {
        name: "the first word of a table text",
        outcomes: &[Same, BadTable, OtherListing],
        pair: table_word,
    },
    Sort {
        name: "a listing of the other class with the same k",
        outcomes: &[OtherListing],
        pair: listing_of_other_class,
    },
    Sort {
        name: "the k field of a listing, with an f or nearly so",
        outcomes: &[Same, BadListing, OtherListing],
        pair: |seeded| {
            let (_, text) = drawn(seeded);
            Pair { listing: with_other_k(seeded, &written(&text)), text }
        },
    },
    Sort {
        name: "the k field of a table text, with an f or nearly so",
        outcomes: &[Same, BadTable, OtherListing],
        pair: |seeded| {
            let (_, text) = drawn(seeded);
            Pair { listing: written(&text), text: with_other_k(seeded, &text) }
        },
    },
    Sort {
        name: "f2, a literal in M complemented, beside the table that the cubes give",
        outcomes: &[Same],
        pair: |seeded| complemented_literal(seeded, true),
    },
    Sort {
        name: "f2, a literal outside M complemented, beside the table that the cubes give",
        outcomes: &[NotOfClass],
        pair: |seeded| complemented_literal(seeded, false),
    },
    Sort {
        name: "our listing beside a text with a dash, or with what it means",
        outcomes: &[Same],
        pair: |seeded| {
            let (design, text) = dashed(seeded);
            let written_out = seeded.once_in(2);
            Pair { listing: written(&text), text: if written_out { design.text() } else { text } }
        },
    },
    Sort {
        name: "any member beside a text with a dash, and one literal complemented",
        outcomes: &[Same, Differs, NotOfClass],
        pair: member_beside_dash,
    },
    Sort {
        name: "a listing of any other k field beside a text with a dash",
        outcomes: &[OtherListing],
        pair: other_k_beside_dash,
    },
    Sort {
        name: "the k field of a listing, with a dash or nearly so",
        outcomes: &[BadListing],
        pair: |seeded| {
            let (_, text) = if seeded.once_in(2) { dashed(seeded) } else { drawn(seeded) };
            Pair { listing: with_dash_for_k(seeded, &written(&text)), text }
        },
    },
    Sort {
        name: "the k field of a table text, with a dash or nearly so",
        outcomes: &[Same, BadTable, OtherListing],
        pair: |seeded| {
            let (_, text) = drawn(seeded);
            Pair { listing: written(&text), text: with_dash_for_k(seeded, &text) }
        },
    },
];

fn own_listing(seeded: &mut Seeded) -> Pair {
    let (_, text) = drawn(seeded);
    Pair { listing: written(&text), text }
}

fn change_with_true_counts(seeded: &mut Seeded, listing: &mut Listing) {
    let change = if seeded.once_in(3) { drop_term } else { change_cube };
    change(seeded, listing);
    true_counts(listing);
}

fn other_lines(seeded: &mut Seeded) -> Pair {
    let (_, text) = drawn_with_terms(seeded);
    Pair { listing: with_other_lines(seeded, &written(&text)), text }
}

/// Our listing with a change in its lines, and another n, m or k.
fn other_sizes_line(seeded: &mut Seeded, change: Change) -> Pair {
    let (design, text) = drawn_with_terms(seeded);
    let mut listing = listed(&design);
    change(seeded, &mut listing);
    Pair { listing: with_other_sizes(seeded, &listing), text }
}

/// Our listing with a change in its lines, and a second line that is broken or missing.
fn broken_mask(seeded: &mut Seeded, change: Change) -> Pair {
    let (design, text) = drawn_with_terms(seeded);
    let mut listing = listed(&design);
    change(seeded, &mut listing);
    Pair { listing: with_broken_mask(seeded, &listing), text }
}

/// A listing with a broken mask beside a text of other sizes or of another family, or with another k, which
/// breaks line 1 where it has two digits.
fn broken_mask_of_other_sizes(seeded: &mut Seeded) -> Pair {
    let ((design, text), (other, _)) = (drawn(seeded), drawn(seeded));
    let mut listing = any_listing(seeded, &other);
    if sizes(&design) == sizes(&other) || seeded.once_in(3) {
        listing.class = listing.class.with_k(seeded.within(4, 15));
    }
    Pair { text, listing: with_broken_mask(seeded, &listing) }
}

fn broken_mask_beside_k(seeded: &mut Seeded) -> Pair {
    let (design, _) = drawn(seeded);
    let listing = any_listing(seeded, &design);
    let text = Design::kronecker(design.n, design.m, design.table).text();
    Pair { text, listing: with_broken_mask(seeded, &listing) }
}

/// The listing of any member without inverters and without a second line.
fn before_inverters(seeded: &mut Seeded) -> Pair {
    let (design, text) = drawn(seeded);
    let member = any_member(seeded, design.n, design.class());
    let expansion = Expansion::giving(design.n, member, 0, &design.table);
    Pair { text, listing: Listing::of(&design, &expansion).bytes_with("") }
}

fn other_byte(seeded: &mut Seeded) -> Pair {
    let (_, text) = drawn_with_terms(seeded);
    Pair { listing: with_other_byte(seeded, &written(&text)), text }
}

fn damaged_pair(seeded: &mut Seeded) -> Pair {
    let (mut design, text) = drawn(seeded);
    let listing = match seeded.below(4) {
        0 => written(&text),
        1 => damaged_text(seeded, &written(&text)),
        _ => with_other_byte(seeded, &written(&text)),
    };
    let text = match seeded.below(6) {
        0 | 1 => damaged_text(seeded, &text),
        2 => {
            change_table(seeded, &mut design);
            design.text()
        }
        _ => text,
    };
    Pair { text, listing }
}

fn member_of_the_table(seeded: &mut Seeded) -> Pair {
    let (design, text) = drawn(seeded);
    Pair { listing: any_listing(seeded, &design).bytes(), text }
}

/// Changes one output at one point.
fn change_table(seeded: &mut Seeded, design: &mut Design) {
    let Design { n, m, .. } = *design;
    let place = seeded.below(places(n));
    design.table[place] ^= 1 << seeded.below(m);
}

fn member_of_another(seeded: &mut Seeded) -> Pair {
    let (design, _) = drawn(seeded);
    let mut other = design.clone();
    if seeded.once_in(2) {
        other.table = random_table(seeded, design.n, design.m);
    }
    if other == design {
        change_table(seeded, &mut other);
    }
    Pair { listing: any_listing(seeded, &other).bytes(), text: design.text() }
}

/// What the first line of a listing is compared with.
fn sizes(design: &Design) -> (Family, usize, usize, Kind) {
    (design.family, design.n, design.m, design.kind)
}

fn other_sizes(seeded: &mut Seeded) -> Pair {
    let ((design, text), (other, _)) = (drawn(seeded), drawn(seeded));
    if sizes(&design) == sizes(&other) {
        return other_sizes(seeded);
    }
    Pair { text, listing: any_listing(seeded, &other).bytes() }
}

fn no_term(seeded: &mut Seeded) -> Pair {
    let (mut design, _) = drawn(seeded);
    let listing = empty_listing(seeded, &design);
    if seeded.once_in(2) {
        design.table.fill(listing.inverted);
    }
    Pair { listing: listing.bytes(), text: design.text() }
}

/// Drawn cubes beside the table that they give, with a change in it.
fn cubes_beside(seeded: &mut Seeded, change: fn(&mut Seeded, &mut Design)) -> Pair {
    let (mut design, _) = drawn(seeded);
    let listing = drawn_listing(seeded, &design);
    design.table = (0..places(design.n)).map(|p| listing.value(p)).collect();
    change(seeded, &mut design);
    Pair { text: design.text(), listing: listing.bytes() }
}

/// A `K` text beside a listing, of either family, of any member that gives its table, with a change in its
/// bytes.
fn form_beside_k(seeded: &mut Seeded, change: fn(&mut Seeded, &[u8]) -> Vec<u8>) -> Pair {
    let (design, _) = drawn(seeded);
    let listing = any_listing(seeded, &design).bytes();
    let text = Design::kronecker(design.n, design.m, design.table).text();
    Pair { text, listing: change(seeded, &listing) }
}

/// A listing with one byte of its first line changed, dropped or put in.
fn on_first_line(seeded: &mut Seeded, listing: &[u8]) -> Vec<u8> {
    let end = listing.iter().position(|&byte| byte == b'\n').expect("a line has an end");
    let (first, rest) = listing.split_at(end);
    [&with_other_byte(seeded, first)[..], rest].concat()
}

/// The listing that the evaluator writes for a `K` text, beside this text or beside the same table with a
/// digit and the word of either family.
fn kron_listing(seeded: &mut Seeded) -> Pair {
    let (design, text) = kronecker_text(seeded, 5);
    let listing = compile(&text).expect("a sound text");
    let digit = Design::block(design.n, design.m, seeded.below(design.n.min(3) + 1), design.table)
        .of_family(*seeded.pick(&Family::ALL));
    Pair { text: if seeded.once_in(2) { text } else { digit.text() }, listing }
}

/// A `K` text, as it is or with a `K` somewhere, beside a listing of either family or its own.
fn k_somewhere(seeded: &mut Seeded) -> Pair {
    let (design, text) = kronecker_text(seeded, 3);
    let listing = match seeded.below(3) {
        0 => compile(&text).expect("a sound text"),
        _ => {
            let family = *seeded.pick(&Family::ALL);
            any_listing(seeded, &Design { family, kind: Kind::Mixed(Class::Block(1)), ..design })
                .bytes()
        }
    };
    let text = if seeded.once_in(3) { text } else { with_k_somewhere(seeded, &text) };
    Pair { text, listing }
}

/// Our listing with a change in its lines and the word of the other family.
fn other_family(seeded: &mut Seeded, change: Change) -> Pair {
    let (design, text) = drawn_with_terms(seeded);
    let mut listing = listed(&design);
    change(seeded, &mut listing);
    listing.family = match design.family {
        Family::One => Family::Two,
        Family::Two => Family::One,
    };
    Pair { text, listing: listing.bytes() }
}

/// Our listing with a first word that is `form`, `form2` or near them.
fn listing_word(seeded: &mut Seeded) -> Pair {
    let (_, text) = drawn(seeded);
    Pair { listing: with_other_word(seeded, &written(&text)), text }
}

/// Our listing beside its text with a first word that is `table`, `table2` or near them.
fn table_word(seeded: &mut Seeded) -> Pair {
    let (_, text) = drawn(seeded);
    Pair { listing: written(&text), text: with_other_word(seeded, &text) }
}

/// The listing of any member that gives the table, with the field of the other class. `f3` has no member.
fn listing_of_other_class(seeded: &mut Seeded) -> Pair {
    let (design, text) = drawn(seeded);
    let mut listing = any_listing(seeded, &design);
    listing.class = other_class(listing.class);
    Pair { text, listing: listing.bytes() }
}

/// A listing of `f2` with one literal of an input in M, or of one outside, complemented, beside the table that its cubes
/// then give.
fn complemented_literal(seeded: &mut Seeded, inside: bool) -> Pair {
    let n = seeded.within(3, 5);
    let m = seeded.within(1, 8);
    let mut design =
        Design::free(n, m, 2, random_table(seeded, n, m)).of_family(*seeded.pick(&Family::ALL));
    let mut listing = any_listing(seeded, &design);
    let mixed = listing.mixed;
    if !complement_where(seeded, &mut listing, |i| holds(mixed, i) == inside) {
        return complemented_literal(seeded, inside);
    }
    design.table = (0..places(n)).map(|p| listing.value(p)).collect();
    Pair { text: design.text(), listing: listing.bytes() }
}

/// A design of either family, mostly of few inputs, and its text with `-` for k.
fn dashed(seeded: &mut Seeded) -> (Design, Vec<u8>) {
    let most_inputs = if seeded.once_in(25) { 8 } else { 4 };
    let family = *seeded.pick(&Family::ALL);
    dash_text_of(seeded, family, most_inputs)
}

/// The listing of any member that gives the table beside its text with `-`, in two of three draws with one of its
/// literals complemented.
fn member_beside_dash(seeded: &mut Seeded) -> Pair {
    let (design, text) = dashed(seeded);
    let mut listing = any_listing(seeded, &design);
    if !seeded.once_in(3) {
        complement_where(seeded, &mut listing, |_| true);
    }
    Pair { text, listing: listing.bytes() }
}

/// The listing of any member of another class or of another k, which gives the table, beside the text with `-`.
fn other_k_beside_dash(seeded: &mut Seeded) -> Pair {
    let (design, text) = dashed(seeded);
    let others = Class::every(design.n).filter(|&class| class != design.class());
    let class = *seeded.pick(&others.collect::<Vec<Class>>());
    let other = Design { kind: Kind::Mixed(class), ..design };
    Pair { text, listing: any_listing(seeded, &other).bytes() }
}

/// Drawn pairs of each sort. A sort that no longer gives one of its outcomes fails.
#[test]
fn drawn_pairs() {
    let mut seeded = Seeded::new(81);
    for Sort { name, outcomes, pair } in SORTS {
        let mut times = BTreeMap::new();
        for _ in 0..PAIRS / SORTS.len() {
            let Pair { text, listing } = pair(&mut seeded);
            *times.entry(check_pair(&text, &listing)).or_insert(0) += 1;
        }
        println!("{name}: {times:?}");
        assert!(times.keys().eq(outcomes), "{name}: {times:?}");
        assert!(times.values().all(|&given| given >= LEAST), "{name}: {times:?}");
    }
}

#[test]
fn marked_pairs() {
    for (text, listing, wanted) in pairs::all() {
        check_answer(&bytes(text), &bytes(listing), wanted);
    }
}

/// The marked texts: an accepted one is the same beside its `form` or `form2` listing, and its `kron` listing is
/// refused; a refused one is refused as it is by the reading call, whatever the listing is.
#[test]
fn marked_texts() {
    let classes = free::ACCEPTED.into_iter().chain(dash::ACCEPTED);
    for (text, listing) in ACCEPTED.into_iter().chain(families::ACCEPTED).chain(classes) {
        check_answer(&bytes(text), &bytes(listing), [0, 0, 1, 0]);
    }
    for (text, listing) in kronecker::ACCEPTED {
        check_answer(&bytes(text), &bytes(listing), [11, 1, 0, 0]);
        check_answer(&bytes(text), &bytes(EXAMPLE_LISTING), [12, 1, 0, 0]);
    }
    for (text, number, line) in refused() {
        for listing in [EXAMPLE_LISTING, EXAMPLE_LISTING_TWO, EXAMPLE_BEFORE, b""] {
            check_answer(&bytes(text), &bytes(listing), [number, line, 0, 0]);
        }
    }
}

/// The listing of any member is the same beside its own table, and differs from another table at the
/// lowest point where the two tables do.
#[test]
fn members_beside_two_tables() {
    let mut seeded = Seeded::new(82);
    for _ in 0..300 {
        let (design, text) = drawn(&mut seeded);
        let mut other = design.clone();
        (0..seeded.within(1, 4)).for_each(|_| change_table(&mut seeded, &mut other));
        let listing = any_listing(&mut seeded, &design).bytes();
        check_answer(&text, &listing, [0, 0, 1, 0]);
        let lowest = (0..places(design.n)).find(|&p| design.table[p] != other.table[p]);
        let wanted = lowest.map_or([0, 0, 1, 0], |point| [0, 0, 2, point as u64]);
        check_answer(&other.text(), &listing, wanted);
    }
}

/// The example's listing with `f1` for k.
const FREE_LISTING: &[u8] = b"form 2 2 f1 1 2 1 2\ninv 10\nterm 00 11\nend\n";

/// Every byte of a listing of each family and of the free class changed into every other, beside a text of each family,
/// one with `K` and one of the free class.
#[test]
fn every_byte_changed() {
    let design = Design::block(2, 2, 1, vec![2, 1, 1, 1]);
    let [one, kronecker, free] = ["1", "K", "f1"].map(|field| design.text_with(field));
    let texts = [one, kronecker, free, design.of_family(Family::Two).text()];
    for listing in [EXAMPLE_LISTING, EXAMPLE_LISTING_TWO, FREE_LISTING].map(bytes) {
        for place in 0..listing.len() {
            for byte in 0..=255 {
                let mut changed = listing.clone();
                changed[place] = byte;
                for text in &texts {
                    check_pair(text, &changed);
                }
            }
        }
    }
}

/// A byte dropped, doubled, swapped with the next one, or a telling byte put in, and the listing cut, at
/// every place.
#[test]
fn every_place_edited() {
    let free = b"table 2 2 f1\non 0 01\non 1 10\non 2 10\non 3 10\nend\n";
    for pair in
        [[EXAMPLE, EXAMPLE_LISTING], [EXAMPLE_TWO, EXAMPLE_LISTING_TWO], [free, FREE_LISTING]]
    {
        let [text, listing] = pair.map(bytes);
        for place in 0..listing.len() {
            let (before, after) = listing.split_at(place);
            check_pair(&text, before);
            check_pair(&text, &[before, &after[1..]].concat());
            check_pair(&text, &[before, &after[..1], after].concat());
            if let [first, second, rest @ ..] = after {
                check_pair(&text, &[before, &[*second, *first], rest].concat());
            }
            for &byte in TELLING_BYTES {
                check_pair(&text, &[before, &[byte], after].concat());
            }
        }
    }
}

/// Every M and every i below 300, with no `term` line and with the lines of the example, and every mask.
#[test]
fn every_mixed_set_and_polarity() {
    let example = Design::block(2, 2, 1, vec![2, 1, 1, 1]);
    let zero = Design::block(3, 1, 2, vec![0; 8]);
    let free = [Design::free(2, 2, 1, vec![2, 1, 1, 1]), Design::free(3, 1, 2, vec![0; 8])];
    let block = [example.clone(), example.of_family(Family::Two), zero];
    for design in block.into_iter().chain(free) {
        let text = design.text();
        let listing = listed(&design);
        for number in 0..300 {
            for (mixed, fixed) in [(number, 0), (number, 2), (1, number), (3, number)] {
                check_pair(&text, &Listing { mixed, fixed, ..listing.clone() }.bytes());
            }
        }
        for inverted in masks(design.m) {
            check_pair(&text, &Listing { inverted, ..listing.clone() }.bytes());
        }
    }
}

/// The longest listings, cut and with later lines changed, and lines longer than any sound one.
#[test]
fn long_listings() {
    let mut seeded = Seeded::new(83);
    for (family, class) in
        Family::ALL.into_iter().flat_map(|f| Class::every(8).map(move |c| (f, c)))
    {
        let design = Design::of_class(8, 8, class, longest_listing_table()).of_family(family);
        let (text, listing) = (design.text(), any_listing(&mut seeded, &design).bytes());
        assert_eq!(check_pair(&text, &listing), Same);
        for length in (0..listing.len()).step_by(331) {
            assert_eq!(check_pair(&text, &listing[..length]), BadListing);
        }
        assert_eq!(check_pair(&text, &[&listing[..], &listing].concat()), BadListing);
        for _ in 0..8 {
            let damaged = damaged_text(&mut seeded, &listing);
            check_pair(&text, &damaged);
        }
    }
    for byte in [0, 9, 10, b'-', b'0', b'e', 255] {
        let long = vec![byte; 20_000];
        for start in [&b""[..], b"form 2 2 1 1 2 1 2\n", b"form 2 2 1 1 2 1 2\ninv 10\n"] {
            let listing = [bytes(start), long.clone()].concat();
            assert_eq!(check_pair(&bytes(EXAMPLE), &listing), BadListing);
        }
    }
}
