//! W-207, the free class: the listings that the text call writes with an `f` field beside those with other fields, beside
//! the marked answers, and beside every member of the class with every inversion mask.

use outside_cases::class::{Class, Members};
use outside_cases::family::Family;
use outside_cases::lent::{listed, written};
use outside_cases::marked::free::{Answers, COMPARED, Compared};
use outside_cases::seeded::Seeded;
use outside_cases::seeded::tables::{
    any_table, bits_table, combined_table, every_table, random_table, sparse_table,
};
use outside_cases::text::Design;
use outside_cases::text::listing::Listing;

/// Calls a check with tables of every size, drawn in several ways, in both families.
fn with_drawn_tables(seed: u64, rounds: usize, check: impl Fn(&Design)) {
    let mut seeded = Seeded::new(seed);
    let makers = [any_table, random_table, sparse_table, combined_table];
    for (n, m) in (1..=8).flat_map(|n| [1, 2, 3, 5, 8].map(|m| (n, m))) {
        for _ in 0..rounds {
            let mut tables: Vec<Vec<u8>> = makers.map(|maker| maker(&mut seeded, n, m)).into();
            tables.push(bits_table(&mut seeded, n, m, 4));
            for table in tables {
                let design = Design::block(n, m, 0, table);
                for family in Family::ALL {
                    check(&design.clone().of_family(family));
                }
            }
        }
    }
}

/// The same table and family for a class.
fn of_class(design: &Design, class: Class) -> Design {
    Design::of_class(design.n, design.m, class, design.table.clone()).of_family(design.family)
}

/// "For tables with n of 2 or more `f2` never costs more than `f1`, nor `f1` more than `f0`": nor does `f1` with one
/// input. And with the same number of mixed inputs the free class never costs more than the block class.
#[test]
fn more_freedom_is_no_dearer() {
    with_drawn_tables(111, 3, |design| {
        let (n, family) = (design.n, design.family);
        let cost = |class| listed(&of_class(design, class)).counted();
        let costs: Vec<_> = Class::every_free(n).map(cost).collect();
        assert_eq!(costs.len(), if n == 1 { 2 } else { 3 });
        assert!(costs.is_sorted_by(|less, more| family.no_dearer(*more, *less)), "{design:?}");
        let mut pairs = costs.iter().zip(Class::every_block(n).map(cost));
        assert!(pairs.all(|(free, block)| family.no_dearer(*free, block)), "{design:?}");
    });
}

/// The listings of `f0` and `f1` are those of `0` and `1`, but for the field.
#[test]
fn fields_with_the_same_answers() {
    with_drawn_tables(112, 3, |design| {
        for k in [0, 1] {
            let [block, free] =
                [Class::Block(k), Class::Free(k)].map(|class| of_class(design, class));
            let other = Listing { class: Class::Block(k), ..listed(&free) };
            assert_eq!(other.bytes(), written(&block.text()), "{block:?}");
        }
    });
}

/// The answers of the marked designs, at every k field and in both families.
#[test]
fn marked_designs() {
    for Compared { n, m, table, one, two } in COMPARED {
        for (family, Answers { digits, free }) in [(Family::One, one), (Family::Two, two)] {
            for (class, wanted) in Class::every(n).zip(digits.into_iter().chain(free)) {
                let design = Design::of_class(n, m, class, table.to_vec()).of_family(family);
                assert_eq!(listed(&design).figures(), wanted, "{design:?}");
            }
        }
    }
}

/// The call's listing beside the first of all members with all masks: cost, mask, M, i, and then term by term.
fn check_first(members: &Members, m: usize, table: &[u8]) {
    let design = Design::of_class(members.n, m, members.class, table.to_vec());
    for design in Family::ALL.map(|family| design.clone().of_family(family)) {
        let first = members.least(design.family, m, table);
        let wanted = Listing::of(&design, &first).bytes().escape_ascii().to_string();
        assert_eq!(written(&design.text()).escape_ascii().to_string(), wanted, "{design:?}");
    }
}

/// Every small table, and drawn ones of up to three inputs, against every member and every mask.
#[test]
fn every_member() {
    let mut seeded = Seeded::new(113);
    for n in 1..=3 {
        for members in Class::every_free(n).map(|class| Members::new(n, class)) {
            for m in (1..=2).filter(|m| m << n <= 8) {
                every_table(n, m).for_each(|table| check_first(&members, m, &table));
            }
            for _ in 0..30 {
                let m = seeded.within(1, members.most_outputs());
                check_first(&members, m, &any_table(&mut seeded, n, m));
            }
        }
    }
}
