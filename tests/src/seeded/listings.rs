//! Listings: of any member, cheap or not, and with some change.

use super::Seeded;
use super::tables::{any_table, output_bits};
use super::texts::TELLING_BYTES;
use crate::class::{Class, Expansion, Member, fixed_polarities, mixed_sets};
use crate::evaluator::places;
use crate::text::Design;
use crate::text::listing::Listing;
use crate::text::products::Product;

/// Any member of a class.
pub fn any_member(seeded: &mut Seeded, n: usize, class: Class) -> Member {
    let mixed = *seeded.pick(&mixed_sets(n, class.k()).collect::<Vec<usize>>());
    let fixed = *seeded.pick(&fixed_polarities(n, mixed).collect::<Vec<usize>>());
    let polarity = |_| seeded.below(places(class.k()));
    let polarities = (0..class.polarities(n)).map(polarity).collect();
    Member { class, mixed, fixed, polarities }
}

/// Any inversion mask of m outputs, once in three draws none inverted.
pub fn any_mask(seeded: &mut Seeded, m: usize) -> u8 {
    if seeded.once_in(3) { 0 } else { seeded.byte() & output_bits(m) }
}

/// Any member of the class and any mask, with the coefficients that give the design's table.
pub fn any_expansion(seeded: &mut Seeded, design: &Design) -> Expansion {
    let member = any_member(seeded, design.n, design.class());
    let inverted = any_mask(seeded, design.m);
    Expansion::giving(design.n, member, inverted, &design.table)
}

/// The listing of any member of the class that gives the design's table.
pub fn any_listing(seeded: &mut Seeded, design: &Design) -> Listing {
    Listing::of(design, &any_expansion(seeded, design))
}

/// The listing of any member with any coefficients and any mask, in half of the draws with a literal
/// complemented.
pub fn drawn_listing(seeded: &mut Seeded, design: &Design) -> Listing {
    let (n, m, class) = (design.n, design.m, design.class());
    let (member, coefficients) = (any_member(seeded, n, class), any_table(seeded, n, m));
    let inverted = any_mask(seeded, m);
    let mut listing = Listing::of(design, &Expansion::new(n, member, coefficients, inverted));
    if seeded.once_in(2) {
        complement_literal(seeded, &mut listing);
    }
    listing
}

/// The listing with no `term` line and any mask, and any numbers for M and i.
pub fn empty_listing(seeded: &mut Seeded, design: &Design) -> Listing {
    let (n, m, class) = (design.n, design.m, design.class());
    let (member, inverted) = (any_member(seeded, n, class), any_mask(seeded, m));
    let nothing = Expansion::new(n, member, vec![0; places(n)], inverted);
    let mut listing = Listing::of(design, &nothing);
    if !seeded.once_in(3) {
        change_polarities(seeded, &mut listing);
    }
    listing
}

/// Puts the counts of the `term` lines on the first line.
pub fn true_counts(listing: &mut Listing) {
    listing.stated = listing.counted();
}

fn any_product<'a>(seeded: &mut Seeded, listing: &'a mut Listing) -> Option<&'a mut Product> {
    let place = seeded.below(listing.products.len().max(1));
    listing.products.get_mut(place)
}

/// Changes one character of a cube into another of the three.
pub fn change_cube(seeded: &mut Seeded, listing: &mut Listing) {
    if let Some(product) = any_product(seeded, listing) {
        let place = seeded.below(product.cube.len());
        let others: Vec<u8> =
            b"01-".iter().copied().filter(|&c| c != product.cube[place]).collect();
        product.cube[place] = *seeded.pick(&others);
    }
}

/// Complements one literal, where the drawn cube has one.
fn complement_literal(seeded: &mut Seeded, listing: &mut Listing) {
    if let Some(product) = any_product(seeded, listing) {
        let place = seeded.below(product.cube.len());
        complement(&mut product.cube[place]);
    }
}

/// Complements one literal of a chosen input, any that a cube has, and says whether there is one.
pub fn complement_where(
    seeded: &mut Seeded,
    listing: &mut Listing,
    chosen: impl Fn(usize) -> bool,
) -> bool {
    let n = listing.n;
    let literals = listing.products.iter().enumerate().flat_map(|(number, product)| {
        let shown = |&place: &usize| product.cube[place] != b'-' && chosen(n - place);
        (0..n).filter(shown).map(move |place| (number, place)).collect::<Vec<_>>()
    });
    let literals: Vec<(usize, usize)> = literals.collect();
    if !literals.is_empty() {
        let (number, place) = *seeded.pick(&literals);
        complement(&mut listing.products[number].cube[place]);
    }
    !literals.is_empty()
}

/// The other character of a literal.
fn complement(character: &mut u8) {
    *character = match *character {
        b'0' => b'1',
        b'1' => b'0',
        absent => absent,
    };
}

/// Changes one character of the outputs, which may leave them all `0`.
pub fn change_outputs(seeded: &mut Seeded, listing: &mut Listing) {
    let output = seeded.below(listing.m);
    if let Some(product) = any_product(seeded, listing) {
        product.outputs ^= 1 << output;
    }
}

/// Changes one character of the inversion mask.
pub fn change_mask(seeded: &mut Seeded, listing: &mut Listing) {
    listing.inverted ^= 1 << seeded.below(listing.m);
}

/// Inverts some outputs otherwise and puts the constant in for them, or takes it away, with true counts. The
/// lines give what they gave.
pub fn trade_inverters(seeded: &mut Seeded, listing: &mut Listing) {
    let traded = seeded.within(1, usize::from(output_bits(listing.m))) as u8;
    let constant = vec![b'-'; listing.n];
    match listing.products.first_mut() {
        Some(first) if first.cube == constant => first.outputs ^= traded,
        _ => listing.products.insert(0, Product { cube: constant, outputs: traded }),
    }
    listing.products.retain(|product| product.outputs != 0);
    listing.inverted ^= traded;
    true_counts(listing);
}

/// The bytes of a listing with a broken second line, or with none, as listings were before there were
/// inverters.
pub fn with_broken_mask(seeded: &mut Seeded, listing: &Listing) -> Vec<u8> {
    const WORDS: [&str; 9] = ["", "in", "Inv", "INV", "invs", "inv2", "term", "end", " inv"];
    const CHARACTERS: [char; 8] = ['2', '-', '/', ':', 'x', ' ', '\t', '\0'];
    const ENDS: [&str; 8] = ["0", "1", "\t", "\t0", "\t1", " ", "\r", "\0"];
    let sound = listing.second_line();
    let mask = sound["inv\t".len()..].trim_end();
    let place = seeded.below(mask.len());
    let second = match seeded.below(10) {
        0 | 1 => String::new(),
        2 => format!("inv\t{}\n", &mask[1..]),
        3 => format!("inv\t{mask}{}\n", seeded.pick(&ENDS)),
        4 => format!("{}\t{mask}\n", seeded.pick(&WORDS)),
        5 => {
            let other = seeded.pick(&CHARACTERS);
            format!("inv\t{}{other}{}\n", &mask[..place], &mask[place + 1..])
        }
        6 => format!("inv{}{mask}\n", seeded.pick(&["", " ", "\t\t"])),
        7 => format!("{}\n", seeded.pick(&["", "inv", "\t", mask])),
        8 => sound.trim_end().to_string(),
        _ => sound.repeat(2),
    };
    listing.bytes_with(&second)
}

/// Changes one of the counts by one or two, or into any other.
pub fn change_counts(seeded: &mut Seeded, listing: &mut Listing) {
    let stated = &mut listing.stated;
    let count = if seeded.once_in(2) { &mut stated.products } else { &mut stated.literals };
    let near = seeded.within(count.saturating_sub(2), *count + 2);
    let other = if seeded.once_in(2) { near } else { seeded.below(10_000) };
    *count = if other == *count { *count + 1 } else { other };
}

/// Leaves one `term` line out.
pub fn drop_term(seeded: &mut Seeded, listing: &mut Listing) {
    listing.products.remove(seeded.below(listing.products.len()));
}

/// Makes one `term` line bad: outputs that are all `0`, or a term that is not above the one before.
pub fn break_line(seeded: &mut Seeded, listing: &mut Listing) {
    let place = seeded.below(listing.products.len());
    if seeded.once_in(2) {
        listing.products[place].outputs = 0;
    } else {
        listing.products.insert(place, listing.products[place].clone());
    }
}

/// Puts any number for M, for i, or for both: one that some member has, or one of up to four digits.
pub fn change_polarities(seeded: &mut Seeded, listing: &mut Listing) {
    let Listing { n, class, .. } = *listing;
    let limit = *seeded.pick(&[places(n), 2 * places(n), 10_000]);
    match seeded.below(4) {
        0 => {
            let Member { mixed, fixed, .. } = any_member(seeded, n, class);
            (listing.mixed, listing.fixed) = (mixed, fixed);
        }
        1 => {
            let fixed: Vec<usize> = fixed_polarities(n, listing.mixed).collect();
            listing.fixed = *seeded.pick(&fixed);
        }
        2 => listing.fixed = seeded.below(limit),
        _ => listing.mixed = seeded.below(limit),
    }
}

/// The bytes of a listing with another number for n, m or k on its first line, or with the same k of the other class.
/// A k of two digits breaks the grammar.
pub fn with_other_sizes(seeded: &mut Seeded, listing: &Listing) -> Vec<u8> {
    let mut first = listing.clone();
    let limit = *seeded.pick(&[9, 12, 300]);
    let other = seeded.below(limit);
    let unlike = |size: usize| if other >= size { other + 1 } else { other };
    match seeded.below(4) {
        0 => first.n = unlike(first.n),
        1 => first.m = unlike(first.m),
        2 => first.class = first.class.with_k(unlike(first.class.k())),
        _ => first.class = other_class(first.class),
    }
    let (written, own) = (listing.bytes(), listing.first_line().len());
    [first.first_line().as_bytes(), &written[own..]].concat()
}

/// The other class with the same number of mixed inputs.
pub fn other_class(class: Class) -> Class {
    match class {
        Class::Block(k) => Class::Free(k),
        Class::Free(k) => Class::Block(k),
    }
}

/// The bytes of a listing with one byte changed, dropped or put in: mostly a character of a cube, of outputs
/// or of a number, changed into another such character.
pub fn with_other_byte(seeded: &mut Seeded, listing: &[u8]) -> Vec<u8> {
    const CHARACTERS: &[u8] = b"0101--23456789";
    let telling = seeded.once_in(5);
    let changed = |&place: &usize| telling || CHARACTERS.contains(&listing[place]);
    let places: Vec<usize> = (0..listing.len()).filter(changed).collect();
    let (before, after) = listing.split_at(*seeded.pick(&places));
    let byte = *seeded.pick(if telling { TELLING_BYTES } else { CHARACTERS });
    match seeded.below(10) {
        0 => [before, &after[1..]].concat(),
        1 => [before, &[byte], after].concat(),
        _ => [before, &[byte], &after[1..]].concat(),
    }
}
