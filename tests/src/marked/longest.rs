//! The designs with the longest listings, of eight inputs and eight outputs, with their quotations by hand.

use crate::class::{Class, Cost};
use crate::family::Family;
use crate::seeded::tables::{longest_free_listing_table, longest_listing_table};
use crate::text::Design;
use crate::text::quotation::Quotation;

/// The longest listing of each family and each k field: all 255 products besides the constant, with an i of three
/// digits, and at `f2` an M of three digits too; and with `K`, all 256 products. Each of the eight inputs has a literal
/// in half of the 256 terms, and the constant has none: 1,024 literals in all.
pub fn longest_listings() -> impl Iterator<Item = (Design, Quotation)> {
    let quotation =
        |products, length| Quotation { cost: Cost { products, literals: 1024 }, length };
    let of_class = move |(class, longest)| {
        let table = match class {
            Class::Free(2) => longest_free_listing_table(),
            _ => longest_listing_table(),
        };
        let design = Design::of_class(8, 8, class, table);
        [(Family::One, longest), (Family::Two, longest + 1)]
            .map(|(family, length)| (design.clone().of_family(family), quotation(255, length)))
    };
    let digits = Class::every_block(8).map(|class| (class, 5908));
    let free = Class::every_free(8).zip([5909, 5909, 5911]);
    let kronecker = Design::kronecker(8, 8, longest_listing_table());
    digits.chain(free).flat_map(of_class).chain([(kronecker, quotation(256, 5919))])
}
