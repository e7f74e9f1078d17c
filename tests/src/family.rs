//! The two families of parts, as documents 01 and 02 charge for them.

use crate::class::Cost;

/// The family of a table text: what its expansions are weighed by, and the first words of the text and of
/// its listing.
#[derive(Clone, Copy, Debug, PartialEq, Eq)]
pub enum Family {
    One,
    Two,
}

impl Family {
    pub const ALL: [Family; 2] = [Family::One, Family::Two];

    /// Document 02: "priced by area: 4 × products + literals".
    pub fn charge(Cost { products, literals }: Cost) -> usize {
        4 * products + literals
    }

    /// The numbers that costs are compared by, the first one first. Document 01 for family one: "fewest
    /// products, then fewest literals". Document 02 for family two: "minimised by that charge, and among equal
    /// charges by fewest products".
    pub fn order(self, cost: Cost) -> [usize; 2] {
        match self {
            Family::One => [cost.products, cost.literals],
            Family::Two => [Family::charge(cost), cost.products],
        }
    }

    /// Whether a cost is at most another one in the family's order.
    pub fn no_dearer(self, cost: Cost, than: Cost) -> bool {
        self.order(cost) <= self.order(than)
    }

    /// The family as the reading call returns it.
    pub fn number(self) -> u64 {
        match self {
            Family::One => 1,
            Family::Two => 2,
        }
    }

    /// The first word of a table text.
    pub fn table_word(self) -> &'static str {
        match self {
            Family::One => "table",
            Family::Two => "table2",
        }
    }

    /// The first word of a listing of the classes with mixed inputs.
    pub fn form_word(self) -> &'static str {
        match self {
            Family::One => "form",
            Family::Two => "form2",
        }
    }

    /// The family whose word, of a table text or of a listing, is this field.
    pub fn of_word(word: fn(Self) -> &'static str, field: &[u8]) -> Option<Self> {
        Family::ALL.into_iter().find(|&family| word(family).as_bytes() == field)
    }
}

#[cfg(test)]
mod tests {
    use super::*;

    #[test]
    fn costs_are_weighed_by_the_family() {
        let before = |family: Family, one, other| family.order(one) < family.order(other);
        // Fewer products, whatever the literals; the charges are 47 and 46.
        assert!(before(Family::One, Cost::new(7, 19), Cost::new(8, 14)));
        assert!(before(Family::Two, Cost::new(8, 14), Cost::new(7, 19)));
        // Equal charges: fewer products.
        assert!(before(Family::Two, Cost::new(3, 7), Cost::new(4, 3)));
        // Equal products: fewer literals.
        for family in Family::ALL {
            assert!(before(family, Cost::new(3, 6), Cost::new(3, 7)));
        }
    }

    #[test]
    fn words_are_read_whole() {
        for family in Family::ALL {
            for word in [Family::table_word, Family::form_word] {
                assert_eq!(Family::of_word(word, word(family).as_bytes()), Some(family));
            }
        }
        for word in [&b""[..], b"tabl", b"table1", b"table22", b"form", b"Table2"] {
            assert_eq!(Family::of_word(Family::table_word, word), None);
        }
    }
}
