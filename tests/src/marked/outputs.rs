//! Designs with a choice of their outputs, and what the whole and the chosen outputs cost; and pairs of designs that
//! W-206 does not compare, the second dearer than the first.

use super::free::NEITHER_UNDER_X3;
use super::{TWO_OF_THREE, UNDER_X3};
use crate::class::{Class, Cost};
use crate::family::Family;
use crate::outputs::Choice;
use crate::text::{Design, Kind};

/// A design and what it costs.
pub struct Costed {
    pub family: Family,
    pub n: usize,
    pub m: usize,
    pub kind: Kind,
    pub table: &'static [u8],
    pub cost: Cost,
}

impl Costed {
    pub fn design(&self) -> Design {
        let Costed { family, n, m, kind, table, .. } = *self;
        Design { family, n, m, kind, table: table.to_vec() }
    }
}

/// A design, the bits of a choice of its outputs, and what these cost.
pub struct Chosen {
    pub whole: Costed,
    pub bits: u8,
    pub cost: Cost,
}

impl Chosen {
    pub fn choice(&self) -> Choice {
        Choice::new(self.bits)
    }
}

/// Output 0 where none of three inputs is 1, output 1 where exactly two are.
const NONE_AND_TWO: &[u8] = &[1, 0, 0, 2, 0, 2, 2, 0];

/// The whole has x1, x2, x3 and their product, all complemented, and output 0 is that product. Output 1 by itself
/// takes a product less and a literal more.
const fn none_and_two(family: Family, kind: Kind) -> Chosen {
    let whole = Costed { family, n: 3, m: 2, kind, table: NONE_AND_TWO, cost: Cost::new(4, 6) };
    Chosen { whole, bits: 0b10, cost: Cost::new(3, 7) }
}

/// Two outputs of four inputs. At `f2` the whole has five products, and output 0 by itself four with a literal more.
const FOUR_INPUTS: &[u8] = &[1, 1, 0, 0, 0, 0, 1, 1, 2, 0, 2, 1, 0, 1, 0, 0];

const fn four_inputs(family: Family) -> Chosen {
    let (kind, table) = (Kind::Mixed(Class::Free(2)), FOUR_INPUTS);
    let whole = Costed { family, n: 4, m: 2, kind, table, cost: Cost::new(5, 9) };
    Chosen { whole, bits: 0b01, cost: Cost::new(4, 10) }
}

/// The chosen outputs cost less and have more literals. The charges in family two are 22 and 19, and those of the last
/// design 29 and 26.
pub const MORE_LITERALS: [Chosen; 7] = [
    none_and_two(Family::One, Kind::Mixed(Class::Block(1))),
    none_and_two(Family::One, Kind::Kronecker),
    none_and_two(Family::Two, Kind::Mixed(Class::Block(1))),
    none_and_two(Family::One, Kind::Mixed(Class::Free(1))),
    none_and_two(Family::Two, Kind::Mixed(Class::Free(1))),
    four_inputs(Family::One),
    four_inputs(Family::Two),
];

/// A design of four inputs on which the families choose differently, and the same with x1 and x2 as output 2.
const DIFFERENT: &[u8] = &[0, 0, 0, 2, 0, 0, 3, 0, 0, 2, 3, 1, 0, 3, 1, 2];
const DIFFERENT_AND_X1_X2: &[u8] = &[0, 0, 0, 6, 0, 0, 3, 4, 0, 2, 3, 5, 0, 3, 1, 6];

const fn different(family: Family, m: usize, table: &'static [u8], cost: Cost) -> Costed {
    Costed { family, n: 4, m, kind: Kind::Mixed(Class::Block(0)), table, cost }
}

/// The chosen outputs cost less and have more products: the charges are 60 and 59. With all literals plain, output 2
/// is one of the 9 products that the others have; beside their 10 products with other literals it takes one more.
pub const MORE_PRODUCTS: Chosen = Chosen {
    whole: different(Family::Two, 3, DIFFERENT_AND_X1_X2, Cost::new(9, 24)),
    bits: 0b011,
    cost: Cost::new(10, 19),
};

const fn under_x3(k: usize, cost: Cost) -> Costed {
    Costed {
        family: Family::One,
        n: 3,
        m: 2,
        kind: Kind::Mixed(Class::Block(k)),
        table: UNDER_X3,
        cost,
    }
}

/// Two outputs, and a single output of another table.
pub const ANOTHER_TABLE: [Costed; 2] = [
    under_x3(1, Cost::new(2, 5)),
    Costed {
        family: Family::One,
        n: 3,
        m: 1,
        kind: Kind::Mixed(Class::Block(1)),
        table: TWO_OF_THREE,
        cost: Cost::new(3, 7),
    },
];

/// The same outputs at another k.
pub const ANOTHER_K: [Costed; 2] = [under_x3(1, Cost::new(2, 5)), under_x3(3, Cost::new(3, 6))];

const fn neither_under_x3(class: Class, cost: Cost) -> Costed {
    let (kind, table) = (Kind::Mixed(class), NEITHER_UNDER_X3);
    Costed { family: Family::One, n: 3, m: 3, kind, table, cost }
}

/// The same outputs in the block class with as many mixed inputs.
pub const ANOTHER_CLASS: [Costed; 2] = [
    neither_under_x3(Class::Free(2), Cost::new(3, 7)),
    neither_under_x3(Class::Block(2), Cost::new(4, 8)),
];

/// The same outputs in the other family, dearer in the first one's order.
pub const ANOTHER_FAMILY: [Costed; 2] = [
    different(Family::One, 2, DIFFERENT, Cost::new(9, 24)),
    different(Family::Two, 2, DIFFERENT, Cost::new(10, 19)),
];

#[cfg(test)]
mod tests {
    use super::*;
    use crate::class::{self, Members};
    use crate::kronecker::{self, Kinds};
    use crate::seeded::tables::table_of;
    use std::iter::chain;

    /// The least cost of a design, by both searches where both run.
    fn least_cost(Design { family, n, m, kind, table }: &Design) -> Cost {
        match *kind {
            Kind::Mixed(class) => {
                let found = class::least(*family, *n, class, table);
                let members = Members::few(*n, class).then(|| Members::new(*n, class));
                if let Some(members) = members.filter(|members| *m <= members.most_outputs()) {
                    assert_eq!(found, members.least(*family, *m, table));
                }
                found.cost
            }
            Kind::Kronecker => {
                let found = kronecker::least(*n, table);
                assert_eq!(found, Kinds::new(*n).least(table));
                found.cost
            }
        }
    }

    #[test]
    fn chosen_outputs() {
        for marked in chain(MORE_LITERALS, [MORE_PRODUCTS]) {
            let design = marked.whole.design();
            assert_eq!(least_cost(&design), marked.whole.cost, "{design:?}");
            let chosen = marked.choice().of_design(&design);
            assert_eq!(least_cost(&chosen), marked.cost, "{chosen:?}");
        }
    }

    #[test]
    fn other_designs() {
        for costed in
            [ANOTHER_TABLE, ANOTHER_K, ANOTHER_CLASS, ANOTHER_FAMILY].into_iter().flatten()
        {
            assert_eq!(least_cost(&costed.design()), costed.cost, "{:?}", costed.design());
        }
    }

    /// The tables are the functions that their comments name.
    #[test]
    fn tables() {
        let ones = |p: usize| p.count_ones();
        let none_and_two = |p| u8::from(ones(p) == 0) + 2 * u8::from(ones(p) == 2);
        assert_eq!(NONE_AND_TWO, table_of(3, 2, none_and_two));
        let with_x1_and_x2 = |p: usize| DIFFERENT[p] + 4 * u8::from(p & 0b11 == 0b11);
        assert_eq!(DIFFERENT_AND_X1_X2, table_of(4, 3, with_x1_and_x2));
    }
}
