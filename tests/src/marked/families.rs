//! Designs on which the order of costs decides, with the answers of both families, and texts that begin with
//! `table2` on both sides of each refusal. The texts are written as the others are, with a space for each tab.

use crate::class::Figures;

/// A design of two outputs with the answers of both families at one k. Tables of fewer than four inputs, or of
/// four inputs and one output, have the same answers in both.
pub struct Compared {
    pub n: usize,
    pub k: usize,
    pub table: &'static [u8],
    pub one: Figures,
    pub two: Figures,
    /// The answer if equal charges went to fewest literals, and if a product were charged 3. With five inputs
    /// there are too many members to try.
    pub misread: Option<Figures>,
}

pub const OUTPUTS: usize = 2;

/// A design of four inputs.
const fn four(
    k: usize,
    table: &'static [u8; 16],
    one: Figures,
    two: Figures,
    misread: Figures,
) -> Compared {
    Compared { n: 4, k, table, one, two, misread: Some(misread) }
}

/// A design of five inputs.
const fn five(k: usize, table: &'static [u8; 32], one: Figures, two: Figures) -> Compared {
    Compared { n: 5, k, table, one, two, misread: None }
}

#[rustfmt::skip]
pub const COMPARED: [Compared; 7] = [
    // The families choose differently: a product more, and five literals less or six.
    four(0, &[0, 0, 0, 2, 0, 0, 3, 0, 0, 2, 3, 1, 0, 3, 1, 2], [0, 0, 9, 24, 0], [0, 11, 10, 19, 1], [0, 11, 10, 19, 1]),
    four(1, &[2, 0, 0, 2, 0, 3, 3, 0, 0, 2, 0, 0, 3, 0, 0, 3], [4, 10, 7, 19, 0], [1, 4, 8, 14, 0], [1, 4, 8, 14, 0]),
    five(2, &[2, 0, 3, 2, 3, 3, 0, 2, 1, 2, 3, 0, 1, 1, 0, 3, 1, 3, 0, 1, 1, 3, 2, 3, 1, 1, 2, 1, 1, 2, 0, 1],
        [9, 16, 15, 46, 1], [5, 18, 16, 41, 0]),
    five(3, &[0, 0, 3, 0, 0, 3, 1, 2, 3, 0, 3, 0, 2, 1, 1, 3, 1, 3, 2, 2, 1, 0, 0, 0, 3, 0, 1, 0, 3, 0, 3, 2],
        [19, 8, 14, 44, 0], [11, 16, 15, 38, 0]),
    // Two members have the least charge, and the one of fewer products is the answer, whatever the masks are.
    four(0, &[0, 0, 0, 2, 0, 2, 3, 3, 0, 3, 1, 0, 3, 1, 2, 1], [0, 0, 9, 22, 0], [0, 0, 9, 22, 0], [0, 3, 10, 18, 2]),
    four(1, &[0, 0, 0, 3, 3, 1, 0, 0, 3, 2, 0, 3, 0, 3, 3, 2], [2, 0, 8, 21, 0], [2, 0, 8, 21, 0], [1, 12, 9, 17, 0]),
    four(3, &[1, 2, 0, 3, 1, 2, 2, 3, 0, 1, 2, 3, 1, 1, 1, 1], [11, 4, 7, 20, 1], [11, 4, 7, 20, 1], [13, 0, 8, 16, 2]),
];

/// Document 01's example for family two, with its listing.
pub const EXAMPLE_TWO: &[u8] = b"table2 2 2 1\non 0 01\non 1 10\non 2 10\non 3 10\nend\n";
pub const EXAMPLE_LISTING_TWO: &[u8] = b"form2 2 2 1 1 2 1 2\ninv 10\nterm 00 11\nend\n";

/// Texts that are accepted, each with its listing.
pub const ACCEPTED: [(&[u8], &[u8]); 19] = [
    (EXAMPLE_TWO, EXAMPLE_LISTING_TWO),
    (b"table2 2 2 1\nend\n", b"form2 2 2 1 1 0 0 0\ninv 00\nend\n"),
    (b"table2 2 1 0\nend\n", b"form2 2 1 0 0 0 0 0\ninv 0\nend\n"),
    (b"table2 2 1 1\nend\n", b"form2 2 1 1 1 0 0 0\ninv 0\nend\n"),
    (b"table2 2 1 2\nend\n", b"form2 2 1 2 3 0 0 0\ninv 0\nend\n"),
    // All one costs nothing.
    (b"table2 1 1 1\non 0 1\non 1 1\nend\n", b"form2 1 1 1 1 0 0 0\ninv 1\nend\n"),
    (
        b"table2 2 2 2\non 0 11\non 1 11\non 2 11\non 3 11\nend\n",
        b"form2 2 2 2 3 0 0 0\ninv 11\nend\n",
    ),
    (b"table2 1 1 0\non 0 1\nend\n", b"form2 1 1 0 0 1 1 1\ninv 0\nterm 0 1\nend\n"),
    // Equal charges and equal products go to the least mask, then to the least M and i.
    (
        b"table2 2 2 0\non 0 01\non 1 01\non 2 10\non 3 10\nend\n",
        b"form2 2 2 0 0 2 1 1\ninv 10\nterm 0- 11\nend\n",
    ),
    (
        b"table2 2 2 1\non 0 01\non 1 01\non 2 10\nend\n",
        b"form2 2 2 1 2 1 2 3\ninv 00\nterm 0- 01\nterm 10 10\nend\n",
    ),
    // Output 0 is x1, output 1 is x2 without x1: the charge is 11 at every k.
    (
        b"table2 2 2 1\non 1 10\non 2 01\non 3 10\nend\n",
        b"form2 2 2 1 1 0 2 3\ninv 00\nterm -1 10\nterm 10 01\nend\n",
    ),
    (
        b"table2 2 2 2\non 1 10\non 2 01\non 3 10\nend\n",
        b"form2 2 2 2 3 0 2 3\ninv 10\nterm -0 10\nterm 10 01\nend\n",
    ),
    // Output 0 is x1 and x3, output 1 is x2 and x3 without x1: the charge is 18 at k = 3, 13 at k = 2.
    (
        b"table2 3 2 3\non 5 10\non 6 01\non 7 10\nend\n",
        b"form2 3 2 3 7 0 3 6\ninv 00\nterm 1-- 10\nterm 1-0 10\nterm 110 01\nend\n",
    ),
    (b"table2 8 1 3\non 255 1\nend\n", b"form2 8 1 3 7 0 1 8\ninv 0\nterm 11111111 1\nend\n"),
    (
        b"table2 8 8 0\non 0 00000001\nend\n",
        b"form2 8 8 0 0 255 1 8\ninv 00000000\nterm 00000000 00000001\nend\n",
    ),
    // The charges of these two are 60 and 59: family one takes fewer products, family two the lower charge.
    (
        b"table 4 2 0\non 3 01\non 6 11\non 9 01\non 10 11\non 11 10\non 13 11\non 14 10\non 15 01\nend\n",
        b"form 4 2 0 0 0 9 24\ninv 00\nterm --11 01\nterm -11- 11\nterm -111 10\nterm 1--1 01\nterm 1-1- 11\n\
          term 1-11 01\nterm 11-1 10\nterm 111- 10\nterm 1111 10\nend\n",
    ),
    (
        b"table2 4 2 0\non 3 01\non 6 11\non 9 01\non 10 11\non 11 10\non 13 11\non 14 10\non 15 01\nend\n",
        b"form2 4 2 0 0 11 10 19\ninv 10\nterm ---0 01\nterm --0- 11\nterm -1-- 11\nterm -1-0 10\nterm -10- 01\n\
          term 0--- 11\nterm 0-0- 10\nterm 0-00 01\nterm 01-- 10\nterm 0100 10\nend\n",
    ),
    // With i = 3 there are 10 products and 18 literals, the same charge of 58. Fewer products decide.
    (
        b"table 4 2 0\non 3 01\non 5 01\non 6 11\non 7 11\non 9 11\non 10 10\non 12 11\non 13 10\non 14 01\n\
          on 15 10\nend\n",
        b"form 4 2 0 0 0 9 22\ninv 00\nterm --11 01\nterm -1-1 01\nterm -11- 11\nterm 1--1 11\nterm 1-1- 10\n\
          term 11-- 11\nterm 11-1 11\nterm 111- 11\nterm 1111 11\nend\n",
    ),
    (
        b"table2 4 2 0\non 3 01\non 5 01\non 6 11\non 7 11\non 9 11\non 10 10\non 12 11\non 13 10\non 14 01\n\
          on 15 10\nend\n",
        b"form2 4 2 0 0 0 9 22\ninv 00\nterm --11 01\nterm -1-1 01\nterm -11- 11\nterm 1--1 11\nterm 1-1- 10\n\
          term 11-- 11\nterm 11-1 11\nterm 111- 11\nterm 1111 11\nend\n",
    ),
];

/// Texts that are refused, each with the refusal's number and line.
pub const REFUSED: [(&[u8], u64, u64); 60] = [
    // Words around `table2`.
    (b"table1 2 2 1\nend\n", 1, 1),
    (b"table3 2 2 1\nend\n", 1, 1),
    (b"table0 2 2 1\nend\n", 1, 1),
    (b"table02 2 2 1\nend\n", 1, 1),
    (b"table20 2 2 1\nend\n", 1, 1),
    (b"table22 2 2 1\nend\n", 1, 1),
    (b"Table2 2 2 1\nend\n", 1, 1),
    (b"TABLE2 2 2 1\nend\n", 1, 1),
    (b"tabl2 2 2 1\nend\n", 1, 1),
    (b"tables2 2 2 1\nend\n", 1, 1),
    (b"2table 2 2 1\nend\n", 1, 1),
    (b"table2_ 2 2 1\nend\n", 1, 1),
    (b"table_2 2 2 1\nend\n", 1, 1),
    (b"table-2 2 2 1\nend\n", 1, 1),
    (b"table2\0 2 2 1\nend\n", 1, 1),
    (b"form2 2 2 1\nend\n", 1, 1),
    // Fields and characters.
    (b"table2\nend\n", 1, 1),
    (b"table2 2 2\nend\n", 1, 1),
    (b"table2 2 2 1 1\nend\n", 1, 1),
    (b"table 2 2 2 1\nend\n", 1, 1),
    (b"table2  2 2 1\nend\n", 1, 1),
    (b" table2 2 2 1\nend\n", 1, 1),
    (b"table22 2 1\nend\n", 1, 1),
    (b"table2_2_2_1\nend\n", 1, 1),
    (b"table2 2 2 1\r\nend\r\n", 1, 1),
    (b"table2 2 2 1", 1, 1),
    (b"table2 02 2 1\nend\n", 1, 1),
    (b"table2 2 2 01\nend\n", 1, 1),
    (b"table2 2 2 --\nend\n", 1, 1),
    (b"table2 2 2 T\nend\n", 1, 1),
    (b"table2 2 2 F1\nend\n", 1, 1),
    // `K` is for `table` only, whatever n, m and the later lines are.
    (b"table2 2 2 K\nend\n", 1, 1),
    (b"table2 8 8 K\nend\n", 1, 1),
    (b"table2 9 2 K\nend\n", 1, 1),
    (b"table2 2 9 K\nend\n", 1, 1),
    (b"table2 0 0 K\nend\n", 1, 1),
    (b"table2 2 2 k\nend\n", 1, 1),
    (b"table2 2 2 K\non 4 11\nend\n", 1, 1),
    (b"table2 2 2 K", 1, 1),
    (b"table3 2 2 K\nend\n", 1, 1),
    // Line 1: 1 before 2, 2 before 3, 3 before 4.
    (b"table2 9 9 x\nend\n", 1, 1),
    (b"table3 9 1 1\nend\n", 1, 1),
    (b"table2 9 1 1\nend\n", 2, 1),
    (b"table2 0 9 9\nend\n", 2, 1),
    (b"table2 2 9 9\nend\n", 3, 1),
    (b"table2 2 0 -\nx", 3, 1),
    (b"table2 2 2 3\nend\n", 4, 1),
    (b"table2 8 8 4\n", 4, 1),
    // Later lines are those of every text.
    (b"table2 2 2 1\n", 6, 2),
    (b"table2 2 2 1\nend", 1, 2),
    (b"table2 2 2 1\nend2\n", 1, 2),
    (b"table2 2 2 1\non2 0 11\nend\n", 1, 2),
    (b"table2 2 2 1\ntable2 2 2 1\nend\n", 1, 2),
    (b"table2 2 2 1\non 0 00\nend\n", 1, 2),
    (b"table2 2 2 1\non 0 1-\nend\n", 1, 2),
    (b"table2 2 2 1\non 4 11\nend\n", 5, 2),
    (b"table2 8 1 3\non 256 1\nend\n", 5, 2),
    (b"table2 2 2 1\non 1 11\non 1 11\nend\n", 5, 3),
    (b"table2 2 2 1\non 0 11\n", 6, 3),
    (b"table2 2 2 1\nend\nend\n", 6, 3),
];

#[cfg(test)]
mod tests {
    use super::*;
    use crate::class::{Class, Expansion, Members, least};
    use crate::family::Family;

    /// The answers of both families, with four inputs by both searches.
    #[test]
    fn designs() {
        for Compared { n, k, table, one, two, .. } in COMPARED {
            let class = Class::Block(k);
            let members = (n == 4).then(|| Members::new(n, class));
            for (family, wanted) in [(Family::One, one), (Family::Two, two)] {
                let found = least(family, n, class, table);
                assert_eq!(found.figures(), wanted, "{family:?}, k = {k}, {table:?}");
                assert_eq!(found.table(n), table);
                if let Some(members) = &members {
                    assert_eq!(found, members.least(family, OUTPUTS, table));
                }
            }
        }
    }

    /// Equal charges to fewest literals, and 3 for a product, give other answers than the family where these
    /// are marked.
    #[test]
    fn misreadings() {
        for Compared { n, k, table, one, two, misread } in COMPARED {
            let Some(misread) = misread else { continue };
            let members = Members::new(n, Class::Block(k));
            let rivals: Vec<Expansion> = members.rivals(OUTPUTS, table).collect();
            let first = |weighed: fn(usize, usize) -> [usize; 2]| {
                let key = |e: &Expansion| {
                    let order = weighed(e.cost.products, e.cost.literals);
                    (order, e.inverted, e.member.mixed, e.member.fixed)
                };
                rivals.iter().min_by_key(|e| key(e)).expect("a class is not empty").figures()
            };
            assert_eq!(first(|products, literals| [4 * products + literals, literals]), misread);
            assert_eq!(first(|products, literals| [3 * products + literals, products]), misread);
            assert!(misread != one && (one == two || misread == two));
        }
    }

    /// With fewer inputs the families have the same answers.
    #[test]
    fn small_tables() {
        use crate::seeded::tables::every_table;
        for (n, m) in [(1, 1), (1, 2), (1, 3), (2, 1), (2, 2), (2, 3), (3, 1)] {
            for table in every_table(n, m) {
                for class in Class::every(n) {
                    let [one, two] = Family::ALL.map(|family| least(family, n, class, &table));
                    assert_eq!(one, two, "n = {n}, {class:?}, {table:?}");
                }
            }
        }
    }
}
