//! Designs and texts whose answers are written down by hand: document 01's own, the ones that tell a
//! misreading of the method from the method, and texts on both sides of each refusal.

pub mod dash;
pub mod families;
pub mod free;
pub mod kronecker;
pub mod longest;
pub mod outputs;
pub mod pairs;

use std::iter::chain;

/// A design with its figures.
pub struct Marked {
    pub n: usize,
    pub m: usize,
    pub k: usize,
    pub table: &'static [u8],
    /// M, i, products, literals, inversion mask.
    pub figures: [u64; 5],
}

const fn marked(n: usize, m: usize, k: usize, table: &'static [u8], figures: [u64; 5]) -> Marked {
    Marked { n, m, k, table, figures }
}

/// Output 0 is x1, output 1 is x2 without x1.
const X1_AND_X2_WITHOUT_X1: &[u8] = &[0, 1, 2, 1];

/// Output 0 is x1 and x3, output 1 is x2 and x3 without x1.
const UNDER_X3: &[u8] = &[0, 0, 0, 0, 0, 1, 2, 1];

/// Points 0, 3 and 4 of three inputs.
const THREE_POINTS: &[u8] = &[1, 0, 0, 1, 1, 0, 0, 0];

/// Exactly one and exactly two of three inputs are 1.
const ONE_OF_THREE: &[u8] = &[0, 1, 1, 0, 1, 0, 0, 0];
const TWO_OF_THREE: &[u8] = &[0, 0, 0, 1, 0, 1, 1, 0];

pub const DESIGNS: [Marked; 34] = [
    // All zero: M = 2^k - 1, i = 0, 0 products, no output inverted.
    marked(2, 1, 0, &[0; 4], [0, 0, 0, 0, 0]),
    marked(2, 1, 1, &[0; 4], [1, 0, 0, 0, 0]),
    marked(2, 1, 2, &[0; 4], [3, 0, 0, 0, 0]),
    // "All one costs nothing": every output is inverted.
    marked(2, 1, 0, &[1; 4], [0, 0, 0, 0, 1]),
    marked(2, 1, 1, &[1; 4], [1, 0, 0, 0, 1]),
    marked(2, 1, 2, &[1; 4], [3, 0, 0, 0, 1]),
    marked(2, 2, 0, &[3; 4], [0, 0, 0, 0, 3]),
    marked(2, 2, 1, &[3; 4], [1, 0, 0, 0, 3]),
    marked(2, 2, 2, &[3; 4], [3, 0, 0, 0, 3]),
    // Only point 0 on. With i = 0 output 0 would be inverted: the least mask comes before the least i.
    marked(1, 1, 0, &[1, 0], [0, 1, 1, 1, 0]),
    // The example of the text layer.
    marked(2, 2, 1, &[2, 1, 1, 1], [1, 2, 1, 2, 1]),
    // Document 01's last design: 2 and 3 at every k. Without inverters k = 0 and k = 2 would cost 3 and 3.
    marked(2, 2, 0, X1_AND_X2_WITHOUT_X1, [0, 1, 2, 3, 1]),
    marked(2, 2, 1, X1_AND_X2_WITHOUT_X1, [1, 0, 2, 3, 0]),
    marked(2, 2, 2, X1_AND_X2_WITHOUT_X1, [3, 0, 2, 3, 1]),
    // A larger k is dearer. Each output by itself, joined, would cost 2 and 5 at every k.
    marked(3, 2, 0, UNDER_X3, [0, 1, 3, 6, 0]),
    marked(3, 2, 1, UNDER_X3, [1, 0, 2, 5, 0]),
    marked(3, 2, 2, UNDER_X3, [5, 0, 2, 5, 0]),
    marked(3, 2, 3, UNDER_X3, [7, 0, 3, 6, 0]),
    // A larger k is dearer with one output too.
    marked(3, 1, 2, THREE_POINTS, [3, 4, 2, 5, 0]),
    marked(3, 1, 3, THREE_POINTS, [7, 0, 3, 5, 1]),
    // The block chosen by products only would cost 4 and 9.
    marked(3, 1, 3, TWO_OF_THREE, [7, 0, 4, 6, 0]),
    marked(3, 1, 3, &[1, 1, 0, 1, 0, 1, 1, 0], [7, 0, 4, 6, 1]),
    // The block polarities chosen before i would cost 4 and 6, and at k = 2 for the three points 3 and 5.
    marked(3, 1, 1, ONE_OF_THREE, [1, 6, 3, 7, 0]),
    marked(3, 1, 2, ONE_OF_THREE, [3, 4, 3, 6, 0]),
    // The first M only would cost 3 and 5.
    marked(3, 1, 1, &[1, 0, 1, 1, 1, 0, 0, 0], [2, 5, 2, 4, 0]),
    marked(3, 1, 2, &[0, 1, 0, 1, 1, 0, 0, 0], [5, 2, 2, 5, 0]),
    // The least mask as a number: output 0 inverted, mask 1, is before output 1 inverted, mask 2. It comes
    // before the least i: i = 0 has mask 2.
    marked(2, 2, 0, &[2, 2, 1, 1], [0, 2, 1, 1, 1]),
    marked(2, 2, 1, &[2, 2, 1, 1], [1, 2, 1, 1, 1]),
    // It comes before the least M: M = 1 has 2 and 3 with mask 2, and with mask 3.
    marked(2, 2, 1, &[2, 2, 1, 0], [2, 1, 2, 3, 0]),
    marked(2, 2, 1, &[3, 3, 1, 0], [2, 1, 2, 3, 0]),
    marked(3, 1, 1, &[0, 0, 1, 1, 1, 0, 0, 0], [2, 0, 3, 5, 0]),
    // It comes before the least block polarity: x2 plain, in block 0, has mask 1.
    marked(2, 1, 2, &[1, 1, 0, 0], [3, 0, 1, 1, 0]),
    marked(2, 1, 1, &[1, 0, 1, 0], [1, 0, 1, 1, 0]),
    // An output that is inverted may have no term.
    marked(2, 2, 1, &[1, 3, 1, 3], [1, 0, 1, 1, 1]),
];

/// The bytes of a text that is written here with a space for each tab and `_` for each space.
pub fn bytes(written: &[u8]) -> Vec<u8> {
    let byte = |&byte: &u8| match byte {
        b' ' => b'\t',
        b'_' => b' ',
        _ => byte,
    };
    written.iter().map(byte).collect()
}

/// Document 01's example.
pub const EXAMPLE: &[u8] = b"table 2 2 1\non 0 01\non 1 10\non 2 10\non 3 10\nend\n";

/// Texts of the block class and of family one that are accepted, each with its listing.
pub const ACCEPTED: [(&[u8], &[u8]); 25] = [
    (EXAMPLE, b"form 2 2 1 1 2 1 2\ninv 10\nterm 00 11\nend\n"),
    (b"table 2 1 0\nend\n", b"form 2 1 0 0 0 0 0\ninv 0\nend\n"),
    (b"table 2 1 1\nend\n", b"form 2 1 1 1 0 0 0\ninv 0\nend\n"),
    (b"table 2 1 2\nend\n", b"form 2 1 2 3 0 0 0\ninv 0\nend\n"),
    // All one costs nothing, at every k; an output that is not inverted there is zero.
    (b"table 1 1 1\non 0 1\non 1 1\nend\n", b"form 1 1 1 1 0 0 0\ninv 1\nend\n"),
    (b"table 2 1 0\non 0 1\non 1 1\non 2 1\non 3 1\nend\n", b"form 2 1 0 0 0 0 0\ninv 1\nend\n"),
    (b"table 2 1 1\non 0 1\non 1 1\non 2 1\non 3 1\nend\n", b"form 2 1 1 1 0 0 0\ninv 1\nend\n"),
    (b"table 2 1 2\non 0 1\non 1 1\non 2 1\non 3 1\nend\n", b"form 2 1 2 3 0 0 0\ninv 1\nend\n"),
    (
        b"table 2 3 0\non 0 011\non 1 011\non 2 011\non 3 011\nend\n",
        b"form 2 3 0 0 0 0 0\ninv 011\nend\n",
    ),
    (b"table 1 1 0\non 0 1\nend\n", b"form 1 1 0 0 1 1 1\ninv 0\nterm 0 1\nend\n"),
    (b"table 1 1 1\non 0 1\nend\n", b"form 1 1 1 1 0 1 1\ninv 0\nterm 0 1\nend\n"),
    // The rightmost character of a cube is x1, the leftmost of the outputs and of the mask is output 0.
    (b"table 2 1 0\non 1 1\non 3 1\nend\n", b"form 2 1 0 0 0 1 1\ninv 0\nterm -1 1\nend\n"),
    (
        b"table 3 2 0\non 1 10\non 3 10\non 4 01\non 5 11\non 6 01\non 7 11\nend\n",
        b"form 3 2 0 0 0 2 2\ninv 00\nterm --1 10\nterm 1-- 01\nend\n",
    ),
    // OR and its complement: the constant is an inverter, and the outputs share the sole term.
    (b"table 2 1 0\non 1 1\non 2 1\non 3 1\nend\n", b"form 2 1 0 0 3 1 2\ninv 1\nterm 00 1\nend\n"),
    (b"table 2 1 0\non 0 1\nend\n", b"form 2 1 0 0 3 1 2\ninv 0\nterm 00 1\nend\n"),
    // Output 0 is x2, output 1 its complement. Output 0 inverted is mask 1, output 1 inverted is mask 2.
    (
        b"table 2 2 0\non 0 01\non 1 01\non 2 10\non 3 10\nend\n",
        b"form 2 2 0 0 2 1 1\ninv 10\nterm 0- 11\nend\n",
    ),
    // The mask comes before M: with M = 1 and i = 0 the inverters are `01`.
    (
        b"table 2 2 1\non 0 01\non 1 01\non 2 10\nend\n",
        b"form 2 2 1 2 1 2 3\ninv 00\nterm 0- 01\nterm 10 10\nend\n",
    ),
    // Output 0 is x1, output 1 is x2 without x1: 2 and 3 at every k.
    (
        b"table 2 2 0\non 1 10\non 2 01\non 3 10\nend\n",
        b"form 2 2 0 0 1 2 3\ninv 10\nterm -0 10\nterm 10 01\nend\n",
    ),
    (
        b"table 2 2 1\non 1 10\non 2 01\non 3 10\nend\n",
        b"form 2 2 1 1 0 2 3\ninv 00\nterm -1 10\nterm 10 01\nend\n",
    ),
    (
        b"table 2 2 2\non 1 10\non 2 01\non 3 10\nend\n",
        b"form 2 2 2 3 0 2 3\ninv 10\nterm -0 10\nterm 10 01\nend\n",
    ),
    // Output 0 is x1 and x3, output 1 is x2 and x3 without x1: k = 2 has 2 products, k = 3 has 3.
    (
        b"table 3 2 2\non 5 10\non 6 01\non 7 10\nend\n",
        b"form 3 2 2 5 0 2 5\ninv 00\nterm 1-1 10\nterm 110 01\nend\n",
    ),
    (
        b"table 3 2 3\non 5 10\non 6 01\non 7 10\nend\n",
        b"form 3 2 3 7 0 3 6\ninv 00\nterm 1-- 10\nterm 1-0 10\nterm 110 01\nend\n",
    ),
    // The last point of eight inputs.
    (b"table 8 1 3\non 255 1\nend\n", b"form 8 1 3 7 0 1 8\ninv 0\nterm 11111111 1\nend\n"),
    (
        b"table 8 8 0\non 0 00000001\nend\n",
        b"form 8 8 0 0 255 1 8\ninv 00000000\nterm 00000000 00000001\nend\n",
    ),
    (
        b"table 1 8 0\non 0 00000001\non 1 11111111\nend\n",
        b"form 1 8 0 0 0 1 1\ninv 00000001\nterm 1 11111110\nend\n",
    ),
];

/// Texts that are refused, each with the refusal's number and line.
pub const REFUSED: [(&[u8], u64, u64); 87] = [
    (b"", 6, 1),
    (b"\n", 1, 1),
    (b"\0", 1, 1),
    (b"\xff\n", 1, 1),
    (b"end\n", 1, 1),
    (b"on 0 1\nend\n", 1, 1),
    (b"table 2 2 1", 1, 1),
    (b"table\nend\n", 1, 1),
    (b"table 2 2\nend\n", 1, 1),
    (b"table 2 2 1 1\nend\n", 1, 1),
    (b"table 2 2 1 \nend\n", 1, 1),
    (b" table 2 2 1\nend\n", 1, 1),
    (b"table  2 2 1\nend\n", 1, 1),
    (b"table_2_2_1\nend\n", 1, 1),
    (b"table 2 2_1\nend\n", 1, 1),
    (b"table 2 2 1\r\nend\r\n", 1, 1),
    (b"Table 2 2 1\nend\n", 1, 1),
    (b"tabl 2 2 1\nend\n", 1, 1),
    (b"tables 2 2 1\nend\n", 1, 1),
    (b"table3 2 2 1\nend\n", 1, 1),
    (b"table 10 2 1\nend\n", 1, 1),
    (b"table 02 2 1\nend\n", 1, 1),
    (b"table 2 08 1\nend\n", 1, 1),
    (b"table 2 2 01\nend\n", 1, 1),
    (b"table 2 2 12\nend\n", 1, 1),
    (b"table - 2 1\nend\n", 1, 1),
    (b"table 2 - 1\nend\n", 1, 1),
    (b"table 2 2 --\nend\n", 1, 1),
    (b"table 2 2 \nend\n", 1, 1),
    (b"table 2 2 T\nend\n", 1, 1),
    (b"table 2 2 F1\nend\n", 1, 1),
    (b"table 2 2 :\nend\n", 1, 1),
    (b"table 2 2 /\nend\n", 1, 1),
    // Line 1: 1 before 2, 2 before 3, 3 before 4.
    (b"table 9 9 x\nend\n", 1, 1),
    (b"table 0 2 1\nend\n", 2, 1),
    (b"table 9 2 1\nend\n", 2, 1),
    (b"table 9 9 9\nend\n", 2, 1),
    (b"table 0 0 -\n", 2, 1),
    (b"table 2 0 1\nend\n", 3, 1),
    (b"table 8 9 9\nend\n", 3, 1),
    (b"table 2 9 -\nx", 3, 1),
    (b"table 2 2 3\nend\n", 4, 1),
    (b"table 2 2 4\nend\n", 4, 1),
    (b"table 1 1 2\nend\n", 4, 1),
    (b"table 8 8 4\nend\n", 4, 1),
    (b"table 3 1 9\n", 4, 1),
    // Grammar of the later lines.
    (b"table 2 2 1\n\nend\n", 1, 2),
    (b"table 2 2 1\nen", 1, 2),
    (b"table 2 2 1\nend", 1, 2),
    (b"table 2 2 1\nend\r\n", 1, 2),
    (b"table 2 2 1\nend \n", 1, 2),
    (b"table 2 2 1\n end\n", 1, 2),
    (b"table 2 2 1\nend_\n", 1, 2),
    (b"table 2 2 1\nend\0\n", 1, 2),
    (b"table 2 2 1\ntable 2 2 1\nend\n", 1, 2),
    (b"table 2 2 1\non\nend\n", 1, 2),
    (b"table 2 2 1\non 0\nend\n", 1, 2),
    (b"table 2 2 1\non 0 11 1\nend\n", 1, 2),
    (b"table 2 2 1\non  11\nend\n", 1, 2),
    (b"table 2 2 1\nOn 0 11\nend\n", 1, 2),
    (b"table 2 2 1\non 00 11\nend\n", 1, 2),
    (b"table 2 2 1\non 01 11\nend\n", 1, 2),
    (b"table 2 2 1\non +1 11\nend\n", 1, 2),
    (b"table 2 2 1\non -1 11\nend\n", 1, 2),
    (b"table 2 2 1\non 1000 11\nend\n", 1, 2),
    (b"table 2 2 1\non 0 00\nend\n", 1, 2),
    (b"table 2 2 1\non 0 1\nend\n", 1, 2),
    (b"table 2 2 1\non 0 111\nend\n", 1, 2),
    (b"table 2 2 1\non 0 12\nend\n", 1, 2),
    (b"table 2 2 1\non 0 1-\nend\n", 1, 2),
    (b"table 2 2 1\non 0 11", 1, 2),
    (b"table 2 2 1\non 999 00\nend\n", 1, 2),
    (b"table 2 2 1\non 300 12\nend\n", 1, 2),
    // Points.
    (b"table 2 2 1\non 4 11\nend\n", 5, 2),
    (b"table 2 2 1\non 999 11\nend\n", 5, 2),
    (b"table 8 1 3\non 256 1\nend\n", 5, 2),
    (b"table 2 2 1\non 1 11\non 1 11\nend\n", 5, 3),
    (b"table 2 2 1\non 1 11\non 0 11\nend\n", 5, 3),
    // The first bad line counts.
    (b"table 2 2 1\non 4 11\non 0 00\nend\n", 5, 2),
    (b"table 2 2 1\non 0 00\non 4 11\nend\n", 1, 2),
    // The text stops, or goes on.
    (b"table 2 2 1\n", 6, 2),
    (b"table 2 2 1\non 0 11\n", 6, 3),
    (b"table 2 2 1\nend\n\n", 6, 3),
    (b"table 2 2 1\nend\nend\n", 6, 3),
    (b"table 2 2 1\non 3 11\nend\nx", 6, 4),
    (b"table 2 2 1\nend\n\0", 6, 3),
    (b"table 2 2 1\nend\non 4 11\n", 6, 3),
];

/// Every text that is accepted, with its listing.
pub fn accepted() -> impl Iterator<Item = (&'static [u8], &'static [u8])> {
    let others = chain(kronecker::ACCEPTED, families::ACCEPTED);
    chain(ACCEPTED, others).chain(free::ACCEPTED).chain(dash::ACCEPTED)
}

/// Every text that is refused, with the refusal's number and line.
pub fn refused() -> impl Iterator<Item = (&'static [u8], u64, u64)> {
    let others = chain(kronecker::REFUSED, families::REFUSED);
    chain(REFUSED, others).chain(free::REFUSED).chain(dash::REFUSED)
}

#[cfg(test)]
mod tests {
    use super::*;
    use crate::class::{Class, Members, least};
    use crate::evaluator::Refusal;
    use crate::family::Family;
    use crate::text::compile;

    #[test]
    fn designs() {
        for Marked { n, m, k, table, figures } in DESIGNS {
            let found = least(Family::One, n, Class::Block(k), table);
            assert_eq!(found.figures().map(|number| number as u64), figures, "{table:?}");
            assert_eq!(found, Members::new(n, Class::Block(k)).least(Family::One, m, table));
        }
    }

    #[test]
    fn texts() {
        for (text, listing) in accepted() {
            assert_eq!(compile(&bytes(text)), Ok(bytes(listing)), "{}", text.escape_ascii());
        }
        for (text, number, line) in refused() {
            let refusal = Err(Refusal { number, line });
            assert_eq!(compile(&bytes(text)), refusal, "{}", text.escape_ascii());
        }
    }
}
