//! Designs on which the free class and the block class differ, with their answers at every k field; texts with `f`
//! fields on both sides of each refusal, and pairs of such a text and a listing. They are written as the other
//! texts are, with a space for each tab.

use super::UNDER_X3;
use super::pairs::{MarkedPair, NOT_OF_CLASS, SAME, differs, refused};
use crate::class::Figures;

/// The answers of a design in one family.
pub struct Answers {
    /// At each digit from 0 up.
    pub digits: [Figures; 4],
    /// At `f0`, `f1` and `f2`.
    pub free: [Figures; 3],
}

/// A design with its answers in both families.
pub struct Compared {
    pub n: usize,
    pub m: usize,
    pub table: &'static [u8],
    pub one: Answers,
    pub two: Answers,
}

/// Where x3 is 1: output 0 is x1, output 1 is x2, output 2 is 1 where neither is.
pub(super) const NEITHER_UNDER_X3: &[u8] = &[0, 0, 0, 0, 4, 1, 2, 3];

/// Where x3 is 1: both outputs are 1 where x1 and x2 are 0, else output 0 is x1 and output 1 is x2.
const BOTH_OR_EACH_UNDER_X3: &[u8] = &[0, 0, 0, 0, 3, 1, 2, 3];

/// A design of five inputs and two outputs on which the families choose differently at `f2`.
#[rustfmt::skip]
const FIVE_INPUTS: &[u8] = &[
    0, 2, 2, 1, 3, 0, 1, 2, 0, 3, 0, 1, 0, 0, 2, 1, 2, 0, 1, 1, 0, 0, 3, 0, 2, 0, 1, 0, 1, 0, 0, 0,
];

const fn under_x3() -> Answers {
    Answers {
        digits: [[0, 1, 3, 6, 0], [1, 0, 2, 5, 0], [5, 0, 2, 5, 0], [7, 0, 3, 6, 0]],
        free: [[0, 1, 3, 6, 0], [1, 0, 2, 5, 0], [3, 0, 2, 5, 0]],
    }
}

/// Three products with polarities of their own, and four wherever the terms of a block share one.
const fn three_products() -> Answers {
    Answers {
        digits: [[0, 0, 4, 8, 0], [1, 0, 4, 8, 0], [3, 0, 4, 8, 0], [7, 0, 4, 8, 0]],
        free: [[0, 0, 4, 8, 0], [1, 0, 4, 8, 0], [3, 0, 3, 7, 0]],
    }
}

pub const COMPARED: [Compared; 4] = [
    // Document 02's own: "3 products at k = 3, yet 2 at k = 1".
    Compared { n: 3, m: 2, table: UNDER_X3, one: under_x3(), two: under_x3() },
    // `f2` is cheaper than every digit.
    Compared { n: 3, m: 3, table: NEITHER_UNDER_X3, one: three_products(), two: three_products() },
    Compared {
        n: 3,
        m: 2,
        table: BOTH_OR_EACH_UNDER_X3,
        one: three_products(),
        two: three_products(),
    },
    Compared {
        n: 5,
        m: 2,
        table: FIVE_INPUTS,
        one: Answers {
            digits: [[0, 6, 19, 47, 1], [4, 17, 18, 55, 0], [18, 5, 16, 47, 0], [22, 1, 16, 47, 0]],
            free: [[0, 6, 19, 47, 1], [4, 17, 18, 55, 0], [12, 17, 15, 48, 0]],
        },
        two: Answers {
            digits: [[0, 6, 19, 47, 1], [1, 6, 19, 47, 1], [18, 5, 16, 47, 0], [22, 1, 16, 47, 0]],
            free: [[0, 6, 19, 47, 1], [1, 6, 19, 47, 1], [5, 2, 16, 42, 1]],
        },
    },
];

/// Texts that are accepted, each with its listing.
pub const ACCEPTED: [(&[u8], &[u8]); 33] = [
    // All zero and all one cost nothing.
    (b"table 2 1 f0\nend\n", b"form 2 1 f0 0 0 0 0\ninv 0\nend\n"),
    (b"table 2 1 f1\nend\n", b"form 2 1 f1 1 0 0 0\ninv 0\nend\n"),
    (b"table 2 1 f2\nend\n", b"form 2 1 f2 3 0 0 0\ninv 0\nend\n"),
    (b"table 8 8 f2\nend\n", b"form 8 8 f2 3 0 0 0\ninv 00000000\nend\n"),
    (b"table2 8 8 f2\nend\n", b"form2 8 8 f2 3 0 0 0\ninv 00000000\nend\n"),
    (
        b"table 2 2 f2\non 0 10\non 1 10\non 2 10\non 3 10\nend\n",
        b"form 2 2 f2 3 0 0 0\ninv 10\nend\n",
    ),
    // One input: `f0` and `f1`.
    (b"table 1 1 f0\non 0 1\nend\n", b"form 1 1 f0 0 1 1 1\ninv 0\nterm 0 1\nend\n"),
    (b"table 1 1 f1\non 0 1\nend\n", b"form 1 1 f1 1 0 1 1\ninv 0\nterm 0 1\nend\n"),
    (b"table2 1 1 f0\nend\n", b"form2 1 1 f0 0 0 0 0\ninv 0\nend\n"),
    (b"table2 1 1 f1\non 0 1\nend\n", b"form2 1 1 f1 1 0 1 1\ninv 0\nterm 0 1\nend\n"),
    // Document 01's example.
    (
        b"table 2 2 f0\non 0 01\non 1 10\non 2 10\non 3 10\nend\n",
        b"form 2 2 f0 0 3 1 2\ninv 10\nterm 00 11\nend\n",
    ),
    (
        b"table 2 2 f1\non 0 01\non 1 10\non 2 10\non 3 10\nend\n",
        b"form 2 2 f1 1 2 1 2\ninv 10\nterm 00 11\nend\n",
    ),
    (
        b"table 2 2 f2\non 0 01\non 1 10\non 2 10\non 3 10\nend\n",
        b"form 2 2 f2 3 0 1 2\ninv 10\nterm 00 11\nend\n",
    ),
    // Output 0 is x1 and x3, output 1 is x2 and x3 without x1. At `f2` both terms are of one block, and x1 is plain
    // in one and complemented in the other.
    (
        b"table 3 2 f0\non 5 10\non 6 01\non 7 10\nend\n",
        b"form 3 2 f0 0 1 3 6\ninv 00\nterm 1-- 10\nterm 1-0 10\nterm 110 01\nend\n",
    ),
    (
        b"table 3 2 f1\non 5 10\non 6 01\non 7 10\nend\n",
        b"form 3 2 f1 1 0 2 5\ninv 00\nterm 1-1 10\nterm 110 01\nend\n",
    ),
    (
        b"table 3 2 f2\non 5 10\non 6 01\non 7 10\nend\n",
        b"form 3 2 f2 3 0 2 5\ninv 00\nterm 1-1 10\nterm 110 01\nend\n",
    ),
    (
        b"table2 3 2 f2\non 5 10\non 6 01\non 7 10\nend\n",
        b"form2 3 2 f2 3 0 2 5\ninv 00\nterm 1-1 10\nterm 110 01\nend\n",
    ),
    // With output 2 where x3 is 1 and neither x1 nor x2 is: a product for each output, and four at k = 2.
    (
        b"table 3 3 f2\non 4 001\non 5 100\non 6 010\non 7 110\nend\n",
        b"form 3 3 f2 3 0 3 7\ninv 000\nterm 1-1 100\nterm 11- 010\nterm 100 001\nend\n",
    ),
    (
        b"table2 3 3 f2\non 4 001\non 5 100\non 6 010\non 7 110\nend\n",
        b"form2 3 3 f2 3 0 3 7\ninv 000\nterm 1-1 100\nterm 11- 010\nterm 100 001\nend\n",
    ),
    (
        b"table 3 3 2\non 4 001\non 5 100\non 6 010\non 7 110\nend\n",
        b"form 3 3 2 3 0 4 8\ninv 000\nterm 1-- 001\nterm 1-1 101\nterm 11- 011\nterm 111 001\nend\n",
    ),
    (
        b"table 3 2 f2\non 4 11\non 5 10\non 6 01\non 7 11\nend\n",
        b"form 3 2 f2 3 0 3 7\ninv 00\nterm 1-1 10\nterm 11- 01\nterm 100 11\nend\n",
    ),
    // Points 0 and 3: one of the two literals is complemented, and the polarity of term 1 is the least. At k = 2 the
    // block's polarity is, and that of x1 is its lowest bit. With both plain and the output inverted it would cost the
    // same: the mask comes before the polarities.
    (
        b"table 2 1 f2\non 0 1\non 3 1\nend\n",
        b"form 2 1 f2 3 0 2 2\ninv 0\nterm -1 1\nterm 0- 1\nend\n",
    ),
    (b"table 2 1 2\non 0 1\non 3 1\nend\n", b"form 2 1 2 3 0 2 2\ninv 0\nterm -0 1\nterm 1- 1\nend\n"),
    (
        b"table2 2 1 f2\non 0 1\non 3 1\nend\n",
        b"form2 2 1 f2 3 0 2 2\ninv 0\nterm -1 1\nterm 0- 1\nend\n",
    ),
    // Output 0 where x1 and x2 differ, output 1 where neither is 1. Terms 1 and 2 plain come before a lower polarity of
    // term 3: with x1 and x2 complemented in them, term 3 could have one plain literal.
    (
        b"table 2 2 f2\non 0 01\non 1 10\non 2 10\nend\n",
        b"form 2 2 f2 3 0 3 4\ninv 00\nterm -1 10\nterm 1- 10\nterm 00 01\nend\n",
    ),
    // Term 3 can have x1 plain or complemented.
    (
        b"table 2 2 f2\non 0 01\non 1 10\nend\n",
        b"form 2 2 f2 3 0 2 3\ninv 00\nterm 0- 01\nterm 01 11\nend\n",
    ),
    // All points but 0 and 7. The blocks choose by themselves, each by its lowest term first.
    (
        b"table 3 1 f2\non 1 1\non 2 1\non 3 1\non 4 1\non 5 1\non 6 1\nend\n",
        b"form 3 1 f2 3 0 3 6\ninv 1\nterm -00 1\nterm 1-1 1\nterm 10- 1\nend\n",
    ),
    // The constant of an output is its inverter.
    (
        b"table 2 1 f2\non 0 1\non 1 1\non 3 1\nend\n",
        b"form 2 1 f2 3 0 1 2\ninv 1\nterm 10 1\nend\n",
    ),
    // The last and the first point of eight inputs.
    (b"table 8 1 f2\non 255 1\nend\n", b"form 8 1 f2 3 0 1 8\ninv 0\nterm 11111111 1\nend\n"),
    (
        b"table 8 8 f0\non 0 00000001\nend\n",
        b"form 8 8 f0 0 255 1 8\ninv 00000000\nterm 00000000 00000001\nend\n",
    ),
    (
        b"table 8 8 f1\non 0 00000001\nend\n",
        b"form 8 8 f1 1 254 1 8\ninv 00000000\nterm 00000000 00000001\nend\n",
    ),
    (
        b"table 8 8 f2\non 0 00000001\nend\n",
        b"form 8 8 f2 3 252 1 8\ninv 00000000\nterm 00000000 00000001\nend\n",
    ),
    (
        b"table2 8 8 f2\non 0 00000001\nend\n",
        b"form2 8 8 f2 3 252 1 8\ninv 00000000\nterm 00000000 00000001\nend\n",
    ),
];

/// Texts that are refused, each with the refusal's number and line.
pub const REFUSED: [(&[u8], u64, u64); 60] = [
    // `f` and exactly one digit.
    (b"table 2 2 f\nend\n", 1, 1),
    (b"table 2 2 F1\nend\n", 1, 1),
    (b"table 2 2 F2\nend\n", 1, 1),
    (b"table 2 2 f12\nend\n", 1, 1),
    (b"table 2 2 f10\nend\n", 1, 1),
    (b"table 2 2 f01\nend\n", 1, 1),
    (b"table 2 2 ff\nend\n", 1, 1),
    (b"table 2 2 ff1\nend\n", 1, 1),
    (b"table 2 2 f-\nend\n", 1, 1),
    (b"table 2 2 -f\nend\n", 1, 1),
    (b"table 2 2 f-1\nend\n", 1, 1),
    (b"table 2 2 fK\nend\n", 1, 1),
    (b"table 2 2 Kf\nend\n", 1, 1),
    (b"table 2 2 1f\nend\n", 1, 1),
    (b"table 2 2 e1\nend\n", 1, 1),
    (b"table 2 2 g1\nend\n", 1, 1),
    (b"table 2 2 f/\nend\n", 1, 1),
    (b"table 2 2 f:\nend\n", 1, 1),
    (b"table 2 2 f\0\nend\n", 1, 1),
    (b"table 2 2 f1_\nend\n", 1, 1),
    (b"table 2 2 _f1\nend\n", 1, 1),
    (b"table 2 2 f1 \nend\n", 1, 1),
    (b"table 2 2 f 1\nend\n", 1, 1),
    (b"table 2 2 f1 f1\nend\n", 1, 1),
    (b"table 2 2 f1\r\nend\r\n", 1, 1),
    (b"table 2 2 f1", 1, 1),
    (b"table 2 2 f", 1, 1),
    (b"table f2 2 1\nend\n", 1, 1),
    (b"table 2 f2 1\nend\n", 1, 1),
    (b"table2 2 2 f\nend\n", 1, 1),
    (b"table2 2 2 f12\nend\n", 1, 1),
    (b"table2 2 2 F1\nend\n", 1, 1),
    (b"form 2 2 f1\nend\n", 1, 1),
    // A digit above 2 or above n. Line 1: 1 before 2, 2 before 3, 3 before 4.
    (b"table 2 2 f3\nend\n", 4, 1),
    (b"table 3 2 f3\nend\n", 4, 1),
    (b"table 8 8 f3\nend\n", 4, 1),
    (b"table 8 8 f4\nend\n", 4, 1),
    (b"table 8 8 f9\n", 4, 1),
    (b"table 1 1 f2\nend\n", 4, 1),
    (b"table 1 1 f3\nend\n", 4, 1),
    (b"table2 2 2 f3\nend\n", 4, 1),
    (b"table2 1 1 f2\non 9 9\n", 4, 1),
    (b"table 9 9 f12\nend\n", 1, 1),
    (b"table 9 9 f\nend\n", 1, 1),
    (b"table 9 9 f9\nend\n", 2, 1),
    (b"table 0 2 f2\nend\n", 2, 1),
    (b"table2 9 2 f1\nend\n", 2, 1),
    (b"table 8 9 f9\nend\n", 3, 1),
    (b"table 1 0 f2\nx", 3, 1),
    (b"table2 2 9 f1\nend\n", 3, 1),
    // Later lines are those of every text.
    (b"table 2 2 f2\n", 6, 2),
    (b"table 2 2 f2\nend", 1, 2),
    (b"table 2 2 f2\non f2 11\nend\n", 1, 2),
    (b"table 2 2 f2\non 0 f2\nend\n", 1, 2),
    (b"table 2 2 f2\nf2\nend\n", 1, 2),
    (b"table 2 2 f2\non 0 1-\nend\n", 1, 2),
    (b"table 2 2 f2\non 4 11\nend\n", 5, 2),
    (b"table2 8 1 f2\non 256 1\nend\n", 5, 2),
    (b"table 2 2 f2\non 1 11\non 1 11\nend\n", 5, 3),
    (b"table 2 2 f2\nend\nf2\n", 6, 3),
];

/// Tables of the free class: all zero, points 0 and 3, all points but point 2, and document 02's design.
const ZERO_F0: &[u8] = b"table 2 1 f0\nend\n";
const ZERO_F1: &[u8] = b"table 2 1 f1\nend\n";
const ZERO_F2: &[u8] = b"table 2 1 f2\nend\n";
const ZERO_F2_TWO: &[u8] = b"table2 2 1 f2\nend\n";
const EQUAL_F2: &[u8] = b"table 2 1 f2\non 0 1\non 3 1\nend\n";
const BUT_2_F0: &[u8] = b"table 2 1 f0\non 0 1\non 1 1\non 3 1\nend\n";
const BUT_2_F1: &[u8] = b"table 2 1 f1\non 0 1\non 1 1\non 3 1\nend\n";
const BUT_2_F2: &[u8] = b"table 2 1 f2\non 0 1\non 1 1\non 3 1\nend\n";
const UNDER_X3_F1: &[u8] = b"table 3 2 f1\non 5 10\non 6 01\non 7 10\nend\n";
const UNDER_X3_F2: &[u8] = b"table 3 2 f2\non 5 10\non 6 01\non 7 10\nend\n";

/// Pairs with an `f` field in the table text or in the listing.
pub const PAIRS: [MarkedPair; 90] = [
    (EQUAL_F2, b"form 2 1 f2 3 0 2 2\ninv 0\nterm -1 1\nterm 0- 1\nend\n", SAME),
    // Cheap or not, and whichever of equal ones.
    (EQUAL_F2, b"form 2 1 f2 3 0 2 2\ninv 0\nterm -0 1\nterm 1- 1\nend\n", SAME),
    (EQUAL_F2, b"form 2 1 f2 3 0 2 2\ninv 1\nterm -1 1\nterm 1- 1\nend\n", SAME),
    (EQUAL_F2, b"form 2 1 f2 3 0 2 2\ninv 0\nterm -0 1\nterm 0- 1\nend\n", differs(0)),
    (EQUAL_F2, b"form 2 1 f2 3 0 3 2\ninv 0\nterm -- 1\nterm -0 1\nterm 0- 1\nend\n", SAME),
    // Each term has its own polarities in M: cubes of one block need not agree. Those of a digit must.
    (BUT_2_F2, b"form 2 1 f2 3 0 2 3\ninv 0\nterm -1 1\nterm 00 1\nend\n", SAME),
    (BUT_2_F2, b"form 2 1 f2 3 0 2 3\ninv 0\nterm -0 1\nterm 11 1\nend\n", differs(1)),
    (BUT_2_F2, b"form 2 1 f2 3 0 2 3\ninv 0\nterm 0- 1\nterm 11 1\nend\n", SAME),
    (UNDER_X3_F2, b"form 3 2 f2 3 0 2 5\ninv 00\nterm 1-1 10\nterm 110 01\nend\n", SAME),
    (
        UNDER_X3_F2,
        b"form 3 2 f2 3 0 3 6\ninv 00\nterm 1-- 10\nterm 1-0 10\nterm 110 01\nend\n",
        SAME,
    ),
    (UNDER_X3_F2, b"form 3 2 f2 5 0 2 5\ninv 00\nterm 1-1 10\nterm 110 01\nend\n", SAME),
    (UNDER_X3_F2, b"form 3 2 f2 3 0 1 3\ninv 00\nterm 101 10\nend\n", differs(6)),
    // Literals outside M follow i.
    (UNDER_X3_F2, b"form 3 2 f2 6 0 2 5\ninv 00\nterm 1-1 10\nterm 110 01\nend\n", NOT_OF_CLASS),
    (UNDER_X3_F2, b"form 3 2 f2 6 1 2 5\ninv 00\nterm 1-1 10\nterm 110 01\nend\n", NOT_OF_CLASS),
    (UNDER_X3_F2, b"form 3 2 f2 3 4 2 5\ninv 00\nterm 1-1 10\nterm 110 01\nend\n", NOT_OF_CLASS),
    (UNDER_X3_F1, b"form 3 2 f1 1 0 2 5\ninv 00\nterm 1-1 10\nterm 110 01\nend\n", SAME),
    (UNDER_X3_F1, b"form 3 2 f1 2 0 2 5\ninv 00\nterm 1-1 10\nterm 110 01\nend\n", NOT_OF_CLASS),
    (BUT_2_F1, b"form 2 1 f1 1 2 2 3\ninv 0\nterm -1 1\nterm 00 1\nend\n", SAME),
    (BUT_2_F1, b"form 2 1 f1 1 0 2 3\ninv 0\nterm -1 1\nterm 00 1\nend\n", NOT_OF_CLASS),
    (BUT_2_F1, b"form 2 1 f1 2 0 2 3\ninv 0\nterm -1 1\nterm 00 1\nend\n", NOT_OF_CLASS),
    (BUT_2_F0, b"form 2 1 f0 0 2 2 3\ninv 0\nterm -1 1\nterm 00 1\nend\n", NOT_OF_CLASS),
    (BUT_2_F0, b"form 2 1 f0 0 1 1 2\ninv 1\nterm 10 1\nend\n", SAME),
    // Bits of i that no cube shows are free, and so is every M of as many inputs as the field says.
    (ZERO_F0, b"form 2 1 f0 0 3 0 0\ninv 0\nend\n", SAME),
    (ZERO_F1, b"form 2 1 f1 2 1 0 0\ninv 0\nend\n", SAME),
    (ZERO_F2, b"form 2 1 f2 3 0 0 0\ninv 0\nend\n", SAME),
    (b"table 3 1 f2\nend\n", b"form 3 1 f2 6 1 0 0\ninv 0\nend\n", SAME),
    // M has another number of inputs, or one above xn; i has a bit of M, or one above xn.
    (ZERO_F0, b"form 2 1 f0 1 0 0 0\ninv 0\nend\n", NOT_OF_CLASS),
    (ZERO_F0, b"form 2 1 f0 0 4 0 0\ninv 0\nend\n", NOT_OF_CLASS),
    (ZERO_F1, b"form 2 1 f1 0 0 0 0\ninv 0\nend\n", NOT_OF_CLASS),
    (ZERO_F1, b"form 2 1 f1 3 0 0 0\ninv 0\nend\n", NOT_OF_CLASS),
    (ZERO_F1, b"form 2 1 f1 1 1 0 0\ninv 0\nend\n", NOT_OF_CLASS),
    (ZERO_F2, b"form 2 1 f2 0 0 0 0\ninv 0\nend\n", NOT_OF_CLASS),
    (ZERO_F2, b"form 2 1 f2 1 0 0 0\ninv 0\nend\n", NOT_OF_CLASS),
    (ZERO_F2, b"form 2 1 f2 5 0 0 0\ninv 0\nend\n", NOT_OF_CLASS),
    (ZERO_F2, b"form 2 1 f2 7 0 0 0\ninv 0\nend\n", NOT_OF_CLASS),
    (ZERO_F2, b"form 2 1 f2 3 1 0 0\ninv 0\nend\n", NOT_OF_CLASS),
    (ZERO_F2, b"form 2 1 f2 3 4 0 0\ninv 0\nend\n", NOT_OF_CLASS),
    (ZERO_F2, b"form 2 1 f2 9999 9999 0 0\ninv 0\nend\n", NOT_OF_CLASS),
    (b"table 3 1 f2\nend\n", b"form 3 1 f2 7 0 0 0\ninv 0\nend\n", NOT_OF_CLASS),
    // The class is judged before the points, and the points after the inverters.
    (BUT_2_F2, b"form 2 1 f2 1 0 0 0\ninv 1\nend\n", NOT_OF_CLASS),
    (BUT_2_F2, b"form 2 1 f2 3 0 0 0\ninv 1\nend\n", differs(2)),
    (BUT_2_F2, b"form 2 1 f2 3 0 1 2\ninv 0\nterm 10 1\nend\n", differs(0)),
    // Family two.
    (
        b"table2 2 1 f2\non 0 1\non 3 1\nend\n",
        b"form2 2 1 f2 3 0 2 2\ninv 0\nterm -1 1\nterm 0- 1\nend\n",
        SAME,
    ),
    (ZERO_F2_TWO, b"form2 2 1 f2 1 0 0 0\ninv 0\nend\n", NOT_OF_CLASS),
    (ZERO_F2_TWO, b"form 2 1 f2 3 0 0 0\ninv 0\nend\n", refused(12, 1)),
    (ZERO_F2, b"form2 2 1 f2 3 0 0 0\ninv 0\nend\n", refused(12, 1)),
    (ZERO_F2_TWO, b"form2 2 1 2 3 0 0 0\ninv 0\nend\n", refused(12, 1)),
    // The field is not the table's, also where the answers agree.
    (ZERO_F0, b"form 2 1 0 0 0 0 0\ninv 0\nend\n", refused(12, 1)),
    (ZERO_F1, b"form 2 1 1 1 0 0 0\ninv 0\nend\n", refused(12, 1)),
    (ZERO_F2, b"form 2 1 2 3 0 0 0\ninv 0\nend\n", refused(12, 1)),
    (b"table 2 1 0\nend\n", b"form 2 1 f0 0 0 0 0\ninv 0\nend\n", refused(12, 1)),
    (b"table 2 1 1\nend\n", b"form 2 1 f1 1 0 0 0\ninv 0\nend\n", refused(12, 1)),
    (b"table 2 1 1\nend\n", b"form 2 1 f2 3 0 0 0\ninv 0\nend\n", refused(12, 1)),
    (b"table 2 1 2\nend\n", b"form 2 1 f2 3 0 0 0\ninv 0\nend\n", refused(12, 1)),
    (ZERO_F1, b"form 2 1 f0 0 0 0 0\ninv 0\nend\n", refused(12, 1)),
    (ZERO_F2, b"form 2 1 f1 1 0 0 0\ninv 0\nend\n", refused(12, 1)),
    (ZERO_F2, b"form 3 1 f2 3 0 0 0\ninv 0\nend\n", refused(12, 1)),
    (ZERO_F2, b"form 2 2 f2 3 0 0 0\ninv 00\nend\n", refused(12, 1)),
    // `f` with a digit above 2 or above n, beside any table.
    (ZERO_F2, b"form 2 1 f3 3 0 0 0\ninv 0\nend\n", refused(12, 1)),
    (ZERO_F2, b"form 2 1 f9 3 0 0 0\ninv 0\nend\n", refused(12, 1)),
    (b"table 8 8 3\nend\n", b"form 8 8 f3 7 0 0 0\ninv 00000000\nend\n", refused(12, 1)),
    (b"table 1 1 f1\nend\n", b"form 1 1 f2 1 0 0 0\ninv 0\nend\n", refused(12, 1)),
    (b"table 1 1 1\nend\n", b"form 1 1 f2 3 0 0 0\ninv 0\nend\n", refused(12, 1)),
    (b"table 2 1 K\nend\n", b"form 2 1 f2 3 0 0 0\ninv 0\nend\n", refused(12, 1)),
    (b"table 2 1 K\nend\n", b"form 2 1 f9 3 0 0 0\n", refused(12, 1)),
    // No later line is read before that.
    (ZERO_F2, b"form 2 1 f3 3 0 0 0\n", refused(12, 1)),
    (ZERO_F1, b"form 2 1 1 1 0 0 0\nx", refused(12, 1)),
    (b"table 2 1 1\nend\n", b"form 2 1 f1 1 0 9 9\nend\nend\n", refused(12, 1)),
    // The field is broken.
    (ZERO_F2, b"form 2 1 f 3 0 0 0\ninv 0\nend\n", refused(11, 1)),
    (ZERO_F2, b"form 2 1 f12 3 0 0 0\ninv 0\nend\n", refused(11, 1)),
    (ZERO_F2, b"form 2 1 f02 3 0 0 0\ninv 0\nend\n", refused(11, 1)),
    (ZERO_F2, b"form 2 1 F2 3 0 0 0\ninv 0\nend\n", refused(11, 1)),
    (ZERO_F2, b"form 2 1 ff 3 0 0 0\ninv 0\nend\n", refused(11, 1)),
    (ZERO_F2, b"form 2 1 f- 3 0 0 0\ninv 0\nend\n", refused(11, 1)),
    (ZERO_F2, b"form 2 1 2f 3 0 0 0\ninv 0\nend\n", refused(11, 1)),
    (ZERO_F2, b"form 2 1 f 2 3 0 0 0\ninv 0\nend\n", refused(11, 1)),
    (ZERO_F2, b"form 2 1 - 3 0 0 0\ninv 0\nend\n", refused(11, 1)),
    (ZERO_F2, b"form 2 1 K 3 0 0 0\ninv 0\nend\n", refused(11, 1)),
    (ZERO_F2, b"form f2 1 2 3 0 0 0\ninv 0\nend\n", refused(11, 1)),
    (ZERO_F2, b"form 2 1 f2 f3 0 0 0\ninv 0\nend\n", refused(11, 1)),
    (b"table 2 1 1\nend\n", b"form 2 1 f 1 0 0 0\ninv 0\nend\n", refused(11, 1)),
    // The grammar of line 1 comes first, then the later lines, then the counts.
    (ZERO_F2, b"form 2 1 f3 3 0 0 x\nend\n", refused(11, 1)),
    (ZERO_F2, b"form 2 1 f1 1 0 0 0", refused(11, 1)),
    (ZERO_F2, b"form 2 1 f2 3 0 0 0\nend\n", refused(11, 2)),
    (EQUAL_F2, b"form 2 1 f2 3 0 2 2\ninv 0\nterm 0- 1\nterm -1 1\nend\n", refused(11, 4)),
    (EQUAL_F2, b"form 2 1 f2 3 0 2 3\ninv 0\nterm -1 1\nterm 0- 1\nend\n", refused(12, 1)),
    (EQUAL_F2, b"form 2 1 f2 1 0 1 2\ninv 0\nterm -1 1\nterm 0- 1\nend\n", refused(12, 1)),
    // The table text is judged before the listing.
    (b"table 1 1 f2\nend\n", b"form 1 1 f2 1 0 0 0\ninv 0\nend\n", refused(4, 1)),
    (b"table 2 1 f\nend\n", b"form 2 1 f 3 0 0 0\ninv 0\nend\n", refused(1, 1)),
    (b"table 2 1 f2\nend\nend\n", b"form 2 1 f2 3 0 0 0\ninv 0\nend\n", refused(6, 3)),
];

#[cfg(test)]
mod tests {
    use super::*;
    use crate::class::{Class, Cost, Members, least};
    use crate::family::Family;

    /// The answers at every k field, by both searches where both run.
    #[test]
    fn designs() {
        for Compared { n, m, table, one, two } in COMPARED {
            for (family, Answers { digits, free }) in [(Family::One, one), (Family::Two, two)] {
                for (class, wanted) in Class::every(n).zip(digits.into_iter().chain(free)) {
                    let found = least(family, n, class, table);
                    assert_eq!(found.figures(), wanted, "{family:?}, {class:?}, {table:?}");
                    assert_eq!(found.table(n), table);
                    if n < 5 {
                        assert_eq!(found, Members::new(n, class).least(family, m, table));
                    }
                }
            }
        }
    }

    /// In all but document 02's design `f2` is cheaper than every digit, in both families.
    #[test]
    fn cheaper_than_every_digit() {
        for Compared { one, two, .. } in &COMPARED[1..] {
            for (family, answers) in [(Family::One, one), (Family::Two, two)] {
                let order = |[_, _, products, literals, _]: Figures| {
                    family.order(Cost { products, literals })
                };
                assert!(answers.digits.iter().all(|&digit| order(answers.free[2]) < order(digit)));
            }
        }
    }
}
