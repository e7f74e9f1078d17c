//! Table texts beside listings, with the answer of the fitter's check written down by hand: each rule of
//! refusals 11 and 12 and their order, the class, and the points. They are written as the texts are, with a
//! space for each tab.

use super::families::{EXAMPLE_LISTING_TWO, EXAMPLE_TWO};
use super::{EXAMPLE, dash, free};
use crate::calls::CheckAnswer;

/// A table text, a listing, and the numbers of the answer.
pub type MarkedPair = (&'static [u8], &'static [u8], CheckAnswer);

pub(super) const SAME: CheckAnswer = [0, 0, 1, 0];
pub(super) const NOT_OF_CLASS: CheckAnswer = [0, 0, 3, 0];

pub(super) const fn differs(point: u64) -> CheckAnswer {
    [0, 0, 2, point]
}

pub(super) const fn refused(number: u64, line: u64) -> CheckAnswer {
    [number, line, 0, 0]
}

/// The listing of document 01's example, and the one that it had before there were inverters.
pub const EXAMPLE_LISTING: &[u8] = b"form 2 2 1 1 2 1 2\ninv 10\nterm 00 11\nend\n";
pub const EXAMPLE_BEFORE: &[u8] = b"form 2 2 1 1 2 2 2\nterm -- 10\nterm 00 11\nend\n";

/// Tables of two inputs and one output: all zero, all one, x2, and all points but point 2, each with a k.
const ZERO_0: &[u8] = b"table 2 1 0\nend\n";
const ZERO_1: &[u8] = b"table 2 1 1\nend\n";
const ZERO_2: &[u8] = b"table 2 1 2\nend\n";
const ONE_0: &[u8] = b"table 2 1 0\non 0 1\non 1 1\non 2 1\non 3 1\nend\n";
const X2_0: &[u8] = b"table 2 1 0\non 2 1\non 3 1\nend\n";
const BUT_2_0: &[u8] = b"table 2 1 0\non 0 1\non 1 1\non 3 1\nend\n";
const BUT_2_1: &[u8] = b"table 2 1 1\non 0 1\non 1 1\non 3 1\nend\n";
const BUT_2_2: &[u8] = b"table 2 1 2\non 0 1\non 1 1\non 3 1\nend\n";

/// Pairs that pass every line: same, differs, or not of the class.
pub const JUDGED: [MarkedPair; 49] = [
    (EXAMPLE, EXAMPLE_LISTING, SAME),
    // Cheap or not: dearer members, with M = 1 and with M = 2, each block with a polarity of its own.
    (EXAMPLE, b"form 2 2 1 1 0 3 3\ninv 00\nterm -- 01\nterm -1 11\nterm 10 11\nend\n", SAME),
    (
        EXAMPLE,
        b"form 2 2 1 1 0 4 4\ninv 00\nterm -- 01\nterm -1 11\nterm 1- 11\nterm 11 11\nend\n",
        SAME,
    ),
    (EXAMPLE, b"form 2 2 1 2 1 2 2\ninv 00\nterm -- 10\nterm 00 11\nend\n", SAME),
    (EXAMPLE, b"form 2 2 1 2 0 3 3\ninv 00\nterm -- 10\nterm 0- 11\nterm 01 11\nend\n", SAME),
    (ZERO_1, b"form 2 1 1 1 0 0 0\ninv 0\nend\n", SAME),
    // Bits of i that no cube shows are free, and so is every M of k inputs.
    (ZERO_0, b"form 2 1 0 0 0 0 0\ninv 0\nend\n", SAME),
    (ZERO_0, b"form 2 1 0 0 3 0 0\ninv 0\nend\n", SAME),
    (ZERO_1, b"form 2 1 1 1 2 0 0\ninv 0\nend\n", SAME),
    (ZERO_1, b"form 2 1 1 2 0 0 0\ninv 0\nend\n", SAME),
    (ZERO_1, b"form 2 1 1 2 1 0 0\ninv 0\nend\n", SAME),
    (ZERO_2, b"form 2 1 2 3 0 0 0\ninv 0\nend\n", SAME),
    (X2_0, b"form 2 1 0 0 0 1 1\ninv 0\nterm 1- 1\nend\n", SAME),
    (X2_0, b"form 2 1 0 0 1 1 1\ninv 0\nterm 1- 1\nend\n", SAME),
    // Only the cubes of one block must agree. With x1 mixed these two are of two blocks; with both inputs
    // mixed they are of one, and with none i decides.
    (BUT_2_1, b"form 2 1 1 1 2 2 3\ninv 0\nterm -1 1\nterm 00 1\nend\n", SAME),
    (BUT_2_2, b"form 2 1 2 3 0 2 3\ninv 0\nterm -1 1\nterm 00 1\nend\n", NOT_OF_CLASS),
    (BUT_2_0, b"form 2 1 0 0 2 2 3\ninv 0\nterm -1 1\nterm 00 1\nend\n", NOT_OF_CLASS),
    (BUT_2_1, b"form 2 1 1 2 0 2 3\ninv 0\nterm -1 1\nterm 00 1\nend\n", NOT_OF_CLASS),
    // In one block, cubes that show different inputs agree.
    (
        b"table 2 1 2\non 0 1\non 3 1\nend\n",
        b"form 2 1 2 3 0 2 2\ninv 0\nterm -0 1\nterm 1- 1\nend\n",
        SAME,
    ),
    (
        b"table 2 1 2\non 1 1\non 3 1\nend\n",
        b"form 2 1 2 3 0 3 3\ninv 0\nterm -- 1\nterm -0 1\nterm 10 1\nend\n",
        differs(2),
    ),
    // A literal outside M that does not follow i.
    (EXAMPLE, b"form 2 2 1 1 0 1 2\ninv 10\nterm 00 11\nend\n", NOT_OF_CLASS),
    (EXAMPLE, b"form 2 2 1 2 0 1 2\ninv 10\nterm 00 11\nend\n", NOT_OF_CLASS),
    (X2_0, b"form 2 1 0 0 2 1 1\ninv 0\nterm 1- 1\nend\n", NOT_OF_CLASS),
    (X2_0, b"form 2 1 0 0 3 1 1\ninv 0\nterm 1- 1\nend\n", NOT_OF_CLASS),
    // M has another number of inputs than k, or an input above xn.
    (EXAMPLE, b"form 2 2 1 0 3 1 2\ninv 10\nterm 00 11\nend\n", NOT_OF_CLASS),
    (EXAMPLE, b"form 2 2 1 3 0 1 2\ninv 10\nterm 00 11\nend\n", NOT_OF_CLASS),
    (ZERO_0, b"form 2 1 0 1 0 0 0\ninv 0\nend\n", NOT_OF_CLASS),
    (ZERO_1, b"form 2 1 1 0 0 0 0\ninv 0\nend\n", NOT_OF_CLASS),
    (ZERO_1, b"form 2 1 1 3 0 0 0\ninv 0\nend\n", NOT_OF_CLASS),
    (ZERO_1, b"form 2 1 1 4 0 0 0\ninv 0\nend\n", NOT_OF_CLASS),
    (ZERO_1, b"form 2 1 1 5 0 0 0\ninv 0\nend\n", NOT_OF_CLASS),
    (ZERO_1, b"form 2 1 1 256 0 0 0\ninv 0\nend\n", NOT_OF_CLASS),
    (ZERO_1, b"form 2 1 1 9999 0 0 0\ninv 0\nend\n", NOT_OF_CLASS),
    (ZERO_2, b"form 2 1 2 1 0 0 0\ninv 0\nend\n", NOT_OF_CLASS),
    (ZERO_2, b"form 2 1 2 5 0 0 0\ninv 0\nend\n", NOT_OF_CLASS),
    // i has a bit of M, or one above xn.
    (ZERO_0, b"form 2 1 0 0 4 0 0\ninv 0\nend\n", NOT_OF_CLASS),
    (ZERO_0, b"form 2 1 0 0 256 0 0\ninv 0\nend\n", NOT_OF_CLASS),
    (ZERO_1, b"form 2 1 1 1 1 0 0\ninv 0\nend\n", NOT_OF_CLASS),
    (ZERO_1, b"form 2 1 1 1 3 0 0\ninv 0\nend\n", NOT_OF_CLASS),
    (ZERO_1, b"form 2 1 1 1 9999 0 0\ninv 0\nend\n", NOT_OF_CLASS),
    (EXAMPLE, b"form 2 2 1 1 3 1 2\ninv 10\nterm 00 11\nend\n", NOT_OF_CLASS),
    // The class is judged before the points: at point 1, and at point 2, these differ too.
    (BUT_2_2, b"form 2 1 2 3 0 2 3\ninv 0\nterm -0 1\nterm 11 1\nend\n", NOT_OF_CLASS),
    (X2_0, b"form 2 1 0 1 0 0 0\ninv 0\nend\n", NOT_OF_CLASS),
    // The lowest of the points that differ, in any output.
    (EXAMPLE, b"form 2 2 1 1 2 1 2\ninv 10\nterm 00 10\nend\n", differs(0)),
    (X2_0, b"form 2 1 0 0 0 0 0\ninv 0\nend\n", differs(2)),
    (X2_0, b"form 2 1 0 0 0 1 2\ninv 0\nterm 11 1\nend\n", differs(2)),
    (X2_0, b"form 2 1 0 0 1 2 3\ninv 0\nterm 1- 1\nterm 10 1\nend\n", differs(2)),
    (
        b"table 2 2 0\non 1 10\non 3 11\nend\n",
        b"form 2 2 0 0 0 1 1\ninv 00\nterm -1 10\nend\n",
        differs(3),
    ),
    (b"table 8 1 3\non 255 1\nend\n", b"form 8 1 3 7 0 0 0\ninv 0\nend\n", differs(255)),
];

/// Pairs whose `inv` line decides, beside document 01's example and others.
pub const INVERTERS: [MarkedPair; 62] = [
    // The constant as a term, with the inverter dropped, and beside other inverters: any mask is of the class.
    (EXAMPLE, b"form 2 2 1 1 2 2 2\ninv 00\nterm -- 10\nterm 00 11\nend\n", SAME),
    (EXAMPLE, b"form 2 2 1 1 2 2 2\ninv 01\nterm -- 11\nterm 00 11\nend\n", SAME),
    (EXAMPLE, b"form 2 2 1 1 2 2 2\ninv 11\nterm -- 01\nterm 00 11\nend\n", SAME),
    (ONE_0, b"form 2 1 0 0 0 0 0\ninv 1\nend\n", SAME),
    (ONE_0, b"form 2 1 0 0 3 0 0\ninv 1\nend\n", SAME),
    (ONE_0, b"form 2 1 0 0 0 1 0\ninv 0\nterm -- 1\nend\n", SAME),
    (ZERO_0, b"form 2 1 0 0 0 1 0\ninv 1\nterm -- 1\nend\n", SAME),
    (X2_0, b"form 2 1 0 0 2 1 1\ninv 1\nterm 0- 1\nend\n", SAME),
    (X2_0, b"form 2 1 0 0 2 2 1\ninv 0\nterm -- 1\nterm 0- 1\nend\n", SAME),
    // The leftmost character is output 0.
    (b"table 1 2 0\non 0 01\non 1 01\nend\n", b"form 1 2 0 0 0 0 0\ninv 01\nend\n", SAME),
    (b"table 1 2 0\non 0 01\non 1 01\nend\n", b"form 1 2 0 0 0 0 0\ninv 10\nend\n", differs(0)),
    // An output that is inverted where the table has it not, and the other way round, at its lowest point.
    (EXAMPLE, b"form 2 2 1 1 2 1 2\ninv 00\nterm 00 11\nend\n", differs(0)),
    (EXAMPLE, b"form 2 2 1 1 2 1 2\ninv 01\nterm 00 11\nend\n", differs(0)),
    (EXAMPLE, b"form 2 2 1 1 2 1 2\ninv 11\nterm 00 11\nend\n", differs(0)),
    (EXAMPLE, b"form 2 2 1 1 2 2 2\ninv 10\nterm -- 10\nterm 00 11\nend\n", differs(0)),
    (ZERO_0, b"form 2 1 0 0 0 0 0\ninv 1\nend\n", differs(0)),
    (ONE_0, b"form 2 1 0 0 0 0 0\ninv 0\nend\n", differs(0)),
    // The points are compared after the inverters: the terms of the first alone would give the table, and the
    // terms of the third differ from it at point 0.
    (X2_0, b"form 2 1 0 0 0 1 1\ninv 1\nterm 1- 1\nend\n", differs(0)),
    (b"table 2 1 0\non 0 1\nend\n", b"form 2 1 0 0 2 1 1\ninv 0\nterm 0- 1\nend\n", differs(1)),
    (b"table 2 1 0\non 0 1\nend\n", b"form 2 1 0 0 0 1 1\ninv 1\nterm 1- 1\nend\n", differs(1)),
    // The class is judged before the points, whatever the mask is.
    (EXAMPLE, b"form 2 2 1 1 0 1 2\ninv 11\nterm 00 11\nend\n", NOT_OF_CLASS),
    (ZERO_0, b"form 2 1 0 1 0 0 0\ninv 1\nend\n", NOT_OF_CLASS),
    // Listings of before there were inverters: their second line is none.
    (EXAMPLE, EXAMPLE_BEFORE, refused(11, 2)),
    (ZERO_0, b"form 2 1 0 0 0 0 0\nend\n", refused(11, 2)),
    (ONE_0, b"form 2 1 0 0 0 1 0\nterm -- 1\nend\n", refused(11, 2)),
    (X2_0, b"form 2 1 0 0 0 1 1\nterm 1- 1\nend\n", refused(11, 2)),
    (
        b"table 2 2 1\non 1 10\non 2 01\non 3 10\nend\n",
        b"form 2 2 1 1 0 2 3\nterm -1 10\nterm 10 01\nend\n",
        refused(11, 2),
    ),
    // The line is broken.
    (EXAMPLE, b"form 2 2 1 1 2 1 2\n", refused(11, 2)),
    (EXAMPLE, b"form 2 2 1 1 2 1 2\ninv 10", refused(11, 2)),
    (EXAMPLE, b"form 2 2 1 1 2 1 2\ninv", refused(11, 2)),
    (EXAMPLE, b"form 2 2 1 1 2 1 2\ninv\nterm 00 11\nend\n", refused(11, 2)),
    (EXAMPLE, b"form 2 2 1 1 2 1 2\ninv \nterm 00 11\nend\n", refused(11, 2)),
    (EXAMPLE, b"form 2 2 1 1 2 1 2\ninv 1\nterm 00 11\nend\n", refused(11, 2)),
    (EXAMPLE, b"form 2 2 1 1 2 1 2\ninv 100\nterm 00 11\nend\n", refused(11, 2)),
    (EXAMPLE, b"form 2 2 1 1 2 1 2\ninv 12\nterm 00 11\nend\n", refused(11, 2)),
    (EXAMPLE, b"form 2 2 1 1 2 1 2\ninv 1-\nterm 00 11\nend\n", refused(11, 2)),
    (EXAMPLE, b"form 2 2 1 1 2 1 2\ninv 1_\nterm 00 11\nend\n", refused(11, 2)),
    (EXAMPLE, b"form 2 2 1 1 2 1 2\ninv 10 \nterm 00 11\nend\n", refused(11, 2)),
    (EXAMPLE, b"form 2 2 1 1 2 1 2\ninv 10 10\nterm 00 11\nend\n", refused(11, 2)),
    (EXAMPLE, b"form 2 2 1 1 2 1 2\ninv  10\nterm 00 11\nend\n", refused(11, 2)),
    (EXAMPLE, b"form 2 2 1 1 2 1 2\ninv 1 0\nterm 00 11\nend\n", refused(11, 2)),
    (EXAMPLE, b"form 2 2 1 1 2 1 2\n inv 10\nterm 00 11\nend\n", refused(11, 2)),
    (EXAMPLE, b"form 2 2 1 1 2 1 2\ninv_10\nterm 00 11\nend\n", refused(11, 2)),
    (EXAMPLE, b"form 2 2 1 1 2 1 2\ninv10\nterm 00 11\nend\n", refused(11, 2)),
    (EXAMPLE, b"form 2 2 1 1 2 1 2\nInv 10\nterm 00 11\nend\n", refused(11, 2)),
    (EXAMPLE, b"form 2 2 1 1 2 1 2\nin 10\nterm 00 11\nend\n", refused(11, 2)),
    (EXAMPLE, b"form 2 2 1 1 2 1 2\ninv2 10\nterm 00 11\nend\n", refused(11, 2)),
    (EXAMPLE, b"form 2 2 1 1 2 1 2\nterm 10\nterm 00 11\nend\n", refused(11, 2)),
    (EXAMPLE, b"form 2 2 1 1 2 1 2\ninv 10\r\nterm 00 11\nend\n", refused(11, 2)),
    (EXAMPLE, b"form 2 2 1 1 2 1 2\ninv 1\0\nterm 00 11\nend\n", refused(11, 2)),
    (EXAMPLE, b"form 2 2 1 1 2 1 2\n\ninv 10\nterm 00 11\nend\n", refused(11, 2)),
    (EXAMPLE, b"form 2 2 1 1 2 1 2\nend\ninv 10\nterm 00 11\n", refused(11, 2)),
    // It stands on line 2 and nowhere else.
    (EXAMPLE, b"form 2 2 1 1 2 1 2\nterm 00 11\ninv 10\nend\n", refused(11, 2)),
    (EXAMPLE, b"form 2 2 1 1 2 1 2\ninv 10\ninv 10\nterm 00 11\nend\n", refused(11, 3)),
    (EXAMPLE, b"form 2 2 1 1 2 1 2\ninv 10\nterm 00 11\ninv 10\nend\n", refused(11, 4)),
    (EXAMPLE, b"inv 10\nform 2 2 1 1 2 1 2\nterm 00 11\nend\n", refused(11, 1)),
    // It is judged after line 1, and before every later line, the counts and the class.
    (EXAMPLE, b"form 3 2 1 1 2 1 2\nterm 00 11\nend\n", refused(12, 1)),
    (EXAMPLE, b"form 2 3 1 1 2 1 2\ninv 10\nterm 00 11\nend\n", refused(12, 1)),
    (EXAMPLE, b"form 2 2 1 1 2 1 x\ninv 1\nterm 00 11\nend\n", refused(11, 1)),
    (EXAMPLE, b"form 2 2 1 1 2 1 2\ninv 1\nterm 00 00\nend\nend\n", refused(11, 2)),
    (EXAMPLE, b"form 2 2 1 1 2 9 9\ninv 1\nterm 00 11\nend\n", refused(11, 2)),
    (EXAMPLE, b"form 2 2 1 3 3 1 2\ninv 1\nterm 00 11\nend\n", refused(11, 2)),
];

/// Pairs whose listing is refused.
pub const REFUSED_LISTINGS: [MarkedPair; 98] = [
    // Line 1 breaks its grammar.
    (EXAMPLE, b"", refused(11, 1)),
    (EXAMPLE, b"\n", refused(11, 1)),
    (EXAMPLE, b"\0", refused(11, 1)),
    (EXAMPLE, b"end\n", refused(11, 1)),
    (EXAMPLE, b"term -- 10\nend\n", refused(11, 1)),
    (EXAMPLE, EXAMPLE, refused(11, 1)),
    (EXAMPLE, b"form 2 2 1 1 2 2 2", refused(11, 1)),
    (EXAMPLE, b"form 2 2 1 1 2 2\nend\n", refused(11, 1)),
    (EXAMPLE, b"form 2 2 1 1 2 2 2 2\nend\n", refused(11, 1)),
    (EXAMPLE, b"form 2 2 1 1 2 2 2 \nend\n", refused(11, 1)),
    (EXAMPLE, b" form 2 2 1 1 2 2 2\nend\n", refused(11, 1)),
    (EXAMPLE, b"form  2 2 1 1 2 2 2\nend\n", refused(11, 1)),
    (EXAMPLE, b"form_2_2_1_1_2_2_2\nend\n", refused(11, 1)),
    (EXAMPLE, b"form 2 2 1 1 2 2 2\r\nend\r\n", refused(11, 1)),
    (EXAMPLE, b"Form 2 2 1 1 2 2 2\nend\n", refused(11, 1)),
    (EXAMPLE, b"for 2 2 1 1 2 2 2\nend\n", refused(11, 1)),
    (EXAMPLE, b"form3 2 2 1 1 2 2 2\nend\n", refused(11, 1)),
    (EXAMPLE, b"kron 2 2 SS 2 2\nend\n", refused(11, 1)),
    (EXAMPLE, b"form 02 2 1 1 2 2 2\nend\n", refused(11, 1)),
    (EXAMPLE, b"form 2 02 1 1 2 2 2\nend\n", refused(11, 1)),
    (EXAMPLE, b"form 2 2 1 01 2 2 2\nend\n", refused(11, 1)),
    (EXAMPLE, b"form 2 2 1 1 02 2 2\nend\n", refused(11, 1)),
    (EXAMPLE, b"form 2 2 1 1 2 02 2\nend\n", refused(11, 1)),
    (EXAMPLE, b"form 2 2 1 1 2 2 00\nend\n", refused(11, 1)),
    (EXAMPLE, b"form 2 2 1 +1 2 2 2\nend\n", refused(11, 1)),
    (EXAMPLE, b"form 2 2 1 1 -2 2 2\nend\n", refused(11, 1)),
    (EXAMPLE, b"form 2 2 1 - 2 2 2\nend\n", refused(11, 1)),
    (EXAMPLE, b"form 2 2 1 10000 2 2 2\nend\n", refused(11, 1)),
    (EXAMPLE, b"form 2 2 1 1 2 2 10002\nend\n", refused(11, 1)),
    (EXAMPLE, b"form 10002 2 1 1 2 2 2\nend\n", refused(11, 1)),
    (EXAMPLE, b"form 2 2 - 1 2 2 2\nend\n", refused(11, 1)),
    (EXAMPLE, b"form 2 2 K 1 2 2 2\nend\n", refused(11, 1)),
    (EXAMPLE, b"form 2 2 F1 1 2 2 2\nend\n", refused(11, 1)),
    (EXAMPLE, b"form 2 2 11 1 2 2 2\nend\n", refused(11, 1)),
    (EXAMPLE, b"form 2 2 01 1 2 2 2\nend\n", refused(11, 1)),
    (EXAMPLE, b"form 2 2  1 2 2 2\nend\n", refused(11, 1)),
    // The grammar of line 1 comes before n, m and k.
    (EXAMPLE, b"form 3 2 1 1 2 2 2", refused(11, 1)),
    (EXAMPLE, b"form 3 2 1 1 2 2 x\nend\n", refused(11, 1)),
    (EXAMPLE, b"form 3 3 12 1 2 2 2\nend\n", refused(11, 1)),
    // n, m or k is not the table's.
    (EXAMPLE, b"form 3 2 1 1 2 2 2\ninv 00\nterm -- 10\nterm 00 11\nend\n", refused(12, 1)),
    (EXAMPLE, b"form 1 2 1 1 2 2 2\ninv 00\nterm -- 10\nterm 00 11\nend\n", refused(12, 1)),
    (EXAMPLE, b"form 0 2 1 1 2 2 2\ninv 00\nterm -- 10\nterm 00 11\nend\n", refused(12, 1)),
    (EXAMPLE, b"form 9 2 1 1 2 2 2\ninv 00\nterm -- 10\nterm 00 11\nend\n", refused(12, 1)),
    (EXAMPLE, b"form 12 2 1 1 2 2 2\ninv 00\nterm -- 10\nterm 00 11\nend\n", refused(12, 1)),
    (EXAMPLE, b"form 258 2 1 1 2 2 2\ninv 00\nterm -- 10\nterm 00 11\nend\n", refused(12, 1)),
    (EXAMPLE, b"form 2 1 1 1 2 2 2\ninv 00\nterm -- 10\nterm 00 11\nend\n", refused(12, 1)),
    (EXAMPLE, b"form 2 3 1 1 2 2 2\ninv 00\nterm -- 10\nterm 00 11\nend\n", refused(12, 1)),
    (EXAMPLE, b"form 2 22 1 1 2 2 2\ninv 00\nterm -- 10\nterm 00 11\nend\n", refused(12, 1)),
    (EXAMPLE, b"form 2 2 0 1 2 2 2\ninv 00\nterm -- 10\nterm 00 11\nend\n", refused(12, 1)),
    (EXAMPLE, b"form 2 2 2 3 0 2 2\ninv 00\nterm -- 10\nterm 00 11\nend\n", refused(12, 1)),
    (EXAMPLE, b"form 2 2 4 1 2 2 2\ninv 00\nterm -- 10\nterm 00 11\nend\n", refused(12, 1)),
    (EXAMPLE, b"form 2 2 9 1 2 2 2\ninv 00\nterm -- 10\nterm 00 11\nend\n", refused(12, 1)),
    // No later line is read before that.
    (EXAMPLE, b"form 3 2 1 1 2 2 2\n", refused(12, 1)),
    (EXAMPLE, b"form 2 3 1 1 2 2 2\nterm -- 00\nend\n", refused(12, 1)),
    (EXAMPLE, b"form 2 2 0 1 2 2 2\nx", refused(12, 1)),
    (EXAMPLE, b"form 2 2 0 1 2 2 2\nend\nend\n", refused(12, 1)),
    // A later line breaks its grammar.
    (EXAMPLE, b"form 2 2 1 1 2 2 2\ninv 00\n\nend\n", refused(11, 3)),
    (EXAMPLE, b"form 2 2 1 1 2 2 2\ninv 00\nform 2 2 1 1 2 2 2\nend\n", refused(11, 3)),
    (EXAMPLE, b"form 2 2 1 1 2 2 2\ninv 00\nterm --\nend\n", refused(11, 3)),
    (EXAMPLE, b"form 2 2 1 1 2 2 2\ninv 00\nterm -- 10 1\nend\n", refused(11, 3)),
    (EXAMPLE, b"form 2 2 1 1 2 2 2\ninv 00\nterm --  10\nend\n", refused(11, 3)),
    (EXAMPLE, b"form 2 2 1 1 2 2 2\ninv 00\nTerm -- 10\nend\n", refused(11, 3)),
    (EXAMPLE, b"form 2 2 1 1 2 2 2\ninv 00\non -- 10\nend\n", refused(11, 3)),
    (EXAMPLE, b"form 2 2 1 1 2 2 2\ninv 00\nterm - 10\nend\n", refused(11, 3)),
    (EXAMPLE, b"form 2 2 1 1 2 2 2\ninv 00\nterm --- 10\nend\n", refused(11, 3)),
    (EXAMPLE, b"form 2 2 1 1 2 2 2\ninv 00\nterm -2 10\nend\n", refused(11, 3)),
    (EXAMPLE, b"form 2 2 1 1 2 2 2\ninv 00\nterm -x 10\nend\n", refused(11, 3)),
    (EXAMPLE, b"form 2 2 1 1 2 2 2\ninv 00\nterm -- 1\nend\n", refused(11, 3)),
    (EXAMPLE, b"form 2 2 1 1 2 2 2\ninv 00\nterm -- 100\nend\n", refused(11, 3)),
    (EXAMPLE, b"form 2 2 1 1 2 2 2\ninv 00\nterm -- 12\nend\n", refused(11, 3)),
    (EXAMPLE, b"form 2 2 1 1 2 2 2\ninv 00\nterm -- 1-\nend\n", refused(11, 3)),
    (EXAMPLE, b"form 2 2 1 1 2 2 2\ninv 00\nterm -- 00\nend\n", refused(11, 3)),
    (EXAMPLE, b"form 2 2 1 1 2 2 2\ninv 00\nterm -- 10", refused(11, 3)),
    (EXAMPLE, b"form 2 2 1 1 2 2 2\ninv 00\nterm -- 10\nterm 00 11\nend", refused(11, 5)),
    (EXAMPLE, b"form 2 2 1 1 2 2 2\ninv 00\nterm -- 10\nterm 00 11\nend\r\n", refused(11, 5)),
    (EXAMPLE, b"form 2 2 1 1 2 2 2\ninv 00\nterm -- 10\nterm 00 11\nend \n", refused(11, 5)),
    // A term is not above the one before, whatever the polarities are.
    (EXAMPLE, b"form 2 2 1 1 2 2 2\ninv 00\nterm 00 11\nterm -- 10\nend\n", refused(11, 4)),
    (EXAMPLE, b"form 2 2 1 1 2 2 0\ninv 00\nterm -- 10\nterm -- 10\nend\n", refused(11, 4)),
    (
        EXAMPLE,
        b"form 2 2 1 1 2 3 4\ninv 00\nterm -- 10\nterm 00 11\nterm 01 11\nend\n",
        refused(11, 5),
    ),
    (EXAMPLE, b"form 2 2 1 1 2 2 2\ninv 00\nterm 0- 11\nterm -1 10\nend\n", refused(11, 4)),
    (BUT_2_2, b"form 2 1 2 3 0 2 2\ninv 0\nterm -1 1\nterm -0 1\nend\n", refused(11, 4)),
    // The listing stops, or goes on.
    (EXAMPLE, b"form 2 2 1 1 2 2 2\ninv 00\n", refused(11, 3)),
    (EXAMPLE, b"form 2 2 1 1 2 2 2\ninv 00\nterm -- 10\nterm 00 11\n", refused(11, 5)),
    (EXAMPLE, b"form 2 2 1 1 2 2 2\ninv 00\nterm -- 10\nterm 00 11\nend\n\n", refused(11, 6)),
    (EXAMPLE, b"form 2 2 1 1 2 2 2\ninv 00\nterm -- 10\nterm 00 11\nend\nend\n", refused(11, 6)),
    (EXAMPLE, b"form 2 2 1 1 2 2 2\ninv 00\nterm -- 10\nterm 00 11\nend\nx", refused(11, 6)),
    (EXAMPLE, b"form 2 2 1 1 2 0 0\ninv 00\nend\nterm -- 10\n", refused(11, 4)),
    // The counts are not those of the lines.
    (EXAMPLE, b"form 2 2 1 1 2 3 2\ninv 00\nterm -- 10\nterm 00 11\nend\n", refused(12, 1)),
    (EXAMPLE, b"form 2 2 1 1 2 2 3\ninv 00\nterm -- 10\nterm 00 11\nend\n", refused(12, 1)),
    (EXAMPLE, b"form 2 2 1 1 2 258 2\ninv 00\nterm -- 10\nterm 00 11\nend\n", refused(12, 1)),
    (ZERO_0, b"form 2 1 0 0 0 9999 9999\ninv 0\nend\n", refused(12, 1)),
    // They are judged after every line, and before the class and the points.
    (EXAMPLE, b"form 2 2 1 1 2 3 2\ninv 00\nterm -- 10\nterm 00 11\nend\nx", refused(11, 6)),
    (EXAMPLE, b"form 2 2 1 1 2 9 9\ninv 00\nterm -- 10\nterm 00 00\nend\n", refused(11, 4)),
    (EXAMPLE, b"form 2 2 1 1 2 0 0\ninv 00\nterm -- 10\nterm 00 00\nend\n", refused(11, 4)),
    (EXAMPLE, b"form 2 2 1 1 2 1 0\ninv 00\nterm -- 10\nterm 00 11\n", refused(11, 5)),
    (EXAMPLE, b"form 2 2 1 1 2 1 1\ninv 00\nterm -- 10\nterm 00 11\nend\nend\n", refused(11, 6)),
    (EXAMPLE, b"form 2 2 1 3 3 3 2\ninv 00\nterm -- 10\nterm 00 11\nend\n", refused(12, 1)),
    (EXAMPLE, b"form 2 2 1 1 2 0 0\ninv 00\nterm -- 01\nend\n", refused(12, 1)),
];

/// Pairs whose table text is refused, whatever the listing is.
pub const REFUSED_TABLES: [MarkedPair; 6] = [
    (b"", b"", refused(6, 1)),
    (b"", EXAMPLE_LISTING, refused(6, 1)),
    (b"table 2 2 1", b"", refused(1, 1)),
    (b"table 9 2 1\nend\n", b"form 3 2 1 1 2 2 2\n", refused(2, 1)),
    (b"table 2 2 1\non 4 11\nend\n", b"form 2 2 1 1 2 x 2\n", refused(5, 2)),
    (b"table 2 2 1\nend\nend\n", EXAMPLE_LISTING, refused(6, 3)),
];

/// Tables of the Kronecker expansions: document 01's example, and all zero.
const EXAMPLE_K: &[u8] = b"table 2 2 K\non 0 01\non 1 10\non 2 10\non 3 10\nend\n";
const ZERO_K: &[u8] = b"table 2 1 K\nend\n";

/// Pairs with a `K` table or a `kron` listing.
pub const KRONECKER: [MarkedPair; 39] = [
    // A `form` listing beside a `K` table is of another kind, whatever its numbers are.
    (EXAMPLE_K, EXAMPLE_LISTING, refused(12, 1)),
    (EXAMPLE_K, b"form 2 2 0 0 0 2 2\ninv 00\nterm -- 10\nterm 00 11\nend\n", refused(12, 1)),
    (EXAMPLE_K, b"form 2 2 2 3 0 2 2\ninv 00\nterm -- 10\nterm 00 11\nend\n", refused(12, 1)),
    (EXAMPLE_K, b"form 2 2 3 1 2 2 2\nend\n", refused(12, 1)),
    (EXAMPLE_K, b"form 2 2 9 1 2 2 2\nend\n", refused(12, 1)),
    (EXAMPLE_K, b"form 9999 9999 9 9999 9999 9999 9999\nend\n", refused(12, 1)),
    (ZERO_K, b"form 2 1 0 0 0 0 0\nend\n", refused(12, 1)),
    (ZERO_K, b"form 0 0 0 0 0 0 0\nend\n", refused(12, 1)),
    (b"table 8 8 K\nend\n", b"form 8 8 0 0 0 0 0\nend\n", refused(12, 1)),
    // No later line is read, and no count.
    (EXAMPLE_K, b"form 2 2 1 1 2 2 2\n", refused(12, 1)),
    (EXAMPLE_K, b"form 2 2 1 1 2 2 2\nx", refused(12, 1)),
    (EXAMPLE_K, b"form 2 2 1 1 2 9 9\nend\nend\n", refused(12, 1)),
    (EXAMPLE_K, b"form 2 2 1 1 2 1 2\ninv 1\nterm 00 11\nend\n", refused(12, 1)),
    // The grammar of line 1 comes first.
    (EXAMPLE_K, b"", refused(11, 1)),
    (EXAMPLE_K, b"end\n", refused(11, 1)),
    (EXAMPLE_K, b"form 2 2 1 1 2 2 2", refused(11, 1)),
    (EXAMPLE_K, b"form 2 2 1 1 2 2\nend\n", refused(11, 1)),
    (EXAMPLE_K, b"form 2 2 1 1 2 2 x\nend\n", refused(11, 1)),
    (EXAMPLE_K, b"form 02 2 1 1 2 2 2\nend\n", refused(11, 1)),
    (EXAMPLE_K, b"form 2 2 - 1 2 2 2\nend\n", refused(11, 1)),
    (EXAMPLE_K, b"form 2 2 K 1 2 2 2\nend\n", refused(11, 1)),
    (EXAMPLE_K, b"form 2 2 K NN 2 2\nend\n", refused(11, 1)),
    (EXAMPLE_K, b"form 2 2 NN 2 2\nterm -- 10\nterm 00 11\nend\n", refused(11, 1)),
    (EXAMPLE_K, b"form3 2 2 1 1 2 2 2\nend\n", refused(11, 1)),
    (EXAMPLE_K, EXAMPLE_K, refused(11, 1)),
    // A `kron` listing, beside its own table too.
    (EXAMPLE_K, b"kron 2 2 NN 2 2\nterm -- 10\nterm 00 11\nend\n", refused(11, 1)),
    (EXAMPLE, b"kron 2 2 NN 2 2\nterm -- 10\nterm 00 11\nend\n", refused(11, 1)),
    (EXAMPLE_K, b"kron 2 2 1 1 2 2 2\nterm -- 10\nterm 00 11\nend\n", refused(11, 1)),
    (EXAMPLE_K, b"kron 2 2 NN 2 2\ninv 00\nterm -- 10\nterm 00 11\nend\n", refused(11, 1)),
    (EXAMPLE_K, b"kron 2 2 NN 1 2\ninv 10\nterm 00 11\nend\n", refused(11, 1)),
    (ZERO_K, b"kron 2 1 SS 0 0\nend\n", refused(11, 1)),
    (ZERO_0, b"kron 2 1 SS 0 0\nend\n", refused(11, 1)),
    (ZERO_K, b"kron 3 3 SSS 0 0\nend\n", refused(11, 1)),
    (ZERO_K, b"kron\n", refused(11, 1)),
    // The table text is judged before the listing.
    (b"table 9 2 K\nend\n", EXAMPLE_LISTING, refused(2, 1)),
    (b"table 2 9 K\nend\n", EXAMPLE_LISTING, refused(3, 1)),
    (b"table 2 2 k\nend\n", EXAMPLE_LISTING, refused(1, 1)),
    (b"table 2 2 K\non 4 11\nend\n", b"kron 2 2 SS 0 0\nend\n", refused(5, 2)),
    (b"table 2 2 K\nend\nend\n", b"kron 2 2 SS 0 0\nend\n", refused(6, 3)),
];

/// The input x2 of two, for family two.
const X2_TWO: &[u8] = b"table2 2 1 0\non 2 1\non 3 1\nend\n";

/// A design on which the families choose differently, with the lines of each answer.
const DIFFERS_ONE: &[u8] =
    b"table 4 2 0\non 3 01\non 6 11\non 9 01\non 10 11\non 11 10\non 13 11\non 14 10\non 15 01\nend\n";
const DIFFERS_TWO: &[u8] =
    b"table2 4 2 0\non 3 01\non 6 11\non 9 01\non 10 11\non 11 10\non 13 11\non 14 10\non 15 01\nend\n";

/// Pairs with a `table2` text or a `form2` listing.
pub const FAMILIES: [MarkedPair; 74] = [
    (EXAMPLE_TWO, EXAMPLE_LISTING_TWO, SAME),
    // A listing of the other family.
    (EXAMPLE_TWO, EXAMPLE_LISTING, refused(12, 1)),
    (EXAMPLE, EXAMPLE_LISTING_TWO, refused(12, 1)),
    // Cheap or not: the lines of the other family's answer, with the own word.
    (
        DIFFERS_ONE,
        b"form 4 2 0 0 11 10 19\ninv 10\nterm ---0 01\nterm --0- 11\nterm -1-- 11\nterm -1-0 10\nterm -10- 01\n\
          term 0--- 11\nterm 0-0- 10\nterm 0-00 01\nterm 01-- 10\nterm 0100 10\nend\n",
        SAME,
    ),
    (
        DIFFERS_TWO,
        b"form2 4 2 0 0 0 9 24\ninv 00\nterm --11 01\nterm -11- 11\nterm -111 10\nterm 1--1 01\nterm 1-1- 11\n\
          term 1-11 01\nterm 11-1 10\nterm 111- 10\nterm 1111 10\nend\n",
        SAME,
    ),
    (EXAMPLE_TWO, b"form2 2 2 1 1 0 3 3\ninv 00\nterm -- 01\nterm -1 11\nterm 10 11\nend\n", SAME),
    (b"table2 2 1 1\nend\n", b"form2 2 1 1 1 0 0 0\ninv 0\nend\n", SAME),
    // The class and the points are judged as in family one.
    (EXAMPLE_TWO, b"form2 2 2 1 1 0 2 2\ninv 00\nterm -- 10\nterm 00 11\nend\n", NOT_OF_CLASS),
    (EXAMPLE_TWO, b"form2 2 2 1 3 0 0 0\ninv 00\nend\n", NOT_OF_CLASS),
    (EXAMPLE_TWO, b"form2 2 2 1 1 2 2 2\ninv 00\nterm -- 10\nterm 00 10\nend\n", differs(0)),
    (X2_TWO, b"form2 2 1 0 0 0 0 0\ninv 0\nend\n", differs(2)),
    (X2_TWO, b"form2 2 1 0 0 1 1 1\ninv 0\nterm 1- 1\nend\n", SAME),
    // The `inv` line is read and applied as in family one.
    (EXAMPLE_TWO, b"form2 2 2 1 1 2 2 2\ninv 00\nterm -- 10\nterm 00 11\nend\n", SAME),
    (EXAMPLE_TWO, b"form2 2 2 1 1 2 1 2\ninv 01\nterm 00 11\nend\n", differs(0)),
    (EXAMPLE_TWO, b"form2 2 2 1 1 2 2 2\nterm -- 10\nterm 00 11\nend\n", refused(11, 2)),
    (EXAMPLE_TWO, b"form2 2 2 1 1 2 1 2\n", refused(11, 2)),
    (EXAMPLE_TWO, b"form2 2 2 1 1 2 1 2\ninv2 10\nterm 00 11\nend\n", refused(11, 2)),
    (EXAMPLE_TWO, b"form2 2 2 1 1 2 1 2\ninv 1\nterm 00 11\nend\n", refused(11, 2)),
    (EXAMPLE_TWO, EXAMPLE_BEFORE, refused(12, 1)),
    (EXAMPLE, b"form2 2 2 1 1 2 1 2\ninv 1\nterm 00 11\nend\n", refused(12, 1)),
    // The family is judged with n, m and k, before any later line is read.
    (EXAMPLE, b"form2 2 2 1 1 2 2 2\nend\n", refused(12, 1)),
    (EXAMPLE, b"form2 2 2 1 1 2 2 2\n", refused(12, 1)),
    (EXAMPLE, b"form2 2 2 1 1 2 2 2\nx", refused(12, 1)),
    (EXAMPLE, b"form2 2 2 1 1 2 2 2\nterm -- 00\nend\n", refused(12, 1)),
    (EXAMPLE, b"form2 2 2 1 1 2 9 9\nend\nend\n", refused(12, 1)),
    (EXAMPLE, b"form2 2 2 1 3 3 0 0\nend\n", refused(12, 1)),
    (EXAMPLE_TWO, b"form 2 2 1 1 2 2 2\n", refused(12, 1)),
    (EXAMPLE_TWO, b"form 2 2 1 1 2 2 2\nx", refused(12, 1)),
    (EXAMPLE_TWO, b"form 2 2 1 1 2 9 9\nterm -- 00\nend\nend\n", refused(12, 1)),
    (EXAMPLE_TWO, b"form 2 2 1 3 3 0 0\nend\n", refused(12, 1)),
    (EXAMPLE, b"form2 3 2 1 1 2 2 2\nend\n", refused(12, 1)),
    (EXAMPLE_TWO, b"form 9 9 9 1 2 2 2\n", refused(12, 1)),
    (EXAMPLE_TWO, b"form2 3 2 1 1 2 2 2\ninv 00\nterm -- 10\nterm 00 11\nend\n", refused(12, 1)),
    (EXAMPLE_TWO, b"form2 2 1 1 1 2 2 2\nx", refused(12, 1)),
    (EXAMPLE_TWO, b"form2 2 2 2 3 0 2 2\nend\nend\n", refused(12, 1)),
    (EXAMPLE_TWO, b"form2 2 2 9 1 2 2 2\n", refused(12, 1)),
    // The grammar of line 1 comes before the family.
    (EXAMPLE, b"form2 2 2 1 1 2 2 2", refused(11, 1)),
    (EXAMPLE, b"form2 2 2 1 1 2 2\nend\n", refused(11, 1)),
    (EXAMPLE, b"form2 02 2 1 1 2 2 2\nend\n", refused(11, 1)),
    (EXAMPLE, b"form2 2 2 - 1 2 2 2\nend\n", refused(11, 1)),
    (EXAMPLE_TWO, b"form 2 2 1 1 2 2 2", refused(11, 1)),
    (EXAMPLE_TWO, b"form 2 2 K 1 2 2 2\nend\n", refused(11, 1)),
    (EXAMPLE_TWO, b"form2 2 2 1 1 2 2 2 2\nend\n", refused(11, 1)),
    // Words around `form2`, and other listings.
    (EXAMPLE_TWO, b"form1 2 2 1 1 2 2 2\nend\n", refused(11, 1)),
    (EXAMPLE_TWO, b"form3 2 2 1 1 2 2 2\nend\n", refused(11, 1)),
    (EXAMPLE_TWO, b"form02 2 2 1 1 2 2 2\nend\n", refused(11, 1)),
    (EXAMPLE_TWO, b"form20 2 2 1 1 2 2 2\nend\n", refused(11, 1)),
    (EXAMPLE_TWO, b"form22 2 2 1 1 2 2 2\nend\n", refused(11, 1)),
    (EXAMPLE_TWO, b"Form2 2 2 1 1 2 2 2\nend\n", refused(11, 1)),
    (EXAMPLE_TWO, b"form2_ 2 2 1 1 2 2 2\nend\n", refused(11, 1)),
    (EXAMPLE_TWO, b"form_2 2 2 1 1 2 2 2\nend\n", refused(11, 1)),
    (EXAMPLE_TWO, b"form 2 2 2 1 1 2 2 2\nend\n", refused(11, 1)),
    (EXAMPLE_TWO, b"table2 2 2 1 1 2 2 2\nend\n", refused(11, 1)),
    (EXAMPLE_TWO, EXAMPLE_TWO, refused(11, 1)),
    (EXAMPLE_TWO, b"", refused(11, 1)),
    (EXAMPLE_TWO, b"kron 2 2 NN 2 2\nterm -- 10\nterm 00 11\nend\n", refused(11, 1)),
    (EXAMPLE_TWO, b"kron2 2 2 NN 2 2\nterm -- 10\nterm 00 11\nend\n", refused(11, 1)),
    // Later lines and counts are those of every listing.
    (EXAMPLE_TWO, b"form2 2 2 1 1 2 2 2\ninv 00\n", refused(11, 3)),
    (EXAMPLE_TWO, b"form2 2 2 1 1 2 2 2\ninv 00\nterm2 -- 10\nend\n", refused(11, 3)),
    (EXAMPLE_TWO, b"form2 2 2 1 1 2 2 2\ninv 00\nterm 00 11\nterm -- 10\nend\n", refused(11, 4)),
    (EXAMPLE_TWO, b"form2 2 2 1 1 2 2 2\ninv 00\nterm -- 10\nterm 00 11\nend\nend\n", refused(11, 6)),
    (EXAMPLE_TWO, b"form2 2 2 1 1 2 3 2\ninv 00\nterm -- 10\nterm 00 11\nend\n", refused(12, 1)),
    (EXAMPLE_TWO, b"form2 2 2 1 1 2 2 10\ninv 00\nterm -- 10\nterm 00 11\nend\n", refused(12, 1)),
    // Beside a `K` table a listing of either family is of another kind.
    (EXAMPLE_K, EXAMPLE_LISTING_TWO, refused(12, 1)),
    (EXAMPLE_K, b"form2 2 2 1 1 2 2 2\nx", refused(12, 1)),
    (EXAMPLE_K, b"form2 9999 9999 9 9999 9999 9999 9999\nend\n", refused(12, 1)),
    (ZERO_K, b"form2 2 1 0 0 0 0 0\nend\n", refused(12, 1)),
    (EXAMPLE_K, b"form2 2 2 1 1 2 2\nend\n", refused(11, 1)),
    (EXAMPLE_K, b"form2 2 2 K 1 2 2 2\nend\n", refused(11, 1)),
    // The table text is judged before the listing.
    (b"table2 2 2 K\nend\n", EXAMPLE_LISTING_TWO, refused(1, 1)),
    (b"table2 9 2 K\nend\n", b"kron 2 2 SS 0 0\nend\n", refused(1, 1)),
    (b"table3 2 2 1\nend\n", b"form3 2 2 1 1 0 0 0\nend\n", refused(1, 1)),
    (b"table2 9 2 1\nend\n", EXAMPLE_LISTING, refused(2, 1)),
    (b"table2 2 2 1\nend\nend\n", EXAMPLE_LISTING_TWO, refused(6, 3)),
];

/// Every marked pair.
pub fn all() -> impl Iterator<Item = MarkedPair> {
    let refused = REFUSED_LISTINGS.into_iter().chain(REFUSED_TABLES);
    let judged = JUDGED.into_iter().chain(INVERTERS);
    let classes = free::PAIRS.into_iter().chain(dash::PAIRS);
    judged.chain(refused).chain(KRONECKER).chain(FAMILIES).chain(classes)
}

#[cfg(test)]
mod tests {
    use crate::check::{answer, check};
    use crate::marked::bytes;

    #[test]
    fn pairs() {
        for (text, listing, wanted) in super::all() {
            let found = answer(check(&bytes(text), &bytes(listing)));
            assert_eq!(found, wanted, "{} {}", text.escape_ascii(), listing.escape_ascii());
        }
    }
}
