//! Texts with `-` for k, on both sides of each refusal, and pairs of such a text and a listing: "A k of `-` now means
//! `f2`, or `f1` where n = 1." They are written as the other texts are, with a space for each tab.

use super::pairs::{MarkedPair, NOT_OF_CLASS, SAME, differs, refused};

/// Texts that are accepted, each with its listing: "A listing shows the k that was used."
pub const ACCEPTED: [(&[u8], &[u8]); 22] = [
    // One input: `f1`.
    (b"table 1 1 -\nend\n", b"form 1 1 f1 1 0 0 0\ninv 0\nend\n"),
    (b"table 1 1 -\non 0 1\nend\n", b"form 1 1 f1 1 0 1 1\ninv 0\nterm 0 1\nend\n"),
    (b"table 1 1 -\non 1 1\nend\n", b"form 1 1 f1 1 0 1 1\ninv 0\nterm 1 1\nend\n"),
    (b"table 1 1 -\non 0 1\non 1 1\nend\n", b"form 1 1 f1 1 0 0 0\ninv 1\nend\n"),
    (b"table 1 2 -\non 0 01\non 1 10\nend\n", b"form 1 2 f1 1 0 1 1\ninv 10\nterm 0 11\nend\n"),
    (
        b"table 1 8 -\non 0 00000001\non 1 11111111\nend\n",
        b"form 1 8 f1 1 0 1 1\ninv 00000001\nterm 1 11111110\nend\n",
    ),
    (b"table2 1 1 -\nend\n", b"form2 1 1 f1 1 0 0 0\ninv 0\nend\n"),
    (b"table2 1 1 -\non 0 1\nend\n", b"form2 1 1 f1 1 0 1 1\ninv 0\nterm 0 1\nend\n"),
    (b"table2 1 1 -\non 0 1\non 1 1\nend\n", b"form2 1 1 f1 1 0 0 0\ninv 1\nend\n"),
    // Two inputs and more: `f2`.
    (b"table 2 1 -\nend\n", b"form 2 1 f2 3 0 0 0\ninv 0\nend\n"),
    (b"table2 2 1 -\nend\n", b"form2 2 1 f2 3 0 0 0\ninv 0\nend\n"),
    (
        b"table 2 2 -\non 0 01\non 1 10\non 2 10\non 3 10\nend\n",
        b"form 2 2 f2 3 0 1 2\ninv 10\nterm 00 11\nend\n",
    ),
    (
        b"table2 2 2 -\non 0 01\non 1 10\non 2 10\non 3 10\nend\n",
        b"form2 2 2 f2 3 0 1 2\ninv 10\nterm 00 11\nend\n",
    ),
    // Document 02's design of W-207: `1` would show M = 1.
    (
        b"table 3 2 -\non 5 10\non 6 01\non 7 10\nend\n",
        b"form 3 2 f2 3 0 2 5\ninv 00\nterm 1-1 10\nterm 110 01\nend\n",
    ),
    (
        b"table2 3 2 -\non 5 10\non 6 01\non 7 10\nend\n",
        b"form2 3 2 f2 3 0 2 5\ninv 00\nterm 1-1 10\nterm 110 01\nend\n",
    ),
    // Three products, where every digit has four.
    (
        b"table 3 3 -\non 4 001\non 5 100\non 6 010\non 7 110\nend\n",
        b"form 3 3 f2 3 0 3 7\ninv 000\nterm 1-1 100\nterm 11- 010\nterm 100 001\nend\n",
    ),
    (
        b"table2 3 3 -\non 4 001\non 5 100\non 6 010\non 7 110\nend\n",
        b"form2 3 3 f2 3 0 3 7\ninv 000\nterm 1-1 100\nterm 11- 010\nterm 100 001\nend\n",
    ),
    (b"table 7 1 -\nend\n", b"form 7 1 f2 3 0 0 0\ninv 0\nend\n"),
    (b"table 8 8 -\nend\n", b"form 8 8 f2 3 0 0 0\ninv 00000000\nend\n"),
    (b"table2 8 8 -\nend\n", b"form2 8 8 f2 3 0 0 0\ninv 00000000\nend\n"),
    (b"table 8 1 -\non 255 1\nend\n", b"form 8 1 f2 3 0 1 8\ninv 0\nterm 11111111 1\nend\n"),
    (b"table2 8 1 -\non 255 1\nend\n", b"form2 8 1 f2 3 0 1 8\ninv 0\nterm 11111111 1\nend\n"),
];

/// Texts that are refused, each with the refusal's number and line.
pub const REFUSED: [(&[u8], u64, u64); 31] = [
    // `-` and nothing else, and only for k.
    (b"table 2 2 -1\nend\n", 1, 1),
    (b"table 2 2 1-\nend\n", 1, 1),
    (b"table 2 2 -2\nend\n", 1, 1),
    (b"table 2 2 -f2\nend\n", 1, 1),
    (b"table 2 2 f2-\nend\n", 1, 1),
    (b"table 2 2 -K\nend\n", 1, 1),
    (b"table 2 2 - \nend\n", 1, 1),
    (b"table 2 2 - -\nend\n", 1, 1),
    (b"table 2 2  -\nend\n", 1, 1),
    (b"table 2 2 -_\nend\n", 1, 1),
    (b"table 2 2 -\r\nend\r\n", 1, 1),
    (b"table 2 2 -", 1, 1),
    (b"table 2 - -\nend\n", 1, 1),
    (b"table - - -\nend\n", 1, 1),
    (b"table2 2 2 --\nend\n", 1, 1),
    (b"table2 - 2 -\nend\n", 1, 1),
    (b"form 2 2 -\nend\n", 1, 1),
    // The order of line 1 is the same. What `-` means is never above n.
    (b"table 0 1 -\nend\n", 2, 1),
    (b"table 9 9 -\nend\n", 2, 1),
    (b"table2 9 1 -\nend\n", 2, 1),
    (b"table 1 0 -\nend\n", 3, 1),
    (b"table 1 9 -\nx", 3, 1),
    (b"table2 2 9 -\n", 3, 1),
    // Later lines are those of every text.
    (b"table 1 1 -\non 2 1\nend\n", 5, 2),
    (b"table2 8 1 -\non 256 1\nend\n", 5, 2),
    (b"table 2 2 -\n", 6, 2),
    (b"table 2 2 -\nend", 1, 2),
    (b"table 2 2 -\n-\nend\n", 1, 2),
    (b"table 2 2 -\non - 11\nend\n", 1, 2),
    (b"table 2 2 -\non 0 1-\nend\n", 1, 2),
    (b"table 2 2 -\nend\n-\n", 6, 3),
];

/// Tables with `-`: one input with only point 0 on, two inputs all zero, and document 02's design of W-207.
const POINT: &[u8] = b"table 1 1 -\non 0 1\nend\n";
const POINT_TWO: &[u8] = b"table2 1 1 -\non 0 1\nend\n";
const ZERO: &[u8] = b"table 2 1 -\nend\n";
const ZERO_TWO: &[u8] = b"table2 2 1 -\nend\n";
const UNDER_X3: &[u8] = b"table 3 2 -\non 5 10\non 6 01\non 7 10\nend\n";
const UNDER_X3_TWO: &[u8] = b"table2 3 2 -\non 5 10\non 6 01\non 7 10\nend\n";

/// Pairs with `-` in the table text or in the listing: "the check resolves a dash like the compiler".
pub const PAIRS: [MarkedPair; 38] = [
    // One input: the listing has `f1`, cheap or not.
    (POINT, b"form 1 1 f1 1 0 1 1\ninv 0\nterm 0 1\nend\n", SAME),
    (POINT, b"form 1 1 f1 1 0 1 1\ninv 1\nterm 1 1\nend\n", SAME),
    (POINT, b"form 1 1 f1 1 0 2 1\ninv 0\nterm - 1\nterm 1 1\nend\n", SAME),
    (POINT, b"form 1 1 f1 1 0 1 1\ninv 0\nterm 1 1\nend\n", differs(0)),
    (POINT, b"form 1 1 f1 0 0 1 1\ninv 0\nterm 0 1\nend\n", NOT_OF_CLASS),
    (POINT_TWO, b"form2 1 1 f1 1 0 1 1\ninv 0\nterm 0 1\nend\n", SAME),
    (POINT, b"form 1 1 1 1 0 1 1\ninv 0\nterm 0 1\nend\n", refused(12, 1)),
    (POINT, b"form 1 1 f0 0 1 1 1\ninv 0\nterm 0 1\nend\n", refused(12, 1)),
    (POINT, b"form 1 1 f2 1 0 1 1\ninv 0\nterm 0 1\nend\n", refused(12, 1)),
    (POINT_TWO, b"form2 1 1 1 1 0 1 1\ninv 0\nterm 0 1\nend\n", refused(12, 1)),
    (POINT_TWO, b"form2 1 1 f2 1 0 1 1\ninv 0\nterm 0 1\nend\n", refused(12, 1)),
    (POINT, b"form2 1 1 f1 1 0 1 1\ninv 0\nterm 0 1\nend\n", refused(12, 1)),
    // Two inputs and more: it has `f2`.
    (ZERO, b"form 2 1 f2 3 0 0 0\ninv 0\nend\n", SAME),
    (ZERO_TWO, b"form2 2 1 f2 3 0 0 0\ninv 0\nend\n", SAME),
    (ZERO, b"form 2 1 1 1 0 0 0\ninv 0\nend\n", refused(12, 1)),
    (ZERO, b"form 2 1 f1 1 0 0 0\ninv 0\nend\n", refused(12, 1)),
    (ZERO, b"form 2 1 2 3 0 0 0\ninv 0\nend\n", refused(12, 1)),
    (ZERO, b"form2 2 1 f2 3 0 0 0\ninv 0\nend\n", refused(12, 1)),
    (ZERO_TWO, b"form2 2 1 1 1 0 0 0\ninv 0\nend\n", refused(12, 1)),
    (ZERO_TWO, b"form 2 1 f2 3 0 0 0\ninv 0\nend\n", refused(12, 1)),
    (ZERO, b"form 2 1 f2 1 0 0 0\ninv 0\nend\n", NOT_OF_CLASS),
    (UNDER_X3, b"form 3 2 f2 3 0 2 5\ninv 00\nterm 1-1 10\nterm 110 01\nend\n", SAME),
    (UNDER_X3, b"form 3 2 f2 5 0 2 5\ninv 00\nterm 1-1 10\nterm 110 01\nend\n", SAME),
    (UNDER_X3, b"form 3 2 f2 6 0 2 5\ninv 00\nterm 1-1 10\nterm 110 01\nend\n", NOT_OF_CLASS),
    (UNDER_X3, b"form 3 2 f2 3 0 1 3\ninv 00\nterm 101 10\nend\n", differs(6)),
    (UNDER_X3, b"form 3 2 1 1 0 2 5\ninv 00\nterm 1-1 10\nterm 110 01\nend\n", refused(12, 1)),
    (UNDER_X3_TWO, b"form2 3 2 f2 3 0 2 5\ninv 00\nterm 1-1 10\nterm 110 01\nend\n", SAME),
    (UNDER_X3_TWO, b"form2 3 2 1 1 0 2 5\ninv 00\nterm 1-1 10\nterm 110 01\nend\n", refused(12, 1)),
    // A listing shows the k that was used: with `-` in its own k field it is broken, beside any table.
    (POINT, b"form 1 1 - 1 0 1 1\ninv 0\nterm 0 1\nend\n", refused(11, 1)),
    (ZERO, b"form 2 1 - 3 0 0 0\ninv 0\nend\n", refused(11, 1)),
    (ZERO_TWO, b"form2 2 1 - 3 0 0 0\ninv 0\nend\n", refused(11, 1)),
    (b"table 2 1 1\nend\n", b"form 2 1 - 1 0 0 0\ninv 0\nend\n", refused(11, 1)),
    (b"table2 2 1 f2\nend\n", b"form2 2 1 - 3 0 0 0\ninv 0\nend\n", refused(11, 1)),
    (b"table 2 1 K\nend\n", b"form 2 1 - 3 0 0 0\ninv 0\nend\n", refused(11, 1)),
    (ZERO, b"form 2 1 -2 3 0 0 0\ninv 0\nend\n", refused(11, 1)),
    // The table text is judged before the listing.
    (b"table 9 1 -\nend\n", b"form 9 1 f2 3 0 0 0\ninv 0\nend\n", refused(2, 1)),
    (b"table 2 1 --\nend\n", b"form 2 1 - 3 0 0 0\ninv 0\nend\n", refused(1, 1)),
    (b"table 2 1 -\nend\nend\n", b"form 2 1 f2 3 0 0 0\ninv 0\nend\n", refused(6, 3)),
];
