//! Kronecker expansions worked by hand over all 3^n kinds, and texts with `K` on both sides of each refusal.
//! They are written as the other texts are, with a space for each tab.

/// Output 0 is x2 complemented, output 1 is x1 and x2.
const SHANNON: &[u8] = &[1, 1, 0, 2];

/// The input x1 of two.
const POSITIVE: &[u8] = &[0, 1, 0, 1];

/// OR of two inputs.
const NEGATIVE: &[u8] = &[0, 1, 1, 1];

/// Output 0 at the first point of three inputs, output 1 at the last.
const FIRST_AND_LAST: &[u8] = &[1, 0, 0, 0, 0, 0, 0, 2];

/// Exactly one of three inputs is 1.
const ONE_OF_THREE: &[u8] = &[0, 1, 1, 0, 1, 0, 0, 0];

/// All points of a decoder of three inputs, each with an output of its own.
const DECODER: &[u8] = &[1, 2, 4, 8, 16, 32, 64, 128];

/// What a design costs at each k from 0 up, and with `K`: products, literals.
pub struct Compared {
    pub n: usize,
    pub table: &'static [u8],
    pub digits: &'static [[usize; 2]],
    pub letters: &'static [u8],
    pub kronecker: [usize; 2],
}

pub const COMPARED: [Compared; 6] = [
    Compared {
        n: 2,
        table: SHANNON,
        digits: &[[2, 3], [2, 3], [2, 3]],
        letters: b"SP",
        kronecker: [2, 3],
    },
    Compared {
        n: 2,
        table: POSITIVE,
        digits: &[[1, 1], [1, 1], [1, 1]],
        letters: b"PS",
        kronecker: [1, 1],
    },
    // An inverter is the constant at every k. "Kronecker listings have no inverters": there it is a product.
    Compared {
        n: 2,
        table: NEGATIVE,
        digits: &[[1, 2], [1, 2], [1, 2]],
        letters: b"NN",
        kronecker: [2, 2],
    },
    // `K` is cheaper than every k.
    Compared {
        n: 3,
        table: FIRST_AND_LAST,
        digits: &[[5, 10], [4, 9], [4, 9], [5, 10]],
        letters: b"SSS",
        kronecker: [2, 6],
    },
    // k = 2 is cheaper than `K`.
    Compared {
        n: 3,
        table: ONE_OF_THREE,
        digits: &[[4, 6], [3, 7], [3, 6], [4, 6]],
        letters: b"SNN",
        kronecker: [3, 7],
    },
    // With an output for each point every term is a product, whatever the class, but for the constant, which is
    // an inverter at every k.
    Compared {
        n: 3,
        table: DECODER,
        digits: &[[7, 12], [7, 12], [7, 12], [7, 12]],
        letters: b"PPP",
        kronecker: [8, 12],
    },
];

/// Texts that are accepted, each with its listing.
pub const ACCEPTED: [(&[u8], &[u8]); 16] = [
    // All zero: every input the Shannon way, no product.
    (b"table 2 2 K\nend\n", b"kron 2 2 SS 0 0\nend\n"),
    (b"table 1 1 K\nend\n", b"kron 1 1 S 0 0\nend\n"),
    (b"table 8 8 K\nend\n", b"kron 8 8 SSSSSSSS 0 0\nend\n"),
    // All one: Davio ways, and of these the positive ones. "Kronecker listings have no inverters", so the
    // constant is a product.
    (b"table 2 1 K\non 0 1\non 1 1\non 2 1\non 3 1\nend\n", b"kron 2 1 PP 1 0\nterm -- 1\nend\n"),
    // One point: Shannon's complemented literal costs what the negative Davio one costs, and comes first. A
    // complemented literal counts, though its bit in the term is 0.
    (b"table 1 1 K\non 0 1\nend\n", b"kron 1 1 S 1 1\nterm 0 1\nend\n"),
    (b"table 1 1 K\non 1 1\nend\n", b"kron 1 1 S 1 1\nterm 1 1\nend\n"),
    (b"table 8 1 K\non 255 1\nend\n", b"kron 8 1 SSSSSSSS 1 8\nterm 11111111 1\nend\n"),
    (b"table 8 8 K\non 0 00000001\nend\n", b"kron 8 8 SSSSSSSS 1 8\nterm 00000000 00000001\nend\n"),
    // Two points with an output each: two products in all three ways, and Shannon's have a literal more.
    (b"table 1 2 K\non 0 10\non 1 01\nend\n", b"kron 1 2 P 2 1\nterm - 10\nterm 1 11\nend\n"),
    // Document 01's example.
    (
        b"table 2 2 K\non 0 01\non 1 10\non 2 10\non 3 10\nend\n",
        b"kron 2 2 NN 2 2\nterm -- 10\nterm 00 11\nend\n",
    ),
    // Points 0 and 3: PN and NP cost 2 and 2. The letters are compared from x2 down.
    (b"table 2 1 K\non 0 1\non 3 1\nend\n", b"kron 2 1 PN 2 2\nterm -0 1\nterm 1- 1\nend\n"),
    // Only SP has two products: for x2 the Shannon way, for x1 the positive Davio way. The term of the cube
    // `0-` is 0, that of `11` is 3.
    (
        b"table 2 2 K\non 0 10\non 1 10\non 3 01\nend\n",
        b"kron 2 2 SP 2 3\nterm 0- 10\nterm 11 01\nend\n",
    ),
    // x1 alone: x2 is absent in either Davio way, and positive comes first.
    (b"table 2 1 K\non 1 1\non 3 1\nend\n", b"kron 2 1 PS 1 1\nterm -1 1\nend\n"),
    // OR: of the kinds with two products only NN has two literals, SP and PS have three.
    (
        b"table 2 1 K\non 1 1\non 2 1\non 3 1\nend\n",
        b"kron 2 1 NN 2 2\nterm -- 1\nterm 00 1\nend\n",
    ),
    (b"table 3 2 K\non 0 10\non 7 01\nend\n", b"kron 3 2 SSS 2 6\nterm 000 10\nterm 111 01\nend\n"),
    // Where x3 is 0, x1 and x2 differ; where it is 1, both are 0.
    (
        b"table 3 1 K\non 1 1\non 2 1\non 4 1\nend\n",
        b"kron 3 1 SNN 3 7\nterm 0-0 1\nterm 00- 1\nterm 100 1\nend\n",
    ),
];

/// Texts that are refused, each with the refusal's number and line.
pub const REFUSED: [(&[u8], u64, u64); 34] = [
    (b"table 2 2 k\nend\n", 1, 1),
    (b"table 2 2 KK\nend\n", 1, 1),
    (b"table 2 2 K1\nend\n", 1, 1),
    (b"table 2 2 1K\nend\n", 1, 1),
    (b"table 2 2 -K\nend\n", 1, 1),
    (b"table 2 2 K-\nend\n", 1, 1),
    (b"table 2 2 _K\nend\n", 1, 1),
    (b"table 2 2 K \nend\n", 1, 1),
    (b"table 2 2 K K\nend\n", 1, 1),
    (b"table 2 2 1 K\nend\n", 1, 1),
    (b"table 2 2 K\r\nend\r\n", 1, 1),
    (b"table 2 2 K", 1, 1),
    (b"table 2 2 L\nend\n", 1, 1),
    (b"table 2 2 J\nend\n", 1, 1),
    (b"table K 2 1\nend\n", 1, 1),
    (b"table 2 K 1\nend\n", 1, 1),
    (b"table K K K\nend\n", 1, 1),
    (b"K 2 2 1\nend\n", 1, 1),
    (b"table2 2 2 K\nend\n", 1, 1),
    (b"kron 2 2 SS 0 0\nend\n", 1, 1),
    // Line 1: 1 before 2, 2 before 3. There is no k that could be too large.
    (b"table 9 2 KK\nend\n", 1, 1),
    (b"table 9 2 K\nend\n", 2, 1),
    (b"table 0 2 K\nend\n", 2, 1),
    (b"table 9 9 K\n", 2, 1),
    (b"table 2 9 K\nend\n", 3, 1),
    (b"table 2 0 K\nx", 3, 1),
    // Later lines are those of every text.
    (b"table 2 2 K\n", 6, 2),
    (b"table 2 2 K\non K 11\nend\n", 1, 2),
    (b"table 2 2 K\non 0 KK\nend\n", 1, 2),
    (b"table 2 2 K\non 0 1-\nend\n", 1, 2),
    (b"table 2 2 K\nK\nend\n", 1, 2),
    (b"table 2 2 K\non 4 11\nend\n", 5, 2),
    (b"table 2 2 K\non 1 11\non 1 11\nend\n", 5, 3),
    (b"table 2 2 K\nend\nK\n", 6, 3),
];

#[cfg(test)]
mod tests {
    use super::*;
    use crate::class::{self, Class};
    use crate::family::Family;
    use crate::kronecker::{Kinds, least};

    #[test]
    fn designs_beside_every_k() {
        for Compared { n, table, digits, letters, kronecker } in COMPARED {
            for (k, &figures) in digits.iter().enumerate() {
                let cost = class::least(Family::One, n, Class::Block(k), table).cost;
                assert_eq!([cost.products, cost.literals], figures, "k = {k}, {table:?}");
            }
            assert_eq!(digits.len(), 1 + n.min(3));
            let found = least(n, table);
            assert_eq!([found.cost.products, found.cost.literals], kronecker, "{table:?}");
            assert!(found.letters.iter().map(|letter| letter.byte()).eq(letters.iter().copied()));
            assert_eq!(found, Kinds::new(n).least(table));
        }
    }
}
