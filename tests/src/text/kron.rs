//! Listings of Kronecker expansions, whose first word is `kron`: written from an expansion, and read back
//! from their own lines.

use super::fields::{Lines, read_number};
use super::products::{Product, counted, term_lines, value};
use crate::class::Cost;
use crate::evaluator::number_of;
use crate::kronecker::{Expansion, Letter, Letters};

/// A listing as its own lines give it.
#[derive(Clone, Debug, PartialEq, Eq)]
pub struct KronListing {
    pub m: usize,
    /// A letter for each input, from xn down.
    pub letters: Letters,
    /// The counts on the first line.
    pub stated: Cost,
    pub products: Vec<Product>,
}

impl KronListing {
    /// The listing of an expansion with m outputs.
    pub fn of(m: usize, expansion: &Expansion) -> Self {
        let Expansion { letters, cost, .. } = expansion;
        let (letters, products) = (letters.clone(), expansion.products());
        KronListing { m, letters, stated: *cost, products }
    }

    /// All lines.
    pub fn bytes(&self) -> Vec<u8> {
        let letters: String = self.letters.iter().map(|x| char::from(x.byte())).collect();
        let Cost { products, literals } = self.stated;
        let (n, m) = (self.letters.len(), self.m);
        let first = format!("kron\t{n}\t{m}\t{letters}\t{products}\t{literals}\n");
        [first.as_bytes(), &term_lines(m, &self.products), b"end\n"].concat()
    }

    /// Reads a listing from its own lines. Nothing where it is not sound: its cubes have the characters of
    /// the letters, and its terms ascend.
    pub fn read(bytes: &[u8]) -> Option<Self> {
        let mut lines = Lines::new(bytes);
        let first = lines.next().ok()?;
        let [b"kron", n, m, letters, products, literals] = first.fields[..] else { return None };
        let number = |field| read_number(field, 4);
        let stated = Cost { products: number(products)?, literals: number(literals)? };
        let letters: Letters = letters.iter().map(|&byte| letter(byte)).collect::<Option<_>>()?;
        let mut listing = KronListing { m: number(m)?, letters, stated, products: Vec::new() };
        loop {
            let line = lines.next().ok()?;
            if line.fields == [b"end"] {
                break;
            }
            let product = Product::read(&line, number(n)?, listing.m)?;
            listing.push(product)?;
        }
        let whole = lines.rest.is_empty() && listing.letters.len() == number(n)?;
        whole.then_some(listing)
    }

    /// Puts a product after those there are. Nothing where its cube is not of the letters, or its term is
    /// not above the one before.
    fn push(&mut self, product: Product) -> Option<()> {
        let term = self.term(&product)?;
        let last = self.products.last().and_then(|last| self.term(last));
        self.products.push(product);
        last.is_none_or(|last| last < term).then_some(())
    }

    /// The term of a cube: the bit of an input is set where its literal is plain or present.
    fn term(&self, product: &Product) -> Option<usize> {
        let n = self.letters.len();
        let places = self.letters.iter().zip(&product.cube);
        let bits = places.map(|(letter, &character)| {
            [false, true].into_iter().find(|&set| letter.character(set) == character)
        });
        let bits: Vec<bool> = bits.collect::<Option<_>>()?;
        (product.cube.len() == n).then(|| number_of(n, |i| bits[n - i]))
    }

    /// The exclusive OR of the outputs on the `term` lines whose cube is true at p.
    pub fn value(&self, p: usize) -> u8 {
        value(&self.products, p)
    }

    /// The counts that the `term` lines have.
    pub fn counted(&self) -> Cost {
        counted(&self.products)
    }
}

/// The way that a letter names.
fn letter(byte: u8) -> Option<Letter> {
    Letter::ALL.into_iter().find(|letter| letter.byte() == byte)
}

#[cfg(test)]
mod tests {
    use super::*;
    use crate::evaluator::places;
    use crate::kronecker::{Kinds, least};
    use crate::marked::bytes;
    use crate::seeded::Seeded;
    use crate::seeded::texts::kronecker_text;

    #[test]
    fn a_listing_is_read_from_its_lines() {
        let written = bytes(b"kron 2 2 SN 2 9\nterm 0- 10\nterm 10 11\nend\n");
        let listing = KronListing::read(&written).expect("a sound listing");
        assert_eq!((0..4).map(|p| listing.value(p)).collect::<Vec<u8>>(), [1, 1, 3, 0]);
        assert_eq!(listing.counted(), Cost { products: 2, literals: 3 });
        assert_eq!(listing.stated, Cost { products: 2, literals: 9 });
    }

    #[test]
    fn a_broken_listing_is_not_read() {
        for broken in [
            &b"kron 2 2 SN 0 0\n"[..],
            b"form 2 2 SN 0 0\nend\n",
            b"kron 2 2 SK 0 0\nend\n",
            b"kron 3 2 SN 0 0\nend\n",
            b"kron 2 2 SN 0 0\nend\nend\n",
            b"kron 2 2 SN 0 0\ninv 00\nend\n",
            b"kron 2 2 SN 1 1\nterm -0 10\nend\n",
            b"kron 2 2 SN 1 1\nterm 01 10\nend\n",
            b"kron 2 2 SN 2 3\nterm 10 11\nterm 0- 10\nend\n",
            b"kron 2 2 SN 2 2\nterm 0- 11\nterm 0- 10\nend\n",
        ] {
            assert_eq!(KronListing::read(&bytes(broken)), None, "{}", broken.escape_ascii());
        }
    }

    /// What is read is what was written, for every kind, and its lines give the table.
    #[test]
    fn a_listing_is_read_as_it_was_written() {
        let mut seeded = Seeded::new(7);
        for n in 1..=3 {
            let kinds = Kinds::new(n);
            for _ in 0..20 {
                let design = kronecker_text(&mut seeded, n).0;
                if design.n < n {
                    continue;
                }
                for rival in kinds.rivals(&design.table) {
                    let listing = KronListing::of(design.m, &rival);
                    assert_eq!(listing.stated, listing.counted());
                    assert!((0..places(n)).all(|p| listing.value(p) == design.table[p]));
                    assert_eq!(KronListing::read(&listing.bytes()), Some(listing));
                }
            }
        }
        let (design, _) = kronecker_text(&mut seeded, 8);
        let listing = KronListing::of(design.m, &least(design.n, &design.table));
        assert_eq!(KronListing::read(&listing.bytes()), Some(listing));
    }
}
