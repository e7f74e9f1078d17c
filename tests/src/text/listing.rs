//! Listings of the classes with mixed inputs, whose first word is `form` or `form2`: written from an expansion,
//! and read back from their own lines.

use super::fields::{Line, Lines, class_field, outputs_field, read_class, read_mask, read_number};
use super::products::{Product, counted, term_lines, value};
use super::{Design, Kind};
use crate::class::{Class, Cost, Expansion, Figures};
use crate::evaluator::{Refusal, complemented, holds, inputs, places};
use crate::family::Family;

/// `1` for a plain literal of xi, `0` for a complemented one.
fn literal_character(polarity: usize, i: usize) -> u8 {
    if complemented(polarity, i) { b'0' } else { b'1' }
}

/// Leftmost xn, rightmost x1; `-` where the term has no literal.
pub fn cube_field(n: usize, t: usize, polarity: usize) -> String {
    let character = |i| if holds(t, i) { literal_character(polarity, i) } else { b'-' };
    inputs(n).rev().map(|i| char::from(character(i))).collect()
}

/// A listing as its own lines give it.
#[derive(Clone, Debug, PartialEq, Eq)]
pub struct Listing {
    pub family: Family,
    pub n: usize,
    pub m: usize,
    /// What the k field says.
    pub class: Class,
    pub mixed: usize,
    pub fixed: usize,
    /// The counts on the first line.
    pub stated: Cost,
    /// The inversion mask on the second line.
    pub inverted: u8,
    pub products: Vec<Product>,
}

impl Listing {
    /// The listing of an expansion of a design.
    pub fn of(design: &Design, expansion: &Expansion) -> Self {
        let (family, n, m, class) = (design.family, design.n, design.m, design.class());
        let Expansion { member, coefficients, inverted, cost } = expansion;
        let product = |t: usize| Product {
            cube: cube_field(n, t, member.polarity(n, t)).into_bytes(),
            outputs: coefficients[t],
        };
        let products = (0..places(n)).filter(|&t| coefficients[t] != 0).map(product).collect();
        let (mixed, fixed) = (member.mixed, member.fixed);
        let (stated, inverted) = (*cost, *inverted);
        Listing { family, n, m, class, mixed, fixed, stated, inverted, products }
    }

    /// The first line, with its byte 10.
    pub fn first_line(&self) -> String {
        let Listing { n, m, mixed, fixed, stated, .. } = self;
        let (word, k) = (self.family.form_word(), class_field(self.class));
        let counts = format!("{}\t{}", stated.products, stated.literals);
        format!("{word}\t{n}\t{m}\t{k}\t{mixed}\t{fixed}\t{counts}\n")
    }

    /// The second line, with its byte 10: "`inv` and m characters".
    pub fn second_line(&self) -> String {
        format!("inv\t{}\n", outputs_field(self.m, self.inverted))
    }

    /// All lines.
    pub fn bytes(&self) -> Vec<u8> {
        self.bytes_with(&self.second_line())
    }

    /// All lines, with this text for the second.
    pub fn bytes_with(&self, second: &str) -> Vec<u8> {
        let terms = term_lines(self.m, &self.products);
        [self.first_line().as_bytes(), second.as_bytes(), &terms, b"end\n"].concat()
    }

    /// Reads a listing beside the design of its table text. 12, line 1, where the family, n, m or the kind of
    /// k is not the design's, before any later line is read; 11 at the first line that is bad otherwise.
    pub fn read(design: &Design, bytes: &[u8]) -> Result<Self, Refusal> {
        let mut lines = Lines::new(bytes);
        let first = next_line(&mut lines)?;
        let mut listing = Listing::read_first(&first).ok_or(first.refusal(11))?;
        let own = (listing.family, listing.n, listing.m, Kind::Mixed(listing.class));
        if own != (design.family, design.n, design.m, design.kind) {
            return Err(first.refusal(12));
        }
        let second = next_line(&mut lines)?;
        listing.inverted = read_second(&second, listing.m).ok_or(second.refusal(11))?;
        loop {
            let line = next_line(&mut lines)?;
            if line.fields == [b"end"] {
                break;
            }
            let product = listing.read_term(&line).ok_or(line.refusal(11))?;
            listing.products.push(product);
        }
        if lines.rest.is_empty() {
            Ok(listing)
        } else {
            Err(Refusal { number: 11, line: lines.expected })
        }
    }

    /// `form` or `form2`, n, m, k, M, i, products, literals.
    fn read_first(line: &Line) -> Option<Self> {
        let [word, n, m, k, mixed, fixed, products, literals] = line.fields[..] else {
            return None;
        };
        let number = |field| read_number(field, 4);
        Some(Listing {
            family: Family::of_word(Family::form_word, word)?,
            n: number(n)?,
            m: number(m)?,
            class: read_class(k)?,
            mixed: number(mixed)?,
            fixed: number(fixed)?,
            stated: Cost { products: number(products)?, literals: number(literals)? },
            inverted: 0,
            products: Vec::new(),
        })
    }

    /// `term`, cube, outputs, with a term above the one before.
    fn read_term(&self, line: &Line) -> Option<Product> {
        let product = Product::read(line, self.n, self.m)?;
        let above = self.products.last().is_none_or(|last| product.term() > last.term());
        above.then_some(product)
    }

    /// The exclusive OR of the outputs on the `term` lines whose cube is true at p, "then inverted where marked".
    pub fn value(&self, p: usize) -> u8 {
        value(&self.products, p) ^ self.inverted
    }

    /// The counts that the `term` lines have.
    pub fn counted(&self) -> Cost {
        counted(&self.products)
    }

    /// M, i, the counts on the first line, and the inversion mask.
    pub fn figures(&self) -> Figures {
        let Cost { products, literals } = self.stated;
        [self.mixed, self.fixed, products, literals, self.inverted.into()]
    }
}

/// `inv` and m characters.
fn read_second(line: &Line, m: usize) -> Option<u8> {
    let [b"inv", mask] = line.fields[..] else { return None };
    read_mask(mask, m)
}

/// The next line of a listing. 11 where the listing has stopped or the line's byte 10 is missing.
fn next_line<'a>(lines: &mut Lines<'a>) -> Result<Line<'a>, Refusal> {
    lines.next().map_err(|Refusal { line, .. }| Refusal { number: 11, line })
}

#[cfg(test)]
mod tests {
    use super::*;
    use crate::marked::bytes;
    use crate::seeded::Seeded;
    use crate::seeded::listings::any_expansion;
    use crate::seeded::texts::sound_text;

    #[test]
    fn a_listing_is_read_from_its_lines() {
        let design = Design::block(2, 2, 1, vec![0; 4]);
        let lines = |inverters| {
            let written =
                format!("form 2 2 1 1 2 2 2\ninv {inverters}\nterm -- 10\nterm -0 11\nend\n");
            Listing::read(&design, &bytes(written.as_bytes())).expect("a sound listing")
        };
        for (inverters, mask) in [("00", 0), ("10", 1), ("01", 2), ("11", 3)] {
            let listing = lines(inverters);
            let values: Vec<u8> = (0..4).map(|p| listing.value(p)).collect();
            assert_eq!(values, [2, 1, 2, 1].map(|value| value ^ mask));
            assert_eq!(listing.inverted, mask);
            assert_eq!(listing.counted(), Cost { products: 2, literals: 1 });
            assert_eq!(listing.stated, Cost { products: 2, literals: 2 });
        }
    }

    /// What is read is what was written: M, i, the counts, the inversion mask, the cubes and the coefficients.
    #[test]
    fn a_listing_is_read_as_it_was_written() {
        let mut seeded = Seeded::new(3);
        for _ in 0..400 {
            let (design, _) = sound_text(&mut seeded, 5);
            let listing = Listing::of(&design, &any_expansion(&mut seeded, &design));
            assert_eq!(listing.stated, listing.counted());
            assert_eq!(Listing::read(&design, &listing.bytes()), Ok(listing));
        }
    }
}
