//! The quotation, as document 02's W-209 gives it: "products, literals and listing length from a table text".

use super::fields::{Lines, read_number};
use super::{compile, refused};
use crate::calls::QuoteAnswer;
use crate::class::Cost;
use crate::evaluator::Refusal;

/// The counts on the first line of a listing, and how many bytes the listing has.
#[derive(Clone, Copy, Debug, PartialEq, Eq)]
pub struct Quotation {
    pub cost: Cost,
    pub length: usize,
}

impl Quotation {
    /// What a listing of any kind says: the first line of each ends with products and literals.
    #[track_caller]
    pub fn of(listing: &[u8]) -> Self {
        let first = Lines::new(listing).next().expect("a listing has a first line");
        let [.., products, literals] = first.fields[..] else { panic!("a first line has counts") };
        let [products, literals] =
            [products, literals].map(|field| read_number(field, 4).expect("a count is a number"));
        Quotation { cost: Cost { products, literals }, length: listing.len() }
    }

    /// The line that the program `rmquote` writes: `quote`, products, literals, length.
    pub fn line(self) -> Vec<u8> {
        let Quotation { cost: Cost { products, literals }, length } = self;
        format!("quote\t{products}\t{literals}\t{length}\n").into_bytes()
    }
}

/// The quotation of a table text, or its refusal: "The numbers equal those of compiling a copy into a buffer long
/// enough, for every kind of k, and a text that would be refused there for its own sake is refused here alike".
pub fn quote(text: &[u8]) -> Result<Quotation, Refusal> {
    compile(text).map(|listing| Quotation::of(&listing))
}

/// The numbers of the call's answer: number, line, products, literals, length.
pub fn answer(quoted: Result<Quotation, Refusal>) -> QuoteAnswer {
    match quoted {
        Ok(Quotation { cost: Cost { products, literals }, length }) => {
            [0, 0, products as u64, literals as u64, length as u64]
        }
        Err(Refusal { number, line }) => [number, line, 0, 0, 0],
    }
}

/// What the program `rmquote` writes for a table text: the line of its quotation, or `refused`, number, line.
pub fn printed(text: &[u8]) -> Vec<u8> {
    quote(text).map_or_else(refused, Quotation::line)
}

#[cfg(test)]
mod tests {
    use super::*;
    use crate::marked::bytes;

    /// The counts are those of the first line, whatever the `term` lines have, and every byte counts.
    #[test]
    fn a_listing_says_its_quotation() {
        for (listing, products, literals, length) in [
            (&b"form 2 2 1 1 2 1 2\ninv 10\nterm 00 11\nend\n"[..], 1, 2, 41),
            (b"form2 2 2 f2 3 0 9999 8\nend\n", 9999, 8, 28),
            (b"kron 2 2 SN 12 345\nterm 0- 10\n", 12, 345, 30),
        ] {
            let wanted = Quotation { cost: Cost { products, literals }, length };
            assert_eq!(Quotation::of(&bytes(listing)), wanted, "{}", listing.escape_ascii());
        }
    }
}
