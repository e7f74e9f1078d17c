//! Table texts, read and written as documents 01 and 02 give them, and what the text calls make of them.

mod fields;
pub mod kron;
pub mod listing;
pub mod products;
pub mod quotation;

use crate::calls::ReadAnswer;
use crate::class::{self, Class, Cost};
use crate::evaluator::{Refusal, judge_lengths, places};
use crate::family::Family;
use crate::kronecker;
use fields::{
    Line, Lines, class_field, outputs_field, read_class, read_digit, read_number, read_outputs,
};
use kron::KronListing;
use listing::Listing;

/// The kind of k: what the k field selects.
#[derive(Clone, Copy, Debug, PartialEq, Eq)]
pub enum Kind {
    /// A class with mixed inputs, whose listings begin with `form` or `form2`: a digit selects the block class, `f` and a
    /// digit the free class, and so does `-`.
    Mixed(Class),
    /// The Kronecker expansions: `K`.
    Kronecker,
}

impl Kind {
    /// What `-` means with n inputs: "A k of `-` now means `f2`, or `f1` where n = 1."
    pub fn of_dash(n: usize) -> Self {
        Kind::Mixed(Class::Free(if n == 1 { 1 } else { 2 }))
    }

    /// The k field of a table text of n inputs.
    fn read(field: &[u8], n: usize) -> Option<Self> {
        match field {
            b"K" => Some(Kind::Kronecker),
            b"-" => Some(Kind::of_dash(n)),
            _ => read_class(field).map(Kind::Mixed),
        }
    }

    /// The k field of a table text, with no `-`.
    pub fn field(self) -> String {
        match self {
            Kind::Mixed(class) => class_field(class),
            Kind::Kronecker => "K".to_string(),
        }
    }

    /// k and the kind as the reading call returns them.
    pub fn numbers(self) -> [u64; 2] {
        match self {
            Kind::Mixed(Class::Block(k)) => [k as u64, 1],
            Kind::Kronecker => [0, 2],
            Kind::Mixed(Class::Free(k)) => [k as u64, 3],
        }
    }
}

/// What a table text says.
#[derive(Clone, Debug, PartialEq, Eq)]
pub struct Design {
    pub family: Family,
    pub n: usize,
    pub m: usize,
    pub kind: Kind,
    pub table: Vec<u8>,
}

impl Design {
    /// A design of family one for the block class with k mixed inputs.
    pub fn block(n: usize, m: usize, k: usize, table: Vec<u8>) -> Self {
        Design::of_class(n, m, Class::Block(k), table)
    }

    /// A design of family one for the free class with k mixed inputs.
    pub fn free(n: usize, m: usize, k: usize, table: Vec<u8>) -> Self {
        Design::of_class(n, m, Class::Free(k), table)
    }

    /// A design of family one for a class.
    pub fn of_class(n: usize, m: usize, class: Class, table: Vec<u8>) -> Self {
        Design { family: Family::One, n, m, kind: Kind::Mixed(class), table }
    }

    /// The same design for another family.
    pub fn of_family(self, family: Family) -> Self {
        Design { family, ..self }
    }

    /// A design of family one for what `-` means.
    pub fn dashed(n: usize, m: usize, table: Vec<u8>) -> Self {
        Design { family: Family::One, n, m, kind: Kind::of_dash(n), table }
    }

    /// A design for the Kronecker expansions.
    pub fn kronecker(n: usize, m: usize, table: Vec<u8>) -> Self {
        Design { family: Family::One, n, m, kind: Kind::Kronecker, table }
    }

    /// The class of a design with mixed inputs.
    #[track_caller]
    pub fn class(&self) -> Class {
        match self.kind {
            Kind::Mixed(class) => class,
            Kind::Kronecker => panic!("Kronecker expansions have no mixed inputs"),
        }
    }

    /// The table text, with no `-`.
    pub fn text(&self) -> Vec<u8> {
        self.text_with(&self.kind.field())
    }

    /// The table text with this k field, which can be `-`.
    pub fn text_with(&self, k: &str) -> Vec<u8> {
        let on = |(p, &byte): (usize, &u8)| match byte {
            0 => String::new(),
            _ => format!("on\t{p}\t{}\n", outputs_field(self.m, byte)),
        };
        let lines: String = self.table.iter().enumerate().map(on).collect();
        let word = self.family.table_word();
        format!("{word}\t{}\t{}\t{k}\n{lines}end\n", self.n, self.m).into_bytes()
    }
}

/// Reads a table text, or refuses it with 1 to 6 at its first bad line.
pub fn read(text: &[u8]) -> Result<Design, Refusal> {
    let mut lines = Lines::new(text);
    let mut design = read_first(&lines.next()?)?;
    let mut last_point = None;
    loop {
        let line = lines.next()?;
        if line.fields == [b"end"] {
            break;
        }
        let (point, outputs) = read_on(&line, design.m).ok_or(line.refusal(1))?;
        if point >= places(design.n) || last_point.is_some_and(|last| point <= last) {
            return Err(line.refusal(5));
        }
        design.table[point] = outputs;
        last_point = Some(point);
    }
    if lines.rest.is_empty() {
        Ok(design)
    } else {
        Err(Refusal { number: 6, line: lines.expected })
    }
}

/// `table` or `table2`, n, m, k, judged in the order 1, 2, 3, 4.
fn read_first(line: &Line) -> Result<Design, Refusal> {
    let (family, n, m, kind) = read_sizes(line).ok_or(line.refusal(1))?;
    if !(1..=8).contains(&n) {
        return Err(line.refusal(2));
    }
    if !(1..=8).contains(&m) {
        return Err(line.refusal(3));
    }
    if let Kind::Mixed(class) = kind
        && !class.allowed(n)
    {
        return Err(line.refusal(4));
    }
    Ok(Design { family, n, m, kind, table: vec![0; places(n)] })
}

/// The fields of the first line. "`K` is for `table` only; with `table2` it is refusal 1", whatever n and m
/// are.
fn read_sizes(line: &Line) -> Option<(Family, usize, usize, Kind)> {
    let [word, n, m, k] = line.fields[..] else { return None };
    let family = Family::of_word(Family::table_word, word)?;
    let (n, m) = (read_digit(n)?, read_digit(m)?);
    let kind = Kind::read(k, n)?;
    ((family, kind) != (Family::Two, Kind::Kronecker)).then_some((family, n, m, kind))
}

/// `on`, point, outputs.
fn read_on(line: &Line, m: usize) -> Option<(usize, u8)> {
    match line.fields[..] {
        [b"on", point, outputs] => Some((read_number(point, 3)?, read_outputs(outputs, m)?)),
        _ => None,
    }
}

/// The listing of a table text, or its refusal.
pub fn compile(text: &[u8]) -> Result<Vec<u8>, Refusal> {
    let design = read(text)?;
    Ok(match design.kind {
        Kind::Mixed(class) => {
            let expansion = class::least(design.family, design.n, class, &design.table);
            Listing::of(&design, &expansion).bytes()
        }
        Kind::Kronecker => {
            KronListing::of(design.m, &kronecker::least(design.n, &design.table)).bytes()
        }
    })
}

/// The counts on the first line of the listing of a design, and those that its `term` lines have. Nothing where it is not
/// sound, or of other sizes.
pub fn stated_and_counted(design: &Design, listing: &[u8]) -> Option<[Cost; 2]> {
    match design.kind {
        Kind::Mixed(_) => {
            let listing = Listing::read(design, listing).ok()?;
            Some([listing.stated, listing.counted()])
        }
        Kind::Kronecker => {
            let listing = KronListing::read(listing)?;
            let own = (listing.letters.len(), listing.m) == (design.n, design.m);
            own.then(|| [listing.stated, listing.counted()])
        }
    }
}

/// What the program writes for a text: the listing, or `refused`, number, line.
pub fn printed(text: &[u8]) -> Vec<u8> {
    compile(text).unwrap_or_else(refused)
}

/// The line that a program writes for a refusal.
pub fn refused(Refusal { number, line }: Refusal) -> Vec<u8> {
    format!("refused\t{number}\t{line}\n").into_bytes()
}

/// The judgement of the reading call: 1 to 6, then 8.
pub fn judge_read(text: &[u8], table_length: usize) -> Result<Design, Refusal> {
    let design = read(text)?;
    judge_lengths(&[(table_length, 256)])?;
    Ok(design)
}

/// The numbers of the reading call's answer: number, line, n, m, k, the kind of k, the family.
pub fn read_answer(judged: &Result<Design, Refusal>) -> ReadAnswer {
    match judged {
        Ok(Design { family, n, m, kind, .. }) => {
            let [k, kind] = kind.numbers();
            [0, 0, *n as u64, *m as u64, k, kind, family.number()]
        }
        Err(Refusal { number, line }) => [*number, *line, 0, 0, 0, 0, 0],
    }
}

/// Refusal 10, of the text call: after 1 to 6, where the output buffer is shorter than the listing.
pub fn judge_output(listing: &[u8], output_length: usize) -> Result<&[u8], Refusal> {
    if output_length < listing.len() {
        return Err(Refusal::without_line(10));
    }
    Ok(listing)
}

#[cfg(test)]
mod tests {
    use super::*;
    use crate::marked::{EXAMPLE, bytes};

    #[test]
    fn a_text_is_written_as_it_was_read() {
        for text in [
            EXAMPLE,
            b"table2 2 2 1\non 0 01\nend\n",
            b"table 2 2 K\nend\n",
            b"table 2 1 f2\nend\n",
            b"table2 1 1 f0\non 0 1\nend\n",
        ] {
            let text = bytes(text);
            assert_eq!(read(&text).map(|design| design.text()), Ok(text));
        }
    }
}
