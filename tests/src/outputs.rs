//! Some outputs of a design, as document 02's W-206 chooses them: "any non-empty choice of its outputs". The chosen
//! outputs are closed up, lowest first, to as many outputs as are chosen.

use crate::seeded::tables::output_bits;
use crate::text::Design;

/// A choice of outputs: bit o is set where output o is chosen, and some bit is set.
#[derive(Clone, Copy, Debug, PartialEq, Eq)]
pub struct Choice(u8);

/// Whether output o is set in a byte, or chosen by its bits.
fn has(byte: u8, o: usize) -> bool {
    (byte >> o) % 2 == 1
}

impl Choice {
    /// The choice with these bits.
    #[track_caller]
    pub fn new(bits: u8) -> Self {
        assert!(bits != 0, "a choice is not empty");
        Choice(bits)
    }

    /// Every choice of m outputs, ascending.
    pub fn every(m: usize) -> impl Iterator<Item = Choice> {
        (1..=output_bits(m)).map(Choice)
    }

    /// The choice of all m outputs.
    pub fn whole(m: usize) -> Self {
        Choice(output_bits(m))
    }

    /// The chosen outputs, lowest first.
    pub fn outputs(self) -> impl Iterator<Item = usize> {
        (0..8).filter(move |&o| has(self.0, o))
    }

    /// How many outputs are chosen.
    pub fn count(self) -> usize {
        self.outputs().count()
    }

    /// The chosen outputs of a byte: the lowest is output 0, the next output 1, and so on.
    pub fn of_byte(self, byte: u8) -> u8 {
        let places = self.outputs().enumerate();
        places.filter(|&(_, o)| has(byte, o)).map(|(place, _)| 1 << place).sum()
    }

    /// The table of the chosen outputs.
    pub fn of_table(self, table: &[u8]) -> Vec<u8> {
        table.iter().map(|&byte| self.of_byte(byte)).collect()
    }

    /// The design of the chosen outputs, "at the same k and family".
    pub fn of_design(self, design: &Design) -> Design {
        let (m, table) = (self.count(), self.of_table(&design.table));
        Design { family: design.family, n: design.n, m, kind: design.kind, table }
    }

    /// A sound table text with the other outputs left out, made from its characters: m is how many are chosen, an
    /// `on` line keeps their characters, and it goes where these are all `0`. All else stays.
    pub fn of_text(self, text: &[u8]) -> Vec<u8> {
        let lines = text.split_inclusive(|&byte| byte == b'\n');
        lines.flat_map(|line| self.of_line(line)).collect()
    }

    /// One line of a text, with its byte 10.
    fn of_line(self, line: &[u8]) -> Vec<u8> {
        let fields: Vec<&[u8]> = line.split(|&byte| byte == b'\t').collect();
        match fields[..] {
            [word, n, _, k] => [word, n, self.count().to_string().as_bytes(), k].join(&b'\t'),
            [on, point, characters] => {
                let kept: Vec<u8> = self.outputs().map(|o| characters[o]).collect();
                let line = [[on, point, &kept].join(&b'\t'), b"\n".to_vec()].concat();
                if kept.contains(&b'1') { line } else { Vec::new() }
            }
            _ => line.to_vec(),
        }
    }
}

#[cfg(test)]
mod tests {
    use super::*;
    use crate::marked::{EXAMPLE, bytes};

    #[test]
    fn every_choice_is_there_once() {
        assert_eq!(Choice::every(2).collect::<Vec<Choice>>(), [1, 2, 3].map(Choice::new));
        for m in 1..=8 {
            assert_eq!(Choice::every(m).count(), 2usize.pow(m as u32) - 1);
            assert_eq!(Choice::every(m).last(), Some(Choice::whole(m)));
            assert!(Choice::every(m).all(|choice| choice.outputs().all(|o| o < m)));
        }
    }

    #[test]
    fn chosen_outputs_are_closed_up() {
        for (bits, count, byte, closed) in [
            (0b0000_0001, 1, 0b1111_1110, 0),
            (0b0000_0100, 1, 0b0000_0100, 1),
            (0b0000_0110, 2, 0b0000_0100, 0b10),
            (0b0000_1010, 2, 0b1111_0111, 0b01),
            (0b1001_0010, 3, 0b1000_0010, 0b101),
            (0b1110_0001, 4, 0b0110_1110, 0b0110),
            (0b1111_1111, 8, 0b1010_0110, 0b1010_0110),
        ] {
            let choice = Choice::new(bits);
            assert_eq!((choice.count(), choice.of_byte(byte)), (count, closed), "{choice:?}");
            assert_eq!(choice.of_table(&[0, byte, bits]), [0, closed, output_bits(count)]);
        }
    }

    #[test]
    fn outputs_are_left_out_of_texts() {
        let three = b"table2 3 4 -\non 0 1100\non 5 0001\non 7 1011\nend\n";
        let last = b"table 8 8 K\non 255 00010000\nend\n";
        let free = b"table 2 3 f2\non 1 011\non 2 100\nend\n";
        for (text, bits, left) in [
            (EXAMPLE, 0b01, &b"table 2 1 1\non 1 1\non 2 1\non 3 1\nend\n"[..]),
            (EXAMPLE, 0b10, b"table 2 1 1\non 0 1\nend\n"),
            (EXAMPLE, 0b11, EXAMPLE),
            (three, 0b1001, b"table2 3 2 -\non 0 10\non 5 01\non 7 11\nend\n"),
            (three, 0b0100, b"table2 3 1 -\non 7 1\nend\n"),
            (three, 0b1110, b"table2 3 3 -\non 0 100\non 5 001\non 7 011\nend\n"),
            (free, 0b011, b"table 2 2 f2\non 1 01\non 2 10\nend\n"),
            (free, 0b001, b"table 2 1 f2\non 2 1\nend\n"),
            (last, 0b1111_0111, b"table 8 7 K\nend\n"),
            (last, 0b0001_1000, b"table 8 2 K\non 255 10\nend\n"),
        ] {
            assert_eq!(Choice::new(bits).of_text(&bytes(text)), bytes(left), "{bits:b}");
        }
    }
}
