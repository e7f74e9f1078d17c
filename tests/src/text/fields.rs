//! Lines and fields, for texts and listings alike.

use crate::class::Class;
use crate::evaluator::Refusal;

/// The fields of a line, and its number from 1.
pub struct Line<'a> {
    pub number: u64,
    pub fields: Vec<&'a [u8]>,
}

impl Line<'_> {
    /// A refusal at this line.
    pub fn refusal(&self, number: u64) -> Refusal {
        Refusal { number, line: self.number }
    }
}

/// What is left of a text, and the number of the line expected there.
pub struct Lines<'a> {
    pub rest: &'a [u8],
    pub expected: u64,
}

impl<'a> Lines<'a> {
    pub fn new(text: &'a [u8]) -> Self {
        Lines { rest: text, expected: 1 }
    }

    /// The next line. 6 where the text has stopped, 1 where the line's byte 10 is missing.
    pub fn next(&mut self) -> Result<Line<'a>, Refusal> {
        let number = self.expected;
        if self.rest.is_empty() {
            return Err(Refusal { number: 6, line: number });
        }
        let end = self.rest.iter().position(|&byte| byte == 10);
        let end = end.ok_or(Refusal { number: 1, line: number })?;
        let fields = self.rest[..end].split(|&byte| byte == 9).collect();
        self.rest = &self.rest[end + 1..];
        self.expected += 1;
        Ok(Line { number, fields })
    }
}

/// One digit.
pub fn read_digit(field: &[u8]) -> Option<usize> {
    read_number(field, 1)
}

/// One digit or up to `digits` of them, with no leading zero but `0`.
pub fn read_number(field: &[u8], digits: usize) -> Option<usize> {
    let sound = (1..=digits).contains(&field.len())
        && field.iter().all(u8::is_ascii_digit)
        && (field[0] != b'0' || field.len() == 1);
    sound.then(|| field.iter().fold(0, |number, digit| number * 10 + usize::from(digit - b'0')))
}

/// The k field of a class: a digit for the block class, `f` and a digit for the free class.
pub fn read_class(field: &[u8]) -> Option<Class> {
    match field {
        [b'f', digit @ ..] => read_digit(digit).map(Class::Free),
        digit => read_digit(digit).map(Class::Block),
    }
}

/// The k field of a class.
pub fn class_field(class: Class) -> String {
    match class {
        Class::Block(k) => k.to_string(),
        Class::Free(k) => format!("f{k}"),
    }
}

/// m characters, leftmost output 0, each `0` or `1`, not all `0`.
pub fn read_outputs(field: &[u8], m: usize) -> Option<u8> {
    read_mask(field, m).filter(|&byte| byte != 0)
}

/// m characters, leftmost output 0, each `0` or `1`.
pub fn read_mask(field: &[u8], m: usize) -> Option<u8> {
    let sound = field.len() == m && field.iter().all(|character| b"01".contains(character));
    sound.then(|| (0..m).filter(|&o| field[o] == b'1').map(|o| 1 << o).sum())
}

/// The field of m outputs, or of their mask.
pub fn outputs_field(m: usize, byte: u8) -> String {
    (0..m).map(|o| if (byte >> o) % 2 == 1 { '1' } else { '0' }).collect()
}
