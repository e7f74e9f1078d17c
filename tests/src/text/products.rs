//! The `term` lines of a listing, whatever its first line is: written, read, and what they say.

use super::fields::{Line, outputs_field, read_outputs};
use crate::class::Cost;
use crate::evaluator::{input_value, inputs, number_of};

/// A `term` line.
#[derive(Clone, Debug, PartialEq, Eq)]
pub struct Product {
    pub cube: Vec<u8>,
    pub outputs: u8,
}

impl Product {
    /// The character that stands for xi.
    fn character(&self, i: usize) -> u8 {
        self.cube[self.cube.len() - i]
    }

    /// The term in the classes with mixed inputs: the inputs whose character is not `-`.
    pub fn term(&self) -> usize {
        number_of(self.cube.len(), |i| self.character(i) != b'-')
    }

    /// Whether every `1` stands for an input that is 1 at p and every `0` for one that is 0.
    pub fn true_at(&self, p: usize) -> bool {
        inputs(self.cube.len()).all(|i| match self.character(i) {
            b'1' => input_value(p, i),
            b'0' => !input_value(p, i),
            _ => true,
        })
    }

    /// `term`, cube, outputs.
    pub fn read(line: &Line, n: usize, m: usize) -> Option<Self> {
        let [b"term", cube, outputs] = line.fields[..] else { return None };
        let sound = cube.len() == n && cube.iter().all(|byte| b"01-".contains(byte));
        let outputs = read_outputs(outputs, m)?;
        sound.then(|| Product { cube: cube.to_vec(), outputs })
    }

    /// The characters other than `-`.
    pub fn literals(&self) -> usize {
        self.cube.iter().filter(|&&character| character != b'-').count()
    }
}

/// The lines of these products, for m outputs.
pub fn term_lines(m: usize, products: &[Product]) -> Vec<u8> {
    let line = |Product { cube, outputs }: &Product| {
        let outputs = outputs_field(m, *outputs);
        [b"term\t", &cube[..], b"\t", outputs.as_bytes(), b"\n"].concat()
    };
    products.iter().flat_map(line).collect()
}

/// The exclusive OR of the outputs on the `term` lines whose cube is true at p.
pub fn value(products: &[Product], p: usize) -> u8 {
    products.iter().filter(|product| product.true_at(p)).fold(0, |sum, x| sum ^ x.outputs)
}

/// The counts that the `term` lines have.
pub fn counted(products: &[Product]) -> Cost {
    let literals = products.iter().map(Product::literals).sum();
    Cost { products: products.len(), literals }
}
