//! Coefficients by elimination: the inverse, over exclusive OR, of the relation "term t is true at p".

/// One equation: the terms that are true at some points, and these points.
#[derive(Clone, Copy)]
struct Equation {
    terms: u32,
    points: u32,
}

/// For each term the points whose bytes sum to its coefficient.
pub struct Solved {
    points: Vec<Vec<usize>>,
}

impl Solved {
    /// The coefficients that give the table.
    pub fn coefficients(&self, table: &[u8]) -> Vec<u8> {
        let sum = |points: &Vec<usize>| points.iter().fold(0, |sum, &p| sum ^ table[p]);
        self.points.iter().map(sum).collect()
    }
}

/// Solves for the coefficients of `size` terms over as many points, at most 32.
pub fn eliminate(size: usize, term_true: impl Fn(usize, usize) -> bool) -> Solved {
    let true_terms = |p| (0..size).map(|t| u32::from(term_true(t, p)) << t).sum();
    let mut equations: Vec<Equation> =
        (0..size).map(|p| Equation { terms: true_terms(p), points: 1 << p }).collect();
    for t in 0..size {
        clear_column(&mut equations, t);
    }
    let points = |e: &Equation| (0..size).filter(|p| e.points >> p & 1 == 1).collect();
    Solved { points: equations.iter().map(points).collect() }
}

/// Makes equation t the only one with term t.
fn clear_column(equations: &mut [Equation], t: usize) {
    let has = |e: &Equation| e.terms >> t & 1 == 1;
    let pivot = (t..equations.len()).find(|&row| has(&equations[row]));
    equations.swap(t, pivot.expect("each table has one set of coefficients"));
    let chosen = equations[t];
    for (row, equation) in equations.iter_mut().enumerate() {
        if row != t && has(equation) {
            equation.terms ^= chosen.terms;
            equation.points ^= chosen.points;
        }
    }
}
