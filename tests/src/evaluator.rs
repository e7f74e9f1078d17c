//! Document 01's points, terms and polarities, and the value of an expansion, said input by input.
//! Coefficients are found by solving for one term after the other.

/// A refusal as a call returns it: its number and the line, 0 where there is no line.
#[derive(Clone, Copy, Debug, PartialEq, Eq)]
pub struct Refusal {
    pub number: u64,
    pub line: u64,
}

impl Refusal {
    /// A refusal of a call without text, or one of 7 to 10.
    pub fn without_line(number: u64) -> Self {
        Refusal { number, line: 0 }
    }
}

/// The inputs x1 to xn, by their numbers.
pub fn inputs(n: usize) -> std::ops::RangeInclusive<usize> {
    1..=n
}

/// How many points, and how many terms, there are.
pub fn places(n: usize) -> usize {
    2usize.pow(n as u32)
}

/// The bit of a point, a term or a polarity that goes with xi: bit i-1.
pub fn bit(x: usize, i: usize) -> bool {
    (x >> (i - 1)) % 2 == 1
}

/// The value of xi at point p.
pub fn input_value(p: usize, i: usize) -> bool {
    bit(p, i)
}

/// Whether term t holds a literal of xi.
pub fn holds(t: usize, i: usize) -> bool {
    bit(t, i)
}

/// Whether the literal of xi is complemented in polarity w.
pub fn complemented(w: usize, i: usize) -> bool {
    bit(w, i)
}

/// The number whose bit i-1 is `chosen(i)`, for each of n inputs.
pub fn number_of(n: usize, chosen: impl Fn(usize) -> bool) -> usize {
    inputs(n).filter(|&i| chosen(i)).map(|i| 1 << (i - 1)).sum()
}

/// Whether the literal of xi under polarity w is true at p.
pub fn literal_true(w: usize, i: usize, p: usize) -> bool {
    if complemented(w, i) { !input_value(p, i) } else { input_value(p, i) }
}

/// Whether all literals of term t under polarity w are true at p. Term 0 has none and is true.
pub fn term_true(n: usize, t: usize, w: usize, p: usize) -> bool {
    inputs(n).all(|i| !holds(t, i) || literal_true(w, i, p))
}

/// The value at p: the exclusive OR of c[t] over all terms whose literals are all true at p. Each term
/// has its own polarity.
pub fn value(n: usize, polarity: impl Fn(usize) -> usize, c: &[u8], p: usize) -> u8 {
    (0..places(n)).filter(|&t| term_true(n, t, polarity(t), p)).fold(0, |sum, t| sum ^ c[t])
}

/// The table that coefficients give under one polarity.
pub fn backward(n: usize, w: usize, c: &[u8]) -> Vec<u8> {
    (0..places(n)).map(|p| value(n, |_| w, c, p)).collect()
}

/// The coefficients of a table under one polarity. At the point where exactly the literals of t are
/// true, the true terms are t and those that hold some of its literals only: these are solved before.
pub fn forward(n: usize, w: usize, table: &[u8]) -> Vec<u8> {
    let mut c = vec![0; places(n)];
    for t in 0..places(n) {
        let point = number_of(n, |i| holds(t, i) != complemented(w, i));
        c[t] = table[point];
        let mut part = t;
        while let Some(smaller) = smaller_term(t, part) {
            c[t] ^= c[smaller];
            part = smaller;
        }
    }
    c
}

/// Turns the coefficients of terms with plain literals into those that give the same values where each term has
/// its own polarity. The largest terms are settled first: a term with complemented literals is the exclusive OR of
/// its plain term and of the plain terms that lack some of those literals, and these take up its coefficient.
pub fn with_polarities(n: usize, polarity: impl Fn(usize) -> usize, c: &mut [u8]) {
    for t in (0..places(n)).rev() {
        let complemented = t & polarity(t);
        let mut lacked = complemented;
        while lacked != 0 {
            c[t - lacked] ^= c[t];
            lacked = (lacked - 1) & complemented;
        }
    }
}

/// The next smaller number than `part` whose literals are all in t.
fn smaller_term(t: usize, part: usize) -> Option<usize> {
    Some(part.checked_sub(1)? & t)
}

/// Literals of a term: the bits set in it.
pub fn literals(n: usize, t: usize) -> usize {
    inputs(n).filter(|&i| holds(t, i)).count()
}

/// Refusals 2 and 3.
pub fn judge_sizes(n: usize, m: usize) -> Result<(), Refusal> {
    if !(1..=8).contains(&n) {
        return Err(Refusal::without_line(2));
    }
    if !(1..=8).contains(&m) {
        return Err(Refusal::without_line(3));
    }
    Ok(())
}

/// Refusal 8: each length is beside the one that the call states.
pub fn judge_lengths(lengths: &[(usize, usize)]) -> Result<(), Refusal> {
    if lengths.iter().any(|&(lent, stated)| lent != stated) {
        return Err(Refusal::without_line(8));
    }
    Ok(())
}

/// Refusal 9: a bit at m or above.
pub fn judge_bits(m: usize, bytes: &[u8]) -> Result<(), Refusal> {
    if bytes.iter().any(|&byte| (m..8).any(|o| (byte >> o) % 2 == 1)) {
        return Err(Refusal::without_line(9));
    }
    Ok(())
}

/// The judgement of the forward and the backward call: 2, 3, 7, 8, 9.
pub fn judge_transform(
    n: usize,
    m: usize,
    w: usize,
    given: &[u8],
    filled_length: usize,
) -> Result<(), Refusal> {
    judge_sizes(n, m)?;
    if w >= places(n) {
        return Err(Refusal::without_line(7));
    }
    judge_lengths(&[(given.len(), places(n)), (filled_length, places(n))])?;
    judge_bits(m, given)
}

#[cfg(test)]
mod tests {
    use super::*;
    use std::iter::successors;

    fn terms_of(n: usize, w: usize, table: &[u8]) -> Vec<usize> {
        let c = forward(n, w, table);
        (0..places(n)).filter(|&t| c[t] != 0).collect()
    }

    #[test]
    fn or_of_two_inputs() {
        let table = [0, 1, 1, 1];
        assert_eq!(terms_of(2, 0, &table), [1, 2, 3]);
        assert_eq!(terms_of(2, 1, &table), [0, 1, 3]);
        assert_eq!(terms_of(2, 2, &table), [0, 2, 3]);
        assert_eq!(terms_of(2, 3, &table), [0, 3]);
    }

    /// Marked entries of the block table, which is forward for three inputs and one output.
    #[test]
    fn block_table_entries() {
        for (g, phi, entry) in [(150, 0, 22), (150, 7, 23), (136, 0, 8), (12, 5, 64)] {
            let table: Vec<u8> = (0..8).map(|p| (g >> p) % 2).collect();
            let c = forward(3, phi, &table);
            assert_eq!((0..8).map(|t| usize::from(c[t]) << t).sum::<usize>(), entry);
        }
    }

    #[test]
    fn smaller_terms_hold_some_of_the_literals() {
        for t in 0..64 {
            let mut found: Vec<usize> =
                successors(smaller_term(t, t), |&part| smaller_term(t, part)).collect();
            found.reverse();
            let wanted: Vec<usize> =
                (0..t).filter(|&s| inputs(6).all(|i| !holds(s, i) || holds(t, i))).collect();
            assert_eq!(found, wanted);
        }
    }

    /// Terms with polarities of their own give the table, and with one polarity for all the coefficients are those
    /// of the forward call.
    #[test]
    fn each_term_with_its_own_polarity() {
        for n in 1..=6 {
            let table: Vec<u8> = (0..places(n)).map(|p| (p * p + p / 3) as u8).collect();
            let drawn = |seed: usize| move |t: usize| (t * t * 7 + seed * 31 + t / 2) % places(n);
            for seed in 0..places(n) {
                let mut c = forward(n, 0, &table);
                with_polarities(n, drawn(seed), &mut c);
                assert!((0..places(n)).all(|p| value(n, drawn(seed), &c, p) == table[p]));
                let mut c = forward(n, 0, &table);
                with_polarities(n, |_| seed, &mut c);
                assert_eq!(c, forward(n, seed, &table));
            }
        }
    }

    #[test]
    fn forward_and_backward_are_inverse() {
        for n in 1..=8 {
            let table: Vec<u8> = (0..places(n)).map(|p| (p * p + p / 3) as u8).collect();
            for w in [0, 1, places(n) / 2, places(n) - 1] {
                assert_eq!(backward(n, w, &forward(n, w, &table)), table);
                assert_eq!(forward(n, w, &backward(n, w, &table)), table);
            }
        }
    }
}
