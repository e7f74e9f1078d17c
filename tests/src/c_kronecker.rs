//! The searches for the least Kronecker expansion in C that the benchmark times (`c/kronecker.c`).

use crate::evaluator::{inputs, places};
use crate::kronecker::{Letter, Letters};

type InC = unsafe extern "C" fn(usize, *const u8, *mut u8, *mut u64);

unsafe extern "C" {
    fn kronecker_search(n: usize, table: *const u8, coefficients: *mut u8, answer: *mut u64);
    fn kronecker_plain(n: usize, table: *const u8, coefficients: *mut u8, answer: *mut u64);
}

/// The number of the kind, products, literals.
pub type KroneckerAnswer = [u64; 3];

/// The least expansion of a sound table, by the method of the text call.
#[inline]
pub fn search(n: usize, table: &[u8], coefficients: &mut [u8]) -> KroneckerAnswer {
    run(kronecker_search, n, table, coefficients)
}

/// The same, by a plain search that shares the steps from xn down.
#[inline]
pub fn plain(n: usize, table: &[u8], coefficients: &mut [u8]) -> KroneckerAnswer {
    run(kronecker_plain, n, table, coefficients)
}

fn run(search: InC, n: usize, table: &[u8], coefficients: &mut [u8]) -> KroneckerAnswer {
    assert!((1..=8).contains(&n));
    assert!(table.len() == places(n) && coefficients.len() == places(n));
    let mut answer = [0; 3];
    // SAFETY: the buffers have the lengths that the C code reads and writes.
    unsafe { search(n, table.as_ptr(), coefficients.as_mut_ptr(), answer.as_mut_ptr()) };
    answer
}

/// The letters of a kind by its number in base 3, the digit of xn the highest.
pub fn letters(n: usize, kind: u64) -> Letters {
    let digit = |i: usize| kind / 3u64.pow(i as u32 - 1) % 3;
    inputs(n).rev().map(|i| Letter::ALL[digit(i) as usize]).collect()
}

#[cfg(test)]
mod tests {
    use super::*;
    use crate::kronecker::least;
    use crate::seeded::Seeded;
    use crate::seeded::tables::any_table;

    #[test]
    fn the_c_code_finds_the_least_expansion() {
        let mut seeded = Seeded::new(8);
        for round in 0..120 {
            let n = 1 + round % 8;
            let m = seeded.within(1, 8);
            let table = any_table(&mut seeded, n, m);
            let wanted = least(n, &table);
            for in_c in [search, plain] {
                let mut coefficients = vec![0; places(n)];
                let [kind, products, literals] = in_c(n, &table, &mut coefficients);
                assert_eq!(letters(n, kind), wanted.letters, "{table:?}");
                assert_eq!(coefficients, wanted.coefficients);
                let counts = [wanted.cost.products, wanted.cost.literals];
                assert_eq!([products, literals], counts.map(|count| count as u64));
            }
        }
    }
}
