//! The search in C that the benchmarks time (`c/search.c`).

use crate::calls::MinimiseAnswer;
use crate::class::Class;
use crate::family::Family;
use std::sync::Once;

unsafe extern "C" {
    fn block_search_prepare();
    fn block_search(
        family: usize,
        is_free: usize,
        n: usize,
        k: usize,
        table: *const u8,
        coefficients: *mut u8,
        blocks: *mut u8,
        answer: *mut u64,
    );
}

static PREPARED: Once = Once::new();

/// The least expansion of a sound table, in the places of the minimising call.
#[inline]
pub fn minimise(
    n: usize,
    m: usize,
    k: usize,
    table: &[u8],
    coefficients: &mut [u8],
    blocks: &mut [u8],
    answer: &mut MinimiseAnswer,
) {
    let (family, class) = (Family::One, Class::Block(k));
    minimise_for(family, class, [n, m], table, coefficients, blocks, answer);
}

/// The same for a family and a class, with n and m. In the free class with two mixed inputs `blocks` has the number of
/// each block's choice; with fewer it has the answers of the block class.
#[inline]
pub fn minimise_for(
    family: Family,
    class: Class,
    [n, m]: [usize; 2],
    table: &[u8],
    coefficients: &mut [u8],
    blocks: &mut [u8],
    answer: &mut MinimiseAnswer,
) {
    // SAFETY: the tables of the C code are written once, before they are read.
    PREPARED.call_once(|| unsafe { block_search_prepare() });
    let k = class.k();
    assert!((1..=8).contains(&n) && (1..=8).contains(&m) && class.allowed(n));
    assert!(table.len() == 1 << n && coefficients.len() == 1 << n && blocks.len() == 1 << (n - k));
    // SAFETY: the buffers have the lengths that the C code reads and writes.
    unsafe {
        block_search(
            family.number() as usize,
            usize::from(class == Class::Free(2)),
            n,
            k,
            table.as_ptr(),
            coefficients.as_mut_ptr(),
            blocks.as_mut_ptr(),
            answer.as_mut_ptr(),
        );
    }
}

/// The coefficients and the blocks' choices that the C code finds, and its answer.
pub fn found(
    family: Family,
    class: Class,
    sizes: [usize; 2],
    table: &[u8],
) -> (Vec<u8>, Vec<u8>, MinimiseAnswer) {
    let (n, mut answer) = (sizes[0], MinimiseAnswer::default());
    let (mut coefficients, mut blocks) = (vec![0; 1 << n], vec![0; 1 << (n - class.k())]);
    minimise_for(family, class, sizes, table, &mut coefficients, &mut blocks, &mut answer);
    (coefficients, blocks, answer)
}

#[cfg(test)]
mod tests {
    use super::*;
    use crate::class::{Expansion, Member, closed_up, least, minimise_answer};
    use crate::evaluator::{holds, places};
    use crate::marked::families::{COMPARED, Compared, OUTPUTS};
    use crate::marked::free;
    use crate::seeded::Seeded;
    use crate::seeded::tables::{any_table, longest_free_listing_table};

    /// The polarity over M of a place of a block. The numbers of choices of `f2` are the polarities of places 1, 2 and 3
    /// as digits, of one bit, one bit and two bits.
    fn polarity(class: Class, choice: usize, place: usize) -> usize {
        match class {
            Class::Free(2) => [0, choice >> 3, (choice >> 2 & 1) << 1, choice & 3][place],
            _ => choice,
        }
    }

    /// The member that the C code's M, i and choices are.
    fn member(n: usize, class: Class, blocks: &[u8], answer: &MinimiseAnswer) -> Member {
        let [mixed, fixed] = [answer[2], answer[3]].map(|number| number as usize);
        let mut polarities = vec![0; class.polarities(n)];
        for t in 0..places(n) {
            let [block, place] =
                [false, true].map(|inside| closed_up(n, t, |i| holds(mixed, i) == inside));
            let own = class.polarity_of(n, mixed, t);
            polarities[own] = polarity(class, blocks[block].into(), place);
        }
        Member { class, mixed, fixed, polarities }
    }

    /// The C code finds what the evaluator does, for both families.
    fn agree(class: Class, [n, m]: [usize; 2], table: &[u8]) {
        for family in Family::ALL {
            let (coefficients, blocks, answer) = found(family, class, [n, m], table);
            let wanted = least(family, n, class, table);
            assert_eq!(answer, minimise_answer(Ok(&wanted)));
            let member = member(n, class, &blocks, &answer);
            assert_eq!(Expansion::new(n, member, coefficients, answer[6] as u8), wanted);
        }
    }

    #[test]
    fn the_c_code_finds_the_least_expansion() {
        let mut seeded = Seeded::new(1);
        for round in 0..400 {
            let n = 1 + round % 6;
            let m = seeded.within(1, 8);
            let class = *seeded.pick(&Class::every(n).collect::<Vec<Class>>());
            agree(class, [n, m], &any_table(&mut seeded, n, m));
        }
        for Compared { n, k, table, .. } in COMPARED {
            agree(Class::Block(k), [n, OUTPUTS], table);
        }
        for free::Compared { n, m, table, .. } in free::COMPARED {
            Class::every(n).for_each(|class| agree(class, [n, m], table));
        }
        agree(Class::Free(2), [8, 8], &longest_free_listing_table());
    }
}
