//! The fitter's check, as document 02's W-201 to W-203, W-205 and W-207 give it: a listing is judged beside its
//! table text.

use crate::calls::CheckAnswer;
use crate::class::{Member, is_of_a_member};
use crate::evaluator::{Refusal, places};
use crate::text::listing::{Listing, cube_field};
use crate::text::products::Product;
use crate::text::{read, refused};
use std::collections::BTreeMap;

/// What is said of a listing that is not refused.
#[derive(Clone, Copy, Debug, PartialEq, Eq)]
pub enum Verdict {
    Same,
    /// With the lowest point that differs.
    Differs {
        point: usize,
    },
    NotOfClass,
}

/// Judges a listing beside its table text: the table text, the lines of the listing, the counts, the
/// class, the points. "The fitter's check reads the line and inverts", so points are compared after the
/// inverters; any inversion mask is of the class.
pub fn check(text: &[u8], listing: &[u8]) -> Result<Verdict, Refusal> {
    let design = read(text)?;
    let listing = Listing::read(&design, listing)?;
    if listing.stated != listing.counted() {
        return Err(Refusal { number: 12, line: 1 });
    }
    if !of_the_class(&listing) {
        return Ok(Verdict::NotOfClass);
    }
    let differs = (0..places(design.n)).find(|&p| listing.value(p) != design.table[p]);
    Ok(differs.map_or(Verdict::Same, |point| Verdict::Differs { point }))
}

/// Whether some member with the listing's M and i prints its cubes. A member chooses each of its polarities over M
/// freely of the others, so every polarity is tried for the products that share one by themselves: those of a block,
/// and in the free class each product.
fn of_the_class(listing: &Listing) -> bool {
    let Listing { n, class, mixed, fixed, .. } = *listing;
    if !is_of_a_member(n, class.k(), mixed, fixed) {
        return false;
    }
    let with =
        |polarity| Member { class, mixed, fixed, polarities: vec![polarity; class.polarities(n)] };
    let members: Vec<Member> = (0..places(class.k())).map(with).collect();
    let mut sharing: BTreeMap<usize, Vec<&Product>> = BTreeMap::new();
    for product in &listing.products {
        let polarity = class.polarity_of(n, mixed, product.term());
        sharing.entry(polarity).or_default().push(product);
    }
    sharing.values().all(|products| {
        members.iter().any(|member| products.iter().all(|product| prints(n, member, product)))
    })
}

/// Whether the member prints the cube of this product for its term.
fn prints(n: usize, member: &Member, product: &Product) -> bool {
    let t = product.term();
    cube_field(n, t, member.polarity(n, t)).as_bytes() == product.cube
}

/// The numbers of the call's answer.
pub fn answer(judged: Result<Verdict, Refusal>) -> CheckAnswer {
    match judged {
        Ok(Verdict::Same) => [0, 0, 1, 0],
        Ok(Verdict::Differs { point }) => [0, 0, 2, point as u64],
        Ok(Verdict::NotOfClass) => [0, 0, 3, 0],
        Err(Refusal { number, line }) => [number, line, 0, 0],
    }
}

/// The line that the program `rmcheck` writes for a table text and a listing.
pub fn printed(text: &[u8], listing: &[u8]) -> Vec<u8> {
    match check(text, listing) {
        Ok(Verdict::Same) => b"same\n".to_vec(),
        Ok(Verdict::Differs { point }) => format!("differs\t{point}\n").into_bytes(),
        Ok(Verdict::NotOfClass) => b"not of the class\n".to_vec(),
        Err(refusal) => refused(refusal),
    }
}

#[cfg(test)]
mod tests {
    use super::*;
    use crate::class::{Expansion, masks, members_with};
    use crate::seeded::Seeded;
    use crate::seeded::listings::{
        any_expansion, change_cube, change_mask, change_polarities, true_counts,
    };
    use crate::seeded::texts::sound_text;
    use crate::text::Design;

    /// Document 02's sentences, said over every member with the listing's M and i and every mask: the cubes are
    /// those of no member, or some member that gives the table prints just those lines.
    fn said_over_members(design: &Design, listing: &Listing) -> [bool; 2] {
        let Listing { n, class, mixed, fixed, .. } = *listing;
        let members = members_with(n, class, mixed, fixed);
        let cubes =
            |member: &Member| listing.products.iter().all(|product| prints(n, member, product));
        let none = !members.iter().any(cubes);
        let written = listing.bytes();
        let prints_all = |member: &Member, mask: u8| {
            let expansion = Expansion::giving(n, member.clone(), mask, &design.table);
            Listing::of(design, &expansion).bytes() == written
        };
        let same = members.iter().any(|one| masks(design.m).any(|mask| prints_all(one, mask)));
        [none, same]
    }

    #[test]
    fn verdicts_are_what_the_members_say() {
        let mut seeded = Seeded::new(4);
        let mut said = [0; 3];
        for round in 0..4000 {
            let (design, text) = sound_text(&mut seeded, 3);
            if design.m > 3 {
                continue;
            }
            let mut listing = Listing::of(&design, &any_expansion(&mut seeded, &design));
            match round % 5 {
                0 => {}
                1 => change_polarities(&mut seeded, &mut listing),
                2 => change_mask(&mut seeded, &mut listing),
                _ => change_cube(&mut seeded, &mut listing),
            }
            true_counts(&mut listing);
            let [none, same] = said_over_members(&design, &listing);
            let Ok(verdict) = check(&text, &listing.bytes()) else { continue };
            assert_eq!(verdict == Verdict::NotOfClass, none, "{listing:?}");
            assert_eq!(verdict == Verdict::Same, same, "{design:?} {listing:?}");
            said[answer(Ok(verdict))[2] as usize - 1] += 1;
        }
        assert!(said.iter().all(|&times| times > 100), "{said:?}");
    }
}
