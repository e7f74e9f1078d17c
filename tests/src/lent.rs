//! Buffers lent to a call, with a margin on both sides that no call may write, the calls on one text with such
//! buffers, and the listing that the text call writes.

use crate::calls::{self, CompileAnswer, QuoteAnswer, ReadAnswer};
use crate::evaluator::Refusal;
use crate::text::Design;
use crate::text::listing::Listing;
use std::fmt::Debug;
use std::ops::Range;

const MARGIN: usize = 64;

/// A lent buffer and what it held when it was made.
pub struct Lent<T> {
    held: Vec<T>,
    before: Vec<T>,
}

impl<T: Copy + PartialEq + Debug + From<u8>> Lent<T> {
    /// A buffer that holds `inside`, between margins whose bytes differ and are never 0.
    pub fn new(inside: &[T]) -> Self {
        let canary = |place: usize| T::from(128 + (place * 37 % 128) as u8);
        let margin: Vec<T> = (0..MARGIN).map(canary).collect();
        let held = [&margin, inside, &margin].concat();
        Lent { before: held.clone(), held }
    }

    fn inner(&self) -> Range<usize> {
        MARGIN..self.held.len() - MARGIN
    }

    /// The buffer itself.
    pub fn inside(&self) -> &[T] {
        &self.held[self.inner()]
    }

    /// The buffer itself, for a call to fill.
    pub fn inside_mut(&mut self) -> &mut [T] {
        let inner = self.inner();
        &mut self.held[inner]
    }

    /// What the buffer held when it was made.
    pub fn before(&self) -> &[T] {
        &self.before[self.inner()]
    }

    /// Fails when something outside the buffer was written.
    #[track_caller]
    pub fn check_margins(&self) {
        let end = self.inner().end;
        assert_eq!(self.held[..MARGIN], self.before[..MARGIN], "written before the buffer");
        assert_eq!(self.held[end..], self.before[end..], "written past the buffer");
    }

    /// Fails when anything was written.
    #[track_caller]
    pub fn check_untouched(&self) {
        self.check_margins();
        assert_eq!(self.inside(), self.before(), "a buffer was written that should be kept");
    }
}

/// The answer of a call that is lent N places for it.
#[track_caller]
pub fn answer<const N: usize>(call: impl FnOnce(&mut [u64; N])) -> [u64; N] {
    let mut places = Lent::new(&[u64::MAX - 1; N]);
    call(places.inside_mut().try_into().expect("there are N places"));
    places.check_margins();
    places.inside().try_into().expect("there are N places")
}

/// Makes a call that is lent a text and one buffer, with margins around both: its answer, and the buffer as it left it.
#[track_caller]
fn run<const N: usize>(
    text: &[u8],
    lent: &[u8],
    call: impl FnOnce(&[u8], &mut [u8], &mut [u64; N]),
) -> ([u64; N], Lent<u8>) {
    let text = Lent::new(text);
    let mut lent = Lent::new(lent);
    let answer = answer(|places| call(text.inside(), lent.inside_mut(), places));
    text.check_untouched();
    lent.check_margins();
    (answer, lent)
}

/// The reading call with this text and this table.
#[track_caller]
pub fn run_read(text: &[u8], table: &[u8]) -> (ReadAnswer, Lent<u8>) {
    run(text, table, calls::read)
}

/// The text call with this text and this output buffer.
#[track_caller]
pub fn run_compile(text: &[u8], output: &[u8]) -> (CompileAnswer, Lent<u8>) {
    run(text, output, calls::compile)
}

/// The quotation of this text, with margins around it.
#[track_caller]
pub fn run_quote(text: &[u8]) -> QuoteAnswer {
    let text = Lent::new(text);
    let answer = answer(|places| calls::quote(text.inside(), places));
    text.check_untouched();
    answer
}

/// Longer than every listing.
const ROOM: usize = 6000;

/// The listing that the text call writes for a text into a buffer long enough, or its refusal.
#[track_caller]
pub fn compiled(text: &[u8]) -> Result<Vec<u8>, Refusal> {
    match run_compile(text, &[0; ROOM]) {
        ([0, 0, length], output) => Ok(output.inside()[..length as usize].to_vec()),
        ([number, line, _], _) => Err(Refusal { number, line }),
    }
}

/// The listing that the text call writes for an accepted text.
#[track_caller]
pub fn written(text: &[u8]) -> Vec<u8> {
    compiled(text).unwrap_or_else(|refusal| panic!("{refusal:?}: {}", text.escape_ascii()))
}

/// The same for a design with mixed inputs, as it is read.
#[track_caller]
pub fn listed(design: &Design) -> Listing {
    Listing::read(design, &written(&design.text())).expect("a sound listing")
}

#[cfg(test)]
mod tests {
    use super::Lent;
    use std::panic::catch_unwind;

    fn caught(written: isize, check: fn(&Lent<u8>)) -> bool {
        catch_unwind(|| {
            let mut lent = Lent::new(&[1u8, 2, 3]);
            let place = super::MARGIN.wrapping_add_signed(written);
            lent.held[place] = 0;
            check(&lent);
        })
        .is_err()
    }

    #[test]
    fn a_stray_write_is_seen() {
        assert!(caught(-1, Lent::check_margins));
        assert!(caught(3, Lent::check_margins));
        assert!(!caught(1, Lent::check_margins));
        assert!(caught(1, Lent::check_untouched));
    }
}
