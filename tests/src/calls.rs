//! The exported calls, on slices. Each function is inlined where it is used, so that a program links
//! only the calls it names.

unsafe extern "C" {
    fn mipaldoz_forward(
        n: usize,
        m: usize,
        w: usize,
        table: *const u8,
        table_len: usize,
        coefficients: *mut u8,
        coefficients_len: usize,
        answer: *mut u64,
    );
    fn mipaldoz_backward(
        n: usize,
        m: usize,
        w: usize,
        coefficients: *const u8,
        coefficients_len: usize,
        table: *mut u8,
        table_len: usize,
        answer: *mut u64,
    );
    fn mipaldoz_minimise(
        n: usize,
        m: usize,
        k: usize,
        table: *const u8,
        table_len: usize,
        coefficients: *mut u8,
        coefficients_len: usize,
        blocks: *mut u8,
        blocks_len: usize,
        answer: *mut u64,
    );
    fn mipaldoz_read(
        text: *const u8,
        text_len: usize,
        table: *mut u8,
        table_len: usize,
        answer: *mut u64,
    );
    fn mipaldoz_compile(
        text: *const u8,
        text_len: usize,
        output: *mut u8,
        output_len: usize,
        answer: *mut u64,
    );
    fn mipaldoz_check(
        text: *const u8,
        text_len: usize,
        listing: *const u8,
        listing_len: usize,
        answer: *mut u64,
    );
    fn mipaldoz_quote(text: *const u8, text_len: usize, answer: *mut u64);
}

/// The numbers of a transform's answer: number, line.
pub type TransformAnswer = [u64; 2];

/// The forward call: fills coefficients from a table.
#[inline]
pub fn forward(
    n: usize,
    m: usize,
    w: usize,
    table: &[u8],
    coefficients: &mut [u8],
    answer: &mut TransformAnswer,
) {
    // SAFETY: each pointer goes with the length of its own slice, and the answer has its two places.
    unsafe {
        mipaldoz_forward(
            n,
            m,
            w,
            table.as_ptr(),
            table.len(),
            coefficients.as_mut_ptr(),
            coefficients.len(),
            answer.as_mut_ptr(),
        );
    }
}

/// The backward call: fills a table from coefficients.
#[inline]
pub fn backward(
    n: usize,
    m: usize,
    w: usize,
    coefficients: &[u8],
    table: &mut [u8],
    answer: &mut TransformAnswer,
) {
    // SAFETY: each pointer goes with the length of its own slice, and the answer has its two places.
    unsafe {
        mipaldoz_backward(
            n,
            m,
            w,
            coefficients.as_ptr(),
            coefficients.len(),
            table.as_mut_ptr(),
            table.len(),
            answer.as_mut_ptr(),
        );
    }
}

/// The numbers of the minimising call's answer: number, line, M, i, products, literals, the inversion mask.
pub type MinimiseAnswer = [u64; 7];

/// The minimising call: fills the coefficients and the block polarities of the least expansion.
#[inline]
pub fn minimise(
    n: usize,
    m: usize,
    k: usize,
    table: &[u8],
    coefficients: &mut [u8],
    blocks: &mut [u8],
    answer: &mut MinimiseAnswer,
) {
    // SAFETY: each pointer goes with the length of its own slice, and the answer has its seven places.
    unsafe {
        mipaldoz_minimise(
            n,
            m,
            k,
            table.as_ptr(),
            table.len(),
            coefficients.as_mut_ptr(),
            coefficients.len(),
            blocks.as_mut_ptr(),
            blocks.len(),
            answer.as_mut_ptr(),
        );
    }
}

/// The numbers of the reading call's answer: number, line, n, m, k, the kind of k, the family.
pub type ReadAnswer = [u64; 7];

/// The reading call: fills a table of 256 bytes from a table text.
#[inline]
pub fn read(text: &[u8], table: &mut [u8], answer: &mut ReadAnswer) {
    let lent = (table.as_mut_ptr(), table.len());
    // SAFETY: each pointer goes with the length of its own slice, and the answer has its seven places.
    unsafe { mipaldoz_read(text.as_ptr(), text.len(), lent.0, lent.1, answer.as_mut_ptr()) }
}

/// The numbers of the text call's answer: number, line, length.
pub type CompileAnswer = [u64; 3];

/// The text call: writes the listing of a table text into the output buffer.
#[inline]
pub fn compile(text: &[u8], output: &mut [u8], answer: &mut CompileAnswer) {
    let lent = (output.as_mut_ptr(), output.len());
    // SAFETY: each pointer goes with the length of its own slice, and the answer has its three places.
    unsafe { mipaldoz_compile(text.as_ptr(), text.len(), lent.0, lent.1, answer.as_mut_ptr()) }
}

/// The numbers of the fitter's check: number, line, outcome, point.
pub type CheckAnswer = [u64; 4];

/// The fitter's check: judges a listing beside its table text.
#[inline]
pub fn check(text: &[u8], listing: &[u8], answer: &mut CheckAnswer) {
    let lent = (listing.as_ptr(), listing.len());
    // SAFETY: each pointer goes with the length of its own slice, and the answer has its four places.
    unsafe { mipaldoz_check(text.as_ptr(), text.len(), lent.0, lent.1, answer.as_mut_ptr()) }
}

/// The numbers of the quotation: number, line, products, literals, length.
pub type QuoteAnswer = [u64; 5];

/// The quotation of a table text: the counts and the length of its listing, which is written nowhere.
#[inline]
pub fn quote(text: &[u8], answer: &mut QuoteAnswer) {
    // SAFETY: the pointer goes with the length of its slice, and the answer has its five places.
    unsafe { mipaldoz_quote(text.as_ptr(), text.len(), answer.as_mut_ptr()) }
}
