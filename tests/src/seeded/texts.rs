//! Table texts: sound ones, and ones with some damage.

use super::Seeded;
use super::tables::any_table;
use crate::class::Class;
use crate::family::Family;
use crate::text::Design;
use std::ops::Range;

/// A design of either family for either class or for `-`, of at most this many inputs, and its text.
pub fn sound_text(seeded: &mut Seeded, most_inputs: usize) -> (Design, Vec<u8>) {
    let family = *seeded.pick(&Family::ALL);
    let text = *seeded.pick(&[sound_text_of, free_text_of, dash_text_of]);
    text(seeded, family, most_inputs)
}

/// The same of this family, for the free class.
pub fn free_text_of(seeded: &mut Seeded, family: Family, most_inputs: usize) -> (Design, Vec<u8>) {
    let (n, m) = (seeded.within(1, most_inputs), seeded.within(1, 8));
    let class = *seeded.pick(&Class::every_free(n).collect::<Vec<Class>>());
    let design = Design::of_class(n, m, class, any_table(seeded, n, m)).of_family(family);
    let text = design.text();
    (design, text)
}

/// The same of this family, for the block class.
pub fn sound_text_of(seeded: &mut Seeded, family: Family, most_inputs: usize) -> (Design, Vec<u8>) {
    let n = seeded.within(1, most_inputs);
    let (m, k) = (seeded.within(1, 8), seeded.below(n.min(3) + 1));
    let design = Design::block(n, m, k, any_table(seeded, n, m)).of_family(family);
    if k == 1 {
        // A draw that is not used: without it the stored cases, which are drawn after one another, would be others.
        seeded.once_in(2);
    }
    let text = design.text();
    (design, text)
}

/// The same of this family, with `-` for k.
pub fn dash_text_of(seeded: &mut Seeded, family: Family, most_inputs: usize) -> (Design, Vec<u8>) {
    let (n, m) = (seeded.within(1, most_inputs), seeded.within(1, 8));
    let design = Design::dashed(n, m, any_table(seeded, n, m)).of_family(family);
    let text = design.text_with("-");
    (design, text)
}

/// A design of at most this many inputs for the Kronecker expansions, and its text.
pub fn kronecker_text(seeded: &mut Seeded, most_inputs: usize) -> (Design, Vec<u8>) {
    let (n, m) = (seeded.within(1, most_inputs), seeded.within(1, 8));
    let design = Design::kronecker(n, m, any_table(seeded, n, m));
    let text = design.text();
    (design, text)
}

/// What stands for k, sound or not: every digit, `f` with every digit, `-`, `K` and `f`.
pub fn every_k_field() -> impl Iterator<Item = String> {
    let digits = (0..10).map(|digit| digit.to_string());
    let free = (0..10).map(|digit| format!("f{digit}"));
    digits.chain(free).chain(["-", "K", "f"].map(str::to_string))
}

/// A text with one to three damages.
pub fn damaged_text(seeded: &mut Seeded, text: &[u8]) -> Vec<u8> {
    let mut damaged = text.to_vec();
    for _ in 0..seeded.within(1, 3) {
        let damage = *seeded.pick(&DAMAGES);
        damage(seeded, &mut damaged);
    }
    damaged
}

/// Fields with a `K` in them, or nearly so.
pub const K_FIELDS: [&str; 12] =
    ["K", "k", "KK", "K1", "1K", "-K", "K-", "K\t", "\tK", "K ", "J", "L"];

/// A text with one of `K_FIELDS` in a field, or with a byte changed into `K`.
pub fn with_k_somewhere(seeded: &mut Seeded, text: &[u8]) -> Vec<u8> {
    with_letter(seeded, text, b'K', &K_FIELDS)
}

/// Fields with an `f` in them, or nearly so: first those of the free class, then ones with a digit that is too large, then
/// broken ones.
pub const F_FIELDS: [&str; 24] = [
    "f0", "f1", "f2", "f3", "f4", "f9", "f", "F1", "F2", "ff", "ff1", "f12", "f10", "f01", "f-",
    "-f", "1f", "2f", "f1 ", " f2", "f\t1", "fK", "e1", "g2",
];

/// A text with one of `F_FIELDS` in a field, or with a byte changed into `f`.
pub fn with_f_somewhere(seeded: &mut Seeded, text: &[u8]) -> Vec<u8> {
    with_letter(seeded, text, b'f', &F_FIELDS)
}

/// Fields with a `-` in them, or nearly so.
pub const DASH_FIELDS: [&str; 14] =
    ["-", "--", "-1", "1-", "-2", "f-", "-f2", "f2-", "- ", " -", "-\t", "\t-", "_", "."];

/// A text with one of `DASH_FIELDS` in a field, or with a byte changed into `-`.
pub fn with_dash_somewhere(seeded: &mut Seeded, text: &[u8]) -> Vec<u8> {
    with_letter(seeded, text, b'-', &DASH_FIELDS)
}

/// A text with one of these fields in a field, or with a byte changed into this letter.
fn with_letter(
    seeded: &mut Seeded,
    text: &[u8],
    letter: u8,
    fields: &'static [&'static str],
) -> Vec<u8> {
    let mut changed = text.to_vec();
    if seeded.once_in(3) {
        let place = seeded.below(text.len());
        changed[place] = letter;
    } else {
        edit_lines(seeded, &mut changed, |seeded, lines| change_field(seeded, lines, fields));
    }
    changed
}

/// A text or listing with one of `F_FIELDS` for its k field, in half of the draws one of the free class.
pub fn with_other_k(seeded: &mut Seeded, text: &[u8]) -> Vec<u8> {
    let others = if seeded.once_in(2) { &F_FIELDS[..3] } else { &F_FIELDS[..] };
    let k = *seeded.pick(others);
    with_k(text, k)
}

/// A text or listing with one of `DASH_FIELDS` for its k field, in half of the draws `-`.
pub fn with_dash_for_k(seeded: &mut Seeded, text: &[u8]) -> Vec<u8> {
    let others = if seeded.once_in(2) { &DASH_FIELDS[..1] } else { &DASH_FIELDS[..] };
    let k = *seeded.pick(others);
    with_k(text, k)
}

/// A text or listing with this k field, the fourth of its first line.
fn with_k(text: &[u8], k: &str) -> Vec<u8> {
    let end = text.iter().position(|&byte| byte == b'\n').unwrap_or(text.len());
    let (first, rest) = text.split_at(end);
    let mut fields: Vec<&[u8]> = first.split(|&byte| byte == b'\t').collect();
    fields[3] = k.as_bytes();
    [&fields.join(&b"\t"[..]), rest].concat()
}

/// What stands after `table` in the first words of texts, and after `form` in those of listings, or nearly so.
pub const WORD_ENDS: [&str; 14] =
    ["", "2", "1", "3", "02", "20", "22", "2 ", " 2", "2\t", "\t2", "-2", "K", "2K"];

/// A text or listing whose first word has one of `WORD_ENDS`, and once in eight draws a capital.
pub fn with_other_word(seeded: &mut Seeded, text: &[u8]) -> Vec<u8> {
    let end = text.iter().position(|&byte| byte == b'\t').unwrap_or(text.len());
    let (word, rest) = text.split_at(end);
    let stem = word.strip_suffix(b"2").unwrap_or(word);
    let mut changed = [stem, seeded.pick(&WORD_ENDS).as_bytes(), rest].concat();
    if seeded.once_in(8) {
        changed[0].make_ascii_uppercase();
    }
    changed
}

/// A text with a line dropped, doubled or moved, cut, with bytes after it, or with carriage returns.
pub fn with_other_lines(seeded: &mut Seeded, text: &[u8]) -> Vec<u8> {
    let mut changed = text.to_vec();
    let damage = *seeded.pick(&DAMAGES[OF_LINES]);
    damage(seeded, &mut changed);
    changed
}

type Damage = fn(&mut Seeded, &mut Vec<u8>);

const DAMAGES: [Damage; 12] = [
    drop_byte,
    double_byte,
    |seeded, text| swap_bytes(seeded, text),
    |seeded, text| change_byte(seeded, text),
    insert_byte,
    cut,
    append,
    carriage_returns,
    |seeded, text| edit_lines(seeded, text, drop_line),
    |seeded, text| edit_lines(seeded, text, double_line),
    |seeded, text| edit_lines(seeded, text, move_line),
    |seeded, text| {
        edit_lines(seeded, text, |seeded, lines| change_field(seeded, lines, &OTHER_FIELDS))
    },
];

/// Where the damages of whole lines and of the end stand.
const OF_LINES: Range<usize> = 5..11;

/// Bytes that stand near the grammar: its own characters, their neighbours, and bytes that no text has.
pub const TELLING_BYTES: &[u8] = b"\x00\t\n\x0b\r ,-./0123456789:ABEOTabelnotx~\x7f\x80\xff";

fn drop_byte(seeded: &mut Seeded, text: &mut Vec<u8>) {
    if !text.is_empty() {
        text.remove(seeded.below(text.len()));
    }
}

fn double_byte(seeded: &mut Seeded, text: &mut Vec<u8>) {
    if !text.is_empty() {
        let place = seeded.below(text.len());
        text.insert(place, text[place]);
    }
}

fn swap_bytes(seeded: &mut Seeded, text: &mut [u8]) {
    if text.len() > 1 {
        let place = seeded.below(text.len() - 1);
        let other = if seeded.once_in(2) { place + 1 } else { seeded.below(text.len()) };
        text.swap(place, other);
    }
}

fn change_byte(seeded: &mut Seeded, text: &mut [u8]) {
    if !text.is_empty() {
        let place = seeded.below(text.len());
        text[place] = *seeded.pick(TELLING_BYTES);
    }
}

fn insert_byte(seeded: &mut Seeded, text: &mut Vec<u8>) {
    text.insert(seeded.below(text.len() + 1), *seeded.pick(TELLING_BYTES));
}

fn cut(seeded: &mut Seeded, text: &mut Vec<u8>) {
    text.truncate(seeded.below(text.len() + 1));
}

fn append(seeded: &mut Seeded, text: &mut Vec<u8>) {
    let ends: [&[u8]; 6] = [b"\n", b"end\n", b"x", b"\0", b"on\t0\t1\n", b"table\t1\t1\t0\nend\n"];
    text.extend(*seeded.pick(&ends));
}

/// A carriage return before every byte 10.
fn carriage_returns(_: &mut Seeded, text: &mut Vec<u8>) {
    *text = text.split(|&byte| byte == b'\n').collect::<Vec<&[u8]>>().join(&b"\r\n"[..]);
}

/// Edits a text as a list of lines, each with its byte 10.
fn edit_lines(
    seeded: &mut Seeded,
    text: &mut Vec<u8>,
    edit: impl Fn(&mut Seeded, &mut Vec<Vec<u8>>),
) {
    let mut lines: Vec<Vec<u8>> =
        text.split_inclusive(|&byte| byte == b'\n').map(<[u8]>::to_vec).collect();
    if !lines.is_empty() {
        edit(seeded, &mut lines);
        *text = lines.concat();
    }
}

fn drop_line(seeded: &mut Seeded, lines: &mut Vec<Vec<u8>>) {
    lines.remove(seeded.below(lines.len()));
}

fn double_line(seeded: &mut Seeded, lines: &mut Vec<Vec<u8>>) {
    let place = seeded.below(lines.len());
    lines.insert(place, lines[place].clone());
}

fn move_line(seeded: &mut Seeded, lines: &mut Vec<Vec<u8>>) {
    let line = lines.remove(seeded.below(lines.len()));
    lines.insert(seeded.below(lines.len() + 1), line);
}

/// Fields that are sound in some place, or nearly so.
const OTHER_FIELDS: [&str; 26] = [
    "", "0", "1", "2", "3", "4", "8", "9", "00", "01", "10", "007", "255", "256", "999", "1000",
    "-", "--", "+1", "end", "on", "table", "End", "00000000", "11111111", "1\t1",
];

/// Puts one of `others` into one field of a line.
fn change_field(seeded: &mut Seeded, lines: &mut [Vec<u8>], others: &[&str]) {
    let place = seeded.below(lines.len());
    let line = lines[place].strip_suffix(b"\n").unwrap_or(&lines[place]);
    let mut fields: Vec<&[u8]> = line.split(|&byte| byte == b'\t').collect();
    let field = seeded.below(fields.len());
    fields[field] = seeded.pick(others).as_bytes();
    lines[place] = [fields.join(&b"\t"[..]), b"\n".to_vec()].concat();
}
