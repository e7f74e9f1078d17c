//! Times the fitter's check on listings of eight inputs, eight outputs and 256 terms, at every k, beside the
//! same check written plainly here. Prints microseconds for each and their ratio, the best of several repeats.

use outside_cases::calls;
use outside_cases::seeded::Seeded;
use outside_cases::seeded::listings::any_listing;
use outside_cases::seeded::tables::longest_listing_table;
use outside_cases::text::Design;
use outside_cases::timing::side_by_side;
use std::hint::black_box;

/// Outcome and point as the call numbers them; nothing where the pair is refused.
type Told = Option<[u64; 2]>;

/// A table text as it was read.
struct Table {
    sizes: [usize; 3],
    bytes: [u8; 256],
}

/// A cube: the inputs that it shows, the plain ones among them, and its outputs.
#[derive(Clone, Copy, Default)]
struct Cube {
    shown: usize,
    plain: usize,
    outputs: u8,
}

/// The lines of a text that ends with byte 10.
fn lines(text: &[u8]) -> Option<impl Iterator<Item = &[u8]>> {
    Some(text.strip_suffix(b"\n")?.split(|&byte| byte == b'\n'))
}

/// The fields of a line that begins with this word and has N more.
fn fields<'a, const N: usize>(line: &'a [u8], word: &[u8]) -> Option<[&'a [u8]; N]> {
    let mut all = line.split(|&byte| byte == b'\t');
    if all.next() != Some(word) {
        return None;
    }
    let mut found = [&b""[..]; N];
    for field in &mut found {
        *field = all.next()?;
    }
    all.next().is_none().then_some(found)
}

/// A number of at most this many digits.
fn number(field: &[u8], digits: usize) -> Option<usize> {
    let long = field.is_empty() || field.len() > digits || (field.len() > 1 && field[0] == b'0');
    if long || !field.iter().all(u8::is_ascii_digit) {
        return None;
    }
    Some(field.iter().fold(0, |sum, digit| 10 * sum + usize::from(digit - b'0')))
}

/// m characters, each `0` or `1`.
fn mask(field: &[u8], m: usize) -> Option<u8> {
    let mut byte = 0;
    for (o, &character) in field.iter().enumerate() {
        byte |= character.checked_sub(b'0').filter(|&bit| bit < 2)? << o;
    }
    (field.len() == m).then_some(byte)
}

/// The same, not all `0`.
fn outputs(field: &[u8], m: usize) -> Option<u8> {
    mask(field, m).filter(|&byte| byte != 0)
}

fn read_table(text: &[u8]) -> Option<Table> {
    let mut lines = lines(text)?;
    let [n, m, k] = fields(lines.next()?, b"table")?;
    let (n, m, k) = (number(n, 1)?, number(m, 1)?, number(k, 1)?);
    if !(1..=8).contains(&n) || !(1..=8).contains(&m) || k > n.min(3) {
        return None;
    }
    let (mut bytes, mut next) = ([0; 256], 0);
    loop {
        let line = lines.next()?;
        if line == b"end" {
            break;
        }
        let [point, field] = fields(line, b"on")?;
        let point = number(point, 3).filter(|p| (next..1 << n).contains(p))?;
        bytes[point] = outputs(field, m)?;
        next = point + 1;
    }
    lines.next().is_none().then_some(Table { sizes: [n, m, k], bytes })
}

fn read_cube(line: &[u8], n: usize, m: usize) -> Option<Cube> {
    let [cube, field] = fields(line, b"term")?;
    let (mut shown, mut plain) = (0, 0);
    for &character in cube {
        shown = 2 * shown + usize::from(character != b'-');
        plain = 2 * plain + usize::from(character == b'1');
        b"01-".contains(&character).then_some(())?;
    }
    (cube.len() == n).then_some(Cube { shown, plain, outputs: outputs(field, m)? })
}

/// A listing as it was read beside its table.
struct Listing {
    mixed: usize,
    fixed: usize,
    inverted: u8,
    cubes: [Cube; 256],
    products: usize,
}

/// The first line: M, i, and both counts.
fn read_form(line: &[u8], sizes: [usize; 3]) -> Option<[usize; 4]> {
    let [n, m, k, mixed, fixed, products, literals] = fields(line, b"form")?;
    if [number(n, 4)?, number(m, 4)?, number(k, 1)?] != sizes {
        return None;
    }
    Some([number(mixed, 4)?, number(fixed, 4)?, number(products, 4)?, number(literals, 4)?])
}

fn read_listing(text: &[u8], sizes: [usize; 3]) -> Option<Listing> {
    let mut lines = lines(text)?;
    let [mixed, fixed, stated_products, stated_literals] = read_form(lines.next()?, sizes)?;
    let [inverters] = fields(lines.next()?, b"inv")?;
    let inverted = mask(inverters, sizes[1])?;
    let (mut cubes, mut products, mut literals, mut next) = ([Cube::default(); 256], 0, 0, 0);
    loop {
        let line = lines.next()?;
        if line == b"end" {
            break;
        }
        let cube = read_cube(line, sizes[0], sizes[1]).filter(|cube| cube.shown >= next)?;
        cubes[products] = cube;
        products += 1;
        literals += cube.shown.count_ones() as usize;
        next = cube.shown + 1;
    }
    let sound =
        lines.next().is_none() && [products, literals] == [stated_products, stated_literals];
    sound.then_some(Listing { mixed, fixed, inverted, cubes, products })
}

/// The same check, written plainly.
fn plain_check(text: &[u8], listing: &[u8]) -> Told {
    let Table { sizes, bytes } = read_table(text)?;
    let Listing { mixed, fixed, inverted, cubes, products } = read_listing(listing, sizes)?;
    let ([n, _, k], cubes) = (sizes, &cubes[..products]);
    if !of_the_class([n, k, mixed, fixed], cubes) {
        return Some([3, 0]);
    }
    let differs = (0..1 << n).find(|&p| value(cubes, p) ^ inverted != bytes[p]);
    Some(differs.map_or([1, 0], |point| [2, point as u64]))
}

/// Outside M each literal follows i; in M no block has an input both plain and complemented.
fn of_the_class([n, k, mixed, fixed]: [usize; 4], cubes: &[Cube]) -> bool {
    if mixed.count_ones() as usize != k || (mixed | fixed) >> n != 0 || mixed & fixed != 0 {
        return false;
    }
    let mut seen = [[0; 2]; 256];
    cubes.iter().all(|&Cube { shown, plain, .. }| {
        let [plains, complements] = &mut seen[shown & !mixed];
        *plains |= plain & mixed;
        *complements |= shown & !plain & mixed;
        *plains & *complements == 0 && (plain ^ !fixed) & shown & !mixed == 0
    })
}

fn value(cubes: &[Cube], p: usize) -> u8 {
    cubes
        .iter()
        .fold(0, |sum, cube| sum ^ if p & cube.shown == cube.plain { cube.outputs } else { 0 })
}

fn call(text: &[u8], listing: &[u8]) -> Told {
    let mut answer = [0; 4];
    calls::check(text, listing, &mut answer);
    let [number, _, outcome, point] = answer;
    (number == 0).then_some([outcome, point])
}

/// Seconds for the call and for the plain check.
fn seconds(text: &[u8], listing: &[u8]) -> [f64; 2] {
    let work = |check: fn(&[u8], &[u8]) -> Told| {
        move || assert!(black_box(check(black_box(text), black_box(listing))).is_some())
    };
    side_by_side(40, 50, [&mut work(call), &mut work(plain_check)])
}

fn main() {
    let mut seeded = Seeded::new(1);
    println!("k\tmicroseconds\tRust\tratio");
    for k in 0..=3 {
        let design = Design::block(8, 8, k, longest_listing_table());
        let listing = any_listing(&mut seeded, &design);
        assert_eq!(listing.products.len(), 256);
        let (text, listing) = (design.text(), listing.bytes());
        assert_eq!(call(&text, &listing), Some([1, 0]), "the listing gives the table");
        assert_eq!(plain_check(&text, &listing), Some([1, 0]), "the two disagree");
        let [call, rust] = seconds(&text, &listing);
        println!("{k}\t{:.1}\t{:.1}\t{:.2}", call * 1e6, rust * 1e6, call / rust);
    }
}
