//! W-206: the least cost of any chosen outputs, at the same k and family, is at most the whole's. The two costs are
//! read from the listings that the text call writes for the whole text and for the text with the other outputs left
//! out.

use outside_cases::class::{Class, Cost, Members};
use outside_cases::evaluator::places;
use outside_cases::family::Family;
use outside_cases::kronecker::Kinds;
use outside_cases::lent::{run_read, written};
use outside_cases::marked::outputs::{
    ANOTHER_CLASS, ANOTHER_FAMILY, ANOTHER_K, ANOTHER_TABLE, Chosen, Costed, MORE_LITERALS,
    MORE_PRODUCTS,
};
use outside_cases::outputs::Choice;
use outside_cases::seeded::Seeded;
use outside_cases::seeded::tables::{
    Maker, any_table, bits_table, combined_table, every_table, random_table, sparse_table,
};
use outside_cases::text::{Design, Kind, read, read_answer, stated_and_counted};

/// The counts on the first line of the listing that the text call writes. Its `term` lines have just these.
fn listed_cost(text: &[u8]) -> Cost {
    let design = read(text).expect("the text is accepted");
    let costs = stated_and_counted(&design, &written(text));
    let [stated, counted] = costs.expect("a sound listing");
    assert_eq!(stated, counted, "{}", text.escape_ascii());
    stated
}

/// How many choices of outputs were compared with their whole, and how many of them are cheaper.
#[derive(Debug, Default)]
struct Tally {
    pairs: usize,
    cheaper: usize,
}

impl Tally {
    /// Adds what was compared. Fails on a choice that is dearer than its whole.
    #[track_caller]
    fn add(&mut self, compared: Result<Tally, String>) {
        let Tally { pairs, cheaper } = compared.unwrap_or_else(|dearer| panic!("{dearer}"));
        self.pairs += pairs;
        self.cheaper += cheaper;
    }

    /// Prints the numbers, and fails where hardly any choice is cheaper, or all are.
    fn report(&self, tables: usize) {
        println!("{tables} tables: {} pairs, {} cheaper", self.pairs, self.cheaper);
        assert!(self.cheaper > self.pairs / 4 && self.cheaper < self.pairs, "{self:?}");
    }
}

/// Compares what each choice of a design's outputs costs with what the whole costs, or says which one is dearer.
fn compare(design: &Design, whole: Cost, chosen: impl Fn(Choice) -> Cost) -> Result<Tally, String> {
    let Design { family, m, kind, .. } = *design;
    let mut tally = Tally::default();
    for choice in Choice::every(m) {
        let cost = chosen(choice);
        if !family.no_dearer(cost, whole) {
            let pair = format!("{family:?}, {kind:?}, {choice:?}: {cost:?}, the whole {whole:?}");
            return Err(format!("{pair}: {}", design.text().escape_ascii()));
        }
        tally.pairs += 1;
        tally.cheaper += usize::from(!family.no_dearer(whole, cost));
    }
    Ok(tally)
}

/// Compares the listings of every choice with the listing of the whole.
fn compare_listings(design: &Design) -> Result<Tally, String> {
    let text = design.text();
    compare(design, listed_cost(&text), |choice| listed_cost(&choice.of_text(&text)))
}

/// A table of n inputs and m outputs.
struct Table {
    n: usize,
    m: usize,
    bytes: Vec<u8>,
}

/// The designs of a table with every k field, a digit or `f` and a digit, in both families, and with `K`.
fn designs(Table { n, m, bytes }: &Table) -> Vec<Design> {
    let of_class = |class| {
        let design = Design::of_class(*n, *m, class, bytes.clone());
        Family::ALL.map(|family| design.clone().of_family(family))
    };
    let kronecker = Design::kronecker(*n, *m, bytes.clone());
    Class::every(*n).flat_map(of_class).chain([kronecker]).collect()
}

/// Tables of several densities, of any sort, and of outputs that share products.
fn drawn_tables(seeded: &mut Seeded, n: usize, m: usize) -> Vec<Table> {
    let mut drawn: Vec<Vec<u8>> = [3, 4, 6].map(|odds| bits_table(seeded, n, m, odds)).into();
    for maker in [any_table, combined_table] {
        drawn.extend((0..8).map(|_| maker(seeded, n, m)));
    }
    drawn.into_iter().map(|bytes| Table { n, m, bytes }).collect()
}

/// Every choice of the outputs of these tables, with every k field, in both families and with `K`.
fn check_tables(tables: &[Table]) {
    let mut tally = Tally::default();
    for design in tables.iter().flat_map(designs) {
        tally.add(compare_listings(&design));
    }
    tally.report(tables.len());
}

/// Tables of up to six inputs and four outputs.
#[test]
fn every_choice() {
    let mut seeded = Seeded::new(101);
    let sizes = (1..=6).flat_map(|n| (1..=4).map(move |m| (n, m)));
    let tables: Vec<Table> = sizes.flat_map(|(n, m)| drawn_tables(&mut seeded, n, m)).collect();
    check_tables(&tables);
}

/// Tables of n inputs and eight outputs, which have 255 choices.
fn check_eight_outputs(n: usize, seed: u64, makers: &[Maker]) {
    let mut seeded = Seeded::new(seed);
    let mut table = |maker: &Maker| Table { n, m: 8, bytes: maker(&mut seeded, n, 8) };
    let tables: Vec<Table> = makers.iter().map(&mut table).collect();
    check_tables(&tables);
}

#[test]
fn eight_outputs_of_seven_inputs() {
    check_eight_outputs(7, 102, &[combined_table, combined_table, random_table, sparse_table]);
}

#[test]
fn eight_outputs_of_eight_inputs() {
    check_eight_outputs(8, 105, &[combined_table, random_table]);
}

/// Every table of n inputs with few outputs, and drawn ones of up to three outputs.
fn small_tables(seeded: &mut Seeded, n: usize) -> Vec<Table> {
    let tables = |m| match m * places(n) {
        ..=8 => every_table(n, m).map(|bytes| Table { n, m, bytes }).collect(),
        _ => drawn_tables(seeded, n, m),
    };
    (1..=3).flat_map(tables).collect()
}

/// The same of the evaluator's own least costs, over every member with every mask and over every kind.
#[test]
fn least_costs_of_the_evaluator() {
    let mut seeded = Seeded::new(103);
    let (mut tables, mut tally) = (0, Tally::default());
    for n in 1..=3 {
        let (small, kinds) = (small_tables(&mut seeded, n), Kinds::new(n));
        let classes: Vec<Members> = Class::every(n).map(|class| Members::new(n, class)).collect();
        let of_class = |class| classes.iter().find(|members| members.class == class);
        let least = |Design { family, m, kind, table, .. }: &Design| match *kind {
            Kind::Mixed(class) => {
                let members = of_class(class).expect("every class is there");
                members.least(*family, *m, table).cost
            }
            Kind::Kronecker => kinds.least(table).cost,
        };
        for design in small.iter().flat_map(designs) {
            let chosen = |choice: Choice| least(&choice.of_design(&design));
            tally.add(compare(&design, least(&design), chosen));
        }
        tables += small.len();
    }
    tally.report(tables);
}

/// The text with outputs left out is the text of the chosen outputs' table, with the first word and the k field of
/// the whole, and the reading call reads it so. With all outputs chosen it is the text itself.
#[test]
fn text_with_outputs_left_out() {
    let mut seeded = Seeded::new(104);
    for (n, m) in (1..=8).flat_map(|n| (1..=8).map(move |m| (n, m))) {
        let bytes = any_table(&mut seeded, n, m);
        for design in designs(&Table { n, m, bytes }) {
            check_left_out(&mut seeded, &design, Design::text);
            if design.kind == Kind::of_dash(n) {
                check_left_out(&mut seeded, &design, |design| design.text_with("-"));
            }
        }
    }
}

/// The text of a design with outputs left out, for every choice, beside the text of the chosen outputs' design.
fn check_left_out(seeded: &mut Seeded, design: &Design, written: fn(&Design) -> Vec<u8>) {
    let text = written(design);
    for choice in Choice::every(design.m) {
        let (left, chosen) = (choice.of_text(&text), choice.of_design(design));
        let shown = left.escape_ascii();
        assert_eq!(left, written(&chosen), "{choice:?}: {shown}");
        let (answer, table) = run_read(&left, &seeded.bytes(256));
        assert_eq!(answer, read_answer(&Ok(chosen.clone())), "{choice:?}: {shown}");
        assert_eq!(table.inside()[..places(design.n)], chosen.table, "{choice:?}: {shown}");
        assert!(table.inside()[places(design.n)..].iter().all(|&byte| byte == 0), "{shown}");
    }
    assert_eq!(Choice::whole(design.m).of_text(&text), text);
}

/// What the listings of a marked design and of its chosen outputs cost: as marked, and the chosen outputs less.
fn marked_costs(marked: &Chosen) -> [Cost; 2] {
    let (family, text) = (marked.whole.family, marked.whole.design().text());
    let [whole, chosen] = [text.clone(), marked.choice().of_text(&text)].map(|x| listed_cost(&x));
    assert_eq!([whole, chosen], [marked.whole.cost, marked.cost], "{}", text.escape_ascii());
    assert!(family.no_dearer(chosen, whole) && !family.no_dearer(whole, chosen));
    [whole, chosen]
}

/// Costs are compared, and not literals alone: these rise with a product less.
#[test]
fn literals_alone() {
    for marked in MORE_LITERALS {
        let [whole, chosen] = marked_costs(&marked);
        assert!(chosen.literals > whole.literals);
    }
}

/// In family two charges are compared, and not products alone.
#[test]
fn products_alone_in_family_two() {
    let [whole, chosen] = marked_costs(&MORE_PRODUCTS);
    assert!(chosen.products > whole.products);
}

/// Two marked designs: the listings have the marked costs, and the second is dearer in the first one's family.
fn check_dearer([first, second]: &[Costed; 2]) {
    for costed in [first, second] {
        assert_eq!(listed_cost(&costed.design().text()), costed.cost, "{:?}", costed.design());
    }
    assert!(!first.family.no_dearer(second.cost, first.cost));
}

/// A single output of another table can be dearer than two outputs: the choice is of the same table.
#[test]
fn a_choice_of_another_table() {
    check_dearer(&ANOTHER_TABLE);
    let [whole, other] = &ANOTHER_TABLE;
    assert!(Choice::every(whole.m).all(|choice| choice.of_table(whole.table) != other.table));
}

/// "At the same k and family": elsewhere the same outputs can be dearer, as with `2` beside `f2`.
#[test]
fn another_k_or_family() {
    check_dearer(&ANOTHER_K);
    check_dearer(&ANOTHER_CLASS);
    check_dearer(&ANOTHER_FAMILY);
}

/// What is dearer is said to be so in each family, and fails the comparison of this file.
#[test]
fn dearer_costs() {
    let design = Design::block(1, 1, 0, vec![0, 1]);
    for (family, cheap, dear) in [
        (Family::One, Cost::new(4, 6), Cost::new(4, 7)),
        (Family::One, Cost::new(3, 7), Cost::new(4, 6)),
        (Family::One, Cost::new(9, 24), Cost::new(10, 19)),
        (Family::One, Cost::new(0, 0), Cost::new(1, 0)),
        (Family::Two, Cost::new(4, 6), Cost::new(4, 7)),
        (Family::Two, Cost::new(10, 19), Cost::new(9, 24)),
        // The charges are equal, and there is a product more.
        (Family::Two, Cost::new(3, 7), Cost::new(4, 3)),
        (Family::Two, Cost::new(0, 0), Cost::new(1, 0)),
    ] {
        let design = design.clone().of_family(family);
        let passes = |whole, cost| compare(&design, whole, |_| cost).is_ok();
        assert!(family.no_dearer(cheap, dear) && passes(dear, cheap));
        assert!(!family.no_dearer(dear, cheap) && !passes(cheap, dear));
        assert!(family.no_dearer(dear, dear) && passes(dear, dear));
    }
}
