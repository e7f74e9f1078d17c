//! The C header `include/mipaldoz.h`: its constants are the ones that the calls and the evaluator have, its
//! declarations are those of the functions that `crates/mipaldoz` exports, its inline calls return every number under
//! its name, and its words for a refusal are those of `crates/refusal_words`. And the calls and words that
//! `docs/CALLS.md` and `examples/compile.rs` have in Rust.

use outside_cases::calls::{
    CheckAnswer, CompileAnswer, MinimiseAnswer, QuoteAnswer, ReadAnswer, TransformAnswer,
};
use outside_cases::check::{Verdict, answer, check};
use outside_cases::class::{Class, Cost, Expansion, Member, minimise_answer};
use outside_cases::family::Family;
use outside_cases::marked::{EXAMPLE, bytes};
use outside_cases::seeded::tables::longest_listing_table;
use outside_cases::text::quotation::{self, Quotation};
use outside_cases::text::{Design, printed, read_answer};
use std::collections::{BTreeMap, BTreeSet};
use std::fs::{read_dir, read_to_string};
use std::path::{Path, PathBuf};

fn repository() -> PathBuf {
    Path::new(env!("CARGO_MANIFEST_DIR")).join("..")
}

fn text_of(path: &str) -> String {
    read_to_string(repository().join(path)).unwrap_or_else(|error| panic!("{path}: {error}"))
}

fn header() -> String {
    text_of("include/mipaldoz.h")
}

/// The constants of the header: `#define NAME NUMBER`, and in an enum `NAME = NUMBER`.
fn constants(header: &str) -> BTreeMap<String, usize> {
    let constant = |line: &str| {
        let line = line.trim();
        let line = line.strip_prefix("#define ").unwrap_or(line).replace([',', '='], " ");
        let mut words = line.split_whitespace();
        let name = words.next().filter(|name| name.starts_with("MIPALDOZ_"))?;
        Some((name.to_string(), words.next()?.parse().ok()?))
    };
    header.lines().filter_map(constant).collect()
}

/// The parameters of functions, by their names.
type Functions = BTreeMap<String, Vec<String>>;

/// The functions that a text declares after `start`.
fn functions(text: &str, start: &str) -> Functions {
    let function = |rest: &str| {
        let (name, parameters) = rest.split_once(')')?.0.split_once('(')?;
        let parameters = parameters.split(',').map(str::trim).filter(|one| !one.is_empty());
        Some((name.to_string(), parameters.map(str::to_string).collect()))
    };
    text.split(start).skip(1).filter_map(function).collect()
}

/// The functions that `crates/mipaldoz` exports, their parameters as another language has them.
fn exported(in_other: fn(&str) -> Vec<String>) -> Functions {
    let sources = read_dir(repository().join("crates/mipaldoz/src"));
    let mut exported = Functions::new();
    for source in sources.expect("the sources are there") {
        let text = read_to_string(source.expect("an entry").path()).expect("a source is a text");
        for (name, parameters) in functions(&text, "pub extern \"C\" fn ") {
            exported.insert(name, parameters.iter().flat_map(|one| in_other(one)).collect());
        }
    }
    assert!(exported.len() >= 7, "{} functions", exported.len());
    exported
}

/// The parameters in C of a parameter in Rattle.
fn in_c(parameter: &str) -> Vec<String> {
    let (name, kind) = parameter.split_once(": ").expect("a parameter has a type");
    let buffer = |kind| vec![format!("{kind} *{name}"), format!("size_t {name}_length")];
    match kind {
        "usize" => vec![format!("size_t {name}")],
        "&[u8]" => buffer("const uint8_t"),
        "&mut [u8]" => buffer("uint8_t"),
        _ => {
            let places = kind.strip_prefix("&mut [u64; ").expect("a type that is passed to C");
            vec![format!("uint64_t {name}[{places}")]
        }
    }
}

/// The parameters in Rust of a parameter in Rattle.
fn in_rust(parameter: &str) -> Vec<String> {
    let (name, kind) = parameter.split_once(": ").expect("a parameter has a type");
    let buffer = |kind| vec![format!("{name}: {kind} u8"), format!("{name}_length: usize")];
    match kind {
        "&[u8]" => buffer("*const"),
        "&mut [u8]" => buffer("*mut"),
        _ => vec![parameter.to_string()],
    }
}

#[test]
fn declarations_are_those_of_the_exported_functions() {
    let mut header = header();
    for (name, number) in constants(&header) {
        header = header.replace(&format!("[{name}]"), &format!("[{number}]"));
    }
    assert_eq!(functions(&header, "\nvoid "), exported(in_c));
}

#[test]
fn declarations_in_rust_are_those_of_the_exported_functions() {
    let exported = exported(in_rust);
    assert_eq!(functions(&text_of("docs/CALLS.md"), "\n    fn "), exported);
    let own = functions(&text_of("examples/compile.rs"), "extern \"C\" {\n    fn ");
    assert_eq!(own.get("mipaldoz_compile"), exported.get("mipaldoz_compile"));
}

/// What stands in a text between a start and the first end after it.
#[track_caller]
fn between<'a>(text: &'a str, start: &str, end: &str) -> &'a str {
    let rest = text.split_once(start).unwrap_or_else(|| panic!("there is no '{start}'")).1;
    rest.split_once(end).unwrap_or_else(|| panic!("'{start}' has no '{end}'")).0
}

/// Every exported call has an inline one, which takes the same but `answer`. Its struct has a member for each number
/// of the answer, in their order and under their names, and its body is the call and the copying of the numbers. The
/// quotation's own names, as `MIPALDOZ_QUOTE_LENGTH`, begin with the call's.
#[test]
fn inline_calls_return_every_number_under_its_name() {
    let header = header();
    let constants = constants(&header);
    let calls = functions(&header, "\nvoid ");
    let inline = functions(&header, "\nstatic inline struct ");
    assert_eq!(inline.len(), calls.len());
    for (call, parameters) in calls {
        let (answer, lent) = parameters.split_last().expect("a call has an answer");
        let function = format!("{call}_result {call}_call");
        assert_eq!(inline.get(&function).map(Vec::as_slice), Some(lent), "{function}");

        let start = format!("\nstruct {call}_result {{\n    uint64_t ");
        let members: Vec<&str> = between(&header, &start, ";\n}").split(", ").collect();
        let length = format!("{}_ANSWER", call.to_uppercase());
        assert_eq!(answer, &format!("uint64_t answer[{length}]"));
        assert_eq!(constants.get(&length), Some(&members.len()), "{length}");

        let passed = parameters.iter().map(|one| one.rsplit([' ', '*']).next().expect("a name"));
        let passed: Vec<&str> =
            passed.map(|name| name.split('[').next().expect("a name")).collect();
        let mut body = vec![
            format!("{answer};"),
            format!("struct {call}_result result;"),
            format!("{call}({});", passed.join(", ")),
        ];
        for (place, member) in members.iter().enumerate() {
            let name = |of: &str| format!("{of}_{member}").to_uppercase();
            let is_own = call == "mipaldoz_quote" && constants.contains_key(&name(&call));
            let name = name(if is_own { &call } else { "mipaldoz" });
            assert_eq!(constants.get(&name), Some(&place), "{call}: {name}");
            body.push(format!("result.{member} = answer[{name}];"));
        }
        body.push("return result;".to_string());
        let rest = header.split_once(&format!("{function}(")).expect("the inline call is there").1;
        let lines = between(rest, ")\n{\n", "\n}\n").lines().map(str::trim);
        assert_eq!(lines.filter(|line| !line.is_empty()).collect::<Vec<_>>(), body, "{call}");
    }
}

/// The words of each refusal's number, and with no number those of every other.
type Words = BTreeMap<Option<usize>, String>;

/// The strings of a piece of code, put together.
fn strings(code: &str) -> String {
    code.split('"').skip(1).step_by(2).collect()
}

/// The words in C: `case NAME:` or `default:`, and the strings up to a semicolon.
fn words_in_c(header: &str) -> Words {
    let constants = constants(header);
    let cases = between(header, "mipaldoz_refusal_words(uint64_t number)\n{\n", "\n}\n");
    let cases = cases.replace("default:", "case default:");
    let case = |one: &str| {
        let (name, words) = one.split_once(':').expect("a case has a colon");
        (constants.get(name).copied(), strings(words.split(';').next().unwrap_or_default()))
    };
    cases.split("case ").skip(1).map(case).collect()
}

/// The words of the definition: the strings of `words_in_order` from 0 on, and of `refusal_words` for every other number.
fn words_defined(definition: &str) -> Words {
    let in_order = between(definition, "\nwords_in_order =\n", "\n    ∷ []\n");
    let numbered = in_order.lines().enumerate().map(|(number, line)| (Some(number), strings(line)));
    let other = between(definition, "\nrefusal_words number = get_or words_in_order number ", "\n");
    numbered.chain([(None, strings(other))]).collect()
}

/// The words in Rust: arms `NUMBER => "WORDS"`.
fn words_in_rust(example: &str) -> Words {
    let arm = |line: &str| {
        let (number, words) = line.trim().split_once(" => \"")?;
        Some((number.parse().ok(), words.split_once('"')?.0.to_string()))
    };
    between(example, "match self.number {\n", "\n        }\n").lines().filter_map(arm).collect()
}

/// Every refusal of the header has its words there and in the definition, the same; the example in Rust has those of
/// a text, 1 to 6.
#[test]
fn words_of_the_refusals() {
    let header = header();
    let refusals = constants(between(&header, "enum mipaldoz_refusal {", "};"));
    let numbers: BTreeSet<Option<usize>> = refusals.into_values().map(Some).chain([None]).collect();
    assert!(numbers.len() >= 14, "{numbers:?}");
    let defined = words_defined(&text_of("crates/refusal_words/specs/Sentences.antt"));
    assert_eq!(defined.keys().copied().collect::<BTreeSet<_>>(), numbers);
    assert_eq!(words_in_c(&header), defined);
    let of_texts = |number: &Option<usize>| number.is_none_or(|number| (1..=6).contains(&number));
    let of_texts: Words = defined.into_iter().filter(|(number, _)| of_texts(number)).collect();
    assert_eq!(words_in_rust(&text_of("examples/compile.rs")), of_texts);
}

#[test]
fn limits_and_lengths() {
    let constants = constants(&header());
    let table = longest_listing_table();
    let of_class = |class| {
        let design = Design::of_class(8, 8, class, table.clone());
        Family::ALL.map(|family| design.clone().of_family(family).text())
    };
    let kronecker = Design::kronecker(8, 8, table.clone()).text();
    let texts: Vec<Vec<u8>> = Class::every(8).flat_map(of_class).chain([kronecker]).collect();
    let longest = |length: fn(&Vec<u8>) -> usize| texts.iter().map(length).max().expect("texts");
    for (name, number) in [
        ("MOST_INPUTS", 8),
        ("MOST_OUTPUTS", 8),
        ("MOST_MIXED", 3),
        ("TABLE_BYTES", 256),
        ("LONGEST_LISTING", longest(|text| printed(text).len())),
        ("LONGEST_TEXT", longest(Vec::len)),
        ("FORWARD_ANSWER", TransformAnswer::default().len()),
        ("BACKWARD_ANSWER", TransformAnswer::default().len()),
        ("MINIMISE_ANSWER", MinimiseAnswer::default().len()),
        ("READ_ANSWER", ReadAnswer::default().len()),
        ("COMPILE_ANSWER", CompileAnswer::default().len()),
        ("QUOTE_ANSWER", QuoteAnswer::default().len()),
        ("CHECK_ANSWER", CheckAnswer::default().len()),
    ] {
        assert_eq!(constants.get(&format!("MIPALDOZ_{name}")), Some(&number), "{name}");
    }
    let in_rust =
        between(&text_of("examples/compile.rs"), "LONGEST_LISTING: usize = ", ";").parse();
    assert_eq!(constants.get("MIPALDOZ_LONGEST_LISTING").copied(), in_rust.ok());
}

/// Compares the numbers of an answer with those wanted, each at the place that the header has under its name.
#[track_caller]
fn check_places(answer: &[u64], wanted: &[(&str, u64)]) {
    let constants = constants(&header());
    for (name, number) in wanted {
        let place = constants.get(&format!("MIPALDOZ_{name}")).copied().expect(name);
        assert_eq!(answer[place], *number, "{name}");
    }
}

/// The numbers of the minimising call's answer in their places: M, i, products, literals and the inversion mask,
/// all different here.
#[test]
fn numbers_of_the_minimising_call() {
    let found = Expansion {
        member: Member { class: Class::Block(2), mixed: 5, fixed: 2, polarities: Vec::new() },
        coefficients: Vec::new(),
        inverted: 9,
        cost: Cost { products: 3, literals: 7 },
    };
    let wanted = [
        ("NUMBER", 0),
        ("LINE", 0),
        ("MIXED", 5),
        ("FIXED", 2),
        ("PRODUCTS", 3),
        ("LITERALS", 7),
        ("INVERTED", 9),
    ];
    check_places(&minimise_answer(Ok(&found)), &wanted);
}

/// The numbers of the quotation in their places: products, literals and the length of the listing, all different here.
#[test]
fn numbers_of_the_quotation() {
    let quoted = Quotation { cost: Cost { products: 3, literals: 7 }, length: 71 };
    let wanted = [
        ("NUMBER", 0),
        ("LINE", 0),
        ("QUOTE_PRODUCTS", 3),
        ("QUOTE_LITERALS", 7),
        ("QUOTE_LENGTH", 71),
    ];
    check_places(&quotation::answer(Ok(quoted)), &wanted);
}

/// The numbers of the reading call's answer in their places, the kinds of k and the families.
#[test]
fn numbers_of_the_reading_call() {
    let constants = constants(&header());
    let constant = |name: &str| constants.get(&format!("MIPALDOZ_{name}")).copied();
    let block = Design::block(4, 2, 3, vec![0; 16]);
    let free = Design::free(4, 2, 2, vec![0; 16]);
    for (design, k, kind, family) in [
        (block.clone(), 3, "KIND_BLOCK", "FAMILY_ONE"),
        (block.of_family(Family::Two), 3, "KIND_BLOCK", "FAMILY_TWO"),
        (Design::kronecker(4, 2, vec![0; 16]), 0, "KIND_KRONECKER", "FAMILY_ONE"),
        (free.clone(), 2, "KIND_FREE", "FAMILY_ONE"),
        (free.of_family(Family::Two), 2, "KIND_FREE", "FAMILY_TWO"),
    ] {
        let answer = read_answer(&Ok(design));
        let number = |place: &str| Some(answer[constant(place).expect(place)] as usize);
        for (place, value) in [("NUMBER", 0), ("LINE", 0), ("INPUTS", 4), ("OUTPUTS", 2)] {
            assert_eq!(number(place), Some(value), "{place}");
        }
        assert_eq!(number("MIXED_INPUTS"), Some(k));
        assert_eq!(number("KIND"), constant(kind));
        assert_eq!(number("FAMILY"), constant(family));
    }
}

/// The outcomes of the fitter's check and its refusals, in their places of the answer.
#[test]
fn numbers_of_the_check() {
    let constants = constants(&header());
    let constant = |name: &str| constants.get(&format!("MIPALDOZ_{name}")).copied();
    let number = |judged, place| Some(answer(judged)[constant(place).expect(place)] as usize);
    for (name, verdict) in [
        ("SAME", Verdict::Same),
        ("DIFFERS", Verdict::Differs { point: 3 }),
        ("NOT_OF_CLASS", Verdict::NotOfClass),
    ] {
        assert_eq!(constant(name), number(Ok(verdict), "OUTCOME"), "{name}");
    }
    assert_eq!(number(Ok(Verdict::Differs { point: 3 }), "POINT"), Some(3));
    for (name, listing) in
        [("BAD_LISTING", &b"end\n"[..]), ("OTHER_LISTING", b"form 3 2 1 1 2 2 2\n")]
    {
        let refused = check(&bytes(EXAMPLE), &bytes(listing));
        assert_eq!(constant(name), number(refused, "NUMBER"), "{name}");
    }
}
