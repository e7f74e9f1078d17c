//! The sentence that the programs write on standard error beside a refusal: the file, the line, what the number means,
//! and the cause where the line shows it.

/// What each number from 0 on means.
const WORDS: [&str; 13] = [
    "carried out",
    "the line breaks its grammar",
    "n, the number of inputs, is not 1 to 8",
    "m, the number of outputs, is not 1 to 8",
    "k, the number of mixed inputs, is above its limit or above n",
    "the point is 2^n or more, or not above the one before",
    "the text stops before its end line, or goes on after it",
    "the polarity w is 2^n or more",
    "a buffer has another length than the call states",
    "a byte has a bit at m or above set",
    "the output buffer is shorter than the listing",
    "the line breaks the grammar of a listing, its term is not above the one before, or the listing ends wrongly",
    "the listing's family, n, m or k is not the table's, or its counts are not those of its lines",
];

/// How many fields a line has that begins with this word.
fn fields_of(word: &[u8]) -> Option<usize> {
    match word {
        b"table" | b"table2" => Some(4),
        b"on" | b"term" => Some(3),
        b"end" => Some(1),
        b"form" | b"form2" => Some(8),
        b"inv" => Some(2),
        _ => None,
    }
}

/// The first cause that a line of a text shows, where there is one.
fn cause(text: &[u8], line: usize) -> Option<&'static str> {
    let lines: Vec<&[u8]> = text.split(|&byte| byte == b'\n').collect();
    let refused = lines.get(line - 1).copied().unwrap_or_default();
    let fields: Vec<&[u8]> = refused.split(|&byte| byte == b'\t').collect();
    let inputs = lines[0].split(|&byte| byte == b'\t').nth(1).unwrap_or_default();
    let binary = |point: &[u8]| {
        (2..=8).contains(&point.len())
            && inputs == point.len().to_string().as_bytes()
            && point.iter().all(|byte| b"01".contains(byte))
    };
    if refused.contains(&b' ') {
        Some("it has a blank where a tab belongs")
    } else if refused.contains(&b'\r') {
        Some("it has a carriage return")
    } else if fields_of(fields[0]).is_some_and(|count| fields.len() > count) {
        Some("it has too many fields")
    } else if fields[0] == b"on" && fields.get(1).is_some_and(|point| binary(point)) {
        Some("its point is in binary, not in base ten")
    } else if lines.len() == line && !refused.is_empty() {
        Some("no line end follows it")
    } else {
        None
    }
}

/// The number and the line of a refusal that was printed.
pub fn refusal(printed: &[u8]) -> Option<(usize, usize)> {
    let line = std::str::from_utf8(printed).ok()?.strip_prefix("refused\t")?;
    let (number, line) = line.strip_suffix('\n')?.split_once('\t')?;
    Some((number.parse().ok()?, line.parse().ok()?))
}

/// What is written on standard error beside what is printed for a text that has this name.
pub fn explained(printed: &[u8], name: &str, text: &[u8]) -> String {
    let Some((number, line)) = refusal(printed) else {
        return String::new();
    };
    let cause = if [1, 5, 11].contains(&number) { cause(text, line) } else { None };
    let cause = cause.map(|words| format!("; {words}")).unwrap_or_default();
    format!("{name}, line {line}: {}{cause}\n", WORDS[number])
}
