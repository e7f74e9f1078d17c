//! The stored cases of the program `cases` are the ones that the evaluator writes today.

use outside_cases::cases::{Cases, stored, stored_path};

/// Compares a stored file with what the evaluator writes, and names the first line that differs.
fn check(name: &str, written: &[u8]) {
    let stored = stored(name);
    if stored == written {
        return;
    }
    let lines = |bytes: &[u8]| -> Vec<String> {
        bytes.split(|&byte| byte == b'\n').map(|line| line.escape_ascii().to_string()).collect()
    };
    let (stored, written) = (lines(&stored), lines(written));
    let number = stored.iter().zip(&written).take_while(|(one, other)| one == other).count();
    let shown = |lines: &[String]| lines.get(number).cloned();
    panic!(
        "{} differs at line {}: {:?} is stored, the evaluator writes {:?}; \
         `cargo run --offline --bin cases ../crates/cases` writes both files anew",
        stored_path(name).display(),
        number + 1,
        shown(&stored),
        shown(&written)
    );
}

#[test]
fn stored_cases_are_the_evaluators() {
    let Cases { texts, stdin, stdout } = Cases::written();
    assert!(texts > 600, "{texts} texts");
    check("stdin", &stdin);
    check("stdout", &stdout);
}
