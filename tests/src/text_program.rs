//! The programs that take one table text, in the file that their argument names or on standard input: `rmform` and
//! `rmquote`. What both must do alike is checked here: what they write on standard output and on standard error, how
//! many bytes they judge, files by name, files that cannot be read, and the usage.

use crate::marked::{EXAMPLE, bytes};
use crate::program::{self, JUDGED_BYTES, Written, run_with};
use crate::text::{printed, quotation};
use crate::words::explained;
use std::path::{Path, PathBuf};
use std::process::Output;
use std::thread::sleep;
use std::time::Duration;

/// A program that takes one table text.
pub struct TextProgram {
    path: fn() -> PathBuf,
    /// What it writes on standard output for the bytes that it judges.
    printed: fn(&[u8]) -> Vec<u8>,
    /// What it writes on standard error where it is asked how it is used.
    usage: &'static str,
}

pub const RMFORM: TextProgram = TextProgram {
    path: program::path,
    printed,
    usage: "usage: rmform [FILE]\n\
        Compiles the table text in FILE, or on standard input: writes its listing, or the line `refused`, number, line.\n\
        A refusal is explained on standard error. docs/GUIDE.md has the grammar of a table text and each refusal.\n",
};

pub const RMQUOTE: TextProgram = TextProgram {
    path: program::quote_path,
    printed: quotation::printed,
    usage: "usage: rmquote [FILE]\n\
        Quotes the table text in FILE, or on standard input: writes `quote`, products, literals and the length of its listing in bytes,\n\
        or the line `refused`, number, line, and explains a refusal on standard error. docs/GUIDE.md has each number and each refusal.\n",
};

/// The bytes that a program judges.
fn judged(input: &[u8]) -> &[u8] {
    &input[..input.len().min(JUDGED_BYTES)]
}

impl TextProgram {
    /// What the program leaves when it is given these arguments and this standard input.
    pub fn run(&self, arguments: &[&Path], input: &[u8]) -> Output {
        run_with(&(self.path)(), arguments, &[input], || ())
    }

    /// Compares what the program writes for an input with what it should write, on standard output and on standard
    /// error.
    #[track_caller]
    pub fn check(&self, input: &[u8], wanted: &[u8]) {
        check_output(self.run(&[], input), wanted, "standard input", input);
    }

    /// Compares with the evaluator, which is given what the program judges.
    #[track_caller]
    pub fn check_judged(&self, input: &[u8]) {
        self.check(input, &(self.printed)(judged(input)));
    }

    /// Inputs of exactly 8,192 bytes, of one less and one more, and of many more, sound up to where they are filled up.
    /// A byte 10 at their end is not judged where it comes after the 8,192.
    pub fn check_inputs_at_the_limit(&self) {
        let example = bytes(EXAMPLE);
        let open = example.strip_suffix(b"end\n").expect("a text ends so");
        for length in [JUDGED_BYTES - 1, JUDGED_BYTES, JUDGED_BYTES + 1, 10_000, 100_000] {
            for start in
                [&b""[..], &example, open, b"table\t9\t1\t0\n", b"table\t1\t1\t0\non\t5\t1\n"]
            {
                for (byte, last) in [(0, 0), (10, 10), (b'0', b'0'), (255, 255), (b'0', 10)] {
                    let mut input = start.to_vec();
                    input.resize(length - 1, byte);
                    input.push(last);
                    self.check_judged(&input);
                }
            }
        }
    }

    /// A text that arrives in pieces is judged whole.
    pub fn check_input_in_pieces(&self) {
        let text = bytes(EXAMPLE);
        for place in [0, 1, 12, 20, text.len() - 1] {
            let (first, second) = text.split_at(place);
            let wait = || sleep(Duration::from_millis(20));
            let written = run_with(&(self.path)(), &[], &[first, second], wait).stdout;
            assert_eq!(written, (self.printed)(&text), "cut at {place}");
        }
    }

    /// The file that an argument names is judged, whatever stands on standard input, and a refusal names it. A byte 10
    /// after the 8,192 bytes is not judged.
    pub fn check_a_file_by_name(&self) {
        let long = [&[b'x'; JUDGED_BYTES][..], b"\n"].concat();
        for text in [
            &bytes(EXAMPLE)[..],
            b"table\t2\t1\t1\non\t4\t1\n",
            b"",
            &[b'x'; 10_000],
            &long[1..],
            &long,
        ] {
            let file = Written::new(text);
            let name = file.path().to_str().expect("a name in text");
            let output = self.run(&[file.path()], b"table\t1\t1\t0\nend\n");
            check_output(output, &(self.printed)(judged(text)), name, text);
        }
    }

    /// With `--help`, `-h` or an argument too many the usage stands on standard error, and nothing is read; a file that
    /// cannot be read is named there. Standard output has nothing.
    pub fn check_usage_and_missing_files(&self) {
        let file = Written::new(&bytes(EXAMPLE));
        let missing = file.path().with_extension("missing");
        let folder = file.path().parent().expect("a folder");
        let (help, short) = (Path::new("--help"), Path::new("-h"));
        let said_alone = |arguments: &[&Path]| {
            let output = self.run(arguments, &bytes(EXAMPLE));
            assert_eq!(output.stdout, b"", "{arguments:?}");
            String::from_utf8(output.stderr).expect("words")
        };
        for arguments in [
            &[help][..],
            &[short],
            &[file.path(), file.path()],
            &[help, file.path()],
            &[short, help],
        ] {
            assert_eq!(said_alone(arguments), self.usage, "{arguments:?}");
        }
        for path in [&missing, folder, Path::new("")] {
            let said = said_alone(&[path]);
            let named = said.starts_with(&format!("{}: ", path.display()));
            assert!(named && said.lines().count() == 1, "{said}");
        }
    }
}

/// Compares what a program left for a text of this name: what is wanted on standard output, and the sentence of a
/// refusal on standard error.
#[track_caller]
fn check_output(output: Output, wanted: &[u8], name: &str, text: &[u8]) {
    let said = explained(wanted, name, judged(text));
    let shown = |bytes: &[u8]| bytes.escape_ascii().to_string();
    let found = [output.stdout, output.stderr].map(|bytes| shown(&bytes));
    let wanted = [shown(wanted), shown(said.as_bytes())];
    assert_eq!(found, wanted, "for {} bytes: {}", text.len(), shown(text));
}
