//! Compiles a table text by the text call of Mipaldoz, as `compile.c` does. Writes its listing on standard output; or
//! there the line `refused`, number, line, and on standard error what the number means.
//!
//!     compile-rs [FILE]       reads FILE, or standard input where no file is named
//!
//! The exit status is 0 where a listing was written, 1 where the text was refused, and 2 for a wrong command line or
//! trouble with a file.
//!
//! To build it, from the root of the repository:
//!
//!     (cd crates/mipaldoz && rt lib); mkdir -p target
//!     rustc --edition 2021 -O examples/compile.rs -L crates/mipaldoz/out -o target/compile-rs

use std::env;
use std::fs::File;
use std::io::{self, Read, Write};
use std::path::{Path, PathBuf};
use std::process::ExitCode;

/// The exit status where the text is refused.
const REFUSED: u8 = 1;

/// The exit status for a wrong command line or trouble with a file.
const TROUBLE: u8 = 2;

/// How many bytes of a text are judged, the same number as in the program `rmform`; every text that can be accepted is
/// shorter.
const JUDGED_BYTES: u64 = 8192;

/// The length of the longest listing, `MIPALDOZ_LONGEST_LISTING` of the C header.
const LONGEST_LISTING: usize = 5919;

#[link(name = "mipaldoz", kind = "static")]
extern "C" {
    fn mipaldoz_compile(
        text: *const u8,
        text_length: usize,
        output: *mut u8,
        output_length: usize,
        answer: &mut [u64; 3],
    );
}

/// Why a text is refused: the number and the line.
struct Refusal {
    number: u64,
    line: u64,
}

impl Refusal {
    /// What the number says of a text, in words.
    fn words(&self) -> &'static str {
        match self.number {
            1 => "the line breaks its grammar",
            2 => "n, the number of inputs, is not 1 to 8",
            3 => "m, the number of outputs, is not 1 to 8",
            4 => "k, the number of mixed inputs, is above its limit or above n",
            5 => "the point is 2^n or more, or not above the one before",
            6 => "the text stops before its end line, or goes on after it",
            _ => "no refusal has this number",
        }
    }
}

/// The listing of a table text. The buffer is long enough for every listing, so only the refusals 1 to 6 occur.
fn compile(text: &[u8]) -> Result<Vec<u8>, Refusal> {
    let mut listing = vec![0; LONGEST_LISTING];
    let mut answer = [0; 3];
    // SAFETY: each pointer goes with the length of its own buffer, and no two buffers overlap.
    unsafe {
        mipaldoz_compile(
            text.as_ptr(),
            text.len(),
            listing.as_mut_ptr(),
            listing.len(),
            &mut answer,
        );
    }
    match answer {
        [0, _, length] => {
            listing.truncate(length as usize);
            Ok(listing)
        }
        [number, line, _] => Err(Refusal { number, line }),
    }
}

/// The first bytes of a file, or of standard input where no file is named.
fn read_text(file: Option<&Path>) -> io::Result<Vec<u8>> {
    let mut text = Vec::new();
    match file {
        Some(path) => File::open(path)?
            .take(JUDGED_BYTES)
            .read_to_end(&mut text)?,
        None => io::stdin().take(JUDGED_BYTES).read_to_end(&mut text)?,
    };
    Ok(text)
}

/// Writes these bytes on standard output.
fn write(bytes: &[u8]) -> io::Result<()> {
    let mut output = io::stdout().lock();
    output.write_all(bytes)?;
    output.flush()
}

/// Compiles the text of the file, writes the listing or the refusal, and gives the exit status.
fn run(file: Option<&Path>) -> Result<ExitCode, String> {
    let name = match file {
        Some(path) => path.display().to_string(),
        None => "standard input".to_string(),
    };
    let text = read_text(file).map_err(|error| format!("{name}: {error}"))?;
    let (written, status) = match compile(&text) {
        Ok(listing) => (listing, ExitCode::SUCCESS),
        Err(refusal) => {
            let Refusal { number, line } = refusal;
            eprintln!("{name}, line {line}: {}", refusal.words());
            let written = format!("refused\t{number}\t{line}\n").into_bytes();
            (written, ExitCode::from(REFUSED))
        }
    };
    write(&written).map_err(|error| format!("standard output: {error}"))?;
    Ok(status)
}

fn main() -> ExitCode {
    let mut arguments = env::args_os().skip(1).map(PathBuf::from);
    let file = arguments.next();
    if arguments.next().is_some() {
        eprintln!("usage: compile-rs [FILE]");
        return ExitCode::from(TROUBLE);
    }
    run(file.as_deref()).unwrap_or_else(|trouble| {
        eprintln!("{trouble}");
        ExitCode::from(TROUBLE)
    })
}
