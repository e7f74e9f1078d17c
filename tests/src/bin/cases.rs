//! Writes the cases of the program `cases`, its `stdin` and its `stdout`, into a directory.

use outside_cases::cases::Cases;
use std::path::Path;
use std::{env, fs, io};

/// More than the cases need, so that a file that grew by mistake is seen.
const STDIN_LIMIT: usize = 384 * 1024;

fn main() -> io::Result<()> {
    let directory = env::args().nth(1).expect("the directory to write into is the first argument");
    let Cases { texts, stdin, stdout } = Cases::written();
    assert!(stdin.len() < STDIN_LIMIT, "{} bytes are too many", stdin.len());
    println!("{texts} texts, {} bytes in, {} bytes out", stdin.len(), stdout.len());
    fs::write(Path::new(&directory).join("stdin"), stdin)?;
    fs::write(Path::new(&directory).join("stdout"), stdout)
}
