//! Runs of the programs `rmform`, `rmquote` and `rmcheck`.

use std::io::Write;
use std::path::{Path, PathBuf};
use std::process::{Command, Output, Stdio};
use std::sync::atomic::{AtomicUsize, Ordering};
use std::{env, fs, process};

/// How many bytes the programs judge: of standard input, and of each file.
pub const JUDGED_BYTES: usize = 8192;

/// The program named by MIPALDOZ_RMFORM, or ../crates/rmform/out/rmform beside the package.
pub fn path() -> PathBuf {
    path_of("MIPALDOZ_RMFORM", "rmform")
}

/// The program named by MIPALDOZ_RMQUOTE, or ../crates/rmquote/out/rmquote beside the package.
pub fn quote_path() -> PathBuf {
    path_of("MIPALDOZ_RMQUOTE", "rmquote")
}

/// The program named by this variable, or the one of this name in ../crates beside the package, where `rt ci` leaves it
/// and `rt run` makes it.
fn path_of(variable: &str, name: &str) -> PathBuf {
    let crates = Path::new(env!("CARGO_MANIFEST_DIR")).join("../crates");
    let beside = crates.join(name).join("out").join(name);
    env::var(variable).map_or(beside, PathBuf::from)
}

/// What `rmform` writes when its standard input comes in these pieces, one after the other.
pub fn run(pieces: &[&[u8]], between: impl Fn()) -> Vec<u8> {
    run_at(&path(), pieces, between)
}

/// The same for the program at this path.
pub fn run_at(path: &Path, pieces: &[&[u8]], between: impl Fn()) -> Vec<u8> {
    run_with(path, &[], pieces, between).stdout
}

/// What a program leaves when it is given these arguments and its standard input in these pieces.
pub fn run_with(path: &Path, arguments: &[&Path], pieces: &[&[u8]], between: impl Fn()) -> Output {
    let mut command = Command::new(path);
    let mut program = command
        .args(arguments)
        .stdin(Stdio::piped())
        .stdout(Stdio::piped())
        .stderr(Stdio::piped())
        .spawn()
        .unwrap_or_else(|error| panic!("{}: {error}", path.display()));
    let mut input = program.stdin.take().expect("standard input is piped");
    for piece in pieces {
        // The program may end before it has taken all: what it has written is judged, not this.
        let _ = input.write_all(piece);
        between();
    }
    drop(input);
    ended(program.wait_with_output().expect("the program ends"))
}

/// What a program left that ended by itself, whatever its exit status is.
fn ended(output: Output) -> Output {
    assert!(output.status.code().is_some(), "the program was stopped: {}", output.status);
    output
}

/// What `rmcheck`, or the program named by MIPALDOZ_RMCHECK, leaves when it is given these arguments.
pub fn run_check(arguments: &[&Path]) -> Output {
    let path = path_of("MIPALDOZ_RMCHECK", "rmcheck");
    let output = Command::new(&path).args(arguments).stdin(Stdio::null()).output();
    ended(output.unwrap_or_else(|error| panic!("{}: {error}", path.display())))
}

/// A file that is removed with its value.
pub struct Written(PathBuf);

impl Written {
    /// A file of its own that holds these bytes.
    pub fn new(bytes: &[u8]) -> Self {
        static NEXT: AtomicUsize = AtomicUsize::new(0);
        let number = NEXT.fetch_add(1, Ordering::Relaxed);
        let path = env::temp_dir().join(format!("outside-cases-{}-{number}", process::id()));
        fs::write(&path, bytes).unwrap_or_else(|error| panic!("{}: {error}", path.display()));
        Written(path)
    }

    pub fn path(&self) -> &Path {
        &self.0
    }
}

impl Drop for Written {
    fn drop(&mut self) {
        // Another program may have removed it.
        let _ = fs::remove_file(&self.0);
    }
}
