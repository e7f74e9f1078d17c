//! The designs of `examples/`.

use std::fs::read_dir;
use std::path::{Path, PathBuf};

pub fn directory() -> PathBuf {
    Path::new(env!("CARGO_MANIFEST_DIR")).join("../examples")
}

/// The table texts of `examples/`. Each has its listing beside it.
pub fn tables() -> Vec<PathBuf> {
    let entries = read_dir(directory()).expect("the examples are there");
    let paths = entries.map(|entry| entry.expect("an entry has a name").path());
    paths.filter(|path| path.extension().is_some_and(|end| end == "table")).collect()
}
