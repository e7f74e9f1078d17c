//! Finds the static library of the calls, and compiles the searches in C that the benchmarks time.

use std::env;
use std::path::{Path, PathBuf};
use std::process::Command;

fn main() {
    link_calls();
    link_c("search", "blocksearch");
    link_c("kronecker", "kroneckersearch");
}

fn variable(name: &str) -> PathBuf {
    PathBuf::from(env::var(name).unwrap_or_else(|_| panic!("cargo sets {name}")))
}

/// `libmipaldoz.a` in the directory named by MIPALDOZ_STATICLIB, or in ../crates/mipaldoz/out, where `rt lib` makes it.
fn link_calls() {
    println!("cargo:rerun-if-env-changed=MIPALDOZ_STATICLIB");
    let beside = variable("CARGO_MANIFEST_DIR").join("../crates/mipaldoz/out");
    let directory = env::var("MIPALDOZ_STATICLIB").map_or(beside, PathBuf::from);
    let library = directory.join("libmipaldoz.a");
    println!("cargo:rerun-if-changed={}", library.display());
    if library.exists() {
        link(&directory, "mipaldoz");
    } else {
        println!("cargo:warning=there is no {}: the calls cannot be linked", library.display());
    }
}

/// A source of `c/`, compiled by gcc into a library.
fn link_c(source: &str, library: &str) {
    let path = format!("c/{source}.c");
    println!("cargo:rerun-if-changed={path}");
    let directory = variable("OUT_DIR");
    let object = directory.join(source).with_extension("o");
    run(Command::new("gcc").args(["-O3", "-std=c11", "-fPIC", "-c", &path, "-o"]).arg(&object));
    run(Command::new("ar").arg("crs").arg(directory.join(format!("lib{library}.a"))).arg(object));
    link(&directory, library);
}

fn link(directory: &Path, library: &str) {
    println!("cargo:rustc-link-search=native={}", directory.display());
    println!("cargo:rustc-link-lib=static:-bundle={library}");
}

fn run(command: &mut Command) {
    let status = command.status().expect("the command starts");
    assert!(status.success(), "{command:?} failed");
}
