//! Links the builds of the port that the features ask for, as `build.sh` left them in
//! `target/port`, and tells the program what it was compiled by.

use std::path::{Path, PathBuf};
use std::process::Command;
use std::{env, fs};

fn main() {
    let libraries = Path::new(env!("CARGO_MANIFEST_DIR")).join("target/port");
    println!("cargo::rerun-if-changed={}", libraries.display());
    for build in ["port", "other"] {
        if env::var_os(format!("CARGO_FEATURE_{}", build.to_uppercase())).is_some() {
            println!(
                "cargo::rerun-if-changed={}/lib{build}.a",
                libraries.display()
            );
            println!("cargo::rustc-link-lib=static={build}");
            println!("cargo::rustc-link-search=native={}", libraries.display());
        }
    }
    if env::var_os("CARGO_FEATURE_PORT").is_some() {
        // The three functions by which the port calls malloc.
        println!("cargo::rustc-link-search=native={}/c", kit().display());
        println!("cargo::rustc-link-lib=static=libc_c");
    }
    println!("cargo::rustc-env=COMPILERS={}", compilers());
}

/// Rust's compiler and its flags, and Rattle's where the port is linked.
fn compilers() -> String {
    let rustc = env::var("RUSTC").expect("cargo names the compiler");
    let flags = env::var("CARGO_ENCODED_RUSTFLAGS").unwrap_or_default();
    let mut all = format!(
        "{} {}",
        answer(&rustc, "--version"),
        flags.replace('\u{1F}', " ")
    );
    if env::var_os("CARGO_FEATURE_PORT").is_some() {
        all = format!("{}; {}", all.trim(), answer("rt", "version"));
    }
    all.trim().into()
}

/// What a command prints.
fn answer(command: &str, argument: &str) -> String {
    let answer = Command::new(command).arg(argument).output();
    let answer = answer.unwrap_or_else(|error| panic!("{command} runs: {error}"));
    String::from_utf8(answer.stdout)
        .expect("the answer is text")
        .trim()
        .into()
}

/// The toolchain's folder, in which the page stands that `rt doc` names.
fn kit() -> PathBuf {
    let page = fs::canonicalize(answer("rt", "doc")).expect("rt names a page");
    page.parent()
        .expect("the page stands in a folder")
        .to_path_buf()
}
