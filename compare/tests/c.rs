//! Programs in C over the static library, built and run under the sanitizers: the sample, and calls by several threads.
#![cfg(feature = "whole")]
use std::path::{Path, PathBuf};
use std::process::{Command, Output};

fn root() -> PathBuf {
    PathBuf::from(env!("CARGO_MANIFEST_DIR")).join("..")
}

/// The library that the crate `tariff` links.
fn library() -> PathBuf {
    std::env::var_os("TARIFF_LIB").map_or(root().join("crates/tariff/out/libtariff.a"), PathBuf::from)
}

/// Builds a program of the repository with these options of the compiler; any warning is an error.
fn build(source: &str, name: &str, options: &[&str]) -> PathBuf {
    let program = Path::new(env!("CARGO_TARGET_TMPDIR")).join(name);
    let mut cc = Command::new("cc");
    cc.current_dir(root()).args(["-std=c11", "-Wall", "-Wextra", "-Wpedantic", "-Werror", "-Iinclude"]).args(options);
    let done = cc.arg(source).arg(library()).arg("-o").arg(&program).output().expect("cc is there");
    assert!(done.status.success(), "{}", String::from_utf8_lossy(&done.stderr));
    program
}

const SANITIZERS: [&str; 4] = ["-g", "-fsanitize=address,undefined", "-fno-sanitize-recover=all", "-pthread"];

fn run(program: &Path, words: &[PathBuf]) -> Output {
    Command::new(program).args(words).output().expect("it runs")
}

/// Nothing on standard error, where the sanitizers would speak; the status and what was printed.
fn quiet(output: Output) -> (Option<i32>, String) {
    assert_eq!(String::from_utf8_lossy(&output.stderr), "");
    (output.status.code(), String::from_utf8(output.stdout).expect("ASCII"))
}

/// The sample's answers for the folders of samples are those that stand there.
fn samples(program: &Path) {
    let folders = std::fs::read_dir(root().join("samples")).expect("samples stand there");
    let folders: Vec<PathBuf> = folders.flatten().map(|e| e.path()).filter(|p| p.is_dir()).collect();
    assert!(folders.len() >= 5);
    for folder in folders {
        let expected = std::fs::read_to_string(folder.join("expected")).expect("an answer");
        let status = if expected.starts_with("(accepted") { 0 } else { 1 };
        let files = ["theory", "goals", "proof"].map(|part| folder.join(part));
        assert_eq!(quiet(run(program, &files)), (Some(status), expected), "{}", folder.display());
    }
}

/// The one line of the sample's comment.
#[test]
fn the_sample_is_compiled_by_one_line() {
    let source = std::fs::read_to_string(root().join("samples/check.c")).expect("the sample");
    let line = source.lines().find_map(|l| l.trim_start_matches([' ', '*']).strip_prefix("cc ")).expect("the line");
    let program = Path::new(env!("CARGO_TARGET_TMPDIR")).join("check-plain");
    let words = line.split(' ').map(|w| match w {
        "crates/tariff/out/libtariff.a" => library(),
        "check" => program.clone(),
        w => w.into(),
    });
    let done = Command::new("cc").args(words).current_dir(root()).status().expect("cc is there");
    assert!(done.success());
    samples(&program);
}

#[test]
fn the_sample_under_the_sanitizers() {
    let program = build("samples/check.c", "check", &SANITIZERS);
    samples(&program);
    assert_eq!(run(&program, &[]).status.code(), Some(2));
    let nowhere = ["theory", "goals", "nowhere"].map(|part| root().join("samples/child").join(part));
    let output = run(&program, &nowhere);
    assert!(output.status.code() == Some(2) && output.stdout.is_empty());
    assert!(String::from_utf8_lossy(&output.stderr).contains("nowhere"));
}

/// A text of 65,537 bytes is refused, one of 65,536 is read.
#[test]
fn long_texts() {
    let program = build("samples/check.c", "check-long", &SANITIZERS);
    let folder = Path::new(env!("CARGO_TARGET_TMPDIR"));
    let empty = folder.join("empty");
    std::fs::write(&empty, "").expect("a file");
    for (bytes, line) in [(65_536, "(refused 25 2 0 0)\n"), (65_537, "(refused 2 1 0 0)\n"), (200_000, "(refused 2 1 0 0)\n")] {
        let long = folder.join(format!("long-{bytes}"));
        std::fs::write(&long, vec![b' '; bytes]).expect("a file");
        assert_eq!(quiet(run(&program, &[long, empty.clone(), empty.clone()])), (Some(1), line.into()));
    }
}

#[test]
fn threads_and_answers_of_other_lengths() {
    let program = build("compare/tests/calls.c", "calls", &SANITIZERS);
    assert_eq!(quiet(run(&program, &[])), (Some(0), "ok\n".into()));
}
