//! What several tests share.
#![allow(dead_code)]
use std::path::{Path, PathBuf};
use std::process::{Command, Output};

/// A path of the repository.
pub fn path(of: &str) -> PathBuf {
    PathBuf::from(env!("CARGO_MANIFEST_DIR")).join("..").join(of)
}

pub fn page(of: &str) -> String {
    std::fs::read_to_string(path(of)).unwrap_or_else(|e| panic!("{of}: {e}"))
}

/// The program, run in this folder.
pub fn tariff_in(folder: &Path, words: &[&str]) -> Output {
    Command::new(env!("CARGO_BIN_EXE_tariff")).args(words).current_dir(folder).output().expect("the program runs")
}

/// The program, run in the repository's folder.
pub fn tariff(words: &[&str]) -> Output {
    tariff_in(&path(""), words)
}

pub fn stdout(output: &Output) -> String {
    String::from_utf8(output.stdout.clone()).expect("ASCII and UTF-8 are printed")
}

pub const THEORY: &[u8] = b"(sort Pass) (ctor first () Pass) (ctor renew (Pass) Pass) (pred Child (Pass)) (pred Any ())
    (rule c0 () (Child first)) (rule c1 ((Child ?p)) (Child (renew ?p))) (rule all () (Child ?p)) (rule any ((Child ?p)) (Any))";

/// A stored case: name, theory, goals, proof, answer, facts, footings.
pub type Stored = [Vec<u8>; 7];

/// The cases of crates/replay/stdin; its header says how they are written.
pub fn stored() -> Vec<Stored> {
    let file = std::fs::read(path("crates/replay/stdin")).expect("the file stands");
    let (header, mut at) = numbers(&file, 0);
    at += header[0];
    let mut cases = Vec::new();
    while at < file.len() {
        let (lengths, mut from) = numbers(&file, at);
        let parts: Vec<Vec<u8>> = lengths
            .iter()
            .map(|n| {
                from += n;
                file[from - n..from].to_vec()
            })
            .collect();
        cases.push(parts.try_into().expect("seven parts"));
        at = from + 1;
    }
    cases
}

/// A line of decimal numbers, and the place behind it.
fn numbers(file: &[u8], at: usize) -> (Vec<usize>, usize) {
    let end = at + file[at..].iter().position(|&b| b == b'\n').expect("a line ends");
    let line = std::str::from_utf8(&file[at..end]).expect("decimal numbers");
    (line.split(' ').map(|w| w.parse().expect("a number")).collect(), end + 1)
}
