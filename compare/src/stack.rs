//! `compare stack [KB]`: the deepest calls that texts can ask for, each on a stack of that size, or the least that each needs. Recursion goes
//! down by term numbers, so that a chain of terms is as deep as it is long. A stack that is too small ends the program; the smallest that does
//! not is what a caller needs.
use crate::answer::{Texts, answer};
use crate::expected::bytes;
use crate::seam::{self, Tables};
use std::process::{Command, Stdio};

const THEORY: &str = "(sort S) (ctor c () S) (ctor f (S) S) (pred V (S)) (pred E (S S)) (rule v () (V ?a)) (rule w ((V ?a)) (V ?a)) \
    (rule e () (E ?a ?a))";
const GOALS: &str = "(var x S) (var y S) (var z S) (goal g (V x))";

/// Abbreviations up to so many terms one inside the other over `bottom`, 60 to a definition; the last one's name.
fn nest(n: usize, name: &str, bottom: &str) -> (String, String) {
    let (mut out, mut last, mut rest, mut k) = (String::new(), bottom.to_string(), n, 0);
    while rest > 0 {
        let now = rest.min(60);
        out += &format!("(def ?{name}{k} {}{last}{})\n", "(f ".repeat(now), ")".repeat(now));
        (last, rest, k) = (format!("?{name}{k}"), rest - now, k + 1);
    }
    (out, last)
}

/// Each with its name. All but the first two have as many terms as their copies leave room for.
fn texts() -> Vec<(&'static str, String)> {
    let done = |k: usize| format!("(step {k} v () (V x)) (result g {k})");
    let (long, top) = nest(4_090, "d", "x");
    let (half, mid) = nest(2_040, "d", "x");
    let (third, low) = nest(1_000, "d", "x");
    let (other, right) = nest(2_030, "e", "y");
    let (left, other_left) = nest(2_030, "d", "x");
    vec![
        ("variables", format!("{long}(step 0 v () (V {top})) (step 1 w (0)) {}", done(2))),
        ("brackets", format!("(def ?d {}x{}) {}", "(f ".repeat(63), ")".repeat(63), done(0))),
        ("substitution in apply", format!("{half}(step 0 v () (V {mid})) (apply 1 0 ((x y)) ()) {}", done(2))),
        ("substitution in a reference", format!("{half}(step 0 v () (V {mid})) (step 1 w ((0 (x y)))) {}", done(2))),
        (
            "substitution in induct",
            format!(
                "{third}(step 0 v () (V {low})) (step 1 v () (V (f {low}))) (apply 2 0 ((x c)) ()) (apply 3 0 ((x (f y))) ()) \
                 (induct 4 x (V {low}) ((2) (3 y))) {}",
                done(5)
            ),
        ),
        (
            "unification",
            format!("{left}{other}(step 0 v () (V c)) (hyp 1 (E {other_left} {right})) (invert 2 1 () (V c) ((e 0 (z)))) {}", done(3)),
        ),
        ("occurs check", format!("{half}(hyp 0 (E x {mid})) (invert 1 0 () (V c) ()) {}", done(2))),
    ]
}

fn whole(proof: String) -> Texts {
    Texts { theory: THEORY.into(), goals: GOALS.into(), proof }
}

/// One of them on a stack of so many kilobytes.
fn put(name: &str, proof: String, kilobytes: usize) -> Result<String, String> {
    let texts = whole(proof);
    let want = answer(&texts).line;
    let texts = bytes(&texts);
    let call = move || {
        let mut tables = Box::new(Tables::new());
        seam::line(seam::check(&texts, &mut tables))
    };
    let thread = std::thread::Builder::new().stack_size(kilobytes * 1024).spawn(call).map_err(|e| e.to_string())?;
    let line = thread.join().map_err(|_| format!("{name}: no answer"))?;
    if line == want { Ok(line) } else { Err(format!("{name}: {line} for {want}")) }
}

/// All of them, or those whose name is given.
pub fn run(kilobytes: &str, only: Option<&str>) -> Result<(), String> {
    let size: usize = kilobytes.parse().map_err(|_| "KB is the size of the stack in kilobytes")?;
    for (name, proof) in texts().into_iter().filter(|t| only.is_none_or(|o| o == t.0)) {
        println!("{name:32} {}", put(name, proof, size)?);
    }
    Ok(())
}

/// The most that is tried.
const MOST: usize = 64 << 10;

/// `compare stack`: the least size that will do for each, to 16 KB. Every try is a process of its own, since an overflow ends it.
pub fn measure() -> Result<(), String> {
    let program = std::env::current_exe().map_err(|e| e.to_string())?;
    let does = |name: &str, size: usize| {
        let done = Command::new(&program).args(["stack", &size.to_string(), name]).stdout(Stdio::null()).stderr(Stdio::null()).status();
        done.is_ok_and(|d| d.success())
    };
    for (name, _) in texts() {
        if !does(name, MOST) {
            return Err(format!("{name}: no answer with {MOST} KB"));
        }
        let (mut low, mut high) = (0, MOST);
        while low + 16 < high {
            let middle = (low + high) / 2;
            if does(name, middle) { high = middle } else { low = middle }
        }
        println!("{name:32} {high:6} KB");
    }
    Ok(())
}

#[cfg(test)]
mod tests {
    use super::*;
    use crate::rows;
    use crate::schematic::check_left;

    /// A stack that is too small ends the tests.
    #[cfg(feature = "whole")]
    #[test]
    fn the_stated_stack_is_enough() {
        run(&(tariff::tables::STACK / 1024).to_string(), None).expect("the answers are as expected");
    }

    #[test]
    fn the_deepest_texts_are_inside_the_limits() {
        for (name, proof) in texts() {
            let t = whole(proof);
            let (line, left) = (answer(&t).line, check_left(&t.theory, &t.goals, t.proof.as_bytes()).1.expect("the goals are reached"));
            println!("{name}: {line} with {} terms", left.nodes.len());
            assert!(rows::exceeded(&left, &[]).is_empty(), "{name} is inside the limits");
            assert!(line.starts_with("(accepted"), "{name}: {line}");
        }
    }
}
