//! The comparison with the original. See docs/COMPARISON.md, docs/PERFORMANCE.md for the speed, and the header of each file for its room.
//!
//!     compare line THEORY GOALS PROOF      the answer of the original for three files, as a line
//!     compare cases N SEED [SOURCE...]     N generated cases; a SOURCE, a file of cases, is damaged too
//!     compare store N SEED [SOURCE...]     cases with their answers, for `replay`: those of each SOURCE, a file of cases or a folder of
//!                                          folders; all limits; N generated ones
//!     compare limits                       the cases at the limits of which the original has no say, as blocks for tools/cases.py
//!     compare check N SEED                 N cases, all limits among them, through the whole check, beside the original
//!     compare speed                        times of parts of the original and of this product, in one run
//!     compare draw N SEED                  the cases of `check`, counted by what is expected of them; ours is not called
//!     compare stack [KB [NAME]]            the deepest calls on a stack of so many kilobytes; without KB, the least that each needs
//!     compare whole                        times of whole checks
use std::process::exit;

include!(concat!(env!("OUT_DIR"), "/original.rs"));
mod pipe;

mod answer;
mod blocks;
mod builder;
mod cases;
mod check;
mod crowd;
mod damage;
mod expected;
mod facts;
mod layout;
mod lending;
mod limits;
mod limits_proof;
mod moves;
mod ours;
mod pairing;
mod random;
mod read_tables;
mod rows;
mod rows_declared;
mod scan;
mod seam;
#[cfg(test)]
mod sentences;
mod soups;
mod speed;
mod speed_whole;
mod stack;
mod store;
#[cfg(test)]
mod tests;
mod theories;
mod trees;
mod whole_texts;
mod world;

/// Neither side bounds its recursion by the stack that a thread happens to have.
const STACK: usize = 256 << 20;

fn with_room<T: Send>(f: impl FnOnce() -> T + Send) -> T {
    std::thread::scope(|scope| {
        let thread = std::thread::Builder::new().stack_size(STACK).spawn_scoped(scope, f).expect("a thread");
        thread.join().unwrap_or_else(|panicked| std::panic::resume_unwind(panicked))
    })
}

fn main() {
    let args: Vec<String> = std::env::args().skip(1).collect();
    let words: Vec<&str> = args.iter().map(String::as_str).collect();
    if let Err(why) = with_room(|| run(&words)) {
        eprintln!("{why}");
        exit(2);
    }
}

fn run(words: &[&str]) -> Result<(), String> {
    match *words {
        ["line", theory, goals, proof] => line(theory, goals, proof),
        ["cases", n, seed, ref sources @ ..] => cases::print(n, seed, sources),
        ["store", n, seed, ref sources @ ..] => store::write(n, seed, sources),
        ["limits"] => store::print_limits(),
        ["check", n, seed] => check::run(n, seed),
        ["draw", n, seed] => check::draw(n, seed),
        ["stack"] => stack::measure(),
        ["stack", kilobytes] => stack::run(kilobytes, None),
        ["stack", kilobytes, name] => stack::run(kilobytes, Some(name)),
        ["whole"] => speed_whole::run(),
        ["speed"] => speed::run(),
        _ => Err("usage: compare line THEORY GOALS PROOF | cases N SEED [SOURCE...] | store N SEED [SOURCE...] | limits | check N SEED | draw N SEED | stack [KB [NAME]] | speed | whole".into()),
    }
}

fn line(theory: &str, goals: &str, proof: &str) -> Result<(), String> {
    let read = |path: &str| std::fs::read_to_string(path).map_err(|e| format!("{path}: {e}"));
    let texts = answer::Texts { theory: read(theory)?, goals: read(goals)?, proof: read(proof)? };
    println!("{}", answer::answer(&texts).line);
    Ok(())
}
