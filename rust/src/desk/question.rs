//! `tariff explain`: questions by their numbers, or all of them; and the program's help.
use crate::desk::args::USAGE;
use std::io::{self, Write};
use tariff::questions::{QUESTIONS, Question, ROWS, grouped, question};

const HELP: &str = "\
Checks that a proof shows what a tariff promises, and says why not where it does not.

check     prints a line: (accepted STEPS GOALS OPEN HYPOTHESES INDUCTIONS INVERSIONS INSTANCES)
          or (refused NUMBER TEXT FORM DETAIL). A folder has files called theory, goals and proof;
          of several folders each line begins with its folder and a tab.
  --facts     the recorded facts too, a line each, with their footings
  --explain   what was refused, where, why, and what is to be done
  --json      all of this as one object on a line
explain   prints the question of a number; without a number, all of them.

It ends with 0 where all was accepted, 1 where something was refused, 2 where something could not be read.";

pub fn help(out: &mut dyn Write) -> io::Result<u8> {
    writeln!(out, "{USAGE}\n\n{HELP}").map(|()| 0)
}

/// One question with all that is known of it.
fn whole(q: &Question, out: &mut dyn Write) -> io::Result<()> {
    writeln!(out, "question {}: {}", q.number, q.asks)?;
    writeln!(out, "  refused: {}", q.sentence)?;
    writeln!(out, "  help: {}", q.help)?;
    writeln!(out, "  to mend: {}", q.whom())?;
    if q.number == 60 {
        for (k, row) in ROWS.iter().enumerate() {
            writeln!(out, "  row {}: {} {}", k + 1, grouped(row.limit), row.name)?;
        }
    }
    for sentence in q.originals() {
        writeln!(out, "  original: {sentence}")?;
    }
    Ok(())
}

pub fn print(numbers: &[u32], out: &mut dyn Write) -> io::Result<u8> {
    if numbers.is_empty() {
        for q in &QUESTIONS {
            writeln!(out, "{:3} {}", q.number, q.asks)?;
        }
    }
    for q in numbers.iter().filter_map(|&n| question(n)) {
        whole(q, out)?;
    }
    Ok(0)
}
