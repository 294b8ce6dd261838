//! `tariff check`: case after case, read, checked and printed.
use crate::desk::args::{Case, Options};
use crate::desk::bar::Bar;
use crate::desk::paint::Paint;
use crate::desk::{explain, facts, json};
use std::fs::File;
use std::io::{self, Read as _, Write};
use std::path::Path;
use tariff::tables::LENGTH;
use tariff::{Checker, Verdict, line};

const ACCEPTED: u8 = 0;
const REFUSED: u8 = 1;
const CANNOT: u8 = 2;

/// The texts of a case, and the names of their files, in the order of `Text::ALL`.
pub struct Read {
    pub folder: Option<String>,
    pub files: [String; 3],
    pub texts: [Vec<u8>; 3],
}

/// A file's bytes, one more at most than a text may have: that is enough to be refused.
fn text(file: &Path) -> Result<Vec<u8>, String> {
    let mut bytes = Vec::new();
    let read = File::open(file).and_then(|f| f.take(LENGTH as u64 + 1).read_to_end(&mut bytes));
    read.map(|_| bytes).map_err(|e| format!("{}: {e}", file.display()))
}

fn read(case: &Case) -> Result<Read, String> {
    let [theory, goals, proof] = &case.files;
    let texts = [text(theory)?, text(goals)?, text(proof)?];
    Ok(Read { folder: case.folder.clone(), files: case.files.each_ref().map(|f| f.display().to_string()), texts })
}

/// What is printed of one answer.
fn shown(read: &Read, verdict: &Verdict, checker: &Checker, options: Options, several: bool) -> String {
    if options.json {
        return json::object(read, verdict, checker, options) + "\n";
    }
    let name = read.folder.as_ref().filter(|_| several).map_or(String::new(), |f| format!("{f}\t"));
    let mut out = format!("{name}{}\n", line(verdict));
    if options.explain {
        out += &match verdict {
            Ok(report) => format!("{report}\n"),
            Err(refusal) => explain::explain(read, refusal, checker, Paint::of_stdout()),
        };
    }
    if options.facts {
        out += &facts::lines(checker);
    }
    out
}

pub fn run(cases: &[Case], options: Options, out: &mut dyn Write) -> io::Result<u8> {
    let (mut checker, bar, mut status) = (Checker::new(), Bar::new(cases.len()), ACCEPTED);
    for (k, case) in cases.iter().enumerate() {
        bar.show(k, &case.name());
        let read = match read(case) {
            Ok(read) => read,
            Err(why) => {
                bar.clear();
                eprintln!("tariff: {why}");
                status = CANNOT;
                continue;
            }
        };
        let [theory, goals, proof] = &read.texts;
        let verdict = checker.check(theory, goals, proof);
        status = status.max(if verdict.is_ok() { ACCEPTED } else { REFUSED });
        bar.clear();
        out.write_all(shown(&read, &verdict, &checker, options, cases.len() > 1).as_bytes())?;
        out.flush()?;
    }
    bar.clear();
    Ok(status)
}
