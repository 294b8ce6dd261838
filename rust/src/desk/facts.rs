//! Recorded facts as lines, the same that `horn_facts` prints.
use std::fmt::{Display, Write};
use tariff::tables::Table;
use tariff::{Checker, Fact};

/// A spelling may be far longer than all texts, where a term shares its parts: it is ended here.
pub const LONGEST: usize = 1 << 16;

fn list<T: Display>(items: impl Iterator<Item = T>) -> String {
    format!("({})", items.map(|x| x.to_string()).collect::<Vec<_>>().join(" "))
}

/// `(fact INDEX JUDGMENT (HYPOTHESES...) ASSUMED (PREMISES...) (GENERALISED...))`
pub fn fact(f: &Fact<'_>) -> String {
    let premises = list(f.premises().map(|t| t.clipped(LONGEST)));
    let (index, judgment, assumed) = (f.index(), f.judgment().clipped(LONGEST), u8::from(f.assumed()));
    format!("(fact {index} {judgment} {} {assumed} {premises} {})", list(f.hypotheses()), list(f.generalised()))
}

/// `(footing INDEX RULE...)`
pub fn footing(f: &Fact<'_>) -> String {
    let rules: String = f.footing().map(|r| format!(" {r}")).collect();
    format!("(footing {}{rules})", f.index())
}

/// A line for each fact, a line for each footing, and `(missing [N N ..])` with the list of 53 as the table has it.
pub fn lines(checker: &Checker) -> String {
    let mut out = String::new();
    for f in checker.facts() {
        let _ = writeln!(out, "{}", fact(&f));
    }
    for f in checker.facts() {
        let _ = writeln!(out, "{}", footing(&f));
    }
    let missing = checker.tables().cells(Table::Missing).iter().take_while(|&&n| n != 0);
    let _ = writeln!(out, "(missing [{}])", missing.map(u32::to_string).collect::<Vec<_>>().join(" "));
    out
}
