//! What the rows of question 60 count: of a theory form by form, of goals and proof by what the original left.
use crate::schematic::Left;
use crate::sexp::Sexp;
use std::cell::Cell;
use std::collections::BTreeSet;

/// By row, from 1.
pub const LIMITS: [usize; 15] = [0, 64, 256, 16, 256, 16, 8_192, 512, 4_096, 16_384, 512, 128, 1_024, 16_384, 512];

thread_local! {
    /// Those in force: cases with smaller limits show the moment of storing by short texts.
    static IN_FORCE: Cell<[usize; 15]> = const { Cell::new(LIMITS) };
}

pub fn limit(row: usize) -> usize {
    IN_FORCE.get()[row]
}

/// With other limits.
#[cfg(test)]
pub fn under<T>(limits: [usize; 15], f: impl FnOnce() -> T) -> T {
    IN_FORCE.set(limits);
    let out = f();
    IN_FORCE.set(LIMITS);
    out
}

/// The counts of a theory so far.
#[derive(Default)]
struct Counts {
    sorts: usize,
    symbols: usize,
    rules: usize,
    words: usize,
}

fn parts(x: &Sexp) -> &[Sexp] {
    match x {
        Sexp::List(xs) => xs,
        Sexp::Atom(_) => &[],
    }
}

/// The words of a pattern in the order read, and row 5 or 6 where one of them finds no room.
fn pattern(x: &Sexp, words: &mut usize, vars: &mut BTreeSet<String>) -> Option<usize> {
    if let Sexp::Atom(v) = x
        && v.starts_with('?')
        && vars.insert(v.clone())
        && vars.len() > limit(5)
    {
        return Some(5);
    }
    *words += 1;
    if *words > limit(6) {
        return Some(6);
    }
    let args = if let [_, args @ ..] = parts(x) { args } else { &[] };
    args.iter().find_map(|a| pattern(a, words, vars))
}

impl Counts {
    /// The row that a declaration meets, all of whose other questions are answered well.
    fn take(&mut self, form: &Sexp) -> Option<usize> {
        let xs = parts(form);
        let over = |n: &mut usize, row: usize| {
            *n += 1;
            (*n > limit(row)).then_some(row)
        };
        match &xs[0] {
            Sexp::Atom(tag) if tag == "sort" => over(&mut self.sorts, 1),
            Sexp::Atom(tag) if tag == "rule" => {
                let mut vars = BTreeSet::new();
                let judgments = parts(&xs[2]).iter().chain([&xs[3]]);
                let met = judgments.into_iter().find_map(|j| pattern(j, &mut self.words, &mut vars));
                met.or_else(|| over(&mut self.rules, 4))
            }
            _ if parts(&xs[2]).len() > limit(3) => Some(3),
            _ => over(&mut self.symbols, 2),
        }
    }
}

/// The first declaration that meets a row, and the row; the forms are ones that the original takes.
pub fn in_theory(forms: &[Sexp]) -> Option<(usize, usize)> {
    let mut counts = Counts::default();
    forms.iter().enumerate().find_map(|(k, f)| counts.take(f).map(|row| (k, row)))
}

/// The pattern words of declarations that were taken.
pub fn pattern_words(forms: &[Sexp]) -> usize {
    let mut counts = Counts::default();
    for f in forms {
        counts.take(f);
    }
    counts.words
}

/// The list entries that goals store, and their number.
pub fn of_goals(forms: &[Sexp]) -> (usize, usize) {
    let goals = forms.iter().map(parts).filter(|xs| matches!(xs.first(), Some(Sexp::Atom(tag)) if tag == "goal"));
    goals.fold((0, 0), |(n, entries), xs| (n + 1, entries + if xs.len() == 4 { parts(&xs[2]).len() } else { 0 }))
}

/// The rows from 7 to 13 that are exceeded, where `goals` are the forms of the goals that were taken.
pub fn exceeded(left: &Left, goals: &[Sexp]) -> Vec<usize> {
    let (n, listed) = of_goals(goals);
    let words: usize = left.nodes.iter().map(Vec::len).sum();
    let entries: usize = left.facts.iter().map(|f| f.hyps.len() + f.premises.len() + f.general.len()).sum();
    let counts = [left.vars.len(), left.nodes.len(), words, left.defs.len(), n, left.facts.len(), listed + entries];
    (7..=13).filter(|row| counts[row - 7] > limit(*row)).collect()
}

/// Of rows that one form exceeds, the one that it meets first; nothing where what is left does not tell. Terms are stored as they are
/// made, the rest at the form's end.
pub fn first_met(left: &Left, rows: &[usize]) -> Option<usize> {
    let terms = rows.iter().any(|r| matches!(r, 8 | 9));
    if !terms {
        return rows.iter().min().copied();
    }
    if rows.contains(&7) {
        return None;
    }
    let mut words = 0;
    for (k, node) in left.nodes.iter().enumerate() {
        words += node.len();
        if k >= limit(8) {
            return Some(8);
        }
        if words > limit(9) {
            return Some(9);
        }
    }
    None
}

/// The arguments but one of each term in a judgment, all together.
fn waiting_in(left: &Left, judgment: usize) -> usize {
    let mut inside = vec![false; judgment + 1];
    inside[judgment] = true;
    let mut waiting = 0;
    for k in (0..=judgment).rev().filter(|&k| left.nodes[k].len() > 1) {
        if inside[k] {
            waiting += left.nodes[k].len() - 2;
            left.nodes[k][1..].iter().for_each(|&a| inside[a as usize] = true);
        }
    }
    waiting
}

/// Whether a unification can have more pairs waiting than row 14 allows. It goes down from two judgments; at each level all arguments but one
/// wait, and no term comes twice on a way down, for then its value would contain itself. So the terms in both together bound it.
pub fn pairs_near(left: &Left) -> bool {
    let judgments = (0..left.nodes.len()).filter(|&k| left.outputs[left.nodes[k][0] as usize] == u32::MAX);
    let most = judgments.map(|k| waiting_in(left, k)).max().unwrap_or(0);
    2 * most + 1 > limit(14)
}
