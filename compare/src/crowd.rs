//! Crowded copies: before a case's own forms stand so many others that a row of question 60 is met somewhere among its own, or just not.
use crate::answer::{Texts, items, show};
use crate::limits::many;
use crate::random::Random;
use crate::rows::LIMITS;
use crate::schematic::check_left;
use crate::sexp::{Sexp, atom};

/// A sort, constructors and a predicate under names that no generated theory has.
const MORE: &str = "(sort Zs) (ctor Z () Zs) (ctor F (Zs) Zs) (ctor W (Zs Zs Zs Zs Zs Zs Zs Zs Zs Zs Zs Zs Zs Zs Zs Zs) Zs) (pred Q ())";

const ROWS: [usize; 11] = [1, 2, 4, 6, 7, 8, 9, 10, 11, 12, 13];

/// How many a case has of what the row counts, about.
fn own(row: usize, t: &Texts) -> usize {
    let Some(left) = check_left(&t.theory, &t.goals, t.proof.as_bytes()).1 else { return 8 };
    match row {
        7 => left.vars.len(),
        8 => left.nodes.len(),
        9 => left.nodes.iter().map(Vec::len).sum(),
        10 => left.defs.len(),
        12 => left.facts.len(),
        13 => left.facts.iter().map(|f| f.hyps.len() + f.premises.len() + f.general.len()).sum(),
        6 => 40,
        _ => 4,
    }
}

/// Terms one inside the other, 60 to a definition, each made by one of these openings and closings.
fn nested(n: usize, open: &str, close: &str) -> String {
    let (mut out, mut last, mut rest) = (String::new(), "Z".to_string(), n);
    for k in 0.. {
        let now = rest.min(60);
        out += &format!("(def ?z{k} {}{last}{}) ", open.repeat(now), close.repeat(now));
        (last, rest) = (format!("?z{k}"), rest - now);
        if rest == 0 {
            break;
        }
    }
    out
}

fn shifted(x: &Sexp, by: usize) -> Sexp {
    match x {
        Sexp::Atom(a) => a.parse::<usize>().map_or(x.clone(), |n| atom(n.saturating_add(by).to_string())),
        Sexp::List(xs) if xs.is_empty() => x.clone(),
        Sexp::List(xs) => Sexp::List(std::iter::once(shifted(&xs[0], by)).chain(xs[1..].iter().cloned()).collect()),
    }
}

fn all(x: &Sexp, by: usize) -> Sexp {
    match x {
        Sexp::List(xs) => Sexp::List(xs.iter().map(|x| shifted(x, by)).collect()),
        Sexp::Atom(_) => x.clone(),
    }
}

fn cases(x: &Sexp, by: usize) -> Sexp {
    let one = |c: &Sexp| match c {
        Sexp::List(xs) if xs.len() > 1 => {
            let mut xs = xs.clone();
            xs[1] = shifted(&xs[1], by);
            Sexp::List(xs)
        }
        _ => c.clone(),
    };
    match x {
        Sexp::List(xs) => Sexp::List(xs.iter().map(one).collect()),
        Sexp::Atom(_) => x.clone(),
    }
}

/// A form whose facts are numbered from `by` on.
fn moved(form: &Sexp, by: usize) -> Sexp {
    let Sexp::List(mut xs) = form.clone() else { return form.clone() };
    let tag = xs.first().map(Sexp::to_string).unwrap_or_default();
    let n = xs.len();
    if n > 1 && matches!(&tag[..], "step" | "hyp" | "apply" | "induct" | "invert") {
        xs[1] = shifted(&xs[1], by);
    }
    match (&tag[..], n) {
        ("step", 4..) => xs[3] = all(&xs[3], by),
        ("result", 3) => xs[2] = shifted(&xs[2], by),
        ("apply", 5) => (xs[2], xs[4]) = (shifted(&xs[2], by), all(&xs[4], by)),
        ("induct", 5) => xs[4] = all(&xs[4], by),
        ("induct", 6) => (xs[3], xs[5]) = (all(&xs[3], by), all(&xs[5], by)),
        ("invert", 6) => (xs[2], xs[3], xs[5]) = (shifted(&xs[2], by), all(&xs[3], by), cases(&xs[5], by)),
        _ => (),
    }
    Sexp::List(xs)
}

pub fn crowded(rng: &mut Random, base: &Texts) -> Texts {
    let row = ROWS[rng.below(ROWS.len())];
    let n = LIMITS[row].saturating_sub(rng.below(own(row, base) + 3));
    let theory = format!("{} {MORE}", base.theory);
    let Texts { goals, proof, .. } = base.clone();
    let (front_theory, front_goals, front_proof) = match row {
        1 => (many(n, "(sort z#)"), String::new(), String::new()),
        2 => (many(n, "(pred z# ())"), String::new(), String::new()),
        4 => (format!("(pred Q0 ()) {}", many(n, "(rule z# () (Q0))")), String::new(), String::new()),
        6 => (format!("(pred Q0 ()) (rule zz ({}) (Q0))", "(Q0)".repeat(n.saturating_sub(1))), String::new(), String::new()),
        7 => (String::new(), many(n, "(var z# Zs)"), String::new()),
        8 => (String::new(), String::new(), nested(n.saturating_sub(1), "(F ", ")")),
        9 => (String::new(), String::new(), nested(n / 17, "(W ", &format!(" {})", many(15, "Z")))),
        10 => (String::new(), String::new(), many(n, "(def ?z# Z)")),
        11 => (String::new(), many(n, "(goal z# (Q))"), String::new()),
        13 => (String::new(), format!("(goal z ({}) (Q))", "(Q)".repeat(n)), String::new()),
        _ => (String::new(), String::new(), many(n, "(hyp # (Q))")),
    };
    let proof = if row == 12 { show(&items(&proof).forms.iter().map(|f| moved(f, n)).collect::<Vec<_>>()) } else { proof };
    let join = |front: String, text: String| if front.is_empty() { text } else { format!("{front} {text}") };
    Texts { theory: join(front_theory, theory), goals: join(front_goals, goals), proof: join(front_proof, proof) }
}
