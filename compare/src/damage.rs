//! Damaged copies: one place of one text is changed.
use crate::answer::{Texts, items, show};
use crate::random::Random;
use crate::sexp::{Sexp, atom};

/// Words that are at home nowhere or nearly everywhere.
const STRANGE: [&str; 14] = ["nobody", "?", "?q", "0", "1", "+1", "007", "-1", "+", "18446744073709551616", "x0", "step", "()", "sort"];

/// The places of all items, each by the path to it.
fn places(xs: &[Sexp], at: &mut Vec<usize>, out: &mut Vec<Vec<usize>>) {
    for (i, x) in xs.iter().enumerate() {
        at.push(i);
        out.push(at.clone());
        if let Sexp::List(ys) = x {
            places(ys, at, out);
        }
        at.pop();
    }
}

/// The list in which the place is.
fn around<'a>(mut xs: &'a mut Vec<Sexp>, path: &[usize]) -> &'a mut Vec<Sexp> {
    for &i in &path[..path.len() - 1] {
        match &mut xs[i] {
            Sexp::List(ys) => xs = ys,
            Sexp::Atom(_) => unreachable!("a path goes through lists"),
        }
    }
    xs
}

fn words(x: &Sexp, out: &mut Vec<String>) {
    match x {
        Sexp::Atom(a) => out.push(a.clone()),
        Sexp::List(xs) => xs.iter().for_each(|x| words(x, out)),
    }
}

fn renamed(rng: &mut Random, pool: &[String]) -> Sexp {
    match rng.pick(pool) {
        Some(w) if rng.percent(70) => atom(w.clone()),
        _ => match STRANGE[rng.below(STRANGE.len())] {
            "()" => Sexp::List(Vec::new()),
            w => atom(w),
        },
    }
}

/// A place, rather inside a form than the whole of one, and rather not its tag or its index.
fn place(rng: &mut Random, paths: &[Vec<usize>]) -> Option<Vec<usize>> {
    let inside = |p: &&Vec<usize>| p.len() > 2 || (p.len() == 2 && p[1] > 1);
    let deep: Vec<&Vec<usize>> = paths.iter().filter(inside).collect();
    let chosen = if rng.percent(85) { rng.pick(&deep).copied() } else { None };
    chosen.or_else(|| rng.pick(paths)).cloned()
}

/// A number inside a form becomes its neighbour.
fn recount(rng: &mut Random, forms: &mut Vec<Sexp>, paths: &[Vec<usize>]) {
    let mut numbers = Vec::new();
    for path in paths.iter().filter(|p| p.len() > 2 || (p.len() == 2 && p[1] > 1)) {
        if let Sexp::Atom(a) = &around(forms, path)[path[path.len() - 1]]
            && a.parse::<usize>().is_ok()
        {
            numbers.push(path);
        }
    }
    if let Some(path) = rng.pick(&numbers) {
        near(rng, &mut around(forms, path)[path[path.len() - 1]], &[]);
    }
}

/// One change to a text that could be read.
fn change(rng: &mut Random, forms: &mut Vec<Sexp>, pool: &[String]) {
    let mut paths = Vec::new();
    places(forms, &mut Vec::new(), &mut paths);
    let Some(path) = place(rng, &paths) else {
        return forms.push(renamed(rng, pool));
    };
    if rng.percent(15) {
        return recount(rng, forms, &paths);
    }
    let other = rng.pick(&paths).cloned().expect("there is one");
    let copy = around(forms, &other)[other[other.len() - 1]].clone();
    let i = path[path.len() - 1];
    let list = around(forms, &path);
    match rng.below(9) {
        0 => drop(list.remove(i)),
        1 => list.insert(i, list[i].clone()),
        2 => {
            let k = rng.below(list.len());
            list.swap(i, k);
        }
        3 => list[i] = renamed(rng, pool),
        4 => list[i] = copy,
        5 => list[i] = Sexp::List(vec![list[i].clone()]),
        6 => match list[i].clone() {
            Sexp::List(ys) => drop(list.splice(i..=i, ys)),
            Sexp::Atom(_) => list[i] = renamed(rng, pool),
        },
        _ => near(rng, &mut list[i], pool),
    }
}

/// A number becomes its neighbour, a name another one, a list loses its last item.
fn near(rng: &mut Random, x: &mut Sexp, pool: &[String]) {
    match x {
        Sexp::Atom(a) => match a.parse::<usize>() {
            Ok(n) if n > 0 && rng.percent(60) => *x = atom((n - 1).to_string()),
            Ok(n) => *x = atom((n.saturating_add(1)).to_string()),
            Err(_) => *x = renamed(rng, pool),
        },
        Sexp::List(xs) => match xs.len() {
            0 => *x = renamed(rng, pool),
            n => {
                let k = rng.below(n);
                near(rng, &mut xs[k], pool)
            }
        },
    }
}

/// A bracket is lost, or there is one too many.
fn bracket(rng: &mut Random, text: &str) -> String {
    let at: Vec<usize> = text.bytes().enumerate().filter(|(_, b)| matches!(b, b'(' | b')')).map(|(i, _)| i).collect();
    match rng.pick(&at) {
        Some(&i) if rng.percent(70) => text[..i].to_string() + &text[i + 1..],
        Some(&i) => text[..i].to_string() + ["(", ")", ";", " ", "\t", "\x0b", "\x1c", "\r"][rng.below(8)] + &text[i..],
        None => ")".into(),
    }
}

pub fn damage(rng: &mut Random, texts: &Texts) -> Texts {
    let mut out = texts.clone();
    let mut pool = Vec::new();
    for text in [&texts.theory, &texts.goals, &texts.proof] {
        items(text).forms.iter().for_each(|f| words(f, &mut pool));
    }
    let text = match rng.below(20) {
        0 | 1 => &mut out.theory,
        2..=4 => &mut out.goals,
        _ => &mut out.proof,
    };
    if rng.percent(4) {
        *text = bracket(rng, text);
        return out;
    }
    let mut forms = items(text).forms;
    for _ in 0..1 + rng.below(6) / 5 {
        change(rng, &mut forms, &pool);
    }
    *text = show(&forms);
    out
}
