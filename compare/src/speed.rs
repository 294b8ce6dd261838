//! `compare speed`: the original and this product on the same texts, in one run, both built for release.
//!
//! Ours is linked where the feature of its crate is on; without it only the original is timed. Times are the best of several rounds, and
//! the two take turns, so that both see the same machine.
use crate::ours;
use crate::sexp::{Sexp, parse};
use crate::{cases, kernel, lex, oracle, schematic};
use std::hint::black_box;
use std::time::{Duration, Instant};

const BYTES: usize = 65_536;
const ROUNDS: usize = 25;

/// One row: what is timed, the original, and ours where it is linked.
pub struct Row<'a> {
    pub name: &'a str,
    pub original: Box<dyn FnMut() + 'a>,
    pub ours: Option<Box<dyn FnMut() + 'a>>,
}

/// The time of one call, by calling for at least 5 milliseconds.
pub fn once(f: &mut dyn FnMut()) -> Duration {
    let mut n = 1;
    loop {
        let start = Instant::now();
        for _ in 0..n {
            f();
        }
        let took = start.elapsed();
        if took >= Duration::from_millis(5) {
            return took / n;
        }
        n *= 2;
    }
}

fn measure(row: &mut Row) -> (Duration, Option<Duration>) {
    let (mut original, mut ours) = (Duration::MAX, None);
    for _ in 0..ROUNDS {
        original = original.min(once(&mut row.original));
        if let Some(f) = &mut row.ours {
            let took = once(f);
            ours = Some(ours.map_or(took, |best: Duration| best.min(took)));
        }
    }
    (original, ours)
}

fn print(row: &mut Row) {
    let (original, ours) = measure(row);
    let micros = |d: Duration| d.as_secs_f64() * 1e6;
    match ours {
        Some(ours) => println!("{:44} {:12.1} {:12.1} {:8.2}", row.name, micros(original), micros(ours), micros(ours) / micros(original)),
        None => println!("{:44} {:12.1} {:>12} {:>8}", row.name, micros(original), "-", "-"),
    }
}

// Texts

fn repeated(unit: &str) -> String {
    unit.repeat(BYTES / unit.len())
}

/// Generated proofs, one behind the other, as many as fit.
fn proofs() -> String {
    let mut text = String::new();
    for seed in 0.. {
        let more = cases::generate(seed)[0].proof.clone();
        if text.len() + more.len() + 1 > BYTES {
            return text;
        }
        text = text + &more + "\n";
    }
    text
}

/// 200 declarations: 10 sorts, 60 constructors, 30 predicates, 100 rules.
fn declarations() -> String {
    let mut text = String::new();
    for i in 0..10 {
        text += &format!("(sort S{i})\n");
    }
    for i in 0..60 {
        let s = i % 10;
        text += &format!("(ctor c{i} ({}) S{s})\n", ["", &format!("S{s}"), &format!("S{s} S{}", (s + 1) % 10)][i % 3]);
    }
    for i in 0..30 {
        text += &format!("(pred P{i} (S{} S{}))\n", i % 10, (i + 1) % 10);
    }
    for i in 0..100 {
        let p = i % 30;
        text += &format!("(rule r{i} ((P{p} ?a ?b) (P{p} ?c ?b)) (P{p} ?a ?b))\n");
    }
    text
}

fn tokens(text: &str) -> usize {
    let mut lexer = lex::Lexer::new(text.as_bytes());
    let mut n = 0;
    while let Ok(Some(_)) = lexer.token() {
        n += 1;
    }
    n
}

fn readers() {
    let nest = "(".repeat(60) + &")".repeat(60);
    let texts = [
        ("nests of depth 60", repeated(&nest)),
        ("() again and again", repeated("()")),
        ("one comment", ";".to_string() + &"x".repeat(BYTES - 1)),
        ("one atom", "x".repeat(BYTES)),
        ("proofs", proofs()),
    ];
    for (name, text) in &texts {
        let lists = parse(text).map(|xs| xs.iter().filter(|x| matches!(x, Sexp::List(_))).count());
        assert!(ours::forms(text).is_none_or(|n| lists == Ok(n)), "both read the same forms");
        let whole = format!("lexer: {name}");
        print(&mut Row {
            name: &whole,
            original: Box::new(|| {
                black_box(tokens(text));
            }),
            ours: None,
        });
        let whole = format!("reader: {name}");
        print(&mut Row { name: &whole, original: Box::new(|| drop(black_box(parse(text)))), ours: ours::read(text) });
    }
}

fn theories() {
    let text = declarations();
    let original = || {
        drop(black_box(kernel::Theory::parse(&text)));
        drop(black_box(oracle::Spec::parse(&text)));
    };
    assert!(kernel::Theory::parse(&text).is_ok(), "the theory is a good one");
    print(&mut Row { name: "theory: 200 declarations", original: Box::new(original), ours: ours::theory(&text, 100) });
}

// Terms

const TERMS: usize = 4096;

/// A chain of so many terms: a leaf, then each over the last one and the leaf. The number of the last term.
fn intern(terms: usize) -> usize {
    let mut store = oracle::Store::new();
    let leaf = store.intern(&[0]);
    (1..terms).fold(leaf, |last, _| store.intern(&[9, last, leaf])) as usize
}

/// What a form more costs the original: the time of the proof with some such forms less the time without them, by their number.
fn form_more(theory: &str, goals: &str, proof: &str, forms: &[String]) -> Duration {
    let with = format!("{proof} {}", forms.join(" "));
    for text in [proof, &with] {
        let why = schematic::check(theory, goals, text.as_bytes()).err();
        assert!(why.is_some_and(|w| w.starts_with("missing results")), "the forms are taken");
    }
    let mut best = [Duration::MAX; 2];
    for _ in 0..ROUNDS {
        for (text, best) in [proof, &with].into_iter().zip(&mut best) {
            *best = (*best).min(once(&mut || drop(black_box(schematic::check(theory, goals, text.as_bytes())))));
        }
    }
    best[1].saturating_sub(best[0]) / forms.len() as u32
}

const TREES: &str = "(sort S) (ctor c () S) (ctor f (S S) S) (pred P (S)) (rule p () (P ?a)) (rule q ((P ?a)) (P ?a))";
const GOALS: &str = "(var x S) (var y0 S) (var y1 S) (var y2 S) (var y3 S) (var y4 S) (var y5 S) (var y6 S) (var y7 S) (goal g (P c))";

/// Abbreviations d0 .. dn, each twice the one before: a term of few nodes and very many paths.
fn doubled(n: usize) -> String {
    let levels = (1..=n).map(|k| format!("(def ?d{k} (f ?d{} ?d{}))", k - 1, k - 1));
    format!("(def ?d0 x) {}", levels.collect::<Vec<_>>().join(" "))
}

/// A chain of abbreviations, each two nodes more than the one before.
fn chain(n: usize) -> String {
    let levels = (1..=n).map(|k| format!("(def ?d{k} (f ?d{} c))", k - 1));
    format!("(def ?d0 x) {}", levels.collect::<Vec<_>>().join(" "))
}

fn best(f: &mut dyn FnMut()) -> f64 {
    (0..ROUNDS).map(|_| once(f)).min().expect("at least one round").as_secs_f64() * 1e6
}

fn row_of(name: &str, original: Duration, ours: Option<Box<dyn FnMut() + '_>>) {
    let micros = original.as_secs_f64() * 1e6;
    match ours {
        Some(mut f) => {
            let took = best(&mut *f);
            println!("{name:44} {micros:12.1} {took:12.1} {:8.2}", took / micros);
        }
        None => println!("{name:44} {micros:12.1} {:>12} {:>8}", "-", "-"),
    }
}

/// Where the original's time is out of reach.
fn row_of_ours(name: &str, ours: Option<Box<dyn FnMut() + '_>>) {
    if let Some(mut f) = ours {
        println!("{name:44} {:>12} {:12.1} {:>8}", "-", best(&mut *f), "-");
    }
}

fn terms() {
    for (name, ours) in [("store: 4,096 terms", ours::intern(TERMS)), ("store: 4,096 terms, a call each", ours::intern_each(TERMS))] {
        print(&mut Row { name, original: Box::new(|| assert_eq!(intern(black_box(TERMS)), TERMS - 1)), ours });
    }
    let proof = format!("{} (step 0 p () (?a ?d2000))", chain(2000));
    let applies: Vec<String> = (0..8).map(|k| format!("(apply {} 0 ((x y{k})) ())", k + 1)).collect();
    let took = form_more(TREES, GOALS, &proof, &applies);
    row_of("substitute: 4,000 nodes, one apply more", took, ours::substitute(2000));
    for levels in [16, 20, 24] {
        let proof = format!("{} (step 0 p () (P ?d{levels}))", doubled(levels));
        let took = form_more(TREES, GOALS, &proof, &["(step 1 q (0))".to_string()]);
        let name = format!("variables: {levels} levels of (f ?k ?k), one step more");
        row_of(&name, took, ours::variables(levels));
    }
    row_of_ours("variables: 40 levels of (f ?k ?k)", ours::variables(40));
}

/// Variables, one more for the rule that has two sides be one, and two chains of abbreviations: over the variables, and over what they get.
fn chains(levels: usize, linked: bool) -> String {
    let vars = (0..levels).map(|k| format!("(var x{k} S)"));
    let rows = (0..levels).rev().map(|k| {
        let value = if linked && 0 < k { format!("x{}", k - 1) } else { "c".to_string() };
        format!("(def ?l{k} (f x{k} ?l{})) (def ?r{k} (f {value} ?r{}))", k + 1, k + 1)
    });
    let ends = format!("(var z S) (def ?l{levels} c) (def ?r{levels} c)");
    vars.chain([ends]).chain(rows).collect::<Vec<_>>().join(" ")
}

/// The only rule for E has one side twice, so that an `invert` of a hypothesis on two terms has the original unify these. With values that
/// change the store fills up, so that there are fewer.
fn unifications() {
    let theory = format!("{TREES} (pred E (S S)) (rule e () (E ?a ?a))");
    for (name, levels, linked) in [("unify: 512 variables", 511, false), ("unify: 60 variables, values that change", 59, true)] {
        let proof = format!("{} (step 0 p () (P c)) (hyp 1 (E ?l0 ?r0))", chains(levels, linked));
        let took = form_more(&theory, "(goal g (P c))", &proof, &["(invert 2 1 () (P c) ((e 0 (z))))".to_string()]);
        row_of(name, took, ours::unify(levels, linked));
    }
}

pub fn run() -> Result<(), String> {
    println!("{:44} {:>12} {:>12} {:>8}", "microseconds", "original", "ours", "ratio");
    readers();
    theories();
    terms();
    unifications();
    Ok(())
}
