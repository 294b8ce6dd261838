//! Cases at the limits: each row of question 60 exactly full and one past, question 2's length and question 5's depth, and which of two
//! questions comes first where a limit is one of them. The lines are derived by hand from document 01 and the decisions D1 to D22; the
//! comment at a group says from which sentence. Here the rows of the theory; limits_proof.rs has the others.
use crate::expected::{Bytes, LENGTH};
use crate::limits_proof;

pub struct Limit {
    pub name: &'static str,
    pub texts: Bytes,
    pub line: String,
}

// One predicate without arguments, one rule, one goal: enough for an acceptance.
pub const PLAIN: &str = "(pred P ()) (rule r () (P))";
pub const GOAL: &str = "(goal g (P))";
pub const DONE: &str = "(step 0 r ()) (result g 0)";
pub const ONE: &str = "(accepted 1 1 0 0 0 0 0)";

pub fn refused(number: u32, text: u32, form: usize, detail: usize) -> String {
    format!("(refused {number} {text} {form} {detail})")
}

/// The form so many times, with the number in the place of `#`.
pub fn many(n: usize, form: &str) -> String {
    (0..n).map(|k| form.replace('#', &k.to_string())).collect::<Vec<_>>().join(" ")
}

/// Cases under way. A text that is not named is the plain one.
pub struct Cases(pub Vec<Limit>);

impl Cases {
    pub fn put(&mut self, name: &'static str, line: &str, texts: [&str; 3]) {
        self.0.push(Limit { name, texts: texts.map(|t| t.as_bytes().to_vec()), line: line.to_string() });
    }

    pub fn theory(&mut self, name: &'static str, line: &str, theory: &str) {
        self.put(name, line, [theory, GOAL, DONE]);
    }
}

fn padded(text: &str, length: usize) -> String {
    text.to_string() + &" ".repeat(length - text.len())
}

/// "Each text at most 65,536 bytes, theory, goals, proof in turn (2)?"; D1: 2 for all three texts, then 3 for all three.
fn lengths(c: &mut Cases) {
    c.theory("length-theory", ONE, &padded(PLAIN, LENGTH));
    c.theory("length-theory-over", &refused(2, 1, 0, 0), &padded(PLAIN, LENGTH + 1));
    c.put("length-goals", ONE, [PLAIN, &padded(GOAL, LENGTH), DONE]);
    c.put("length-goals-over", &refused(2, 2, 0, 0), [PLAIN, &padded(GOAL, LENGTH + 1), DONE]);
    c.put("length-proof", ONE, [PLAIN, GOAL, &padded(DONE, LENGTH)]);
    c.put("length-proof-over", &refused(2, 3, 0, 0), [PLAIN, GOAL, &padded(DONE, LENGTH + 1)]);
    c.put("order-2-3", &refused(2, 3, 0, 0), ["\u{e9}", GOAL, &" ".repeat(LENGTH + 1)]);
    c.put("order-3-turn", &refused(3, 2, 0, 0), [PLAIN, "\u{e9}", "\u{e9}"]);
}

/// "Is depth at most 64 (5)? Of these two, the one met first in the text." A bracket of depth 64 in each text, and one of 65.
fn depths(c: &mut Cases) {
    let nest = |n: usize| "(".repeat(n) + &")".repeat(n);
    let term = |n: usize| "(f ".repeat(n) + "x" + &")".repeat(n);
    c.theory("depth-theory", &refused(10, 1, 0, 0), &nest(64));
    c.theory("depth-theory-over", &refused(5, 1, 0, 0), &nest(65));
    c.theory("depth-theory-behind", &refused(5, 1, 2, 0), &format!("{PLAIN} {}", nest(65)));
    c.theory("depth-theory-4-first", &refused(4, 1, 2, 0), &format!("{PLAIN} ) {}", nest(65)));
    c.put("depth-goals", &refused(20, 2, 1, 0), [PLAIN, &format!("{GOAL} {}", nest(64)), DONE]);
    c.put("depth-goals-over", &refused(5, 2, 1, 0), [PLAIN, &format!("{GOAL} {}", nest(65)), DONE]);
    let theory = format!("(sort S) (ctor f (S) S) {PLAIN}");
    // the outer bracket is depth 1, so that a definition holds terms of depth 63
    let proof = |n: usize| format!("(var x S) (def ?d {}) {DONE}", term(n));
    c.put("depth-proof", ONE, [&theory, GOAL, &proof(63)]);
    c.put("depth-proof-over", &refused(5, 3, 1, 0), [&theory, GOAL, &proof(64)]);
    c.put("depth-proof-behind", &refused(33, 3, 0, 0), [&theory, GOAL, &format!("(step 0 nobody ()) {}", nest(65))]);
    c.put("depth-proof-done", &refused(5, 3, 2, 0), [&theory, GOAL, &format!("{DONE} {}", nest(65))]);
}

/// Row 1; "put at the moment of storing, behind earlier questions": a name that is not new is 11.
fn sorts(c: &mut Cases) {
    let full = many(64, "(sort S#)");
    c.theory("row-1", ONE, &format!("{full} {PLAIN}"));
    c.theory("row-1-over", &refused(60, 1, 64, 1), &format!("{full} (sort T) {PLAIN}"));
    c.theory("order-1-11", &refused(11, 1, 64, 0), &format!("{full} (sort S63)"));
    c.theory("order-1-11-list", &refused(11, 1, 64, 0), &format!("{full} (sort (T))"));
    c.theory("order-1-10", &refused(60, 1, 64, 1), &format!("{full} (sort T) (sort)"));
}

/// Row 2 counts constructors and predicates together; D19: arguments as they are read, the symbol at the end.
fn symbols(c: &mut Cases) {
    let full = format!("(sort S) {} {} (pred P ())", many(100, "(ctor c# () S)"), many(155, "(pred p# ())"));
    c.theory("row-2", ONE, &format!("{full} (rule r () (P))"));
    c.theory("row-2-over", &refused(60, 1, 257, 2), &format!("{full} (pred Q ())"));
    c.theory("row-2-ctor-over", &refused(60, 1, 257, 2), &format!("{full} (ctor d () S)"));
    c.theory("order-2-11", &refused(11, 1, 257, 0), &format!("{full} (pred P ())"));
    c.theory("order-2-11-sort", &refused(11, 1, 257, 0), &format!("{full} (ctor d () T)"));
    c.theory("order-3-2", &refused(60, 1, 257, 3), &format!("{full} (pred Q ({}))", many(17, "S")));
}

/// Row 3; D19: "the 17th argument behind its own 11". The result sort and the name's being new are asked behind the arguments, its being
/// a name before them.
fn arguments(c: &mut Cases) {
    let (full, over) = (many(16, "S"), many(17, "S"));
    c.theory("row-3", ONE, &format!("(sort S) (pred W ({full})) {PLAIN}"));
    c.theory("row-3-ctor", ONE, &format!("(sort S) (ctor w ({full}) S) {PLAIN}"));
    c.theory("row-3-over", &refused(60, 1, 1, 3), &format!("(sort S) (pred W ({over}))"));
    c.theory("row-3-ctor-over", &refused(60, 1, 1, 3), &format!("(sort S) (ctor w ({over}) S)"));
    c.theory("order-3-11", &refused(11, 1, 1, 0), &format!("(sort S) (pred W ({full} T))"));
    c.theory("order-3-11-variable", &refused(11, 1, 1, 0), &format!("(sort S) (pred W ({full} ?S))"));
    c.theory("order-11-3", &refused(60, 1, 1, 3), &format!("(sort S) (pred W ({over} T))"));
    c.theory("order-3-result", &refused(60, 1, 1, 3), &format!("(sort S) (ctor w ({over}) T)"));
    c.theory("order-3-duplicate", &refused(60, 1, 2, 3), &format!("(sort S) (ctor w () S) (ctor w ({over}) S)"));
    c.theory("order-3-name", &refused(11, 1, 1, 0), &format!("(sort S) (ctor (w) ({over}) S)"));
}

/// Row 4; the rule's judgments and its name come first.
fn rules(c: &mut Cases) {
    let full = format!("(pred P ()) {} (rule r () (P))", many(255, "(rule r# () (P))"));
    c.theory("row-4", ONE, &full);
    c.theory("row-4-over", &refused(60, 1, 257, 4), &format!("{full} (rule s () (P))"));
    c.theory("order-4-11", &refused(11, 1, 257, 0), &format!("{full} (rule r7 () (P))"));
    c.theory("order-4-11-list", &refused(11, 1, 257, 0), &format!("{full} (rule (s) () (P))"));
    c.theory("order-4-12", &refused(12, 1, 257, 0), &format!("{full} (rule s () (P P))"));
}

fn wide() -> String {
    format!("(sort S) (sort T) (ctor c () S) (pred W ({})) (pred V (S)) (pred U (T))", many(16, "S"))
}

/// Row 5; D19: "a new variable behind its 11". A known variable is no new one; each rule has its own; a judgment's count is asked before
/// its arguments.
fn rule_variables(c: &mut Cases) {
    let (wide, full) = (wide(), format!("(W {})", many(16, "?v#")));
    c.theory("row-5", ONE, &format!("{wide} (rule w () {full}) {PLAIN}"));
    c.theory("row-5-over", &refused(60, 1, 6, 5), &format!("{wide} (rule w ({full}) (V ?x))"));
    c.theory("order-5-11", &refused(11, 1, 6, 0), &format!("{wide} (rule w ({full}) (V ?))"));
    c.theory("order-5-12", &refused(12, 1, 6, 0), &format!("{wide} (rule w ({full}) (U ?v3))"));
    c.theory("order-5-known", ONE, &format!("{wide} (rule w ({full}) (V ?v3)) {PLAIN}"));
    c.theory("order-5-later", &refused(60, 1, 6, 5), &format!("{wide} (rule w ({full} (V ?x) (Nobody)) (P))"));
    c.theory("row-5-each", ONE, &format!("{wide} (rule w () {full}) (rule x () {full}) {PLAIN}"));
    c.theory("order-5-count", &refused(12, 1, 6, 0), &format!("{wide} (rule w ({full}) (V ?x ?y))"));
}

/// A rule whose patterns have so many words.
fn filled(n: usize) -> String {
    let blocks = (n - 1) / 17;
    let (long, short) = (many(blocks, &format!("(W {})", many(16, "c"))), many(n - 17 * blocks - 1, "(P)"));
    format!("(rule big ({long} {short}) (P))")
}

/// Row 6; D19: "a head behind its own 11 and 12, before its arguments", "row 5 before row 6"; 12 of a known variable before its word.
fn pattern_words(c: &mut Cases) {
    let base = format!("{} (pred P ())", wide());
    let mut at = |name, line: String, n: usize, behind: &str| c.theory(name, &line, &format!("{base} {} {behind}", filled(n)));
    at("row-6", ONE.into(), 8191, "(rule r () (P))");
    at("row-6-over", refused(60, 1, 8, 6), 8192, "(rule r () (P))");
    at("order-6-12", refused(12, 1, 8, 0), 8192, "(rule r () (P c))");
    at("order-6-arguments", refused(60, 1, 8, 6), 8192, "(rule r () (V nobody))");
    at("order-6-11", refused(11, 1, 8, 0), 8191, "(rule r () (V nobody))");
    let late = |j: &str| format!("(rule late ((W {})) {j})", many(16, "?v#"));
    at("order-5-6", refused(60, 1, 8, 5), 8192 - 18, &late("(V ?x)"));
    at("order-6-known", refused(60, 1, 8, 6), 8192 - 18, &late("(V ?v0)"));
    at("order-6-sort", refused(12, 1, 8, 0), 8192 - 18, &late("(U ?v0)"));
}

pub fn all() -> Vec<Limit> {
    let mut c = Cases(Vec::new());
    for put in [lengths, depths, sorts, symbols, arguments, rules, rule_variables, pattern_words] {
        put(&mut c);
    }
    limits_proof::put(&mut c);
    c.0
}
