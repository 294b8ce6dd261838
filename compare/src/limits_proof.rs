//! Cases at the rows of question 60 that goals and proof can meet: 7 to 14.
use crate::limits::{Cases, DONE, GOAL, ONE, PLAIN, many, refused};

/// Row 7. Goals and proof have one table.
fn variables(c: &mut Cases) {
    let (theory, full) = (format!("(sort S) {PLAIN}"), many(512, "(var v# S)"));
    let mut at = |name, line: &str, more: &str| c.put(name, line, [&theory, &format!("{full} {more} {GOAL}"), DONE]);
    at("row-7", ONE, "");
    at("row-7-over", &refused(60, 2, 512, 7), "(var x S)");
    at("order-7-21", &refused(21, 2, 512, 0), "(var v9 S)");
    at("order-7-21-sort", &refused(21, 2, 512, 0), "(var x T)");
    let goals = format!("{} {GOAL}", many(509, "(var v# S)"));
    let proof = format!("(var x S) (var y S) (var z S) (var u S) {DONE}");
    c.put("row-7-proof", &refused(60, 3, 3, 7), [&theory, &goals, &proof]);
}

/// "For a rule without a case, variables are made and stay made." A rule of 15 variables that cannot conclude what is inverted: each
/// `invert` makes 15; 34 times 15 is 510. The making comes behind the reading of the cases (41) and of the judgment (22).
fn made_variables(c: &mut Cases) {
    let sorts = format!("(sort S) (ctor a () S) (ctor b () S) (pred W ({}))", many(16, "S"));
    let (w, hyp) = (format!("(rule w () (W b {}))", many(15, "?v#")), format!("(hyp 0 (W a {}))", many(15, "a")));
    let maker = format!("{sorts} {w} {PLAIN}");
    let proof = |n: usize, behind: &str| {
        let inverts: Vec<String> = (1..=n).map(|k| format!("(invert {k} 0 () (P) ())")).collect();
        format!("{hyp} {} {behind}", inverts.join(" "))
    };
    let done = "(step 35 r ()) (result g 35)";
    let mut at = |name, line: &str, n: usize, behind: &str| c.put(name, line, [&maker, GOAL, &proof(n, behind)]);
    at("row-7-kept", "(accepted 36 1 0 1 0 34 0)", 34, &format!("(var x S) (var y S) {done}"));
    at("row-7-kept-over", &refused(60, 3, 37, 7), 34, "(var x S) (var y S) (var z S)");
    at("row-7-made", &refused(60, 3, 35, 7), 35, "(var x S)");
    at("order-7-41", &refused(41, 3, 35, 0), 34, "(invert 35 0 () (P) (w))");
    at("order-7-22", &refused(22, 3, 35, 0), 34, "(invert 35 0 () (Q) ())");
    // a rule before it that lacks its case is refused first
    let goals = format!("{} {GOAL}", many(500, "(var v# S)"));
    let other = format!("{sorts} (rule one () (W {})) {w} {PLAIN}", many(16, "a"));
    let proof = format!("{hyp} (invert 1 0 () (P) ())");
    c.put("order-47-7", &refused(47, 3, 1, 0), [&other, &goals, &proof]);
    c.put("order-7-made-first", &refused(60, 3, 1, 7), [&maker, &goals, &proof]);
}

/// Row 8. (P), c and 4,094 terms over it, 63 to a definition. D21: "an argument read is stored before a wrong count behind it is seen".
fn terms(c: &mut Cases) {
    let theory = format!("(sort S) (ctor c () S) (ctor f (S) S) (pred R (S S)) (pred V (S)) (rule v () (V ?a)) {PLAIN}");
    let nest = |n: usize, x: &str| "(f ".repeat(n) + x + &")".repeat(n);
    let mut proof = format!("(def ?d0 {})", nest(62, "c"));
    (1..=64).for_each(|k| proof += &format!(" (def ?d{k} {})", nest(63, &format!("?d{}", k - 1))));
    let mut at = |name, line: &str, behind: &str| c.put(name, line, [&theory, GOAL, &format!("{proof} {behind}")]);
    let over = refused(60, 3, 65, 8);
    at("row-8", ONE, DONE);
    at("row-8-stands", ONE, &format!("(def ?e (f (f ?d9))) {DONE}"));
    at("row-8-over", &over, "(def ?e (f ?d64))");
    at("order-8-23", &over, "(hyp 0 (P (f ?d64)))");
    at("order-23-8", &refused(23, 3, 65, 0), "(hyp 0 (P ?d64))");
    at("order-8-22", &over, "(hyp 0 (R (f ?d64) nobody))");
    at("order-22-8", &refused(22, 3, 65, 0), "(hyp 0 (R ?d64 nobody))");
    at("order-8-33", &over, "(def ?d0 (f ?d64))");
    at("order-33-8", &refused(33, 3, 65, 0), "(def ?d0 ?d64)");
    at("late-build-8", &over, "(step 0 v () (?a c))");
    at("row-8-variable", &refused(60, 3, 66, 8), "(var x S) (def ?e x)");
}

/// A proof that fills the 16,384 words in 71 forms, with 56 facts. (P) of the goal is 1 word. The first fact stores x and y0 .. y15, 16
/// terms and a judgment of 17: 306. An instance for a new value has 1 and 17 times 17, 290. 55 of them leave 127: 7 terms of 17, and 8
/// variables.
fn full_words() -> String {
    let row = |i: usize| (0..16).map(|k| if k == i { format!("y{i}") } else { "x".into() }).collect::<Vec<_>>().join(" ");
    let wide: Vec<String> = (0..16).map(|i| format!("(w {})", row(i))).collect();
    let applies: Vec<String> = (0..55).map(|k| format!("(apply {} 0 ((x y{})) ())", k + 1, k + 16)).collect();
    let defs: Vec<String> = (0..7).map(|i| format!("(def ?w{i} (w {}))", many(16, &format!("y{i}")))).collect();
    format!("(step 0 q () (Q {})) {} {} {}", wide.join(" "), applies.join(" "), defs.join(" "), many(8, "(def ?z# z#)"))
}

/// Row 9. A reference's instance is made when it is read, before the conclusion is compared (52) and before the next reference (34); in
/// `apply` the conclusion's behind the number of references (37). A binding's term is stored before the fact is looked up.
fn term_words(c: &mut Cases) {
    let family = format!(
        "(sort S) (ctor c () S) (ctor w ({0}) S) (pred Q ({0})) (rule q () (Q {1})) (pred V (S)) (rule v () (V ?a)) (pred R (S S)) {PLAIN}",
        many(16, "S"),
        many(16, "?v#")
    );
    let goals = format!("(var x S) {} {} {GOAL}", many(90, "(var y# S)"), many(9, "(var z# S)"));
    let full = full_words();
    let mut at = |name, line: &str, behind: &str| c.put(name, line, [&family, &goals, &format!("{full} {behind}")]);
    let over = refused(60, 3, 71, 9);
    at("row-9", "(accepted 57 1 0 0 0 0 0)", "(def ?o x) (step 56 r ()) (result g 56)");
    at("row-9-over", &over, "(def ?o c)");
    at("order-9-23", &over, "(hyp 56 (P c))");
    at("order-9-22", &over, "(hyp 56 (R c nobody))");
    at("order-23-9", &refused(23, 3, 71, 0), "(hyp 56 (P x))");
    at("order-22-9", &refused(22, 3, 71, 0), "(hyp 56 (R x nobody))");
    at("order-9-33", &over, "(def ?z0 c)");
    at("late-reference", &over, "(result g (0 (x z0)))");
    at("late-reference-52", &refused(52, 3, 71, 0), "(result g (0 (x y16)))");
    at("late-apply-37", &refused(37, 3, 71, 0), "(apply 56 0 ((x z0)) (99))");
    at("late-apply", &over, "(apply 56 0 ((x z0)) ())");
    at("late-binding", &over, "(apply 56 99 ((x c)) ())");
    at("late-binding-34", &refused(34, 3, 71, 0), "(apply 56 99 ((x x)) ())");
    at("late-build", &over, "(step 56 v () (?a x))");
    at("late-build-38", &refused(38, 3, 71, 0), "(step 56 v ())");
}

/// Row 10; the name's being new is asked behind the term, the limit behind both.
fn abbreviations(c: &mut Cases) {
    let (theory, full) = (format!("(sort S) (ctor c () S) {PLAIN}"), many(512, "(def ?d# c)"));
    let mut at = |name, line: &str, behind: &str| c.put(name, line, [&theory, GOAL, &format!("{full} {behind}")]);
    at("row-10", ONE, DONE);
    at("row-10-over", &refused(60, 3, 512, 10), "(def ?e c)");
    at("order-10-33", &refused(33, 3, 512, 0), "(def ?d9 c)");
    at("order-10-33-name", &refused(33, 3, 512, 0), "(def e c)");
    at("order-10-22", &refused(22, 3, 512, 0), "(def ?d9 nobody)");
    at("order-10-23", &refused(23, 3, 512, 0), "(def ?d9 (c))");
}

/// Row 11; a variable is no goal.
fn goals(c: &mut Cases) {
    let (theory, full) = (format!("(sort S) {PLAIN}"), many(128, "(goal g# (P))"));
    let results = format!("(step 0 r ()) {}", many(128, "(result g# 0)"));
    let mut at = |name, line: &str, more: &str, proof: &str| c.put(name, line, [&theory, &format!("{full} {more}"), proof]);
    at("row-11", "(accepted 1 128 0 0 0 0 0)", "", &results);
    at("row-11-over", &refused(60, 2, 128, 11), "(goal h (P))", DONE);
    at("order-11-24", &refused(24, 2, 128, 0), "(goal g5 (P))", DONE);
    at("order-11-24-list", &refused(24, 2, 128, 0), "(goal (h) (P))", DONE);
    at("order-11-22", &refused(22, 2, 128, 0), "(goal h (Q))", DONE);
    at("row-11-var", &refused(53, 3, 0, 128), "(var x S)", "");
}

/// Row 12; "1,024 facts stand, the next gets 60, row 12"; the index and every other question come first.
fn facts(c: &mut Cases) {
    let (theory, full) = ("(pred P ()) (rule r ((P)) (P))", many(1024, "(hyp #(P))"));
    let mut at = |name, line: &str, behind: &str| c.put(name, line, [theory, "(goal g ((P)) (P))", &format!("{full} {behind}")]);
    at("row-12", "(accepted 1024 1 0 1024 0 0 0)", "(result g 1023)");
    at("row-12-over", &refused(60, 3, 1024, 12), "(hyp 1024 (P))");
    at("order-12-32", &refused(32, 3, 1024, 0), "(hyp 1025 (P))");
    at("order-12-34", &refused(34, 3, 1024, 0), "(step 1024 r (1024))");
}

/// A proof that fills the 16,384 entries: 256 hypotheses with one entry each, 16 facts with 16, and 62 with 256; facts 0 to 333.
fn full_lists(last: &str) -> String {
    let numbers = |from: usize| (from..from + 16).map(|k| k.to_string()).collect::<Vec<_>>().join(" ");
    let joins: Vec<String> = (0..16).map(|k| format!("(step {} join ({}))", 256 + k, numbers(16 * k))).collect();
    let ones: Vec<String> = (273..333).map(|k| format!("(step {k} one (272))")).collect();
    let (hyps, joins, ones) = (many(256, "(hyp #(P))"), joins.join(" "), ones.join(" "));
    format!("{hyps} {joins} (step 272 join ({})) {ones} {last}", numbers(256))
}

/// Row 13; a fact without entries is still stored. D22: hypotheses are merged, so that naming one fact twice adds nothing. "The lower of
/// two at one moment", D20: "60.12 then 60.13".
fn lists(c: &mut Cases) {
    let join = format!("(pred P ()) (rule r () (P)) (rule one ((P)) (P)) (rule join ({}) (P))", "(P)".repeat(16));
    let theory = format!("{join} (pred Q ()) (rule two ((Q)) (P))");
    let full = full_lists("(step 333 one (272))");
    let mut at = |name, line: &str, behind: &str| c.put(name, line, [&theory, GOAL, &format!("{full} {behind}")]);
    at("row-13", "(accepted 335 1 0 256 0 0 0)", "(step 334 r ()) (result g 334)");
    at("row-13-over", &refused(60, 3, 334, 13), "(step 334 one (5))");
    at("row-13-hyp-over", &refused(60, 3, 334, 13), "(hyp 334 (P))");
    at("order-13-38", &refused(38, 3, 334, 0), "(step 334 two (5))");
    let steps: Vec<String> = (334..1024).map(|k| format!("(step {k} r())")).collect();
    at("order-12-13", &refused(60, 3, 1024, 12), &format!("{} (hyp 1024 (P))", steps.join(" ")));
    let some: Vec<String> = (0..16).map(|k| k.to_string()).collect();
    let less = full_lists(&format!("(step 333 join ({}))", some.join(" ")));
    let merged = format!("{less} (step 334 join ({})) (result g 334)", many(16, "7"));
    c.put("row-13-merged", "(accepted 335 1 0 256 0 0 0)", [&theory, "(goal g ((P)) (P))", &merged]);
}

/// Row 13 in the goals, whose table it shares: entries as written, so that a judgment listed twice counts twice (D22); D20: "60.11 then
/// 60.13", when every other question of the form has been put.
fn goal_lists(c: &mut Cases) {
    let listed = |n: usize, name: &str| format!("(goal {name} ({}) (P))", "(P)".repeat(n));
    let mut at = |name, line: &str, goals: &str, proof: &str| c.put(name, line, [PLAIN, goals, proof]);
    at("row-13-goal", ONE, &listed(16_384, "g"), DONE);
    at("row-13-goal-over", &refused(60, 2, 0, 13), &listed(16_385, "g"), DONE);
    at("row-13-both", &refused(60, 3, 1, 13), &listed(16_383, "g"), "(hyp 0 (P)) (hyp 1 (P))");
    at("order-13-24", &refused(24, 2, 1, 0), &format!("{GOAL} {}", listed(16_385, "g")), DONE);
    let full = format!("{} {}", many(127, "(goal g# (P))"), listed(16_384, "g"));
    at("order-11-13", &refused(60, 2, 128, 11), &format!("{full} {}", listed(1, "h")), DONE);
}

/// Row 14. Two terms, each 16 wide and nested in the last argument, that differ at the bottom: 15 pairs stay at each level. A predicate of
/// n arguments, the nests last, leaves n - 1 pairs waiting at first. D21: "waiting pairs counted without the one taken".
fn pairs(c: &mut Cases) {
    let nest = |bottom: &str, depth: usize| format!("(w {} ", many(15, "c")).repeat(depth) + bottom + &")".repeat(depth);
    let theory = |n: usize, nested: &str| {
        let (sixteen, sorts, args) = (many(16, "S"), many(n, "S"), many(n - 1, "c"));
        format!("(sort S) (ctor c () S) (ctor d () S) (ctor w ({sixteen}) S) (pred Q ({sorts})) (rule q () (Q {args} {nested})) {PLAIN}")
    };
    let proof = |n: usize, nested: &str| {
        let done = "(step 2 r ()) (result g 2)";
        format!("(hyp 0 (Q {} {nested})) (invert 1 0 () (P) ()) {done}", many(n - 1, "c"))
    };
    let whole = "(accepted 3 1 0 1 0 1 0)";
    let mut at = |name, line: &str, n: usize, depth: usize, behind: [&str; 2]| {
        let [left, right] = [nest("c", depth) + behind[0], nest("d", depth) + behind[1]];
        let m = n - behind[0].len() / 2;
        let theory = theory(n, "#").replace(&format!("{} #", many(n - 1, "c")), &format!("{} {left}", many(m - 1, "c")));
        c.put(name, line, [&theory, GOAL, &proof(m, &right)]);
    };
    at("row-14", whole, 2, 34, ["", ""]);
    at("row-14-over", &refused(60, 3, 1, 14), 3, 34, ["", ""]);
    at("row-14-deeper", &refused(60, 3, 1, 14), 2, 35, ["", ""]);
    // the last argument is taken first: a clash there ends it before the nest before it is opened
    at("row-14-last-first", whole, 4, 34, [" c", " d"]);
    at("row-14-not-last", &refused(60, 3, 1, 14), 4, 34, [" c", " c"]);
}

pub fn put(c: &mut Cases) {
    for put in [variables, made_variables, terms, term_words, abbreviations, goals, facts, lists, goal_lists, pairs] {
        put(c);
    }
}
