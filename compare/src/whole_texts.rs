//! The texts on which whole checks are timed. Each is accepted, or refused as its name says; `compare speed` asserts it.
use crate::answer::Texts;
use crate::blocks;

/// A row of the table: its name, its texts and the answer.
pub struct Row {
    pub name: &'static str,
    pub texts: Texts,
    pub line: String,
}

fn joined(parts: impl Iterator<Item = String>) -> String {
    parts.collect::<Vec<_>>().join("\n")
}

/// Example A.
fn small() -> Row {
    Row { name: "small", texts: blocks::example(), line: "(accepted 4 1 1 1 1 0 0)".into() }
}

/// One round of every form over the theory of the examples: 14 facts from index `b` on, with a variable, an abbreviation and a result of
/// its own.
fn round(k: usize) -> String {
    let b = 14 * k;
    let n = |i: usize| b + i;
    let forms = [
        format!("(var y{k} Pass) (def ?d{k} (renew (renew y{k})))"),
        format!("(step {} c0 ())", n(0)),
        format!("(hyp {} (Child y{k}))", n(1)),
        format!("(step {} c1 ({}) (Child (renew y{k})))", n(2), n(1)),
        format!("(induct {} x (Child x) (({}) ({} y{k})))", n(3), n(0), n(2)),
        format!("(step {} c1 (({} (x ?d{k}))) (?p ?d{k}))", n(4), n(3)),
        format!("(hyp {} (Same x x)) (invert {} {} () (Bad x) ())", n(5), n(6), n(5)),
        format!("(hyp {} ((Child y{k})) (Child (renew y{k})) (y{k}))", n(7)),
        format!("(apply {} {} ((y{k} first)) ({}))", n(8), n(7), n(0)),
        format!("(hyp {} (Adult x)) (step {} c1 ({}))", n(9), n(10), n(0)),
        format!("(invert {} {} () (Child x) ((a1 {} ())))", n(11), n(9), n(10)),
        format!("(step {} c1 (({} (x y{k}))))", n(12), n(3)),
        format!("(induct {} x ({}) (Child x) (({}) ({} y{k})))", n(13), n(9), n(0), n(12)),
        format!("(result g{k} {})", n(3)),
    ];
    forms.join("\n")
}

/// 504 facts of every form, some 20 KB.
fn mid() -> Row {
    let goals = format!("(var x Pass)\n{}", joined((0..36).map(|k| format!("(goal g{k} (Child x))"))));
    let texts = Texts { goals, proof: joined((0..36).map(round)), ..blocks::example() };
    Row { name: "mid", texts, line: "(accepted 504 36 36 144 72 72 72)".into() }
}

/// So many renewals, each by a step on the one before.
fn renewals(n: usize, more: impl Fn(usize) -> String) -> String {
    let steps = (1..n).map(|k| format!("(step {k} c1 ({}){})", k - 1, more(k)));
    joined(std::iter::once("(step 0 c0 ())".to_string()).chain(steps))
}

/// 1,024 facts, each over the last; the goal is the first of them. Abbreviations spell every third conclusion, some 37 KB.
fn chain() -> Row {
    let mut forms = vec!["(step 0 c0 ()) (def ?d0 first)".to_string()];
    for k in 1..1024 {
        let stated = if k % 3 == 0 { format!(" (Child ?d{})", k / 3) } else { String::new() };
        if k % 3 == 0 {
            forms.push(format!("(def ?d{} (renew (renew (renew ?d{}))))", k / 3, k / 3 - 1));
        }
        forms.push(format!("(step {k} c1 ({}){stated})", k - 1));
    }
    let texts = Texts { goals: "(goal g (Child first))".into(), proof: forms.join("\n") + "\n(result g 0)", ..blocks::example() };
    Row { name: "chain", texts, line: "(accepted 1024 1 0 0 0 0 0)".into() }
}

/// 256 symbols, 256 rules and 512 variables, whose names differ in their last letters only, each used again and again.
fn wide() -> Row {
    let (c, p, r, v) = (
        |k: usize| format!("district_of_ctor_{:03}", k % 128),
        |k: usize| format!("district_of_pred_{:03}", k % 128),
        |k: usize| format!("district_of_rule_{:03}", k % 256),
        |k: usize| format!("district_of_var_{:03}", k % 512),
    );
    let ctors = (0..128).map(|k| format!("(ctor {} () S)", c(k)));
    let preds = (0..128).map(|k| format!("(pred {} (S S S S))", p(k)));
    let rules = (0..256).map(|k| format!("(rule {} () ({} ?district_a ?district_b ?district_c {}))", r(k), p(k), c(k)));
    let vars = (0..512).map(|k| format!("(var {} S)", v(k)));
    let step = |k: usize| {
        let (a, b, d) = (v(7 * k), v(11 * k + 3), v(13 * k + 5));
        format!("(step {k} {} () ({} {a} {b} {d} {}))", r(k), p(k), c(k))
    };
    let goal = format!("(goal g ({} {} {} {} {}))", p(0), v(0), v(3), v(5), c(0));
    let texts = Texts {
        theory: format!("(sort S)\n{}\n{}\n{}", joined(ctors), joined(preds), joined(rules)),
        goals: joined(vars) + "\n" + &goal,
        proof: joined((0..470).map(step)) + "\n(result g 0)",
    };
    Row { name: "wide", texts, line: "(accepted 470 1 1 0 0 0 0)".into() }
}

/// 4,096 terms, 4,093 of them one inside the other over a variable; two steps ask for the variables of the whole.
fn deep() -> Row {
    let nest = |n: usize, x: String| "(f ".repeat(n) + &x + &")".repeat(n);
    let mut proof = format!("(def ?d0 {})", nest(61, "x".into()));
    (1..=64).for_each(|k| proof += &format!("\n(def ?d{k} {})", nest(63, format!("?d{}", k - 1))));
    proof += "\n(step 0 v () (V ?d64)) (step 1 w (0)) (step 2 v () (V x)) (result g 2)";
    let theory = "(sort S) (ctor f (S) S) (pred V (S)) (rule v () (V ?a)) (rule w ((V ?a)) (V ?a))".into();
    Row { name: "deep", texts: Texts { theory, goals: "(var x S) (goal g (V x))".into(), proof }, line: "(accepted 3 1 1 0 0 0 0)".into() }
}

/// 60 rules that unify with what is inverted, 120 that do not, 20 of them with a variable that is made each time; 20 inversions.
fn invert() -> Row {
    let unify = (0..60).map(|k| format!("(rule u{k} () (E (f ?a) (f ?a)))"));
    let clash = (0..100).map(|k| format!("(rule n{k} () (E (f (f (f c))) (g (g c))))"));
    let made = (0..20).map(|k| format!("(rule m{k} () (E (f ?a) (g ?a)))"));
    let rules = joined(unify.chain(clash).chain(made));
    let theory = format!("(sort S) (ctor c () S) (ctor f (S) S) (ctor g (S) S) (pred E (S S)) (pred P ()) (rule r () (P))\n{rules}");
    let vars = joined((0..60).map(|k| format!("(var a{k} S)")));
    let cases = (0..60).map(|k| format!("(u{k} 0 (a{k}))")).collect::<Vec<_>>().join(" ");
    let inverts = (0..20).map(|k| format!("(hyp {} (E x{k} (f y{k})))\n(invert {} {} () (P) ({cases}))", 2 * k + 1, 2 * k + 2, 2 * k + 1));
    let own = joined((0..20).map(|k| format!("(var x{k} S) (var y{k} S)")));
    let texts =
        Texts { theory, goals: format!("{own}\n{vars}\n(goal g (P))"), proof: format!("(step 0 r ())\n{}\n(result g 0)", joined(inverts)) };
    Row { name: "invert", texts, line: "(accepted 41 1 0 20 0 20 0)".into() }
}

/// A bracket too many behind 64 KB of good forms.
fn refused() -> Row {
    let mut proof = renewals(1024, |_| "".into()) + "\n";
    for k in 0..512 {
        proof += &format!("(def ?abbreviation_of_a_renewed_pass_{k} {})\n", "(renew (renew (renew (renew first))))");
    }
    proof.truncate(65_535);
    let whole = proof.rfind("\n(").map_or(0, |at| at);
    proof.truncate(whole);
    proof += &" ".repeat(65_535 - proof.len());
    let forms = proof.matches("\n(").count() + 1;
    let texts = Texts { proof: proof + ")", ..blocks::example() };
    Row { name: "refused", texts, line: format!("(refused 4 3 {forms} 0)") }
}

pub fn rows() -> Vec<Row> {
    vec![small(), mid(), chain(), wide(), deep(), invert(), refused()]
}
