//! The checker as a Rust program sees it.
mod common;
use common::{THEORY, stored};
use tariff::{Checker, Head, Refusal, Text, line, with_stack};

/// Tests run on threads with small stacks.
fn on_stack(f: impl FnOnce() + Send) {
    with_stack(f).expect("a thread");
}

const GOALS: &[u8] = b"(var x Pass) (var y Pass) (goal g (Child x)) (goal h (Child first))";

#[test]
fn facts_as_trees() {
    on_stack(|| {
        let mut checker = Checker::new();
        let proof = b"(hyp 0 ((Child x) (Any)) (Child (renew y)) (y x)) (step 1 all () (Child first)) (oops)";
        let refusal = checker.check(THEORY, GOALS, proof).expect_err("the last form is none");
        assert_eq!(refusal, Refusal { number: 30, text: Some(Text::Proof), form: 2, detail: 0 });
        let facts: Vec<_> = checker.facts().collect();
        assert_eq!(facts.len(), 2);
        let hyp = &facts[0];
        assert!(hyp.assumed() && hyp.hypotheses().eq([0]) && hyp.footing().count() == 0);
        assert_eq!(hyp.premises().map(|t| t.to_string()).collect::<Vec<_>>(), ["(Child x)", "(Any)"]);
        assert_eq!(hyp.generalised().map(|v| v.to_string()).collect::<Vec<_>>(), ["y", "x"]);
        assert!(matches!(hyp.judgment().head(), Head::Predicate("Child")));
        let renew = hyp.judgment().arguments().next().expect("an argument");
        assert!(matches!(renew.head(), Head::Constructor("renew")));
        let y = renew.arguments().next().expect("an argument");
        assert!(matches!(y.head(), Head::Variable(v) if v.name() == Some("y") && v.number() == 1));
        assert_eq!(facts[1].footing().collect::<Vec<_>>(), ["all"]);
    });
}

#[test]
fn goals_and_those_without_a_result() {
    on_stack(|| {
        let mut checker = Checker::new();
        let refusal = checker.check(THEORY, GOALS, b"(step 0 c0 ()) (result h 0)").expect_err("g has no result");
        assert_eq!((refusal.number, refusal.form, refusal.detail), (53, 2, 1));
        assert_eq!(checker.missing().iter().map(|g| g.name()).collect::<Vec<_>>(), ["g"]);
        let goals: Vec<_> = checker.goals().map(|g| (g.name(), g.judgment().to_string(), g.proved())).collect();
        assert_eq!(goals, [("g", "(Child x)".into(), false), ("h", "(Child first)".into(), true)]);
    });
}

#[test]
fn the_variable_of_39_has_its_name() {
    on_stack(|| {
        let mut checker = Checker::new();
        let refusal = checker.check(THEORY, GOALS, b"(step 0 all () (?p y)) (step 1 any (0))").expect_err("y is left");
        assert_eq!((refusal.number, refusal.detail), (39, 2));
        let y = checker.variable(refusal.detail - 1).expect("it was declared");
        assert_eq!((y.name(), y.declared()), (Some("y"), Some((Text::Goals, 18..19))));
        assert!(checker.variable(2).is_none() && checker.variable(1 << 20).is_none());
    });
}

#[test]
fn nothing_is_kept_from_one_check_to_the_next() {
    on_stack(|| {
        let mut checker = Checker::new();
        let first = checker.check(THEORY, GOALS, b"(step 0 all () (Child x)) (result g 0)");
        let before = checker.tables().clone();
        for texts in [[&b")"[..], b"", b""], [THEORY, b"(goal g (Child", b""], [THEORY, GOALS, b"(step 0 c0 ()) (step 2 c0 ())"]] {
            assert!(checker.check(texts[0], texts[1], texts[2]).is_err());
        }
        assert_eq!(checker.check(THEORY, GOALS, b"(step 0 all () (Child x)) (result g 0)"), first);
        assert!(*checker.tables() == before);
        assert!(checker.check(b"(sort \xc3)", b"", b"").is_err());
        assert_eq!((checker.facts().len(), checker.goals().count(), checker.missing().len()), (0, 0, 0));
    });
}

/// A chain of terms by abbreviations; the tables hold it, but not every stack does.
#[test]
fn a_deep_term_is_spelled() {
    on_stack(|| {
        let mut proof = String::from("(def ?d0 x)");
        for k in 0..60 {
            proof += &format!("(def ?d{} {}?d{k}{})", k + 1, "(renew ".repeat(60), ")".repeat(60));
        }
        proof += "(step 0 all () (Child ?d60))";
        let mut checker = Checker::new();
        assert!(checker.check(THEORY, GOALS, proof.as_bytes()).is_err_and(|r| r.number == 53));
        let fact = checker.facts().next().expect("it is recorded");
        let spelled = std::thread::scope(|s| s.spawn(|| fact.judgment().to_string()).join().expect("no recursion"));
        assert_eq!(spelled, format!("(Child {}x{})", "(renew ".repeat(3600), ")".repeat(3600)));
    });
}

/// Its spelling would have 2^40 names.
#[test]
fn a_term_that_shares_its_parts_is_clipped() {
    on_stack(|| {
        let theory = b"(sort S) (ctor f (S S) S) (pred P (S)) (rule p () (P ?a))";
        let mut proof = String::from("(def ?d0 x)");
        (0..40).for_each(|k| proof += &format!("(def ?d{} (f ?d{k} ?d{k}))", k + 1));
        proof += "(step 0 p () (P ?d40)) (step 1 p () (P (f x x)))";
        let mut checker = Checker::new();
        assert!(checker.check(theory, b"(var x S) (goal g (P x))", proof.as_bytes()).is_err());
        let spelled: Vec<String> = checker.facts().map(|f| f.judgment().clipped(100)).collect();
        assert!(spelled[0].starts_with("(P (f (f (f ") && spelled[0].ends_with("...") && spelled[0].len() <= 103, "{}", spelled[0]);
        assert_eq!(spelled[1], "(P (f x x))");
    });
}

#[test]
fn a_refusal_is_a_sentence() {
    let of = |number, text, form, detail| Refusal { number, text, form, detail }.to_string();
    assert_eq!(of(1, None, 0, 0), "before reading: a work table is shorter than its named length (question 1)");
    assert_eq!(of(2, Some(Text::Goals), 0, 0), "goals: the text is longer than 65,536 bytes (question 2)");
    assert_eq!(of(53, Some(Text::Proof), 7, 2), "end of the proof: goals are left without a result (question 53; 2 of them)");
    let full = "proof, form 1025: there is no room for what is to be stored (question 60; row 12, facts: at most 1,024)";
    assert_eq!(of(60, Some(Text::Proof), 1024, 12), full);
    assert_eq!(of(60, Some(Text::Proof), 0, 15), "proof, form 1: there is no room for what is to be stored (question 60; row 15)");
}

/// Several checkers at the same time give what one gives after the other.
#[test]
fn threads() {
    let cases: Vec<_> = stored().into_iter().filter(|c| c[1..4].iter().all(|t| t.len() < 2_000)).step_by(5).collect();
    assert!(cases.len() > 100);
    let work = |from: usize| {
        let mut checker = Checker::new();
        for k in (0..cases.len()).map(|k| (k + from) % cases.len()) {
            let [name, theory, goals, proof, answer, ..] = &cases[k];
            let verdict = checker.check(theory, goals, proof);
            assert_eq!(line(&verdict).as_bytes(), answer, "{}", String::from_utf8_lossy(name));
        }
    };
    std::thread::scope(|scope| {
        for k in 0..4 {
            scope.spawn(move || with_stack(|| work(k * 17)).expect("a thread"));
        }
    });
}
