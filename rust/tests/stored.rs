//! The stored cases of compare/ through the crate: the answer, and where they are stored the facts and footings as the program prints them.
mod common;
use common::stored;
use tariff::{Checker, line, with_stack};

fn list(items: impl Iterator<Item = String>) -> String {
    format!("({})", items.collect::<Vec<_>>().join(" "))
}

/// The recorded facts and their footings as lines.
fn recorded(checker: &Checker) -> [String; 2] {
    let mut lines = [String::new(), String::new()];
    for f in checker.facts() {
        let (hyps, premises) = (list(f.hypotheses().map(|h| h.to_string())), list(f.premises().map(|t| t.to_string())));
        let (general, assumed) = (list(f.generalised().map(|v| v.to_string())), u8::from(f.assumed()));
        lines[0] += &format!("(fact {} {} {hyps} {assumed} {premises} {general})\n", f.index(), f.judgment());
        let rules: String = f.footing().map(|r| format!(" {r}")).collect();
        lines[1] += &format!("(footing {}{rules})\n", f.index());
    }
    lines
}

#[test]
fn every_stored_case() {
    let (mut checked, mut with_facts) = (0, 0);
    with_stack(|| {
        let mut checker = Checker::new();
        for [name, theory, goals, proof, answer, facts, footings] in stored() {
            let name = String::from_utf8_lossy(&name).into_owned();
            let verdict = checker.check(&theory, &goals, &proof);
            assert_eq!(line(&verdict).as_bytes(), answer, "{name}");
            checked += 1;
            if facts != b"-" {
                let [have, feet] = recorded(&checker);
                assert_eq!((have.as_bytes(), feet.as_bytes()), (&facts[..], &footings[..]), "{name}");
                with_facts += 1;
            }
        }
    })
    .expect("a thread");
    assert!(checked >= 600 && 3 * with_facts >= checked, "{checked} cases, {with_facts} with facts");
}
