//! What stands after a check, spelled by name: `(fact INDEX JUDGMENT (HYPOTHESES...) ASSUMED (PREMISES...) (GENERALISED...))` for each fact,
//! a made variable as `_N`, and `(footing INDEX RULE...)` with the rules by rising number. The facts are the original's. It has no footings;
//! they follow from the forms, by document 01's "the rule that it names and the footings of the facts in its reference list".
use crate::answer::items;
use crate::schematic::{Left, LeftFact};
use crate::sexp::Sexp;
use std::collections::BTreeSet;

fn term(left: &Left, id: u32) -> String {
    let node = &left.nodes[id as usize];
    let (head, args) = (node[0] as usize, &node[1..]);
    let Some(name) = left.symbols.get(head) else { return variable(left, head as u32) };
    if args.is_empty() && left.outputs[head] != u32::MAX {
        return name.clone();
    }
    let parts: Vec<String> = std::iter::once(name.clone()).chain(args.iter().map(|&a| term(left, a))).collect();
    format!("({})", parts.join(" "))
}

fn variable(left: &Left, head: u32) -> String {
    let v = head as usize - left.symbols.len();
    left.vars[v].clone().unwrap_or(format!("_{v}"))
}

fn list(words: impl Iterator<Item = String>) -> String {
    format!("({})", words.collect::<Vec<_>>().join(" "))
}

fn fact(left: &Left, k: usize, f: &LeftFact) -> String {
    let hyps = list(f.hyps.iter().map(u32::to_string));
    let premises = list(f.premises.iter().map(|&p| term(left, p)));
    let general = list(f.general.iter().map(|&v| variable(left, v)));
    format!("(fact {k} {} {hyps} {} {premises} {general})\n", term(left, f.judgment), u32::from(f.assumed))
}

pub fn facts(left: &Left) -> String {
    left.facts.iter().enumerate().map(|(k, f)| fact(left, k, f)).collect()
}

fn parts(x: &Sexp) -> &[Sexp] {
    match x {
        Sexp::List(xs) => xs,
        Sexp::Atom(_) => &[],
    }
}

fn word(x: &Sexp) -> &str {
    match x {
        Sexp::Atom(a) => a,
        Sexp::List(xs) => word(&xs[0]),
    }
}

/// The names of a theory's rules, in order.
pub fn rules(theory: &str) -> Vec<String> {
    let forms = items(theory).forms;
    let rules = forms.iter().map(parts).filter(|xs| xs.len() == 4 && word(&xs[0]) == "rule");
    rules.map(|xs| word(&xs[1]).to_string()).collect()
}

/// The footing of each fact that these forms record, all of which were taken.
pub fn footed(rules: &[String], proof: &[Sexp]) -> Vec<BTreeSet<usize>> {
    let mut all: Vec<BTreeSet<usize>> = Vec::new();
    for xs in proof.iter().map(parts) {
        let (own, refs) = match word(&xs[0]) {
            "step" => (rules.iter().position(|r| r == word(&xs[2])), parts(&xs[3])),
            "apply" => (None, parts(&xs[4])),
            "hyp" | "induct" | "invert" => (None, &[][..]),
            _ => continue,
        };
        let named = refs.iter().filter_map(|r| word(r).parse::<usize>().ok());
        let set = named.flat_map(|k| all[k].iter().copied()).chain(own).collect();
        all.push(set);
    }
    all
}

pub fn footings(rules: &[String], proof: &[Sexp]) -> String {
    let line = |(k, set): (usize, &BTreeSet<usize>)| {
        let names: Vec<String> = set.iter().map(|&r| format!(" {}", rules[r])).collect();
        format!("(footing {k}{})\n", names.concat())
    };
    footed(rules, proof).iter().enumerate().map(line).collect()
}
