//! The moves of a proof at random, one for each form, and its end: goals that were reached, and their results.
use crate::answer::{Texts, show};
use crate::builder::{Assumption, Builder};
use crate::sexp::{Sexp, atom, call};
use crate::trees::{Map, Tree};
use crate::world::{Fact, head};
use std::collections::BTreeSet;

/// One move more; what it leads to stands in the builder.
pub fn make(b: &mut Builder) {
    let _ = match b.rng.below(16) {
        0 => define(b),
        1 => declare(b),
        2 => assume(b),
        3 => assume_rule(b),
        4..=6 => step(b),
        7 | 8 => apply(b),
        9..=11 => induct(b),
        _ => invert(b),
    };
}

fn declare(b: &mut Builder) -> Option<usize> {
    let sort = b.rng.below(b.world.theory.sorts.len());
    let all: BTreeSet<usize> = b.named_vars(sort).into_iter().collect();
    b.fresh(sort, &all)
}

fn define(b: &mut Builder) -> Option<usize> {
    let sort = b.rng.below(b.world.theory.sorts.len());
    let t = b.any_term(sort, 2);
    let (name, t) = (format!("?d{}", b.world.defs.len()), b.show(&t));
    b.offer(call("def", [atom(name), t]))
}

fn assume(b: &mut Builder) -> Option<usize> {
    let j = b.any_judgment(2);
    b.assume(&Assumption::plain(j))
}

/// Some of the variables of these trees, and now and then one that is not there.
fn some_variables(b: &mut Builder, ts: &[&Tree]) -> Vec<usize> {
    let mut vs = BTreeSet::new();
    ts.iter().for_each(|t| t.variables(&mut vs));
    let mut vs: Vec<usize> = vs.into_iter().filter(|_| b.rng.percent(50)).collect();
    if b.rng.percent(15) {
        let sort = b.rng.below(b.world.theory.sorts.len());
        let more = b.named_vars(sort);
        vs.extend(b.rng.pick(&more).filter(|v| !vs.contains(v)).copied());
    }
    b.rng.shuffle(&mut vs);
    vs
}

fn assume_rule(b: &mut Builder) -> Option<usize> {
    let premises: Vec<Tree> = (0..b.rng.below(3)).map(|_| b.any_judgment(1)).collect();
    let judgment = b.any_judgment(2);
    let all: Vec<&Tree> = premises.iter().chain([&judgment]).collect();
    let general = some_variables(b, &all);
    b.assume(&Assumption { premises, judgment, general, all: true })
}

/// A rule, some of its premises matched with facts that stand.
fn step(b: &mut Builder) -> Option<usize> {
    if b.world.theory.rules.is_empty() {
        return None;
    }
    let r = b.rng.below(b.world.theory.rules.len());
    let mut map = Map::new();
    for i in 0..b.world.theory.rules[r].premises.len() {
        let facts: Vec<usize> = (0..b.world.facts.len()).collect();
        if let Some(&k) = b.rng.pick(&facts) {
            let mut more = map.clone();
            if b.world.theory.rules[r].premises[i].matches(&b.world.facts[k].judgment, &|_| true, &mut more) {
                map = more;
            }
        }
    }
    b.step(r, map, None, 2)
}

/// A hypothesis or another fact, its variables bound at random.
fn apply(b: &mut Builder) -> Option<usize> {
    if b.rng.percent(30) {
        assume_rule(b);
    }
    let usable = |f: &Fact| f.assumed || f.hyps.iter().all(|&h| b.world.facts[h].plain());
    let facts: Vec<usize> = (0..b.world.facts.len()).filter(|&k| usable(&b.world.facts[k]) || k % 5 == 0).collect();
    let m = *b.rng.pick(&facts)?;
    let f = b.world.facts[m].clone();
    let open: Vec<usize> = if f.assumed {
        f.general
    } else {
        let mut vs = f.mentioned();
        f.hyps.iter().for_each(|&h| vs.extend(b.world.facts[h].mentioned()));
        vs.into_iter().collect()
    };
    let mut map = Map::new();
    for v in open {
        if b.world.vars[v].0.is_some() && b.rng.percent(65) {
            let t = b.any_term(b.world.vars[v].1, 1);
            map.insert(v, t);
        }
    }
    b.apply(m, &map, None, 2)
}

fn plain_facts(b: &Builder) -> Vec<usize> {
    (0..b.world.facts.len()).filter(|&k| b.world.facts[k].plain()).collect()
}

/// A judgment that holds the variable.
fn judgment_of(b: &mut Builder, x: usize) -> Option<Tree> {
    (0..8).map(|_| b.any_judgment(1)).find(|j| j.holds(x))
}

fn induct(b: &mut Builder) -> Option<usize> {
    let sort = b.rng.below(b.world.theory.sorts.len());
    let vars = b.named_vars(sort);
    let x = *b.rng.pick(&vars)?;
    let j = judgment_of(b, x)?;
    let mut hyps = BTreeSet::new();
    if b.rng.percent(45) {
        if b.rng.percent(60) {
            let p = judgment_of(b, x)?;
            hyps.insert(b.assume(&Assumption::plain(p))?);
        }
        let plain = plain_facts(b);
        hyps.extend(b.rng.pick(&plain));
    }
    let premises: Vec<Tree> = hyps.iter().map(|&h| b.world.facts[h].judgment.clone()).collect();
    let mut motive = BTreeSet::new();
    premises.iter().chain([&j]).for_each(|t| t.variables(&mut motive));
    let mut cases = Vec::new();
    for c in b.world.theory.constructors(sort) {
        cases.push(induct_case(b, x, &j, &premises, &motive, c)?);
    }
    let mut form = vec![atom("induct"), b.next(), b.name(x)];
    let mut listed: Vec<Sexp> = hyps.iter().map(|h| atom(h.to_string())).collect();
    b.rng.shuffle(&mut listed);
    if !hyps.is_empty() || b.rng.percent(30) {
        form.push(Sexp::List(listed));
    }
    form.extend([b.show(&j), Sexp::List(cases)]);
    b.offer(Sexp::List(form))
}

fn induct_case(b: &mut Builder, x: usize, j: &Tree, premises: &[Tree], motive: &BTreeSet<usize>, c: usize) -> Option<Sexp> {
    let sort = b.world.vars[x].1;
    let inputs = b.world.theory.symbols[c].inputs.clone();
    let (mut avoid, mut ys) = (motive.clone(), Vec::new());
    for &s in &inputs {
        let y = b.fresh(s, &avoid)?;
        avoid.insert(y);
        ys.push(y);
    }
    let term = Tree::App(c, ys.iter().map(|&y| Tree::Var(y)).collect());
    let mut allowed: Vec<Assumption> = premises.iter().map(|p| Assumption::plain(p.at(x, &term))).collect();
    for (&y, &s) in ys.iter().zip(&inputs) {
        if s == sort {
            let at = |t: &Tree| t.at(x, &Tree::Var(y));
            let general = motive.iter().copied().filter(|&v| v != x).collect();
            allowed.push(Assumption { premises: premises.iter().map(at).collect(), judgment: at(j), general, all: false });
        }
    }
    let m = case_fact(b, &j.at(x, &term), &allowed)?;
    let mut case = vec![atom(m.to_string())];
    case.extend(ys.iter().map(|&y| b.name(y)));
    Some(Sexp::List(case))
}

/// A plain hypothesis to invert: one that stands, or one with a predicate that has rules.
fn inverted(b: &mut Builder) -> Option<usize> {
    if b.rng.percent(40) {
        let plain = plain_facts(b);
        return b.rng.pick(&plain).copied();
    }
    let ruled: Vec<usize> = b.world.theory.rules.iter().map(|r| head(&r.conclusion)).collect();
    let j = (0..6).map(|_| b.any_judgment(2)).find(|j| ruled.contains(&head(j)))?;
    b.assume(&Assumption::plain(j))
}

fn invert(b: &mut Builder) -> Option<usize> {
    let k = inverted(b)?;
    let h = b.world.facts[k].judgment.clone();
    let mut context = BTreeSet::new();
    for _ in 0..b.rng.below(3) {
        let assumed: Vec<usize> = (0..b.world.facts.len()).filter(|&i| b.world.facts[i].assumed).collect();
        let made = if b.rng.percent(40) { assume_rule(b) } else { b.rng.pick(&assumed).copied() };
        context.extend(made);
    }
    let from: Vec<Tree> = context.iter().map(|&c| b.world.facts[c].judgment.clone()).collect();
    let j = match b.rng.pick(&from) {
        Some(j) if b.rng.percent(50) => j.clone(),
        _ => b.any_judgment(1),
    };
    let mut used = BTreeSet::new();
    h.variables(&mut used);
    j.variables(&mut used);
    context.iter().for_each(|&c| used.extend(b.world.facts[c].mentioned()));
    let mut cases = Vec::new();
    for r in 0..b.world.theory.rules.len() {
        if head(&b.world.theory.rules[r].conclusion) == head(&h) {
            cases.extend(invert_case(b, r, &h, &j, &context, &mut used)?);
        } else if b.rng.percent(5) {
            cases.push(Sexp::List(vec![atom(b.world.theory.rules[r].name.clone()), atom("77"), Sexp::List(Vec::new())]));
        }
    }
    b.rng.shuffle(&mut cases);
    let mut listed: Vec<Sexp> = context.iter().map(|c| atom(c.to_string())).collect();
    b.rng.shuffle(&mut listed);
    let form = [b.next(), atom(k.to_string()), Sexp::List(listed), b.show(&j), Sexp::List(cases)];
    b.offer(call("invert", form))
}

/// What a case may rest on: the rule's premises, and the context under the unifier, which leaves generalised variables alone.
fn case_context(b: &Builder, premises: Vec<Tree>, context: &BTreeSet<usize>, theta: &Map) -> Vec<Assumption> {
    let mut allowed: Vec<Assumption> = premises.into_iter().map(Assumption::plain).collect();
    for &c in context {
        let f = b.world.facts[c].clone();
        let mut local = theta.clone();
        local.retain(|v, _| !f.general.contains(v));
        let premises = f.premises.iter().map(|p| p.sub(&local)).collect();
        allowed.push(Assumption { premises, judgment: f.judgment.sub(&local), general: f.general, all: true });
    }
    allowed
}

/// The case of a rule that can conclude `h`; none where it cannot; nothing where no proof is found.
fn invert_case(
    b: &mut Builder,
    r: usize,
    h: &Tree,
    j: &Tree,
    context: &BTreeSet<usize>,
    used: &mut BTreeSet<usize>,
) -> Option<Option<Sexp>> {
    let sorts: Vec<usize> = b.world.theory.rules[r].vars.iter().map(|(_, s)| *s).collect();
    // whether it unifies does not depend on the names
    let apart: Vec<usize> = (0..sorts.len()).map(|i| b.world.vars.len() + i).collect();
    if b.world.inverted(r, &apart, h).is_none() && b.rng.percent(97) {
        return Some(None);
    }
    let mut names = Vec::new();
    for &s in &sorts {
        let v = b.fresh(s, used)?;
        used.insert(v);
        names.push(v);
    }
    let m = match b.world.inverted(r, &names, h) {
        None => 0,
        Some((premises, theta)) => {
            let (allowed, want) = (case_context(b, premises, context, &theta), j.sub(&theta));
            case_fact(b, &want, &allowed)?
        }
    };
    let vars = b.names(&names);
    Some(Some(Sexp::List(vec![atom(b.world.theory.rules[r].name.clone()), atom(m.to_string()), vars])))
}

/// A proof of a case; now and then one that rests on what it may not.
fn case_fact(b: &mut Builder, want: &Tree, allowed: &[Assumption]) -> Option<usize> {
    let found = b.prove(want, Some(allowed), 2);
    if found.is_none() && b.rng.percent(20) { b.prove(want, None, 1) } else { found }
}

// The end

/// Whether a tree is spelled with the variables of the goals text.
fn early(b: &Builder, t: &Tree) -> bool {
    (b.goals.len()..b.world.vars.len()).all(|v| !t.holds(v))
}

/// Facts that can be goals.
fn reached(b: &Builder) -> Vec<usize> {
    let rests = |h: &usize| b.world.facts[*h].plain() && early(b, &b.world.facts[*h].judgment);
    let ok = |f: &Fact| early(b, &f.judgment) && f.hyps.iter().all(rests);
    (0..b.world.facts.len()).filter(|&k| ok(&b.world.facts[k])).collect()
}

/// A hypothesis that can be a goal.
fn something(b: &mut Builder) -> Option<usize> {
    for _ in 0..30 {
        let j = b.any_judgment(1);
        if early(b, &j) {
            return b.assume(&Assumption::plain(j));
        }
    }
    None
}

/// No abbreviation stands in the goals.
fn spelled(b: &mut Builder, t: &Tree) -> Sexp {
    let defs = std::mem::take(&mut b.world.defs);
    let x = b.show(t);
    b.world.defs = defs;
    x
}

/// A goal that the fact reaches, or an instance of it, and the result that says so.
fn goal(b: &mut Builder, name: Sexp, k: usize) -> (Sexp, Sexp) {
    let f = b.world.facts[k].clone();
    let mut map = Map::new();
    if f.hyps.is_empty() && b.rng.percent(30) {
        for v in f.mentioned() {
            let t = b.any_term(b.world.vars[v].1, 1);
            if early(b, &t) {
                map.insert(v, t);
            }
        }
    }
    let mut hyps = Vec::new();
    for &h in &f.hyps {
        let j = b.world.facts[h].judgment.clone();
        hyps.push(spelled(b, &j));
    }
    let j = spelled(b, &f.judgment.sub(&map));
    if b.rng.percent(10) {
        hyps.push(j.clone());
    }
    b.rng.shuffle(&mut hyps);
    let listed = if hyps.is_empty() && b.rng.percent(90) { None } else { Some(Sexp::List(hyps)) };
    let goal = call("goal", [Some(name.clone()), listed, Some(j)].into_iter().flatten());
    let number = atom(k.to_string());
    let bare = map.is_empty() && (!f.hyps.is_empty() || b.rng.percent(80));
    let instance = [number.clone()].into_iter().chain(b.bindings(&map)).collect();
    (goal, call("result", [name, if bare { number } else { Sexp::List(instance) }]))
}

/// Goals for facts that stand, later ones rather than earlier, and the results that name them.
pub fn finish(b: &mut Builder) -> Texts {
    let mut facts = reached(b);
    if facts.is_empty() {
        facts.extend(something(b));
    }
    let latest: Vec<usize> = facts.iter().rev().take(4).copied().collect();
    let (mut goals, mut results) = (b.goals.clone(), Vec::new());
    for g in 0..1 + b.rng.below(3) {
        if let Some(&k) = b.rng.pick(&latest) {
            let (goal, result) = goal(b, atom(format!("g{g}")), k);
            goals.push(goal);
            results.push(result);
        }
    }
    b.rng.shuffle(&mut results);
    let proof: Vec<Sexp> = b.proof.iter().cloned().chain(results).collect();
    Texts { theory: b.theory.clone(), goals: show(&goals), proof: show(&proof) }
}
