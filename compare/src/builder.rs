//! A proof under construction. Forms are offered to the original; those that it takes are kept, and the first few that it does not
//! take are remembered as near misses.
use crate::answer::{complaint, show};
use crate::random::Random;
use crate::sexp::{Sexp, atom, call};
use crate::trees::{Map, Tree};
use crate::world::{Fact, World};
use std::collections::BTreeSet;

const FORMS: usize = 24;
const MISSES: usize = 3;

/// What a proof may rest on; `general` are variables that the hypothesis generalises, all of them or any.
#[derive(Clone)]
pub struct Assumption {
    pub premises: Vec<Tree>,
    pub judgment: Tree,
    pub general: Vec<usize>,
    pub all: bool,
}

impl Assumption {
    pub fn plain(judgment: Tree) -> Self {
        Assumption { premises: Vec::new(), judgment, general: Vec::new(), all: true }
    }

    fn is(&self, h: &Fact) -> bool {
        let general = if self.all { self.general == h.general } else { h.general.iter().all(|v| self.general.contains(v)) };
        h.assumed && general && self.premises == h.premises && self.judgment == h.judgment
    }
}

/// Nothing: any hypothesis may be made.
pub type Allowed<'a> = Option<&'a [Assumption]>;

pub struct Builder {
    pub rng: Random,
    pub world: World,
    pub theory: String,
    /// The variables of the goals text.
    pub goals: Vec<Sexp>,
    pub proof: Vec<Sexp>,
    /// A form that was not taken, and how many forms stood before it.
    pub misses: Vec<(usize, Sexp)>,
    trial: String,
    so_far: String,
}

impl Builder {
    pub fn new(mut rng: Random, theory: &[Sexp]) -> Self {
        let mut world = World::new(theory);
        let mut goals = Vec::new();
        for sort in &world.theory.sorts {
            for _ in 0..1 + rng.below(3) {
                goals.push(call("var", [atom(format!("x{}", goals.len())), atom(sort.clone())]));
            }
        }
        goals.iter().for_each(|g| world.take(g));
        let (proof, misses) = (Vec::new(), Vec::new());
        let mut it = Builder { rng, world, theory: show(theory), goals, proof, misses, trial: String::new(), so_far: String::new() };
        let j = it.any_judgment(1);
        let goal = call("goal", [atom("g"), it.show(&j)]);
        it.trial = format!("{} {goal}", show(&it.goals));
        it
    }

    pub fn full(&self) -> bool {
        self.proof.len() >= FORMS
    }

    /// The number of the fact, if the original takes the form.
    pub fn offer(&mut self, form: Sexp) -> Option<usize> {
        let text = format!("{} {form}", self.so_far);
        if complaint(&self.theory, &self.trial, &text).is_some() {
            if self.misses.len() < MISSES {
                self.misses.push((self.proof.len(), form));
            }
            return None;
        }
        self.so_far = text;
        self.world.take(&form);
        self.proof.push(form);
        Some(self.world.facts.len().saturating_sub(1))
    }

    pub fn next(&mut self) -> Sexp {
        let n = self.world.facts.len();
        match self.rng.below(20) {
            0 => atom(format!("+{n}")),
            1 => atom(format!("0{n}")),
            _ => atom(n.to_string()),
        }
    }

    // Terms

    pub fn show(&mut self, t: &Tree) -> Sexp {
        let def = self.world.defs.iter().find(|(_, u)| u == t).map(|(n, _)| n.clone());
        if let Some(name) = def
            && self.rng.percent(50)
        {
            return atom(name);
        }
        match t {
            Tree::Var(v) => self.name(*v),
            Tree::App(c, ts) => {
                let (name, judges) = (self.world.theory.symbols[*c].name.clone(), self.world.theory.symbols[*c].output.is_none());
                let args: Vec<Sexp> = ts.iter().map(|t| self.show(t)).collect();
                if args.is_empty() && !judges { atom(name) } else { call(&name, args) }
            }
        }
    }

    pub fn shows(&mut self, ts: &[Tree]) -> Sexp {
        Sexp::List(ts.iter().map(|t| self.show(t)).collect())
    }

    pub fn name(&self, v: usize) -> Sexp {
        atom(self.world.vars[v].0.clone().unwrap_or("nobody".into()))
    }

    pub fn names(&self, vs: &[usize]) -> Sexp {
        Sexp::List(vs.iter().map(|&v| self.name(v)).collect())
    }

    pub fn named_vars(&self, sort: usize) -> Vec<usize> {
        let vars = &self.world.vars;
        (0..vars.len()).filter(|&v| vars[v].0.is_some() && vars[v].1 == sort).collect()
    }

    pub fn any_term(&mut self, sort: usize, depth: usize) -> Tree {
        let ctors = self.world.theory.constructors(sort);
        if depth == 0 || ctors.is_empty() || self.rng.percent(45) {
            let vars = self.named_vars(sort);
            return Tree::Var(vars[self.rng.below(vars.len())]);
        }
        let c = ctors[self.rng.below(ctors.len())];
        self.any_applied(c, depth - 1)
    }

    fn any_applied(&mut self, c: usize, depth: usize) -> Tree {
        let inputs = self.world.theory.symbols[c].inputs.clone();
        Tree::App(c, inputs.iter().map(|&s| self.any_term(s, depth)).collect())
    }

    pub fn any_judgment(&mut self, depth: usize) -> Tree {
        let symbols = &self.world.theory.symbols;
        let predicates: Vec<usize> = (0..symbols.len()).filter(|&p| symbols[p].output.is_none()).collect();
        let p = predicates[self.rng.below(predicates.len())];
        self.any_applied(p, depth)
    }

    /// A variable of the sort that is not among these; a new one is declared where there is none, and now and then.
    pub fn fresh(&mut self, sort: usize, avoid: &BTreeSet<usize>) -> Option<usize> {
        let free: Vec<usize> = self.named_vars(sort).into_iter().filter(|v| !avoid.contains(v)).collect();
        if let Some(&v) = self.rng.pick(&free)
            && self.rng.percent(75)
        {
            return Some(v);
        }
        let (name, sort) = (format!("v{}", self.world.vars.len()), self.world.theory.sorts[sort].clone());
        self.offer(call("var", [atom(name), atom(sort)]))?;
        Some(self.world.vars.len() - 1)
    }

    // Facts

    pub fn assume(&mut self, a: &Assumption) -> Option<usize> {
        let general: Vec<usize> =
            if a.all { a.general.clone() } else { a.general.iter().copied().filter(|_| self.rng.percent(50)).collect() };
        let same = |h: &Fact| h.assumed && h.premises == a.premises && h.judgment == a.judgment && h.general == general;
        let known = self.world.facts.iter().position(same);
        if known.is_some() && self.rng.percent(80) {
            return known;
        }
        let (n, j) = (self.next(), self.show(&a.judgment));
        if a.premises.is_empty() && general.is_empty() && self.rng.percent(85) {
            return self.offer(call("hyp", [n, j]));
        }
        let (ps, vs) = (self.shows(&a.premises), self.names(&general));
        self.offer(call("hyp", [n, ps, j, vs]))
    }

    fn permitted(&self, f: &Fact, allowed: Allowed) -> bool {
        let ok = |h: &usize| allowed.is_none_or(|list| list.iter().any(|a| a.is(&self.world.facts[*h])));
        f.hyps.iter().all(ok)
    }

    pub fn bindings(&mut self, map: &Map) -> Vec<Sexp> {
        let mut out = Vec::new();
        for (&v, t) in map {
            let t = self.show(t);
            out.push(Sexp::List(vec![self.name(v), t]));
        }
        self.rng.shuffle(&mut out);
        out
    }

    /// A reference that gives exactly this judgment.
    pub fn refer(&mut self, j: &Tree, allowed: Allowed, depth: usize) -> Option<Sexp> {
        let mut found = Vec::new();
        for (k, f) in self.world.facts.iter().enumerate() {
            let mut map = Map::new();
            if f.hyps.is_empty() && f.judgment.matches(j, &|_| true, &mut map) {
                map.retain(|v, t| *t != Tree::Var(*v) || v % 3 == 0);
                found.push((k, map));
            }
        }
        if let Some((k, map)) = self.rng.pick(&found).cloned()
            && self.rng.percent(60)
        {
            let mut xs = vec![atom(k.to_string())];
            xs.extend(self.bindings(&map));
            return Some(Sexp::List(xs));
        }
        self.prove(j, allowed, depth).map(|k| atom(k.to_string()))
    }

    fn refer_all(&mut self, js: &[Tree], allowed: Allowed, depth: usize) -> Option<Sexp> {
        let mut refs = Vec::new();
        for j in js {
            refs.push(self.refer(j, allowed, depth)?);
        }
        Some(Sexp::List(refs))
    }

    /// A fact that concludes the judgment and rests only on what is allowed.
    pub fn prove(&mut self, j: &Tree, allowed: Allowed, depth: usize) -> Option<usize> {
        if self.full() || j.size() > 20 {
            return None;
        }
        let facts = &self.world.facts;
        let known: Vec<usize> = (0..facts.len()).filter(|&k| facts[k].judgment == *j && self.permitted(&facts[k], allowed)).collect();
        if let Some(&k) = self.rng.pick(&known)
            && self.rng.percent(85)
        {
            return Some(k);
        }
        let mut list = allowed.unwrap_or(&[]).to_vec();
        self.rng.shuffle(&mut list);
        for a in &list {
            if let Some(k) = self.by_assumption(j, a, allowed, depth) {
                return Some(k);
            }
        }
        if depth > 0 {
            let mut rules: Vec<usize> = (0..self.world.theory.rules.len()).collect();
            self.rng.shuffle(&mut rules);
            for r in rules {
                if let Some(k) = self.by_rule(r, j, allowed, depth) {
                    return Some(k);
                }
            }
        }
        if allowed.is_none() { self.assume(&Assumption::plain(j.clone())) } else { None }
    }

    fn by_assumption(&mut self, j: &Tree, a: &Assumption, allowed: Allowed, depth: usize) -> Option<usize> {
        let mut map = Map::new();
        if !a.judgment.matches(j, &|v| a.general.contains(&v), &mut map) {
            return None;
        }
        let h = self.assume(a)?;
        // a rule hypothesis named as it stands loses its premises
        if a.judgment == *j && (self.world.facts[h].plain() || self.rng.percent(40)) {
            return Some(h);
        }
        let general = self.world.facts[h].general.clone();
        map.retain(|v, _| general.contains(v));
        self.apply(h, &map, allowed, depth).filter(|&k| self.world.facts[k].judgment == *j)
    }

    /// `apply` of a fact under these bindings.
    pub fn apply(&mut self, m: usize, map: &Map, allowed: Allowed, depth: usize) -> Option<usize> {
        let f = self.world.facts[m].clone();
        let premises: Vec<Tree> =
            if f.assumed { f.premises } else { f.hyps.iter().map(|&h| self.world.facts[h].judgment.clone()).collect() };
        let premises: Vec<Tree> = premises.iter().map(|p| p.sub(map)).collect();
        let refs = self.refer_all(&premises, allowed, depth.saturating_sub(1))?;
        let (n, bindings) = (self.next(), self.bindings(map));
        self.offer(call("apply", [n, atom(m.to_string()), Sexp::List(bindings), refs]))
    }

    fn by_rule(&mut self, r: usize, j: &Tree, allowed: Allowed, depth: usize) -> Option<usize> {
        let rule = &self.world.theory.rules[r];
        let mut map = Map::new();
        if !rule.conclusion.matches(j, &|_| true, &mut map) {
            return None;
        }
        self.step(r, map, allowed, depth)
    }

    /// A `step` of a rule under these bindings, completed at random.
    pub fn step(&mut self, r: usize, mut map: Map, allowed: Allowed, depth: usize) -> Option<usize> {
        let sorts: Vec<usize> = self.world.theory.rules[r].vars.iter().map(|(_, s)| *s).collect();
        for (v, &s) in sorts.iter().enumerate() {
            if !map.contains_key(&v) {
                let t = self.any_term(s, 1);
                map.insert(v, t);
            }
        }
        let rule = &self.world.theory.rules[r];
        let (name, conclusion) = (rule.name.clone(), rule.conclusion.sub(&map));
        let premises: Vec<Tree> = rule.premises.iter().map(|p| p.sub(&map)).collect();
        let mut given = BTreeSet::new();
        rule.premises.iter().for_each(|p| p.variables(&mut given));
        let names: Vec<String> = rule.vars.iter().map(|(n, _)| n.clone()).collect();
        let refs = self.refer_all(&premises, allowed, depth.saturating_sub(1))?;
        let mut form = vec![atom("step"), self.next(), atom(name), refs];
        let stated = self.rng.percent(45);
        let mut items = Vec::new();
        for (v, t) in &map {
            let needed = !stated && !given.contains(v) && self.rng.percent(97);
            if needed || self.rng.percent(25) {
                let t = self.show(t);
                items.push(Sexp::List(vec![atom(names[*v].clone()), t]));
            }
        }
        if stated {
            let j = self.show(&conclusion);
            items.push(j);
        }
        self.rng.shuffle(&mut items);
        form.extend(items);
        self.offer(Sexp::List(form))
    }
}
