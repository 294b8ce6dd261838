//! Random small theories: sorts with and without ground terms, constructors, predicates, rules that follow the constructors of a
//! sort (so that inductions on it succeed) and rules at random.
use crate::random::Random;
use crate::sexp::{Sexp, atom, call};
use crate::trees::Tree;
use crate::world::World;

struct Draft<'r> {
    rng: &'r mut Random,
    world: World,
    forms: Vec<Sexp>,
}

/// The variables of a rule under construction, by sort.
type Vars = Vec<usize>;

pub fn theory(rng: &mut Random) -> Vec<Sexp> {
    let mut draft = Draft { rng, world: World::default(), forms: Vec::new() };
    for i in 0..1 + draft.rng.below(3) {
        draft.put(call("sort", [atom(format!("S{i}"))]));
    }
    for sort in 0..draft.world.theory.sorts.len() {
        draft.constructors(sort);
    }
    for i in 0..1 + draft.rng.below(4) {
        draft.predicate(i);
    }
    for p in draft.predicates() {
        if draft.rng.percent(60) {
            draft.structural(p);
        }
    }
    for _ in 0..draft.rng.below(4) {
        draft.loose();
    }
    draft.forms
}

impl Draft<'_> {
    fn put(&mut self, form: Sexp) {
        self.world.theory.declare(&form);
        self.forms.push(form);
    }

    fn sort_names(&mut self, n: usize) -> Sexp {
        let sorts = &self.world.theory.sorts;
        Sexp::List((0..n).map(|_| atom(sorts[self.rng.below(sorts.len())].clone())).collect())
    }

    /// Some sorts have no ground term: no constructor at all, or only such as need one of the sort.
    fn constructors(&mut self, sort: usize) {
        let name = self.world.theory.sorts[sort].clone();
        let kind = self.rng.below(10);
        if kind > 1 {
            self.put(call("ctor", [atom(format!("o{sort}")), Sexp::List(Vec::new()), atom(name.clone())]));
        }
        if kind == 1 || kind > 4 {
            self.put(call("ctor", [atom(format!("s{sort}")), Sexp::List(vec![atom(name.clone())]), atom(name.clone())]));
        }
        if kind > 6 {
            let n = self.rng.below(3);
            let inputs = self.sort_names(n);
            self.put(call("ctor", [atom(format!("k{sort}")), inputs, atom(name)]));
        }
    }

    fn predicate(&mut self, i: usize) {
        let n = [0, 1, 1, 1, 2, 2, 3][self.rng.below(7)];
        let inputs = self.sort_names(n);
        // a constructor and a predicate may share a name
        let name = if self.rng.percent(5) && i == 0 { "o0".to_string() } else { format!("P{i}") };
        self.put(call("pred", [atom(name), inputs]));
    }

    fn predicates(&self) -> Vec<usize> {
        let symbols = &self.world.theory.symbols;
        (0..symbols.len()).filter(|&p| symbols[p].output.is_none()).collect()
    }

    fn fresh(&self, vars: &mut Vars, sort: usize) -> Tree {
        vars.push(sort);
        Tree::Var(vars.len() - 1)
    }

    fn pattern(&mut self, sort: usize, depth: usize, vars: &mut Vars) -> Tree {
        let known: Vec<usize> = (0..vars.len()).filter(|&v| vars[v] == sort).collect();
        let ctors = self.world.theory.constructors(sort);
        if depth == 0 || ctors.is_empty() || self.rng.percent(55) {
            return match self.rng.pick(&known) {
                Some(&v) if self.rng.percent(70) => Tree::Var(v),
                _ => self.fresh(vars, sort),
            };
        }
        let c = ctors[self.rng.below(ctors.len())];
        self.applied(c, depth - 1, vars)
    }

    fn applied(&mut self, c: usize, depth: usize, vars: &mut Vars) -> Tree {
        let inputs = self.world.theory.symbols[c].inputs.clone();
        Tree::App(c, inputs.iter().map(|&s| self.pattern(s, depth, vars)).collect())
    }

    fn show(&self, t: &Tree) -> Sexp {
        let symbol = |c: usize| &self.world.theory.symbols[c];
        match t {
            Tree::Var(v) => atom(format!("?{}", (b'a' + *v as u8) as char)),
            Tree::App(c, ts) if ts.is_empty() && symbol(*c).output.is_some() => atom(symbol(*c).name.clone()),
            Tree::App(c, ts) => call(&symbol(*c).name, ts.iter().map(|t| self.show(t))),
        }
    }

    fn rule(&mut self, premises: &[Tree], conclusion: &Tree) {
        let name = format!("r{}", self.world.theory.rules.len());
        let premises = premises.iter().map(|p| self.show(p)).collect();
        let form = call("rule", [atom(name), Sexp::List(premises), self.show(conclusion)]);
        self.put(form);
    }

    /// For each constructor of one argument's sort a rule that concludes the predicate there, from the predicate at the parts.
    fn structural(&mut self, p: usize) {
        let inputs = self.world.theory.symbols[p].inputs.clone();
        if inputs.is_empty() {
            return self.rule(&[], &Tree::App(p, Vec::new()));
        }
        let k = self.rng.below(inputs.len());
        for c in self.world.theory.constructors(inputs[k]) {
            let mut vars = Vars::new();
            let mut args: Vec<Tree> = inputs.iter().map(|&s| self.fresh(&mut vars, s)).collect();
            let parts: Vec<usize> = self.world.theory.symbols[c].inputs.clone();
            let below: Vec<Tree> = parts.iter().map(|&s| self.fresh(&mut vars, s)).collect();
            let mut premises = Vec::new();
            for (t, &s) in below.iter().zip(&parts) {
                if s == inputs[k] && self.rng.percent(80) {
                    args[k] = t.clone();
                    premises.push(Tree::App(p, args.clone()));
                }
            }
            args[k] = Tree::App(c, below);
            self.rule(&premises, &Tree::App(p, args));
        }
    }

    fn loose(&mut self) {
        let predicates = self.predicates();
        let mut vars = Vars::new();
        let mut judgments = Vec::new();
        for _ in 0..1 + self.rng.below(3) {
            let p = predicates[self.rng.below(predicates.len())];
            judgments.push(self.applied(p, 2, &mut vars));
        }
        let conclusion = judgments.pop().expect("at least one");
        self.rule(&judgments, &conclusion);
    }
}
