//! What stands when a number of forms was taken: theory, variables, abbreviations and facts. Forms are taken on trust: they must be
//! ones that the original accepted.
use crate::sexp::Sexp;
use crate::trees::{Map, Tree, unify};
use std::collections::BTreeSet;

/// `output`: the sort of a constructor, nothing for a predicate.
pub struct Symbol {
    pub name: String,
    pub inputs: Vec<usize>,
    pub output: Option<usize>,
}

/// Its variables are `Tree::Var(0)` and on.
pub struct Rule {
    pub name: String,
    pub vars: Vec<(String, usize)>,
    pub premises: Vec<Tree>,
    pub conclusion: Tree,
}

#[derive(Default)]
pub struct Theory {
    pub sorts: Vec<String>,
    pub symbols: Vec<Symbol>,
    pub rules: Vec<Rule>,
}

#[derive(Clone)]
pub struct Fact {
    pub judgment: Tree,
    pub hyps: BTreeSet<usize>,
    pub assumed: bool,
    pub premises: Vec<Tree>,
    pub general: Vec<usize>,
}

impl Fact {
    pub fn plain(&self) -> bool {
        self.assumed && self.premises.is_empty() && self.general.is_empty()
    }

    pub fn mentioned(&self) -> BTreeSet<usize> {
        let mut vs = BTreeSet::new();
        self.judgment.variables(&mut vs);
        self.premises.iter().for_each(|p| p.variables(&mut vs));
        vs
    }
}

/// A variable without a name was made by an `invert`.
#[derive(Default)]
pub struct World {
    pub theory: Theory,
    pub vars: Vec<(Option<String>, usize)>,
    pub defs: Vec<(String, Tree)>,
    pub facts: Vec<Fact>,
}

fn word(x: &Sexp) -> &str {
    x.atom().expect("an atom")
}

fn parts(x: &Sexp) -> &[Sexp] {
    x.list().expect("a list")
}

fn index(x: &Sexp) -> usize {
    word(x).parse().expect("an index")
}

impl Theory {
    fn sort(&self, x: &Sexp) -> usize {
        self.sorts.iter().position(|s| s == word(x)).expect("a sort")
    }

    pub fn symbol(&self, name: &str, predicate: bool) -> usize {
        self.symbols.iter().position(|s| s.name == name && s.output.is_none() == predicate).expect("a symbol")
    }

    pub fn rule(&self, name: &str) -> &Rule {
        self.rules.iter().find(|r| r.name == name).expect("a rule")
    }

    pub fn constructors(&self, sort: usize) -> Vec<usize> {
        (0..self.symbols.len()).filter(|&c| self.symbols[c].output == Some(sort)).collect()
    }

    fn pattern(&self, x: &Sexp, sort: Option<usize>, vars: &mut Vec<(String, usize)>) -> Tree {
        let (head, args) = match x {
            Sexp::Atom(v) if v.starts_with('?') => {
                let known = vars.iter().position(|(n, _)| n == v);
                return Tree::Var(known.unwrap_or_else(|| {
                    vars.push((v.clone(), sort.expect("a term")));
                    vars.len() - 1
                }));
            }
            Sexp::Atom(c) => (c.as_str(), &[][..]),
            Sexp::List(xs) => (word(&xs[0]), &xs[1..]),
        };
        let c = self.symbol(head, sort.is_none());
        let inputs = &self.symbols[c].inputs;
        Tree::App(c, args.iter().zip(inputs).map(|(a, &s)| self.pattern(a, Some(s), vars)).collect())
    }

    pub fn declare(&mut self, form: &Sexp) {
        let xs = parts(form);
        let name = word(&xs[1]).to_string();
        match word(&xs[0]) {
            "sort" => self.sorts.push(name),
            "rule" => {
                let mut vars = Vec::new();
                let premises = parts(&xs[2]).iter().map(|p| self.pattern(p, None, &mut vars)).collect();
                let conclusion = self.pattern(&xs[3], None, &mut vars);
                self.rules.push(Rule { name, vars, premises, conclusion });
            }
            _ => {
                let inputs = parts(&xs[2]).iter().map(|s| self.sort(s)).collect();
                let output = xs.get(3).map(|s| self.sort(s));
                self.symbols.push(Symbol { name, inputs, output });
            }
        }
    }
}

/// What a form that names a rule or a fact puts together, before question 39 is asked.
struct Joined {
    judgment: Tree,
    used: BTreeSet<usize>,
    hyps: BTreeSet<usize>,
}

impl World {
    pub fn new(theory: &[Sexp]) -> Self {
        let mut world = World::default();
        theory.iter().for_each(|f| world.theory.declare(f));
        world
    }

    pub fn var(&self, name: &str) -> usize {
        self.vars.iter().position(|(n, _)| n.as_deref() == Some(name)).expect("a variable")
    }

    pub fn term(&self, x: &Sexp) -> Tree {
        match x {
            Sexp::Atom(a) => {
                let def = self.defs.iter().find(|(n, _)| n == a).map(|(_, t)| t.clone());
                let var = self.vars.iter().position(|(n, _)| n.as_deref() == Some(a)).map(Tree::Var);
                def.or(var).unwrap_or_else(|| Tree::App(self.theory.symbol(a, false), Vec::new()))
            }
            Sexp::List(xs) => {
                let args = xs[1..].iter().map(|a| self.term(a)).collect();
                Tree::App(self.theory.symbol(word(&xs[0]), false), args)
            }
        }
    }

    pub fn judgment(&self, x: &Sexp) -> Tree {
        let xs = parts(x);
        Tree::App(self.theory.symbol(word(&xs[0]), true), xs[1..].iter().map(|a| self.term(a)).collect())
    }

    fn bindings(&self, xs: &[Sexp]) -> Map {
        xs.iter().map(|b| (self.var(word(&parts(b)[0])), self.term(&parts(b)[1]))).collect()
    }

    fn reference(&self, x: &Sexp) -> (Tree, BTreeSet<usize>) {
        match x {
            Sexp::Atom(_) => (self.facts[index(x)].judgment.clone(), self.facts[index(x)].hyps.clone()),
            Sexp::List(xs) => (self.facts[index(&xs[0])].judgment.sub(&self.bindings(&xs[1..])), BTreeSet::new()),
        }
    }

    fn step(&self, xs: &[Sexp]) -> Joined {
        let rule = self.theory.rule(word(&xs[2]));
        let (mut used, mut hyps, mut map) = (BTreeSet::new(), BTreeSet::new(), Map::new());
        let mut stated = None;
        for (x, p) in parts(&xs[3]).iter().zip(&rule.premises) {
            let (j, hs) = self.reference(x);
            p.matches(&j, &|_| true, &mut map);
            j.variables(&mut used);
            hyps.extend(hs);
        }
        for item in &xs[4..] {
            match parts(item) {
                [Sexp::Atom(v), t] if v.starts_with('?') => {
                    let i = rule.vars.iter().position(|(n, _)| n == v).expect("a rule's variable");
                    let t = self.term(t);
                    t.variables(&mut used);
                    map.insert(i, t);
                }
                _ => stated = Some(self.judgment(item)),
            }
        }
        Joined { judgment: stated.unwrap_or_else(|| rule.conclusion.sub(&map)), used, hyps }
    }

    fn apply(&self, xs: &[Sexp]) -> Joined {
        let m = index(&xs[2]);
        let map = self.bindings(parts(&xs[3]));
        let mut used = BTreeSet::new();
        map.values().for_each(|t| t.variables(&mut used));
        let mut hyps: BTreeSet<usize> = if self.facts[m].assumed { [m].into() } else { BTreeSet::new() };
        for x in parts(&xs[4]) {
            let (j, hs) = self.reference(x);
            j.variables(&mut used);
            hyps.extend(hs);
        }
        Joined { judgment: self.facts[m].judgment.sub(&map), used, hyps }
    }

    /// The lowest variable that question 39 does not allow in this `step` or `apply`.
    pub fn outside(&self, form: &Sexp) -> Option<usize> {
        let xs = parts(form);
        let joined = if word(&xs[0]) == "step" { self.step(xs) } else { self.apply(xs) };
        let mut allowed = BTreeSet::new();
        joined.judgment.variables(&mut allowed);
        for &h in &joined.hyps {
            let f = &self.facts[h];
            allowed.extend(f.mentioned().into_iter().filter(|v| !f.general.contains(v)));
        }
        joined.used.difference(&allowed).next().copied()
    }

    fn push(&mut self, judgment: Tree, hyps: BTreeSet<usize>) {
        self.facts.push(Fact { judgment, hyps, assumed: false, premises: Vec::new(), general: Vec::new() });
    }

    fn assume(&mut self, judgment: Tree, premises: Vec<Tree>, general: Vec<usize>) {
        let hyps = [self.facts.len()].into();
        self.facts.push(Fact { judgment, hyps, assumed: true, premises, general });
    }

    /// Variables are made for the rules that no case names.
    fn invert(&mut self, xs: &[Sexp]) {
        let k = index(&xs[2]);
        let mut hyps: BTreeSet<usize> = parts(&xs[3]).iter().map(index).collect();
        hyps.insert(k);
        let judgment = self.judgment(&xs[4]);
        let given: Vec<&str> = parts(&xs[5]).iter().map(|c| word(&parts(c)[0])).collect();
        for rule in &self.theory.rules {
            if head(&rule.conclusion) == head(&self.facts[k].judgment) && !given.contains(&rule.name.as_str()) {
                self.vars.extend(rule.vars.iter().map(|(_, s)| (None, *s)));
            }
        }
        self.push(judgment, hyps);
    }

    pub fn take(&mut self, form: &Sexp) {
        let xs = parts(form);
        match (word(&xs[0]), xs.len()) {
            ("var", _) => {
                let sort = self.theory.sort(&xs[2]);
                self.vars.push((Some(word(&xs[1]).to_string()), sort));
            }
            ("def", _) => self.defs.push((word(&xs[1]).to_string(), self.term(&xs[2]))),
            ("hyp", 3) => self.assume(self.judgment(&xs[2]), Vec::new(), Vec::new()),
            ("hyp", _) => {
                let premises = parts(&xs[2]).iter().map(|p| self.judgment(p)).collect();
                let general = parts(&xs[4]).iter().map(|v| self.var(word(v))).collect();
                self.assume(self.judgment(&xs[3]), premises, general);
            }
            ("step" | "apply", _) => {
                let joined = if word(&xs[0]) == "step" { self.step(xs) } else { self.apply(xs) };
                self.push(joined.judgment, joined.hyps);
            }
            ("induct", n) => {
                let hyps = if n == 6 { parts(&xs[3]).iter().map(index).collect() } else { BTreeSet::new() };
                self.push(self.judgment(&xs[n - 2]), hyps);
            }
            ("invert", _) => self.invert(xs),
            _ => (),
        }
    }

    /// The rule with its variables renamed to these, and what it needs to conclude `h`.
    pub fn inverted(&self, rule: usize, names: &[usize], h: &Tree) -> Option<(Vec<Tree>, Map)> {
        let rule = &self.theory.rules[rule];
        let renaming: Map = names.iter().enumerate().map(|(i, &v)| (i, Tree::Var(v))).collect();
        let theta = unify(h, &rule.conclusion.sub(&renaming))?;
        Some((rule.premises.iter().map(|p| p.sub(&renaming).sub(&theta)).collect(), theta))
    }
}

/// The number of a judgment's predicate.
pub fn head(j: &Tree) -> usize {
    match j {
        Tree::App(p, _) => *p,
        Tree::Var(_) => unreachable!("a judgment is no variable"),
    }
}
