//! Terms and judgments as plain trees, for generating proofs: replacement, matching, unification.
use std::collections::{BTreeMap, BTreeSet};

#[derive(Clone, Debug, PartialEq, Eq, PartialOrd, Ord)]
pub enum Tree {
    Var(usize),
    App(usize, Vec<Tree>),
}

pub type Map = BTreeMap<usize, Tree>;

impl Tree {
    pub fn variables(&self, out: &mut BTreeSet<usize>) {
        match self {
            Tree::Var(v) => {
                out.insert(*v);
            }
            Tree::App(_, ts) => ts.iter().for_each(|t| t.variables(out)),
        }
    }

    pub fn holds(&self, v: usize) -> bool {
        match self {
            Tree::Var(w) => *w == v,
            Tree::App(_, ts) => ts.iter().any(|t| t.holds(v)),
        }
    }

    /// A variable without a value stays.
    pub fn sub(&self, map: &Map) -> Tree {
        match self {
            Tree::Var(v) => map.get(v).cloned().unwrap_or(Tree::Var(*v)),
            Tree::App(c, ts) => Tree::App(*c, ts.iter().map(|t| t.sub(map)).collect()),
        }
    }

    pub fn at(&self, v: usize, value: &Tree) -> Tree {
        self.sub(&Map::from([(v, value.clone())]))
    }

    /// `self` as a pattern whose variables that pass `open` may be bound; the others stand for themselves.
    pub fn matches(&self, t: &Tree, open: &dyn Fn(usize) -> bool, map: &mut Map) -> bool {
        match (self, t) {
            (Tree::Var(v), _) if open(*v) => match map.get(v) {
                Some(u) => u == t,
                None => map.insert(*v, t.clone()).is_none(),
            },
            (Tree::App(c, ts), Tree::App(d, us)) => {
                c == d && ts.len() == us.len() && ts.iter().zip(us).all(|(a, b)| a.matches(b, open, map))
            }
            _ => self == t,
        }
    }

    pub fn size(&self) -> usize {
        match self {
            Tree::Var(_) => 1,
            Tree::App(_, ts) => 1 + ts.iter().map(Tree::size).sum::<usize>(),
        }
    }
}

/// The unifier that the original finds: the last pair first, a variable on the left bound before one on the right.
pub fn unify(a: &Tree, b: &Tree) -> Option<Map> {
    let mut theta = Map::new();
    let mut work = vec![(a.clone(), b.clone())];
    while let Some((s, t)) = work.pop() {
        let (s, t) = (s.sub(&theta), t.sub(&theta));
        if s == t {
            continue;
        }
        let (x, u) = match (s, t) {
            (Tree::Var(x), t) => (x, t),
            (s, Tree::Var(y)) => (y, s),
            (Tree::App(c, ss), Tree::App(d, ts)) if c == d && ss.len() == ts.len() => {
                work.extend(ss.into_iter().zip(ts));
                continue;
            }
            _ => return None,
        };
        if u.holds(x) {
            return None;
        }
        let single = Map::from([(x, u.clone())]);
        theta.values_mut().for_each(|t| *t = t.sub(&single));
        theta.insert(x, u);
    }
    Some(theta)
}
