//! Which comes first in a declaration that the original refuses: its refusal, or a row of question 60. The original stores nothing that could
//! be counted there, so that its questions are put again, in its order, up to the first that fails (D19).
use crate::rows::limit;
use crate::sexp::Sexp;
use crate::world::World;

/// What a walk through a declaration meets: a row, or a question that fails.
enum Met {
    Row(usize),
    Refusal,
}

type Walked = Result<(), Met>;

struct Walk {
    world: World,
    words: usize,
    vars: Vec<(String, usize)>,
}

fn list(x: &Sexp) -> Result<&[Sexp], Met> {
    x.list().map_err(|_| Met::Refusal)
}

fn name(x: Option<&Sexp>) -> Result<&str, Met> {
    x.and_then(|x| x.atom().ok()).ok_or(Met::Refusal)
}

fn known(holds: bool) -> Walked {
    if holds { Ok(()) } else { Err(Met::Refusal) }
}

impl Walk {
    fn word(&mut self) -> Walked {
        self.words += 1;
        if self.words > limit(6) { Err(Met::Row(6)) } else { Ok(()) }
    }

    /// A head behind its own questions, before its arguments. A judgment has no sort.
    fn applied(&mut self, head: &str, args: &[Sexp], sort: Option<usize>) -> Walked {
        let symbols = &self.world.theory.symbols;
        let found = symbols.iter().find(|s| s.name == head && s.output.is_some() == sort.is_some()).ok_or(Met::Refusal)?;
        known(found.output == sort && found.inputs.len() == args.len())?;
        let inputs = found.inputs.clone();
        self.word()?;
        args.iter().zip(inputs).try_for_each(|(a, s)| self.term(a, s))
    }

    fn term(&mut self, x: &Sexp, sort: usize) -> Walked {
        match x {
            Sexp::Atom(v) if v.starts_with('?') => self.variable(v, sort),
            Sexp::Atom(c) => self.applied(c, &[], Some(sort)),
            Sexp::List(xs) => {
                let head = name(xs.first())?;
                known(xs.len() > 1)?;
                self.applied(head, &xs[1..], Some(sort))
            }
        }
    }

    fn variable(&mut self, v: &str, sort: usize) -> Walked {
        known(v.len() > 1)?;
        match self.vars.iter().find(|(n, _)| n == v) {
            Some((_, s)) => known(*s == sort)?,
            None => {
                self.vars.push((v.to_string(), sort));
                if self.vars.len() > limit(5) {
                    return Err(Met::Row(5));
                }
            }
        }
        self.word()
    }

    fn judgment(&mut self, x: &Sexp) -> Walked {
        let xs = list(x)?;
        let head = name(xs.first())?;
        self.applied(head, &xs[1..], None)
    }

    fn symbol(&self, xs: &[Sexp]) -> Walked {
        known(!name(xs.get(1))?.starts_with('?'))?;
        for (i, x) in list(&xs[2])?.iter().enumerate() {
            let sort = name(Some(x))?;
            known(self.world.theory.sorts.iter().any(|s| s == sort))?;
            if i >= limit(3) {
                return Err(Met::Row(3));
            }
        }
        Ok(())
    }

    /// A sort is stored behind all its questions, so that a refused one meets no row.
    fn declaration(&mut self, form: &Sexp) -> Walked {
        let xs = list(form)?;
        match (name(xs.first())?, xs.len()) {
            ("ctor", 4) | ("pred", 3) => self.symbol(xs),
            ("rule", 4) => {
                list(&xs[2])?.iter().try_for_each(|j| self.judgment(j))?;
                self.judgment(&xs[3])
            }
            _ => Ok(()),
        }
    }
}

/// The row that a refused declaration meets before its refusal. `words`: the pattern words that stand.
pub fn before_refusal(before: &[Sexp], words: usize, form: &Sexp) -> Option<usize> {
    let mut walk = Walk { world: World::new(before), words, vars: Vec::new() };
    match walk.declaration(form) {
        Err(Met::Row(row)) => Some(row),
        _ => None,
    }
}
