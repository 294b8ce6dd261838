
// Behind the last line of the original, whose own text is unchanged: what a run leaves can be looked at. `check` gives its counts or a
// sentence only, but its checker goes out of scope on every way out, and then its terms, variables and facts are copied, if somebody
// asked for them. Otherwise this costs one test.

/// A fact as the original holds it: judgment, hypotheses, whether it is assumed, premises, generalised variables.
#[derive(Clone, Debug, PartialEq, Eq)]
pub struct LeftFact {
    pub judgment: u32,
    pub hyps: Vec<u32>,
    pub assumed: bool,
    pub premises: Vec<u32>,
    pub general: Vec<u32>,
}

/// Terms in the order made, each its head and its arguments; a head from `symbols` on is a variable. A variable without a name was made.
#[derive(Clone, Debug, Default)]
pub struct Left {
    pub symbols: Vec<String>,
    pub outputs: Vec<u32>,
    pub vars: Vec<Option<String>>,
    pub nodes: Vec<Vec<u32>>,
    pub defs: HashMap<String, u32>,
    pub facts: Vec<LeftFact>,
}

thread_local! {
    static WANTED: std::cell::Cell<bool> = const { std::cell::Cell::new(false) };
    static LEFT: std::cell::RefCell<Option<Left>> = const { std::cell::RefCell::new(None) };
}

impl Drop for Checker<'_> {
    fn drop(&mut self) {
        if !WANTED.get() {
            return;
        }
        let symbols = self.spec.names.clone();
        let mut vars = vec![None; self.output.len() - symbols.len()];
        for (name, &v) in &self.vars {
            vars[v as usize - symbols.len()] = Some(name.clone());
        }
        let facts = self.facts.iter().map(|f| LeftFact {
            judgment: f.judgment,
            hyps: f.hyps.clone(),
            assumed: f.is_hyp,
            premises: f.premises.clone(),
            general: f.general.clone(),
        });
        let left = Left {
            outputs: self.output.clone(),
            vars,
            nodes: (0..self.arena.len() as u32).map(|id| self.arena.node(id).to_vec()).collect(),
            defs: self.defs.clone(),
            facts: facts.collect(),
            symbols,
        };
        LEFT.with(|l| *l.borrow_mut() = Some(left));
    }
}

/// `check`, and what it left; nothing where it did not come to the goals.
pub fn check_left(theory: &str, goals: &str, proof: &[u8]) -> (Result<Report>, Option<Left>) {
    LEFT.with(|l| l.borrow_mut().take());
    WANTED.set(true);
    let answer = check(theory, goals, proof);
    WANTED.set(false);
    (answer, LEFT.with(|l| l.borrow_mut().take()))
}
