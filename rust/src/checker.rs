//! A checker with tables of its own, and what it has recorded.
use crate::answer::Verdict;
use crate::bindings::check_lent;
use crate::facts::{Fact, Goal, Rule, State, Term, Variable};
use crate::places::{scan, tag};
use crate::refusal::{Refusal, Text};
use crate::tables::{LENGTH, STACK, Table, Tables};
use std::{io, panic, thread};

/// Tables for checks, allocated once.
///
/// Nothing is kept from one check to the next: each gives the same answer and leaves the same tables as the first one would. Checkers are
/// independent of each other, and may be used by several threads at the same time.
///
/// ```
/// use tariff::Checker;
///
/// let theory = b"(sort Pass) (ctor first () Pass) (pred Child (Pass)) (rule c0 () (Child first))";
/// let mut checker = Checker::new();
///
/// let report = checker.check(theory, b"(goal g (Child first))", b"(step 0 c0 ()) (result g 0)")?;
/// assert_eq!((report.steps, report.goals), (1, 1));
///
/// let refusal = checker.check(theory, b"(goal g (Child first))", b"(step 1 c0 ())").unwrap_err();
/// assert_eq!(refusal.number, 32);
/// # Ok::<(), tariff::Refusal>(())
/// ```
#[derive(Debug)]
pub struct Checker {
    tables: Tables,
    /// The texts of the last check, in which names stand.
    texts: [Vec<u8>; 3],
    last: Option<Verdict>,
}

/// The forms that record a fact.
const RECORDING: [&[u8]; 5] = [b"hyp", b"step", b"apply", b"induct", b"invert"];

impl Checker {
    /// Allocates the tables, about 400 KB.
    pub fn new() -> Self {
        Checker { tables: Tables::new(), texts: [const { Vec::new() }; 3], last: None }
    }

    /// Checks that the proof shows the goals in the theory: the report of an acceptance, or the first refusal.
    ///
    /// It takes up to [`STACK`] bytes of stack; [`with_stack`] gives them where a thread has less.
    pub fn check(&mut self, theory: &[u8], goals: &[u8], proof: &[u8]) -> Verdict {
        let texts = [theory, goals, proof];
        for (kept, text) in self.texts.iter_mut().zip(texts) {
            kept.clear();
            // a longer text is refused before a name of it is stored
            kept.extend_from_slice(&text[..text.len().min(LENGTH)]);
        }
        let verdict = check_lent(texts, self.tables.lend()).verdict();
        self.last = Some(verdict);
        verdict
    }

    fn state(&self) -> State<'_> {
        State { tables: &self.tables, texts: &self.texts }
    }

    /// How many facts stand: all of an acceptance, or one for each recording form before the refused one. The tables do not say it.
    fn recorded(&self) -> usize {
        match self.last {
            Some(Ok(report)) => report.steps as usize,
            Some(Err(Refusal { text: Some(Text::Proof), number: 4.., form, .. })) => {
                let proof = &self.texts[Text::Proof as usize];
                let taken = scan(proof).items.into_iter().take(form);
                taken.filter(|item| RECORDING.contains(&tag(proof, item))).count()
            }
            _ => 0,
        }
    }

    /// The facts that the last check recorded; after a refusal those before the refused form.
    ///
    /// ```
    /// # use tariff::Checker;
    /// let theory = b"(sort Pass) (ctor first () Pass) (pred Child (Pass)) (rule c0 () (Child first))";
    /// let mut checker = Checker::new();
    /// checker.check(theory, b"(goal g (Child first))", b"(step 0 c0 ()) (result g 0)")?;
    ///
    /// let fact = checker.facts().next().expect("one was recorded");
    /// assert_eq!(fact.judgment().to_string(), "(Child first)");
    /// assert_eq!(fact.footing().collect::<Vec<_>>(), ["c0"]);
    /// assert_eq!(fact.hypotheses().count(), 0);
    /// # Ok::<(), tariff::Refusal>(())
    /// ```
    pub fn facts(&self) -> impl ExactSizeIterator<Item = Fact<'_>> {
        let state = self.state();
        let records = self.tables.facts()[..self.recorded()].iter().enumerate();
        records.map(move |(index, record)| Fact { state, index, record })
    }

    /// The rules that the last check stored; after a refusal in the theory those before the refused form.
    pub fn rules(&self) -> impl Iterator<Item = Rule<'_>> {
        self.state().rules()
    }

    /// The goals that the last check stored; after a refusal in the goals those before the refused form.
    pub fn goals(&self) -> impl Iterator<Item = Goal<'_>> {
        self.state().goals()
    }

    /// After refusal 53, the goals without a result, in the order of their text.
    pub fn missing(&self) -> Vec<Goal<'_>> {
        let listed = self.tables.cells(Table::Missing).iter().take_while(|&&n| n != 0);
        let mut numbers: Vec<usize> = listed.map(|&n| n as usize - 1).collect();
        numbers.sort_unstable();
        numbers.into_iter().map(|n| self.state().goal(n)).collect()
    }

    /// The variable of this number, from 0 in the order made; the detail of 39 is one more.
    pub fn variable(&self, number: u32) -> Option<Variable<'_>> {
        self.state().find_variable(number)
    }

    /// The term of this number.
    pub fn term(&self, number: u32) -> Option<Term<'_>> {
        // a term's words end behind their first, so never at 0
        let end = self.tables.cells(Table::Index).get(number as usize).filter(|_| number < 4_096)?;
        (*end != 0).then(|| self.state().term(number))
    }

    /// The tables as the last check left them.
    pub fn tables(&self) -> &Tables {
        &self.tables
    }
}

impl Default for Checker {
    fn default() -> Self {
        Self::new()
    }
}

/// Runs `f` on a thread of its own whose stack is large enough for checks, and waits for it. An error says that there is no such thread.
///
/// ```
/// use tariff::{Checker, with_stack};
///
/// let number = with_stack(|| Checker::new().check(b"", b"", b"").unwrap_err().number)?;
/// assert_eq!(number, 25);
/// # Ok::<(), std::io::Error>(())
/// ```
pub fn with_stack<T: Send>(f: impl FnOnce() -> T + Send) -> io::Result<T> {
    // half a megabyte more for what stands between the thread's beginning and the call
    let size = STACK + (512 << 10);
    thread::scope(|scope| {
        let thread = thread::Builder::new().stack_size(size).spawn_scoped(scope, f)?;
        Ok(thread.join().unwrap_or_else(|panicked| panic::resume_unwind(panicked)))
    })
}
