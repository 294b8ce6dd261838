//! What a check has recorded, read off its tables: facts, terms, variables, goals, by name.
use crate::printing;
use crate::refusal::Text;
use crate::tables::{Record, Table, Tables, VARIABLE};
use std::fmt;
use std::ops::Range;

/// Tables, and the texts in which their names stand.
#[derive(Clone, Copy, Debug)]
pub(crate) struct State<'a> {
    pub tables: &'a Tables,
    pub texts: &'a [Vec<u8>; 3],
}

impl<'a> State<'a> {
    /// The bytes at this place of a text. They are below 128, or the text would have been refused before a name was stored.
    fn name(&self, text: Text, range: Range<usize>) -> &'a str {
        std::str::from_utf8(&self.texts[text as usize][range]).unwrap_or("\u{fffd}")
    }

    pub fn term(self, number: u32) -> Term<'a> {
        Term { state: self, number }
    }

    fn variable(self, number: u32) -> Variable<'a> {
        Variable { state: self, number }
    }

    fn rule(self, number: usize) -> Rule<'a> {
        Rule { state: self, number }
    }

    /// The rules that were stored; their names are not empty, so that a row of zeros is none.
    pub fn rules(self) -> impl Iterator<Item = Rule<'a>> {
        let rows = self.tables.cells(Table::Rules).chunks(6);
        rows.take_while(|row| row[1] != 0).enumerate().map(move |(k, _)| self.rule(k))
    }

    fn lists(&self, first: u32, entries: u32) -> &'a [u32] {
        &self.tables.cells(Table::Lists)[range(first, first + entries)]
    }

    /// Variable `number`, from 0, if there is one.
    pub fn find_variable(self, number: u32) -> Option<Variable<'a>> {
        // a variable's sort is never 0
        let cells = self.tables.cells(Table::Vars).get(4 * number as usize)?;
        (*cells != 0).then(|| self.variable(number))
    }

    pub fn goal(self, number: usize) -> Goal<'a> {
        Goal { state: self, number }
    }

    /// The goals that were stored; their names are not empty, so that a row of zeros is none.
    pub fn goals(self) -> impl Iterator<Item = Goal<'a>> {
        let rows = self.tables.cells(Table::Goals).chunks(6);
        rows.take_while(|row| row[1] != 0).enumerate().map(move |(k, _)| self.goal(k))
    }
}

fn range(from: u32, to: u32) -> Range<usize> {
    from as usize..to as usize
}

/// A recorded fact.
#[derive(Clone, Copy, Debug)]
pub struct Fact<'a> {
    pub(crate) state: State<'a>,
    pub(crate) index: usize,
    pub(crate) record: &'a Record,
}

impl<'a> Fact<'a> {
    /// Its index in the proof, from 0.
    pub fn index(&self) -> usize {
        self.index
    }

    /// What it says.
    pub fn judgment(&self) -> Term<'a> {
        self.state.term(self.record.judgment)
    }

    /// Whether it is a hypothesis.
    pub fn assumed(&self) -> bool {
        self.record.assumed != 0
    }

    /// The hypotheses that it rests on, by index.
    pub fn hypotheses(&self) -> impl Iterator<Item = usize> + use<'a> {
        self.state.lists(self.record.first, self.record.hyps).iter().map(|&h| h as usize)
    }

    /// The premises of a rule hypothesis.
    pub fn premises(&self) -> impl Iterator<Item = Term<'a>> + use<'a> {
        let state = self.state;
        let from = self.record.first + self.record.hyps;
        state.lists(from, self.record.premises).iter().map(move |&t| state.term(t))
    }

    /// The variables that a rule hypothesis generalises.
    pub fn generalised(&self) -> impl Iterator<Item = Variable<'a>> + use<'a> {
        let state = self.state;
        let from = self.record.first + self.record.hyps + self.record.premises;
        state.lists(from, self.record.general).iter().map(move |&v| state.variable(v))
    }

    /// The names of the rules that it rests on, in the order of the theory.
    pub fn footing(&self) -> impl Iterator<Item = &'a str> + use<'a> {
        let (state, words) = (self.state, self.record.footing);
        (0..64 * words.len()).filter(move |r| words[r / 64] >> (r % 64) & 1 == 1).map(move |r| state.rule(r).name())
    }
}

/// A rule of the theory.
#[derive(Clone, Copy, Debug)]
pub struct Rule<'a> {
    state: State<'a>,
    number: usize,
}

impl<'a> Rule<'a> {
    /// The place of its name in the theory's text.
    pub fn declared(&self) -> Range<usize> {
        let [from, to, ..] = self.state.tables.entry::<6>(Table::Rules, self.number);
        range(from, to)
    }

    /// Its name.
    pub fn name(&self) -> &'a str {
        self.state.name(Text::Theory, self.declared())
    }
}

/// A term or a judgment: a tree whose equal parts are stored once.
///
/// `Display` spells it as the texts do. Of a term that shares its parts this can be very long: [`Term::clipped`] ends it.
#[derive(Clone, Copy, Debug)]
pub struct Term<'a> {
    state: State<'a>,
    number: u32,
}

/// What stands at the root of a term.
#[derive(Clone, Copy, Debug)]
pub enum Head<'a> {
    /// A constructor, by name.
    Constructor(&'a str),
    /// A predicate, by name.
    Predicate(&'a str),
    /// A variable.
    Variable(Variable<'a>),
}

impl<'a> Term<'a> {
    /// Its number in the tables. Two terms of one check are equal just where their numbers are.
    pub fn number(&self) -> u32 {
        self.number
    }

    fn words(&self) -> &'a [u32] {
        let index = self.state.tables.cells(Table::Index);
        let from = if self.number == 0 { 0 } else { index[self.number as usize - 1] };
        &self.state.tables.cells(Table::Words)[range(from, index[self.number as usize])]
    }

    /// Its root.
    pub fn head(&self) -> Head<'a> {
        let head = self.words()[0];
        if head >= VARIABLE {
            return Head::Variable(self.state.variable(head - VARIABLE));
        }
        let [output, _, from, to] = self.state.tables.entry::<4>(Table::Symbols, head as usize);
        let name = self.state.name(Text::Theory, range(from, to));
        if output == 0 { Head::Predicate(name) } else { Head::Constructor(name) }
    }

    /// Its arguments.
    pub fn arguments(&self) -> impl DoubleEndedIterator<Item = Term<'a>> + use<'a> {
        let state = self.state;
        self.words()[1..].iter().map(move |&t| state.term(t))
    }

    /// Its spelling, where that is no longer than about so many bytes; else the beginning of it and `...`.
    pub fn clipped(&self, bytes: usize) -> String {
        printing::clipped(*self, bytes)
    }
}

impl fmt::Display for Term<'_> {
    fn fmt(&self, f: &mut fmt::Formatter<'_>) -> fmt::Result {
        printing::spell(*self, &mut |word| f.write_str(word).map(|()| true))
    }
}

/// A variable of goals or proof, or one that `invert` made.
#[derive(Clone, Copy, Debug)]
pub struct Variable<'a> {
    state: State<'a>,
    number: u32,
}

impl<'a> Variable<'a> {
    /// Its number, from 0 in the order made.
    pub fn number(&self) -> u32 {
        self.number
    }

    /// Where it is declared: the text, and the place of its name there; nothing for one that `invert` made.
    pub fn declared(&self) -> Option<(Text, Range<usize>)> {
        let [_, text, from, to] = self.state.tables.entry::<4>(Table::Vars, self.number as usize);
        Text::of(u64::from(text)).map(|text| (text, range(from, to)))
    }

    /// Its name, if it has one.
    pub fn name(&self) -> Option<&'a str> {
        self.declared().map(|(text, range)| self.state.name(text, range))
    }
}

/// Its name, or `_N` for a made variable of number N.
impl fmt::Display for Variable<'_> {
    fn fmt(&self, f: &mut fmt::Formatter<'_>) -> fmt::Result {
        match self.name() {
            Some(name) => f.write_str(name),
            None => write!(f, "_{}", self.number),
        }
    }
}

/// A goal.
#[derive(Clone, Copy, Debug)]
pub struct Goal<'a> {
    state: State<'a>,
    number: usize,
}

impl<'a> Goal<'a> {
    fn row(&self) -> [u32; 6] {
        self.state.tables.entry(Table::Goals, self.number)
    }

    /// Its number, from 0 in the order of the goals' text.
    pub fn number(&self) -> usize {
        self.number
    }

    /// The place of its name in the goals' text.
    pub fn declared(&self) -> Range<usize> {
        let [from, to, ..] = self.row();
        range(from, to)
    }

    /// Its name.
    pub fn name(&self) -> &'a str {
        self.state.name(Text::Goals, self.declared())
    }

    /// What is to be proved.
    pub fn judgment(&self) -> Term<'a> {
        self.state.term(self.row()[2])
    }

    /// The judgments that its result may rest on.
    pub fn listed(&self) -> impl Iterator<Item = Term<'a>> + use<'a> {
        let ([_, _, _, first, entries, _], state) = (self.row(), self.state);
        state.lists(first, entries).iter().map(move |&t| state.term(t))
    }

    /// Whether its result has come.
    pub fn proved(&self) -> bool {
        self.row()[5] != 0
    }
}
