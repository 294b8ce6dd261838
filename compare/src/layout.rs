//! What the tables hold after an answer, cell by cell, as docs/TABLES.md has it: the theory's tables from its forms, the others from what
//! the original left, whose terms and variables are made in the same order. Zero behind, up to the named lengths.
use crate::expected::{Bytes, Expected};
use crate::facts::footed;
use crate::schematic::Left;
use crate::{answer, scan};
use std::collections::HashMap;
use tariff::forms::{Form, forms};
use tariff::tables::{FACTS, Record, Table};

/// The cells of each table in the order of `Table::ALL`, and the records. Of the last table, 53's list, the order is free.
pub struct Layout {
    pub cells: Vec<Vec<u32>>,
    pub facts: Vec<Record>,
}

const VARIABLE: u32 = 256;

/// The first forms of a text.
struct Taken<'a> {
    text: &'a [u8],
    forms: Vec<Form>,
}

fn taken(text: &str, n: usize) -> Taken<'_> {
    let it = scan::scan(text.as_bytes());
    let text = scan::first(text, &it, n.min(it.ends.len()));
    Taken { text: text.as_bytes(), forms: forms(text.as_bytes(), 0..text.len()) }
}

/// A name as two cells.
fn place(name: &Form) -> [u32; 2] {
    let range = name.place();
    [range.start as u32, range.end as u32]
}

/// The theory's tables as they grow.
#[derive(Default)]
struct Theory {
    sorts: Vec<u32>,
    symbols: Vec<u32>,
    inputs: Vec<u32>,
    rules: Vec<u32>,
    rule_vars: Vec<u32>,
    patterns: Vec<u32>,
    sort_numbers: HashMap<String, u32>,
    /// By name, and whether it is a predicate.
    numbers: HashMap<(String, bool), u32>,
    inputs_of: Vec<Vec<u32>>,
    rule_names: Vec<String>,
}

/// The variables of a rule: name, sort, place.
type RuleVars = Vec<(String, u32, [u32; 2])>;

impl Theory {
    fn pattern(&mut self, text: &[u8], x: &Form, sort: u32, vars: &mut RuleVars) {
        let (head, args) = match x {
            Form::Atom(_) if x.word(text).starts_with('?') => {
                let name = x.word(text);
                let known = vars.iter().position(|v| v.0 == name);
                let i = known.unwrap_or_else(|| {
                    vars.push((name.into(), sort, place(x)));
                    vars.len() - 1
                });
                return self.patterns.push(VARIABLE + i as u32);
            }
            Form::Atom(_) => (x.word(text), &[][..]),
            Form::List(xs) => (xs[0].word(text), &xs[1..]),
        };
        let c = self.numbers[&(head.to_string(), sort == 0)];
        self.patterns.push(c);
        for (a, s) in args.iter().zip(self.inputs_of[c as usize].clone()) {
            self.pattern(text, a, s, vars);
        }
    }

    fn rule(&mut self, text: &[u8], xs: &[Form]) {
        let (mut vars, first) = (RuleVars::new(), self.patterns.len());
        for j in xs[2].items().iter().chain([&xs[3]]) {
            self.pattern(text, j, 0, &mut vars);
        }
        let numbers = [vars.len(), xs[2].items().len(), first, self.patterns.len()].map(|n| n as u32);
        self.rules.extend(place(&xs[1]).into_iter().chain(numbers));
        let mut cells: Vec<u32> = vars.iter().flat_map(|(_, s, p)| [*s, p[0], p[1]]).collect();
        cells.resize(48, 0);
        self.rule_vars.extend(cells);
        self.rule_names.push(xs[1].word(text).to_string());
    }

    fn declare(&mut self, text: &[u8], xs: &[Form]) {
        let name = xs[1].word(text).to_string();
        match xs[0].word(text) {
            "sort" => {
                self.sorts.extend(place(&xs[1]));
                self.sort_numbers.insert(name, self.sorts.len() as u32 / 2);
            }
            "rule" => self.rule(text, xs),
            _ => {
                let sort = |s: &Form| self.sort_numbers[s.word(text)];
                let mut inputs: Vec<u32> = xs[2].items().iter().map(sort).collect();
                let output = xs.get(3).map_or(0, sort);
                self.symbols.extend([output, inputs.len() as u32].into_iter().chain(place(&xs[1])));
                self.numbers.insert((name, output == 0), self.inputs_of.len() as u32);
                self.inputs_of.push(inputs.clone());
                inputs.resize(16, 0);
                self.inputs.extend(inputs);
            }
        }
    }
}

/// Terms by their nodes, as they are spelled in the goals, where no abbreviation stands.
struct Spelled<'a> {
    theory: &'a Theory,
    left: &'a Left,
    ids: HashMap<&'a [u32], u32>,
}

impl Spelled<'_> {
    fn find(&self, text: &[u8], x: &Form, judgment: bool) -> u32 {
        let (name, args) = match x {
            Form::Atom(_) => (x.word(text), &[][..]),
            Form::List(xs) => (xs[0].word(text), &xs[1..]),
        };
        let var = self.left.vars.iter().position(|v| v.as_deref() == Some(name)).filter(|_| !judgment);
        let head = var.map_or_else(|| self.theory.numbers[&(name.to_string(), judgment)], |v| (self.left.symbols.len() + v) as u32);
        let node: Vec<u32> = std::iter::once(head).chain(args.iter().map(|a| self.find(text, a, false))).collect();
        self.ids[&node[..]]
    }
}

/// The cells from variables on.
#[derive(Default)]
struct State {
    vars: Vec<u32>,
    defs: Vec<u32>,
    goals: Vec<u32>,
    facts: Vec<Record>,
    lists: Vec<u32>,
}

impl State {
    /// Variables by number; a made one has no name and no text.
    fn variables(&mut self, left: &Left, texts: [(&Taken, u32); 2]) {
        let mut places = HashMap::new();
        for (t, number) in texts {
            for xs in t.forms.iter().map(Form::items).filter(|xs| xs[0].word(t.text) == "var") {
                places.insert(xs[1].word(t.text).to_string(), (number, place(&xs[1])));
            }
        }
        for (v, name) in left.vars.iter().enumerate() {
            let sort = left.outputs[left.symbols.len() + v] + 1;
            let (text, place) = name.as_ref().map_or((0, [0, 0]), |n| places[n]);
            self.vars.extend([sort, text, place[0], place[1]]);
        }
    }

    fn abbreviations(&mut self, left: &Left, proof: &Taken) {
        for xs in proof.forms.iter().map(Form::items).filter(|xs| xs[0].word(proof.text) == "def") {
            self.defs.extend(place(&xs[1]).into_iter().chain([left.defs[xs[1].word(proof.text)]]));
        }
    }

    fn goals(&mut self, spelled: &Spelled, goals: &Taken, proof: &Taken) {
        let results = proof.forms.iter().map(Form::items).filter(|xs| xs[0].word(proof.text) == "result");
        let come: Vec<&str> = results.map(|xs| xs[1].word(proof.text)).collect();
        for xs in goals.forms.iter().map(Form::items).filter(|xs| xs[0].word(goals.text) == "goal") {
            let listed = if xs.len() == 4 { xs[2].items() } else { &[] };
            let judgment = spelled.find(goals.text, &xs[xs.len() - 1], true);
            let done = u32::from(come.contains(&xs[1].word(goals.text)));
            let cells = [judgment, self.lists.len() as u32, listed.len() as u32, done];
            self.goals.extend(place(&xs[1]).into_iter().chain(cells));
            self.lists.extend(listed.iter().map(|h| spelled.find(goals.text, h, true)));
        }
    }

    fn facts(&mut self, left: &Left) {
        for f in &left.facts {
            let [first, hyps, premises, general] = [self.lists.len(), f.hyps.len(), f.premises.len(), f.general.len()].map(|n| n as u32);
            let assumed = u32::from(f.assumed);
            self.facts.push(Record { judgment: f.judgment, assumed, first, hyps, premises, general, footing: [0; 4] });
            let general = f.general.iter().map(|v| v - left.symbols.len() as u32);
            self.lists.extend(f.hyps.iter().chain(&f.premises).copied().chain(general));
        }
    }

    /// The goals without a result, from 1.
    fn missing(&self) -> Vec<u32> {
        (1..).zip(self.goals.chunks(6)).filter(|(_, g)| g[5] == 0).map(|(k, _)| k).collect()
    }
}

/// Where each term's words end, and the words.
fn terms(left: &Left) -> (Vec<u32>, Vec<u32>) {
    let (mut index, mut words) = (Vec::new(), Vec::new());
    let symbols = left.symbols.len() as u32;
    for node in &left.nodes {
        words.push(if node[0] < symbols { node[0] } else { VARIABLE + node[0] - symbols });
        words.extend(&node[1..]);
        index.push(words.len() as u32);
    }
    (index, words)
}

/// The footings of the facts, a bit a rule.
fn foot(facts: &mut [Record], rules: &[String], proof: &str) {
    for (fact, set) in facts.iter_mut().zip(footed(rules, &answer::items(proof).forms)) {
        set.iter().for_each(|r| fact.footing[r / 64] |= 1 << (r % 64));
    }
}

/// What an answer other than 1 leaves.
pub fn layout(texts: &Bytes, it: &Expected) -> Layout {
    let plain = texts.each_ref().map(|t| String::from_utf8_lossy(t).into_owned());
    let [theory, goals, proof] = [0, 1, 2].map(|k| taken(&plain[k], it.taken[k]));
    let mut t = Theory::default();
    theory.forms.iter().for_each(|f| t.declare(theory.text, f.items()));
    let (mut state, mut index, mut words) = (State::default(), Vec::new(), Vec::new());
    if let Some(left) = &it.left {
        state.variables(left, [(&goals, 2), (&proof, 3)]);
        state.abbreviations(left, &proof);
        let ids = left.nodes.iter().enumerate().map(|(k, n)| (&n[..], k as u32)).collect();
        state.goals(&Spelled { theory: &t, left, ids }, &goals, &proof);
        state.facts(left);
        (index, words) = terms(left);
        foot(&mut state.facts, &t.rule_names, &String::from_utf8_lossy(proof.text));
    }
    let missing = if it.line.starts_with("(refused 53 ") { state.missing() } else { Vec::new() };
    let State { vars, defs, goals, mut facts, lists } = state;
    let mut cells = vec![t.sorts, t.symbols, t.inputs, t.rules, t.rule_vars, t.patterns, vars, index, words, defs, goals, lists, missing];
    for (cells, table) in cells.iter_mut().zip(&Table::ALL) {
        assert!(cells.len() <= table.cells(), "what stands fits");
        cells.resize(table.cells(), 0);
    }
    facts.resize(FACTS, Record::default());
    Layout { cells, facts }
}
