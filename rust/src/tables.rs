//! The work tables that a check needs: how long each is, the record of a fact, and tables lent for one call.
//!
//! docs/TABLES.md says what stands in them after an answer. Most programs want [`Checker`](crate::Checker), which has tables of its own; this
//! module is for those that lend memory of theirs.

/// The most bytes that a text may have.
pub const LENGTH: usize = 65_536;

/// The records in the table of facts.
pub const FACTS: usize = 1_024;

/// How many bytes of stack are free at least when a check is called, as in include/tariff.h.
pub const STACK: usize = 4 << 20;

/// From here on a head is a variable's, below a symbol's.
#[cfg(feature = "library")]
pub(crate) const VARIABLE: u32 = 256;

/// A table of 32-bit cells, in the order in which they are lent. The records of the facts stand between `Goals` and `Lists`.
#[derive(Clone, Copy, Debug, PartialEq, Eq)]
pub enum Table {
    /// Names of sorts.
    Sorts,
    /// Constructors and predicates: output, number of arguments, name.
    Symbols,
    /// Argument sorts, sixteen cells a symbol.
    Inputs,
    /// Rules: name, variables, premises, words.
    Rules,
    /// Variables of rules, sixteen entries a rule.
    RuleVars,
    /// The words of all rules.
    Patterns,
    /// Variables: sort, text, name.
    Vars,
    /// Where the words of each term end.
    Index,
    /// The words of all terms.
    Words,
    /// Abbreviations: name, term.
    Defs,
    /// Goals: name, judgment, listed hypotheses, whether a result has come.
    Goals,
    /// The entries of goals and facts.
    Lists,
    /// After refusal 53, the goals without a result, from 1.
    Missing,
}

impl Table {
    /// All of them, in the order in which they are lent.
    pub const ALL: [Table; 13] = [
        Table::Sorts,
        Table::Symbols,
        Table::Inputs,
        Table::Rules,
        Table::RuleVars,
        Table::Patterns,
        Table::Vars,
        Table::Index,
        Table::Words,
        Table::Defs,
        Table::Goals,
        Table::Lists,
        Table::Missing,
    ];

    /// Its name in docs/TABLES.md.
    pub const fn name(self) -> &'static str {
        match self {
            Table::Sorts => "sorts",
            Table::Symbols => "symbols",
            Table::Inputs => "inputs",
            Table::Rules => "rules",
            Table::RuleVars => "rule_vars",
            Table::Patterns => "patterns",
            Table::Vars => "vars",
            Table::Index => "index",
            Table::Words => "words",
            Table::Defs => "defs",
            Table::Goals => "goals",
            Table::Lists => "lists",
            Table::Missing => "missing",
        }
    }

    /// The cells that it must have at least; what lies past them is never written.
    pub const fn cells(self) -> usize {
        match self {
            Table::Sorts => 2 * 64,
            Table::Symbols => 4 * 256,
            Table::Inputs => 16 * 256,
            Table::Rules => 6 * 256,
            Table::RuleVars => 3 * 16 * 256,
            Table::Patterns => 8_192,
            Table::Vars => 4 * 512,
            Table::Index => 4 * 4_096,
            Table::Words => 16_384,
            Table::Defs => 3 * 512,
            Table::Goals => 6 * 128,
            Table::Lists => 16_384,
            Table::Missing => 128,
        }
    }
}

/// A recorded fact, as the library lays it out: 56 bytes.
#[repr(C)]
#[derive(Clone, Copy, Debug, Default, PartialEq, Eq)]
pub struct Record {
    /// The number of its judgment, a term.
    pub judgment: u32,
    /// 1 if it is a hypothesis.
    pub assumed: u32,
    /// The first of its entries in the table of lists.
    pub first: u32,
    /// How many of them are hypotheses, by fact number,
    pub hyps: u32,
    /// then premises, by term number,
    pub premises: u32,
    /// then generalised variables, by number.
    pub general: u32,
    /// The rules that it rests on: bit r % 64 of word r / 64.
    pub footing: [u64; 4],
}

/// Tables lent for one call, each of any length and content. A table that is shorter than named gives refusal 1.
#[derive(Debug)]
pub struct Lent<'a> {
    /// The tables of 32-bit cells, in the order of [`Table::ALL`].
    pub cells: [&'a mut [u32]; Table::ALL.len()],
    /// The records of the facts.
    pub facts: &'a mut [Record],
}

/// Tables as long as named.
#[derive(Clone, Debug, PartialEq, Eq)]
pub struct Tables {
    cells: [Vec<u32>; Table::ALL.len()],
    facts: Vec<Record>,
}

impl Tables {
    /// Tables of zeros.
    pub fn new() -> Self {
        Tables { cells: Table::ALL.map(|t| vec![0; t.cells()]), facts: vec![Record::default(); FACTS] }
    }

    /// All of them, for a call.
    pub fn lend(&mut self) -> Lent<'_> {
        Lent { cells: self.cells.each_mut().map(Vec::as_mut_slice), facts: &mut self.facts }
    }

    /// The cells of one table.
    pub fn cells(&self, table: Table) -> &[u32] {
        &self.cells[table as usize]
    }

    /// The records of the facts.
    pub fn facts(&self) -> &[Record] {
        &self.facts
    }

    /// Entry `k` of a table whose entries have `N` cells.
    #[cfg(feature = "library")]
    pub(crate) fn entry<const N: usize>(&self, table: Table, k: usize) -> [u32; N] {
        let mut out = [0; N];
        out.copy_from_slice(&self.cells(table)[N * k..N * (k + 1)]);
        out
    }
}

impl Default for Tables {
    fn default() -> Self {
        Self::new()
    }
}
