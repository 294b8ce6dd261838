//! The seam to the whole check, which comes through the crate `tariff`. Nothing else of the comparison knows how the call looks. Without the
//! feature `whole` no library is linked, and every call ends the program with a message.
use crate::expected::Bytes;
use tariff::tables::{FACTS, Record, Table};

pub const LINKED: bool = cfg!(feature = "whole");

/// Cells that are lent, in the middle of a block whose ends are not.
#[derive(Clone, PartialEq)]
pub struct Lent<T> {
    pub block: Vec<T>,
    pub from: usize,
    pub length: usize,
}

impl<T: Copy + Default> Lent<T> {
    fn new(length: usize) -> Self {
        Lent { block: vec![T::default(); length], from: 0, length }
    }

    pub fn cells(&self) -> &[T] {
        &self.block[self.from..self.from + self.length]
    }

    #[cfg(any(test, feature = "whole"))]
    pub fn cells_mut(&mut self) -> &mut [T] {
        &mut self.block[self.from..self.from + self.length]
    }
}

/// The tables of 32-bit cells in the order of `Table::ALL`, and the records of the facts.
#[derive(Clone, PartialEq)]
pub struct Tables {
    pub cells: [Lent<u32>; Table::ALL.len()],
    pub facts: Lent<Record>,
}

impl Tables {
    /// As long as named, and zero.
    pub fn new() -> Self {
        Tables { cells: Table::ALL.map(|t| Lent::new(t.cells())), facts: Lent::new(FACTS) }
    }

    pub fn table(&self, table: Table) -> &[u32] {
        self.cells[table as usize].cells()
    }
}

pub use tariff::Answer;

/// The line of document 01.
pub fn line(answer: Answer) -> String {
    tariff::line(&answer.verdict())
}

/// Our answer for three texts, and what it wrote into the tables.
#[cfg(feature = "whole")]
pub fn check(texts: &Bytes, tables: &mut Tables) -> Answer {
    let lent = tariff::tables::Lent { cells: tables.cells.each_mut().map(Lent::cells_mut), facts: tables.facts.cells_mut() };
    tariff::check_lent(texts.each_ref().map(Vec::as_slice), lent)
}

#[cfg(not(feature = "whole"))]
pub fn check(_: &Bytes, _: &mut Tables) -> Answer {
    eprintln!("the whole check is not linked: compare was built without the feature `whole`");
    std::process::exit(2);
}
