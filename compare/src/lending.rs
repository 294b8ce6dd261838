//! Ways to lend the tables: as long as named or longer, zero or full of something, with cells before and behind that must stay.
use crate::seam::{Lent, Tables};
use tariff::tables::{FACTS, Record, Table};

#[derive(Clone, Copy, Debug)]
pub enum Way {
    /// As long as named, and zero.
    Exact,
    /// As long as named, full of cells that look like what a check leaves.
    Used,
    /// As long as named, full of large numbers; cells before and behind that are not lent.
    Garbage,
    /// Longer than named, a pattern in every cell.
    Longer,
}

impl Way {
    pub fn of(k: usize) -> Way {
        [Way::Exact, Way::Used, Way::Garbage, Way::Longer][k % 4]
    }
}

/// Not lent, before and behind.
const EDGE: usize = 8;
/// Lent beyond the named length.
const MORE: usize = 5;

fn block(named: usize, way: Way) -> Lent<u32> {
    let pattern = |i: usize| (i as u32).wrapping_mul(0x9e37_79b9) ^ 0xa5a5_a5a5;
    match way {
        Way::Exact => Lent { block: vec![0; named], from: 0, length: named },
        Way::Used => Lent { block: (0..named).map(|i| 1 + i as u32 % 7).collect(), from: 0, length: named },
        Way::Garbage => Lent { block: (0..named + 2 * EDGE).map(pattern).collect(), from: EDGE, length: named },
        Way::Longer => Lent { block: (0..named + 2 * EDGE + MORE).map(pattern).collect(), from: EDGE, length: named + MORE },
    }
}

/// A record whose every field is told apart from those beside it, where `cell` is not zero.
fn record(cell: u32) -> Record {
    let [judgment, assumed, first, hyps, premises, general] = [0, 1, 2, 3, 4, 5].map(|k| cell.wrapping_mul(2 * k + 1));
    let footing = [7, 9, 11, 13].map(|k| u64::from(cell).wrapping_mul(k << 32 | k));
    Record { judgment, assumed, first, hyps, premises, general, footing }
}

/// The records, by the same ways.
fn records(way: Way) -> Lent<Record> {
    let cells = block(FACTS, way);
    Lent { block: cells.block.into_iter().map(record).collect(), from: cells.from, length: cells.length }
}

pub fn lend(way: Way) -> Tables {
    Tables { cells: Table::ALL.map(|t| block(t.cells(), way)), facts: records(way) }
}

/// Garbage in all tables, and one of them a cell short; the last number is that of the facts, a record short.
pub fn short(table: usize) -> Tables {
    let mut tables = lend(Way::Garbage);
    match tables.cells.get_mut(table) {
        Some(t) => t.length -= 1,
        None => tables.facts.length -= 1,
    }
    tables
}

fn changed<T: PartialEq>(before: &Lent<T>, after: &Lent<T>, named: usize) -> bool {
    let (front, back) = (before.from, before.from + named);
    before.block[..front] != after.block[..front] || before.block[back..] != after.block[back..]
}

/// The first table that was written before its first or behind its last named cell.
pub fn outside(before: &Tables, after: &Tables) -> Option<String> {
    for (k, table) in Table::ALL.iter().enumerate() {
        if changed(&before.cells[k], &after.cells[k], table.cells()) {
            return Some(format!("{} was written outside of its named cells", table.name()));
        }
    }
    changed(&before.facts, &after.facts, FACTS).then(|| "facts were written outside of their named records".to_string())
}
