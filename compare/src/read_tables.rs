//! The recorded facts as trees, read off the lent tables alone, and compared with the original's whatever numbers their terms have.
use crate::schematic::{Left, LeftFact};
use crate::seam::Tables;
use std::collections::HashMap;
use tariff::tables::Table;

const VARIABLE: u32 = 256;

/// Terms and facts, by numbers of one side.
pub struct Side {
    nodes: Vec<Vec<u32>>,
    facts: Vec<LeftFact>,
}

/// Variables get heads from 256 on, as in the tables.
pub fn of_original(left: &Left) -> Side {
    let symbols = left.symbols.len() as u32;
    let head = |h: u32| if h < symbols { h } else { VARIABLE + h - symbols };
    let nodes = left.nodes.iter().map(|n| std::iter::once(head(n[0])).chain(n[1..].iter().copied()).collect());
    let facts = left.facts.iter().map(|f| LeftFact { general: f.general.iter().map(|v| v - symbols).collect(), ..f.clone() });
    Side { nodes: nodes.collect(), facts: facts.collect() }
}

/// The first `facts` records, and the terms; an error where a cell points nowhere.
pub fn of_tables(tables: &Tables, facts: usize) -> Result<Side, String> {
    let [index, words, lists] = [Table::Index, Table::Words, Table::Lists].map(|t| tables.table(t));
    let (mut nodes, mut at) = (Vec::new(), 0);
    for &end in index[..4096].iter().take_while(|&&end| end != 0) {
        let node = words.get(at..end as usize).filter(|n| !n.is_empty()).ok_or("a term's words do not stand")?;
        nodes.push(node.to_vec());
        at = end as usize;
    }
    let mut out = Vec::new();
    for r in tables.facts.cells().iter().take(facts) {
        let [first, a, b, c] = [r.first, r.hyps, r.premises, r.general].map(|n| n as usize);
        let entries = lists.get(first..first + a + b + c).ok_or("a fact's entries do not stand")?;
        let (hyps, rest) = entries.split_at(a);
        let (premises, general) = rest.split_at(b);
        let [hyps, premises, general] = [hyps, premises, general].map(<[u32]>::to_vec);
        out.push(LeftFact { judgment: r.judgment, hyps, assumed: r.assumed == 1, premises, general });
    }
    Ok(Side { nodes, facts: out })
}

/// One number for equal trees of either side.
type Trees = HashMap<Vec<u32>, u32>;

fn trees(side: &Side, all: &mut Trees) -> Result<Vec<u32>, String> {
    let mut out: Vec<u32> = Vec::new();
    for node in &side.nodes {
        let mut key = vec![node[0]];
        for &a in &node[1..] {
            key.push(*out.get(a as usize).ok_or("an argument does not stand before its term")?);
        }
        let next = all.len() as u32;
        out.push(*all.entry(key).or_insert(next));
    }
    Ok(out)
}

fn named(side: &Side, trees: &[u32]) -> Result<Vec<LeftFact>, String> {
    let tree = |id: &u32| trees.get(*id as usize).copied().ok_or("a fact names no term".to_string());
    let fact = |f: &LeftFact| {
        let premises = f.premises.iter().map(tree).collect::<Result<_, _>>()?;
        Ok(LeftFact { judgment: tree(&f.judgment)?, premises, ..f.clone() })
    };
    side.facts.iter().map(fact).collect()
}

/// Whether both sides have the same facts.
pub fn same(a: &Side, b: &Side) -> Result<(), String> {
    let mut all = Trees::new();
    let (in_a, in_b) = (trees(a, &mut all)?, trees(b, &mut all)?);
    match named(a, &in_a)? == named(b, &in_b)? {
        true => Ok(()),
        false => Err("the facts are not the same trees".into()),
    }
}
