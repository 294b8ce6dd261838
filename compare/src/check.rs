//! `compare check`: case after case the answer, the facts as trees and every cell of every table, beside the original in one process.
use crate::answer::Texts;
use crate::cases::generate;
use crate::crowd::crowded;
use crate::damage::damage;
use crate::expected::{Bytes, Expected, bytes, expected};
use crate::layout::layout;
use crate::lending::{self, Way};
use crate::random::Random;
use crate::seam::{self, Answer, Tables, line};
use crate::{limits, read_tables, soups};
use std::collections::BTreeMap;
use tariff::tables::{FACTS, Table};

/// One case in so many is put with each table in turn too short.
const SHORT: usize = 1_000;

/// How often the original is asked again where the numbers of terms differ.
const ORDERS: usize = 200;

/// The check that is held to the original.
pub type Ours<'a> = &'a mut dyn FnMut(&Bytes, &mut Tables) -> Answer;

pub struct Case {
    pub kind: &'static str,
    pub texts: Bytes,
    /// Where document 01 gives the line and the original's state does not tell it.
    pub line: Option<String>,
}

#[derive(Default)]
pub struct Tally {
    pub compared: usize,
    pub undecided: usize,
    pub short: usize,
    pub different: usize,
    /// Cases in which the original numbered its terms as document 01 says only when it was asked again.
    pub again: usize,
    kinds: BTreeMap<String, usize>,
}

/// The cells of 53's list may come in any order.
fn cells_differ(tables: &Tables, texts: &Bytes, it: &Expected) -> Option<String> {
    let want = layout(texts, it);
    for (table, want) in Table::ALL.iter().zip(&want.cells) {
        let mut have = tables.table(*table)[..table.cells()].to_vec();
        if *table == Table::Missing {
            let used = want.iter().take_while(|&&n| n != 0).count();
            have[..used].sort_unstable();
        }
        if let Some(at) = (0..table.cells()).find(|&i| have[i] != want[i]) {
            return Some(format!("{}, cell {at}: {} for {}", table.name(), have[at], want[at]));
        }
    }
    let have = tables.facts.cells();
    (0..FACTS).find(|&i| have[i] != want.facts[i]).map(|at| format!("fact {at}: {:?} for {:?}", have[at], want.facts[at]))
}

/// The same, in some order of the original's: where unification puts a new binding into those before it, the original walks a hash map, whose order is
/// another one each time, and the terms that it makes there are numbered by it. Document 01 names the rising order.
fn cells_differ_in_any_order(tables: &Tables, texts: &Bytes, it: &Expected, again: &mut usize) -> Option<String> {
    let found = cells_differ(tables, texts, it)?;
    let same = |it: Expected| cells_differ(tables, texts, &it).is_none();
    if (0..ORDERS).any(|_| expected(texts).is_ok_and(same)) {
        *again += 1;
        return None;
    }
    Some(found)
}

/// What is wrong with an answer and the tables that it left.
fn wrong(case: &Case, it: &Expected, answer: Answer, tables: &Tables, again: &mut usize) -> Option<String> {
    if line(answer) != it.line {
        return Some(format!("{} for {}", line(answer), it.line));
    }
    if answer.0[0] > 1 || answer.0[0] == 0 && answer.0[5..] != [0; 3] {
        return Some(format!("{answer:?}: a refusal's last three numbers are zero"));
    }
    if let Some(left) = &it.left {
        let ours = read_tables::of_tables(tables, left.facts.len());
        if let Err(why) = ours.and_then(|side| read_tables::same(&side, &read_tables::of_original(left))) {
            return Some(why);
        }
    }
    cells_differ_in_any_order(tables, &case.texts, it, again)
}

/// A line without what tells single cases apart: the number of a refusal, and of 60 the row.
fn short_of(line: &str) -> String {
    let words: Vec<&str> = line.trim_matches(|c| c == '(' || c == ')').split(' ').collect();
    match words[..] {
        ["accepted", ..] => "accepted".into(),
        ["refused", "60", _, _, row] => format!("refused 60, row {row}"),
        ["refused", number, ..] => format!("refused {number}"),
        _ => line.into(),
    }
}

/// One case under one way of lending the tables.
pub fn compare(case: &Case, way: Way, ours: Ours, tally: &mut Tally) {
    let known = expected(&case.texts);
    let mut tables = lending::lend(way);
    let before = tables.clone();
    let answer = ours(&case.texts, &mut tables);
    let found = match &known {
        Ok(it) => wrong(case, it, answer, &tables, &mut tally.again),
        Err(why) => match &case.line {
            Some(given) => (line(answer) != *given).then(|| format!("{} for {given}", line(answer))),
            None => {
                *tally.kinds.entry(format!("{} left out: {why}", case.kind)).or_default() += 1;
                tally.undecided += 1;
                return;
            }
        },
    };
    tally.compared += 1;
    *tally.kinds.entry(format!("{} {}", case.kind, short_of(&line(answer)))).or_default() += 1;
    report(case, found.or_else(|| lending::outside(&before, &tables)), tally);
}

/// Each table in turn one cell short: refusal 1, and nothing is written.
pub fn shortened(case: &Case, ours: Ours, tally: &mut Tally) {
    for table in 0..=Table::ALL.len() {
        let mut tables = lending::short(table);
        let before = tables.clone();
        let answer = ours(&case.texts, &mut tables);
        let found = if line(answer) != "(refused 1 0 0 0)" {
            Some(format!("{} with a table too short", line(answer)))
        } else {
            (before != tables).then(|| "a table was written after 1".to_string())
        };
        tally.short += 1;
        report(case, found.map(|why| format!("table {table}: {why}")), tally);
    }
}

fn report(case: &Case, found: Option<String>, tally: &mut Tally) {
    let Some(why) = found else { return };
    tally.different += 1;
    if tally.different <= 20 {
        let [theory, goals, proof] = case.texts.each_ref().map(|t| String::from_utf8_lossy(t));
        println!("{}: {why}\n  theory| {theory}\n  goals| {goals}\n  proof| {proof}", case.kind);
    }
}

/// The cases of one draw: a proof, a near miss, damaged and crowded copies, a soup.
fn drawn(k: u64, seed: u64, rng: &mut Random) -> Vec<Case> {
    let texts = generate(seed.wrapping_mul(1_000_003).wrapping_add(k));
    let case = |kind, t: &Texts| Case { kind, texts: bytes(t), line: None };
    let mut out = vec![case("proof", &texts[0])];
    out.extend(rng.pick(&texts[1..]).map(|t| case("near miss", t)));
    for _ in 0..3 {
        out.push(case("damaged", &damage(rng, &texts[0])));
    }
    if k % 8 == 0 {
        let base = if rng.percent(70) { texts[0].clone() } else { damage(rng, &texts[0]) };
        out.push(case("crowded", &crowded(rng, &base)));
    }
    out.push(Case { kind: "soup", texts: soups::soup(rng, &texts[0]), line: None });
    out
}

/// All limits, then drawn cases until there are `n`; `each` gets a case and its number.
fn cases(n: usize, seed: u64, mut each: impl FnMut(&Case, usize)) {
    let limits = limits::all().into_iter().map(|l| Case { kind: "limit", texts: l.texts, line: Some(l.line) });
    let mut made = 0;
    for case in limits {
        each(&case, made);
        made += 1;
    }
    let mut rng = Random::new(seed);
    for k in 0.. {
        for case in drawn(k, seed, &mut rng) {
            if made >= n {
                return;
            }
            each(&case, made);
            made += 1;
        }
    }
}

pub fn run_with(n: usize, seed: u64, ours: Ours) -> Tally {
    let mut tally = Tally::default();
    cases(n, seed, |case, k| {
        compare(case, Way::of(k), ours, &mut tally);
        if k % SHORT == 0 {
            shortened(case, ours, &mut tally);
        }
    });
    tally
}

fn numbers(n: &str, seed: &str) -> Result<(usize, u64), String> {
    Ok((n.parse().map_err(|_| "N is the number of cases")?, seed.parse().map_err(|_| "SEED is a number")?))
}

fn print(tally: &Tally) {
    for (kind, count) in &tally.kinds {
        println!("{count:9} {kind}");
    }
}

/// `compare draw`: the cases that `check` would put, counted by what is expected of them. Ours is not called.
pub fn draw(n: &str, seed: &str) -> Result<(), String> {
    let (n, seed) = numbers(n, seed)?;
    let mut tally = Tally::default();
    cases(n, seed, |case, _| {
        let line = match expected(&case.texts) {
            Ok(it) => {
                assert!(!it.line.contains('?'), "a sentence without a number: {:?}", it.sentence);
                layout(&case.texts, &it);
                it.line
            }
            Err(why) => format!("left out: {why}"),
        };
        *tally.kinds.entry(format!("{} {}", case.kind, short_of(&line))).or_default() += 1;
    });
    print(&tally);
    Ok(())
}

pub fn run(n: &str, seed: &str) -> Result<(), String> {
    let (n, seed) = numbers(n, seed)?;
    let tally = run_with(n, seed, &mut seam::check);
    print(&tally);
    let Tally { compared, undecided, short, different, again, .. } = tally;
    println!("{compared} compared, {short} with a table too short, {undecided} left out, {again} asked again, {different} different");
    if different == 0 { Ok(()) } else { Err("the two differ".into()) }
}
