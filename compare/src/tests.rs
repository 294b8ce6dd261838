//! The comparison itself is tested: where the original poses as ours, nothing differs; where what it says or leaves is bent in one place,
//! that is noticed. The layout of the tables is held to the cells that the definition's own rows name.
use crate::blocks::{blocks, example};
use crate::check::{Case, Tally, compare, run_with};
use crate::expected::{Bytes, bytes, expected};
use crate::layout::layout;
use crate::lending::Way;
use crate::limits;
use crate::rows::{LIMITS, under};
use crate::seam::{Answer, Tables};
use std::collections::HashMap;
use tariff::tables::{FACTS, Record, Table};

fn answer_of(line: &str) -> Answer {
    let mut out = [0; 8];
    let words = line.trim_matches(|c| c == '(' || c == ')').split(' ');
    for (k, w) in words.enumerate() {
        out[k] = if k == 0 { u64::from(w == "accepted") } else { w.parse().expect("a number") };
    }
    Answer(out)
}

/// The lines of the limits that the original's state does not tell.
fn given() -> HashMap<Bytes, String> {
    limits::all().into_iter().map(|l| (l.texts, l.line)).collect()
}

/// The original in our place: question 1, then its answer, and the tables as they are named.
fn posed(given: &HashMap<Bytes, String>, texts: &Bytes, tables: &mut Tables) -> Answer {
    let short = Table::ALL.iter().zip(&tables.cells).any(|(t, lent)| lent.length < t.cells());
    if short || tables.facts.length < FACTS {
        return answer_of("(refused 1 0 0 0)");
    }
    let Ok(it) = expected(texts) else { return answer_of(given.get(texts).map_or("(refused 0 0 0 0)", |l| l)) };
    let want = layout(texts, &it);
    for (k, cells) in want.cells.iter().enumerate() {
        tables.cells[k].cells_mut()[..cells.len()].copy_from_slice(cells);
    }
    tables.facts.cells_mut()[..FACTS].copy_from_slice(&want.facts);
    answer_of(&it.line)
}

#[test]
fn nothing_differs_from_itself() {
    let given = given();
    let tally = run_with(3_000, 7, &mut |texts, tables| posed(&given, texts, tables));
    assert_eq!(tally.different, 0);
    assert!(tally.compared + tally.undecided == 3_000 && tally.short > 0);
    println!("{} compared, {} short, {} left out", tally.compared, tally.short, tally.undecided);
}

/// An acceptance, and a refusal with a detail.
fn two_cases() -> [Case; 2] {
    let rules = "(sort S) (pred A (S)) (pred B ()) (rule a () (A ?x)) (rule b ((A ?x)) (B))";
    let absent = [rules, "(var x S) (goal g (B))", "(step 0 a () (?x x)) (step 1 b (0))"].map(|t| t.as_bytes().to_vec());
    [bytes(&example()), absent].map(|texts| Case { kind: "own", texts, line: None })
}

/// One change of what is said or left; it must be noticed under one way of lending at least.
fn noticed(bend: impl Fn(&mut Answer, &mut Tables)) {
    let (given, mut tally) = (HashMap::new(), Tally::default());
    let mut bent = |texts: &Bytes, tables: &mut Tables| {
        let mut answer = posed(&given, texts, tables);
        bend(&mut answer, tables);
        answer
    };
    for (case, k) in two_cases().iter().flat_map(|c| (0..4).map(move |k| (c, k))) {
        compare(case, Way::of(k), &mut bent, &mut tally);
    }
    assert!(tally.different > 0, "the change is noticed");
}

#[test]
fn a_wrong_count_is_noticed() {
    noticed(|answer, _| answer.0[7] += u64::from(answer.0[0] == 1));
}

#[test]
fn a_wrong_detail_is_noticed() {
    noticed(|answer, _| answer.0[4] += u64::from(answer.0[0] == 0 && answer.0[1] == 39));
    noticed(|answer, _| answer.0[7] += u64::from(answer.0[0] == 0));
}

#[test]
fn every_table_is_looked_at() {
    for (k, table) in Table::ALL.iter().enumerate() {
        noticed(|_, tables| {
            if let Some(c) = tables.cells[k].cells_mut().get_mut(table.cells() - 1) {
                *c ^= 1;
            }
        });
    }
    noticed(|_, tables| tables.facts.cells_mut()[FACTS - 1].general ^= 1);
    noticed(|_, tables| tables.facts.cells_mut()[0].footing[3] ^= 1);
}

#[test]
fn cells_behind_and_before_are_looked_at() {
    noticed(|_, tables| {
        let t = &mut tables.cells[3];
        if t.from > 0 {
            t.block[t.from - 1] ^= 1;
        }
    });
    noticed(|_, tables| {
        if let Some(c) = tables.cells[5].cells_mut().get_mut(8_192) {
            *c ^= 1;
        }
    });
}

/// The cells of the row `tables-A` of the definition's examples.
#[test]
fn the_layout_of_example_a() {
    let texts = bytes(&example());
    let it = expected(&texts).expect("no limit is near");
    let l = layout(&texts, &it);
    let begins = |k: usize, cells: &[u32]| assert_eq!(l.cells[k][..cells.len() + 1], *[cells, &[0]].concat(), "{}", Table::ALL[k].name());
    begins(6, &[1, 2, 5, 6, 1, 3, 5, 6]);
    begins(8, &[256, 2, 0, 0, 2, 2, 257, 2, 4, 1, 4, 2, 6]);
    begins(7, &[1, 3, 4, 6, 7, 9, 11, 13]);
    begins(10, &[19, 20, 1, 0, 0, 1]);
    begins(11, &[1, 1]);
    let fact =
        |judgment, assumed, first, hyps, rules| Record { judgment, assumed, first, hyps, footing: [rules, 0, 0, 0], ..Default::default() };
    let want = [fact(3, 0, 0, 0, 1), fact(5, 1, 0, 1, 0), fact(7, 0, 1, 1, 2), fact(1, 0, 2, 0, 0), Record::default()];
    assert_eq!(l.facts[..5], want);
}

/// The cells of the rows `small-..` of the definition of the theory's tables.
#[test]
fn the_layout_of_a_small_theory() {
    let theory = "(sort N)(ctor z () N)(ctor s (N) N)(pred le (N N))(rule b () (le z ?x))(rule t ((le ?x (s ?y))) (le ?y ?x))(sort N)";
    let texts = [theory.into(), Vec::new(), Vec::new()];
    let it = expected(&texts).expect("no limit is near");
    assert_eq!(it.line, "(refused 11 1 6 0)");
    let l = layout(&texts, &it);
    assert_eq!(l.cells[0][..4], [6, 7, 0, 0]);
    assert_eq!(l.cells[1][..13], [1, 0, 14, 15, 1, 1, 27, 28, 0, 2, 41, 43, 0]);
    assert_eq!((l.cells[2][16], l.cells[2][32], l.cells[2][33], l.cells[2][34]), (1, 1, 1, 0));
    assert_eq!(l.cells[3][..13], [56, 57, 1, 0, 0, 3, 77, 78, 2, 1, 3, 10, 0]);
    assert_eq!((&l.cells[4][..4], &l.cells[4][48..55]), (&[1, 67, 69, 0][..], &[1, 84, 86, 1, 90, 92, 0][..]));
    assert_eq!(l.cells[5][..11], [2, 0, 256, 2, 256, 1, 257, 2, 257, 256, 0]);
}

/// The rows by the names that the files of cases use.
const NAMES: [&str; 15] = [
    "",
    "SORTS",
    "SYMBOLS",
    "ARGUMENTS",
    "RULES",
    "RULEVARS",
    "PATTERNS",
    "VARIABLES",
    "TERMS",
    "WORDS",
    "DEFS",
    "GOALS",
    "FACTS",
    "ENTRIES",
    "PAIRS",
];

/// Cases with small limits, whose lines come from a count at each moment of storing: where a line is known here, it is the same.
#[test]
fn small_limits() {
    let (mut known, mut open) = (0, 0);
    for b in blocks("cases/limits.txt").expect("the file stands") {
        let (words, line) = (b.limits.expect("limits"), b.line.expect("a line"));
        let mut limits = LIMITS;
        for (name, n) in words.split(' ').filter_map(|w| w.split_once('=')) {
            let row = NAMES.iter().position(|&r| r == name).unwrap_or_else(|| panic!("{name}"));
            limits[row] = n.parse().expect("a number");
        }
        match under(limits, || expected(&bytes(&b.texts))) {
            Ok(it) => {
                assert_eq!(it.line, line, "{}", b.name);
                known += 1;
            }
            Err(_) => open += 1,
        }
    }
    assert!(known > 2 * open, "{known} known, {open} left open");
    println!("{known} known, {open} left open");
}

/// A line of decimal numbers, and the place behind it.
fn numbers(file: &[u8], at: usize) -> (Vec<usize>, usize) {
    let end = at + file[at..].iter().position(|&b| b == b'\n').expect("a line ends");
    let line = std::str::from_utf8(&file[at..end]).expect("decimal numbers");
    (line.split(' ').map(|w| w.parse().expect("a number")).collect(), end + 1)
}

/// The stored cases, read by their lengths alone: name, theory, goals, proof, answer, facts, footings.
pub fn stored() -> Vec<Vec<Vec<u8>>> {
    let file = std::fs::read("../crates/replay/stdin").expect("the file stands");
    let (header, start) = numbers(&file, 0);
    let (mut at, mut cases) = (start + header[0], Vec::new());
    while at < file.len() {
        let (lengths, mut from) = numbers(&file, at);
        let mut parts = Vec::new();
        for n in lengths {
            parts.push(file[from..from + n].to_vec());
            from += n;
        }
        assert_eq!(file[from], b'\n');
        cases.push(parts);
        at = from + 1;
    }
    cases
}

/// Their lines are those that are expected.
#[test]
fn stored_cases() {
    let (mut cases, mut with_facts, mut open) = (0, 0, 0);
    for parts in stored() {
        let texts = [parts[1].clone(), parts[2].clone(), parts[3].clone()];
        match expected(&texts) {
            Ok(it) => assert_eq!(it.line.as_bytes(), parts[4], "{}", String::from_utf8_lossy(&parts[0])),
            Err(_) => open += 1,
        }
        (cases, with_facts) = (cases + 1, with_facts + usize::from(parts[5] != b"-"));
    }
    assert!(cases >= 600 && 3 * with_facts >= cases && 20 * open < cases, "{cases} cases, {with_facts} with facts, {open} left open");
}
