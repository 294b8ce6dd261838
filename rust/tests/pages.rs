//! What is said twice is said alike: the header for C, the page of refusals, the page of tables.
mod common;
use common::page;
use std::collections::BTreeMap;
use tariff::questions::{QUESTIONS, ROWS, grouped};
use tariff::tables::{FACTS, LENGTH, Record, STACK, Table};

/// The numbers that include/tariff.h defines.
fn defined() -> BTreeMap<String, usize> {
    let header = page("include/tariff.h");
    let lines = header.lines().filter_map(|l| l.strip_prefix("#define TARIFF_")?.split_once(' '));
    lines.map(|(name, n)| (name.to_string(), n.parse().expect("a number"))).collect()
}

#[test]
fn the_header_has_the_same_lengths() {
    let mut header = defined();
    for table in Table::ALL {
        let name = match table {
            Table::Goals => "ROWS".to_string(),
            t => t.name().to_uppercase().replace('_', ""),
        };
        assert_eq!(header.remove(&name), Some(table.cells()), "{name}");
    }
    for (name, n) in [("FACTS", FACTS), ("LENGTH", LENGTH), ("STACK", STACK), ("ANSWER", 8)] {
        assert_eq!(header.remove(name), Some(n), "{name}");
    }
    assert!(header.is_empty(), "{header:?}");
}

#[test]
fn the_header_has_the_same_order() {
    let (header, bindings) = (page("include/tariff.h"), page("rust/src/bindings.rs"));
    let start = header.find("void tariff_check(").expect("the function is declared");
    let in_c = header[start..].lines().skip(1).take_while(|l| !l.is_empty());
    let in_c: Vec<&str> = in_c.flat_map(|l| l.trim().trim_end_matches(");").trim_end_matches(',').split(", ")).collect();
    let c_names: Vec<&str> = in_c.iter().map(|p| p.rsplit([' ', '*']).next().expect("a name")).collect();
    let in_rust = bindings.lines().skip_while(|l| !l.contains("fn tariff_check(")).skip(1).take_while(|l| !l.contains(");"));
    let rust_names: Vec<&str> = in_rust.map(|l| l.trim().split(':').next().expect("a name")).collect();
    assert_eq!(c_names, rust_names);
    assert_eq!(c_names.len(), 36);
}

#[test]
fn a_record_is_laid_out_as_in_the_header() {
    assert_eq!((size_of::<Record>(), align_of::<Record>(), std::mem::offset_of!(Record, footing)), (56, 8, 24));
}

#[test]
fn the_line_that_compiles_the_sample_is_said_alike() {
    let line = "cc -Iinclude samples/check.c crates/tariff/out/libtariff.a -o check\n";
    assert!(page("samples/check.c").contains(line) && page("docs/USING.md").contains(line));
}

/// The rows of a page's tables, cell by cell.
fn rows(page: &str) -> Vec<Vec<String>> {
    let rows = page.lines().filter_map(|l| l.strip_prefix("| ")?.strip_suffix(" |"));
    rows.map(|l| l.split(" | ").map(String::from).collect()).collect()
}

/// Without what points to decisions.
fn plain(cell: &str) -> String {
    let mut out = cell.replace(" (D3)", "").replace(", D3)", ")");
    if out == "–" {
        out.clear();
    }
    out
}

#[test]
fn every_refusal_of_the_page_is_known_with_its_sentences() {
    let page = page("docs/REFUSALS.md");
    let rows = rows(&page);
    let listed: Vec<(u32, String)> = rows.iter().filter_map(|r| Some((r[0].parse().ok()?, plain(r.get(2)?)))).collect();
    let known: Vec<(u32, String)> = QUESTIONS.iter().map(|q| (q.number, q.original.to_string())).collect();
    assert_eq!(listed, known);
    assert!(QUESTIONS.iter().all(|q| q.asks.ends_with('?') && q.help.ends_with('.') && !q.sentence.ends_with('.')));
}

#[test]
fn every_row_of_limits_is_that_of_the_page() {
    let page = page("docs/REFUSALS.md").replace('\n', " ");
    for (k, row) in ROWS.iter().enumerate() {
        let words = format!(" {} {} {}", k + 1, row.name, grouped(row.limit));
        assert!(page.contains(&words), "{words}");
    }
}
