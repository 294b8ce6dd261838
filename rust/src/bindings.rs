//! The seam to the static library, the one place with unsafe code: its function as include/tariff.h declares it, and a safe call of it.
use crate::answer::Answer;
use crate::tables::{Lent, Record};

unsafe extern "C" {
    fn tariff_check(
        theory: *const u8,
        theory_bytes: usize,
        goals: *const u8,
        goals_bytes: usize,
        proof: *const u8,
        proof_bytes: usize,
        sorts: *mut u32,
        sorts_cells: usize,
        symbols: *mut u32,
        symbols_cells: usize,
        inputs: *mut u32,
        inputs_cells: usize,
        rules: *mut u32,
        rules_cells: usize,
        rulevars: *mut u32,
        rulevars_cells: usize,
        patterns: *mut u32,
        patterns_cells: usize,
        vars: *mut u32,
        vars_cells: usize,
        index: *mut u32,
        index_cells: usize,
        words: *mut u32,
        words_cells: usize,
        defs: *mut u32,
        defs_cells: usize,
        rows: *mut u32,
        rows_cells: usize,
        facts: *mut Record,
        facts_records: usize,
        lists: *mut u32,
        lists_cells: usize,
        missing: *mut u32,
        missing_cells: usize,
        answer: *mut u64,
        answer_words: usize,
    );
}

/// A check of theory, goals and proof in lent tables, of any length and content.
///
/// It takes up to [`STACK`](crate::tables::STACK) bytes of stack; [`with_stack`](crate::with_stack) gives them where a thread has less.
#[rustfmt::skip]
pub fn check_lent(texts: [&[u8]; 3], lent: Lent<'_>) -> Answer {
    let [theory, goals, proof] = texts;
    let Lent { cells: [sorts, symbols, inputs, rules, rulevars, patterns, vars, index, words, defs, rows, lists, missing], facts } = lent;
    let mut answer = [0; 8];
    // SAFETY: each pointer and length is a slice's that lives through the call. Those that are written are borrowed for it alone, so that
    // nothing overlaps them; a record's layout is the library's. The function asks for nothing else: any length and content will do.
    unsafe {
        tariff_check(
            theory.as_ptr(), theory.len(), goals.as_ptr(), goals.len(), proof.as_ptr(), proof.len(),
            sorts.as_mut_ptr(), sorts.len(), symbols.as_mut_ptr(), symbols.len(), inputs.as_mut_ptr(), inputs.len(),
            rules.as_mut_ptr(), rules.len(), rulevars.as_mut_ptr(), rulevars.len(), patterns.as_mut_ptr(), patterns.len(),
            vars.as_mut_ptr(), vars.len(), index.as_mut_ptr(), index.len(), words.as_mut_ptr(), words.len(),
            defs.as_mut_ptr(), defs.len(), rows.as_mut_ptr(), rows.len(), facts.as_mut_ptr(), facts.len(),
            lists.as_mut_ptr(), lists.len(), missing.as_mut_ptr(), missing.len(), answer.as_mut_ptr(), answer.len(),
        );
    }
    Answer(answer)
}
