//! The brackets of a text as document 01 reads them: where each item at top level ends, and the first bracket that cannot stand.
use tariff::places::{self, Stop};

pub struct Scan {
    /// Behind each complete item at top level; bare atoms are items too.
    pub ends: Vec<usize>,
    /// Complete bracketed forms.
    pub lists: usize,
    /// Question 4 or 5, where the text ends there.
    pub stop: Option<u32>,
}

pub fn scan(text: &[u8]) -> Scan {
    let it = places::scan(text);
    let stop = it.stop.map(|stop| if matches!(stop, Stop::Deep(_)) { 5 } else { 4 });
    Scan { ends: it.items.iter().map(|i| i.range.end).collect(), lists: it.items.iter().filter(|i| i.form).count(), stop }
}

/// The text up to the end of its first `n` items.
pub fn first<'a>(text: &'a str, scan: &Scan, n: usize) -> &'a str {
    if n == 0 { "" } else { &text[..scan.ends[n - 1]] }
}
