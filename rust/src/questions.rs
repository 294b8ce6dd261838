//! Every question that a check puts, in the order of docs/REFUSALS.md: as it is put, as a sentence that says what is wrong, what is to be
//! done, and the original program's sentences.

/// A question, and what its refusal means.
#[derive(Clone, Copy, Debug)]
pub struct Question {
    /// Its number in a refusal.
    pub number: u32,
    /// As it is put.
    pub asks: &'static str,
    /// What is wrong where it is answered with no.
    pub sentence: &'static str,
    /// What is to be done then.
    pub help: &'static str,
    /// The sentences of the original program that take this number, with `; ` between them; empty where it has none.
    pub original: &'static str,
}

impl Question {
    /// Who can mend what it refuses.
    pub const fn whom(&self) -> &'static str {
        match self.number {
            1 => "whoever calls the checker",
            2..=5 => "whoever writes the text that is named",
            10..=12 => "whoever writes the theory",
            20 | 24 | 25 => "whoever writes the goals",
            21..=23 => "whoever writes the goals or, with text 3, the proof",
            60 => "whoever writes the text that is named: it is larger than this checker takes",
            _ => "whoever writes the proof",
        }
    }
}

/// The question of this number.
pub fn question(number: u32) -> Option<&'static Question> {
    QUESTIONS.iter().find(|q| q.number == number)
}

/// A row of limits, for the detail of 60.
#[derive(Clone, Copy, Debug)]
pub struct Row {
    /// What is counted.
    pub name: &'static str,
    /// How many there may be.
    pub limit: u32,
}

const fn row(name: &'static str, limit: u32) -> Row {
    Row { name, limit }
}

/// The rows of limits; the detail of 60 counts them from 1.
pub const ROWS: [Row; 14] = [
    row("sorts", 64),
    row("symbols", 256),
    row("arguments", 16),
    row("rules", 256),
    row("variables in a rule", 16),
    row("pattern words", 8_192),
    row("variables", 512),
    row("distinct terms", 4_096),
    row("term words", 16_384),
    row("abbreviations", 512),
    row("goals", 128),
    row("facts", 1_024),
    row("list entries", 16_384),
    row("pairs waiting in one unification", 512),
];

/// A number with commas, as documents have it.
pub fn grouped(n: u32) -> String {
    let digits = n.to_string();
    let mut out = String::new();
    for (k, d) in digits.chars().enumerate() {
        if k > 0 && (digits.len() - k).is_multiple_of(3) {
            out.push(',');
        }
        out.push(d);
    }
    out
}

pub(crate) const fn ask(number: u32, asks: &'static str, sentence: &'static str, help: &'static str, original: &'static str) -> Question {
    Question { number, asks, sentence, help, original }
}

pub use crate::questions_list::QUESTIONS;
