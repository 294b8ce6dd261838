//! Cases as blocks of lines: a name, then `theory|`, `goals|`, `proof|`, `expect|` and `rust|`, each with its text.
use crate::answer::{Texts, answer};

/// The theory of the examples of document 01, for blocks that do not give one.
const THEORY: &str = "(sort Pass) (sort Gone) (ctor first () Pass) (ctor renew (Pass) Pass) (pred Child (Pass)) (pred Adult (Pass)) \
    (pred Bad (Pass)) (pred Same (Pass Pass)) (pred Left (Gone)) (rule c0 () (Child first)) (rule c1 ((Child ?p)) (Child (renew ?p))) \
    (rule a1 () (Adult (renew first))) (rule s () (Same ?p (renew ?p)))";
const GOALS: &str = "(var x Pass) (goal g (Child x))";
const PROOF: &str = "(var y Pass) (step 0 c0 ()) (hyp 1 (Child y)) (step 2 c1 (1)) (induct 3 x (Child x) ((0) (2 y))) (result g 3)";

/// Example A.
pub fn example() -> Texts {
    Texts { theory: THEORY.into(), goals: GOALS.into(), proof: PROOF.into() }
}

pub fn print(name: &str, texts: &Texts) {
    let it = answer(texts);
    println!(
        "{name}\n  theory| {}\n  goals| {}\n  proof| {}\n  expect| {}\n  rust| {}",
        texts.theory, texts.goals, texts.proof, it.line, it.sentence
    );
}

/// A case of a file: its name, its texts and the line that is expected of it, where the file gives one.
pub struct Block {
    pub name: String,
    pub texts: Texts,
    pub line: Option<String>,
    /// Other limits than those of document 01, as words such as TERMS=40.
    pub limits: Option<String>,
}

/// The cases of a file.
pub fn blocks(path: &str) -> Result<Vec<Block>, String> {
    let file = std::fs::read_to_string(path).map_err(|e| format!("{path}: {e}"))?;
    let mut blocks: Vec<Block> = Vec::new();
    for line in file.split('\n').filter(|l| !l.starts_with('#') && !l.trim().is_empty()) {
        let Some((field, text)) = line.strip_prefix("  ").and_then(|l| l.split_once('|')) else {
            let texts = example();
            let name = line.split(' ').next().unwrap_or(line).to_string();
            blocks.push(Block { name, texts, line: None, limits: None });
            continue;
        };
        let block = blocks.last_mut().ok_or(format!("{path}: a case begins with its name"))?;
        let text = text.strip_prefix(' ').unwrap_or(text).to_string();
        match field {
            "theory" => block.texts.theory = text,
            "theory+" => block.texts.theory = format!("{THEORY} {text}"),
            "goals" => block.texts.goals = text,
            "proof" => block.texts.proof = text,
            "expect" => block.line = Some(text),
            "limits" => block.limits = Some(text),
            _ => (),
        }
    }
    Ok(blocks)
}

/// The cases of a file, as far as they are plain text.
pub fn read(path: &str) -> Result<Vec<Texts>, String> {
    let mut cases: Vec<Texts> = blocks(path)?.into_iter().map(|b| b.texts).collect();
    cases.retain(|c| [&c.theory, &c.goals, &c.proof].iter().all(|t| t.is_ascii() && !t.contains("((((((((((((((((")));
    Ok(cases)
}
