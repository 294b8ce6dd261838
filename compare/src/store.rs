//! `compare store`: cases with their answers in one file, for a program that has byte slices only.
//!
//! The file begins with the length of a header in decimal on a line, the header, and then the cases. A case is a line of seven decimal
//! numbers with one space between them, the lengths of its parts; then the parts, one behind the other, nothing between them: name,
//! theory, goals, proof, answer, facts, footings; then a line feed. `-` as facts and as footings says that they are not compared.
use crate::answer::Texts;
use crate::blocks::{self, blocks};
use crate::cases::generate;
use crate::damage::damage;
use crate::expected::{Bytes, Expected, LENGTH, bytes, expected};
use crate::random::Random;
use crate::scan::{first, scan};
use crate::{answer, facts, limits, soups};
use std::collections::BTreeMap;
use std::io::Write;

/// One case in `FACTS` has its facts stored too, where they are not long.
const FACTS: usize = 2;
const LONG: usize = 4_000;
/// Facts and footings that are not compared.
const NONE: [&str; 2] = ["-", "-"];

pub struct Case {
    name: String,
    texts: Bytes,
    /// The line that document 01 gives it where that was reasoned by hand; it must be the computed one.
    line: Option<String>,
}

/// Facts and footings as they are stored.
fn stood(texts: &Bytes, it: &Expected) -> [String; 2] {
    let Some(left) = &it.left else { return [String::new(), String::new()] };
    let [theory, _, proof] = texts.each_ref().map(|t| String::from_utf8_lossy(t).into_owned());
    let taken = first(&proof, &scan(proof.as_bytes()), it.taken[2]).to_string();
    [facts::facts(left), facts::footings(&facts::rules(&theory), &answer::items(&taken).forms)]
}

/// A case in the file's form, and whether its line comes from the definition alone.
fn record(case: &Case, with_facts: bool) -> Result<(Vec<u8>, bool), String> {
    let (line, shown, limited) = match (expected(&case.texts), &case.line) {
        (Ok(it), given) => {
            if given.as_ref().is_some_and(|g| *g != it.line) {
                return Err(format!("{}: {} is computed", case.name, it.line));
            }
            let shown = Some(stood(&case.texts, &it)).filter(|s| with_facts && s[0].len() + s[1].len() < LONG);
            (it.line.clone(), shown.unwrap_or(NONE.map(String::from)), it.sentence.is_none())
        }
        (Err(_), Some(line)) => (line.clone(), NONE.map(String::from), true),
        (Err(why), None) => return Err(format!("{}: {why}", case.name)),
    };
    let name = if limited { format!("{} (definition)", case.name) } else { case.name.clone() };
    let [theory, goals, proof] = &case.texts;
    let parts = [name.as_bytes(), theory, goals, proof, line.as_bytes(), shown[0].as_bytes(), shown[1].as_bytes()];
    assert!(
        name.len() < 64 && line.len() < 64 && case.texts.iter().all(|t| t.len() <= LENGTH + 1),
        "{name} is inside the header's lengths"
    );
    let lengths: Vec<String> = parts.iter().map(|p| p.len().to_string()).collect();
    let mut out = format!("{}\n", lengths.join(" ")).into_bytes();
    parts.iter().for_each(|p| out.extend_from_slice(p));
    out.push(b'\n');
    Ok((out, limited))
}

/// The cases of files and folders that are handed in.
fn handed(sources: &[&str]) -> Result<Vec<Case>, String> {
    let mut cases = Vec::new();
    for path in sources {
        if std::path::Path::new(path).is_dir() {
            folders(path, &mut cases)?;
            continue;
        }
        for b in blocks(path)?.into_iter().filter(|b| b.limits.is_none()) {
            cases.push(Case { name: b.name, texts: bytes(&b.texts), line: b.line });
        }
    }
    Ok(cases)
}

/// Folders of theory, goals, proof and expected, by name.
fn folders(path: &str, cases: &mut Vec<Case>) -> Result<(), String> {
    let entries = std::fs::read_dir(path).map_err(|e| format!("{path}: {e}"))?;
    let mut names: Vec<_> = entries.flatten().map(|e| e.path()).filter(|p| p.is_dir()).collect();
    names.sort();
    for folder in names {
        let read = |part: &str| std::fs::read(folder.join(part)).map_err(|e| format!("{}: {e}", folder.display()));
        let line = String::from_utf8_lossy(&read("expected")?).trim().to_string();
        let name = folder.file_name().map_or(String::new(), |n| n.to_string_lossy().into_owned());
        cases.push(Case { name: format!("example-{name}"), texts: [read("theory")?, read("goals")?, read("proof")?], line: Some(line) });
    }
    Ok(())
}

/// What a generated case shows: its number, or the tags of its forms where it is accepted.
fn kind(line: &str, texts: &Texts) -> String {
    if line.starts_with("(refused") {
        let tag = answer::items(&texts.proof).forms.get(answer::form_of(line)).map_or(String::new(), |f| f.to_string());
        let tag = tag.split(' ').next().unwrap_or("").to_string();
        return format!(
            "{} {}",
            line.split(' ').nth(1).unwrap_or(""),
            if line.split(' ').nth(2) == Some("3") { tag } else { String::new() }
        );
    }
    let tags = ["(def", "(hyp", "(step", "(apply", "(induct", "(invert"];
    tags.iter().filter(|t| texts.proof.contains(**t)).copied().collect()
}

/// Generated proofs, near misses and damaged copies, at most `each` of a kind, until there are `n`.
fn generated(n: usize, seed: u64, each: usize) -> Vec<Case> {
    let (mut rng, mut seen, mut out) = (Random::new(seed), BTreeMap::new(), Vec::new());
    for k in 0.. {
        let mut texts = generate(seed.wrapping_mul(1_000_003).wrapping_add(k));
        let copy = damage(&mut rng, &texts[0]);
        texts.push(copy);
        for (i, t) in texts.into_iter().enumerate() {
            let Ok(it) = expected(&bytes(&t)) else { continue };
            let count: &mut usize = seen.entry(kind(&it.line, &t)).or_default();
            *count += 1;
            if *count <= each {
                out.push(Case { name: format!("generated-{k}-{i}"), texts: bytes(&t), line: None });
            }
            if out.len() == n {
                return out;
            }
        }
    }
    out
}

const HEADER: &str = "Cases with their answers, written by `compare store N SEED SOURCE...`; the same arguments give the same bytes.
A case is a line of seven lengths in decimal, one space between them, and behind it the parts, nothing between them: name, theory, goals,
proof, answer, facts, footings; then a line feed. `-` as facts and footings: they are not compared. Answers and facts are the original's,
by the pairing of its sentences. Where a name ends in `(definition)` the original has no say (length, bytes of 128 and more, depth, rows of
question 60) and the line is the one that document 01 demands. No text is longer than 65,537 bytes; name and answer are shorter than 64, facts
and footings shorter than 4,000 each.
";

pub fn write(n: &str, seed: &str, sources: &[&str]) -> Result<(), String> {
    let n: usize = n.parse().map_err(|_| "N is the number of generated cases")?;
    let seed: u64 = seed.parse().map_err(|_| "SEED is a number")?;
    let mut cases = handed(sources)?;
    cases.extend(limits::all().into_iter().map(|l| Case { name: l.name.into(), texts: l.texts, line: Some(l.line) }));
    cases.extend(generated(n, seed, 6));
    let mut rng = Random::new(seed);
    cases.extend((0..n / 10).map(|k| Case { name: format!("soup-{k}"), texts: soups::soup(&mut rng, &blocks::example()), line: None }));
    let mut out = format!("{}\n{HEADER}", HEADER.len()).into_bytes();
    let (mut written, mut limited, mut wrong) = (0, 0, 0);
    for case in &cases {
        match record(case, written % FACTS == 0) {
            Ok((bytes, by_limit)) => {
                out.extend(bytes);
                (written, limited) = (written + 1, limited + usize::from(by_limit));
            }
            Err(why) => {
                eprintln!("left out: {why}");
                wrong += 1;
            }
        }
    }
    std::io::stdout().write_all(&out).map_err(|e| e.to_string())?;
    eprintln!("{written} cases, {limited} by the definition, {wrong} left out, {} bytes", out.len());
    Ok(())
}

/// `compare limits`: the cases at the limits whose line comes from document 01 alone, as blocks for tools/cases.py.
pub fn print_limits() -> Result<(), String> {
    for l in limits::all() {
        if expected(&l.texts).is_ok_and(|it| it.sentence.is_some()) {
            continue;
        }
        let [theory, goals, proof] = l.texts.each_ref().map(|t| String::from_utf8_lossy(t));
        println!("{}\n  theory| {theory}\n  goals| {goals}\n  proof| {proof}\n  expect| {}", l.name, l.line);
    }
    Ok(())
}
