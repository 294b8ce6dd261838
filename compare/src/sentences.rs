//! The sentences of docs/REFUSALS.md, which the desk's program prints: what the original says of a refused form is among those of its number
//! that the form's tag leaves.
use crate::cases::generate;
use crate::damage::damage;
use crate::expected::{Bytes, bytes, expected};
use crate::random::Random;
use crate::tests::stored;
use std::collections::BTreeSet;
use tariff::places::{scan, tag};
use tariff::questions::{QUESTIONS, question};

/// `…` in a pattern stands for anything; what a page says in brackets behind it is a remark.
fn like(pattern: &str, sentence: &str) -> bool {
    let pattern = pattern.split("… (").next().unwrap_or(pattern);
    let pattern = if pattern.ends_with(' ') { format!("{pattern}…") } else { pattern.to_string() };
    let parts: Vec<&str> = pattern.split('…').collect();
    let Some(mut rest) = sentence.strip_prefix(parts[0]) else { return false };
    for part in &parts[1..] {
        match rest.find(part) {
            Some(at) => rest = &rest[at + part.len()..],
            None => return false,
        }
    }
    parts.last().is_some_and(|p| p.is_empty()) || rest.is_empty()
}

/// The number, where the original refuses; its sentence must be listed.
fn listed(texts: &Bytes) -> Option<u32> {
    let it = expected(texts).ok()?;
    let sentence = it.sentence.filter(|_| it.line.starts_with("(refused"))?;
    let words: Vec<usize> = it.line.split(' ').filter_map(|w| w.trim_end_matches(')').parse().ok()).collect();
    let text = &texts[words[1] - 1];
    let items = scan(text).items;
    let tag = items.get(words[2]).map_or(String::new(), |item| String::from_utf8_lossy(tag(text, item)).into_owned());
    let found = question(words[0] as u32).expect("a question");
    // the original goes on to say what it prints of the input, with "got" or a colon
    let said = sentence.replace(", got", "");
    assert!(found.originals_of(&tag).any(|s| like(s, &said)), "{}: {sentence:?} of a form {tag:?}", found.number);
    Some(found.number)
}

#[test]
fn what_the_original_says_is_listed() {
    let mut rng = Random::new(11);
    let stored = stored().into_iter().map(|parts| [parts[1].clone(), parts[2].clone(), parts[3].clone()]);
    let made = (0..200).flat_map(|k| {
        let texts = generate(k);
        let copy = damage(&mut rng, &texts[0]);
        texts.into_iter().skip(1).take(3).chain([copy]).map(|t| bytes(&t)).collect::<Vec<_>>()
    });
    let numbers: BTreeSet<u32> = stored.chain(made).filter_map(|t| listed(&t)).collect();
    // 1 to 3, 5 and 60 are none of the original's
    let all: BTreeSet<u32> = QUESTIONS.iter().map(|q| q.number).filter(|n| ![1, 2, 3, 5, 60].contains(n)).collect();
    assert_eq!(numbers, all);
}

#[test]
fn patterns() {
    assert!(like("step …: conclusion mismatch", "step 0 (c0): conclusion mismatch"));
    assert!(like("expected atom … (the tag)", "expected atom (x)") && like("expected list …", "expected list x"));
    assert!(!like("empty case", "empty cases") && !like("step …: a", "step 1: b") && !like("duplicate goal", "no duplicate goal"));
}
