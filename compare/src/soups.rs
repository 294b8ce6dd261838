//! Texts that are hardly texts: soups of brackets and words, and random bytes, in one or in all of three texts.
use crate::answer::Texts;
use crate::expected::{Bytes, bytes};
use crate::random::Random;

/// What a soup is made of; blanks and brackets most often.
const PIECES: [&str; 40] = [
    "(", "(", "(", "(", ")", ")", ")", ")", " ", " ", "\n", "\t", "\x0b", "\r", ";", "; x\n", "sort", "ctor", "pred", "rule", "var",
    "goal", "step", "hyp", "def", "apply", "induct", "invert", "result", "Pass", "first", "renew", "Child", "c0", "c1", "x", "?p", "0",
    "1", "\x1c",
];

fn brackets(rng: &mut Random) -> Vec<u8> {
    let n = rng.below(60);
    let mut out = Vec::new();
    for _ in 0..n {
        out.extend_from_slice(PIECES[rng.below(PIECES.len())].as_bytes());
        if rng.percent(40) {
            out.push(b' ');
        }
    }
    out
}

/// Bytes below 128, and now and then one above.
fn random(rng: &mut Random) -> Vec<u8> {
    let (n, above) = (rng.below(80), rng.percent(15));
    (0..n).map(|_| rng.below(if above { 256 } else { 128 }) as u8).collect()
}

/// Whole forms that are cut and joined anywhere.
fn cut(rng: &mut Random, text: &[u8]) -> Vec<u8> {
    let at = |rng: &mut Random| rng.below(text.len() + 1);
    let (a, b) = (at(rng), at(rng));
    [&text[..a], &text[b..]].concat()
}

/// The three texts, at least one of them a soup.
pub fn soup(rng: &mut Random, base: &Texts) -> Bytes {
    let mut out = bytes(base);
    let chosen = rng.below(3);
    for (i, text) in out.iter_mut().enumerate() {
        if i == chosen || rng.percent(10) {
            *text = match rng.below(4) {
                0 => random(rng),
                1 => cut(rng, text),
                2 => [&text[..], b" ", &brackets(rng)].concat(),
                _ => brackets(rng),
            };
        }
    }
    out
}
