//! `compare cases`: generated cases, each with its near misses and a damaged copy, and damaged copies of cases that are handed in.
use crate::answer::{Texts, show};
use crate::blocks;
use crate::builder::Builder;
use crate::damage::damage;
use crate::moves::{finish, make};
use crate::random::Random;
use crate::theories::theory;

/// A finished proof, and copies of it in which a form stands that the original did not take.
pub fn generate(seed: u64) -> Vec<Texts> {
    let mut rng = Random::new(seed);
    let mut builder = Builder::new(Random::new(seed ^ 0x5eed), &theory(&mut rng));
    for _ in 0..4 + builder.rng.below(12) {
        if builder.full() {
            break;
        }
        make(&mut builder);
    }
    let whole = finish(&mut builder);
    let mut out = vec![whole.clone()];
    for (k, form) in &builder.misses {
        let mut proof = builder.proof.clone();
        proof.insert(*k, form.clone());
        out.push(Texts { proof: show(&proof), ..whole.clone() });
    }
    out
}

pub fn print(n: &str, seed: &str, sources: &[&str]) -> Result<(), String> {
    let n: usize = n.parse().map_err(|_| "N is the number of cases")?;
    let seed: u64 = seed.parse().map_err(|_| "SEED is a number")?;
    let mut bases = Vec::new();
    for path in sources {
        bases.extend(blocks::read(path)?);
    }
    let mut rng = Random::new(seed);
    let mut printed = 0;
    let mut k = 0;
    while printed < n {
        k += 1;
        let mut texts = generate(seed.wrapping_mul(1_000_003).wrapping_add(k));
        // one near miss at most, so that enough are accepted
        if texts.len() > 2 {
            let keep = 1 + rng.below(texts.len() - 1);
            texts = vec![texts[0].clone(), texts[keep].clone()];
        }
        let copy = damage(&mut rng, &texts[0]);
        texts.push(copy);
        if let Some(base) = rng.pick(&bases)
            && k % 4 == 0
        {
            let copy = damage(&mut rng, base);
            texts.push(copy);
        }
        for (i, t) in texts.iter().take(n - printed).enumerate() {
            blocks::print(&format!("{k}-{i}"), t);
            printed += 1;
        }
    }
    Ok(())
}
