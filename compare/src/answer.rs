//! The answer of the original as a line of document 01: the counts of an acceptance, or number, text, form and detail of a refusal.
use crate::pairing::{in_goals, in_proof, in_theory};
use crate::sexp::{Sexp, read};
use crate::world::World;
use crate::{kernel, lex, schematic};

#[derive(Clone)]
pub struct Texts {
    pub theory: String,
    pub goals: String,
    pub proof: String,
}

/// The expected line, and the sentence of the original or `accepts`.
pub struct Answer {
    pub line: String,
    pub sentence: String,
}

/// A text's items as far as they can be read, and the sentence where that ends too early.
pub struct Items {
    pub forms: Vec<Sexp>,
    pub stopped: Option<String>,
}

pub fn items(text: &str) -> Items {
    let lexer = &mut lex::Lexer::new(text.as_bytes());
    let mut forms = Vec::new();
    loop {
        match lexer.peek() {
            Ok(None) => return Items { forms, stopped: None },
            Ok(Some(_)) => match read(lexer, 0) {
                Ok(form) => forms.push(form),
                Err(why) => return Items { forms, stopped: Some(why) },
            },
            Err(why) => return Items { forms, stopped: Some(why) },
        }
    }
}

pub fn show(forms: &[Sexp]) -> String {
    forms.iter().map(Sexp::to_string).collect::<Vec<_>>().join(" ")
}

/// What the original says; a proof that is merely not finished is no complaint here.
pub fn complaint(theory: &str, goals: &str, proof: &str) -> Option<String> {
    schematic::check(theory, goals, proof.as_bytes()).err().filter(|why| !why.starts_with("missing results"))
}

/// The number of the first form with which the text is refused. What is refused stays so whatever follows, so that halving finds it.
fn first_refused(forms: &[Sexp], refused: impl Fn(&str) -> Option<String>) -> Option<(usize, String)> {
    let mut found = refused(&show(forms))?;
    let (mut low, mut high) = (0, forms.len());
    while low + 1 < high {
        let middle = (low + high) / 2;
        match refused(&show(&forms[..middle])) {
            Some(why) => (high, found) = (middle, why),
            None => low = middle,
        }
    }
    Some((high - 1, found))
}

/// The form that a line of a refusal names.
pub fn form_of(line: &str) -> usize {
    line.split(' ').nth(3).and_then(|w| w.parse().ok()).expect("a refusal's line")
}

fn refusal(number: Option<u32>, text: u32, form: usize, detail: Option<usize>, sentence: &str) -> Answer {
    let number = number.map_or("?".into(), |n| n.to_string());
    let detail = detail.map_or("?".into(), |d| d.to_string());
    Answer { line: format!("(refused {number} {text} {form} {detail})"), sentence: sentence.to_string() }
}

/// A text that cannot be read; bare atoms are no forms.
fn unread(text: u32, it: &Items) -> Option<Answer> {
    let lists = it.forms.iter().filter(|f| matches!(f, Sexp::List(_))).count();
    it.stopped.as_ref().map(|why| refusal(Some(4), text, lists, Some(0), why))
}

pub fn theory_refused(theory: &str) -> Option<Answer> {
    let it = items(theory);
    unread(1, &it).or_else(|| {
        let (k, why) = first_refused(&it.forms, |t| kernel::Theory::parse(t).err())?;
        Some(refusal(in_theory(&it.forms[k], &why), 1, k, Some(0), &why))
    })
}

pub fn goals_refused(theory: &str, goals: &str) -> Option<Answer> {
    let it = items(goals);
    unread(2, &it).or_else(|| {
        let none = |why: &String| why != "no expected goals";
        match first_refused(&it.forms, |g| complaint(theory, g, "").filter(none)) {
            Some((k, why)) => Some(refusal(in_goals(&it.forms[k], &why), 2, k, Some(0), &why)),
            None => complaint(theory, goals, "").map(|why| refusal(Some(25), 2, it.forms.len(), Some(0), &why)),
        }
    })
}

fn proof_refused(texts: &Texts, sentence: &str) -> Answer {
    let it = items(&texts.proof);
    if let Some((k, why)) = first_refused(&it.forms, |p| complaint(&texts.theory, &texts.goals, p)) {
        let number = in_proof(&it.forms[k], &why);
        let detail = if number == Some(39) { lowest(texts, &it.forms, k) } else { Some(0) };
        return refusal(number, 3, k, detail, &why);
    }
    let missing = sentence.matches('"').count() / 2;
    unread(3, &it).unwrap_or_else(|| refusal(Some(53), 3, it.forms.len(), Some(missing), sentence))
}

/// The detail of 39 at form `k`.
fn lowest(texts: &Texts, proof: &[Sexp], k: usize) -> Option<usize> {
    let mut world = World::new(&items(&texts.theory).forms);
    items(&texts.goals).forms.iter().chain(&proof[..k]).for_each(|f| world.take(f));
    world.outside(&proof[k]).map(|v| v + 1)
}

pub fn answer(texts: &Texts) -> Answer {
    match schematic::check(&texts.theory, &texts.goals, texts.proof.as_bytes()) {
        Ok(r) => {
            let line = format!(
                "(accepted {} {} {} {} {} {} {})",
                r.steps, r.goals, r.open_goals, r.hypotheses, r.inductions, r.inversions, r.instances
            );
            Answer { line, sentence: "accepts".into() }
        }
        Err(why) => {
            let found = theory_refused(&texts.theory).or_else(|| goals_refused(&texts.theory, &texts.goals));
            let found = found.unwrap_or_else(|| proof_refused(texts, &why));
            assert_eq!(found.sentence, why, "a prefix is refused for another reason than the whole text");
            found
        }
    }
}
