//! What a refused form of the proof names, spelled out: its rule, its goal, its facts and what they rest on. The checker does not say which
//! of them was wrong; somebody who sees them side by side mostly does.
use crate::desk::check::Read;
use crate::desk::excerpt::at;
use crate::desk::theory;
use tariff::forms::{Form, items};
use tariff::places::{refused, scan};
use tariff::{Checker, Fact, Head, Refusal, Text};

/// A label, and what it says.
pub type Note = (String, String);

/// The most facts that are spelled, and the bytes of one spelling.
const FACTS: usize = 8;
const SPELLED: usize = 160;

/// A reference is an index, or a list that begins with one; and so is a case of an `induct`.
fn index(reference: &Form) -> Option<&Form> {
    match reference {
        Form::List(parts) => parts.first(),
        Form::Atom(_) => Some(reference),
    }
}

/// The items of a form that name facts: references, listed hypotheses, cases.
fn references<'a>(tag: &str, form: &'a [Form]) -> Vec<&'a Form> {
    let list = |k: usize| form.get(k).map_or(&[][..], Form::items).iter();
    let cases = list(form.len().saturating_sub(1));
    match tag {
        "step" => list(3).filter_map(index).collect(),
        "apply" => form.get(2).into_iter().chain(list(4).filter_map(index)).collect(),
        "induct" if form.len() == 6 => list(3).chain(cases.filter_map(index)).collect(),
        "induct" => cases.filter_map(index).collect(),
        "invert" => form.get(2).into_iter().chain(list(3)).chain(cases.filter_map(|c| c.items().get(1))).collect(),
        "result" => form.get(2).and_then(index).into_iter().collect(),
        _ => Vec::new(),
    }
}

/// A rule hypothesis with its premises and the variables that it generalises.
fn hypothesis(fact: &Fact<'_>) -> String {
    let premises: Vec<String> = fact.premises().map(|t| t.clipped(SPELLED)).collect();
    let general: Vec<String> = fact.generalised().map(|v| v.to_string()).collect();
    let from = if premises.is_empty() { String::new() } else { format!(" from {}", premises.join(", ")) };
    let every = if general.is_empty() { String::new() } else { format!(" for every {}", general.join(", ")) };
    format!(", a hypothesis{from}{every}")
}

fn rests_on(fact: &Fact<'_>, all: &[Fact<'_>]) -> String {
    let hyps: Vec<String> = fact.hypotheses().filter_map(|h| Some(format!("{h} {}", all.get(h)?.judgment().clipped(SPELLED)))).collect();
    match hyps.len() {
        _ if fact.assumed() => hypothesis(fact),
        0 => String::new(),
        1..=3 => format!(", resting on {}", hyps.join(", ")),
        n => format!(", resting on {n} hypotheses: {}, ..", hyps[..3].join(", ")),
    }
}

/// The facts that it names, each once.
fn facts(tag: &str, form: &[Form], text: &[u8], checker: &Checker) -> Vec<Note> {
    let all: Vec<Fact<'_>> = checker.facts().collect();
    let mut indices: Vec<usize> = references(tag, form).iter().filter_map(|f| f.word(text).parse().ok()).collect();
    indices.sort_unstable();
    indices.dedup();
    let note = |&k: &usize| {
        let words = match all.get(k) {
            Some(fact) => format!("{}{}", fact.judgment().clipped(SPELLED), rests_on(fact, &all)),
            None => format!("is not recorded; there are {} facts, from 0", all.len()),
        };
        (format!("fact {k}"), words)
    };
    indices.iter().take(FACTS).map(note).collect()
}

/// The rule of a `step`, as it is declared.
fn rule(name: &str, read: &Read, checker: &Checker) -> Option<Note> {
    let rule = checker.rules().find(|r| r.name() == name)?;
    let (file, text) = (&read.files[Text::Theory as usize], &read.texts[Text::Theory as usize]);
    let whole = scan(text).items.into_iter().find(|i| i.range.contains(&rule.declared().start))?.range;
    let words = String::from_utf8_lossy(&text[whole.clone()]).split_whitespace().collect::<Vec<_>>().join(" ");
    Some((format!("rule {name}"), format!("{words}, at {}", at(file, text, whole.start))))
}

fn goal(name: &str, checker: &Checker) -> Option<Note> {
    let goal = checker.goals().find(|g| g.name() == name)?;
    let listed: Vec<String> = goal.listed().map(|t| t.clipped(SPELLED)).collect();
    let listed = if listed.is_empty() { String::new() } else { format!(", listing {}", listed.join(", ")) };
    Some((format!("goal {name}"), format!("{}{listed}", goal.judgment().clipped(SPELLED))))
}

/// What a form goes through case by case: the constructors of the variable's sort, or the rules of the hypothesis's predicate.
fn cases(tag: &str, word: &str, read: &Read, checker: &Checker) -> Option<Note> {
    let (what, all) = match tag {
        "induct" => {
            let sort = theory::sort_of(read, word)?;
            let all = theory::constructors(read, &sort);
            (format!("constructors of {sort}"), all)
        }
        "invert" => {
            let Head::Predicate(predicate) = checker.facts().nth(word.parse().ok()?)?.judgment().head() else { return None };
            (format!("rules for {predicate}"), theory::rules(read, predicate))
        }
        _ => return None,
    };
    Some((what, if all.is_empty() { "none".into() } else { all.join(", ") }))
}

/// Notes on what the refused form names; none for another text.
pub fn named(read: &Read, refusal: &Refusal, checker: &Checker) -> Vec<Note> {
    if refusal.text != Some(Text::Proof) || matches!(refusal.number, 0..=5 | 53) {
        return Vec::new();
    }
    let text = &read.texts[Text::Proof as usize];
    let form = items(text, refused(text, refusal));
    let word = |k: usize| form.get(k).map_or("", |f| f.word(text));
    let first = match word(0) {
        "step" => rule(word(2), read, checker),
        "result" => goal(word(1), checker),
        _ => None,
    };
    let cases = cases(word(0), word(2), read, checker).filter(|_| matches!(refusal.number, 41..=47));
    first.into_iter().chain(cases).chain(facts(word(0), &form, text, checker)).collect()
}
