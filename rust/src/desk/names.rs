//! Names of a refused form that nothing before it declares, with the name that is spelled most alike; and names that are declared twice.
use crate::desk::check::Read;
use crate::desk::excerpt::at;
use crate::desk::named::Note;
use tariff::forms::{Form, items};
use tariff::places::{refused, scan};
use tariff::{Refusal, Text};

/// Names that are looked at, and the longest of them.
const MOST: usize = 3;
const LONGEST: usize = 64;

/// A name, the tag of the form that declares it, and where.
struct Known {
    name: String,
    tag: String,
    text: Text,
    start: usize,
}

impl Known {
    fn at(&self, read: &Read) -> String {
        at(&read.files[self.text as usize], &read.texts[self.text as usize], self.start)
    }
}

const DECLARING: [&str; 7] = ["sort", "ctor", "pred", "rule", "var", "goal", "def"];

/// What the forms before the refused one declare.
fn known(read: &Read, refusal: &Refusal) -> Vec<Known> {
    let mut out = Vec::new();
    for text in Text::ALL {
        let bytes = &read.texts[text as usize];
        let forms = match refusal.text {
            Some(refused) if text == refused => refusal.form,
            Some(refused) if text.number() > refused.number() => 0,
            _ => usize::MAX,
        };
        for item in scan(bytes).items.into_iter().take(forms) {
            if let [tag, name @ Form::Atom(range), ..] = &items(bytes, item.range)[..]
                && DECLARING.contains(&tag.word(bytes))
            {
                out.push(Known { name: name.word(bytes).into(), tag: tag.word(bytes).into(), text, start: range.start });
            }
        }
    }
    out
}

/// The atoms in the places of names. Indices are none, and what begins with `?` is a rule's variable unless `abbreviations` stand here.
fn atoms<'a>(form: &'a Form, text: &[u8], abbreviations: bool, out: &mut Vec<&'a Form>) {
    match form {
        Form::List(parts) => {
            // (?V TERM) in a step binds a rule's variable
            let binding = parts.len() == 2 && parts[0].word(text).starts_with('?');
            parts.iter().skip(usize::from(binding)).for_each(|p| atoms(p, text, abbreviations, out));
        }
        Form::Atom(_) => {
            let word = form.word(text);
            if word.parse::<u64>().is_err() && (abbreviations || !word.starts_with('?')) {
                out.push(form);
            }
        }
    }
}

/// How many letters are to be changed, put in or left out.
fn distance(a: &[u8], b: &[u8]) -> usize {
    let mut row: Vec<usize> = (0..=b.len()).collect();
    for (i, x) in a.iter().enumerate() {
        let mut corner = row[0];
        row[0] = i + 1;
        for (j, y) in b.iter().enumerate() {
            let change = corner + usize::from(x != y);
            corner = row[j + 1];
            row[j + 1] = change.min(corner + 1).min(row[j] + 1);
        }
    }
    row[b.len()]
}

fn alike<'a>(name: &str, known: &'a [Known]) -> Option<&'a Known> {
    let short = known.iter().filter(|k| k.name.len() <= LONGEST && name.len() <= LONGEST);
    let near = short.map(|k| (distance(name.as_bytes(), k.name.as_bytes()), k)).filter(|(d, k)| 3 * d <= 1 + name.len().max(k.name.len()));
    near.min_by_key(|(d, _)| *d).map(|(_, k)| k)
}

/// The kinds of names with which a declared name may not be shared.
fn rivals(tag: &str) -> &'static [&'static str] {
    match tag {
        "sort" => &["sort"],
        "ctor" => &["ctor"],
        "pred" => &["pred"],
        "rule" => &["rule"],
        "var" => &["var", "ctor", "pred"],
        "goal" => &["goal"],
        "def" => &["def"],
        _ => &[],
    }
}

/// Notes on the names of the refused form, where its question is about names.
pub fn names(read: &Read, refusal: &Refusal) -> Vec<Note> {
    let Some(text) = refusal.text.filter(|_| matches!(refusal.number, 11 | 21 | 22 | 24 | 33 | 36 | 42 | 50)) else { return Vec::new() };
    let bytes = &read.texts[text as usize];
    let form = items(bytes, refused(bytes, refusal));
    let (tag, known) = (form.first().map_or("", |f| f.word(bytes)), known(read, refusal));
    let declares = DECLARING.contains(&tag);
    let mut found = Vec::new();
    form.iter().skip(if declares { 2 } else { 1 }).for_each(|f| atoms(f, bytes, text != Text::Theory, &mut found));
    let mut words: Vec<&str> = found.iter().map(|f| f.word(bytes)).filter(|w| known.iter().all(|k| k.name != *w)).collect();
    words.dedup();
    let unknown = words.iter().take(MOST).map(|&word| {
        let like = alike(word, &known).map_or(String::new(), |k| format!("; did you mean {}, declared at {}?", k.name, k.at(read)));
        ("name".to_string(), format!("{word} is not declared before this form{like}"))
    });
    let own = form.get(1).filter(|_| declares).map_or("", |f| f.word(bytes));
    let twice = known.iter().find(|k| k.name == own && rivals(tag).contains(&k.tag.as_str()));
    let twice = twice.map(|k| ("name".to_string(), format!("{own} is declared already, at {}", k.at(read))));
    twice.into_iter().chain(unknown).collect()
}

#[cfg(test)]
mod tests {
    use super::*;

    fn said(texts: [&str; 3], number: u32, text: Text, form: usize) -> Vec<String> {
        let read = Read { folder: None, files: ["t", "g", "p"].map(String::from), texts: texts.map(|t| t.as_bytes().to_vec()) };
        names(&read, &Refusal { number, text: Some(text), form, detail: 0 }).into_iter().map(|n| n.1).collect()
    }

    const THEORY: &str = "(sort Pass) (ctor first () Pass)\n(pred Child (Pass)) (rule c0 () (Child first))";

    #[test]
    fn a_name_that_is_spelled_wrong() {
        let want = ["Chlid is not declared before this form; did you mean Child, declared at t:2:7?"];
        assert_eq!(said([THEORY, "(goal g (Chlid first))", ""], 22, Text::Goals, 0), want);
        assert_eq!(
            said([THEORY, "(goal g (Child first))", "(step 0 c0 () (?p q))"], 22, Text::Proof, 0),
            ["q is not declared before this form"]
        );
        let want = ["?d is not declared before this form"];
        assert_eq!(said([THEORY, "(goal g (Child first))", "(def ?e (renew ?d)) (var renew Pass)"], 22, Text::Proof, 0)[1..], want);
    }

    #[test]
    fn a_name_that_is_declared_behind_is_not_known() {
        assert_eq!(said(["(ctor a () S) (sort S)", "", ""], 11, Text::Theory, 0), ["S is not declared before this form"]);
    }

    #[test]
    fn a_name_that_is_declared_twice() {
        assert_eq!(said(["(sort A)\n (sort A)", "", ""], 11, Text::Theory, 1), ["A is declared already, at t:1:7"]);
        assert_eq!(said([THEORY, "(var Child Pass)", ""], 21, Text::Goals, 0), ["Child is declared already, at t:2:7"]);
        assert!(said(["(sort A) (ctor A () A)", "", ""], 11, Text::Theory, 1).is_empty());
    }

    #[test]
    fn letters_changed() {
        let of = |a: &str, b: &str| distance(a.as_bytes(), b.as_bytes());
        assert_eq!((of("Chlid", "Child"), of("", "abc"), of("abc", "abc"), of("renew", "renews")), (2, 3, 0, 1));
    }
}
