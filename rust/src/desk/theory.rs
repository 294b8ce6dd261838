//! What the texts declare about the cases of a form: the constructors of a sort, the rules of a predicate, the sort of a variable.
use crate::desk::check::Read;
use tariff::Text;
use tariff::forms::{Form, items};
use tariff::places::scan;

/// The forms of a text that can be read, by their items.
fn forms(read: &Read, text: Text) -> Vec<Vec<Form>> {
    let bytes = &read.texts[text as usize];
    scan(bytes).items.into_iter().map(|item| items(bytes, item.range)).collect()
}

/// A form's words: those of its lists with brackets around them.
fn spelled(form: &Form, text: &[u8]) -> String {
    match form {
        Form::Atom(_) => form.word(text).to_string(),
        Form::List(parts) => format!("({})", parts.iter().map(|p| spelled(p, text)).collect::<Vec<_>>().join(" ")),
    }
}

/// The constructors of a sort in order, each with its argument sorts.
pub fn constructors(read: &Read, sort: &str) -> Vec<String> {
    let text = &read.texts[Text::Theory as usize];
    let of_sort = |f: &Vec<Form>| f.len() == 4 && f[0].word(text) == "ctor" && f[3].word(text) == sort;
    let name = |f: Vec<Form>| match f[2].items() {
        [] => f[1].word(text).to_string(),
        inputs => format!("({} {})", f[1].word(text), inputs.iter().map(|s| s.word(text)).collect::<Vec<_>>().join(" ")),
    };
    forms(read, Text::Theory).into_iter().filter(of_sort).map(name).collect()
}

/// The rules whose conclusion has this predicate in order, each with its conclusion.
pub fn rules(read: &Read, predicate: &str) -> Vec<String> {
    let text = &read.texts[Text::Theory as usize];
    let head = |f: &Form| f.items().first().map_or("", |p| p.word(text)).to_string();
    let of_predicate = |f: &Vec<Form>| f.len() == 4 && f[0].word(text) == "rule" && head(&f[3]) == predicate;
    let name = |f: Vec<Form>| format!("{} {}", f[1].word(text), spelled(&f[3], text));
    forms(read, Text::Theory).into_iter().filter(of_predicate).map(name).collect()
}

/// The sort of a variable of goals or proof.
pub fn sort_of(read: &Read, variable: &str) -> Option<String> {
    [Text::Goals, Text::Proof].into_iter().find_map(|t| {
        let text = &read.texts[t as usize];
        let declares = |f: &Vec<Form>| f.len() == 3 && f[0].word(text) == "var" && f[1].word(text) == variable;
        forms(read, t).into_iter().find(declares).map(|f| f[2].word(text).to_string())
    })
}
