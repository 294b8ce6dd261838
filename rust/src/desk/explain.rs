//! A refusal in the manner of a compiler: what is wrong, where, what its detail means, what is to be done, what the original program says.
use crate::desk::check::Read;
use crate::desk::excerpt::{at, excerpt, gutter};
use crate::desk::named::{Note, named};
use crate::desk::names::names;
use crate::desk::paint::Paint;
use std::fmt::Write;
use tariff::forms::items;
use tariff::places::{Stop, refused, scan};
use tariff::questions::{Question, ROWS, grouped};
use tariff::{Checker, Goal, Refusal, Text};

/// The most goals without a result whose places are shown.
const GOALS: usize = 10;
/// Where notes are broken.
const WIDTH: usize = 100;

/// Words put on lines, those behind the first under its beginning. A name can have any byte below 128: control characters do not reach a
/// terminal.
fn wrapped(first: &str, words: &str) -> String {
    let words = words.replace(char::is_control, "\u{fffd}");
    let indent = " ".repeat(first.chars().count());
    let (mut out, mut column) = (first.to_string(), first.chars().count());
    for (k, word) in words.split(' ').enumerate() {
        let width = word.chars().count();
        if k > 0 && column + 1 + width > WIDTH {
            let _ = write!(out, "\n{indent}");
            column = indent.len();
        } else if k > 0 {
            out.push(' ');
            column += 1;
        }
        out.push_str(word);
        column += width;
    }
    out.push('\n');
    out
}

/// What stands under the mark.
fn said(refusal: &Refusal, text: &[u8]) -> String {
    match (refusal.number, scan(text).stop) {
        (4, Some(Stop::Stray(_))) => "closes nothing".into(),
        (4, _) => "is never closed".into(),
        (5, _) => "the 65th bracket that is open here".into(),
        (3, _) => "not a byte below 128".into(),
        _ => "refused".into(),
    }
}

/// What the detail means, or what else the tables tell of this question.
fn detail(read: &Read, refusal: &Refusal, checker: &Checker) -> Option<String> {
    match refusal.number {
        32 => Some(format!("the next index is {}", checker.facts().len())),
        39 => {
            let variable = checker.variable(refusal.detail.checked_sub(1)?)?;
            Some(match variable.declared() {
                Some((text, range)) => {
                    let place = at(&read.files[text as usize], &read.texts[text as usize], range.start);
                    format!("the variable is {variable}, declared at {place}")
                }
                None => format!("the variable is {variable}, which an `invert` made"),
            })
        }
        53 => {
            let (missing, all) = (checker.missing(), checker.goals().count());
            Some(format!(
                "{} of {all} goals without a result: {}",
                missing.len(),
                missing.iter().map(Goal::name).collect::<Vec<_>>().join(", ")
            ))
        }
        60 => {
            let row = ROWS.get((refusal.detail as usize).checked_sub(1)?)?;
            Some(format!("row {} of the limits, {}: at most {}", refusal.detail, row.name, grouped(row.limit)))
        }
        _ => None,
    }
}

/// What is said of this refusal: its names, what it names, its detail.
pub fn about(read: &Read, refusal: &Refusal, checker: &Checker) -> Vec<Note> {
    let detail = detail(read, refusal, checker).map(|words| ("detail".to_string(), words));
    names(read, refusal).into_iter().chain(named(read, refusal, checker)).chain(detail).collect()
}

/// The notes under the excerpt: first those about this refusal, each with its label, then those about its question.
fn notes(question: &Question, about: Vec<Note>, tag: &str, pad: &str, paint: Paint) -> String {
    let mut out = String::new();
    let note = |label: &str, words: &str| {
        let plain = wrapped(&format!("{pad} = {label}: "), words);
        plain.replacen(&format!("= {label}"), &format!("{} {}", paint.edge("="), paint.strong(label)), 1)
    };
    for (label, words) in about {
        out += &note(&label, &words);
    }
    out += &note("question", question.asks);
    out += &note("help", question.help);
    out += &note("to mend", question.whom());
    let originals: Vec<&str> = question.originals_of(tag).collect();
    match originals[..] {
        [] => out += &note("original", "has no such question"),
        [one] => out += &note("original", &format!("\"{one}\"")),
        _ => {
            out += &note("original", "one of these sentences, … for what it prints of the input");
            originals.iter().for_each(|s| out += &format!("{pad}     \"{s}\"\n"));
        }
    }
    out
}

/// The goals without a result, each where it stands.
fn open_goals(read: &Read, checker: &Checker, gutter: usize, paint: Paint) -> String {
    let missing = checker.missing();
    let (file, text) = (&read.files[Text::Goals as usize], &read.texts[Text::Goals as usize]);
    let mut out: String = missing.iter().take(GOALS).map(|g| excerpt(file, text, g.declared(), "no result", gutter, paint)).collect();
    if missing.len() > GOALS {
        out += &format!("{} ({} more)\n", " ".repeat(gutter), missing.len() - GOALS);
    }
    out
}

/// A refusal as some lines of text.
pub fn explain(read: &Read, refusal: &Refusal, checker: &Checker, paint: Paint) -> String {
    let Some(question) = refusal.question() else { return format!("{}\n", refusal.line()) };
    let mark = paint.error(&format!("error[{}]", refusal.number));
    let mut out = format!("{mark}{}\n", paint.strong(&format!(": {}", question.sentence)));
    let Some(text) = refusal.text else { return out + &notes(question, Vec::new(), "", " ", paint) };
    let (file, bytes) = (&read.files[text as usize], &read.texts[text as usize]);
    let part = refused(bytes, refusal);
    let gutter = gutter(bytes, &part);
    let tag = items(bytes, part.clone()).first().map_or("", |f| f.word(bytes)).to_string();
    let pad = " ".repeat(gutter);
    out += &excerpt(file, bytes, part, &said(refusal, bytes), gutter, paint);
    if refusal.number == 53 {
        out += &open_goals(read, checker, gutter, paint);
    }
    out += &format!("{pad} {}\n", paint.edge("|"));
    out + &notes(question, about(read, refusal, checker), &tag, &pad, paint)
}

#[cfg(test)]
mod tests {
    use super::wrapped;

    #[test]
    fn notes_are_broken_under_their_beginning() {
        let lines = wrapped("  = help: ", &"word ".repeat(40));
        assert!(lines.lines().all(|l| l.len() <= 100), "{lines}");
        assert_eq!(lines.lines().nth(1).map(|l| &l[..14]), Some("          word"));
        assert_eq!(wrapped("= a: ", "b c\x1b[2J"), "= a: b c\u{fffd}[2J\n");
    }
}
