//! An answer as one JSON object on a line, with all that `--explain` and `--facts` would say.
use crate::desk::args::Options;
use crate::desk::check::Read;
use crate::desk::explain::about;
use crate::desk::facts::LONGEST;
use std::fmt::Write;
use std::ops::Range;
use tariff::places::{place, refused};
use tariff::questions::ROWS;
use tariff::{Checker, Fact, Refusal, Report, Text, Verdict};

/// A string with its quotes; control characters are escaped.
fn string(text: &str) -> String {
    let mut out = String::from('"');
    for c in text.chars() {
        match c {
            '"' => out.push_str("\\\""),
            '\\' => out.push_str("\\\\"),
            c if c < ' ' || c == '\u{7f}' => {
                let _ = write!(out, "\\u{:04x}", u32::from(c));
            }
            c => out.push(c),
        }
    }
    out.push('"');
    out
}

fn array(items: impl Iterator<Item = String>) -> String {
    format!("[{}]", items.collect::<Vec<_>>().join(","))
}

/// An object, written member by member.
struct Object(String);

impl Object {
    fn new() -> Self {
        Object("{".into())
    }

    fn put(&mut self, name: &str, value: impl AsRef<str>) -> &mut Self {
        let comma = if self.0.len() > 1 { "," } else { "" };
        let _ = write!(self.0, "{comma}{}:{}", string(name), value.as_ref());
        self
    }

    fn end(&self) -> String {
        format!("{}}}", self.0)
    }
}

fn report(out: &mut Object, it: &Report) {
    out.put("accepted", "true").put("answer", string(&it.line()));
    let counts = [
        ("steps", it.steps),
        ("goals", it.goals),
        ("open_goals", it.open_goals),
        ("hypotheses", it.hypotheses),
        ("inductions", it.inductions),
        ("inversions", it.inversions),
        ("instances", it.instances),
    ];
    for (name, n) in counts {
        out.put(name, n.to_string());
    }
}

/// A part of a file: its first line and column, and those behind its last byte.
fn part(file: &str, text: &[u8], range: Range<usize>) -> String {
    let mut out = Object::new();
    let (from, to) = (place(text, range.start), place(text, range.end));
    out.put("file", string(file)).put("line", from.line.to_string()).put("column", from.column.to_string());
    out.put("end_line", to.line.to_string()).put("end_column", to.column.to_string()).end()
}

/// What the detail names.
fn detail(out: &mut Object, refusal: &Refusal, checker: &Checker) {
    let from_0 = refusal.detail.checked_sub(1);
    match refusal.number {
        39 => {
            if let Some(v) = from_0.and_then(|n| checker.variable(n)) {
                out.put("variable", string(&v.to_string()));
            }
        }
        53 => {
            out.put("missing", array(checker.missing().iter().map(|g| string(g.name()))));
        }
        60 => {
            if let Some(row) = from_0.and_then(|n| ROWS.get(n as usize)) {
                out.put("row", string(row.name)).put("limit", row.limit.to_string());
            }
        }
        _ => (),
    }
}

fn refusal(out: &mut Object, it: &Refusal, read: &Read, checker: &Checker) {
    out.put("accepted", "false").put("answer", string(&it.line())).put("number", it.number.to_string());
    out.put("text", it.text.map_or("null".into(), |t| string(t.name())));
    out.put("form", it.form.to_string()).put("detail", it.detail.to_string());
    detail(out, it, checker);
    if let Some(q) = it.question() {
        out.put("sentence", string(q.sentence)).put("question", string(q.asks)).put("help", string(q.help));
        out.put("original", array(q.originals().map(string)));
    }
    if let Some(text) = it.text {
        let bytes = &read.texts[text as usize];
        out.put("place", part(&read.files[text as usize], bytes, refused(bytes, it)));
        out.put("notes", array(about(read, it, checker).iter().map(|(label, words)| string(&format!("{label}: {words}")))));
    }
}

fn fact(f: &Fact<'_>) -> String {
    let mut out = Object::new();
    out.put("index", f.index().to_string()).put("judgment", string(&f.judgment().clipped(LONGEST)));
    out.put("assumed", f.assumed().to_string()).put("hypotheses", array(f.hypotheses().map(|h| h.to_string())));
    out.put("premises", array(f.premises().map(|t| string(&t.clipped(LONGEST)))));
    out.put("generalised", array(f.generalised().map(|v| string(&v.to_string()))));
    out.put("footing", array(f.footing().map(string)));
    out.end()
}

/// The object, without a line feed.
pub fn object(read: &Read, verdict: &Verdict, checker: &Checker, options: Options) -> String {
    let mut out = Object::new();
    if let Some(folder) = &read.folder {
        out.put("folder", string(folder));
    }
    out.put("files", array(Text::ALL.iter().map(|&t| string(&read.files[t as usize]))));
    match verdict {
        Ok(it) => report(&mut out, it),
        Err(it) => refusal(&mut out, it, read, checker),
    }
    if options.facts {
        out.put("facts", array(checker.facts().map(|f| fact(&f))));
    }
    out.end()
}

#[cfg(test)]
mod tests {
    use super::{Object, array, string};

    #[test]
    fn strings_are_escaped() {
        assert_eq!(string("a\"b\\c\n\u{1b}é"), "\"a\\\"b\\\\c\\u000a\\u001bé\"");
    }

    #[test]
    fn members_have_commas_between_them() {
        assert_eq!(Object::new().put("a", "1").put("b", array(["2".into(), "3".into()].into_iter())).end(), "{\"a\":1,\"b\":[2,3]}");
        assert_eq!(Object::new().end(), "{}");
    }
}
