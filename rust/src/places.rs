//! Places in a text: its forms, the first bracket that cannot stand, lines and columns. A refusal names a form by the number of forms before
//! it; here is the part of the text that this means.
use crate::refusal::Refusal;
use std::ops::Range;

/// The deepest bracket that is read.
const DEPTH: usize = 64;

/// An item at top level.
#[derive(Clone, Debug, PartialEq, Eq)]
pub struct Item {
    /// Its bytes, from the first on, up to behind the last.
    pub range: Range<usize>,
    /// Whether it is a bracketed form; else it is a bare atom.
    pub form: bool,
}

/// Why a text cannot be read to its end.
#[derive(Clone, Debug, PartialEq, Eq)]
pub enum Stop {
    /// A closing bracket that no bracket opened.
    Stray(usize),
    /// An opening bracket, at top level, that is never closed.
    Unclosed(usize),
    /// An opening bracket that is nested too deep.
    Deep(usize),
}

/// A text's items up to its end, or to what cannot be read.
#[derive(Clone, Debug, Default)]
pub struct Scan {
    /// The complete ones.
    pub items: Vec<Item>,
    /// What ended it, if not the end of the text.
    pub stop: Option<Stop>,
}

/// White space is bytes 9 to 13 and 32.
fn space(b: u8) -> bool {
    matches!(b, 9..=13 | 32)
}

/// A bracket or an atom.
#[derive(Clone, Copy, Debug, PartialEq, Eq)]
pub enum Token {
    /// `(`
    Open,
    /// `)`
    Close,
    /// Anything else but white space and comments.
    Atom,
}

/// What begins here, and how many bytes it has; white space and comments are no tokens.
fn token(rest: &[u8]) -> (Option<Token>, usize) {
    let until = |ends: fn(u8) -> bool| rest.iter().position(|&b| ends(b)).unwrap_or(rest.len());
    match rest[0] {
        b'(' => (Some(Token::Open), 1),
        b')' => (Some(Token::Close), 1),
        b';' => (None, until(|b| b == b'\n')),
        b if space(b) => (None, 1),
        _ => (Some(Token::Atom), until(|b| space(b) || matches!(b, b'(' | b')' | b';'))),
    }
}

/// The tokens of a part of a text, each with its place.
pub fn tokens(text: &[u8], part: Range<usize>) -> impl Iterator<Item = (Token, Range<usize>)> {
    let mut at = part.start;
    std::iter::from_fn(move || {
        while at < part.end {
            let from = at;
            let (found, length) = token(&text[from..part.end]);
            at += length;
            if let Some(found) = found {
                return Some((found, from..at));
            }
        }
        None
    })
}

/// The items of a text.
pub fn scan(text: &[u8]) -> Scan {
    let mut it = Scan::default();
    let (mut depth, mut start) = (0, 0);
    for (token, range) in tokens(text, 0..text.len()) {
        match token {
            Token::Open if depth == DEPTH => return Scan { stop: Some(Stop::Deep(range.start)), ..it },
            Token::Close if depth == 0 => return Scan { stop: Some(Stop::Stray(range.start)), ..it },
            Token::Open => {
                start = if depth == 0 { range.start } else { start };
                depth += 1;
            }
            Token::Close => {
                depth -= 1;
                if depth == 0 {
                    it.items.push(Item { range: start..range.end, form: true });
                }
            }
            Token::Atom if depth == 0 => it.items.push(Item { range, form: false }),
            Token::Atom => (),
        }
    }
    it.stop = (depth > 0).then_some(Stop::Unclosed(start));
    it
}

/// The first word of a form, such as `step`; empty where it begins with a bracket.
pub fn tag<'a>(text: &'a [u8], item: &Item) -> &'a [u8] {
    let inside = item.range.start + usize::from(item.form)..item.range.end;
    match tokens(text, inside).next() {
        Some((Token::Atom, range)) => &text[range],
        _ => &[],
    }
}

/// A line and a column, both from 1; columns count bytes.
#[derive(Clone, Copy, Debug, PartialEq, Eq)]
pub struct Place {
    /// The line.
    pub line: usize,
    /// The column in it.
    pub column: usize,
}

/// The place of a byte.
pub fn place(text: &[u8], at: usize) -> Place {
    let before = &text[..at.min(text.len())];
    let start = before.iter().rposition(|&b| b == b'\n').map_or(0, |n| n + 1);
    Place { line: 1 + before.iter().filter(|&&b| b == b'\n').count(), column: 1 + before.len() - start }
}

/// The part of its text that a refusal is about: the refused form; the byte of 3; the bracket of 4 and 5; the end, for 25 and 53.
pub fn refused(text: &[u8], refusal: &Refusal) -> Range<usize> {
    let end = text.len();
    let byte = |at: usize| at..(at + 1).min(end);
    match refusal.number {
        1 | 2 => 0..0,
        3 => text.iter().position(|&b| b >= 128).map_or(end..end, byte),
        4 | 5 => match scan(text).stop {
            Some(Stop::Stray(at) | Stop::Deep(at) | Stop::Unclosed(at)) => byte(at),
            None => end..end,
        },
        25 | 53 => end..end,
        // a bare atom is refused where it stands, so that all items before the refused one are forms
        _ => scan(text).items.into_iter().nth(refusal.form).map_or(end..end, |item| item.range),
    }
}

#[cfg(test)]
mod tests {
    use super::*;
    use crate::refusal::Text;

    fn part(text: &[u8], number: u32, form: usize) -> Range<usize> {
        refused(text, &Refusal { number, text: Some(Text::Proof), form, detail: 0 })
    }

    #[test]
    fn items_and_their_tags() {
        let text = b" (a b) ; (no)\n x\x0b(\tc ;)\n (d))((e))";
        let it = scan(text);
        let found: Vec<_> = it.items.iter().map(|i| (&text[i.range.clone()], i.form, tag(text, i))).collect();
        let want: [(&[u8], bool, &[u8]); 4] =
            [(b"(a b)", true, b"a"), (b"x", false, b"x"), (b"(\tc ;)\n (d))", true, b"c"), (b"((e))", true, b"")];
        assert_eq!((&found[..], it.stop), (&want[..], None));
    }

    #[test]
    fn what_cannot_be_read() {
        assert_eq!(scan(b"(a) (b").stop, Some(Stop::Unclosed(4)));
        assert_eq!(scan(b"(a)) (b").stop, Some(Stop::Stray(3)));
        assert_eq!(scan("(".repeat(64).as_bytes()).stop, Some(Stop::Unclosed(0)));
        assert_eq!(scan(format!("(a) {}", "(".repeat(70)).as_bytes()).stop, Some(Stop::Deep(68)));
    }

    #[test]
    fn the_refused_part() {
        let text = b"(a)\n(b c)\n";
        assert_eq!((part(text, 34, 1), part(text, 53, 2), part(text, 2, 0)), (4..9, 10..10, 0..0));
        assert_eq!((part(b"(a) \xc3\xa9", 3, 0), part(b"(a) )", 4, 1), part(b"(a) (b", 4, 1)), (4..5, 4..5, 4..5));
        assert_eq!(part(b"(a) b (c)", 30, 1), 4..5);
        // a form that is not there: no panic, the end
        assert_eq!(part(b"(a)", 30, 7), 3..3);
    }

    #[test]
    fn lines_and_columns() {
        let at = |n| place(b"ab\n\ncd", n);
        let want = [(0, 1, 1), (2, 1, 3), (3, 2, 1), (4, 3, 1), (6, 3, 3), (99, 3, 3)];
        assert!(want.iter().all(|&(n, line, column)| at(n) == Place { line, column }));
    }
}
