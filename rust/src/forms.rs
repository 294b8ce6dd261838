//! Forms as trees of places in their text.
use crate::places::{Token, tokens};
use std::ops::Range;

/// An atom, by its place, or a list.
#[derive(Clone, Debug, PartialEq, Eq)]
pub enum Form {
    /// From its first byte on, up to behind the last.
    Atom(Range<usize>),
    /// What stands in a pair of brackets.
    List(Vec<Form>),
}

impl Form {
    /// The items of a list; none of an atom.
    pub fn items(&self) -> &[Form] {
        match self {
            Form::List(items) => items,
            Form::Atom(_) => &[],
        }
    }

    /// The place of an atom; nowhere for a list.
    pub fn place(&self) -> Range<usize> {
        match self {
            Form::Atom(range) => range.clone(),
            Form::List(_) => 0..0,
        }
    }

    /// The bytes of an atom, if they are text; nothing of a list.
    pub fn word<'a>(&self, text: &'a [u8]) -> &'a str {
        std::str::from_utf8(&text[self.place()]).unwrap_or("")
    }
}

/// The complete items of a part of a text, up to a bracket that cannot stand.
pub fn forms(text: &[u8], part: Range<usize>) -> Vec<Form> {
    let mut outer = Vec::new();
    let mut open: Vec<Vec<Form>> = Vec::new();
    for (token, range) in tokens(text, part) {
        let done = match token {
            Token::Open => {
                open.push(Vec::new());
                continue;
            }
            Token::Atom => Form::Atom(range),
            Token::Close => match open.pop() {
                Some(items) => Form::List(items),
                None => break,
            },
        };
        open.last_mut().unwrap_or(&mut outer).push(done);
    }
    outer
}

/// The items of the bracketed form that this part of a text is; none where it is no such form.
pub fn items(text: &[u8], part: Range<usize>) -> Vec<Form> {
    match forms(text, part).into_iter().next() {
        Some(Form::List(items)) => items,
        _ => Vec::new(),
    }
}

#[cfg(test)]
mod tests {
    use super::{Form, forms, items};

    #[test]
    fn a_form_is_read_without_its_comments() {
        let text = b"x (step 0\x0bc1 ; (not this)\n ((1 (y z))))";
        let form = items(text, 2..text.len());
        assert_eq!(form[..3].iter().map(|f| f.word(text)).collect::<Vec<_>>(), ["step", "0", "c1"]);
        let reference = &form[3].items()[0];
        assert_eq!((reference.items()[0].word(text), reference.items()[1].items().len()), ("1", 2));
        assert_eq!(form.len(), 4);
    }

    #[test]
    fn what_cannot_be_read_ends_it() {
        assert_eq!(forms(b"a (b) ) c", 0..9), [Form::Atom(0..1), Form::List(vec![Form::Atom(3..4)])]);
        assert_eq!(forms(b"a (b (c)", 0..8), [Form::Atom(0..1)]);
        for text in ["", "x", "(a (b)", ") (a)", "()"] {
            assert!(items(text.as_bytes(), 0..text.len()).is_empty(), "{text}");
        }
    }
}
