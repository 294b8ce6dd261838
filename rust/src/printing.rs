//! Terms as the texts spell them, without recursion: a term may be 4,096 levels deep, and its spelling may be far longer than all texts.
use crate::facts::{Head, Term};

/// What is still to be written.
enum Left<'a> {
    Term(Term<'a>),
    Space,
    Close,
}

/// Hands the spelling to `out`, piece by piece, until it is all or `out` asks for no more.
pub fn spell<E>(term: Term<'_>, out: &mut dyn FnMut(&str) -> Result<bool, E>) -> Result<(), E> {
    let mut left = vec![Left::Term(term)];
    while let Some(next) = left.pop() {
        let goes_on = match next {
            Left::Space => out(" ")?,
            Left::Close => out(")")?,
            Left::Term(t) => begin(t, &mut left, out)?,
        };
        if !goes_on {
            return Ok(());
        }
    }
    Ok(())
}

/// Its head at once, and its arguments put behind what is written next. A judgment has brackets even without arguments, a constant none.
fn begin<'a, E>(term: Term<'a>, left: &mut Vec<Left<'a>>, out: &mut dyn FnMut(&str) -> Result<bool, E>) -> Result<bool, E> {
    let mut arguments = term.arguments().rev().peekable();
    let (name, brackets) = match term.head() {
        Head::Variable(v) => return out(&v.to_string()),
        Head::Constructor(name) => (name, arguments.peek().is_some()),
        Head::Predicate(name) => (name, true),
    };
    if !brackets {
        return out(name);
    }
    left.push(Left::Close);
    for argument in arguments {
        left.extend([Left::Term(argument), Left::Space]);
    }
    Ok(out("(")? && out(name)?)
}

/// At most about so many bytes of it.
pub fn clipped(term: Term<'_>, bytes: usize) -> String {
    let mut text = String::new();
    let mut whole = true;
    let Ok(()) = spell::<std::convert::Infallible>(term, &mut |word| {
        whole = text.len() + word.len() <= bytes;
        text.push_str(if whole { word } else { "..." });
        Ok(whole)
    });
    text
}
