//! A refusal: the question that was answered with no, and where.
use crate::questions::{Question, ROWS, grouped, question};
use std::error::Error;
use std::fmt;

/// One of the three texts.
#[derive(Clone, Copy, Debug, PartialEq, Eq)]
pub enum Text {
    /// Sorts, constructors, predicates and rules.
    Theory,
    /// What is to be proved.
    Goals,
    /// The steps, and which fact is the result for which goal.
    Proof,
}

impl Text {
    /// All of them, in the order in which they are read.
    pub const ALL: [Text; 3] = [Text::Theory, Text::Goals, Text::Proof];

    /// By its number in a refusal or a table, from 1.
    pub const fn of(number: u64) -> Option<Text> {
        match number {
            1 => Some(Text::Theory),
            2 => Some(Text::Goals),
            3 => Some(Text::Proof),
            _ => None,
        }
    }

    /// Its number in a refusal, from 1.
    pub const fn number(self) -> u32 {
        self as u32 + 1
    }

    /// `theory`, `goals` or `proof`, which is also the usual name of its file.
    pub const fn name(self) -> &'static str {
        match self {
            Text::Theory => "theory",
            Text::Goals => "goals",
            Text::Proof => "proof",
        }
    }
}

/// The first question that was answered with no. docs/REFUSALS.md has all of them, and so has [`QUESTIONS`](crate::questions::QUESTIONS).
///
/// `Display` says it as a sentence:
///
/// ```
/// use tariff::{Refusal, Text};
///
/// let refusal = Refusal { number: 51, text: Some(Text::Proof), form: 5, detail: 0 };
/// assert_eq!(refusal.to_string(), "proof, form 6: the result rests on hypotheses that its goal does not list (question 51)");
/// assert_eq!(refusal.line(), "(refused 51 3 5 0)");
/// ```
#[derive(Clone, Copy, Debug, PartialEq, Eq)]
pub struct Refusal {
    /// The number of the question.
    pub number: u32,
    /// The text that it was put to, if it was put to one.
    pub text: Option<Text>,
    /// The complete bracketed forms before the refused one in that text; for 25 and 53 all of them.
    pub form: usize,
    /// 39: the variable, from 1 as made. 53: how many goals have no result. 60: the row of limits. Else 0.
    pub detail: u32,
}

impl Refusal {
    /// `(refused NUMBER TEXT FORM DETAIL)`
    pub fn line(&self) -> String {
        format!("(refused {} {} {} {})", self.number, self.text.map_or(0, Text::number), self.form, self.detail)
    }

    /// The question; nothing where the number is none of docs/REFUSALS.md.
    pub fn question(&self) -> Option<&'static Question> {
        question(self.number)
    }

    /// What the detail says by itself: the variable of 39 and the goals of 53 have names, which [`Checker`](crate::Checker) knows.
    fn detail(&self) -> String {
        match self.number {
            39 => format!("; variable {}", self.detail),
            53 => format!("; {} of them", self.detail),
            60 => match ROWS.get((self.detail as usize).wrapping_sub(1)) {
                Some(row) => format!("; row {}, {}: at most {}", self.detail, row.name, grouped(row.limit)),
                None => format!("; row {}", self.detail),
            },
            _ => String::new(),
        }
    }

    /// Where it is, in words: `proof, form 6`.
    fn place(&self) -> String {
        let Some(text) = self.text else { return "before reading".into() };
        match self.number {
            2 | 3 => text.name().into(),
            25 | 53 => format!("end of the {}", text.name()),
            _ => format!("{}, form {}", text.name(), self.form + 1),
        }
    }
}

impl fmt::Display for Refusal {
    fn fmt(&self, f: &mut fmt::Formatter<'_>) -> fmt::Result {
        let sentence = self.question().map_or("a question that is not known here", |q| q.sentence);
        write!(f, "{}: {sentence} (question {}{})", self.place(), self.number, self.detail())
    }
}

impl Error for Refusal {}
