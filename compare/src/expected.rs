//! The answer that document 01 demands, and what stands then. It is the original's wherever the original has a say. Lengths, bytes of 128
//! and more, depth and the rows of question 60 are put beside it, at the moment that 01 and the decisions name.
use crate::answer::{self, Texts, items};
use crate::rows;
use crate::rows_declared::before_refusal;
use crate::scan::{Scan, first, scan};
use crate::schematic::{Left, check_left};

/// Theory, goals, proof, of any bytes.
pub type Bytes = [Vec<u8>; 3];

pub const LENGTH: usize = 65_536;

pub struct Expected {
    pub line: String,
    /// What the original said, or `accepts`; nothing where a limit decides.
    pub sentence: Option<String>,
    /// The forms of each text that were taken.
    pub taken: [usize; 3],
    /// What stands, once the goals are reached.
    pub left: Option<Left>,
}

pub fn bytes(texts: &Texts) -> Bytes {
    [&texts.theory, &texts.goals, &texts.proof].map(|t| t.clone().into_bytes())
}

fn refused(number: u32, text: usize, form: usize, detail: usize, taken: [usize; 3]) -> Expected {
    Expected { line: format!("(refused {number} {text} {form} {detail})"), sentence: None, taken, left: None }
}

/// Questions 2 and 3.
fn unread(texts: &Bytes) -> Option<Expected> {
    let long = texts.iter().position(|t| t.len() > LENGTH).map(|t| (2, t));
    let wide = texts.iter().position(|t| t.iter().any(|&b| b >= 128)).map(|t| (3, t));
    long.or(wide).map(|(number, t)| refused(number, t + 1, 0, 0, [0; 3]))
}

/// Three texts of plain bytes, and their brackets.
struct Work {
    texts: Texts,
    goals: Scan,
    proof: Scan,
}

/// How many forms of the goals the original takes.
fn sound(texts: &Texts) -> usize {
    let found = answer::goals_refused(&texts.theory, &texts.goals);
    found.map_or(usize::MAX, |a| answer::form_of(&a.line))
}

impl Work {
    /// The texts up to the first `n` forms of goals and proof together.
    fn prefix(&self, n: usize) -> (&str, &str) {
        let goals = n.min(self.goals.ends.len());
        (first(&self.texts.goals, &self.goals, goals), first(&self.texts.proof, &self.proof, n - goals))
    }

    fn left(&self, n: usize) -> Left {
        let (goals, proof) = self.prefix(n);
        check_left(&self.texts.theory, goals, proof.as_bytes()).1.expect("the goals are reached")
    }

    /// The rows that are exceeded once `n` forms were put, where the first `sound` forms of the goals are taken.
    fn exceeded(&self, n: usize, sound: usize) -> (Vec<usize>, Left) {
        let left = self.left(n);
        let goals = items(self.prefix(n).0).forms;
        (rows::exceeded(&left, &goals[..sound.min(goals.len())]), left)
    }

    /// The first form of goals and proof that meets a row, if one does.
    fn limit(&self) -> Option<Result<Expected, String>> {
        let sound = sound(&self.texts);
        let (mut low, mut high) = (0, self.goals.ends.len() + self.proof.ends.len());
        if self.exceeded(high, sound).0.is_empty() {
            return None;
        }
        while low + 1 < high {
            let middle = (low + high) / 2;
            if self.exceeded(middle, sound).0.is_empty() { low = middle } else { high = middle }
        }
        Some(self.limit_at(low, self.exceeded(high, sound)))
    }

    /// `n` forms stand, and the next exceeds these rows.
    fn limit_at(&self, low: usize, (rows, left): (Vec<usize>, Left)) -> Result<Expected, String> {
        let row = rows::first_met(&left, &rows).ok_or("two rows in one form")?;
        let n = self.goals.ends.len();
        let (text, form) = if low < n { (2, low) } else { (3, low - n) };
        let taken = [usize::MAX, low.min(n), low.saturating_sub(n)];
        Ok(Expected { left: Some(self.left(low)), ..refused(60, text, form, row, taken) })
    }

    /// The original's answer, with what stood before the form that it refused. `deep`: behind the forms comes a bracket too deep.
    fn plain(&self, deep: bool) -> Expected {
        let found = answer::answer(&self.texts);
        let (n, m) = (self.goals.ends.len(), self.proof.ends.len());
        let words: Vec<usize> = found.line.split(' ').filter_map(|w| w.trim_end_matches(')').parse().ok()).collect();
        let ends = found.line.starts_with("(accepted") || words[0] == 53;
        if deep && ends {
            let it = refused(5, 3, m, 0, [usize::MAX, n, m]);
            return Expected { left: Some(self.left(n + m)), ..it };
        }
        let taken = match (ends, words.get(1)) {
            (true, _) => n + m,
            (_, Some(2)) => words[2].min(n),
            _ => n + words[2].min(m),
        };
        let left = Some(self.left(taken));
        Expected { line: found.line, sentence: Some(found.sentence), taken: [usize::MAX, taken.min(n), taken - taken.min(n)], left }
    }
}

/// The theory's own refusal.
fn in_theory(texts: &Texts, theory: &Scan) -> Option<Expected> {
    if let Some(number) = theory.stop {
        return Some(refused(number, 1, theory.lists, 0, [0; 3]));
    }
    let forms = items(&texts.theory).forms;
    let found = answer::theory_refused(&texts.theory);
    let taken = found.as_ref().map_or(forms.len(), |a| answer::form_of(&a.line));
    let (before, rest) = forms.split_at(taken);
    let met = rows::in_theory(before);
    let met = met.or_else(|| before_refusal(before, rows::pattern_words(before), rest.first()?).map(|row| (taken, row)));
    if let Some((k, row)) = met {
        return Some(refused(60, 1, k, row, [k, 0, 0]));
    }
    found.map(|a| Expected { line: a.line, sentence: Some(a.sentence), taken: [taken, 0, 0], left: None })
}

/// An error says why the answer is not known: two questions that only the moment inside one form tells apart.
pub fn expected(texts: &Bytes) -> Result<Expected, String> {
    if let Some(it) = unread(texts) {
        return Ok(it);
    }
    let plain = texts.each_ref().map(|t| String::from_utf8(t.clone()).expect("all bytes are below 128"));
    let scans = texts.each_ref().map(|t| scan(t));
    let [theory, goals, proof] = plain;
    let [in_it, of_goals, of_proof] = scans;
    let mut work = Work { texts: Texts { theory, goals, proof }, goals: of_goals, proof: of_proof };
    if let Some(it) = in_theory(&work.texts, &in_it) {
        return Ok(it);
    }
    if let Some(number) = work.goals.stop {
        let empty = check_left(&work.texts.theory, "", b"").1;
        return Ok(Expected { left: empty, ..refused(number, 2, work.goals.lists, 0, [usize::MAX, 0, 0]) });
    }
    let deep = work.proof.stop == Some(5);
    if deep {
        work.texts.proof = first(&work.texts.proof, &work.proof, work.proof.ends.len()).to_string();
    }
    let (_, left) = check_left(&work.texts.theory, &work.texts.goals, work.texts.proof.as_bytes());
    let left = left.expect("the theory is taken");
    // as if all goals were taken: where not even that exceeds a row, nothing does
    let near = !rows::exceeded(&left, &items(&work.texts.goals).forms).is_empty();
    if let Some(it) = near.then(|| work.limit()).flatten() {
        return it;
    }
    if work.texts.proof.contains("invert") && rows::pairs_near(&left) {
        return Err("a unification near row 14".into());
    }
    Ok(work.plain(deep))
}
