//! What a check answers: the counts of an acceptance or a refusal, and the one line that says it.
use crate::refusal::{Refusal, Text};
use std::fmt;

/// The answer as it comes over the seam: 1 and the seven counts of an acceptance, or 0, number, text, form, detail, and zero behind.
#[derive(Clone, Copy, Debug, PartialEq, Eq)]
pub struct Answer(pub [u64; 8]);

impl Answer {
    /// The same as a result.
    pub fn verdict(self) -> Verdict {
        let [accepted, a, b, c, d, e, f, g] = self.0;
        match accepted {
            0 => Err(Refusal { number: a as u32, text: Text::of(b), form: c as usize, detail: d as u32 }),
            _ => Ok(Report { steps: a, goals: b, open_goals: c, hypotheses: d, inductions: e, inversions: f, instances: g }),
        }
    }
}

/// A report, or the first question that was answered with no.
pub type Verdict = Result<Report, Refusal>;

/// The counts of an accepted proof.
#[derive(Clone, Copy, Debug, PartialEq, Eq)]
pub struct Report {
    /// Recorded facts.
    pub steps: u64,
    /// Goals, each of which has its result.
    pub goals: u64,
    /// Goals whose judgment has a variable.
    pub open_goals: u64,
    /// Forms `hyp`.
    pub hypotheses: u64,
    /// Forms `induct`.
    pub inductions: u64,
    /// Forms `invert`.
    pub inversions: u64,
    /// Bracketed references in forms `step`.
    pub instances: u64,
}

impl Report {
    /// `(accepted STEPS GOALS OPEN HYPOTHESES INDUCTIONS INVERSIONS INSTANCES)`
    pub fn line(&self) -> String {
        let Report { steps, goals, open_goals, hypotheses, inductions, inversions, instances } = self;
        format!("(accepted {steps} {goals} {open_goals} {hypotheses} {inductions} {inversions} {instances})")
    }
}

/// A sentence, such as `accepted: 4 facts, 1 goal (1 open), 1 hypothesis, 1 induction, 0 inversions, 0 instances`.
impl fmt::Display for Report {
    fn fmt(&self, f: &mut fmt::Formatter<'_>) -> fmt::Result {
        let count = |n: u64, one: &str, more: &str| format!("{n} {}", if n == 1 { one } else { more });
        write!(
            f,
            "accepted: {}, {} ({} open), {}, {}, {}, {}",
            count(self.steps, "fact", "facts"),
            count(self.goals, "goal", "goals"),
            self.open_goals,
            count(self.hypotheses, "hypothesis", "hypotheses"),
            count(self.inductions, "induction", "inductions"),
            count(self.inversions, "inversion", "inversions"),
            count(self.instances, "instance", "instances"),
        )
    }
}

/// The one line of an answer, without a line feed: [`Report::line`] or [`Refusal::line`].
pub fn line(verdict: &Verdict) -> String {
    match verdict {
        Ok(report) => report.line(),
        Err(refusal) => refusal.line(),
    }
}
