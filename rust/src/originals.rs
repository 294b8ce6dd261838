//! The original program's sentences: which can be said of a form with a given tag.
use crate::questions::Question;

const JUDGMENTS: &[&str] = &["rule", "goal", "hyp", "step", "induct", "invert"];
const TERMS: &[&str] = &["rule", "goal", "def", "hyp", "step", "apply", "induct", "invert", "result"];
const REFERENCES: &[&str] = &["step", "apply", "result"];

/// Sentences that are said of these forms alone; any other may be said of every form that its question is put to.
const SAID_OF: [(&str, &[&str]); 41] = [
    ("duplicate sort", &["sort"]),
    ("duplicate ctor", &["ctor"]),
    ("duplicate pred", &["pred"]),
    ("duplicate rule", &["rule"]),
    ("unknown sort …", &["ctor", "pred", "var"]),
    ("invalid ground variable …", &["rule"]),
    ("empty judgment", JUDGMENTS),
    ("unknown predicate …", JUDGMENTS),
    ("unknown constructor …", TERMS),
    ("empty term", TERMS),
    ("empty item", &["step"]),
    ("invalid abbreviation name …", &["def"]),
    ("duplicate abbreviation", &["def"]),
    ("unknown rule …", &["step"]),
    ("empty reference", REFERENCES),
    ("case refers to a later step", &["induct", "invert"]),
    ("expected list … (hypotheses, context)", &["induct", "invert"]),
    ("expected (VAR TERM)", REFERENCES),
    ("variable substituted twice", REFERENCES),
    ("step …: unknown variable …", &["step"]),
    ("step …: invalid binding", &["step"]),
    ("a variable is listed twice", &["hyp", "invert"]),
    ("step …: binds a variable step … does not generalize", &["apply"]),
    ("step …: more than one conclusion", &["step"]),
    ("step …: conclusion mismatch", &["step"]),
    ("step …: premise mismatch", &["step"]),
    ("unbound conclusion variable", &["step"]),
    ("step …: a premise does not match", &["apply"]),
    ("step … is not a plain hypothesis", &["induct", "invert"]),
    ("step … is not a hypothesis", &["invert"]),
    ("step …: step … depends on a rule hypothesis", &["apply"]),
    ("step …: expected … cases", &["induct"]),
    ("empty case", &["induct"]),
    ("step …: case variables do not match the constructor", &["induct"]),
    ("step …: expected (RULE STEP (VAR...))", &["invert"]),
    ("step …: two cases for rule …", &["invert"]),
    ("step …: invalid case variable …", &["induct"]),
    ("step …: wrong variables for rule …", &["invert"]),
    ("step …: case variables must be fresh", &["invert"]),
    ("step …: case … uses a hypothesis that is not an induction hypothesis", &["induct"]),
    ("step …: case … uses a hypothesis it may not", &["invert"]),
];

impl Question {
    /// The original program's sentences, one by one.
    pub fn originals(&self) -> impl Iterator<Item = &'static str> {
        self.original.split("; ").filter(|s| !s.is_empty())
    }

    /// Those that it can say of a form with this tag, such as `step`.
    pub fn originals_of(&self, tag: &str) -> impl Iterator<Item = &'static str> {
        self.originals().filter(move |&s| SAID_OF.iter().find(|said| said.0 == s).is_none_or(|said| said.1.contains(&tag)))
    }
}

#[cfg(test)]
mod tests {
    use super::SAID_OF;
    use crate::questions::{QUESTIONS, question};

    #[test]
    fn every_sentence_belongs_to_a_question() {
        for (sentence, _) in SAID_OF {
            assert!(QUESTIONS.iter().any(|q| q.originals().any(|s| s == sentence)), "{sentence}");
        }
    }

    #[test]
    fn a_tag_leaves_its_own_sentences() {
        let of = |number, tag| question(number).expect("known").originals_of(tag).collect::<Vec<_>>();
        assert_eq!(of(38, "apply"), ["step …: a premise does not match"]);
        assert_eq!(of(44, "invert"), ["step …: case … uses a hypothesis it may not"]);
        assert_eq!(of(53, ""), ["missing results: …"]);
    }
}
