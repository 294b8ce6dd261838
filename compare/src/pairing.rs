//! The number that document 01 gives to a refusal, from the sentence of the original and the form that it refused.
//!
//! Most sentences belong to one question. Four are spoken at many places (a list or an atom or an index or a variable was
//! expected), and there the place decides: the original reads a form in one fixed order, so the sentence is about the first
//! item, in that order, that is not what was asked for.
use crate::sexp::Sexp;

/// What the original asks of an item.
#[derive(Clone, Copy, PartialEq)]
enum Want {
    List,
    Atom,
    Index,
    Variable,
}

/// An item that is read, and the question that reads it.
struct Site<'a> {
    item: &'a Sexp,
    want: Want,
    number: u32,
}

/// The items of a form, in the order in which they are read.
struct Order<'a>(Vec<Site<'a>>);

impl<'a> Order<'a> {
    fn put(&mut self, item: &'a Sexp, want: Want, number: u32) {
        self.0.push(Site { item, want, number });
    }

    /// The items of a list that question `number` reads; none of an atom.
    fn list(&mut self, item: &'a Sexp, number: u32) -> &'a [Sexp] {
        self.put(item, Want::List, number);
        match item {
            Sexp::List(xs) => xs,
            Sexp::Atom(_) => &[],
        }
    }

    fn term(&mut self, item: &'a Sexp) {
        if let Sexp::List(xs) = item {
            self.applied(xs);
        }
    }

    fn applied(&mut self, xs: &'a [Sexp]) {
        if let [head, args @ ..] = xs {
            self.put(head, Want::Atom, 22);
            args.iter().for_each(|a| self.term(a));
        }
    }

    fn judgment(&mut self, item: &'a Sexp) {
        let xs = self.list(item, 22);
        self.applied(xs);
    }

    fn judgments(&mut self, item: &'a Sexp) {
        for j in self.list(item, 22) {
            self.judgment(j);
        }
    }

    fn variables(&mut self, item: &'a Sexp, number: u32) {
        for v in self.list(item, number) {
            self.put(v, Want::Variable, number);
        }
    }

    fn binding(&mut self, item: &'a Sexp) {
        if let [v, t] = self.list(item, 36) {
            self.put(v, Want::Variable, 36);
            self.term(t);
        }
    }

    fn reference(&mut self, item: &'a Sexp) {
        match item {
            Sexp::Atom(_) => self.put(item, Want::Index, 34),
            Sexp::List(xs) => {
                if let [first, bindings @ ..] = &xs[..] {
                    self.put(first, Want::Index, 34);
                    bindings.iter().for_each(|b| self.binding(b));
                }
            }
        }
    }

    fn references(&mut self, item: &'a Sexp) {
        for r in self.list(item, 37) {
            self.reference(r);
        }
    }

    /// An item of a `step`: a binding, or else the conclusion.
    fn item(&mut self, item: &'a Sexp) {
        let xs = self.list(item, 22);
        match xs {
            [Sexp::Atom(v), t] if v.starts_with('?') => self.term(t),
            _ => self.applied(xs),
        }
    }

    fn facts(&mut self, item: &'a Sexp) {
        for f in self.list(item, 34) {
            self.put(f, Want::Index, 34);
        }
    }

    fn induct_case(&mut self, item: &'a Sexp) {
        if let [fact, vars @ ..] = self.list(item, 41) {
            self.put(fact, Want::Index, 41);
            vars.iter().for_each(|v| self.put(v, Want::Variable, 42));
        }
    }

    fn invert_case(&mut self, item: &'a Sexp) {
        if let [rule, fact, vars] = self.list(item, 41) {
            self.put(rule, Want::Atom, 41);
            self.put(fact, Want::Index, 41);
            self.variables(vars, 42);
        }
    }

    fn declaration(&mut self, name: &'a Sexp, sort: &'a Sexp) {
        self.put(name, Want::Atom, 21);
        self.put(sort, Want::Atom, 21);
    }

    fn goal(&mut self, xs: &'a [Sexp]) {
        match xs {
            [_, name, sort] if is(&xs[0], "var") => self.declaration(name, sort),
            [_, name, j] => {
                self.judgment(j);
                self.put(name, Want::Atom, 24)
            }
            [_, name, hs, j] => {
                self.judgments(hs);
                self.judgment(j);
                self.put(name, Want::Atom, 24)
            }
            _ => (),
        }
    }

    fn proof(&mut self, tag: &str, xs: &'a [Sexp]) {
        if !matches!(tag, "var" | "def" | "result") {
            self.put(&xs[1], Want::Index, 31);
        }
        match (tag, xs) {
            ("var", [_, name, sort]) => self.declaration(name, sort),
            ("def", [_, name, t]) => {
                self.put(name, Want::Atom, 33);
                self.term(t)
            }
            ("hyp", [_, _, j]) => self.judgment(j),
            ("hyp", [_, _, ps, j, vs]) => {
                self.judgments(ps);
                self.judgment(j);
                self.variables(vs, 36)
            }
            ("result", [_, name, r]) => {
                self.put(name, Want::Atom, 50);
                self.reference(r)
            }
            _ => self.derived(tag, xs),
        }
    }

    /// The forms that make a fact from others.
    fn derived(&mut self, tag: &str, xs: &'a [Sexp]) {
        match (tag, xs) {
            ("step", [_, _, rule, refs, items @ ..]) => {
                self.put(rule, Want::Atom, 33);
                self.references(refs);
                items.iter().for_each(|x| self.item(x))
            }
            ("apply", [_, _, fact, bindings, refs]) => {
                self.put(fact, Want::Index, 34);
                for b in self.list(bindings, 36) {
                    self.binding(b);
                }
                self.references(refs)
            }
            ("induct", [_, _, x, middle @ .., j, cases]) => {
                self.put(x, Want::Variable, 36);
                middle.iter().for_each(|hs| self.facts(hs));
                self.judgment(j);
                for c in self.list(cases, 41) {
                    self.induct_case(c);
                }
            }
            ("invert", [_, _, fact, context, j, cases]) => {
                self.put(fact, Want::Index, 34);
                self.facts(context);
                self.judgment(j);
                for c in self.list(cases, 41) {
                    self.invert_case(c);
                }
            }
            _ => (),
        }
    }
}

fn is(item: &Sexp, word: &str) -> bool {
    matches!(item, Sexp::Atom(a) if a == word)
}

/// The sentence without `step N: ` or `step N (RULE): ` before it.
fn bare(sentence: &str) -> &str {
    let numbered = |head: &str| {
        let mut words = head.split(' ');
        words.next() == Some("step") && words.next().is_some_and(|n| n.bytes().all(|b| b.is_ascii_digit()))
    };
    match sentence.split_once(": ") {
        Some((head, rest)) if numbered(head) => rest,
        _ => sentence,
    }
}

/// The question behind one of the sentences that are spoken at many places.
fn placed(order: &Order, sentence: &str) -> Option<u32> {
    let fits = |s: &&Site| match s.item {
        Sexp::Atom(a) => {
            (s.want == Want::List && sentence == format!("expected list, got {a}"))
                || (s.want == Want::Index && sentence == "expected a step index" && a.parse::<usize>().is_err())
                || (s.want == Want::Variable && sentence == format!("unknown variable {a}"))
        }
        Sexp::List(_) => s.want != Want::List && sentence == format!("expected atom, got {}", s.item),
    };
    order.0.iter().find(fits).map(|s| s.number)
}

/// Sentences of goals and proof that belong to one question, by how they begin.
const BEGINNINGS: [(&str, u32); 33] = [
    ("invalid goal form", 20),
    ("unknown sort", 21),
    ("invalid or duplicate variable", 21),
    ("empty judgment", 22),
    ("unknown predicate", 22),
    ("empty term", 22),
    ("unknown constructor", 22),
    ("undefined abbreviation", 22),
    ("empty item", 22),
    ("nullary constructors must be atoms", 23),
    ("sort or arity mismatch", 23),
    ("ill-sorted term", 23),
    ("duplicate goal", 24),
    ("empty form", 30),
    ("invalid proof form", 30),
    ("expected next index", 32),
    ("invalid abbreviation name", 33),
    ("duplicate abbreviation", 33),
    ("unknown rule", 33),
    ("reference to a later step", 34),
    ("case refers to a later step", 34),
    ("empty reference", 34),
    ("instance of step", 35),
    ("expected (VAR TERM)", 36),
    ("variable substituted twice", 36),
    ("invalid binding", 36),
    ("binds a variable", 36),
    ("wrong number of premises", 37),
    ("more than one conclusion", 37),
    ("conclusion mismatch", 38),
    ("premise mismatch", 38),
    ("unbound conclusion variable", 38),
    ("a premise does not match", 38),
];

/// The rest, most of them spoken of `induct`, `invert` and `result`.
const OTHERS: [(&str, u32); 16] = [
    ("premise variable absent from the conclusion", 39),
    ("empty case", 41),
    ("case variables do not match the constructor", 41),
    ("expected (RULE STEP (VAR...))", 41),
    ("two cases for rule", 41),
    ("invalid case variable", 42),
    ("wrong variables for rule", 42),
    ("case variables must be fresh", 42),
    ("the induction variable must occur", 45),
    ("missing case for rule", 47),
    ("the unifier would capture", 48),
    ("unknown or repeated result", 50),
    ("missing results", 53),
    ("unexpected closing parenthesis", 4),
    ("unexpected end of input", 4),
    ("no expected goals", 25),
];

/// Sentences with a name or a number before what tells them apart.
const ENDINGS: [(&str, u32); 9] = [
    (" depends on a rule hypothesis", 40),
    (" is not a plain hypothesis", 40),
    (" is not a hypothesis", 40),
    (" cases", 41),
    (" proves the wrong judgment", 43),
    (" uses a hypothesis that is not an induction hypothesis", 44),
    (" uses a hypothesis it may not", 44),
    (" cannot conclude it", 46),
    (" depends on hypotheses", 51),
];

fn known(sentence: &str) -> Option<u32> {
    let begins = BEGINNINGS.iter().chain(&OTHERS).find(|(s, _)| sentence.starts_with(s));
    let ends = ENDINGS.iter().find(|(s, _)| sentence.ends_with(s));
    let last = sentence.ends_with(" does not match its goal").then_some(52);
    begins.or(ends).map(|(_, n)| *n).or(last)
}

/// The number of a refused declaration.
pub fn in_theory(form: &Sexp, sentence: &str) -> Option<u32> {
    const SORTS: [&str; 2] = ["sort or arity mismatch", "nullary constructors must be atoms"];
    match form {
        Sexp::Atom(_) => return Some(10),
        Sexp::List(xs) if matches!(xs.first(), None | Some(Sexp::List(_))) => return Some(10),
        _ if sentence.starts_with("invalid theory declaration") => return Some(10),
        _ => (),
    }
    let sorts = SORTS.iter().any(|s| sentence.starts_with(s)) || sentence.ends_with("has conflicting sorts");
    Some(if sorts { 12 } else { 11 })
}

/// The number of a refused form of the goals.
pub fn in_goals(form: &Sexp, sentence: &str) -> Option<u32> {
    let mut order = Order(Vec::new());
    match form {
        Sexp::Atom(_) => return Some(20),
        Sexp::List(xs) => match xs.first() {
            Some(Sexp::Atom(_)) => order.goal(xs),
            _ => return Some(20),
        },
    }
    known(sentence).or_else(|| placed(&order, sentence))
}

/// The number of a refused form of the proof.
pub fn in_proof(form: &Sexp, sentence: &str) -> Option<u32> {
    let mut order = Order(Vec::new());
    let tag = match form {
        Sexp::Atom(_) => return Some(30),
        Sexp::List(xs) => match xs.first() {
            Some(Sexp::Atom(tag)) => {
                if xs.len() > 1 {
                    order.proof(tag, xs);
                }
                tag.as_str()
            }
            _ => return Some(30),
        },
    };
    if sentence.starts_with("invalid proof form") {
        return Some(30);
    }
    match bare(sentence) {
        "a variable is listed twice" => Some(if tag == "hyp" { 36 } else { 42 }),
        // said of a rule's variable, with the step's number before it
        s if s != sentence && s.starts_with("unknown variable") => Some(36),
        s => known(s).or_else(|| placed(&order, s)),
    }
}
