//! The list of all questions, by the numbers of docs/REFUSALS.md; a test holds it to that page.
use crate::questions::{Question, ask};

/// All questions, by rising number.
pub static QUESTIONS: [Question; 38] = [
    ask(
        1,
        "Are all work tables as long as the limits?",
        "a work table is shorter than its named length",
        "Lend tables as long as docs/TABLES.md and include/tariff.h name them.",
        "",
    ),
    ask(
        2,
        "Is each text at most 65,536 bytes long, theory, goals, proof in turn?",
        "the text is longer than 65,536 bytes",
        "Shorten the text: comments, white space and names count too. A proof can be shortened by abbreviations (`def`).",
        "",
    ),
    ask(
        3,
        "Is every byte of the texts below 128, in the same turn?",
        "the text has a byte of 128 or more",
        "Write letters, digits and signs of ASCII only, in names and in comments.",
        "",
    ),
    ask(
        4,
        "Do the brackets pair, with none stray?",
        "a bracket is stray or is never closed",
        "Pair the brackets. A bracket that is not closed takes in all forms behind it.",
        "unexpected closing parenthesis; unexpected end of input",
    ),
    ask(
        5,
        "Are brackets nested at most 64 deep?",
        "brackets are nested deeper than 64",
        "Name inner terms by abbreviations (`def`) in the proof; in theory and goals write flatter terms.",
        "S-expression nesting exceeds 256",
    ),
    ask(
        10,
        "Is this a known declaration, with its length?",
        "this is no declaration, or one of the wrong length",
        "A theory has `(sort S)`, `(ctor C (S...) S)`, `(pred P (S...))` and `(rule R (JUDGMENT...) JUDGMENT)`.",
        "expected list … (a bare atom); empty declaration; expected atom … (the tag); invalid theory declaration: …",
    ),
    ask(
        11,
        "Are its names new or known as needed?",
        "a name is taken already, is not known, or stands where no name can",
        "Declare sorts, constructors and predicates before they are used, each once; a rule's variable begins with `?`.",
        "expected atom …; expected list …; declaration names cannot be variables; duplicate sort; unknown sort …; duplicate ctor; \
         duplicate pred; empty judgment; unknown predicate …; invalid ground variable …; unknown constructor …; empty term; duplicate \
         rule",
    ),
    ask(
        12,
        "Are its sorts and numbers of arguments right?",
        "a sort or a number of arguments is wrong",
        "Give each symbol as many arguments, of those sorts, as it declares; a rule's variable has one sort; a constant is an atom.",
        "variable … has conflicting sorts; nullary constructors must be atoms; sort or arity mismatch: …",
    ),
    ask(
        20,
        "Is this `(var V S)`, `(goal G J)` or `(goal G (J...) J)`?",
        "this is no form of the goals",
        "Goals have `(var V S)`, `(goal G J)` and `(goal G (J...) J)`.",
        "expected list …; expected atom … (the tag); invalid goal form: …",
    ),
    ask(
        21,
        "Is the variable's name free and its sort known?",
        "the variable's name is not free, or its sort is not known",
        "Choose a name that is no constructor, predicate or variable and does not begin with `?`; its sort is one of the theory's.",
        "expected atom …; unknown sort …; invalid or duplicate variable …",
    ),
    ask(
        22,
        "Is each judgment or term spelled from known names?",
        "a judgment or term is not spelled from known names",
        "Look for a misspelled predicate, constructor, variable or abbreviation; variables and abbreviations are declared before.",
        "expected list …; empty judgment; empty item; expected atom …; unknown predicate …; undefined abbreviation …; unknown \
         constructor …; empty term",
    ),
    ask(
        23,
        "Are sorts and numbers of arguments right in it?",
        "a judgment or term has a wrong sort or number of arguments",
        "Give each symbol as many arguments, of those sorts, as the theory declares; a constant is an atom.",
        "nullary constructors must be atoms; sort or arity mismatch; ill-sorted term …",
    ),
    ask(
        24,
        "Is the goal's name new?",
        "the goal's name is taken already",
        "Give each goal a name of its own.",
        "expected atom …; duplicate goal",
    ),
    ask(25, "Is there at least one goal?", "there is no goal", "Add a `(goal G J)`.", "no expected goals"),
    ask(
        30,
        "Are tag and length of the form those of a proof?",
        "this is no form of a proof, or one of the wrong length",
        "A proof has `(var V S)`, `(def ?D TERM)`, `(hyp N J)`, `(hyp N (J...) J (V...))`, `(step N RULE (REF...) ITEM...)`, `(apply \
         N FACT ((V TERM)...) (REF...))`, `(induct N V J (CASE...))`, `(induct N V (HYP...) J (CASE...))`, `(invert N HYP (HYP...) J \
         (CASE...))` and `(result GOAL REF)`.",
        "expected list …; empty form; expected atom … (the tag); invalid proof form: …",
    ),
    ask(
        31,
        "Can the form's index be read?",
        "the index of the form cannot be read",
        "An index is a decimal number.",
        "expected atom …; expected a step index",
    ),
    ask(
        32,
        "Is the form's index the next?",
        "the index of the form is not the next one",
        "Facts are numbered from 0 in the order in which they stand.",
        "step …: expected next index …",
    ),
    ask(
        33,
        "Is the name of the abbreviation or rule right?",
        "the abbreviation's or rule's name is not right",
        "An abbreviation begins with `?` and is new; a rule is one of the theory's.",
        "expected atom …; invalid abbreviation name …; duplicate abbreviation; unknown rule …",
    ),
    ask(
        34,
        "Is an earlier fact named wherever a fact is?",
        "no earlier fact is named where one is needed",
        "Name a fact that stands before this form, by its index.",
        "expected atom …; expected a step index; empty reference; reference to a later step; case refers to a later step; expected \
         list … (hypotheses, context)",
    ),
    ask(
        35,
        "Is a fact of which an instance is taken free of hypotheses?",
        "an instance is taken of a fact that rests on hypotheses",
        "Name that fact by its bare index, or discharge its hypotheses first.",
        "instance of step …, which has hypotheses",
    ),
    ask(
        36,
        "Is each binding a pair; is its variable, and any other outside of a case, known, given once, and in `apply` one that may be \
         bound?",
        "a binding is no pair, or its variable is unknown, given twice or not to be bound",
        "Write `(VAR TERM)`, each variable once; `apply` to a hypothesis binds only its generalised variables.",
        "expected list …; expected (VAR TERM); expected atom …; unknown variable …; variable substituted twice; step …: unknown \
         variable …; step …: invalid binding; a variable is listed twice; step …: binds a variable step … does not generalize",
    ),
    ask(
        37,
        "Is the number of premises right, and at most one conclusion stated?",
        "the number of premises is wrong, or a second conclusion is stated",
        "Give as many references as the rule or the fact has premises, and at most one conclusion.",
        "expected list … (references); step …: wrong number of premises; step …: more than one conclusion",
    ),
    ask(
        38,
        "Do conclusion and premises match, with no variable left unbound?",
        "the conclusion or a premise does not match, or a variable is left unbound",
        "Compare the facts that are named with the rule's premises; state the conclusion, or bind what only the conclusion has.",
        "step …: conclusion mismatch; step …: premise mismatch; unbound conclusion variable; step …: a premise does not match",
    ),
    ask(
        39,
        "Is every variable of premises and bindings in the conclusion or free in the hypotheses?",
        "a variable of the premises or bindings is neither in the conclusion nor free in the hypotheses",
        "Replace that variable by a term of the conclusion's variables: a sort may be empty, so that it cannot be dropped.",
        "step …: premise variable absent from the conclusion",
    ),
    ask(
        40,
        "Is each hypothesis of the right kind?",
        "a hypothesis is not of the right kind",
        "`induct` lists plain hypotheses, `invert` takes a plain one and lists hypotheses of any kind, and a fact that is applied \
         rests on plain ones.",
        "step … is not a plain hypothesis; step … is not a hypothesis; step …: step … depends on a rule hypothesis",
    ),
    ask(
        41,
        "Are the cases of right shape and number?",
        "the cases do not have the right shape or number",
        "`induct` has one case for each constructor, in order, `(FACT VAR...)`; `invert` has `(RULE FACT (VAR...))`, each rule once.",
        "expected list …; step …: expected … cases; empty case; expected atom …; expected a step index; step …: case variables do not \
         match the constructor; step …: expected (RULE STEP (VAR...)); step …: two cases for rule …",
    ),
    ask(
        42,
        "Are the variables of the cases known, fitting and fresh?",
        "a case variable is not known, does not fit or is not fresh",
        "Declare a variable of the right sort for each argument or rule variable, each once, which occurs in no judgment that the \
         form names.",
        "expected list …; expected atom …; unknown variable …; step …: invalid case variable …; a variable is listed twice; step …: \
         wrong variables for rule …; step …: case variables must be fresh",
    ),
    ask(
        43,
        "Does each case prove the right judgment?",
        "a case proves the wrong judgment",
        "In `induct` the case's fact is the judgment at the constructor's term, in `invert` the judgment under the unifier.",
        "step …: case … proves the wrong judgment",
    ),
    ask(
        44,
        "Does each case rest on allowed hypotheses only?",
        "a case rests on a hypothesis that it may not use",
        "In `induct` a case may rest on the listed hypotheses and on induction hypotheses, in `invert` on the rule's premises and the \
         listed context.",
        "step …: case … uses a hypothesis that is not an induction hypothesis; step …: case … uses a hypothesis it may not",
    ),
    ask(
        45,
        "Does the induction variable occur in the judgment or a premise?",
        "the induction variable occurs neither in the judgment nor in a premise",
        "Choose a variable of the judgment or of a premise.",
        "step …: the induction variable must occur in the judgment",
    ),
    ask(
        46,
        "Is there no case for a rule that cannot conclude the judgment?",
        "there is a case for a rule that cannot conclude the judgment",
        "Leave that case out.",
        "step …: rule … cannot conclude it",
    ),
    ask(
        47,
        "Is there a case for each rule that can conclude the judgment?",
        "a rule that can conclude the judgment has no case",
        "Add a case for each rule whose conclusion unifies with the judgment.",
        "step …: missing case for rule …",
    ),
    ask(
        48,
        "Does the unifier leave the generalised variables alone?",
        "the unifier would replace a generalised variable",
        "A hypothesis of the context generalises a variable that the unifier brings in: declare another variable for one of them.",
        "step …: the unifier would capture a generalized variable",
    ),
    ask(
        50,
        "Does a goal of this name await its result?",
        "no goal of this name awaits a result",
        "Name a goal of the goals' text, each once.",
        "expected atom …; unknown or repeated result …",
    ),
    ask(
        51,
        "Does the result rest on no hypotheses but those that its goal lists?",
        "the result rests on hypotheses that its goal does not list",
        "Discharge them by `induct`, `invert` or `apply`, or list their judgments at the goal.",
        "result … depends on hypotheses",
    ),
    ask(
        52,
        "Is the result the goal's judgment?",
        "the result does not match its goal",
        "Name the fact whose judgment is the goal's, or an instance of it that is.",
        "result … does not match its goal",
    ),
    ask(53, "Has every goal its result?", "goals are left without a result", "Add a `(result GOAL FACT)` for each.", "missing results: …"),
    ask(
        60,
        "Is there room for what is stored?",
        "there is no room for what is to be stored",
        "Split the tariff, or leave out what it does not need.",
        "",
    ),
];
