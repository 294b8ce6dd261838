#!/usr/bin/env python3
"""Cases at the limits of document 01: each row of question 60 at the limit and one over, the length of question 2, and which of two
questions comes first where a limit is one of them. The expected lines are derived by hand from 01 and from the decisions D1 to D22;
the comment at each case says from which sentence.

  tools/limits.py [NAME...]      all cases, or those whose names begin so, as blocks for tools/cases.py, short ones first
"""
import sys

# One predicate without arguments, one rule, one goal: enough for an acceptance.
PLAIN = "(pred P ()) (rule r () (P))"
GOAL = "(goal g (P))"
DONE = "(step 0 r ()) (result g 0)"
ONE = "(accepted 1 1 0 0 0 0 0)"

CASES = []


def case(name, expect, theory=PLAIN, goals=GOAL, proof=DONE, limits=""):
    CASES.append((name, theory, goals, proof, expect, limits))


def refused(number, text, form, detail=0):
    return "(refused %d %d %d %d)" % (number, text, form, detail)


def many(n, form, start=0):
    return " ".join(form.replace("#", str(k)) for k in range(start, start + n))


def words(*parts):
    return " ".join(p for p in parts if p)


# Question 2 and the turn of 2 and 3 ----------------------------------------------------------------------------------------------------

LENGTH = 65536


def padded(text, length):
    return text + " " * (length - len(text))


def lengths():
    # "Each text at most 65,536 bytes, theory, goals, proof in turn (2)?"
    case("length-theory", ONE, theory=padded(PLAIN, LENGTH))
    case("length-theory-over", refused(2, 1, 0), theory=padded(PLAIN, LENGTH + 1))
    case("length-goals-over", refused(2, 2, 0), goals=padded(GOAL, LENGTH + 1))
    case("length-proof-over", refused(2, 3, 0), proof=padded(DONE, LENGTH + 1))
    # D1: 2 for all three texts, then 3 for all three
    case("order-2-3", refused(2, 3, 0), theory="é", proof=" " * (LENGTH + 1))


# Rows 1 to 6: the theory -----------------------------------------------------------------------------------------------------------------

def sorts():
    # row 1; "put at the moment of storing, behind earlier questions": a name that is not new is 11
    full = many(64, "(sort S#)")
    case("row-1", ONE, theory=words(full, PLAIN))
    case("row-1-over", refused(60, 1, 64, 1), theory=words(full, "(sort T)", PLAIN))
    case("order-1-11", refused(11, 1, 64), theory=words(full, "(sort S63)"))
    case("order-1-11-list", refused(11, 1, 64), theory=words(full, "(sort (T))"))
    # a text is judged form by form: the limit before the next form's question
    case("order-1-10", refused(60, 1, 64, 1), theory=words(full, "(sort T) (sort)"))


def symbols():
    # row 2 counts constructors and predicates together
    full = words("(sort S)", many(100, "(ctor c# () S)"), many(155, "(pred p# ())"), "(pred P ())")
    case("row-2", ONE, theory=words(full, "(rule r () (P))"))
    case("row-2-over", refused(60, 1, 257, 2), theory=words(full, "(pred Q ())"))
    case("row-2-ctor-over", refused(60, 1, 257, 2), theory=words(full, "(ctor d () S)"))
    case("order-2-11", refused(11, 1, 257), theory=words(full, "(pred P ())"))
    case("order-2-11-sort", refused(11, 1, 257), theory=words(full, "(ctor d () T)"))
    # D19: arguments as they are read, the symbol at the end
    case("order-3-2", refused(60, 1, 257, 3), theory=words(full, "(pred Q (%s))" % many(17, "S")))


def arguments():
    # row 3; D19: "the 17th argument behind its own 11"
    case("row-3", ONE, theory=words("(sort S) (pred W (%s))" % many(16, "S"), PLAIN))
    case("row-3-over", refused(60, 1, 1, 3), theory="(sort S) (pred W (%s))" % many(17, "S"))
    case("row-3-ctor-over", refused(60, 1, 1, 3), theory="(sort S) (ctor w (%s) S)" % many(17, "S"))
    case("order-3-11", refused(11, 1, 1), theory="(sort S) (pred W (%s T))" % many(16, "S"))
    case("order-3-11-variable", refused(11, 1, 1), theory="(sort S) (pred W (%s ?S))" % many(16, "S"))
    case("order-11-3", refused(60, 1, 1, 3), theory="(sort S) (pred W (%s T))" % many(17, "S"))
    # the result sort and the name's being new are asked behind the arguments, its being a name before them
    case("order-3-result", refused(60, 1, 1, 3), theory="(sort S) (ctor w (%s) T)" % many(17, "S"))
    case("order-3-duplicate", refused(60, 1, 2, 3), theory="(sort S) (ctor w () S) (ctor w (%s) S)" % many(17, "S"))
    case("order-3-name", refused(11, 1, 1), theory="(sort S) (ctor (w) (%s) S)" % many(17, "S"))


def rules():
    # row 4; the rule's judgments and its name come first
    full = words("(pred P ())", many(255, "(rule r# () (P))"), "(rule r () (P))")
    case("row-4", ONE, theory=full)
    case("row-4-over", refused(60, 1, 257, 4), theory=words(full, "(rule s () (P))"))
    case("order-4-11", refused(11, 1, 257), theory=words(full, "(rule r7 () (P))"))
    case("order-4-11-list", refused(11, 1, 257), theory=words(full, "(rule (s) () (P))"))
    case("order-4-12", refused(12, 1, 257), theory=words(full, "(rule s () (P P))"))


WIDE = "(sort S) (sort T) (ctor c () S) (pred W (%s)) (pred V (S)) (pred U (T))" % many(16, "S")


def rule_variables():
    # row 5; D19: "a new variable behind its 11"
    case("row-5", ONE, theory=words(WIDE, "(rule w () (W %s))" % many(16, "?v#"), PLAIN))
    full = "(W %s)" % many(16, "?v#")
    case("row-5-over", refused(60, 1, 6, 5), theory=words(WIDE, "(rule w (%s) (V ?x))" % full))
    case("order-5-11", refused(11, 1, 6), theory=words(WIDE, "(rule w (%s) (V ?))" % full))
    # a variable that is known is no new one: 12 for another sort, else nothing
    case("order-5-12", refused(12, 1, 6), theory=words(WIDE, "(rule w (%s) (U ?v3))" % full))
    case("order-5-known", ONE, theory=words(WIDE, "(rule w (%s) (V ?v3))" % full, PLAIN))
    # the limit before what follows in the rule
    case("order-5-later", refused(60, 1, 6, 5), theory=words(WIDE, "(rule w (%s (V ?x) (Nobody)) (P))" % full))
    # each rule has its own
    case("row-5-each", ONE, theory=words(WIDE, "(rule w () %s) (rule x () %s)" % (full, full), PLAIN))
    # the count of a judgment is asked before its arguments
    case("order-5-count", refused(12, 1, 6), theory=words(WIDE, "(rule w (%s) (V ?x ?y))" % full))


def pattern_words():
    # row 6: 8,192 words; a judgment (W c ... c) has 17. 481 of them leave 15, and the rule of PLAIN needs one.
    block = "(W %s)" % many(16, "c")
    base = words(WIDE, "(pred P ())")

    def filled(n):
        # a rule whose patterns have n words
        judgments = ["(W %s)" % many(16, "c")] * ((n - 1) // 17)
        rest = n - 17 * len(judgments)
        return "(rule big (%s) (P))" % " ".join(judgments + ["(P)"] * (rest - 1))
    assert block
    case("row-6", ONE, theory=words(base, filled(8191), "(rule r () (P))"))
    case("row-6-over", refused(60, 1, 8, 6), theory=words(base, filled(8192), "(rule r () (P))"))
    # D19: "a head behind its own 11 and 12, before its arguments"
    case("order-6-12", refused(12, 1, 8), theory=words(base, filled(8192), "(rule r () (P c))"))
    case("order-6-arguments", refused(60, 1, 8, 6), theory=words(base, filled(8192), "(rule r () (V nobody))"))
    case("order-6-11", refused(11, 1, 8), theory=words(base, filled(8191), "(rule r () (V nobody))"))
    # "the lower of two at one moment", D19: "row 5 before row 6"; 16 variables and 8,192 words stand when the 17th variable comes
    late = "(rule late ((W %s)) (V ?x))" % many(16, "?v#")
    case("order-5-6", refused(60, 1, 8, 5), theory=words(base, filled(8192 - 18), late))
    known = "(rule late ((W %s)) (V ?v0))" % many(16, "?v#")
    case("order-6-known", refused(60, 1, 8, 6), theory=words(base, filled(8192 - 18), known))
    # 12 of the known variable before its word
    wrong = "(rule late ((W %s)) (U ?v0))" % many(16, "?v#")
    case("order-6-sort", refused(12, 1, 8), theory=words(base, filled(8192 - 18), wrong))


# Row 7: variables ------------------------------------------------------------------------------------------------------------------------

def variables():
    theory = words("(sort S)", PLAIN)
    full = many(512, "(var v# S)")
    case("row-7", ONE, theory=theory, goals=words(full, GOAL))
    case("row-7-over", refused(60, 2, 512, 7), theory=theory, goals=words(full, "(var x S)", GOAL))
    case("order-7-21", refused(21, 2, 512), theory=theory, goals=words(full, "(var v9 S)", GOAL))
    case("order-7-21-sort", refused(21, 2, 512), theory=theory, goals=words(full, "(var x T)", GOAL))
    # goals and proof have one table
    case("row-7-proof", refused(60, 3, 3, 7), theory=theory, goals=words(many(509, "(var v# S)"), GOAL),
         proof=words("(var x S) (var y S) (var z S) (var u S)", DONE))


# a rule of 15 variables that cannot conclude what is inverted: each `invert` makes 15 and keeps them
MAKER = ("(sort S) (ctor a () S) (ctor b () S) (pred W (%s)) (rule w () (W b %s)) %s" % (many(16, "S"), many(15, "?v#"), PLAIN))
INVERTED = "(W a %s)" % many(15, "a")


def made_variables():
    # "For a rule without a case, variables are made and stay made." 34 times 15 is 510.
    def proof(n, behind):
        return words("(hyp 0 %s)" % INVERTED, " ".join("(invert %d 0 () (P) ())" % (k + 1) for k in range(n)), behind)
    done = "(step 35 r ()) (result g 35)"
    case("row-7-kept", "(accepted 36 1 0 1 0 34 0)", theory=MAKER, proof=proof(34, "(var x S) (var y S) " + done))
    case("row-7-kept-over", refused(60, 3, 37, 7), theory=MAKER, proof=proof(34, "(var x S) (var y S) (var z S)"))
    case("row-7-made", refused(60, 3, 35, 7), theory=MAKER, proof=proof(35, "(var x S)"))
    # "and with it nothing of the refused form stands": the text ends at the refusal, so only the number shows it
    # the making comes behind the reading of the cases (41) and of the judgment (22)
    case("order-7-41", refused(41, 3, 35), theory=MAKER, proof=proof(34, "(invert 35 0 () (P) (w))"))
    case("order-7-22", refused(22, 3, 35), theory=MAKER, proof=proof(34, "(invert 35 0 () (Q) ())"))
    # a rule before it that lacks its case is refused first: 47 before the later rule's 60
    other = "(sort S) (ctor a () S) (ctor b () S) (pred W (%s)) (rule one () (W %s)) (rule w () (W b %s)) %s" % (
        many(16, "S"), many(16, "a"), many(15, "?v#"), PLAIN)
    vars_ = many(500, "(var v# S)")
    case("order-47-7", refused(47, 3, 1), theory=other, goals=words(vars_, GOAL), proof="(hyp 0 %s) (invert 1 0 () (P) ())" % INVERTED)
    case("order-7-made-first", refused(60, 3, 1, 7), theory=MAKER, goals=words(vars_, GOAL),
         proof="(hyp 0 %s) (invert 1 0 () (P) ())" % INVERTED)


# Rows 8 and 9: terms -----------------------------------------------------------------------------------------------------------------------
# A fact whose judgment holds x in every part is applied to one value of x after the other: each time all its parts are stored anew.

FAMILY = "(sort S) (ctor c () S) (ctor w (%s) S) %s (pred Q (%s)) (rule q () (Q %s)) (pred V (S)) (rule v () (V ?a)) (pred R (S S)) %s" % (
    many(16, "S"), many(16, "(ctor f# (S S) S)"), many(16, "S"), many(16, "?v#"), PLAIN)
FAMILY_GOALS = words("(var x S)", many(90, "(var y# S)"), many(9, "(var z# S)"), GOAL)


def applies(first, fact, values):
    return " ".join("(apply %d %d ((x y%d)) ())" % (first + k, fact, v) for k, v in enumerate(values))


def full_words():
    """A proof that fills the 16,384 words; its forms, and its facts.

    (P) of the goal is 1 word. The first fact stores x and y0 .. y15, 1 each, 16 terms and a judgment of 17: 306. An instance for a
    new value: 1 and 17 * 17, 290. 55 of them leave 127: 7 terms of 17, and 8 variables."""
    wide = " ".join("(w %s)" % " ".join("y%d" % i if k == i else "x" for k in range(16)) for i in range(16))
    assert 1 + 306 + 55 * 290 + 7 * 17 + 8 == 16384
    proof = words("(step 0 q () (Q %s))" % wide, applies(1, 0, range(16, 71)),
                  " ".join("(def ?w%d (w %s))" % (i, many(16, "y%d" % i)) for i in range(7)), many(8, "(def ?z# z#)"))
    return proof, 1 + 55 + 7 + 8, 56


def term_words():
    proof, forms, facts = full_words()

    def at(name, expect, behind):
        case(name, expect, theory=FAMILY, goals=FAMILY_GOALS, proof=words(proof, behind))
    # a term that stands is found in a full table
    at("row-9", "(accepted 57 1 0 0 0 0 0)", "(def ?o x) (step 56 r ()) (result g 56)")
    over = refused(60, 3, forms, 9)
    at("row-9-over", over, "(def ?o c)")
    # D21: "an argument read is stored before a wrong count behind it is seen"
    at("order-9-23", over, "(hyp 56 (P c))")
    at("order-9-22", over, "(hyp 56 (R c nobody))")
    at("order-23-9", refused(23, 3, forms), "(hyp 56 (P x))")
    at("order-22-9", refused(22, 3, forms), "(hyp 56 (R x nobody))")
    # the term before the abbreviation's name is asked for: 33 behind it
    at("order-9-33", over, "(def ?z0 c)")
    # a reference's instance is made when it is read, before the conclusion is compared (38) and before the next reference (34)
    at("late-reference", over, "(result g (0 (x z0)))")
    at("late-reference-52", refused(52, 3, forms), "(result g (0 (x y16)))")
    # apply: the conclusion's instance, behind the number of references (37), before the references (34)
    at("late-apply-37", refused(37, 3, forms), "(apply 56 0 ((x z0)) (99))")
    at("late-apply", over, "(apply 56 0 ((x z0)) ())")
    # a binding's term is stored when it is read, before the fact is looked up
    at("late-binding", over, "(apply 56 99 ((x c)) ())")
    at("late-binding-34", refused(34, 3, forms), "(apply 56 99 ((x x)) ())")
    # step: the conclusion is built behind the matching, and an unbound variable is met before the store where it comes first
    at("late-build", over, "(step 56 v () (?a x))")
    at("late-build-38", refused(38, 3, forms), "(step 56 v ())")


def terms():
    # row 8. 4,096 terms are out of reach: each new one is compared with all before it, and the prover computes some millions of steps a
    # case. A smaller limit shows the moment. (P) of the goal, c and six (f ..) are 8 terms and 14 words.
    theory = "(sort S) (ctor c () S) (ctor f (S) S) (pred R (S S)) (pred V (S)) (rule v () (V ?a)) " + PLAIN

    def at(name, expect, behind, limits="TERMS=8"):
        case(name, expect, theory=theory, proof=words("(def ?d (f (f (f (f (f (f c)))))))", behind), limits=limits)
    at("row-8", ONE, DONE)
    over = refused(60, 3, 1, 8)
    at("row-8-over", over, "(def ?e (f ?d))")
    at("row-8-variable", "(refused 60 3 2 8)", "(var x S) (def ?e x)")
    # "the lower of two at one moment"
    at("order-8-9", over, "(def ?e (f ?d))", "TERMS=8 WORDS=14")
    at("row-9-small", refused(60, 3, 1, 9), "(def ?e (f ?d))", "WORDS=14")
    # D21: "an argument read is stored before a wrong count behind it is seen"
    at("order-8-23", over, "(hyp 0 (P (f ?d)))")
    at("order-23-8", refused(23, 3, 1), "(hyp 0 (P ?d))")
    at("order-8-22", over, "(hyp 0 (R (f ?d) nobody))")
    at("order-22-8", refused(22, 3, 1), "(hyp 0 (R ?d nobody))")
    at("order-8-33", over, "(def ?d (f ?d))")
    at("order-33-8", refused(33, 3, 1), "(def ?d ?d)")
    # the conclusion that is built is a new term
    at("late-build-8", over, "(step 0 v () (?a c))")


def late():
    # The terms of cases are stored before the case's fact is looked up (34) and compared (43). (P), the goal's, x and (V x) of the
    # judgment are 3 terms; the case of c stores c and (V c), that of f stores y, (f y), (V (f y)) and, for the hypothesis, (V y).
    theory = "(sort S) (ctor c () S) (ctor f (S) S) (pred V (S)) (rule v () (V ?a)) " + PLAIN
    goals = "(var x S) (var y S) " + GOAL

    def at(name, expect, proof, limits):
        case(name, expect, theory=theory, goals=goals, proof=proof, limits="TERMS=%d" % limits)
    induct = "(induct 0 x (V x) ((9) (9 y)))"
    at("late-induct-34", refused(34, 3, 0), induct, 5)
    at("late-induct-8", refused(60, 3, 0, 8), induct, 4)
    at("late-induct-41", refused(41, 3, 0), "(induct 0 x (V x) ((9)))", 3)
    # a case's variables are asked for before its terms are stored
    at("late-induct-42", refused(42, 3, 1), "(step 0 v () (V c)) (induct 1 x (V x) ((0) (9 x)))", 5)
    at("late-induct-42-8", refused(60, 3, 1, 8), "(step 0 v () (V c)) (induct 1 x (V x) ((0) (9 y)))", 5)
    # the hypothesis (V y) is stored though no fact rests on it; it is the ninth term
    whole = "(step 0 v () (V c)) (step 1 v () (V (f y))) (induct 2 x (V x) ((0) (1 y))) (result g 2)"
    at("late-induct-all", refused(52, 3, 3), whole, 9)
    at("late-induct-hypothesis", refused(60, 3, 2, 8), whole, 8)
    # invert: the variable, the conclusion, the unifier's terms, the judgment under it, before the case's fact (34)
    invert = "(hyp 0 (V x)) (invert 1 0 () (V x) ((v 9 (y))))"
    at("late-invert-34", refused(34, 3, 1), invert, 5)
    at("late-invert-8", refused(60, 3, 1, 8), invert, 4)
    # row 7 of a made variable before row 8 of its term (D21)
    made = "(sort S) (ctor c () S) (ctor f (S) S) (pred V (S)) (rule v () (V (f ?a))) " + PLAIN
    case("order-7-8", refused(60, 3, 1, 7), theory=made, proof="(hyp 0 (V c)) (invert 1 0 () (P) ())", limits="VARIABLES=0 TERMS=3")
    case("order-8-46", refused(60, 3, 1, 8), theory=made, proof="(hyp 0 (V c)) (invert 1 0 () (P) ())", limits="TERMS=3")


# Rows 10 to 13: abbreviations, goal_names, facts, lists -------------------------------------------------------------------------------------------

def abbreviations():
    # row 10; the name's being new is asked behind the term, the limit behind both
    theory = "(sort S) (ctor c () S) " + PLAIN
    full = many(512, "(def ?d# c)")
    case("row-10", ONE, theory=theory, proof=words(full, DONE))
    case("row-10-over", refused(60, 3, 512, 10), theory=theory, proof=words(full, "(def ?e c)"))
    case("order-10-33", refused(33, 3, 512), theory=theory, proof=words(full, "(def ?d9 c)"))
    case("order-10-33-name", refused(33, 3, 512), theory=theory, proof=words(full, "(def e c)"))
    case("order-10-22", refused(22, 3, 512), theory=theory, proof=words(full, "(def ?d9 nobody)"))
    case("order-10-23", refused(23, 3, 512), theory=theory, proof=words(full, "(def ?d9 (c))"))


def goal_names():
    # row 11
    full = many(128, "(goal g# (P))")
    case("row-11", "(accepted 1 128 0 0 0 0 0)", goals=full, proof=words("(step 0 r ())", many(128, "(result g# 0)")))
    case("row-11-over", refused(60, 2, 128, 11), goals=words(full, "(goal h (P))"))
    case("order-11-24", refused(24, 2, 128), goals=words(full, "(goal g5 (P))"))
    case("order-11-24-list", refused(24, 2, 128), goals=words(full, "(goal (h) (P))"))
    case("order-11-22", refused(22, 2, 128), goals=words(full, "(goal h (Q))"))
    # a variable is no goal
    case("row-11-var", "(refused 53 3 0 128)", theory="(sort S) " + PLAIN, goals=words(full, "(var x S)"), proof="")


def facts():
    # row 12; "1,024 facts stand, the next gets 60, row 12"
    full = " ".join("(hyp %d(P))" % k for k in range(1024))
    listed = "(goal g ((P)) (P))"
    case("row-12", "(accepted 1024 1 0 1024 0 0 0)", goals=listed, proof=words(full, "(result g 1023)"))
    case("row-12-over", refused(60, 3, 1024, 12), goals=listed, proof=words(full, "(hyp 1024 (P))"))
    # the index and every other question come first
    case("order-12-32", refused(32, 3, 1024), goals=listed, proof=words(full, "(hyp 1025 (P))"))
    case("order-12-34", refused(34, 3, 1024), theory="(pred P ()) (rule r ((P)) (P))", goals=listed, proof=words(full, "(step 1024 r (1024))"))


# a rule of 16 premises, and one of one: a fact that rests on 256 hypotheses is made of 256 hypotheses and 16 steps
JOIN = "(pred P ()) (rule r () (P)) (rule one ((P)) (P)) (rule join (%s) (P))" % "".join(["(P)"] * 16)


def full_lists():
    """A proof that fills the 16,384 entries: 256 hypotheses with one entry each, 16 facts with 16, and 62 with 256; facts 0 to 333."""
    assert 256 + 16 * 16 + 62 * 256 == 16384
    hyps = " ".join("(hyp %d(P))" % k for k in range(256))
    joins = " ".join("(step %d join (%s))" % (256 + k, " ".join(str(16 * k + i) for i in range(16))) for k in range(16))
    wide = "(step 272 join (%s))" % " ".join(str(256 + k) for k in range(16))
    return words(hyps, joins, wide, " ".join("(step %d one (272))" % k for k in range(273, 334)))


def lists():
    full = full_lists()
    # row 13 at the limit: a fact without entries is still stored
    case("row-13", "(accepted 335 1 0 256 0 0 0)", theory=JOIN, proof=words(full, "(step 334 r ()) (result g 334)"))
    case("row-13-over", refused(60, 3, 334, 13), theory=JOIN, proof=words(full, "(step 334 one (5))"))
    case("row-13-hyp-over", refused(60, 3, 334, 13), theory=JOIN, proof=words(full, "(hyp 334 (P))"))
    case("order-13-38", refused(38, 3, 334), theory=JOIN + " (pred Q ()) (rule two ((Q)) (P))", proof=words(full, "(step 334 two (5))"))
    # D22: hypotheses merged: naming one fact twice adds nothing; one entry is left
    less = full.replace("(step 333 one (272))", "(step 333 join (%s))" % " ".join(str(k % 255) for k in range(16)))
    case("row-13-merged", "(accepted 335 1 0 256 0 0 0)", theory=JOIN, goals="(goal g ((P)) (P))",
         proof=words(less, "(step 334 join (%s)) (result g 334)" % " ".join(["7"] * 16)))
    # "the lower of two at one moment", D20: "60.12 then 60.13"
    steps = " ".join("(step %d r())" % k for k in range(334, 1024))
    case("order-12-13", refused(60, 3, 1024, 12), theory=JOIN, proof=words(full, steps, "(hyp 1024 (P))"))


def goal_lists():
    # row 13 in the goals; entries as written, so that a judgment listed twice counts twice (D22). 16,384 entries would be 49 KB of goals,
    # beyond what the prover computes in one case, so that a smaller limit stands for it.
    def listed(n, name="g"):
        return "(goal %s (%s) (P))" % (name, "(P)" * n)

    def at(name, expect, text, limits="ENTRIES=40"):
        case(name, expect, goals=text, limits=limits)
    at("row-13-goal", ONE, listed(40))
    at("row-13-goal-over", refused(60, 2, 0, 13), listed(41))
    at("row-13-goals-over", refused(60, 2, 2, 13), words(listed(30), listed(10, "h"), listed(1, "i")))
    # D20: "60.11 then 60.13", when every other question of the form has been put
    at("order-11-13", refused(60, 2, 2, 11), words(listed(1), listed(39, "h"), listed(1, "i")), "ENTRIES=40 GOALS=2")
    at("order-13-24", refused(24, 2, 1), words("(goal g (P))", listed(41)))
    at("order-13-22", refused(22, 2, 0), "(goal g (%s) (Q))" % ("(P)" * 41))
    # goals and facts have one table
    at("row-13-both", refused(60, 3, 1, 13), listed(39), "ENTRIES=40")
    CASES[-1] = CASES[-1][:3] + ("(hyp 0 (P)) (hyp 1 (P))",) + CASES[-1][4:]
    # premises and generalised variables count, and the hypothesis itself
    case("row-13-rule", refused(53, 3, 1, 1), theory="(sort S) " + PLAIN, goals="(var x S) (var y S) " + GOAL,
         proof="(hyp 0 ((P) (P)) (P) (x y))", limits="ENTRIES=5")
    case("row-13-rule-over", refused(60, 3, 0, 13), theory="(sort S) " + PLAIN, goals="(var x S) (var y S) " + GOAL,
         proof="(hyp 0 ((P) (P)) (P) (x y))", limits="ENTRIES=4")


# Row 14: pairs -----------------------------------------------------------------------------------------------------------------------------

def pairs():
    """Two terms, each 16 wide and nested 34 deep in the last argument, that differ at the bottom: 15 pairs stay at each level.

    A predicate of n arguments, the nests last, leaves n - 1 pairs waiting at first. The k-th nest's arguments make 15 * k + n."""
    def nest(bottom, depth):
        return "(w %s " % many(15, "c") * depth + bottom + ")" * depth

    def theory(n, depth):
        args = " ".join(["c"] * (n - 1))
        return "(sort S) (ctor c () S) (ctor d () S) (ctor w (%s) S) (pred Q (%s)) (rule q () (Q %s)) %s" % (
            many(16, "S"), many(n, "S"), words(args, nest("c", depth)), PLAIN)

    def proof(n, depth, behind):
        args = " ".join(["c"] * (n - 1))
        return words("(hyp 0 (Q %s)) (invert 1 0 () (P) ())" % words(args, nest("d", depth)), behind)
    done = "(step 2 r ()) (result g 2)"
    # D21: "a pair's row 14 when its list of arguments is pushed, waiting pairs counted without the one taken"
    assert 15 * 34 + 2 == 512
    case("row-14", "(accepted 3 1 0 1 0 1 0)", theory=theory(2, 34), proof=proof(2, 34, done))
    case("row-14-over", refused(60, 3, 1, 14), theory=theory(3, 34), proof=proof(3, 34, done))
    case("row-14-deeper", refused(60, 3, 1, 14), theory=theory(1, 35), proof=proof(1, 35, done))
    # the last argument is taken first: a clash there ends it before the nest before it is opened
    clash = theory(3, 34).replace("(pred Q (S S S))", "(pred Q (S S S S))").replace("(rule q () (Q c c ", "(rule q () (Q c c ", 1)
    clash = clash.replace(")) (pred P ())", " c)) (pred P ())")
    nested = proof(3, 34, done).replace(")) (invert", " d)) (invert")
    case("row-14-last-first", "(accepted 3 1 0 1 0 1 0)", theory=clash, proof=nested)


def main(argv):
    for make in (lengths, sorts, symbols, arguments, rules, rule_variables, pattern_words, variables, made_variables, term_words, terms, late,
                 abbreviations, goal_names, facts, lists, goal_lists, pairs):
        make()
    chosen = [c for c in CASES if not argv or any(c[0].startswith(a) for a in argv)]
    for name, theory, goals, proof, expect, limits in sorted(chosen, key=lambda c: sum(len(t) for t in c[1:4])):
        other = "\n  limits| " + limits if limits else ""
        print("%s\n  theory| %s\n  goals| %s\n  proof| %s%s\n  expect| %s" % (name, theory, goals, proof, other, expect))


main(sys.argv[1:])
