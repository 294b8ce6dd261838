#!/usr/bin/env python3
"""Holds the definition to cases with known answers.

  tools/cases.py [--crate FOLDER] SOURCE...

A SOURCE is a file of cases (blocks with theory|, goals|, proof|, expect| lines) or a folder whose subfolders hold the files
theory, goals, proof and expected. A line limits| with words such as TERMS=40 holds a copy of the definition with these limits to the
case, so that the moment of a limit can be asked for by a short text. A line facts| has the recorded facts as numbers (see FACTS), which
are compared too; behind a `;` on that line stand their footings, each behind its length, and without one these are not compared. Each
case becomes one equation, `line theory goals proof ≡ expected`, which the prover must close by computation alone. Of an expected line with a `?` in it only the other numbers are compared. The rows are checked in a
temporary repository beside the files of the crate `rules` that the definition needs; every case whose equation does not hold is named, with what the prover found
instead, and the last line counts them. The variable RT names the prover's command, `rt` where it is not set.
"""
import os, re, subprocess, sys, tempfile

THEORY = ("(sort Pass) (sort Gone) (ctor first () Pass) (ctor renew (Pass) Pass) (pred Child (Pass)) (pred Adult (Pass)) "
          "(pred Bad (Pass)) (pred Same (Pass Pass)) (pred Left (Gone)) (rule c0 () (Child first)) "
          "(rule c1 ((Child ?p)) (Child (renew ?p))) (rule a1 () (Adult (renew first))) (rule s () (Same ?p (renew ?p)))")
GOALS = "(var x Pass) (goal g (Child x))"
PROOF = ("(var y Pass) (step 0 c0 ()) (hyp 1 (Child y)) (step 2 c1 (1)) (induct 3 x (Child x) ((0) (2 y))) (result g 3)")
ROWS_A_FILE = 40


class Case:
    def __init__(self, name):
        self.name, self.theory, self.goals, self.proof, self.expect = name, THEORY.encode(), GOALS.encode(), PROOF.encode(), None
        self.limits, self.facts = b"", None


def from_blocks(path):
    cases, case = [], None
    for line in open(path, "rb").read().decode("utf-8").split("\n"):
        if line.startswith("#") or not line.strip():
            continue
        field = re.match(r"\s+(theory\+|theory|goals|proof|expect|limits|facts|rust)\| ?(.*)$", line)
        if field is None:
            case = Case(line.split()[0])
            cases.append(case)
        elif field.group(1) == "theory+":
            case.theory = (THEORY + " " + field.group(2)).encode("utf-8")
        elif field.group(1) != "rust":
            setattr(case, field.group(1), field.group(2).encode("utf-8"))
    return cases


def from_folders(path):
    cases = []
    for name in sorted(os.listdir(path)):
        if not os.path.isdir(os.path.join(path, name)):
            continue
        case = Case(name)
        for part in ("theory", "goals", "proof"):
            setattr(case, part, open(os.path.join(path, name, part), "rb").read())
        case.expect = open(os.path.join(path, name, "expected"), "rb").read()
        cases.append(case)
    return cases


def numbers(expect):
    """The line as numbers, None where a number is left open."""
    words = expect.decode().strip().strip("()").split()
    return [1 if words[0] == "accepted" else 0] + [None if w == "?" else int(w) for w in words[1:]]


def listed(ns):
    return " ∷ ".join([str(n) for n in ns] + ["[]"])


def text(b):
    """A quoted text where every byte prints, else the list of the bytes."""
    if all(32 <= c < 127 and c not in (34, 92) for c in b):
        return '(bytes "%s")' % b.decode()
    return "(%s)" % listed(b)


# the numbers of a line for which the list before it says so
ONLY = """unfoldable only : List Bool → List ℕ → List ℕ
only [] ns = []
only (b ∷ bs) [] = []
only (true ∷ bs) (n ∷ ns) = n ∷ only bs ns
only (false ∷ bs) (n ∷ ns) = only bs ns
"""


# the recorded facts as numbers: the judgment (0 and a variable's number, or 1, a symbol's number, the count of its arguments and these),
# then, each list behind its length, the hypotheses, 1 or 0 for assumed or not, the premises and the generalised variables; where footings
# are asked for, behind all facts for each the number of rules in its footing and these, by number from 0
FACTS = """unfoldable mutual
  code : Tree → List ℕ
  code (var v) = 0 ∷ v ∷ []
  code (app c ts) = 1 ∷ c ∷ count_trees ts ∷ codes ts

  codes : Trees → List ℕ
  codes none = []
  codes (more t ts) = code t ++ codes ts

unfoldable truth : Bool → ℕ
truth true = 1
truth false = 0

unfoldable coded : Fact → List ℕ
coded f =
    code f.judgment ++ ((length f.hyps ∷ f.hyps) ++ ((truth f.assumed ∷ count_trees f.premises ∷ codes f.premises) ++ (length f.general ∷ f.general)))

unfoldable all_coded : List Fact → List ℕ
all_coded [] = []
all_coded (f ∷ fs) = coded f ++ all_coded fs

unfoldable with_facts : Outcome → List ℕ
with_facts o = line_of o.answer ++ all_coded o.state.facts

unfoldable all_footed : List Fact → List ℕ
all_footed [] = []
all_footed (f ∷ fs) = (length f.footing ∷ f.footing) ++ all_footed fs

unfoldable with_footings : Outcome → List ℕ
with_footings o = with_facts o ++ all_footed o.state.facts
"""

USES = """use Rattle.std.specs.Prelude.{ℕ, ◌≡◌, refl, Bool, true, false, List, [], ◌∷◌, ◌++◌, length}
use Rattle.rules.specs.Text.{bytes}
use Rattle.rules.specs.Tree.{Tree, Trees, var, app, none, more, count_trees}
use Rattle.rules.specs.State.{Fact}
use Rattle.rules.specs.Check.{Outcome, check}
use Rattle.rules.specs.Run.{line_of, line, running}
"""


def equation(case):
    """The two sides, and the definitions to open."""
    texts, right = "%s %s %s" % (text(case.theory), text(case.goals), text(case.proof)), numbers(case.expect)
    left, opened = "line " + texts, "running"
    if case.facts is not None:
        facts, ask, footings = case.facts.partition(b";")
        left, opened = "with_facts (check %s)" % texts, "running code truth coded all_coded with_facts"
        if ask:
            left, opened = "with_footings (check %s)" % texts, opened + " all_footed with_footings"
        right += [int(n) for n in facts.split() + footings.split()]
    if None not in right:
        return left, listed(right), opened
    wanted = listed("false" if n is None else "true" for n in right)
    return "only (%s) (%s)" % (wanted, left), listed(n for n in right if n is not None), opened + " only"


def module(cases, first):
    out = [USES, ONLY, FACTS]
    for i, c in enumerate(cases):
        row, (left, right, opened) = "row%d" % (first + i), equation(c)
        out += ["%s : %s ≡ %s" % (row, left, right), "unfolding " + opened, "%s = refl" % row, ""]
    return "\n".join(out)


def write(path, s):
    os.makedirs(os.path.dirname(path), exist_ok=True)
    with open(path, "w") as f:
        f.write(s)


def limited(text, limits):
    """The file of the limits, some of them changed."""
    for word in limits.decode().split():
        name, number = word.split("=")
        text, found = re.subn(r"(?m)^%s = \d+$" % name, "%s = %s" % (name, number), text)
        if found != 1:
            sys.exit("no limit is named " + name)
    return text


def definition(rules, top, limits, roots=("Run", "Text")):
    """The crate `rules` without what these modules do not reach, as its laws. A folder's modules come with the one that names them."""
    specs, reached, waiting = os.path.join(rules, "specs"), {}, list(roots)
    while waiting:
        name = waiting.pop()
        if name not in reached:
            reached[name] = open(os.path.join(specs, *name.split(".")) + ".antt").read()
            waiting += re.findall(r"^use Rattle\.rules\.specs\.([\w.]+)\.\{", reached[name], re.M)
            waiting += [name + "." + part for part in re.findall(r"^pub mod (\w+)", reached[name], re.M)]
    reached["Limits"] = limited(reached["Limits"], limits)
    order = re.findall(r"^pub mod (\w+)", open(os.path.join(specs, "Lib.antt")).read(), re.M)
    for name in reached:
        write(os.path.join(top, "crates", "rules", "specs", *name.split(".")) + ".antt", reached[name])
    write(os.path.join(top, "crates", "rules", "specs", "Lib.antt"), "".join("pub mod %s\n" % n for n in order if n in reached))
    write(os.path.join(top, "crates", "rules", "src", "lib.rt"), open(os.path.join(rules, "src", "lib.rt")).read())


def difference(why):
    """Where the two sides of an equation differ once they are computed, of what the prover says of it."""
    return re.sub(r"^.*?computed as far as they go, the two types differ (.*?\(found\)).*$", r"they differ \1", why)


def run(rules, cases):
    """The cases of one definition: those that fail, with why."""
    with tempfile.TemporaryDirectory() as top:
        write(os.path.join(top, "crates.txt"), "rules:\ncases: rules\n")
        definition(rules, top, cases[0].limits)
        write(os.path.join(top, "crates", "cases", "src", "lib.rt"), "#![tactic(auto)]\n\npub const ROWS: usize = %d;\n" % len(cases))
        names = []
        for k in range(0, len(cases), ROWS_A_FILE):
            names.append("Rows%d" % (k // ROWS_A_FILE))
            write(os.path.join(top, "crates", "cases", "specs", names[-1] + ".antt"), module(cases[k:k + ROWS_A_FILE], k))
        write(os.path.join(top, "crates", "cases", "specs", "Lib.antt"), "".join("pub mod %s\n" % n for n in names))
        ran = subprocess.run([os.environ.get("RT", "rt"), "check"], cwd=os.path.join(top, "crates", "cases"), capture_output=True, text=True)
    said = ran.stdout + ran.stderr
    wrong = {}
    for found in re.finditer(r"error: `row(\d+)`: (.*(?:\n  .*)*)", said):
        wrong.setdefault(int(found.group(1)), difference(" ".join(found.group(2).split())))
    if ran.returncode != 0 and not wrong:
        sys.exit(said)
    return [(cases[i], why) for i, why in sorted(wrong.items())]


def main(argv):
    rules = os.path.join(os.path.dirname(os.path.abspath(__file__)), "..", "crates", "rules")
    if argv[:1] == ["--crate"]:
        rules, argv = argv[1], argv[2:]
    if not argv:
        sys.exit(__doc__)
    cases = []
    for source in argv:
        cases += from_folders(source) if os.path.isdir(source) else from_blocks(source)
    wrong = []
    for limits in sorted(set(c.limits for c in cases)):
        wrong += run(rules, [c for c in cases if c.limits == limits])
    for case, why in wrong:
        print("%s: expected %s: %s" % (case.name, case.expect.decode().strip(), why[:400]))
    print("%d passed, %d failed" % (len(cases) - len(wrong), len(wrong)))
    sys.exit(1 if wrong else 0)


if __name__ == "__main__":
    main(sys.argv[1:])
