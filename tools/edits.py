#!/usr/bin/env python3
"""Tries edits that the prover must refuse, beyond those of the gate.

    tools/edits.py [--gate] [--rows] [CRATE [EDIT..]]

Without a CRATE it tries those of every crate. The edits are those of crates/CRATE/tried, which the gate leaves out to stay short; with --gate
those of must-fail, which the gate tries. With --rows an edit of the definition is held to its rows alone (Examples, Slips, Rows), without the
laws: what refuses it then is a row. An edit has lines `file:`, `old:` and `new:`; each old text stands once in its file.
They are tried by `rt must-fail` in a copy of the repository, over the crate as `rt check` proves it. What is said of an edit:

    refused         a proof or a row no longer holds: as it must be
    ACCEPTED        the crate is proved with the edit
    BAD EDIT        its old text does not stand once in its file, or the edited file is no text of the language: the prover saw no wrong answer
    OTHER SHAPE     a proof file names what the edit took away, and nothing else refuses it: keep the code's operations, change an operand
    NOT TRIED       its check was killed, or the like: run it again

The last line counts those that are not refused, and the edits that docs/EDITS.md lists and that are not there, or the other way round.
The variable RT names the prover's command."""
import os
import pathlib
import re
import shutil
import subprocess
import sys
import tempfile

from cases import definition

HERE = pathlib.Path(__file__).resolve().parent.parent
LEFT_OUT = shutil.ignore_patterns("out", "must-fail", "tried", "__pycache__")


def rt(where, *words):
    """What the prover's command says, run there."""
    run = subprocess.run([os.environ.get("RT", "rt"), *words], cwd=where, stdout=subprocess.PIPE, stderr=subprocess.STDOUT, text=True)
    return run.stdout


def prove(home, crate):
    """The crate as it stands must be proved, since any edit of one that is not is refused."""
    said = rt(home / "crates" / crate, "check")
    if not re.search(r"^logic=proved", said, re.M):
        raise SystemExit(f"{said[-2000:]}\n{crate} is not proved as it stands")


def verdict(said):
    """What became of an edit, by the words of `rt must-fail` behind its name."""
    known = re.fullmatch(r"(refused, as it must be|NOT REFUSED|BAD EDIT|NOT TRIED)(?: \((only .*?)\))?(?:: (.*))?", said)
    if not known:
        return "NOT TRIED", said
    kind, only, why = known[1], known[2] or "", known[3] or ""
    if kind == "NOT REFUSED":
        return "ACCEPTED", "the crate is proved with it"
    if kind != "refused, as it must be":
        return kind, why
    return "OTHER SHAPE" if "names what the edit took away" in only else "refused", "by a limit of the prover alone: " + why if "by a limit" in only else why


def tried(home, crate, edits):
    """Those of the edits that are not refused."""
    folder = home / "crates" / crate / "must-fail"
    folder.mkdir()
    for edit in edits:
        shutil.copy(edit, folder)
    prove(home, crate)
    said = dict(re.findall(rf"^rt: must-fail {crate}/(\S+)\.edit: (.*)$", rt(home, "must-fail", crate), re.M))
    shutil.rmtree(folder)
    wrong = []
    for name in [edit.stem for edit in edits]:
        verb, why = verdict(said.get(name, "NOT TRIED: nothing is said of it"))
        print(f"{crate}/{name}: {verb}" + (f": {why[:200]}" if why else ""), flush=True)
        wrong += [f"{crate}/{name}: {verb}"] if verb != "refused" else []
    return wrong


def unlisted(crate):
    """Where docs/EDITS.md and the folders of a crate differ."""
    section = re.search(rf"^## `{crate}`\n((?:.|\n)*?)(?=^## |\Z)", (HERE / "docs/EDITS.md").read_text(), re.M)
    if not section:
        return []
    listed = set(re.findall(r"\w+\*?", " ".join(re.findall(r"^\| `\S+` \| (.*) \|$", section[1], re.M))))
    there = {file.stem + ("*" if file.parent.name == "tried" else "") for file in (HERE / "crates" / crate).glob("*/*.edit")}
    return sorted(listed ^ there)


def rows_alone(home):
    """Lays the definition with its rows, and no law, into a repository of its own."""
    names = re.findall(r"^pub mod (\w+)", (HERE / "crates/rules/specs/Lib.antt").read_text(), re.M)
    (home / "crates.txt").write_text("rules:\n")
    definition(str(HERE / "crates/rules"), str(home), b"", names[names.index("Examples"):])


def whole(home):
    """Lays a copy of the repository there, without what the prover made and without edits."""
    shutil.copytree(HERE / "crates", home / "crates", ignore=LEFT_OUT)
    for name in ("crates.txt", "HANDLES"):
        if (HERE / name).exists():
            shutil.copy(HERE / name, home)


def main(words):
    options, names = {word for word in words if word.startswith("--")}, [word for word in words if not word.startswith("--")]
    crate, names = next(iter(names), None), names[1:]
    if options - {"--gate", "--rows"}:
        raise SystemExit(__doc__)
    if "--rows" in options and crate not in (None, "rules"):
        raise SystemExit("only `rules` has rows")
    folder = "must-fail" if "--gate" in options else "tried"
    crates = [crate] if crate else ["rules"] if "--rows" in options else sorted(p.parent.name for p in HERE.glob(f"crates/*/{folder}"))
    count, failed = 0, []
    with tempfile.TemporaryDirectory() as top:
        home = pathlib.Path(top) / "checkout"
        home.mkdir()
        (rows_alone if "--rows" in options else whole)(home)
        for crate in crates:
            edits = [e for e in sorted((HERE / "crates" / crate / folder).glob("*.edit")) if not names or e.stem in names]
            if not edits or set(names) - {edit.stem for edit in edits}:
                raise SystemExit(f"{crate} has no such edit in {folder}")
            failed += tried(home, crate, edits)
            failed += [f"{crate}/{name}: docs/EDITS.md has it otherwise" for name in unlisted(crate)]
            count += len(edits)
    print(f"{count} tried, {len(failed)} failed" + "".join("\n    " + name for name in failed))
    return 1 if failed else 0


if __name__ == "__main__":
    sys.exit(main(sys.argv[1:]))
