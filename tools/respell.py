#!/usr/bin/env python3
"""Brings the repository's own names in specs/, proofs/ and clauses to the spelling of today's Rattle.

usage: tools/respell.py [--list] [--also COMMIT]      at the top; --list prints the names and writes nothing

Functions, lemmas, fields and constructors are in snake case, types and modules in camel case, a prime is an apostrophe; a dash stays only beside a
fact's name, which keeps its capital (`Solid-list`). Names of src/ keep their spelling, and so do those of the library. With --also, edits and
pages are turned by the names that stood at COMMIT too. Run it once, right behind port.py.
"""
import collections
import os
import re
import subprocess
import sys

NAME = r"[^\s(){}\[\],.;:@λ∷«»`\"]+"
TOKEN = re.compile(r"[^\s(){}\[\],.;:@λ∷«»`\"]+")
DECLARED = re.compile(r"^(\s*)((?:unfoldable |abbrev |pub )*)(data |record |ruleset )?(" + NAME + r")((?: \(| \{| :).*)$")


def files(root):
    for folder, dirs, names in os.walk(os.path.join(root, "crates")):
        dirs[:] = sorted(d for d in dirs if d != "out")
        for name in sorted(names):
            yield os.path.join(folder, name)


def read(path):
    with open(path, encoding="utf-8") as f:
        return f.read()


def declared(texts):
    """The names that specs/ and proofs/ declare, each with whether it is a type."""
    found = collections.defaultdict(bool)
    for path, text in texts:
        if not path.endswith(".antt") or path.endswith("/Proof.antt"):
            continue
        lines = text.split("\n")
        for i, line in enumerate(lines):
            m = DECLARED.match(line)
            if not m or line.lstrip().startswith(("--", "use ", "elim", "let ", "in ", "λ")):
                continue
            whole = m[5]
            k = i + 1
            while k < len(lines) and len(lines[k]) - len(lines[k].lstrip()) > len(m[1]) and "=" not in lines[k - 1]:
                whole += lines[k]
                k += 1
                if k - i > 12:
                    break
            is_type = m[3] in ("data ", "record ") or bool(re.search(r"Type \S+( where)?\s*$", whole.split(" = ")[0].rstrip()))
            if m[3] not in ("data ", "record ") and not m[2] and not re.search(r"^ :", m[5]) and " : " not in line:
                continue
            found[m[4]] = found[m[4]] or is_type
    return found


def library(texts, own):
    """The names that files take from elsewhere."""
    found = set()
    for path, text in texts:
        if not path.endswith((".antt", ".rt")):
            continue
        for m in re.finditer(r"(?m)^\s*(?:pub )?" + ("ghost use" if path.endswith(".rt") else "use") + r" ([^\s{;]+?)\.?\{([^}]*)\}", text):
            parts = m[1].split(".")
            if len(parts) > 1 and parts[0].startswith("Rattle") and (parts[1] in own or "·" in parts[0]):
                continue
            for item in m[2].split(","):
                found.update(x.strip() for x in item.split(" as ") if x.strip())
    return found


def snake(word):
    word = re.sub(r"(?<=[a-z0-9₀-₉])([A-Z][A-Z]+)(?=$|[0-9₀-₉'])", lambda m: "_" + m[1].lower(), word)
    word = re.sub(r"(?<=[a-z0-9₀-₉'])([A-Z])", lambda m: "_" + m[1].lower(), word)
    return re.sub(r"([A-Z])", lambda m: m[1].lower(), word)


def spelled(name, is_type):
    name = name.replace("′", "'")
    parts = [p for p in re.split(r"-", name)]
    if any(p == "" for p in parts) or "◌" in name or not name[0].isalpha():
        return name
    if is_type:
        if name[0].isupper():
            return "".join(p[0].upper() + p[1:] for p in parts)
    turned = [p if p[0].isupper() else snake(p) for p in parts]
    out = turned[0]
    for before, after in zip(turned, turned[1:]):
        out += ("-" if before[0].isupper() or after[0].isupper() else "_") + after
    return out


def table(texts, own):
    names = declared(texts)
    taken = library(texts, own)
    turned = {}
    for name, is_type in names.items():
        if name in taken:
            continue
        new = spelled(name, is_type)
        if new != name:
            turned[name] = new
    for path, text in texts:
        if not path.endswith((".antt", ".rt")) or path.endswith("/Proof.antt"):
            continue
        for m in re.finditer(r" as (" + NAME + ")", text):
            if m[1] not in taken and m[1] not in turned and m[1] not in names:
                new = spelled(m[1], False)
                if new != m[1] and "◌" not in new:
                    turned[m[1]] = new
    return names, taken, turned


def clashes(texts, names, taken, turned):
    said = []
    back = collections.defaultdict(set)
    for old, new in turned.items():
        back[new].add(old)
    for new, olds in sorted(back.items()):
        if len(olds) > 1:
            said.append(f"falls together: {sorted(olds)} as {new}")
        if new in taken:
            said.append(f"a library has it: {sorted(olds)} as {new}")
        elif new in names:
            said.append(f"is declared: {sorted(olds)} as {new}")
    return said


def local_clashes(texts, turned):
    said = []
    for path, text in texts:
        if not path.endswith((".antt", ".rt")):
            continue
        tokens = set(TOKEN.findall(text))
        for old in tokens & turned.keys():
            if turned[old] in tokens:
                said.append(f"stands beside it: {old} as {turned[old]} in {path}")
    return said


def turn_code(text, turned, path):
    """Every token of a file of antt; in one of code, those that no Rust name can be; in comments those between backquotes."""
    mark = "--" if path.endswith(".antt") else "//"
    out = []
    for line in text.split("\n"):
        at = -1
        m = re.search(r"(^|\s)" + mark + r"(\s|$)", line)
        if m:
            at = m.start() + len(m[1])
        code, note = (line, "") if at < 0 else (line[:at], line[at:])
        code = TOKEN.sub(lambda m: turned.get(m[0], m[0]), code)
        note = re.sub(r"`([^`\s]+)`", lambda m: "`" + TOKEN.sub(lambda t: turned.get(t[0], t[0]), m[1]) + "`", note)
        out.append(code + note)
    return "\n".join(out)


def turn_page(text, turned):
    return re.sub(r"`([^`\n]+)`", lambda m: "`" + TOKEN.sub(lambda t: turned.get(t[0], t[0]), m[1]) + "`", text)


def turn_edit(text, turned):
    out = []
    for line in text.split("\n"):
        if line.startswith(("old:", "new:")):
            line = line[:4] + TOKEN.sub(lambda m: turned.get(m[0], m[0]), line[4:])
        out.append(line)
    return "\n".join(out)


def main(argv):
    root = os.getcwd()
    own = set(os.listdir("crates"))
    texts = [(os.path.relpath(p, os.path.join(root, "crates")), read(p)) for p in files(root) if p.endswith((".antt", ".rt"))]
    names, taken, turned = table(texts, own)
    back = collections.defaultdict(list)
    for old, new in turned.items():
        back[new].append(old)
    for new, olds in back.items():
        lemmas = [x for x in olds if "-" in x]
        if len(lemmas) == 1 and (len(olds) > 1 or new in names or new in taken):
            turned[lemmas[0]] = new + "_lem"
    turned.update({k: v for k, v in CHOSEN.items() if k in turned or k in names})
    turned = {k: v for k, v in turned.items() if k != v}
    said = clashes(texts, names, taken, turned) + local_clashes(texts, turned)
    if "--list" in argv:
        print("\n".join(f"{k} {v}" for k, v in sorted(turned.items())))
        print("\n".join(said), file=sys.stderr)
        return 0
    also = dict(turned)
    if "--also" in argv:
        commit = argv[argv.index("--also") + 1]
        listed = subprocess.run(["git", "ls-tree", "-r", "--name-only", commit, "crates"], capture_output=True, text=True, check=True).stdout.split("\n")
        older = [(p[len("crates/"):], subprocess.run(["git", "show", f"{commit}:{p}"], capture_output=True, text=True, check=True).stdout) for p in listed if p.endswith((".antt", ".rt"))]
        for name, is_type in declared(older).items():
            if name not in taken and name not in also:
                new = CHOSEN.get(name, spelled(name, is_type))
                if new != name and new in names:
                    also[name] = new
    for path in files(root):
        if not path.endswith((".antt", ".rt", ".edit")):
            continue
        text = read(path)
        if path.endswith((".antt", ".rt")):
            new = turn_code(text, turned, path)
        else:
            new = turn_edit(text, also)
        if new != text:
            with open(path, "w", encoding="utf-8") as f:
                f.write(new)
    for path in ["README.md"] + [os.path.join("docs", p) for p in sorted(os.listdir("docs")) if p.endswith(".md")]:
        text = read(path)
        new = turn_page(text, also)
        if new != text:
            with open(path, "w", encoding="utf-8") as f:
                f.write(new)
    for line in said:
        print("look: " + line)
    return 0


# where the plain rule would make two names one
CHOSEN = {
    "rule_assumed": "rule_assumed_lem",
    "plain_row": "plain_row_lem",
    "plain_at": "plain_at_lem",
    "no_items": "no_items_lem",
    "one_more": "one_more_lem",
    "in-word": "in_word_lem",
    "Case-ok": "CaseHolds",
    "Cased-ok": "CasedHolds",
    "Looked-ok": "LookedHolds",
}


if __name__ == "__main__":
    raise SystemExit(main(sys.argv[1:]))
