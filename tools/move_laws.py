#!/usr/bin/env python3
"""Moves theorems of `rules` and `meaning` from specs/ to proofs/, file by file: those that an edit of a definition breaks, and what rests on them, so that
such an edit is refused by a theorem and not for a text that cannot be read. Run once, at the top, behind respell_rest.py. Statements stay as they are. (The
definitions of meaning/Theorems, rules/Laws/Made, ReadWalk and MakingWalk went back to specs/ by hand: Theorems, Laws/Sound and Laws/Ready.)"""
import os
import re
import subprocess

MOVED = {
    "rules": [
        "Laws." + name
        for name in "Appends Below BelowCases BelowRead Bounded CaseWalk Count Fact Footing Form Made MadeActions MakingWalk ReadWalk StateRows StepWalk Still".split()
    ],
    "meaning": ["Bridge." + name for name in "Apply Check Goals Induct Invert Proof Refs Run Step Take Took".split()]
    + ["Writing." + name for name in "Accepted AcceptedTree Example Texts".split()]
    + ["Premise", "Theorems", "TheoremsHold"],
}


def read(path):
    with open(path, encoding="utf-8") as f:
        return f.read()


def write(path, text):
    os.makedirs(os.path.dirname(path), exist_ok=True)
    with open(path, "w", encoding="utf-8") as f:
        f.write(text)


for crate, names in MOVED.items():
    base = f"crates/{crate}"
    for name in names:
        path = name.replace(".", "/") + ".antt"
        os.makedirs(os.path.dirname(f"{base}/proofs/{path}"), exist_ok=True)
        subprocess.run(["git", "mv", f"{base}/specs/{path}", f"{base}/proofs/{path}"], check=True)
    # a folder's node names, on either side, what stands there
    nodes = sorted({name.split(".")[0] for name in names if "." in name})
    for node in nodes:
        lines = read(f"{base}/specs/{node}.antt").splitlines(True)
        gone = {f"pub mod {name.split('.')[1]}\n" for name in names if name.startswith(node + ".")}
        write(f"{base}/specs/{node}.antt", "".join(l for l in lines if l not in gone))
        write(f"{base}/proofs/{node}.antt", "".join(l for l in lines if l in gone or not l.startswith("pub mod ")))
    alone = [name for name in names if "." not in name]
    lib = read(f"{base}/specs/Lib.antt").splitlines(True)
    write(f"{base}/specs/Lib.antt", "".join(l for l in lib if l.strip() not in [f"pub mod {name}" for name in alone]))
    write(f"{base}/proofs/Lib.antt", "".join(f"pub mod {name}\n" for name in nodes + alone))

for folder, dirs, files in os.walk("crates"):
    dirs[:] = [d for d in dirs if d != "out"]
    for name in files:
        path = os.path.join(folder, name)
        if not name.endswith((".rt", ".antt", ".edit")):
            continue
        text = new = read(path)
        for crate, names in MOVED.items():
            some = "|".join(re.escape(n) for n in names)
            new = re.sub(rf"Rattle\.{crate}\.specs\.({some})(?=[.\s])", rf"Rattle.{crate}.proofs.\1", new)
            if name.endswith(".edit") and f"crates/{crate}/" in path:
                new = re.sub(rf"(?m)^file: specs/({some.replace(chr(92) + '.', '/')})(?=\.)", r"file: proofs/\1", new)
        if new != text:
            write(path, new)
