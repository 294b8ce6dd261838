#!/usr/bin/env python3
"""Renames the crate `deriving`, a name that today's language keeps for itself, to `derivation`. Run once, at the top, behind respell.py."""
import os
import re
import subprocess

if os.path.isdir("crates/deriving"):
    subprocess.run(["git", "mv", "crates/deriving", "crates/derivation"], check=True)
for top in ("crates", "crates.txt", "README.md", "docs", "tools"):
    paths = [top] if os.path.isfile(top) else [os.path.join(d, f) for d, _, fs in os.walk(top) if "/out" not in d for f in fs]
    for path in paths:
        if not path.endswith((".rt", ".antt", ".edit", ".txt", ".md", ".py")) or path.endswith(("rename_deriving.py", "PORT.md", "replay/stdin")):
            continue
        with open(path, encoding="utf-8") as f:
            text = f.read()
        if path.endswith((".rt", ".antt", ".edit")):
            new = re.sub(r"\bRattle\.deriving\b", "Rattle.derivation", text)
            new = re.sub(r"\bderiving::", "derivation::", new)
            new = re.sub(r"`deriving\b", "`derivation", new)
        elif path.endswith("crates.txt"):
            new = re.sub(r"\bderiving\b", "derivation", text)
        else:
            new = re.sub(r"`deriving`|crates/deriving", lambda m: m[0].replace("deriving", "derivation"), text)
        if new != text:
            with open(path, "w", encoding="utf-8") as f:
                f.write(new)
