#!/usr/bin/env python3
"""The constructors that stand several on a line, which respell.py did not see, and the field `ground`, today a tactic's name. usage: tools/respell_rest.py FOLDER.. (files below them, in place)"""
import os
import re
import sys

NAMES = {
    "aResult": "a_result", "anInductWith": "an_induct_with", "aVar": "a_var", "aDef": "a_def", "anApply": "an_apply", "aHyp": "a_hyp",
    "aRuleHyp": "a_rule_hyp", "aGoalWith": "a_goal_with", "inComment": "in_comment", "aGoal": "a_goal", "aVariable": "a_variable",
    "aSort": "a_sort", "aCtor": "a_ctor", "aRule": "a_rule", "aPred": "a_pred",
}
TOKEN = re.compile(r"(?<![\w'₀-₉-])(" + "|".join(NAMES) + r")(?![\w'₀-₉-])")

for top in sys.argv[1:]:
    for folder, dirs, files in os.walk(top):
        dirs[:] = [d for d in dirs if d != "out"]
        for name in files:
            if name.endswith((".rt", ".antt", ".edit")):
                path = os.path.join(folder, name)
                with open(path, encoding="utf-8") as f:
                    text = original = f.read()
                if "inComment" in text:
                    text = re.sub(r"(?<![\w'-])in_comment(?![\w'-])", "in_comment_lem", text)
                if "crates/meaning/" in path or "/meaning/specs/" in path:
                    text_ = re.sub(r"(?m)^(?!\s*--).*$", lambda m: re.sub(r"(?<![\w'-])ground(?![\w'-])", "grounded", m[0]), text) if name.endswith(".antt") else text
                else:
                    text_ = text
                new = TOKEN.sub(lambda m: NAMES[m[1]], text_)
                if new != original:
                    with open(path, "w", encoding="utf-8") as f:
                        f.write(new)
