#!/usr/bin/env python3
"""Brings the names that Rattle makes for a function's goals and steps to today's spelling, in the answers and invariants of proofs/:
a name of the code keeps its underscores, as in `returns-then-not-within_limits`, and so do Rattle's own words, as `in_ok`.

    tools/respell_generated.py     at the top of the repository, after tools/respell.py
"""
import re
from pathlib import Path

ROOT = Path(__file__).resolve().parent.parent
WORDS = ["in_ok", "in_err", "in_default", "type_inv", "overflow_add", "overflow_sub", "overflow_mul", "overflow_cast", "overflow_neg", "invariant_of"]
NAME = re.compile(r"\b[a-z][a-z0-9]*(?:_[a-z0-9]+)+\b")
TOKEN = re.compile(r"(?<![\w'])([A-Za-z][\w']*(?:-[\w']+)+)")


def main():
    words = set(WORDS)
    for p in ROOT.glob("crates/*/src/**/*.rt"):
        words |= set(NAME.findall(p.read_text()))
    words |= {"extend_from_slice", "as_slice", "is_empty", "deref_mut", "is_some", "is_none"}
    longest = sorted(words, key=len, reverse=True)
    turns = [(re.compile("(?<![\\w'])" + w.replace("_", "-") + "(?![\\w'])"), w) for w in longest]

    def turned(match):
        name = match[1]
        for pattern, word in turns:
            name = pattern.sub(word, name)
        return name

    for p in sorted(ROOT.glob("crates/*/proofs/**/*.antt")):
        if p.name not in ("Answers.antt", "Invariants.antt"):
            continue
        out = []
        for line in p.read_text().split("\n"):
            out.append(line if re.match(r"\s*use (?!.*\.(Goals|Given)\b)", line) else TOKEN.sub(turned, line))
        p.write_text("\n".join(out))


main()
