#!/usr/bin/env python3
"""Brings the repository's own words to the spelling of today's Rattle, after the kit's port.py: definitions, lemmas, fields and
constructors in snake case. Types keep their capital, what Rattle or its library names keeps its name, and so does all code.

    tools/respell.py [--names]     at the top of the repository; --names prints the table and changes nothing

It was run once, in the change that brought the repository over; it stays so that the change can be made again and compared.
"""
import re
import sys
from pathlib import Path

ROOT = Path(__file__).resolve().parent.parent
WORD = r"[A-Za-z\u0391-\u03c9][\w'\u2019\u2080-\u2089-]*"
SIGNED = re.compile(rf"^\s*(?:(?:abbrev|unfoldable|pub|private)\s+)*({WORD}(?:\s+{WORD})*)\s*:(?=\s|$)")
LOCAL = re.compile(rf"\blet\s+({WORD})|\bwhere\s+({WORD})")
BOUND = re.compile(rf"[({{]({WORD}(?:\s+{WORD})*)\s*:(?=\s)")
GOAL = re.compile(rf"^\s*(?:(?:abbrev|pub)\s+)*({WORD})\s*:\s*goal\.")
IMPORT = re.compile(r"^\s*(?:ghost\s+)?use\s+(\S+?)\.\{([^}]*)\}")
TOKEN = re.compile(rf"(?<![\w'])(\.?)({WORD})")
GHOST = re.compile(r"^\s*(?:ghost\b|requires\b|ensures\b)")


# lemmas that would have the name of the definition that they are about
LEMMAS = {"amount-in": "amount_in_lem", "kind-in": "kind_in_lem", "sign-in": "sign_in_lem", "run-of": "run_of_lem"}


def snake(name):
    if name in LEMMAS:
        return LEMMAS[name]
    name = name.replace("-", "_")
    return re.sub(r"(?<=[a-z0-9])([A-Z])", lambda m: "_" + m[1].lower(), name) if name[0].islower() else name


def code(line):
    return line.split("--")[0]


def names_of(line):
    """The names that a line of a proof or of a definition declares."""
    line = code(line)
    found = []
    signed = SIGNED.match(line)
    if signed and not GOAL.match(line):
        found += signed[1].split()
    for a, b in LOCAL.findall(line):
        found.append(a or b)
    for names in BOUND.findall(line):
        found += names.split()
    return found


def main():
    files = [p for p in sorted(ROOT.glob("crates/*/*/**/*")) if p.suffix in (".antt", ".rt") and "out" not in p.relative_to(ROOT).parts]
    declared, kept = set(), set()
    crates = {p.name for p in (ROOT / "crates").iterdir()}
    for p in files:
        for line in p.read_text().split("\n"):
            goal = GOAL.match(line)
            if goal:
                kept.add(goal[1])
            imported = IMPORT.match(line)
            if imported:
                parts = imported[1].split(".")
                own = parts[0] == "Rattle" and len(parts) > 1 and parts[1] in crates and parts[-1] not in ("Goals", "Given")
                if not own:
                    kept |= {w.strip() for w in imported[2].split(",")}
            elif p.suffix == ".antt":
                declared |= set(names_of(line))
    table = {}
    for name in sorted(declared - kept - {"pub", "let", "in", "where"}):
        if snake(name) != name:
            table[name] = snake(name)
    taken = declared | kept
    for old, new in table.items():
        if new in taken:
            print(f"look: {old} falls together with {new}", file=sys.stderr)
    if "--names" in sys.argv:
        for old, new in table.items():
            print(old, new)
        return

    def turned(match):
        dot, name = match.groups()
        if name not in table or (dot and "-" in name):
            return match[0]
        return dot + table[name]

    for p in files:
        text = p.read_text()
        lines = text.split("\n")
        out = []
        for line in lines:
            ghost = p.suffix == ".antt" or GHOST.match(line)
            head, dash, comment = line.partition("--") if p.suffix == ".antt" else (line, "", "")
            out.append(TOKEN.sub(turned, head) + dash + comment if ghost else line)
        new = "\n".join(out)
        if new != text:
            p.write_text(new)


main()
