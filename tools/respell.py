#!/usr/bin/env python3
"""Spells the repository's own definitions, lemmas, fields and variables of contracts and proofs as Rattle does.

    respell.py [TOP]     default: the folder above this one

A fact or a type is in upper camel case, everything else in snake case. The names are found in the tree: what a file of
specs/ or proofs/ defines, and not what Rattle makes of the code (a name whose type is a goal). A name of the code keeps
its spelling; a definition that would fall together with a field or a variable of the code gets another ending.
"""

import re
import sys
from pathlib import Path

TOP = Path(sys.argv[1]) if len(sys.argv) > 1 else Path(__file__).resolve().parent.parent

# Definitions whose new spelling is that of a field or a variable of the code.
APART = {
    "paid-price": "paid_price_of",
    "total-surplus": "total_surplus_of",
    "half-hours": "half_hours_of",
}

# Variables of definitions and lemmas.
VARIABLES = """After-pay all-gaps all-of-them at-end each-paid entry-accepted in-it in-year is-party is-shut is-so never-more
no-offers not-next now-so obligation-judged shortage-price steps-loaded-for surplus-price""".split()

DEFINED = re.compile(r"^\s*(?:(?:abbrev|unfoldable|pub|record|data)\s+)*([^\s:(){}]+)(?:\s[^:]*)?\s:\s(.*)$")
NAME = re.compile(r"(?<![\w'·«-])[A-Za-z][\w'·-]*(?![\w'·»-])")


def spelled(name):
    if name in APART:
        return APART[name]
    if name[0].isupper():
        return "".join(word[:1].upper() + word[1:] for word in re.split("[-_]", name))
    plain = name.replace("getD", "get_or").replace("sumBy", "sum_by").replace("·", "_").replace("kW", "kw")
    return plain.replace("-", "_")


def own_names(files):
    names, made = set(VARIABLES), set()
    for file in files:
        for line in file.read_text().splitlines():
            if line.lstrip().startswith(("--", "use ")):
                continue
            found = DEFINED.match(line)
            if found and found.group(1) not in ("let", "where"):
                (made if re.match(r"(goal|needs|N)\.", found.group(2)) else names).add(found.group(1))
    return {name: spelled(name) for name in names - made if re.search(r"[-·]|[a-z][A-Z]|^[A-Z].*_", name)}


def respell(text, comment, names):
    lines = []
    for line in text.split("\n"):
        if not line.lstrip().startswith(comment):
            line = NAME.sub(lambda found: names.get(found.group(0), found.group(0)), line)
        lines.append(line)
    return "\n".join(lines)


def main():
    proofs = sorted(p for kind in ("specs", "proofs") for p in TOP.glob(f"crates/*/{kind}/**/*.antt"))
    names = own_names(proofs)
    together = sorted(new for new in set(names.values()) if list(names.values()).count(new) > 1)
    if together:
        sys.exit(f"these names fall together: {', '.join(together)}")
    for file in proofs:
        file.write_text(respell(file.read_text(), "--", names))
    for file in sorted(TOP.glob("crates/*/src/**/*.rt")):
        file.write_text(respell(file.read_text(), "//", names))
    print(f"{len(names)} names")


main()
