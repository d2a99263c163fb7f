#!/usr/bin/env python3
"""Counts what the stored suite reaches, and lists what it never reaches.

    coverage.py [DIR]      default: ../tests/files beside this file

It reads each NAME.txt with its NAME.expected; exit status 1 if anything that can
be reached is not.

Never on an answer line, whatever is sent:
  2.4             the spaces lent are always large enough (LINES.md, G)
  3.11            the program's ledger starts with every holding at 0 (RULES.md, G3)
  4.1, 4.2, 4.5   the book posts to open accounts only, never posts 0, and no
                  holding passes 64,000,000 (RULES.md, G3)
  5.1 to 5.4      the book checks first (RULES.md, I3)
Only with few places (files few-places-N-...), never over balances:
  3.10, 4.3
Never, although the table of a kind might suggest it:
  3.2 above the highest entity or offer: 65,535 fills its two bytes
  3.2 below 0 for an unsigned field whose range starts at 0
  open 3.6: there are 64 places for 64 accounts
  accept and recall 3.3: an account that is not open is a wrong party, 3.7
  close 3.2: it has no fields
  an accepted offer of 99,999,999: no holding passes 64,000,000
"""

import collections
import glob
import os
import sys

import book
from writing import LIMITS

HERE = os.path.dirname(os.path.abspath(__file__))
SUITE = sys.argv[1] if len(sys.argv) > 1 else os.path.join(HERE, "..", "tests", "files")

# Refusals of a line, with the places that they can have
LINE_REFUSALS = (["1.1 at 64"]
                 + ["1.2 at %d" % index for index in range(64)]
                 + ["1.3 at %d" % count for count in range(1, 64, 2)]
                 + ["2.1 at 0"]
                 + ["2.2 at %d" % kind for kind in range(11, 256)])

# RULES.md, H: a call's own refusals over any ledger, with their place; "account" is any account
OWN_REFUSALS = {
    "begin": [],
    "open": ["3.4 at 1"],
    "certify": ["3.3 at 2", "3.4 at 1", "3.6 at 0", "4.3 at account"],
    "rebalance": ["3.5 at 1", "4.3 at account", "4.4 at account"],
    "offer": ["3.3 at 2", "3.3 at 3", "3.7 at 3", "3.4 at 1", "3.6 at 0",
              "4.3 at account", "4.4 at account"],
    "accept": ["3.5 at 1", "3.7 at 2", "4.3 at account"],
    "recall": ["3.5 at 1", "3.7 at 2", "4.3 at account"],
    "load": ["3.3 at 1", "3.8 at 3"],
    "close": ["3.10 at 0"],
    "settle": ["3.9 at account"],
    "report": ["3.3 at 1"],
}
ACCOUNT_AT = ("3.9", "4.3", "4.4")
ONLY_FEW_PLACES = ("3.10", "4.3")
CANNOT = ("2.4", "3.11", "4.1", "4.2", "4.5", "5.1", "5.2", "5.3", "5.4")
ALL = (["1.%d" % number for number in range(1, 4)] + ["2.%d" % number for number in range(1, 5)]
       + ["3.%d" % number for number in range(1, 12)] + ["4.%d" % number for number in range(1, 6)]
       + ["5.%d" % number for number in range(1, 5)])

accepted = collections.Counter()
refused = collections.Counter()
refused_few = collections.Counter()
lines = collections.Counter()
calls = collections.Counter()
edges = collections.Counter()
stages = collections.Counter()


def read_lines(path):
    with open(path, "rb") as file:
        text = file.read()
    found = text.split(b"\n")
    return found[:-1] if found[-1] == b"" else found


def frame_of(line):
    try:
        return book.read_call(book.read_frame(line))
    except book.Refusal:
        return None


def count_refusal(few, line, said):
    number = "%d.%d" % (said[0], said[1])
    place = int.from_bytes(said[2:], "big")
    (refused_few if few else refused)[number] += 1
    if said[0] < 3:
        lines["%s at %d" % (number, place)] += 1
        if number == "2.3":
            kind = int(line[:2], 16)
            lines["2.3 %s at %d" % (book.NAMES[kind], place)] += 1
        return
    name = book.NAMES[int(line[:2], 16)]
    shown = "account" if number in ACCOUNT_AT else str(place)
    calls["%s %s at %s" % (name, number, shown)] += 1


def count_edges(kind, values, accepted_now):
    for field, value in zip(book.CALLS[kind][1], values):
        low, high = book.FIELDS[field][1:]
        for what, edge in (("below", low - 1), ("lowest", low), ("highest", high), ("above", high + 1)):
            if value == edge:
                edges[book.NAMES[kind], field, what] += 1
                if accepted_now:
                    edges[book.NAMES[kind], field, what + ", accepted"] += 1


def count_file(path):
    few = os.path.basename(path).startswith("few-places-")
    sent = read_lines(path)
    said = read_lines(path[:-len(".txt")] + ".expected")
    assert len(sent) == len(said), path
    stage = "blank"
    for line, answer in zip(sent, said):
        answer = bytes.fromhex(answer.decode("ascii"))
        frame = frame_of(line)
        if frame:
            count_edges(*frame, answer[0] == 0)
            stages[stage, book.NAMES[frame[0]]] += 1
        if answer[0] == 0:
            name = book.NAMES[answer[1]]
            accepted[name] += 1
            stage = {"begin": "trading", "close": "closed", "settle": "settled"}.get(name, stage)
        else:
            count_refusal(few, line, answer)


def reachable_lines():
    wanted = list(LINE_REFUSALS)
    for kind, name in enumerate(book.NAMES):
        wanted += ["2.3 %s at %d" % (name, length) for length in range(1, 33)
                   if length != book.FORMS[kind].size]
    return wanted


def reachable_calls():
    wanted = []
    for _, (name, fields, _, _) in enumerate(book.CALLS):
        wanted.append(name + " 3.1 at 0")
        wanted += ["%s 3.2 at %d" % (name, place) for place in range(1, len(fields) + 1)]
        wanted += ["%s %s" % (name, own) for own in OWN_REFUSALS[name]]
    return wanted


def reachable_edges():
    wanted = []
    for name, fields, _, _ in book.CALLS:
        for field in fields:
            form, low, high = book.FIELDS[field]
            wanted += [(name, field, "lowest, accepted"), (name, field, "highest, accepted")]
            if low - 1 >= LIMITS[form][0]:
                wanted.append((name, field, "below"))
            if high + 1 <= LIMITS[form][1]:
                wanted.append((name, field, "above"))
    wanted.remove(("offer", "amount", "highest, accepted"))
    return wanted


def missing(title, wanted, found):
    never = [what for what in wanted if not found[what]]
    print("%s: %d of %d reached" % (title, len(wanted) - len(never), len(wanted)))
    for what in never:
        print("  never: %s" % (what if isinstance(what, str) else ", ".join(what)))
    return bool(never)


def print_counts():
    print("accepted")
    for name in book.NAMES:
        print("  %-10s %6d" % (name, accepted[name]))
    print("refused         balances  few places")
    for number in ALL:
        note = " cannot be reached" if number in CANNOT else ""
        note = " only with few places" if number in ONLY_FEW_PLACES else note
        print("  %-10s %10d %11d%s" % (number, refused[number], refused_few[number], note))


def main():
    paths = sorted(glob.glob(os.path.join(SUITE, "*.txt")))
    for path in paths:
        count_file(path)
    total = sum(accepted.values()) + sum(refused.values()) + sum(refused_few.values())
    print("%d files, %d lines" % (len(paths), total))
    print_counts()
    both = refused + refused_few
    holes = [
        missing("accepted kinds", book.NAMES, accepted),
        missing("refusals over balances",
                [n for n in ALL if n not in CANNOT + ONLY_FEW_PLACES], refused),
        missing("refusals with few places", ONLY_FEW_PLACES, refused_few),
        missing("line refusals and places", reachable_lines(), lines),
        missing("call refusals and places", reachable_calls(), calls),
        missing("boundaries of fields", reachable_edges(), edges),
        missing("kinds in every stage", [(stage, name) for name in book.NAMES for stage in
                                         ("blank", "trading", "closed", "settled")], stages),
    ]
    wrong = [number for number in CANNOT if both[number]]
    wrong += [number for number in ONLY_FEW_PLACES if refused[number]]
    for number in wrong:
        print("reached, and should not be: " + number)
    sys.exit(1 if any(holes) or wrong else 0)


if __name__ == "__main__":
    main()
