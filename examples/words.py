#!/usr/bin/env python3
"""Tells in words what a book was asked and what it answered.

    words.py LINES ANSWERS

One row for each line: the call, its fields with their units, the answer with its figure, and the article of the public
rules behind the figure; "own" where it is the book's own.
"""

import os
import struct
import sys

sys.path.insert(0, os.path.join(os.path.dirname(os.path.abspath(__file__)), "..", "independent"))

from book import CALLS, FORMS, RESULTS  # noqa: E402

METHODS = {1: "dispatchable", 2: "hydraulic", 3: "wind", 4: "solar"}
SORTS = {1: "profiled sites", 2: "losses"}
LEVEL_ARTICLES = {1: "6.3.1.2", 2: "6.3.2.4", 3: "6.3.2.4", 4: "6.3.2.4"}
ARTICLES = {
    "begin": "5.1.1.2, 5.1.4.3", "rebalance": "6.8.7", "offer": "own", "accept": "own", "recall": "own",
    "open": "own", "close": "own", "settle": "5.6.2.2", "report": "5.6.1",
}
LOAD_ARTICLES = {1: "5.2.1.4.1", 2: "5.2.1.5.1"}

FAULTS = {
    (1, 1): "the line is longer than 64 characters",
    (1, 2): "character {place} is no digit",
    (1, 3): "an odd number of digits, {place}",
    (2, 1): "an empty line",
    (2, 2): "no call has the kind {place}",
    (2, 3): "the frame has {place} bytes, which is not its length",
    (3, 1): "not at this stage of the year",
    (3, 2): "{field} out of range",
    (3, 3): "no such {field} is open",
    (3, 4): "the number of this {field} is in use",
    (3, 5): "there is no such {field}",
    (3, 6): "the register is full",
    (3, 7): "{field} is the wrong party",
    (3, 8): "this {field} is not the next one",
    (3, 9): "account {place} lacks steps of a series",
    (3, 10): "the ledger has too few posts left",
    (3, 11): "account {place} holds something already",
    (4, 1): "the ledger does not know account {place}",
    (4, 2): "a post of nothing to account {place}",
    (4, 3): "no posts left for account {place}",
    (4, 4): "account {place} holds less than that",
    (4, 5): "account {place} has no room for that",
}


def decimals(value, places, unit):
    sign = "-" if value < 0 else ""
    whole, part = divmod(abs(value), 10**places)
    return f"{sign}{whole:,}.{part:0{places}} {unit}"


def euros(cents):
    return decimals(cents, 2, "EUR")


UNITS = {
    "n": lambda v: f"{v:,} half-hours",
    "security coefficient": lambda v: f"security {decimals(v, 3, '').strip()}",
    "account": lambda v: f"account {v}",
    "seller": lambda v: f"from account {v}",
    "buyer": lambda v: f"to account {v}",
    "entity": lambda v: f"entity {v}",
    "method": lambda v: METHODS.get(v, f"method {v}"),
    "power": lambda v: f"{v:,} kW",
    "hours": lambda v: decimals(v, 1, "h"),
    "days": lambda v: decimals(v, 2, "days"),
    "offer": lambda v: f"offer {v}",
    "amount": lambda v: f"{v:,} guarantees",
    "sort": lambda v: SORTS.get(v, f"sort {v}"),
    "step": lambda v: f"step {v}",
    "metered": lambda v: f"{v:,} kW",
    "shed": lambda v: f"shed {v:,} kW",
    "gradient": lambda v: f"{v:,} kW/C",
    "coefficient": lambda v: f"x {decimals(v, 3, '').strip()}",
    "real": lambda v: f"real {decimals(v, 2, 'C')}",
    "extreme": lambda v: f"extreme {decimals(v, 2, 'C')}",
    "shortage price": lambda v: f"shortage {euros(v)}",
    "surplus price": lambda v: f"surplus {euros(v)}",
}


def accepted(name, values, results):
    """The answer in words, and the article behind it."""
    if name == "certify":
        return f"level {results[0]:,} guarantees", LEVEL_ARTICLES[values[2]]
    if name == "rebalance":
        return f"new level {results[0]:,} guarantees", ARTICLES[name]
    if name == "offer":
        return f"seller now holds {results[0]:,}", ARTICLES[name]
    if name in ("accept", "recall"):
        return f"account now holds {results[0]:,}", ARTICLES[name]
    if name == "load":
        return "loaded", LOAD_ARTICLES[values[1]]
    if name == "close":
        return f"offers returned: {results[0]}", ARTICLES[name]
    if name == "settle":
        price, collected, paid, balance = results
        return (f"paid price {euros(price)}, collected {euros(collected)}, paid {euros(paid)}, "
                f"balance {euros(balance)}"), ARTICLES[name]
    if name == "report":
        holding, obligation, gap, amount = results
        return (f"holds {holding:,}, has to hold {obligation:,}, gap {gap:+,}, "
                f"{'owes' if amount < 0 else 'is paid'} {euros(abs(amount))}"), ARTICLES[name]
    return "accepted", ARTICLES[name]


def refused(layer, number, place, fields):
    field = fields[place - 1] if layer == 3 and 1 <= place <= len(fields) else ""
    return f"REFUSED {layer}.{number}: " + FAULTS[layer, number].format(place=place, field=field)


def row(line, answer):
    """Call, fields, answer and article of one line."""
    frame = b""
    try:
        frame = bytes.fromhex(line)
        name, fields, _, _ = CALLS[frame[0]]
        values = FORMS[frame[0]].unpack(frame)
    except (ValueError, IndexError, struct.error):
        name, fields, values = "?", (), ()
    told = ", ".join(UNITS[field](value) for field, value in zip(fields, values))
    answer_bytes = bytes.fromhex(answer)
    if answer_bytes[0] == 0:
        words, article = accepted(name, values, RESULTS[frame[0]].unpack(answer_bytes)[2:])
    else:
        words, article = refused(answer_bytes[0], answer_bytes[1], int.from_bytes(answer_bytes[2:], "big"), fields), ""
    return name, told if values or name == "close" else line[:40], words, article


def main():
    with open(sys.argv[1]) as source:
        lines = source.read().splitlines()
    with open(sys.argv[2]) as source:
        answers = source.read().splitlines()
    if len(lines) != len(answers):
        sys.exit(f"{len(lines)} lines, but {len(answers)} answers")
    rows = [("call", "fields", "answer", "article")] + [row(*both) for both in zip(lines, answers)]
    widths = [max(len(cells[i]) for cells in rows) for i in range(2)]
    answer_width = max(len(cells[2]) for cells in rows if cells[0] not in ("settle", "report"))
    for number, (call, told, words, article) in enumerate(rows):
        place = f"{number:>5}" if number else " line"
        print(f"{place}  {call:<{widths[0]}}  {told:<{widths[1]}}  {words:<{answer_width}}  {article}".rstrip())


main()
