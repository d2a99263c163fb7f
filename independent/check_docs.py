#!/usr/bin/env python3
"""Compares book.py with the figures that docs/RULES.md and docs/LINES.md print.

    check_docs.py [DOCS]     default: ../docs beside this file
"""

import os
import re
import sys

import book

HERE = os.path.dirname(os.path.abspath(__file__))
DOCS = sys.argv[1] if len(sys.argv) > 1 else os.path.join(HERE, "..", "docs")

failures = []
checked = 0


def expect(what, found, stated):
    global checked
    checked += 1
    if found != stated:
        failures.append("%s: book.py has %r, the page has %r" % (what, found, stated))


def read(name):
    with open(os.path.join(DOCS, name), encoding="utf-8") as page:
        return page.read()


def new_book():
    return book.Book(book.Ledger())


def section(page, heading):
    """The text from a heading to the next one of any depth."""
    start = page.index("\n" + heading) + 1
    end = page.find("\n#", start)
    return page[start:end if end > 0 else len(page)]


def rows(text):
    """The rows of the tables in a text, as lists of cells."""
    lines = [line.strip() for line in text.split("\n")]
    return [[cell.strip() for cell in line.strip("|").split("|")]
            for line in lines if line.startswith("|") and not set(line) <= set("|- ")]


def number(text):
    return int(text.replace(",", "").replace("−", "-"))


def check_session(page, heading):
    session = new_book()
    block = section(page, heading).split("```")[1]
    for line in block.strip("\n").split("\n"):
        sent, printed = line.split(" > ")
        printed = printed.split(" ")[0]
        expect(heading + ": " + sent, book.answer(session, sent.encode()), printed)
    return session


def check_sessions(page):
    first = check_session(page, "## I. A session")
    more, stated = re.search(r"One more line, `(\w+)`, would be answered\s+`(\w+)`", page).groups()
    expect("one more line", book.answer(first, more.encode()), stated)
    check_session(page, "## J. A session of refusals")


def check_odd_inputs(page):
    """The lines of section H that are written out."""
    for row in rows(section(page, "## H. Odd inputs"))[1:]:
        stated = re.match(r"`(\w+)`", row[1])
        sent = re.fullmatch(r"`(\w+)`", row[0])
        many = re.fullmatch(r"(\d+) digits `0`", row[0])
        if stated and (sent or many):
            line = sent.group(1) if sent else "0" * int(many.group(1))
            expect("odd input " + row[0], book.answer(new_book(), line.encode()), stated.group(1))
    expect("byte 13 behind", book.answer(new_book(), b"0101\r"), "01020004")
    expect("byte 13 alone", book.answer(new_book(), b"\r"), "01020000")
    expect("65 wrong", book.answer(new_book(), b"x" * 65), "01010040")
    expect("64 wrong", book.answer(new_book(), b"x" * 64), "01020000")
    expect("no bytes", book.answer(new_book(), b""), "02010000")


def check_frames(page):
    """The lengths of sections C and D."""
    frames = [row for row in rows(section(page, "## C. Frames")) if re.fullmatch(r"`0.`", row[0])]
    results = [row for row in rows(section(page, "## D. Answers")) if re.fullmatch(r"`0.`", row[0])]
    expect("kinds", len(frames), len(book.CALLS))
    for kind, (frame, result) in enumerate(zip(frames, results)):
        expect("kind", frame[0], "`%02x`" % kind)
        expect("name", book.NAMES[kind], frame[1])
        fields = [] if frame[2] == "none" else [f.rsplit(" ", 1) for f in frame[2].split(", ")]
        expect("fields", [name for name, _ in fields], list(book.CALLS[kind][1]))
        widths = {"B": 1, "H": 2, "h": 2, "I": 4, "i": 4}
        expect("widths", [int(width) for _, width in fields],
               [widths[book.FIELDS[name][0]] for name, _ in fields])
        expect("bytes in the frame", book.FORMS[kind].size, int(frame[3]))
        expect("characters", 2 * book.FORMS[kind].size, int(frame[4]))
        expect("bytes of the answer", book.RESULTS[kind].size, int(result[3]))
        expect("length of the answer", 2 * book.RESULTS[kind].size + 1, int(result[4]))


def check_stages(page):
    for row in rows(section(page, "## F. Stages"))[1:]:
        stages = ("blank", "trading", "closed", "settled")
        allowed = tuple(stage for stage, cell in zip(stages, row[1:]) if cell != "3.1")
        expect("stages of " + row[0], book.STAGES[book.NAMES.index(row[0])], allowed)


def stated_range(row):
    """The first range of a row of fields, of the form "a to b"; nothing if it has none."""
    cells = [re.fullmatch(r"([−\d,]+) to ([−\d,]+)", cell) for cell in row]
    if row[0].isdigit() and any(cells):
        return tuple(number(text) for text in next(filter(None, cells)).groups())
    return None


def check_ranges(page):
    """The ranges in the field tables of the calls (H), and of a level, a step and an obligation alone (D5, E3, E5)."""
    for heading in re.findall(r"### H\d+ \w+", page):
        kind = book.NAMES.index(heading.split(" ")[2].lower())
        for row in rows(section(page, heading)):
            stated = stated_range(row)
            if stated:
                name = book.CALLS[kind][1][int(row[0]) - 1]
                expect("name of field " + row[0], name, row[1])
                expect("range of " + name, book.FIELDS[name][1:], stated)
    for heading in "### D5", "### E3", "### E5":
        for row in rows(section(page, heading)):
            stated = stated_range(row)
            if stated:
                expect("range of %s in %s" % (row[1], heading), book.FIELDS[row[1]][1:], stated)
    for heading in "### E3", "### H8":
        only = {row[1]: cell for row in rows(section(page, heading)) for cell in row if cell.endswith(" only")}
        expect("sort 2 in " + heading, only, {"shed": "0 only", "coefficient": "1,000 only"})


def check_kj(page):
    table = rows(section(page, "### D2"))
    for start in (0, 4):
        first, last, percent = table[start + 1], table[start + 2], table[start + 3]
        for low, high, stated in zip(first[1:], last[1:], percent[1:]):
            for hours in range(int(low), int(high) + 1):
                expect("Kj of %d" % hours, book.kj(hours), int(stated))


def check_kh(page):
    for row in rows(section(page, "### D3"))[3:]:
        for tenth, stated in enumerate(row[1:]):
            if stated:
                days = 100 * int(row[0]) + 10 * tenth
                expect("Kh of %d" % days, book.kh(days), int(stated))


def hundredths(text):
    whole, _, decimals = text.partition(".")
    return 100 * int(whole) + int((decimals + "00")[:2])


def worked_obligation(page, where, n, security):
    """The obligation of the steps that a section lists."""
    sort = 1 if where == "E6" else 2
    steps = [[number(cell) for cell in row[1:]] for row in rows(section(page, "### " + where)) if row[0].isdigit()]
    return book.obligation_of(n, security, sum(book.step_adds(sort, *step) for step in steps))


def check_marked(page):
    """Section L, read off the page."""
    listed = section(page, "## L. Marked figures").split("Three ways to be wrong")[0]
    marked = rows(listed)[1:]
    expect("marked figures", len(marked), 11)
    for what, stated, where in marked:
        numbers = [number(text) for text in re.findall(r"−?[\d,]*\d", stated)]
        if what.startswith("hours "):
            found = [book.kj(hundredths(what.split()[1]) // 10)]
        elif what.startswith("days "):
            found = [book.kh(hundredths(what.split()[1]))]
        elif what.startswith("method 1"):
            power, hours, days = re.fullmatch(r"method 1, ([\d,]+) kW, ([\d.]+) hours, ([\d.]+) days", what).groups()
            found = [book.level_of(1, number(power), hundredths(hours) // 10, hundredths(days))]
        elif what.startswith("solar"):
            found = [book.level_of(4, number(re.search(r"([\d,]+) kW", what).group(1)), 0, 0)]
        elif what.startswith("two steps"):
            n, security = re.search(r"n (\d+), security coefficient (\d+)", what).groups()
            found = [worked_obligation(page, where, int(n), int(security))]
        else:
            gaps, prices = re.fullmatch(r"gaps (.*), prices (.*)", what).groups()
            found = list(book.settlement_of(*(number(text) for text in prices.split(" and ")),
                                            [number(text) for text in gaps.split(" and ")]))
        expect("marked: " + what, found, numbers)


def check_rounding(page):
    """The table of section D1, in hundredths and thousandths."""
    for value, digit, result in (row[:3] for row in rows(section(page, "### D1"))[1:]):
        whole, _, decimals = value.partition(".")
        scale = 10 ** len(decimals)
        expect("rounding " + value, book.round_by_digit(int(whole + decimals), scale), int(result.split(",")[0]))
        expect("digit of " + value, int(decimals[0]), int(digit))


def check_figures():
    """Figures worked in the text."""
    expect("wind 12,345", book.level_of(3, 12_345, 0, 0), 86)
    expect("highest level", book.level_of(1, 99_999_999, 240, 700), 1_000_000)
    expect("E5", book.obligation_of(1, 2_000, 10 ** 18), 200_000_000_000)
    most = (book.step_adds(1, 99_999_999, 99_999_999, 9_999_999, 9_999, 5_000, -5_000)
            + book.step_adds(2, 99_999_999, 0, 9_999_999, 1_000, -5_000, 5_000))
    expect("E4, most", book.obligation_of(400, 2_000, 400 * most), 225_979_978)
    expect("E4, within 10^18", 400 * most <= 10 ** 18, True)
    for a in range(0, 2_000):
        for b in range(1, 60):
            expect("D1", book.round_by_digit(a, b), (5 * a + 2 * b) // (5 * b))


def main():
    lines, rules = read("LINES.md"), read("RULES.md")
    check_sessions(lines)
    check_odd_inputs(lines)
    check_frames(lines)
    check_stages(rules)
    check_ranges(rules)
    check_kj(rules)
    check_kh(rules)
    check_marked(rules)
    check_rounding(rules)
    check_figures()
    for failure in failures:
        print(failure)
    print("%d figures checked, %d differ" % (checked, len(failures)))
    sys.exit(1 if failures else 0)


if __name__ == "__main__":
    main()
