#!/usr/bin/env python3
"""A second book, written from docs/RULES.md and docs/LINES.md alone.

    book.py              one book over the ledger of balances
    book.py --places N   one book over a ledger of movements with N places

It reads lines on standard input and answers each on standard output.

In the comments a capital with a number is a section of RULES.md, "lines" with
a capital is a section of LINES.md, "art." is an article of the public rules,
"own" is a limit of the book itself.
"""

import argparse
import os
import re
import struct
import sys

# --- limits -----------------------------------------------------------------

ACCOUNTS = 64               # A: accounts are 1 to 64 (own)
ENTITY_PLACES = 64          # C (own)
OFFER_PLACES = 32           # C (own)
HIGHEST_HOLDING = 99_999_999  # A: holding (own)
HIGHEST_POSTS = 65_535      # B1: posts left (own)
LONGEST_LINE = 64           # lines B: characters
CHUNK = 65_536              # bytes read at once

# --- levels: tables ---------------------------------------------------------

# D2, art. 6.1.2.2: Kj in percent, for 0 to 20 half-hours (art. 6.3.1.2.2.1.2)
KJ = (0, 13, 25, 35, 46, 53, 59, 65, 70, 74, 78,
      82, 85, 88, 91, 93, 95, 96, 98, 99, 100)

# D3, art. 6.1.3.2: Kh in percent, for 0 to 5 whole days (art. 6.3.1.2.2.2)
KH = (0, 45, 73, 88, 94, 100)

# D4, art. 6.1.5.2: percent of power for methods 2, 3 and 4
SHARE = {2: 85, 3: 70, 4: 25}

# --- fields and calls -------------------------------------------------------

# lines C: how a field stands in a frame
U1, U2, U4, S2, S4 = "B", "H", "I", "h", "i"

FIELDS = {
    # name                  form  lowest      highest
    "n":                    (U2, 1, 400),                # H1, art. 5.1.1.2, 5.1.1.4
    "security coefficient": (U2, 0, 2_000),              # H1, art. 5.1.4.3
    "account":              (U1, 1, ACCOUNTS),           # H2, own
    "seller":               (U1, 1, ACCOUNTS),           # H5, own
    "buyer":                (U1, 1, ACCOUNTS),           # H5, own
    "entity":               (U2, 1, 65_535),             # H3, own
    "method":               (U1, 1, 4),                  # H3, art. 6.1.7.13
    "power":                (U4, 0, 99_999_999),         # H3, art. 6.3.1.2.1, 6.3.2.3.1
    "hours":                (U1, 0, 240),                # H3, art. 6.3.1.2.2.1.2
    "days":                 (U2, 0, 700),                # H3, art. 6.3.1.2.2.2
    "offer":                (U2, 1, 65_535),             # H5, own
    "amount":               (U4, 1, 99_999_999),         # H5, own
    "sort":                 (U1, 1, 2),                  # H8, art. 5.2.1.4, 5.2.1.5
    "step":                 (U2, 1, 400),                # H8, art. 5.2.1.4.1; at most n
    "metered":              (U4, 0, 99_999_999),         # H8, art. 5.2.1.4.2.1, 5.2.1.5.1
    "shed":                 (U4, 0, 99_999_999),         # H8, art. 5.2.1.4.2.1; 0 in sort 2
    "gradient":             (S4, -9_999_999, 9_999_999),  # H8, art. 5.2.1.4.3, 5.2.1.5.3.1
    "coefficient":          (U2, 0, 9_999),              # H8, art. 5.2.1.4.4.1; 1,000 in sort 2
    "real":                 (S2, -5_000, 5_000),         # H8, art. 5.2.1.4.1
    "extreme":              (S2, -5_000, 5_000),         # H8, art. 5.1.2
    "shortage price":       (U4, 0, 9_999_999),          # H10, art. 5.6.1.2.2
    "surplus price":        (U4, 0, 9_999_999),          # H10, art. 5.6.1.2.1
}

BLANK, TRADING, CLOSED, SETTLED = "blank", "trading", "closed", "settled"

CALLS = (
    # lines C: name and fields; F: stages; lines D: form of the results
    ("begin", ("n", "security coefficient"), (BLANK,), ""),
    ("open", ("account",), (TRADING,), ""),
    ("certify", ("entity", "account", "method", "power", "hours", "days"), (TRADING,), "I"),
    ("rebalance", ("entity", "power", "hours", "days"), (TRADING,), "I"),
    ("offer", ("offer", "seller", "buyer", "amount"), (TRADING,), "I"),
    ("accept", ("offer", "account"), (TRADING,), "I"),
    ("recall", ("offer", "account"), (TRADING,), "I"),
    ("load", ("account", "sort", "step", "metered", "shed", "gradient",
              "coefficient", "real", "extreme"), (TRADING, CLOSED), ""),
    ("close", (), (TRADING,), "H"),
    ("settle", ("shortage price", "surplus price"), (CLOSED,), "IQQQ"),
    ("report", ("account",), (SETTLED,), "IIiq"),
)

NAMES = [name for name, _, _, _ in CALLS]
FORMS = [struct.Struct(">x" + "".join(FIELDS[field][0] for field in fields))
         for _, fields, _, _ in CALLS]
RANGES = [[FIELDS[field][1:] for field in fields] for _, fields, _, _ in CALLS]
STAGES = [stages for _, _, stages, _ in CALLS]
RESULTS = [struct.Struct(">BB" + results) for _, _, _, results in CALLS]

STEP_FIELD, SHED_FIELD, COEFFICIENT_FIELD = 2, 4, 6  # in load, counted from 0


class Refusal(Exception):
    """G: a layer, a number and a place."""

    def __init__(self, layer, number, place):
        super().__init__(layer, number, place)
        self.layer = layer
        self.number = number
        self.place = place


# --- B: the ledger ----------------------------------------------------------

class Ledger:
    """Holdings and posts left. Without places it is the ledger of balances."""

    def __init__(self, places=None):
        self.holdings = [0] * (ACCOUNTS + 1)  # place 0 is not used
        self.falls = places is not None
        self.posts_left = min(places, HIGHEST_POSTS) if self.falls else HIGHEST_POSTS

    def check_account(self, account):
        if not 1 <= account <= ACCOUNTS:
            raise Refusal(4, 1, account)

    def check_post(self, account, amount):
        self.check_account(account)
        if amount == 0:
            raise Refusal(4, 2, account)
        if self.posts_left == 0:
            raise Refusal(4, 3, account)

    def post(self, account, change):
        self.holdings[account] += change
        if self.falls:
            self.posts_left -= 1
        return self.holdings[account]

    def ask(self, account):
        self.check_account(account)
        return self.holdings[account]

    def left(self):
        return self.posts_left

    def credit(self, account, amount):
        self.check_post(account, amount)
        if self.holdings[account] + amount > HIGHEST_HOLDING:
            raise Refusal(4, 5, account)
        return self.post(account, amount)

    def debit(self, account, amount):
        self.check_post(account, amount)
        if amount > self.holdings[account]:
            raise Refusal(4, 4, account)
        return self.post(account, -amount)


# --- D: certified levels ----------------------------------------------------

def round_by_digit(a, b):
    """D1: the dropped digit decides; 0 to 5 add nothing, 6 to 9 add one."""
    quotient, remainder = divmod(a, b)
    dropped = 10 * remainder // b
    return quotient + 1 if dropped >= 6 else quotient


def kj(hours):
    """D2: percent, from tenths of an hour."""
    return KJ[min(round_by_digit(hours, 5), len(KJ) - 1)]


def kh(days):
    """D3: percent, from hundredths of a day."""
    tenths = min(round_by_digit(days, 10), 10 * (len(KH) - 1))
    whole, more = divmod(tenths, 10)
    if more == 0:
        return KH[whole]
    return round_by_digit(10 * KH[whole] + more * (KH[whole + 1] - KH[whole]), 10)


def level_of(method, power, hours, days):
    """D4: guarantees."""
    if method == 1:
        return round_by_digit(power * kj(hours) * kh(days), 1_000_000)
    return round_by_digit(power * SHARE[method], 10_000)


# --- E: obligations ---------------------------------------------------------

def step_adds(sort, metered, shed, gradient, coefficient, real, extreme):
    """E2: what a step adds, in 100,000ths of a kW."""
    if sort == 1:
        return 100_000 * (metered + shed) + gradient * coefficient * (real - extreme)
    return 100_000 * metered + gradient * 1_000 * (extreme - real)


def obligation_of(n, security, total):
    """E4: guarantees, from the sum of both series."""
    reference = total // (100_000 * n) if total > 0 else 0
    return round_by_digit(reference * security, 100_000)


# --- I: settlement ----------------------------------------------------------

def settlement_of(shortage_price, surplus_price, gaps):
    """I1: paid price, collected, paid, balance."""
    collected = sum(-gap for gap in gaps if gap < 0) * shortage_price
    surplus = sum(gap for gap in gaps if gap > 0)
    paid_price = surplus_price
    if surplus > 0:
        paid_price = min(surplus_price, collected // surplus)
    paid = surplus * paid_price
    return paid_price, collected, paid, collected - paid


# --- C: records -------------------------------------------------------------

class Account:
    def __init__(self):
        self.steps = {1: 0, 2: 0}  # steps loaded, for each sort
        self.adds = {1: 0, 2: 0}   # what they add


class Entity:
    def __init__(self, account, method, level):
        self.account = account
        self.method = method
        self.level = level


class Offer:
    def __init__(self, seller, buyer, amount):
        self.seller = seller
        self.buyer = buyer
        self.amount = amount


# --- H: the book ------------------------------------------------------------

class Book:
    def __init__(self, ledger):
        self.ledger = ledger
        self.stage = BLANK
        self.n = None
        self.security = None
        self.accounts = {}
        self.entities = {}
        self.offers = {}
        self.shortage_price = None
        self.paid_price = None
        self.calls = [getattr(self, name) for name in NAMES]

    def call(self, kind, values):
        """G3: the stage, the fields, then the call's own checks."""
        if self.stage not in STAGES[kind]:
            raise Refusal(3, 1, 0)
        self.check_fields(values, self.ranges(kind, values))
        return self.calls[kind](*values)

    def ranges(self, kind, values):
        if NAMES[kind] == "load":
            return self.load_ranges(values[1])
        return RANGES[kind]

    def load_ranges(self, sort):
        """H8: the step goes to n; sort 2 has no shed and a coefficient of 1,000."""
        ranges = list(RANGES[NAMES.index("load")])
        ranges[STEP_FIELD] = (1, self.n)
        if sort == 2:
            ranges[SHED_FIELD] = (0, 0)
            ranges[COEFFICIENT_FIELD] = (1_000, 1_000)
        return ranges

    def check_fields(self, values, ranges):
        for field, (value, (lowest, highest)) in enumerate(zip(values, ranges), 1):
            if not lowest <= value <= highest:
                raise Refusal(3, 2, field)

    def check_open(self, account, field):
        if account not in self.accounts:
            raise Refusal(3, 3, field)

    def check_free(self, number, register):
        if number in register:
            raise Refusal(3, 4, 1)

    def check_known(self, number, register):
        if number not in register:
            raise Refusal(3, 5, 1)

    def check_place(self, register, places):
        if len(register) >= places:
            raise Refusal(3, 6, 0)

    def begin(self, n, security):  # H1
        for account in range(1, ACCOUNTS + 1):
            if self.ledger.ask(account) != 0:
                raise Refusal(3, 11, account)
        self.n = n
        self.security = security
        self.stage = TRADING
        return ()

    def open(self, account):  # H2
        self.check_free(account, self.accounts)
        self.accounts[account] = Account()
        return ()

    def certify(self, entity, account, method, power, hours, days):  # H3
        self.check_open(account, 2)
        self.check_free(entity, self.entities)
        self.check_place(self.entities, ENTITY_PLACES)
        level = level_of(method, power, hours, days)
        if level > 0:
            self.ledger.credit(account, level)
        self.entities[entity] = Entity(account, method, level)
        return (level,)

    def rebalance(self, entity, power, hours, days):  # H4
        self.check_known(entity, self.entities)
        record = self.entities[entity]
        level = level_of(record.method, power, hours, days)
        if level > record.level:
            self.ledger.credit(record.account, level - record.level)
        elif level < record.level:
            self.ledger.debit(record.account, record.level - level)
        record.level = level
        return (level,)

    def offer(self, offer, seller, buyer, amount):  # H5
        self.check_open(seller, 2)
        self.check_open(buyer, 3)
        if seller == buyer:
            raise Refusal(3, 7, 3)
        self.check_free(offer, self.offers)
        self.check_place(self.offers, OFFER_PLACES)
        holding = self.ledger.debit(seller, amount)
        self.offers[offer] = Offer(seller, buyer, amount)
        return (holding,)

    def accept(self, offer, account):  # H6
        self.check_known(offer, self.offers)
        return self.end_offer(offer, account, self.offers[offer].buyer)

    def recall(self, offer, account):  # H7
        self.check_known(offer, self.offers)
        return self.end_offer(offer, account, self.offers[offer].seller)

    def end_offer(self, offer, account, party):
        if account != party:
            raise Refusal(3, 7, 2)
        holding = self.ledger.credit(party, self.offers[offer].amount)
        del self.offers[offer]
        return (holding,)

    def load(self, account, sort, step, *figures):  # H8
        self.check_open(account, 1)
        record = self.accounts[account]
        if step != record.steps[sort] + 1:
            raise Refusal(3, 8, 3)
        record.steps[sort] = step
        record.adds[sort] += step_adds(sort, *figures)
        return ()

    def close(self):  # H9
        returned = len(self.offers)
        if self.ledger.left() < returned:
            raise Refusal(3, 10, 0)
        for number in sorted(self.offers):
            self.ledger.credit(self.offers[number].seller, self.offers[number].amount)
        self.offers.clear()
        self.stage = CLOSED
        return (returned,)

    def settle(self, shortage_price, surplus_price):  # H10
        for account in sorted(self.accounts):
            if any(0 < steps < self.n for steps in self.accounts[account].steps.values()):
                raise Refusal(3, 9, account)
        gaps = [self.gap(account) for account in self.accounts]
        results = settlement_of(shortage_price, surplus_price, gaps)
        self.shortage_price = shortage_price
        self.paid_price = results[0]
        self.stage = SETTLED
        return results

    def report(self, account):  # H11
        self.check_open(account, 1)
        gap = self.gap(account)
        price = self.paid_price if gap > 0 else self.shortage_price
        return self.ledger.ask(account), self.obligation(account), gap, gap * price

    def obligation(self, account):
        total = sum(self.accounts[account].adds.values())
        return obligation_of(self.n, self.security, total)

    def gap(self, account):
        return self.ledger.ask(account) - self.obligation(account)


# --- lines F: reading a line ------------------------------------------------

WRONG_CHARACTER = re.compile(rb"[^0-9a-f]")


def read_frame(line):
    """The bytes that the characters write (layer 1)."""
    if len(line) > LONGEST_LINE:
        raise Refusal(1, 1, LONGEST_LINE)
    wrong = WRONG_CHARACTER.search(line)
    if wrong:
        raise Refusal(1, 2, wrong.start())
    if len(line) % 2:
        raise Refusal(1, 3, len(line))
    return bytes.fromhex(line.decode("ascii"))


def read_call(frame):
    """The kind and the fields' values (layer 2)."""
    if not frame:
        raise Refusal(2, 1, 0)
    kind = frame[0]
    if kind >= len(CALLS):
        raise Refusal(2, 2, kind)
    if len(frame) != FORMS[kind].size:
        raise Refusal(2, 3, len(frame))
    return kind, FORMS[kind].unpack(frame)


def answer(book, line):
    """The answer line to one line; neither has its byte 10."""
    try:
        kind, values = read_call(read_frame(line))
        results = book.call(kind, values)
    except Refusal as refusal:
        return "%02x%02x%04x" % (refusal.layer, refusal.number, refusal.place)
    return RESULTS[kind].pack(0, kind, *results).hex()


# --- lines A, B: the program ------------------------------------------------

def answers(book, lines):
    return "".join(answer(book, line) + "\n" for line in lines).encode("ascii")


def run(book, source, sink):
    """Answers what has been read before reading on; keeps at most 65 bytes of an open line."""
    begun = b""
    while chunk := os.read(source, CHUNK):
        *lines, begun = (begun + chunk).split(b"\n")
        begun = begun[:LONGEST_LINE + 1]
        sink.write(answers(book, lines))
        sink.flush()
    if begun:
        sink.write(answers(book, [begun]))
        sink.flush()


def places(text):
    number = int(text)
    if number < 0:
        raise ValueError(text)
    return number


def main():
    parser = argparse.ArgumentParser(description="Answers the lines of one book.")
    parser.add_argument("--places", type=places, metavar="N",
                        help="run over a ledger of movements with N places")
    options = parser.parse_args()
    book = Book(Ledger(options.places))
    run(book, sys.stdin.fileno(), sys.stdout.buffer)


if __name__ == "__main__":
    main()
