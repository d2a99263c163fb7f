"""Writes lines for a book: chance that repeats, calls as lines, and a session."""

import book
from book import CALLS, FIELDS, NAMES, RANGES

NO_DIGITS = b"ghzAF GZ/:`@\x00\r\x1b\x7f\x80\xff\t-+xX_."


class Dice:
    """Repeatable chance (splitmix64), the same with every version of Python."""

    def __init__(self, seed):
        self.state = seed & 0xFFFFFFFFFFFFFFFF

    def below(self, n):
        self.state = (self.state + 0x9E3779B97F4A7C15) & 0xFFFFFFFFFFFFFFFF
        z = self.state
        z = ((z ^ (z >> 30)) * 0xBF58476D1CE4E5B9) & 0xFFFFFFFFFFFFFFFF
        z = ((z ^ (z >> 27)) * 0x94D049BB133111EB) & 0xFFFFFFFFFFFFFFFF
        return (z ^ (z >> 31)) % n

    def within(self, low, high):
        return low + self.below(high - low + 1)

    def chance(self, of_hundred):
        return self.below(100) < of_hundred

    def choose(self, things):
        return things[self.below(len(things))]

    def shuffle(self, things):
        for i in range(len(things) - 1, 0, -1):
            j = self.below(i + 1)
            things[i], things[j] = things[j], things[i]


# --- writing calls ----------------------------------------------------------

LIMITS = {"B": (0, 255), "H": (0, 65_535), "I": (0, 4_294_967_295),
          "h": (-32_768, 32_767), "i": (-2_147_483_648, 2_147_483_647)}


def encode(name, *values):
    kind = NAMES.index(name)
    frame = bytearray(book.FORMS[kind].pack(*values))
    frame[0] = kind
    return frame.hex().encode("ascii")


def fits(field, values):
    low, high = LIMITS[FIELDS[field][0]]
    return [value for value in values if low <= value <= high]


def ranges_of(name, n=None, sort=None):
    """The ranges of a call's fields; a load's follow its sort and n."""
    ranges = list(RANGES[NAMES.index(name)])
    if name == "load":
        ranges[book.STEP_FIELD] = (1, n)
        if sort == 2:
            ranges[book.SHED_FIELD] = (0, 0)
            ranges[book.COEFFICIENT_FIELD] = (1_000, 1_000)
    return ranges


def fields_of(name):
    return CALLS[NAMES.index(name)][1]


def bad_values(name, place, ranges):
    """One below and one above the range of a field, and the ends of its bytes."""
    low, high = ranges[place]
    ends = LIMITS[FIELDS[fields_of(name)[place]][0]]
    found = fits(fields_of(name)[place], [low - 1, high + 1])
    return found + [end for end in ends if not low <= end <= high and end not in found]


def good_edges(ranges, place):
    low, high = ranges[place]
    return sorted({low, min(low + 1, high), max(high - 1, low), high})


def replaced(values, place, value):
    return values[:place] + (value,) + values[place + 1:]


class Session:
    """Lines for one book, and the book that has answered them so far."""

    def __init__(self, places=None, keep=None):
        self.book = book.Book(book.Ledger(places))
        self.lines = []
        self.keep = keep or self.lines.append
        self.count = 0
        self.last_newline = True

    def send(self, line):
        self.keep(line)
        self.count += 1
        return book.answer(self.book, line)

    def call(self, name, *values):
        return self.send(encode(name, *values))

    def text(self):
        text = b"\n".join(self.lines)
        return text + b"\n" if self.last_newline and self.lines else text

    # what stands

    def holding(self, account):
        return self.book.ledger.ask(account)

    def next_step(self, account, sort):
        return self.book.accounts[account].steps[sort] + 1

    # shorter ways

    def trading(self, n=1, security=1_000, accounts=(1, 2)):
        self.call("begin", n, security)
        for account in accounts:
            self.call("open", account)

    def grant(self, entity, account, guarantees):
        """Certifies exactly so many guarantees: Kj and Kh are 100."""
        self.call("certify", entity, account, 1, 100 * guarantees, 240, 700)

    def set_level(self, entity, guarantees):
        self.call("rebalance", entity, 100 * guarantees, 240, 700)

    def load(self, account, sort, metered, shed=0, gradient=0, coefficient=1_000,
             real=0, extreme=0, step=None):
        step = self.next_step(account, sort) if step is None else step
        return self.call("load", account, sort, step, metered, shed, gradient,
                         coefficient, real, extreme)

    def owe(self, account, guarantees, sort=1):
        """With n 1 and security coefficient 1,000: an obligation of so many."""
        self.load(account, sort, 100 * guarantees)

    def show(self, account, other):
        """Makes a holding seen: offers one guarantee and takes it back."""
        self.call("offer", 65_000, account, other, 1)
        self.call("recall", 65_000, account)

    def finish(self, shortage_price=1_000, surplus_price=900, reports=range(1, 6)):
        self.call("close")
        self.call("settle", shortage_price, surplus_price)
        for account in reports:
            self.call("report", account)
