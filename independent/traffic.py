"""Mixed traffic of any length: one long year, right calls and wrong ones."""

import book
from book import FIELDS, NAMES, RANGES
from writing import LIMITS, NO_DIGITS, bad_values, encode, fields_of, ranges_of, replaced


class Traffic:
    """A long year: right calls and wrong ones, chosen by what stands at the moment."""

    def __init__(self, s, dice, lines):
        self.s = s
        self.dice = dice
        self.lines = lines
        self.offering = True
        self.styles = {}

    # right calls

    def some_account(self):
        return self.dice.choose(list(self.s.book.accounts))

    def some_power(self):
        turn = self.dice.below(20)
        if turn < 3:
            return (0, 99_999_999, self.dice.within(0, 99_999_999))[turn]
        return self.dice.within(0, 5_000 if turn < 8 else 2_000_000)

    def some_hours(self):
        return self.dice.choose((240, 100, self.dice.within(0, 240), self.dice.within(0, 100)))

    def some_days(self):
        return self.dice.choose((700, 500, self.dice.within(0, 700), self.dice.within(0, 500)))

    def unused(self, register):
        number = self.dice.within(1, 90 if self.dice.chance(70) else 65_535)
        while number in register:
            number = number % 65_535 + 1
        return number

    def right_open(self):
        closed = [account for account in self.pool if account not in self.s.book.accounts]
        return ("open", (self.dice.choose(closed),)) if closed else None

    def right_certify(self):
        if not self.s.book.accounts:
            return None
        return "certify", (self.unused(self.s.book.entities), self.some_account(),
                           self.dice.within(1, 4), self.some_power(),
                           self.some_hours(), self.some_days())

    def right_rebalance(self):
        if not self.s.book.entities:
            return None
        return "rebalance", (self.dice.choose(list(self.s.book.entities)), self.some_power(),
                             self.some_hours(), self.some_days())

    def right_offer(self):
        if len(self.s.book.accounts) < 2:
            return None
        seller, buyer = self.some_account(), self.some_account()
        holding = self.s.holding(seller)
        if seller == buyer or holding == 0:
            return None
        amount = self.dice.choose((1, holding, self.dice.within(1, holding),
                                   self.dice.within(1, 1 + holding // 20),
                                   self.dice.within(1, 1 + holding // 20)))
        return "offer", (self.unused(self.s.book.offers), seller, buyer, min(amount, holding))

    def some_offer(self):
        return self.dice.choose(list(self.s.book.offers))

    def right_accept(self):
        if not self.s.book.offers:
            return None
        number = self.some_offer()
        return "accept", (number, self.s.book.offers[number].buyer)

    def right_recall(self):
        if not self.s.book.offers:
            return None
        number = self.some_offer()
        return "recall", (number, self.s.book.offers[number].seller)

    def figures(self, account, sort):
        """Metered to extreme; each series keeps to one style."""
        dice = self.dice
        style = self.styles.setdefault((account, sort), dice.below(4))
        if style < 2:
            figures = (dice.within(0, 2_000_000), dice.within(0, 50_000), dice.within(-2_000, 2_000),
                       dice.within(500, 1_500), dice.within(-1_500, 1_500), dice.within(-1_500, 1_500))
        elif style == 2:
            figures = tuple(dice.choose((low, high, dice.within(low, high)))
                            for low, high in RANGES[NAMES.index("load")][3:])
        else:
            figures = (dice.within(0, 100), 0, dice.within(-9_999, -1), dice.within(0, 9_999),
                       dice.within(0, 5_000), dice.within(-5_000, 0))
        metered, shed, gradient, coefficient, real, extreme = figures
        if sort == 2:
            shed, coefficient = 0, 1_000
        return metered, shed, gradient, coefficient, real, extreme

    def right_load(self):
        """The next step of a series that is not complete."""
        series = [series for series in self.series if series[0] in self.s.book.accounts
                  and self.s.next_step(*series) <= self.s.book.n]
        if not series:
            return None
        account, sort = self.dice.choose(series)
        return "load", (account, sort, self.s.next_step(account, sort)) + self.figures(account, sort)

    # wrong calls

    def wrong_field(self, call):
        """A right call with one or two fields out of range."""
        name, values = call
        sort = values[1] if name == "load" else None
        ranges = ranges_of(name, self.s.book.n or 1, sort)
        for _ in range(self.dice.within(1, 2)):
            place = self.dice.below(len(values))
            bad = bad_values(name, place, ranges)
            values = replaced(values, place, self.dice.choose(bad))
        return name, values

    def wrong_number(self, call):
        """A right call with one number that fits its range and not the book."""
        name, values = call
        account = self.dice.within(1, 64)
        if name == "certify":
            used = list(self.s.book.entities) or [1]
            return name, self.dice.choose((replaced(values, 1, account),
                                           replaced(values, 0, self.dice.choose(used))))
        if name == "rebalance":
            return name, self.dice.choose((replaced(values, 0, self.dice.within(1, 65_535)),
                                           replaced(values, 1, 0), replaced(values, 1, 1)))
        if name == "offer":
            used = list(self.s.book.offers) or [1]
            more = min(99_999_999, self.s.holding(values[1]) + self.dice.within(1, 99))
            return name, self.dice.choose((replaced(values, 1, account), replaced(values, 2, account),
                                           replaced(values, 2, values[1]), replaced(values, 3, more),
                                           replaced(values, 0, self.dice.choose(used))))
        if name in ("accept", "recall"):
            return name, self.dice.choose((replaced(values, 1, account),
                                           replaced(values, 0, self.dice.within(1, 99))))
        if name == "load":
            return name, self.dice.choose((replaced(values, 0, account),
                                           replaced(values, 1, 3 - values[1]),
                                           replaced(values, 2, self.dice.within(1, self.s.book.n)),
                                           replaced(values, 2, max(1, values[2] - 1)),
                                           replaced(values, 2, min(self.s.book.n, values[2] + 1))))
        return name, values

    def any_call(self):
        """Any kind at all, with fields from anywhere in their bytes or their range."""
        name = self.dice.choose(NAMES)
        values = []
        for field in fields_of(name):
            form, low, high = FIELDS[field]
            values.append(self.dice.choose((low, high, self.dice.within(low, high),
                                            self.dice.within(*LIMITS[form]))))
        return name, tuple(values)

    def odd_line(self):
        """A line that is no call."""
        dice = self.dice
        name, values = self.any_call()
        line = bytearray(encode(name, *values))
        turn = dice.below(8)
        if turn == 0:
            line[dice.below(len(line))] = dice.choose(NO_DIGITS)
        elif turn == 1:
            line = line[:-1]
        elif turn == 2:
            line = line[:-2]
        elif turn == 3:
            line += b"%02x" % dice.below(256)
        elif turn == 4:
            line[:2] = b"%02x" % dice.within(11, 255)
        elif turn == 5:
            line = bytearray(dice.choose(b"0123456789abcdef") for _ in range(dice.below(70)))
        elif turn == 6:
            line = bytearray(dice.choose(b"09af \r\x00\xffG") for _ in range(dice.below(70)))
        else:
            line += b"0" * dice.choose((0, 1, 17, 18, 19, 40, 60, 64))
        return bytes(line)

    # going on

    def say(self, call):
        name, values = call
        self.s.call(name, *values)

    def wished(self):
        """A right call for this moment."""
        turn = self.dice.below(100)
        if self.s.book.stage == book.CLOSED:
            return self.right_load()
        if self.s.book.stage != book.TRADING:
            return None
        rare = self.dice.below(10_000)
        if rare < self.open_share or len(self.s.book.accounts) < 2:
            return self.right_open()
        if rare < self.open_share + self.certify_share or len(self.s.book.entities) < 2:
            return self.right_certify()
        if turn < 12:
            return self.right_rebalance()
        if turn < 12 + self.load_share:
            return self.right_load()
        if turn < (80 if self.offering else 60) and (len(self.s.book.offers) < 32 or turn < 50):
            return self.right_offer()
        return self.right_accept() if self.dice.chance(60) else self.right_recall()

    def one(self):
        turn = self.dice.below(100)
        if self.dice.below(150) == 0:
            self.offering = not self.offering
        call = self.wished()
        if turn < 8:
            self.send_odd_line()
            return
        if turn < 12 or call is None:
            call = self.any_call()
            if call[0] in ("begin", "close", "settle") and self.moves(call[0]):
                call = "report", (self.dice.below(70),)
        elif turn < 20:
            call = self.wrong_field(call)
        elif turn < 35:
            call = self.wrong_number(call)
        self.say(call)

    def moves(self, name):
        """Whether the call could change the stage now, before its time."""
        return self.s.book.stage in book.STAGES[NAMES.index(name)]

    def send_odd_line(self):
        line = self.odd_line()
        if line[:2] in (b"00", b"08", b"09") and len(line) in (2, 10, 18):
            line += b"00"
        self.s.send(line)

    def reports(self):
        turn = self.dice.below(100)
        if turn < 75:
            self.s.call("report", self.dice.within(0, 66))
        elif turn < 85:
            self.send_odd_line()
        else:
            self.say(self.any_call())

    def plan_series(self, n):
        """The accounts that will be opened, and the series that will be loaded."""
        self.pool = list(range(1, 65))
        self.dice.shuffle(self.pool)
        self.pool = self.pool[:max(4, min(64, self.lines // 25))]
        pairs = [(account, sort) for account in self.pool for sort in (1, 2)]
        self.dice.shuffle(pairs)
        self.series = pairs[:max(2, min(128, self.lines // (4 * n)))]
        self.open_share = max(1, 20_000 * len(self.pool) // self.lines)
        self.certify_share = max(2, min(800, 2_000_000 // self.lines))
        self.load_share = max(3, min(25, 130 * n * len(self.series) // self.lines))

    def run(self):
        s, dice, lines = self.s, self.dice, self.lines
        n = dice.within(1, max(3, min(400, lines // 50)))
        self.plan_series(n)
        for _ in range(min(40, lines // 40)):
            self.one()
        s.call("begin", n, dice.choose((930, 930, 2_000, 0, dice.within(0, 2_000))))
        for account in self.pool[:3]:
            s.call("open", account)
        while s.count < lines * 70 // 100:
            self.one()
        s.call("settle", 1, 1)
        s.call("close")
        if s.book.stage == book.CLOSED:
            self.finish()
        while s.count < lines:
            self.reports() if s.book.stage == book.SETTLED else self.one()

    def finish(self):
        """Completes the series begun, then settles."""
        s, dice = self.s, self.dice
        self.series = [(account, sort) for account, sort in self.series
                       if account in s.book.accounts and s.next_step(account, sort) > 1]
        while self.right_load():
            self.one()
            if dice.below(20) == 0:
                s.call("settle", dice.within(0, 10_000_000), dice.within(0, 10_000_000))
                if s.book.stage == book.SETTLED:
                    return
        self.end_strays()
        s.call("settle", self.some_price(), self.some_price())

    def some_price(self):
        turn = self.dice.below(12)
        if turn < 3:
            return (0, 9_999_999, 400_000)[turn]
        return self.dice.within(0, 1_000 if turn < 8 else 9_999_999)

    def end_strays(self):
        """Completes what a wrong number began by chance."""
        for account in sorted(self.s.book.accounts):
            for sort in (1, 2):
                while 1 < self.s.next_step(account, sort) <= self.s.book.n:
                    self.s.load(account, sort, self.dice.within(0, 50_000))


def traffic(s, dice, lines):
    Traffic(s, dice, lines).run()
