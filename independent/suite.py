"""The stored suite: one function for each file, named as the file is.

Files named few-places-N-... are for a book over a ledger of movements with N places.
"""

import book
from book import NAMES
from traffic import traffic
from writing import NO_DIGITS, bad_values, encode, good_edges, ranges_of, replaced

SUITE = []


def stored(function):
    SUITE.append((function.__name__.replace("_", "-"), function))
    return function


def stored_as(name):
    def keep(function):
        SUITE.append((name, function))
        return function
    return keep


def places_of(name):
    """The places in a name such as few-places-3-offers; otherwise none."""
    return int(name.split("-")[2]) if name.startswith("few-places-") else None


# sessions of the page LINES.md

@stored
def session(s, dice):
    s.trading(2, 930)
    s.send(b"0g")
    s.call("certify", 7, 1, 3, 12_345, 0, 0)
    s.call("offer", 9, 1, 2, 40)
    s.call("accept", 9, 2)
    s.load(2, 2, 6_000, 0, -20, 1_000, 100, -400)
    s.load(2, 2, 6_000, 0, -20, 1_000, -400, -400)
    s.finish(1_000, 900, (2, 1, 3, 2, 1, 64, 0, 65, 255))


@stored
def session_of_refusals(s, dice):
    s.call("open", 1)
    s.call("begin", 0, 930)
    s.call("begin", 2, 2_001)
    s.trading(2, 930, (1, 1))
    s.call("certify", 8, 2, 1, 37_500, 23, 116)
    s.call("open", 2)
    s.call("certify", 8, 1, 5, 0, 0, 0)
    s.call("certify", 8, 1, 1, 37_500, 23, 116)
    s.call("certify", 8, 1, 1, 37_500, 23, 116)
    s.call("rebalance", 9, 37_500, 23, 116)
    for seller, buyer, amount in (1, 3, 1), (1, 1, 1), (1, 2, 102), (1, 2, 100), (1, 2, 1):
        s.call("offer", 1, seller, buyer, amount)
    s.call("rebalance", 8, 30_000, 23, 116)
    s.call("accept", 1, 1)
    s.call("recall", 1, 1)
    s.call("offer", 1, 1, 2, 100)
    s.call("close")
    second = (48_000, 0, 400, 1_100, 50, -250)
    s.load(1, 1, *second, step=2)
    s.load(1, 1, 50_000, 1_000, 400, 1_100, -100, -250)
    s.load(1, 1, *second, step=3)
    s.load(1, 2, 6_000, 1, -20, 1_000, 100, -400)
    s.load(1, 2, 6_000, 0, -20, 999, 100, -400)
    s.call("settle", 1_000, 900)
    s.load(1, 1, *second)
    s.call("settle", 10_000_000, 900)
    s.call("report", 1)
    s.call("settle", 1_000, 900)
    for account in 1, 2, 3:
        s.call("report", account)


# characters

@stored
def odd_bytes(s, dice):
    for byte in range(256):
        if byte != 10:
            s.send(bytes([byte]))


@stored
def odd_bytes_second(s, dice):
    for byte in range(256):
        if byte != 10:
            s.send(bytes([48, byte]))


@stored
def odd_bytes_in_a_call(s, dice):
    s.trading(5, 930)
    for index in range(46):
        line = bytearray(encode("load", 1, 1, 1, 5_000, 0, 20, 1_000, 10, -10))
        line[index] = dice.choose(NO_DIGITS)
        s.send(bytes(line))
    s.load(1, 1, 5_000, 0, 20, 1_000, 10, -10)
    s.load(1, 1, 5_000, 0, 20, 1_000, 10, -10)


@stored
def odd_bytes_at_every_index(s, dice):
    for index in range(64):
        line = bytearray(b"0" * 64)
        line[index] = dice.choose(NO_DIGITS)
        s.send(bytes(line))
    for index in range(63):
        line = bytearray(b"f" * 63)
        line[index] = dice.choose(NO_DIGITS)
        s.send(bytes(line))


@stored
def odd_bytes_twice_in_a_line(s, dice):
    for _ in range(150):
        line = bytearray(dice.choose(b"0123456789abcdef") for _ in range(dice.within(2, 64)))
        for _ in range(2):
            line[dice.below(len(line))] = dice.choose(NO_DIGITS)
        s.send(bytes(line))


@stored
def byte_13(s, dice):
    for line in (encode("begin", 1, 930), encode("open", 1), encode("open", 2), b"", b"\r",
                 encode("certify", 1, 1, 2, 5_000, 0, 0), encode("close"), encode("report", 1)):
        s.send(line + b"\r")
        s.send(b"\r" + line)
        s.send(line)
        s.send(line + b"\r\r")


@stored
def blanks(s, dice):
    for line in (encode("begin", 1, 930), encode("open", 1), b"", encode("close"),
                 encode("settle", 1, 1), encode("report", 1)):
        for blank in (b" ", b"\t", b"\x0b", b"\x0c", b"\xa0"):
            s.send(blank + line)
            s.send(line + blank)
            s.send(line[:2] + blank + line[2:])
        s.send(line)


@stored
def capitals(s, dice):
    good = [encode("begin", 175, 430), encode("open", 10), encode("open", 11),
            encode("certify", 0xABCD, 10, 1, 0xABCDEF, 0xAB, 0xAB),
            encode("rebalance", 0xABCD, 0xABCDEF, 0xBC, 0xBC),
            encode("offer", 0xFADE, 10, 11, 0xAB), encode("accept", 0xFADE, 11),
            encode("load", 10, 1, 1, 0xABCDEF, 0xABC, -0xABC, 0xABC, -0xABC, 0xABC),
            encode("close"), encode("report", 10)]
    for line in good:
        s.send(line.upper())
        for index in range(len(line)):
            if line[index:index + 1].isalpha() and index % 3 != 1:
                s.send(line[:index] + line[index:index + 1].upper() + line[index + 1:])
        s.send(line)


@stored
def not_quite_numbers(s, dice):
    for text in (b"0x01", b"0X01", b"+1", b"-1", b"+101", b"-101", b"1_0", b"01_1", b"0.", b".0",
                 b"1e", b"01e0", b"1e1", b"0h", b"01h", b"'01'", b'"01"', b"01;", b"#", b"#01",
                 b"\\x", b"\\n", b"%01", b"&1", b"null", b"nan", b"inf", b"begin", b"open 1",
                 b"\xef\xbc\x90\xef\xbc\x91", b"\xc3\xa9", b"\xd9\xa0\xd9\xa1", b"\xef\xbb\xbf01"):
        s.send(text)


@stored
def neighbours_of_digits(s, dice):
    """The bytes just outside 48 to 57 and 97 to 102."""
    for wrong in b"/:`g":
        for right in b"09af":
            s.send(bytes([wrong]))
            s.send(bytes([wrong, right]))
            s.send(bytes([right, wrong]))
            s.send(bytes([right, right, wrong]))
            s.send(bytes([right, right]))


@stored
def empty_lines(s, dice):
    for line in (b"", b"", encode("open", 1), b"", encode("begin", 1, 0), b"", b"", b"",
                 encode("open", 1), b"", encode("open", 1), b"", encode("close"), b"", b"",
                 encode("settle", 5, 5), b"", encode("report", 1), b"", b"", b"", b""):
        s.send(line)


@stored
def only_newlines(s, dice):
    for _ in range(40):
        s.send(b"")


@stored
def line_lengths(s, dice):
    for digit in (b"0", b"f"):
        for length in range(71):
            s.send(digit * length)


@stored
def line_lengths_with_a_wrong_character(s, dice):
    """1.1 before 1.2, 1.2 before 1.3."""
    for length in range(1, 71):
        s.send(b"0" * (length - 1) + b"g")
        s.send(b"G" + b"0" * (length - 1))
        s.send(b"\xff" * length)


@stored
def lengths_64_65_66(s, dice):
    load = encode("load", 1, 1, 1, 5_000, 0, 20, 1_000, 10, -10)
    s.trading(5, 930)
    for length in (46, 48, 62, 63, 64, 65, 66, 67, 68, 92, 127, 128, 129, 130, 192, 256, 320, 512):
        s.send((load + b"0" * length)[:length])
        s.send((load * 12)[:length])
        s.send((load + b" " * length)[:length])
        s.send((encode("close") * length)[:length])
    s.finish()


@stored
def odd_counts(s, dice):
    good = [encode("begin", 2, 930), encode("open", 1), encode("certify", 1, 1, 2, 9_000, 0, 0),
            encode("rebalance", 1, 9_500, 0, 0), encode("offer", 1, 1, 2, 5),
            encode("accept", 1, 2), encode("recall", 1, 1),
            encode("load", 1, 1, 1, 5_000, 0, 0, 1_000, 0, 0), encode("close"),
            encode("settle", 1, 1), encode("report", 1)]
    for line in good:
        s.send(line[:-1])
        s.send(line + b"0")
        s.send(line[1:])
        s.send(b"0" + line)
        s.send(line)
    for length in range(1, 64, 2):
        s.send(b"f" * length)


@stored
def very_long_lines(s, dice):
    s.trading(1, 930)
    for length in (100, 1_000, 4_095, 4_096, 4_097, 8_191, 8_192, 8_193,
                   32_768, 65_535, 65_536, 65_537, 131_072):
        s.send(b"0" * length)
        s.call("open", dice.within(1, 5))
    s.send(b"\x00" * 70_000)
    s.send(b"")
    s.send(b"\r" * 70_000)
    s.send(encode("close") * 20_000)
    s.finish()


@stored
def very_long_last_line(s, dice):
    s.trading(1, 930, range(1, 20))
    s.send(b"01" * 50_000)
    s.last_newline = False


# ends of input

@stored
def empty(s, dice):
    pass


@stored
def one_newline(s, dice):
    s.send(b"")


@stored
def two_newlines(s, dice):
    s.send(b"")
    s.send(b"")


def short_year(s):
    s.trading(1, 1_000, range(1, 9))
    s.grant(1, 1, 50)
    s.grant(2, 2, 70)
    s.owe(3, 30)
    s.owe(4, 20, 2)
    s.finish(800, 700, range(1, 9))


@stored
def ends_after_newline(s, dice):
    short_year(s)


@stored
def ends_after_empty_line(s, dice):
    short_year(s)
    s.send(b"")


@stored
def no_last_newline(s, dice):
    short_year(s)
    s.call("report", 3)
    s.last_newline = False


@stored
def no_last_newline_wrong_character(s, dice):
    short_year(s)
    s.send(b"0a0\r")
    s.last_newline = False


@stored
def no_last_newline_odd_count(s, dice):
    short_year(s)
    s.send(b"0a0")
    s.last_newline = False


@stored
def no_last_newline_64(s, dice):
    short_year(s)
    s.send(b"0" * 64)
    s.last_newline = False


@stored
def no_last_newline_65(s, dice):
    short_year(s)
    s.send(b"0" * 65)
    s.last_newline = False


@stored
def no_last_newline_one_byte_0(s, dice):
    short_year(s)
    s.send(b"\x00")
    s.last_newline = False


# frames

@stored
def unknown_kinds(s, dice):
    for kind in range(11, 256):
        s.send(b"%02x" % kind)


@stored
def unknown_kinds_at_any_length(s, dice):
    """2.2 before 2.3."""
    s.trading(2, 930)
    for kind in range(11, 256):
        s.send(b"%02x" % kind + b"%02x" % dice.below(256) * dice.within(1, 31))


def lengths_of(s, kinds):
    s.trading(400, 2_000, (1,))
    for kind in kinds:
        for length in range(1, 33):
            if length != book.FORMS[kind].size:
                s.send(b"%02x" % kind + b"01" * (length - 1))


@stored
def wrong_lengths_00_to_03(s, dice):
    lengths_of(s, range(0, 4))


@stored
def wrong_lengths_04_to_07(s, dice):
    lengths_of(s, range(4, 8))


@stored
def wrong_lengths_08_to_0a(s, dice):
    lengths_of(s, range(8, 11))


def one_off(s):
    """Every kind one byte short and one long; stage and fields are not looked at."""
    for kind in range(11):
        for digit in (b"00", b"01", b"ff"):
            for more in (-2, 0):
                s.send(b"%02x" % kind + digit * (book.FORMS[kind].size + more))


@stored
def wrong_lengths_in_every_stage(s, dice):
    one_off(s)
    s.trading(1, 1_000)
    one_off(s)
    s.call("close")
    one_off(s)
    s.call("settle", 1, 1)
    one_off(s)


# stages

def good_calls():
    return [encode("begin", 2, 930), encode("open", 9), encode("certify", 9, 1, 2, 9_000, 0, 0),
            encode("rebalance", 1, 100, 0, 0), encode("offer", 9, 1, 2, 1), encode("accept", 5, 2),
            encode("recall", 5, 1), encode("load", 1, 1, 1, 5, 0, 0, 1_000, 0, 0),
            encode("close"), encode("settle", 10, 10), encode("report", 1)]


def every_fault(n=2):
    """Every kind with each field out of range."""
    good = {"begin": (2, 930), "open": (9,), "certify": (9, 1, 2, 9_000, 0, 0),
            "rebalance": (1, 100, 0, 0), "offer": (9, 1, 2, 1), "accept": (5, 2), "recall": (5, 1),
            "load": (1, 1, 1, 5, 0, 0, 1_000, 0, 0), "close": (), "settle": (10, 10),
            "report": (1,)}
    for name, values in good.items():
        ranges = ranges_of(name, n, 1)
        for place in range(len(values)):
            for bad in bad_values(name, place, ranges)[:2]:
                yield name, replaced(values, place, bad)


def wrong_stage(s, right):
    """All calls whose stage this is not, right ones and wrong ones: 3.1 comes first."""
    for line in good_calls():
        if NAMES[int(line[:2], 16)] not in right:
            s.send(line)
    for name, values in every_fault():
        if name not in right:
            s.call(name, *values)
    for name, values in (("report", (60,)), ("load", (60, 1, 2, 5, 0, 0, 1_000, 0, 0)),
                         ("certify", (1, 60, 1, 5, 0, 0)), ("offer", (1, 60, 60, 5)),
                         ("accept", (60, 60)), ("rebalance", (60, 1, 1, 1)), ("open", (1,))):
        if name not in right:
            s.call(name, *values)


@stored
def wrong_stages_blank(s, dice):
    wrong_stage(s, ("begin",))
    s.trading(2, 930)
    s.show(1, 2)


@stored
def wrong_stages_trading(s, dice):
    s.trading(2, 930)
    s.grant(1, 1, 100)
    s.call("offer", 5, 1, 2, 10)
    wrong_stage(s, ("open", "certify", "rebalance", "offer", "accept", "recall", "load", "close"))
    s.call("accept", 5, 2)
    s.finish()


@stored
def wrong_stages_closed(s, dice):
    s.trading(2, 930)
    s.grant(1, 1, 100)
    s.call("offer", 5, 1, 2, 10)
    s.call("close")
    wrong_stage(s, ("load", "settle"))
    s.load(1, 1, 5_000)
    s.load(1, 1, 5_000)
    s.call("settle", 10, 20)
    s.call("report", 1)
    s.call("report", 2)


@stored
def wrong_stages_settled(s, dice):
    s.trading(2, 930)
    s.grant(1, 1, 100)
    s.call("offer", 5, 1, 2, 10)
    s.call("accept", 5, 2)
    s.finish(10, 20)
    wrong_stage(s, ("report",))
    s.call("report", 1)
    s.call("report", 2)


@stored
def every_call_once_more(s, dice):
    """Each right call of a year, then the same line again."""
    def twice(name, *values):
        s.call(name, *values)
        s.call(name, *values)
    twice("begin", 1, 1_000)
    twice("open", 1)
    twice("open", 2)
    twice("certify", 1, 1, 2, 99_999, 0, 0)
    twice("rebalance", 1, 77_777, 0, 0)
    twice("offer", 1, 1, 2, 100)
    twice("accept", 1, 2)
    twice("offer", 1, 1, 2, 100)
    twice("recall", 1, 1)
    twice("load", 1, 1, 1, 5_000, 0, 0, 1_000, 0, 0)
    twice("load", 1, 2, 1, 5_000, 0, 0, 1_000, 0, 0)
    twice("close")
    twice("settle", 100, 100)
    twice("report", 1)
    twice("report", 2)


# fields at their boundaries

@stored
def fields_begin(s, dice):
    ranges = ranges_of("begin")
    for place in range(2):
        for bad in bad_values("begin", place, ranges):
            for good in (0, 1, 2):
                other = ranges[1 - place][0] + good
                s.call("begin", *(bad, other) if place == 0 else (other, bad))
    s.trading(400, 2_000)
    s.load(1, 1, 7, step=400)
    s.load(1, 1, 7, step=401)
    s.load(1, 1, 7)


@stored
def fields_begin_lowest(s, dice):
    s.call("begin", 0, 0)
    s.trading(1, 0, range(1, 5))
    s.grant(1, 1, 9)
    for account in range(1, 5):
        s.load(account, 1, 99_999_999)
        s.load(account, 1, 5, step=0)
        s.load(account, 1, 5, step=1)
        s.load(account, 1, 5, step=2)
    s.finish()


@stored
def fields_begin_highest(s, dice):
    s.call("begin", 401, 2_000)
    s.call("begin", 400, 2_001)
    s.trading(400, 2_000, range(1, 5))
    for step in range(1, 16):
        s.load(1, 1, 99_999_999, 99_999_999)
    s.load(1, 1, 1, step=400)
    s.load(1, 1, 1, step=401)
    s.load(1, 1, 1, step=65_535)
    s.finish()


@stored
def fields_open(s, dice):
    s.call("begin", 1, 930)
    for account in (0, 65, 66, 127, 128, 255, 1, 2, 63, 64, 64, 63, 2, 1, 0, 65, 255):
        s.call("open", account)
    s.finish(1, 1, (0, 1, 2, 3, 62, 63, 64, 65, 255))


@stored
def fields_certify(s, dice):
    s.trading(1, 930, (1, 2, 63, 64))
    ranges = ranges_of("certify")
    number = 100
    for place in range(6):
        for value in good_edges(ranges, place) + bad_values("certify", place, ranges):
            number += 1
            s.call("certify", *replaced((number, 1, 1, 123_456, 55, 345), place, value))
    for account in (1, 2, 63, 64):
        s.show(account, 1 if account != 1 else 2)


@stored
def fields_rebalance(s, dice):
    s.trading(1, 930)
    ranges = ranges_of("rebalance")
    for entity in (1, 2, 65_534, 65_535):
        s.call("certify", entity, 1 + entity % 2, 1 + entity % 4, 50_000_000, 100, 500)
    for entity in (1, 65_535):
        for place in range(4):
            for value in good_edges(ranges, place) + bad_values("rebalance", place, ranges):
                s.call("rebalance", *replaced((entity, 654_321, 77, 234), place, value))
                s.show(1 + entity % 2, 2 - entity % 2)


@stored
def fields_offer(s, dice):
    s.trading(1, 930, (1, 2, 63, 64))
    for account in (1, 2, 63, 64):
        s.grant(account, account, 1_000_000 - 1)
    ranges = ranges_of("offer")
    for place in range(4):
        for value in good_edges(ranges, place) + bad_values("offer", place, ranges):
            values = replaced((7, 2, 63, 500), place, value)
            s.call("offer", *values)
            s.call("recall", *values[:2])


@stored
def fields_offer_amount(s, dice):
    s.trading(1, 930)
    s.grant(1, 1, 1_000)
    for amount in (0, 1, 999, 1_000, 1_001, 99_999_998, 99_999_999, 100_000_000, 2_147_483_647,
                   2_147_483_648, 4_294_967_295):
        s.call("offer", 1, 1, 2, amount)
        s.call("recall", 1, 1)
        s.call("offer", 1, 2, 1, amount)


def fields_of_ending(s, name):
    s.trading(1, 930, (1, 2, 63, 64))
    ranges = ranges_of(name)
    s.grant(1, 2, 1_000)
    s.grant(2, 63, 1_000)
    for place in range(2):
        for value in good_edges(ranges, place) + bad_values(name, place, ranges):
            values = replaced((9, 63), place, value)
            offer = values[0] or 1
            account = values[1] if values[1] in (1, 2, 63, 64) else 63
            other = 2 if account != 2 else 63
            s.grant(1_000 + len(s.lines), account, 3)
            s.call("offer", offer, *(other, account) if name == "accept" else (account, other), 3)
            s.call(name, *values)
            s.call(name, offer, account)


@stored
def fields_accept(s, dice):
    fields_of_ending(s, "accept")


@stored
def fields_recall(s, dice):
    fields_of_ending(s, "recall")


def fields_load(s, sort):
    n = 200
    s.trading(n, 930, (1, 2, 63, 64))
    ranges = ranges_of("load", n, sort)
    shed = 5 if sort == 1 else 0
    for place in range(9):
        for value in good_edges(ranges, place) + bad_values("load", place, ranges):
            account = value if place == 0 and value in (1, 2, 63, 64) else 1
            good = (account, sort, s.next_step(account, sort), 5_000, shed, 30, 1_000, 20, -20)
            s.call("load", *replaced(good, place, value))
    for _ in range(n - s.book.accounts[1].steps[sort]):
        s.load(1, sort, 5_000)
    s.load(1, sort, 5_000, step=n)
    s.load(1, sort, 5_000, step=n + 1)


@stored
def fields_load_sort_1(s, dice):
    fields_load(s, 1)


@stored
def fields_load_sort_2(s, dice):
    fields_load(s, 2)


@stored
def fields_load_n_1(s, dice):
    """Every lowest and highest value as the only step of an account, then reports."""
    s.trading(1, 2_000, range(1, 65))
    account = 0
    for sort in (1, 2):
        ranges = ranges_of("load", 1, sort)
        for place in range(3, 9):
            for value in good_edges(ranges, place):
                account += 1
                if account <= 64:
                    values = (account, sort, 1, 7_000, 0, 45, 1_000, 130, -270)
                    s.call("load", *replaced(values, place, value))
    s.finish(3, 2, range(1, 65))


@stored
def fields_settle(s, dice):
    ranges = ranges_of("settle")
    s.trading(1, 1_000)
    s.grant(1, 1, 10)
    s.owe(2, 7)
    s.call("close")
    for place in range(2):
        for bad in bad_values("settle", place, ranges):
            for other in (0, 1, 900, 9_999_999):
                s.call("settle", *(bad, other) if place == 0 else (other, bad))
    s.call("settle", 9_999_999, 9_999_999)
    s.call("report", 1)
    s.call("report", 2)


@stored
def fields_settle_lowest(s, dice):
    s.trading(1, 1_000, range(1, 9))
    s.grant(1, 1, 10)
    s.owe(2, 7)
    s.finish(0, 0, range(0, 10))


@stored
def fields_report(s, dice):
    s.trading(1, 1_000, (1, 2, 63, 64))
    s.grant(1, 64, 10)
    s.owe(63, 7)
    s.finish(5, 4, (0, 1, 2, 3, 62, 63, 64, 65, 66, 127, 128, 191, 255, 64, 63, 2, 1, 0))


# two faults in one call

def field_pairs(s, name, values, ranges):
    for first in range(len(values)):
        for second in range(first + 1, len(values)):
            one = bad_values(name, first, ranges)
            two = bad_values(name, second, ranges)
            s.call(name, *replaced(replaced(values, first, one[0]), second, two[0]))
            s.call(name, *replaced(replaced(values, first, one[-1]), second, two[-1]))


@stored
def order_of_fields(s, dice):
    field_pairs(s, "begin", (2, 930), ranges_of("begin"))
    s.trading(2, 930)
    s.grant(1, 1, 100)
    s.call("offer", 5, 1, 2, 10)
    for name, values in (("certify", (9, 1, 2, 9_000, 0, 0)), ("rebalance", (1, 100, 0, 0)),
                         ("offer", (9, 1, 2, 1)), ("accept", (5, 2)), ("recall", (5, 1))):
        field_pairs(s, name, values, ranges_of(name))
    s.call("close")
    field_pairs(s, "settle", (10, 10), ranges_of("settle"))
    s.call("settle", 10, 10)


def order_of_load_fields(s, sort):
    s.trading(3, 930)
    good = (1, sort, 1, 5_000, 0, 30, 1_000, 20, -20)
    field_pairs(s, "load", good, ranges_of("load", 3, sort))
    s.call("load", *good)


@stored
def order_of_fields_load_sort_1(s, dice):
    order_of_load_fields(s, 1)


@stored
def order_of_fields_load_sort_2(s, dice):
    order_of_load_fields(s, 2)


@stored
def order_of_fields_load_bad_sort(s, dice):
    """A sort of neither kind comes before shed and coefficient."""
    s.trading(3, 930)
    for sort in (0, 3, 4, 127, 128, 255):
        for shed, coefficient in ((0, 1_000), (1, 1_000), (0, 999), (100_000_000, 10_000)):
            s.call("load", 1, sort, 1, 5_000, shed, 30, coefficient, 20, -20)
            s.call("load", 3, sort, 1, 5_000, shed, 30, coefficient, 20, -20)
            s.call("load", 65, sort, 0, 5_000, shed, 30, coefficient, 20, -20)


def with_each_field_bad(s, name, faulty, n=1, sort=1):
    """A call with a fault of its own: the fault alone, then with each field out of range too."""
    ranges = ranges_of(name, n, sort)
    s.call(name, *faulty)
    for place in range(len(faulty)):
        for bad in bad_values(name, place, ranges)[:2]:
            s.call(name, *replaced(faulty, place, bad))


@stored
def order_fields_before_checks_certify(s, dice):
    s.trading()
    s.grant(1, 1, 5)
    with_each_field_bad(s, "certify", (9, 3, 2, 9_000, 0, 0))
    with_each_field_bad(s, "certify", (1, 1, 2, 9_000, 0, 0))
    for entity in range(2, 65):
        s.grant(entity, 2, entity)
    with_each_field_bad(s, "certify", (65, 1, 2, 9_000, 0, 0))
    s.show(1, 2)


@stored
def order_fields_before_checks_rebalance(s, dice):
    s.trading()
    s.grant(1, 1, 5)
    s.call("offer", 1, 1, 2, 3)
    with_each_field_bad(s, "rebalance", (2, 9_000, 0, 0))
    with_each_field_bad(s, "rebalance", (65_535, 9_000, 0, 0))
    with_each_field_bad(s, "rebalance", (1, 0, 0, 0))
    s.set_level(1, 2)
    s.set_level(1, 3)
    s.set_level(1, 6)


@stored
def order_fields_before_checks_offer(s, dice):
    s.trading(accounts=(1, 2, 3))
    s.grant(1, 1, 1_000)
    with_each_field_bad(s, "offer", (1, 60, 2, 5))
    with_each_field_bad(s, "offer", (1, 1, 60, 5))
    with_each_field_bad(s, "offer", (1, 1, 1, 5))
    with_each_field_bad(s, "offer", (1, 1, 2, 1_001))
    s.call("offer", 1, 1, 2, 5)
    with_each_field_bad(s, "offer", (1, 1, 2, 5))
    for number in range(2, 33):
        s.call("offer", number, 1, 2, 5)
    with_each_field_bad(s, "offer", (33, 1, 2, 5))
    s.call("close")


@stored
def order_fields_before_checks_accept_recall(s, dice):
    s.trading(accounts=(1, 2, 3))
    s.grant(1, 1, 1_000)
    s.call("offer", 1, 1, 2, 5)
    for name in ("accept", "recall"):
        for faulty in ((2, 1), (2, 2), (1, 3), (1, 60), (65_535, 60)):
            with_each_field_bad(s, name, faulty)
    s.call("accept", 1, 2)


@stored
def order_fields_before_checks_load(s, dice):
    figures = (5, 0, 30, 1_000, 20, -20)
    s.trading(3, 930)
    for sort in (1, 2):
        for account, step in ((60, 1), (60, 2), (1, 2), (1, 3)):
            with_each_field_bad(s, "load", (account, sort, step) + figures, 3, sort)


@stored
def order_fields_before_checks_settle_report(s, dice):
    s.trading(2, 1_000, (1, 2, 3))
    s.load(2, 1, 500)
    s.call("close")
    with_each_field_bad(s, "settle", (10, 10))
    s.load(2, 1, 500)
    s.call("settle", 10, 10)
    with_each_field_bad(s, "report", (1,))
    with_each_field_bad(s, "report", (4,))
    for account in range(60, 70):
        s.call("report", account)


@stored
def order_certify(s, dice):
    """Not open, number in use, register full: every two of them."""
    s.trading()
    s.grant(1, 1, 5)
    s.call("certify", 1, 3, 1, 100, 240, 700)
    s.call("certify", 2, 3, 1, 100, 240, 700)
    for entity in range(2, 65):
        s.grant(entity, 2, entity)
    s.call("certify", 1, 3, 1, 100, 240, 700)
    s.call("certify", 64, 3, 1, 100, 240, 700)
    s.call("certify", 65, 3, 1, 100, 240, 700)
    s.call("certify", 1, 1, 1, 100, 240, 700)
    s.call("certify", 64, 2, 1, 100, 240, 700)
    s.call("certify", 65, 1, 1, 100, 240, 700)
    s.call("certify", 65, 1, 1, 0, 0, 0)
    s.show(1, 2)
    s.show(2, 1)


@stored
def order_offer(s, dice):
    """Every two of an offer's own faults."""
    s.trading(accounts=(1, 2, 3))
    s.grant(1, 1, 100)

    def all_faults(number, more):
        for seller in (1, 2, 60, 61):
            for buyer in (1, 2, 60, 61):
                for amount in (1, more):
                    if (seller, buyer, amount) not in ((1, 2, 1), (1, 2, more)):
                        s.call("offer", number, seller, buyer, amount)

    all_faults(1, 101)
    s.call("offer", 1, 1, 2, 101)
    s.call("offer", 1, 1, 2, 1)
    all_faults(1, 101)
    s.call("offer", 1, 1, 2, 101)
    s.call("offer", 1, 1, 2, 1)
    for number in range(2, 33):
        s.call("offer", number, 1, 2, 1)
    for number in (32, 33):
        all_faults(number, 101)
        s.call("offer", number, 1, 2, 69)
        s.call("offer", number, 1, 2, 1)
    s.call("close")


@stored
def order_accept_recall(s, dice):
    s.trading(accounts=(1, 2, 3))
    s.grant(1, 1, 100)
    s.call("offer", 7, 1, 2, 10)
    for name in ("accept", "recall"):
        for number in (7, 8):
            for account in (1, 2, 3, 60, 64):
                if (name, number, account) not in (("accept", 7, 2), ("recall", 7, 1)):
                    s.call(name, number, account)
    s.call("accept", 7, 2)
    s.call("accept", 7, 2)
    s.call("recall", 7, 1)


@stored
def order_load(s, dice):
    s.trading(2, 930)
    for sort in (1, 2):
        for account in (1, 60):
            for step in (0, 1, 2, 3):
                if (account, step) != (1, 1):
                    s.load(account, sort, 500, step=step)
        s.load(1, sort, 500)
        for step in (0, 1, 3):
            s.load(1, sort, 500, step=step)
        s.load(1, sort, 500)
        for step in (0, 1, 2, 3, 4, 65_535):
            s.load(1, sort, 500, step=step)
    s.finish()


@stored
def order_rebalance(s, dice):
    """Rebalance has no check of a place; an equal level passes with nothing held."""
    s.trading()
    s.grant(1, 1, 100)
    s.call("offer", 1, 1, 2, 100)
    for guarantees in (100, 99, 0, 101, 100, 99, 100, 0):
        s.set_level(1, guarantees)
        s.set_level(2, guarantees)
    s.call("accept", 1, 2)
    s.set_level(1, 99)
    s.call("offer", 2, 2, 1, 1)
    s.call("accept", 2, 1)
    s.set_level(1, 98)
    s.set_level(1, 99)
    s.set_level(1, 98)


# levels

@stored
def hours_every_value(s, dice):
    s.trading()
    s.call("certify", 1, 1, 1, 1_000_000, 0, 700)
    for hours in range(256):
        s.call("rebalance", 1, 1_000_000, hours, 700)


def days_from(s, first, last):
    s.trading()
    s.call("certify", 1, 1, 1, 1_000_000, 240, 0)
    for days in range(first, last + 1):
        s.call("rebalance", 1, 1_000_000, 240, days)


@stored
def days_0_to_250(s, dice):
    days_from(s, 0, 250)


@stored
def days_251_to_500(s, dice):
    days_from(s, 251, 500)


@stored
def days_501_to_710(s, dice):
    days_from(s, 501, 710)


@stored
def hours_and_days(s, dice):
    s.trading()
    s.call("certify", 1, 1, 1, 0, 0, 0)
    for _ in range(250):
        s.call("rebalance", 1, dice.within(0, 99_999_999), dice.within(0, 245), dice.within(0, 510))


@stored
def method_1_rounding(s, dice):
    """Powers at which the dropped digit turns from 5 to 6."""
    s.trading()
    s.call("certify", 1, 1, 1, 0, 0, 0)
    while s.count < 280:
        hours, days = dice.within(3, 110), dice.within(10, 520)
        parts = book.kj(hours) * book.kh(days)
        if parts:
            whole = dice.within(0, 99_000_000 * parts // 1_000_000)
            power = -((-(10 * whole + 6) * 100_000) // parts)
            s.call("rebalance", 1, power - 1, hours, days)
            s.call("rebalance", 1, power, hours, days)


@stored
def methods_2_to_4_rounding(s, dice):
    s.trading()
    for method in (2, 3, 4):
        s.call("certify", method, 1, method, 0, 0, 0)
        share = book.SHARE[method]
        for turn in range(24):
            whole = turn if turn < 12 else dice.within(0, 9_999 * share)
            for digit in (5, 6):
                power = -((-(10 * whole + digit) * 1_000) // share)
                s.call("rebalance", method, power, dice.below(241), dice.below(701))
                if power:
                    s.call("rebalance", method, power - 1, dice.below(241), dice.below(701))


@stored
def methods_side_by_side(s, dice):
    s.trading(accounts=(1, 2, 3, 4))
    number = 0
    for power in (0, 1, 37_500, 1_020, 1_040, 12_345, 100, 60, 70, 71, 85, 86, 99_999_999,
                  50_000_000, 240):
        for method in (1, 2, 3, 4):
            number += 1
            s.call("certify", number, method, method, power, 23, 116)
    for account in (1, 2, 3, 4):
        s.show(account, 5 - account if account != 5 - account else 1)


@stored
def method_stays(s, dice):
    """A rebalance keeps the method of certify."""
    s.trading()
    for method in (1, 2, 3, 4):
        s.call("certify", method, 1, method, 10_000, 100, 500)
    for power in (0, 20_000, 10_000, 99_999_999, 1):
        for entity in (1, 2, 3, 4):
            s.call("rebalance", entity, power, 0, 0)
            s.call("rebalance", entity, power, 240, 700)
    s.show(1, 2)


@stored
def highest_levels(s, dice):
    s.trading(accounts=(1, 2))
    for entity in range(1, 65):
        s.call("certify", entity, 1, 1, 99_999_999 - entity % 3, 98 + entity, 496 + entity)
    s.show(1, 2)
    s.call("offer", 1, 1, 2, 64_000_000)
    s.call("offer", 2, 1, 2, 1)
    s.call("accept", 1, 2)
    s.call("offer", 1, 2, 1, 64_000_000)
    s.finish(9_999_999, 9_999_999)


@stored
def level_0(s, dice):
    s.trading()
    for entity in range(1, 10):
        s.call("certify", entity, 1, 1, 99_999_999, 2, entity * 77)
        s.call("certify", 100 + entity, 1, 1, 99_999_999, entity * 25, 5)
        s.call("certify", 200 + entity, 1, 1 + entity % 4, entity, 240, 700)
    s.show(1, 2)
    for entity in range(1, 10):
        s.call("rebalance", entity, 0, 0, 0)
        s.call("rebalance", entity, 100, 240, 700)
        s.call("rebalance", entity, 100, 240, 700)
        s.call("rebalance", entity, 0, 240, 700)
        s.call("rebalance", entity, 0, 240, 700)
    s.show(1, 2)


# registers

@stored
def open_every_account(s, dice):
    s.call("begin", 1, 930)
    for account in range(1, 65):
        s.call("open", account)
    for account in range(1, 65):
        s.call("open", account)
    s.finish(1, 1, range(0, 66))


@stored
def open_every_account_backwards(s, dice):
    s.call("begin", 1, 1_000)
    for account in range(64, 0, -1):
        s.call("open", account)
        s.grant(65 - account, account, account)
    for account in range(64, 0, -1):
        s.owe(account, 33)
    s.finish(10, 9, range(64, 0, -1))


@stored
def open_every_account_shuffled(s, dice):
    accounts = list(range(1, 65))
    dice.shuffle(accounts)
    s.call("begin", 1, 1_000)
    for account in accounts:
        s.call("open", account)
        s.call("open", dice.within(1, 64))
    dice.shuffle(accounts)
    for account in accounts:
        s.owe(account, account)
    s.finish(10, 9, accounts)


@stored
def registers_full(s, dice):
    """64 accounts, 64 entities, 32 offers; then one more of each."""
    s.trading(accounts=range(1, 65))
    for entity in range(1, 65):
        s.grant(entity, entity, 10 * entity)
    for offer in range(1, 33):
        s.call("offer", offer, offer, 65 - offer, offer)
    s.call("open", 1)
    s.grant(65, 1, 1)
    s.grant(64, 1, 1)
    s.call("offer", 33, 1, 2, 1)
    s.call("offer", 32, 1, 2, 1)
    s.call("accept", 16, 49)
    s.call("offer", 33, 1, 2, 1)
    s.call("offer", 34, 1, 2, 1)
    s.set_level(64, 641)
    s.call("close")


@stored
def registers_full_entities(s, dice):
    numbers = [1, 65_535, 32_768, 255, 256]
    while len(numbers) < 64:
        number = dice.within(1, 65_535)
        if number not in numbers:
            numbers.append(number)
    s.trading()
    for place, number in enumerate(numbers):
        s.grant(number, 1 + place % 2, place)
        s.grant(dice.choose(numbers[:place + 1]), 1, 3)
    for number in (2, 3, 65_534, numbers[63], numbers[0]):
        s.grant(number, 1, 3)
        s.call("certify", number, 1, 1, 0, 0, 0)
    dice.shuffle(numbers)
    for number in numbers:
        s.set_level(number, dice.below(64))
    s.show(1, 2)


@stored
def registers_full_offers(s, dice):
    """A freed place is used again, whichever it was."""
    s.trading(accounts=(1, 2, 3))
    s.grant(1, 1, 100_000)
    for offer in range(10, 42):
        s.call("offer", offer, 1, 2, offer)
    for freed in (10, 41, 25, 11, 40):
        s.call("offer", 9, 1, 2, 1)
        s.call("offer", freed, 1, 2, 1)
        s.call("accept", freed, 2)
        s.call("offer", 100 + freed, 1, 3, 2 * freed)
        s.call("offer", 200 + freed, 1, 3, 2 * freed)
        s.call("offer", freed, 1, 3, 2 * freed)
        s.call("recall", 100 + freed, 1)
        s.call("offer", freed, 1, 3, 3 * freed)
        s.call("offer", 9, 1, 3, 3 * freed)
    for offer in range(10, 42):
        s.call("accept", offer, 3)
        s.call("accept", offer, 2)
    s.call("close")


@stored
def offer_numbers_used_again(s, dice):
    s.trading(accounts=(1, 2))
    s.grant(1, 1, 10)
    for turn in range(1, 25):
        seller, buyer = (1, 2) if turn % 2 else (2, 1)
        s.call("offer", 65_535, seller, buyer, 10)
        s.call("offer", 65_535, buyer, seller, 10)
        s.call("accept", 65_535, buyer)
        s.call("accept", 65_535, buyer)


@stored
def offers_in_any_order(s, dice):
    """Numbers come and go at the front, in the middle and at the end."""
    s.trading(accounts=range(1, 9))
    for account in range(1, 9):
        s.grant(account, account, 1_000)
    while s.count < 280:
        standing = sorted(s.book.offers)
        if standing and (len(standing) == 32 or dice.chance(45)):
            number = dice.choose([standing[0], standing[-1], dice.choose(standing)])
            record = s.book.offers[number]
            if dice.chance(50):
                s.call("accept", number, record.buyer)
            else:
                s.call("recall", number, record.seller)
        else:
            seller = dice.within(1, 8)
            s.call("offer", dice.within(1, 40), seller, 1 + seller % 8, dice.within(1, 90))
    s.call("close")


@stored
def same_number_of_entity_and_offer(s, dice):
    s.trading(accounts=(1, 2, 5))
    for number in (1, 2, 5, 64, 65_535):
        s.grant(number, 1, 50)
        s.call("offer", number, 1, 2, 20)
        s.grant(number, 1, 50)
        s.call("offer", number, 1, 2, 20)
        s.set_level(number, 60)
        s.call("accept", number, 2)
        s.set_level(number, 40)
        s.call("accept", number, 2)
    s.call("rebalance", 3, 1, 1, 1)
    s.call("accept", 3, 1)


# trading

@stored
def rebalance_raise_and_cut(s, dice):
    s.trading()
    s.grant(1, 1, 500)
    s.grant(2, 2, 500)
    for _ in range(60):
        s.set_level(dice.within(1, 2), dice.within(0, 1_000))
        s.show(dice.within(1, 2), dice.within(1, 2))


@stored
def rebalance_cut_above_holding(s, dice):
    s.trading(accounts=(1, 2))
    s.grant(1, 1, 100)
    s.grant(2, 1, 50)
    s.call("offer", 1, 1, 2, 120)
    for guarantees in (70, 69, 0, 70, 69, 100, 71, 70, 69):
        s.set_level(1, guarantees)
        s.show(1, 2)
    s.call("recall", 1, 1)
    s.set_level(1, 0)
    s.set_level(2, 0)
    s.show(1, 2)


@stored
def rebalance_uses_the_whole_account(s, dice):
    """A cut is judged by the account's holding, not by the entity's part in it."""
    s.trading(accounts=(1, 2, 3))
    s.grant(1, 1, 100)
    s.grant(2, 2, 100)
    s.call("offer", 1, 1, 3, 100)
    s.set_level(1, 40)
    s.call("offer", 2, 2, 1, 60)
    s.set_level(1, 40)
    s.call("accept", 2, 1)
    s.set_level(1, 39)
    s.set_level(1, 40)
    s.set_level(1, 0)
    s.call("accept", 1, 3)
    s.set_level(1, 39)
    s.call("offer", 3, 3, 1, 100)
    s.call("accept", 3, 1)
    s.set_level(1, 0)
    s.show(1, 2)
    s.show(3, 2)


@stored
def offer_all_of_holding(s, dice):
    s.trading(accounts=(1, 2))
    for account in (1, 2):
        s.grant(account, account, 1)
    for amount in (1, 2, 3):
        s.call("offer", 1, 1, 2, amount)
        s.call("offer", 2, 1, 2, amount)
        s.call("offer", 3, 2, 1, amount)
        s.call("accept", 1, 2)
        s.call("offer", 4, 2, 1, amount)
        s.call("offer", 5, 2, 1, amount + 1)
        s.call("accept", 3, 1)


@stored
def offers_in_a_circle(s, dice):
    accounts = list(range(1, 11))
    s.trading(accounts=accounts)
    s.grant(1, 1, 777)
    for turn in range(50):
        seller = 1 + turn % 10
        buyer = 1 + seller % 10
        s.call("offer", turn + 1, seller, buyer, 777)
        if turn % 7 == 3:
            s.call("recall", turn + 1, buyer)
            s.call("recall", turn + 1, seller)
            s.call("offer", turn + 1, seller, buyer, 777)
        s.call("accept", turn + 1, seller)
        s.call("accept", turn + 1, buyer)


@stored
def accept_and_recall_by_everyone(s, dice):
    s.trading(accounts=(1, 2, 3))
    s.grant(1, 1, 500)
    s.call("offer", 3, 1, 2, 5)
    for account in range(64, 2, -1):
        s.call("accept", 3, account)
        s.call("recall", 3, account)
    s.call("accept", 3, 1)
    s.call("recall", 3, 2)
    s.call("recall", 3, 1)


@stored
def close_with_no_offer(s, dice):
    s.trading(accounts=range(1, 9))
    s.grant(1, 1, 50)
    s.call("offer", 1, 1, 2, 30)
    s.call("accept", 1, 2)
    s.call("offer", 2, 1, 2, 20)
    s.call("recall", 2, 1)
    s.finish(1, 1, range(1, 10))


@stored
def close_returns_1_offer(s, dice):
    s.trading(accounts=range(1, 9))
    s.grant(1, 1, 50)
    s.call("offer", 40_000, 1, 2, 30)
    s.call("close")
    s.call("accept", 40_000, 2)
    s.call("recall", 40_000, 1)
    s.call("settle", 1, 1)
    for account in range(1, 10):
        s.call("report", account)


@stored
def close_returns_32_offers(s, dice):
    s.trading(accounts=range(1, 17))
    for account in range(1, 17):
        s.grant(account, account, 1_000 + account)
    for offer in range(32):
        seller = 1 + offer % 16
        s.call("offer", 64_000 - 100 * offer, seller, 1 + seller % 16, 1 + 7 * offer)
    s.finish(5, 4, range(1, 18))


@stored
def close_returns_31_of_many(s, dice):
    s.trading(accounts=(1, 2, 3))
    s.grant(1, 1, 5_000)
    for offer in range(1, 34):
        s.call("offer", offer, 1, 2 + offer % 2, offer)
    s.call("accept", 16, 2)
    s.finish(5, 4, (1, 2, 3))


@stored
def refused_calls_change_nothing(s, dice):
    s.call("begin", 401, 7)
    s.call("begin", 7, 2_001)
    s.trading(2, 1_000, (1, 2))
    s.call("begin", 1, 0)
    s.grant(1, 1, 100)
    s.grant(1, 2, 500)
    s.call("certify", 2, 2, 9, 100, 240, 700)
    s.call("certify", 2, 2, 1, 100, 241, 700)
    s.grant(2, 2, 30)
    s.show(2, 1)
    s.call("offer", 1, 1, 2, 90)
    s.set_level(1, 80)
    s.set_level(1, 100)
    s.call("offer", 1, 2, 1, 7)
    s.call("accept", 1, 1)
    s.call("recall", 1, 2)
    s.call("offer", 2, 1, 2, 11)
    s.call("accept", 2, 2)
    s.call("accept", 1, 2)
    s.show(2, 1)
    s.load(1, 1, 500, step=2)
    s.load(1, 1, 100_000_000)
    s.load(1, 1, 500)
    s.load(1, 1, 900, step=1)
    s.load(1, 1, 500, real=5_001)
    s.load(1, 1, 500)
    s.load(2, 2, 40_000)
    s.load(2, 2, 40_000, shed=1)
    s.call("settle", 1, 1)
    s.call("close")
    s.call("settle", 77, 66)
    s.call("settle", 10_000_000, 66)
    s.load(2, 2, 40_000, coefficient=1_001)
    s.load(2, 2, 40_000)
    s.call("settle", 50, 10_000_000)
    s.call("settle", 50, 40)
    s.call("settle", 10, 10)
    for account in (1, 2, 3, 1, 2):
        s.call("report", account)


# loads

@stored
def load_sort_1(s, dice):
    s.trading(30, 930, (1, 2, 3))
    for _ in range(30):
        for account in (1, 2, 3):
            s.load(account, 1, dice.within(40_000, 60_000), dice.within(0, 5_000),
                   dice.within(-500, 500), dice.within(800, 1_200),
                   dice.within(-900, 900), dice.within(-900, 900))
    s.finish()


@stored
def load_sort_2(s, dice):
    s.trading(30, 930, (1, 2, 3))
    for _ in range(30):
        for account in (1, 2, 3):
            s.load(account, 2, dice.within(40_000, 60_000), 0, dice.within(-500, 500), 1_000,
                   dice.within(-900, 900), dice.within(-900, 900))
    s.finish()


@stored
def load_both_sorts(s, dice):
    """Two series that grow apart, some in trading and some when closed."""
    n = 20
    s.trading(n, 1_234, (1, 2, 3, 4))
    s.grant(1, 1, 9_000)

    def some(turns):
        for _ in range(turns):
            account, sort = dice.within(1, 4), dice.within(1, 2)
            if s.next_step(account, sort) <= n:
                s.load(account, sort, dice.within(0, 90_000),
                       dice.within(0, 9_000) if sort == 1 else 0, dice.within(-900, 900),
                       dice.within(0, 2_000) if sort == 1 else 1_000,
                       dice.within(-900, 900), dice.within(-900, 900))

    some(80)
    s.call("close")
    some(40)
    s.call("settle", 100, 90)
    for account in (1, 2, 3, 4):
        for sort in (1, 2):
            while s.next_step(account, sort) <= n:
                s.load(account, sort, 1_000)
    s.call("settle", 100, 90)
    for account in range(1, 6):
        s.call("report", account)


@stored
def load_out_of_turn(s, dice):
    s.trading(6, 930)
    for _ in range(6):
        for sort in (1, 2):
            for account in (1, 2):
                for step in range(0, 8):
                    if step != s.next_step(account, sort) and dice.chance(40):
                        s.load(account, sort, 1_000, step=step)
                s.load(account, sort, 1_000)
    for step in range(0, 9):
        s.load(1, 1, 1_000, step=step)
        s.load(2, 2, 1_000, step=step)
    s.finish()


@stored
def load_when_closed(s, dice):
    s.trading(5, 930, (1, 2))
    s.call("close")
    for _ in range(5):
        for sort in (1, 2):
            s.load(1, sort, 70_000)
    s.load(1, 1, 70_000, step=5)
    s.load(1, 2, 70_000, step=6)
    s.load(3, 1, 70_000, step=1)
    s.load(2, 1, 70_000, step=2)
    s.call("settle", 5, 5)
    s.load(2, 1, 70_000)
    for account in (1, 2, 3):
        s.call("report", account)


@stored
def load_accounts_not_open(s, dice):
    s.trading(2, 930, (10,))
    for account in list(range(1, 30)) + [63, 64, 65, 0]:
        s.load(account, 1 + account % 2, 100, step=1)
    s.finish(1, 1, (9, 10, 11))


@stored
def signs_of_both_sorts(s, dice):
    """Gradient and temperatures of either sign, in both sorts."""
    s.trading(1, 2_000, range(1, 33))
    account = 0
    for sort in (1, 2):
        for gradient in (-300, 300):
            for real in (-700, 700):
                for extreme in (-400, 400):
                    account += 1
                    s.load(account, sort, 50_000, 0, gradient, 1_000, real, extreme)
    s.finish(10, 10, range(1, 33))


@stored
def shed_and_coefficient(s, dice):
    s.trading(1, 1_000, range(1, 31))
    for account in range(1, 31):
        s.load(account, 1, 1_000 * account, 50 * (account % 7), 100, 350 * (account % 5),
               10 * account, -100)
    s.finish(10, 10, range(1, 31))


@stored
def sums_negative(s, dice):
    """A sum below 0, at 0, and the two sorts against each other."""
    s.trading(1, 2_000, range(1, 41))
    sums = (-1, 0, 1, -100_000, 100_000, -99_999, 99_999, 2_999_999, 3_000_000, 3_000_001)
    account = 0
    for target in sums:
        account += 1
        metered, more = divmod(target, 100_000) if target >= 0 else (0, target)
        s.load(account, 1, metered, 0, more, 1, 1, 0)
        account += 1
        s.load(account, 1, metered + 5_000, 0, more, 1, 1, 0)
        s.load(account, 2, 0, 0, -500, 1_000, -500, 500)
        account += 1
        s.load(account, 1, 0, 0, -9_999_999, 9_999, 5_000, -5_000)
        s.load(account, 2, 99_999_999, 0, 9_999_999, 1_000, -5_000, 5_000)
        account += 1
        s.load(account, 2, metered + 10, 0, -1, 1_000, 1_000, 0)
    s.finish(10, 10, range(1, 41))


@stored
def sums_negative_then_positive(s, dice):
    """Steps below 0 are made good by later ones: only the whole sum counts."""
    s.trading(3, 2_000, (1, 2, 3, 4, 5))
    for account, metered in ((1, 0), (2, 500), (3, 900), (4, 1_500), (5, 3_000)):
        s.load(account, 1, 0, 0, 100, 1_000, -1_000, 0)
        s.load(account, 1, metered, 0, 0, 0, 0, 0)
        s.load(account, 1, metered, 0, 0, 0, 0, 0)
        s.load(account, 2, 0, 0, 10, 1_000, 1_000, 0)
        s.load(account, 2, metered // 10)
        s.load(account, 2, metered // 10)
    s.finish(7, 7, range(1, 7))


@stored
def sums_rounded_once(s, dice):
    """Each sort has a part of a kW; only together do they reach one."""
    s.trading(1, 2_000, range(1, 25))
    for account in range(1, 25):
        s.load(account, 1, 29, 0, account * 4_000, 1, 1, 0)
        s.load(account, 2, 0, 0, account * 4, 1_000, 0, 1)
    s.finish(7, 7, range(1, 25))


@stored
def reference_power_rounded_down(s, dice):
    """With n 7 and 2,000 thousandths: 50 kW for a guarantee, turning at 30."""
    s.trading(7, 2_000, range(1, 15))
    for account in range(1, 15):
        s.load(account, 1, 7 * 30 + account - 7)
        for _ in range(6):
            s.load(account, 1, 0)
    s.finish(7, 7, range(1, 15))


def obligation_rounding(s, dice, security):
    s.trading(1, security, range(1, 65))
    for account in range(1, 65):
        whole = account if account < 20 else dice.within(0, 99_000_000 * security // 100_000)
        power = -((-(10 * whole + 6) * 10_000) // security)
        s.load(account, 1 + account % 2, min(power - account % 3, 99_999_999))
    s.finish(9, 8, range(1, 65))


@stored
def obligation_rounding_930(s, dice):
    obligation_rounding(s, dice, 930)


@stored
def obligation_rounding_1999(s, dice):
    obligation_rounding(s, dice, 1_999)


@stored
def obligation_rounding_1(s, dice):
    obligation_rounding(s, dice, 1)


@stored
def obligation_with_security_0(s, dice):
    s.trading(1, 0, range(1, 10))
    s.grant(1, 1, 5)
    for account in range(1, 10):
        s.load(account, 1, 99_999_999, 99_999_999)
        s.load(account, 2, 99_999_999)
    s.finish(9, 8, range(1, 10))


def load_most(s, account):
    s.load(account, 1, 99_999_999, 99_999_999, 9_999_999, 9_999, 5_000, -5_000)
    s.load(account, 2, 99_999_999, 0, 9_999_999, 1_000, -5_000, 5_000)


def load_least(s, account):
    s.load(account, 1, 0, 0, -9_999_999, 9_999, 5_000, -5_000)
    s.load(account, 2, 0, 0, 9_999_999, 1_000, 5_000, -5_000)


@stored
def obligations_largest(s, dice):
    """64 accounts with the highest obligation there is, at the highest price."""
    s.trading(1, 2_000, range(1, 65))
    for account in range(1, 65):
        load_most(s, account)
    s.finish(9_999_999, 9_999_999, range(1, 65))


@stored
def obligations_largest_and_a_surplus(s, dice):
    s.trading(1, 2_000, range(1, 11))
    s.grant(1, 1, 1_000_000)
    s.grant(2, 2, 1)
    for account in range(3, 10):
        load_most(s, account)
    load_least(s, 10)
    s.finish(9_999_999, 9_999_999, range(1, 11))


@stored
def sum_largest_400_steps(s, dice):
    s.trading(400, 2_000, (1,))
    for _ in range(400):
        load_most(s, 1)
    s.finish(9_999_999, 1, (1,))


@stored
def sum_lowest_400_steps(s, dice):
    s.trading(400, 2_000, (1,))
    for _ in range(400):
        load_least(s, 1)
    s.finish(9_999_999, 1, (1,))


@stored
def sum_lowest_then_largest(s, dice):
    n = 60
    s.trading(n, 2_000, (1, 2))
    for step in range(n):
        (load_least if step % 2 else load_most)(s, 1)
        (load_most if step % 2 else load_least)(s, 2)
    s.finish(3, 2, (1, 2))


# settling

def year(s, holdings, obligations, shortage_price, surplus_price):
    """Accounts from 1 on with these holdings and obligations, settled and reported."""
    accounts = range(1, max(len(holdings), len(obligations)) + 1)
    s.trading(1, 1_000, accounts)
    for account, guarantees in enumerate(holdings, 1):
        s.grant(account, account, guarantees)
    for account, guarantees in enumerate(obligations, 1):
        if guarantees is not None:
            s.owe(account, guarantees, 1 + account % 2)
    s.finish(shortage_price, surplus_price, list(accounts) + [len(accounts) + 1])
    while s.count < 20:
        s.call("report", 1 + s.count % 5)


@stored
def settle_with_cut_price(s, dice):
    year(s, (46, 40, 0), (None, 56, None), 1_000, 900)


@stored
def settle_with_cut_price_to_0(s, dice):
    """Less is collected than there are guarantees of surplus."""
    year(s, (10_000, 40, 0), (None, 50, None), 999, 900)


@stored
def settle_with_cut_price_many(s, dice):
    year(s, [dice.within(0, 5_000) for _ in range(64)],
         [dice.within(0, 4_000) for _ in range(64)], 1_234, 9_999_999)


@stored
def settle_without_cut(s, dice):
    year(s, [dice.within(0, 3_000) for _ in range(64)],
         [dice.within(0, 5_000) for _ in range(64)], 1_234, 777)


@stored
def settle_price_just_covered(s, dice):
    """Collected ÷ surplus is exactly the surplus price."""
    year(s, (100, 0, 50), (0, 90, 10), 700, 450)


@stored
def settle_price_one_cent_short(s, dice):
    """(99 × 700) ÷ 154 is exactly 450: a surplus price of 451 is cut to it."""
    year(s, (100, 0, 64), (0, 99, 10), 700, 451)


@stored
def settle_price_one_cent_spare(s, dice):
    year(s, (100, 0, 64), (0, 99, 10), 700, 449)


@stored
def settle_price_nearly_covered(s, dice):
    """Collected is one cent under what the price would pay out."""
    year(s, (7, 0), (0, 5), 67, 48)
    s.call("report", 2)


@stored
def settle_no_surplus(s, dice):
    year(s, (5, 6, 7, 8), (9, 6, 70, 9), 100, 90)


@stored
def settle_no_shortage(s, dice):
    year(s, (5, 6, 7, 8), (1, 6, None, 0), 100, 90)


@stored
def settle_all_gaps_0(s, dice):
    year(s, (5, 6, 7, 8, 0), (5, 6, 7, 8, None), 100, 90)


@stored
def settle_nothing_held(s, dice):
    year(s, (), (None, None, None, None), 100, 90)


@stored
def settle_no_account_open(s, dice):
    s.call("begin", 1, 930)
    s.finish(12, 34, range(0, 20))


@stored
def settle_prices_0(s, dice):
    year(s, (5, 16, 7, 8), (9, 6, 70, 9), 0, 0)


@stored
def settle_shortage_price_0(s, dice):
    year(s, (5, 16, 7, 8), (9, 6, 70, 9), 0, 500)


@stored
def settle_surplus_price_0(s, dice):
    year(s, (5, 16, 7, 8), (9, 6, 70, 9), 500, 0)


@stored
def settle_highest_prices(s, dice):
    year(s, (999_999, 0, 7, 999_999), (0, 999_999, 999_999, 1), 9_999_999, 9_999_999)


@stored
def settle_one_surplus(s, dice):
    year(s, (1, 0), (0, 999_999), 9_999_999, 9_999_999)


@stored
def settle_surplus_of_1_cut(s, dice):
    year(s, (1, 0), (0, 1), 500, 900)


@stored
def settle_surplus_of_1_nothing_collected(s, dice):
    year(s, (1, 3), (0, 3), 500, 900)


@stored
def settle_one_shortage(s, dice):
    year(s, (999_999, 0), (0, 1), 9_999_999, 9_999_999)


@stored
def settle_after_trading(s, dice):
    """Guarantees bought count for the buyer, returned ones for the seller."""
    s.trading(1, 1_000, (1, 2, 3, 4))
    s.grant(1, 1, 100)
    s.grant(2, 2, 100)
    s.call("offer", 1, 1, 3, 60)
    s.call("offer", 2, 2, 4, 70)
    s.call("offer", 3, 2, 3, 5)
    s.call("accept", 1, 3)
    s.call("recall", 3, 2)
    s.owe(3, 80)
    s.owe(4, 10)
    s.owe(1, 40, 2)
    s.set_level(1, 101)
    s.finish(300, 200, (1, 2, 3, 4, 5, 1, 2, 3, 4))


@stored
def settle_incomplete_series(s, dice):
    """Several accounts, either sort; the lowest is told, one after the other made good."""
    s.trading(3, 1_000, (64, 40, 7, 2, 30))
    todo = ((2, 2, 1), (7, 1, 2), (30, 1, 1), (30, 2, 2), (64, 2, 2))
    for account, sort, steps in reversed(todo):
        for _ in range(steps):
            s.load(account, sort, 3_000)
    s.load(40, 1, 3_000)
    s.load(40, 1, 3_000)
    s.load(40, 1, 3_000)
    s.call("close")
    s.call("settle", 5, 5)
    for account, sort, _ in todo:
        while s.next_step(account, sort) <= 3:
            s.load(account, sort, 3_000)
            s.call("settle", 5, 5)
    for account in (2, 7, 30, 40, 64, 1):
        s.call("report", account)


@stored
def settle_incomplete_by_one_step(s, dice):
    s.trading(20, 1_000, (5, 9))
    for _ in range(19):
        s.load(5, 1, 3_000)
        s.load(9, 2, 3_000)
    s.call("close")
    s.call("settle", 5, 5)
    s.load(5, 1, 3_000)
    s.call("settle", 5, 5)
    s.load(9, 2, 3_000)
    s.call("settle", 5, 5)
    s.call("report", 5)
    s.call("report", 9)


@stored
def settle_series_never_begun(s, dice):
    s.trading(400, 1_000, range(1, 20))
    s.grant(1, 1, 5)
    s.finish(5, 5, range(1, 20))


@stored
def reports_repeated(s, dice):
    s.trading(1, 1_000, range(1, 65, 2))
    for account in range(1, 65, 2):
        s.grant(account, account, dice.within(0, 500))
        s.owe(account, dice.within(0, 500), 1 + dice.below(2))
    s.finish(100, 90, ())
    while s.count < 290:
        s.call("report", dice.within(0, 66))


# a ledger with few places

@stored_as("few-places-0-everything")
def few_0_everything(s, dice):
    """Without posts: begin, open, load, close, settle, report, and a level of 0."""
    s.trading(2, 1_000, (1, 2, 3))
    s.grant(1, 1, 5)
    s.grant(1, 2, 5)
    s.grant(1, 60, 5)
    s.call("certify", 1, 1, 5, 100, 240, 700)
    s.call("certify", 1, 1, 1, 0, 240, 700)
    s.grant(1, 1, 5)
    s.call("certify", 2, 2, 4, 239, 0, 0)
    s.call("certify", 3, 2, 4, 240, 0, 0)
    s.call("rebalance", 1, 0, 0, 0)
    s.call("rebalance", 1, 60, 240, 700)
    s.call("rebalance", 2, 240, 0, 0)
    s.call("rebalance", 3, 240, 0, 0)
    s.call("offer", 1, 1, 2, 1)
    s.call("offer", 1, 2, 1, 99_999_999)
    s.call("offer", 1, 1, 1, 1)
    s.call("offer", 1, 1, 60, 1)
    s.call("offer", 1, 60, 1, 1)
    s.call("accept", 1, 1)
    s.call("recall", 1, 1)
    for _ in range(2):
        s.load(3, 1, 500)
    s.finish(5, 5, (1, 2, 3, 4))


@stored_as("few-places-0-entities-full")
def few_0_entities_full(s, dice):
    """3.6 and 3.4 come before 4.3."""
    s.trading(1, 1_000)
    for entity in range(1, 65):
        s.call("certify", entity, 1, 1, 0, 0, 0)
        if entity % 8 == 0:
            s.grant(entity, 2, 9)
            s.grant(entity + 1, 2, 9)
    s.grant(65, 1, 1)
    s.call("certify", 65, 1, 1, 0, 0, 0)
    s.grant(65, 3, 1)
    s.finish()


@stored_as("few-places-1-certify")
def few_1_certify(s, dice):
    s.trading(1, 1_000)
    s.call("certify", 1, 1, 1, 0, 0, 0)
    s.grant(2, 2, 40)
    s.grant(3, 1, 1)
    s.grant(2, 1, 1)
    s.set_level(2, 40)
    s.set_level(2, 41)
    s.set_level(2, 39)
    s.set_level(2, 0)
    s.set_level(1, 0)
    s.set_level(1, 1)
    s.set_level(9, 1)
    s.call("offer", 1, 2, 1, 40)
    s.call("offer", 1, 2, 1, 41)
    s.call("offer", 1, 1, 2, 1)
    s.call("certify", 4, 1, 1, 0, 0, 0)
    s.finish(5, 5, (1, 2))


@stored_as("few-places-2-offer-stands")
def few_2_offer_stands(s, dice):
    """No post is left: the offer can neither be ended nor returned."""
    s.trading(1, 1_000, (1, 2, 3))
    s.grant(1, 1, 40)
    s.call("offer", 1, 1, 2, 30)
    for _ in range(2):
        s.call("accept", 1, 2)
        s.call("recall", 1, 1)
        s.call("accept", 1, 1)
        s.call("recall", 1, 2)
        s.call("accept", 2, 2)
        s.call("recall", 2, 1)
        s.call("accept", 1, 60)
        s.call("recall", 0, 60)
        s.call("close")
        s.set_level(1, 40)
        s.set_level(1, 5)
        s.call("offer", 2, 1, 2, 1)
        s.call("offer", 1, 1, 2, 1)
        s.call("settle", 1, 1)
    s.owe(1, 1)


@stored_as("few-places-3-offers")
def few_3_offers(s, dice):
    s.trading(1, 1_000, (1, 2, 3))
    s.grant(1, 1, 40)
    s.call("offer", 1, 1, 2, 41)
    s.call("offer", 1, 1, 2, 30)
    s.call("offer", 1, 1, 2, 5)
    s.call("offer", 2, 1, 2, 11)
    s.call("accept", 1, 1)
    s.call("accept", 1, 2)
    s.call("offer", 1, 2, 1, 5)
    s.call("offer", 1, 3, 1, 5)
    s.call("accept", 1, 2)
    s.finish(10, 10, (1, 2, 3, 4))
    while s.count < 20:
        s.call("report", 2)


@stored_as("few-places-3-close")
def few_3_close(s, dice):
    """One offer stands and one post is left: close uses it."""
    s.trading(1, 1_000, range(1, 6))
    s.grant(1, 1, 40)
    s.call("offer", 9, 1, 2, 30)
    s.finish(10, 10, range(1, 13))


@stored_as("few-places-4-close-short")
def few_4_close_short(s, dice):
    """Two offers and one post: 3.10; with one recalled none is left: 3.10 again."""
    s.trading(1, 1_000, range(1, 6))
    s.grant(1, 1, 40)
    s.call("offer", 9, 1, 2, 30)
    s.call("offer", 8, 1, 3, 10)
    for _ in range(3):
        s.call("close")
    s.call("recall", 8, 2)
    s.call("recall", 8, 1)
    s.call("close")
    s.call("recall", 9, 1)
    s.call("settle", 1, 1)
    s.owe(1, 3)
    s.call("close")
    s.call("report", 1)


@stored_as("few-places-5-close-just-enough")
def few_5_close(s, dice):
    s.trading(1, 1_000, range(1, 6))
    s.grant(1, 1, 40)
    s.call("offer", 9, 1, 2, 30)
    s.call("offer", 8, 1, 3, 10)
    s.finish(10, 10, range(1, 11))


@stored_as("few-places-64-close-short")
def few_64_close(s, dice):
    """32 offers and 31 posts left."""
    s.trading(1, 1_000, (1, 2))
    s.grant(1, 1, 400)
    for offer in range(1, 33):
        s.call("offer", offer, 1, 2, 2)
    s.call("close")
    s.call("offer", 33, 1, 2, 2)
    for offer in range(1, 33):
        s.call("recall", offer, 1)
        s.call("close")


@stored_as("few-places-65-close-just-enough")
def few_65_close(s, dice):
    s.trading(1, 1_000, (1, 2))
    s.grant(1, 1, 400)
    for offer in range(32, 0, -1):
        s.call("offer", offer, 1, 2, 2)
    s.call("offer", 33, 1, 2, 2)
    s.finish(10, 10, (1, 2))


@stored_as("few-places-6-rebalance")
def few_6_rebalance(s, dice):
    """Refused and equal ones use no place."""
    s.trading(1, 1_000)
    s.grant(1, 1, 50)
    s.set_level(1, 50)
    s.set_level(1, 60)
    s.set_level(1, 60)
    s.set_level(1, 20)
    s.call("offer", 1, 1, 2, 15)
    for guarantees in (4, 0, 20, 14):
        s.set_level(1, guarantees)
    s.set_level(1, 15)
    s.set_level(1, 15)
    s.set_level(1, 14)
    s.set_level(1, 16)
    s.call("accept", 1, 2)
    s.call("accept", 1, 2)
    s.set_level(1, 15)
    s.set_level(1, 14)
    s.set_level(1, 0)
    s.finish(10, 10, (1, 2))


@stored_as("few-places-7-refused-posts")
def few_7_refused_posts(s, dice):
    """No refusal uses a place."""
    s.trading(1, 1_000, (1, 2))
    for left in range(7):
        s.grant(1, 1, 50)
        s.grant(1, 1, 50)
        s.call("offer", 1, 2, 1, 500)
        s.call("offer", 1, 2, 2, 5)
        s.call("accept", 1, 2)
        s.call("offer", 100 + left, 1, 2, 100)
        s.grant(10 + left, 1, 1)
    s.grant(99, 1, 1)
    s.call("offer", 1, 1, 2, 500)
    s.finish(1, 1, (1, 2))


@stored_as("few-places-2-order-of-checks")
def few_2_order(s, dice):
    """4.3 comes after every check of the book and before 4.4."""
    s.trading(1, 1_000, (1, 2, 3))
    s.grant(1, 1, 50)
    s.call("offer", 1, 1, 2, 20)
    for name, faulty in (("certify", (1, 1, 1, 500, 240, 700)), ("certify", (2, 60, 1, 500, 240, 700)),
                         ("certify", (2, 1, 1, 500, 240, 700)), ("rebalance", (2, 500, 240, 700)),
                         ("rebalance", (1, 0, 240, 700)), ("rebalance", (1, 2_000, 240, 700)),
                         ("rebalance", (1, 9_000, 240, 700)), ("offer", (1, 1, 2, 5)),
                         ("offer", (2, 60, 2, 5)), ("offer", (2, 1, 60, 5)), ("offer", (2, 1, 1, 5)),
                         ("offer", (2, 1, 2, 5)), ("offer", (2, 1, 2, 31)), ("offer", (2, 3, 2, 1)),
                         ("accept", (2, 2)), ("accept", (1, 1)), ("accept", (1, 2)),
                         ("recall", (2, 1)), ("recall", (1, 2)), ("recall", (1, 1))):
        with_each_field_bad(s, name, faulty)
    s.call("close")


@stored_as("few-places-34-offers-full")
def few_34_offers_full(s, dice):
    """3.6 comes before 4.3 and 4.4."""
    s.trading(1, 1_000, (1, 2))
    s.grant(1, 1, 40)
    s.grant(2, 2, 40)
    for offer in range(1, 33):
        s.call("offer", offer, 1, 2, 1)
    for offer in (32, 33):
        for amount in (1, 8, 9):
            s.call("offer", offer, 1, 2, amount)
    s.call("accept", 1, 2)
    s.call("close")


@stored_as("few-places-65535-as-balances")
def few_65535(s, dice):
    traffic(s, dice, 240)


@stored_as("few-places-70000-as-balances")
def few_70000(s, dice):
    traffic(s, dice, 240)


def store_few_mixed(places):
    @stored_as("few-places-%d-mixed" % places)
    def few_mixed(s, dice):
        traffic(s, dice, 240)


for few in (10, 20, 40, 60, 80, 100):
    store_few_mixed(few)


def store_mixed(number):
    @stored_as("mixed-%02d" % number)
    def mixed(s, dice):
        traffic(s, dice, 260)


for one in range(1, 21):
    store_mixed(one)
