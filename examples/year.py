#!/usr/bin/env python3
"""Writes the lines of a delivery year: thirty accounts, thirty-nine plants and sites, 240 half-hours.

    year.py > year.txt

Twelve suppliers have to hold guarantees, twelve producers and six load-shedding operators earn them. Among the calls are
some that the book has to refuse; each is marked by a comment here.
"""

import os
import sys

sys.path.insert(0, os.path.join(os.path.dirname(os.path.abspath(__file__)), "..", "independent"))

from writing import Dice, encode  # noqa: E402

N = 240
SUPPLIERS = range(1, 13)
PRODUCERS = range(13, 25)
OPERATORS = range(25, 31)
DISPATCHABLE, HYDRAULIC, WIND, SOLAR = 1, 2, 3, 4

dice = Dice(2017)


def say(name, *values):
    print(encode(name, *values).decode("ascii"))


def begin_and_open():
    say("open", 1)               # refused: there is no year yet
    say("begin", N, 930)
    for account in [*SUPPLIERS, *PRODUCERS, *OPERATORS]:
        say("open", account)
    say("open", 7)               # refused: account 7 is open


def certify():
    for number, account in enumerate(PRODUCERS):
        # A plant that runs all day, and beside it water, wind or sun.
        say("certify", 100 + account, account, DISPATCHABLE, 40_000 + 1_375 * number, 240, 700)
        method = (HYDRAULIC, WIND, SOLAR)[number % 3]
        say("certify", 200 + account, account, method, 9_000 + 2_345 * number, 0, 0)
    for number, account in enumerate(OPERATORS):
        # Sites that can be shed for a few hours on a few days.
        say("certify", 300 + account, account, DISPATCHABLE, 37_500 - 1_250 * number, 23, 116)
        say("certify", 400 + account, account, DISPATCHABLE, 12_000, 40 + 5 * number, 250 + 30 * number)
    for account in (1, 4, 9):
        # Suppliers with solar panels of their own.
        say("certify", 500 + account, account, SOLAR, 1_040 * account, 0, 0)
    say("certify", 113, 14, WIND, 5_000, 0, 0)     # refused: entity 113 is in use
    say("certify", 600, 40, WIND, 5_000, 0, 0)     # refused: account 40 is not open
    say("certify", 600, 14, WIND, 5_000, 250, 0)   # refused: no day has 25 hours


def trade():
    offer = 0
    for turn in range(3):
        for number, seller in enumerate([*PRODUCERS, *OPERATORS]):
            offer += 1
            buyer = 1 + (number + 5 * turn) % 12
            amount = 90 + dice.below(30) if seller in PRODUCERS else 12 + dice.below(8)
            say("offer", offer, seller, buyer, amount)
            if offer % 9 == 4:
                say("accept", offer, seller)       # refused: the seller is not the buyer
                say("recall", offer, seller)
            elif offer % 7 == 3:
                say("recall", offer, buyer)        # refused: the buyer is not the seller
                say("accept", offer, buyer)
            else:
                say("accept", offer, buyer)
    say("accept", 1, 1)                            # refused: offer 1 has ended
    say("offer", 60, 13, 13, 5)                    # refused: an offer to oneself
    say("offer", 60, 25, 2, 5_000)                 # refused: more than account 25 holds


def rebalance():
    say("rebalance", 113, 46_000, 240, 700)        # a raise
    say("rebalance", 120, 47_500, 240, 700)        # a cut
    say("rebalance", 325, 37_500, 23, 116)         # nothing changes
    say("rebalance", 214, 15_000, 0, 0)            # wind stays wind
    say("rebalance", 115, 100, 240, 700)           # refused: the guarantees are sold
    say("rebalance", 999, 100, 240, 700)           # refused: no such entity


def half_hours():
    """Real temperatures in hundredths of a degree, of a mild winter's peak hours."""
    for number in range(N):
        yield 250 + 100 * (number % 24 in range(9, 19)) + dice.within(-350, 350)


def load(last_but=None):
    real = list(half_hours())
    for supplier in SUPPLIERS:
        for number in range(1, N + 1):
            if (supplier, number) == last_but:
                continue
            metered = 14_000 + 2_600 * supplier + dice.below(4_000)
            shed = 500 if number % 60 < 4 else 0
            say("load", supplier, 1, number, metered, shed, 300 + 20 * supplier, 1_050, real[number - 1], -250)
    for supplier in (3, 8):
        # Network losses, of two suppliers that keep a grid.
        for number in range(1, N + 1):
            say("load", supplier, 2, number, 2_000 + dice.below(300), 0, -25, 1_000, real[number - 1], -250)
    say("load", 5, 1, 17, 1, 0, 0, 0, 0, 0)        # refused: step 17 is loaded


def close_and_settle():
    say("offer", 61, 24, 11, 25)                   # still standing at the end of trading
    say("settle", 42_000, 38_000)                  # refused: trading goes on
    say("close")
    say("offer", 62, 24, 11, 25)                   # refused: trading is over
    say("settle", 42_000, 38_000)                  # refused: a step of account 12 is missing
    say("load", 12, 1, N, 46_000, 0, 540, 1_050, 100, -250)
    say("settle", 42_000, 38_000)
    for account in [*SUPPLIERS, *PRODUCERS, *OPERATORS]:
        say("report", account)
    say("report", 31)                              # refused: account 31 is not open


begin_and_open()
certify()
trade()
rebalance()
load(last_but=(12, N))
close_and_settle()
