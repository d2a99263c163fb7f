#!/usr/bin/env python3
"""Writes a table of levels, steps and obligations alone (docs/RULES.md, D5, E3, E5), and what they answer by book.py.

    figures.py TABLE ANSWERS

A line of the table is 24 bytes in digits: a kind (1 level, 2 step, 3 obligation), its fields, zeros.
"""

import struct
import sys

import book

POWERS = [0, 1, 1_020, 1_040, 12_345, 37_500, 99_999_999]
HIGHEST = 10**18
STEP = (1, 50_000, 1_000, 400, 1_100, -100, -250)
LOSSES = (2, 6_000, 0, -20, 1_000, 100, -400)
STEP_VALUES = [
    (0, 1, 2, 3, 255),
    (0, 1, 99_999_999, 100_000_000, 2**32 - 1),
    (0, 1, 99_999_999, 100_000_000, 2**32 - 1),
    (-2**31, -10_000_000, -9_999_999, -1, 0, 1, 9_999_999, 10_000_000, 2**31 - 1),
    (0, 1, 999, 1_000, 1_001, 9_999, 10_000, 65_535),
    (-2**15, -5_001, -5_000, -1, 0, 1, 5_000, 5_001, 2**15 - 1),
    (-2**15, -5_001, -5_000, -1, 0, 1, 5_000, 5_001, 2**15 - 1),
]


def level_cases():
    for hours in range(256):
        yield 1, 10_000_000, hours, 500
    for days in range(711):
        yield 1, 10_000_000, 200, days
    for method in range(6):
        for power in POWERS + [100_000_000, 2**32 - 1]:
            for hours, days in ((0, 0), (22, 10), (23, 116), (240, 700), (241, 700), (240, 701), (255, 65_535)):
                yield method, power, hours, days


def step_cases():
    for usual in (STEP, LOSSES):
        for field, values in enumerate(STEP_VALUES):
            for value in values:
                yield usual[:field] + (value,) + usual[field + 1:]
    for sort, shed, coefficient in ((1, 99_999_999, 9_999), (2, 0, 1_000)):
        for gradient in (-9_999_999, 9_999_999):
            for real, extreme in ((-5_000, 5_000), (5_000, -5_000)):
                yield sort, 99_999_999, shed, gradient, coefficient, real, extreme


def obligation_cases():
    sums = [-2**63, -HIGHEST - 1, -HIGHEST, -1, 0, 1, 99_999, 100_000, 10**10, 10_138_000_000, 123_456_789_012_345,
            HIGHEST - 1, HIGHEST, HIGHEST + 1, 2**63 - 1]
    for n in (0, 1, 2, 3, 240, 399, 400, 401, 65_535):
        for security in (0, 1, 930, 1_999, 2_000, 2_001, 65_535):
            for total in sums:
                yield n, security, total


def first_bad(checks):
    return next((place for place, fine in enumerate(checks, 1) if not fine), None)


def level_answer(method, power, hours, days):
    bad = first_bad([1 <= method <= 4, power <= 99_999_999, hours <= 240, days <= 700])
    return bad, bad or struct.pack(">I", book.level_of(method, power, hours, days))


def step_answer(*step):
    sort, metered, shed, gradient, coefficient, real, extreme = step
    losses = sort == 2
    bad = first_bad([
        sort in (1, 2), metered <= 99_999_999, shed <= (0 if losses else 99_999_999), abs(gradient) <= 9_999_999,
        coefficient == 1_000 if losses else coefficient <= 9_999, abs(real) <= 5_000, abs(extreme) <= 5_000])
    return bad, bad or struct.pack(">q", book.step_adds(*step))


def obligation_answer(n, security, total):
    bad = first_bad([1 <= n <= 400, security <= 2_000, abs(total) <= HIGHEST])
    return bad, bad or struct.pack(">Q", book.obligation_of(n, security, total))


KINDS = [
    (1, ">BBIBH", level_cases, level_answer),
    (2, ">BBIIiHhh", step_cases, step_answer),
    (3, ">BHHq", obligation_cases, obligation_answer),
]

with open(sys.argv[1], "w") as table, open(sys.argv[2], "w") as answers:
    for kind, layout, cases, answer in KINDS:
        for case in cases():
            print(struct.pack(layout, kind, *case).ljust(24, b"\0").hex(), file=table)
            bad, value = answer(*case)
            print(bytes([1, bad]).hex() if bad else (b"\0" + value).hex(), file=answers)
