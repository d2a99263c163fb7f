#!/usr/bin/env python3
"""Writes inputs for a book. The same seed gives the same bytes, always.

    generate.py DIR [SEED]        the stored suite: one file for each thing exercised
    generate.py --lines N SEED    one mixed stream of about N lines, to standard output

book.py steers: it is asked what stands at the moment, so that traffic stays lively.
"""

import os
import sys
import zlib

from suite import SUITE, places_of
from traffic import traffic
from writing import Dice, Session

DEFAULT_SEED = 1


def write_suite(directory, seed):
    os.makedirs(directory, exist_ok=True)
    for name, function in SUITE:
        s = Session(places_of(name))
        function(s, Dice((seed << 32) + zlib.crc32(name.encode("ascii"))))
        with open(os.path.join(directory, name + ".txt"), "wb") as file:
            file.write(s.text())


def write_stream(lines, seed):
    out = sys.stdout.buffer
    s = Session(keep=lambda line: out.write(line + b"\n"))
    traffic(s, Dice(seed), lines)
    out.flush()


def main(words):
    if len(words) == 3 and words[0] == "--lines":
        write_stream(int(words[1]), int(words[2]))
    elif len(words) in (1, 2) and not words[0].startswith("-"):
        write_suite(words[0], int(words[1]) if len(words) == 2 else DEFAULT_SEED)
    else:
        sys.exit(__doc__)


if __name__ == "__main__":
    main(sys.argv[1:])
