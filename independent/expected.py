#!/usr/bin/env python3
"""Writes NAME.expected beside every NAME.txt, as book.py answers it.

    expected.py [DIR]      default: ../tests/files beside this file
"""

import glob
import os
import sys

import book
from suite import places_of

HERE = os.path.dirname(os.path.abspath(__file__))
SUITE = sys.argv[1] if len(sys.argv) > 1 else os.path.join(HERE, "..", "tests", "files")

for path in sorted(glob.glob(os.path.join(SUITE, "*.txt"))):
    places = places_of(os.path.basename(path))
    with open(path, "rb") as source, open(path[:-len(".txt")] + ".expected", "wb") as sink:
        book.run(book.Book(book.Ledger(places)), source.fileno(), sink)
