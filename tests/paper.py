#!/usr/bin/env python3
"""Writes what a test program is run on, and what it is to print by a reading of document 01 (README.md).

usage: python3 tests/paper.py records      writes crates/records_test/stdin and stdout
       python3 tests/paper.py books        writes crates/book_test/stdin and stdout
"""
import os
import sys

import book_edges
import books
import records
import setups
from room import Room
from stream import Stream

MOST_INPUT = 65_536


def records_test():
    s = Stream()
    records.reading_cases(s)
    records.writing_cases(s)
    setups.cases(s)
    return s


def book_test():
    s = Room()
    books.cases(s)
    book_edges.cases(s)
    return s


TESTS = {"records": ("records_test", records_test), "books": ("book_test", book_test)}


def main():
    if len(sys.argv) != 2 or sys.argv[1] not in TESTS:
        sys.exit(__doc__.strip())
    crate, cases = TESTS[sys.argv[1]]
    s = cases()
    if len(s.bytes) > MOST_INPUT:
        sys.exit(f"{len(s.bytes)} bytes of cases: more than the program reads")
    where = os.path.join(os.path.dirname(os.path.dirname(os.path.abspath(__file__))), "crates", crate)
    with open(os.path.join(where, "stdin"), "wb") as out:
        out.write(s.bytes)
    with open(os.path.join(where, "stdout"), "w") as out:
        out.write("".join(text + "\n" for text in s.lines))
    print(f"{s.cases} cases, {len(s.bytes)} bytes, {len(s.lines)} lines")


main()
