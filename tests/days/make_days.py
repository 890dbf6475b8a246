"""Writes the input and output of the program day_test: directed days, random days, then those that value their books."""
import collections
import pathlib

import ask_days
import hourly_days
import input_days
import margin_days
import random_days
import row_days
import settle_days
import setup_days
import strip_days
import valuation_days
from cases import Days

MOST = 1_600_000
PROGRAM = pathlib.Path(__file__).parents[2] / 'crates' / 'day_test'


def make():
    days = Days()
    for group in (input_days, row_days, settle_days, setup_days, margin_days, strip_days, ask_days, hourly_days, random_days,
                  valuation_days):
        for day in group.DAYS:
            day(days)
    days.end_day()
    return days


def main():
    days = make()
    text = days.text().encode()
    seen = collections.Counter(line.split()[1] for line in days.lines if line[0] in 'oc')
    assert {int(verdict) for verdict in seen} == set(range(24)), sorted(seen)
    assert len(days.input) < MOST and len(text) < MOST
    (PROGRAM / 'stdin').write_bytes(days.input)
    (PROGRAM / 'stdout').write_bytes(text)
    print('input', len(days.input), 'output', len(text))
    print(', '.join('%s: %d' % (verdict, seen[str(verdict)]) for verdict in range(24)))


if __name__ == '__main__':
    main()
