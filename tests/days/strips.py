"""Strips: up to 24 registers of one proposer in one call, all accepted or none."""
from market_rules import (F_ACCOUNT, F_OTHER, MAP, MOST_ROWS, PENDING, fault_bit, map_refusal, no_map, number,
                          read_record, row_of, weigh)

STRIP, REGISTER = 11, 1
STRIP_MAP = 0x0001
MOST_OF_STRIP = 24
HEAD_BYTES, ROW_BYTES = 4, 20


def is_strip(record):
    return len(record) > 2 and record[2] == STRIP


def split(record):
    """The refusal of the strip itself (2, 4, 5 or 21) or None, and the bytes of each row."""
    given = number(record[:2])
    if no_map(given):
        return (2, 0, 0), None
    if given != STRIP_MAP:
        return map_refusal(STRIP_MAP, given), None
    if len(record) < HEAD_BYTES or len(record) != HEAD_BYTES + ROW_BYTES * record[3]:
        return (5, 0, 0), None
    if not 1 <= record[3] <= MOST_OF_STRIP:
        return (21, 0, 0), None
    return None, [record[at:at + ROW_BYTES] for at in range(HEAD_BYTES, len(record), ROW_BYTES)]


# Checks of one row, each for its number: the refusal or None.

def kind_missing(book, row, first):
    return (2, 0, 0) if no_map(number(row[:2])) else None


def other_kind(book, row, first):
    return (3, 0, 0) if row[2] != REGISTER else None


def other_map(book, row, first):
    given = number(row[:2])
    return map_refusal(MAP[REGISTER], given) if given != MAP[REGISTER] else None


def out_of_range(book, row, first):
    fields = read_record(row)[1]
    bit = fault_bit(book, fields)
    if fields[F_ACCOUNT] != read_record(first)[1][F_ACCOUNT]:
        bit = F_ACCOUNT
    return (6, bit, 0) if bit is not None else None


def one_account(book, row, first):
    fields = read_record(row)[1]
    return (7, 0, 0) if fields[F_ACCOUNT] == fields[F_OTHER] else None


def row_refusal(book, rows):
    """Check by check, not row by row: of the first number that applies to any row, the first such row's."""
    for check in (kind_missing, other_kind, other_map, out_of_range, one_account):
        for row in rows:
            refusal = check(book, row, rows[0])
            if refusal:
                return refusal
    return None


def register_all(book, record):
    """A strip's verdict. Accepted, its rows are pending with consecutive numbers, and the first is given."""
    refusal, parts = split(record)
    if not refusal:
        refusal = row_refusal(book, parts)
    if refusal:
        return refusal
    if book.phase != 1:
        return 11, 0, 0
    new = [row_of(read_record(part)[1]) for part in parts]
    pending = {row[:3] for row in book.rows if row.status == PENDING}
    if any(row[:3] in pending for row in new):
        return 14, 0, 0
    if len({(row.other, row.code) for row in new}) < len(new):
        return 22, 0, 0
    if len(book.rows) + len(new) > MOST_ROWS:
        return 15, 0, 0
    rows = book.rows + new
    refusal = weigh(book, rows, new[0].account)
    if refusal:
        return refusal
    first = len(book.rows) + 1
    book.rows = rows
    return 0, first, 0
