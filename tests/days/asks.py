"""Asks and commits: an ask is answered as its register would be, and a commit registers what stands as an ask.

Of the layout of a book it has the places of the standing asks, into which some cases put bytes.
"""
from market_rules import F_ACCOUNT, F_CODE, F_OTHER, F_QUANTITY, WIDTH, fault_bit, number, register, register_refusal, row_of

ASK, COMMIT = 12, 13
# a place of 18 bytes for each of 32 accounts: the seven fields of a row in turn, and its status
AT, PLACES, PLACE_BYTES = 26888, 32, 18
END = AT + PLACES * PLACE_BYTES
IS_PENDING = 1


def ask(book, new):
    """Accepted, it stands for its account in place of the earlier one. The number is the one that the register would get."""
    refusal = register_refusal(book, new)
    if refusal:
        return refusal
    book.asks[new.account] = new
    return 0, len(book.rows) + 1, 0


def commit(book, new):
    """23 unless the ask that stands for the account has all seven fields. Then nothing can refuse it."""
    if book.asks.get(new.account) != new:
        return 23, 0, 0
    verdict = register(book, new)
    assert verdict[0] == 0, verdict
    return verdict


def place_of(row):
    """The 18 bytes of an ask that stands."""
    return (bytes([row.account, row.other]) + row.code + bytes([row.side, row.first, row.last]) + row.quantity.to_bytes(4, 'little')
            + bytes([IS_PENDING]))


def image(book):
    """The bytes of all places: zeros where no ask stands."""
    places = bytearray(PLACES * PLACE_BYTES)
    for account, row in book.asks.items():
        at = PLACE_BYTES * (account - 1)
        places[at:at + PLACE_BYTES] = place_of(row)
    return bytes(places)


def asked_for(book, account, place):
    """The row of a place that is not zero, or None where no such ask can stand in this book for this account."""
    fields, at = {}, 0
    for bit in range(F_ACCOUNT, F_QUANTITY + 1):
        part = place[at:at + WIDTH[bit]]
        fields[bit] = part if bit == F_CODE else number(part)
        at += WIDTH[bit]
    if account > len(book.accounts) or fields[F_ACCOUNT] != account or place[at] != IS_PENDING:
        return None
    if fault_bit(book, fields) is not None or fields[F_ACCOUNT] == fields[F_OTHER] or book.phase != 1:
        return None
    row = row_of(fields)
    return None if register_refusal(book, row) else row


def standing(book, places):
    """The asks that these bytes are, by account, or None where a book has no such bytes: register would refuse one."""
    found = {}
    for account in range(1, PLACES + 1):
        place = bytes(places[PLACE_BYTES * (account - 1):PLACE_BYTES * account])
        if not any(place):
            continue
        found[account] = asked_for(book, account, place)
    return None if None in found.values() else found
