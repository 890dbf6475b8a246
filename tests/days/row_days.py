"""Directed days on rows, codes, terms and the count of rows."""
from records import CLOSE, OPEN, UNDO, confirm, flat, register, setup, withdraw
from input_days import AMPLE, market
from trade_days import batches, deal, exposures, margins


def terms(d):
    d.o(market())
    d.c(register(1, 2, 7, 1, 2, 3, 10), (0, 1))
    # 14: this proposer, counterparty and code; any one different passes
    d.c(register(1, 2, 7, 2, 5, 6, 11), 14)
    d.c(register(1, 2, 7, 1, 2, 3, 5000), 14)
    d.c(register(1, 3, 7, 1, 2, 3, 10), (0, 2))
    d.c(register(2, 1, 7, 1, 2, 3, 10), (0, 3))
    d.c(register(1, 2, 7 + (1 << 56), 1, 2, 3, 10), (0, 4))
    d.c(register(1, 2, b'\xff' * 8, 1, 2, 3, 10), (0, 5))
    d.k()
    # 16 and 17 in every term
    for record in (confirm(1, 2, 8, 2, 2, 3, 10), confirm(2, 1, 8, 2, 2, 3, 10), confirm(2, 3, 7, 2, 2, 3, 10),
                   confirm(3, 2, 7, 2, 2, 3, 10), confirm(2, 1, 7 + (1 << 8), 2, 2, 3, 10)):
        d.c(record, 16)
    for record in (confirm(2, 1, 7, 1, 2, 3, 10), confirm(2, 1, 7, 2, 1, 3, 10), confirm(2, 1, 7, 2, 3, 3, 10),
                   confirm(2, 1, 7, 2, 2, 2, 10), confirm(2, 1, 7, 2, 2, 4, 10), confirm(2, 1, 7, 2, 2, 3, 9),
                   confirm(2, 1, 7, 2, 2, 3, 11), confirm(2, 1, 7, 2, 2, 3, 10 ** 7),
                   confirm(1, 2, 7, 1, 2, 3, 10)):
        d.c(record, 17)
    d.same(1)
    # confirm by the proposer itself names a row the other way round
    d.c(withdraw(2, 3), 0)
    d.c(confirm(1, 2, 7, 1, 2, 3, 10), 16)
    d.c(confirm(1, 2, 7, 2, 2, 3, 10), 16)
    # withdraw: not there, not that proposer's, not pending
    for account, row in ((1, 6), (1, 256), (2, 1), (3, 2), (2, 3)):
        d.c(withdraw(account, row), 16)
    d.c(confirm(2, 1, 7, 2, 2, 3, 10), (0, 1))
    d.c(confirm(2, 1, 7, 2, 2, 3, 10), 16)
    d.c(withdraw(1, 1), 16)
    d.c(confirm(3, 1, 7, 2, 2, 3, 10), (0, 2))
    # code reused after confirmation, and after withdrawal
    d.c(register(1, 2, 7, 1, 2, 3, 20), (0, 6))
    d.c(register(1, 2, 7, 1, 2, 3, 20), 14)
    d.c(withdraw(1, 6), 0)
    d.c(confirm(2, 1, 7, 2, 2, 3, 20), 16)
    d.c(register(1, 2, 7, 2, 2, 3, 30), (0, 7))
    d.c(confirm(2, 1, 7, 2, 2, 3, 30), 17)
    d.c(confirm(2, 1, 7, 1, 2, 3, 30), (0, 7))
    d.a(1, 2, 0, 10)
    d.a(2, 3, 0, -20)
    d.a(3, 3, 0, 10)
    d.a(1, 1, 0, 0)
    d.a(1, 4, 0, 0)
    # the same code pending both ways
    d.c(register(2, 1, 1, 2, 20, 24, 5), (0, 8))
    d.c(register(1, 2, 1, 2, 21, 23, 6), (0, 9))
    d.c(confirm(1, 2, 1, 1, 20, 24, 5), (0, 8))
    d.c(confirm(2, 1, 1, 1, 21, 23, 6), (0, 9))
    d.read_all()
    d.k()
    # 0 and equality: a register, then a confirm, change the book
    d.c(register(3, 2, 1, 1, 1, 1, 1), (0, 10))
    d.same(0)
    d.k()
    d.c(confirm(2, 3, 1, 2, 1, 1, 1), (0, 10))
    d.same(0)


def full_rows(d):
    """Row 256 passes, 257 is 15, also with withdrawn ones; a batch at the limit."""
    d.o(market())
    for row in range(1, 255):
        d.c(register(1, 2, row, 1, 1, 1, 900), (0, row))
        if row == 100:
            d.c(register(1, 2, row, 1, 1, 1, 900), 14)
        d.c(withdraw(1, row), 0)
    d.c(OPEN, 0)
    d.c(register(2, 1, 1, 2, 3, 4, 500), (0, 255))
    d.c(register(2, 1, 2, 2, 3, 4, 500), (0, 256))
    d.c(register(2, 1, 3, 2, 3, 4, 500), 15)
    d.c(register(2, 1, 2, 2, 3, 4, 500), 14)
    d.c(register(2, 1, 3, 2, 5, 5, 1), 15)
    d.c(confirm(1, 2, 1, 1, 3, 4, 500), (0, 255))
    d.c(withdraw(2, 256), 0)
    d.c(register(2, 1, 2, 2, 3, 4, 500), 15)
    d.c(UNDO, (0, 2))
    d.c(register(2, 1, 3, 2, 3, 4, 1000), (0, 255))
    d.c(register(2, 1, 4, 2, 3, 4, 1), (18, 3))
    d.c(register(2, 1, 4, 2, 5, 5, 1), (0, 256))
    d.k()
    d.c(register(2, 1, 5, 2, 5, 5, 1), 15)
    d.c(register(2, 1, 5, 2, 3, 3, 9999), 15)
    d.same(1)
    d.c(confirm(1, 2, 4, 1, 5, 5, 1), (0, 256))
    d.c(OPEN, 0)
    d.c(confirm(1, 2, 3, 1, 3, 4, 1000), (0, 255))
    d.c(register(2, 1, 5, 2, 5, 5, 1), 15)
    d.c(UNDO, 0)
    d.a(2, 3, 0, 0)
    d.c(confirm(1, 2, 3, 1, 3, 4, 1000), (0, 255))
    d.c(withdraw(1, 256), 16)
    d.c(CLOSE, 0)
    d.a(2, 3, 0, 1000)
    d.settle(flat(24, 7, 9), 0, 0, 16, ([], [-14000 - 7, 14000 + 7]))


def full_batch(d):
    """256 rows in one undone batch of the largest book; then 256 rows saved by a batch."""
    accounts = [(1 + i % 16, 1 + i % 2, 10 ** 7, 10 ** 7) for i in range(32)]
    points = [(1 + i % 32, 3, 1 + i % 8, 10 ** 7, 10 ** 7) for i in range(64)]
    opening = setup([400000] * 25, [(AMPLE, 0)] * 16, accounts, points, 8)

    def row(place):
        return (1 + place % 32, 1 + (place + 5) % 32, place, 1 + place % 2, 1, 25, 10 ** 6)

    def fill():
        for place in range(256):
            d.c(register(*row(place)), (0, place + 1))
        d.c(register(1, 2, 999, 2, 1, 1, 1), 15)

    d.o(opening)
    d.k()
    d.c(OPEN, 0)
    fill()
    d.c(UNDO, (0, 256))
    d.same(1)
    fill()
    # accounts 1 and 17 of operator 1 have eight sales each, 16 * 10^6 * 400,000; those of operator 2 buy
    d.i(1, 1, 25, 0, [64 * 10 ** 11] * 25)
    d.i(2, 1, 25, 0, [0] * 25)
    d.k()
    d.c(OPEN, 0)
    for place in range(0, 256, 2):
        account, other, code, side, first, last, quantity = row(place)
        d.c(confirm(other, account, code, 3 - side, first, last, quantity), (0, place + 1))
        d.c(withdraw(row(place + 1)[0], place + 2), 0)
    d.c(OPEN, 12)
    d.e(1, 0)
    d.i(1, 24, 26)
    d.a(1, 25, 0)
    d.c(UNDO, (0, 0))
    d.same(1)
    d.c(CLOSE, 0)
    d.same(0)


def closing(d):
    """Close gate with pending rows: none weighs after it, positions stay."""
    d.o(market())
    deal(d, 1, 2, 1, 1, 24, 11, 1)
    d.c(register(1, 2, 2, 1, 1, 1, 100), (0, 2))
    d.c(register(2, 1, 2, 2, 1, 1, 100), (0, 3))
    d.e(1, 0, 24 * 110 + 1000)
    d.c(CLOSE, 0)
    d.e(1, 0, 24 * 110)
    d.e(2, 0, 0)
    d.a(1, 24, 0, -11)
    d.c(CLOSE, 11)
    d.c(confirm(2, 1, 2, 2, 1, 1, 100), 11)
    d.c(withdraw(1, 2), 11)
    # the same book whether its rows are withdrawn one by one or by the gate
    d.k()
    d.o(market())
    deal(d, 1, 2, 1, 1, 24, 11, 1)
    d.c(register(1, 2, 2, 1, 1, 1, 100), (0, 2))
    d.c(register(2, 1, 2, 2, 1, 1, 100), (0, 3))
    d.c(withdraw(2, 3), 0)
    d.c(withdraw(1, 2), 0)
    d.same(0)
    d.c(CLOSE, 0)
    d.same(1)


DAYS = (margins, exposures, batches, terms, full_rows, full_batch, closing)
