"""Directed days on margins that differ by hour."""
from records import CLOSE, KEEP, OPEN, UNDO, confirm, flat, register, setup, withdraw
from input_days import AMPLE, market
from trade_days import deal

WIDE = 10 ** 6


def outage(hours):
    """20,000 but in hours 5 to 8, in which it is 0."""
    return [20000] * 4 + [0] * 4 + [20000] * (hours - 8)


def but(margin, hours, changed):
    """The same margin in every hour but in those named."""
    return [changed.get(hour, margin) for hour in range(1, hours + 1)]


def outages(d):
    """No sales in hours 5 to 8, then no purchases."""
    for hours in (23, 24, 25):
        d.o(market(hours, accounts=((1, 1, outage(hours), 500), (2, 2, WIDE, WIDE))))
        # the lowest hour that breaks its own margin, first in the row or not
        d.k()
        d.c(register(1, 2, 1, 1, 1, hours, 1), (18, 5))
        d.c(register(1, 2, 1, 1, 1, hours, 20000), (18, 5))
        d.c(register(1, 2, 1, 1, 1, hours, 20001), (18, 1))
        d.c(register(1, 2, 1, 1, 4, 5, 20001), (18, 4))
        d.c(register(1, 2, 1, 1, 5, 5, 1), (18, 5))
        d.c(register(1, 2, 1, 1, 8, 9, 1), (18, 8))
        d.c(register(1, 2, 1, 1, 6, hours, 10 ** 7), (18, 6))
        d.same(1)
        d.c(register(1, 2, 1, 1, 9, hours, 20000), (0, 1))
        d.c(register(1, 2, 2, 1, 9, hours, 1), (18, 9))
        d.c(register(1, 2, 2, 1, 1, hours, 1), (18, 5))
        d.c(register(1, 2, 2, 1, 1, 4, 20000), (0, 2))
        d.c(register(1, 2, 3, 1, 1, hours, 1), (18, 1))
        d.c(register(1, 2, 3, 1, hours, hours, 1), (18, hours))
        # what was bought may be sold there; a pending purchase gives no room for it
        d.c(register(1, 2, 3, 2, 5, 8, 501), (18, 5))
        d.c(register(1, 2, 3, 2, 5, 8, 500), (0, 3))
        d.c(register(1, 2, 4, 1, 5, 5, 1), (18, 5))
        d.c(confirm(2, 1, 3, 1, 5, 8, 500), (0, 3))
        d.c(register(1, 2, 4, 1, 5, 8, 501), (18, 5))
        d.c(register(1, 2, 4, 1, 5, 9, 500), (18, 9))
        d.c(register(1, 2, 4, 1, 5, 8, 500), (0, 4))
        d.c(register(1, 2, 5, 1, 7, 7, 1), (18, 7))
        d.c(confirm(2, 1, 4, 2, 5, 8, 500), (0, 4))
        d.c(register(1, 2, 5, 1, 8, 8, 1), (18, 8))
        d.a(1, 5, 0, 0)
        # the same above, and for the party that confirms
        d.o(market(hours, accounts=((1, 1, 500, outage(hours)), (2, 2, WIDE, WIDE))))
        d.c(register(1, 2, 1, 2, 1, hours, 1), (18, 5))
        d.c(register(1, 2, 1, 2, 1, hours, 20001), (18, 1))
        d.c(register(1, 2, 1, 2, 8, 8, 1), (18, 8))
        d.c(register(2, 1, 1, 1, 1, hours, 1), (0, 1))
        d.c(confirm(1, 2, 1, 2, 1, hours, 1), (18, 5))
        d.c(register(2, 1, 2, 1, 9, hours, 20000), (0, 2))
        d.c(confirm(1, 2, 2, 2, 9, hours, 20000), (0, 2))
        d.c(confirm(1, 2, 1, 2, 1, hours, 1), (18, 5))
        d.c(register(2, 1, 3, 1, 9, 9, 1), (0, 3))
        d.c(confirm(1, 2, 3, 2, 9, 9, 1), (18, 9))
        d.c(register(1, 2, 3, 1, 5, 8, 500), (0, 4))
        d.c(confirm(2, 1, 3, 2, 5, 8, 500), (0, 4))
        d.c(confirm(1, 2, 1, 2, 1, hours, 1), (18, 9))


def last_hour(d):
    """One kWh short in the last hour alone, in the first alone, in one between."""
    for hours in (23, 24, 25):
        for hour in (1, 12, hours):
            tight = but(1000, hours, {hour: 999})
            d.o(market(hours, accounts=((1, 1, WIDE, WIDE), (2, 2, 1000, tight), (2, 1, tight, 1000))))
            d.c(register(2, 1, 1, 2, 1, hours, 1000), (18, hour))
            d.c(register(3, 1, 1, 1, 1, hours, 1000), (18, hour))
            d.c(register(2, 1, 1, 1, 1, hours, 1000), (0, 1))
            d.c(register(3, 1, 1, 2, 1, hours, 1000), (0, 2))
            d.c(register(2, 1, 2, 2, 1, hours, 999), (0, 3))
            d.c(register(3, 1, 2, 1, 1, hours, 999), (0, 4))
            d.c(register(2, 1, 3, 2, hour, hour, 1), (18, hour))
            other = 2 if hour == 1 else 1
            d.c(register(2, 1, 3, 2, other, other, 1), (0, 5))
            d.c(register(2, 1, 4, 2, 1, hours, 1), (18, 1))
            # confirmed
            d.o(market(hours, accounts=((1, 1, WIDE, WIDE), (2, 2, 1000, tight), (2, 1, tight, 1000))))
            d.c(register(1, 2, 1, 1, 1, hours, 1000), (0, 1))
            d.c(register(1, 3, 1, 2, 1, hours, 1000), (0, 2))
            d.k()
            d.c(confirm(2, 1, 1, 2, 1, hours, 1000), (18, hour))
            d.c(confirm(3, 1, 1, 1, 1, hours, 1000), (18, hour))
            d.same(1)
            d.c(register(1, 2, 2, 1, 1, hours, 999), (0, 3))
            d.c(register(1, 3, 2, 2, 1, hours, 999), (0, 4))
            d.c(confirm(2, 1, 2, 2, 1, hours, 999), (0, 3))
            d.c(confirm(3, 1, 2, 1, 1, hours, 999), (0, 4))
            d.a(2, hour, 0, 999)
            d.a(3, hour, 0, -999)


def each_hour(d):
    """Another margin in every hour, the upper ones far above the lower ones: met exactly and passed by one."""
    lower = [100 + 7 * hour for hour in range(1, 25)]
    upper = [90000 - 11 * hour for hour in range(1, 25)]
    for first, last in ((lower, upper), (upper, lower)):
        d.o(market(accounts=((1, 1, first, last), (2, 2, WIDE, WIDE))))
        for hour in range(1, 25):
            d.c(register(1, 2, hour, 1, hour, hour, first[hour - 1] + 1), (18, hour))
            d.c(register(1, 2, hour, 1, hour, hour, first[hour - 1]), (0, 2 * hour - 1))
            d.c(register(1, 2, 100 + hour, 2, hour, hour, last[hour - 1] + 1), (18, hour))
            d.c(register(1, 2, 100 + hour, 2, hour, hour, last[hour - 1]), (0, 2 * hour))
        d.c(register(1, 2, 99, 1, 1, 24, 1), (18, 1))
        d.c(register(1, 2, 99, 2, 13, 24, 1), (18, 13))
        # a withdrawal frees its own hour
        d.c(withdraw(1, 25), 0)
        d.c(register(1, 2, 99, 1, 12, 14, 1), (18, 12))
        d.c(register(1, 2, 99, 1, 13, 14, 1), (18, 14))
        d.c(register(1, 2, 99, 1, 13, 13, first[12] + 1), (18, 13))
        d.c(register(1, 2, 99, 1, 13, 13, first[12]), (0, 49))
    # the same by confirms: what account 2 buys account 1 sells, and the other way round
    for first, last in ((lower, upper), (upper, lower)):
        for side, most in ((1, first), (2, last)):
            d.o(market(accounts=((1, 1, first, last), (2, 2, WIDE, WIDE))))
            for hour, quantity in enumerate(most, 1):
                d.c(register(2, 1, 1, 3 - side, hour, hour, quantity + 1), (0, 2 * hour - 1))
                d.c(confirm(1, 2, 1, side, hour, hour, quantity + 1), (18, hour))
                d.c(withdraw(2, 2 * hour - 1), 0)
                d.c(register(2, 1, 1, 3 - side, hour, hour, quantity), (0, 2 * hour))
                d.c(confirm(1, 2, 1, side, hour, hour, quantity), (0, 2 * hour))
                d.a(1, hour, 0, -quantity if side == 1 else quantity)
            d.c(register(2, 1, 1, 3 - side, 20, 24, 1), (0, 49))
            d.c(confirm(1, 2, 1, side, 20, 24, 1), (18, 20))


def parties(d):
    """Both parties close to a margin, each in hours of its own."""
    d.o(market(accounts=((1, 1, but(1000, 24, {3: 50}), but(1000, 24, {5: 60})),
                         (2, 2, but(1000, 24, {2: 10}), but(1000, 24, {7: 40})))))
    # the proposer's hour 3 at register, the caller's hour 7 at confirm
    d.c(register(1, 2, 1, 1, 1, 24, 51), (18, 3))
    d.c(register(1, 2, 1, 1, 1, 24, 50), (0, 1))
    d.c(confirm(2, 1, 1, 2, 1, 24, 50), (18, 7))
    d.c(withdraw(1, 1), 0)
    d.c(register(1, 2, 1, 1, 1, 24, 41), (0, 2))
    d.c(confirm(2, 1, 1, 2, 1, 24, 41), (18, 7))
    d.c(withdraw(1, 2), 0)
    d.c(register(1, 2, 1, 1, 1, 24, 40), (0, 3))
    d.c(confirm(2, 1, 1, 2, 1, 24, 40), (0, 3))
    # a proposer at its own margin: the confirm of its row takes nothing more of it
    d.c(register(1, 2, 2, 1, 3, 3, 11), (18, 3))
    d.c(register(1, 2, 2, 1, 3, 3, 10), (0, 4))
    d.c(confirm(2, 1, 2, 2, 3, 3, 10), (0, 4))
    d.a(1, 3, 0, -50)
    d.c(register(1, 2, 3, 1, 3, 3, 1), (18, 3))
    # the other side: the proposer's hour 5, the caller's hour 2
    d.c(register(1, 2, 3, 2, 2, 5, 101), (18, 5))
    d.c(register(1, 2, 3, 2, 2, 5, 100), (0, 5))
    d.c(confirm(2, 1, 3, 1, 2, 5, 100), (18, 2))
    d.c(withdraw(1, 5), 0)
    d.c(register(1, 2, 3, 2, 2, 5, 51), (0, 6))
    d.c(confirm(2, 1, 3, 1, 2, 5, 51), (18, 2))
    d.c(withdraw(1, 6), 0)
    d.c(register(1, 2, 3, 2, 2, 5, 50), (0, 7))
    d.c(confirm(2, 1, 3, 1, 2, 5, 50), (0, 7))
    d.a(2, 2, 0, -10)
    d.a(1, 5, 0, 10)
    d.read_all()


def filled(d):
    """Pending rows that fill one hour, freed by a withdrawal, by an undo and by a batch that is kept."""
    d.o(market(accounts=((1, 1, but(1000, 24, {12: 30}), but(1000, 24, {12: 25})), (2, 2, WIDE, WIDE))))
    for row in (1, 2, 3):
        d.c(register(1, 2, row, 1, 10, 14, 10), (0, row))
    d.c(register(1, 2, 4, 1, 1, 24, 1), (18, 12))
    d.c(register(1, 2, 4, 1, 1, 11, 970), (0, 4))
    d.c(register(1, 2, 5, 1, 1, 11, 1), (18, 10))
    d.c(register(1, 2, 5, 1, 13, 24, 970), (0, 5))
    d.c(register(1, 2, 6, 1, 12, 12, 1), (18, 12))
    d.c(withdraw(1, 2), 0)
    d.c(register(1, 2, 6, 1, 12, 12, 11), (18, 12))
    d.c(register(1, 2, 6, 1, 12, 12, 10), (0, 6))
    d.c(register(1, 2, 7, 1, 12, 12, 1), (18, 12))
    # a withdrawal that is undone fills the hour again
    d.k()
    d.c(OPEN, 0)
    d.c(withdraw(1, 1), 0)
    d.c(register(1, 2, 7, 1, 12, 12, 10), (0, 7))
    d.c(register(1, 2, 8, 1, 12, 12, 1), (18, 12))
    d.c(UNDO, (0, 1))
    d.same(1)
    d.c(register(1, 2, 7, 1, 12, 12, 1), (18, 12))
    # a row that is undone frees it
    d.c(withdraw(1, 3), 0)
    d.c(OPEN, 0)
    d.c(register(1, 2, 7, 1, 12, 12, 10), (0, 7))
    d.c(register(1, 2, 8, 1, 12, 12, 1), (18, 12))
    d.c(UNDO, (0, 1))
    d.c(register(1, 2, 8, 1, 12, 12, 10), (0, 7))
    d.c(register(1, 2, 9, 1, 12, 12, 1), (18, 12))
    d.c(OPEN, 0)
    d.c(withdraw(1, 7), 0)
    d.c(KEEP, 0)
    d.c(register(1, 2, 9, 1, 12, 12, 10), (0, 8))
    # a purchase pending in that hour, and confirms beside it
    d.c(register(1, 2, 10, 2, 12, 12, 20), (0, 9))
    d.c(register(2, 1, 1, 1, 11, 13, 6), (0, 10))
    d.c(confirm(1, 2, 1, 2, 11, 13, 6), (18, 12))
    d.c(register(2, 1, 2, 1, 11, 13, 5), (0, 11))
    d.c(confirm(1, 2, 2, 2, 11, 13, 5), (0, 11))
    d.c(confirm(1, 2, 1, 2, 11, 13, 6), (18, 12))
    d.c(withdraw(1, 9), 0)
    d.c(confirm(1, 2, 1, 2, 11, 13, 6), (0, 10))
    d.c(register(1, 2, 11, 1, 12, 12, 12), (18, 12))
    d.c(register(1, 2, 11, 1, 12, 12, 11), (0, 12))
    d.c(CLOSE, 0)
    d.a(1, 12, 0, 11)
    d.settle(flat(24, 7, 9), 0, 0, 16, ([], [231, -231]))


def lists(d):
    """All lower margins stand before all upper ones: sales in one half of the day, purchases in the other; then hour by hour."""
    early, late = [9000] * 12 + [0] * 12, [0] * 12 + [9000] * 12
    d.o(market(accounts=((1, 1, early, late), (2, 2, late, early))))
    d.c(register(1, 2, 1, 2, 1, 12, 1), (18, 1))
    d.c(register(1, 2, 1, 1, 13, 24, 1), (18, 13))
    d.c(register(1, 2, 1, 1, 1, 24, 9000), (18, 13))
    d.c(register(1, 2, 1, 1, 1, 12, 9001), (18, 1))
    d.c(register(1, 2, 1, 1, 1, 12, 9000), (0, 1))
    d.c(confirm(2, 1, 1, 2, 1, 12, 9000), (0, 1))
    d.c(register(1, 2, 2, 2, 12, 24, 9001), (18, 12))
    d.c(register(1, 2, 2, 2, 12, 24, 9000), (0, 2))
    d.c(register(1, 2, 3, 2, 24, 24, 1), (18, 24))
    d.c(confirm(2, 1, 2, 1, 12, 24, 9000), (0, 2))
    d.a(1, 12, 0, 0)
    d.a(1, 13, 0, 9000)
    d.a(2, 24, 0, -9000)
    d.o(market(accounts=((2, 2, WIDE, WIDE), (1, 1, [700, 0] * 12, [0, 800] * 12))))
    d.c(register(2, 1, 99, 1, 1, 24, 1), (18, 2))
    d.c(register(2, 1, 99, 2, 1, 24, 1), (18, 1))
    for hour in range(1, 25, 2):
        d.c(register(2, 1, hour, 2, hour, hour, 1), (18, hour))
        d.c(register(2, 1, hour, 1, hour, hour, 701), (18, hour))
        d.c(register(2, 1, hour, 1, hour, hour, 700), (0, hour))
        d.c(register(2, 1, hour + 1, 1, hour + 1, hour + 1, 1), (18, hour + 1))
        d.c(register(2, 1, hour + 1, 2, hour + 1, hour + 1, 801), (18, hour + 1))
        d.c(register(2, 1, hour + 1, 2, hour + 1, hour + 1, 800), (0, hour + 1))
    d.e(1, 0, 12 * 7000)


def largest(d):
    """32 accounts and 25 hours, every margin another: lower 1,000 for each account and 1 for each hour, upper 50,000 more."""
    accounts = [(1 + a % 16, 1 + a % 2, [1000 * a + h for h in range(1, 26)], [50000 + 1000 * a + h for h in range(1, 26)])
                for a in range(1, 33)]
    points = [(1 + i % 32, 3, 1 + i % 8, 5, 5) for i in range(64)]
    d.o(setup([400000] * 25, [(AMPLE, 0)] * 16, accounts, points, 8))
    row = 0
    for account in (1, 2, 16, 31, 32):
        other = 1 + account % 32
        for hour in (1, 13, 25):
            for side, most in ((1, 1000 * account + hour), (2, 50000 + 1000 * account + hour)):
                row += 1
                d.c(register(account, other, row, side, hour, hour, most + 1), (18, hour))
                d.c(register(account, other, row, side, hour, hour, most), (0, row))
        d.c(register(account, other, 99, 1, 1, 25, 1), (18, 1))
        d.c(register(account, other, 99, 2, 2, 25, 1), (18, 13))
    # account 32 sells to account 31, which proposes it: 32,000 and the hour
    for hour in (2, 14, 24):
        d.c(register(31, 32, 1, 2, hour, hour, 32001 + hour), (0, row + 1))
        d.c(confirm(32, 31, 1, 1, hour, hour, 32001 + hour), (18, hour))
        d.c(withdraw(31, row + 1), 0)
        d.c(register(31, 32, 1, 2, hour, hour, 32000 + hour), (0, row + 2))
        d.c(confirm(32, 31, 1, 1, hour, hour, 32000 + hour), (0, row + 2))
        row += 2
    # the last hour of account 32 is full with its pending rows
    d.c(register(31, 32, 1, 1, 24, 25, 1), (18, 25))
    d.c(register(30, 32, 1, 1, 24, 25, 1), (0, 37))
    d.c(confirm(32, 30, 1, 2, 24, 25, 1), (18, 25))


def before_exposure(d):
    """18 with the hour, before 19."""
    d.o(market(operators=((0, 0), (AMPLE, 0)), accounts=((1, 1, outage(24), 500), (2, 2, WIDE, WIDE))))
    d.c(register(1, 2, 1, 1, 1, 24, 1), (18, 5))
    d.c(register(1, 2, 1, 1, 9, 24, 1), 19)
    d.c(register(2, 1, 1, 2, 8, 9, 1), (0, 1))
    d.c(confirm(1, 2, 1, 1, 8, 9, 1), (18, 8))
    d.c(withdraw(2, 1), 0)
    d.c(register(2, 1, 1, 2, 9, 9, 1), (0, 2))
    d.c(confirm(1, 2, 1, 1, 9, 9, 1), 19)
    # a deal within every margin is left
    deal(d, 2, 1, 9, 5, 8, 500, 3)
    d.a(1, 8, 0, 500)


DAYS = (outages, last_hour, each_hour, parties, filled, lists, largest, before_exposure)
