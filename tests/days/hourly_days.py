"""Directed days on exposure by hour, with figures written by hand. Hours that are not named expose nothing."""
from asks import AT
from input_days import AMPLE, LAST, market
from records import CLOSE, KEEP, OPEN, UNDO, ask, commit, confirm, flat, guarantee, register, schedule, setup, strip, withdraw
from trade_days import deal

MOST = 10 ** 7


def four_accounts(points=()):
    """Accounts 1 and 3 of operator 1, 2 and 4 of operator 2, none of operator 3. Estimates are ten times the hour, 10 to 240, but
    0 in hour 4."""
    estimates = [10, 20, 30, 0] + [10 * hour for hour in range(5, 25)]
    accounts = [(1, 1, MOST, MOST), (2, 2, MOST, MOST), (1, 2, MOST, MOST), (2, 1, MOST, MOST)]
    return setup(estimates, [(AMPLE, 0), (AMPLE, 300), (0, 0)], accounts, list(points))


def columns(d, operator, named):
    """The money of every hour: that of the hours named, 0 in all others; together the exposure."""
    d.i(operator, 1, d.book.hours, 0, [named.get(hour, 0) for hour in range(1, d.book.hours + 1)])
    d.e(operator, 0, sum(named.values()))


def pending_sales(d):
    """Pending sales by hour, the hours beside them, other operators, estimates of 0."""
    d.o(four_accounts())
    for operator in (1, 2, 3):
        columns(d, operator, {})
    # 100 in hours 6 to 8: 100 * 60, 100 * 70, 100 * 80
    d.c(register(1, 2, 1, 1, 6, 8, 100), (0, 1))
    d.k()
    columns(d, 1, {6: 6000, 7: 7000, 8: 8000})
    d.i(1, 5, 9, 0, [0, 6000, 7000, 8000, 0])
    d.i(1, 7, 7, 0, [7000])
    d.i(1, 8, 7)
    d.i(1, 255, 0)
    # nothing of it on the counterparty's operator, or on one without accounts
    columns(d, 2, {})
    columns(d, 3, {})
    d.same(1)
    # 7 more in hours 8 and 9: 107 * 80, 7 * 90
    d.c(register(1, 4, 1, 1, 8, 9, 7), (0, 2))
    columns(d, 1, {6: 6000, 7: 7000, 8: 8560, 9: 630})
    # of another account of the operator: 9 in hours 9 and 10: 16 * 90, 9 * 100
    d.c(register(3, 2, 1, 1, 9, 10, 9), (0, 3))
    columns(d, 1, {6: 6000, 7: 7000, 8: 8560, 9: 1440, 10: 900})
    # pending purchases expose neither party
    d.c(register(1, 2, 2, 2, 1, 24, 500), (0, 4))
    d.c(register(2, 1, 2, 2, 1, 24, 500), (0, 5))
    columns(d, 1, {6: 6000, 7: 7000, 8: 8560, 9: 1440, 10: 900})
    columns(d, 2, {})
    # 11 in hours 3 to 5, of which hour 4 has the estimate 0: 11 * 30, 11 * 50
    d.c(register(1, 2, 3, 1, 3, 5, 11), (0, 6))
    columns(d, 1, {3: 330, 5: 550, 6: 6000, 7: 7000, 8: 8560, 9: 1440, 10: 900})
    # the greatest quantity where the estimate is 0
    d.c(register(2, 4, 3, 1, 4, 4, MOST), (0, 7))
    columns(d, 2, {})
    # each operator has what its own accounts expose: 3 in hour 24, 2 in hour 1
    d.c(register(2, 1, 3, 1, 24, 24, 3), (0, 8))
    d.c(register(4, 1, 3, 1, 1, 1, 2), (0, 9))
    columns(d, 2, {1: 20, 24: 720})
    d.c(register(3, 4, 3, 1, 1, 24, 1), (0, 10))
    d.i(1, 1, 10, 0, [10, 20, 360, 0, 600, 6060, 7070, 8640, 1530, 1000])
    d.i(1, 23, 24, 0, [230, 240])
    columns(d, 2, {1: 20, 24: 720})
    # neither a guarantee nor its maintenance is part of it
    d.c(guarantee(2, 2), 0)
    columns(d, 2, {1: 20, 24: 720})


def accounts(d):
    """Account by account: what one is long does not ease another, nor one hour another, nor net a pending sale."""
    d.o(four_accounts())
    # account 1 sells 50 in hours 2 and 3: 50 * 20, 50 * 30
    deal(d, 1, 2, 1, 2, 3, 50, 1)
    columns(d, 1, {2: 1000, 3: 1500})
    columns(d, 2, {})
    # in hour 3 account 3 is long by 80, account 4 short by 80 and account 2 long by 50: 80 * 30, 80 * 0, 80 * 50
    deal(d, 4, 3, 1, 3, 5, 80, 2)
    columns(d, 1, {2: 1000, 3: 1500})
    columns(d, 2, {3: 2400, 5: 4000})
    # account 1, short in hours 2 and 3, is long by 20 in hours 5 and 6; operator 2: (80 + 20) * 50, 20 * 60
    deal(d, 2, 1, 1, 5, 6, 20, 3)
    columns(d, 1, {2: 1000, 3: 1500})
    columns(d, 2, {3: 2400, 5: 5000, 6: 1200})
    # a pending sale of 30 by account 1, in full where net is 20: (50 + 30) * 20, (50 + 30) * 30, 30 * 50, 30 * 60, 30 * 70
    d.c(register(1, 2, 2, 1, 2, 7, 30), (0, 4))
    columns(d, 1, {2: 1600, 3: 2400, 5: 1500, 6: 1800, 7: 2100})
    # one of less than net counts in full too: (30 + 19) * 60
    d.c(register(1, 4, 2, 1, 6, 6, 19), (0, 5))
    columns(d, 1, {2: 1600, 3: 2400, 5: 1500, 6: 2940, 7: 2100})
    # confirmed, it counts with net: 80 below zero, 10 below zero in hour 5, and in hour 6, (10 + 19) * 60; account 2 is long by 10
    d.c(confirm(2, 1, 2, 2, 2, 7, 30), (0, 4))
    columns(d, 1, {2: 1600, 3: 2400, 5: 500, 6: 1740, 7: 2100})
    columns(d, 2, {3: 2400, 5: 4000})
    d.c(withdraw(1, 5), 0)
    columns(d, 1, {2: 1600, 3: 2400, 5: 500, 6: 600, 7: 2100})
    # two accounts of one operator trade in hour 20: one short by 10, then at zero, then the other short by 1
    deal(d, 1, 3, 1, 20, 20, 10, 6)
    d.i(1, 19, 21, 0, [0, 2000, 0])
    deal(d, 3, 1, 1, 20, 20, 10, 7)
    d.i(1, 19, 21, 0, [0, 0, 0])
    deal(d, 3, 1, 1, 20, 20, 1, 8)
    d.i(1, 19, 21, 0, [0, 200, 0])
    # a purchase proposed by the buyer: the seller's net falls when it is confirmed, 5 * 180 and 5 * 190
    d.c(register(2, 3, 9, 2, 18, 19, 5), (0, 9))
    d.i(1, 17, 20, 0, [0, 0, 0, 200])
    d.c(confirm(3, 2, 9, 1, 18, 19, 5), (0, 9))
    d.i(1, 17, 20, 0, [0, 900, 950, 200])
    # both parties have pending sales to one another; each operator has its own
    d.c(register(1, 2, 3, 1, 22, 22, 6), (0, 10))
    d.c(register(2, 1, 3, 1, 22, 22, 4), (0, 11))
    d.i(1, 21, 23, 0, [0, 1320, 0])
    d.i(2, 21, 23, 0, [0, 880, 0])
    d.e(1, 0, 1600 + 2400 + 500 + 600 + 2100 + 900 + 950 + 200 + 1320)


def rows(d):
    """Withdrawn rows, batches, strips and asks; after the gate; settled."""
    d.o(four_accounts([(1, 1, 1, 50, 0)]))
    d.c(register(1, 2, 1, 1, 1, 3, 40), (0, 1))
    columns(d, 1, {1: 400, 2: 800, 3: 1200})
    d.c(withdraw(1, 1), 0)
    columns(d, 1, {})
    deal(d, 1, 2, 1, 2, 2, 5, 2)
    d.c(register(1, 2, 2, 1, 2, 3, 6), (0, 3))
    first = {2: 220, 3: 180}
    columns(d, 1, first)
    # an open batch counts its rows: 8 by account 3 in hour 3, 6 confirmed, 9 short by a purchase of account 2 in hour 5
    d.k()
    for end in (UNDO, KEEP):
        d.c(OPEN, 0)
        columns(d, 1, first)
        d.c(register(3, 2, 1, 1, 3, 3, 8), (0, 4))
        columns(d, 1, {2: 220, 3: 420})
        d.c(confirm(2, 1, 2, 2, 2, 3, 6), (0, 3))
        d.c(register(2, 1, 5, 2, 5, 5, 9), (0, 5))
        columns(d, 1, {2: 220, 3: 420})
        d.c(confirm(1, 2, 5, 1, 5, 5, 9), (0, 5))
        second = {2: 220, 3: 420, 5: 450}
        columns(d, 1, second)
        d.c(end, (0, 2) if end == UNDO else 0)
        columns(d, 1, first if end == UNDO else second)
        d.same(1 if end == UNDO else 0)
    # a withdrawal that is undone: the row counts again
    d.c(OPEN, 0)
    d.c(withdraw(3, 4), 0)
    columns(d, 1, {2: 220, 3: 180, 5: 450})
    d.c(UNDO, 0)
    columns(d, 1, second)
    # an ask counts nothing while it stands, its commit does: 12 * 30 and 12 * 0
    d.c(ask(1, 4, 7, 1, 3, 4, 12), (0, 6))
    d.c(ask(3, 4, 7, 1, 24, 24, 12), (0, 6))
    d.k()
    columns(d, 1, second)
    d.same(1)
    d.c(commit(1, 4, 7, 1, 3, 4, 12), (0, 6))
    columns(d, 1, {2: 220, 3: 780, 5: 450})
    # a strip counts row by row; a refused one does not
    shaped = [register(3, 2, 20, 1, 10, 11, 2), register(3, 2, 21, 2, 10, 11, 70), register(3, 4, 22, 1, 11, 11, 3)]
    d.c(strip(*shaped, register(3, 3, 23, 1, 12, 12, 5)), 7)
    columns(d, 1, {2: 220, 3: 780, 5: 450})
    d.c(strip(*shaped), (0, 7))
    columns(d, 1, {2: 220, 3: 780, 5: 450, 10: 200, 11: 550})
    # no refused call counts
    d.c(register(1, 2, 9, 1, 24, 24, MOST + 1), (6, 7))
    d.c(register(1, 4, 7, 1, 24, 24, 1), 14)
    d.c(register(1, 2, 9, 1, 3, 24, MOST), (18, 3))
    columns(d, 1, {2: 220, 3: 780, 5: 450, 10: 200, 11: 550})
    # after the gate what is pending is gone: 11 in hour 2, 6 in hour 3, 9 in hour 5
    d.c(CLOSE, 0)
    d.k()
    columns(d, 1, {2: 220, 3: 180, 5: 450})
    columns(d, 2, {})
    d.i(1, 0, 0, (6, 5))
    d.i(0, 1, 1, (6, 9))
    d.i(4, 25, 25, (6, 5))
    d.same(1)
    # schedules change nothing, nor does a settlement at other prices: the column goes by the estimates. 11 are injected;
    # -15 * 7,000 + 11 * 2,000 and 26 * 7,000
    d.c(schedule(1, 2, 11, 1, 0), (0, 1))
    columns(d, 1, {2: 220, 3: 180, 5: 450})
    d.settle(flat(24, 7000, 9000), 0, 1, 24, ([0], [-83000, 182000, 0]))
    d.k()
    columns(d, 1, {2: 220, 3: 180, 5: 450})
    columns(d, 2, {})
    columns(d, 3, {})
    d.i(1, 25, 25, (6, 5))
    d.i(4, 24, 24, (6, 9))
    d.i(4, 0, 0, (6, 5))
    d.same(1)


def ends(d):
    """Days of 23, 24 and 25 hours: the first and the last hour, and what is out of range."""
    for hours in (23, 24, 25):
        d.o(setup([7] + [0] * (hours - 2) + [9], [(AMPLE, 0)] * 2, [(1, 1, 100, 100), (2, 2, 100, 100)]))
        d.c(register(1, 2, 1, 1, 1, hours, 6), (0, 1))
        deal(d, 2, 1, 2, hours, hours, 5, 2)
        d.k()
        # 6 * 7, 6 * 9 with net above zero, 5 * 9
        columns(d, 1, {1: 42, hours: 54})
        columns(d, 2, {hours: 45})
        d.i(1, hours - 1, hours, 0, [0, 54])
        # hours out of range, of either operator
        for operator in (1, 2):
            d.i(operator, 0, 0, (6, 5))
            d.i(operator, hours + 1, 26, (6, 5))
        d.i(1, 254, 255, (6, 5))
        d.i(2, 128, 128, (6, 5))
        # operators out of range, in every hour
        d.i(0, 1, 2, (6, 9))
        d.i(3, 1, hours, (6, 9))
        d.i(17, hours, hours, (6, 9))
        d.i(255, hours, hours, (6, 9))
        # both: the hour's bit
        for operator, hour in ((0, 0), (3, 0), (255, 0), (0, hours + 1), (3, hours + 1), (0, 255), (255, 255), (hours + 1, hours + 1)):
            d.i(operator, hour, hour, (6, 5))
        # from hour 0 to past the last
        d.i(1, 0, 1)
        d.i(2, hours, hours + 1)
        d.same(1)


def no_book(d):
    """Bytes that are no book: 1, whatever the operator and the hour."""
    d.o(market(23, accounts=((1, 1, 100, 100), (2, 2, 100, 100))))
    d.c(register(1, 2, 1, 1, 1, 1, 3), (0, 1))
    for _ in range(2):
        d.k()
        # an unused byte; a place of asks with an account's number alone, and one of an account that the day has not
        for place in (LAST - 8, LAST - 1, AT, AT + 31 * 18 + 17):
            d.p(place, b'\x01')
            d.i(1, 1, 1, 1)
            for operator, hour in ((0, 1), (1, 0), (0, 0), (3, 24), (255, 255)):
                d.i(operator, hour, hour, 1)
            d.i(2, 23, 24, 1)
            d.p(place, b'\x00')
            d.same(1)
            d.i(1, 1, 1, 0, [30 if d.book.phase == 1 else 0])
        if d.book.phase == 1:
            d.c(CLOSE, 0)
    # a day that is left so
    d.p(LAST - 3, b'\x80')


def greatest(d):
    """32 accounts of one operator, 10,000,000 kWh and 400,000 in every place; the guarantee met exactly by 256 rows."""
    d.o(setup([400000] * 23, [(AMPLE, 0)], [(1, 1 + at % 2, MOST, MOST) for at in range(32)]))
    # accounts 1 to 16 are short by 10,000,000 in hours 1 to 5: 16 * 10^7 * 400,000
    for seller in range(1, 17):
        deal(d, seller, 16 + seller, 1, 1, 5, MOST, seller)
        d.i(1, 5, 6, 0, [seller * 4 * 10 ** 12, 0])
    columns(d, 1, dict.fromkeys(range(1, 6), 64 * 10 ** 12))
    # accounts 17 to 32, long by as much, have pending sales of 20,000,000 each, in two rows or three: 48 * 10^7 * 400,000
    row = 17
    for seller in range(17, 33):
        parts = (MOST, MOST) if seller > 24 else (MOST, MOST // 2, MOST // 2)
        d.c(strip(*(register(seller, 1, code, 1, 1, 5, part) for code, part in enumerate(parts))), (0, row))
        row += len(parts)
    columns(d, 1, dict.fromkeys(range(1, 6), 192 * 10 ** 12))
    d.c(register(32, 1, 9, 1, 5, 5, 1), (18, 5))
    # what is left of the guarantee, in hour 23: ten accounts with 20 rows of 500,000 each, 10 * 10^7 * 400,000
    for seller in range(1, 11):
        d.c(strip(*(register(seller, 32, code, 1, 23, 23, 500000) for code in range(20))), (0, row))
        row += 20
    assert row == 257
    columns(d, 1, {**dict.fromkeys(range(1, 6), 192 * 10 ** 12), 23: 40 * 10 ** 12})
    d.e(1, 0, 10 ** 15)
    d.c(guarantee(1, AMPLE - 1), 19)
    d.c(register(32, 1, 9, 1, 22, 22, 1), 15)
    # the gate leaves what is confirmed
    d.c(CLOSE, 0)
    columns(d, 1, dict.fromkeys(range(1, 6), 64 * 10 ** 12))


DAYS = (pending_sales, accounts, rows, ends, no_book, greatest)
