"""Directed days on schedules and settlement."""
import random

from records import CLOSE, SETTLE, confirm, flat, guarantee, le, register, schedule, setup, table
from input_days import AMPLE, market
from trade_days import deal


def results(d):
    """All four results: PUN 60, zone 1 at 50, zone 2 at 70; each hour on its own."""
    points = [(1, 1, 1, 100, 0), (2, 2, 2, 0, 80), (1, 3, 2, 60, 50), (3, 3, 1, 70, 70), (2, 3, 1, 30, 100)]
    opening = market(operators=((AMPLE, 5), (AMPLE, 0)), accounts=((1, 1, 1000, 1000), (2, 2, 1000, 1000), (1, 2, 9, 9)),
                     points=points, zones=2)
    day = [  # side, hour, quantity, point, price, result
        # ties in price go by receipt; the point's greatest met exactly and passed by one
        (1, 1, 60, 1, 50, 0), (1, 1, 41, 1, 50, 1), (1, 1, 40, 1, 50, 0), (1, 1, 1, 1, 50, 1),
        # the account's limit met exactly and passed by one, over two points; 1 before 2
        (1, 1, 51, 3, 50, 2), (1, 1, 50, 3, 50, 0), (1, 1, 1, 3, 50, 2), (1, 1, 61, 3, 50, 1),
        # result 3 uses up its share of both limits
        (1, 2, 100, 1, 51, 3), (1, 2, 60, 3, 70, 2), (1, 2, 50, 3, 70, 0), (1, 2, 1, 3, 71, 2), (1, 2, 1, 1, 99, 1),
        # withdrawals: PUN on kind 2, the zone's price on kind 3, equal prices register
        (2, 3, 80, 2, 60, 0), (2, 3, 70, 5, 60, 0), (2, 3, 1, 5, 60, 2), (2, 3, 1, 2, 60, 1),
        # one below the price is 3, and still uses up its share; higher prices come first
        (2, 4, 80, 2, 59, 3), (2, 4, 70, 5, 49, 3), (2, 4, 1, 5, 10, 2), (2, 4, 81, 2, 400000, 1),
        (2, 5, 80, 2, 59, 3), (2, 5, 70, 5, 49, 2), (2, 5, 1, 5, 60, 0),
        # a side the point's kind forbids is 1; a net of the other sign or none gives no limit
        (1, 1, 1, 2, 0, 1), (2, 1, 1, 1, 400000, 1), (1, 5, 1, 5, 0, 2), (2, 5, 1, 3, 400000, 2), (1, 6, 1, 1, 0, 2),
        (2, 6, 1, 2, 400000, 2), (1, 24, 70, 4, 0, 2), (2, 24, 71, 4, 0, 1)]
    prices = flat(24, 60, 50, 70)
    given = [entry[5] for entry in day]
    # buffers longer than needed, then just long enough, then one byte short
    for first, second in ((256, 128), (len(day), 16), (512, 512)):
        d.o(opening)
        deal(d, 1, 2, 1, 1, 5, 150, 1)
        d.c(CLOSE, 0)
        for place, entry in enumerate(day, 1):
            d.c(schedule(*entry[:5]), (0, place))
        d.k()
        d.settle(prices, 10, len(day) - 1, 16)
        d.settle(prices, 10, len(day), 15)
        d.settle(prices, 10, 0, 0)
        d.settle(prices[4:], 5, first, second)
        d.settle(prices + bytes(4), 5, first, second)
        d.settle(prices[:-4] + le(400001, 4), (6, 12), 0, 0)
        d.settle(le(400001, 4) + prices[4:], (6, 12), first, second)
        d.c(SETTLE + prices, 5, b'', first, second)
        d.c(SETTLE + prices, 5, prices, first, second)
        d.same(1)
        d.settle(prices, 0, first, second, (given, [-33000, 36650]))
        d.same(0)
        d.k()
        d.settle(prices, 11, first, second)
        d.c(schedule(1, 1, 1, 1, 1), 11)
        d.same(1)
        d.a(1, 5, 0, -150)
        d.e(1, 0, 7500)


def priority(d):
    """Order within account, hour and side; receipt breaks ties; other hours and accounts do not matter."""
    opening = market(accounts=((1, 1, 1000, 1000), (2, 2, 1000, 1000), (2, 1, 1000, 1000)),
                     points=[(1, 1, 1, 100, 0), (1, 1, 1, 100, 0), (2, 2, 1, 0, 100), (2, 2, 1, 0, 100), (3, 1, 1, 100, 0)])
    for turn in range(2):
        d.o(opening)
        deal(d, 1, 2, 1, 1, 24, 100, 1)
        deal(d, 3, 2, 1, 24, 24, 100, 2)
        d.c(CLOSE, 0)
        day = [(1, 1, 60, 1, 30), (1, 1, 60, 2, 20), (1, 1, 40, 1, 25), (1, 1, 1, 2, 29),
               (2, 2, 60, 3, 20), (2, 2, 60, 4, 30), (2, 2, 40, 3, 25), (2, 2, 1, 3, 21),
               (1, 24, 100, 1, 25), (1, 24, 100, 5, 25), (1, 23, 100, 2, 25), (2, 24, 100, 3, 25), (2, 24, 100, 4, 25)]
        want = [2, 0, 0, 2, 2, 0, 0, 2, 0, 0, 0, 0, 0]
        if turn:
            day, want = day[::-1], want[::-1]
        for entry in day:
            d.c(schedule(*entry))
        d.settle(flat(24, 25, 25), 0, 13, 16, (want, [
            25 * (-2400 + 300), 25 * (2500 - 100 - 300 + 100)]))
    # each of four orders of receipt among equal prices: the first that fit are taken
    for order in ((50, 60, 40, 10), (60, 50, 40, 10), (10, 60, 50, 40), (101, 100, 1, 1)):
        d.o(opening)
        deal(d, 1, 2, 1, 2, 2, 100, 1)
        d.c(CLOSE, 0)
        for place, quantity in enumerate(order):
            d.c(schedule(1, 2, quantity, 1 + place % 2, 7))
            d.c(schedule(2, 2, quantity, 3 + place % 2, 7))
        d.settle(flat(24, 7, 7))


def largest(d):
    """The largest set-up, its exposure met at the greatest guarantee, 256 schedules, the greatest sums."""
    chance = random.Random(2001)
    accounts = [(1 if i < 11 else 1 + i % 16, 1 + i % 2, 10 ** 7, 10 ** 7) for i in range(32)]
    points = [(1 + i % 32, 3 if i < 40 else 1 + i % 2, 1 + i % 8, 10 ** 7, 10 ** 7) for i in range(64)]
    points = [(a, k, z, 0 if k == 2 else g, 0 if k == 1 else w) for a, k, z, g, w in points]
    d.o(setup([400000] * 25, [(AMPLE, 0)] * 16, accounts, points, 8))
    for account in range(1, 11):
        d.c(register(account, 11 + account, account, 1, 1, 25, 10 ** 7), (0, account))
    d.e(1, 0, 10 ** 15)
    # ten accounts with 10^7 each at 400,000
    d.i(1, 1, 25, 0, [4 * 10 ** 13] * 25)
    d.c(register(11, 12, 11, 1, 25, 25, 1), 19)
    d.c(register(1, 12, 11, 1, 25, 25, 1), (18, 25))
    d.c(guarantee(1, AMPLE - 1), 19)
    d.c(guarantee(1, AMPLE), 0)
    for account in range(1, 11):
        d.c(confirm(11 + account, account, account, 2, 1, 25, 10 ** 7), (0, account))
    d.c(register(12, 11, 11, 1, 1, 25, 1), 19 if accounts[11][0] == 1 else (0, 11))
    d.e(1, 0, 10 ** 15)
    d.i(1, 1, 25, 0, [4 * 10 ** 13] * 25)
    d.a(1, 25, 0, -10 ** 7)
    d.a(21, 1, 0, 10 ** 7)
    d.c(CLOSE, 0)
    for place in range(1, 257):
        point = chance.randrange(64)
        side = 1 if points[point][0] <= 10 else 2
        d.c(schedule(side, chance.choice((1, 2, 25)), chance.choice((10 ** 7, 5 * 10 ** 6, 10 ** 6, 1)), point + 1,
                     chance.choice((0, 200000, 399999, 400000))), (0, place))
    d.k()
    d.c(schedule(1, 1, 1, 1, 1), 20)
    d.c(schedule(1, 1, 1, 65, 1), (6, 11))
    d.same(1)
    columns = [[chance.choice((0, 200000, 400000)) for _ in range(25)] for _ in range(9)]
    d.settle(table(*columns), 10, 255, 128)
    d.settle(table(*columns), 10, 256, 127)
    d.settle(table(*columns[:-1]), 5, 256, 128)
    d.settle(table(*columns), 0, 256, 128)
    d.settle(table(*columns), 11, 256, 128)
    d.c(schedule(1, 1, 1, 1, 1), 11)
    # the greatest balances: everything sold, nothing or everything injected
    for quantity in (1, 10 ** 7):
        d.o(setup([0] * 25, [(0, 0), (0, 0)], [(1, 1, 10 ** 7, 0), (2, 2, 0, 10 ** 7)], [(1, 1, 1, 10 ** 7, 0)]))
        deal(d, 1, 2, 2 ** 64 - 1, 1, 25, 10 ** 7, 1)
        d.c(CLOSE, 0)
        for hour in range(1, 26):
            d.c(schedule(1, hour, quantity, 1, 0), (0, hour))
        d.settle(flat(25, 400000, 0), 0, 25, 16,
                 ([0] * 25, [-10 ** 14, 10 ** 14]))


def full_schedules(d):
    """Schedule 256 passes, 257 is 20; settled with 256; H 23 and 25 with no point or no schedule."""
    d.o(market(24, points=[(1, 1, 1, 100, 0), (2, 2, 1, 0, 100)]))
    deal(d, 1, 2, 1, 1, 24, 200, 1)
    d.c(CLOSE, 0)
    for place in range(1, 257):
        side = 1 + place % 2
        d.c(schedule(side, 1 + place % 24, 5 + place % 7, side, 20 + place % 11), (0, place))
    d.k()
    for _ in range(2):
        d.c(schedule(2, 1, 1, 2, 1), 20)
    d.same(1)
    d.settle(flat(24, 25, 26), 10, 255, 16)
    d.settle(flat(24, 25, 26), 0, 256, 16)
    for hours in (23, 25):
        d.o(market(hours))
        deal(d, 1, 2, 1, hours, hours, 3, 1)
        d.c(CLOSE, 0)
        d.settle(flat(24, 25, 26), 5, 0, 16)
        d.settle(flat(hours, 25, 26), 10, 0, 15)
        d.settle(flat(hours, 25, 26), 0, 0, 16, ([], [-75, 75]))


def zones(d):
    """Several operators and zones, mixed points, prices by hour; zone prices below and above PUN."""
    chance = random.Random(77)
    accounts = [(1 + i % 3, 1 + i % 2, 300, 300) for i in range(6)]
    points = [(1 + i % 6, 3 if i % 3 == 0 else 1 + i % 2, 1 + i % 4, 60, 60) for i in range(12)]
    points = [(a, k, z, 0 if k == 2 else g, 0 if k == 1 else w) for a, k, z, g, w in points]
    for hours in (23, 24, 25):
        d.o(setup([5] * hours, [(AMPLE, 0)] * 3, accounts, points, 4))
        row = 0
        for seller in (1, 3, 5, 2):
            row += 1
            buyer = 1 + (seller + 2) % 6
            deal(d, seller, buyer, row, 1 + row, hours - row, 40 + 9 * row, row)
        d.c(CLOSE, 0)
        for place in range(1, 121):
            d.c(schedule(chance.choice((1, 2)), chance.choice((1, 2, 3, 4, hours - 1, hours)), chance.randrange(1, 62),
                         chance.randrange(1, 13), chance.randrange(30, 36)), (0, place))
        d.settle(table(*[[chance.randrange(30, 36) for _ in range(hours)] for _ in range(5)]), 0, 130, 30)


DAYS = (results, priority, largest, full_schedules, zones)
