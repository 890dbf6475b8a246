"""Days that value their account hours: directed ones with figures written by hand, then random ones.

Figures of an account hour are physical balance, purchase, sale, CCT and hourly amount. Account hours that are not
named in a day are zero throughout.
"""
import random

import random_days
import reading
from input_days import AMPLE, LAST, market
from records import CLOSE, KEEP, OPEN, SETTLE, UNDO, confirm, flat, le, register, schedule, setup, table, withdraw
from trade_days import deal
from valuation import totals

SEEDS = range(501, 507)
SEEDS_BY_HOUR = range(507, 511)


def hourly(hours, rest, *columns):
    """Prices by hour: PUN, then each zone's; each column names some hours, the others have the price `rest`."""
    return table(*([column.get(hour, rest) for hour in range(1, hours + 1)] for column in columns))


def send(d, day):
    """Schedules as side, hour, quantity, point, price and result; gives the results."""
    for place, entry in enumerate(day, 1):
        d.c(schedule(*entry[:5]), (0, place))
    return [entry[5] for entry in day]


def settle(d, prices, results, want, balances):
    """Values, settles and values again: the amounts total the balances as settle writes them, and stay what they were."""
    before = d.h(prices, want)
    money = totals(d.book, before)
    assert money == balances, money
    d.settle(prices, 0, len(d.book.schedules), 8 * len(money), (results, money))
    d.k()
    assert d.h(prices, want) == before
    d.same(1)


def whole_case(d):
    """The whole case in every phase, and at other prices."""
    d.o(setup([5000] * 24, [(100000, 100), (0, 0)], [(1, 1, 20000, 0), (2, 2, 0, 20000)], [(1, 1, 1, 15000, 0)]))
    prices = hourly(24, 0, {1: 6000}, {1: 5500})
    d.k()
    d.h(prices, {})
    d.same(1)
    # a pending row moves nothing
    d.c(register(1, 2, 0, 1, 1, 1, 18000), (0, 1))
    d.h(prices, {})
    # 18,000 sold, nothing injected: 18,000 * 6,000 to buy, and as much to sell on the other side
    d.c(confirm(2, 1, 0, 2, 1, 1, 18000), (0, 1))
    bought = (18000, 0, 108000000, 0, 108000000)
    sold = {(1, 1): (-18000, 108000000, 0, 0, -108000000), (2, 1): bought}
    d.h(prices, sold)
    d.c(CLOSE, 0)
    d.h(prices, sold)
    d.c(schedule(1, 1, 15000, 1, 3000), (0, 1))
    d.k()
    # the schedule's 3,000 is above the zone price: result 3, nothing counts
    d.h(hourly(24, 0, {1: 6000}, {1: 2999}), sold)
    # the same price registers: 15,000 * (3,000 - 6,000) = -45,000,000, beside a purchase of 3,000 * 6,000
    d.h(hourly(24, 0, {1: 6000}, {1: 3000}), {(1, 1): (-3000, 18000000, 0, -45000000, -63000000), (2, 1): bought})
    # zone price as PUN: no CCT; 500 above it: 15,000 * 500 = 7,500,000
    d.h(hourly(24, 0, {1: 6000}, {1: 6000}), {(1, 1): (-3000, 18000000, 0, 0, -18000000), (2, 1): bought})
    d.h(hourly(24, 0, {1: 6000}, {1: 6500}), {(1, 1): (-3000, 18000000, 0, 7500000, -10500000), (2, 1): bought})
    # PUN 0: neither purchase nor sale; 15,000 * 5,500 = 82,500,000
    d.h(hourly(24, 0, {}, {1: 5500}), {(1, 1): (-3000, 0, 0, 82500000, 82500000), (2, 1): (18000, 0, 0, 0, 0)})
    # prices of other hours alone: the zone price is 0, so that the schedule has result 3
    d.h(hourly(24, 7, {1: 0}, {1: 0}), {(1, 1): (-18000, 0, 0, 0, 0), (2, 1): (18000, 0, 0, 0, 0)})
    # -18,000 + 15,000 = -3,000; 3,000 * 6,000 = 18,000,000; 15,000 * (5,500 - 6,000) = -7,500,000;
    # 0 - 18,000,000 - 7,500,000 = -25,500,000
    injected = {(1, 1): (-3000, 18000000, 0, -7500000, -25500000), (2, 1): bought}
    d.h(prices, injected)
    d.same(1)
    settle(d, prices, [0], injected, [-25500000, 108000000])
    # a settled book is judged anew at the prices given
    d.h(hourly(24, 0, {1: 6000}, {1: 2999}), sold)


def results(d):
    """Each kind of point and each result; PUN 60, zone 1 at 50, zone 2 at 70, zone 3 at 60 in all hours."""
    d.o(market(operators=((AMPLE, 0),) * 3, accounts=((1, 1, 1000, 1000), (2, 2, 1000, 1000), (1, 2, 1000, 1000), (3, 1, 1000, 1000)),
               points=[(1, 1, 1, 100, 0), (1, 3, 2, 60, 50), (2, 2, 1, 0, 80), (2, 3, 1, 30, 100), (2, 3, 2, 0, 100),
                       (3, 2, 2, 0, 40), (3, 3, 3, 0, 40), (4, 1, 3, 500, 0), (4, 3, 1, 500, 500)], zones=3))
    prices = flat(24, 60, 50, 70, 60)
    deal(d, 1, 2, 1, 1, 6, 150, 1)
    deal(d, 4, 3, 1, 5, 6, 100, 2)
    d.c(CLOSE, 0)
    # 150 * 60 = 9,000 and 100 * 60 = 6,000
    bare = {(account, hour): figures for hour in range(1, 7) for account, figures in (
        (1, (-150, 9000, 0, 0, -9000)), (2, (150, 0, 9000, 0, 9000)), (3, (100, 0, 6000, 0, 6000)), (4, (-100, 6000, 0, 0, -6000)))
        if account < 3 or hour > 4}
    d.h(prices, bare)
    given = send(d, [
        # hour 1: all that was sold is injected, in two zones; all that was bought is withdrawn on mixed points of two zones
        (1, 1, 100, 1, 50, 0), (1, 1, 50, 2, 70, 0), (2, 1, 90, 4, 50, 0), (2, 1, 60, 5, 70, 0),
        # hour 2: every result on both sides
        (1, 2, 60, 1, 40, 0), (1, 2, 41, 1, 45, 1), (1, 2, 40, 1, 51, 3), (1, 2, 51, 2, 55, 2), (1, 2, 50, 2, 60, 0),
        (2, 2, 80, 3, 60, 0), (2, 2, 1, 3, 60, 1), (2, 2, 30, 4, 49, 3), (2, 2, 21, 4, 40, 2), (2, 2, 20, 5, 75, 0),
        # hour 3: 59 is below PUN and above the zone price
        (1, 3, 100, 1, 51, 3), (2, 3, 80, 3, 59, 3), (2, 3, 70, 4, 59, 0),
        # hour 4: sides that the point or the net forbids
        (2, 4, 1, 1, 400000, 1), (2, 4, 50, 2, 400000, 2), (1, 4, 1, 3, 0, 1), (1, 4, 30, 4, 0, 2),
        # hour 5: a zone with the price PUN; a point of kind 2 in a zone with another price
        (1, 5, 100, 8, 60, 0), (2, 5, 40, 6, 60, 0), (2, 5, 40, 7, 60, 0),
        # hour 6: a mixed point injects; the point of kind 2 alone
        (1, 6, 70, 9, 50, 0), (2, 6, 40, 6, 60, 0)])
    want = dict(bare)
    # -150 + 150 = 0; 100 * -10 + 50 * 10 = -500. 150 - 150 = 0; -(90 * -10) - 60 * 10 = 300
    want[1, 1], want[2, 1] = (0, 0, 0, -500, -500), (0, 0, 0, 300, 300)
    # -150 + 110 = -40; 40 * 60 = 2,400; 60 * -10 + 50 * 10 = -100. 150 - 100 = 50; 50 * 60 = 3,000; -(20 * 10) = -200
    want[1, 2], want[2, 2] = (-40, 2400, 0, -100, -2500), (50, 0, 3000, -200, 2800)
    # nothing injected. 150 - 70 = 80; 80 * 60 = 4,800; -(70 * -10) = 700
    want[2, 3] = (80, 0, 4800, 700, 5500)
    # 100 - 80 = 20; 20 * 60 = 1,200; no CCT on kind 2, and none where the zone price is PUN. -100 + 100 = 0
    want[3, 5] = (20, 0, 1200, 0, 1200)
    del want[4, 5]
    # 100 - 40 = 60; 60 * 60 = 3,600. -100 + 70 = -30; 30 * 60 = 1,800; 70 * -10 = -700
    want[3, 6], want[4, 6] = (60, 0, 3600, 0, 3600), (-30, 1800, 0, -700, -2500)
    # operator 1 has accounts 1 and 3: -500 - 2,500 - 4 * 9,000 + 1,200 + 3,600; operator 2: 300 + 2,800 + 5,500 + 3 * 9,000
    settle(d, prices, given, want, [-34200, 35600, -2500])
    # all prices 0: no injection is registered, every withdrawal that fits is; no money at all
    d.h(flat(24, 0, 0, 0, 0), part={(1, 1): (-150, 0, 0, 0, 0), (2, 1): (0, 0, 0, 0, 0), (2, 2): (20, 0, 0, 0, 0),
                                    (3, 5): (20, 0, 0, 0, 0), (4, 6): (-100, 0, 0, 0, 0)})
    # all prices at the highest: every injection that fits is registered, no withdrawal; 400,000 for each kWh, and no CCT
    d.h(flat(24, 400000, 400000, 400000, 400000), part={
        (1, 1): (0, 0, 0, 0, 0), (1, 2): (0, 0, 0, 0, 0), (2, 2): (150, 0, 60000000, 0, 60000000),
        (1, 4): (-150, 60000000, 0, 0, -60000000), (4, 6): (-30, 12000000, 0, 0, -12000000)})


def turned(d):
    """An account of kind 1 that has bought and one of kind 2 that has sold, each with mixed points in two zones."""
    d.o(market(accounts=((1, 1, 100, 100), (2, 2, 100, 100)), zones=2, points=[
        (1, 3, 1, 30, 30), (1, 3, 2, 30, 30), (2, 3, 1, 30, 30), (2, 3, 2, 30, 30), (1, 1, 1, 30, 0), (2, 2, 2, 0, 30)]))
    deal(d, 2, 1, 1, 1, 3, 70, 1)
    d.c(CLOSE, 0)
    given = send(d, [
        (2, 1, 30, 1, 45, 0), (2, 1, 20, 2, 90, 0), (1, 1, 30, 5, 0, 2),
        (1, 1, 30, 3, 45, 0), (1, 1, 10, 4, 90, 0), (2, 1, 30, 6, 400000, 2),
        (2, 2, 30, 1, 44, 3), (2, 2, 30, 2, 89, 3), (1, 2, 30, 3, 46, 3), (1, 2, 30, 4, 91, 3),
        (2, 3, 30, 1, 45, 0), (2, 3, 30, 2, 90, 0), (1, 3, 30, 3, 45, 0), (1, 3, 30, 4, 90, 0)])
    settle(d, flat(24, 60, 45, 90), given, {
        # 70 - 50 = 20; 20 * 60 = 1,200; -(30 * -15) - 20 * 30 = -150
        (1, 1): (20, 0, 1200, -150, 1050),
        # -70 + 40 = -30; 30 * 60 = 1,800; 30 * -15 + 10 * 30 = -150
        (2, 1): (-30, 1800, 0, -150, -1950),
        # one cent short of each price: 70 * 60 = 4,200
        (1, 2): (70, 0, 4200, 0, 4200), (2, 2): (-70, 4200, 0, 0, -4200),
        # 70 - 60 = 10; 10 * 60 = 600; -(30 * -15) - 30 * 30 = -450, and the other way round
        (1, 3): (10, 0, 600, -450, 150), (2, 3): (-10, 600, 0, 450, -150)}, [5400, -6300])


def ends(d):
    """First and last hours: PUN 100 and 300, zone 1 at 110 and 250, zone 2 at 90 and 310; 7, 8 and 9 between them."""
    for hours in (23, 24, 25):
        d.o(market(hours, accounts=((1, 1, 100, 100), (2, 2, 100, 100)), zones=2,
                   points=[(1, 1, 1, 40, 0), (1, 3, 2, 40, 40), (2, 2, 1, 0, 40), (2, 3, 2, 40, 40)]))
        deal(d, 1, 2, 1, 1, 1, 50, 1)
        deal(d, 1, 2, 2, hours, hours, 70, 2)
        deal(d, 2, 1, 3, 2, hours - 1, 5, 3)
        d.c(CLOSE, 0)
        given = send(d, [(1, 1, 40, 1, 110, 0), (2, 1, 40, 3, 100, 0), (1, hours, 30, 1, 251, 3), (1, hours, 40, 2, 310, 0),
                         (2, hours, 40, 4, 310, 0), (2, 2, 5, 2, 9, 0), (1, 2, 5, 4, 9, 0), (2, hours - 1, 2, 2, 8, 3)])
        # the hours between: 5 * 7 = 35
        want = {(account, hour): figures for hour in range(3, hours)
                for account, figures in ((1, (5, 0, 35, 0, 35)), (2, (-5, 35, 0, 0, -35)))}
        # -50 + 40 = -10; 10 * 100 = 1,000; 40 * 10 = 400. 50 - 40 = 10; no CCT on kind 2
        want[1, 1], want[2, 1] = (-10, 1000, 0, 400, -600), (10, 0, 1000, 0, 1000)
        # 5 - 5 = 0; -(5 * 2) = -10. -5 + 5 = 0; 5 * 2 = 10
        want[1, 2], want[2, 2] = (0, 0, 0, -10, -10), (0, 0, 0, 10, 10)
        # -70 + 40 = -30; 30 * 300 = 9,000; 40 * 10 = 400. 70 - 40 = 30; -(40 * 10) = -400
        want[1, hours], want[2, hours] = (-30, 9000, 0, 400, -8600), (30, 0, 9000, -400, 8600)
        settle(d, hourly(hours, 0, *({**dict.fromkeys(range(2, hours), between), 1: first, hours: last}
                                     for first, between, last in ((100, 7, 300), (110, 8, 250), (90, 9, 310)))), given, want,
               [-600 - 10 + 35 * (hours - 3) - 8600, 1000 + 10 - 35 * (hours - 3) + 8600])


def zeros(d):
    """Net zero, a physical balance of exactly zero, PUN 0, a zone price of 0."""
    d.o(market(accounts=((1, 1, 1000, 1000), (2, 2, 1000, 1000), (1, 2, 1000, 1000)),
               points=[(1, 1, 1, 100, 0), (2, 2, 1, 0, 100), (2, 3, 1, 100, 100), (3, 3, 1, 100, 100)]))
    deal(d, 1, 2, 1, 1, 4, 100, 1)
    deal(d, 3, 1, 1, 1, 2, 100, 2)
    d.c(CLOSE, 0)
    given = send(d, [(1, 1, 10, 1, 0, 2), (2, 1, 100, 2, 60, 0), (2, 2, 60, 3, 50, 0), (1, 2, 10, 1, 0, 2), (1, 3, 70, 1, 50, 0),
                     (2, 3, 100, 2, 0, 0), (1, 4, 100, 1, 0, 0), (2, 4, 100, 3, 0, 0)])
    settle(d, hourly(24, 0, {1: 60, 4: 60}, {1: 50, 2: 50, 3: 50}), given, {
        # hour 1: account 1 bought what it sold, account 2 withdraws all it has; account 3 lacks 100 at 60
        (3, 1): (-100, 6000, 0, 0, -6000),
        # hour 2, PUN 0: 100 - 60 = 40 at 0; -(60 * 50) = -3,000
        (2, 2): (40, 0, 0, -3000, -3000), (3, 2): (-100, 0, 0, 0, 0),
        # hour 3, PUN 0: -100 + 70 = -30 at 0; 70 * 50 = 3,500; account 2 withdraws all it has
        (1, 3): (-30, 0, 0, 3500, 3500),
        # hour 4, zone price 0: both are at zero; 100 * -60 and -(100 * -60)
        (1, 4): (0, 0, 0, -6000, -6000), (2, 4): (0, 0, 0, 6000, 6000)}, [-6000 + 3500 - 6000, -3000 + 6000])


def greatest(d):
    """10,000,000 kWh in every hour, prices from 0 to 400,000: 4 * 10^12 in every figure."""
    most, energy, top = 4 * 10 ** 12, 10 ** 7, 400000
    d.o(setup([0] * 25, [(0, 0), (0, 0)], [(1, 1, energy, 0), (2, 2, 0, energy)],
              [(1, 1, 1, energy, 0), (2, 3, 1, 0, energy), (2, 2, 1, 0, energy)]))
    deal(d, 1, 2, 1, 1, 25, energy, 1)
    d.c(CLOSE, 0)
    given = send(d, [(1, 2, energy, 1, 0, 0), (2, 2, energy, 2, 0, 0), (1, 3, energy, 1, top, 0), (2, 3, energy, 2, top, 0),
                     (1, 4, energy - 1, 1, 1, 0), (2, 4, energy - 1, 3, top, 0), (1, 25, 1, 1, top - 1, 0), (2, 25, 1, 2, top - 1, 0)])
    want = {(account, hour): (physical, 0, 0, 0, 0) for hour in range(5, 25) for account, physical in ((1, -energy), (2, energy))}
    # no schedule: all of it at PUN
    want[1, 1], want[2, 1] = (-energy, most, 0, 0, -most), (energy, 0, most, 0, most)
    # PUN 400,000, zone price 0
    want[1, 2], want[2, 2] = (0, 0, 0, -most, -most), (0, 0, 0, most, most)
    # PUN 0, zone price 400,000
    want[1, 3], want[2, 3] = (0, 0, 0, most, most), (0, 0, 0, -most, -most)
    # PUN 400,000, zone price 1: one kWh is left; 9,999,999 * -399,999 = -3,999,989,600,001; none on kind 2
    want[1, 4], want[2, 4] = (-1, top, 0, -3999989600001, -3999990000001), (1, 0, top, 0, top)
    # PUN 400,000, zone price 399,999: one kWh is scheduled; 9,999,999 * 400,000 = 3,999,999,600,000 and 1 * -1
    want[1, 25] = (-9999999, 3999999600000, 0, -1, -3999999600001)
    want[2, 25] = (9999999, 0, 3999999600000, 1, 3999999600001)
    # the amounts of hours 2 and 3 cancel each other
    settle(d, hourly(25, 0, {1: top, 2: top, 4: top, 25: top}, {1: top, 3: top, 4: 1, 25: top - 1}), given, want,
           [-most - 3999990000001 - 3999999600001, most + top + 3999999600001])


def one_operator(d):
    """Four accounts of operator 2 trade among themselves; operators 1 and 3 have none."""
    d.o(market(23, operators=((AMPLE, 0),) * 3, accounts=[(2, 1 + at % 2, 100, 100) for at in range(4)], points=[(1, 1, 1, 30, 0)]))
    deal(d, 1, 2, 1, 7, 8, 30, 1)
    deal(d, 3, 4, 1, 7, 8, 20, 2)
    deal(d, 2, 3, 1, 7, 7, 10, 3)
    d.c(CLOSE, 0)
    given = send(d, [(1, 7, 25, 1, 50, 0)])
    settle(d, flat(23, 60, 50), given, {
        # -30 + 25 = -5; 5 * 60 = 300; 25 * -10 = -250
        (1, 7): (-5, 300, 0, -250, -550),
        # 30 - 10 = 20, -20 + 10 = -10 and 20, at 60
        (2, 7): (20, 0, 1200, 0, 1200), (3, 7): (-10, 600, 0, 0, -600), (4, 7): (20, 0, 1200, 0, 1200),
        # hour 8 without the third trade and without a schedule: 30 * 60 and 20 * 60
        (1, 8): (-30, 1800, 0, 0, -1800), (2, 8): (30, 0, 1800, 0, 1800),
        (3, 8): (-20, 1200, 0, 0, -1200), (4, 8): (20, 0, 1200, 0, 1200)},
        # what was injected, at its zone price: 25 * 50
        [0, 1250, 0])


def batches(d):
    """The present part of an open batch counts; undone rows do not; withdrawn rows never did."""
    d.o(market())
    prices = flat(24, 60, 50)
    deal(d, 1, 2, 1, 2, 2, 10, 1)
    # 10 * 60 = 600
    first = {(1, 2): (-10, 600, 0, 0, -600), (2, 2): (10, 0, 600, 0, 600)}
    d.h(prices, first)
    d.c(register(2, 1, 2, 1, 2, 24, 5), (0, 2))
    for end in (UNDO, KEEP):
        d.c(OPEN, 0)
        d.h(prices, first)
        d.c(confirm(1, 2, 2, 2, 2, 24, 5), (0, 2))
        d.c(register(1, 3, 3, 1, 2, 3, 7), (0, 3))
        # -10 + 5 = -5 and 10 - 5 = 5 in hour 2, the other way round in the hours after it; 5 * 60 = 300
        lacks, has = (-5, 300, 0, 0, -300), (5, 0, 300, 0, 300)
        second = {(account, hour): figures for hour in range(3, 25) for account, figures in ((1, has), (2, lacks))}
        second[1, 2], second[2, 2] = lacks, has
        d.h(prices, second)
        d.c(end)
        d.h(prices, first if end == UNDO else second)
    d.c(withdraw(1, 3), 0)
    d.h(prices, second)
    d.c(CLOSE, 0)
    # each has 300 in hour 2 and 22 times 300 of the other sign
    settle(d, prices, [], second, [21 * 300, -21 * 300])


def refused(d):
    """Tables that are none of the book's and bytes that are no book print nothing."""
    for hours, zones in ((23, 1), (24, 2), (25, 3)):
        d.o(market(hours, points=[(1, 1, zones, 50, 0)], zones=zones))
        deal(d, 1, 2, 1, 1, hours, 20, 1)
        prices = flat(hours, 60, *[50] * zones)
        # 20 * 60 = 1,200
        want = {(account, hour): figures for hour in range(1, hours + 1)
                for account, figures in ((1, (-20, 1200, 0, 0, -1200)), (2, (20, 0, 1200, 0, 1200)))}
        for _ in range(2):
            d.k()
            for bad in (b'', prices[:4], prices[4:], prices[:-1], prices + b'\x00', prices + prices[:4], flat(hours, 60),
                        flat(hours, 60, *[50] * (zones + 1)), flat(hours - 1, 60, *[50] * zones), SETTLE + prices):
                assert d.h(bad) is None
            # a price too high in the first and the last place of PUN, of zone 1 and of the last zone
            for at in sorted({0, hours - 1, hours, 2 * hours - 1, zones * hours, (zones + 1) * hours - 1}):
                for price in (400001, 2 ** 32 - 1):
                    assert d.h(prices[:4 * at] + le(price, 4) + prices[4 * at + 4:]) is None
            for place in (LAST - 8, LAST - 1):
                d.p(place, b'\x01')
                assert d.h(prices) is None
                assert d.h(prices[4:]) is None
                d.p(place, b'\x00')
            d.same(1)
            d.h(prices, want)
            d.same(1)
            if d.book.phase == 1:
                d.c(CLOSE, 0)
                d.c(schedule(1, hours, 15, 1, 50), (0, 1))
                # in the last hour 15 are injected: 5 * 60 = 300, 15 * -10 = -150
                want[1, hours] = (-5, 300, 0, -150, -450)
    # the highest price in all places: 20 * 400,000, or 5 * 400,000 after the schedule
    d.h(flat(25, *[400000] * 4), part={(1, 1): (-20, 8000000, 0, 0, -8000000), (1, 25): (-5, 2000000, 0, 0, -2000000),
                                       (2, 25): (20, 0, 8000000, 0, 8000000)})


def largest(d):
    """The largest set-up: 800 account hours, 256 schedules, 9 columns of prices."""
    chance = random.Random(2002)
    accounts = [(1 + 5 * at % 16, 1 + at % 2, 10 ** 7, 10 ** 7) for at in range(32)]
    points = [(1 + at % 32, 3 if at < 40 else 1 + at % 2, 1 + at * 3 % 8, 10 ** 7, 10 ** 7) for at in range(64)]
    points = [(a, k, z, 0 if k == 2 else g, 0 if k == 1 else t) for a, k, z, g, t in points]
    d.o(setup([1] * 25, [(AMPLE, 0)] * 16, accounts, points, 8))
    for row in range(1, 33):
        seller, buyer = 2 * row % 32 + row // 16, 32 - (row * 5 % 32)
        if seller in (0, buyer):
            seller = 1 + buyer % 32
        first = 1 + row * 3 % 8
        deal(d, seller, buyer, row, first, 26 - first, 10 ** 6 * chance.choice((1, 2, 3)) - row, row)
    d.c(CLOSE, 0)
    hours = (1, 2, 3, 4, 12, 13, 24, 25)
    for place in range(1, 257):
        hour, point = chance.choice(hours), chance.randrange(64)
        net = reading.net_position(d.book, points[point][0], hour)[3]
        side = chance.choice((1, 2)) if net == 0 else 1 if net < 0 else 2
        d.c(schedule(side, hour, chance.choice((1, 777777, 10 ** 6, 2 * 10 ** 6)), point + 1, chance.choice((0, 200000, 399999, 400000))),
            (0, place))
    columns = [[chance.choice((0, 199999, 200000, 200001, 399999, 400000)) for _ in range(25)] for _ in range(9)]
    prices = table(*columns)
    money = totals(d.book, d.h(prices))
    given = reading.schedule_results(d.book, reading.read_prices(prices))
    assert set(given) == {0, 1, 2, 3}
    d.settle(prices, 0, 256, 128, (given, money))
    d.k()
    d.h(table(*columns[::-1]))
    d.same(1)


def random_day(d, seed, differing):
    """Rows and schedules as in the random days; valued in an open batch, outside one, after the gate and when settled."""
    chance = random.Random(seed)
    opening = random_days.opening(chance, differing)
    while opening[3] < 5:
        opening = random_days.opening(chance, differing)
    d.o(opening)
    ledger = reading.Ledger(opening)
    hours, zones = opening[0], opening[4]

    def do(record):
        ledger.feed(record, d.c(record)[0][0] == 0)

    def prices(*among):
        return table(*[[chance.choice(among) for _ in range(hours)] for _ in range(1 + zones)])

    def look():
        # without schedules the physical balance is the ledger's net
        for (account, hour), has in d.h(prices(47, 50, 53)).items():
            assert has.physical == ledger.net(account, hour)

    for step in range(160):
        record = random_days.trade_record(chance, d.book, differing)
        if record != CLOSE:
            do(record)
        if step == 80:
            do(OPEN)
            do(random_days.confirm(chance, d.book))
            look()
            do(UNDO)
    do(KEEP)
    look()
    do(CLOSE)
    for _ in range(70):
        do(random_days.schedule(chance, d.book))
    d.h(prices(0, 49, 51, 400000))
    at = prices(*range(48, 53))
    given = reading.schedule_results(d.book, reading.read_prices(at))
    valued = d.h(at)
    money = totals(d.book, valued)
    d.settle(at, 0, len(given), 8 * len(money), (given, money))
    d.k()
    assert d.h(at) == valued
    d.same(1)
    return given, valued


def random_valued(d):
    results, figures = set(), []
    for seed in (*SEEDS, *SEEDS_BY_HOUR):
        given, valued = random_day(d, seed, seed in SEEDS_BY_HOUR)
        results.update(given)
        figures += valued.values()
    # something of everything: purchases and sales, CCT of both signs beside each
    assert results == {0, 1, 2, 3}
    for sign in (-1, 1):
        assert any(has.purchase and sign * has.cct > 0 for has in figures)
        assert any(has.sale and sign * has.cct > 0 for has in figures)
        assert any(has.physical == 0 and sign * has.cct > 0 for has in figures)


DAYS = (whole_case, results, turned, ends, zeros, greatest, one_operator, batches, refused, largest, random_valued)
