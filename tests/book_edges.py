"""Cases of books at the edges: margins and guarantees met exactly, margins that differ by hour, rows alike, the ranges of rows, asks that
stand, and a book that is full.
"""
import setups
from book import (BOOK, BUYS, CONFIRMED, PENDING, PHASE, PRESENT, ROW_COUNT, SAVED, SCHEDULE_COUNT, SELLS, SPARE, WITHDRAWN, Book, Part,
                  ask_at, guarantee_at, margin_at, net_at, row_at, schedule_at)
from books import BEFORE, CODE, DAY, ENDED, NOW, SINCE, THEN, UNUSED, at_the_ends, but, readings, row, schedule
from setups import OPERATORS, margins


def edges(s):
    """Margins met exactly and exposure equal to what is available; one kWh, one cent and one price more."""
    # one operator: 100,000 cents at m 100 are 90,000,000; 18,000 at 5,000 as well (account 1, hour 1)
    whole = setups.Setup(24, 2, 2, 1, 1).but(*margins(0, "upper", [0] * 24), *margins(1, "lower", [0] * 24),
                                             *margins(1, "upper", [20_000] * 24), (OPERATORS, 1, "guarantee", 0)).bytes()
    s.open(whole)
    for status in (PENDING, CONFIRMED):
        for quantity, expected in ((18_000, ""), (18_001, "exposure")):
            s.become(Book(whole, rows=[row(1, 2, 0, SELLS, 1, 1, quantity, status)]), expected)
            s.exposure(1)
            s.exposure(2)
            s.net(1, 1)
            s.net(2, 1)
    s.become(Book(whole, rows=[row(1, 2, 0, SELLS, 1, 1, 18_000, CONFIRMED)]))
    s.damage(guarantee_at(PRESENT, 1), 0x9F, "exposure")
    s.damage(5, 0x89, "exposure")                   # the estimate of hour 1, 5,000 is 13 88
    s.damage(5, 0x87, "")
    s.damage(5 + 4 * 24 + 8, 101, "exposure")
    s.damage(5 + 4 * 24 + 8, 99, "")
    # with ample guarantee the margin: sales by the seller's lower, then by the buyer's upper
    ample = [10 ** 12, 0]
    for status in (PENDING, CONFIRMED):
        for quantity, expected in ((20_000, ""), (20_001, "margin")):
            s.become(Book(whole, rows=[row(1, 2, 0, SELLS, 24, 24, quantity, status)], guarantees=ample), expected)
    for quantity, expected in ((20_000, ""), (20_001, "margin")):
        s.become(Book(whole, rows=[row(2, 1, 0, BUYS, 24, 24, quantity, PENDING)], guarantees=ample), expected)
        s.become(Book(whole, rows=[row(2, 1, 0, BUYS, 1, 24, quantity, CONFIRMED)], guarantees=ample), expected)
    s.become(Book(whole, rows=[row(2, 1, 0, SELLS, 1, 1, 1, PENDING)], guarantees=ample), "margin")
    s.become(Book(whole, rows=[row(2, 1, 0, BUYS, 1, 1, 20_001, WITHDRAWN)], guarantees=ample))
    s.become(Book(whole, rows=[], guarantees=ample))
    s.damage(guarantee_at(PRESENT, 1), 1, "guarantee")
    # a pending purchase is not set against a sale, and counts in full where net is above zero
    deep = setups.Setup(24, 2, 2, 1, 1).but((OPERATORS, 1, "guarantee", 0), (OPERATORS, 1, "maintenance", 0)).bytes()
    both = [row(1, 2, 0, SELLS, 1, 1, 15_000, CONFIRMED), row(1, 2, 1, SELLS, 1, 1, 5_000, PENDING),
            row(1, 2, 2, BUYS, 1, 1, 45_000, PENDING)]
    s.open(deep)
    s.become(Book(deep, rows=both, guarantees=ample))
    s.exposure(1)
    s.become(Book(deep, rows=but(both, 2, quantity=5_001), guarantees=ample), "margin")
    s.become(Book(deep, rows=but(both, 3, quantity=45_001), guarantees=ample), "margin")
    s.become(Book(deep, rows=but(both, 1, side=BUYS, status=CONFIRMED)[:2], guarantees=[10 ** 12, 75_000]))
    s.exposure(1)
    s.exposure(2)
    s.become(Book(deep, rows=but(both, 1, side=BUYS, status=CONFIRMED)[:2], guarantees=[10 ** 12, 74_999]), "exposure")
    back = [row(1, 2, 0, SELLS, 1, 1, 30_000, CONFIRMED), row(2, 1, 0, SELLS, 1, 1, 20_000, CONFIRMED)]
    s.become(Book(deep, rows=back, guarantees=ample))
    s.exposure(1)
    # m 1000: nothing is available
    none = setups.Setup(24, 2, 2, 1, 1).but((OPERATORS, 0, "maintenance", 1000), (OPERATORS, 0, "guarantee", 10 ** 12)).bytes()
    s.open(none)
    s.become(Book(none, rows=[row(1, 2, 0, SELLS, 1, 1, 1, PENDING)]), "exposure")
    s.become(Book(none, rows=[row(2, 1, 0, BUYS, 1, 1, 1, PENDING)]))


# margins of account 1 by hour: those below 20 to 900, those above far from them; of account 2 as wide as may be
LOWER = [20 + 40 * h for h in range(23)]
UPPER = [600_050 - 10_007 * h for h in range(23)]
WIDE = [10_000_000] * 23


def by_hour(s):
    """Margins that differ by hour, met exactly and passed by one, in either part; a stored margin changed under the rows."""
    market = setups.Setup(23, 2, 2, 0, 1).but((OPERATORS, 0, "guarantee", 10 ** 12), (OPERATORS, 1, "guarantee", 10 ** 12),
                                              *margins(0, "lower", LOWER), *margins(0, "upper", UPPER),
                                              *margins(1, "lower", WIDE), *margins(1, "upper", WIDE))
    day = market.bytes()
    ample = [10 ** 12, 10 ** 12]
    plain = Book(day).setup
    s.open(day)
    for hour in (1, 12, 23):
        lower, upper = LOWER[hour - 1], UPPER[hour - 1]
        for more, expected in ((0, ""), (1, "margin")):
            for status in (PENDING, CONFIRMED):
                s.become(Book(day, rows=[row(1, 2, 0, SELLS, hour, hour, lower + more, status)]), expected)
                s.become(Book(day, rows=[row(1, 2, 0, BUYS, hour, hour, upper + more, status)]), expected)
            # as counterparty: a pending row does not count, a confirmed one does
            s.become(Book(day, rows=[row(2, 1, 0, BUYS, hour, hour, lower + more, CONFIRMED)]), expected)
            s.become(Book(day, rows=[row(2, 1, 0, SELLS, hour, hour, upper + more, CONFIRMED)]), expected)
            s.become(Book(day, rows=[row(2, 1, 0, BUYS, hour, hour, lower + more, PENDING)]))
    # over all hours the least margin decides: the lower one of hour 1, the upper one of hour 23
    for more, expected in ((0, ""), (1, "margin")):
        s.become(Book(day, rows=[row(1, 2, 0, SELLS, 1, 23, LOWER[0] + more, PENDING)]), expected)
        s.become(Book(day, rows=[row(1, 2, 0, BUYS, 1, 23, UPPER[22] + more, CONFIRMED)]), expected)
    # every margin met: sales pending, then confirmed; purchases pending beside the pending sales
    sales = [row(1, 2, hour, SELLS, hour, hour, LOWER[hour - 1], PENDING) for hour in range(1, 24)]
    purchases = [row(1, 2, 100 + hour, BUYS, hour, hour, UPPER[hour - 1], PENDING) for hour in range(1, 24)]
    gone = [{**x, "status": WITHDRAWN} for x in sales + purchases]
    s.become(Book(day, rows=gone, saved=Part(ample, sales + purchases)))
    moved_margins(s, plain, "saved: margin", ("lower", "upper"))
    s.become(Book(day, rows=sales + purchases, saved=Part(ample)))
    moved_margins(s, plain, "margin", ("lower", "upper"))
    s.become(Book(day, rows=sales + purchases))
    moved_margins(s, plain, "margin", ("lower", "upper"))
    s.become(Book(day, rows=[{**x, "status": CONFIRMED} for x in sales]))
    moved_margins(s, plain, "margin", ("lower",))
    # a stored margin out of range: 10,000,000 is 98 96 80
    for bound, hour in (("lower", 1), ("lower", 12), ("lower", 23), ("upper", 1), ("upper", 12), ("upper", 23)):
        at = margin_at(plain, 2, bound, hour)
        s.damage(at, 0x81, "set-up")
        s.damage(at, 0x7F, "")
        s.damage(at + 3, 1, "set-up")
    for bound, hour in (("lower", 1), ("upper", 23)):
        s.damage(margin_at(plain, 1, bound, hour) + 3, 1, "set-up")
    # the last account: its margins met in one hour each, and moved in that hour and in those beside it
    s.become(Book(day, rows=[row(2, 1, 0, SELLS, 23, 23, 10_000_000, PENDING), row(2, 1, 1, BUYS, 12, 12, 10_000_000, PENDING)]))
    for bound, hour, expected in (("lower", 23, "margin"), ("lower", 22, ""), ("lower", 12, ""), ("upper", 12, "margin"), ("upper", 11, ""),
                                  ("upper", 13, ""), ("upper", 23, "")):
        s.damage(margin_at(plain, 2, bound, hour), 0x7F, expected)


def moved_margins(s, setup, broken, bounds):
    """A margin of account 1 that is met exactly, one lower: broken; one higher: kept. In hours at the ends and in the middle."""
    for bound in bounds:
        for hour in (1, 2, 12, 22, 23):
            at = margin_at(setup, 1, bound, hour)
            s.damage(at, s.room[at] - 1, broken)
            s.damage(at, s.room[at] + 1, "")


def twins(s):
    """Alike in proposer, counterparty and code, and alike in two of the three."""
    s.open(DAY)
    first = row(1, 2, CODE, SELLS, 1, 1, 100, PENDING)
    between = row(3, 4, 0, BUYS, 1, 1, 5, PENDING)
    for changed in ({}, {"side": BUYS}, {"first": 2, "last": 3}, {"quantity": 7}):
        s.become(Book(DAY, rows=[first, between, {**first, **changed}]), "pending rows alike")
    for changed in ({"status": CONFIRMED}, {"status": WITHDRAWN}, {"account": 3}, {"other": 3}, {"code": CODE + 1},
                    {"code": CODE ^ 1 << 63}, {"account": 2, "other": 1}):
        s.become(Book(DAY, rows=[first, between, {**first, **changed}]))
    for status in (CONFIRMED, WITHDRAWN):
        s.become(Book(DAY, rows=[{**first, "status": status}] * 3 + [first]))


def withdrawn(s):
    """Withdrawn rows weigh on nothing, but their fields keep their ranges: the least and the greatest values, in either part."""
    s.open(DAY)
    rows = [row(1, 4, 0, SELLS, 1, 1, 1, WITHDRAWN), row(4, 1, 2 ** 64 - 1, BUYS, 24, 24, 10_000_000, WITHDRAWN),
            row(2, 3, 0, BUYS, 1, 24, 10_000_000, WITHDRAWN)]
    s.become(Book(DAY, rows=rows))
    readings(s, (1, 4), (1, 24))
    s.damage(row_at(PRESENT, 1, "quantity"), 0, "quantity")
    s.damage(row_at(PRESENT, 1, "quantity"), 2, "")
    for which in (2, 3):
        s.damage(row_at(PRESENT, which, "quantity"), 0x81, "quantity")      # 10,000,000 is 98 96 80
        s.damage(row_at(PRESENT, which, "quantity"), 0x7F, "")
    for which, field, value, expected in (
            (1, "first", 0, "hours"), (1, "first", 2, "hours"), (1, "last", 24, ""), (1, "last", 25, "hours"), (1, "last", 0, "hours"),
            (2, "first", 1, ""), (2, "first", 25, "hours"), (2, "last", 23, "hours"), (2, "account", 5, "no such account"),
            (2, "account", 1, "both accounts the same"), (2, "account", 3, ""), (1, "other", 0, "no such account"),
            (1, "other", 1, "both accounts the same"), (1, "other", 2, ""), (1, "side", 0, "side or status"),
            (2, "side", 3, "side or status"), (1, "side", 2, ""), (1, "code", 1, ""), (2, "status", 4, "side or status"), (2, "status", 0, "side or status")):
        s.damage(row_at(PRESENT, which, field), value, expected)
    s.become(Book(DAY, rows=rows, saved=Part([0, 0], rows[:2])))
    s.damage(SAVED + ROW_COUNT, 3, "saved: no such account")
    s.damage(SAVED + ROW_COUNT, 1, UNUSED)
    s.damage(row_at(SAVED, 1, "quantity"), 0, "saved: quantity")
    s.damage(row_at(SAVED, 2, "quantity"), 0x81, "saved: quantity")
    s.damage(row_at(SAVED, 2, "quantity"), 0x7F, "saved row changed")
    s.damage(row_at(PRESENT, 2, "quantity"), 0x7F, "saved row changed")
    s.damage(row_at(PRESENT, 3, "quantity"), 0x7F, "")


def asks(s):
    """Asks that stand: what register would refuse is no book, and what it would just accept is one.

    Of NOW and SINCE 24,915,000 are left to operator 1, and 39,000,000 to operator 2; the estimate of hour 6 is 5,005.
    """
    s.open(DAY)
    base = dict(rows=NOW, guarantees=SINCE)
    first = row(1, 3, 5, SELLS, 6, 6, 4_978, PENDING)
    others = [row(2, 1, CODE, BUYS, 5, 5, 23_000, PENDING), row(3, 1, 0, SELLS, 6, 6, 4_978, PENDING),
              row(4, 2, 2 ** 64 - 1, BUYS, 1, 24, 29_000, PENDING)]
    s.become(Book(DAY, **base))
    s.become(Book(DAY, asks=[first], **base))
    readings(s, (1, 3), (1, 6))
    # each may take all that is left: an ask weighs on nothing
    s.become(Book(DAY, asks=[first] + others, **base))
    readings(s, (2, 4), (5, 24))
    ask_damages(s)
    # margins and guarantees, met exactly and passed by one
    for ask, more in ((first, "ask: exposure"), (row(1, 2, 5, BUYS, 1, 1, 39_000, PENDING), "ask: margin"), (others[0], "ask: margin"),
                      (others[2], "ask: margin"), (row(2, 1, CODE, SELLS, 1, 1, 7_800, PENDING), "ask: exposure"),
                      (row(3, 1, 0, BUYS, 5, 6, 30_000, PENDING), "ask: margin")):
        s.become(Book(DAY, asks=[ask], **base))
        s.become(Book(DAY, asks=[{**ask, "quantity": ask["quantity"] + 1}], **base), more)
    ample = dict(rows=NOW, guarantees=[10 ** 12, 10 ** 12])
    for ask in (row(1, 2, 5, SELLS, 2, 2, 6_000, PENDING), row(1, 2, 5, SELLS, 24, 24, 20_000, PENDING),
                row(2, 1, 5, SELLS, 5, 5, 27_000, PENDING), row(3, 2, 5, SELLS, 4, 5, 13_000, PENDING)):
        s.become(Book(DAY, asks=[ask], **ample))
        s.damage(ask_at(ask["account"], "quantity"), ask["quantity"] % 256 + 1, "ask: margin")
    # a pending row alike; alike with one that is ended, in two of the three, or with another account's ask
    for ask, expected in ((row(1, 2, CODE, BUYS, 9, 9, 1, PENDING), "ask alike"), (row(1, 2, 9, SELLS, 9, 9, 1, PENDING), ""),
                          (row(1, 3, CODE, SELLS, 9, 9, 1, PENDING), ""), (row(1, 2, CODE ^ 1 << 63, SELLS, 9, 9, 1, PENDING), ""),
                          (row(2, 1, CODE, SELLS, 9, 9, 1, PENDING), ""), (row(3, 2, CODE, SELLS, 9, 9, 1, PENDING), ""),
                          (row(3, 4, 2, SELLS, 9, 9, 1, PENDING), ""), (row(4, 1, 2 ** 64 - 1, BUYS, 9, 9, 1, PENDING), "ask alike")):
        s.become(Book(DAY, asks=[ask], **base), expected)
    s.become(Book(DAY, asks=[row(1, 2, 7, SELLS, 9, 9, 1, PENDING), row(2, 1, 7, BUYS, 9, 9, 1, PENDING),
                             row(3, 2, 7, SELLS, 9, 9, 1, PENDING)], **base))
    # an open batch: the present part decides, be the part saved poorer or richer
    s.become(Book(DAY, asks=[first], saved=Part(BEFORE, THEN), **base))
    s.damage(ask_at(1, "quantity"), 4_979 % 256, "ask: exposure")
    s.become(Book(DAY, asks=[first], saved=Part([213_071_000 // 900 + 1, 0], THEN), **base))
    s.become(Book(DAY, asks=[{**first, "quantity": 1}], saved=Part([10 ** 12, 0], THEN), rows=NOW, guarantees=[272_317, 0]),
             "ask: exposure")
    s.become(Book(DAY, asks=[row(3, 4, 2, BUYS, 9, 9, 1, PENDING)], saved=Part(BEFORE, THEN), **base))
    # no ask after phase 1
    for phase in (2, 3):
        s.become(Book(DAY, phase=phase, rows=ENDED, guarantees=SINCE, asks=[first]), "ask after phase 1")
        s.damage(PHASE, 1, "")
    s.become(Book(DAY, phase=2, rows=ENDED, guarantees=SINCE))


def ask_damages(s):
    """Asks of all four accounts: each byte of the first turned, each field past its range, other places and the bytes behind them."""
    for at in range(ask_at(1, "account"), ask_at(2, "account")):
        s.damage(at, s.room[at] ^ 1)
        s.damage(at, 0 if s.room[at] else 128)
    for account, field, value, expected in (
            (1, "account", 0, "ask of another account"), (1, "account", 2, "ask of another account"),
            (1, "account", 5, "ask of another account"), (4, "account", 1, "ask of another account"),
            (1, "other", 0, "ask: no such account"), (1, "other", 5, "ask: no such account"),
            (1, "other", 1, "ask: both accounts the same"), (1, "other", 4, ""), (1, "code", 6, ""), (1, "side", 0, "ask: side or status"),
            (1, "side", 3, "ask: side or status"), (1, "side", 2, ""), (1, "first", 0, "ask: hours"), (1, "first", 7, "ask: hours"),
            (1, "first", 5, "ask: exposure"), (1, "last", 5, "ask: hours"), (1, "last", 25, "ask: hours"), (1, "last", 7, "ask: exposure"),
            (4, "first", 24, ""), (4, "last", 25, "ask: hours"), (4, "last", 22, ""), (1, "quantity", 0x73, "ask: exposure"),
            (1, "quantity", 0x71, ""), (1, "status", 0, "ask: side or status"), (1, "status", 2, "ask not pending"),
            (1, "status", 3, "ask not pending"), (1, "status", 4, "ask: side or status"), (4, "status", 2, "ask not pending"),
            (2, "side", 1, "ask: exposure"), (3, "quantity", 0x73, "ask: exposure"), (5, "account", 5, UNUSED), (5, "status", 1, UNUSED),
            (17, "code", 1, UNUSED), (32, "account", 32, UNUSED), (32, "status", 1, UNUSED)):
        s.damage(ask_at(account, field), value, expected)
    for at in (SPARE, SPARE + 1, BOOK - 1):
        s.damage(at, 1, UNUSED)
    s.damage(ask_at(1, "quantity") + 2, 1, "ask: margin")
    s.damage(ask_at(4, "quantity") + 3, 1, "ask: quantity")
    s.damage(guarantee_at(PRESENT, 1) + 1, 0, "exposure")
    s.damage(guarantee_at(PRESENT, 1), 0, "ask: exposure")


def full(s):
    """The greatest set-up, 256 rows and 256 schedules; 257 are too many, though what stands past 256 would read as a schedule."""
    most = setups.Setup(25, 16, 32, 64, 8).bytes()
    rows = [row(1 + k % 32, 1 + (k + 1) % 32, 2 ** 64 - 1 - k, 1 + k % 2, 1 + k % 25, 25, 50 + k, CONFIRMED if k % 3 else WITHDRAWN)
            for k in range(256)]
    schedules = [schedule(1 + k % 64, 1 + k % 2, 1 + k % 25, 10_000_000 - k, 400_000 - k) for k in range(256)]
    at_the_ends(s, most)
    # the last number can be asked for, the one after it cannot
    last = [row(account, 33 - account, 7, BUYS, 25, 25, 1, PENDING) for account in (1, 32)]
    ample = [10 ** 12] * 16
    s.become(Book(most, rows=rows[:255], guarantees=ample, asks=last))
    s.damage(ask_at(32, "status"), 2, "ask not pending")
    s.damage(ask_at(32, "account"), 31, "ask of another account")
    s.damage(ask_at(32, "first"), 24, "")
    s.damage(SPARE, 1, UNUSED)
    for asked in (last, last[:1], last[1:]):
        s.become(Book(most, rows=rows, guarantees=ample, asks=asked), "ask without a number")
    s.become(Book(most, rows=rows, guarantees=ample))
    s.become(Book(most, phase=2, rows=rows, schedules=schedules, guarantees=[0x01010101, 0xE800000000] + [10 ** 12] * 14))
    for account in (1, 2, 16, 31, 32):
        for hour in (1, 2, 13, 24, 25):
            s.net(account, hour)
    for operator in (1, 2, 8, 15, 16):
        s.exposure(operator)
    s.damage(row_at(PRESENT, 256, "status"), 0, "side or status")
    s.damage(row_at(PRESENT, 256, "status"), 1, "pending after phase 1")
    s.damage(row_at(PRESENT, 256, "code"), 5, "")
    s.damage(row_at(PRESENT, 256, "quantity"), 5, "")
    s.damage(row_at(PRESENT, 256, "first"), 26, "hours")
    s.damage(PRESENT + ROW_COUNT, 1, "row count")
    s.damage(PRESENT + ROW_COUNT + 1, 0, "net")
    s.damage(SCHEDULE_COUNT, 1, "schedule count")
    s.damage(schedule_at(256, "point"), 65, "schedule")
    s.damage(schedule_at(256, "price") + 3, 1, "schedule")
    s.damage(schedule_at(256, "price"), 0, "")
    s.damage(guarantee_at(PRESENT, 16), 1, "guarantee")
    at = net_at(PRESENT, 32, 25)
    s.damage(at, s.room[at] ^ 1, "net")
    s.damage(SPARE, 1, UNUSED)


def cases(s):
    edges(s)
    by_hour(s)
    twins(s)
    withdrawn(s)
    asks(s)
    full(s)
