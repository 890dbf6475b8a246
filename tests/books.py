"""Cases of books: opened, changed, and damaged a byte at a time in each section of docs/LAYOUT.md; and their readings.

Each case says what is wrong with its bytes ('' where they are a book), and the reading in book.py must find just that.
"""
import setups
from book import (ASKS, BOOK, BUYS, CONFIRMED, FLAG, NETS, PENDING, PHASE, PRESENT, ROW_COUNT, ROWS, SAVED, SCHEDULE_COUNT, SCHEDULES,
                  SELLS, SPARE, WITHDRAWN, Book, Part, guarantee_at, in_use, net_at, row_at, schedule_at)
from setups import ESTIMATES, OPERATORS

SETUP_ROOM = 8_192
PART = 7_938
UNUSED = "unused byte"


def row(account, other, code, side, first, last, quantity, status):
    return {"account": account, "other": other, "code": code, "side": side, "first": first, "last": last, "quantity": quantity,
            "status": status}


def schedule(point, side, hour, quantity, price):
    return {"point": point, "side": side, "hour": hour, "quantity": quantity, "price": price}


def but(rows, which, **changed):
    """The rows with one of them, counted from 1, changed."""
    return [{**x, **changed} if number == which else x for number, x in enumerate(rows, 1)]


# 24 hours, 2 operators, 4 accounts (1 and 3 of operator 1), 3 points, 2 zones
DAY = setups.Setup(24, 2, 4, 3, 2).but((OPERATORS, 0, "guarantee", 250_000), (OPERATORS, 1, "guarantee", 40_000),
                                       (OPERATORS, 1, "maintenance", 0)).bytes()
CODE = 0x1122334455667788
THEN = [row(1, 2, 9, SELLS, 1, 3, 9_000, CONFIRMED),
        row(1, 2, CODE, SELLS, 2, 2, 4_000, WITHDRAWN),
        row(1, 2, CODE, SELLS, 2, 4, 5_000, PENDING),
        row(2, 3, 1, BUYS, 5, 5, 7_000, PENDING),
        row(3, 4, 2, SELLS, 24, 24, 600, PENDING)]
NOW = but(but(THEN, 4, status=CONFIRMED), 5, status=WITHDRAWN) + [row(4, 1, 2 ** 64 - 1, BUYS, 23, 24, 1_000, PENDING)]
BEFORE, SINCE = [250_000, 40_000], [300_000, 39_000]
ENDED = but(but(NOW, 3, status=WITHDRAWN), 6, status=WITHDRAWN)
SCHEDULED = [schedule(1, SELLS, 1, 9_000, 3_000), schedule(3, BUYS, 24, 10_000_000, 400_000), schedule(3, SELLS, 2, 1, 0)]


def readings(s, accounts=(1, 2, 3, 4), hours=(1, 2, 3, 4, 5, 6, 23, 24)):
    for account in accounts:
        for hour in hours:
            s.net(account, hour)
    for operator in (0, 1, 2, 3, 255):
        s.exposure(operator)
    for account, hour in ((0, 1), (5, 1), (255, 0), (1, 0), (4, 25), (1, 255), (0, 0)):
        s.net(account, hour)


def opening(s):
    s.judge("set-up counts")
    for value in (0, 1, 255):                       # no book: 1, whatever is asked
        s.net(value, value)
        s.exposure(value)
    s.open(DAY, BOOK - 1)
    s.open(DAY, BOOK + 1)
    s.open(DAY, 0)
    s.open(b"", 0)
    s.open(DAY[:-1])
    s.judge("set-up counts")
    # nothing of what stood there before stays
    s.put(0, b"\xFF" * 2_000)
    s.put(PHASE, b"\xFF" * 40)
    s.put(ASKS, b"\xFF" * 40)
    s.put(BOOK - 3, b"\xFF" * 6)
    s.open(DAY)
    s.judge()
    for at, many in ((0, len(DAY) + 1), (PHASE, 16), (PRESENT, 200), (PRESENT + NETS, 16), (SAVED, 16), (ASKS - 4, 44), (SPARE - 4, 8),
                     (BOOK - 4, 8)):
        s.show(at, many)
    readings(s)
    for length in (0, 1, BOOK - 1, BOOK + 1, 65_535):
        s.judge("size", length)
    # a refusal leaves the book
    s.open(DAY + b"\0")
    s.open(setups.Setup(23, 1, 1, 0, 1).but((ESTIMATES, 3, "price", 400_001)).bytes())
    s.open(setups.Setup(23, 1, 1, 0, 1).bytes(), BOOK - 1)
    s.judge()
    s.show(0, 16)
    at_the_ends(s, setups.Setup(23, 1, 1, 0, 1).bytes())


def at_the_ends(s, setup):
    """A fresh book: its counts, its guarantees, and the last byte of its set-up; readings at the ends of what it has."""
    s.open(setup)
    s.judge()
    s.show(0, 24)
    s.show(PRESENT, 130)
    s.damage(len(setup) - 1, 255, "set-up")
    s.damage(len(setup), 1, UNUSED)
    for account, hour in ((1, 23), (1, 24), (2, 1), (32, 25), (32, 26), (33, 25)):
        s.net(account, hour)
    for operator in (1, 2, 16, 17):
        s.exposure(operator)


def setup_damages(s):
    """The counts, an estimate, an operator, an account and a point. The day's entries: 5, 101, 121 and 897 on; 930 bytes.

    Account 1 stands at 121 (lower margins at 123, upper ones at 219), account 3 at 509, account 4 at 703.
    """
    for at, values in ((0, (22, 23, 25, 26)), (1, (0, 1, 3, 17)), (2, (0, 3, 5, 33)), (3, (0, 2, 4, 65)), (4, (0, 9))):
        for value in values:
            s.damage(at, value)
    s.damage(4, 8, "")
    s.damage(4, 1, "set-up")
    s.damage(5 + 2, 7, "set-up")                    # 400,000 is 06 1A 80
    s.damage(5 + 4 * 9, 7, "")                      # no row in hour 10: another price there changes nothing
    s.damage(101, 1, UNUSED)                        # guarantees in the set-up, small and beyond range
    s.damage(115, 1, UNUSED)
    s.damage(118, 128, "set-up")
    s.damage(109, 101, "")                          # m 101: less is available, yet enough
    s.damage(110, 3, "exposure")                    # m 868
    s.damage(110, 4, "set-up")                      # m 1124
    s.damage(121, 2, "exposure")                    # account 1 to operator 2, whose exposure it is then
    s.damage(121, 3, "set-up")
    s.damage(122, 2, "set-up")                      # point 1 is on it
    s.damage(510, 2, "")                            # no point on account 3
    s.damage(510, 3, "set-up")
    for at in (125, 217, 221, 313, 707, 895):       # account 1, lower and upper, hours 1 and 24; account 4, the first and the last
        s.damage(at, 0x99, "set-up")                # 10,000,000 is 98 96 80
        s.damage(at, 1, "")
    s.damage(897, 2, "set-up")                      # the point's account is of kind 2
    s.damage(897, 3, "")
    s.damage(898, 3, "")
    s.damage(898, 0, "set-up")
    s.damage(899, 2, "")
    s.damage(899, 3, "set-up")
    s.damage(904, 1, "set-up")                      # a withdrawal on a point of kind 1
    for at in (930, SETUP_ROOM - 1):
        s.damage(at, 1, UNUSED)


def part_damages(s, part, rows, in_saved):
    """A part whose rows are those given: guarantees, the count, each field of a row, the rows' tail, nets and their tails."""
    said = (lambda words: "saved: " + words) if in_saved else (lambda words: words)
    s.damage(guarantee_at(part, 1) + 5, 1, said("guarantee"))
    s.damage(guarantee_at(part, 2) + 7, 128, said("guarantee"))
    s.damage(guarantee_at(part, 1) + 4, 1, "")
    s.damage(guarantee_at(part, 1) + 2, 0, said("exposure"))
    s.damage(guarantee_at(part, 3), 1, UNUSED)
    s.damage(guarantee_at(part, 17) - 1, 1, UNUSED)
    count = len(rows)
    for value in (0, count - 1, count + 1, 255):
        s.damage(part + ROW_COUNT, value)
    s.damage(part + ROW_COUNT + 1, 1, said("row count"))
    for which in range(1, count + 1):
        for field, values in (("account", (0, 1, 2, 3, 4, 5, 255)), ("other", (0, 1, 2, 3, 4, 5, 255)), ("side", (0, 1, 2, 3)),
                              ("first", (0, 1, 2, 25)), ("last", (0, 1, 4, 24, 25)), ("quantity", (0, 1)), ("status", (0, 1, 2, 3, 4)),
                              ("code", (0, 1, 0x88, 255))):
            for value in values:
                if s.room[row_at(part, which, field)] != value:
                    s.damage(row_at(part, which, field), value)
        s.damage(row_at(part, which, "quantity") + 3, 1, said("quantity"))
    for status in (0, 4, 255):
        s.damage(row_at(part, 1, "status"), status, said("side or status"))
    s.damage(row_at(part, 1, "other"), 1, said("both accounts the same"))
    s.damage(row_at(part, 2, "status"), PENDING, said("pending rows alike"))
    for at in (row_at(part, count + 1, "account"), row_at(part, count + 1, "status"), part + NETS - 1):
        s.damage(at, 1, UNUSED)
    for account, hour in ((1, 1), (2, 3), (3, 24), (4, 1)):
        at = net_at(part, account, hour)
        s.damage(at, (s.room[at] + 1) % 256, said("net"))
        s.damage(at, (s.room[at] - 1) % 256, said("net"))
        s.damage(at + 3, s.room[at + 3] ^ 128, said("net"))
    for at in (net_at(part, 1, 25), net_at(part, 4, 25) + 3, net_at(part, 5, 1), part + PART - 1):
        s.damage(at, 1, UNUSED)


def state_damages(s):
    s.damage(ASKS, 1, "ask: no such account")
    s.damage(ASKS, 2, "ask of another account")
    s.damage(SPARE - 1, 1, UNUSED)
    for at in (SPARE, SPARE + 1, BOOK - 2, BOOK - 1):
        s.damage(at, 1, UNUSED)
        s.damage(at, 255, UNUSED)
    s.damage(PHASE, 0, "phase or flag")
    s.damage(PHASE, 4, "phase or flag")
    s.damage(PHASE, 255, "phase or flag")
    s.damage(FLAG, 2, "phase or flag")
    s.damage(FLAG, 255, "phase or flag")


def batch(s):
    """Phase 1 with an open batch: the saved part, and the rows since; then without the batch."""
    s.open(DAY)
    s.become(Book(DAY, rows=NOW, guarantees=SINCE, saved=Part(BEFORE, THEN)))
    readings(s)
    setup_damages(s)
    state_damages(s)
    s.damage(PHASE, 2, "pending after phase 1")
    s.damage(FLAG, 0, UNUSED)
    s.damage(SCHEDULE_COUNT, 1, "schedule")
    s.damage(SCHEDULES, 1, UNUSED)
    s.damage(PRESENT - 1, 1, UNUSED)
    part_damages(s, PRESENT, NOW, False)
    part_damages(s, SAVED, THEN, True)
    # a row that follows: pending then, anything now; ended then, the same now
    base = dict(guarantees=SINCE)
    saved = Part(BEFORE, THEN)
    for which in range(1, 6):
        for status in (PENDING, CONFIRMED, WITHDRAWN):
            alike = which == 2 and status == PENDING
            follows = THEN[which - 1]["status"] in (PENDING, status)
            s.become(Book(DAY, rows=but(NOW, which, status=status), saved=saved, **base),
                     "pending rows alike" if alike else "" if follows else "ended row changed")
    # every row as it was; one fewer; each of its terms changed
    s.become(Book(DAY, rows=THEN, saved=saved, **base))
    s.become(Book(DAY, rows=THEN[:4], saved=saved, **base), "saved rows gone")
    s.become(Book(DAY, rows=[], saved=saved, **base), "saved rows gone")
    s.become(Book(DAY, rows=THEN[1:] + THEN[:1], saved=saved, **base), "saved row changed")
    s.become(Book(DAY, rows=NOW, saved=Part(BEFORE), **base))
    for which, name, value in ((5, "account", 2), (5, "other", 1), (5, "code", 3), (5, "side", BUYS), (5, "first", 23), (3, "last", 3),
                               (5, "quantity", 601)):
        s.become(Book(DAY, rows=but(NOW, which, **{name: value}), saved=saved, **base), "saved row changed")
    # the part saved has margins and guarantees of its own
    s.become(Book(DAY, rows=NOW, guarantees=SINCE, saved=Part([0, 40_000], THEN)), "saved: exposure")
    s.become(Book(DAY, rows=NOW, guarantees=SINCE, saved=Part([10 ** 12, 10 ** 12], THEN)))
    s.become(Book(DAY, rows=but(NOW, 4, quantity=30_001, status=WITHDRAWN), saved=Part([10 ** 12, 10 ** 12], but(THEN, 4, quantity=30_001)),
                  **base), "saved: margin")
    s.become(Book(DAY, rows=but(NOW, 4, quantity=30_000, status=WITHDRAWN), saved=Part([10 ** 12, 10 ** 12], but(THEN, 4, quantity=30_000)),
                  **base))
    # no batch: the saved part is zero
    s.become(Book(DAY, rows=NOW, **base))
    s.damage(FLAG, 1, "")                           # all zeros is a part: no guarantee, no rows
    for at in (SAVED, SAVED + ROW_COUNT, SAVED + ROWS, SAVED + NETS, SAVED + PART - 1):
        s.damage(at, 1, UNUSED)
    setup_damages(s)
    part_damages(s, PRESENT, NOW, False)
    sweep(s)


def sweep(s):
    """The lowest bit changed of each byte in use (of a net, its first), and of the first and the last of each stretch that is not."""
    stretches = sorted((at, at + many) for at, many in in_use(s.book(), Book(DAY).setup))
    last = 0
    for start, end in stretches:
        if last < start:
            s.damage(last, 1)
            s.damage(start - 1, 1)
        for at in range(start, end):
            if not PRESENT + NETS <= at < SAVED or (at - PRESENT - NETS) % 4 == 0:
                s.damage(at, s.room[at] ^ 1)
        last = end


def phases(s):
    """Phases 2 and 3, with schedules and without."""
    s.open(DAY)
    for phase in (2, 3):
        s.become(Book(DAY, phase=phase))
        s.become(Book(DAY, phase=phase, guarantees=SINCE, rows=ENDED))
        s.become(Book(DAY, phase=phase, guarantees=SINCE, rows=ENDED, schedules=SCHEDULED))
        readings(s)
        state_damages(s)
        s.damage(PHASE, 1, "schedule in phase 1")
        s.damage(PHASE, 5 - phase, "")
        s.damage(row_at(PRESENT, 3, "status"), PENDING, "pending after phase 1")
        s.damage(FLAG, 1, "batch after phase 1")
        for value in (0, 2, 4):
            s.damage(SCHEDULE_COUNT, value, "schedule" if value == 4 else UNUSED)
        s.damage(SCHEDULE_COUNT + 1, 1, "schedule count")
        for place in (1, 2, 3):
            for field, values in (("point", (0, 1, 2, 3, 4)), ("side", (0, 1, 2, 3)), ("hour", (0, 1, 24, 25)), ("quantity", (0, 1, 129)),
                                  ("price", (0, 1, 129))):
                for value in values:
                    s.damage(schedule_at(place, field), value)
            s.damage(schedule_at(place, "quantity") + 3, 1, "schedule")
            s.damage(schedule_at(place, "price") + 2, 7, "schedule")
        s.damage(schedule_at(2, "quantity"), 0x81, "schedule")
        s.damage(schedule_at(2, "price"), 0x81, "schedule")
        s.damage(schedule_at(2, "price"), 0x7F, "")
        for at in (schedule_at(4, "point"), schedule_at(4, "price") + 3, PRESENT - 1):
            s.damage(at, 1, UNUSED)
    s.become(Book(DAY, phase=2, guarantees=SINCE, rows=ENDED, saved=Part(BEFORE)), "batch after phase 1")
    s.become(Book(DAY, phase=1, guarantees=SINCE, rows=ENDED, schedules=SCHEDULED[:1]), "schedule in phase 1")
    s.become(Book(DAY, phase=2, guarantees=SINCE, rows=NOW), "pending after phase 1")
    s.become(Book(DAY, phase=3, guarantees=SINCE, rows=NOW), "pending after phase 1")


def cases(s):
    opening(s)
    batch(s)
    phases(s)
