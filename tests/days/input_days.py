"""Directed days on what the input alone decides: verdicts 1 to 10, and phases."""
from records import (CLOSE, KEEP, OPEN, SETTLE, UNDO, ask, commit, confirm, flat, guarantee, le, register, schedule,
                     setup, strip, withdraw)

AMPLE = 10 ** 12
LAST = 49152


def market(hours=24, operators=((AMPLE, 0), (AMPLE, 0)),
           accounts=((1, 1, 1000, 1000), (2, 2, 1000, 1000), (2, 1, 1000, 1000)), points=(), zones=1, price=10):
    return setup([price] * hours, list(operators), list(accounts), list(points), zones)


def no_book(d):
    # the zero buffer is no book: no set-up has 0 hours and no phase is 0
    for record in (register(1, 2, 1, 1, 1, 1, 1), withdraw(1, 1), OPEN, b'', b'\xff' * 3, strip(register(1, 2, 1, 1, 1, 1, 1)),
                   strip(), ask(1, 2, 1, 1, 1, 1, 1), commit(1, 2, 1, 1, 1, 1, 1)):
        d.c(record, 1)
    d.c(SETTLE, 1, flat(24, 1, 1), 8, 8)
    d.a(1, 1, 1)
    d.e(1, 1)
    d.i(1, 1, 1, 1)
    d.a(0, 0, 1)
    d.e(255, 1)
    d.i(0, 0, 0, 1)
    d.i(255, 255, 255, 1)
    d.same(1)
    # opening fills the whole buffer: the same book over zeros, over another day, over FF
    d.o(market())
    d.same(0)
    d.k()
    d.o(market(25))
    d.same(0)
    d.c(register(1, 2, 1, 1, 1, 25, 5), (0, 1))
    d.o(market())
    d.same(1)
    # FF throughout is no book: no count, phase or quantity reaches FF and unused bytes are zero
    d.p(0, b'\xff' * LAST)
    d.c(UNDO, 1)
    d.a(1, 1, 1)
    d.e(1, 1)
    d.i(1, 1, 1, 1)
    d.i(255, 255, 255, 1)
    d.o(market(22), 8)
    d.c(CLOSE, 1)
    d.o(market())
    d.same(1)
    # a byte of the last 8 is unused in every book, so it is zero there: 1 in it makes no book
    for place in (LAST - 8, LAST - 3, LAST - 1):
        d.c(OPEN, 0)
        d.k()
        d.p(place, b'\x01')
        d.c(UNDO, 1)
        d.c(bytes(2), 1)
        d.c(SETTLE, 1, b'', 0, 0)
        d.a(1, 1, 1)
        d.a(9, 99, 1)
        d.e(2, 1)
        d.same(0)
        d.p(place, b'\x00')
        d.same(1)
        d.a(1, 1, 0, 0)
        d.c(UNDO, 0)
    d.p(LAST - 8, b'\x00\x00\x80\x00\x00\x00\x00\xff')
    d.c(guarantee(1, 5), 1)
    d.p(LAST - 8, bytes(8))
    d.c(guarantee(1, 5), 0)


def openings(d):
    full = market(24, points=[(1, 1, 1, 5, 0), (2, 2, 1, 0, 5), (1, 3, 1, 5, 5)], zones=2)
    d.o(full)
    d.k()
    # 8: under 5 bytes, every count out of range, wrong length
    for length in range(0, len(full), 1):
        if length < 12 or length > len(full) - 12 or length % 97 == 0:
            d.o(full[:length], 8)
    d.o(full + b'\x00', 8)
    for place, bad in ((0, 22), (0, 26), (0, 0), (0, 255), (1, 0), (1, 17), (2, 0), (2, 33), (3, 65), (3, 255),
                       (4, 0), (4, 9)):
        d.o(full[:place] + bytes([bad]) + full[place + 1:], 8)
    d.o(bytes([23, 1, 1, 65, 1]) + bytes(92 + 10 + 186 + 65 * 11), 8)
    # 9: each value at its first byte; the lowest of several
    # an account has 2 bytes, 24 lower margins and 24 upper ones
    first, acc, entry = 5 + 96, 5 + 96 + 20, 2 + 96 + 96
    pts = acc + 3 * entry

    def put(base, *changes):
        data = bytearray(base)
        for at, value in changes:
            data[at:at + len(value)] = value
        return bytes(data)

    for at, width, most in ((5, 4, 400000), (97, 4, 400000), (first, 8, AMPLE), (first + 10, 8, AMPLE),
                            (first + 8, 2, 1000), (first + 18, 2, 1000), (acc + 2, 4, 10 ** 7),
                            (acc + 98, 4, 10 ** 7), (acc + 2 * entry + 98, 4, 10 ** 7), (pts + 3, 4, 10 ** 7),
                            (pts + 18, 4, 10 ** 7), (pts + 25, 4, 10 ** 7), (pts + 29, 4, 10 ** 7)):
        d.o(put(full, (at, le(most + 1, width))), (9, at))
        d.o(put(full, (at, b'\xff' * width)), (9, at))
        d.o(put(full, (at, le(most, width))), 0)
        d.o(full)
    d.same(1)
    for at, bad in ((acc, 0), (acc, 3), (acc + entry, 255), (acc + 1, 0), (acc + 1, 3), (acc + 2 * entry + 1, 9),
                    (pts, 0), (pts, 4), (pts + 11, 255), (pts + 1, 0), (pts + 1, 4), (pts + 2, 0), (pts + 2, 3), (pts + 24, 3)):
        d.o(put(full, (at, bytes([bad]))), (9, at))
    # amounts that a kind forbids are faults of that amount; a kind mismatch of the point's kind
    d.o(put(full, (pts + 7, b'\x01')), (9, pts + 7))
    d.o(put(full, (pts + 14, b'\x01')), (9, pts + 14))
    d.o(put(full, (pts, b'\x02')), (9, pts + 1))
    d.o(put(full, (pts + 11, b'\x03')), (9, pts + 12))
    d.o(put(full, (acc + 1, b'\x02')), (9, pts + 1))
    d.o(put(full, (pts + 1, b'\x02')), (9, pts + 1))
    d.o(put(full, (pts + 22, b'\x02')), 0)
    d.o(full)
    d.o(put(full, (pts + 7, b'\x01'), (pts, b'\x02')), (9, pts + 1))
    d.o(put(full, (pts + 7, b'\x01'), (97, b'\xff\xff\xff'), (first + 8, b'\xff\xff')), (9, 97))
    d.o(put(full, (pts, b'\x09'), (pts + 1, b'\x09')), (9, pts))
    d.o(put(full, (acc + entry + 1, b'\x03'), (pts + 12, b'\x01')), (9, acc + entry + 1))
    d.same(1)
    # smallest and largest set-ups
    for hours in (23, 24, 25):
        d.o(setup([0] * hours, [(0, 1000)], [(1, 1, 0, 0)]))
        d.a(1, hours, 0, 0)
        d.a(1, hours + 1, (6, 5))
        d.e(1, 0, 0)
    d.o(setup([400000] * 25, [(AMPLE, 1000)] * 16,
              [(1 + i % 16, 1 + i % 2, 10 ** 7, 10 ** 7) for i in range(32)],
              [(1 + i % 32, 3, 1 + i % 8, 10 ** 7, 10 ** 7) for i in range(64)], 8))
    d.read_all()


def records_of(d):
    """2 to 7 on records, at every length, map bit and field bound."""
    d.o(market(23, points=[(1, 1, 1, 5, 0)], zones=2))
    good = {1: register(1, 2, 7, 1, 2, 23, 4), 2: confirm(1, 2, 7, 1, 2, 23, 4), 3: withdraw(1, 1),
            4: guarantee(1, 5), 5: OPEN, 6: UNDO, 7: KEEP, 8: CLOSE, 9: schedule(1, 1, 1, 1, 1), 10: SETTLE,
            12: ask(1, 2, 7, 1, 2, 23, 4), 13: commit(1, 2, 7, 1, 2, 23, 4)}
    d.k()
    for kind, record in good.items():
        # cut short at every length, and longer
        for length in range(len(record)):
            d.c(record[:length], 2 if length < 3 else 5, flat(23, 1, 1, 1), 8, 16)
        d.c(record + b'\x00', 5, flat(23, 1, 1, 1), 8, 16)
        # every map bit turned
        given = record[0] + 256 * record[1]
        for bit in range(16):
            turned = le(given ^ 1 << bit, 2) + record[2:]
            missing = given >> bit & 1
            want = 2 if bit == 0 or bit > 12 else (4, missing, 1 - missing)
            d.c(turned, want)
            d.c(turned[:3], want)
        d.c(le(given, 2) + b'\x00' + record[3:], 3)
        d.c(le(given, 2) + b'\x0e' + record[3:], 3)
        # kind 11 is a strip: the map 0001, then a count byte
        d.c(le(given, 2) + b'\x0b' + record[3:], 5 if given == 1 else (4, 0, bin(given).count('1') - 1))
        d.c(b'\xff\x1f' + record[2:], (4, 0, 13 - bin(given).count('1')))
        if given != 1:
            d.c(b'\x01\x00' + record[2:], (4, bin(given).count('1') - 1, 0))
        d.c(b'\xfe\x1f' + record[2:], 2)
    d.c(le(0x18B1, 2) + b'\x01' + bytes(17), (4, 4, 2))
    d.c(le(0x0103, 2) + b'\x0a', (4, 0, 2))
    d.c(b'\x01\x00\xff', 3)
    # 6: each field at its bounds, lowest bit of several
    far = 10 ** 7 + 1
    for make in (register, confirm, ask, commit):
        for change, bit in (((0, 2, 7, 1, 1, 1, 1), 1), ((4, 2, 7, 1, 1, 1, 1), 1), ((1, 0, 7, 1, 1, 1, 1), 2),
                            ((1, 4, 7, 1, 1, 1, 1), 2), ((1, 2, 7, 0, 1, 1, 1), 4), ((1, 2, 7, 3, 1, 1, 1), 4),
                            ((1, 2, 7, 1, 0, 1, 1), 5), ((1, 2, 7, 1, 24, 24, 1), 5), ((1, 2, 7, 1, 1, 24, 1), 6),
                            ((1, 2, 7, 1, 2, 1, 1), 6), ((1, 2, 7, 1, 1, 0, 1), 6), ((1, 2, 7, 1, 23, 22, 0), 6),
                            ((1, 2, 7, 1, 1, 1, 0), 7), ((1, 2, 7, 1, 1, 1, far), 7),
                            ((1, 2, 7, 1, 1, 1, 2 ** 32 - 1), 7), ((255, 255, 7, 9, 0, 0, 0), 1),
                            ((1, 1, 7, 3, 0, 0, 0), 4), ((1, 1, 7, 1, 1, 1, 0), 7), ((1, 1, 7, 1, 0, 0, 5), 5)):
            d.c(make(*change), (6, bit))
        d.c(make(1, 1, 7, 1, 1, 23, 10 ** 7), 7)
        d.c(make(3, 3, 0, 2, 23, 23, 1), 7)
    for record, bit in ((withdraw(0, 1), 1), (withdraw(4, 0), 1), (withdraw(1, 0), 8), (withdraw(1, 257), 8),
                        (withdraw(1, 65535), 8), (guarantee(0, 1), 9), (guarantee(3, AMPLE + 1), 9),
                        (guarantee(2, AMPLE + 1), 10), (guarantee(2, 2 ** 64 - 1), 10),
                        (schedule(0, 0, 0, 0, 2 ** 20), 4), (schedule(3, 1, 1, 1, 1), 4), (schedule(1, 0, 1, 1, 1), 5),
                        (schedule(1, 24, 1, 1, 1), 5), (schedule(1, 1, 0, 1, 1), 7), (schedule(1, 1, far, 0, 1), 7),
                        (schedule(1, 1, 1, 0, 1), 11), (schedule(1, 1, 1, 2, 400001), 11),
                        (schedule(1, 1, 1, 1, 400001), 12), (schedule(1, 1, 1, 1, 2 ** 32 - 1), 12)):
        d.c(record, (6, bit))
    d.c(schedule(2, 23, 10 ** 7, 1, 400000), 11)
    d.c(guarantee(2, AMPLE), 0)
    d.c(withdraw(3, 256), 16)
    # readings: account, hour, operator; lowest bit of several
    for account, hour, want in ((0, 1, (6, 1)), (4, 0, (6, 1)), (3, 0, (6, 5)), (3, 24, (6, 5)), (3, 23, 0), (255, 255, (6, 1))):
        d.a(account, hour, want)
    for operator, want in ((0, (6, 9)), (3, (6, 9)), (255, (6, 9)), (2, 0)):
        d.e(operator, want)
        d.i(operator, 23, 23, want)
        d.i(operator, 24, 24, (6, 5))
    # settle before its phase: 5, 6, 10 and 11 in this order; the book has 2 operators and 2 zones
    prices = flat(23, 1, 1, 1)
    d.settle(prices[:-1], 5, 0, 0)
    d.settle(prices + b'\x00', 5)
    d.settle(b'', 5)
    d.settle(flat(23, 1, 1), 5)
    for at in (0, 22, 23, 46, 68):
        d.settle(prices[:4 * at] + le(400001, 4) + prices[4 * at + 4:], (6, 12), 0, 0)
        d.settle(prices[:4 * at] + le(400000, 4) + prices[4 * at + 4:], 11, 0, 16)
    d.settle(prices, 10, 0, 15)
    d.settle(prices, 10, 256, 0)
    d.settle(prices, 11, 0, 16)
    d.same(1)
    # a map of the points is a fault where the book has none
    d.o(market())
    d.c(schedule(1, 1, 1, 1, 1), (6, 11))
    # other kinds look at neither the price table nor the buffers
    d.c(register(1, 2, 1, 1, 1, 1, 1), (0, 1), b'\xff' * 7, 3, 5)
    d.c(UNDO, 13, b'\xff' * 9)


def phases(d):
    """Every kind in every wrong phase, and nothing changed by it."""
    d.o(market(24, points=[(1, 1, 1, 50, 0)]))
    early = (schedule(1, 1, 1, 1, 1), SETTLE)
    late = (register(1, 2, 5, 1, 1, 1, 1), confirm(2, 1, 9, 2, 1, 1, 1), withdraw(1, 1), guarantee(1, 0), OPEN, UNDO,
            KEEP, CLOSE, strip(register(1, 2, 5, 1, 1, 1, 1)), ask(1, 2, 5, 1, 1, 1, 1), commit(1, 2, 5, 1, 1, 1, 1))
    d.c(register(1, 2, 9, 1, 1, 1, 10), (0, 1))
    d.k()
    for record in early:
        d.c(record, 11, flat(24, 1, 1), 8, 16)
    d.same(1)
    d.c(CLOSE, 0)
    d.same(0)
    d.k()
    for record in late:
        d.c(record, 11, flat(24, 1, 1), 8, 16)
    d.c(register(1, 1, 5, 1, 1, 1, 1), 7)
    d.c(withdraw(1, 257), (6, 8))
    d.same(1)
    d.c(schedule(1, 1, 1, 1, 1), (0, 1))
    d.settle(flat(24, 1, 1), 10, 0, 16)
    d.settle(flat(24, 1, 1), 0, 1, 16, ([2], [0, 0]))
    d.k()
    for record in late + early:
        d.c(record, 11, flat(24, 1, 1), 8, 16)
    d.settle(flat(24, 1, 1), 10, 0, 16)
    d.settle(flat(24, 1, 1), 10, 1, 15)
    d.settle(flat(24, 1, 1)[:-1], 5, 0, 0)
    d.same(1)
    d.a(1, 1, 0, 0)
    d.e(1, 0, 0)


DAYS = (no_book, openings, records_of, phases)
