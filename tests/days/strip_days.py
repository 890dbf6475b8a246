"""Directed days on strips: each number in each place of a strip, two faults at once, and limits met by all rows together."""
from itertools import combinations

from records import CLOSE, KEEP, OPEN, UNDO, confirm, flat, guarantee, le, register, schedule, setup, strip, withdraw
from input_days import AMPLE, market

FAR = 10 ** 7 + 1


def row(code, **changed):
    """A register that the books below take: account 1 sells one kWh to account 2 in hour 1."""
    terms = {'account': 1, 'other': 2, 'side': 1, 'first': 1, 'last': 1, 'quantity': 1, **changed}
    return register(terms['account'], terms['other'], code, *(terms[name] for name in ('side', 'first', 'last', 'quantity')))


def rows(count, code=1):
    return [row(code + place) for place in range(count)]


def remapped(given, record):
    return le(given, 2) + record[2:]


def of_kind(kind, record):
    return record[:2] + bytes([kind]) + record[3:]


def put(strip_rows, place, record):
    """The strip with this row in the given place, counted from 1."""
    return strip(*strip_rows[:place - 1], record, *strip_rows[place:])


def own_numbers(d):
    """2, 4, 5 and 21 of the strip itself come before any of its rows."""
    d.o(market())
    d.k()
    good = strip(row(1))
    d.c(b'\x0b', 2)
    for bit in range(16):
        turned = remapped(1 ^ 1 << bit, good)
        want = 2 if bit == 0 or bit > 12 else (4, 0, 1)
        for record in (turned, turned[:3], turned[:4]):
            d.c(record, want)
    for given in (0x00FF, 0x0103, 0x0601, 0x18B1, 0x1FFF):
        d.c(remapped(given, good), (4, 0, bin(given).count('1') - 1))
        d.c(remapped(given, strip()), (4, 0, bin(given).count('1') - 1))
    d.c(of_kind(11, row(1)), (4, 0, 7))
    d.c(of_kind(14, good), 3)
    d.c(of_kind(12, good), (4, 7, 0))
    d.c(of_kind(13, good), (4, 7, 0))
    # 5: cut short at every length, longer, and a count that is not that of the rows
    for length in range(len(good)):
        d.c(good[:length], 2 if length < 3 else 5)
    d.c(good + b'\x00', 5)
    for count in (0, 1, 3, 24, 25, 255):
        d.c(strip(*rows(2), count=count), 5)
    for count in (1, 2, 12, 24, 25, 64, 128, 192, 255):
        d.c(strip(count=count), 5)
    # 260 bytes of rows are not 4, nor 1300 bytes 20
    d.c(strip(bytes(4), count=13), 5)
    d.c(strip(row(1), count=65), 5)
    d.c(strip(b'\x00', count=0), 5)
    d.c(strip(*rows(24), count=25), 5)
    d.c(strip(*rows(25), count=24), 5)
    # 21: none and more than 24
    d.c(strip(), 21)
    d.c(strip(*rows(25)), 21)
    # before what is wrong with a row
    broken = remapped(0, row(1))
    d.c(strip(broken, count=2), 5)
    d.c(strip(broken, broken, count=0), 5)
    d.c(remapped(3, strip(broken)), (4, 0, 1))
    d.same(1)
    # 24 are taken; the price table and the buffers are not looked at
    d.c(strip(*rows(24)), (0, 1), b'\xff' * 7, 3, 5)
    d.c(strip(*rows(2, 30)), (0, 25))
    d.a(1, 1, 0, 0)
    d.e(1, 0, 260)


def of_each_number():
    """A fault of each number that one row has by itself, of 6 one for each bit."""
    return [(2, remapped(0x00FE, row(9))), (3, of_kind(2, row(9))), ((4, 1, 2), remapped(0x03FB, row(9))),
            ((6, 1), row(9, account=4)), ((6, 2), row(9, other=0)), ((6, 4), row(9, side=3)), ((6, 5), row(9, first=24, last=24)),
            ((6, 6), row(9, first=3, last=2)), ((6, 7), row(9, quantity=0)), (7, row(9, other=1))]


def other_faults():
    """More of them."""
    yield from ((2, record) for record in (remapped(0x20FF, row(9)), remapped(0x40FF, row(9)), remapped(0x80FF, row(9)),
                                           bytes(20), b'\xff' * 20, remapped(0, of_kind(11, row(9)))))
    yield from ((3, of_kind(kind, row(9))) for kind in (0, 3, 5, 10, 11, 12, 13, 14, 255))
    yield from ((3, record) for record in (withdraw(1, 1) + bytes(14), strip(bytes(16)), schedule(1, 1, 1, 1, 1) + bytes(6)))
    for bit in range(1, 13):
        yield (4, 1, 0) if bit < 8 else (4, 0, 1), remapped(0x00FF ^ 1 << bit, row(9))
    yield from (((4, 7, 0), remapped(0x0001, row(9))), ((4, 6, 1), remapped(0x0103, row(9))), ((4, 4, 2), remapped(0x18B1, row(9))),
                ((4, 7, 5), remapped(0x1F01, row(9))), ((4, 0, 5), remapped(0x1FFF, row(9))))
    yield from (((6, 1), row(9, account=0)), ((6, 1), row(9, account=255)), ((6, 2), row(9, other=4)), ((6, 4), row(9, side=0)),
                ((6, 5), row(9, first=0)), ((6, 6), row(9, last=24)), ((6, 6), row(9, last=0)), ((6, 7), row(9, quantity=FAR)),
                ((6, 7), row(9, quantity=2 ** 32 - 1)), ((6, 7), row(9, other=1, quantity=0)),
                ((6, 4), row(9, side=9, first=0, last=0, quantity=0)))


def faults(d):
    """Every fault that one row can have by itself; one of each number in the first, the middle and the last place."""
    d.o(market(23))
    d.k()
    for want, record in of_each_number():
        for place in (1, 2, 3):
            d.c(put(rows(3), place, record), want)
    for turn, (want, record) in enumerate(other_faults()):
        d.c(put(rows(3), 1 + turn % 3, record), want)
    # another proposer than the first row's, itself in range: a fault of bit 1, whichever row is the odd one
    for place in (1, 2, 3):
        for account in (2, 3):
            d.c(put(rows(3), place, row(9, account=account, other=5 - account)), (6, 1))
    # it is the lowest bit of its row; in the first row it is none, and that row's own bit is given
    for place, bit in ((1, 7), (2, 1), (3, 1)):
        d.c(put(rows(3), place, row(9, account=3, quantity=0)), (6, bit))
    d.same(1)
    d.c(strip(*rows(3)), (0, 1))
    d.c(strip(*(row(code, account=3) for code in (1, 2, 3))), (0, 4))


# A row that is refused for each number in the book of `tight`, in a strip that has row(1) too.
FAULTY = (((2, 0, 0), remapped(0x20FF, row(90))), ((3, 0, 0), of_kind(2, row(91))), ((4, 1, 2), remapped(0x03FB, row(92))),
          ((6, 5, 0), row(93, first=0)), ((7, 0, 0), row(94, other=1)), ((14, 0, 0), row(7)), ((22, 0, 0), row(1)),
          ((18, 5, 0), row(95, side=2, first=3, last=6, quantity=101)), ((19, 0, 0), row(96, first=9, last=9, quantity=61)))

# Account 1 may buy 200 in an hour, but 100 in hour 5, and its guarantee is for 62 sold.
TIGHT = market(operators=((62, 0), (AMPLE, 0)), price=1000,
               accounts=((1, 1, 1000, [200] * 4 + [100] + [200] * 19), (2, 2, 1000, 1000), (2, 1, 1000, 1000)))


def tight(d):
    """The book above with code 7 pending."""
    d.o(TIGHT)
    d.c(row(7), (0, 1))
    d.k()


def two_faults(d):
    """Two rows of one strip refused for different numbers: the rank decides, in either order of the rows."""
    tight(d)
    for want, record in FAULTY:
        d.c(strip(row(1), record), want)
    for (want, earlier), (_, later) in combinations(FAULTY, 2):
        d.c(strip(earlier, row(1), later), want)
        d.c(strip(later, row(1), earlier), want)
    # two faults in one row, or three in one strip
    d.c(strip(row(1), remapped(0x03FB, of_kind(2, row(2)))), 3)
    d.c(strip(row(1), remapped(0x03FA, of_kind(2, row(2)))), 2)
    d.c(strip(row(1), remapped(0x03FB, row(2, first=0))), (4, 1, 2))
    for numbers, want in (((8, 3, 0), 2), ((2, 3, 1), 3), ((5, 4, 3), (6, 5)), ((6, 7, 5), 14), ((8, 6, 7), 22)):
        d.c(strip(row(1), *(FAULTY[place][1] for place in numbers)), want)
    d.same(1)
    d.c(strip(row(1), row(2)), (0, 2))


def same_number(d):
    """Two rows refused for the same number: the details are those of the first, not the least."""
    d.o(market())
    d.k()
    by_bit = {1: row(9, account=9), 2: row(9, other=9), 4: row(9, side=0), 5: row(9, first=25), 6: row(9, first=2),
              7: row(9, quantity=0)}
    for first, second in ((a, b) for a in by_bit for b in by_bit if a != b and a != 1):
        d.c(strip(by_bit[first], by_bit[second]), (6, first))
    d.c(strip(row(1), by_bit[7], row(2), by_bit[2]), (6, 7))
    d.c(strip(row(1), by_bit[5], by_bit[4], row(2)), (6, 5))
    # where the first row's own account is at fault, or another proposer stands before
    d.c(strip(by_bit[1], by_bit[7]), (6, 1))
    d.c(strip(row(1), row(2, account=3), by_bit[2]), (6, 1))
    d.c(strip(row(1), by_bit[7], row(2, account=3)), (6, 7))
    by_map = {(4, 1, 0): 0x00FD, (4, 0, 1): 0x01FF, (4, 7, 0): 0x0001, (4, 0, 5): 0x1FFF, (4, 2, 3): 0x0E3F}
    for first, second in combinations(by_map, 2):
        d.c(strip(remapped(by_map[first], row(8)), remapped(by_map[second], row(9))), first)
        d.c(strip(remapped(by_map[second], row(8)), remapped(by_map[first], row(9))), second)
    d.c(strip(row(1), remapped(0x0E3F, row(8)), row(2), remapped(0x00FD, row(9))), (4, 2, 3))
    # 18: the lowest hour, whichever row touches it
    for order in ((5, 3), (3, 5)):
        d.c(strip(*(row(hour, first=hour, last=hour, quantity=1001) for hour in order)), (18, 3))
        d.c(strip(*(row(hour, side=hour // 2, first=hour, last=hour, quantity=1001) for hour in order)), (18, 3))
    d.same(1)


GOOD = [row(1)] + rows(23, 20)


def faulty_strip(count, place, which):
    """A strip of so many rows with a faulty one in this place, and what is to be answered."""
    want, record = FAULTY[which]
    if want[0] == 19:
        # the other rows and the pending one sell as many as the strip has rows
        record = row(96, first=9, last=9, quantity=63 - count)
    # row(1), which another is alike, must stay
    return put(GOOD[:count] if place > 1 else GOOD[:count][::-1], place, record), want


def long_strips(d):
    """Each number in the last place of 24, and in two places of nine, so that every place has two of them."""
    tight(d)
    for which in range(9):
        d.c(*faulty_strip(24, 24, which))
        d.c(*faulty_strip(9, 1 + which, which))
        d.c(*faulty_strip(9, 1 + (which + 5) % 9, which))
    d.same(1)
    d.c(strip(*GOOD), (0, 2))
    d.e(1, 0, 25000)


def alike(d):
    """14 against the rows that stood, 22 among the strip's own."""
    d.o(market())
    d.c(strip(row(7), row(8, side=2, first=2, last=3)), (0, 1))
    d.c(register(2, 1, 9, 1, 1, 1, 1), (0, 3))
    d.c(register(3, 2, 9, 1, 1, 1, 1), (0, 4))
    d.k()
    for code in (7, 8):
        for place in (1, 2, 3):
            d.c(put(rows(3), place, row(code, side=2, first=4, last=9, quantity=5)), 14)
    d.c(strip(row(8), row(8)), 14)
    d.c(strip(row(1), row(1), row(8)), 14)
    # every two rows of a strip; other terms do not matter
    for one, two in combinations(range(5), 2):
        five = rows(5)
        five[one], five[two] = row(50), row(50, side=2, first=9, last=12, quantity=77)
        d.c(strip(*five), 22)
    d.c(strip(row(50), row(50), row(50)), 22)
    d.c(strip(row(1), row(2), row(2), row(1)), 22)
    d.same(1)
    # another counterparty or code is enough, as another proposer is for 14
    d.c(strip(row(9), row(9, other=3), row(7, other=3), row(9 + (1 << 8)), row(9 + (1 << 56)), row(b'\xff' * 8)), (0, 5))
    # 14 no longer where that row is withdrawn or confirmed; the rest of the strip stands as it was
    d.c(strip(row(10), row(7)), 14)
    d.c(withdraw(1, 1), 0)
    d.c(withdraw(2, 2), 16)
    d.c(confirm(2, 1, 8, 1, 2, 3, 1), (0, 2))
    d.c(strip(row(7), row(8), row(10)), (0, 11))
    d.c(row(10), 14)
    d.c(strip(row(11), row(10)), 14)
    d.c(confirm(2, 1, 10, 2, 1, 1, 1), (0, 13))
    d.c(withdraw(1, 12), 0)
    d.c(row(8), (0, 14))
    d.c(strip(row(10), row(8, other=3)), (0, 15))
    d.c(strip(row(10), row(8)), 14)
    d.a(1, 1, 0, -1)
    d.a(1, 2, 0, 1)
    # ten sales of account 1 are pending, one is confirmed
    d.e(1, 0, 110)


def full_book(d):
    """232 rows and 24 are 256; with 233 rows 24 more are 15."""
    d.o(market())
    for place in range(9):
        d.c(strip(*rows(24, 24 * place)), (0, 1 + 24 * place))
    d.c(strip(*rows(16, 216)), (0, 217))
    d.c(withdraw(1, 232), 0)
    d.k()
    last = rows(24, 300)
    d.c(OPEN, 0)
    d.c(strip(*last), (0, 233))
    for record in (row(500), strip(row(500)), strip(row(500), row(501)), strip(row(231)), strip(row(500, quantity=10 ** 7))):
        d.c(record, 15)
    d.c(strip(row(230)), 14)
    d.c(strip(row(500), row(500)), 22)
    d.c(confirm(2, 1, 323, 2, 1, 1, 1), (0, 256))
    d.c(withdraw(1, 233), 0)
    d.c(row(500), 15)
    d.c(UNDO, (0, 24))
    d.same(1)
    d.c(row(400), (0, 233))
    d.k()
    d.c(strip(*last), 15)
    d.same(1)
    # the last rows: 23 in one strip, or 22 in two and a register
    d.c(OPEN, 0)
    d.c(strip(*last[:23]), (0, 234))
    d.c(strip(row(500)), 15)
    d.c(UNDO, (0, 23))
    d.same(1)
    d.c(strip(*last[:20]), (0, 234))
    d.c(strip(*last[20:24]), 15)
    d.c(strip(*last[20:22]), (0, 254))
    d.c(strip(*last[22:24]), 15)
    d.c(strip(row(501), row(501)), 22)
    d.c(strip(row(501), row(400)), 14)
    d.c(strip(row(501), row(502, quantity=0)), (6, 7))
    d.c(strip(row(501), row(502, quantity=10 ** 7)), 15)
    d.c(strip(row(501, quantity=10 ** 7)), (18, 1))
    d.c(row(501), (0, 256))
    d.c(strip(row(502)), 15)
    d.c(withdraw(1, 256), 0)
    d.c(strip(row(502)), 15)
    d.c(confirm(2, 1, 300, 2, 1, 1, 1), (0, 234))
    d.e(1, 0, 2540)
    d.c(CLOSE, 0)
    d.e(1, 0, 10)


def batches(d):
    """Strips in batches that are undone and kept: undo counts their rows, and nothing of them weighs."""
    opening = market(operators=((10, 0), (AMPLE, 0)), accounts=((1, 1, 100, 100), (2, 2, 100, 100), (2, 1, 100, 100)), price=100)
    d.o(opening)
    d.c(row(1), (0, 1))
    d.k()
    d.c(OPEN, 0)
    d.c(strip(row(2, quantity=40), row(3, quantity=59), row(4, side=2, quantity=100)), (0, 2))
    d.c(row(5), (18, 1))
    d.c(strip(row(5, first=2, last=2), row(6, first=3, last=3)), 19)
    d.c(row(5, side=2), (18, 1))
    d.c(UNDO, (0, 3))
    d.same(1)
    d.e(1, 0, 100)
    # the same rows again, in parts, withdrawn and confirmed in the batch
    d.c(OPEN, 0)
    d.c(strip(row(2, quantity=40), row(3, quantity=59)), (0, 2))
    d.c(withdraw(1, 2), 0)
    d.c(confirm(2, 1, 3, 2, 1, 1, 59), (0, 3))
    d.c(strip(row(2, quantity=1), row(3, quantity=39), row(4, first=2, last=2, side=2)), (0, 4))
    d.c(row(6), (18, 1))
    d.c(strip(row(7), row(8)), (18, 1))
    d.a(1, 1, 0, -59)
    d.c(OPEN, 12)
    d.c(guarantee(1, 9), 19)
    d.c(UNDO, (0, 5))
    d.same(1)
    # with the batch cut out: the same answers, the same book
    d.c(strip(row(2, quantity=40), row(3, quantity=60)), (18, 1))
    d.c(strip(row(2, quantity=40), row(3, quantity=59)), (0, 2))
    d.k()
    d.c(OPEN, 0)
    d.c(strip(row(4, side=2), row(3)), 14)
    d.c(UNDO, (0, 0))
    d.same(1)
    # kept
    d.c(withdraw(1, 3), 0)
    d.c(OPEN, 0)
    d.c(strip(row(3, quantity=58), row(4)), (0, 4))
    d.c(KEEP, 0)
    d.c(UNDO, 13)
    d.c(row(5), (18, 1))
    d.c(OPEN, 0)
    d.c(withdraw(1, 4), 0)
    d.c(strip(row(5, quantity=20), row(6, quantity=38)), (0, 6))
    d.c(row(7), (18, 1))
    d.c(UNDO, (0, 2))
    d.c(confirm(2, 1, 3, 2, 1, 1, 58), (0, 4))
    d.a(1, 1, 0, -58)
    d.a(2, 1, 0, 58)
    d.e(1, 0, 10000)
    # the same book without the batches, and with two registers in place of the last strip
    d.c(strip(row(8, side=2), row(9, side=2)), (0, 6))
    d.k()
    d.o(opening)
    d.c(row(1), (0, 1))
    d.c(strip(row(2, quantity=40), row(3, quantity=59)), (0, 2))
    d.c(withdraw(1, 3), 0)
    d.c(strip(row(3, quantity=58), row(4)), (0, 4))
    d.c(confirm(2, 1, 3, 2, 1, 1, 58), (0, 4))
    d.same(0)
    d.c(row(8, side=2), (0, 6))
    d.same(0)
    d.c(row(9, side=2), (0, 7))
    d.same(1)


def single_rows(d):
    """Each row of a strip is confirmed and withdrawn by itself; the day is settled."""
    d.o(market(points=[(1, 1, 1, 50, 0)]))
    d.c(strip(row(1, first=1, last=3, quantity=10), row(2, other=3, first=2, last=4, quantity=20),
              row(3, side=2, first=3, last=3, quantity=5), row(4, first=24, last=24, quantity=40)), (0, 1))
    d.a(1, 3, 0, 0)
    d.e(1, 0, 300 + 600 + 400)
    d.c(confirm(2, 1, 2, 2, 2, 4, 20), 16)
    d.c(confirm(3, 1, 2, 2, 2, 4, 19), 17)
    d.c(confirm(3, 1, 2, 2, 2, 4, 20), (0, 2))
    d.c(confirm(3, 1, 2, 2, 2, 4, 20), 16)
    d.c(withdraw(1, 2), 16)
    d.c(withdraw(2, 4), 16)
    d.c(withdraw(1, 4), 0)
    d.c(withdraw(1, 4), 16)
    d.c(confirm(2, 1, 4, 2, 24, 24, 40), 16)
    d.c(withdraw(1, 5), 16)
    d.c(confirm(2, 1, 3, 1, 3, 3, 5), (0, 3))
    d.c(row(1), 14)
    d.c(strip(row(4), row(3), row(2, other=3)), (0, 5))
    d.e(1, 0, 300 + 200 + 150 + 200 + 30)
    d.c(confirm(2, 1, 1, 2, 1, 3, 10), (0, 1))
    for hour, net in ((1, -10), (2, -30), (3, -25), (4, -20), (5, 0), (24, 0)):
        d.a(1, hour, 0, net)
    d.e(1, 0, 100 + 300 + 250 + 200 + 30)
    d.e(2, 0, 0)
    d.c(CLOSE, 0)
    d.e(1, 0, 850)
    d.c(strip(row(9)), 11)
    d.c(schedule(1, 3, 25, 1, 9), (0, 1))
    d.c(schedule(1, 1, 11, 1, 9), (0, 2))
    # 85 short and 25 injected at PUN 7: -420, and 25 * (9 - 7) more
    d.settle(flat(24, 7, 9), 0, 2, 16, ([0, 2], [-420 + 50, 595]))
    d.c(strip(row(9)), 11)
    d.read_all()


def margins(d):
    """Margins met exactly and passed by one by all rows together, sales below and purchases above."""
    def sells(code, first, last, quantity):
        return row(code, first=first, last=last, quantity=quantity)

    def buys(code, first, last, quantity):
        return row(code, side=2, first=first, last=last, quantity=quantity)

    d.o(market(accounts=((1, 1, 100, 60), (2, 2, 1000, 1000), (2, 1, 1000, 1000))))
    d.k()
    # each row alone is within; they do not cancel
    for sold, bought, want in ((101, 60, (18, 4)), (100, 61, (18, 5)), (101, 61, (18, 4))):
        for place in (0, 1, 2, 3):
            four = [sells(1, 3, 4, 40), buys(2, 5, 6, 30), sells(3, 4, 4, sold - 40), buys(4, 5, 5, bought - 30)]
            d.c(strip(*four[place:], *four[:place]), want)
    d.c(strip(sells(1, 9, 9, 101), buys(2, 9, 9, 60)), (18, 9))
    d.c(strip(sells(1, 9, 9, 100), buys(2, 9, 9, 61)), (18, 9))
    # the lowest hour broken, also where only the last row touches it
    d.c(strip(sells(1, 20, 24, 60), sells(2, 23, 24, 41), sells(3, 2, 2, 101)), (18, 2))
    d.c(strip(sells(1, 20, 24, 60), sells(2, 23, 24, 41), buys(3, 1, 2, 60)), (18, 23))
    d.c(strip(sells(1, 1, 24, 50), buys(2, 1, 24, 60), sells(3, 1, 24, 50), sells(4, 24, 24, 1)), (18, 24))
    d.c(strip(*(sells(code, 1, 24, 10 ** 7) for code in range(6))), (18, 1))
    d.same(1)
    d.c(strip(sells(1, 3, 4, 40), buys(2, 5, 6, 30), sells(3, 4, 4, 60), buys(4, 5, 5, 30), sells(5, 5, 5, 100)), (0, 1))
    for hour, side, left in ((3, 1, 60), (4, 1, 0), (5, 1, 0), (5, 2, 0), (4, 2, 60), (6, 2, 30)):
        d.c(row(9, side=side, first=hour, last=hour, quantity=left + 1), (18, hour))
        d.c(strip(row(9, side=side, first=hour, last=hour, quantity=left + 1)), (18, hour))
    d.c(strip(sells(6, 3, 3, 60), buys(7, 4, 4, 60), buys(8, 6, 6, 30)), (0, 6))
    d.a(1, 4, 0, 0)
    d.e(1, 0, 10 * (40 + 40 + 60 + 100 + 60))
    # a purchase that is confirmed gives room for sales in a strip, one that waits does not
    d.c(strip(sells(9, 5, 5, 1), sells(10, 7, 7, 1)), (18, 5))
    d.c(confirm(2, 1, 4, 1, 5, 5, 30), (0, 4))
    d.c(strip(sells(9, 5, 5, 10), sells(10, 5, 5, 21)), (18, 5))
    d.c(strip(sells(9, 5, 5, 10), sells(10, 5, 5, 20)), (0, 9))
    # margins by hour: none below in hour 12, and another above in each hour
    lower, upper = [50] * 11 + [0] + [50] * 12, list(range(101, 125))
    d.o(market(accounts=((1, 1, lower, upper), (2, 2, 1000, 1000), (2, 1, 1000, 1000))))
    d.c(strip(sells(1, 10, 11, 50), sells(2, 11, 13, 1)), (18, 11))
    d.c(strip(sells(1, 10, 11, 49), sells(2, 11, 13, 1)), (18, 12))
    d.c(strip(sells(1, 10, 11, 49), sells(2, 13, 13, 1), sells(3, 12, 12, 1)), (18, 12))
    shape = [buys(hour, hour, hour, 100 + hour) for hour in range(1, 25)]
    d.c(put(shape, 24, buys(24, 24, 24, 125)), (18, 24))
    d.c(strip(*shape), (0, 1))
    d.c(buys(99, 1, 24, 1), (18, 1))
    for hour in (2, 13, 24):
        d.c(withdraw(1, hour), 0)
        d.c(strip(buys(hour, hour, hour, 100), buys(99, hour, hour, hour + 1)), (18, hour))


def guarantees(d):
    """The guarantee met exactly and passed by one, by rows that are each within it."""
    # 100 cents less 100 per thousand are 90,000; accounts 1 and 3 are the same operator's
    wide = 10 ** 7
    d.o(setup([10, 20, 30] + [10] * 21, [(100, 100), (0, 0)], [(1, 1, wide, wide), (2, 2, wide, wide), (1, 1, wide, wide)]))
    d.k()
    parts = [row(1, first=1, last=1, quantity=3000), row(2, first=1, last=2, quantity=1000), row(3, first=3, last=3, quantity=1000)]
    # 30,000 each: 3,000 at 10, 1,000 at 10 and 20, 1,000 at 30
    for place, quantity in ((0, 3001), (1, 1001), (2, 1001)):
        over = parts[:place] + [parts[place][:16] + le(quantity, 4)] + parts[place + 1:]
        d.c(strip(*over), 19)
        d.c(strip(*over[::-1]), 19)
    d.c(strip(*parts, row(4, first=24, last=24)), 19)
    d.c(strip(row(4, first=24, last=24), *parts), 19)
    d.c(strip(*(row(code, quantity=9000) for code in (1, 2))), 19)
    d.same(1)
    # a purchase weighs nothing, and takes nothing off
    d.c(strip(row(5, side=2, first=1, last=24, quantity=wide), *parts), (0, 1))
    d.e(1, 0, 90000)
    for record in (row(6), strip(row(6)), row(6, account=3), strip(row(6, account=3)), strip(row(6, account=3), row(7, account=3, side=2))):
        d.c(record, 19)
    d.c(strip(row(6, account=3, side=2), row(7, account=3, side=2)), (0, 5))
    d.c(strip(row(6, account=2, other=1), row(7, account=2, other=1)), 19)
    # net below zero and what waits together
    d.c(confirm(2, 1, 1, 2, 1, 1, 3000), (0, 2))
    d.e(1, 0, 90000)
    d.c(withdraw(1, 4), 0)
    d.c(strip(row(9, account=3, quantity=1500), row(8, account=3, quantity=1501)), 19)
    d.c(strip(row(6, account=3, quantity=1500), row(8, account=3, quantity=1500)), 14)
    d.c(strip(row(9, account=3, quantity=1500), row(8, account=3, quantity=1500)), (0, 7))
    d.c(guarantee(1, 99), 19)
    d.c(guarantee(1, 100), 0)
    d.e(1, 0, 90000)
    # 18 before 19, whichever row breaks what
    d.o(market(operators=((1, 0), (AMPLE, 0))))
    for order in (1, -1):
        d.c(strip(*[row(1, quantity=101), row(2, side=2, first=9, last=9, quantity=1001)][::order]), (18, 9))
        d.c(strip(*[row(1, quantity=101), row(2, side=2, first=9, last=9, quantity=1000)][::order]), 19)
        d.c(strip(*[row(1, quantity=60), row(2, quantity=41)][::order]), 19)
    d.c(strip(row(1, quantity=60), row(2, quantity=40)), (0, 1))
    # the greatest amounts: 25 hours of 10,000,000 at 400,000 are the guarantee of 10^11 to the cent
    d.o(setup([400000] * 25, [(10 ** 11 - 1, 0), (0, 0)], [(1, 1, 10 ** 7, 0), (2, 2, 0, 10 ** 7)]))
    greatest = strip(*(row(hour, first=hour, last=hour + hour // 24, quantity=10 ** 7) for hour in range(1, 25)))
    d.c(greatest, 19)
    d.c(guarantee(1, 10 ** 11), 0)
    d.c(greatest, (0, 1))
    d.e(1, 0, 10 ** 14)


def one_row(d):
    """A strip of one register answers as that register, and leaves the same book."""
    d.o(market(operators=((60, 0), (AMPLE, 0)), price=100))
    d.c(strip(row(7), row(8)), (0, 1))
    records = [row(1), row(2, side=2, first=3, last=24, quantity=1000), row(b'\xff' * 8, other=3, first=1, last=2, quantity=299),
               row(1, account=3, other=1, first=24, last=24), row(1, account=2, other=1, side=2, quantity=7)]
    for record in records:
        d.c(OPEN, 0)
        d.c(record, (0, 3))
        d.k()
        d.c(UNDO, (0, 1))
        d.c(OPEN, 0)
        d.c(strip(record), (0, 3))
        d.same(1)
        d.c(UNDO, (0, 1))
    refused = [(2, remapped(0x00FE, row(1))), (2, remapped(0x80FF, row(1))), ((4, 1, 1), remapped(0x017F, row(1))),
               ((6, 1), row(1, account=0)), ((6, 1), row(1, account=4)), ((6, 2), row(1, other=0)), ((6, 4), row(1, side=3)),
               ((6, 5), row(1, first=25, last=25)), ((6, 6), row(1, first=2)), ((6, 7), row(1, quantity=FAR)), (7, row(1, other=1)),
               (14, row(7)), (14, row(8, quantity=5000)), ((18, 1), row(1, quantity=999)),
               ((18, 2), row(1, side=2, first=2, last=3, quantity=1001)), (19, row(1, quantity=599)),
               (19, row(1, first=1, last=24, quantity=25))]
    d.k()
    for want, record in refused:
        d.c(record, want)
        d.c(strip(record), want)
    d.same(1)
    # but a record of another kind is 3 in a strip
    d.c(confirm(2, 1, 7, 2, 1, 1, 2), 17)
    d.c(strip(confirm(2, 1, 7, 2, 1, 1, 1)), 3)
    d.c(confirm(2, 1, 7, 2, 1, 1, 1), (0, 1))


def after_gate(d):
    """11 once the gate is closed, after all that the input alone decides and before all else."""
    tight(d)
    d.c(OPEN, 0)
    d.c(strip(row(1), row(2)), (0, 2))
    d.c(CLOSE, 12)
    d.c(KEEP, 0)
    d.c(CLOSE, 0)
    for last in (False, True):
        d.k()
        d.c(strip(row(1)), 11)
        for want, record in FAULTY:
            d.c(strip(row(1), record), want if want[0] < 11 else 11)
        d.c(strip(row(1), row(1), row(2, quantity=1001)), 11)
        d.c(strip(), 21)
        d.c(strip(row(1), count=2), 5)
        d.c(strip(row(1))[:3], 5)
        d.c(remapped(9, strip(row(1))), (4, 0, 1))
        d.c(remapped(0, strip(row(1))), 2)
        d.same(1)
        d.e(1, 0, 0)
        if not last:
            d.settle(flat(24, 1, 1), 0, 0, 16, ([], [0, 0]))


DAYS = (own_numbers, faults, two_faults, same_number, long_strips, alike, full_book, batches, single_rows, margins, guarantees,
        one_row, after_gate)
