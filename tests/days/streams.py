"""Named streams of a day and the text that their replay prints."""
import pathlib

import random_days
import strip_days
from cases import Days
from reading import STREAM_BYTES, replay
from records import (CLOSE, KEEP, OPEN, SETTLE, UNDO, ask, bare, commit, confirm, flat, guarantee, le, register, schedule, setup,
                     stream, strip, table, withdraw)

AMPLE = 10 ** 12
STREAMS = []


def add(name, data, text=None):
    """Adds a stream; a text given must be the one printed."""
    printed = replay(data)
    assert text is None or printed == text, (name, printed, text)
    STREAMS.append((name, data, printed))


def small(hours=24, cents=100000, m=100, points=((1, 1, 1, 15000, 0),), price=5000):
    """The set-up of the whole case."""
    return setup([price] * hours, [(cents, m), (0, 0)], [(1, 1, 20000, 0), (2, 2, 0, 20000)], list(points))


def first_hour(hours, *prices):
    return table(*([price] + [0] * (hours - 1) for price in prices))


def lines(*each):
    return ''.join(line + '\n' for line in each)


SELL = register(1, 2, 0, 1, 1, 1, 18000)
TAKE = confirm(2, 1, 0, 2, 1, 1, 18000)
WHOLE = [small(), SELL, TAKE, CLOSE, schedule(1, 1, 15000, 1, 3000), SETTLE + first_hour(24, 6000, 5500)]
WHOLE_TEXT = """0 0 0 0
1 0 1 0
2 0 1 0
3 0 0 0
4 0 1 0
5 0 0 0
s 1 0
o 1 -25500000
o 2 108000000
t 82500000
"""


def edges():
    add('whole case', stream(*WHOLE), WHOLE_TEXT)
    add('selling 18,001 is 19', stream(small(), register(1, 2, 0, 1, 1, 1, 18001)), lines('0 0 0 0', '1 19 0 0'))
    ample = small(24, AMPLE, 100)
    add('20,000 with ample guarantee', stream(ample, register(1, 2, 0, 1, 1, 1, 20000)), lines('0 0 0 0', '1 0 1 0'))
    add('20,001 is 18 hour 1', stream(ample, register(1, 2, 0, 1, 1, 1, 20001)), lines('0 0 0 0', '1 18 1 0'))
    add('last hour 24 of 23', stream(small(23), register(1, 2, 0, 1, 1, 24, 1)), lines('0 0 0 0', '1 6 6 0'))
    add('quantity 0', stream(small(), register(1, 2, 0, 1, 1, 1, 0)), lines('0 0 0 0', '1 6 7 0'))
    add('undo unopened', stream(small(), UNDO), lines('0 0 0 0', '1 13 0 0'))
    add('keep unopened', stream(small(), KEEP), lines('0 0 0 0', '1 13 0 0'))
    add('code reused after withdrawal', stream(small(), SELL, SELL, withdraw(1, 1), SELL),
        lines('0 0 0 0', '1 0 1 0', '2 14 0 0', '3 0 0 0', '4 0 2 0'))
    rows = []
    text = ['0 0 0 0']
    for row in range(1, 257):
        rows += [SELL, withdraw(1, row)]
        text += ['%d 0 %d 0' % (2 * row - 1, row), '%d 0 0 0' % (2 * row)]
    add('row 256 passes, 257 is 15, withdrawn', stream(small(), *rows, SELL), lines(*text, '513 15 0 0'))
    rows = [register(1, 2, row, 1, 1, 1, 1) for row in range(257)]
    text = ['%d 0 %d 0' % (row, row) for row in range(1, 257)]
    add('row 256 passes, 257 is 15, pending', stream(small(), *rows), lines('0 0 0 0', *text, '257 15 0 0'))
    for price, result in ((5499, 0), (5500, 0), (5501, 3)):
        day = WHOLE[:4] + [schedule(1, 1, 15000, 1, price)] + WHOLE[5:]
        balances = ('o 1 -25500000', 'o 2 108000000', 't 82500000') if result == 0 else (
            'o 1 -108000000', 'o 2 108000000', 't 0')
        add('injection at %d, zone price 5500' % price, stream(*day),
            lines(*WHOLE_TEXT.split('\n')[:6], 's 1 %d' % result, *balances))


def forms():
    add('empty', b'', '')
    add('set-up alone', stream(small()), '0 0 0 0\n')
    add('one byte', b'\x00', 'cut 0\n')
    add('item 0 of no bytes', stream(b''), '0 8 0 0\n')
    add('item 0 of no bytes ends it', stream(b'', small(), UNDO), '0 8 0 0\n')
    add('refused counts end it', stream(b'\x16' + small()[1:], SELL), '0 8 0 0\n')
    add('refused length ends it', stream(small() + b'\x00', SELL), '0 8 0 0\n')
    add('refused value ends it', stream(small(24, AMPLE + 1), SELL, CLOSE), '0 9 101 0\n')
    add('refused kind mismatch ends it', stream(small(points=((2, 1, 1, 5, 0),)), SELL), '0 9 510 0\n')
    add('refused set-up, then a cut', stream(small()[:-1]) + b'\x05', '0 8 0 0\n')
    short = stream(small(23, points=()), SELL, SETTLE + flat(23, 1, 1)[:5], UNDO)
    opened = 2 + len(small(23, points=()))
    for length in range(len(short) + 1):
        if length < 16 or length > opened - 16 or length % 16 == 0:
            add('cut at %d' % length, short[:length])
    whole = stream(*WHOLE)
    for length in range(len(whole) - 196, len(whole), 7):
        add('whole case cut at %d' % length, whole[:length], lines(*WHOLE_TEXT.split('\n')[:5], 'cut 5'))
    add('whole case and a byte', whole + b'\x07', WHOLE_TEXT + 'cut 6\n')
    add('whole case and a length', whole + b'\x01\x00', WHOLE_TEXT + 'cut 6\n')
    add('whole case and an empty item', whole + b'\x00\x00', WHOLE_TEXT + '6 2 0 0\n')
    add('length ff ff', stream(small()) + b'\xff\xff' + bytes(1000), lines('0 0 0 0', 'cut 1'))
    # an item whose third byte is 10 is split whatever its map says
    prices = first_hour(24, 6000, 5500)
    for head, want in ((b'\x01\x00', (11, 0, 0)), (b'\x03\x01', (4, 0, 2)), (b'\x00\x00', (2, 0, 0)),
                       (b'\x01\x20', (2, 0, 0)), (b'\xff\x00', (4, 0, 7))):
        add('split with map %s' % head.hex(), stream(small(), head + b'\x0a' + prices),
            lines('0 0 0 0', '1 %d %d %d' % want))
    add('settle without prices', stream(small(), CLOSE, SETTLE), lines('0 0 0 0', '1 0 0 0', '2 5 0 0'))
    add('settle with a byte less or more', stream(small(), CLOSE, SETTLE + prices[:-1], SETTLE + prices + b'\x00'),
        lines('0 0 0 0', '1 0 0 0', '2 5 0 0', '3 5 0 0'))
    add('settle with no schedule, then again', stream(small(), SELL, CLOSE, SETTLE + prices, SETTLE + prices, CLOSE),
        lines('0 0 0 0', '1 0 1 0', '2 0 0 0', '3 0 0 0', 'o 1 0', 'o 2 0', 't 0', '4 11 0 0', '5 11 0 0'))
    add('longest item', le(65534, 2) + bytes(65534), '0 8 0 0\n')
    add('over 65,536 bytes', stream(small()) + bytes(STREAM_BYTES + 1 - len(stream(small()))), 'long\n')
    add('over 65,536 bytes, whole case first', whole + bytes(STREAM_BYTES), 'long\n')


def verdicts():
    """Each number that a stream can show, in one day; 1 and 10 cannot be shown."""
    mixed = setup([10] * 24, [(10 ** 6, 0), (5, 0)], [(1, 1, 900, 900), (2, 2, 900, 900), (2, 1, 900, 900)],
                  [(1, 1, 1, 100, 0), (2, 2, 1, 0, 90), (2, 3, 1, 50, 50)])
    items = [mixed, b'', b'\x01\x00', b'\x00\x00\x05', b'\x01\x80\x05', bare(0), bare(11), bare(12), bare(14),
             b'\xff\x1f\x05', b'\x01\x00\x01', strip(), strip(SELL, SELL), strip(register(4, 2, 1, 1, 1, 1, 1)),
             OPEN + b'\x00', SELL[:-1], register(4, 2, 1, 1, 1, 1, 1), register(1, 2, 1, 1, 5, 4, 1), register(1, 1, 1, 1, 1, 1, 1),
             SETTLE + flat(24, 400001, 0), SETTLE + flat(24, 0, 0), schedule(1, 1, 1, 1, 1), KEEP, UNDO, OPEN, OPEN, CLOSE,
             register(1, 2, 1, 1, 1, 3, 500), register(1, 2, 1, 2, 1, 3, 5), withdraw(2, 1), confirm(1, 2, 1, 1, 1, 3, 500),
             confirm(2, 1, 1, 1, 1, 3, 500), confirm(2, 1, 1, 2, 1, 3, 500), register(1, 2, 1, 1, 3, 4, 401),
             register(2, 1, 1, 1, 1, 3, 167), register(2, 1, 1, 1, 1, 3, 166), guarantee(2, 4), guarantee(2, 6), withdraw(2, 2), UNDO,
             commit(2, 1, 1, 1, 1, 1, 500), ask(2, 1, 1, 1, 1, 1, 501), ask(2, 1, 1, 1, 1, 1, 500), commit(2, 1, 1, 1, 1, 1, 501),
             commit(2, 1, 1, 1, 1, 1, 500), withdraw(2, 1), register(2, 1, 1, 1, 1, 1, 501), register(2, 1, 1, 1, 1, 1, 500),
             confirm(1, 2, 1, 2, 1, 1, 500), CLOSE, UNDO]
    items += [schedule(1 + place % 3 // 2, 1 + place % 2, 1 + place % 3, 2 + place % 2, place % 5) for place in range(257)]
    items += [SETTLE + flat(24, 3, 2), SETTLE + flat(24, 3, 2)]
    data = stream(*items)
    seen = {int(line.split()[1]) for line in replay(data).split('\n') if line and line[0].isdigit()}
    assert seen >= {0, 2, 3, 4, 5, 6, 7, 11, 12, 13, 14, 16, 17, 18, 19, 20, 21, 22, 23}, seen
    add('every verdict of a day', data)


def undone():
    """Undone batches close to a limit: nothing in them weighs afterwards."""
    day = setup([10] * 24, [(10, 0), (10, 0)], [(1, 1, 900, 900), (2, 2, 900, 900)])
    add('undone purchase has no weight',
        stream(day, OPEN, register(2, 1, 1, 2, 1, 24, 900), register(2, 1, 2, 2, 3, 3, 1), UNDO,
               register(2, 1, 2, 2, 3, 3, 901), register(2, 1, 2, 2, 3, 3, 900)),
        lines('0 0 0 0', '1 0 0 0', '2 0 1 0', '3 18 3 0', '4 0 1 0', '5 18 3 0', '6 0 1 0'))
    add('undone guarantee is put back',
        stream(day, OPEN, guarantee(1, 4), register(1, 2, 1, 1, 1, 1, 401), guarantee(1, 900), UNDO,
               register(1, 2, 1, 1, 1, 2, 501), register(1, 2, 1, 1, 1, 2, 500)),
        lines('0 0 0 0', '1 0 0 0', '2 0 0 0', '3 19 0 0', '4 0 0 0', '5 0 0 0', '6 19 0 0', '7 0 1 0'))
    add('undone confirm and withdrawal',
        stream(day, register(1, 2, 1, 1, 1, 1, 600), register(2, 1, 1, 2, 9, 9, 5), OPEN, confirm(2, 1, 1, 2, 1, 1, 600),
               withdraw(2, 2), register(2, 1, 1, 2, 9, 9, 7), OPEN, register(2, 1, 7, 2, 9, 9, 7), withdraw(2, 3), UNDO,
               register(2, 1, 1, 2, 9, 9, 7), confirm(1, 2, 1, 1, 9, 9, 5), confirm(2, 1, 1, 2, 1, 1, 600),
               register(1, 2, 4, 1, 1, 1, 300), register(1, 2, 5, 1, 2, 2, 96),
               register(1, 2, 5, 1, 2, 2, 95), UNDO),
        lines('0 0 0 0', '1 0 1 0', '2 0 2 0', '3 0 0 0', '4 0 1 0', '5 0 0 0', '6 0 3 0', '7 12 0 0', '8 0 4 0', '9 0 0 0',
              '10 0 2 0', '11 14 0 0', '12 0 2 0', '13 0 1 0', '14 0 3 0', '15 19 0 0', '16 0 4 0', '17 13 0 0'))
    add('kept batch stays', stream(day, OPEN, register(1, 2, 1, 1, 1, 1, 900), KEEP, UNDO, register(1, 2, 2, 1, 1, 1, 1), CLOSE),
        lines('0 0 0 0', '1 0 0 0', '2 0 1 0', '3 0 0 0', '4 13 0 0', '5 18 1 0', '6 0 0 0'))
    add('batch open at the end', stream(day, OPEN, CLOSE, OPEN), lines('0 0 0 0', '1 0 0 0', '2 12 0 0', '3 12 0 0'))


def by_hour():
    """Margins that differ by hour: account 1 sells nothing in hours 5 to 8, account 2 has one kWh less room in the last hour."""
    for hours in (23, 24, 25):
        outage = [20000] * 4 + [0] * 4 + [20000] * (hours - 8)
        short = [20000] * (hours - 1) + [19999]
        day = setup([10] * hours, [(AMPLE, 0), (AMPLE, 0)], [(1, 1, outage, 0), (2, 2, 0, short)])
        add('outage in hours 5 to 8 of %d' % hours,
            stream(day, register(1, 2, 1, 1, 1, hours, 1), register(1, 2, 1, 1, 5, 5, 1), register(1, 2, 1, 1, 1, hours, 20001),
                   register(1, 2, 1, 1, 8, hours, 20000), register(1, 2, 1, 1, 9, hours, 20001), register(1, 2, 1, 1, 9, hours, 20000),
                   register(1, 2, 2, 1, 1, hours, 1), register(1, 2, 2, 1, 1, 4, 20000), register(1, 2, 3, 1, 4, hours, 1)),
            lines('0 0 0 0', '1 18 5 0', '2 18 5 0', '3 18 1 0', '4 18 8 0', '5 18 9 0', '6 0 1 0', '7 18 5 0', '8 0 2 0', '9 18 4 0'))
        add('one short in hour %d' % hours,
            stream(day, register(2, 1, 1, 2, 1, hours, 20000), register(1, 2, 1, 1, 9, hours, 20000), confirm(2, 1, 1, 2, 9, hours, 20000),
                   register(2, 1, 1, 2, 1, hours, 19999), register(2, 1, 2, 2, 1, hours - 1, 1), withdraw(2, 2), withdraw(2, 3),
                   withdraw(1, 1), register(1, 2, 1, 1, 9, hours, 19999), confirm(2, 1, 1, 2, 9, hours, 19999),
                   register(1, 2, 2, 1, 9, hours, 1), confirm(2, 1, 2, 2, 9, hours, 1), register(1, 2, 3, 1, hours, hours, 1)),
            lines('0 0 0 0', '1 18 %d 0' % hours, '2 0 1 0', '3 18 %d 0' % hours, '4 0 2 0', '5 0 3 0', '6 0 0 0', '7 0 0 0', '8 0 0 0',
                  '9 0 4 0', '10 0 4 0', '11 0 5 0', '12 18 %d 0' % hours, '13 18 %d 0' % hours))
    # lower and upper are far apart, and each party is close to a margin in an hour of its own
    day = setup([10] * 24, [(AMPLE, 0), (AMPLE, 0)], [(1, 1, [900] * 2 + [50] + [900] * 21, [7] * 24),
                                                      (2, 2, [3] * 24, [800] * 6 + [40] + [800] * 17)])
    add('both parties close to a margin',
        stream(day, register(1, 2, 1, 1, 1, 24, 51), register(1, 2, 1, 1, 1, 24, 50), confirm(2, 1, 1, 2, 1, 24, 50), withdraw(1, 1),
               register(1, 2, 1, 1, 1, 24, 40), confirm(2, 1, 1, 2, 1, 24, 40), register(1, 2, 2, 1, 3, 3, 11),
               register(1, 2, 2, 1, 3, 3, 10), confirm(2, 1, 2, 2, 3, 3, 10), register(1, 2, 3, 2, 4, 24, 48),
               register(1, 2, 3, 2, 4, 24, 47), confirm(2, 1, 3, 1, 4, 24, 47), register(1, 2, 4, 2, 4, 24, 43),
               withdraw(1, 4), register(1, 2, 4, 2, 4, 24, 43), confirm(2, 1, 4, 1, 4, 24, 43)),
        lines('0 0 0 0', '1 18 3 0', '2 0 1 0', '3 18 7 0', '4 0 0 0', '5 0 2 0', '6 0 2 0', '7 18 3 0', '8 0 3 0', '9 0 3 0',
              '10 18 4 0', '11 0 4 0', '12 18 4 0', '13 18 4 0', '14 0 0 0', '15 0 5 0', '16 0 5 0'))
    # one hour filled by pending rows, freed by a withdrawal and by an undo
    day = setup([10] * 24, [(AMPLE, 0), (AMPLE, 0)], [(1, 1, [900] * 11 + [30] + [900] * 12, 0), (2, 2, 0, 900)])
    add('one hour filled and freed',
        stream(day, register(1, 2, 1, 1, 11, 13, 20), register(1, 2, 2, 1, 12, 12, 10), register(1, 2, 3, 1, 1, 24, 1),
               register(1, 2, 3, 1, 1, 11, 1), withdraw(1, 2), register(1, 2, 4, 1, 12, 24, 11), OPEN,
               register(1, 2, 4, 1, 12, 24, 10), register(1, 2, 5, 1, 12, 12, 1), UNDO, register(1, 2, 5, 1, 12, 12, 10),
               register(1, 2, 6, 1, 12, 12, 1)),
        lines('0 0 0 0', '1 0 1 0', '2 0 2 0', '3 18 12 0', '4 0 3 0', '5 0 0 0', '6 18 12 0', '7 0 0 0', '8 0 4 0', '9 18 12 0',
              '10 0 1 0', '11 0 4 0', '12 18 12 0'))
    # set-ups: 24 hours, the accounts from 121 and 315, lower margins 2 bytes on, upper ones 98
    for account, place, at in ((0, 2, 123), (0, 3, 219), (1, 2, 317), (1, 3, 413)):
        for hour in (1, 12, 24):
            accounts = [[1, 1, [5] * 24, [6] * 24], [2, 2, [7] * 24, [8] * 24]]
            accounts[account][place][hour - 1] = 10 ** 7
            add('the greatest margin', stream(setup([10] * 24, [(AMPLE, 0), (AMPLE, 0)], accounts), UNDO), lines('0 0 0 0', '1 13 0 0'))
            accounts[account][place][hour - 1] += 1
            add('a margin too great', stream(setup([10] * 24, [(AMPLE, 0), (AMPLE, 0)], accounts), UNDO),
                lines('0 9 %d 0' % (at + 4 * (hour - 1))))
    add('one pair of margins for all hours', stream(small()[:121] + bytes(20) + small()[-11:], UNDO), '0 8 0 0\n')
    add('an account too few', stream(small()[:315] + small()[-11:], UNDO), '0 8 0 0\n')


def strips():
    """Strips as items: the whole case with its sale in two rows, every count, and a fault in every place of 24 rows."""
    def sells(code, quantity, first=1, last=1):
        return register(1, 2, code, 1, first, last, quantity)

    two = strip(sells(1, 10000), sells(2, 8000))
    takes = [confirm(2, 1, 1, 2, 1, 1, 10000), confirm(2, 1, 2, 2, 1, 1, 8000)]
    add('whole case, sold in a strip', stream(small(), two, *takes, *WHOLE[3:]),
        lines('0 0 0 0', '1 0 1 0', '2 0 1 0', '3 0 2 0', '4 0 0 0', '5 0 1 0', '6 0 0 0', *WHOLE_TEXT.split('\n')[6:9], 't 82500000'))
    add('18,001 in a strip is 19', stream(small(), strip(sells(1, 10000), sells(2, 8001)), two, two, strip(sells(3, 1))),
        lines('0 0 0 0', '1 19 0 0', '2 0 1 0', '3 14 0 0', '4 19 0 0'))
    ample = small(24, AMPLE, 100)
    add('20,001 in a strip is 18',
        stream(ample, strip(sells(1, 20000, 2, 3), sells(2, 1, 3, 3)), strip(sells(1, 20000, 2, 3), sells(2, 1, 4, 4))),
        lines('0 0 0 0', '1 18 3 0', '2 0 1 0'))
    # an item whose third byte is 11 is a record as a whole, whatever its map says
    prices = first_hour(24, 6000, 5500)
    add('strips are not split',
        stream(ample, bare(11) + prices, b'\x03\x01\x0b' + prices, b'\x00\x00\x0b' + prices, b'\xff\x00\x0b' + prices,
               two + prices, bare(11), strip(), two[:-1], bare(14) + two[3:]),
        lines('0 0 0 0', '1 5 0 0', '2 4 0 2', '3 2 0 0', '4 4 0 7', '5 5 0 0', '6 5 0 0', '7 21 0 0', '8 5 0 0', '9 3 0 0'))
    add('a strip cut short', stream(ample, two)[:-1], lines('0 0 0 0', 'cut 1'))
    # every count from 0 to 30, with so many rows; then the greatest
    items, text, row = [ample], ['0 0 0 0'], 1
    for count in (*range(31), 64, 255):
        items.append(strip(*(sells(1000 * count + place, 1) for place in range(count))))
        taken = 0 < count <= 24 and row + count <= 257
        text.append('%d %s 0' % (len(items) - 1, '0 %d' % row if taken else '15 0' if 0 < count <= 24 else '21 0'))
        row += count if taken else 0
    # those of 1 to 22 have 253 rows together: three are left
    four = [sells(code, 1) for code in range(4)]
    add('strips of every count', stream(*items, strip(*four), strip(*four[:3]), strip(*four[3:]), strip(*four[2:])),
        lines(*text, '34 15 0 0', '35 0 254 0', '36 15 0 0', '37 14 0 0'))
    day = setup([10] * 24, [(10, 0), (10, 0)], [(1, 1, 900, 900), (2, 2, 900, 900)])
    add('an undone strip has no weight',
        stream(day, OPEN, strip(sells(1, 400), sells(2, 600)), strip(sells(1, 400), sells(2, 500), register(1, 2, 3, 2, 1, 1, 900)), SELL,
               UNDO, strip(sells(1, 400), sells(2, 501)), strip(sells(1, 400), sells(2, 500)), OPEN, withdraw(1, 1),
               strip(sells(1, 200), sells(3, 201)), strip(sells(1, 200), sells(3, 200)), KEEP, UNDO, confirm(2, 1, 3, 2, 1, 1, 200), CLOSE,
               strip(sells(1, 1))),
        lines('0 0 0 0', '1 0 0 0', '2 18 1 0', '3 0 1 0', '4 18 1 0', '5 0 3 0', '6 18 1 0', '7 0 1 0', '8 0 0 0', '9 0 0 0',
              '10 18 1 0', '11 0 3 0', '12 0 0 0', '13 13 0 0', '14 0 4 0', '15 0 0 0', '16 11 0 0'))
    # 3, 6, 14, 22 and 18 in each place of 24
    items, text = [strip_days.TIGHT, strip_days.row(7)], ['0 0 0 0', '1 0 1 0']
    for which in (1, 3, 5, 6, 7):
        for place in range(1, 25):
            record, want = strip_days.faulty_strip(24, place, which)
            text.append('%d %d %d %d' % (len(items), *want))
            items.append(record)
    add('a fault in every place of a strip', stream(*items), lines(*text))


def asks():
    """Asks and commits as items: the whole case, the record as a whole, what clears an ask, batches, and the last number."""
    terms = (1, 2, 0, 1, 1, 1, 18000)
    add('whole case, asked for and committed', stream(small(), ask(*terms), commit(*terms), *WHOLE[2:]),
        lines('0 0 0 0', '1 0 1 0', '2 0 1 0', '3 0 1 0', '4 0 0 0', '5 0 1 0', '6 0 0 0', *WHOLE_TEXT.split('\n')[6:9], 't 82500000'))
    more = (1, 2, 0, 1, 1, 1, 18001)
    add('asking for 18,001 is 19',
        stream(small(), commit(*terms), ask(*more), commit(*more), ask(*terms), ask(*more), commit(*terms), ask(*terms)),
        lines('0 0 0 0', '1 23 0 0', '2 19 0 0', '3 23 0 0', '4 0 1 0', '5 19 0 0', '6 0 1 0', '7 14 0 0'))
    ample = small(24, AMPLE, 100)
    add('asking for 20,001 is 18',
        stream(ample, ask(1, 2, 0, 1, 1, 24, 20001), ask(1, 2, 0, 1, 3, 24, 20000), commit(1, 2, 0, 1, 3, 24, 20000),
               ask(1, 2, 1, 1, 1, 24, 1), ask(1, 2, 1, 1, 1, 2, 1), commit(1, 2, 1, 1, 1, 2, 1)),
        lines('0 0 0 0', '1 18 1 0', '2 0 1 0', '3 0 1 0', '4 18 3 0', '5 0 2 0', '6 0 2 0'))
    # an item whose third byte is 12 or 13 is a record as a whole, whatever its map says
    prices = first_hour(24, 6000, 5500)
    one = (1, 2, 5, 1, 1, 1, 1)
    for make in (ask, commit):
        kind = make(*one)[2:3]
        add('kind %d is not split' % kind[0],
            stream(ample, ask(*one), make(*one) + prices, b'\x01\x00' + kind + prices, b'\x00\x00' + kind + prices,
                   b'\xff\x20' + kind + prices, b'\xff\x01' + kind + prices, b'\xff\x00' + kind, make(*one)[:-1],
                   make(1, 2, 5, 1, 1, 25, 1), make(2, 2, 5, 1, 1, 1, 1), make(*one)),
            lines('0 0 0 0', '1 0 1 0', '2 5 0 0', '3 4 7 0', '4 2 0 0', '5 2 0 0', '6 4 0 1', '7 5 0 0', '8 5 0 0', '9 6 6 0', '10 7 0 0',
                  '11 0 1 0'))
        add('kind %d cut short' % kind[0], stream(ample, make(*one))[:-1], lines('0 0 0 0', 'cut 1'))
    # each accepted kind clears: the ask's number, the call and what it gives; the commit after it is 23
    clearing = ((1, register(2, 1, 8, 2, 1, 1, 7), 1), (2, confirm(1, 2, 8, 1, 1, 1, 7), 1), (2, guarantee(2, 0), 0), (2, OPEN, 0),
                (2, KEEP, 0), (2, OPEN, 0), (2, UNDO, 0), (2, strip(register(2, 1, 9, 2, 2, 2, 7), register(2, 1, 10, 2, 2, 2, 7)), 2),
                (4, withdraw(2, 3), 0), (4, CLOSE, 0))
    items, text = [ample], ['0 0 0 0']
    for number, record, given in clearing:
        at = len(items)
        items += [ask(*one), record, commit(*one)]
        text += ['%d 0 %d 0' % (at, number), '%d 0 %d 0' % (at + 1, given), '%d %d 0 0' % (at + 2, 11 if record == CLOSE else 23)]
    add('every accepted kind clears asks', stream(*items), lines(*text))
    # no refused kind does
    refused = ((register(2, 1, 8, 2, 1, 1, 20001), '18 1'), (confirm(2, 1, 5, 2, 1, 1, 1), '16 0'), (withdraw(1, 99), '16 0'),
               (guarantee(3, 0), '6 9'), (UNDO, '13 0'), (KEEP, '13 0'), (OPEN + b'\x00', '5 0'), (CLOSE + b'\x00', '5 0'),
               (strip(), '21 0'), (schedule(1, 1, 1, 1, 1), '11 0'), (SETTLE + prices, '11 0'), (ask(1, 2, 6, 1, 1, 1, 20001), '18 1'),
               (commit(1, 2, 6, 1, 1, 1, 1), '23 0'), (bare(14), '3 0'), (b'', '2 0'))
    items, text = [ample], ['0 0 0 0']
    for number, (record, given) in enumerate(refused, 1):
        one = (1, 2, 100 + number, 1, 1, 1, 1)
        text += ['%d 0 %d 0' % (len(items), number), '%d %s 0' % (len(items) + 1, given), '%d 0 %d 0' % (len(items) + 2, number)]
        items += [ask(*one), record, commit(*one)]
    add('no refused kind clears asks', stream(*items), lines(*text))
    # both accounts are given the same number, and one commit clears the other's ask
    one, two = (1, 2, 1, 1, 1, 1, 5), (2, 1, 1, 2, 1, 1, 5)
    add('two accounts ask, one commits',
        stream(ample, ask(*one), ask(*two), commit(*two), commit(*one), ask(*one), ask(2, 1, 2, 2, 1, 1, 5), commit(*one),
               commit(2, 1, 2, 2, 1, 1, 5)),
        lines('0 0 0 0', '1 0 1 0', '2 0 1 0', '3 0 1 0', '4 23 0 0', '5 0 2 0', '6 0 2 0', '7 0 2 0', '8 23 0 0'))
    # an undone batch beside an empty kept one, and nothing in its place
    one, two = (1, 2, 1, 1, 1, 1, 900), (1, 2, 2, 1, 1, 1, 900)
    day = setup([10] * 24, [(10, 0), (10, 0)], [(1, 1, 900, 900), (2, 2, 900, 900)])
    add('an undone batch clears asks, and its own have no weight',
        stream(day, ask(*one), OPEN, commit(*one), ask(*two), commit(*two), ask(*one), UNDO, commit(*one), ask(*one), commit(*one)),
        lines('0 0 0 0', '1 0 1 0', '2 0 0 0', '3 23 0 0', '4 0 1 0', '5 0 1 0', '6 18 1 0', '7 0 1 0', '8 23 0 0', '9 0 1 0', '10 0 1 0'))
    add('an empty kept batch clears asks', stream(day, ask(*one), OPEN, KEEP, commit(*one), ask(*one), commit(*one)),
        lines('0 0 0 0', '1 0 1 0', '2 0 0 0', '3 0 0 0', '4 23 0 0', '5 0 1 0', '6 0 1 0'))
    add('without a batch the commit passes', stream(day, ask(*one), commit(*one), ask(*one), commit(*one)),
        lines('0 0 0 0', '1 0 1 0', '2 0 1 0', '3 14 0 0', '4 23 0 0'))
    # every row asked for and committed, up to the last
    items, text = [ample], ['0 0 0 0']
    for number in range(1, 257):
        one = (1, 2, number, 1, 1, 1, 1)
        text += ['%d 0 %d 0' % (len(items), number), '%d 0 %d 0' % (len(items) + 1, number)]
        items += [ask(*one), commit(*one)]
    one = (1, 2, 999, 1, 1, 1, 1)
    add('row 256 is asked for, 257 is 15', stream(*items, ask(*one), commit(*one), withdraw(1, 9), ask(*one)),
        lines(*text, '513 15 0 0', '514 23 0 0', '515 0 0 0', '516 15 0 0'))


def full_day():
    """256 rows, then 256 schedules, settled."""
    market = setup([0] * 25, [(0, 0), (0, 0), (0, 1000)], [(1, 1, 5000, 0), (2, 2, 0, 5000), (3, 2, 0, 5000)],
                   [(1, 1, 1, 300, 0), (2, 2, 2, 0, 100), (3, 3, 2, 10, 120), (1, 3, 2, 50, 10)], 2)
    items = [market]
    for row in range(128):
        buyer, hour = 2 + row % 2, 1 + row % 25
        items += [register(1, buyer, row, 1, hour, 25, 1 + row % 4), confirm(buyer, 1, row, 2, hour, 25, 1 + row % 4)]
        items += [register(buyer, 1, row, 2, hour, hour, 5)]
    items += [register(2, 1, 999, 2, 1, 1, 1), CLOSE]
    for place in range(257):
        point = 1 + place % 4
        side = 1 if point in (1, 4) else 2
        items.append(schedule(side, 1 + place * 7 % 25, 1 + place % 40, point, 40 + place % 13))
    items.append(SETTLE + table(*[[44 + (hour * zone) % 9 for hour in range(25)] for zone in range(1, 4)]))
    text = replay(stream(*items))
    assert '384 0 256 0\n' in text and '385 15 0 0\n386 0 0 0\n' in text and '642 0 256 0\n643 20 0 0\n644 0 0 0\n' in text
    assert {line[-1] for line in text.split('\n') if line.startswith('s ')} == set('0123')
    add('256 rows and 256 schedules', stream(*items))


def long_day():
    """65,536 bytes exactly, thousands of items."""
    items = [small()]
    size = len(stream(*items))
    turn = 0
    parts = (OPEN, SELL, UNDO, b'', KEEP, bare(0), withdraw(1, 1), OPEN, b'\x01\x00', OPEN, KEEP, guarantee(2, 7))
    while True:
        item = parts[turn % len(parts)]
        rest = STREAM_BYTES - size - 2 - len(item)
        if rest < 40:
            break
        items.append(item)
        size += 2 + len(item)
        turn += 1
    items.append(bytes(STREAM_BYTES - size - 2))
    data = stream(*items)
    assert len(data) == STREAM_BYTES and len(items) > 5000
    add('65,536 bytes', data)
    add('65,537 bytes', data + b'\x00', 'long\n')


def random_streams():
    for seed in range(401, 407):
        opening, calls = random_days.random_day(Days(), seed)
        add('random day %d' % seed, stream(opening, *(call[0] + call[1] for call in calls)))
    for seed in range(413, 419):
        opening, calls = random_days.random_day(Days(), seed, True)
        add('random day %d, margins by hour' % seed, stream(opening, *(call[0] + call[1] for call in calls)))
    for seed in range(419, 423):
        opening, calls = random_days.random_day(Days(), seed, seed % 2 == 0, 0.15)
        add('random day %d, many strips' % seed, stream(opening, *(call[0] + call[1] for call in calls)))
    for seed in range(425, 430):
        opening, calls = random_days.random_day(Days(), seed, seed % 2 == 0, asked=0.3)
        add('random day %d, many asks' % seed, stream(opening, *(call[0] + call[1] for call in calls)))
    assert all(len(data) <= STREAM_BYTES for name, data, _ in STREAMS if name.startswith('random'))


for part in (edges, forms, verdicts, undone, by_hour, strips, asks, full_day, long_day, random_streams):
    part()


def write():
    program = pathlib.Path(__file__).parents[2] / 'crates' / 'replay_test'
    given = b''.join(b'd' + le(len(data), 4) + data for _, data, _ in STREAMS)
    printed = ''.join('day %d\n' % place + text for place, (_, _, text) in enumerate(STREAMS, 1))
    (program / 'stdin').write_bytes(given)
    (program / 'stdout').write_bytes(printed.encode())


if __name__ == '__main__':
    write()
    print(len(STREAMS), 'streams')
