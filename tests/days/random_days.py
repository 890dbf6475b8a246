"""Random days near limits, checked against the ledger and against the list with an empty kept batch for each undone one.

In some the margins of an account are the same in every hour, in others they differ by hour. Now and then a call is a strip
or an ask; while asks stand, half the calls are commits and further asks.
"""
import copy
import random

import asks
import reading
import records as w

SEEDS = range(301, 323)
SEEDS_BY_HOUR = range(331, 341)
STRIPS = 0.012
ASKS = 0.05


def hour_by_hour(chance, margin, hours):
    """Margins close to the given one, but 0 in a run of hours: an outage."""
    each = [max(0, margin + chance.choice((-3, -1, 0, 0, 1, 2))) for _ in range(hours)]
    first = chance.randrange(hours)
    last = min(hours, first + chance.choice((0, 1, 2, 4, 6)))
    return each[:first] + [0] * (last - first) + each[last:]


def opening(chance, differing):
    hours = chance.choice((23, 24, 25))
    operators = chance.randrange(1, 5)
    zones = chance.randrange(1, 4)
    accounts = [(chance.randrange(1, operators + 1), chance.choice((1, 2)), chance.choice((40, 100, 200, 300)),
                 chance.choice((0, 60, 200, 400))) for _ in range(chance.randrange(2, 7))]
    if differing:
        accounts = [(operator, kind, hour_by_hour(chance, lower, hours), hour_by_hour(chance, upper, hours))
                    for operator, kind, lower, upper in accounts]
    points = []
    for _ in range(chance.choice((0, 3, 5, 7, 9, 12))):
        account = chance.randrange(len(accounts))
        kind = chance.choice((accounts[account][1], 3))
        points.append((account + 1, kind, chance.randrange(1, zones + 1), 0 if kind == 2 else chance.choice((0, 30, 90)),
                       0 if kind == 1 else chance.choice((0, 25, 90))))
    estimates = [chance.choice((0, 7, 10, 13)) for _ in range(hours)]
    guarantees = [(chance.choice((0, 2, 10, 25, 10 ** 12)), chance.choice((0, 100, 333))) for _ in range(operators)]
    return w.setup(estimates, guarantees, accounts, points, zones)


def near(chance, value):
    """The value, one beside it, or anything below."""
    value += chance.choice((-1, 0, 0, 1, 1))
    return max(1, value if chance.random() < 0.8 else chance.randrange(1, max(2, value + 1)))


def hours_of(chance, hours):
    first = chance.choice((1, 1, 2, hours - 1, hours, chance.randrange(1, hours + 1)))
    last = chance.choice((first, min(first + 1, hours), hours))
    return first, last


def room_of(book, account, side, first, last, rows=None):
    """The greatest quantity that the account's margins leave for a sale or a purchase, with these rows in place of the book's."""
    net, sales, buys = reading.position(book, book.rows if rows is None else rows, account)
    has = book.accounts[account - 1]
    hours = range(first - 1, last)
    if side == 1:
        return min(net[h] - sales[h] + has.lower[h] for h in hours)
    return min(has.upper[h] - net[h] - buys[h] for h in hours)


def register(chance, book, differing):
    account, other = chance.sample(range(1, len(book.accounts) + 1), 2)
    side = chance.choice((1, 2))
    first, last = hours_of(chance, book.hours)
    room = room_of(book, account, side, first, last)
    if side == 1:
        operator = book.accounts[account - 1].operator
        price = sum(book.estimates[first - 1:last])
        left = book.available(operator) - reading.exposure_of(book, book.rows, operator)
        if price and chance.random() < 0.8:
            room = min(room, left // price)
    if differing and chance.random() < 0.5:
        # what the other party could just confirm, where it can confirm anything
        room = min(room, max(1, room_of(book, other, 3 - side, first, last)))
    elif chance.random() < 0.5:
        room //= 2
    return w.register(account, other, chance.randrange(4), side, first, last, near(chance, room))


def backed(book, rows, account, first, last):
    """The greatest sale that the guarantee leaves, or None where the estimates are 0."""
    operator = book.accounts[account - 1].operator
    price = sum(book.estimates[first - 1:last])
    left = book.available(operator) - reading.exposure_of(book, rows, operator)
    return left // price if price else None


def strip(chance, book):
    """Rows of one account that together come close to what its margins and its guarantee leave; at times one of them is spoilt."""
    account = chance.randrange(1, len(book.accounts) + 1)
    others = [other for other in range(1, len(book.accounts) + 1) if other != account]
    count = chance.choice((1, 2, 2, 3, 3, 4, 6))
    records, rows = [], list(book.rows)
    codes = chance.sample(range(16), count) if chance.random() < 0.9 else [chance.randrange(3) for _ in range(count)]
    for place, code in enumerate(codes, 1):
        side = chance.choice((1, 2))
        first, last = hours_of(chance, book.hours)
        room = room_of(book, account, side, first, last, rows)
        most = backed(book, rows, account, first, last) if side == 1 else None
        if most is not None and chance.random() < 0.9:
            room = min(room, most)
        quantity = max(1, room // (count + 1)) if place < count else near(chance, room)
        records.append(w.register(account, chance.choice(others), code, side, first, last, quantity))
        rows.append(reading.row_of(reading.read_record(records[-1])[1]))
    if chance.random() < 0.15:
        place = chance.randrange(count)
        records[place] = spoilt(chance, records[place])
    return w.strip(*records)


def spoilt(chance, record):
    """A row with another map, kind, account, counterparty or quantity."""
    data = bytearray(record)
    place = chance.choice((0, 1, 2, 3, 3, 4, 16))
    data[place] = data[3] if place == 4 else 0 if place == 16 else data[place] ^ (1 << chance.randrange(8))
    return bytes(data)


def of_kind(kind, record):
    return record[:2] + bytes([kind]) + record[3:]


def ask(chance, book, differing):
    return of_kind(asks.ASK, register(chance, book, differing))


def commit(chance, book, differing):
    """Mostly of an ask that stands; at times one field differs, or none stands."""
    if not book.asks:
        return of_kind(asks.COMMIT, register(chance, book, differing))
    terms = list(book.asks[chance.choice(sorted(book.asks))][:7])
    if chance.random() < 0.2:
        place = chance.randrange(7)
        if place == 2:
            at = chance.randrange(8)
            terms[2] = terms[2][:at] + bytes([terms[2][at] ^ 1 << chance.randrange(8)]) + terms[2][at + 1:]
        else:
            terms[place] = 3 - terms[3] if place == 3 else max(0, terms[place] + chance.choice((-1, 1)))
    return w.commit(*terms)


def ask_or_commit(chance, book, differing):
    if chance.random() < (0.7 if book.asks else 0.1):
        return commit(chance, book, differing)
    return ask(chance, book, differing)


def as_register(book, record):
    """What the register of an ask's fields would be answered, on a copy."""
    return reading.call(copy.copy(book), of_kind(1, record))


def confirm(chance, book):
    pending = [row for row in book.rows if row.status == reading.PENDING]
    if not pending:
        return w.confirm(2, 1, 0, 2, 1, 1, 1)
    row = chance.choice(pending)
    terms = [row.other, row.account, row.code, 3 - row.side, row.first, row.last, row.quantity]
    if chance.random() < 0.12:
        place = chance.randrange(7)
        if place == 2:
            terms[2] = bytes(8)
        elif place == 6:
            terms[6] += 1
        else:
            terms[place] = max(0, terms[place] + chance.choice((-1, 1)))
    return w.confirm(*terms)


def withdraw(chance, book):
    pending = [place for place, row in enumerate(book.rows, 1) if row.status == reading.PENDING]
    if not pending or chance.random() < 0.15:
        return w.withdraw(chance.randrange(1, len(book.accounts) + 1), chance.randrange(1, len(book.rows) + 2))
    number = chance.choice(pending)
    return w.withdraw(book.rows[number - 1].account, number)


def guarantee(chance, book):
    operator = chance.randrange(1, len(book.guarantees) + 1)
    exposed = reading.exposure_of(book, book.rows, operator)
    cents = -(-exposed // (1000 - book.maintenance[operator - 1]))
    return w.guarantee(operator, max(0, cents + chance.choice((-1, -1, 0, 0, 0, 1, 2, 20))))


def damaged(chance, record):
    data = bytearray(record)
    how = chance.randrange(4)
    if how == 0:
        data = data[:chance.randrange(len(data))]
    elif how == 1:
        data += bytes(chance.randrange(1, 4))
    else:
        data[chance.randrange(len(data))] ^= 1 << chance.randrange(8)
    return bytes(data)


def schedule(chance, book):
    """Mostly on a point, hour and side that have room, in parts of it."""
    point, side, hour = 1, chance.choice((1, 2)), chance.choice((1, 2, book.hours - 1, book.hours))
    quantity = chance.randrange(1, 40)
    if not book.points:
        return w.schedule(side, hour, quantity, point, 50)
    if chance.random() < 0.2:
        point = chance.randrange(1, len(book.points) + 1)
        return w.schedule(side, hour, quantity, point, chance.randrange(48, 53))
    room = []
    for place, has in enumerate(book.points, 1):
        net = reading.position(book, book.rows, has.account)[0]
        for at in (0, 1, 2, book.hours // 2, book.hours - 2, book.hours - 1):
            most = min(-net[at], has.injection) if net[at] < 0 else min(net[at], has.withdrawal)
            if most:
                room.append((place, at + 1, 1 if net[at] < 0 else 2, most))
    if room:
        point, hour, side, most = chance.choice(room[:12])
        quantity = near(chance, most // chance.choice((1, 2, 3, 5)))
    return w.schedule(side, hour, quantity, point, chance.randrange(48, 53))


def trade_record(chance, book, differing):
    turn = chance.random()
    if turn < 0.42:
        return register(chance, book, differing)
    if turn < 0.70:
        return confirm(chance, book)
    if turn < 0.80:
        return withdraw(chance, book)
    if turn < 0.88:
        return guarantee(chance, book)
    if turn < 0.93:
        return w.OPEN
    if turn < 0.965:
        return w.UNDO
    if turn < 0.98:
        return w.KEEP
    if turn < 0.983 and book.saved is not None:
        return w.CLOSE
    return chance.choice((w.schedule(1, 1, 1, 1, 1), w.SETTLE, register(chance, book, differing)))


def random_day(d, seed, differing=False, strips=STRIPS, asked=ASKS):
    """A day of the seed; `strips` and `asked` are the shares of strips and of asks among the calls before the gate."""
    chance = random.Random(seed)
    # strips and asks have a chance of their own: whatever their share, the opening and the number of calls are the seed's;
    # so has the reading of hourly exposures
    apart, quoting, hourly = random.Random(seed + 1000), random.Random(seed + 2000), random.Random(seed + 3000)
    setup = opening(chance, differing)
    d.o(setup)
    ledger = reading.Ledger(setup)
    calls, verdicts, promised = [], [], {}

    def do(record, table=b'', results=0, balances=0):
        if chance.random() < 0.04:
            record = damaged(chance, record)
        if chance.random() < 0.03:
            d.k()
        standing = dict(d.book.asks)
        register_gives = as_register(d.book, record) if record[2:3] == bytes([asks.ASK]) else None
        verdict, first, second = d.c(record, None, table, results, balances)
        hold_asks(record, verdict, standing, register_gives)
        if verdict[0] and chance.random() < 0.02:
            d.same(int(d.state() == d.remembered))
        ledger.feed(record, verdict[0] == 0)
        calls.append((record, table, results, balances))
        verdicts.append((verdict, first, second))
        return verdict[0]

    def hold_asks(record, verdict, standing, register_gives):
        """An ask is answered as its register, a commit as its ask; the asks that stand could be registered."""
        assert register_gives in (None, verdict)
        if verdict[0] == 0 and record[2] == asks.ASK:
            standing[record[3]] = reading.row_of(reading.read_record(record)[1])
            promised[record[3:]] = verdict
        elif verdict[0] == 0:
            assert record[2] != asks.COMMIT or verdict == promised[record[3:]]
            standing.clear()
            promised.clear()
        assert d.book.asks == standing == asks.standing(d.book, asks.image(d.book))

    def look(times):
        for _ in range(times):
            d.a(chance.randrange(1, len(d.book.accounts) + 1), chance.randrange(1, d.book.hours + 1))
            d.e(chance.randrange(1, len(d.book.guarantees) + 1))
        # some hours of an operator, at times one too many
        first = hourly.randrange(1, d.book.hours + 1)
        d.i(hourly.randrange(1, len(d.book.guarantees) + 1), first, first + hourly.choice((0, 1, 2, 5)))

    for step in range(chance.randrange(150, 420)):
        if quoting.random() < (0.5 if d.book.asks else asked):
            do(ask_or_commit(quoting, d.book, differing))
        else:
            do(strip(apart, d.book) if apart.random() < strips else trade_record(chance, d.book, differing))
        if step % 60 == 30:
            look(3)
            ledger.check(d.book)
        if d.book.phase != 1:
            break
    while d.book.phase == 1:
        do(chance.choice((w.UNDO, w.KEEP, w.CLOSE, w.CLOSE)))
    look(4)
    for _ in range(chance.randrange(20, 90)):
        do(schedule(chance, d.book))
    prices = w.table(*[[chance.randrange(48, 53) for _ in range(d.book.hours)] for _ in range(1 + d.book.zones)])
    while d.book.phase == 2:
        full, owed = len(d.book.schedules), 8 * len(d.book.guarantees)
        do(w.SETTLE, chance.choice((prices, prices, prices[4:])), max(0, full + chance.choice((-1, 0, 3))),
           owed + chance.choice((-1, 0, 9)))
    money = [int.from_bytes(verdicts[-1][2][at:at + 8], 'little', signed=True)
             for at in range(0, 8 * len(d.book.guarantees), 8)]
    ledger.check(d.book)
    ledger.check_total(d.book, reading.read_prices(prices), money)
    do(w.SETTLE, prices, 512, 512)
    do(trade_record(chance, d.book, differing))
    if seed % 4 == 0:
        do(strip(apart, d.book))
    if seed % 10 == 0:
        d.read_all()
    # with an empty kept batch in the place of every undone one: the same answers outside it, the same book
    plain = reading.open_book(setup)[1]
    kept = []
    for record, place in reading.matched([c[0] for c in calls], [v[0] for v in verdicts]):
        _, table, results, balances = calls[place] if place is not None else (record, b'', 0, 0)
        want = verdicts[place] if place is not None else ((0, 0, 0), b'', b'')
        first, second = bytearray(b'\xaa' * results), bytearray(b'\xaa' * balances)
        verdict = reading.call(plain, record, table, first, second)
        assert (verdict, bytes(first), bytes(second)) == want
        kept.append((record, want[0], table, results, balances))
    assert plain.state() == d.book.state()
    d.k()
    if seed % 3 == 0:
        # the same day in the cases, with its undone batches so replaced
        d.o(setup)
        for call in kept:
            d.c(*call)
        d.same(1)
    return setup, calls


DAYS = (tuple((lambda d, seed=seed: random_day(d, seed)) for seed in SEEDS)
        + tuple((lambda d, seed=seed: random_day(d, seed, True)) for seed in SEEDS_BY_HOUR))
