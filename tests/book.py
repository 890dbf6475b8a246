"""A reading of what a book is: the layout of docs/LAYOUT.md, and document 01's sentence "Bytes are a book exactly when ...".

Owes nothing to the proved code. A row, a schedule and an entry of the set-up are names with values.
"""
from document import ACCEPTED, COUNT_RANGES, ESTIMATE, OPERATOR, POINT, account_shape, entries_of, low_first, setup_verdict

BOOK = 49_152
PHASE, FLAG, SCHEDULE_COUNT, SCHEDULES, PRESENT, SAVED, ASKS, SPARE = 8_192, 8_193, 8_194, 8_196, 11_012, 18_950, 26_888, 27_464
ROW_COUNT, ROWS, NETS = 128, 130, 4_738      # within a part
ROW = (("account", 1), ("other", 1), ("code", 8), ("side", 1), ("first", 1), ("last", 1), ("quantity", 4), ("status", 1))
SCHEDULE = (("point", 1), ("side", 1), ("hour", 1), ("quantity", 4), ("price", 4))
PENDING, CONFIRMED, WITHDRAWN = 1, 2, 3
SELLS, BUYS = 1, 2


def width_of(shape):
    return sum(width for name, width in shape)


def within(shape, wanted):
    """Where a field stands in its shape."""
    names = [name for name, width in shape]
    return width_of(shape[:names.index(wanted)])


def margin_at(setup, account, bound, hour):
    """Where a margin stands in the set-up of a book."""
    shape = account_shape(setup.hours)
    return setup.accounts_at + width_of(shape) * (account - 1) + within(shape, (bound, hour))


def guarantee_at(part, operator):
    return part + 8 * (operator - 1)


def row_at(part, number, field):
    return part + ROWS + 18 * (number - 1) + within(ROW, field)


def net_at(part, account, hour):
    return part + NETS + 100 * (account - 1) + 4 * (hour - 1)


def schedule_at(place, field):
    return SCHEDULES + 11 * (place - 1) + within(SCHEDULE, field)


def ask_at(account, field):
    return ASKS + 18 * (account - 1) + within(ROW, field)


class Setup:
    """The entries of set-up bytes that opening accepts, guarantees aside."""

    def __init__(self, setup):
        self.hours, self.operator_count, self.account_count, self.point_count, self.zones = setup[:5]
        at, found = 5, []
        for count, shape in zip(setup, (ESTIMATE, OPERATOR, account_shape(self.hours), POINT)):
            entries, at = entries_of(setup, at, count, shape)
            found.append([{name: value for name, (offset, value) in entry.items()} for entry in entries])
        self.estimates, self.operators, self.accounts, self.points = found
        self.operators_at = 5 + 4 * self.hours
        self.accounts_at = self.operators_at + 10 * self.operator_count
        self.size = at


class Totals:
    """Net, and the account's own pending sales and purchases, by account and hour."""

    def __init__(self, rows):
        self.net, self.sales, self.purchases = {}, {}, {}
        for row in rows:
            for hour in range(row["first"], row["last"] + 1):
                own, quantity = (row["account"], hour), row["quantity"]
                if row["status"] == CONFIRMED:
                    sign = -1 if row["side"] == SELLS else 1
                    self.add(self.net, own, sign * quantity)
                    self.add(self.net, (row["other"], hour), -sign * quantity)
                if row["status"] == PENDING:
                    self.add(self.sales if row["side"] == SELLS else self.purchases, own, quantity)

    @staticmethod
    def add(where, key, quantity):
        where[key] = where.get(key, 0) + quantity

    def net_of(self, account, hour):
        return self.net.get((account, hour), 0)

    def low(self, account, hour):
        return self.net_of(account, hour) - self.sales.get((account, hour), 0)

    def high(self, account, hour):
        return self.net_of(account, hour) + self.purchases.get((account, hour), 0)


def exposure_of(setup, totals, operator):
    return sum(estimate["price"] * (max(0, -totals.net_of(number, hour)) + totals.sales.get((number, hour), 0))
               for number, account in enumerate(setup.accounts, 1) if account["operator"] == operator
               for hour, estimate in enumerate(setup.estimates, 1))


def available_of(setup, guarantees, operator):
    return guarantees[operator - 1] * (1000 - setup.operators[operator - 1]["maintenance"])


# ---- the image of a plain book

def spelt(row):
    return b"".join(low_first(row[name], width) for name, width in ROW)


class Part:
    def __init__(self, guarantees, rows=()):
        self.guarantees, self.rows = list(guarantees), [dict(row) for row in rows]

    def put(self, into, at, setup):
        for operator, guarantee in enumerate(self.guarantees, 1):
            into[guarantee_at(at, operator):guarantee_at(at, operator) + 8] = low_first(guarantee, 8)
        into[at + ROW_COUNT:at + ROW_COUNT + 2] = low_first(len(self.rows), 2)
        for number, row in enumerate(self.rows, 1):
            where = row_at(at, number, "account")
            into[where:where + 18] = spelt(row)
        totals = Totals(self.rows)
        for account in range(1, setup.account_count + 1):
            for hour in range(1, setup.hours + 1):
                where = net_at(at, account, hour)
                into[where:where + 4] = (totals.net_of(account, hour) % 2 ** 32).to_bytes(4, "little")


class Book:
    """A plain book; fresh, unless it is told otherwise. The asks that stand are rows, each in the place of its account."""

    def __init__(self, setup_bytes, phase=1, rows=(), schedules=(), guarantees=None, saved=None, asks=()):
        self.bytes, self.setup, self.phase, self.schedules, self.saved = setup_bytes, Setup(setup_bytes), phase, schedules, saved
        self.asks = asks
        self.part = Part(guarantees or [x["guarantee"] for x in self.setup.operators], rows)

    def image(self):
        into = bytearray(BOOK)
        into[:len(self.bytes)] = self.bytes
        for operator in range(self.setup.operator_count):
            at = self.setup.operators_at + 10 * operator
            into[at:at + 8] = bytes(8)
        into[PHASE] = self.phase
        into[FLAG] = 1 if self.saved else 0
        into[SCHEDULE_COUNT:SCHEDULE_COUNT + 2] = low_first(len(self.schedules), 2)
        for place, schedule in enumerate(self.schedules, 1):
            where = schedule_at(place, "point")
            into[where:where + 11] = b"".join(low_first(schedule[name], width) for name, width in SCHEDULE)
        self.part.put(into, PRESENT, self.setup)
        if self.saved:
            self.saved.put(into, SAVED, self.setup)
        for ask in self.asks:
            where = ask_at(ask["account"], "account")
            into[where:where + 18] = spelt(ask)
        return bytes(into)


# ---- which bytes are a book: what is wrong with them, in words; nothing where they are one

def entries(book, at, count, shape):
    found, at = entries_of(book, at, count, shape)
    return [{name: value for name, (offset, value) in entry.items()} for entry in found]


def number(book, at, width):
    return int.from_bytes(book[at:at + width], "little")


def row_fault(setup, row):
    if not 1 <= row["account"] <= setup.account_count or not 1 <= row["other"] <= setup.account_count:
        return "no such account"
    if row["account"] == row["other"]:
        return "both accounts the same"
    if row["side"] not in (SELLS, BUYS) or row["status"] not in (PENDING, CONFIRMED, WITHDRAWN):
        return "side or status"
    if not 1 <= row["first"] <= row["last"] <= setup.hours:
        return "hours"
    if not 1 <= row["quantity"] <= 10_000_000:
        return "quantity"
    return None


def part_fault(book, at, setup):
    guarantees = [number(book, guarantee_at(at, operator), 8) for operator in range(1, setup.operator_count + 1)]
    if any(guarantee > 10 ** 12 for guarantee in guarantees):
        return "guarantee"
    count = number(book, at + ROW_COUNT, 2)
    if count > 256:
        return "row count"
    rows = entries(book, at + ROWS, count, ROW)
    for row in rows:
        if row_fault(setup, row):
            return row_fault(setup, row)
    waiting = [(row["account"], row["other"], row["code"]) for row in rows if row["status"] == PENDING]
    if len(set(waiting)) < len(waiting):
        return "pending rows alike"
    totals = Totals(rows)
    for a, account in enumerate(setup.accounts, 1):
        for hour in range(1, setup.hours + 1):
            if int.from_bytes(book[net_at(at, a, hour):net_at(at, a, hour) + 4], "little", signed=True) != totals.net_of(a, hour):
                return "net"
            if totals.low(a, hour) < -account["lower", hour] or totals.high(a, hour) > account["upper", hour]:
                return "margin"
    for operator in range(1, setup.operator_count + 1):
        if exposure_of(setup, totals, operator) > available_of(setup, guarantees, operator):
            return "exposure"
    return None


def part_in_use(book, at, setup):
    yield at, 8 * setup.operator_count
    yield at + ROW_COUNT, 2 + 18 * number(book, at + ROW_COUNT, 2)
    for account in range(1, setup.account_count + 1):
        yield net_at(at, account, 1), 4 * setup.hours


def in_use(book, setup):
    """Where the fields stand that this book has: offset and how many bytes. All other bytes are zero."""
    yield 0, setup.operators_at
    for operator in range(setup.operator_count):
        yield setup.operators_at + 10 * operator + 8, 2
    yield setup.accounts_at, setup.size - setup.accounts_at
    yield PHASE, 2
    yield SCHEDULE_COUNT, 2 + 11 * number(book, SCHEDULE_COUNT, 2)
    yield from part_in_use(book, PRESENT, setup)
    if book[FLAG]:
        yield from part_in_use(book, SAVED, setup)
    yield ASKS, 18 * setup.account_count


def saved_fault(book, setup):
    if part_fault(book, SAVED, setup):
        return "saved: " + part_fault(book, SAVED, setup)
    then = entries(book, SAVED + ROWS, number(book, SAVED + ROW_COUNT, 2), ROW)
    now = entries(book, PRESENT + ROWS, number(book, PRESENT + ROW_COUNT, 2), ROW)
    if len(now) < len(then):
        return "saved rows gone"
    for old, new in zip(then, now):
        if {**old, "status": 0} != {**new, "status": 0}:
            return "saved row changed"
        if old["status"] != new["status"] and old["status"] != PENDING:
            return "ended row changed"
    return None


def ask_fault(book, setup, account):
    """An ask that stands for an account: register would accept it as the book is. No ask, where its place is zeros."""
    ask = entries(book, ask_at(account, "account"), 1, ROW)[0]
    if not any(ask.values()):
        return None
    if ask["account"] != account:
        return "ask of another account"
    if row_fault(setup, ask):
        return "ask: " + row_fault(setup, ask)
    if ask["status"] != PENDING:
        return "ask not pending"
    if book[PHASE] != 1:
        return "ask after phase 1"
    rows = entries(book, PRESENT + ROWS, number(book, PRESENT + ROW_COUNT, 2), ROW)
    if any(row["status"] == PENDING and all(row[name] == ask[name] for name in ("account", "other", "code")) for row in rows):
        return "ask alike"
    if len(rows) >= 256:
        return "ask without a number"
    totals, has = Totals(rows + [ask]), setup.accounts[account - 1]
    if any(totals.low(account, hour) < -has["lower", hour] or totals.high(account, hour) > has["upper", hour]
           for hour in range(1, setup.hours + 1)):
        return "ask: margin"
    guarantees = [number(book, guarantee_at(PRESENT, operator), 8) for operator in range(1, setup.operator_count + 1)]
    if exposure_of(setup, totals, has["operator"]) > available_of(setup, guarantees, has["operator"]):
        return "ask: exposure"
    return None


def fault(book):
    if len(book) != BOOK:
        return "size"
    if any(not least <= count <= greatest for count, (least, greatest) in zip(book, COUNT_RANGES)):
        return "set-up counts"
    setup = Setup(book)
    if setup_verdict(book[:setup.size]) != ACCEPTED:
        return "set-up"
    phase, flag, count = book[PHASE], book[FLAG], number(book, SCHEDULE_COUNT, 2)
    if phase not in (1, 2, 3) or flag not in (0, 1):
        return "phase or flag"
    if count > 256:
        return "schedule count"
    for x in entries(book, SCHEDULES, count, SCHEDULE):
        if not (1 <= x["point"] <= setup.point_count and x["side"] in (1, 2) and 1 <= x["hour"] <= setup.hours
                and 1 <= x["quantity"] <= 10_000_000 and x["price"] <= 400_000):
            return "schedule"
    if part_fault(book, PRESENT, setup):
        return part_fault(book, PRESENT, setup)
    if flag and saved_fault(book, setup):
        return saved_fault(book, setup)
    rows = entries(book, PRESENT + ROWS, number(book, PRESENT + ROW_COUNT, 2), ROW)
    if phase > 1 and any(row["status"] == PENDING for row in rows):
        return "pending after phase 1"
    if phase > 1 and flag:
        return "batch after phase 1"
    if phase == 1 and count:
        return "schedule in phase 1"
    for account in range(1, setup.account_count + 1):
        if ask_fault(book, setup, account):
            return ask_fault(book, setup, account)
    rest = bytearray(book)
    for at, many in in_use(book, setup):
        rest[at:at + many] = bytes(many)
    return "unused byte" if any(rest) else None


# ---- the readings: a verdict, and where it is 0 the figure

def net_reading(book, account, hour):
    if fault(book):
        return (1, 0, 0), None
    setup = Setup(book)
    if not 1 <= account <= setup.account_count:
        return (6, 1, 0), None
    if not 1 <= hour <= setup.hours:
        return (6, 5, 0), None
    return ACCEPTED, Totals(entries(book, PRESENT + ROWS, number(book, PRESENT + ROW_COUNT, 2), ROW)).net_of(account, hour)


def exposure_reading(book, operator):
    if fault(book):
        return (1, 0, 0), None
    setup = Setup(book)
    if not 1 <= operator <= setup.operator_count:
        return (6, 9, 0), None
    totals = Totals(entries(book, PRESENT + ROWS, number(book, PRESENT + ROW_COUNT, 2), ROW))
    return ACCEPTED, exposure_of(setup, totals, operator)
