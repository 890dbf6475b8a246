"""Bytes of set-ups, records, price tables and streams."""


def le(value, width):
    return int(value).to_bytes(width, 'little')


def by_hour(margin, hours):
    """A margin of every hour, or margins hour by hour, as bytes."""
    return b''.join(le(each, 4) for each in ([margin] * hours if isinstance(margin, int) else margin))


def setup(estimates, operators, accounts, points=(), zones=1):
    """Operators (guarantee, m), accounts (operator, kind, lower, upper), points
    (account, kind, zone, injection, withdrawal). Lower and upper are each a margin for
    every hour or a list of margins by hour."""
    hours = len(estimates)
    out = bytes([len(estimates), len(operators), len(accounts), len(points), zones])
    out += b''.join(le(price, 4) for price in estimates)
    out += b''.join(le(cents, 8) + le(m, 2) for cents, m in operators)
    out += b''.join(bytes(a[:2]) + by_hour(a[2], hours) + by_hour(a[3], hours) for a in accounts)
    return out + b''.join(bytes(p[:3]) + le(p[3], 4) + le(p[4], 4) for p in points)


def trade(kind, account, other, code, side, first, last, quantity):
    code = code if isinstance(code, bytes) else le(code, 8)
    return le(0xFF, 2) + bytes([kind, account, other]) + code + bytes([side, first, last]) + le(quantity, 4)


def register(account, other, code, side, first, last, quantity):
    return trade(1, account, other, code, side, first, last, quantity)


def confirm(account, other, code, side, first, last, quantity):
    return trade(2, account, other, code, side, first, last, quantity)


def ask(account, other, code, side, first, last, quantity):
    return trade(12, account, other, code, side, first, last, quantity)


def commit(account, other, code, side, first, last, quantity):
    return trade(13, account, other, code, side, first, last, quantity)


def withdraw(account, row):
    return le(0x103, 2) + bytes([3, account]) + le(row, 2)


def guarantee(operator, cents):
    return le(0x601, 2) + bytes([4, operator]) + le(cents, 8)


def bare(kind):
    return bytes([1, 0, kind])


OPEN, UNDO, KEEP, CLOSE, SETTLE = (bare(kind) for kind in (5, 6, 7, 8, 10))


def strip(*rows, count=None):
    """A strip of register records; the count is that of the rows where none is given."""
    return bare(11) + bytes([len(rows) if count is None else count]) + b''.join(rows)


def schedule(side, hour, quantity, point, price):
    return le(0x18B1, 2) + bytes([9, side, hour]) + le(quantity, 4) + bytes([point]) + le(price, 4)


def table(*columns):
    """PUN by hour, then each zone's prices by hour."""
    return b''.join(le(price, 4) for column in columns for price in column)


def flat(hours, *prices):
    """The same price in every hour: PUN, then each zone's."""
    return table(*([price] * hours for price in prices))


def stream(*items):
    return b''.join(le(len(item), 2) + item for item in items)
