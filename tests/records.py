"""Cases of records: read, held against a book's counts, and written."""
import itertools

from document import FIELDS, KINDS, LENGTH, MAP, most, names, spell
from stream import ROOM

GOOD = {"kind": 1, "account": 2, "other": 3, "code": 0x1122334455667788, "side": 1, "first": 2, "last": 3, "quantity": 18_000,
        "number": 7, "operator": 2, "guarantee": 100_000, "point": 1, "price": 3_000}


def request(s, kind, **changed):
    """The record of a request: its kind's fields as above but for those changed."""
    s.record(spell(MAP[kind], {**GOOD, "kind": kind, **changed}))


def all_ones(name):
    return 256 ** dict(FIELDS)[name] - 1


def edge_cases(s):
    """Each field of each kind at its edges, and at all ones. Then two fields at fault, and accounts that are the same."""
    for kind in KINDS:
        for name in names(MAP[kind]):
            if name == "kind":
                continue
            top = 2 ** 63 if name == "code" else most(name, s.counts)
            for value in sorted({0, 1, top, min(top + 1, all_ones(name)), all_ones(name)}):
                whole_day = {"first": {"last": most("last", s.counts)}, "last": {"first": 1}}.get(name, {})
                request(s, kind, **{**whole_day, name: value})
        checked = [name for name in names(MAP[kind]) if name not in ("kind", "code")]
        # of an ask and a commit neighbours only: they have the ranges of a register
        for two in zip(checked, checked[1:]) if kind in (12, 13) else itertools.combinations(checked, 2):
            request(s, kind, **{name: all_ones(name) for name in two})
        request(s, kind, **{name: 0 for name in checked})
    for kind in (1, 2, 12, 13):
        for first, last in ((2, 1), (2, 2), (24, 23), (24, 24), (24, 25), (25, 24), (25, 25), (25, 26), (0, 0), (255, 255), (255, 0)):
            request(s, kind, first=first, last=last)
        for same in (0, 1, most("account", s.counts), most("account", s.counts) + 1):
            request(s, kind, account=same, other=same)
        request(s, kind, account=2, other=2, quantity=0)


def reading_cases(s):
    s.count(24, 3, 4, 2, 1)
    for kind in KINDS:
        request(s, kind)
    edge_cases(s)
    # other books: the least counts, few, the greatest; an hour that only a longer day has, no points
    for counts in ((23, 1, 1, 0, 1), (23, 2, 2, 1, 1), (25, 16, 32, 64, 8)):
        s.count(*counts)
        for hour in (23, 24, 25, 26):
            for kind in (1, 12):
                request(s, kind, account=1, other=2, first=1, last=hour)
            request(s, 9, first=hour)
        for account in (1, 2, 32, 33):
            for kind in (1, 13):
                request(s, kind, account=account, other=account)
            request(s, 3, account=account)
        for operator in (1, 2, 16, 17):
            request(s, 4, operator=operator)
        for point in (0, 1, 64, 65):
            request(s, 9, point=point)
    s.count(24, 3, 4, 2, 1)
    # maps: each bit missing or added, the maps of other kinds, all and none
    values = {**GOOD, "number": 0x0807}
    for kind in KINDS:
        maps = [MAP[kind] ^ 1 << bit for bit in range(16)] + sorted(set(MAP.values())) + [0x0000, 0x1FFE, 0x1FFF, 0x3FFF, 0xFFFF, 0x1F01]
        for given in maps:
            s.record(spell(given, {**values, "kind": kind}))
    for kind in (0, 11, 14, 255):
        for given in (0x0000, 0x0001, 0x00FF, 0x18B1, 0x1FFF, 0x2001, 0x4001, 0x8001):
            s.record(spell(given, {**values, "kind": kind}))
    # lengths: one less and one more, with the right map and with a wrong one; each start of a record; a long one
    for kind in KINDS:
        record = spell(MAP[kind], {**GOOD, "kind": kind})
        wrong = spell(MAP[kind] ^ 2, {**GOOD, "kind": kind})
        for altered in (record[:-1], record + b"\0", record + b"\1" * 9, wrong[:-1], wrong + b"\0"):
            s.record(altered)
    for kind in (12, 13, 1):
        record = spell(MAP[kind], {**GOOD, "kind": kind})
        for length in range(len(record)):
            s.record(record[:length])
    s.record(record * 20)
    # a strip is a call, not a record: 3, with rows and without
    s.record(b"\1\0\x0B\1" + record)
    s.record(b"\1\0\x0B\0")
    s.record(b"\xFF\xFF")
    s.record(b"\xFF" * 20)
    s.record(b"\0" * 20)


def writing_cases(s):
    """The writer: rooms about the length of each kind, values out of range, kinds that are none."""
    ones = {name: all_ones(name) for name, width in FIELDS}
    for kind in KINDS:
        for room in sorted({0, 1, 2, LENGTH[kind] - 1, LENGTH[kind], LENGTH[kind] + 1, ROOM}):
            s.writing({**GOOD, "kind": kind}, room)
        s.writing({**ones, "kind": kind}, ROOM)
        s.writing({**{name: 0 for name in ones}, "kind": kind}, ROOM)
    for kind in (0, 11, 14, 255):
        for room in (0, 2, ROOM):
            s.writing({**GOOD, "kind": kind}, room)
