"""Cases of set-ups: their shape, each value at its edges, margins by hour, two faults at once, points against accounts.

The program reads 65,536 bytes of cases, so that each value is tried at few edges here; days/setup_days.py has all of them.
"""
import copy
import itertools

from document import ESTIMATE, OPERATOR, POINT, account_shape, low_first


class Setup:
    """The counts and entries of a set-up; the counts as the entries have them, unless they are told otherwise."""

    def __init__(self, hours=23, operators=1, accounts=1, points=0, zones=1):
        self.estimates = [{"price": 5_000 + h} for h in range(hours)]
        self.operators = [{"guarantee": 100_000, "maintenance": 100} for _ in range(operators)]
        # accounts of kinds 1 and 2 by turns, points of kinds 1, 2 and 3 by turns
        self.accounts = [{"operator": 1 + a % operators, "kind": 1 + a % 2} for a in range(accounts)]
        for account in self.accounts:
            account.update({("lower", h): 20_000 for h in range(1, hours + 1)})
            account.update({("upper", h): 30_000 for h in range(1, hours + 1)})
        self.points = [self.point(p % 3 + 1, p % 3 % 2 + 1, 1 + p % zones) for p in range(points)]
        self.zones = zones

    @staticmethod
    def point(kind, account, zone):
        return {"account": account, "kind": kind, "zone": zone, "injection": 0 if kind == 2 else 15_000,
                "withdrawal": 0 if kind == 1 else 16_000}

    def rooms(self):
        return ((ESTIMATE, self.estimates), (OPERATOR, self.operators), (account_shape(len(self.estimates)), self.accounts),
                (POINT, self.points))

    def bytes(self, counts=None):
        counts = counts or (len(self.estimates), len(self.operators), len(self.accounts), len(self.points), self.zones)
        return bytes(counts) + b"".join(low_first(entry[name], width) for shape, room in self.rooms() for entry in room
                                        for name, width in shape)

    def but(self, *changes):
        """The same with values changed: (room, entry, name, value), rooms and entries from 0."""
        other = copy.deepcopy(self)
        for room, entry, name, value in changes:
            other.rooms()[room][1][entry][name] = value
        return other


ESTIMATES, OPERATORS, ACCOUNTS, POINTS = range(4)
ALL_ONES = 2 ** 32 - 1


def margins(entry, bound, values):
    """The changes that give an account these margins, by hour."""
    return [(ACCOUNTS, entry, (bound, hour), value) for hour, value in enumerate(values, 1)]


def shapes(s):
    for hours in (23, 24, 25):
        s.setup(Setup(hours).bytes())
    s.setup(Setup(24, 2, 2, 3, 2).bytes())
    s.setup(Setup(25, 16, 32, 64, 8).bytes())
    # each count past its range, the entries as many as it says (33 accounts are in the days)
    for changed in ({"hours": 22}, {"hours": 26}, {"operators": 17}, {"points": 65, "accounts": 2}, {"zones": 9}):
        s.setup(Setup(**changed).bytes())
    for which in range(5):
        for value in (0, 255):
            counts = [23, 1, 1, 0, 1]
            counts[which] = value
            s.setup(Setup().bytes(counts) if which == 4 else bytes(counts))
    # no operators, no accounts, no zones, with the length to match
    none = Setup()
    none.operators = []
    s.setup(none.bytes())
    none = Setup()
    none.accounts = []
    s.setup(none.bytes())
    # lengths
    whole = Setup(24, 1, 1, 1, 1).bytes()
    for length in (0, 1, 2, 3, 4, 5, 6, len(whole) - 11, len(whole) - 1):
        s.setup(whole[:length])
    s.setup(whole + b"\0")
    s.setup(whole + whole)
    s.setup(bytes([25]) + whole[1:])
    # an account's entry too few and too many, a margin too few and too many
    entry = 2 + 8 * 24
    for length in (entry, 4):
        s.setup(whole[:-length])
        s.setup(whole + bytes(length))
    s.setup(Setup(24, 1, 1, 0, 1).bytes((24, 1, 2, 0, 1)))
    s.setup(Setup(24, 1, 2, 0, 1).bytes((24, 1, 1, 0, 1)))
    # one pair of margins for the whole day: 10 bytes for each account
    for hours, operators, accounts, points in ((23, 1, 1, 0), (24, 2, 2, 1), (25, 1, 32, 0)):
        s.setup(bytes([hours, operators, accounts, points, 1]) + bytes(4 * hours + 10 * operators + 10 * accounts + 11 * points))
    # a wrong length and a value at fault: the lower number
    s.setup(Setup().but((ESTIMATES, 0, "price", 400_001)).bytes() + b"\0")
    s.setup(b"\xFF" * 200)
    s.setup(b"\0" * 200)


def edges(s):
    """The least and the greatest of every value at once, and each value past its range."""
    few = Setup(23, 1, 1, 1, 1)
    for price, guarantee, maintenance, injection in ((0, 0, 0, 0), (400_000, 10 ** 12, 1000, 10_000_000)):
        s.setup(few.but(*((ESTIMATES, h, "price", price) for h in range(23)), (OPERATORS, 0, "guarantee", guarantee),
                        (OPERATORS, 0, "maintenance", maintenance), (POINTS, 0, "injection", injection)).bytes())
    for entry, value in ((0, 400_001), (11, 400_001), (22, 400_001), (22, ALL_ONES)):
        s.setup(few.but((ESTIMATES, entry, "price", value)).bytes())
    for name, value in (("guarantee", 10 ** 12 + 1), ("guarantee", 2 ** 64 - 1), ("maintenance", 1001)):
        s.setup(few.but((OPERATORS, 0, name, value)).bytes())
    for name, value in (("guarantee", 10 ** 12 + 1), ("maintenance", 1001)):
        s.setup(Setup(23, 2, 1, 0, 1).but((OPERATORS, 1, name, value)).bytes())
    for name, value in (("operator", 0), ("operator", 2), ("kind", 0), ("kind", 3)):
        s.setup(few.but((ACCOUNTS, 0, name, value)).bytes())
    for name, value in (("operator", 3), ("kind", 0)):
        s.setup(Setup(23, 2, 2, 0, 1).but((ACCOUNTS, 1, name, value)).bytes())
    for name, value in (("account", 0), ("account", 2), ("kind", 0), ("kind", 4), ("zone", 0), ("zone", 2), ("injection", 10_000_001),
                        ("injection", ALL_ONES), ("withdrawal", 1)):
        s.setup(few.but((POINTS, 0, name, value)).bytes())


def margins_by_hour(s):
    """Each of lower and upper at its edges, in the first, a middle and the last hour of the first and the last account."""
    base = Setup(23, 1, 2, 0, 1)
    for lower, upper in ((0, 10_000_000), (10_000_000, 0)):
        s.setup(base.but(*(change for entry in (0, 1) for bound, value in (("lower", lower), ("upper", upper))
                           for change in margins(entry, bound, [value] * 23))).bytes())
    for entry, bound, hour in itertools.product((0, 1), ("lower", "upper"), (1, 12, 23)):
        s.setup(base.but((ACCOUNTS, entry, (bound, hour), 10_000_001)).bytes())
    s.setup(base.but((ACCOUNTS, 1, ("upper", 23), ALL_ONES)).bytes())
    # two at once: the lowest offset, whichever account, bound and hour it is of
    for two in (((0, "lower", 23), (0, "upper", 1)), ((0, "upper", 23), (1, "lower", 1)), ((0, "upper", 2), (0, "lower", 3)),
                ((1, "lower", 1), (0, "upper", 12))):
        s.setup(base.but(*((ACCOUNTS, entry, (bound, hour), 10_000_001) for entry, bound, hour in two)).bytes())
    s.setup(base.but((ACCOUNTS, 1, "operator", 2), (ACCOUNTS, 0, ("upper", 23), 10_000_001)).bytes())
    s.setup(base.but((ACCOUNTS, 1, "kind", 3), (ACCOUNTS, 1, ("lower", 1), 10_000_001)).bytes())
    # the last margin of the greatest set-up is in the days


def points_against_accounts(s):
    """Every kind of point on every kind of account, with the amounts that it may have; then with one that it may not have."""
    for kind, account in itertools.product((1, 2, 3), (1, 2)):
        base = Setup(23, 1, 1, 1, 1).but((ACCOUNTS, 0, "kind", account))
        base.points = [Setup.point(kind, 1, 1)]
        s.setup(base.bytes())
        if kind == account == 2:
            s.setup(base.but((POINTS, 0, "injection", 1)).bytes())
            s.setup(base.but((POINTS, 0, "withdrawal", 10_000_001)).bytes())


def two_faults(s):
    """Each value at fault together with the next that is: the lowest offset is given."""
    base = Setup(23, 1, 1, 1, 1)
    faults = [(ESTIMATES, 0, "price", 400_001), (ESTIMATES, 22, "price", 400_001), (OPERATORS, 0, "guarantee", 10 ** 12 + 1),
              (OPERATORS, 0, "maintenance", 1001), (ACCOUNTS, 0, "operator", 2), (ACCOUNTS, 0, "kind", 2),
              (ACCOUNTS, 0, ("lower", 23), 10_000_001), (ACCOUNTS, 0, ("upper", 1), 10_000_001), (POINTS, 0, "account", 2),
              (POINTS, 0, "kind", 2), (POINTS, 0, "zone", 0), (POINTS, 0, "injection", 10_000_001), (POINTS, 0, "withdrawal", 1)]
    for two in zip(faults, faults[1:]):
        s.setup(base.but(*two).bytes())


def cases(s):
    shapes(s)
    edges(s)
    margins_by_hour(s)
    points_against_accounts(s)
    two_faults(s)
