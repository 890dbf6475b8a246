"""Directed days on set-ups: lengths, every value at its edges, every two values at fault, points against accounts."""
import itertools

from records import le, setup

AMPLE = 10 ** 12
MOST = 10 ** 7


def put(base, *changes):
    """The bytes with numbers put into them: offset, width and value."""
    data = bytearray(base)
    for at, width, value in changes:
        data[at:at + width] = le(value, width)
    return bytes(data)


def plain(hours, operators, accounts, points, zones=1):
    """Accounts of kinds 1 and 2 by turns, mixed points; everything well inside its range."""
    return setup([5000] * hours, [(100, 100)] * operators, [(1, 1 + a % 2, 200, 300) for a in range(accounts)],
                 [(1 + p % accounts, 3, 1, 15, 16) for p in range(points)], zones)


def sizes(d):
    """Every count at its ends, with the length to match; a value for the whole day instead of one for each hour."""
    for hours in (23, 24, 25):
        d.o(plain(hours, 1, 1, 0))
        d.o(plain(hours, 2, 2, 3))
    for counts, want in (((22, 1, 1, 0), 8), ((26, 1, 1, 0), 8), ((23, 16, 1, 0), 0), ((23, 17, 1, 0), 8), ((23, 1, 32, 0), 0),
                         ((23, 1, 33, 0), 8), ((23, 1, 1, 64), 0), ((23, 1, 1, 65), 8), ((23, 1, 1, 0, 8), 0), ((23, 1, 1, 0, 9), 8),
                         ((25, 16, 32, 64, 8), 0)):
        d.o(plain(*counts), want)
    assert len(plain(25, 16, 32, 64, 8)) == 7433
    # lengths: of an account's entry 8 bytes for each hour, and 2
    whole = plain(24, 2, 2, 1)
    assert len(whole) == 5 + 96 + 20 + 388 + 11
    for length in (1, 4, 8, 10, 11, 96, 192, 194, 388):
        d.o(whole[:-length], 8)
        d.o(whole + bytes(length), 8)
    # one lower and one upper margin for all hours: 10 bytes for each account
    for hours, operators, accounts, points in ((23, 1, 1, 0), (24, 2, 2, 1), (25, 16, 32, 64)):
        d.o(bytes([hours, operators, accounts, points, 1]) + bytes([1]) * (4 * hours + 10 * (operators + accounts) + 11 * points), 8)
    # the length of 24 hours with 23 or 25 said, and an account too few or too many
    for place, other in ((0, 23), (0, 25), (2, 1), (2, 3)):
        d.o(put(whole, (place, 1, other)), 8)


def edges(d):
    """Each value of the first and the last entry: least, most, past each, all ones."""
    # estimates from 5, operators from 97, accounts from 117 and 303 (lower from 119 and 305, upper from 211 and 397), points from 489
    base = setup([5000] * 23, [(100, 100)] * 2, [(1, 1, 200, 300), (2, 2, 200, 300)], [(1, 3, 1, 15, 16), (2, 3, 2, 15, 16)], 2)
    assert len(base) == 511
    for at, width, least, most in (
            (5, 4, 0, 400000), (49, 4, 0, 400000), (93, 4, 0, 400000),
            (97, 8, 0, AMPLE), (107, 8, 0, AMPLE), (105, 2, 0, 1000), (115, 2, 0, 1000),
            (117, 1, 1, 2), (303, 1, 1, 2), (118, 1, 1, 2), (304, 1, 1, 2),
            (119, 4, 0, MOST), (163, 4, 0, MOST), (207, 4, 0, MOST),
            (211, 4, 0, MOST), (255, 4, 0, MOST), (299, 4, 0, MOST),
            (305, 4, 0, MOST), (349, 4, 0, MOST), (393, 4, 0, MOST),
            (397, 4, 0, MOST), (441, 4, 0, MOST), (485, 4, 0, MOST),
            (489, 1, 1, 2), (500, 1, 1, 2), (491, 1, 1, 2), (502, 1, 1, 2),
            (492, 4, 0, MOST), (503, 4, 0, MOST), (496, 4, 0, MOST), (507, 4, 0, MOST)):
        for value in (least, most):
            d.o(put(base, (at, width, value)), 0)
        for value in ([0] if least else []) + [most + 1, 256 ** width - 1]:
            d.o(put(base, (at, width, value)), (9, at))
    for at in (490, 501):
        for kind, want in ((0, (9, at)), (3, 0), (4, (9, at)), (255, (9, at))):
            d.o(put(base, (at, 1, kind)), want)


def two_faults(d):
    """Every two values at fault: the lowest offset is given."""
    # estimates from 5, the operator from 97, the account from 107 (lower from 109, upper from 201), the point from 293
    base = setup([5000] * 23, [(100, 100)], [(1, 1, 200, 300)], [(1, 1, 1, 15, 0)])
    assert len(base) == 304
    faults = ((5, 4, 400001), (93, 4, 400001), (97, 8, AMPLE + 1), (105, 2, 1001), (107, 1, 2), (108, 1, 3), (109, 4, MOST + 1),
              (153, 4, MOST + 1), (197, 4, MOST + 1), (201, 4, MOST + 1), (245, 4, MOST + 1), (289, 4, MOST + 1), (293, 1, 2),
              (294, 1, 2), (295, 1, 0), (296, 4, MOST + 1), (300, 4, 1))
    for one, other in itertools.combinations(faults, 2):
        d.o(put(base, one, other), (9, one[0]))
    # margins of two accounts: 24 hours, accounts from 111 and 305
    base = setup([5000] * 24, [(100, 100)], [(1, 1, 200, 300), (1, 2, 200, 300)])
    for one, other in ((205, 209), (209, 307), (301, 307), (301, 305), (117, 213), (307, 403), (399, 403), (403, 495)):
        changes = [(at, 1 if at == 305 else 4, 2 if at == 305 else MOST + 1) for at in (one, other)]
        d.o(put(base, *changes), (9, one))
        d.o(put(base, *changes[1:]), (9, other))


def points_against_accounts(d):
    """Every kind of point on every kind of account, with and without each amount; the last point of the largest set-up."""
    # the accounts of kinds 1 and 2 from 107 and 293, the point from 479
    base = setup([5000] * 23, [(100, 100)], [(1, 1, 200, 300), (1, 2, 200, 300)], [(1, 3, 1, 0, 0)])
    assert len(base) == 490
    for kind, account, injection, withdrawal in itertools.product((1, 2, 3), (1, 2), (0, 1), (0, 1)):
        want = 0
        if kind < 3 and kind != account:
            want = 9, 480
        elif kind == 2 and injection:
            want = 9, 482
        elif kind == 1 and withdrawal:
            want = 9, 486
        d.o(put(base, (479, 1, account), (480, 1, kind), (482, 4, injection), (486, 4, withdrawal)), want)
    for kind, at in ((1, 482), (2, 486)):
        for value, want in ((MOST, 0), (MOST + 1, (9, at))):
            d.o(put(base, (479, 1, kind), (480, 1, kind), (at, 4, value)), want)
    for kind in (0, 1, 2, 3, 4):
        for account in (0, 3, 255):
            d.o(put(base, (479, 1, account), (480, 1, kind)), (9, 479))
    # the account's own kind is at fault, or is changed under its points
    base = put(base, (480, 1, 1))
    d.o(base)
    for kind, want in ((0, (9, 108)), (2, (9, 480)), (3, (9, 108))):
        d.o(put(base, (108, 1, kind)), want)
    # accounts from 265, the points from 265 + 32 * 202 = 6729, the last from 7422
    most = plain(25, 16, 32, 64, 8)
    for at, width, value in ((6725, 4, MOST + 1), (7423, 1, 1), (7424, 1, 9), (7429, 4, MOST + 1)):
        d.o(put(most, (at, width, value)), (9, at))


DAYS = (sizes, edges, two_faults, points_against_accounts)
