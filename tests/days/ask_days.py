"""Directed days on asks and commits: an ask beside its register, what clears asks, limits, batches, and asks put down as bytes."""
from asks import AT, END, PLACE_BYTES
from input_days import AMPLE, LAST, market
from records import CLOSE, KEEP, OPEN, UNDO, bare, confirm, flat, guarantee, register, schedule, setup, strip, withdraw
from strip_days import FAR, FAULTY, TIGHT, of_kind, remapped, row, rows


def as_ask(record):
    return of_kind(12, record)


def as_commit(record):
    return of_kind(13, record)


def ask(code, **changed):
    """Account 1 sells one kWh to account 2 in hour 1, unless terms are changed."""
    return as_ask(row(code, **changed))


def commit(code, **changed):
    return as_commit(row(code, **changed))


def equal_numbers(d):
    """An ask changes nothing but that it stands. Its commit gives its number, and leaves the book that the register leaves."""
    d.o(market())
    d.k()
    d.c(ask(1), (0, 1))
    d.same(0)
    d.k()
    d.a(1, 1, 0, 0)
    d.a(2, 1, 0, 0)
    d.e(1, 0, 0)
    d.c(ask(1), (0, 1))
    # an ask is no row: nothing to confirm, nothing to withdraw
    d.c(confirm(2, 1, 1, 2, 1, 1, 1), 16)
    d.c(withdraw(1, 1), 16)
    d.same(1)
    d.c(commit(1), (0, 1))
    d.e(1, 0, 10)
    d.k()
    d.c(commit(1), 23)
    d.o(market())
    d.c(row(1), (0, 1))
    d.same(1)
    # the price table and the buffers are not looked at
    d.o(market())
    d.c(ask(1), (0, 1), b'\xff' * 7, 3, 5)
    d.c(commit(1), (0, 1), b'\xff' * 7, 3, 5)
    d.same(1)
    # it is a row like any other
    d.c(row(1), 14)
    d.c(ask(1), 14)
    d.c(confirm(2, 1, 1, 2, 1, 1, 1), (0, 1))
    d.a(1, 1, 0, -1)
    d.a(2, 1, 0, 1)
    # every field at its ends
    ends = (row(b'\xff' * 8, other=3, first=1, last=24, quantity=999), row(0, side=2, first=24, last=24, quantity=1000),
            row(1 << 63, account=3, other=1, first=12, last=13, quantity=1000), row(0, account=2, other=3, side=2))
    for number, record in enumerate(ends, 2):
        d.c(as_commit(record), 23)
        d.c(as_ask(record), (0, number))
        d.c(as_commit(record), (0, number))
        d.c(as_commit(record), 23)
        d.c(as_ask(record), 14)
    d.e(1, 0, 10 + 999 * 24 * 10)
    d.e(2, 0, 1000 * 2 * 10)
    # row 3 is account 1's purchase, row 4 account 3's sale
    d.c(withdraw(1, 3), 0)
    d.c(withdraw(1, 4), 16)
    d.c(confirm(1, 3, 1 << 63, 2, 12, 13, 1000), (0, 4))
    d.a(1, 13, 0, 1000)
    d.a(3, 13, 0, -1000)


def as_register(d):
    """Each ask is answered as the register beside it, and leaves that register as it would be."""
    opening = market(operators=((60, 0), (AMPLE, 0)), price=100)
    d.o(opening)
    d.c(strip(row(7), row(8)), (0, 1))
    # three ways to one book: the register, the ask and then the register, the ask and its commit
    for record in (row(1), row(2, side=2, first=3, last=24, quantity=1000), row(b'\xff' * 8, other=3, first=1, last=2, quantity=299),
                   row(7, other=3), row(1, account=3, other=1, first=24, last=24), row(7, account=2, other=1, side=2, quantity=7),
                   row(1, quantity=598)):
        d.c(OPEN, 0)
        d.c(record, (0, 3))
        d.k()
        d.c(UNDO, (0, 1))
        for last in (record, as_commit(record)):
            d.c(OPEN, 0)
            d.c(as_ask(record), (0, 3))
            d.c(last, (0, 3))
            d.same(1)
            d.c(UNDO, (0, 1))
    refused = [(2, remapped(0x00FE, row(1))), (2, remapped(0x20FF, row(1))), (2, remapped(0x80FF, row(1))),
               ((4, 1, 0), remapped(0x007F, row(1))), ((4, 1, 1), remapped(0x017F, row(1))), ((4, 4, 2), remapped(0x18B1, row(1))),
               ((4, 1, 0), remapped(0x00FB, row(1))[:3]), (5, row(1)[:-1]), (5, row(1)[:3]), (5, row(1) + b'\x00'),
               ((6, 1), row(1, account=0)), ((6, 1), row(1, account=4)), ((6, 2), row(1, other=0)), ((6, 2), row(1, other=4)),
               ((6, 4), row(1, side=0)), ((6, 4), row(1, side=3)), ((6, 5), row(1, first=0)), ((6, 5), row(1, first=25, last=25)),
               ((6, 6), row(1, first=2)), ((6, 6), row(1, last=25)), ((6, 7), row(1, quantity=0)), ((6, 7), row(1, quantity=FAR)),
               ((6, 7), row(1, other=1, quantity=0)), (7, row(1, other=1)), (7, row(7, other=1, quantity=5000)), (14, row(7)),
               (14, row(8, side=2, first=9, last=12, quantity=5000)), ((18, 1), row(1, quantity=999)),
               ((18, 2), row(1, side=2, first=2, last=3, quantity=1001)), ((18, 24), row(1, account=3, first=24, last=24, quantity=1001)),
               (19, row(1, quantity=599)), (19, row(1, first=1, last=24, quantity=25)), (19, row(1, quantity=998))]
    d.k()
    for want, record in refused:
        d.c(as_ask(record), want)
        d.c(record, want)
    d.same(1)
    # refused, they leave the ask that stands; so do the registers
    d.c(ask(9, first=2, last=2, quantity=5), (0, 3))
    d.c(ask(9, account=3, quantity=6), (0, 3))
    d.k()
    for want, record in refused:
        d.c(as_ask(record), want)
        d.c(record, want)
    d.same(1)
    d.c(commit(9, first=2, last=2, quantity=5), (0, 3))
    d.c(commit(9, account=3, quantity=6), 23)
    # one by one: what each refused ask leaves is what is committed
    single = ((14, row(7)), ((18, 1), row(3, quantity=999)), (19, row(3, quantity=594)), ((6, 7), row(3, quantity=0)),
              (7, row(3, other=1)), (2, remapped(0, row(3))), (5, row(3) + b'\x01'))
    for number, (want, record) in enumerate(single, 4):
        d.c(ask(30 + number, side=2), (0, number))
        d.c(as_ask(record), want)
        d.c(commit(30 + number, side=2), (0, number))
    # of two that stand, another account's refused ask leaves both
    d.c(ask(20), (0, 11))
    d.c(ask(20, account=3), (0, 11))
    d.c(ask(21, account=3, quantity=1001), (18, 1))
    d.c(commit(20, account=3), (0, 11))


def commits_refused(d):
    """A commit is refused by 2, 4, 5, 6, 7 as a register is, and the ask stands on."""
    d.o(market(23))
    d.c(ask(1), (0, 1))
    d.k()
    good = commit(1)
    for length in range(len(good)):
        d.c(good[:length], 2 if length < 3 else 5)
    d.c(good + b'\x00', 5)
    d.c(good * 2, 5)
    for bit in range(16):
        turned = remapped(0x00FF ^ 1 << bit, good)
        want = 2 if bit == 0 or bit > 12 else (4, 1, 0) if bit < 8 else (4, 0, 1)
        d.c(turned, want)
        d.c(turned[:3], want)
    for given, want in ((0x0001, (4, 7, 0)), (0x0103, (4, 6, 1)), (0x0601, (4, 7, 2)), (0x18B1, (4, 4, 2)), (0x1FFF, (4, 0, 5))):
        d.c(remapped(given, good), want)
    for changed, bit in (({'account': 0}, 1), ({'account': 4}, 1), ({'other': 0}, 2), ({'other': 4}, 2), ({'side': 0}, 4), ({'side': 3}, 4),
                         ({'first': 0}, 5), ({'first': 24, 'last': 24}, 5), ({'last': 24}, 6), ({'first': 2}, 6), ({'quantity': 0}, 7),
                         ({'quantity': FAR}, 7), ({'other': 1, 'quantity': 0}, 7), ({'account': 9, 'other': 9, 'side': 9}, 1)):
        d.c(commit(1, **changed), (6, bit))
    d.c(commit(1, other=1), 7)
    d.c(commit(2, account=3, other=3), 7)
    d.same(1)
    d.c(good, (0, 1))
    d.c(good, 23)


def ranks(d):
    """23 comes after 6 and 7, and before all that would refuse the register: 14, 18, 19."""
    d.o(TIGHT)
    d.c(row(7), (0, 1))
    d.k()
    for record, want in ((row(7), 14), (row(7, quantity=5000), 14), (row(9, side=2, first=5, last=5, quantity=101), (18, 5)),
                         (row(9, quantity=1000), (18, 1)), (row(9, quantity=62), 19), (row(9, account=3, quantity=1001), (18, 1))):
        d.c(record, want)
        d.c(as_ask(record), want)
        d.c(as_commit(record), 23)
    d.c(commit(7, quantity=0), (6, 7))
    d.c(commit(7, other=1), 7)
    d.same(1)
    # the same beside an ask that stands
    d.c(ask(9, quantity=61), (0, 2))
    d.k()
    for record in (row(7), row(9, quantity=62), row(9, quantity=1000), row(9, account=3, quantity=1001)):
        d.c(as_commit(record), 23)
    d.c(commit(9, first=0, quantity=61), (6, 5))
    d.c(commit(9, other=1, quantity=61), 7)
    d.same(1)
    d.c(commit(9, quantity=61), (0, 2))
    d.e(1, 0, 62000)


STANDS = {'account': 1, 'other': 2, 'side': 1, 'first': 5, 'last': 9, 'quantity': 500}
STANDS_CODE = 0x0807060504030201


def differing(d):
    """A commit that differs from the ask in one field is 23, whichever it is."""
    d.o(market())
    d.c(ask(STANDS_CODE, **STANDS), (0, 1))
    d.k()
    for changed in ({'account': 3}, {'other': 3}, {'side': 2}, {'first': 4}, {'first': 6}, {'first': 9}, {'last': 8}, {'last': 10},
                    {'last': 5}, {'quantity': 499}, {'quantity': 501}, {'quantity': 500 + (1 << 8)}, {'quantity': 500 + (1 << 16)},
                    {'quantity': 500 - (1 << 8)}, {'quantity': 1}, {'account': 2, 'other': 1}, {'account': 2, 'other': 3},
                    {'first': 4, 'last': 8}, {'account': 3, 'other': 1, 'side': 2}):
        d.c(commit(STANDS_CODE, **{**STANDS, **changed}), 23)
    for byte in range(8):
        for bit in (0, 7):
            d.c(commit(STANDS_CODE ^ 1 << 8 * byte + bit, **STANDS), 23)
    for code in (0, 2 ** 64 - 1):
        d.c(commit(code, **STANDS), 23)
    d.same(1)
    d.c(commit(STANDS_CODE, **STANDS), (0, 1))
    # two asks that differ in the account alone: each is its own account's
    both = [{**STANDS, 'account': account, 'quantity': 200} for account in (1, 3)]
    for number, (one, other) in enumerate((both, both[::-1]), 2):
        d.c(ask(number, **one), (0, number))
        d.c(ask(number, **other), (0, number))
        d.c(commit(number, **one), (0, number))
        d.c(commit(number, **other), 23)
    # each account's ask against the other's fields
    d.c(ask(20, quantity=3), (0, 4))
    d.c(ask(21, account=3, quantity=4), (0, 4))
    d.k()
    for record in (commit(21, quantity=4), commit(20, account=3, quantity=3), commit(20, quantity=4), commit(21, account=3, quantity=3),
                   commit(20, account=2, other=1, quantity=3)):
        d.c(record, 23)
    d.same(1)
    d.c(commit(21, account=3, quantity=4), (0, 4))
    d.c(commit(20, quantity=3), 23)


def quoted(d, number):
    """Asks of accounts 1 and 3 stand, both given this number."""
    d.c(ask(50), (0, number))
    d.c(ask(51, account=3), (0, number))


def gone(d, want=23):
    """Neither can be committed."""
    d.k()
    d.c(commit(50), want)
    d.c(commit(51, account=3), want)
    d.same(1)


def cleared(d):
    """Each accepted kind clears the asks of all accounts."""
    d.o(market())
    quoted(d, 1)
    d.c(row(1), (0, 1))
    gone(d)
    quoted(d, 2)
    d.c(confirm(2, 1, 1, 2, 1, 1, 1), (0, 1))
    gone(d)
    d.c(row(2), (0, 2))
    quoted(d, 3)
    d.c(withdraw(1, 2), 0)
    gone(d)
    # a guarantee, be it the one in force
    quoted(d, 3)
    d.c(guarantee(1, 500), 0)
    gone(d)
    quoted(d, 3)
    d.c(guarantee(2, AMPLE), 0)
    d.same(1)
    gone(d)
    # open, keep and undo
    quoted(d, 3)
    d.c(OPEN, 0)
    gone(d)
    quoted(d, 3)
    d.c(KEEP, 0)
    gone(d)
    d.c(OPEN, 0)
    quoted(d, 3)
    d.c(UNDO, (0, 0))
    d.same(1)
    gone(d)
    d.c(OPEN, 0)
    d.c(row(3), (0, 3))
    quoted(d, 4)
    d.c(UNDO, (0, 1))
    d.same(1)
    gone(d)
    # asks that stood before the open do not come back
    for end in (UNDO, KEEP):
        quoted(d, 3)
        d.c(OPEN, 0)
        d.c(end, 0)
        d.same(1)
        gone(d)
    quoted(d, 3)
    d.c(strip(row(4), row(5)), (0, 3))
    gone(d)
    quoted(d, 5)
    d.c(strip(row(6)), (0, 5))
    gone(d)
    # a commit clears the other account's ask with its own
    quoted(d, 6)
    d.c(commit(51, account=3), (0, 6))
    gone(d)
    d.c(withdraw(3, 6), 0)
    quoted(d, 7)
    d.c(commit(50), (0, 7))
    gone(d)
    d.c(withdraw(1, 7), 0)
    # an ask of a third account clears none
    quoted(d, 8)
    d.c(ask(52, account=2, other=3), (0, 8))
    d.c(commit(50), (0, 8))
    d.c(commit(52, account=2, other=3), 23)
    gone(d)
    # the gate: the book is the one that had no asks
    d.o(market())
    d.c(CLOSE, 0)
    d.k()
    d.o(market())
    quoted(d, 1)
    d.c(CLOSE, 0)
    d.same(1)
    gone(d, 11)


def refused_calls(d):
    """No refused call clears an ask: kind by kind, each refused for what it can be, and then the commit passes."""
    opening = market(operators=((62, 0), (AMPLE, 0)), price=1000, points=[(1, 1, 1, 50, 0)],
                     accounts=((1, 1, 1000, [200] * 4 + [100] + [200] * 19), (2, 2, 1000, 1000), (2, 1, 1000, 1000)))
    d.o(opening)
    d.c(row(7), (0, 1))
    # what account 1 cannot confirm: 201 bought, and 62 sold beside the one above
    d.c(register(2, 1, 3, 1, 1, 1, 201), (0, 2))
    d.c(register(2, 1, 4, 2, 9, 9, 62), (0, 3))
    prices = flat(24, 1, 1)
    by_kind = (
        ((row(7), 14), (row(9, quantity=1000), (18, 1)), (row(9, quantity=62), 19), (row(9, quantity=0), (6, 7)), (row(9, other=1), 7),
         (row(9)[:-1], 5), (remapped(0x01FF, row(9)), (4, 0, 1)), (remapped(0, row(9)), 2)),
        ((confirm(2, 1, 50, 2, 1, 1, 1), 16), (confirm(2, 3, 51, 2, 1, 1, 1), 16), (confirm(2, 1, 7, 2, 1, 1, 2), 17),
         (confirm(1, 2, 3, 2, 1, 1, 201), (18, 1)), (confirm(1, 2, 4, 1, 9, 9, 62), 19), (confirm(1, 1, 4, 1, 9, 9, 62), 7)),
        ((withdraw(1, 100), 16), (withdraw(2, 1), 16), (withdraw(1, 257), (6, 8))),
        ((guarantee(1, 0), 19), (guarantee(3, 1), (6, 9)), (guarantee(1, AMPLE + 1), (6, 10))),
        ((OPEN + b'\x00', 5),),
        ((UNDO, 13),),
        ((KEEP, 13),),
        ((CLOSE + b'\x00', 5), (remapped(3, CLOSE), (4, 0, 1))),
        ((schedule(1, 1, 1, 1, 1), 11), (schedule(1, 1, 1, 2, 1), (6, 11))),
        ((strip(), 21), (strip(row(9), row(9)), 22), (strip(row(9), row(7)), 14), (strip(row(9), row(8, quantity=999)), (18, 1)),
         (strip(row(9), row(8, quantity=61)), 19), (strip(ask(9)), 3), (strip(commit(50)), 3), (strip(row(9), row(8, account=3)), (6, 1))),
        ((ask(7), 14), (ask(9, quantity=1000), (18, 1)), (ask(9, quantity=62), 19), (ask(9, quantity=0), (6, 7)), (ask(9, other=1), 7),
         (ask(9, account=3, quantity=1001), (18, 1))),
        ((commit(9), 23), (commit(7), 23), (commit(50, quantity=2), 23), (commit(51), 23), (commit(50, quantity=0), (6, 7)),
         (commit(50, other=1), 7), (commit(50) + b'\x00', 5)),
        ((b'', 2), (b'\x01\x00', 2), (bare(0), 3), (bare(14), 3), (of_kind(14, row(50)), 3), (of_kind(255, row(50)), 3)))
    number = 4
    for calls in by_kind:
        quoted(d, number)
        d.k()
        for record, want in calls:
            d.c(record, want)
        d.same(1)
        d.c(commit(50), (0, number))
        d.c(withdraw(1, number), 0)
        number += 1
    # settle: 5, 6, 10 and 11
    quoted(d, number)
    d.k()
    d.settle(prices[1:], 5)
    d.settle(flat(24, 400001, 1), (6, 12))
    d.settle(prices, 10, 0, 15)
    d.settle(prices, 11)
    d.same(1)
    d.c(commit(51, account=3), (0, number))
    # 12, with a batch open
    d.c(OPEN, 0)
    d.c(ask(50), (0, number + 1))
    d.k()
    d.c(OPEN, 12)
    d.c(CLOSE, 12)
    d.same(1)
    d.c(commit(50), (0, number + 1))
    d.c(UNDO, (0, 1))
    # readings clear none
    d.c(ask(50), (0, number + 1))
    d.k()
    d.read_all()
    d.h(prices)
    d.same(1)
    d.c(commit(50), (0, number + 1))


def replaced(d):
    """A second ask of the account stands in place of the first: the first cannot be committed."""
    d.o(market())
    d.c(ask(1), (0, 1))
    d.c(ask(2), (0, 1))
    d.c(commit(1), 23)
    d.c(commit(2), (0, 1))
    d.c(commit(1), 23)
    # a field each
    number = 2
    for changed in ({'other': 3}, {'side': 2}, {'first': 1, 'last': 2}, {'quantity': 2}):
        d.c(ask(3), (0, number))
        d.c(ask(3, **changed), (0, number))
        d.k()
        d.c(commit(3), 23)
        d.same(1)
        d.c(commit(3, **changed), (0, number))
        d.c(withdraw(1, number), 0)
        number += 1
    # back to the first
    for code in (4, 5, 4):
        d.c(ask(code), (0, 6))
    d.c(commit(5), 23)
    d.c(commit(4), (0, 6))
    # another account's ask is not replaced
    d.c(ask(6), (0, 7))
    d.c(ask(6, account=3), (0, 7))
    d.c(ask(7), (0, 7))
    d.c(commit(6), 23)
    d.c(commit(6, account=3), (0, 7))
    d.c(commit(7), 23)
    # nothing of the first is left in the bytes
    d.c(ask(0), (0, 8))
    d.k()
    d.c(ask(b'\xff' * 8, other=3, side=2, first=24, last=24, quantity=1000), (0, 8))
    d.same(0)
    d.c(ask(0), (0, 8))
    d.same(1)
    d.c(commit(0), (0, 8))


def two_accounts(d):
    """Asks of several accounts stand side by side, all given the same number; one commit, and the others are 23."""
    d.o(market())
    three = [(1, {}), (2, {'account': 2, 'other': 1, 'side': 2}), (3, {'account': 3})]
    for number, first in enumerate(three, 1):
        for code, changed in three:
            d.c(ask(number * 10 + code, **changed), (0, number))
        d.c(commit(number * 10 + first[0], **first[1]), (0, number))
        for code, changed in three:
            d.c(commit(number * 10 + code, **changed), 23)
    # the other asks again, and is given the next number
    d.c(ask(50), (0, 4))
    d.c(ask(51, account=3), (0, 4))
    d.c(commit(50), (0, 4))
    d.c(commit(51, account=3), 23)
    d.c(ask(51, account=3), (0, 5))
    d.c(commit(51, account=3), (0, 5))
    # every account of the largest day
    d.o(setup([10] * 25, [(AMPLE, 0)] * 16, [(1 + a % 16, 1 + a % 2, 1000, 1000) for a in range(32)]))
    terms = [{'account': a, 'other': 1 + a % 32, 'side': 1 + a % 2, 'first': 1 + a % 25, 'last': 25, 'quantity': 900 + a}
             for a in range(1, 33)]
    for code, changed in enumerate(terms, 1):
        d.c(ask(code, **changed), (0, 1))
    d.k()
    d.c(ask(99, account=32, other=1, quantity=1001), (18, 1))
    d.c(commit(17, **terms[17]), 23)
    d.same(1)
    d.c(commit(17, **terms[16]), (0, 1))
    for code, changed in enumerate(terms, 1):
        d.c(commit(code, **changed), 23)
    for code, changed in ((1, terms[0]), (32, terms[31])):
        d.c(ask(code, **changed), (0, 2))
    d.c(commit(32, **terms[31]), (0, 2))
    d.c(commit(1, **terms[0]), 23)


def margins(d):
    """Asks that meet a margin exactly and pass it by one; an ask weighs on nothing."""
    d.o(market(accounts=((1, 1, 100, 60), (2, 2, 1000, 1000), (2, 1, 1000, 1000))))
    for side, most in ((1, 100), (2, 60)):
        for hour in (1, 24):
            d.c(ask(side, side=side, first=hour, last=hour, quantity=most + 1), (18, hour))
            d.c(ask(side, side=side, first=hour, last=hour, quantity=most), (0, 1))
    d.c(ask(1, quantity=100), (0, 1))
    d.c(ask(2, quantity=100), (0, 1))
    d.c(row(3, first=2, last=2, quantity=30), (0, 1))
    # what is pending, and then confirmed, leaves the rest
    d.c(ask(4, first=1, last=3, quantity=71), (18, 2))
    d.c(ask(4, first=1, last=3, quantity=70), (0, 2))
    d.c(commit(4, first=1, last=3, quantity=70), (0, 2))
    for hour, left in ((1, 30), (2, 0), (3, 30), (4, 100)):
        d.c(ask(5, first=hour, last=hour, quantity=left + 1), (18, hour))
        if left:
            d.c(ask(5, first=hour, last=hour, quantity=left), (0, 3))
    d.c(ask(5, side=2, first=2, last=2, quantity=61), (18, 2))
    d.c(ask(5, side=2, first=2, last=2, quantity=60), (0, 3))
    d.c(confirm(2, 1, 3, 2, 2, 2, 30), (0, 1))
    d.c(ask(5, first=2, last=2, quantity=1), (18, 2))
    d.c(ask(5, side=2, first=2, last=2, quantity=91), (18, 2))
    d.c(ask(5, side=2, first=2, last=2, quantity=90), (0, 3))
    d.c(commit(5, side=2, first=2, last=2, quantity=90), (0, 3))
    # it reserves nothing: the whole room is asked for twice, and the first to be committed has it
    d.c(ask(6, first=9, last=9, quantity=100), (0, 4))
    d.c(ask(7, first=9, last=9, quantity=100), (0, 4))
    d.c(commit(7, first=9, last=9, quantity=100), (0, 4))
    d.c(ask(6, first=9, last=9, quantity=100), (18, 9))
    d.c(ask(6, first=9, last=9, quantity=1), (18, 9))
    # margins by hour: none below in hour 12, another above in each hour
    lower, upper = [50] * 11 + [0] + [50] * 12, list(range(101, 125))
    d.o(market(accounts=((1, 1, lower, upper), (2, 2, 1000, 1000), (2, 1, 1000, 1000))))
    d.c(ask(1, first=1, last=24), (18, 12))
    d.c(ask(1, first=12, last=12), (18, 12))
    d.c(ask(1, first=13, last=24, quantity=51), (18, 13))
    d.c(ask(1, first=13, last=24, quantity=50), (0, 1))
    d.c(ask(1, side=2, first=1, last=24, quantity=102), (18, 1))
    d.c(ask(1, side=2, first=1, last=24, quantity=101), (0, 1))
    for hour in (2, 13, 24):
        d.c(ask(1, side=2, first=hour, last=hour, quantity=101 + hour), (18, hour))
        d.c(ask(1, side=2, first=hour, last=hour, quantity=100 + hour), (0, 1))
    d.c(commit(1, side=2, first=24, last=24, quantity=124), (0, 1))
    d.c(ask(2, side=2, first=23, last=24), (18, 24))


def guarantees(d):
    """Asks that meet the guarantee exactly and pass it by one, of two accounts with one operator."""
    # 100 cents less 100 per thousand are 90,000
    wide = 10 ** 7
    d.o(setup([10, 20, 30] + [10] * 21, [(100, 100), (0, 0)], [(1, 1, wide, wide), (2, 2, wide, wide), (1, 1, wide, wide)]))
    d.c(ask(1, quantity=9001), 19)
    d.c(ask(1, quantity=9000), (0, 1))
    d.c(ask(2, account=3, first=2, last=2, quantity=4501), 19)
    d.c(ask(2, account=3, first=2, last=2, quantity=4500), (0, 1))
    d.e(1, 0, 0)
    # both stand; the one committed takes all
    d.c(commit(2, account=3, first=2, last=2, quantity=4500), (0, 1))
    d.e(1, 0, 90000)
    d.c(commit(1, quantity=9000), 23)
    d.c(ask(1), 19)
    d.c(ask(1, account=3), 19)
    d.c(ask(1, side=2, first=1, last=24, quantity=wide), (0, 2))
    d.c(ask(1, account=2, other=1, side=1), 19)
    d.c(ask(1, account=2, other=1, side=2, quantity=wide), (0, 2))
    d.c(confirm(2, 3, 2, 2, 2, 2, 4500), (0, 1))
    d.c(ask(1), 19)
    # a purchase confirmed makes the sale good: 90,000 again over three hours, 60 for each kWh
    d.c(register(3, 2, 3, 2, 2, 2, 4500), (0, 2))
    d.c(guarantee(2, 90), 0)
    d.c(confirm(2, 3, 3, 1, 2, 2, 4500), (0, 2))
    d.e(1, 0, 0)
    d.c(ask(1, first=1, last=3, quantity=1501), 19)
    d.c(ask(1, first=1, last=3, quantity=1500), (0, 3))
    d.c(commit(1, first=1, last=3, quantity=1500), (0, 3))
    d.c(ask(4, first=24, last=24), 19)
    # a guarantee that is lowered clears the ask, and refuses it then
    d.c(withdraw(1, 3), 0)
    d.c(ask(4, first=24, last=24, quantity=9000), (0, 4))
    d.c(guarantee(1, 99), 0)
    d.c(commit(4, first=24, last=24, quantity=9000), 23)
    d.c(ask(4, first=24, last=24, quantity=9000), 19)
    d.c(ask(4, first=24, last=24, quantity=8911), 19)
    d.c(ask(4, first=24, last=24, quantity=8910), (0, 4))
    d.c(commit(4, first=24, last=24, quantity=8910), (0, 4))
    # 18 before 19; a maintenance of 1000 leaves nothing; an estimate of 0 takes nothing
    d.o(setup([10, 0] + [10] * 22, [(AMPLE, 1000), (AMPLE, 0)], [(1, 1, 100, 100), (2, 2, 100, 100)]))
    d.c(ask(1, quantity=101), (18, 1))
    d.c(ask(1, first=1, last=2), 19)
    d.c(ask(1, first=2, last=2, quantity=100), (0, 1))
    d.c(commit(1, first=2, last=2, quantity=100), (0, 1))
    # the greatest amounts: 25 hours of 10,000,000 at 400,000 are the guarantee of 10^11 to the cent
    d.o(setup([400000] * 25, [(10 ** 11 - 1, 0), (0, 0)], [(1, 1, wide, 0), (2, 2, 0, wide)]))
    d.c(ask(1, last=25, quantity=wide), 19)
    d.c(guarantee(1, 10 ** 11), 0)
    d.c(ask(1, last=25, quantity=wide), (0, 1))
    d.c(commit(1, last=25, quantity=wide), (0, 1))
    d.e(1, 0, 10 ** 14)


def batches(d):
    """Asks in batches are judged on the present part; undo counts a committed row, and nothing of it weighs."""
    opening = market(operators=((10, 0), (AMPLE, 0)), accounts=((1, 1, 100, 100), (2, 2, 100, 100), (2, 1, 100, 100)), price=100)
    d.o(opening)
    d.k()
    d.c(ask(1), (0, 1))
    d.c(OPEN, 0)
    d.c(commit(1), 23)
    d.c(ask(1), (0, 1))
    d.c(commit(1), (0, 1))
    d.c(ask(2, quantity=100), (18, 1))
    d.c(ask(2, quantity=99), (0, 2))
    d.c(ask(3, account=3), (0, 2))
    d.c(UNDO, (0, 1))
    d.same(1)
    d.c(commit(2, quantity=99), 23)
    d.c(commit(3, account=3), 23)
    d.c(ask(2, quantity=100), (0, 1))
    d.c(commit(2, quantity=100), (0, 1))
    # the row of before is withdrawn in the batch, which gives room there only
    d.k()
    d.c(OPEN, 0)
    d.c(ask(3), (18, 1))
    d.c(withdraw(1, 1), 0)
    d.c(ask(3, quantity=100), (0, 2))
    d.c(commit(3, quantity=100), (0, 2))
    d.c(ask(4, first=2, last=2), 19)
    d.c(UNDO, (0, 1))
    d.same(1)
    d.c(ask(3), (18, 1))
    d.c(commit(3, quantity=100), 23)
    # kept, with the ask's row in
    d.c(withdraw(1, 1), 0)
    d.c(OPEN, 0)
    d.c(ask(3, quantity=60), (0, 2))
    d.c(commit(3, quantity=60), (0, 2))
    d.c(ask(4, quantity=40), (0, 3))
    d.c(KEEP, 0)
    d.c(commit(4, quantity=40), 23)
    d.c(UNDO, 13)
    d.c(ask(4, quantity=41), (18, 1))
    d.c(ask(4, quantity=40), (0, 3))
    d.c(commit(4, quantity=40), (0, 3))
    d.c(CLOSE, 0)
    # a guarantee raised in the batch: the ask passes there, and not after the undo
    d.o(market(operators=((0, 0), (AMPLE, 0))))
    d.c(ask(1), 19)
    d.c(OPEN, 0)
    d.c(guarantee(1, 1), 0)
    d.c(ask(1, quantity=101), 19)
    d.c(ask(1, quantity=100), (0, 1))
    d.c(UNDO, (0, 0))
    d.c(commit(1, quantity=100), 23)
    d.c(ask(1), 19)
    d.c(OPEN, 0)
    d.c(guarantee(1, 1), 0)
    d.c(ask(1, quantity=100), (0, 1))
    d.c(commit(1, quantity=100), (0, 1))
    d.c(UNDO, (0, 1))
    d.c(commit(1, quantity=100), 23)
    d.c(ask(1), 19)
    # an undone batch is matched with an empty kept one; with nothing in its place the commit would pass
    for between in ([(OPEN, 0), (row(2, quantity=50), (0, 1)), (ask(9), (0, 2)), (UNDO, (0, 1))], [(OPEN, 0), (KEEP, 0)]):
        d.o(opening)
        d.c(ask(1), (0, 1))
        for record, want in between:
            d.c(record, want)
        d.c(commit(1), 23)
        d.c(commit(9), 23)
        d.c(ask(1, quantity=100), (0, 1))
        d.c(commit(1, quantity=100), (0, 1))
        if between[-1][0] == UNDO:
            d.k()
    d.same(1)
    d.o(opening)
    d.c(ask(1), (0, 1))
    d.c(commit(1), (0, 1))


def place(account):
    return AT + PLACE_BYTES * (account - 1)


def put(d, account, record, status=1):
    """Puts an ask into the place of an account: the fields of a record from its account on, and the status."""
    d.p(place(account), record[3:] + bytes([status]))


def tried(d, account, record, book, status=1):
    """Is it a book with this ask in the place of an account? Then the place is zeros again."""
    put(d, account, record, status)
    if book:
        d.a(1, 1, 0)
        d.c(commit(99, account=account, other=3 - account if account < 3 else 1), 23)
    else:
        d.a(1, 1, 1)
        d.c(as_commit(record), 1)
    d.p(place(account), bytes(PLACE_BYTES))


def full_book(d):
    """An ask is given number 256, and is 15 where 256 rows have numbers, withdrawn ones too."""
    d.o(market())
    for turn in range(10):
        d.c(strip(*rows(24, 24 * turn)), (0, 1 + 24 * turn))
    d.c(strip(*rows(14, 240)), (0, 241))
    d.c(withdraw(1, 254), 0)
    d.c(ask(400), (0, 255))
    d.c(commit(400), (0, 255))
    d.c(ask(401), (0, 256))
    d.c(ask(401, account=3), (0, 256))
    d.k()
    d.c(ask(0), 14)
    d.c(ask(402, quantity=1000), (18, 1))
    d.same(1)
    # 255 rows: an ask that is put down is a book's
    d.p(place(1), bytes(PLACE_BYTES))
    tried(d, 1, ask(402), True)
    put(d, 1, ask(401))
    d.same(1)
    d.c(OPEN, 0)
    d.c(ask(401), (0, 256))
    d.c(commit(401), (0, 256))
    for record in (ask(402), ask(402, account=3), ask(402, quantity=10 ** 7), row(402)):
        d.c(record, 15)
    tried(d, 1, ask(402), False)
    d.c(UNDO, (0, 1))
    d.c(ask(401), (0, 256))
    d.c(ask(401, account=3), (0, 256))
    d.c(commit(401, account=3), (0, 256))
    d.k()
    d.c(commit(401), 23)
    d.c(ask(401), 15)
    d.c(ask(0), 14)
    d.c(ask(0, quantity=0), (6, 7))
    d.c(ask(0, other=1), 7)
    d.c(commit(0), 23)
    d.same(1)
    # 256 rows: no book has an ask
    for account, record in ((1, ask(402)), (1, ask(253)), (3, ask(402, account=3)), (2, ask(402, account=2, other=1, side=2))):
        tried(d, account, record, False)
    d.same(1)
    d.c(withdraw(3, 256), 0)
    d.c(ask(402), 15)
    tried(d, 1, ask(402), False)
    d.c(confirm(2, 1, 0, 2, 1, 1, 1), (0, 1))
    d.c(ask(402), 15)
    d.c(commit(402), 23)
    d.c(CLOSE, 0)
    d.c(ask(402), 11)


def after_gate(d):
    """11 once the gate is closed, after all that the input alone decides and before 23 and all else."""
    d.o(TIGHT)
    d.c(row(7), (0, 1))
    d.c(ask(1), (0, 2))
    d.c(CLOSE, 0)
    for last in (False, True):
        d.k()
        d.c(row(1), 11)
        for make in (as_ask, as_commit):
            d.c(make(row(1)), 11)
            for want, record in FAULTY:
                if want[0] != 3:
                    d.c(make(record), want if want[0] < 11 else 11)
            d.c(make(row(1))[:-1], 5)
            d.c(make(row(1)) + b'\x00', 5)
            d.c(make(row(1))[:2], 2)
        d.same(1)
        # no book has an ask after phase 1
        tried(d, 1, ask(1), False)
        tried(d, 3, ask(1, account=3, side=2), False)
        d.same(1)
        d.e(1, 0, 0)
        if not last:
            d.settle(flat(24, 1, 1), 0, 0, 16, ([], [0, 0]))


def twins(d):
    """An ask is no row: asks that are alike stand side by side, and a register like an ask passes."""
    d.o(market())
    d.c(ask(5), (0, 1))
    d.c(ask(5, account=2, other=1, side=2), (0, 1))
    d.c(ask(5, account=3), (0, 1))
    d.c(ask(5, account=3, other=1), (0, 1))
    d.c(ask(5, quantity=9), (0, 1))
    d.c(row(5), (0, 1))
    for record in (commit(5), commit(5, quantity=9), commit(5, account=3, other=1), commit(5, account=2, other=1, side=2)):
        d.c(record, 23)
    # now it is one: 14 for the same proposer, counterparty and code alone
    d.k()
    d.c(ask(5), 14)
    d.c(ask(5, side=2, first=2, last=9, quantity=7), 14)
    d.same(1)
    d.c(ask(5, other=3), (0, 2))
    d.c(ask(5 + (1 << 56)), (0, 2))
    d.c(ask(5, account=3), (0, 2))
    d.c(ask(5, account=2, other=1), (0, 2))
    d.c(commit(5, account=2, other=1), (0, 2))
    # confirmed or withdrawn it is alike no more
    d.c(confirm(2, 1, 5, 2, 1, 1, 1), (0, 1))
    d.c(ask(5), (0, 3))
    d.c(commit(5), (0, 3))
    d.c(ask(5), 14)
    d.c(withdraw(1, 3), 0)
    d.c(ask(5), (0, 4))
    # a strip, too, is judged without the asks
    d.c(strip(row(6), row(5)), (0, 4))
    d.c(commit(5), 23)
    d.c(ask(5), 14)
    d.c(ask(6), 14)


def poked(d):
    """Asks put down as bytes: what register would refuse is no book, and what it would just take is one."""
    wide = 10 ** 7
    d.o(market(23, accounts=((1, 1, wide, wide), (2, 2, 1000, 1000), (2, 1, 1000, 1000))))
    # the bytes of an ask that is called for are those put down
    d.k()
    long = {'side': 2, 'first': 3, 'last': 22, 'quantity': 0x040302}
    d.c(ask(0x0807060504030201, **long), (0, 1))
    d.p(place(1), bytes(PLACE_BYTES))
    d.same(1)
    d.c(commit(0x0807060504030201, **long), 23)
    d.p(place(1), bytes([1, 2, 1, 2, 3, 4, 5, 6, 7, 8, 2, 3, 22, 2, 3, 4, 0, 1]))
    d.c(commit(0x0807060504030201, **long), (0, 1))
    d.c(withdraw(1, 1), 0)
    d.c(ask(9, account=3, other=1), (0, 2))
    d.k()
    d.p(place(3), bytes(PLACE_BYTES))
    d.same(0)
    d.p(place(3), bytes([3, 1, 9, 0, 0, 0, 0, 0, 0, 0, 1, 1, 1, 1, 0, 0, 0, 1]))
    d.same(1)
    d.c(commit(9, account=3, other=1), (0, 2))
    # another account's place, and the place of an account that the day has not
    d.k()
    tried(d, 1, ask(1), True)
    tried(d, 1, ask(1, account=3), False)
    tried(d, 1, ask(1, account=2, other=1), False)
    tried(d, 2, ask(1), False)
    tried(d, 2, ask(1, account=2, other=1), True)
    tried(d, 3, ask(1), False)
    tried(d, 3, ask(1, account=3), True)
    for account in (4, 5, 17, 32):
        tried(d, account, ask(1, account=account), False)
        tried(d, account, ask(1), False)
    # the status, beside a row and alone; each byte of a place alone
    for status in (0, 2, 3, 4, 129, 255):
        tried(d, 1, ask(1), False, status)
    for byte in range(PLACE_BYTES):
        d.p(place(2) + byte, b'\x01')
        d.a(1, 1, 1)
        d.p(place(2) + byte, b'\x00')
    d.p(place(32), b'\xff' * PLACE_BYTES)
    d.c(OPEN, 1)
    d.p(place(32), bytes(PLACE_BYTES))
    # each field past its ends, and at them
    for book, changes in ((False, ({'other': 0}, {'other': 4}, {'other': 255}, {'side': 0}, {'side': 3}, {'side': 255}, {'first': 0},
                                   {'first': 24, 'last': 24}, {'last': 24}, {'first': 5, 'last': 4}, {'last': 0}, {'quantity': 0},
                                   {'quantity': FAR}, {'quantity': 2 ** 32 - 1}, {'other': 1}, {'account': 0}, {'account': 4})),
                          (True, ({'other': 3}, {'side': 2}, {'first': 23, 'last': 23}, {'last': 23}, {'first': 5, 'last': 5},
                                  {'quantity': wide}, {'side': 2, 'last': 23, 'quantity': wide}))):
        for changed in changes:
            tried(d, 1, ask(1, **changed), book)
    for code in (0, b'\xff' * 8, 1 << 63):
        tried(d, 1, ask(code), True)
    d.same(1)
    # two at once: one that is refused is enough. Account 3 has one kWh pending
    put(d, 1, ask(1))
    put(d, 3, ask(1, account=3, quantity=1000))
    d.e(1, 1)
    put(d, 3, ask(1, account=3, quantity=999))
    d.e(1, 0, 0)
    put(d, 1, ask(1, quantity=0))
    d.c(commit(1, account=3, quantity=999), 1)
    d.c(ask(2), 1)
    d.c(row(2), 1)
    d.h(flat(23, 1, 1))
    put(d, 1, ask(1))
    d.c(commit(1, account=3, quantity=999), (0, 3))
    # a byte behind the places
    for at in (END, END + 1, LAST - 9):
        d.p(at, b'\x01')
        d.c(ask(1), 1)
        d.p(at, b'\x00')
    d.c(ask(1), (0, 4))
    # opening fills the places too
    put(d, 2, ask(1, quantity=0))
    d.c(CLOSE, 1)
    d.o(market())
    d.c(commit(1), 23)
    d.k()
    d.c(ask(1), (0, 1))
    d.o(market())
    d.same(1)


def poked_state(d):
    """Asks put down in books that refuse them by 14, 18 and 19, and just do not."""
    d.o(TIGHT)
    d.c(row(7), (0, 1))
    # 14: proposer, counterparty and code alone, of a row that is pending
    tried(d, 1, ask(7), False)
    tried(d, 1, ask(7, side=2, first=9, last=9, quantity=3), False)
    for account, record in ((1, ask(8)), (1, ask(7, other=3)), (1, ask(7 + (1 << 63))), (2, ask(7, account=2, other=1)),
                            (3, ask(7, account=3))):
        tried(d, account, record, True)
    # 18: 200 bought in an hour, 100 in hour 5; 19: 61 more sold
    for record, book in ((ask(8, side=2, first=4, last=4, quantity=200), True), (ask(8, side=2, first=4, last=4, quantity=201), False),
                         (ask(8, side=2, first=1, last=24, quantity=100), True), (ask(8, side=2, first=1, last=24, quantity=101), False),
                         (ask(8, side=2, first=5, last=5, quantity=101), False), (ask(8, side=2, first=6, last=24, quantity=200), True),
                         (ask(8, quantity=61), True), (ask(8, quantity=62), False), (ask(8, first=24, last=24, quantity=62), False)):
        tried(d, 1, record, book)
    for quantity, book in ((1000, True), (1001, False)):
        tried(d, 3, ask(8, account=3, quantity=quantity), book)
        tried(d, 3, ask(8, account=3, side=2, first=24, last=24, quantity=quantity), book)
    # together they would be too much: each is judged by itself
    put(d, 1, ask(8, quantity=61))
    put(d, 3, ask(8, account=3, quantity=1000))
    put(d, 2, ask(8, account=2, other=3, quantity=1000))
    d.e(1, 0, 1000)
    d.c(ask(7), 14)
    d.c(commit(8, quantity=61), (0, 2))
    d.e(1, 0, 62000)
    # nothing is left
    tried(d, 1, ask(9), False)
    tried(d, 1, ask(9, side=2), True)
    # the rows of before are ended: withdrawn, then confirmed
    d.c(withdraw(1, 1), 0)
    tried(d, 1, ask(7), True)
    tried(d, 1, ask(7, quantity=2), False)
    d.c(confirm(2, 1, 8, 2, 1, 1, 61), (0, 2))
    tried(d, 1, ask(8), True)
    tried(d, 1, ask(8, first=24, last=24, quantity=2), False)
    tried(d, 1, ask(8, side=2, quantity=261), True)
    tried(d, 1, ask(8, side=2, quantity=262), False)
    # as counterparty, and by the other operator
    tried(d, 2, ask(8, account=2, other=1, quantity=1061), True)
    tried(d, 2, ask(8, account=2, other=1, quantity=1062), False)
    # in a batch the present part decides: a guarantee lowered, raised, and rows of the batch
    d.c(guarantee(1, 61), 0)
    d.c(OPEN, 0)
    tried(d, 1, ask(9), False)
    d.c(guarantee(1, 63), 0)
    tried(d, 1, ask(9, quantity=2), True)
    tried(d, 1, ask(9, quantity=3), False)
    d.c(row(9), (0, 3))
    tried(d, 1, ask(9), False)
    tried(d, 1, ask(10), True)
    tried(d, 1, ask(10, quantity=2), False)
    d.k()
    put(d, 1, ask(10))
    d.same(0)
    d.c(UNDO, (0, 1))
    d.c(commit(10), 23)
    tried(d, 1, ask(9), False)
    d.c(guarantee(1, 62), 0)
    d.c(OPEN, 0)
    d.c(guarantee(1, 61), 0)
    tried(d, 1, ask(9), False)
    d.c(KEEP, 0)
    tried(d, 1, ask(9), False)
    d.c(guarantee(1, 62), 0)
    put(d, 1, ask(9))
    d.c(commit(9), (0, 3))


def settled(d):
    """Rows that were asked for and committed are traded and settled like any others."""
    d.o(market(points=[(1, 1, 1, 50, 0)]))
    d.c(ask(1, first=1, last=3, quantity=10), (0, 1))
    d.c(commit(1, first=1, last=3, quantity=10), (0, 1))
    d.c(ask(2, account=2, other=1, side=2, first=3, last=4, quantity=20), (0, 2))
    # an ask that stands has no weight in what is valued
    d.h(flat(24, 7, 9), {})
    d.c(confirm(2, 1, 1, 2, 1, 3, 10), (0, 1))
    d.c(commit(2, account=2, other=1, side=2, first=3, last=4, quantity=20), 23)
    d.c(ask(2, account=2, other=1, side=2, first=3, last=4, quantity=20), (0, 2))
    d.c(commit(2, account=2, other=1, side=2, first=3, last=4, quantity=20), (0, 2))
    d.c(confirm(1, 2, 2, 1, 3, 4, 20), (0, 2))
    d.c(ask(3), (0, 3))
    d.c(commit(3), (0, 3))
    d.c(ask(4), (0, 4))
    for hour, net in ((1, -10), (2, -10), (3, -30), (4, -20), (5, 0)):
        d.a(1, hour, 0, net)
        d.a(2, hour, 0, -net)
    d.e(1, 0, 700 + 10)
    d.c(CLOSE, 0)
    d.e(1, 0, 700)
    d.c(schedule(1, 3, 25, 1, 9), (0, 1))
    d.c(schedule(1, 4, 21, 1, 9), (0, 2))
    # 70 short and 25 injected at PUN 7: -315, and 25 * (9 - 7) more
    d.settle(flat(24, 7, 9), 0, 2, 16, ([0, 2], [-315 + 50, 490]))
    d.c(ask(4), 11)
    d.c(commit(4), 11)


DAYS = (equal_numbers, as_register, commits_refused, ranks, differing, cleared, refused_calls, replaced, two_accounts, margins,
        guarantees, batches, full_book, after_gate, twins, poked, poked_state, settled)
