"""Calls and readings of the energy account book, its replay, and the ledger beside it."""
import copy

import asks
import hourly
import strips
from market_rules import (BOOK_BYTES, MOST_PRICE, MOST_SCHEDULES, PENDING, STREAM_BYTES,
                          WITHDRAWN, Schedule, confirm, exposure_of, fault_bit, number,
                          open_book, operator_balances, position, price_at, read_record, register,
                          row_of, schedule_results, withdraw)


def read_prices(table):
    return [number(table[at:at + 4]) for at in range(0, len(table), 4)]


def call(book, record, table=b'', results=b'', balances=b'', size=BOOK_BYTES):
    """One call of any kind: (verdict, detail, detail).

    `book` is None where the lent bytes are no book; `results` and `balances` are lent
    bytearrays that only settle looks at. Accepted, every call but an ask clears all asks.
    """
    if book is None or size != BOOK_BYTES:
        return 1, 0, 0
    verdict = answer(book, record, table, results, balances)
    if verdict[0] == 0 and record[2] != asks.ASK:
        book.asks = {}
    return verdict


def answer(book, record, table, results, balances):
    """The verdict of a call on a book, and what it changes but for the clearing of asks."""
    if strips.is_strip(record):
        return strips.register_all(book, record)
    refusal, fields = read_record(record)
    if refusal:
        return refusal
    kind = fields[0]
    if kind == 10 and len(table) != 4 * book.hours * (1 + book.zones):
        return 5, 0, 0
    bit = fault_bit(book, fields)
    if bit is not None:
        return 6, bit, 0
    prices = []
    if kind == 10:
        prices = read_prices(table)
        if max(prices) > MOST_PRICE:
            return 6, 12, 0
    if kind in (1, 2, asks.ASK, asks.COMMIT) and fields[1] == fields[2]:
        return 7, 0, 0
    if kind == 10 and (len(results) < len(book.schedules) or len(balances) < 8 * len(book.guarantees)):
        return 10, 0, 0
    if book.phase != (2 if kind in (9, 10) else 1):
        return 11, 0, 0
    if kind in (5, 8) and book.saved is not None:
        return 12, 0, 0
    if kind in (6, 7) and book.saved is None:
        return 13, 0, 0
    if kind == 1:
        return register(book, row_of(fields))
    if kind == 2:
        return confirm(book, row_of(fields))
    if kind == 3:
        return withdraw(book, fields[1], fields[8])
    if kind == asks.ASK:
        return asks.ask(book, row_of(fields))
    if kind == asks.COMMIT:
        return asks.commit(book, row_of(fields))
    if kind == 4:
        operator, cents = fields[9], fields[10]
        if book.available(operator, cents) < exposure_of(book, book.rows, operator):
            return 19, 0, 0
        book.guarantees[operator - 1] = cents
    elif kind == 5:
        book.saved = tuple(book.rows), tuple(book.guarantees)
    elif kind == 6:
        count = len(book.rows) - len(book.saved[0])
        book.rows, book.guarantees = list(book.saved[0]), list(book.saved[1])
        book.saved = None
        return 0, count, 0
    elif kind == 7:
        book.saved = None
    elif kind == 8:
        book.rows = [row._replace(status=WITHDRAWN) if row.status == PENDING else row for row in book.rows]
        book.phase = 2
    elif kind == 9:
        if len(book.schedules) >= MOST_SCHEDULES:
            return 20, 0, 0
        book.schedules.append(Schedule(fields[4], fields[5], fields[7], fields[11], fields[12]))
        return 0, len(book.schedules), 0
    elif kind == 10:
        given = schedule_results(book, prices)
        money = operator_balances(book, prices, given)
        results[:len(given)] = bytes(given)
        for place, balance in enumerate(money):
            balances[8 * place:8 * place + 8] = balance.to_bytes(8, 'little', signed=True)
        book.phase = 3
    return 0, 0, 0


def net_position(book, account, hour):
    """(verdict, detail, detail), then the net position where the verdict is 0."""
    if book is None:
        return 1, 0, 0
    if not 1 <= account <= len(book.accounts):
        return 6, 1, 0
    if not 1 <= hour <= book.hours:
        return 6, 5, 0
    return 0, 0, 0, position(book, book.rows, account)[0][hour - 1]


def exposure(book, operator):
    """(verdict, detail, detail), then the exposure where the verdict is 0."""
    if book is None:
        return 1, 0, 0
    if not 1 <= operator <= len(book.guarantees):
        return 6, 9, 0
    return 0, 0, 0, exposure_of(book, book.rows, operator)


def replay(stream):
    """The text that the replay of a day's stream prints."""
    if len(stream) > STREAM_BYTES:
        return 'long\n'
    lines, at, item, book = [], 0, 0, None
    while at < len(stream):
        end = at + 2 + number(stream[at:at + 2])
        if len(stream) - at < 2 or end > len(stream):
            lines.append('cut %d' % item)
            break
        body = stream[at + 2:end]
        at = end
        if item == 0:
            verdict, book = open_book(body)
            lines.append('0 %d %d %d' % verdict)
            if book is None:
                break
        else:
            split = 3 if len(body) > 2 and body[2] == 10 else len(body)
            results, balances = bytearray(256), bytearray(128)
            verdict = call(book, body[:split], body[split:], results, balances)
            lines.append('%d %d %d %d' % (item, *verdict))
            if verdict[0] == 0 and body[2] == 10:
                lines += ['s %d %d' % (place, results[place - 1])
                          for place in range(1, len(book.schedules) + 1)]
                money = [int.from_bytes(balances[at8:at8 + 8], 'little', signed=True)
                         for at8 in range(0, 8 * len(book.guarantees), 8)]
                lines += ['o %d %d' % pair for pair in enumerate(money, 1)]
                lines.append('t %d' % sum(money))
        item += 1
    return ''.join(line + '\n' for line in lines)


class Ledger:
    """What must hold after any list of calls, from the records and whether each was accepted."""

    def __init__(self, setup):
        self.plain = open_book(setup)[1]
        self.guarantees = list(self.plain.guarantees)
        self.pending = {}
        self.trades = []
        self.schedules = []
        self.next_number = 1
        self.copied = None

    def feed(self, record, accepted):
        if not accepted:
            return
        if strips.is_strip(record):
            for row in strips.split(record)[1]:
                self.feed(row, True)
            return
        fields = read_record(record)[1]
        kind = fields[0]
        if kind in (1, asks.COMMIT):
            self.pending[self.next_number] = row_of(fields)
            self.next_number += 1
        elif kind == 2:
            own = row_of(fields)
            for name, row in self.pending.items():
                if (row.account, row.other, row.code) == (own.other, own.account, own.code):
                    break
            del self.pending[name]
            self.trades.append(own)
        elif kind == 3:
            del self.pending[fields[8]]
        elif kind == 4:
            self.guarantees[fields[9] - 1] = fields[10]
        elif kind == 5:
            self.copied = None
            self.copied = copy.deepcopy(self.__dict__)
        elif kind == 6:
            self.__dict__.update(self.copied)
            self.copied = None
        elif kind == 8:
            self.pending = {}
        elif kind == 9:
            self.schedules.append(fields)

    def net(self, account, hour):
        total = 0
        for trade in self.trades:
            if trade.first <= hour <= trade.last:
                total += trade.quantity * ((trade.account == account) - (trade.other == account)) \
                    * (1 if trade.side == 2 else -1)
        return total

    def exposure(self, operator):
        total = 0
        for account, has in enumerate(self.plain.accounts, 1):
            if has.operator != operator:
                continue
            for hour, price in enumerate(self.plain.estimates, 1):
                total += price * max(0, -self.net(account, hour))
                total += sum(price * row.quantity for row in self.pending.values()
                             if row.account == account and row.side == 1 and row.first <= hour <= row.last)
        return total

    def hourly_exposure(self, operator, hour):
        energy = 0
        for account, has in enumerate(self.plain.accounts, 1):
            if has.operator == operator:
                energy += max(0, -self.net(account, hour))
        for row in self.pending.values():
            if self.plain.accounts[row.account - 1].operator == operator and row.side == 1 and row.first <= hour <= row.last:
                energy += row.quantity
        return energy * self.plain.estimates[hour - 1]

    def check(self, book):
        """Compares every reading of the book with the ledger, and the limits."""
        for hour in range(1, book.hours + 1):
            nets = [net_position(book, account, hour)[3] for account in range(1, len(book.accounts) + 1)]
            assert sum(nets) == 0
            for account, net in enumerate(nets, 1):
                assert net == self.net(account, hour)
                has = book.accounts[account - 1]
                assert -has.lower[hour - 1] <= net <= has.upper[hour - 1]
        for operator in range(1, len(book.guarantees) + 1):
            owed = exposure(book, operator)[3]
            assert owed == self.exposure(operator)
            columns = [self.hourly_exposure(operator, hour) for hour in range(1, book.hours + 1)]
            assert columns == [hourly.hourly_exposure(book, operator, hour)[3] for hour in range(1, book.hours + 1)]
            assert owed == sum(columns)
            assert owed <= self.guarantees[operator - 1] * (1000 - book.maintenance[operator - 1])
        assert self.guarantees == book.guarantees

    def check_total(self, book, prices, money):
        """Balances total the registered schedules at their prices."""
        total = 0
        for entry, result in zip(book.schedules, schedule_results(book, prices)):
            point = book.points[entry.point - 1]
            zone = 0 if entry.side == 2 and point.kind == 2 else point.zone
            if result == 0:
                total += (1 if entry.side == 1 else -1) * entry.quantity * price_at(
                    book, prices, zone, entry.hour)
        assert total == sum(money)
        assert len(self.schedules) == len(book.schedules)


def matched(calls, verdicts):
    """The list with each undone batch replaced by an empty kept one: a record and the place of the call it is, or None.

    The open stays, all that follows it up to the undo goes, and a keep stands in the place of the undo.
    """
    kept, opened = [], None
    for place, (record, verdict) in enumerate(zip(calls, verdicts)):
        if verdict[0] == 0 and record[2] == 6:
            del kept[opened + 1:]
            kept.append((b'\x01\x00\x07', None))
            continue
        kept.append((record, place))
        if verdict[0] == 0 and record[2] == 5:
            opened = len(kept) - 1
    return kept
