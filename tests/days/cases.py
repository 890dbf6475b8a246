"""Writes test cases and the lines they print."""
import copy

import asks
import hourly
import reading
import valuation
from records import le, SETTLE

SIZE = reading.BOOK_BYTES


class Days:
    """The tested program as the cases see it: one book buffer and a remembered copy.

    The buffer is a book, or bytes that are surely none (`plain` names them: the zero
    buffer or a buffer of one byte throughout). `damage` holds bytes put into places that
    are zero in every book, `spoilt` the places of the asks where no such asks can stand.
    """

    def __init__(self):
        self.input = bytearray()
        self.lines = []
        self.book, self.plain, self.damage, self.spoilt = None, 'zero', {}, None
        self.remembered = self.state()

    def state(self):
        return (self.book.state() if self.book else self.plain), tuple(sorted(self.damage.items())), self.spoilt

    def present(self):
        return None if self.damage or self.spoilt else self.book

    def case(self, tag, body=b''):
        self.input += tag.encode() + le(len(body), 2) + body

    def say(self, *words):
        self.lines.append(' '.join(str(word) for word in words))

    def expect(self, verdict, want):
        if want is not None:
            want = (want, 0, 0) if isinstance(want, int) else (tuple(want) + (0, 0))[:3]
            assert tuple(verdict[:3]) == want, (verdict, want, len(self.lines))

    def o(self, setup, want=0):
        """Opens a day. Where it is accepted, the day before it ends."""
        verdict, book = reading.open_book(setup)
        if book:
            self.end_day()
        self.case('o', setup)
        if book:
            self.book, self.plain, self.damage, self.spoilt = book, None, {}, None
        self.expect(verdict, want)
        self.say('o', *verdict)

    def c(self, record, want=None, table=b'', results=0, balances=0):
        """A call with two buffers of the given sizes, AA throughout before it."""
        assert results <= 512 and balances <= 512
        self.case('c', le(results, 2) + le(balances, 2) + le(len(record), 2) + record + table)
        first, second = bytearray(b'\xaa' * results), bytearray(b'\xaa' * balances)
        before = self.state()
        verdict = reading.call(self.present(), record, table, first, second)
        if verdict[0]:
            assert self.state() == before and set(first + second) <= {0xAA}
        self.expect(verdict, want)
        self.say('c', *verdict)
        if verdict[0] == 0 and record[2] == 10:
            self.lines.append('r ' + first.hex())
            self.lines.append('b ' + second.hex())
        return verdict, bytes(first), bytes(second)

    def settle(self, table, want=0, results=256, balances=128, values=None):
        """Settles; `values` are expected results and balances."""
        verdict, first, second = self.c(SETTLE, want, table, results, balances)
        if values:
            given, money = values
            assert list(first[:len(given)]) == given, list(first[:len(given)])
            got = [int.from_bytes(second[8 * i:8 * i + 8], 'little', signed=True) for i in range(len(money))]
            assert got == money, got

    def a(self, account, hour, want=None, value=None):
        self.case('a', bytes([account, hour]))
        verdict = reading.net_position(self.present(), account, hour)
        self.expect(verdict, want)
        assert value is None or verdict[3] == value, verdict
        self.say('a', account, hour, *verdict)

    def e(self, operator, want=None, value=None):
        self.case('e', bytes([operator]))
        verdict = reading.exposure(self.present(), operator)
        self.expect(verdict, want)
        assert value is None or verdict[3] == value, verdict
        self.say('e', operator, *verdict)

    def i(self, operator, first, last, want=None, values=None):
        """Hourly exposures from the first hour to the last: `want` is the verdict of each, `values` are the money of all."""
        self.case('i', bytes([operator, first, last]))
        before = self.state()
        read = [hourly.hourly_exposure(self.present(), operator, hour) for hour in range(first, last + 1)]
        assert self.state() == before
        for hour, verdict in enumerate(read, first):
            self.expect(verdict, want)
            self.say('i', operator, hour, *verdict)
        assert values is None or [verdict[3] for verdict in read] == values, read

    def h(self, table, want=None, part=None):
        """Values every account hour and gives the figures, or None where nothing is printed.

        `want` are the figures of all account hours that are not zero throughout, `part` those of some.
        """
        self.case('h', table)
        before = self.state()
        valued = valuation.value_book(self.present(), table)
        assert self.state() == before
        if want is not None:
            assert {at: tuple(has) for at, has in valued.items() if any(has)} == want, (valued, want)
        for at, figures in (part or {}).items():
            assert valued[at] == figures, (at, valued[at])
        self.lines += valuation.lines(valued)
        return valued

    def k(self):
        self.case('k')
        self.remembered = copy.deepcopy(self.state())

    def same(self, want):
        self.case('=')
        equal = int(self.state() == self.remembered)
        assert equal == want
        self.say('=', equal)

    def p(self, offset, data):
        """Bytes put into the places of the asks, into the spare room behind them, or into the whole buffer."""
        self.case('p', le(offset, 2) + data)
        if len(data) == SIZE and offset == 0:
            self.book, self.plain, self.damage, self.spoilt = None, data[:1].hex(), {}, None
            return
        assert self.book is not None
        if asks.AT <= offset and offset + len(data) <= asks.END:
            places = bytearray(self.spoilt or asks.image(self.book))
            places[offset - asks.AT:offset - asks.AT + len(data)] = data
            found = asks.standing(self.book, places)
            self.book.asks, self.spoilt = found or {}, bytes(places) if found is None else None
            return
        assert offset >= asks.END and offset + len(data) <= SIZE
        for place, byte in enumerate(data, offset):
            if byte:
                self.damage[place] = byte
            else:
                self.damage.pop(place, None)

    def read_all(self):
        """Every account, hour and operator once."""
        for account in range(1, len(self.book.accounts) + 1):
            for hour in range(1, self.book.hours + 1):
                self.a(account, hour, 0)
        for operator in range(1, len(self.book.guarantees) + 1):
            self.e(operator, 0)
        self.read_hours()

    def read_hours(self):
        """Every operator's exposure, hour by hour."""
        for operator in range(1, len(self.book.guarantees) + 1):
            self.i(operator, 1, self.book.hours, 0)
            hourly.check(self.book, operator, reading.exposure(self.book, operator)[3])

    def end_day(self):
        """Reads every hour of the book as it is left, and one of a number that no operator has; where it is no book, one hour."""
        if self.present() is None:
            self.i(1, 1, 1, 1)
            return
        self.read_hours()
        self.i(len(self.book.guarantees) + 1, 1, 1, (6, 9))

    def text(self):
        return ''.join(line + '\n' for line in self.lines)
