"""Cases for crates/book_test as it reads them, each a tag, a 2-byte length and that many bytes, with the lines that it is to print.

The room is kept here as it stands in the program: 65,536 bytes, of which the first 49,152 are the book.
"""
from book import BOOK, Book, exposure_reading, fault, net_reading
from document import ACCEPTED, low_first, setup_verdict
from stream import line

ROOM = 65_536


class Room:
    def __init__(self):
        self.bytes, self.lines, self.cases, self.room = b"", [], 0, bytearray(ROOM)

    def case(self, tag, body, lines):
        self.bytes += tag.encode() + low_first(len(body), 2) + body
        self.lines += lines
        self.cases += 1

    def book(self):
        return bytes(self.room[:BOOK])

    def open(self, setup, lent=BOOK):
        verdict = setup_verdict(setup) if lent == BOOK else (1, 0, 0)
        if verdict == ACCEPTED:
            self.room[:BOOK] = Book(setup).image()
        self.case("o", low_first(lent, 2) + setup, [line("o", *verdict)])

    def put(self, at, new):
        self.room[at:at + len(new)] = new
        self.case("p", low_first(at, 2) + new, [])

    def judge(self, expected="", length=BOOK):
        """What is expected ('' for a book) is said by the case; the reading must agree before the program is asked."""
        found = fault(bytes(self.room[:length])) or ""
        assert found == expected, (expected, found)
        self.case("l", low_first(length, 2), [line("l", length, 0 if found else 1)])

    def become(self, book, expected=""):
        """Changes what stands in the room into the image of a plain book, and asks whether that is a book ('' where it is)."""
        wanted = book.image()
        at = 0
        while at < BOOK:
            if self.room[at] == wanted[at]:
                at += 1
                continue
            end = at + 1
            # as far as the next 8 bytes that stay
            while self.room[end:min(end + 8, BOOK)] != wanted[end:min(end + 8, BOOK)]:
                end += 1
            self.put(at, wanted[at:end])
            at = end
        self.judge(expected)

    def damage(self, at, new, expected=None):
        """One byte changed and put back. What is expected is what is wrong then, '' where it stays a book, or not said."""
        old = self.room[at]
        assert expected is None or old != new, (at, new)
        self.room[at] = new
        found = fault(self.book()) or ""
        assert expected in (None, found), (at, new, expected, found)
        self.case("d", low_first(at, 2) + bytes([new]), [line("d", at, new, 0 if found else 1)])
        self.room[at] = old

    def net(self, account, hour):
        verdict, figure = net_reading(self.book(), account, hour)
        self.case("a", bytes([account, hour]), [line("a", account, hour, *verdict, *([] if figure is None else [figure]))])

    def exposure(self, operator):
        verdict, figure = exposure_reading(self.book(), operator)
        self.case("e", bytes([operator]), [line("e", operator, *verdict, *([] if figure is None else [figure]))])

    def show(self, at, many):
        self.case("x", low_first(at, 2) + low_first(many, 2), [line("x", self.room[at:at + many].hex())])
