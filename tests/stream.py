"""Cases for crates/records_test as it reads them, each a tag, a 2-byte length and that many bytes, with the lines that it is to print."""
from document import FIELDS, low_first, ranges, read, setup_verdict, write

ROOM = 24


def line(tag, *words):
    return " ".join([tag, *map(str, words)])


class Stream:
    def __init__(self):
        self.bytes, self.lines, self.cases, self.counts = b"", [], 0, None

    def case(self, tag, body, lines):
        self.bytes += tag.encode() + low_first(len(body), 2) + body
        self.lines += lines
        self.cases += 1

    def count(self, *counts):
        """The counts of the book against which records are held from here on."""
        self.counts = counts
        self.case("n", bytes(counts), [line("n", *counts)])

    def written(self, request, room):
        verdict, buffer = write(request, b"\xAA" * room)
        return line("w", *verdict, (buffer + b"\xAA" * (ROOM - room)).hex())

    def record(self, record):
        verdict, request = read(record)
        lines = [line("r", *verdict)]
        if request:
            lines += [line("f", *request.values()), line("c", *ranges(request, self.counts)), self.written(request, ROOM)]
        self.case("r", record, lines)

    def writing(self, request, room):
        self.case("w", bytes([room]) + b"".join(low_first(request[name], width) for name, width in FIELDS), [self.written(request, room)])

    def setup(self, setup):
        self.case("s", setup, [line("s", *setup_verdict(setup))])
