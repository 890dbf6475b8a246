"""Runs the cases of day_test.stdin and replay_test.stdin on the reading; prints what they print.

Usage: run_cases.py FILE
"""
import sys

import asks
import hourly
import reading
import valuation

SIZE = reading.BOOK_BYTES


def hexed(tag, data):
    return tag + ' ' + data.hex()


def run(data):
    lines, at, day = [], 0, 0
    book, none, put, spoilt = None, 'zero', {}, None

    def state():
        return (book.state() if book else none), {k: v for k, v in put.items() if v}, spoilt

    kept = state()
    while at < len(data):
        tag = chr(data[at])
        if tag == 'd':
            length = reading.number(data[at + 1:at + 5])
            day += 1
            lines.append('day %d' % day)
            lines += reading.replay(data[at + 5:at + 5 + length]).split('\n')[:-1]
            at += 5 + length
            continue
        length = reading.number(data[at + 1:at + 3])
        body = data[at + 3:at + 3 + length]
        assert len(body) == length
        at += 3 + length
        seen = None if any(put.values()) or spoilt else book
        if tag == 'o':
            verdict, opened = reading.open_book(body)
            if opened:
                book, put, spoilt = opened, {}, None
            lines.append('o %d %d %d' % verdict)
        elif tag == 'c':
            results = bytearray(b'\xaa' * reading.number(body[:2]))
            balances = bytearray(b'\xaa' * reading.number(body[2:4]))
            end = 6 + reading.number(body[4:6])
            before = state()
            verdict = reading.call(seen, body[6:end], body[end:], results, balances)
            lines.append('c %d %d %d' % verdict)
            if verdict[0] and (state() != before or set(results + balances) - {0xAA}):
                lines.append('changed')
            if verdict[0] == 0 and body[8] == 10:
                lines += [hexed('r', results), hexed('b', balances)]
        elif tag == 'a':
            lines.append(' '.join(map(str, ('a', *body, *reading.net_position(seen, *body)))))
        elif tag == 'e':
            lines.append(' '.join(map(str, ('e', *body, *reading.exposure(seen, *body)))))
        elif tag == 'i':
            operator, first, last = body
            lines += [' '.join(map(str, ('i', operator, hour, *hourly.hourly_exposure(seen, operator, hour))))
                      for hour in range(first, last + 1)]
        elif tag == 'h':
            lines += valuation.lines(valuation.value_book(seen, body))
        elif tag == 'k':
            kept = state()
        elif tag == '=':
            lines.append('= %d' % (state() == kept))
        elif tag == 'p' and length == SIZE + 2:
            book, none, put, spoilt = None, body[2], {}, None
        elif tag == 'p' and reading.number(body[:2]) < asks.END:
            at_place = reading.number(body[:2]) - asks.AT
            places = spoilt or asks.image(book)
            places = places[:at_place] + body[2:] + places[at_place + length - 2:]
            found = asks.standing(book, places)
            book.asks, spoilt = found or {}, places if found is None else None
        elif tag == 'p':
            for place, byte in enumerate(body[2:], reading.number(body[:2])):
                put[place] = byte
        else:
            raise ValueError(tag)
    return ''.join(line + '\n' for line in lines)


if __name__ == '__main__':
    with open(sys.argv[1], 'rb') as given:
        sys.stdout.write(run(given.read()))
