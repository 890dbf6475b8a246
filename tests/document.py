"""A reading of document 01 that owes nothing to the proved code: records, ranges and set-ups.

From its sections "Opening", "Requests" and "Verdicts". A verdict is a triple: number, detail, detail. Details not named are 0.
"""
# ---- "Requests": a record is a 2-byte map, then only the fields whose bit stands, in bit order.
FIELDS = (("kind", 1), ("account", 1), ("other", 1), ("code", 8), ("side", 1), ("first", 1), ("last", 1), ("quantity", 4),
          ("number", 2), ("operator", 1), ("guarantee", 8), ("point", 1), ("price", 4))
TABLE = (((1, 2, 12, 13), 0x00FF, 20), ((3,), 0x0103, 6), ((4,), 0x0601, 12), ((5, 6, 7, 8, 10), 0x0001, 3), ((9,), 0x18B1, 14))
MAP = {kind: given for kinds, given, length in TABLE for kind in kinds}
LENGTH = {kind: length for kinds, given, length in TABLE for kind in kinds}
KINDS = tuple(sorted(MAP))            # of single records: 1 to 10, an ask (12) and a commit (13)
ACCEPTED = (0, 0, 0)


def low_first(value, width):
    return value.to_bytes(width, "little")


def bits(number):
    return {bit for bit in range(16) if number >> bit & 1}


def names(number):
    return [FIELDS[bit][0] for bit in sorted(bits(number)) if bit < 13]


def spell(given, values):
    """The bytes of a record with this map, whether or not the map is right."""
    return low_first(given, 2) + b"".join(low_first(values[name], width) for name, width in FIELDS if name in names(given))


def read(record):
    """The record reader gives 2 to 5: the verdict, and the fields of an accepted record."""
    if len(record) < 3:
        return (2, 0, 0), None
    stand = bits(int.from_bytes(record[:2], "little"))
    if 0 not in stand or stand & {13, 14, 15}:
        return (2, 0, 0), None
    kind = record[2]
    if kind not in KINDS:
        return (3, 0, 0), None
    wanted = bits(MAP[kind])
    if stand != wanted:
        return (4, len(wanted - stand), len(stand - wanted)), None
    if len(record) != LENGTH[kind]:
        return (5, 0, 0), None
    found, at = {name: 0 for name, width in FIELDS}, 2
    for bit in sorted(stand):
        name, width = FIELDS[bit]
        found[name] = int.from_bytes(record[at:at + width], "little")
        at += width
    return ACCEPTED, found


def most(name, counts):
    hours, operators, accounts, points, zones = counts
    return {"account": accounts, "other": accounts, "side": 2, "first": hours, "last": hours, "quantity": 10_000_000, "number": 256,
            "operator": operators, "guarantee": 10 ** 12, "point": points, "price": 400_000}[name]


def ranges(request, counts):
    """6 with the lowest bit at fault, 7, or nothing. Kind and code are not in question: one is read already, the other is free."""
    given = names(MAP[request["kind"]])
    for bit, (name, width) in enumerate(FIELDS):
        if name not in given or name in ("kind", "code"):
            continue
        least = {"last": request["first"], "guarantee": 0, "price": 0}.get(name, 1)
        if not least <= request[name] <= most(name, counts):
            return (6, bit, 0)
    if "other" in given and request["account"] == request["other"]:
        return (7, 0, 0)
    return ACCEPTED


def write(request, buffer):
    """The writer gives 3 and 10, fills the first bytes and changes no others."""
    if request["kind"] not in KINDS:
        return (3, 0, 0), buffer
    record = spell(MAP[request["kind"]], request)
    if len(buffer) < len(record):
        return (10, 0, 0), buffer
    return ACCEPTED, record + buffer[len(record):]


# ---- "Opening": the values of a set-up, each entry's in the order of its bytes.
ESTIMATE = (("price", 4),)
OPERATOR = (("guarantee", 8), ("maintenance", 2))
POINT = (("account", 1), ("kind", 1), ("zone", 1), ("injection", 4), ("withdrawal", 4))
COUNT_RANGES = ((23, 25), (1, 16), (1, 32), (0, 64), (1, 8))


def account_shape(hours):
    """Operator and kind, then the lower margins by hour, then the upper ones. A margin's name is a pair: bound and hour."""
    margins = tuple(((bound, hour), 4) for bound in ("lower", "upper") for hour in range(1, hours + 1))
    return (("operator", 1), ("kind", 1)) + margins


def entries_of(setup, at, how_many, shape):
    """Each entry as name -> (offset, value)."""
    found = []
    for _ in range(how_many):
        entry = {}
        for name, width in shape:
            entry[name] = (at, int.from_bytes(setup[at:at + width], "little"))
            at += width
        found.append(entry)
    return found, at


def setup_verdict(setup):
    """8, or 9 with the lowest offset at fault, or nothing."""
    if len(setup) < 5:
        return (8, 0, 0)
    hours, operators, accounts, points, zones = setup[:5]
    if any(not least <= count <= greatest for count, (least, greatest) in zip(setup, COUNT_RANGES)):
        return (8, 0, 0)
    if len(setup) != 5 + 4 * hours + 10 * operators + (2 + 8 * hours) * accounts + 11 * points:
        return (8, 0, 0)
    estimate_list, at = entries_of(setup, 5, hours, ESTIMATE)
    operator_list, at = entries_of(setup, at, operators, OPERATOR)
    account_list, at = entries_of(setup, at, accounts, account_shape(hours))
    point_list, at = entries_of(setup, at, points, POINT)
    faults = set()

    def hold(place, least, greatest):
        offset, value = place
        if not least <= value <= greatest:
            faults.add(offset)

    for x in estimate_list:
        hold(x["price"], 0, 400_000)
    for x in operator_list:
        hold(x["guarantee"], 0, 10 ** 12)
        hold(x["maintenance"], 0, 1000)
    for x in account_list:
        hold(x["operator"], 1, operators)
        hold(x["kind"], 1, 2)
        for hour in range(1, hours + 1):
            hold(x["lower", hour], 0, 10_000_000)
            hold(x["upper", hour], 0, 10_000_000)
    for x in point_list:
        kind = x["kind"][1]
        hold(x["account"], 1, accounts)
        hold(x["kind"], 1, 3)
        hold(x["zone"], 1, zones)
        hold(x["injection"], 0, 0 if kind == 2 else 10_000_000)
        hold(x["withdrawal"], 0, 0 if kind == 1 else 10_000_000)
        if kind in (1, 2) and 1 <= x["account"][1] <= accounts and account_list[x["account"][1] - 1]["kind"][1] != kind:
            faults.add(x["kind"][0])
    return (9, min(faults), 0) if faults else ACCEPTED
