"""Changes of bytes, made at random."""

INTERESTING = [0, 1, 2, 3, 4, 5, 6, 7, 8, 9, 10, 0x20, 0x22, 0x5C, 0x7F, 0x80, 0xA5, 0xC0, 0xED, 0xF4, 0xFE, 0xFF]
NUMBERS = [0, 1, 2, 3, 7, 8, 24, 25, 255, 256, 2**15, 2**16 - 1, 2**20, 2**20 + 1, 2**24, 2**28, 2**28 + 1, 2**30, 2**30 + 1, 2**31 - 1, 2**31, 2**32 - 1, 2**32, 2**63, 2**64 - 1]


def changed_number(rng, number, size):
    """Another number of so many bytes, most of them near."""
    new = rng.choice([number + 1, number - 1, number ^ 1 << rng.randrange(8 * size), rng.randrange(12), rng.choice(NUMBERS), number * 2])
    return (new % 2 ** (8 * size)).to_bytes(size, "big")


def with_byte(rng, data):
    at = rng.randrange(len(data))
    return data[:at] + bytes([rng.choice([data[at] ^ 1 << rng.randrange(8), rng.choice(INTERESTING), rng.randrange(256)])]) + data[at + 1 :]


def with_number(rng, data):
    """A number of two, four or eight bytes is changed, wherever it stands."""
    size = rng.choice([2, 4, 4, 8])
    at = rng.randrange(len(data))
    return data[:at] + changed_number(rng, int.from_bytes(data[at : at + size], "big"), size) + data[at + size :]


def range_in(rng, data, most=40):
    start = rng.randrange(len(data))
    return start, min(len(data), start + rng.randrange(1, most))


def without(rng, data):
    start, end = range_in(rng, data)
    return data[:start] + data[end:]


def doubled(rng, data):
    start, end = range_in(rng, data)
    at = rng.choice([end, rng.randrange(len(data) + 1)])
    return data[:at] + data[start:end] * rng.choice([1, 1, 1, 2, 30]) + data[at:]


def inserted(rng, data):
    at = rng.randrange(len(data) + 1)
    return data[:at] + bytes(rng.choice([rng.choice(INTERESTING), rng.randrange(256)]) for _ in range(rng.randrange(1, 6))) + data[at:]


def cut(rng, data):
    return data[: rng.randrange(len(data))]


def swapped(rng, data):
    start, end = range_in(rng, data)
    at, to = range_in(rng, data)
    if at < end:
        return data
    return data[:start] + data[at:to] + data[end:at] + data[start:end] + data[to:]


def lengthened(rng, data):
    return data + bytes(rng.choice([0, 0xA5, 0xFF, rng.randrange(256)]) for _ in range(rng.choice([1, 1, 1, 2, 8, 100])))


CHANGES = [with_byte] * 6 + [with_number] * 3 + [without] * 2 + [doubled] * 2 + [inserted] * 2 + [cut, cut, swapped, lengthened]


def changed(rng, data, times=None):
    """Bytes that were changed some times."""
    for _ in range(times or rng.choice([1, 1, 1, 2, 3])):
        data = rng.choice(CHANGES)(rng, data) if data else lengthened(rng, data)
    return data
