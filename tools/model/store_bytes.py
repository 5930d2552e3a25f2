"""The bytes of pictures and of a store's file for play.py, from docs/PICTURES.md and docs/STORE.md alone."""
from states import numbered
from values import BUILTIN_NUMBERS, CLASS_NUMBERS, Builtin, Class, Function, Raised, Thing, Tup, is_node

HEADER = b"KISHU-JOURNAL-1\n"
CLOSED, OPENED = b"\x00", 0xA5
PROFILE = 1


def u32(number):
    return number.to_bytes(4, "big")


def u64(number):
    return number.to_bytes(8, "big")


def i128(number):
    return int(number).to_bytes(16, "big", signed=True)


def short(text):
    data = text.encode()
    return bytes([len(data)]) + data


def long(text):
    data = text.encode()
    return u32(len(data)) + data


def value_bytes(value, numbers):
    if value is None:
        return b"\x00"
    if isinstance(value, bool):
        return b"\x02" if value else b"\x01"
    if isinstance(value, int):
        return b"\x03" + i128(value)
    if isinstance(value, str):
        return b"\x04" + long(value)
    if isinstance(value, range):
        return b"\x05" + i128(value.start) + i128(value.stop) + i128(value.step)
    if isinstance(value, Builtin):
        return bytes([6, BUILTIN_NUMBERS[value.name]])
    if isinstance(value, Class):
        return bytes([7, CLASS_NUMBERS[value.name]])
    return b"\x08" + u32(numbers[id(value)])


def key_bytes(key):
    if type(key) is tuple:
        return b"\x09" + u32(len(key)) + b"".join(value_bytes(item, {}) for item in key)
    return value_bytes(key, {})


def row_bytes(node, numbers):
    def values(items):
        return u32(len(items)) + b"".join(value_bytes(item, numbers) for item in items)

    if isinstance(node, list):
        return b"\x01" + values(node)
    if isinstance(node, Tup):
        return b"\x02" + values(node)
    if isinstance(node, dict):
        return b"\x03" + u32(len(node)) + b"".join(key_bytes(key) + value_bytes(item, numbers) for key, item in node.items())
    if isinstance(node, Thing):
        return b"\x04" + u32(len(node.entries)) + b"".join(short(name) + value_bytes(item, numbers) for name, item in node.entries.items())
    if isinstance(node, Function):
        return bytes([5, PROFILE]) + long(node.code) + values(node.defaults)
    return bytes([6, CLASS_NUMBERS[node.kind]]) + values(node.items)


def picture(names, group):
    order, numbers = numbered(names, group)
    head = u32(len(group)) + b"".join(short(name) + value_bytes(names[name], numbers) for name in group)
    return head + u32(len(order)) + b"".join(row_bytes(node, numbers) for node in order)


def value_size(value):
    """How many bytes a value takes in a picture, without making these."""
    if is_node(value):
        return 5
    if isinstance(value, str):
        return 5 + (len(value) if value.isascii() else len(value.encode()))
    return len(value_bytes(value, {}))


def row_size(node):
    if isinstance(node, dict):
        return 5 + sum(len(key_bytes(key)) + value_size(item) for key, item in node.items())
    if isinstance(node, Thing):
        return 5 + sum(1 + len(name) + value_size(item) for name, item in node.entries.items())
    if isinstance(node, Function):
        return 10 + len(node.code.encode()) + sum(map(value_size, node.defaults))
    if isinstance(node, Raised):
        return 6 + sum(map(value_size, node.items))
    return 5 + sum(map(value_size, node))


def state_size(names, groups):
    """How many bytes the pictures of the groups have together."""
    total = 0
    for group in groups:
        order, _ = numbered(names, group)
        total += 8 + sum(1 + len(name) + value_size(names[name]) for name in group) + sum(map(row_size, order))
    return total


def group_bytes(group):
    return u32(len(group)) + b"".join(map(short, group))


class File:
    """The file: `data`, and the place of the closed gate at which the records end."""

    def __init__(self, begun=b""):
        self.data = bytearray(begun)
        self.end = 0
        self.gates = []  # the places of the gates before the records,
        self.earlier = 0  # but for those of `fill`

    def begin(self):
        """Opening a file of at most 17 bytes begins it anew."""
        if len(self.data) <= len(HEADER) + 1:
            self.data = bytearray(HEADER + CLOSED)
            self.end = len(HEADER)

    def append(self, head, pictures=()):
        """One more record; where its pictures begin."""
        self.begin()
        body = u32(len(head)) + head + b"".join(pictures)
        place = self.end + 1
        whole = u64(len(body)) + body + CLOSED
        self.data[place : place + len(whole)] = whole
        self.data[self.end] = OPENED
        self.gates.append(self.end)
        self.end = place + len(whole) - 1
        return place + 8 + 4 + len(head)

    @property
    def records(self):
        return self.earlier + len(self.gates)

    def fill(self, records):
        """Begin with many moves to where the head stands."""
        head = b"\x02\x01" + short("main")
        body = u32(len(head)) + head
        self.data = bytearray(HEADER + (bytes([OPENED]) + u64(len(body)) + body) * records + CLOSED)
        self.end, self.earlier = len(self.data) - 1, records

    def shut(self, records, byte):
        """Close the gate behind some records; what stands behind it stays, and isn't read."""
        self.begin()
        if records < len(self.gates):
            self.end = self.gates[records]
            del self.gates[records:]
        self.data[self.end] = byte

    def leave(self, junk):
        """What a stop may leave behind the closed gate, where nothing is read."""
        self.begin()
        self.data += junk

    def commit(self, parent, cells, dropped, stored, pictures):
        """The record of a commit; where its pictures begin."""
        head = b"\x01" + u32(parent) + bytes([PROFILE]) + u32(len(cells)) + b"".join(map(long, cells))
        head += u32(len(dropped)) + b"".join(map(group_bytes, dropped))
        head += u32(len(stored)) + b"".join(group_bytes(group) + u64(len(one)) for group, one in zip(stored, pictures))
        return self.append(head, pictures)

    def move(self, commit, branch):
        self.append(b"\x02\x00" + u32(commit) if branch is None else b"\x02\x01" + short(branch))

    def name(self, branch, commit):
        self.append(b"\x03" + short(branch) + u32(commit))
