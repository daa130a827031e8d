"""A model of the outer header, told from documents 01 and 02 (Items 3, 6 and 8) for the scripts alone: it shares no
code with the library.

A check that fails raises Refused with its number and place, in the documents' order.
"""
FILE_LIMIT = 16_777_216  # of a payload too
SIGNATURES = bytes.fromhex("03d9a29a67fb4bb5")
AES = bytes.fromhex("31c1f2e6bf714350be5805216afc5aff")
CHACHA20 = bytes.fromhex("d6038a2b8b6f4cb5a524339a31dbb59a")
TWOFISH = bytes.fromhex("ad68f29f576f4bb9a36ad47af965346c")
AES_KDF = bytes.fromhex("c9d9f39a628a4460bf740d08c18a4fea")
ARGON2D = bytes.fromhex("ef636ddf8c29444b91f7a9a403e30a0c")
ARGON2ID = bytes.fromhex("9e298b1956db4773b23dfc3ec6f0a1e6")
ARGON2_ITEMS = {b"V": 0x04, b"S": 0x42, b"I": 0x05, b"M": 0x05, b"P": 0x04}
END = b"\r\n\r\n"
SIZES = {0: 4, 2: 16, 3: 4, 4: 32, 7: None, 11: None, 12: None}
NONCE_SIZES = {AES: 16, CHACHA20: 12}
ITEM_SIZES = {0x04: 4, 0x05: 8, 0x08: 1, 0x0C: 4, 0x0D: 8, 0x18: None, 0x42: None}


class Refused(Exception):
    """Carries a refusal's number, and its place, which is 0 where it has none."""

    def __init__(self, no, place=0):
        super().__init__(no, place)
        self.no, self.place = no, place


def need(condition, no, place=0):
    if not condition:
        raise Refused(no, place)


def refusal(read, *args):
    """The number and the place with which a reader refuses; zeros where it does not."""
    try:
        read(*args)
    except Refused as refused:
        return refused.no, refused.place
    return 0, 0


def number(n, size):
    return (n % 256**size).to_bytes(size, "little")


def int32(data, at):
    return int.from_bytes(data[at : at + 4], "little", signed=True)


def sound_items(d, front=0):
    """The items of a dictionary that begins at `front`, name to type, value and place."""
    need(len(d) >= 2 and d[1] == 1, 10, front)
    items, at = {}, 2
    while True:
        need(at < len(d), 10, front)
        kind, place, at = d[at], front + at, at + 1
        if kind == 0:
            need(at == len(d), 10, front)
            return items
        need(kind in ITEM_SIZES, 10, place)
        parts = []
        for _ in range(2):
            need(at + 4 <= len(d), 10, place)
            size = int32(d, at)
            need(0 <= size <= len(d) - at - 4, 10, place)
            parts.append(d[at + 4 : at + 4 + size])
            at += 4 + size
        name, value = parts
        need(ITEM_SIZES[kind] in (None, len(value)), 10, place)
        need(name not in items, 6, place)
        items[name] = kind, value, place


def judge_kdf(d, front):
    items = sound_items(d, front)
    absent = None, b"", front
    kind, value, place = items.get(b"$UUID", absent)
    need(kind == 0x42 and len(value) == 16, 10, place)
    need(value in (AES_KDF, ARGON2D, ARGON2ID), 9, place)
    if value != AES_KDF:
        return judge_argon2(items, absent)
    kind, value, place = items.get(b"S", absent)
    need(kind == 0x42 and len(value) == 32, 10, place)
    kind, value, place = items.get(b"R", absent)
    need(kind == 0x05, 10, place)
    rounds = int.from_bytes(value, "little")
    need(rounds <= 4_000_000, 11, place)
    need(rounds >= 6_000, 20, place)


def judge_argon2(items, absent):
    for name, type_ in ARGON2_ITEMS.items():
        kind, _, place = items.get(name, absent)
        need(kind == type_, 10, place)
    value = {name: int.from_bytes(items[name][1], "little") for name in (b"V", b"I", b"M", b"P")}
    place = {name: items[name][2] for name in items}
    need(value[b"V"] == 0x13, 9, place[b"V"])
    for name in (b"K", b"A"):
        need(name not in items, 9, place.get(name))
    need(8 <= len(items[b"S"][1]) <= 64, 22, place[b"S"])
    for name, least, most in ((b"I", 1, 64), (b"M", 8_192, 67_108_864), (b"P", 1, 16)):
        need(least <= value[name] <= most, 22, place[name])
    need(value[b"M"] >= 8_192 * value[b"P"], 22, place[b"M"])


def read_header(data, limit):
    """The fields of a header, by ID, and its frames: signatures and version, then each field whole."""
    need(len(data) <= limit, 1)
    need(len(data) >= 12, 2, len(data))
    need(data[:4] == SIGNATURES[:4], 3, 0)
    need(data[4:8] == SIGNATURES[4:], 3, 4)
    need(int.from_bytes(data[8:12], "little") in (0x40000, 0x40001), 4, 8)
    frames, values, places, at = [data[:12]], {}, {}, 12
    while 0 not in values:
        need(at + 5 <= len(data), 2, len(data))
        id_, size = data[at], int32(data, at + 1)
        need(id_ in SIZES, 7, at)
        need(id_ not in values, 6, at)
        need(size >= 0 and SIZES[id_] in (None, size), 5, at)
        end = at + 5 + size
        need(end <= len(data), 2, len(data))
        values[id_], places[id_] = data[at + 5 : end], at
        frames.append(data[at:end])
        need(id_ != 0 or values[0] == END, 5, at)
        at = end
    need(values.keys() >= {2, 3, 4, 7, 11}, 8, places[0])
    need(values[2] in NONCE_SIZES, 9, places[2])
    need(values[3] == bytes(4), 9, places[3])
    need(len(values[7]) == NONCE_SIZES[values[2]], 5, places[7])
    judge_kdf(values[11], places[11] + 5)
    if 12 in values:
        sound_items(values[12], places[12] + 5)
    return values, frames
