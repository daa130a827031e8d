"""Variant dictionaries (document 01, "Header", its last paragraph; document 02, Items 3, 6 and 8).

`front` is where the dictionary's value begins in what was handed in. Item 8: places are "counted from the front of the
file, joined file, payload or lone dictionary".
"""

from .limits import (
    ARGON2_VERSION, DICTIONARY, KDF_FIGURE, LANES, LEAST_ROUNDS, MEMORY, MEMORY_OF_LANE, PASSES, REPEATED, ROUNDS,
    ROUNDS_LIMIT, SALT_LENGTHS, TOO_FEW_ROUNDS, UNLISTED_ALGORITHM, int32, require, uint,
)

# "Types, in hexadecimal: 04 UInt32, 05 UInt64, 08 Bool (one byte), 0C Int32, 0D Int64, 18 string, 42 bytes. Sizes
# must fit the type; strings and bytes may be empty." None is any size.
UINT32 = 0x04
UINT64 = 0x05
BYTES = 0x42
SIZE_OF_TYPE = {0x04: 4, 0x05: 8, 0x08: 1, 0x0C: 4, 0x0D: 8, 0x18: None, 0x42: None}

AES_KDF = bytes.fromhex("C9D9F39A628A4460BF740D08C18A4FEA")
ARGON2D = bytes.fromhex("EF636DDF8C29444B91F7A9A403E30A0C")
ARGON2ID = bytes.fromhex("9E298B1956DB4773B23DFC3EC6F0A1E6")
# Item 6: "Items: V (UInt32), S (bytes), I and M (UInt64), P (UInt32)."
ARGON2_ITEMS = {b"V": UINT32, b"S": BYTES, b"I": UINT64, b"M": UINT64, b"P": UINT32}


class Item:
    """A sound item: its place (the type byte's), its type, name, value and where in the dictionary the value is."""

    def __init__(self, place, kind, name, at, value):
        self.place = place
        self.kind = kind
        self.name = name
        self.at = at
        self.value = value


class Items(dict):
    """The items of a sound dictionary by name."""

    def __init__(self, front):
        super().__init__()
        self.front = front

    def place(self, name):
        """The item's place. Item 8: a fault "that belongs to no item points to where the dictionary's value begins". R:
        "an absent item" is such a fault."""
        return self[name].place if name in self else self.front


def sized(data, at, place):
    """A size and that many bytes, of the item of that place: (where they start, where they end)."""
    require(at + 4 <= len(data), DICTIONARY, place)
    size = int32(data, at)
    require(size >= 0, DICTIONARY, place)
    require(at + 4 + size <= len(data), DICTIONARY, place)
    return at + 4, at + 4 + size


def item_at(data, at, front):
    """ "Item: type, name size, name, value size, value": the item and where the next one is. Item 8: each fault here is
    at "the first byte ... of the dictionary item at fault"."""
    place = front + at
    kind = data[at]
    require(kind in SIZE_OF_TYPE, DICTIONARY, place)
    name_start, name_end = sized(data, at + 1, place)
    start, end = sized(data, name_end, place)
    require(SIZE_OF_TYPE[kind] in (None, end - start), DICTIONARY, place)
    return Item(place, kind, data[name_start:name_end], start, data[start:end]), end


def items(data, front=0):
    """The items of a sound dictionary by name, else 10 or 6: "the first met from the front is given". R: version,
    missing closing byte and bytes behind it belong to no item."""
    # "A dictionary is a UInt16 version whose high byte must be 1". R: the first byte is free.
    require(len(data) >= 2 and data[1] == 1, DICTIONARY, front)
    at = 2
    found = Items(front)
    while True:
        require(at < len(data), DICTIONARY, front)
        # "and a 0 byte that must be its last"
        if data[at] == 0:
            require(at + 1 == len(data), DICTIONARY, front)
            return found
        item, at = item_at(data, at, front)
        # "a sound item with a repeated name is 6". "Names are compared as bytes." R: the place is "the second one's".
        require(item.name not in found, REPEATED, item.place)
        found[item.name] = item


def needed(found, name, kind, size):
    """An item that has to be there with this type and size (None: any), else 10."""
    item = found.get(name)
    right = item is not None and item.kind == kind and size in (None, len(item.value))
    require(right, DICTIONARY, found.place(name))
    return item.value


def aes_kdf_within(rounds, place=0):
    """ "R within the limit, else 11." Item 3: "Refusals: 20, directly after 11." R: "in reader and writer, with nothing
    between". The place is that of the item R; the writer has none."""
    require(rounds <= ROUNDS_LIMIT, ROUNDS, place)
    require(rounds >= LEAST_ROUNDS, TOO_FEW_ROUNDS, place)


def aes_kdf_figures(found):
    """ "`S` (42, 32 bytes) and `R` (05), else 10", then R's own numbers."""
    seed = needed(found, b"S", BYTES, 32)
    rounds = uint(needed(found, b"R", UINT64, 8))
    aes_kdf_within(rounds, found.place(b"R"))
    return {"kind": "aeskdf", "S": seed, "R": rounds}


def argon2_within(salt, passes, memory, lanes, place=lambda name: 0):
    """ "then 22 for a figure outside". R: in the order S, I, M, P, and last too little M for P. The places are those of
    the items; writer and run have none."""
    require(len(salt) in SALT_LENGTHS, KDF_FIGURE, place(b"S"))
    require(passes in PASSES, KDF_FIGURE, place(b"I"))
    require(memory in MEMORY, KDF_FIGURE, place(b"M"))
    require(lanes in LANES, KDF_FIGURE, place(b"P"))
    # Item 8: "too little M for P, checked last, points to M"
    require(memory >= MEMORY_OF_LANE * lanes, KDF_FIGURE, place(b"M"))


def argon2_figures(kind, found):
    """ "in the KDF's place, 10 for an absent or wrongly typed item, then 9 for another V or an item K or A, then 22".
    R: all five are present and rightly typed first; K and A are 9 whatever their type."""
    value = {name: needed(found, name, type_, None) for name, type_ in ARGON2_ITEMS.items()}
    version, passes, memory, lanes = (uint(value[name]) for name in (b"V", b"I", b"M", b"P"))
    require(version == ARGON2_VERSION, UNLISTED_ALGORITHM, found.place(b"V"))
    # R: "V's item, then K's, then A's item (K before A, wherever they stand)"
    require(b"K" not in found, UNLISTED_ALGORITHM, found.place(b"K"))
    require(b"A" not in found, UNLISTED_ALGORITHM, found.place(b"A"))
    argon2_within(value[b"S"], passes, memory, lanes, found.place)
    return {"kind": kind, "V": version, "S": value[b"S"], "I": passes, "M": memory, "P": lanes}


# A KDF's identifier, and what its dictionary asks for. R: AES-KDF's dictionary may hold items named K or A.
KDFS = {
    AES_KDF: aes_kdf_figures,
    ARGON2D: lambda found: argon2_figures("argon2d", found),
    ARGON2ID: lambda found: argon2_figures("argon2id", found),
}


def kdf_figures(data, front=0):
    """ "The KDF dictionary then needs `$UUID` (42, 16 bytes), else 10; a listed KDF, else 9". R: the whole
    dictionary is walked first."""
    found = items(data, front)
    identifier = needed(found, b"$UUID", BYTES, 16)
    require(identifier in KDFS, UNLISTED_ALGORITHM, found.place(b"$UUID"))
    return KDFS[identifier](found)


def lookup(data, name):
    """The item of that name or None; "a broken one is refused with 10 or 6"."""
    return items(data).get(name)
