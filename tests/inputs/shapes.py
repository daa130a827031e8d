"""The parts of a file before they become bytes. A size, number or tag that is left None is the right one."""

from model import header as outer, keys
from model.dictionary import AES_KDF, ARGON2_ITEMS, ARGON2D, ARGON2ID, BYTES, SIZE_OF_TYPE, UINT32, UINT64
from model.primitives import sha256

BOOL = 0x08


def int32_octets(value):
    """An Int32, negative or not, little-endian."""
    return (value & 0xFFFFFFFF).to_bytes(4, "little")


class Item:
    """An item of a dictionary."""

    def __init__(self, kind, name, value):
        self.kind = kind
        self.name = name
        self.value = value
        self.name_size = None
        self.value_size = None

    def octets(self):
        name_size = len(self.name) if self.name_size is None else self.name_size
        value_size = len(self.value) if self.value_size is None else self.value_size
        return b"".join(
            (bytes([self.kind]), int32_octets(name_size), self.name, int32_octets(value_size), self.value)
        )

    def copy(self):
        made = Item(self.kind, self.name, self.value)
        made.name_size, made.value_size = self.name_size, self.value_size
        return made


class Dictionary:
    """A variant dictionary."""

    def __init__(self, items):
        self.version = b"\x00\x01"
        self.items = items
        self.end = b"\x00"

    def octets(self):
        return b"".join([self.version, *(item.octets() for item in self.items), self.end])

    def item(self, name):
        """The first item of that name, or None."""
        return next((item for item in self.items if item.name == name), None)


class Field:
    """A field of either header; the value is bytes or a Dictionary."""

    def __init__(self, key, value):
        self.key = key
        self.value = value
        self.size = None

    def value_octets(self):
        return self.value if isinstance(self.value, bytes) else self.value.octets()

    def octets(self):
        value = self.value_octets()
        size = len(value) if self.size is None else self.size
        return bytes([self.key]) + int32_octets(size) + value

    def copy(self):
        made = Field(self.key, self.value)
        made.size = self.size
        return made


class Fields:
    """A header of either kind: what stands before its fields, the fields, what stands after."""

    def __init__(self, front, fields, after=b""):
        self.front = front
        self.fields = fields
        self.after = after

    def octets(self):
        return b"".join([self.front, *(field.octets() for field in self.fields), self.after])

    def field(self, key):
        """The first field of that ID, or None."""
        return next((field for field in self.fields if field.key == key), None)


class Block:
    """A block of the file; its number stands in the message and picks the key."""

    def __init__(self, data):
        self.data = data
        self.size = None
        self.number = None
        self.key_number = None
        self.flip = None

    def octets(self, base, place):
        size = int32_octets(len(self.data) if self.size is None else self.size)
        number = place if self.number is None else self.number
        key_number = number if self.key_number is None else self.key_number
        message = number.to_bytes(8, "little") + size + self.data
        tag = keys.hmac_sha256(keys.tag_key(key_number, base), message)
        if self.flip is not None:
            tag = flipped(tag, self.flip)
        return tag + size + self.data

    def copy(self):
        made = Block(self.data)
        made.size, made.number, made.key_number, made.flip = self.size, self.number, self.key_number, self.flip
        return made


class Vault:
    """A file: header, its hash and tag, blocks. The edits of hash and tag are functions of header and tag base."""

    def __init__(self, header, t, cipher, seed, nonce):
        self.header = header
        self.t = t
        self.cipher = cipher
        self.nonce = nonce
        self.cipher_key = keys.cipher_key(seed, t)
        self.base = keys.tag_base(seed, t)
        self.blocks = []
        self.hash = sha256
        self.tag = lambda octets: keys.header_tag(self.base, octets)
        self.after = b""

    def octets(self):
        header = self.header.octets()
        blocks = [block.octets(self.base, place) for place, block in enumerate(self.blocks)]
        return b"".join([header, self.hash(header), self.tag(header), *blocks, self.after])


def flipped(data, bit):
    """The data with one bit turned over; nothing stays nothing."""
    if not data:
        return data
    made = bytearray(data)
    made[bit // 8 % len(made)] ^= 1 << bit % 8
    return bytes(made)


NAMES = (b"", b"a", b"b", b"ab", b"ba", b"$UUID", b"\xff", b"a\x00", b"name of an item")
NAMES += (b"R", b"S", b"V", b"I", b"M", b"P", b"K", b"A")


def sound_item(rng, taken=()):
    """A random sound item whose name is none of those taken, or None if the pick was taken."""
    kind = rng.choice(list(SIZE_OF_TYPE))
    size = SIZE_OF_TYPE[kind]
    name = rng.choice(NAMES) if rng.random() < 0.7 else rng.randbytes(rng.randrange(5))
    if name in taken:
        return None
    length = rng.choice((0, 1, 4, 8, 16, 32, rng.randrange(40))) if size is None else size
    return Item(kind, name, rng.randbytes(length))


def sound_items(rng, most, taken=()):
    """Up to so many random sound items with names of their own."""
    made = []
    names = set(taken)
    for _ in range(rng.randrange(most + 1)):
        item = sound_item(rng, names)
        if item is not None:
            names.add(item.name)
            made.append(item)
    return made


def sound_dictionary(rng, most=5):
    """A random sound dictionary; the version's low byte is free."""
    made = Dictionary(sound_items(rng, most))
    if rng.random() < 0.2:
        made.version = bytes([rng.randrange(256), 1])
    return made


def named(names):
    """A dictionary of items with these names."""
    return Dictionary([Item(BOOL, name, b"\x01") for name in names])


def numbered(numbers):
    """A dictionary whose items are named by numbers."""
    return named([b"%d" % number for number in numbers])


def long_dictionary(rng):
    """A sound dictionary of many items, named by numbers in any order."""
    return numbered(rng.sample(range(2000), rng.choice((rng.randrange(8, 40), rng.randrange(8, 300)))))


# Enough rounds, of which a part is too few: the low byte, the low 16 bits, these with a sign. 71,535 is 0x1176F.
FEW_IN_PART = (6_144, 32_768, 65_535, 65_536, 65_537, 71_535)
# Too few, of which a part is enough: the low byte of 0x16FF and of 255, both bytes of 24 exchanged.
ENOUGH_IN_PART = (5_887, 255, 24)


def enough_rounds(rng):
    """Rounds of AES-KDF that reader and writer take."""
    any_of_16, any_at_all = rng.randrange(6_000, 65_536), rng.randrange(6_000, 4_000_001)
    return rng.choice((6_000, 6_000, 6_001, rng.choice(FEW_IN_PART), any_of_16, any_at_all, 4_000_000))


def few_rounds(rng):
    """Rounds that they turn away (Item 3)."""
    return rng.choice((0, 1, 5_999, 5_999, rng.choice(ENOUGH_IN_PART), rng.randrange(6_000)))


def aes_kdf_items(rng, rounds):
    """The items of AES-KDF with so many rounds."""
    return [
        Item(BYTES, b"$UUID", AES_KDF),
        Item(UINT64, b"R", rounds.to_bytes(8, "little")),
        Item(BYTES, b"S", rng.randbytes(32)),
    ]


def argon2_figures(rng):
    """Sound figures of Argon2, many of them at a border: salt, passes, memory, lanes."""
    salt = rng.randbytes(rng.choice((8, 16, 32, 64, rng.randrange(8, 65))))
    passes = rng.choice((1, 2, 64, rng.randrange(1, 65)))
    lanes = rng.choice((1, 2, 16, rng.randrange(1, 17)))
    least, most = 8_192 * lanes, 67_108_864
    memory = rng.choice((least, least + 1, 2**20, most, rng.randrange(least, most + 1)))
    return salt, passes, memory, lanes


def argon2_items(rng):
    """The items of Argon2d or Argon2id."""
    salt, passes, memory, lanes = argon2_figures(rng)
    return [
        Item(BYTES, b"$UUID", rng.choice((ARGON2D, ARGON2ID))),
        Item(UINT32, b"V", b"\x13\x00\x00\x00"),
        Item(BYTES, b"S", salt),
        Item(UINT64, b"I", passes.to_bytes(8, "little")),
        Item(UINT64, b"M", memory.to_bytes(8, "little")),
        Item(UINT32, b"P", lanes.to_bytes(4, "little")),
    ]


def kdf_dictionary(rng):
    """A sound KDF dictionary, sometimes with other items, in any order. Those of AES-KDF may have any other name."""
    if rng.random() < 0.45:
        made, taken = aes_kdf_items(rng, enough_rounds(rng)), (b"$UUID", b"R", b"S")
    else:
        made, taken = argon2_items(rng), (b"$UUID", *ARGON2_ITEMS, b"K", b"A")
    if rng.random() < 0.3:
        made += sound_items(rng, 3, taken)
    if rng.random() < 0.5:
        rng.shuffle(made)
    return Dictionary(made)


def sound_vault(rng):
    """A file without blocks: its header has random order, version, cipher and dictionaries."""
    cipher = rng.choice(("aes", "chacha"))
    identifier = {"aes": outer.AES, "chacha": outer.CHACHA20}[cipher]
    seed, nonce = rng.randbytes(32), rng.randbytes(outer.NONCE_LENGTH[cipher])
    fields = [
        Field(outer.CIPHER, identifier),
        Field(outer.COMPRESSION, bytes(4)),
        Field(outer.SEED, seed),
        Field(outer.NONCE, nonce),
        Field(outer.KDF, kdf_dictionary(rng)),
    ]
    if rng.random() < 0.4:
        fields.append(Field(outer.CUSTOM, sound_dictionary(rng) if rng.random() < 0.97 else long_dictionary(rng)))
    if rng.random() < 0.6:
        rng.shuffle(fields)
    fields.append(Field(outer.END, outer.END_BYTES))
    front = bytes.fromhex("03D9A29A67FB4BB5") + bytes([rng.randrange(2), 0, 4, 0])
    return Vault(Fields(front, fields), rng.randbytes(32), cipher, seed, nonce)


def sound_inner(rng):
    """An inner header in any order, with attachments and a document."""
    fields = [
        Field(1, rng.choice((2, 3)).to_bytes(4, "little")),
        Field(2, rng.randbytes(rng.choice((0, 1, 32, 64)))),
    ]
    fields += attachment_run(rng)
    if rng.random() < 0.6:
        rng.shuffle(fields)
    fields.append(Field(0, b""))
    return Fields(b"", fields, rng.randbytes(rng.choice((0, 1, rng.randrange(40)))))


def attachment_run(rng):
    """Fields of attachments: a flags byte of any value, and content."""
    count = rng.randrange(4) if rng.random() < 0.97 else rng.randrange(40)
    return [Field(3, rng.randbytes(rng.choice((1, 2, rng.randrange(1, 30))))) for _ in range(count)]
