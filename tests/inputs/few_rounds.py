"""Item 3's requests, which every run asks: at the least number of rounds and around it, and few rounds beside each
other fault, so that the order of the checks shows. A number behind a fault is the one that it has by itself.
"""

from model.dictionary import ARGON2D, ARGON2ID, BYTES, UINT64
from model.header import CIPHER, COMPRESSION, CUSTOM, END, KDF, NONCE

from .borders import argon2_of, asked_file, rounds_vault, seeds, write_of, write_rounds
from .shapes import Block, Dictionary, Field, Item, aes_kdf_items, argon2_items, flipped


# ----- requests


def rounds_of(op, rounds, *edits, cipher="chacha", **fields):
    """A file of AES-KDF with so many rounds, after these edits, and with room unless the fields say otherwise."""

    def make(rng):
        made = rounds_vault(rng, rounds, cipher)
        for edit in edits:
            edit(made)
        return {**asked_file(op, made), "lents": [100] * 4, **fields}

    return make


def with_front(front):
    """Other signatures or another version."""
    return lambda made: setattr(made.header, "front", bytes.fromhex(front))


def with_field(key, value):
    """Another value of a field."""
    return lambda made: setattr(made.header.field(key), "value", value)


def with_size(key, size):
    """Another size of a field, before the same value."""
    return lambda made: setattr(made.header.field(key), "size", size)


def with_field_more(key, value):
    """A field right before the end field."""
    return lambda made: made.header.fields.insert(-1, Field(key, value))


def without_field(key):
    return lambda made: made.header.fields.remove(made.header.field(key))


def with_item(name, kind, value):
    """Another type and value of an item of the KDF dictionary."""

    def edit(made):
        item = made.header.field(KDF).value.item(name)
        item.kind, item.value = kind, value

    return edit


def with_item_more(kind, name, value):
    """An item behind those of the KDF dictionary."""
    return lambda made: made.header.field(KDF).value.items.append(Item(kind, name, value))


def without_item(name):
    def edit(made):
        found = made.header.field(KDF).value
        found.items.remove(found.item(name))

    return edit


def with_kdf_end(end):
    """Other bytes at the KDF dictionary's end."""
    return lambda made: setattr(made.header.field(KDF).value, "end", end)


def without_blocks(made):
    made.blocks = []


def without_closing(made):
    del made.blocks[-1]


def closing_alone(made):
    made.blocks = [Block(b"")]


def with_block(number, **changed):
    """Another value of a block."""

    def edit(made):
        for name, value in changed.items():
            setattr(made.blocks[number], name, value)

    return edit


def with_after(made):
    made.after = b"\x00"


def with_wrong_hash(made):
    made.hash = lambda octets: bytes(32)


def with_wrong_tag(made):
    made.tag = lambda octets: bytes(32)


def rounds_cut(op, rounds, length):
    """The front of such a file: so many bytes more than its header has, or less."""

    def make(rng):
        made = rounds_vault(rng, rounds)
        front = made.octets()[: len(made.header.octets()) + length]
        return {"op": op, "data": front.hex(), "T": made.t.hex(), "lents": [100]}

    return make


def argon2_vault_of(op, identifier, *edits):
    """A file whose KDF is Argon2 with the least figures, after these edits."""

    def make(rng):
        made = rounds_vault(rng, 6_000)
        items = argon2_items(rng)
        least = {b"$UUID": identifier, b"I": (1).to_bytes(8, "little"), b"M": (8_192).to_bytes(8, "little")}
        least[b"P"] = (1).to_bytes(4, "little")
        for item in items:
            item.value = least.get(item.name, item.value)
        made.header.field(KDF).value = Dictionary(items)
        for edit in edits:
            edit(made)
        return asked_file(op, made, lents=[100] * 4)

    return make


def rounds_dictionary(op, rounds):
    """AES-KDF's dictionary with so many rounds, by itself."""
    return lambda rng: {"op": op, "data": Dictionary(aes_kdf_items(rng, rounds)).octets().hex(), "name": b"R".hex()}


def started(rounds, *helpings):
    """The rounds in these helpings."""
    return lambda rng: {"op": "rounds", **seeds(rng), "R": rounds, "helpings": list(helpings)}


# ----- all of them

READERS = ("header", "list", "open", "steps")

# Item 3: at the least number of rounds and around it, at those of which a part is few or enough, at the most.
AROUND_LEAST = (
    0, 1, 5_887, 5_999, 6_000, 6_001, 6_144, 32_768, 65_536, 71_535, 4_000_000, 4_000_001, 2**32 + 5_999, 2**64 - 1,
)
ROUNDS = tuple(rounds_of(op, rounds) for op in READERS for rounds in AROUND_LEAST) + tuple(
    rounds_of(op, rounds, cipher="aes") for op in READERS for rounds in (5_999, 6_000)
)

SOUND_ITEM = Item(UINT64, b"a", bytes(8)).octets()
BROKEN = b"\x00\x01"  # a dictionary without an end
REPEATED = b"\x00\x01" + SOUND_ITEM + SOUND_ITEM + b"\x00"
FEW = (1).to_bytes(8, "little")

# What comes before 20 in a header, and behind it; each with few rounds.
BEFORE_ROUNDS = (
    with_front("03d9a29a67fb4bb601000400"),  # 3
    with_front("03d9a29a67fb4bb502000400"),  # 4
    with_field_more(13, b""),  # 7
    with_field_more(COMPRESSION, bytes(4)),  # 6
    with_size(COMPRESSION, -1),  # 5
    with_field(END, bytes(4)),  # 5
    without_field(NONCE),  # 8
    with_field(CIPHER, bytes(16)),  # 9
    with_field(COMPRESSION, b"\x01\x00\x00\x00"),  # 9
    with_field(NONCE, bytes(16)),  # 5
    with_kdf_end(b""),  # 10
    with_kdf_end(b"\x00\x00"),  # 10
    with_item_more(0x43, b"a", bytes(8)),  # 10
    with_item_more(UINT64, b"R", FEW),  # 6
    without_item(b"$UUID"),  # 10
    with_item(b"$UUID", BYTES, bytes(15)),  # 10
    with_item(b"$UUID", BYTES, bytes(16)),  # 9
    without_item(b"S"),  # 10
    with_item(b"S", BYTES, bytes(31)),  # 10
    with_item(b"S", 0x18, bytes(32)),  # 10
    without_item(b"R"),  # 10
    with_item(b"R", 0x0D, FEW),  # 10
    with_item(b"R", BYTES, FEW),  # 10
)
BEHIND_ROUNDS = (
    with_field_more(CUSTOM, b""),  # 10
    with_field_more(CUSTOM, BROKEN),  # 10
    with_field_more(CUSTOM, REPEATED),  # 6
)
BEHIND_HEADER = (
    with_wrong_hash,  # 12
    with_wrong_tag,  # 13
    lambda made: setattr(made, "t", flipped(made.t, 0)),  # 13
    without_blocks,  # 2
    without_closing,  # 2
    with_block(0, flip=0),  # 14
    with_block(0, size=-1),  # 5
    with_after,  # 15
)

ROUNDS_TIES = (
    *(rounds_of("header", 5_999, edit) for edit in BEFORE_ROUNDS + BEHIND_ROUNDS),
    *(rounds_of(op, 5_999, edit) for op in READERS[1:] for edit in BEHIND_ROUNDS),
    *(rounds_of(op, 5_999, without_item(b"S")) for op in READERS[1:]),
    *(rounds_of(op, 5_999, edit) for op in ("open", "steps") for edit in BEHIND_HEADER),
    # The same with as many rounds as are needed, each refused with its own number.
    *(rounds_of(op, 6_000, edit) for op in ("open", "steps") for edit in BEHIND_ROUNDS + BEHIND_HEADER),
    *(rounds_of("open", rounds, closing_alone, cipher="aes") for rounds in (5_999, 6_000)),  # 16
    *(rounds_of(op, 5_999, lent=0, lents=[0, 0]) for op in ("open", "steps")),
    # The end field without its last byte, and no byte behind the header, or a few.
    *(rounds_cut(op, rounds, length) for op in READERS for rounds in (5_999, 6_000) for length in (-1, 0, 63)),
    # Two faults behind the rounds, and one before them with one behind.
    rounds_of("open", 5_999, with_field_more(CUSTOM, BROKEN), with_wrong_hash),
    rounds_of("steps", 5_999, without_item(b"S"), with_field_more(CUSTOM, REPEATED)),
    # Items that AES-KDF does not ask for.
    rounds_of("header", 5_999, with_item_more(UINT64, b"r", (6_000).to_bytes(8, "little"))),
    rounds_of("header", 6_000, with_item_more(UINT64, b"I", FEW)),
)

# R: "For AES-KDF alone", "in reader and writer": not of Argon2's figures, not of a dictionary by itself.
NO_ROUNDS = (
    *(argon2_vault_of(op, identifier) for op in READERS for identifier in (ARGON2D, ARGON2ID)),
    *(argon2_vault_of(op, ARGON2ID, with_item_more(UINT64, b"R", FEW)) for op in READERS),
    argon2_vault_of("header", ARGON2D, with_item_more(UINT64, b"R", FEW)),
    argon2_vault_of("header", ARGON2D, with_item(b"I", UINT64, bytes(8))),
    argon2_vault_of("header", ARGON2D, without_item(b"I"), with_item_more(UINT64, b"R", FEW)),
    argon2_of("argon2id", 1, 8_192, 1),
    write_of("chacha", 40, kind="argon2d"),
    write_of("aes", 40, kind="argon2id"),
    *(rounds_dictionary(op, rounds) for op in ("dict", "lookup") for rounds in (0, 5_999, 4_000_001)),
)

ROUNDS_WRITTEN = (
    *(write_rounds(rounds, cipher) for rounds in AROUND_LEAST for cipher in ("aes", "chacha")),
    write_rounds(5_999, minor=0),
    write_rounds(6_000, minor=0),
    # Before 20.
    write_rounds(5_999, minor=2),
    write_rounds(5_999, cipher="aes", nonce=bytes(12).hex()),
    write_rounds(5_999, nonce=""),
    write_rounds(5_999, seed=bytes(31).hex()),
    write_rounds(5_999, seed_length=31),
    write_rounds(5_999, seed_length=0),
    write_rounds(5_999, seed_length=33),
    lambda rng: {**write_rounds(5_999)(rng), "cipher": bytes(16).hex()},
    # Behind it.
    write_rounds(5_999, custom=BROKEN.hex()),
    write_rounds(5_999, custom=REPEATED.hex()),
    write_rounds(6_000, custom=BROKEN.hex()),
    write_rounds(6_000, custom=REPEATED.hex()),
    write_rounds(5_999, lent=0),
    write_rounds(6_000, lent=0),
    write_rounds(5_999, custom=BROKEN.hex(), lent=0),
)

# "Starting the rounds still checks 11 alone."
STARTED = (
    started(0),
    started(0, 1),
    started(1, 1),
    started(5_999, 2_999, 0, 3_000),
    started(5_999, 6_000),
    started(6_000, 5_999),
    started(6_000, 5_999, 1, 1),
    started(4_000_000, 1),
    started(4_000_001, 1),
)

FEW_ROUNDS = (*ROUNDS, *ROUNDS_TIES, *NO_ROUNDS, *ROUNDS_WRITTEN, *STARTED)
