"""Edits: each makes one change to a shape, most of them a fault. Two at once test the order of the checks."""

from model import header as outer
from model.dictionary import AES_KDF, ARGON2D, ARGON2ID, ARGON2_ITEMS, SIZE_OF_TYPE
from model.keys import tag_key
from model.primitives import cbc_encrypt, hmac_sha256

from .shapes import (
    Block, Dictionary, Field, Item, aes_kdf_items, argon2_items, enough_rounds, few_rounds, flipped, int32_octets,
    sound_dictionary, sound_item,
)


def other_size(rng, right):
    """A size beside the right one, negative ones included."""
    return rng.choice(
        (-1, -(2**31), 2**31 - 1, right + 1, right - 1, right + 256, -right, 0, 1, rng.randrange(2 * right + 3))
    )


def other_octets(rng, data):
    """The bytes with one changed, one more, one less, or none left."""
    way = rng.randrange(5)
    if way == 0:
        return data + rng.randbytes(1)
    if way == 1:
        return data[:-1]
    if way == 2:
        return b""
    return flipped(data, rng.randrange(8 * len(data))) if data else rng.randbytes(1)


# ----- dictionaries


def version(rng, made):
    wrong = (b"\x00\x00", b"\x00\x02", b"\x01\x00", b"\x00\x81", b"\x00", b"")
    made.version = rng.choice(wrong + (bytes([rng.randrange(256), 1]),))


def end(rng, made):
    made.end = rng.choice((b"", b"\x00\x00", b"\x00" + rng.randbytes(3), b"\x01", bytes([rng.randrange(256)])))


def some_item(rng, made):
    """An item of the dictionary; one is added where there is none."""
    if not made.items:
        made.items.append(sound_item(rng))
    return rng.choice(made.items)


def item_type(rng, made):
    some_item(rng, made).kind = rng.choice((0, 1, 2, 3, 4, 5, 6, 7, 8, 9, 0x0C, 0x0D, 0x0E, 0x18, 0x42, 0x43, 0xFF))


def item_resized(rng, made):
    """A value that does not fit the type, with a size that tells its length."""
    item = some_item(rng, made)
    other = rng.randbytes(rng.randrange(20))
    item.value = rng.choice((b"", item.value[:-1], item.value + b"\x00", item.value + bytes(4), other))


def item_value_size(rng, made):
    item = some_item(rng, made)
    item.value_size = other_size(rng, len(item.value))


def item_name_size(rng, made):
    item = some_item(rng, made)
    item.name_size = other_size(rng, len(item.name))


def item_name(rng, made):
    item = some_item(rng, made)
    item.name = rng.choice((b"", other_octets(rng, item.name), some_item(rng, made).name))


def item_removed(rng, made):
    if made.items:
        del made.items[rng.randrange(len(made.items))]


def item_repeated(rng, made):
    """The same name twice: the same item, or another value or type, sound or broken."""
    item = some_item(rng, made).copy()
    way = rng.randrange(4)
    if way == 1:
        other = sound_item(rng)
        item.kind, item.value = other.kind, other.value
    if way == 2:
        item.value_size = other_size(rng, len(item.value))
    if way == 3:
        item.kind = rng.choice((1, 0x0C, 0x43))
    made.items.insert(rng.randrange(len(made.items) + 1), item)


def items_repeated(rng, made):
    """Several sound items again, each anywhere: which is met first is not which name is."""
    some_item(rng, made)
    for item in rng.choices(made.items, k=rng.choice((2, 2, 3))):
        made.items.insert(rng.randrange(len(made.items) + 1), item.copy())


def item_added(rng, made):
    made.items.insert(rng.randrange(len(made.items) + 1), sound_item(rng))


def items_moved(rng, made):
    rng.shuffle(made.items)


def item_zero_type(rng, made):
    """A 0 byte where items follow."""
    made.items.insert(rng.randrange(len(made.items) + 1), Item(0, b"", b""))


DICTIONARY = (
    version, end, item_type, item_resized, item_value_size, item_name_size, item_name, item_removed, item_repeated,
    items_repeated, item_added, items_moved, item_zero_type,
)


# ----- a KDF's figures

# At the borders of documents 01 and 02 and past them, and where a part of the number is one that is allowed.
FIGURES = {
    "R": (
        0, 1, 5_999, 6_000, 4_000_000, 4_000_001, 2**32, 2**32 + 1, 2**32 + 5_999, 2**32 + 6_000, 2**63, 2**64 - 1,
    ),
    "V": (0x10, 0x12, 0x14, 0x113, 2**24 + 0x13),
    "I": (0, 64, 65, 2**32 + 1, 2**64 - 1),
    "M": (0, 8_191, 67_108_864, 67_108_865, 2**32 + 2**20, 2**64 - 1),
    "P": (0, 16, 17, 2**8 + 1, 2**16 + 1, 2**32 - 1),
}


def other_figure(rng, name):
    """A figure at a border or past one; few are any."""
    return rng.choice(FIGURES[name]) if rng.random() < 0.9 else rng.randrange(2 ** (32 if name in "VP" else 64))


def other_salt(rng):
    """A salt of a length around those that matter to either KDF."""
    return rng.randbytes(rng.choice((0, 7, 8, 16, 31, 32, 33, 64, 65, 65, 264)))


def scarce_memory(rng):
    """Lanes, and just the memory that they need, or a little less or more."""
    lanes = rng.choice((2, 16, rng.randrange(1, 17)))
    return lanes, 8_192 * lanes + rng.choice((-1024, -1, -1, 0, 1))


# ----- what a KDF dictionary asks for

KDF_NAMES = (b"$UUID", b"R", *ARGON2_ITEMS)


def kdf_identifier(rng, made):
    item = made.item(b"$UUID")
    if item:
        near = (flipped(item.value, rng.randrange(128)), item.value[:15], item.value + b"\x00")
        item.value = rng.choice((AES_KDF, ARGON2D, ARGON2ID, rng.randbytes(16)) + near)


def kdf_figure(rng, made):
    """Another number in an item that has one."""
    items = [item for item in made.items if item.name.decode("latin-1") in FIGURES]
    if items:
        item = rng.choice(items)
        item.value = other_figure(rng, item.name.decode()).to_bytes(8, "little")[: len(item.value)]


def kdf_few_rounds(rng, made):
    item = made.item(b"R")
    if item:
        item.value = few_rounds(rng).to_bytes(8, "little")


def kdf_salt(rng, made):
    item = made.item(b"S")
    if item:
        item.value = other_salt(rng)


def kdf_scarce_memory(rng, made):
    memory, lanes = made.item(b"M"), made.item(b"P")
    if memory and lanes:
        number, octets_asked = scarce_memory(rng)
        lanes.value, memory.value = number.to_bytes(4, "little"), octets_asked.to_bytes(8, "little")


def kdf_item_of_kdf(rng, made):
    """An item that a KDF asks for, or None where there is none."""
    items = [item for item in made.items if item.name in KDF_NAMES]
    return rng.choice(items) if items else None


def kdf_item_type(rng, made):
    """Another type that takes the value, or a sound value of another type."""
    item = kdf_item_of_kdf(rng, made)
    if item:
        item.kind = rng.choice((0x18, 0x42, 0x0D, 0x0C, 0x05, 0x04))
        size = SIZE_OF_TYPE[item.kind]
        if size is not None:
            item.value = (item.value + bytes(8))[:size]


def kdf_item_removed(rng, made):
    removed = kdf_item_of_kdf(rng, made)
    made.items = [item for item in made.items if item is not removed]


def kdf_item_forbidden(rng, made):
    """An item K or A of any type, which AES-KDF alone may have; sometimes one of a name near these."""
    item = sound_item(rng)
    item.name = rng.choice((b"K", b"A", b"K", b"A", b"k", b"KA"))
    made.items.insert(rng.randrange(len(made.items) + 1), item)


def kdf_items_of_both(rng, made):
    """The items of both KDFs, under the identifier of one. Of R any number is allowed in Argon2's dictionary."""
    names = [item.name for item in made.items]
    rounds = rng.choice((few_rounds, enough_rounds))(rng)
    made.items += [item for item in aes_kdf_items(rng, rounds) + argon2_items(rng)[1:] if item.name not in names]
    if rng.random() < 0.5:
        kdf_identifier(rng, made)


def kdf_several(rng, made):
    """Several faults at once of what a KDF asks for: the first one looked at is given."""
    for _ in range(rng.randrange(2, 5)):
        rng.choice((kdf_item_type, kdf_item_removed, kdf_figure, kdf_salt, kdf_item_forbidden))(rng, made)
    if rng.random() < 0.5:
        items_moved(rng, made)


KDF = DICTIONARY + 12 * (kdf_figure,) + 2 * (kdf_few_rounds,)
KDF += 4 * (kdf_identifier, kdf_salt, kdf_scarce_memory, kdf_item_type, kdf_item_removed, kdf_item_forbidden)
KDF += 2 * (kdf_items_of_both,) + 8 * (kdf_several,)


# ----- fields of either header


def some_field(rng, header):
    """A field, or none where all are gone."""
    return rng.choice(header.fields) if header.fields else Field(0, b"")


def field_size(rng, header):
    field = some_field(rng, header)
    field.size = other_size(rng, len(field.value_octets()))


def field_value(rng, header):
    field = some_field(rng, header)
    field.value = other_octets(rng, field.value_octets())


def field_key(rng, header):
    some_field(rng, header).key = rng.choice((*range(14), 128, 255, rng.randrange(256)))


def field_added(rng, header):
    """A field of any ID, listed or not."""
    field = Field(rng.choice((1, 3, 5, 8, 12, 12, 13, 255)), rng.randbytes(rng.randrange(6)))
    header.fields.insert(rng.randrange(len(header.fields) + 1), field)


def field_removed(rng, header):
    if header.fields:
        del header.fields[rng.randrange(len(header.fields))]


def field_repeated(rng, header):
    """The same ID again, with the same value or another, with a right size or a wrong one."""
    field = some_field(rng, header).copy()
    if rng.random() < 0.5:
        field.value = other_octets(rng, field.value_octets())
    if rng.random() < 0.3:
        field.size = other_size(rng, len(field.value_octets()))
    header.fields.insert(rng.randrange(len(header.fields) + 1), field)


def fields_moved(rng, header):
    rng.shuffle(header.fields)


def fields_cut(rng, header):
    """No end field, and perhaps fewer."""
    del header.fields[rng.randrange(len(header.fields) + 1) :]


FIELDS = (
    field_size, field_size, field_value, field_key, field_added, field_removed, field_repeated, fields_moved,
    fields_cut,
)


# ----- the outer header


OTHER_VERSIONS = (
    "02000400", "00000300", "00000500", "04000100", "00000000", "ffffffff", "01000300", "00010400", "00000401",
)


def front(rng, header):
    """Another signature or version."""
    way = rng.randrange(3)
    if way == 0:
        header.front = flipped(header.front, rng.randrange(96))
    if way == 1:
        header.front = header.front[:8] + bytes.fromhex(rng.choice(OTHER_VERSIONS))
    if way == 2:
        header.front = other_octets(rng, header.front)


def end_field(rng, header):
    field = header.field(outer.END)
    if field:
        right = outer.END_BYTES
        field.value = rng.choice((b"", right[:3], right + b"\x00", bytes(4), flipped(right, rng.randrange(32))))


def cipher_field(rng, header):
    field = header.field(outer.CIPHER)
    if field:
        field.value = rng.choice((outer.AES, outer.CHACHA20, flipped(outer.AES, rng.randrange(128)), rng.randbytes(16)))


def compression_field(rng, header):
    field = header.field(outer.COMPRESSION)
    if field:
        field.value = int32_octets(rng.choice((1, 2, 256, 2**16, 2**24, 2**31, 2**32 - 1)))


def nonce_field(rng, header):
    field = header.field(outer.NONCE)
    if field:
        field.value = rng.randbytes(rng.choice((0, 8, 11, 12, 13, 15, 16, 17, 32)))


def kdf_field(rng, header):
    field = header.field(outer.KDF)
    if field and not isinstance(field.value, bytes):
        for _ in range(rng.choice((1, 1, 2))):
            rng.choice(KDF)(rng, field.value)


def header_few_rounds(rng, header):
    """Too few rounds. A dictionary that has none becomes one of AES-KDF."""
    field = header.field(outer.KDF)
    if field and not isinstance(field.value, bytes):
        if field.value.item(b"R"):
            kdf_few_rounds(rng, field.value)
        else:
            field.value = Dictionary(aes_kdf_items(rng, few_rounds(rng)))


def custom_field(rng, header):
    """A fault in the custom dictionary, which is added where there is none."""
    field = header.field(outer.CUSTOM)
    if not field:
        field = Field(outer.CUSTOM, sound_dictionary(rng))
        header.fields.insert(rng.randrange(max(1, len(header.fields))), field)
    if rng.random() < 0.1:
        field.value = rng.choice((b"", b"\x00", b"\x00\x01", b"\x00\x01\x00", b"\x00\x01\x01"))
    elif not isinstance(field.value, bytes):
        rng.choice(DICTIONARY)(rng, field.value)


def few_rounds_and_custom(rng, header):
    """Too few rounds, and a fault in the custom dictionary, often a repeated name."""
    header_few_rounds(rng, header)
    custom_field(rng, header)
    field = header.field(outer.CUSTOM)
    if rng.random() < 0.5 and not isinstance(field.value, bytes):
        item_repeated(rng, field.value)


HEADER = FIELDS + (front, front, end_field, cipher_field, compression_field, nonce_field)
HEADER += 5 * (kdf_field,) + 3 * (custom_field,) + (header_few_rounds, few_rounds_and_custom)


# ----- the inner header


def inner_algorithm(rng, header):
    field = header.field(1)
    if field:
        field.value = int32_octets(rng.choice((0, 1, 4, -1, 2 + 256, 3 + 2**24, -(2**31))))


def inner_attachment(rng, header):
    field = header.field(3)
    if field:
        field.value = b""


INNER = FIELDS + 2 * (inner_algorithm, inner_attachment)


# ----- the file behind the header


def some_block(rng, vault):
    return rng.choice(vault.blocks)


def hash_wrong(rng, vault):
    bit, right = rng.randrange(256), vault.hash
    vault.hash = lambda octets: flipped(right(octets), bit)


def tag_wrong(rng, vault):
    """Another bit, the key for number 0, or number and size in the message too."""
    bit, right, base = rng.randrange(256), vault.tag, vault.base
    vault.tag = rng.choice((
        lambda octets: flipped(right(octets), bit),
        lambda octets: Block(octets).octets(base, 2**64 - 1)[:32],
        lambda octets: hmac_sha256(tag_key(0, base), octets),
    ))


def block_tag(rng, vault):
    some_block(rng, vault).flip = rng.randrange(256)


def block_number(rng, vault):
    """Another number in the message, in the key, or in both."""
    block = some_block(rng, vault)
    numbers = rng.choice(((0, None), (None, 0), (1, 1), (2**64 - 1, None), (rng.randrange(2**64), None)))
    block.number, block.key_number = numbers


def block_size(rng, vault):
    """A size beside the right one, under a tag that holds over what is stated."""
    block = some_block(rng, vault)
    block.size = other_size(rng, len(block.data))


def block_swapped(rng, vault):
    """Two blocks in each other's place; their tags go with them or are made anew."""
    first, second = rng.randrange(len(vault.blocks)), rng.randrange(len(vault.blocks))
    if rng.random() < 0.5:
        vault.blocks[first].number, vault.blocks[second].number = first, second
    vault.blocks[first], vault.blocks[second] = vault.blocks[second], vault.blocks[first]


def block_repeated(rng, vault):
    place = rng.randrange(len(vault.blocks))
    vault.blocks.insert(place, vault.blocks[place].copy())


def block_dropped(rng, vault):
    if len(vault.blocks) > 1:
        del vault.blocks[rng.randrange(len(vault.blocks))]


def block_empty(rng, vault):
    """An empty block before the closing one: it closes, and bytes stand after it."""
    vault.blocks.insert(rng.randrange(len(vault.blocks)), Block(b""))


def block_grown(rng, vault):
    """More or fewer bytes of ciphertext, under a tag that holds."""
    block = some_block(rng, vault)
    data, other = block.data, rng.randbytes(rng.randrange(40))
    block.data = rng.choice((data[:-1], data + rng.randbytes(1), data + rng.randbytes(16), other))


def bytes_after(rng, vault):
    closing = Block(b"").octets(vault.base, len(vault.blocks))
    vault.after = rng.choice((b"\x00", rng.randbytes(rng.randrange(1, 40)), bytes(36), closing))


def no_closing(rng, vault):
    del vault.blocks[-1]
    if not vault.blocks:
        vault.after = rng.randbytes(rng.randrange(36))


def cut_before_blocks(rng, vault):
    """The file ends inside the header's hash or tag, or before them."""
    length, right_hash, right_tag = rng.randrange(64), vault.hash, vault.tag
    vault.hash = lambda octets: right_hash(octets)[:length]
    vault.tag = lambda octets: right_tag(octets)[: max(0, length - 32)]
    vault.blocks, vault.after = [], b""


def other_t(rng, vault):
    vault.t = flipped(vault.t, rng.randrange(256))


FILE = (
    hash_wrong, tag_wrong, block_tag, block_tag, block_number, block_size, block_size, block_swapped, block_repeated,
    block_dropped, block_empty, block_grown, block_grown, bytes_after, bytes_after, other_t,
)


def wrong_padding(rng, plain):
    """A padded payload whose padding is wrong, at times right, at times one of 17 or 18 bytes that all tell it."""
    padding = 16 - len(plain) % 16
    padded = bytearray(plain + bytes([padding]) * padding)
    way = rng.randrange(4)
    if way == 0:
        padded[-1] = rng.choice((0, 17, 18, 32, 128, 255, rng.randrange(256)))
    if way == 1:
        padded[-rng.randrange(1, padding + 1)] ^= 1 << rng.randrange(8)
    if way == 2:
        padded[-1] = rng.randrange(1, 17)
    if way == 3:
        length = min(rng.choice((16, 17, 18, rng.randrange(1, 17))), len(padded))
        padded[-length:] = bytes([length]) * length
        padded[-length] ^= rng.choice((0, 0, 1, 16))
    return bytes(padded)


def wrongly_padded(rng, vault, plain):
    """The ciphertext of a payload padded wrongly (AES)."""
    return cbc_encrypt(vault.cipher_key, vault.nonce, wrong_padding(rng, plain))


# ----- bytes


def cut(rng, data):
    return data[: rng.randrange(len(data) + 1)]


def cut_near_end(rng, data):
    return data[: max(0, len(data) - rng.randrange(1, 40))]


def bit(rng, data):
    return flipped(data, rng.randrange(8 * len(data) + 1))


def byte_removed(rng, data):
    at = rng.randrange(len(data) + 1)
    return data[:at] + data[at + 1 :]


def byte_added(rng, data):
    at = rng.randrange(len(data) + 1)
    return data[:at] + rng.randbytes(1) + data[at:]


OCTETS = (cut, cut_near_end, bit, bit, byte_removed, byte_added)


def apply(rng, table, shape, few=(0.25, 0.7, 0.9)):
    """None to three edits of a table."""
    roll = rng.random()
    for _ in range(sum(roll >= share for share in few)):
        rng.choice(table)(rng, shape)


def octets(rng, data, share):
    """The bytes, with such a share of edits."""
    return rng.choice(OCTETS)(rng, data) if rng.random() < share else data
