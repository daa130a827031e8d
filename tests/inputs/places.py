"""Item 8's requests, which every run asks: each fault that has a place, where other places are near it, so that a wrong
one shows. Fields and items stand in several orders, with others before and behind the one at fault, and two faults at
once where the first met is to be given.
"""

from itertools import permutations

from model.dictionary import ARGON2D, ARGON2ID, BYTES, UINT32, UINT64
from model.header import CIPHER, COMPRESSION, CUSTOM, END, KDF, NONCE, SEED

from .few_rounds import (
    READERS, argon2_vault_of, rounds_cut, rounds_of, with_field, with_field_more, with_front, with_item, with_size,
    without_field, without_item,
)
from .shapes import BOOL, Field, Item, named, numbered

STRING = 0x18

# ----- the outer header


def in_order(*keys):
    """The fields in this order."""
    return lambda made: made.header.fields.sort(key=lambda field: keys.index(field.key))


def with_field_first(key, value):
    """A field before all others."""
    return lambda made: made.header.fields.insert(0, Field(key, value))


def front_of(op, length):
    """The first bytes of a file."""

    def make(rng):
        request = rounds_of(op, 6_000)(rng)
        return {**request, "data": request["data"][: 2 * length]}

    return make


# As the writer lays them, as KeePass does, and turned round.
ORDERS = (
    (CIPHER, COMPRESSION, SEED, NONCE, KDF, CUSTOM, END),
    (CIPHER, COMPRESSION, SEED, KDF, NONCE, CUSTOM, END),
    (CUSTOM, KDF, NONCE, SEED, COMPRESSION, CIPHER, END),
)

FIELD_FAULTS = (
    *((with_front(front),) for front in (
        "03d9a29a67fb4bb601000400",  # 3 at 4
        "03d9a29b67fb4bb501000400",  # 3 at 0
        "ffd9a29b67fb4bff01000400",  # both differ: 0
        "00d9a29b67fb4bb502000400",  # the version too
        "03d9a29a67fb4bb502000400",  # 4
        "03d9a29a67fb4bb500000300",
        "03d9a29a67fb4bb500000005",
    )),
    (with_field_more(13, b""),),  # 7
    (with_field_first(1, b"comment"),),
    (with_field_more(255, bytes(4)), with_field_more(COMPRESSION, bytes(4))),  # 7 before 6
    *((with_field_more(key, value),) for key, value in (  # 6
        (CIPHER, bytes(16)), (COMPRESSION, bytes(4)), (SEED, bytes(32)), (NONCE, b""), (KDF, b""),
    )),
    (with_field_first(CUSTOM, b"\x00\x01\x00"), with_field_more(CUSTOM, b"")),
    # Two repeats, of which the first in the file is given; three of one; the size of a repeated one is not looked at.
    (with_field_more(COMPRESSION, bytes(4)), with_field_more(CIPHER, bytes(16))),
    (with_field_more(CIPHER, bytes(16)), with_field_more(COMPRESSION, bytes(4))),
    (with_field_more(NONCE, b"a"), with_field_more(NONCE, b"b")),
    (with_field_more(SEED, b"short"),),
    *((with_field(key, value),) for key, value in (  # 5
        (CIPHER, bytes(15)), (CIPHER, bytes(17)), (COMPRESSION, b""), (COMPRESSION, bytes(5)), (SEED, bytes(31)),
        (SEED, bytes(33)), (END, bytes(4)), (END, b""), (END, b"\x0d\x0a\x0d"), (END, b"\x0d\x0a\x0d\x0a\x00"),
    )),
    *((with_size(key, size),) for key in (CIPHER, COMPRESSION, SEED, NONCE, KDF, END) for size in (-1, -(2**31))),
    (with_field_first(CUSTOM, b"\x00\x01\x00"), with_size(CUSTOM, -1)),
    (with_size(KDF, 2**31 - 1),),  # 2
    (with_size(NONCE, 2**31 - 1),),
    *((without_field(key),) for key in (CIPHER, COMPRESSION, SEED, NONCE, KDF)),  # 8
    (without_field(CIPHER), without_field(KDF)),
    (without_field(CIPHER), with_field_more(CUSTOM, b"broken")),
    *((with_field(CIPHER, bytes(16)), *more) for more in (  # 9 at the cipher
        (), (with_field(COMPRESSION, b"\x01\x00\x00\x00"),), (with_field(NONCE, b""),),
    )),
    (with_field(COMPRESSION, b"\x01\x00\x00\x00"),),  # 9 at the compression
    (with_field(COMPRESSION, b"\x00\x00\x00\x80"), with_field(NONCE, b"")),
    *((with_field(NONCE, bytes(length)),) for length in (0, 8, 11, 13, 16)),  # 5 at the nonce
    (with_field(NONCE, b""), with_field(KDF, b"")),
)

FIELDS = (
    *(
        rounds_of(op, 6_000, in_order(*order), *faults)
        for op in READERS
        for order in ORDERS
        for faults in FIELD_FAULTS
    ),
    *(front_of(op, length) for op in READERS for length in (0, 1, 4, 7, 11, 12, 13, 16, 17, 18, 32, 33, 38, 100, 150)),
    *(rounds_cut(op, 6_000, length) for op in READERS for length in (-2, -4, -5, -8, -9, -10, 1, 32)),
    rounds_of("open", 6_000, lent=0),
)


# ----- dictionaries: edits of one, which may be the KDF's, a custom one, or by itself


def letters(text):
    """A dictionary whose items are named by the letters of a text."""
    return named([letter.encode() for letter in text])


def with_version(version):
    return lambda made: setattr(made, "version", version)


def with_end(end):
    return lambda made: setattr(made, "end", end)


def with_part(number, **changed):
    """Another part of the item of a number: kind, name, name_size, value or value_size."""

    def edit(made):
        for name, value in changed.items():
            setattr(made.items[number], name, value)

    return edit


def repeated_at(number, place):
    """An item of that number again, at that place."""
    return lambda made: made.items.insert(place, made.items[number].copy())


SOUND = Item(UINT32, b"z", bytes(4)).octets()

# Faults of no item, and of the first, the last and the one between, of dictionaries of at least three items.
DICTIONARY_FAULTS = (
    *((with_version(version),) for version in (b"\x00\x02", b"\x01\x00", b"\x00\x00", b"\x00", b"")),
    *((with_end(end),) for end in (b"", b"\x00\x00", b"\x00" + SOUND + b"\x00", SOUND, b"\x00\x42")),
    # A last item whose type is not listed, and one that the dictionary's end cuts.
    *((with_end(SOUND + end),) for end in (b"\x01", b"\xff\x00", b"\x43\x00\x00\x00\x00\x00\x00\x00\x00\x00")),
    *((with_end(SOUND[:length]),) for length in range(1, len(SOUND))),
    *((with_end(SOUND + b"\x42" + SOUND[1:length] + b"\x00"),) for length in (1, 4, 6, 9, 12)),
    *((with_part(number, **changed),) for number in (0, 1, -1) for changed in (
        {"kind": 0x43}, {"kind": 1}, {"kind": UINT32, "value": bytes(5)}, {"kind": UINT64, "value": bytes(7)},
        {"kind": BOOL, "value": b""}, {"kind": 0x0C, "value": bytes(8)}, {"kind": 0x0D, "value": bytes(4)},
        {"name_size": -1}, {"value_size": -1}, {"name_size": 2**31 - 1}, {"value_size": 2**31 - 1},
        {"name_size": -(2**31)}, {"value_size": -(2**31)}, {"value_size": 10_000},
    )),
    (with_part(1, kind=0),),
    # 6: right behind the first, with others between, at the end; a broken one of the name is 10.
    *((repeated_at(number, place),) for number, place in ((0, 1), (0, 2), (0, 3), (1, 2), (1, 3), (2, 3), (2, 0))),
    (repeated_at(0, 3), with_part(3, kind=0x43)),
    (repeated_at(0, 3), with_part(3, value_size=-1)),
    # Two repeats; a repeat with a broken item behind it, and before it; with a fault of no item.
    (repeated_at(0, 3), repeated_at(1, 4)),
    (repeated_at(1, 3), repeated_at(0, 4)),
    (repeated_at(2, 3), repeated_at(0, 4)),
    (repeated_at(0, 2), with_part(-1, kind=0x43)),
    (repeated_at(0, 3), with_part(1, kind=0x43)),
    (repeated_at(0, 3), with_end(b"")),
    (repeated_at(0, 1), with_version(b"\x00\x02")),
    (with_part(0, value_size=-1), with_part(-1, kind=0x43)),
    (with_part(-1, kind=0x43), with_end(b"")),
)

# Which repeat is met first is not which name is: the second items stand in another order than the first ones.
REPEATS = (
    "aa", "aaa", "aba", "abb", "abab", "abba", "abcabc", "abccba", "abcbca", "abcdeedcba", "abcdaebb", "abcdebbaa",
)

# Numbers of items around those of a search that goes by stretches.
STRETCHES = (2, 3, 4, 5, 7, 8, 9, 15, 16, 17, 31, 32, 33, 63, 64, 65, 100, 127, 128, 129, 200, 255, 256, 257, 300)


def numbers_repeated(count):
    """So many numbers, two of them or more twice: behind all of them, within, one far behind the other, behind as many
    others."""
    middle, last = count // 2, count - 1
    return (
        [*range(count), 0, last],
        [*range(count), last, 0],
        [*range(count), middle, last, 0],
        [*range(middle + 1), middle, *range(middle + 1, count), 0],
        [*range(middle + 1), 0, *range(middle + 1, count), last],
        [0, *range(1, count), middle, *range(count, 2 * count), 0],
        [*range(count), *range(count, 2 * count), last, 0],
        [*range(count), *range(count)],
        [*range(count), *reversed(range(count))],
    )


def edited(made, edits):
    """The dictionary after these edits."""
    for edit in edits:
        edit(made)
    return made


def lone(op, made):
    """A dictionary by itself; the name that is looked up is there."""
    data = made.octets()
    return lambda rng: {"op": op, "data": data.hex(), "name": b"a".hex()}


def in_kdf(*edits):
    """These edits of the KDF dictionary."""
    return lambda made: edited(made.header.field(KDF).value, edits)


def as_custom(custom, place):
    """This custom dictionary, in a field of that place."""
    return lambda made: made.header.fields.insert(place, Field(CUSTOM, custom))


def long_custom(op, rng):
    """A custom dictionary of some hundred items, of which a few are repeated anywhere."""
    names = rng.sample(range(1000), 150)
    for name in rng.sample(names, 3):
        names.insert(rng.randrange(len(names) + 1), name)
    return rounds_of(op, 6_000, as_custom(numbered(names), rng.choice((0, 5))))(rng)


LONE = tuple(
    lone(op, made)
    for op in ("dict", "lookup")
    for made in (
        *(edited(letters("abc"), faults) for faults in DICTIONARY_FAULTS),
        *(edited(letters("abcdefgh"), faults) for faults in DICTIONARY_FAULTS[::3]),
        *map(letters, REPEATS),
        *(
            numbered(numbers)
            for count in (STRETCHES if op == "dict" else STRETCHES[3::4])
            for numbers in numbers_repeated(count)
        ),
        # A fault behind many items: an unlisted type, a repeat and then a broken item, a broken one and then a repeat.
        *(
            edited(numbered(range(count)), faults)
            for count in (10, 100, 300)
            for faults in (
                (with_part(-1, kind=0x43),),
                (repeated_at(count // 2, count - 1), with_part(-1, kind=0x43)),
                (repeated_at(1, count), with_part(count - 1, value_size=-1)),
                (with_end(b""),),
                (with_end(b"\x00\x00"),),
            )
        ),
    )
)

IN_HEADERS = (
    *(
        rounds_of(op, 6_000, in_order(*order), in_kdf(*faults))
        for op, order in zip(READERS, ORDERS + ORDERS[:1])
        for faults in DICTIONARY_FAULTS
    ),
    # Behind a sound KDF dictionary, in a field at the front, in the last before the end field.
    *(
        rounds_of(op, 6_000, as_custom(edited(letters("abc"), faults), place))
        for op, place in zip(READERS, (0, 5, 0, 5))
        for faults in DICTIONARY_FAULTS
    ),
    *(rounds_of(op, 6_000, as_custom(letters(text), 5)) for op in READERS for text in REPEATS),
    *(
        rounds_of("header", 6_000, as_custom(numbered(numbers), place))
        for count, place in ((5, 0), (33, 5), (100, 0), (257, 5))
        for numbers in numbers_repeated(count)
    ),
    *((lambda rng, op=op: long_custom(op, rng)) for op in READERS for _ in range(4)),
    # Both are broken: the KDF's is given.
    *(rounds_of(op, 6_000, as_custom(b"", place), in_kdf(with_end(b""))) for op in READERS for place in (0, 5)),
    *(rounds_of(op, 6_000, as_custom(b"", place)) for op in READERS for place in (0, 1, 2, 3, 4, 5)),
)


# ----- what a KDF asks for


def items_in_order(*names):
    """The KDF dictionary's items in this order; those that are not named stand behind them."""

    def edit(made):
        place = {name: number for number, name in enumerate(names)}
        made.header.field(KDF).value.items.sort(key=lambda item: place.get(item.name, len(names)))

    return edit


def with_item_at(place, kind, name, value=b""):
    """An item more in the KDF dictionary."""
    return lambda made: made.header.field(KDF).value.items.insert(place, Item(kind, name, value))


AES_ORDERS = tuple(permutations((b"$UUID", b"R", b"S")))
ROUNDS_OF = {number: (b"R", UINT64, rounds.to_bytes(8, "little")) for number, rounds in ((11, 4_000_001), (20, 5_999))}

AES_FAULTS = (
    (without_item(b"$UUID"),),
    (with_item(b"$UUID", STRING, bytes(16)),),
    (with_item(b"$UUID", BYTES, bytes(15)),),
    (with_item(b"$UUID", BYTES, b""), without_item(b"S")),
    (with_item(b"$UUID", BYTES, bytes(16)), with_item(b"S", BYTES, b"")),
    (without_item(b"S"),),
    (without_item(b"R"),),
    (without_item(b"S"), without_item(b"R")),
    (with_item(b"S", BYTES, bytes(31)),),
    (with_item(b"S", STRING, bytes(32)),),
    (with_item(b"R", 0x0D, bytes(8)),),
    (with_item(b"R", UINT32, bytes(4)),),
    (with_item(b"R", BYTES, bytes(8)),),
    # S comes before R, wherever it stands.
    (with_item(b"S", BYTES, bytes(33)), with_item(b"R", 0x0D, bytes(8))),
    (without_item(b"S"), with_item(b"R", 0x0D, bytes(8))),
    (with_item(b"S", BYTES, bytes(33)), without_item(b"R")),
    (with_item(b"S", BYTES, b""), with_item(*ROUNDS_OF[20])),
    *((with_item(*item),) for item in ROUNDS_OF.values()),
)

AES_KDF_ITEMS = tuple(
    rounds_of(op, 6_000, items_in_order(*order), *more, *faults)
    for op in READERS
    for number, order in enumerate(AES_ORDERS)
    for faults in AES_FAULTS
    for more in ((), (with_item_at(number % 4, BOOL, b"other", b"\x00"),))
    if op == "header" or (more == () and number in (1, 5))
)

# As the request names them, turned round, as the writer lays them.
ARGON2_ORDERS = (
    (b"$UUID", b"V", b"S", b"I", b"M", b"P"),
    (b"P", b"M", b"I", b"S", b"V", b"$UUID"),
    (b"$UUID", b"I", b"M", b"P", b"S", b"V"),
)
ARGON2_NAMES = (b"V", b"S", b"I", b"M", b"P")
WRONGLY_TYPED = {
    b"V": with_item(b"V", 0x0C, b"\x13\x00\x00\x00"),
    b"S": with_item(b"S", STRING, bytes(16)),
    b"I": with_item(b"I", 0x0D, (1).to_bytes(8, "little")),
    b"M": with_item(b"M", UINT32, (8_192).to_bytes(4, "little")),
    b"P": with_item(b"P", UINT64, (1).to_bytes(8, "little")),
}
OUTSIDE = {
    b"S": with_item(b"S", BYTES, bytes(7)),
    b"I": with_item(b"I", UINT64, bytes(8)),
    b"M": with_item(b"M", UINT64, (8_191).to_bytes(8, "little")),
    b"P": with_item(b"P", UINT32, (17).to_bytes(4, "little")),
}
OTHER_V = with_item(b"V", UINT32, b"\x10\x00\x00\x00")
SCARCE = with_item(b"P", UINT32, (2).to_bytes(4, "little"))  # beside the least M
NO_P = with_item(b"P", UINT32, bytes(4))
K_FIRST, A_FIRST = with_item_at(0, BYTES, b"K"), with_item_at(0, BYTES, b"A")
K_LAST, A_LAST = with_item_at(9, STRING, b"K"), with_item_at(9, BOOL, b"A", b"\x01")

ARGON2_FAULTS = (
    *((edit,) for edit in WRONGLY_TYPED.values()),
    *((without_item(name),) for name in ARGON2_NAMES),
    *((WRONGLY_TYPED[one], WRONGLY_TYPED[other]) for one, other in zip(ARGON2_NAMES, ARGON2_NAMES[1:])),
    *((without_item(one), WRONGLY_TYPED[other]) for one, other in permutations(ARGON2_NAMES, 2)),
    tuple(WRONGLY_TYPED.values()),
    tuple(WRONGLY_TYPED.values())[1:],
    # 9: V, then K, then A.
    (OTHER_V,),
    (OTHER_V, K_FIRST),
    (OTHER_V, A_LAST),
    (K_FIRST,),
    (K_LAST,),
    (A_FIRST,),
    (A_LAST,),
    (K_FIRST, A_FIRST),  # A before K
    (A_FIRST, K_FIRST),
    (K_FIRST, A_LAST),
    (A_FIRST, K_LAST),
    (K_LAST, OUTSIDE[b"S"]),
    (WRONGLY_TYPED[b"P"], A_FIRST),
    (without_item(b"P"), OTHER_V, K_FIRST),
    # 22: S, I, M, P, then M for P.
    *((edit,) for edit in OUTSIDE.values()),
    *((OUTSIDE[one], OUTSIDE[other]) for one, other in zip(ARGON2_NAMES[1:], ARGON2_NAMES[2:])),
    tuple(OUTSIDE.values()),
    (OUTSIDE[b"P"], OUTSIDE[b"S"]),
    (SCARCE,),
    (SCARCE, OUTSIDE[b"I"]),
    (SCARCE, OUTSIDE[b"M"]),
    (NO_P,),
    (NO_P, OUTSIDE[b"M"]),
    (with_item(b"S", BYTES, bytes(65)), SCARCE),
    (OTHER_V, *OUTSIDE.values()),
)

ARGON2_PLACES = tuple(
    argon2_vault_of(op, identifier, items_in_order(*order), *faults)
    for op in READERS
    for number, (identifier, order) in enumerate(zip((ARGON2D, ARGON2ID, ARGON2D), ARGON2_ORDERS))
    for faults in ARGON2_FAULTS
    if op == "header" or number == 1 or faults == (SCARCE,)
)


# ----- the inner header


def inner_fields(*fields):
    """An inner header of these fields: an ID and a value each."""
    return [Field(key, value) for key, value in fields]


def payload_of(op, fields, index=0, behind=b"document", cut=None):
    """A payload of these fields, whole or cut to a length."""
    data = (b"".join(field.octets() for field in fields) + behind)[:cut]
    return lambda rng: {"op": op, "data": data.hex(), "index": index}


def inner_sized(fields, number, size):
    """The fields, one of them with another size."""
    made = [field.copy() for field in fields]
    made[number].size = size
    return made


def without(fields, number):
    return fields[:number] + fields[number + 1 :]


ALGORITHM, KEY, ATTACHED, INNER_END = (1, b"\x02\x00\x00\x00"), (2, b"inner key"), (3, b"\x01content"), (0, b"")
INNER_ORDERS = (
    inner_fields(ALGORITHM, KEY, INNER_END),
    inner_fields(ALGORITHM, KEY, ATTACHED, (3, b"\x00"), INNER_END),
    inner_fields(ATTACHED, KEY, (3, b"\x00more"), ALGORITHM, (3, b"\x01last"), INNER_END),
)


def inner_faults(fields):
    """Fields with a fault each."""
    last = len(fields) - 1
    for number in range(len(fields)):
        yield without(fields, number)  # 8, or the document is read as fields
        for size in (-1, -(2**31), 0, 3, 5, 2**31 - 1):
            yield inner_sized(fields, number, size)
        for key in (4, 255):
            yield fields[:number] + inner_fields((key, b"unlisted")) + fields[number:]
        for repeated in (ALGORITHM, KEY):
            yield fields[:number] + inner_fields(repeated) + fields[number:]
    yield fields[:last] + inner_fields(KEY, ALGORITHM, INNER_END)
    yield fields[:last] + inner_fields(ALGORITHM, KEY, INNER_END)
    yield fields[:last] + inner_fields((3, b""), INNER_END)
    for algorithm in (0, 1, 4, 2**32 - 1):
        value = algorithm.to_bytes(4, "little")
        yield [Field(1, value) if field.key == 1 else field for field in fields]
    yield inner_fields(INNER_END)
    yield [Field(1, bytes(4)) if field.key == 1 else field for field in fields if field.key != 2]


INNER_READERS = ("inner", "attachment")

INNER_PLACES = (
    *(payload_of(op, made) for op in INNER_READERS for fields in INNER_ORDERS for made in inner_faults(fields)),
    *(
        payload_of(op, fields, behind=b"", cut=cut)
        for op in INNER_READERS
        for fields in INNER_ORDERS[:2]
        for cut in range(sum(len(field.octets()) for field in fields))
    ),
    *(payload_of("attachment", fields, index) for fields in INNER_ORDERS for index in (*range(5), 2**32, 2**64 - 1)),
    payload_of("attachment", INNER_ORDERS[0], 0, b""),
)

PLACES = (*FIELDS, *LONE, *IN_HEADERS, *AES_KDF_ITEMS, *ARGON2_PLACES, *INNER_PLACES)
