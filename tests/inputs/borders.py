"""The few large requests: at each limit of document 01 and of Items 1, 6 and 7, and one past it; written payloads
around a written block, and files in blocks of other sizes or cut anew; places of Item 8 far from the front. With them
the small ones at the lengths of Item 2 and the positions of Item 1.

A large one is some 32 MB of text, so each is made when it is asked.
"""

from model import vault as opening
from model.header import CUSTOM, KDF
from model.limits import (
    FILE_LIMIT, KEY_FILE_LIMIT, MESSAGE_LIMIT, PASSWORD_LIMIT, PAYLOAD_LIMIT, PROGRAM_LIMIT, STREAM_LIMIT,
    WRITTEN_BLOCK,
)
from model.recut import recut

from .shapes import BOOL, Block, Dictionary, Field, Item, aes_kdf_items, numbered, sound_inner, sound_vault

# Document 01's numbers, before Item 7: "Stored vaults stay valid and open as before."
FORMER_LIMIT = 4_194_304  # file and payload
FORMER_MESSAGE = 8_388_608
FORMER_BLOCK = 16_384


def filled(data, length):
    """The data with zeros behind it, to that length."""
    return data + bytes(length - len(data))


def zeros(length):
    """So many zeros, as a request has them."""
    return {"zeros": length}


def dictionary_of(length, behind=b""):
    """A dictionary of that length with a single item, and these bytes behind it."""
    made = Dictionary([Item(0x42, b"a", b"")])
    made.end = behind + made.end
    made.items[0].value = bytes(length - len(made.octets()))
    return made.octets()


# ----- files


def plain_vault(rng, cipher):
    """A file without blocks, with that cipher and without a custom dictionary."""
    made = sound_vault(rng)
    while made.cipher != cipher or made.header.field(CUSTOM):
        made = sound_vault(rng)
    return made


def with_custom(made, length, behind=b""):
    """The file with a custom dictionary that makes its header that long, with these bytes behind its item."""
    made.header.fields.insert(0, Field(CUSTOM, dictionary_of(length - len(made.header.octets()) - 5, behind)))
    return made


def rounds_vault(rng, rounds, cipher="chacha"):
    """A file of two data blocks whose KDF is AES-KDF with so many rounds (Item 3)."""
    made = plain_vault(rng, cipher)
    made.header.field(KDF).value = Dictionary(aes_kdf_items(rng, rounds))
    cut_into(rng, made, 40, lambda text: -(-text // 2))
    return made


def asked_file(op, made, **fields):
    """A file as a request has it, with the other fields."""
    return {"op": op, "data": made.octets().hex(), "T": made.t.hex(), **fields}


def header_of(op, length):
    """A sound header in a file of that length."""
    return lambda rng: {"op": op, "data": filled(sound_vault(rng).header.octets(), length).hex()}


def rounds_filled(op, rounds, length):
    """A header with so many rounds in a file of that length."""

    def make(rng):
        data = filled(rounds_vault(rng, rounds).header.octets(), length)
        return {"op": op, "data": data.hex(), "T": bytes(32).hex(), "lents": [100]}

    return make


def long_header(length):
    """A sound header that is that long itself."""
    return lambda rng: {"op": "header", "data": with_custom(plain_vault(rng, "aes"), length).header.octets().hex()}


def long_header_vault(op, length):
    """A file of that length that is a header but for what has to follow: it has no payload."""

    def make(rng):
        made = with_custom(plain_vault(rng, "chacha"), length - 64 - 36)
        made.blocks = [Block(b"")]
        return asked_file(op, made, lents=[0, 0])

    return make


def not_a_file(op, length):
    """Zeros over the limit: the length is judged first."""
    return lambda rng: {"op": op, "data": zeros(length), "T": bytes(32).hex(), "lents": [0, 0]}


def far_cut(op, length):
    """A file of that length that ends inside its custom dictionary."""

    def make(rng):
        made = plain_vault(rng, "chacha")
        made.header.fields[-1] = cut = Field(CUSTOM, b"")
        cut.size, cut.value = 2**31 - 1, bytes(length - len(made.octets()))
        return asked_file(op, made, lents=[0])

    return make


def far_field(op, length):
    """A header of that length with its hash and tag: before the end field one that is repeated."""

    def make(rng):
        made = plain_vault(rng, "chacha")
        made.header.fields.insert(-1, made.header.fields[0])
        return asked_file(op, with_custom(made, length - 64), lents=[0])

    return make


def far_item(op, length, item):
    """A header of that length with its hash and tag: its custom dictionary has this item behind a long one."""
    return lambda rng: asked_file(op, with_custom(plain_vault(rng, "chacha"), length - 64, item), lents=[0])


def lone_item(op, length, item):
    """A dictionary of that length, with this item behind a long one."""
    return lambda rng: {"op": op, "data": dictionary_of(length, item).hex(), "name": b"a".hex()}


def large_vault(rng, cipher, length, blocks):
    """A file of exactly that length in so many data blocks, and the length of its payload. For AES a custom dictionary
    makes the ciphertext a multiple of 16 bytes."""
    made = plain_vault(rng, cipher)
    if cipher == "aes":
        least = len(made.header.octets()) + 100
        made = with_custom(made, least + (length - least - 64 - 36 * (blocks + 1)) % 16)
    payload = length - len(made.header.octets()) - 64 - 36 * (blocks + 1) - (cipher == "aes")
    cut_into(rng, made, payload, lambda text: -(-text // blocks))
    return made, payload


def cut_into(rng, made, payload, size_of):
    """Blocks of a random payload of that length. Their size is a function of the ciphertext's length."""
    text = opening.encryption(made.cipher, made.cipher_key, made.nonce, rng.randbytes(payload))
    size = size_of(len(text))
    made.blocks = [Block(text[at : at + size]) for at in range(0, len(text), size)] + [Block(b"")]


def open_of(cipher, length, blocks, less=None):
    """The whole opener at a file's length, with room for so many bytes less than all of it, or for any number."""

    def make(rng):
        made, payload = large_vault(rng, cipher, length, blocks)
        return asked_file("open", made, **({} if less is None else {"lent": payload - less}))

    return make


def steps_of(cipher, length, blocks, **file_lengths):
    """Steps over a file of that length, some with too little room, some after the end. `at_3` is the length of the
    file that step 3 is handed."""

    def make(rng):
        made, _ = large_vault(rng, cipher, length, blocks)
        lents = [0] + blocks * [FILE_LIMIT, 5] + [FILE_LIMIT, 0, 0]
        lengths = {name[3:]: handed for name, handed in file_lengths.items()}
        return asked_file("steps", made, lents=lents, **({"file_lengths": lengths} if lengths else {}))

    return make


def longest_payload(cipher, header, limit, block):
    """The longest payload whose file, with that length of header and in blocks of that size, is within the limit."""
    full, rest = divmod(limit - header - 64 - 36, block + 36)
    text = block * full + max(0, rest - 36)
    return text if cipher == "chacha" else text // 16 * 16 - 1


def cut_vault(op, cipher, limit, block):
    """The longest file within the limit in blocks of that size, opened whole, or by steps with just the room that a
    step may need."""

    def make(rng):
        made = plain_vault(rng, cipher)
        cut_into(rng, made, longest_payload(cipher, len(made.header.octets()), limit, block), lambda text: block)
        return asked_file(op, made, lents=[block + 15] * len(made.blocks))

    return make


def recut_vault(op, cipher, length, blocks):
    """A file of one data block, cut anew into a file of exactly that length: so many blocks of 1,000 bytes, and one of
    what is left."""

    def make(rng):
        made, _ = large_vault(rng, cipher, length, blocks + 1)
        text = b"".join(block.data for block in made.blocks)
        made.blocks = [Block(text), Block(b"")]
        data = recut(made.octets(), made.t, [1000] * blocks + [len(text) - 1000 * blocks])
        return {"op": op, "data": data.hex(), "T": made.t.hex(), "lents": [FILE_LIMIT] * (blocks + 2)}

    return make


# ----- the writer

# The KDF dictionary's; Argon2's salt has 64 bytes.
KDF_LENGTH = {"aeskdf": 93, "argon2d": 107 + 64, "argon2id": 107 + 64}


def asked_kdf(rng, kind):
    """A KDF as a request has it."""
    if kind == "aeskdf":
        return {"kind": kind, "S": rng.randbytes(32).hex(), "R": 6_000}
    return {"kind": kind, "S": rng.randbytes(64).hex(), "I": 1, "M": 8_192, "P": 1}


def write_of(cipher, payload, lent=None, custom=0, behind=b"", kind="aeskdf"):
    """The writer, with that length of payload, and a custom dictionary of that length with these bytes behind it."""

    def make(rng):
        made = {
            "op": "write",
            "minor": 1,
            "cipher": cipher,
            "seed": rng.randbytes(32).hex(),
            "nonce": rng.randbytes({"aes": 16, "chacha": 12}[cipher]).hex(),
            "kdf": asked_kdf(rng, kind),
            "T": rng.randbytes(32).hex(),
            "data": rng.randbytes(payload).hex(),
        }
        if custom:
            made["custom"] = (dictionary_of(custom) + behind).hex()
        if lent is not None:
            made["lent"] = lent
        return made

    return make


def largest_payload(cipher, limit=FILE_LIMIT, block=WRITTEN_BLOCK, kind="aeskdf"):
    """The longest payload that a writer with that limit and that size of blocks takes, without a custom dictionary."""
    header = {"aes": 207, "chacha": 203}[cipher] - 93 + KDF_LENGTH[kind]
    return longest_payload(cipher, header, limit, block)


def overlong(of, **changed):
    """The writer with a payload over its limit and no room, and with these fields in the place of sound ones: what is
    wrong with them comes first ("Order: 4, 9, 5 (seeds, nonce), 11, 10 or 6, 1, 17"; 22 in 11's place, 20 "directly
    after 11")."""
    sound = write_of(of, 0, lent=0)
    return lambda rng: {**sound(rng), "data": zeros(PAYLOAD_LIMIT + 1), **changed}


def write_rounds(rounds, cipher="chacha", seed_length=32, **fields):
    """The writer with AES-KDF of so many rounds and such a seed of it, and these fields in the place of sound ones."""
    sound = write_of(cipher, 40)

    def make(rng):
        kdf = {"kind": "aeskdf", "S": rng.randbytes(seed_length).hex(), "R": rounds}
        return {**sound(rng), "kdf": kdf, **fields}

    return make


# Figures outside Argon2's bounds, each alone.
OUTSIDE = (
    {"S": bytes(7).hex()}, {"S": bytes(65).hex()}, {"I": 0}, {"I": 65}, {"M": 8_191}, {"M": 67_108_865}, {"P": 0},
    {"P": 17, "M": 67_108_864}, {"P": 2, "M": 16_383},
)

# Written payloads around one block and two, and around the former block, which now cuts nothing.
AROUND_BLOCKS = tuple(
    block + more for block in (FORMER_BLOCK, WRITTEN_BLOCK, 2 * WRITTEN_BLOCK) for more in (-17, -16, -1, 0, 1)
) + (3 * WRITTEN_BLOCK, 5_000_000)


# ----- keys and primitives


def composite_of(**lengths):
    """Credentials of these lengths."""
    return lambda rng: {"op": "composite", **{name: rng.randbytes(length).hex() for name, length in lengths.items()}}


def digits_of(length, behind=b""):
    """A key file of so many hexadecimal digits of both cases, with these bytes behind them."""
    digits = b"0123456789abcdefABCDEF"
    return lambda rng: {"op": "composite", "keyfile": ((digits * (length // 22 + 1))[:length] + behind).hex()}


def asked(part):
    """A part as a request has it: so many zeros, or bytes as they are."""
    return part.hex() if isinstance(part, bytes) else zeros(part)


def hash_of(alg, *parts):
    """Feeds of so many zeros; bytes stand as they are."""
    made = [asked(part) for part in parts]
    return lambda rng: {"op": "hash", "alg": alg, "parts": made}


def argon2_of(kind, passes, memory, lanes, lent=None):
    """A run with these figures; without `lent` the driver lends enough."""

    def make(rng):
        made = {"op": "argon2", "kind": kind, **seeds(rng), "I": passes, "M": memory, "P": lanes}
        return made if lent is None else {**made, "lent": lent}

    return make


def seeds(rng):
    """A composite key and the KDF's seed."""
    return {"composite": rng.randbytes(32).hex(), "S": rng.randbytes(32).hex()}


def tag_of(length):
    """A tag over so many zeros."""
    return lambda rng: {"op": "tag", "key": rng.randbytes(64).hex(), "data": zeros(length)}


# ----- the inner header


def inner_of(op, length):
    """An inner header in a payload of that length, which is a document for the most part."""

    def make(rng):
        made = sound_inner(rng)
        made.fields.insert(0, Field(3, b"\x01content"))
        return {"op": op, "data": filled(made.octets(), length).hex(), "index": 0}

    return make


def long_field(op, key, length):
    """A payload of that length that is an attachment (3) or a key (2) for the most part, without a document."""

    def make(rng):
        sizes = {2: 32, 3: 32, key: length - 3 * 5 - (5 + 4) - 32}
        fields = [Field(1, b"\x02\x00\x00\x00")]
        fields += [Field(one, rng.randbytes(size)) for one, size in sizes.items()] + [Field(0, b"")]
        return {"op": op, "data": b"".join(field.octets() for field in fields).hex(), "index": 0}

    return make


def far_attachment(op, length, key, size=None):
    """A payload of that length without a document: behind a long attachment a key, a field of that ID and size, an end
    field. There is no second attachment."""

    def make(rng):
        made = [Field(1, b"\x02\x00\x00\x00"), Field(3, b""), Field(2, b""), Field(key, b""), Field(0, b"")]
        made[3].size = size
        made[1].value = bytes(length - sum(len(field.octets()) for field in made))
        return {"op": op, "data": b"".join(field.octets() for field in made).hex(), "index": 1}

    return make


def inner_write_of(length, lent=None, algorithm=2, large="data", spoiled=False):
    """The inner writer, to a payload of that length, with the document, the attachments or the key as the large part;
    the run of attachments may end inside a field."""

    def make(rng):
        lengths = {"key": 32, "run": 1000, "data": 100}
        lengths[large] += length - 19 - sum(lengths.values())
        parts = {name: rng.randbytes(size) for name, size in lengths.items()}
        run = Field(3, parts["run"][5:])
        run.size = len(run.value) + spoiled
        parts["run"] = run.octets()
        made = {"op": "inner_write", "alg": algorithm, **{name: part.hex() for name, part in parts.items()}}
        if lent is not None:
            made["lent"] = lent
        return made

    return make


# ----- the inner stream


def stream_of(alg, key, position, data, lent=None):
    """One stretch of so many zeros, with such a key."""
    made = {"op": "stream", "alg": alg, "key": asked(key), "position": position, "data": asked(data)}
    return lambda rng: made if lent is None else {**made, "lent": lent}


def streams_of(alg, key_length, *parts):
    """Parts of so many zeros, with a random key of that length."""
    made = [asked(part) for part in parts]
    return lambda rng: {"op": "streams", "alg": alg, "key": rng.randbytes(key_length).hex(), "parts": made}


# ----- all of them

HEADERS = (
    header_of("header", FILE_LIMIT),
    header_of("header", FILE_LIMIT + 1),
    not_a_file("header", FILE_LIMIT + 1),
    long_header(FILE_LIMIT),
    long_header(FILE_LIMIT + 1),
    # A password of this length is refused.
    header_of("header", FORMER_LIMIT + 1),
    header_of("list", PROGRAM_LIMIT),
    header_of("list", PROGRAM_LIMIT + 1),
    header_of("list", FILE_LIMIT + 1),
    # The length comes before 20.
    rounds_filled("header", 5_999, FILE_LIMIT),
    rounds_filled("header", 5_999, FILE_LIMIT + 1),
    rounds_filled("list", 5_999, PROGRAM_LIMIT),
    rounds_filled("list", 5_999, PROGRAM_LIMIT + 1),
)

OPENED = (
    not_a_file("open", FILE_LIMIT + 1),
    open_of("chacha", FILE_LIMIT, 4),
    open_of("chacha", FILE_LIMIT, 4, 0),
    open_of("chacha", FILE_LIMIT, 4, 1),
    open_of("chacha", FILE_LIMIT + 1, 4),
    open_of("chacha", FILE_LIMIT + 1, 4, 1),
    open_of("aes", FILE_LIMIT, 4),
    open_of("aes", FILE_LIMIT, 4, 0),
    open_of("aes", FILE_LIMIT, 4, 1),
    open_of("aes", FILE_LIMIT + 1, 4),
    open_of("chacha", FILE_LIMIT, 1),
    open_of("aes", FILE_LIMIT, 1),
    open_of("chacha", FORMER_LIMIT + 1, 4),
    open_of("aes", FORMER_LIMIT + 1, 4),
    long_header_vault("open", FILE_LIMIT),
    long_header_vault("open", FILE_LIMIT + 1),
    rounds_filled("open", 5_999, FILE_LIMIT),
    rounds_filled("open", 5_999, FILE_LIMIT + 1),
)

STEPPED = (
    not_a_file("steps", FILE_LIMIT + 1),
    steps_of("chacha", FILE_LIMIT, 3),
    steps_of("chacha", FILE_LIMIT, 3, at_3=FILE_LIMIT + 1),
    steps_of("chacha", FILE_LIMIT, 3, at_0=FILE_LIMIT + 1),
    steps_of("chacha", FILE_LIMIT, 3, at_7=FILE_LIMIT + 1),
    steps_of("chacha", FILE_LIMIT - 1, 3, at_5=FILE_LIMIT, at_6=FILE_LIMIT),
    steps_of("chacha", FILE_LIMIT + 1, 3),
    steps_of("aes", FILE_LIMIT, 3),
    steps_of("aes", FILE_LIMIT - 1, 3, at_1=FILE_LIMIT, at_7=FILE_LIMIT + 1),
    steps_of("aes", FILE_LIMIT + 1, 3),
    steps_of("chacha", FILE_LIMIT, 1),
    steps_of("aes", FILE_LIMIT, 1),
    steps_of("aes", FORMER_LIMIT, 3, at_3=FORMER_LIMIT + 1),
    long_header_vault("steps", FILE_LIMIT),
    long_header_vault("steps", FILE_LIMIT + 1),
    rounds_filled("steps", 5_999, FILE_LIMIT),
    rounds_filled("steps", 5_999, FILE_LIMIT + 1),
)

# As the former writer cut, up to the longest file that it made; as KeePass and the writer cut; a byte more than each;
# and at sizes that are no multiple of 16.
CUTS = tuple(
    cut_vault(op, cipher, limit, block)
    for op in ("open", "steps")
    for cipher in ("aes", "chacha")
    for limit, block in (
        (FORMER_LIMIT, FORMER_BLOCK),
        (FILE_LIMIT, WRITTEN_BLOCK),
        (100_000, FORMER_BLOCK + 1),
        (2_500_000, WRITTEN_BLOCK + 1),
        (1_000_000, 99_999),
    )
) + (
    cut_vault("open", "aes", FILE_LIMIT, FORMER_BLOCK),
    cut_vault("open", "chacha", FILE_LIMIT, FORMER_BLOCK),
    cut_vault("steps", "aes", FILE_LIMIT, FORMER_BLOCK),
    cut_vault("steps", "chacha", FILE_LIMIT, FORMER_BLOCK),
)

# The file before the cutting has fewer tags, and is within the limit.
RECUT = (
    recut_vault("open", "chacha", FILE_LIMIT, 16_000),
    recut_vault("open", "aes", FILE_LIMIT + 1, 16_000),
    recut_vault("steps", "aes", FILE_LIMIT, 40),
)

WRITTEN = tuple(write_of(cipher, payload) for payload in AROUND_BLOCKS for cipher in ("aes", "chacha")) + (
    write_of("aes", largest_payload("aes")),
    write_of("aes", largest_payload("aes") + 1),
    write_of("aes", largest_payload("aes"), lent=FILE_LIMIT - 100_000),
    write_of("aes", largest_payload("aes") + 1, lent=0),
    write_of("aes", PAYLOAD_LIMIT),
    write_of("chacha", largest_payload("chacha"), lent=FILE_LIMIT),
    write_of("chacha", largest_payload("chacha"), lent=FILE_LIMIT - 1),
    write_of("chacha", largest_payload("chacha") + 1, lent=FILE_LIMIT),
    write_of("chacha", PAYLOAD_LIMIT),
    write_of("chacha", PAYLOAD_LIMIT + 1, lent=0),
    write_of("chacha", 1, FILE_LIMIT, FILE_LIMIT - 345),
    write_of("chacha", 1, FILE_LIMIT, FILE_LIMIT - 344),
    write_of("chacha", PAYLOAD_LIMIT + 1, 0, FILE_LIMIT, b"\x00"),
    write_of("chacha", largest_payload("chacha", kind="argon2id"), kind="argon2id"),
    write_of("chacha", largest_payload("chacha", kind="argon2id") + 1, kind="argon2id"),
    # The former writer's longest payload, and the one that it refused.
    write_of("aes", largest_payload("aes", FORMER_LIMIT, FORMER_BLOCK)),
    write_of("aes", largest_payload("aes", FORMER_LIMIT, FORMER_BLOCK) + 1),
    write_of("chacha", largest_payload("chacha", FORMER_LIMIT, FORMER_BLOCK)),
    write_of("chacha", FORMER_LIMIT + 1),
)

TIES = (
    overlong("aes", minor=2),
    overlong("aes", cipher=bytes(16).hex()),
    overlong("aes", seed=bytes(31).hex()),
    overlong("chacha", nonce=bytes(16).hex()),
    overlong("aes", kdf={"kind": "aeskdf", "S": bytes(31).hex(), "R": 6_000}),
    overlong("aes", kdf={"kind": "aeskdf", "S": bytes(32).hex(), "R": 4_000_001}),
    overlong("aes", kdf={"kind": "aeskdf", "S": bytes(31).hex(), "R": 5_999}),
    overlong("chacha", kdf={"kind": "aeskdf", "S": bytes(32).hex(), "R": 5_999}),
    write_rounds(5_999, data=zeros(largest_payload("chacha") + 1)),
    write_rounds(5_999, data=zeros(PAYLOAD_LIMIT + 1)),
) + tuple(
    overlong("chacha", kdf={"kind": kind, "S": bytes(32).hex(), "I": 2, "M": 8_192, "P": 1, **figure})
    for kind in ("argon2d", "argon2id")
    for figure in OUTSIDE
) + tuple(
    write_of(cipher, largest_payload(cipher, kind=kind) + more, 0, kind=kind)
    for cipher in ("aes", "chacha")
    for kind in ("argon2d", "argon2id")
    for more in (0, 1)
)

# Item 7: "Passwords, key files and Item 1 keep 4,194,304."
CREDENTIALS = (
    composite_of(password=PASSWORD_LIMIT),
    composite_of(password=PASSWORD_LIMIT + 1),
    composite_of(keyfile=KEY_FILE_LIMIT),
    composite_of(keyfile=KEY_FILE_LIMIT + 1),
    composite_of(password=PASSWORD_LIMIT, keyfile=KEY_FILE_LIMIT),
    composite_of(password=PASSWORD_LIMIT, keyfile=KEY_FILE_LIMIT + 1),
    composite_of(password=PASSWORD_LIMIT + 1, keyfile=KEY_FILE_LIMIT),
    composite_of(password=1, keyfile=KEY_FILE_LIMIT + 1),
    composite_of(password=FILE_LIMIT),
    composite_of(keyfile=FILE_LIMIT),
    composite_of(password=FILE_LIMIT + 1, keyfile=FILE_LIMIT + 1),
    composite_of(prehash=PASSWORD_LIMIT + 1),
    composite_of(prehash=FILE_LIMIT + 1),
    composite_of(password=PASSWORD_LIMIT + 1, prehash=32),
    composite_of(password=PASSWORD_LIMIT, prehash=32),
    composite_of(keyfile=KEY_FILE_LIMIT + 1, prehash=32),
    composite_of(keyfile=KEY_FILE_LIMIT, prehash=32),
    digits_of(32),
    digits_of(63),
    digits_of(64),
    digits_of(64, b"\n"),
    digits_of(65),
    digits_of(KEY_FILE_LIMIT),
    digits_of(KEY_FILE_LIMIT + 1),
)

MESSAGES = tuple(
    hash_of(alg, *parts)
    for alg in ("sha256", "sha512")
    for parts in (
        (MESSAGE_LIMIT, b""),
        (MESSAGE_LIMIT + 1, b"abc"),
        (b"abc", MESSAGE_LIMIT - 2, MESSAGE_LIMIT - 3, b"\x01", b""),
        (MESSAGE_LIMIT // 2, MESSAGE_LIMIT // 2, b"", b"a"),
        (MESSAGE_LIMIT // 2, b"a", MESSAGE_LIMIT // 2, MESSAGE_LIMIT // 2 - 1, b"a"),
        (FORMER_MESSAGE, b"a", FORMER_MESSAGE + 1),
    )
) + (
    tag_of(MESSAGE_LIMIT),
    tag_of(MESSAGE_LIMIT + 1),
    tag_of(MESSAGE_LIMIT - 64),
    tag_of(FORMER_MESSAGE + 1),
)

TRANSFORMED = (
    lambda rng: {"op": "rounds", **seeds(rng), "R": 30_000, "helpings": [9_999, 0, 20_000, 1, 1]},
    argon2_of("argon2d", 1, 67_108_864, 1),
    argon2_of("argon2id", 1, 67_108_864, 16),
    argon2_of("argon2id", 1, 67_108_863, 13, 128 * 65_520),
    argon2_of("argon2d", 1, 67_108_864, 13, 128 * 65_520 - 1),
    argon2_of("argon2d", 1, 67_108_864, 16, 128 * 65_536 - 1),
    argon2_of("argon2d", 1, 67_108_865, 1),
    argon2_of("argon2id", 1, 2**64 - 1, 2**32 - 1),
    argon2_of("argon2d", 2**64 - 1, 2**32 + 8_192, 1),
    argon2_of("argon2id", 64, 2_000_000, 3),
    argon2_of("argon2d", 64, 131_072, 16),
)

INNER = (
    inner_of("inner", PAYLOAD_LIMIT),
    inner_of("inner", PAYLOAD_LIMIT + 1),
    inner_of("inner", FORMER_LIMIT + 1),
    long_field("inner", 2, PAYLOAD_LIMIT),
    long_field("inner", 2, PAYLOAD_LIMIT + 1),
    long_field("inner", 3, PAYLOAD_LIMIT),
    inner_of("attachment", PAYLOAD_LIMIT),
    inner_of("attachment", PAYLOAD_LIMIT + 1),
    inner_of("attachment", FORMER_LIMIT + 1),
    long_field("attachment", 3, PAYLOAD_LIMIT),
    long_field("attachment", 3, PAYLOAD_LIMIT + 1),
    inner_write_of(PAYLOAD_LIMIT),
    inner_write_of(PAYLOAD_LIMIT + 1),
    inner_write_of(PAYLOAD_LIMIT, PAYLOAD_LIMIT),
    inner_write_of(PAYLOAD_LIMIT, PAYLOAD_LIMIT - 1),
    inner_write_of(PAYLOAD_LIMIT + 1, 0),
    inner_write_of(PAYLOAD_LIMIT + 1, 0, 7),
    inner_write_of(PAYLOAD_LIMIT + 1, 0, spoiled=True),
    lambda rng: {"op": "inner_write", "alg": 2, "key": "", "run": bytes(5).hex(), "data": zeros(PAYLOAD_LIMIT)},
    inner_write_of(PAYLOAD_LIMIT, large="run"),
    inner_write_of(PAYLOAD_LIMIT + 1, large="run"),
    inner_write_of(PAYLOAD_LIMIT, large="key"),
    inner_write_of(PAYLOAD_LIMIT + 1, large="key"),
    inner_write_of(FORMER_LIMIT + 1),
)

REPEATED_ITEM, UNLISTED_ITEM = Item(BOOL, b"a", b"\x01").octets(), Item(0x43, b"b", b"").octets()

# Places up to a file's limit, and behind it in a dictionary by itself, which has none.
FAR = tuple(
    make
    for op, length in (("header", FILE_LIMIT), ("open", FILE_LIMIT), ("steps", FILE_LIMIT), ("list", PROGRAM_LIMIT))
    for make in (far_cut(op, length), far_field(op, length), far_item(op, length, UNLISTED_ITEM))
) + tuple(
    lone_item(op, FILE_LIMIT + 100, item) for op in ("dict", "lookup") for item in (REPEATED_ITEM, UNLISTED_ITEM)
) + tuple(
    make
    for op in ("inner", "attachment")
    for make in (far_attachment(op, PAYLOAD_LIMIT, 3), far_attachment(op, PAYLOAD_LIMIT, 3, 2**31 - 1))
) + (far_attachment("attachment", PAYLOAD_LIMIT, 0),)

DICTIONARIES = (
    lambda rng: {"op": "dict", "data": dictionary_of(FILE_LIMIT + 1).hex()},
    lambda rng: {"op": "dict", "data": numbered(range(1500)).octets().hex()},
    lambda rng: {"op": "dict", "data": numbered([*range(1500), 749]).octets().hex()},
    lambda rng: {"op": "lookup", "data": numbered(range(1500)).octets().hex(), "name": b"1499".hex()},
    lambda rng: {"op": "lookup", "data": dictionary_of(FILE_LIMIT + 1).hex(), "name": b"a".hex()},
    lambda rng: {"op": "lookup", "data": numbered(range(2)).octets().hex(), "name": zeros(FILE_LIMIT + 1)},
)

STREAMS = (
    stream_of(2, b"key", 0, STREAM_LIMIT),
    stream_of(3, b"key", 0, STREAM_LIMIT, STREAM_LIMIT),
    stream_of(3, b"key", 65, STREAM_LIMIT - 65),
    stream_of(2, b"key", 0, STREAM_LIMIT, STREAM_LIMIT - 1),
    stream_of(2, b"key", 0, STREAM_LIMIT + 1),
    stream_of(3, b"key", 0, STREAM_LIMIT + 1, 0),
    stream_of(5, b"key", 0, STREAM_LIMIT + 1, 0),
    stream_of(3, b"key", 1, STREAM_LIMIT),
    stream_of(2, b"key", 2**64 - STREAM_LIMIT, STREAM_LIMIT),
    stream_of(3, b"key", 2**32 - STREAM_LIMIT, STREAM_LIMIT),
    stream_of(2, b"key", STREAM_LIMIT, b"", 0),
    stream_of(3, b"key", STREAM_LIMIT, b"", 0),
    stream_of(2, b"key", STREAM_LIMIT + 1, b"", 0),
    stream_of(2, b"key", STREAM_LIMIT - 1, b"a"),
    stream_of(3, b"key", STREAM_LIMIT, b"a"),
    stream_of(3, b"key", 2**64 - 1, b"", 0),
    stream_of(2, b"key", 2**64 - 1, b"a", 0),
    stream_of(2, STREAM_LIMIT, 23, b"password", 8),
    stream_of(3, STREAM_LIMIT, 23, b"password", 7),
    stream_of(3, STREAM_LIMIT, 23, b"password"),
    stream_of(2, STREAM_LIMIT + 1, 23, b"password"),
    stream_of(3, STREAM_LIMIT + 1, 0, b"", 0),
    stream_of(3, STREAM_LIMIT + 1, 23, b"password", 7),
    stream_of(1, STREAM_LIMIT + 1, 23, b"password", 7),
    # What a payload may have is over this limit.
    stream_of(2, b"key", PAYLOAD_LIMIT, b"", 0),
    stream_of(3, b"key", PAYLOAD_LIMIT - 8, b"password"),
    stream_of(3, b"key", 0, PAYLOAD_LIMIT),
    stream_of(2, PAYLOAD_LIMIT, 23, b"password"),
    streams_of(2, 64, 23, STREAM_LIMIT - 22, STREAM_LIMIT - 23, b"", 1, b""),
    streams_of(3, 64, 23, STREAM_LIMIT - 22, STREAM_LIMIT - 24, 2, b"a", b"b", b""),
    streams_of(3, 32, STREAM_LIMIT, 1, b""),
    streams_of(2, 32, STREAM_LIMIT + 1, 19, STREAM_LIMIT, 23),
    streams_of(3, 32, 19, PAYLOAD_LIMIT, PAYLOAD_LIMIT - 19, 23),
    streams_of(2, STREAM_LIMIT, b"first", b"second"),
    streams_of(3, STREAM_LIMIT, b"first", b"second"),
    streams_of(3, STREAM_LIMIT + 1, b"first", b"second"),
    streams_of(2, STREAM_LIMIT + 1),
    streams_of(4, STREAM_LIMIT + 1, b"first"),
    streams_of(2, PAYLOAD_LIMIT, b"first"),
)

BORDERS = (
    *HEADERS, *FAR, *OPENED, *STEPPED, *CUTS, *RECUT, *WRITTEN, *TIES, *CREDENTIALS, *MESSAGES, *TRANSFORMED, *INNER,
    *DICTIONARIES, *STREAMS,
)
