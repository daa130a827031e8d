"""The file behind the header: the whole opener, the plain opener of demand 3, the writer.

Document 01, "File after the header"; document 02, Items 3, 6, 7 and 8.
"""

from dataclasses import dataclass, replace

from . import dictionary, header as outer, keys
from .limits import (
    AFTER_END, ARGON2_VERSION, BLOCK_TAG, BYTES_AFTER, CUT_SHORT, FILE_LIMIT, HEADER_HASH, HEADER_TAG, LENT_TOO_SHORT,
    PADDING, PAYLOAD_LIMIT, SIZE, UNLISTED_ALGORITHM, VERSION, WRITTEN_BLOCK, Refusal, int32, require, within,
)
from .primitives import cbc_decrypt, cbc_encrypt, chacha20, sha256

BLOCK_HEAD = 36  # "tag, size (Int32), data"


class Keys:
    """ "demand 3's keys are the cipher key and tag base that it gives with the header's master seed"."""

    def __init__(self, header, t):
        self.cipher_key = keys.cipher_key(header.seed, t)
        self.tag_base = keys.tag_base(header.seed, t)


def start(data, t):
    """ "A block-by-block opening starts with the header's checks and these": the header, the keys, and where the
    blocks start."""
    header = outer.read(data)
    vault_keys = Keys(header, t)
    head = data[: header.length]
    blocks = header.length + 64
    # "64 bytes, else 2; then 12, 13". Item 8: "from writers, hash, tag and blocks" the place "is zero", so here too.
    require(len(data) >= blocks, CUT_SHORT)
    require(data[header.length : header.length + 32] == sha256(head), HEADER_HASH)
    require(data[header.length + 32 : blocks] == keys.header_tag(vault_keys.tag_base, head), HEADER_TAG)
    return header, vault_keys, blocks


def block(data, at, number, base):
    """ "36 bytes present (2), negative size (5), data present (2), tag (14)": the block's data and the place behind
    it. R: "The readers take blocks of any size"."""
    require(at + BLOCK_HEAD <= len(data), CUT_SHORT)
    size = int32(data, at + 32)
    require(size >= 0, SIZE)
    start_of_data, end = at + BLOCK_HEAD, at + BLOCK_HEAD + size
    require(end <= len(data), CUT_SHORT)
    content = data[start_of_data:end]
    tag = keys.block_tag(base, number, data[at + 32 : at + 36], content)
    require(data[at : at + 32] == tag, BLOCK_TAG)
    return content, end


def decryption(header, vault_keys, ciphertext):
    """ "The cipher runs across block borders. The definition's decryption still has the padding in it; of AES
    ciphertext that is no multiple of 16 bytes it is that of the whole 16-byte pieces." """
    if header.cipher == "chacha":
        return chacha20(vault_keys.cipher_key, header.nonce, ciphertext)
    whole = len(ciphertext) // 16 * 16
    return cbc_decrypt(vault_keys.cipher_key, header.nonce, ciphertext[:whole])


def payload(header, vault_keys, ciphertext):
    """The payload of all ciphertext. 16: "AES ciphertext length is 0 or no multiple of 16, or padding is wrong"."""
    if header.cipher == "chacha":
        return decryption(header, vault_keys, ciphertext)
    require(len(ciphertext) > 0 and len(ciphertext) % 16 == 0, PADDING)
    padded = decryption(header, vault_keys, ciphertext)
    padding = padded[-1]
    require(1 <= padding <= 16, PADDING)
    require(padded[-padding:] == bytes([padding]) * padding, PADDING)
    return padded[:-padding]


def closing(data, end, header, vault_keys, ciphertext):
    """ "at the closing block also 15, 16": the payload."""
    require(end == len(data), BYTES_AFTER)
    return payload(header, vault_keys, ciphertext)


def room(lent, due):
    """17: "the lent output is shorter than the bytes due"; None is large enough."""
    require(lent is None or lent >= due, LENT_TOO_SHORT)


def data_blocks(data, at, base):
    """The data of each block from there on, up to the closing one, and the place behind that one."""
    pieces = []
    number = 0
    while True:
        content, at = block(data, at, number, base)
        if not content:
            return pieces, at
        pieces.append(content)
        number += 1


def open_whole(data, t, lent=None):
    """ "The whole opener makes the header checks, then the same, with 17 once and last." """
    header, vault_keys, at = start(data, t)
    pieces, at = data_blocks(data, at, vault_keys.tag_base)
    plain = closing(data, at, header, vault_keys, b"".join(pieces))
    room(lent, len(plain))
    return plain


@dataclass(frozen=True)
class State:
    """The plain opener's state: "It starts open behind the header's tag, with i = 0 and no ciphertext (c = 0)"."""

    position: int
    number: int = 0
    ciphertext: bytes = b""
    mark: str = "open"


def handed_over(header, count):
    """ "With c ciphertext bytes verified, c at least 1, AES has handed over 16 × floor((c-1)/16); ChaCha20 has handed
    over c. At c = 0 both have handed over none." """
    if count == 0:
        return 0
    return 16 * ((count - 1) // 16) if header.cipher == "aes" else count


def step_checked(header, vault_keys, state, data, lent):
    """One step that may be refused: the bytes handed over and the next state.

    "Each step checks in order: 19, 1, 36 bytes present (2), negative size (5), data present (2), tag (14); at the
    closing block also 15, 16; then 17." R: the step is judged by the file it is handed, at the state's position."""
    require(state.mark == "open", AFTER_END)
    within(len(data), FILE_LIMIT)
    content, end = block(data, state.position, state.number, vault_keys.tag_base)
    before = handed_over(header, len(state.ciphertext))
    if not content:
        # "A closing block that passes is taken, hands over what the closing step adds, and ends it."
        given = closing(data, end, header, vault_keys, state.ciphertext)[before:]
        room(lent, len(given))
        return given, State(position=0, mark="ended")
    # "its bytes join the ciphertext, i grows by one, and what is due for the new c and not for the old is handed over"
    ciphertext = state.ciphertext + content
    after = handed_over(header, len(ciphertext))
    room(lent, after - before)
    given = decryption(header, vault_keys, ciphertext)[before:after]
    return given, State(end, state.number + 1, ciphertext)


def step(header, vault_keys, state, data, lent):
    """A step's number, the bytes it hands over, and the next state. "17 and 19 change nothing; other refusals close
    it." """
    try:
        given, state = step_checked(header, vault_keys, state, data, lent)
        return 0, given, state
    except Refusal as refusal:
        if refusal.number in (LENT_TOO_SHORT, AFTER_END):
            return refusal.number, b"", state
        return refusal.number, b"", replace(state, mark="closed")


def encryption(cipher, key, nonce, plain):
    """The ciphertext of a payload, padded by PKCS #7 for AES."""
    if cipher == "chacha":
        return chacha20(key, nonce, plain)
    padding = 16 - len(plain) % 16
    return cbc_encrypt(key, nonce, plain + bytes([padding]) * padding)


def written_field(key, value):
    """ "Then fields: ID (one byte), size (Int32), value." """
    return bytes([key]) + len(value).to_bytes(4, "little") + value


def written_item(kind, name, value):
    """ "Item: type, name size, name, value size, value; sizes are Int32." """
    return bytes([kind]) + len(name).to_bytes(4, "little") + name + len(value).to_bytes(4, "little") + value


def written_aes_kdf(seed, rounds):
    """ "KDF items `$UUID`, `R`, `S`." R: the dictionary version is written as bytes 00 01."""
    return (
        b"\x00\x01"
        + written_item(dictionary.BYTES, b"$UUID", dictionary.AES_KDF)
        + written_item(dictionary.UINT64, b"R", rounds.to_bytes(8, "little"))
        + written_item(dictionary.BYTES, b"S", seed)
        + b"\x00"
    )


def written_argon2(identifier, salt, passes, memory, lanes):
    """ "the writer writes all three, items in byte order of their names". R: `$UUID`, `I`, `M`, `P`, `S`, `V`, V as
    0x13."""
    return (
        b"\x00\x01"
        + written_item(dictionary.BYTES, b"$UUID", identifier)
        + written_item(dictionary.UINT64, b"I", passes.to_bytes(8, "little"))
        + written_item(dictionary.UINT64, b"M", memory.to_bytes(8, "little"))
        + written_item(dictionary.UINT32, b"P", lanes.to_bytes(4, "little"))
        + written_item(dictionary.BYTES, b"S", salt)
        + written_item(dictionary.UINT32, b"V", ARGON2_VERSION.to_bytes(4, "little"))
        + b"\x00"
    )


def written_header(minor, cipher, seed, nonce, kdf_dictionary, custom):
    """ "Fields are 2, 3, 4, 7, 11, 12, 0"; "custom dictionary (zero length: field absent)"."""
    parts = [value.to_bytes(4, "little") for value in outer.SIGNATURES]
    parts.append((0x00040000 + minor).to_bytes(4, "little"))
    parts.append(written_field(outer.CIPHER, cipher))
    parts.append(written_field(outer.COMPRESSION, bytes(4)))
    parts.append(written_field(outer.SEED, seed))
    parts.append(written_field(outer.NONCE, nonce))
    parts.append(written_field(outer.KDF, kdf_dictionary))
    if custom:
        parts.append(written_field(outer.CUSTOM, custom))
    parts.append(written_field(outer.END, outer.END_BYTES))
    return b"".join(parts)


def written_block(base, number, content):
    """A block: tag, size, data."""
    size = len(content).to_bytes(4, "little")
    return keys.block_tag(base, number, size, content) + size + content


def written_blocks(base, ciphertext, most=WRITTEN_BLOCK):
    """ "all data blocks are full except perhaps the last"; then the closing block. R: there is no empty data block."""
    contents = [ciphertext[at : at + most] for at in range(0, len(ciphertext), most)]
    return b"".join(written_block(base, number, content) for number, content in enumerate(contents + [b""]))


def aes_kdf_checked(kdf):
    """AES-KDF's part of the writer's 5, its 11 and "20, directly after 11", as functions, and its dictionary."""
    seed, rounds = kdf["S"], kdf["R"]
    return (
        lambda: require(len(seed) == 32, SIZE),
        lambda: dictionary.aes_kdf_within(rounds),
        lambda: written_aes_kdf(seed, rounds),
    )


def argon2_checked(identifier, kdf):
    """ "22 for a figure outside, the writer's salt length included". R: the writer's 22 stands in 11's place, and
    Argon2's salt length is no 5."""
    figures = kdf["S"], kdf["I"], kdf["M"], kdf["P"]
    return (
        lambda: None,
        lambda: dictionary.argon2_within(*figures),
        lambda: written_argon2(identifier, *figures),
    )


# What the writer has of each KDF: its 5, its 11 with 20 or its 22, and its dictionary.
KDFS = {
    "aeskdf": aes_kdf_checked,
    "argon2d": lambda kdf: argon2_checked(dictionary.ARGON2D, kdf),
    "argon2id": lambda kdf: argon2_checked(dictionary.ARGON2ID, kdf),
}


def write(minor, cipher, seed, nonce, kdf, custom, t, plain, lent=None):
    """The file. "Order: 4, 9, 5 (seeds, nonce), 11, 10 or 6, 1, 17." Item 3: 20 comes "directly after 11"."""
    require(minor in (0, 1), VERSION)
    require(cipher in outer.CIPHER_NAMES, UNLISTED_ALGORITHM)
    require(kdf["kind"] in KDFS, UNLISTED_ALGORITHM)
    name = outer.CIPHER_NAMES[cipher]
    seed_check, figures_check, kdf_dictionary = KDFS[kdf["kind"]](kdf)
    # R: any wrong length among seeds and nonce is one 5.
    require(len(seed) == 32 and len(nonce) == outer.NONCE_LENGTH[name], SIZE)
    seed_check()
    figures_check()
    if custom:
        dictionary.items(custom)
    within(len(plain), PAYLOAD_LIMIT)
    header_bytes = written_header(minor, cipher, seed, nonce, kdf_dictionary(), custom)
    base = keys.tag_base(seed, t)
    ciphertext = encryption(name, keys.cipher_key(seed, t), nonce, plain)
    made = header_bytes + sha256(header_bytes) + keys.header_tag(base, header_bytes) + written_blocks(base, ciphertext)
    # "an input, file to be written or message is over its limit". R: "A payload within the limit whose file is not is
    # 1."
    within(len(made), FILE_LIMIT)
    room(lent, len(made))
    return made
