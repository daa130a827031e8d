"""Keys (document 01, "Keys"; document 02, Items 2, 3, 6 and 7)."""

from . import primitives
from .dictionary import argon2_within
from .limits import (
    AFTER_END, CREDENTIAL, KEY_FILE_LIMIT, LENT_TOO_SHORT, PASSWORD_LIMIT, ROUNDS, ROUNDS_LIMIT, UNLISTED_ALGORITHM,
    require, within,
)
from .primitives import aes_blocks, hmac_sha256, sha256, sha512

HEADER_NUMBER = 2**64 - 1

# Item 2: "64 hexadecimal digits", "either case". R: "each one of 0-9, a-f, A-F, mixed cases too".
DIGIT_VALUE = {
    **dict(zip(b"0123456789", range(0, 10))),
    **dict(zip(b"abcdef", range(10, 16))),
    **dict(zip(b"ABCDEF", range(10, 16))),
}


def all_digits(data):
    """Whether each byte is a hexadecimal digit."""
    return all(octet in DIGIT_VALUE for octet in data)


def decoded(digits):
    """The bytes that the digits write, in their order, two digits a byte, the higher one first."""
    values = [DIGIT_VALUE[octet] for octet in digits]
    return bytes(16 * high + low for high, low in zip(values[0::2], values[1::2]))


def key_file_part(key_file):
    """Item 2, in place of document 01's rule: "32 bytes as they stand, 64 digits decoded, all else hashed"."""
    # R: "A 32-byte file of digits stays as it stands."
    if len(key_file) == 32:
        return key_file
    # "KeePass 2 decodes a file of exactly 64 digits, either case, to 32 bytes". R: "Exactly 64 bytes"; "A 65th byte (a
    # line feed, as editors add) makes it a file that is hashed".
    if len(key_file) == 64 and all_digits(key_file):
        return decoded(key_file)
    return sha256(key_file)


def composite(password, key_file, pre_hash):
    """The composite key; None is an absent credential. "Order: lengths (1), then 18"."""
    # Item 7: "Passwords, key files and Item 1 keep 4,194,304." R: a pre-hash has no limit of its own.
    for part, limit in ((password, PASSWORD_LIMIT), (key_file, KEY_FILE_LIMIT)):
        if part is not None:
            within(len(part), limit)
    if pre_hash is not None:
        # "pre-hash not 32 bytes, or given with another" is 18. "A pre-hash is the composite key itself."
        require(password is None and key_file is None and len(pre_hash) == 32, CREDENTIAL)
        return pre_hash
    parts = []
    if password is not None:
        # "Password gives SHA-256 of its bytes"; "an empty password is a part".
        parts.append(sha256(password))
    if key_file is not None:
        parts.append(key_file_part(key_file))
    require(parts, CREDENTIAL)
    # "The composite key is SHA-256 of the parts given, password first."
    return sha256(*parts)


class Rounds:
    """AES-KDF in helpings: "encrypts each 16-byte half of the composite key R times under AES-256 with key `S`"."""

    def __init__(self, composite_key, seed, rounds):
        # "starting the rounds checks 11". Item 3: "Starting the rounds still checks 11 alone."
        require(rounds <= ROUNDS_LIMIT, ROUNDS)
        self.encrypt = aes_blocks(seed)
        self.halves = composite_key
        self.rounds = rounds
        self.done = 0

    def helping(self, count):
        """ "a helping of n does the lesser of n and what remains"."""
        for _ in range(min(count, self.rounds - self.done)):
            self.halves = self.encrypt(self.halves)
            self.done += 1

    def transformed(self):
        """ "T is SHA-256 of the two results joined"; "T before the end is 19"."""
        require(self.done == self.rounds, AFTER_END)
        return sha256(self.halves)


def transformed(composite_key, seed, rounds):
    """T in one helping."""
    run = Rounds(composite_key, seed, rounds)
    run.helping(rounds)
    return run.transformed()


def argon2_words(memory, lanes):
    """ "128 words a block that RFC 9106 fills". R: m' = 4P⌊m / 4P⌋ blocks with m = ⌊M / 1024⌋."""
    return 128 * (4 * lanes * (memory // 1024 // (4 * lanes)))


def argon2(kind, composite_key, salt, passes, memory, lanes, lent=None):
    """T: "Follow RFC 9106 with the composite key as password, 32 bytes out, memory M/1024 rounded down in KiB"; "a run
    checks 22, then 17 for under 128 words a block that RFC 9106 fills". Before them 9 for another KDF."""
    require(kind in ("argon2d", "argon2id"), UNLISTED_ALGORITHM)
    argon2_within(salt, passes, memory, lanes)
    require(lent is None or lent >= argon2_words(memory, lanes), LENT_TOO_SHORT)
    return primitives.argon2(kind, composite_key, salt, passes, memory // 1024, lanes)


def cipher_key(master_seed, t):
    """ "The cipher key is SHA-256(S, T)." """
    return sha256(master_seed, t)


def tag_base(master_seed, t):
    """ "The tag base is SHA-512(S, T, 01)." """
    return sha512(master_seed, t, b"\x01")


def tag_key(number, base):
    """ "The tag key for number i is SHA-512(i as UInt64, base)." """
    return sha512(number.to_bytes(8, "little"), base)


def header_tag(base, header_bytes):
    """ "its HMAC-SHA-256 under the key for 2^64-1"."""
    return hmac_sha256(tag_key(HEADER_NUMBER, base), header_bytes)


def block_tag(base, number, size, data):
    """ "Block i from 0 is tagged over i, size, data under key i." The size comes as its four bytes."""
    return hmac_sha256(tag_key(number, base), number.to_bytes(8, "little") + size + data)
