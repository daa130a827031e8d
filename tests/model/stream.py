"""The inner stream (document 02, Item 1)."""

from .limits import LENT_TOO_SHORT, STREAM_LIMIT, UNLISTED_ALGORITHM, require, within
from .primitives import chacha20, sha256, sha512
from .salsa20 import salsa20

BLOCK = 64  # bytes; "the 64-byte stream block"
SALSA20_NONCE = bytes.fromhex("E830094B97205D2A")


def salsa20_of(key):
    """ "Salsa20 (2): SHA-256 of the key, nonce E830094B97205D2A." """
    digest = sha256(key)
    return lambda data, block: salsa20(digest, SALSA20_NONCE, data, block)


def chacha20_of(key):
    """ "ChaCha20 (3): SHA-512 of the key, first 32 bytes as key, next 12 as nonce." """
    digest = sha512(key)
    return lambda data, block: chacha20(digest[:32], digest[32:44], data, block)


# An algorithm, and its cipher under an inner key. R: algorithms 0 and 1 are 9 here.
CIPHERS = {2: salsa20_of, 3: chacha20_of}


def started(algorithm, key):
    """The cipher: "9 for another algorithm, then 1 where the key's length" passes the limit."""
    require(algorithm in CIPHERS, UNLISTED_ALGORITHM)
    within(len(key), STREAM_LIMIT)
    return CIPHERS[algorithm](key)


def stretch(cipher, position, data, lent):
    """ "a stretch of bytes at stream position p uncovered or covered"; "1 where ... position plus length passes
    4,194,304, then 17". R: "as a mathematical sum: position 4,194,304 with no bytes passes". A lent length of None is
    enough."""
    within(position + len(data), STREAM_LIMIT)
    require(lent is None or lent >= len(data), LENT_TOO_SHORT)
    # "Counters start at 0."
    block, before = divmod(position, BLOCK)
    return cipher(bytes(before) + data, block)[before:]


class State:
    """ "The state carries over from one password to the next"; it starts at position 0."""

    def __init__(self, algorithm, key):
        self.cipher = started(algorithm, key)
        self.position = 0

    def part(self, data):
        """The next bytes, with an output of their length. A refusal leaves the state as it was."""
        made = stretch(self.cipher, self.position, data, len(data))
        # "so 23 bytes and then 19 use stream bytes 0 to 22 and 23 to 41"
        self.position += len(data)
        return made
