"""Refusal numbers and limits (document 01, "Numbers of the terminal" and "Refusal numbers"; document 02)."""

# Document 01's table has "file or payload, read or written; password; key file" in one row. Item 7 parts it: "raise the
# one library's file and payload limits to 16,777,216 bytes", "Passwords, key files and Item 1 keep 4,194,304."
FILE_LIMIT = 16_777_216  # read or written
PAYLOAD_LIMIT = 16_777_216  # read or written
PASSWORD_LIMIT = 4_194_304
KEY_FILE_LIMIT = 4_194_304
STREAM_LIMIT = 4_194_304  # Item 1: the inner key; position plus length
# Item 7: "a hash message to 33,554,432 and the written block to 1,048,576, the size KeePass uses". R: "Raised: file,
# payload, text, hash or tag message, written block."
MESSAGE_LIMIT = 33_554_432  # one hash or tag message in all
WRITTEN_BLOCK = 1_048_576  # bytes of ciphertext. R: it "binds the writer alone. The readers take blocks of any size"
# R: "Not raised: ... the PC programs' 65,536, rounds."
ROUNDS_LIMIT = 4_000_000
# Item 3: "Reader and writer shall turn away fewer than 6,000 rounds, the old default in source document 001." R: "For
# AES-KDF alone".
LEAST_ROUNDS = 6_000
PROGRAM_LIMIT = 65_536  # a PC program's input

# Item 6: "Accept V 0x13, S of 8 to 64 bytes, I 1 to 64, M 8,192 to 67,108,864, P 1 to 16, M at least 8,192 times P."
ARGON2_VERSION = 0x13
SALT_LENGTHS = range(8, 64 + 1)
PASSES = range(1, 64 + 1)
MEMORY = range(8_192, 67_108_864 + 1)
LANES = range(1, 16 + 1)
MEMORY_OF_LANE = 8_192

OVER_LIMIT = 1
CUT_SHORT = 2
SIGNATURE = 3
VERSION = 4
SIZE = 5
REPEATED = 6
UNLISTED_ID = 7
ABSENT = 8
UNLISTED_ALGORITHM = 9
DICTIONARY = 10
ROUNDS = 11
HEADER_HASH = 12
HEADER_TAG = 13
BLOCK_TAG = 14
BYTES_AFTER = 15
PADDING = 16
LENT_TOO_SHORT = 17
CREDENTIAL = 18
AFTER_END = 19
TOO_FEW_ROUNDS = 20
KDF_FIGURE = 22


class Refusal(Exception):
    """A refusal: its number and its place. Item 8: "The place is the one answer beside the number that need not be
    zero"."""

    def __init__(self, number, place):
        super().__init__(number, place)
        self.number = number
        self.place = place


def require(holds, number, place=0):
    """Refuse with the number and the place unless the condition holds; without a place it is zero."""
    if not holds:
        raise Refusal(number, place)


def within(length, limit):
    """R: a limit is inclusive."""
    require(length <= limit, OVER_LIMIT)


def int32(data, at):
    """Numbers are little-endian; sizes are Int32, so signed."""
    return int.from_bytes(data[at : at + 4], "little", signed=True)


def uint(data):
    """Numbers are little-endian."""
    return int.from_bytes(data, "little")
