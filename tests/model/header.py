"""The outer header and its listing (document 01, "Header" and "Numbers to meet"; document 02, Item 8)."""

from . import dictionary
from .limits import (
    ABSENT, CUT_SHORT, FILE_LIMIT, PROGRAM_LIMIT, REPEATED, SIGNATURE, SIZE, UNLISTED_ALGORITHM, UNLISTED_ID, VERSION,
    OVER_LIMIT, Refusal, int32, require, uint, within,
)

SIGNATURES = (0x9AA2D903, 0xB54BFB67)
VERSIONS = {0x00040000: 0, 0x00040001: 1}  # "the version, major in the high word"; 4.0 and 4.1
END, CIPHER, COMPRESSION, SEED, NONCE, KDF, CUSTOM = 0, 2, 3, 4, 7, 11, 12
# The table of fields. None: any size here (the nonce's is judged after the end field).
FIELD_SIZE = {END: 4, CIPHER: 16, COMPRESSION: 4, SEED: 32, NONCE: None, KDF: None, CUSTOM: None}
REQUIRED = (CIPHER, COMPRESSION, SEED, NONCE, KDF)  # "12 public custom dictionary, optional"
END_BYTES = b"\x0d\x0a\x0d\x0a"

AES = bytes.fromhex("31C1F2E6BF714350BE5805216AFC5AFF")
CHACHA20 = bytes.fromhex("D6038A2B8B6F4CB5A524339A31DBB59A")
CIPHER_NAMES = {AES: "aes", CHACHA20: "chacha"}
NONCE_LENGTH = {"aes": 16, "chacha": 12}


class Header:
    """An accepted header."""

    def __init__(self, data, minor, fields, length):
        self.length = length
        self.minor = minor
        self.frames = [(0, 12)] + [(start - 5, end) for start, end in fields.values()]
        self.spans = fields
        value = {key: data[start:end] for key, (start, end) in fields.items()}
        # Places: "for 8 the end field; otherwise the first byte of the field". R: "5 for the nonce: field 7. 9: the
        # cipher's field, the compression field".
        place = {key: start - 5 for key, (start, _) in fields.items()}
        # "After the end field: absence (8), cipher then compression (9), nonce size (5), KDF dictionary, custom
        # dictionary."
        require(all(key in value for key in REQUIRED), ABSENT, place[END])
        require(value[CIPHER] in CIPHER_NAMES, UNLISTED_ALGORITHM, place[CIPHER])
        self.cipher = CIPHER_NAMES[value[CIPHER]]
        require(uint(value[COMPRESSION]) == 0, UNLISTED_ALGORITHM, place[COMPRESSION])
        require(len(value[NONCE]) == NONCE_LENGTH[self.cipher], SIZE, place[NONCE])
        self.kdf = dictionary.kdf_figures(value[KDF], fields[KDF][0])
        if CUSTOM in value:
            dictionary.items(value[CUSTOM], fields[CUSTOM][0])
        self.seed = value[SEED]
        self.nonce = value[NONCE]


def start(data):
    """ "Order: length (1), 12 bytes present (2), signatures (3), version (4)": the minor version. Places: "for 2 its
    length; for 3 the first signature that differs (0 or 4); for 4, 8"."""
    within(len(data), FILE_LIMIT)
    require(len(data) >= 12, CUT_SHORT, len(data))
    for place, signature in zip((0, 4), SIGNATURES):
        require(uint(data[place : place + 4]) == signature, SIGNATURE, place)
    version = uint(data[8:12])
    require(version in VERSIONS, VERSION, 8)
    return VERSIONS[version]


def field(data, at, seen):
    """ "its five bytes present (2), ID listed (7), not repeated (6), size not negative and right for a fixed field
    (5), value present (2), end bytes (5)": the ID and the value's start and end. Places: "for 2 its length", "otherwise
    the first byte of the field". R: "6: the second one's first byte"."""
    require(at + 5 <= len(data), CUT_SHORT, len(data))
    key = data[at]
    require(key in FIELD_SIZE, UNLISTED_ID, at)
    require(key not in seen, REPEATED, at)
    size = int32(data, at + 1)
    require(size >= 0 and FIELD_SIZE[key] in (None, size), SIZE, at)
    value, end = at + 5, at + 5 + size
    require(end <= len(data), CUT_SHORT, len(data))
    if key == END:
        require(data[value:end] == END_BYTES, SIZE, at)
    return key, value, end


def read(data):
    """The header at the front of a file. R: bytes behind the end field are no fault of the header."""
    minor = start(data)
    fields = {}
    at = 12
    while END not in fields:
        key, value, at = field(data, at, fields)
        fields[key] = (value, at)
    return Header(data, minor, fields, at)


def listing(data):
    """ "prints each frame as a line of upper-case hexadecimal: first signatures and version, then each field's ID,
    size and value. Otherwise one line, R and two decimal digits." Item 8: "The listing prints it after the number, one
    space between, in decimal (1 has none)". R: R01 for any input over 65,536 bytes."""
    if len(data) > PROGRAM_LIMIT:
        return "R%02d\n" % OVER_LIMIT
    try:
        frames = read(data).frames
    except Refusal as refusal:
        return "R%02d %d\n" % (refusal.number, refusal.place)
    return "".join(data[first:end].hex().upper() + "\n" for first, end in frames)
