#!/usr/bin/env python3
"""Write what crates/vectors_writer reads and must print:   tools/vectors_writer.py

The files come from a writer of its own, told here from documents 01 and 02 (Items 3, 6 and 7): header, hash, tag and
blocks by Python's hashlib and hmac, AES and ChaCha20 by the Python package cryptography, which is OpenSSL. The numbers
come from its checks, made in document 01's order with 20 behind 11 and 22 in its place, and each is compared with the number that its
case is to give. The lengths that the documents give are compared too. No KDF is run: T is given. No payload and no file
stands at its limit or over it: the program's stack does not hold one, and tests/differential runs these.
"""
import hmac
import pathlib
import sys

from cryptography.hazmat.primitives import padding
from cryptography.hazmat.primitives.ciphers import Cipher, algorithms, modes
from digests import sha256, sha512
from messages import pattern
from vaults import text_field

LIMIT = 16_777_216
BLOCK = 1_048_576
# The program's table; its output, and the large one, which it has for a room that is more; its longest payload.
TABLE = 262_144
OUTPUT = 65_536
LARGE_OUTPUT = 2_162_688
LONGEST = 4_194_305
AES = bytes.fromhex("31C1F2E6BF714350BE5805216AFC5AFF")
CHACHA20 = bytes.fromhex("D6038A2B8B6F4CB5A524339A31DBB59A")
AES_KDF = bytes.fromhex("C9D9F39A628A4460BF740D08C18A4FEA")
ARGON2D = bytes.fromhex("EF636DDF8C29444B91F7A9A403E30A0C")
ARGON2ID = bytes.fromhex("9E298B1956DB4773B23DFC3EC6F0A1E6")
KDFS = (AES_KDF, ARGON2D, ARGON2ID)
NONCE_SIZE = {AES: 16, CHACHA20: 12}
# The sizes of a dictionary's types; None where any will do.
TYPES = {0x04: 4, 0x05: 8, 0x08: 1, 0x0C: 4, 0x0D: 8, 0x18: None, 0x42: None}


class Refused(Exception):
    """Carries a refusal's number."""


def le(n, size):
    return n.to_bytes(size, "little")


def item(type_, name, value, name_size=None, value_size=None):
    name_size = len(name) if name_size is None else name_size
    value_size = len(value) if value_size is None else value_size
    sizes = (n.to_bytes(4, "little", signed=True) for n in (name_size, value_size))
    return bytes([type_]) + next(sizes) + name + next(sizes) + value


def dictionary(*items):
    return b"\x00\x01" + b"".join(items) + b"\x00"


def check_dictionary(s):
    """Refuses a broken dictionary (10) or a repeated name (6), the first met from the front."""

    def taken(at, n):
        if n < 0 or at + n > len(s):
            raise Refused(10)
        return s[at : at + n], at + n

    def sized(at):
        size, at = taken(at, 4)
        return taken(at, int.from_bytes(size, "little", signed=True))

    version, at = taken(0, 2)
    if version[1] != 1:
        raise Refused(10)
    names = set()
    while True:
        type_, at = taken(at, 1)
        if type_ == b"\0":
            break
        name, at = sized(at)
        value, at = sized(at)
        if type_[0] not in TYPES or TYPES[type_[0]] not in (None, len(value)):
            raise Refused(10)
        if name in names:
            raise Refused(6)
        names.add(name)
    if at != len(s):
        raise Refused(10)


def kdf_dictionary(kdf, salt, costs):
    """The dictionary of a KDF. Its costs are AES-KDF's rounds, or Argon2's passes, memory and lanes."""
    uuid, salt_item = item(0x42, b"$UUID", kdf), item(0x42, b"S", salt)
    if kdf == AES_KDF:
        return dictionary(uuid, item(0x05, b"R", le(costs, 8)), salt_item)
    passes, memory, lanes = costs
    figures = item(0x05, b"I", le(passes, 8)), item(0x05, b"M", le(memory, 8)), item(0x04, b"P", le(lanes, 4))
    return dictionary(uuid, *figures, salt_item, item(0x04, b"V", le(0x13, 4)))


def header_of(minor, cipher, seed, nonce, salt, costs, custom, kdf=AES_KDF):
    def field(id_, value):
        return bytes([id_]) + le(len(value), 4) + value

    header = le(0x9AA2D903, 4) + le(0xB54BFB67, 4) + le(minor, 2) + le(4, 2)
    header += field(2, cipher) + field(3, bytes(4)) + field(4, seed) + field(7, nonce)
    header += field(11, kdf_dictionary(kdf, salt, costs))
    if custom:
        header += field(12, custom)
    return header + field(0, b"\r\n\r\n")


def encrypted(cipher, key, nonce, payload):
    if cipher == AES:
        padder = padding.PKCS7(128).padder()
        encryptor = Cipher(algorithms.AES(key), modes.CBC(nonce)).encryptor()
        return encryptor.update(padder.update(payload) + padder.finalize()) + encryptor.finalize()
    # The package's nonce begins with the counter, which is 0.
    return Cipher(algorithms.ChaCha20(key, bytes(4) + nonce), None).encryptor().update(payload)


def check_costs(kdf, salt, costs):
    """Refuses rounds over their limit (11) or too few (20), or a figure of Argon2 that is outside its bounds (22)."""
    if kdf == AES_KDF:
        if costs > 4_000_000:
            raise Refused(11)
        if costs < 6_000:
            raise Refused(20)
        return
    passes, memory, lanes = costs
    inside = 8 <= len(salt) <= 64 and 1 <= passes <= 64 and 8_192 <= memory <= 67_108_864 and 1 <= lanes <= 16
    if not inside or memory < 8_192 * lanes:
        raise Refused(22)


def write(minor, cipher, seed, nonce, salt, costs, custom, t, payload, room, kdf=AES_KDF):
    if minor not in (0, 1):
        raise Refused(4)
    if cipher not in NONCE_SIZE:
        raise Refused(9)
    if (len(seed), len(nonce)) != (32, NONCE_SIZE[cipher]) or (kdf == AES_KDF and len(salt) != 32):
        raise Refused(5)
    check_costs(kdf, salt, costs)
    if custom:
        check_dictionary(custom)
    if len(payload) > LIMIT:
        raise Refused(1)
    base = sha512(seed, t, b"\1")

    def tag(i, message):
        return hmac.digest(sha512(le(i, 8), base), message, "sha256")

    header = header_of(minor, cipher, seed, nonce, salt, costs, custom, kdf)
    text = encrypted(cipher, sha256(seed, t), nonce, payload)
    parts = [header, sha256(header), tag(2**64 - 1, header)]
    blocks = [text[at : at + BLOCK] for at in range(0, len(text), BLOCK)] + [b""]
    for i, block in enumerate(blocks):
        sized = le(len(block), 4) + block
        parts += [tag(i, le(i, 8) + sized), sized]
    file = b"".join(parts)
    if len(file) > LIMIT:
        raise Refused(1)
    if len(file) > room:
        raise Refused(17)
    return file


def line_of(name, minor, cipher, seed, nonce, kdf, salt, costs, custom, t, payload, room):
    """A line of the program's standard input. A payload that is a number has so many bytes by rule."""
    parts = [name, minor, *map(text_field, (cipher, seed, nonce)), KDFS.index(kdf), text_field(salt)]
    parts += (costs, 0, 0) if kdf == AES_KDF else costs
    parts += [text_field(custom or None), text_field(t)]
    parts += [payload if isinstance(payload, int) else text_field(payload), room]
    return " ".join(map(str, parts))


class Cases:
    def __init__(self):
        self.table, self.rows = [], []
        self.longest = pattern(LONGEST)

    def row(self, name, form, figure, number, result=b""):
        self.rows.append(f"{name} {form} {figure} {number} {result.hex()}")

    def case(self, name, number, figures):
        """A line and its rows; the number must be that of the case. Answers the file's length."""
        self.table.append(line_of(name, **figures))
        payload = figures["payload"]
        if isinstance(payload, int):
            payload = self.longest[:payload]
        file, given = b"", 0
        try:
            file = write(**(figures | {"payload": payload}))
            self.row("written", name, len(file), 0, sha256(file))
        except Refused as r:
            given = r.args[0]
            self.row("written", name, 0, given)
        assert given == number, (name, given)
        output = OUTPUT if figures["room"] <= OUTPUT else LARGE_OUTPUT
        behind = b"\xee" * (output - len(file))
        self.row("behind", name, len(behind), 0, sha256(behind))
        if file and name.startswith("file-"):
            self.row("file", name, len(file), 0, file)
        return len(file)


def counted(first, n):
    return bytes((first + i) % 256 for i in range(n))


ITEM = item(0x18, b"name", b"value")
CUSTOM = dictionary(
    ITEM,
    item(0x04, b"u32", le(7, 4)),
    item(0x05, b"u64", le(2**63, 8)),
    item(0x08, b"bool", b"\1"),
    item(0x0C, b"i32", b"\xff" * 4),
    item(0x0D, b"i64", b"\xff" * 8),
    item(0x42, b"", b""),
)
SOUND = {
    "minor": 1,
    "cipher": AES,
    "seed": counted(0x10, 32),
    "nonce": counted(0xA0, 16),
    "kdf": AES_KDF,
    "salt": counted(0x50, 32),
    "costs": 6000,
    "custom": b"",
    "t": counted(0xE8, 32),
    "payload": 100,
    "room": OUTPUT,
}
SOUND_CHACHA20 = SOUND | {"cipher": CHACHA20, "nonce": counted(0xC0, 12)}
BOTH = {"aes": SOUND, "chacha20": SOUND_CHACHA20}
# Argon2's figures: two sound sets, and what is changed in them, to a bound or outside it.
ARGON2 = {"argon2d": {"kdf": ARGON2D, "costs": (2, 65_536, 4)}, "argon2id": {"kdf": ARGON2ID, "costs": (3, 65_536, 2)}}
BOUNDS = {
    "salt-8": {"salt": counted(0, 8)},
    "salt-31": {"salt": counted(0, 31)},
    "salt-33": {"salt": counted(0, 33)},
    "salt-64": {"salt": counted(0, 64)},
    "passes-1": {"costs": (1, 65_536, 4)},
    "passes-64": {"costs": (64, 65_536, 4)},
    "memory-least": {"costs": (2, 8_192, 1)},
    "memory-odd": {"costs": (2, 29_577, 3)},
    "memory-most": {"costs": (2, 67_108_864, 1)},
    "lanes-16": {"costs": (2, 131_072, 16)},
    "all-least": {"salt": counted(0, 8), "costs": (1, 8_192, 1)},
    "all-most": {"salt": counted(0, 64), "costs": (64, 67_108_864, 16)},
}
OUTSIDE = {
    "salt-absent": {"salt": None},
    "salt-7": {"salt": counted(0, 7)},
    "salt-65": {"salt": counted(0, 65)},
    "passes-0": {"costs": (0, 65_536, 4)},
    "passes-65": {"costs": (65, 65_536, 4)},
    "passes-2-to-32": {"costs": (2**32 + 1, 65_536, 4)},
    "memory-8191": {"costs": (2, 8_191, 1)},
    "memory-0": {"costs": (2, 0, 1)},
    "memory-67108865": {"costs": (2, 67_108_865, 1)},
    "memory-2-to-32": {"costs": (2, 2**32 + 65_536, 1)},
    "lanes-0": {"costs": (2, 65_536, 0)},
    "lanes-17": {"costs": (2, 67_108_864, 17)},
    "lanes-2-to-31": {"costs": (2, 67_108_864, 2**31 + 1)},
    "memory-for-2-lanes": {"costs": (2, 16_383, 2)},
    "memory-for-16-lanes": {"costs": (2, 131_071, 16)},
}
LENGTHS = (0, 1, 15, 16, 17, 16_383, 16_384, 16_385, 32_767, 32_768, 40_000)
# About a full block and two, which AES fills with a byte of payload less.
LARGE_LENGTHS = (BLOCK - 1, BLOCK, BLOCK + 1, 2 * BLOCK - 1, 2 * BLOCK, 2 * BLOCK + 1)
# Document 01, "Numbers to meet", and document 02, Item 7: the lengths of files without a custom dictionary. The last
# two are counted by hand: 271 or 267 bytes in front, and 36 for each block.
GIVEN = {
    ("aes", 0): 359,
    ("chacha20", 0): 303,
    ("chacha20", 1): 340,
    ("aes", 16_384): 16_743,
    ("chacha20", 16_384): 16_723,
    ("aes", 1_048_576): 1_048_971,
    ("chacha20", 1_048_576): 1_048_915,
}

# Custom dictionaries by name, with the number that each is to give.
DICTIONARIES = {
    "least": (0, dictionary()),
    "version-01ff": (0, b"\xff\x01\x00"),
    "one-byte": (10, b"\x00"),
    "no-end": (10, b"\x00\x01"),
    "version-2": (10, b"\x00\x02\x00"),
    "behind-end": (10, dictionary() + b"\0"),
    "unknown-type": (10, dictionary(item(0x19, b"name", b""))),
    "wrong-size": (10, dictionary(item(0x04, b"name", b"\0" * 5))),
    "negative-name": (10, dictionary(item(0x18, b"", b"", name_size=-1))),
    "negative-value": (10, dictionary(item(0x18, b"name", b"", value_size=-1))),
    "value-cut": (10, dictionary(item(0x18, b"name", b"", value_size=2))),
    "repeated": (6, dictionary(ITEM, item(0x42, b"name", b""))),
    "repeated-then-broken": (6, dictionary(ITEM, ITEM, item(0x19, b"", b""))),
    "broken-then-repeated": (10, dictionary(ITEM, item(0x19, b"", b""), ITEM)),
}

# What is wrong, by number in the writer's order. A tie takes one of each of two or more.
WRONG = [
    (4, {"minor": 2}),
    (9, {"cipher": counted(0, 16)}),
    (5, {"seed": counted(0, 31)}),
    (11, {"costs": 4_000_001}),
    (10, {"custom": b"\x00\x02\x00"}),
    (17, {"room": 0}),
]
# Further cases that are refused.
REFUSED = {
    "minor-256": (4, {"minor": 256}),
    "minor-65535": (4, {"minor": 65_535}),
    "cipher-absent": (9, {"cipher": None}),
    "cipher-of-15": (9, {"cipher": AES[:-1]}),
    "cipher-of-17": (9, {"cipher": AES + b"\0"}),
    "cipher-is-kdf": (9, {"cipher": AES_KDF}),
    "cipher-last-byte": (9, {"cipher": AES[:-1] + b"\xfe"}),
    "seed-absent": (5, {"seed": None}),
    "seed-of-33": (5, {"seed": counted(0, 33)}),
    "kdf-seed-absent": (5, {"salt": None}),
    "kdf-seed-of-31": (5, {"salt": counted(0, 31)}),
    "kdf-seed-of-33": (5, {"salt": counted(0, 33)}),
    "nonce-absent": (5, {"nonce": None}),
    "nonce-of-15": (5, {"nonce": counted(0, 15)}),
    "nonce-of-17": (5, {"nonce": counted(0, 17)}),
    "nonce-of-12": (5, {"nonce": counted(0, 12)}),
    "chacha20-nonce-of-16": (5, {"cipher": CHACHA20}),
    "chacha20-nonce-of-11": (5, {"cipher": CHACHA20, "nonce": counted(0, 11)}),
    "rounds-2-to-32": (11, {"costs": 2**32}),
    "rounds-of-18-digits": (11, {"costs": 10**18 - 1}),
    "rounds-0": (20, {"costs": 0}),
    "rounds-1": (20, {"costs": 1}),
    "rounds-5999": (20, {"costs": 5_999}),
    "chacha20-rounds-5999": (20, {"cipher": CHACHA20, "nonce": counted(0xC0, 12), "costs": 5_999}),
    "repeated-no-room": (6, {"custom": DICTIONARIES["repeated"][1], "room": 0}),
    "rounds-repeated": (11, {"custom": DICTIONARIES["repeated"][1], "costs": 4_000_001}),
    "nonce-rounds": (5, {"nonce": counted(0, 15), "costs": 4_000_001}),
    "nonce-few-rounds": (5, {"nonce": counted(0, 15), "costs": 5_999}),
    "kdf-seed-rounds": (5, {"salt": counted(0, 31), "costs": 4_000_001}),
    "kdf-seed-few-rounds": (5, {"salt": counted(0, 31), "costs": 5_999}),
    "cipher-nonce": (9, {"cipher": None, "nonce": counted(0, 15)}),
}


def without_nones(figures):
    """The model's figures: an absent one has no bytes."""
    return {name: b"" if value is None else value for name, value in figures.items()}


def accepted(cases):
    for cipher, figures in BOTH.items():
        for n in LENGTHS:
            for minor in (0, 1):
                for custom in (b"", CUSTOM):
                    form = f"{cipher}-{n}-4.{minor}" + ("-custom" if custom else "")
                    length = cases.case(form, 0, figures | {"minor": minor, "custom": custom, "payload": n})
                    assert custom or length == GIVEN.get((cipher, n), length), form
        cases.case(f"{cipher}-given", 0, figures | {"payload": b"A payload that the line gives."})
        cases.case(f"file-{cipher}", 0, figures | {"payload": 17, "custom": CUSTOM})
        for rounds in (6_000, 4_000_000):
            cases.case(f"{cipher}-rounds-{rounds}", 0, figures | {"costs": rounds})


def accepted_argon2(cases):
    for cipher, figures in BOTH.items():
        for kdf, argon2 in ARGON2.items():
            sound = figures | argon2
            for n in (0, 1, 17, 16_383, 16_384, 40_000):
                for custom in (b"", CUSTOM):
                    form = f"{cipher}-{kdf}-{n}" + ("-custom" if custom else "")
                    length = cases.case(form, 0, sound | {"custom": custom, "payload": n})
                    # Argon2's dictionary has 107 bytes and the salt, AES-KDF's 93.
                    assert custom or length - 139 + 93 == GIVEN.get((cipher, n), length - 139 + 93), form
            cases.case(f"{cipher}-{kdf}-4.0", 0, sound | {"minor": 0})
            cases.case(f"file-{cipher}-{kdf}", 0, sound | {"payload": 17, "custom": CUSTOM})
            for name, bound in BOUNDS.items():
                cases.case(f"{cipher}-{kdf}-{name}", 0, sound | bound)


def refused(cases):
    for name, (number, custom) in DICTIONARIES.items():
        cases.case(f"dictionary-{name}", number, SOUND | {"custom": custom})
    for name, (number, wrong) in REFUSED.items():
        cases.case(name, number, without_nones(SOUND | wrong))
    for cipher, figures in BOTH.items():
        for n in (0, 17, 16_384):
            for custom in (b"", CUSTOM):
                form = f"{cipher}-{n}" + ("-custom" if custom else "")
                figures = figures | {"payload": n, "custom": custom}
                room = cases.case(f"{form}-whole-room", 0, figures)
                cases.case(f"{form}-just-room", 0, figures | {"room": room})
                cases.case(f"{form}-no-room", 17, figures | {"room": room - 1})


def refused_argon2(cases):
    """22, before it 4, 9 and 5, behind it 10, 6 and 17. A salt of another size than 32 is no 5."""
    for cipher, figures in BOTH.items():
        for kdf, argon2 in ARGON2.items():
            sound = figures | argon2
            for name, outside in OUTSIDE.items():
                cases.case(f"{cipher}-{kdf}-{name}", 22, without_nones(sound | outside))
            room = cases.case(f"{cipher}-{kdf}-whole-room", 0, sound)
            cases.case(f"{cipher}-{kdf}-just-room", 0, sound | {"room": room})
            cases.case(f"{cipher}-{kdf}-no-room", 17, sound | {"room": room - 1})
    for kdf, argon2 in ARGON2.items():
        sound = SOUND | argon2
        for name in ("salt-7", "salt-65", "passes-0", "memory-for-2-lanes"):
            outside = OUTSIDE[name]
            for number, wrong in (w for w in WRONG if w[0] != 11):
                first = number if number in (4, 9, 5) else 22
                cases.case(f"{kdf}-tie-{number}-{name}", first, sound | wrong | outside)
            cases.case(f"{kdf}-tie-6-{name}", 22, sound | outside | {"custom": DICTIONARIES["repeated"][1]})
            cases.case(f"{kdf}-tie-nonce-{name}", 5, sound | outside | {"nonce": counted(0, 15)})
        cases.case(f"{kdf}-salt-31-custom-broken", 10, sound | BOUNDS["salt-31"] | {"custom": b"\x00\x02\x00"})


def ties(cases):
    """Each number alone, each two of them, and all from each on: the first in the order is given."""
    for i, (number, wrong) in enumerate(WRONG):
        cases.case(f"only-{number}", number, SOUND | wrong)
        together = dict(SOUND)
        for later, worse in reversed(WRONG[i + 1 :]):
            cases.case(f"tie-{number}-{later}", number, SOUND | worse | wrong)
            together |= worse
        cases.case(f"all-from-{number}", number, together | wrong)


def ties_few(cases):
    """20 with each other number but 11, which no rounds have with it; and with all behind it."""
    few, behind = {"costs": 5_999}, dict(SOUND)
    for number, wrong in (w for w in WRONG if w[0] != 11):
        before = number in (4, 9, 5)
        cases.case(f"tie-{number}-20", number if before else 20, SOUND | wrong | few)
        behind |= {} if before else wrong
    cases.case("tie-6-20", 20, SOUND | few | {"custom": DICTIONARIES["repeated"][1]})
    cases.case("all-from-20", 20, behind | few)


def large(cases):
    """Payloads about full blocks, with room and without; and one of which the program has no room for the file."""
    for cipher, figures in BOTH.items():
        sound = figures | {"room": LARGE_OUTPUT}
        for n in LARGE_LENGTHS:
            length = cases.case(f"{cipher}-{n}", 0, sound | {"payload": n})
            assert length == GIVEN.get((cipher, n), length), (cipher, n)
        sound |= {"payload": BLOCK, "custom": CUSTOM}
        room = cases.case(f"{cipher}-{BLOCK}-custom", 0, sound)
        cases.case(f"{cipher}-{BLOCK}-custom-just-room", 0, sound | {"room": room})
        cases.case(f"{cipher}-{BLOCK}-custom-no-room", 17, sound | {"room": room - 1})
        cases.case(f"{cipher}-{LONGEST}-no-room", 17, figures | {"payload": LONGEST, "room": LARGE_OUTPUT})


def main():
    crate = pathlib.Path(__file__).parent.parent / "crates" / "vectors_writer"
    cases = Cases()
    accepted(cases)
    accepted_argon2(cases)
    refused(cases)
    refused_argon2(cases)
    ties(cases)
    ties_few(cases)
    large(cases)
    table = "".join(f"{line}\n" for line in cases.table)
    assert len(table) < TABLE, len(table)
    (crate / "stdin").write_text(table)
    (crate / "stdout").write_text("".join(f"{line}\n" for line in cases.rows))


if __name__ == "__main__":
    if len(sys.argv) != 1:
        sys.exit(__doc__)
    main()
