#!/usr/bin/env python3
"""Write what crates/vectors_header, list, list_refused and list_too_long read and must print:

    tools/vectors_header.py FIXTURES

FIXTURES is the folder of vaults that other programs wrote, with its manifest.json: who does not have it cannot run this
script, and needs only the files that it writes. Every expected listing is computed by a model of outer headers
(header_model.py), which follows the requirements' pages and shares no code with the library. The refusal's number of
each damaged header is also told beside the case, by hand, and compared with what the model says, but for those of
`changed` and of other programs' vaults; the places of `field_places`, `kdf_places`, `argon2_places`, `repeated_places`
and `custom_places` are too. What a name is looked up as is told by the model's list of a dictionary's items.
"""
import pathlib
import sys

from header_model import (
    AES, AES_KDF, ARGON2D, ARGON2ID, CHACHA20, END, ITEM_SIZES, SIGNATURES, TWOFISH, Refused, number, read_header,
    sound_items,
)
from vaults import text_field, vaults

PROGRAM_LIMIT = 65_536


def listing(data):
    """The number, the place and the text."""
    try:
        _, frames = read_header(data, PROGRAM_LIMIT)
        return 0, 0, "".join(frame.hex().upper() + "\n" for frame in frames)
    except Refused as r:
        return r.no, r.place, f"R{r.no:02}\n" if r.no == 1 else f"R{r.no:02} {r.place}\n"


# the cases

def field(id_, value, size=None):
    return bytes([id_]) + number(len(value) if size is None else size, 4) + value


def item(kind, name, value, name_size=None, size=None):
    return bytes([kind]) + field(0, name, name_size)[1:] + field(0, value, size)[1:]


# The rounds of the sample headers.
ROUNDS = 6_000
UUID = item(0x42, b"$UUID", AES_KDF)
R = item(0x05, b"R", number(ROUNDS, 8))
S = item(0x42, b"S", b"\x33" * 32)


def dictionary(*items, version=b"\x00\x01", end=b"\x00"):
    return version + b"".join(items) + end


def rounds_item(n):
    return item(0x05, b"R", number(n, 8))


def rounds(n):
    return dictionary(UUID, rounds_item(n), S)


def argon2_dictionary(*more, uuid=ARGON2D, **changed):
    """The dictionary of a form of Argon2, with changes: V=0x10 replaces the version, S=None leaves the salt out."""
    figures = {"I": 2, "M": 65_536, "P": 2, "S": b"\x33" * 32, "V": 0x13} | changed
    sizes = {"I": (0x05, 8), "M": (0x05, 8), "P": (0x04, 4), "V": (0x04, 4)}
    items = [
        item(0x42, b"S", v) if name == "S" else item(sizes[name][0], name.encode(), number(v, sizes[name][1]))
        for name, v in sorted(figures.items())
        if v is not None
    ]
    return dictionary(item(0x42, b"$UUID", uuid), *items, *more)


KDF = dictionary(UUID, R, S)
FIELDS = {2: CHACHA20, 3: bytes(4), 4: b"\x11" * 32, 7: b"\x22" * 12, 11: KDF}


def header(version=0x40001, signatures=SIGNATURES, end=field(0, END), order=(2, 3, 4, 7, 11), before=b"", **changed):
    """The worked header of the requirements' page, with changes: f2=VALUE replaces field 2, None leaves it out, f12
    adds one; `before` stands in front of the end field."""
    values = FIELDS | {int(name[1:]): value for name, value in changed.items()}
    order = [*order, *(id_ for id_ in values if id_ not in order)]
    parts = [field(id_, values[id_]) for id_ in order if values[id_] is not None]
    return signatures + number(version, 4) + b"".join(parts) + before + end


class Cases(list):
    def case(self, name, data, expected, length=None, place=None):
        """A file: the data, and zeros up to the length. The number is compared, and a place that is told."""
        length = len(data) if length is None else length
        no, at, text = listing(data.ljust(length, b"\0"))
        assert no == expected and place in (None, at), (name, no, at, expected, place)
        self.append((name, data, length, text))


def accepted(cases):
    cases.case("worked", header(), 0)
    cases.case("version-4.0", header(0x40000), 0)
    cases.case("aes", header(f2=AES, f7=b"\x22" * 16), 0)
    cases.case("bytes-behind", header(), 0, 250)
    cases.case("order-of-keepass-2", header(order=(2, 3, 4, 11, 7)), 0)
    cases.case("order-reversed", header(order=(11, 7, 4, 3, 2)), 0)
    cases.case("custom-least", header(f12=dictionary()), 0)
    every = [item(kind, bytes([kind]), bytes(size or 3)) for kind, size in ITEM_SIZES.items()]
    cases.case("custom-every-type", header(f12=dictionary(*every)), 0)
    empty = [item(0x18, b"", b""), item(0x42, b"a", b"")]
    cases.case("custom-empty-name-and-values", header(f12=dictionary(*empty)), 0)
    cases.case("dictionary-low-version-byte", header(f11=dictionary(UUID, R, S, version=b"\x7f\x01")), 0)
    cases.case("kdf-more-items", header(f11=dictionary(item(0x04, b"x", bytes(4)), S, R, UUID)), 0)
    cases.case("rounds-4000000", header(f11=rounds(4_000_000)), 0)
    cases.case("custom-before-the-others", header(order=(12, 2, 3, 4, 7, 11), f12=dictionary()), 0)


def length_and_front(cases):
    whole = header()
    cases.case("longest", whole, 0, PROGRAM_LIMIT)
    cases.case("over", whole, 1, PROGRAM_LIMIT + 1)
    cases.case("over-and-signature", b"", 1, PROGRAM_LIMIT + 1)
    cases.case("longest-and-signature", b"", 3, PROGRAM_LIMIT)
    cases.case("empty", b"", 2)
    for n in (1, 11, 12, 13, 16, 17, 20, 32, 33, 78, 100, 193, 198, 199, 202):
        cases.case(f"cut-{n}", whole[:n], 2)
    cases.case("eleven-and-signature", bytes(11), 2)
    cases.case("first-signature", header(signatures=bytes(4) + SIGNATURES[4:]), 3)
    cases.case("second-signature", header(signatures=SIGNATURES[:4] + bytes(4)), 3)
    cases.case("keepass-1-signature", header(signatures=SIGNATURES[:4] + bytes.fromhex("65fb4bb5")), 3)
    cases.case("signature-and-version", header(0x50000, signatures=bytes(8)), 3)
    cases.case("signature-of-twelve", bytes(12), 3)
    for version in (0x30001, 0x3FFFF, 0x40002, 0x50000, 0x4, 0x10004):
        cases.case(f"version-{version:x}", header(version), 4)
    cases.case("version-of-twelve", header(0x40002)[:12], 4)
    cases.case("version-and-unknown-field", header(0x40002, before=field(1, b"")), 4)


def fields(cases):
    for id_ in (1, 5, 6, 8, 9, 10, 13, 255):
        cases.case(f"unknown-{id_}", header(before=field(id_, b"abc")), 7)
    cases.case("unknown-and-negative", header(before=field(1, b"", -1)), 7)
    cases.case("unknown-and-value-cut", header(before=field(1, b"", 1000)), 7)
    cases.case("unknown-and-five-bytes-cut", header(end=field(1, b"")[:4]), 2)
    cases.case("unknown-before-repeated", header(before=field(1, b"") + field(2, AES)), 7)
    for id_, value in (FIELDS | {12: dictionary()}).items():
        before = field(12, value) if id_ == 12 else b""
        cases.case(f"repeated-{id_}", header(before=before + field(id_, value)), 6)
    cases.case("repeated-and-size", header(before=field(2, AES[:15])), 6)
    cases.case("repeated-and-negative", header(before=field(7, b"", -1)), 6)
    cases.case("repeated-and-value-cut", header(before=field(4, b"", 32)[:20], end=b""), 6)
    cases.case("repeated-and-absent", header(f3=None, before=field(2, AES)), 6)
    for id_ in (2, 3, 4, 7, 11, 12):
        cases.case(f"negative-{id_}", header(**{f"f{id_}": None}, before=field(id_, b"", -1)), 5)
    cases.case("negative-0", header(end=field(0, END, -1)), 5)
    cases.case("negative-least", header(f11=None, before=field(11, b"", -(2**31))), 5)
    for id_, size in ((2, 15), (2, 17), (2, 0), (3, 0), (3, 5), (4, 31), (4, 33)):
        cases.case(f"size-{id_}-{size}", header(**{f"f{id_}": bytes(size)}), 5)
    cases.case("size-and-value-cut", header(order=(2, 3, 4, 11, 7))[:12] + field(2, b"", 15), 5)
    cases.case("end-empty", header(end=field(0, b"")), 5)
    cases.case("end-of-five", header(end=field(0, END + b"\n")), 5)
    for i in range(4):
        cases.case(f"end-byte-{i}", header(end=field(0, END[:i] + b"x" + END[i + 1 :])), 5)
    cases.case("end-bytes-and-absent", header(f3=None, end=field(0, bytes(4))), 5)
    cases.case("end-cut", header(end=field(0, END[:3], 4)), 2)
    for id_ in (7, 11, 12):
        cases.case(f"value-cut-{id_}", header(**{f"f{id_}": None}, before=field(id_, b"", 0x7FFFFFFF)), 2)
    cases.case("value-cut-by-one", header(f11=None, before=field(11, KDF, len(KDF) + 1), end=b""), 2)
    cases.case("no-end", header(end=b""), 2)


def after_the_end(cases):
    for id_ in (2, 3, 4, 7, 11):
        cases.case(f"absent-{id_}", header(**{f"f{id_}": None}), 8)
    cases.case("absent-all", header(f2=None, f3=None, f4=None, f7=None, f11=None), 8)
    cases.case("absent-all-but-custom", header(f2=None, f3=None, f4=None, f7=None, f11=None, f12=dictionary()), 8)
    cases.case("absent-and-cipher", header(f2=TWOFISH, f11=None), 8)
    cases.case("cipher", header(f2=TWOFISH, f7=bytes(16)), 9)
    cases.case("cipher-last-byte", header(f2=CHACHA20[:15] + b"\x9b"), 9)
    cases.case("cipher-and-compression", header(f2=TWOFISH, f3=number(1, 4)), 9)
    cases.case("cipher-and-nonce", header(f2=TWOFISH, f7=bytes(3)), 9)
    cases.case("compression-gzip", header(f3=number(1, 4)), 9)
    cases.case("compression-last-byte", header(f3=bytes(3) + b"\x80"), 9)
    cases.case("compression-and-nonce", header(f3=number(1, 4), f7=b""), 9)
    for size in (0, 8, 11, 13, 16):
        cases.case(f"nonce-chacha20-{size}", header(f7=bytes(size)), 5)
    for size in (12, 15, 17):
        cases.case(f"nonce-aes-{size}", header(f2=AES, f7=bytes(size)), 5)
    cases.case("nonce-and-kdf", header(f7=bytes(16), f11=b""), 5)
    cases.case("nonce-and-custom", header(f7=bytes(16), f12=b""), 5)


def kdf(cases):
    def kdf_case(name, d, expected):
        cases.case(f"kdf-{name}", header(f11=d), expected)

    kdf_case("empty", b"", 10)
    kdf_case("two-bytes", b"\x00\x01", 10)
    kdf_case("no-end", dictionary(UUID, R, S, end=b""), 10)
    kdf_case("bytes-behind-end", dictionary(UUID, R, S, end=b"\x00\x00"), 10)
    kdf_case("version-2", dictionary(UUID, R, S, version=b"\x00\x02"), 10)
    kdf_case("version-0", dictionary(UUID, R, S, version=b"\x01\x00"), 10)
    kdf_case("type-01", dictionary(UUID, R, S, item(0x01, b"x", b"")), 10)
    kdf_case("name-negative", dictionary(UUID, R, S, item(0x18, b"x", b"", -1)), 10)
    kdf_case("name-cut", dictionary(UUID, R, S, item(0x18, b"x", b"", 100)), 10)
    kdf_case("value-negative", dictionary(UUID, R, S, item(0x18, b"x", b"", None, -1)), 10)
    kdf_case("value-cut", dictionary(UUID, R, S, item(0x18, b"x", b"", None, 2)), 10)
    kdf_case("value-to-the-end", dictionary(UUID, R, S, item(0x18, b"x", b"", None, 1)), 10)
    for kind, size in ITEM_SIZES.items():
        if size is not None:
            kdf_case(f"size-{kind:02x}", dictionary(UUID, R, S, item(kind, b"x", bytes(size + 1))), 10)
    kdf_case("repeated-name", dictionary(UUID, R, S, R), 6)
    kdf_case("repeated-name-other-type", dictionary(UUID, R, S, item(0x18, b"R", b"")), 6)
    kdf_case("repeated-name-broken-item", dictionary(UUID, R, S, item(0x05, b"R", bytes(7))), 10)
    kdf_case("repeated-name-then-broken", dictionary(UUID, R, R, S, item(0x01, b"x", b"")), 6)
    kdf_case("broken-then-repeated-name", dictionary(UUID, R, item(0x01, b"x", b""), R, S), 10)
    kdf_case("least", dictionary(), 10)
    kdf_case("no-uuid", dictionary(R, S), 10)
    kdf_case("uuid-as-string", dictionary(item(0x18, b"$UUID", AES_KDF), R, S), 10)
    kdf_case("uuid-of-15", dictionary(item(0x42, b"$UUID", AES_KDF[:15]), R, S), 10)
    kdf_case("uuid-lower-case-name", dictionary(item(0x42, b"$uuid", AES_KDF), R, S), 10)
    kdf_case("unlisted", dictionary(item(0x42, b"$UUID", TWOFISH), R, S), 9)
    kdf_case("unlisted-and-no-seed", dictionary(item(0x42, b"$UUID", TWOFISH)), 9)
    kdf_case("unlisted-and-repeated-name", dictionary(item(0x42, b"$UUID", TWOFISH), R, R), 6)
    kdf_case("no-seed", dictionary(UUID, R), 10)
    kdf_case("seed-as-string", dictionary(UUID, R, item(0x18, b"S", bytes(32))), 10)
    kdf_case("seed-of-31", dictionary(UUID, R, item(0x42, b"S", bytes(31))), 10)
    kdf_case("no-rounds", dictionary(UUID, S), 10)
    kdf_case("rounds-as-uint32", dictionary(UUID, S, item(0x04, b"R", number(ROUNDS, 4))), 10)
    kdf_case("rounds-as-int64", dictionary(UUID, S, item(0x0D, b"R", number(ROUNDS, 8))), 10)
    kdf_case("rounds-4000001", rounds(4_000_001), 11)
    kdf_case("rounds-2^63", rounds(2**63), 11)
    kdf_case("rounds-2^64-1", rounds(2**64 - 1), 11)
    kdf_case("rounds-over-and-no-seed", dictionary(UUID, item(0x05, b"R", number(2**32, 8))), 10)


def few_rounds(cases):
    """Document 02, Item 3: 20 in 11's place, and of AES-KDF alone. The worked header has 6,000 rounds."""
    few = item(0x05, b"R", number(5_999, 8))
    for n in (0, 1, 255, 5_999):
        cases.case(f"rounds-{n}", header(f11=rounds(n)), 20)
    cases.case("rounds-6001", header(f11=rounds(6_001)), 0)
    cases.case("few-and-no-end", header(f11=rounds(5_999), end=b""), 2)
    cases.case("few-and-absent", header(f11=rounds(5_999), f3=None), 8)
    cases.case("few-and-cipher", header(f11=rounds(5_999), f2=TWOFISH), 9)
    cases.case("few-and-nonce", header(f11=rounds(5_999), f7=bytes(16)), 5)
    cases.case("few-and-repeated-name", header(f11=dictionary(UUID, few, few, S)), 6)
    cases.case("few-and-unlisted-kdf", header(f11=dictionary(item(0x42, b"$UUID", TWOFISH), few, S)), 9)
    cases.case("few-and-no-seed", header(f11=dictionary(UUID, few)), 10)
    cases.case("few-and-seed-of-31", header(f11=dictionary(UUID, few, item(0x42, b"S", bytes(31)))), 10)
    cases.case("few-and-custom-broken", header(f11=rounds(5_999), f12=b""), 20)
    cases.case("few-and-custom-repeated-name", header(f11=rounds(0), f12=dictionary(R, R)), 20)
    cases.case("few-and-custom-before", header(order=(12, 2, 3, 4, 7, 11), f11=rounds(1), f12=b""), 20)
    cases.case("few-of-argon2", header(f11=argon2_dictionary(few, I=1)), 0)


def argon2(cases):
    def argon2_case(name, expected, *more, uuid=ARGON2D, **changed):
        cases.case(f"argon2-{name}", header(f11=argon2_dictionary(*more, uuid=uuid, **changed)), expected)

    argon2_case("d", 0)
    argon2_case("id", 0, uuid=ARGON2ID)
    argon2_case("other-item", 0, item(0x18, b"k", b""))
    argon2_case("most", 0, S=b"\x33" * 64, I=64, M=67_108_864, P=16)
    argon2_case("least", 0, S=b"\x33" * 8, I=1, M=8_192, P=1)
    argon2_case("lanes-with-least-memory", 0, M=131_072, P=16)
    for name in "VSIMP":
        argon2_case(f"no-{name}", 10, **{name: None})
        argon2_case(f"{name}-as-string", 10, item(0x18, name.encode(), b"\0" * 8), **{name: None})
        argon2_case(f"no-{name}-and-secret", 10, item(0x42, b"K", b""), **{name: None})
    argon2_case("version-10", 9, V=0x10)
    argon2_case("version-10-and-no-passes", 10, V=0x10, I=None)
    argon2_case("version-10-and-salt-of-7", 9, V=0x10, S=bytes(7))
    argon2_case("secret", 9, item(0x42, b"K", b""))
    argon2_case("associated", 9, item(0x18, b"A", b""))
    argon2_case("secret-and-no-lanes-at-all", 9, item(0x42, b"K", b""), P=0)
    argon2_case("salt-of-7", 22, S=bytes(7))
    argon2_case("salt-of-65", 22, S=bytes(65))
    argon2_case("passes-0", 22, I=0)
    argon2_case("passes-65", 22, I=65)
    argon2_case("passes-2^32", 22, I=2**32 + 1)
    argon2_case("memory-8191", 22, M=8_191)
    argon2_case("memory-67108865", 22, M=67_108_865)
    argon2_case("lanes-0", 22, P=0)
    argon2_case("lanes-17", 22, P=17)
    argon2_case("memory-under-lanes", 22, M=131_071, P=16)


def custom(cases):
    def custom_case(name, d, expected, **changed):
        cases.case(f"custom-{name}", header(f12=d, **changed), expected)

    twice = dictionary(R, R)
    custom_case("empty", b"", 10)
    custom_case("no-end", dictionary(R, end=b""), 10)
    custom_case("version-2", dictionary(version=b"\x00\x02"), 10)
    custom_case("repeated-name", twice, 6)
    custom_case("broken-and-kdf-repeated-name", b"", 6, f11=dictionary(UUID, R, R, S))
    custom_case("broken-and-kdf-unlisted", b"", 9, f11=dictionary(item(0x42, b"$UUID", TWOFISH), R, S))
    custom_case("broken-and-kdf-outside", b"", 22, f11=argon2_dictionary(P=17))
    custom_case("broken-and-rounds-over", b"", 11, f11=rounds(4_000_001))
    custom_case("repeated-name-and-kdf-broken", twice, 10, f11=dictionary(R, S))


def field_places(cases):
    """The fields in another order, and fields behind others."""
    order = (11, 12, 7, 4, 3, 2)
    for id_, value, no in (
        (2, TWOFISH, 9), (3, number(1, 4), 9), (7, bytes(13), 5), (4, bytes(33), 5), (2, None, 8), (11, None, 8),
    ):
        data = header(order=order, f12=dictionary(), **{f"f{id_}": value})
        at = len(data) - 9 if no == 8 else data.index(field(id_, value))
        cases.case(f"reversed-{id_}-{no}", data, no, place=at)
    both = header(f2=TWOFISH, f3=number(1, 4), order=(3, 2, 4, 7, 11))
    cases.case("cipher-behind-compression", both, 9, place=both.index(field(2, TWOFISH)))
    first = field(7, bytes(12)) + field(12, dictionary())
    for name, more in (("seed", field(4, b"\x11" * 32)), ("custom", field(12, dictionary()))):
        data = header(f7=None, before=first + more + field(7, bytes(12)))
        cases.case(f"first-of-two-repeated-{name}", data, 6, place=len(header(f7=None, end=b"")) + len(first))
    cases.case("second-signature-last-byte", header(signatures=SIGNATURES[:7] + b"\xb4"), 3, place=4)
    front = header(f12=dictionary(R), end=b"")
    cases.case("end-bytes-behind-custom", front + field(0, bytes(4)), 5, 300, place=len(front))


def kdf_places(cases):
    """The dictionary's value begins at 101 where the fields stand as in the worked header."""
    def kdf_case(name, expected, i, *items):
        """`i` counts the item at fault from 0, or is None for the value's beginning."""
        place = 101 if i is None else 103 + sum(map(len, items[:i]))
        cases.case(f"kdf-place-{name}", header(f11=dictionary(*items)), expected, place=place)

    unlisted, short = item(0x42, b"$UUID", TWOFISH), item(0x42, b"$UUID", AES_KDF[:15])
    few, wrong_s, wrong_r = rounds_item(5_999), item(0x42, b"S", bytes(33)), item(0x04, b"R", bytes(4))
    kdf_case("uuid-last-short", 10, 2, R, S, short)
    kdf_case("uuid-last-as-string", 10, 2, R, S, item(0x18, b"$UUID", AES_KDF))
    kdf_case("uuid-last-unlisted", 9, 2, wrong_r, wrong_s, unlisted)
    kdf_case("no-uuid-wrong-items", 10, None, wrong_r, wrong_s)
    kdf_case("no-seed-wrong-rounds", 10, None, UUID, wrong_r)
    kdf_case("wrong-rounds-before-wrong-seed", 10, 2, UUID, wrong_r, wrong_s)
    kdf_case("few-first", 20, 0, few, S, UUID)
    kdf_case("over-behind-others", 11, 3, S, UUID, item(0x18, b"r", b"R"), rounds_item(4_000_001))
    kdf_case("broken-behind-few", 10, 3, UUID, few, S, item(0x08, b"", b""))
    last = header(order=(12, 2, 3, 4, 7, 11), f12=dictionary(few), f11=dictionary(UUID, few, S))
    cases.case("kdf-place-few-in-custom-too", last, 20, place=last.index(few, 105))


def argon2_places(cases):
    def argon2_case(name, expected, at, *more, **changed):
        """`at` is the item at fault, or None for the value's beginning."""
        data = header(f11=argon2_dictionary(*more, **changed))
        cases.case(f"argon2-place-{name}", data, expected, place=101 if at is None else data.index(at, 103))

    salt = item(0x42, b"S", bytes(65))
    secret, associated = item(0x42, b"K", b""), item(0x18, b"A", b"")
    version, i_0, p_0 = item(0x04, b"V", number(0x10, 4)), item(0x05, b"I", bytes(8)), item(0x04, b"P", bytes(4))
    wrong = {name: item(0x0C, name.encode(), bytes(4)) for name in "VSIMP"}
    argon2_case("K-then-A", 9, secret, secret, associated)
    argon2_case("A-then-K", 9, secret, associated, secret)
    argon2_case("version-behind-K", 9, version, secret, version, V=None)
    argon2_case("no-S-wrong-I", 10, None, wrong["I"], S=None, I=None)
    argon2_case("all-types-wrong", 10, wrong["V"], *wrong.values(), **dict.fromkeys("VSIMP"))
    argon2_case("types-wrong-but-V", 10, wrong["S"], *(wrong[name] for name in "PMIS"), **dict.fromkeys("SIMP"))
    argon2_case("types-wrong-M-P", 10, wrong["M"], wrong["P"], wrong["M"], P=None, M=None)
    argon2_case("figures-all", 22, salt, p_0, i_0, salt, **dict.fromkeys("PIS"), M=0)
    argon2_case("figures-but-S", 22, i_0, p_0, i_0, **dict.fromkeys("PI"), M=0)
    argon2_case("figures-M-P", 22, item(0x05, b"M", bytes(8)), p_0, P=None, M=0)
    little = item(0x05, b"M", number(16_383, 8))
    argon2_case("too-little-for-P", 22, little, item(0x08, b"m", b"\0"), little, M=None)


def tiny(*names):
    """Items of empty values."""
    return [item(0x42, name, b"") for name in names]


def repeated_places(cases):
    """The first repeated name that is met from the front, in a custom dictionary."""
    def repeated_case(name, i, items, end=b"\0"):
        """`i` counts the item at fault from 0."""
        place = len(header(end=b"")) + 5 + 2 + sum(map(len, items[:i]))
        cases.case(f"repeated-place-{name}", header(f12=dictionary(*items, end=end)), 6, place=place)

    repeated_case("second-name-first", 2, tiny(b"a", b"b", b"b", b"a"))
    repeated_case("inside-another", 3, tiny(b"a", b"b", b"c", b"b", b"a"))
    repeated_case("first-name-first", 2, tiny(b"a", b"b", b"a", b"b"))
    repeated_case("empty-names", 3, tiny(b"a", b"", b"ab", b"", b"a"))
    repeated_case("no-closing-byte", 2, tiny(b"a", b"b", b"a"), end=b"")
    names = [bytes([i]) for i in range(70)]
    repeated_case("70-last-of-first", 70, tiny(*names, names[0]))
    repeated_case("70-across-64", 68, tiny(*names[:68], names[3], *names[68:], names[2]))
    repeated_case("70-next-to-64", 65, tiny(*names[:65], names[64], names[0]))
    names = [bytes([i]) for i in range(256)] + [bytes([i, i]) for i in range(44)]
    repeated_case("300-last-of-first", 300, tiny(*names, names[0]))
    repeated_case("300-second-name-first", 280, tiny(*names[:280], names[150], *names[280:], names[7]))


def custom_places(cases):
    """Faults of the custom dictionary, which stands last or first; the KDF dictionary is sound."""
    least = item(0x18, b"x", b"")
    for name, d, no, at in (
        ("version", dictionary(R, version=b"\1\2"), 10, 0),
        ("no-closing-byte", dictionary(R, end=b""), 10, 0),
        ("bytes-behind", dictionary(R, end=b"\0\0"), 10, 0),
        ("type", dictionary(R, item(0x01, b"", b""), R), 10, 2 + len(R)),
        ("negative-name", dictionary(least, item(0x18, b"x", b"", -1)), 10, 2 + len(least)),
        ("cut-at-its-type", dictionary(least, b"\x18", end=b""), 10, 2 + len(least)),
        ("cut-in-its-value", dictionary(least, R[:-1], end=b""), 10, 2 + len(least)),
        ("size", dictionary(item(0x08, b"x", b""), least), 10, 2),
        ("repeated-name-second-type", dictionary(R, least, item(0x04, b"R", bytes(4))), 6, 2 + len(R) + len(least)),
    ):
        cases.case(f"custom-place-{name}", header(f12=d), no, place=len(header(end=b"")) + 5 + at)
    for name, d, no, at in (
        ("no-closing-byte", dictionary(least, end=b""), 10, 0),
        ("repeated", dictionary(least, least), 6, 2 + len(least)),
    ):
        first = header(f12=d, order=(12, 2, 3, 4, 7, 11))
        cases.case(f"custom-place-first-{name}", first, no, place=17 + at)


def changed(cases):
    """The worked header with one byte raised by one, for every third byte."""
    whole = header()
    for i in range(0, len(whole), 3):
        data = whole[:i] + number(whole[i] + 1, 1) + whole[i + 1 :]
        cases.case(f"changed-{i}", data, listing(data)[0])


def written(cases, folder):
    """The headers of other programs' vaults, each with the first bytes behind it."""
    for vault in vaults(folder):
        data = vault.file[: len(vault.header) + 16]
        assert listing(data) == listing(vault.file), vault.name
        cases.case(vault.name, data, listing(data)[0])


def looked(d, name):
    """What is told of a name in a dictionary: its number, and the line of the program."""
    try:
        kind, value, _ = sound_items(d).get(name, (None, b"", 0))
    except Refused as r:
        return r.no, f"none place {r.place} {r.no} \n"
    return 0, "none place 0 0 \n" if kind is None else f"found type {kind} 0 {value.hex()}\n"


def lookups():
    """Names looked up in dictionaries: name, dictionary, name in it, text."""
    text, empty, unnamed = item(0x18, b"text", b"on"), item(0x42, b"empty", b""), item(0x08, b"", b"\x01")
    sound = dictionary(text, empty, unnamed)
    cases = []
    for name, d, key, expected, said in (
        ("text", sound, b"text", 0, "found type 24 0 6f6e\n"),
        ("empty-value", sound, b"empty", 0, "found type 66 0 \n"),
        ("empty-name", sound, b"", 0, "found type 8 0 01\n"),
        ("absent", sound, b"tex", 0, "none place 0 0 \n"),
        ("absent-longer", sound, b"text2", 0, "none place 0 0 \n"),
        ("absent-in-the-least", dictionary(), b"", 0, "none place 0 0 \n"),
        ("name-is-another-value", sound, b"on", 0, "none place 0 0 \n"),
        ("broken-behind-the-name", dictionary(text, item(0x01, b"x", b"")), b"text", 10, None),
        ("broken-and-absent", dictionary(text, end=b""), b"x", 10, "none place 0 10 \n"),
        ("repeated-name", dictionary(text, empty, text), b"text", 6, None),
        ("repeated-other-name", dictionary(empty, text, empty), b"text", 6, None),
        ("empty-dictionary", b"", b"", 10, "none place 0 10 \n"),
    ):
        no, line = looked(d, key)
        assert no == expected and said in (None, line), (name, no, line)
        cases.append((f"lookup-{name}", d, key, line))
    return cases


def main(folder):
    crates = pathlib.Path(__file__).parent.parent / "crates"
    cases = Cases()
    accepted(cases)
    length_and_front(cases)
    fields(cases)
    after_the_end(cases)
    kdf(cases)
    few_rounds(cases)
    argon2(cases)
    custom(cases)
    for places in (field_places, kdf_places, argon2_places, repeated_places, custom_places):
        places(cases)
    changed(cases)
    written(cases, folder)
    found = lookups()
    names = [name for name, _, _, _ in [*cases, *found]]
    assert len(names) == len(set(names))
    table = "".join(f"{name} {text_field(data)} {length}\n" for name, data, length, _ in cases)
    table += "".join(f"{name} {text_field(d)} {len(d)} {text_field(key)}\n" for name, d, key, _ in found)
    out = "".join(f"{name}\n{text}" for name, _, _, text in [*cases, *found])
    assert len(table) <= 262_144
    (crates / "vectors_header" / "stdin").write_text(table)
    (crates / "vectors_header" / "stdout").write_text(out)
    for program, data, expected in (
        ("list", header().ljust(PROGRAM_LIMIT, b"\0"), 0),
        ("list_refused", header(f11=rounds(1)), 20),
        ("list_too_long", header().ljust(PROGRAM_LIMIT + 1, b"\0"), 1),
    ):
        no, _, text = listing(data)
        assert no == expected, program
        (crates / program / "stdin").write_bytes(data)
        (crates / program / "stdout").write_text(text)


if len(sys.argv) != 2:
    sys.exit(__doc__)
main(pathlib.Path(sys.argv[1]))
