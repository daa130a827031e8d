"""Cases of the outer header, its listing and dictionaries.

The numbers and places are told by hand, from documents 01 and 02, and compared with the model's (header_model.py); the
worked listing stands here as document 01 has it, with the rounds of document 02's Item 3. What the headers of other
programs' vaults say is the manifest's, or read from the fields.
"""
from case_list import KDF_SEED, NONCE, ROUNDS, SEED, field
from digests import must
from vectors_writer import AES, AES_KDF, CHACHA20, CUSTOM, DICTIONARIES, ITEM, dictionary, header_of, item, le


def kdf(uuid=AES_KDF, rounds=ROUNDS, seed=KDF_SEED, more=b""):
    return dictionary(item(0x42, b"$UUID", uuid), item(5, b"R", le(rounds, 8)), item(0x42, b"S", seed), more)


UUID, R, S = item(0x42, b"$UUID", AES_KDF), item(5, b"R", le(ROUNDS, 8)), item(0x42, b"S", KDF_SEED)
# The header of document 01's worked listing.
FIELDS = {2: CHACHA20, 3: bytes(4), 4: SEED, 7: NONCE[:12], 11: kdf()}
FRONT = bytes.fromhex("03D9A29A67FB4BB501000400")
END = field(0, b"\r\n\r\n")
LISTING = """\
03D9A29A67FB4BB501000400
0210000000D6038A2B8B6F4CB5A524339A31DBB59A
030400000000000000
04200000001111111111111111111111111111111111111111111111111111111111111111
070C000000222222222222222222222222
0B5D00000000014205000000245555494410000000C9D9F39A628A4460BF740D08C18A4FEA05010000005208000000701700000000000042010000\
005320000000333333333333333333333333333333333333333333333333333333333333333300
00040000000D0A0D0A
"""


def header(front=FRONT, more=b"", end=END, **changed):
    """The worked header; f2=VALUE replaces field 2, None leaves it out; `more` stands in front of the end field."""
    values = FIELDS | {int(name[1:]): value for name, value in changed.items()}
    return front + b"".join(field(id_, value) for id_, value in values.items() if value is not None) + more + end


def spans(head):
    """The places of a header's fields, by ID."""
    found, at = {}, 12
    while 0 not in found:
        size = int.from_bytes(head[at + 1 : at + 5], "little")
        found[head[at]] = [at + 5, size]
        at += 5 + size
    must(at == len(head), "header")
    return found


def aes_kdf(head, rounds):
    """AES-KDF with the S of a header."""
    start, size = spans(head)[11]
    seed_at = head.index(bytes.fromhex("42010000005320000000"), start, start + size) + 10
    return {"kind": "aeskdf", "S": head[seed_at : seed_at + 32], "R": rounds}


def figures(head, minor, cipher, said):
    """What is answered of a header; `said` is what it says of its KDF."""
    places = spans(head)
    value = {id_: head[start : start + size] for id_, (start, size) in places.items()}
    must(value[2] == {"aes": AES, "chacha": CHACHA20}[cipher], cipher)
    return {
        "minor": minor,
        "cipher": cipher,
        "length": len(head),
        "seed": value[4],
        "nonce": value[7],
        "kdf": said,
        "kdf_span": places[11],
        "custom_span": places.get(12),
    }


# What is wrong with a header: its number, its place, and the header. The worked header has its fields at 12, 33, 42,
# 79, 96 and 194; its KDF dictionary's value begins at 101, and the items of that stand at 103, 133 and 151.
WRONG_HEADERS = {
    "empty": (2, 0, b""),
    "eleven bytes": (2, 11, b"anything at"),
    "no field": (2, 12, FRONT),
    "cut in a value": (2, 60, header()[:60]),
    "cut before its last byte": (2, 202, header()[:-1]),
    "custom of 7FFFFFFF": (2, 199, header(end=field(12, b"", 0x7FFFFFFF))),
    "first signature": (3, 0, header(front=bytes(4) + FRONT[4:])),
    "second signature": (3, 4, header(front=FRONT[:4] + FRONT[:4] + FRONT[8:])),
    "signature and version": (3, 0, header(front=bytes(12))),
    "version 4.2": (4, 8, header(front=FRONT[:8] + le(0x40002, 4))),
    "version 3.1": (4, 8, header(front=FRONT[:8] + le(0x30001, 4))),
    "custom of FFFFFFFF": (5, 194, header(end=field(12, b"", -1))),
    "seed of 31": (5, 42, header(f4=SEED[:31])),
    "end bytes": (5, 194, header(end=field(0, b"\r\n\r\0"))),
    "end bytes behind a custom dictionary": (5, 202, header(f12=dictionary(), end=field(0, b"\n\n\r\n"))),
    "end of size 0": (5, 194, header(end=field(0, b""))),
    "nonce of the other cipher": (5, 79, header(f7=NONCE)),
    "second seed": (6, 194, header(more=field(4, SEED))),
    "second seed of wrong size": (6, 194, header(more=field(4, b""))),
    "second cipher, then second seed": (6, 199, header(more=field(12, b"") + field(2, AES) + field(4, SEED))),
    "second name in the KDF dictionary": (6, 193, header(f11=kdf(more=item(4, b"R", bytes(4))))),
    "two second names in the KDF dictionary": (6, 193, header(f11=kdf(more=item(4, b"S", bytes(4)) + R))),
    "second name in the custom dictionary": (6, 219, header(f12=DICTIONARIES["repeated"][1])),
    "field 1": (7, 194, header(more=field(1, b""))),
    "no nonce": (8, 177, header(f7=None)),
    "no KDF, unlisted cipher": (8, 96, header(f11=None, f2=bytes(16))),
    "unlisted cipher": (9, 12, header(f2=bytes(16))),
    "compressed": (9, 33, header(f3=le(1, 4))),
    "compressed, nonce of the other cipher": (9, 33, header(f3=le(1, 4), f7=NONCE)),
    "compressed, unlisted cipher last": (9, 173, header(f2=None, f3=le(1, 4), more=field(2, bytes(16)))),
    "compressed, first": (9, 12, header(front=FRONT + field(3, le(1, 4)), f3=None)),
    "unlisted KDF": (9, 103, header(f11=kdf(uuid=bytes(16)))),
    "no KDF identifier": (10, 101, header(f11=dictionary(R, S))),
    "KDF identifier of 15": (10, 103, header(f11=kdf(uuid=AES_KDF[:15]))),
    "KDF identifier a string": (10, 163, header(f11=dictionary(R, S, item(0x18, b"$UUID", AES_KDF)))),
    "no KDF seed, rounds a UInt32": (10, 101, header(f11=dictionary(UUID, item(4, b"R", bytes(4))))),
    "no rounds": (10, 101, header(f11=dictionary(UUID, S))),
    "rounds a UInt32": (10, 133, header(f11=dictionary(UUID, item(4, b"R", bytes(4)), S))),
    "KDF seed of 31": (10, 151, header(f11=kdf(seed=bytes(31)))),
    "KDF dictionary of version 2": (10, 101, header(f11=b"\0\2" + kdf()[2:])),
    "KDF dictionary without its last byte": (10, 101, header(f11=kdf()[:-1])),
    "custom of size 0": (10, 199, header(f12=b"")),
    "custom with a byte behind": (10, 199, header(f12=dictionary(ITEM) + b"\0")),
    "custom item cut": (10, 219, header(f12=dictionary(ITEM, ITEM[:3])[:-1])),
    "custom item unlisted": (10, 219, header(f12=dictionary(ITEM, item(1, b"", b"")))),
    "rounds over": (11, 133, header(f11=kdf(rounds=4_000_001))),
    "rounds over, custom broken": (11, 133, header(f11=kdf(rounds=4_000_001), f12=b"")),
    "rounds 5,999": (20, 133, header(f11=kdf(rounds=5_999))),
    "one round": (20, 133, header(f11=kdf(rounds=1))),
    "AES, no rounds": (20, 137, header_of(0, AES, SEED, NONCE, KDF_SEED, 0, b"")),
    "one round, custom broken": (20, 133, header(f11=kdf(rounds=1), f12=b"")),
    "one round, custom name twice": (20, 133, header(f11=kdf(rounds=1), f12=DICTIONARIES["repeated"][1])),
    "one round, KDF seed of 31": (10, 151, header(f11=kdf(rounds=1, seed=bytes(31)))),
    "one round, nonce of the other cipher": (5, 79, header(f11=kdf(rounds=1), f7=NONCE)),
}
LISTED = (
    "empty", "eleven bytes", "second signature", "version 4.2", "two second names in the KDF dictionary", "no nonce",
    "custom item cut", "rounds over", "rounds 5,999", "one round",
)


# What is at fault in the vaults that are refused: the first bytes of a field or an item.
FAULTS = {
    "unpatched-aes": bytes(5),
    "rounds-4000001": item(5, b"R", le(4_000_001, 8)),
    "argon-i65": item(5, b"I", le(65, 8)),
    "argon-salt65": item(0x42, b"S", b"", value_size=65),
}


def place_of(vault):
    """The place with which a vault's header is refused."""
    return vault.header.rindex(FAULTS[vault.name])


def headers(cases, entries):
    must(len(header()) == 203 and len(FIELDS[11]) == 93, "worked lengths")
    worked = figures(header(), 1, "chacha", aes_kdf(header(), ROUNDS))
    cases.add("header", "worked", worked, data=header())
    cases.add("header", "worked, bytes behind", worked, data=header() + b"behind")
    most = header(f11=kdf(rounds=4_000_000))
    cases.add("header", "most rounds", figures(most, 1, "chacha", aes_kdf(most, 4_000_000)), data=most)
    aes = header_of(0, AES, SEED, NONCE, KDF_SEED, ROUNDS, b"")
    must(len(aes) == 207, "AES header")
    cases.add("header", "AES", figures(aes, 0, "aes", aes_kdf(aes, ROUNDS)), data=aes)
    for name, (no, place, data) in WRONG_HEADERS.items():
        cases.add("header", name, (no, place), data=data)
    cases.add("list", "worked", {"text": LISTING}, data=header() + b"behind")
    for name in LISTED:
        no, place, data = WRONG_HEADERS[name]
        cases.add("list", name, {"text": f"R{no:02} {place}\n"}, data=data)
    for vault, entry in entries:
        if "expect" in entry:
            cases.add("header", vault.name, (entry["expect"], place_of(vault)), data=vault.header)
            continue
        rounds = int.from_bytes(vault.kdf[b"R"], "little")
        must(rounds == entry.get("R", rounds), vault.name)
        said = figures(vault.header, int(entry["version"][2:]), entry["cipher"], aes_kdf(vault.header, rounds))
        cases.add("header", vault.name, said, data=vault.header)


# The places with which the broken ones of DICTIONARIES are refused: their beginning, or an item.
PLACES = dict.fromkeys(("one-byte", "no-end", "version-2", "behind-end"), 0)
PLACES |= dict.fromkeys(("unknown-type", "wrong-size", "negative-name", "negative-value", "value-cut"), 2)
PLACES |= dict.fromkeys(("repeated", "repeated-then-broken", "broken-then-repeated"), 20)
A, B = item(0x18, b"a", b""), item(0x18, b"b", b"")
MANY = [item(0x42, bytes([i]), b"") for i in range(80)]
# Further dictionaries: number, place, and the dictionary. ITEM has 18 bytes, A, B and each of MANY 10.
WRONG_DICTIONARIES = {
    "no bytes": (10, 0, b""),
    "item behind the closing byte": (10, 0, dictionary() + ITEM),
    "sound items, no closing byte": (10, 0, dictionary(ITEM, A)[:-1]),
    "item of a type byte": (10, 20, dictionary(ITEM, b"\x18")[:-1]),
    "name cut": (10, 20, dictionary(ITEM, ITEM[:6])[:-1]),
    "value cut by one": (10, 20, dictionary(ITEM, ITEM)[:-2]),
    "size, then unlisted": (10, 12, dictionary(A, item(8, b"x", b""), item(1, b"y", b""))),
    "a, b, b, a": (6, 22, dictionary(A, B, B, A)),
    "a, b, a, b": (6, 22, dictionary(A, B, A, B)),
    "b, name, b": (6, 30, dictionary(B, ITEM, B)),
    "81st of the first's name": (6, 802, dictionary(*MANY, MANY[0])),
    "70th of the fifth's name, then others": (6, 692, dictionary(*MANY[:69], MANY[4], *MANY[69:], MANY[1])),
}


def dictionaries(cases):
    for name, (no, data) in DICTIONARIES.items():
        answer = (no, PLACES[name]) if no else 0
        cases.add("dict", name, answer, data=data)
        if no:
            cases.add("lookup", name, answer, data=data, name=b"name")
    for name, (no, place, data) in WRONG_DICTIONARIES.items():
        cases.add("dict", name, (no, place), data=data)
        cases.add("lookup", name, (no, place), data=data, name=b"name")
    cases.add("dict", "all types", 0, data=CUSTOM)
    for name, value in ((b"name", b"value"), (b"u32", le(7, 4)), (b"bool", b"\1"), (b"i64", b"\xff" * 8)):
        at = CUSTOM.index(le(len(name), 4) + name + le(len(value), 4)) + 8 + len(name)
        found = {"found": True, "at": at, "size": len(value), "value": value}
        cases.add("lookup", name.decode(), found, data=CUSTOM, name=name)
    empty = {"found": True, "at": len(CUSTOM) - 1, "size": 0, "value": b""}
    cases.add("lookup", "empty name and value", empty, data=CUSTOM, name=b"")
    for name in (b"nam", b"name\0", b"value"):
        cases.add("lookup", f"no {name}", {"found": False}, data=CUSTOM, name=name)
    cases.add("lookup", "none in the least dictionary", {"found": False}, data=dictionary(), name=b"")
    cases.add("lookup", "sound, then broken", (10, 0), data=dictionary(ITEM)[:-1], name=b"name")


def add_all(cases, entries):
    headers(cases, entries)
    dictionaries(cases)
