"""Cases of Argon2 vaults (document 02, Item 6): headers, their listing, runs, and vaults opened and written.

The numbers, places and the dictionary in the listing are told by hand, from document 02. T is that of the package
cryptography, which is OpenSSL and gives RFC 9106's tags here, or a manifest's; payloads of other programs' vaults are
decrypted by it. Files to be written are joined here.
"""
from case_list import LARGE, NAMES, NONCE, NONCES, ROUNDS, SEED, T
from cases_headers import FRONT, figures, header, kdf, place_of
from cases_vaults import block, ciphertext, no_step, steps_of, tag_of
from cryptography.hazmat.primitives.kdf.argon2 import Argon2d, Argon2id
from digests import must, sha256
from header_model import ARGON2D, ARGON2ID
from messages import pattern
from payloads import payload_of
from vectors_writer import AES, AES_KDF, CUSTOM, DICTIONARIES, dictionary, item, le

VARIANTS = {"argon2d": Argon2d, "argon2id": Argon2id}
IDENTIFIERS = {"argon2d": ARGON2D, "argon2id": ARGON2ID}
LEAST_MEMORY, MOST_MEMORY = 8_192, 67_108_864
SOUND = {"kind": "argon2id", "V": 0x13, "S": b"\x33" * 32, "I": 2, "M": 1_048_576, "P": 2}
LEAST = SOUND | {"S": pattern(8), "I": 1, "M": LEAST_MEMORY, "P": 1}
MOST = SOUND | {"kind": "argon2d", "S": pattern(64), "I": 64, "M": MOST_MEMORY, "P": 16}
WRITTEN = ("$UUID", "I", "M", "P", "S", "V")
NUMBERS = {"V": (0x04, 4), "I": (0x05, 8), "M": (0x05, 8), "P": (0x04, 4)}


def items(figures_):
    """The items of Argon2, by name."""
    made = {"$UUID": item(0x42, b"$UUID", IDENTIFIERS[figures_["kind"]]), "S": item(0x42, b"S", figures_["S"])}
    numbers = {name: (type_, le(figures_[name], size)) for name, (type_, size) in NUMBERS.items()}
    return made | {name: item(type_, name.encode(), value) for name, (type_, value) in numbers.items()}


def argon2(order=WRITTEN, more=b"", items_=None, **changed):
    """A dictionary of Argon2; `items_` replaces items, and None leaves one out."""
    found = items(SOUND | changed) | (items_ or {})
    return dictionary(*(found[name] for name in order if found[name] is not None), more)


# ----- headers

# The worked header of document 01 with the dictionary of SOUND.
LISTING = """\
03D9A29A67FB4BB501000400
0210000000D6038A2B8B6F4CB5A524339A31DBB59A
030400000000000000
04200000001111111111111111111111111111111111111111111111111111111111111111
070C000000222222222222222222222222
0B8B000000\
00014205000000245555494410000000\
9E298B1956DB4773B23DFC3EC6F0A1E6\
050100000049080000000200000000000000\
05010000004D080000000000100000000000\
0401000000500400000002000000\
420100000053200000003333333333333333333333333333333333333333333333333333333333333333\
0401000000560400000013000000\
00
00040000000D0A0D0A
"""
SECRET, ASSOCIATED = item(0x42, b"K", b""), item(0x42, b"A", b"")
# Dictionaries that are refused, with the number and the place in the worked header. The dictionary's value begins at
# 101 there, its items stand at 103, 133, 151, 169, 183 and 225, and what is more at 239.
WRONG = {
    "V absent": (10, 101, argon2(items_={"V": None})),
    "S absent": (10, 101, argon2(items_={"S": None})),
    "I absent": (10, 101, argon2(items_={"I": None})),
    "M absent": (10, 101, argon2(items_={"M": None})),
    "P absent": (10, 101, argon2(items_={"P": None})),
    "V a UInt64": (10, 225, argon2(items_={"V": item(0x05, b"V", le(0x13, 8))})),
    "S a string": (10, 183, argon2(items_={"S": item(0x18, b"S", SOUND["S"])})),
    "I an Int64": (10, 133, argon2(items_={"I": item(0x0D, b"I", le(2, 8))})),
    "M a UInt32": (10, 151, argon2(items_={"M": item(0x04, b"M", le(1_048_576, 4))})),
    "P an Int32": (10, 169, argon2(items_={"P": item(0x0C, b"P", le(2, 4))})),
    "P absent, V 0x10, K, no salt": (10, 101, argon2(items_={"P": None}, V=0x10, S=b"", more=SECRET)),
    "S absent, I an Int64": (10, 101, argon2(items_={"S": None, "I": item(0x0D, b"I", le(2, 8))})),
    "all of wrong type": (10, 177, argon2(items_={name: item(8, name.encode(), b"\0") for name in "IMPSV"})),
    "all but V of wrong type": (10, 166, argon2(items_={name: item(8, name.encode(), b"\0") for name in "IMPS"})),
    "M and P of wrong type": (10, 151, argon2(items_={name: item(8, name.encode(), b"\0") for name in "MP"})),
    "the items of AES-KDF": (10, 101, kdf(uuid=IDENTIFIERS["argon2d"])),
    "AES-KDF's identifier": (10, 101, argon2(items_={"$UUID": item(0x42, b"$UUID", AES_KDF)})),
    "S twice": (6, 239, argon2(more=item(0x42, b"S", b""))),
    "V 0x10": (9, 225, argon2(V=0x10)),
    "V 0x113": (9, 225, argon2(V=0x113)),
    "K empty": (9, 239, argon2(more=SECRET)),
    "K, A": (9, 239, argon2(more=SECRET + ASSOCIATED)),
    "A, K": (9, 249, argon2(more=ASSOCIATED + SECRET)),
    "K, V 0x10 behind it": (9, 235, argon2(items_={"V": None}, more=SECRET + item(0x04, b"V", le(0x10, 4)))),
    "A a Bool": (9, 239, argon2(more=item(0x08, b"A", b"\0"))),
    "V 0x10, I 0": (9, 225, argon2(V=0x10, I=0)),
    "A, salt of 7": (9, 214, argon2(S=bytes(7), more=item(0x42, b"A", b"a"))),
    "salt of 7": (22, 183, argon2(S=bytes(7))),
    "salt of 65": (22, 183, argon2(S=bytes(65))),
    "I 0": (22, 133, argon2(I=0)),
    "I 65": (22, 133, argon2(I=65)),
    "I 2^32+1": (22, 133, argon2(I=2**32 + 1)),
    "M 8191": (22, 151, argon2(M=LEAST_MEMORY - 1, P=1)),
    "M over": (22, 151, argon2(M=MOST_MEMORY + 1)),
    "M 2^32+2^20": (22, 151, argon2(M=2**32 + 2**20)),
    "P 0": (22, 169, argon2(P=0)),
    "P 17": (22, 169, argon2(P=17)),
    "P 2^32-1": (22, 169, argon2(P=2**32 - 1)),
    "salt of 7, I 0, M 0, P 0": (22, 183, argon2(S=bytes(7), I=0, M=0, P=0)),
    "P 0, M 0, I 0": (22, 133, argon2(I=0, M=0, P=0)),
    "P 0, M 0": (22, 151, argon2(M=0, P=0)),
    "M too little for P": (22, 151, argon2(M=16 * LEAST_MEMORY - 1, P=16)),
}


def headers(cases):
    for name, data, said in (
        ("as written", argon2(), SOUND),
        ("least figures", argon2(**LEAST), LEAST),
        ("most figures", argon2(**MOST), MOST),
        ("just the memory for 16 lanes", argon2(M=131_072, P=16), SOUND | {"M": 131_072, "P": 16}),
        ("V first, $UUID last", argon2(order=("V", "S", "I", "M", "P", "$UUID")), SOUND),
        ("other items", argon2(more=item(0x08, b"R", b"\1") + item(0x42, b"k", b"")), SOUND),
    ):
        head = header(f11=data)
        cases.add("header", f"Argon2, {name}", figures(head, 1, "chacha", said), data=head)
    aes_kdf = header(f11=kdf(more=item(0x42, b"K", b"") + item(0x04, b"A", bytes(4)) + item(0x04, b"V", le(0x10, 4))))
    said = {"kind": "aeskdf", "S": b"\x33" * 32, "R": ROUNDS}
    cases.add("header", "AES-KDF with K, A and V", figures(aes_kdf, 1, "chacha", said), data=aes_kdf)
    for name, (no, place, data) in WRONG.items():
        cases.add("header", f"Argon2, {name}", (no, place), data=header(f11=data))
    cases.add("header", "Argon2, I 65, custom broken", (22, 133), data=header(f11=argon2(I=65), f12=b""))
    cases.add("header", "Argon2, I 65, nonce of the other cipher", (5, 79), data=header(f11=argon2(I=65), f7=NONCE))
    cases.add("header", "Argon2, custom broken", (10, 245), data=header(f11=argon2(), f12=b"\0"))
    cases.add("list", "Argon2", {"text": LISTING}, data=header(f11=argon2()))
    cases.add("list", "Argon2, I 65", {"text": "R22 133\n"}, data=header(f11=argon2(I=65)))


def vault_headers(cases, entries):
    for vault, entry in entries:
        if "expect" in entry:
            cases.add("header", vault.name, (entry["expect"], place_of(vault)), data=vault.header)
            continue
        said = figures(vault.header, int(entry["version"][2:]), entry["cipher"], entry["figures"])
        cases.add("header", vault.name, said, data=vault.header)


# ----- runs

RFC_9106 = {
    "argon2d": "512b391b6f1162975371d30919734294f868e3be3984f3c1a13a4db9fabe4acb",
    "argon2id": "0d640df58d78766c08c037a34a8b53c9d01ef0452d75b65eb52520e96b01e659",
}
RFC_INPUTS = {"composite": b"\1" * 32, "S": b"\2" * 16, "I": 3, "M": 32_768, "P": 4}


def t_of(kind, composite, figures_, **more):
    """T, or RFC 9106's tag with the secret and associated data of `more`."""
    cost = {"iterations": figures_["I"], "lanes": figures_["P"], "memory_cost": figures_["M"] // 1024}
    return VARIANTS[kind](salt=figures_["S"], length=32, **cost, **more).derive(composite)


def run(cases, name, kind, asked, t=None, **more):
    """A run; T is compared with `t`."""
    given = t_of(kind, asked["composite"], asked)
    must(t is None or t == given, name)
    cases.add("argon2", f"{kind} {name}", {"T": given}, kind=kind, **asked | more)


def runs(cases, entries):
    for kind, tag in RFC_9106.items():
        must(t_of(kind, b"\1" * 32, RFC_INPUTS, secret=b"\3" * 8, ad=b"\4" * 12).hex() == tag, kind)
        run(cases, "RFC 9106 without secret and data", kind, RFC_INPUTS)
        run(cases, "just the words", kind, RFC_INPUTS, lent=128 * 32)
        run(cases, "all words", kind, RFC_INPUTS, lent=LARGE)
        cases.add("argon2", f"{kind} one word less", 17, kind=kind, **RFC_INPUTS, lent=128 * 32 - 1)
        # Document 02's readings: 28 KiB and 3 lanes are 24 blocks, and the first figure stays in the hash.
        odd = RFC_INPUTS | {"M": 29_576, "P": 3}
        run(cases, "24 blocks of 28", kind, odd, lent=128 * 24)
        cases.add("argon2", f"{kind} 24 blocks, one word less", 17, kind=kind, **odd, lent=128 * 24 - 1)
        run(cases, "least", kind, RFC_INPUTS | {"S": pattern(8), "I": 1, "M": LEAST_MEMORY, "P": 1}, lent=128 * 8)
        run(cases, "most passes and salt", kind, RFC_INPUTS | {"S": pattern(64), "I": 64, "M": 9_999, "P": 1})
        run(cases, "most lanes", kind, RFC_INPUTS | {"I": 2, "M": 131_072 + 65_535, "P": 16})
        run(cases, "segments past 128 blocks", kind, RFC_INPUTS | {"I": 2, "M": 1_100_000, "P": 2})
    for vault, entry in entries:
        if entry.get("figures", {}).get("M", MOST_MEMORY) < MOST_MEMORY:
            asked = {name: entry["figures"][name] for name in "IMP"} | {"S": vault.kdf[b"S"]}
            run(cases, vault.name, entry["kdf"], asked | {"composite": vault.composite}, vault.t)


def wrong_runs(cases):
    for no, name, changed in (
        (22, "salt of 7", {"S": bytes(7)}),
        (22, "salt of 65", {"S": bytes(65)}),
        (22, "no salt, no words", {"S": b"", "lent": 0}),
        (22, "I 0", {"I": 0}),
        (22, "I 65", {"I": 65}),
        (22, "I 2^32+1", {"I": 2**32 + 1}),
        (22, "M 8191", {"M": LEAST_MEMORY - 1, "P": 1}),
        (22, "M over", {"M": MOST_MEMORY + 1, "lent": 9}),
        (22, "M 2^32+2^20", {"M": 2**32 + 2**20, "lent": 9}),
        (22, "P 0", {"P": 0}),
        (22, "P 17", {"P": 17, "M": 1_048_576}),
        (22, "P 2^30, no words", {"P": 2**30, "lent": 0}),
        (22, "M too little for P", {"M": 32_767}),
        (22, "all past, no words", {"I": LARGE, "M": LARGE, "P": 2**32 - 1, "lent": 0}),
        (17, "no words", {"lent": 0}),
        (17, "most memory, few words", {"I": 64, "M": MOST_MEMORY, "P": 16, "lent": 1000}),
        (9, "AES-KDF", {"kind": "aeskdf"}),
        (9, "KDF 3, salt of 7, no words", {"kind": 3, "S": bytes(7), "lent": 0}),
    ):
        cases.add("argon2", name, no, **{"kind": "argon2d"} | RFC_INPUTS | changed)
    for wrong in ('"kind": "argon2i", "P": 1', '"kind": "argon2d", "P": 4294967296', '"kind": "argon2d"'):
        figures_ = f'"composite": "{"00" * 32}", "S": "{"00" * 8}", "I": 1, "M": 8192'
        cases.error('{"op": "argon2", %s, %s}' % (figures_, wrong))


# ----- vaults


OPENED = ("v40-aes-argon2d-empty", "py-v41-chacha-argon2id-kf32", "argon-min")


def openings(cases, entries):
    for vault, entry in entries:
        if "expect" in entry:
            answer = entry["expect"], place_of(vault)
            cases.add("open", vault.name, answer, data=vault.file[:2_000], T=T)
            cases.add("steps", vault.name, answer, data=vault.file[:2_000], T=T, lents=[LARGE])
        if vault.name not in OPENED:
            continue
        payload = payload_of(vault)
        must(sha256(payload).hex() == entry["payload_sha256"], vault.name)
        answer = {"length": entry["payload_length"], "payload": payload}
        cases.add("open", vault.name, answer, data=vault.file, T=vault.t)
        if entry["figures"]["M"] == LEAST_MEMORY:
            told = steps_of(vault.fields[2], payload, entry["blocks"]) + [no_step(19)]
            cases.add("steps", vault.name, {"steps": told}, data=vault.file, T=vault.t, lents=[LARGE] * len(told))


def file_of(cipher, minor, said, custom, payload):
    """The file of these figures: the fields 2, 3, 4, 7, 11, 12, 0, and one data block."""
    fields = {"f2": cipher, "f7": NONCES[cipher], "f11": argon2(**said)} | ({"f12": custom} if custom else {})
    head = header(front=FRONT[:8] + le(minor, 2) + FRONT[10:], **fields)
    text = ciphertext(cipher, payload)
    return head + sha256(head) + tag_of(2**64 - 1, head) + block(0, text) + block(1)


def asked_of(cipher, said, minor=1, custom=b"", payload=pattern(33)):
    """A request to write, and the file."""
    asked = {"minor": minor, "cipher": NAMES[cipher], "seed": SEED, "nonce": NONCES[cipher], "T": T, "data": payload}
    asked["kdf"] = {name: said[name] for name in ("kind", "S", "I", "M", "P")}
    file = file_of(cipher, minor, said, custom, payload)
    return asked | ({"custom": custom} if custom else {}), {"length": len(file), "file": file}


def written(cases):
    for cipher, name in NAMES.items():
        for said, what in ((SOUND, "Argon2id"), (LEAST, "least Argon2id"), (MOST, "most Argon2d")):
            asked, answer = asked_of(cipher, said)
            cases.add("write", f"{name} {what}", answer, **asked)
        asked, answer = asked_of(cipher, SOUND | {"kind": "argon2d"}, 0, CUSTOM)
        cases.add("write", f"{name} Argon2d custom", answer, **asked)
        cases.add("write", f"{name} Argon2d just room", answer, **asked, lent=answer["length"])
        cases.add("write", f"{name} Argon2d no room", 17, **asked, lent=answer["length"] - 1)


def wrong_writes(cases):
    asked, _ = asked_of(AES, SOUND)
    said, repeated = asked["kdf"], DICTIONARIES["repeated"][1]
    for no, name, changed in (
        (22, "salt of 7", {"kdf": said | {"S": bytes(7)}}),
        (22, "salt of 65", {"kdf": said | {"S": bytes(65)}}),
        (22, "I 0", {"kdf": said | {"I": 0}}),
        (22, "I 65", {"kdf": said | {"I": 65}}),
        (22, "I 2^64-1, custom broken, no room", {"kdf": said | {"I": LARGE}, "custom": b"\0", "lent": 0}),
        (22, "M 8191", {"kdf": said | {"M": LEAST_MEMORY - 1, "P": 1}}),
        (22, "M over", {"kdf": said | {"M": MOST_MEMORY + 1}}),
        (22, "P 0", {"kdf": said | {"P": 0}}),
        (22, "P 17", {"kdf": said | {"P": 17}}),
        (22, "M too little for P, custom name twice", {"kdf": said | {"M": 16_383}, "custom": repeated}),
        (5, "nonce of 12, I 65", {"kdf": said | {"I": 65}, "nonce": NONCE[:12]}),
        (5, "seed of 31, salt of 65", {"kdf": said | {"S": bytes(65)}, "seed": SEED[:31]}),
        (9, "KDF 3, seed of 31", {"kdf": said | {"kind": 3}, "seed": SEED[:31]}),
        (9, "KDF 2^32-1, salt of 65", {"kdf": said | {"kind": 2**32 - 1, "S": bytes(65)}}),
        (4, "minor 2, KDF 3", {"kdf": said | {"kind": 3}, "minor": 2}),
        (10, "custom broken", {"custom": b"\0"}),
    ):
        cases.add("write", f"Argon2, {name}", no, **asked | changed)


def add_all(cases, entries):
    must(len(argon2()) == 139 and dictionary(*items(SOUND).values()) != argon2(), "the dictionary")
    headers(cases)
    vault_headers(cases, entries)
    runs(cases, entries)
    wrong_runs(cases)
    openings(cases, entries)
    written(cases)
    wrong_writes(cases)
