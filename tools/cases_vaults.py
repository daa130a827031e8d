"""Cases of opening and writing vaults.

The numbers, the places, and what each step hands over, are told by hand, from documents 01 and 02. Payloads and blocks
of other programs' vaults are the manifest's, decrypted by the package cryptography, which is OpenSSL. Files to be
written come from the writer that vectors_writer.py has of its own.
"""
import hmac

from case_list import KDF_SEED, LARGE, NAMES, NONCE, NONCES, ROUNDS, SEED, T
from digests import must, sha256, sha512
from cryptography.hazmat.primitives.ciphers import Cipher, algorithms, modes
from header_model import FILE_LIMIT
from messages import pattern
from payloads import payload_of
from vectors_writer import AES, CHACHA20, CUSTOM, DICTIONARIES, encrypted, header_of, le, write


def tag_of(i, *parts):
    return hmac.digest(sha512(le(i, 8), sha512(SEED, T, b"\1")), b"".join(parts), "sha256")


def block(i, data=b"", size=None):
    size = le((len(data) if size is None else size) % 2**32, 4)
    return tag_of(i, le(i, 8), size, data) + size + data


def front(cipher, rounds=ROUNDS, custom=b""):
    head = header_of(1, cipher, SEED, NONCES[cipher], KDF_SEED, rounds, custom)
    return head + sha256(head) + tag_of(2**64 - 1, head)


def ciphertext(cipher, payload):
    return encrypted(cipher, sha256(SEED, T), NONCES[cipher], payload)


def cbc(plain):
    """AES ciphertext of whole blocks as they stand."""
    mode = Cipher(algorithms.AES(sha256(SEED, T)), modes.CBC(NONCE)).encryptor()
    return mode.update(plain) + mode.finalize()


def sealed(cipher, text, *sizes, rounds=ROUNDS):
    """A vault of this ciphertext in blocks of these sizes."""
    blocks, at = [], 0
    for i, size in enumerate(sizes):
        blocks.append(block(i, text[at : at + size]))
        at += size
    must(at == len(text), "sizes")
    return front(cipher, rounds) + b"".join(blocks) + block(len(sizes))


def flipped(data, at):
    at %= len(data)
    return data[:at] + bytes([data[at] ^ 1]) + data[at + 1 :]


def damaged_vaults():
    """Vaults that are refused, by name, with the number and the place."""
    whole = sealed(CHACHA20, ciphertext(CHACHA20, b"payload"), 7)
    n = len(front(CHACHA20))
    return {
        "empty": (2, 0, b""),
        "signature": (3, 0, flipped(whole, 0)),
        "second signature": (3, 4, flipped(whole, 7)),
        "version": (4, 8, flipped(whole, 8 + 1)),
        "end bytes": (5, 194, flipped(whole, n - 65)),
        "second name in the custom dictionary": (6, 219, front(CHACHA20, custom=DICTIONARIES["repeated"][1])),
        "custom broken": (10, 199, front(CHACHA20, custom=b"\0\2\0")),
        "rounds 5,999": (20, 133, sealed(CHACHA20, ciphertext(CHACHA20, b"payload"), 7, rounds=5_999)),
        "one round": (20, 137, sealed(AES, ciphertext(AES, b"payload"), 16, rounds=1)),
        "one round, hash cut": (20, 133, front(CHACHA20, 1)[:-64]),
        "one round, hash": (20, 133, flipped(front(CHACHA20, 1), -64)),
        "one round, tag": (20, 133, flipped(front(CHACHA20, 1), -1)),
        "hash cut": (2, 0, whole[: n - 64]),
        "tag cut": (2, 0, whole[: n - 1]),
        "hash": (12, 0, flipped(whole, n - 64)),
        "tag": (13, 0, flipped(whole, n - 1)),
        "tag of number 0": (13, 0, whole[: n - 32] + tag_of(0, whole[: n - 64]) + whole[n:]),
        "hash and tag": (12, 0, flipped(flipped(whole, n - 64), n - 1)),
        "block cut at 35": (2, 0, whole[: n + 35]),
        "block cut in its data": (2, 0, flipped(whole, n)[: n + 42]),
        "no closing block": (2, 0, whole[: n + 43]),
        "closing block cut": (2, 0, whole[:-1]),
        "negative size": (5, 0, front(CHACHA20) + block(0, b"payload", -1) + block(1)),
        "block tag": (14, 0, flipped(whole, n)),
        "block data": (14, 0, flipped(whole, n + 36)),
        "closing tag": (14, 0, flipped(whole, -36)),
        "blocks exchanged": (14, 0, front(CHACHA20) + block(1, b"b") + block(0, b"a") + block(2)),
        "byte behind": (15, 0, whole + b"\0"),
        "AES without a block": (16, 0, front(AES) + block(0)),
        "AES of 17 bytes": (16, 0, sealed(AES, bytes(17), 17)),
        "padding 0": (16, 0, sealed(AES, cbc(bytes(16)), 16)),
        "padding 17": (16, 0, sealed(AES, cbc(bytes([17] * 32)), 32)),
        "padding differs": (16, 0, sealed(AES, cbc(bytes(13) + b"\2\3\3"), 16)),
        "padding and byte behind": (15, 0, sealed(AES, cbc(bytes(16)), 16) + b"\0"),
    }


def whole_openings(cases, entries):
    for vault, entry in entries:
        if entry["file_length"] < 10_000:
            payload = payload_of(vault)
            must(sha256(payload).hex() == entry["payload_sha256"], vault.name)
            answer = {"length": entry["payload_length"], "payload": payload}
            cases.add("open", vault.name, answer, data=vault.file, T=vault.t)
            cases.add("open", f"{vault.name}, other key", 13, data=vault.file[:2_000], T=flipped(vault.t, 31))
    for name, (no, place, data) in damaged_vaults().items():
        cases.add("open", name, (no, place), data=data, T=T)
        cases.add("open", f"{name}, no room", (no, place), data=data, T=T, lent=0)
    for cipher, name in NAMES.items():
        payload = pattern(40)
        text = ciphertext(cipher, payload)
        data = sealed(cipher, text, 5, 27, len(text) - 32)
        answer = {"length": 40, "payload": payload}
        cases.add("open", f"{name} just room", answer, data=data, T=T, lent=40)
        cases.add("open", f"{name} all room", answer, data=data, T=T, lent=LARGE)
        cases.add("open", f"{name} no room", 17, data=data, T=T, lent=39)
    cases.add("open", "nothing due", {"length": 0, "payload": b""}, data=sealed(CHACHA20, b""), T=T, lent=0)


def handed(cipher, c):
    """How much has been handed over with c bytes of ciphertext verified."""
    return 16 * ((max(c, 1) - 1) // 16) if cipher == AES else c


def step(bytes_):
    return {"no": 0, "count": len(bytes_), "bytes": bytes_}


def no_step(no):
    return {"no": no, "count": 0, "bytes": ""}


def steps_of(cipher, payload, sizes):
    """The steps over blocks of these sizes, the closing one last."""
    told, c = [], 0
    for size in sizes:
        before, c = handed(cipher, c), c + size
        told.append(step(payload[before : handed(cipher, c) if size else None]))
    return told


def step_case(cases, name, data, lents, steps, **more):
    cases.add("steps", name, {"steps": steps}, data=data, T=T, lents=lents, **more)


def vault_steps(cases, entries):
    for vault, entry in entries:
        if vault.name in ("block-aes-17", "block-chacha-33", "py-v41-aes-aeskdf-pwkf"):
            told = steps_of(vault.fields[2], payload_of(vault), entry["blocks"]) + [no_step(19)]
            lents = [LARGE] * len(told)
            cases.add("steps", vault.name, {"steps": told}, data=vault.file, T=vault.t, lents=lents)
            cases.add("steps", f"{vault.name}, other key", 13, data=vault.file[:600], T=T, lents=lents)


def made_steps(cases):
    payload = pattern(31)
    five = sealed(AES, ciphertext(AES, payload), 5, 27)
    a, b = payload[:16], payload[16:]
    step_case(cases, "AES 5 and 27, padding 1", five, [0, 16, 15, 9], [step(b""), step(a), step(b), no_step(19)])
    step_case(cases, "AES 5 and 27, padding 16", sealed(AES, ciphertext(AES, a), 5, 27), [99] * 3,
              [step(b""), step(a), step(b"")])
    step_case(cases, "no room, then room", five, [0, 15, 0, 16, 14, 15, 99],
              [step(b""), no_step(17), no_step(17), step(a), no_step(17), step(b), no_step(19)])
    stream = sealed(CHACHA20, ciphertext(CHACHA20, payload), 1, 30)
    step_case(cases, "ChaCha20 1 and 30", stream, [0, 1, 30, 0],
              [no_step(17), step(payload[:1]), step(payload[1:]), step(b"")])
    step_case(cases, "no step", five, [], [])
    n = len(five)
    for name, length, no in (("no file", 0, 2), ("file cut", n - 1 - 36 - 1, 2), ("file over", FILE_LIMIT + 1, 1)):
        step_case(cases, name, five, [99] * 3, [step(b""), no_step(no), no_step(19)], file_lengths={"1": length})
    step_case(cases, "file of zeros behind", five, [99] * 4, [step(b""), step(a), no_step(15), no_step(19)],
              file_lengths={"0": n + 1, "1": n + 9, "2": n + 1})
    step_case(cases, "file cut behind its block", five, [99] * 3, [step(b""), step(a), step(b)],
              file_lengths={"0": n - 36 - 27 - 36, "1": n - 36})
    at = len(front(AES))
    # (blocks, place, ciphertext taken) that no call leaves: 19, and the state stays, so that the right numbers go on
    for name, numbers in (
        ("five blocks and no ciphertext", (5, at + 41, 0)), ("more blocks than bytes", (6, at + 41, 5)),
        ("ciphertext and no block", (0, at + 41, 5)), ("no room before the place", (1, 40, 5)),
        ("a place over the limit", (1, FILE_LIMIT + 1, 5)),
    ):
        step_case(cases, f"state: {name}", five, [99] * 4, [step(b""), no_step(19), no_step(19), step(a)],
                  numbers={"1": numbers, "3": (1, at + 41, 5)})
    step_case(cases, "second block's tag", flipped(five, at + 41), [99] * 3, [step(b""), no_step(14), no_step(19)])
    step_case(cases, "byte behind", five + b"\0", [99] * 4, [step(b""), step(a), no_step(15), no_step(19)])
    step_case(cases, "padding", sealed(AES, cbc(bytes(32)), 32), [99] * 3, [step(bytes(16)), no_step(16), no_step(19)])
    step_case(cases, "padding, no room", sealed(AES, cbc(bytes(32)), 32), [16, 0, 0],
              [step(bytes(16)), no_step(16), no_step(19)])
    for name in (
        "empty", "signature", "second signature", "version", "end bytes", "second name in the custom dictionary",
        "custom broken", "rounds 5,999", "one round", "one round, hash", "hash cut", "tag cut", "hash", "tag",
    ):
        no, place, data = damaged_vaults()[name]
        cases.add("steps", f"start: {name}", (no, place), data=data, T=T, lents=[99, 99])


# Document 01, "Numbers to meet", and document 02, Item 7: the lengths of files without a custom dictionary.
GIVEN = {(AES, 0): 359, (CHACHA20, 0): 303, (CHACHA20, 1): 340, (AES, 16_384): 16_743, (CHACHA20, 16_384): 16_723}


def asked_of(cipher, payload, minor=1, rounds=ROUNDS, custom=b"", **changed):
    """A request to write, and the file."""
    nonce = NONCES[cipher]
    file = write(minor, cipher, SEED, nonce, KDF_SEED, rounds, custom, T, payload, LARGE)
    asked = {"minor": minor, "cipher": NAMES[cipher], "seed": SEED, "nonce": nonce}
    asked |= {"kdf": {"kind": "aeskdf", "S": KDF_SEED, "R": rounds}, "T": T, "data": payload}
    return asked | ({"custom": custom} if custom else {}) | changed, {"length": len(file), "file": file}


def written(cases):
    for (cipher, n), length in GIVEN.items():
        asked, answer = asked_of(cipher, pattern(n))
        must(answer["length"] == length, (cipher, n))
        cases.add("write", f"{NAMES[cipher]} {n}", answer, **asked)
    for cipher, name in NAMES.items():
        asked, answer = asked_of(cipher, pattern(33), 0, 4_000_000, CUSTOM)
        cases.add("write", f"{name} custom", answer, **asked)
        cases.add("write", f"{name} identifier", answer, **asked | {"cipher": cipher})
        cases.add("write", f"{name} just room", answer, **asked | {"lent": answer["length"]})
        cases.add("write", f"{name} all room", answer, **asked | {"lent": LARGE})
        cases.add("write", f"{name} no room", 17, **asked | {"lent": answer["length"] - 1})
        cases.add("write", f"{name} empty custom", asked_of(cipher, b"x")[1], **asked_of(cipher, b"x", custom=b"")[0])


def wrong_writes(cases):
    asked, _ = asked_of(AES, pattern(5))
    kdf_ = asked["kdf"]
    wrong = [
        (4, "minor", {"minor": 2}),
        (4, "minor 65535, other cipher", {"minor": 65_535, "cipher": bytes(16)}),
        (9, "other cipher", {"cipher": bytes(16)}),
        (9, "cipher of 15", {"cipher": AES[:15]}),
        (9, "no cipher, seed of 31", {"cipher": b"", "seed": SEED[:31]}),
        (5, "seed of 31", {"seed": SEED[:31]}),
        (5, "nonce of 12", {"nonce": NONCE[:12]}),
        (5, "nonce of 12, rounds over", {"nonce": NONCE[:12], "kdf": kdf_ | {"R": 4_000_001}}),
        (5, "KDF seed of 33", {"kdf": kdf_ | {"S": bytes(33)}}),
        (11, "rounds over", {"kdf": kdf_ | {"R": 4_000_001}}),
        (11, "rounds 2^64-1, custom broken", {"kdf": kdf_ | {"R": LARGE}, "custom": b"\0"}),
        (20, "rounds 5,999", {"kdf": kdf_ | {"R": 5_999}}),
        (20, "no rounds", {"kdf": kdf_ | {"R": 0}}),
        (20, "one round, custom broken", {"kdf": kdf_ | {"R": 1}, "custom": b"\0"}),
        (20, "one round, custom name twice", {"kdf": kdf_ | {"R": 1}, "custom": DICTIONARIES["repeated"][1]}),
        (20, "one round, no room", {"kdf": kdf_ | {"R": 1}, "lent": 0}),
        (5, "nonce of 12, one round", {"nonce": NONCE[:12], "kdf": kdf_ | {"R": 1}}),
        (10, "custom broken", {"custom": b"\0\2\0"}),
        (6, "custom name twice, no room", {"custom": DICTIONARIES["repeated"][1], "lent": 0}),
        (17, "no room", {"lent": 0}),
    ]
    for no, name, changed in wrong:
        cases.add("write", name, no, **asked | changed)


def add_all(cases, entries):
    opened = [(vault, entry) for vault, entry in entries if vault.t]
    whole_openings(cases, opened)
    vault_steps(cases, opened)
    made_steps(cases)
    written(cases)
    wrong_writes(cases)
