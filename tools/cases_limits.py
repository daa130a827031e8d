"""Cases at the limits that document 02's Item 7 sets, and of vaults in the blocks that were written before it.

The numbers and the lengths of files are told by hand. Long inputs are zeros, and of long outputs the answers have the
SHA-256. Digests and tags are those of Python's hashlib and hmac; files are made by cases_vaults.py, with the
writer that vectors_writer.py has of its own.
"""
import hmac

from case_list import LARGE, NAMES, T
from cases_inner import END, field
from cases_keys import CREDENTIAL_LIMIT, MESSAGE_LIMIT, hash_case
from cases_vaults import FILE_LIMIT, asked_of, ciphertext, sealed, steps_of
from digests import must, sha256
from messages import pattern
from vectors_writer import AES, CHACHA20, le

PROGRAM_LIMIT = 65_536


def zeros(n):
    """So many zeros, in a request."""
    return {"zeros": n}


def digest(bytes_):
    """What stands for long bytes in an answer: tests/replay hashes those of the driver."""
    return {"sha256": sha256(bytes_)}


def credentials(cases):
    """A password and a key file keep their limit; a pre-hash has none of its own."""
    part = sha256(bytes(CREDENTIAL_LIMIT))
    for name in ("password", "keyfile"):
        cases.add("composite", f"longest {name}", {"key": sha256(part)}, **{name: zeros(CREDENTIAL_LIMIT)})
        cases.add("composite", f"{name} over", 1, **{name: zeros(CREDENTIAL_LIMIT + 1)})
    both = {"password": zeros(CREDENTIAL_LIMIT), "keyfile": zeros(CREDENTIAL_LIMIT)}
    cases.add("composite", "longest both", {"key": sha256(part, part)}, **both)
    cases.add("composite", "key file over, pre-hash", 1, keyfile=zeros(CREDENTIAL_LIMIT + 1), prehash=bytes(32))
    cases.add("composite", "long pre-hash", 18, prehash=zeros(CREDENTIAL_LIMIT + 1))


def hashes(cases):
    """All feeds together count; one that is refused does not, and an empty one passes at the limit."""
    half = MESSAGE_LIMIT // 2
    for alg in ("sha256", "sha512"):
        hash_case(cases, alg, "longest in parts", [half, half - 1, 2, b"", 1, b"", b"\0"], [0, 0, 1, 0, 0, 0, 1])
        hash_case(cases, alg, "over the former limit", [8_388_608, b"\0"])


def tags(cases):
    """The key block does not count."""
    key, most = pattern(64), MESSAGE_LIMIT
    cases.add("tag", "longest", {"tag": hmac.digest(key, bytes(most), "sha256")}, key=key, data=zeros(most))
    cases.add("tag", "longest key", {"tag": hmac.digest(bytes(most), key, "sha256")}, key=zeros(most), data=key)
    cases.add("tag", "over", 1, key=key, data=zeros(most + 1))
    cases.add("tag", "key over", 1, key=zeros(most + 1), data=b"")


def readers(cases):
    """A file of zeros has no signature, and a payload of zeros begins with the end field."""
    for op, no, more in (
        ("header", 3, {}),
        ("open", 3, {"T": T}),
        ("steps", 3, {"T": T, "lents": [LARGE]}),
        ("inner", 8, {}),
        ("attachment", 8, {"index": 0}),
    ):
        cases.add(op, "longest", no, data=zeros(FILE_LIMIT), **more)
        cases.add(op, "over", 1, data=zeros(FILE_LIMIT + 1), **more)
    cases.add("dict", "over a file's limit", 10, data=zeros(FILE_LIMIT + 1))
    cases.add("list", "longest", {"text": "R03 0\n"}, data=zeros(PROGRAM_LIMIT))
    cases.add("list", "over", {"text": "R01\n"}, data=zeros(PROGRAM_LIMIT + 1))


# Payloads of zeros, and the lengths of their files. A block has 36 bytes beside its data, the closing one too. The
# last two are the longest: 16 data blocks.
WRITTEN = {
    (AES, 16_383): 271 + 16_384 + 2 * 36,
    (AES, 1_048_575): 271 + 1_048_576 + 2 * 36,
    (AES, 1_048_576): 1_048_971,
    (CHACHA20, 1_048_576): 267 + 1_048_576 + 2 * 36,
    (CHACHA20, 1_048_577): 267 + 1_048_577 + 3 * 36,
    (AES, 16_776_319): 271 + 16_776_320 + 17 * 36,
    (CHACHA20, 16_776_337): FILE_LIMIT,
}


def written(cases):
    for (cipher, n), length in WRITTEN.items():
        asked, answer = asked_of(cipher, bytes(n))
        must(answer["length"] == length, (cipher, n))
        answer |= {"file": digest(answer["file"])}
        cases.add("write", f"{NAMES[cipher]} {n} zeros", answer, **asked | {"data": zeros(n)})
    asked, _ = asked_of(AES, b"")
    for no, name, changed in (
        (1, "file over", {"data": zeros(16_776_320)}),
        (1, "payload over, no room", {"data": zeros(FILE_LIMIT + 1), "lent": 0}),
        (10, "long custom broken, payload over", {"custom": zeros(FILE_LIMIT + 1), "data": zeros(FILE_LIMIT + 1)}),
        (17, "longest, one byte less room", {"data": zeros(16_776_319), "lent": WRITTEN[AES, 16_776_319] - 1}),
    ):
        cases.add("write", name, no, **asked | changed)


def inner_written(cases):
    """The payload has 19 bytes beside the document where key and run are empty."""
    asked, n = {"alg": 2, "key": b"", "run": b""}, FILE_LIMIT - 19
    payload = field(1, le(2, 4)) + field(2, b"") + END + bytes(n)
    must(len(payload) == FILE_LIMIT, "inner header")
    cases.add("inner_write", "longest", {"length": FILE_LIMIT, "payload": digest(payload)}, **asked, data=zeros(n))
    cases.add("inner_write", "over, no room", 1, **asked, data=zeros(n + 1), lent=0)
    cases.add("inner_write", "over, algorithm 1", 9, **asked | {"alg": 1}, data=zeros(n + 1))


# Vaults in blocks of 16,384 bytes, as the writer cut them before Item 7, and their lengths. The first is the file that
# document 01's worked length is of: with one round it has the SHA-256 that it was written with.
FORMER = {(AES, 16_384): 16_779, (CHACHA20, 16_500): 267 + 16_500 + 3 * 36}
FORMER_WORKED = "43c7c90079c803bd6fb489b9562dda398a0701861477868d7172c2f46b3f96cd"


def former_blocks(cases):
    for (cipher, n), length in FORMER.items():
        payload, text, name = pattern(n), ciphertext(cipher, pattern(n)), f"{NAMES[cipher]} {n} in former blocks"
        sizes = [16_384, len(text) - 16_384]
        file = sealed(cipher, text, *sizes)
        must(len(file) == length, name)
        must(cipher == CHACHA20 or sha256(sealed(cipher, text, *sizes, rounds=1)).hex() == FORMER_WORKED, name)
        cases.add("open", name, {"length": n, "payload": digest(payload)}, data=file, T=T, lent=n)
        told = [one | {"bytes": digest(one["bytes"])} for one in steps_of(cipher, payload, [*sizes, 0])]
        cases.add("steps", name, {"steps": told}, data=file, T=T, lents=[LARGE] * 3)


def add_all(cases):
    credentials(cases)
    hashes(cases)
    tags(cases)
    readers(cases)
    written(cases)
    inner_written(cases)
    former_blocks(cases)
