"""Cases of keys, hashes and tags.

Hashes and tags are those of FIPS 180-4's and RFC 4231's examples, or of Python's hashlib and hmac; AES is FIPS 197's
example, or the package cryptography's, which is OpenSSL. Composite and transformed keys of vaults are the manifest's;
the parts of key files of digits are key_files.py's, by Python's base64.
"""
import hashlib
import hmac

from case_list import LARGE
from digests import must, sha256, sha512
from cryptography.hazmat.primitives.ciphers import Cipher, algorithms, modes
from key_files import DIGITS, key_file_part
from messages import pattern
from vectors_writer import le

CREDENTIAL_LIMIT = 4_194_304  # of a password and a key file
MESSAGE_LIMIT = 33_554_432


def credentials(cases, entries):
    for vault, _ in entries:
        given = {"password": vault.password, "keyfile": vault.key_file}
        given = {name: value for name, value in given.items() if value is not None}
        cases.add("composite", vault.name, {"key": vault.composite}, **given)
    key = pattern(32)
    cases.add("composite", "pre-hash", {"key": key}, prehash=key)
    cases.add("composite", "empty password", {"key": sha256(sha256())}, password=b"")
    cases.add("composite", "empty both", {"key": sha256(sha256(), sha256())}, password=b"", keyfile=b"")
    for n in (31, 33):
        cases.add("composite", f"key file of {n}", {"key": sha256(sha256(pattern(n)))}, keyfile=pattern(n))
        cases.add("composite", f"pre-hash of {n}", 18, prehash=pattern(n))
    for form, key_file in DIGITS.items():
        part = key_file_part(key_file)
        cases.add("composite", f"key file {form}", {"key": sha256(part)}, keyfile=key_file)
        key_of_both = {"key": sha256(sha256(b"a"), part)}
        cases.add("composite", f"key file {form} and password", key_of_both, keyfile=key_file, password=b"a")
    cases.add("composite", "pre-hash of 64 digits", 18, prehash=DIGITS["digits-lower"])
    cases.add("composite", "none", 18)
    cases.add("composite", "empty pre-hash", 18, prehash=b"")
    cases.add("composite", "pre-hash and empty password", 18, prehash=key, password=b"")
    cases.add("composite", "pre-hash and key file", 18, prehash=key, keyfile=key)


def halves_after(composite, seed, rounds):
    cipher = Cipher(algorithms.AES(seed), modes.ECB()).encryptor()
    for _ in range(rounds):
        composite = cipher.update(composite)
    return composite


def rounds_case(cases, name, composite, seed, rounds, helpings, t=None):
    """Helpings, and T where they reach the end; it is compared with `t`."""
    done, told = 0, []
    for n in helpings:
        done = min(done + n, rounds)
        told.append([done, halves_after(composite, seed, done)])
    key = sha256(halves_after(composite, seed, rounds)) if done == rounds else None
    must(t is None or t == key, name)
    answer = {"helpings": told, "T": key, "T_no": 0 if done == rounds else 19}
    cases.add("rounds", name, answer, composite=composite, S=seed, R=rounds, helpings=helpings)


# Item 9: lists of helpings that come to the same, of 20 rounds; those of a group stand at the same round.
PAUSED = {
    "7 of 20": ([7], [3, 4], [0, 1, 0, 0, 6, 0], [1] * 7),
    "20 of 20": ([20], [10, 10], [13, 0, 7, 0], [1] * 20, [19, 2], [5, 2**32 - 5], [5, LARGE - 5], [2**63, 2**63, 0]),
}


def paused(cases, composite, seed):
    for name, lists in PAUSED.items():
        for number, helpings in enumerate(lists):
            rounds_case(cases, f"paused, {name}, {number}", composite, seed, 20, helpings)
    rounds_case(cases, "paused, most", composite, seed, 4_000_000, [0, 1, 0, 2, 3])


def rounds(cases, entries):
    key, half = bytes(range(32)), bytes.fromhex("00112233445566778899aabbccddeeff")
    must(halves_after(half, key, 1).hex() == "8ea2b7ca516745bfeafc49904b496089", "FIPS 197, C.3")
    rounds_case(cases, "FIPS 197, C.3", half + half, key, 1, [1])
    rounds_case(cases, "no rounds", half + half, key, 0, [])
    rounds_case(cases, "no rounds, a helping", half + half, key, 0, [5])
    rounds_case(cases, "no helping", half + half, key, 1, [])
    rounds_case(cases, "none, one, too many, none", half + key[:16], key, 20, [0, 1, 18, 7, 0])
    rounds_case(cases, "one too few", half + key[:16], key, 20, [19])
    rounds_case(cases, "all at once", half + key[:16], key, 20, [LARGE, LARGE])
    rounds_case(cases, "fewer than a vault's least", half + half, key, 5_999, [5_998, 1, 1])
    rounds_case(cases, "most", half + half, key, 4_000_000, [2])
    paused(cases, half + key[:16], key)
    for name, n in (("one too many", 4_000_001), ("2^32", 2**32), ("2^64-1", 2**64 - 1)):
        cases.add("rounds", name, 11, composite=half + half, S=key, R=n, helpings=[1])
    for vault, entry in entries:
        if entry.get("R") == 6000 and vault.t:
            rounds_case(cases, vault.name, vault.composite, vault.kdf[b"S"], 6000, [1000, 4999, 1], vault.t)


def file_keys(cases, entries):
    for (vault, _), i in zip(entries, (0, 1, 2**32, 2**64 - 1)):
        base = sha512(vault.master_seed, vault.t, b"\1")
        key = sha512(le(i, 8), base)
        if i == 2**64 - 1:
            must(hmac.digest(key, vault.header, "sha256") == vault.header_tag, vault.name)
        answer = {"cipher_key": sha256(vault.master_seed, vault.t), "tag_base": base, "tag_key": key}
        cases.add("keys", f"{vault.name} {i}", answer, seed=vault.master_seed, T=vault.t, i=i)


# hashes and tags

TWO_BLOCKS = b"abcdbcdecdefdefgefghfghighijhijkijkljklmklmnlmnomnopnopq"
# FIPS 180-4's examples, as NIST has published them.
PUBLISHED = {
    ("sha256", b"abc"): "ba7816bf8f01cfea414140de5dae2223b00361a396177a9cb410ff61f20015ad",
    ("sha256", TWO_BLOCKS): "248d6a61d20638b8e5c026930c3e6039a33ce45964ff2167f6ecedd419db06c1",
    ("sha512", b"abc"): "ddaf35a193617abacc417349ae20413112e6fa4e89a97ea20a9eeee64b55d39a"
    "2192992a274fc1a836ba3c23a3feebbd454d4423643ce80e2a9ac94fa54ca49f",
}


def hash_case(cases, alg, name, parts, feeds=None):
    """A part is bytes or a number of zeros. `feeds` are the numbers, none where all are 0."""
    feeds = feeds or [0] * len(parts)
    taken = (bytes(part) for part, no in zip(parts, feeds, strict=True) if no == 0)
    digest = hashlib.new(alg, b"".join(taken)).digest()
    asked = [{"zeros": part} if isinstance(part, int) else part for part in parts]
    cases.add("hash", f"{alg} {name}", {"feeds": feeds, "digest": digest}, alg=alg, parts=asked)
    return digest.hex()


def hashes(cases):
    for (alg, message), digest in PUBLISHED.items():
        must(hash_case(cases, alg, f"published {len(message)}", [message]) == digest, alg)
    for alg, block in (("sha256", 64), ("sha512", 128)):
        m = pattern(3 * block)
        hash_case(cases, alg, "nothing", [])
        hash_case(cases, alg, "empty parts", [b"", b"", 0])
        hash_case(cases, alg, "parts around a block", [m[: block - 1], m[:1], m[:2], m[: block + 1], b"", m])
        hash_case(cases, alg, "zeros", [1_000_000, m])
        hash_case(cases, alg, "longest", [MESSAGE_LIMIT, b"", b"\0"], [0, 0, 1])
        hash_case(cases, alg, "over, then on", [b"abc", MESSAGE_LIMIT - 2, b"def"], [0, 1, 0])
        hash_case(cases, alg, "over at once", [2 * MESSAGE_LIMIT], [1])


# RFC 4231: key, data, tag. The fifth has a shortened tag, and is left out.
RFC_4231 = {
    1: (b"\x0b" * 20, b"Hi There", "b0344c61d8db38535ca8afceaf0bf12b881dc200c9833da726e9376c2e32cff7"),
    2: (b"Jefe", b"what do ya want for nothing?", "5bdcc146bf60754e6a042426089575c75a003f089d2739839dec58b964ec3843"),
    3: (b"\xaa" * 20, b"\xdd" * 50, "773ea91e36800e46854db8ebd09181a72959098b3ef8c122d9635514ced565fe"),
    4: (bytes(range(1, 26)), b"\xcd" * 50, "82558a389a443c0ea4cc819899f2083a85f0faa3e578f8077a2e3ff46729665b"),
    6: (
        b"\xaa" * 131,
        b"Test Using Larger Than Block-Size Key - Hash Key First",
        "60e431591ee0b67f0d8a26aacbf5b77f8e0bc6213728c5140546040f0ee37f54",
    ),
    7: (
        b"\xaa" * 131,
        b"This is a test using a larger than block-size key and a larger than block-size data. The key needs to be "
        b"hashed before being used by the HMAC algorithm.",
        "9b09ffa71b942fcb27635fbcd5b0e944bfdc63644f0713938a7f51535c3a35e2",
    ),
}


def tags(cases):
    for number, (key, data, tag) in RFC_4231.items():
        must(hmac.digest(key, data, "sha256").hex() == tag, number)
        cases.add("tag", f"RFC 4231, {number}", {"tag": tag}, key=key, data=data)
    for n in (0, 63, 64, 65):
        key, data = pattern(n), pattern(100)
        cases.add("tag", f"key of {n}", {"tag": hmac.digest(key, data, "sha256")}, key=key, data=data)


def add_all(cases, entries):
    credentials(cases, entries)
    rounds(cases, entries)
    file_keys(cases, [(vault, entry) for vault, entry in entries if vault.t])
    hashes(cases)
    tags(cases)
