#!/usr/bin/env python3
"""Write what crates/vectors_sha2 must print:   tools/vectors_sha2.py > crates/vectors_sha2/stdout

Every digest is computed by Python 3's hashlib, which is OpenSSL: an independent implementation of FIPS 180-4. Those that
NIST publishes are compared with the published text first (PUBLISHED). The messages, cuts and rows are those of
crates/vectors_sha2/src and crates/vectors/src, told anew here.
"""
import hashlib

from messages import pattern

LIMIT = 33_554_432

# NIST, "Examples with Intermediate Values" for SHA-256 and SHA-512, and "SHA-2 Additional": the digests as published.
PUBLISHED = {
    ("sha256", "abc", 3): "ba7816bf8f01cfea414140de5dae2223b00361a396177a9cb410ff61f20015ad",
    ("sha256", "448-bit", 56): "248d6a61d20638b8e5c026930c3e6039a33ce45964ff2167f6ecedd419db06c1",
    ("sha256", "0xbd", 1): "68325720aabd7c82f30f554b313d0570c95accbb7dc4b5aae11204c08ffe732b",
    ("sha256", "0xc98c8e55", 4): "7abc22c0ae5af26ce93dbb94433a0e0b2e119d014f8e7f65bd56c61ccccd9504",
    ("sha256", "zeros", 55): "02779466cdec163811d078815c633f21901413081449002f24aa3e80f0b88ef7",
    ("sha256", "zeros", 56): "d4817aa5497628e7c77e6b606107042bbba3130888c5f47a375e6179be789fbb",
    ("sha256", "zeros", 57): "65a16cb7861335d5ace3c60718b5052e44660726da4cd13bb745381b235a1785",
    ("sha256", "zeros", 64): "f5a5fd42d16a20302798ef6ed309979b43003d2320d9f0e8ea9831a92759fb4b",
    ("sha256", "zeros", 1000): "541b3e9daa09b20bf85fa273e5cbd3e80185aa4ec298e765db87742b70138a53",
    ("sha256", "A", 1000): "c2e686823489ced2017f6059b8b239318b6364f6dcd835d0a519105a1eadd6e4",
    ("sha256", "U", 1005): "f4d62ddec0f3dd90ea1380fa16a5ff8dc4c54b21740650f24afc4120903552b0",
    ("sha256", "zeros", 1000000): "d29751f2649b32ff572b5e0a9f541ea660a50f94ff0beedfb0b692b924cc8025",
    ("sha256", "a", 1000000): "cdc76e5c9914fb9281a1c7e284d73e67f1809a48a497200e046d39ccc7112cd0",
    ("sha512", "abc", 3): "ddaf35a193617abacc417349ae20413112e6fa4e89a97ea20a9eeee64b55d39a"
    "2192992a274fc1a836ba3c23a3feebbd454d4423643ce80e2a9ac94fa54ca49f",
    ("sha512", "896-bit", 112): "8e959b75dae313da8cf4f72814fc143f8f7779c6eb9f7fa17299aeadb6889018"
    "501d289e4900f7e4331b99dec4b5433ac7d329eeb6dd26545e96e55b874be909",
    ("sha512", "a", 1000000): "e718483d0ce769644e2e42c7bc15b4638e1f98b13b2044285632a803afa973eb"
    "de0ff244877ea60a4cb0432ce577c31beb009c5c2c49aa2e4eadb217ad8cc09b",
}

EXAMPLES = {
    "sha256": [
        ("nothing", b""),
        ("abc", b"abc"),
        ("448-bit", b"abcdbcdecdefdefgefghfghighijhijkijkljklmklmnlmnomnopnopq"),
        ("0xbd", b"\xbd"),
        ("0xc98c8e55", b"\xc9\x8c\x8e\x55"),
    ],
    "sha512": [
        ("nothing", b""),
        ("abc", b"abc"),
        (
            "896-bit",
            b"abcdefghbcdefghicdefghijdefghijkefghijklfghijklmghijklmnhijklmnoijklmnopjklmnopqklmnopqrlmnopqrsmnopqrstnopqrstu",
        ),
    ],
}

# one byte, so many times; the last five are the same for both
REPEATS = {"sha256": [("zeros", 0, n) for n in (55, 56, 57, 64)], "sha512": [("zeros", 0, n) for n in (111, 112, 113, 122)]}
BOTH = [
    ("zeros", 0, 1000),
    ("A", ord("A"), 1000),
    ("U", ord("U"), 1005),
    ("zeros", 0, 1_000_000),
    ("a", ord("a"), 1_000_000),
]


def row(name, form, length, number, message):
    print(name, form, length, number, hashlib.new(name, message).hexdigest())


def published(name, form, message):
    digest = hashlib.new(name, message).hexdigest()
    assert PUBLISHED.get((name, form, len(message)), digest) == digest, (name, form, len(message))
    row(name, form, len(message), 0, message)


def main():
    for name in ("sha256", "sha512"):
        for form, message in EXAMPLES[name]:
            published(name, form, message)
        for form, byte, n in REPEATS[name] + BOTH:
            published(name, form, bytes([byte]) * n)
    m = pattern(1_000_000)
    for lengths in (range(0, 301), range(4_090, 4_103), range(999_998, 1_000_001)):
        for n in lengths:
            for name in ("sha256", "sha512"):
                for form in ("whole", "bytes", "parts"):
                    row(name, form, n, 0, m[:n])
    part = m[:65_536]
    for name in ("sha256", "sha512"):
        row(name, "over", LIMIT - 65_536, 1, part * 511)
        row(name, "limit", LIMIT, 0, part * 512)
        row(name, "past", LIMIT, 1, part * 512)
        row(name, "empty", LIMIT, 0, part * 512)


main()
