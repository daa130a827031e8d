#!/usr/bin/env python3
"""Write what crates/vectors_hmac must print:   tools/vectors_hmac.py > crates/vectors_hmac/stdout

Every tag is computed by Python 3's hmac over hashlib, which is OpenSSL: an independent implementation of RFC 2104. Those of
RFC 4231 are compared with the RFC's text first (CASES). The messages, keys and rows are those of crates/vectors_hmac/src and
crates/vectors/src, told anew here.
"""
import hmac

from messages import pattern

LIMIT = 33_554_432

# RFC 4231, section 4: key, data, and HMAC-SHA-256 as published (case 5 is cut to 128 bits there).
CASES = [
    (b"\x0b" * 20, b"Hi There", "b0344c61d8db38535ca8afceaf0bf12b881dc200c9833da726e9376c2e32cff7"),
    (b"Jefe", b"what do ya want for nothing?", "5bdcc146bf60754e6a042426089575c75a003f089d2739839dec58b964ec3843"),
    (b"\xaa" * 20, b"\xdd" * 50, "773ea91e36800e46854db8ebd09181a72959098b3ef8c122d9635514ced565fe"),
    (bytes(range(1, 26)), b"\xcd" * 50, "82558a389a443c0ea4cc819899f2083a85f0faa3e578f8077a2e3ff46729665b"),
    (b"\x0c" * 20, b"Test With Truncation", "a3b6167473100ee06e0c796c2955552b"),
    (
        b"\xaa" * 131,
        b"Test Using Larger Than Block-Size Key - Hash Key First",
        "60e431591ee0b67f0d8a26aacbf5b77f8e0bc6213728c5140546040f0ee37f54",
    ),
    (
        b"\xaa" * 131,
        b"This is a test using a larger than block-size key and a larger than block-size data. The key needs to be "
        b"hashed before being used by the HMAC algorithm.",
        "9b09ffa71b942fcb27635fbcd5b0e944bfdc63644f0713938a7f51535c3a35e2",
    ),
]


def tag(key, message):
    return hmac.new(key, message, "sha256").hexdigest()


def row(form, length, number, result):
    print("hmac-sha256", form, length, number, result)


def main():
    for i, (key, message, published) in enumerate(CASES, 1):
        assert tag(key, message).startswith(published), i
        row(f"case{i}", len(message), 0, published)
    m = pattern(1_000_000)
    for k in (0, 1, 63, 64, 65, 131):
        key = m[1_000 : 1_000 + k]
        for n in [*range(0, 131), 4_095, 65_537, 1_000_000]:
            result = tag(key, m[:n])
            row(f"key{k}", n, 0, result)
            row(f"key{k}-parts", n, 0, result)
    key, part = m[1_000:1_064], m[:65_536]
    row("over", LIMIT - 65_536, 1, tag(key, part * 511))
    full = tag(key, part * 512)
    row("limit", LIMIT, 0, full)
    row("past", LIMIT, 1, full)
    row("empty", LIMIT, 0, full)


main()
