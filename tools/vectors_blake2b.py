#!/usr/bin/env python3
"""Write what crates/vectors_blake2b must print:   tools/vectors_blake2b.py > crates/vectors_blake2b/stdout

Every digest is computed by Python 3's hashlib, whose BLAKE2 is the BLAKE2 team's: an independent implementation of RFC 7693.
The one that the RFC publishes is compared with the published text first. H' (RFC 9106, 3.3) is told anew here over it. The
messages, cuts and rows are those of crates/vectors_blake2b/src and crates/vectors/src, told anew here too.
"""
import hashlib

from messages import pattern

LIMIT = 33_554_432

# RFC 7693, appendix A
ABC = (
    "ba80a53f981c4d0d6a2797b69f12f6e94c212f14685ac4b74b12bb6fdbffa2d1"
    "7d87c5392aab792dc252d5de4533cc9518d38aa8dbf1925ab92386edd4009923"
)


def blake2b(nn, message):
    return hashlib.blake2b(message, digest_size=nn).digest() if nn else b""


def long_hash(t, message):
    first = t.to_bytes(4, "little") + message
    if t <= 64:
        return blake2b(t, first)
    r = -(-t // 32) - 2
    v = blake2b(64, first)
    out = v[:32]
    for _ in range(r - 1):
        v = blake2b(64, v)
        out += v[:32]
    return out + blake2b(t - 32 * r, v)


def row(form, length, number, message, nn=64):
    print("blake2b", form, length, number, blake2b(nn, message).hex())


def fill(t, message):
    print("argon2-h fill", len(message), 0, long_hash(t, message).hex())


def main():
    assert blake2b(64, b"abc").hex() == ABC
    row("abc", 3, 0, b"abc")
    m = pattern(65_536)
    for lengths in (range(0, 301), range(4_090, 4_103)):
        for n in lengths:
            for form in ("whole", "bytes", "parts"):
                row(form, n, 0, m[:n])
    for n in (3, 128, 200):
        for nn in range(1, 65):
            row("digest", n, 0, m[:n], nn)
    row("over", LIMIT - 65_536, 1, m * 511)
    row("limit", LIMIT, 0, m * 512)
    row("past", LIMIT, 1, m * 512)
    row("empty", LIMIT, 0, m * 512)
    for lengths in (range(0, 201), range(990, 1_025)):
        for t in lengths:
            fill(t, m[:72])
    for n in (0, 72, 1_024):
        for t in (1, 32, 63, 64, 65, 96, 128, 1_024):
            fill(t, m[:n])


main()
