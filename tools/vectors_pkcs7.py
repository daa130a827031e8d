#!/usr/bin/env python3
"""Write what crates/vectors_pkcs7 must print:   tools/vectors_pkcs7.py > crates/vectors_pkcs7/stdout

Every padding is written and judged by the Python package cryptography (its PKCS7 with pieces of 128 bits): an
independent implementation of RFC 5652, 6.3. That one has no slice with too little room: there this script cuts what it
answers. The payloads, pieces and rows are those of crates/vectors_pkcs7/src and crates/vectors/src, told anew here.
"""
from cryptography.hazmat.primitives import padding
from messages import pattern

WRONG_PADDING = 16


def padded(payload):
    padder = padding.PKCS7(128).padder()
    return padder.update(payload) + padder.finalize()


def row(form, length, number, result):
    print("pkcs7", form, length, number, result.hex())


def written(form, n, space):
    """The padding of the first n bytes of `space` written behind them, as far as there is room."""
    if len(space) < n:
        return row(form, n, 0, space)
    text = padded(space[:n])
    row(form, n, 0, (text + space[len(text) :])[: len(space)])


def checked(form, piece):
    unpadder = padding.PKCS7(128).unpadder()
    try:
        payload = unpadder.update(piece) + unpadder.finalize()
    except ValueError:
        return row(form, 0, WRONG_PADDING, piece)
    row(form, 16 - len(payload), 0, piece)


def main():
    space = pattern(72)
    for n in range(49):
        row("adds", len(padded(space[:n])) - n, 0, space[:n])
        written("pad", n, space)
    for n in range(73):
        written("room", 20, space[:n])
    for n in range(16):
        piece = padded(space[:n])
        checked("right", piece)
        for i in range(n, 16):
            for bits in (0x01, 0x80):
                checked("changed", piece[:i] + bytes([piece[i] ^ bits]) + piece[i + 1 :])
    for v in range(256):
        checked("same", bytes([v]) * 16)
        checked("last", space[:15] + bytes([v]))


main()
