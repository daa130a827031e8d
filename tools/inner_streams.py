"""The inner stream for the scripts: Salsa20 by libsodium, ChaCha20 by the Python package cryptography (OpenSSL),
the hashes by hashlib; and document 02's refusals, told by hand.
"""
import ctypes
import hashlib

from cryptography.hazmat.primitives.ciphers import Cipher, algorithms

SODIUM = ctypes.CDLL("libsodium.so.23")
SALSA20_NONCE = bytes.fromhex("E830094B97205D2A")
LIMIT = 4_194_304


def salsa20(key, position, text):
    blocks = bytes(position % 64) + text
    out = ctypes.create_string_buffer(len(blocks))
    SODIUM.crypto_stream_salsa20_xor_ic(
        out,
        blocks,
        ctypes.c_ulonglong(len(blocks)),
        SALSA20_NONCE,
        ctypes.c_uint64(position // 64),
        hashlib.sha256(key).digest(),
    )
    return out.raw[position % 64 : len(blocks)]


def chacha20(key, position, text):
    h = hashlib.sha512(key).digest()
    full = (position // 64).to_bytes(4, "little") + h[32:44]
    stream = Cipher(algorithms.ChaCha20(h[:32], full), None).encryptor()
    return stream.update(bytes(position % 64) + text)[position % 64 :]


STREAMS = {2: salsa20, 3: chacha20}


def number(algorithm, key, position, text, room):
    if algorithm not in STREAMS:
        return 9
    if len(key) > LIMIT or position + len(text) > LIMIT:
        return 1
    return 17 if room < len(text) else 0
