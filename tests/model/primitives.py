"""The named standards, from OpenSSL: FIPS 180-4, RFC 2104, FIPS 197 with SP 800-38A, RFC 8439, RFC 9106."""

import hashlib
import hmac

from cryptography.hazmat.primitives.ciphers import Cipher, algorithms, modes
from cryptography.hazmat.primitives.kdf.argon2 import Argon2d, Argon2id


def sha256(*parts):
    """SHA-256 of the parts joined."""
    return hashlib.sha256(b"".join(parts)).digest()


def sha512(*parts):
    """SHA-512 of the parts joined."""
    return hashlib.sha512(b"".join(parts)).digest()


def hmac_sha256(key, message):
    """HMAC-SHA-256."""
    return hmac.digest(key, message, "sha256")


def aes_blocks(key):
    """A function that encrypts each 16-byte block of its argument by itself."""
    return Cipher(algorithms.AES(key), modes.ECB()).encryptor().update


def cbc_encrypt(key, iv, data):
    """AES-256-CBC of whole 16-byte pieces; the padding is the caller's part."""
    return Cipher(algorithms.AES(key), modes.CBC(iv)).encryptor().update(data)


def cbc_decrypt(key, iv, data):
    """The inverse of cbc_encrypt; the padding stays in it."""
    return Cipher(algorithms.AES(key), modes.CBC(iv)).decryptor().update(data)


def chacha20(key, nonce, data, block=0):
    """ChaCha20 with the counter from that block on; it is its own inverse."""
    counter = (block % 2**32).to_bytes(4, "little")
    return Cipher(algorithms.ChaCha20(key, counter + nonce), None).encryptor().update(data)


def argon2(kind, password, salt, passes, kibibytes, lanes):
    """32 bytes of Argon2d or Argon2id, version 0x13, without secret and associated data."""
    variant = {"argon2d": Argon2d, "argon2id": Argon2id}[kind]
    run = variant(salt=salt, length=32, iterations=passes, lanes=lanes, memory_cost=kibibytes)
    return run.derive(password)
