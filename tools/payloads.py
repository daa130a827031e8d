"""The payloads of vaults, decrypted by the Python package cryptography, which is OpenSSL."""
import hashlib

from cryptography.hazmat.primitives import padding
from cryptography.hazmat.primitives.ciphers import Cipher, algorithms, modes

from header_model import AES


def ciphertext_of(vault):
    """The ciphertext of a vault: the data of its blocks, joined."""
    data, at = b"", len(vault.header) + 64
    while size := int.from_bytes(vault.file[at + 32 : at + 36], "little"):
        data += vault.file[at + 36 : at + 36 + size]
        at += 36 + size
    return data


def payload_of(vault):
    """The payload of a vault, decrypted by its transformed key."""
    data = ciphertext_of(vault)
    key, nonce = hashlib.sha256(vault.master_seed + vault.t).digest(), vault.fields[7]
    if vault.fields[2] == AES:
        decryptor = Cipher(algorithms.AES(key), modes.CBC(nonce)).decryptor()
        unpadder = padding.PKCS7(128).unpadder()
        return unpadder.update(decryptor.update(data) + decryptor.finalize()) + unpadder.finalize()
    return Cipher(algorithms.ChaCha20(key, bytes(4) + nonce), None).decryptor().update(data)
