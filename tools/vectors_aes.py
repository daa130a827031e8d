#!/usr/bin/env python3
"""Write what crates/vectors_aes must print:   tools/vectors_aes.py > crates/vectors_aes/stdout

Every block and message is computed by the Python package cryptography, which is OpenSSL: an independent
implementation of FIPS 197 and SP 800-38A. What these publish is compared with their text first (C_3, F_2_5); the key
schedule of FIPS 197, A.3, which the package does not show, is the published text itself (A_3). The keys, messages,
cuts and rows are those of crates/vectors_aes/src and crates/vectors/src, told anew here.
"""
from cryptography.hazmat.primitives.ciphers import Cipher, algorithms, modes
from messages import pattern, random

# FIPS 197, C.3: key, plaintext, ciphertext.
C_3 = (
    bytes(range(32)),
    bytes.fromhex("00112233445566778899aabbccddeeff"),
    bytes.fromhex("8ea2b7ca516745bfeafc49904b496089"),
)

# FIPS 197, A.3: the key and the words made from it, 60 in all.
A_3 = bytes.fromhex(
    "603deb10 15ca71be 2b73aef0 857d7781 1f352c07 3b6108d7 2d9810a3 0914dff4 "
    "9ba35411 8e6925af a51a8b5f 2067fcde a8b09c1a 93d194cd be49846e b75d5b9a "
    "d59aecb8 5bf3c917 fee94248 de8ebe96 b5a9328a 2678a647 98312229 2f6c79b3 "
    "812c81ad dadf48ba 24360af2 fab8b464 98c5bfc9 bebd198e 268c3ba7 09e04214 "
    "68007bac b2df3316 96e939e4 6c518d80 c814e204 76a9fb8a 5025c02d 59c58239 "
    "de136967 6ccc5a71 fa256395 9674ee15 5886ca5d 2e2f31d7 7e0af1fa 27cf73c3 "
    "749c47ab 18501dda e2757e4f 7401905a cafaaae3 e4d59b34 9adf6ace bd10190d "
    "fe4890d1 e6188d0b 046df344 706c631e"
)

# SP 800-38A, F.2.5 (and back, F.2.6): key, IV, plaintext, ciphertext.
F_2_5 = (
    A_3[:32],
    bytes(range(16)),
    bytes.fromhex(
        "6bc1bee22e409f96e93d7e117393172a ae2d8a571e03ac9c9eb76fac45af8e51 "
        "30c81c46a35ce411e5fbc1191a0a52ef f69f2445df4f9b17ad2b417be66c3710"
    ),
    bytes.fromhex(
        "f58c4c04d6e5f1ba779eabfb5f7bfbd6 9cfc4e967edb808d679f777bc6702c7d "
        "39f23369a9d9bacfa530e26304231461 b2eb05e2c39be9fcda6c19078c6a9d1b"
    ),
)


def run(operation, text):
    return operation.update(text) + operation.finalize()


def encrypt(key, block):
    return run(Cipher(algorithms.AES256(key), modes.ECB()).encryptor(), block)


def decrypt(key, block):
    return run(Cipher(algorithms.AES256(key), modes.ECB()).decryptor(), block)


def encrypt_cbc(key, iv, text):
    return run(Cipher(algorithms.AES256(key), modes.CBC(iv)).encryptor(), text)


def decrypt_cbc(key, iv, text):
    return run(Cipher(algorithms.AES256(key), modes.CBC(iv)).decryptor(), text)


def row(name, form, length, result):
    print(name, form, length, 0, result.hex())


def examples():
    key, text, published = C_3
    assert encrypt(key, text) == published
    row("aes256", "C.3", 16, published)
    row("aes256", "C.3-inverse", 16, text)
    row("aes256", "A.3", 32, A_3)
    key, iv, text, published = F_2_5
    assert encrypt_cbc(key, iv, text) == published
    row("aes256-cbc", "F.2.5", 64, published)
    row("aes256-cbc", "F.2.6", 64, text)


def blocks():
    x = 1
    for _ in range(1_000):
        x, key = random(x, 32)
        x, p = random(x, 16)
        x, c = random(x, 16)
        row("aes256", "encrypt", 16, encrypt(key, p))
        row("aes256", "decrypt", 16, decrypt(key, c))
    for n in (0, 1, 2, 1_000, 65_537):
        _, block = random(0, 16)
        cipher = Cipher(algorithms.AES256(pattern(32)), modes.ECB()).encryptor()
        for _ in range(n):
            block = cipher.update(block)
        row("aes256", f"repeated-{n}", 16, block)


def runs():
    m = pattern(300)
    key, iv = m[:32], m[32:48]
    for n in range(301):
        whole, rest = m[: n // 16 * 16], m[n // 16 * 16 : n]
        encrypted = encrypt_cbc(key, iv, whole)
        row("aes256-cbc", "encrypt", n, encrypted + rest)
        row("aes256-cbc", "encrypt-next", n, (iv + encrypted)[-16:])
        decrypted = decrypt_cbc(key, iv, whole)
        row("aes256-cbc", "decrypt", n, decrypted + rest)
        row("aes256-cbc", "decrypt-next", n, (iv + whole)[-16:])
        row("aes256-cbc", "back", n, m[:n])


examples()
blocks()
runs()
