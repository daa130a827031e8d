#!/usr/bin/env python3
"""Make a sample vault of crates/open/data:   tools/sample.py bench | hex-key

A vault of no entries is made here, with AES-256, 100,000 rounds of AES-KDF and no compression, and keepassxc-cli
(KeePassXC) adds the instruments to it. What is stored is therefore KeePassXC's own file, with seeds of its choosing: a
new run writes another file, and tools/vectors_open.py has to be run behind it. bench.kdbx opens by its password,
hex-key.kdbx by the same password and the key file hex-key.key, which is 64 hexadecimal digits of both cases.
"""
import base64
import os
import pathlib
import secrets
import subprocess
import sys

from cryptography.hazmat.primitives.ciphers import Cipher, algorithms, modes
from header_model import AES
from digests import sha256
from key_files import key_file_part
from vectors_vault import Keys, blocks, field, front, header, kdf, number, text_of

PASSWORD = "open the bench"
ROUNDS = 100_000
DATA = pathlib.Path(__file__).parent.parent / "crates" / "open" / "data"
INSTRUMENTS = (
    ("Oscilloscope 4104", "service", "Unlock code 7130-2264"),
    ("Signal generator SG-2", "service", "Unlock code 5518-0937, PRESET held while it is switched on"),
    ("Power supply PS-30", "bench", "Unlock code 0042-1187"),
)


def transformed(composite, seed, rounds):
    """T, by the AES of the package cryptography, which is OpenSSL."""
    encryptor = Cipher(algorithms.AES(seed), modes.ECB()).encryptor()
    halves = composite
    for _ in range(rounds):
        halves = encryptor.update(halves)
    return sha256(halves)


def empty_vault(composite):
    """A vault with one group and no entry."""
    kdf_seed, seed, nonce = secrets.token_bytes(32), secrets.token_bytes(32), secrets.token_bytes(16)
    keys = Keys(AES, nonce, seed, transformed(composite, kdf_seed, ROUNDS))
    group = base64.b64encode(secrets.token_bytes(16)).decode()
    document = (
        '<?xml version="1.0" encoding="utf-8" standalone="yes"?>\n<KeePassFile><Meta><Generator>Preenvalley</Generator>'
        f"<DatabaseName>Bench 3</DatabaseName></Meta><Root><Group><UUID>{group}</UUID><Name>Instruments</Name>"
        "</Group></Root></KeePassFile>"
    ).encode()
    inner = field(1, number(3, 4)) + field(2, secrets.token_bytes(64)) + field(0, b"")
    head = header(keys, f4=seed, f11=kdf(rounds=ROUNDS, seed=kdf_seed))
    # In blocks as the writer cut them before document 02's Item 7: a reader takes blocks of any size.
    return front(keys, head) + blocks(keys, text_of(keys, inner + document), [16_384])


def keepassxc(command, *arguments):
    environment = os.environ | {"QT_QPA_PLATFORM": "offscreen", "LC_ALL": "C.UTF-8"}
    subprocess.run(
        ["keepassxc-cli", command, "--quiet", *arguments], input=f"{PASSWORD}\n".encode(), check=True, env=environment
    )


def make(vault, *key_file):
    """The vault, with the path of its key file where it has one."""
    parts = [sha256(PASSWORD.encode()), *(key_file_part(path.read_bytes()) for path in key_file)]
    vault.write_bytes(empty_vault(sha256(*parts)))
    options = [word for path in key_file for word in ("-k", path)]
    for title, user, notes in INSTRUMENTS:
        keepassxc("add", *options, "-u", user, "--notes", notes, "-g", vault, title)


def main(name):
    DATA.mkdir(exist_ok=True)
    if name == "bench":
        make(DATA / "bench.kdbx")
    elif name == "hex-key":
        key_file = DATA / "hex-key.key"
        key_file.write_text(secrets.token_hex(16) + secrets.token_hex(16).upper())
        make(DATA / "hex-key.kdbx", key_file)
    else:
        sys.exit(__doc__)


if __name__ == "__main__":
    main(sys.argv[1] if len(sys.argv) == 2 else "")
