#!/usr/bin/env python3
"""Write what crates/vectors_kdf reads and must print:   tools/vectors_kdf.py FIXTURES

FIXTURES is the folder of vaults that other programs wrote, with its manifest.json: who does not have it cannot run
this script, and needs only crates/vectors_kdf/stdin and stdout, which it writes. From each vault with AES-KDF come
the seed and the rounds of its header, and the composite key as the manifest has it. Every round is done by the Python
package cryptography, which is OpenSSL, and every hash by Python 3's hashlib. The vaults' transformed keys are
compared with the manifest's first. The other figures, the steps and rows are those of crates/vectors_kdf/src, told
anew here.
"""
import hashlib
import pathlib
import sys

from cryptography.hazmat.primitives.ciphers import Cipher, algorithms, modes
from messages import pattern, random
from vaults import text_field, vaults

AES_KDF = bytes.fromhex("c9d9f39a628a4460bf740d08c18a4fea")
LIMIT = 4_000_000
TOO_MANY_ROUNDS, OUT_OF_SEQUENCE = 11, 19


def advanced(halves, seed, rounds):
    """Both halves after so many rounds: ECB takes the two blocks alike."""
    cipher = Cipher(algorithms.AES256(seed), modes.ECB()).encryptor()
    for _ in range(rounds):
        halves = cipher.update(halves)
    return halves


def transformed(composite, seed, rounds):
    return hashlib.sha256(advanced(composite, seed, rounds)).digest()


class Rows(list):
    def row(self, name, form, length, number, result):
        self.append(f"{name} {form} {length} {number} {result.hex()}")

    def start(self, form, composite, rounds):
        if rounds > LIMIT:
            return self.row("start", form, rounds, TOO_MANY_ROUNDS, bytes(32))
        self.row("start", form, rounds, 0, composite)

    def early(self, form, done):
        self.row("transformed", form, done, OUT_OF_SEQUENCE, bytes(32))

    def whole(self, form, composite, seed, rounds):
        self.start(form, composite, rounds)
        if rounds > LIMIT:
            return self.early(form, 0)
        self.row("transformed", form, rounds, 0, transformed(composite, seed, rounds))


def cases(rows):
    composite, (_, seed) = pattern(32), random(0, 32)
    for n in (1, 7, 999, 65_536, 100_000, 2**64 - 1):
        rows.whole(f"by-{n}", composite, seed, 100_000)
    rows.start("by-30000", composite, 100_000)
    halves, done = composite, 0
    for n in (30_000, 30_000, 30_000, 10_000, 0):
        halves, done = advanced(halves, seed, n), done + n
        rows.row("halves", "by-30000", done, 0, halves)
    rows.row("transformed", "by-30000", done, 0, hashlib.sha256(halves).digest())
    x = 2
    for _ in range(200):
        x, key = random(x, 32)
        x, salt = random(x, 32)
        x, four = random(x, 4)
        rows.whole("random", key, salt, int.from_bytes(four, "big") % 2_001)
    for n in (0, 1, 2, 2_000):
        rows.whole("rounds", composite, seed, n)
    rows.start("rounds", composite, 10)
    for done in (0, 9, 9):
        rows.early("rounds", done)
    rows.row("transformed", "rounds", 10, 0, transformed(composite, seed, 10))
    rows.start("rounds", composite, LIMIT)
    for n in (LIMIT + 1, 2**32, 2**32 + 1, 2**64 - 1):
        rows.whole("rounds", composite, seed, n)


def main(folder):
    crate = pathlib.Path(__file__).parent.parent / "crates" / "vectors_kdf"
    rows, table = Rows(), []
    for vault in vaults(folder):
        if vault.kdf[b"$UUID"] != AES_KDF:
            continue
        seed, rounds = vault.kdf[b"S"], int.from_bytes(vault.kdf[b"R"], "little")
        table.append(f"{vault.name} {text_field(vault.composite)} {text_field(seed)} {rounds}")
        rows.whole(vault.name, vault.composite, seed, rounds)
        assert vault.t is None or rows[-1].endswith(f" 0 {vault.t.hex()}"), vault.name
    cases(rows)
    (crate / "stdin").write_text("".join(f"{line}\n" for line in table))
    (crate / "stdout").write_text("".join(f"{line}\n" for line in rows))


if __name__ == "__main__":
    if len(sys.argv) != 2:
        sys.exit(__doc__)
    main(pathlib.Path(sys.argv[1]))
