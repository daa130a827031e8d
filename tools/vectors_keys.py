#!/usr/bin/env python3
"""Write what crates/vectors_keys reads and must print:   tools/vectors_keys.py FIXTURES

FIXTURES is the folder of vaults that other programs wrote, with its manifest.json and keys/: who does not have it
cannot run this script, and needs only crates/vectors_keys/stdin and stdout, which it writes. From each vault come its
password and key file, the master seed of its header, and the transformed key as the manifest has it. Every key is
computed by Python 3's hashlib, which is OpenSSL. The composite keys are compared with the manifest's first, and the
tag key of 2^64-1 is tried on the header's tag, which the program that wrote the vault put there. The other
credentials are those of crates/vectors_keys/src, told anew here.
"""
import hmac
import pathlib
import sys

from digests import sha256, sha512
from key_files import DIGITS, key_file_part
from messages import pattern
from vaults import text_field, vaults

LIMIT = 4_194_304
TOO_LONG, WRONG_CREDENTIAL = 1, 18
NUMBERS = {"0": 0, "1": 1, "2^32": 2**32, "2^64-1": 2**64 - 1}


def composed(password, key_file, pre_hash):
    """The number and the composite key of credentials, of which each may be None."""
    if any(s is not None and len(s) > LIMIT for s in (password, key_file)):
        return TOO_LONG, bytes(32)
    if pre_hash is not None:
        alone = password is None and key_file is None
        return (0, pre_hash) if alone and len(pre_hash) == 32 else (WRONG_CREDENTIAL, bytes(32))
    parts = []
    if password is not None:
        parts.append(sha256(password))
    if key_file is not None:
        parts.append(key_file_part(key_file))
    return (0, sha256(*parts)) if parts else (WRONG_CREDENTIAL, bytes(32))


class Rows(list):
    def row(self, name, form, length, number, result):
        self.append(f"{name} {form} {length} {number} {result.hex()}")

    def composite(self, form, password=None, key_file=None):
        number, key = composed(password, key_file, None)
        self.row("composite", form, 32 * sum(s is not None for s in (password, key_file)), number, key)
        return key

    def pre_hash(self, form, pre, password=None, key_file=None):
        self.row("pre-hash", form, len(pre), *composed(password, key_file, pre))


def tag_key(i, base):
    return sha512(i.to_bytes(8, "little"), base)


def keys(rows, vault):
    key = rows.composite(vault.name, vault.password, vault.key_file)
    assert key == vault.composite, vault.name
    rows.pre_hash(vault.name, key)
    if vault.t is None:
        return
    base = sha512(vault.master_seed, vault.t, b"\x01")
    tag = hmac.new(tag_key(2**64 - 1, base), vault.header, "sha256").digest()
    assert tag == vault.header_tag, vault.name
    rows.row("cipher-key", vault.name, 64, 0, sha256(vault.master_seed, vault.t))
    rows.row("tag-base", vault.name, 65, 0, base)
    for number, i in NUMBERS.items():
        rows.row(f"tag-key-{number}", vault.name, 72, 0, tag_key(i, base))


def credentials(rows):
    m = pattern(64)
    for n in (0, 31, 32, 33, 64):
        rows.composite(f"key-file-{n}", None, m[:n])
    for form, key_file in DIGITS.items():
        rows.composite(form, None, key_file)
        rows.composite(form, b"password", key_file)
    rows.composite("none")
    rows.composite("none-but-bytes")
    rows.composite("empty-password", b"")
    rows.composite("empty-both", b"", b"")
    rows.composite("absent-password-but-bytes", None, m[:32])
    rows.composite("absent-key-file-but-bytes", b"password")
    for n in (0, 31, 32, 33):
        rows.pre_hash("alone", m[:n])
    rows.pre_hash("with-password", m[:32], b"password")
    rows.pre_hash("with-empty-password", m[:32], b"")
    rows.pre_hash("with-key-file", m[:32], None, m[:32])
    rows.pre_hash("with-both", m[:32], b"password", m[:32])
    rows.pre_hash("beside-bytes", m[:32])
    over = b"a" * (LIMIT + 1)
    longest = over[:LIMIT]
    rows.composite("longest-password", longest)
    rows.composite("longest-both", longest, longest)
    rows.composite("over-password", over)
    rows.composite("over-key-file", None, over)
    rows.pre_hash("with-over-password", b"", over)
    rows.pre_hash("with-over-key-file", b"", None, over)
    rows.pre_hash("over-a-file", over)


def main(folder):
    crate = pathlib.Path(__file__).parent.parent / "crates" / "vectors_keys"
    rows, table = Rows(), []
    for vault in vaults(folder):
        given = (vault.password, vault.key_file, vault.master_seed, vault.t)
        table.append(" ".join([vault.name, *map(text_field, given)]))
        keys(rows, vault)
    credentials(rows)
    (crate / "stdin").write_text("".join(f"{line}\n" for line in table))
    (crate / "stdout").write_text("".join(f"{line}\n" for line in rows))


if len(sys.argv) != 2:
    sys.exit(__doc__)
main(pathlib.Path(sys.argv[1]))
