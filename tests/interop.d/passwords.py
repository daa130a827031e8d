"""Passwords of many lengths, for tests/interop (document 02, Item 1): vaults whose protected values go over the borders
of the stream's blocks, made with both algorithms by File::KDBX, pykeepass and the library, and by KeePassXC, which
covers them anew with ChaCha20.

What the library uncovers is what was given to the program that made the vault, and what all programs read from it; and
KeePassXC shows the password of each entry.
"""
import dataclasses
import random

import documents
import exchange
import forms
import key_files
from exchange import same
from peers import Credentials

# In bytes, and in the order of a document that is made here: the 23 and 19 of document 02; none; one; beside a block's
# 64, each over a border; over several; up to a border (448); a block by itself; from a border (512) on, over more
# blocks than a byte counts. The last entry has a hidden string too, and a history, whose values are covered as well.
LENGTHS = (23, 19, 0, 1, 63, 64, 65, 200, 13, 64, 20_000, 7)
HIDDEN, FORMER = 129, 40
SIGNS = "aZ7 &<]>\"'äß€漢😀"


def text(chance, size):
    """A text of so many bytes, of characters that have one to four."""
    made, left = [], size
    while left:
        made.append(chance.choice([sign for sign in SIGNS if len(sign.encode()) <= left]))
        left -= len(made[-1].encode())
    return "".join(made)


@dataclasses.dataclass(frozen=True)
class Case(forms.Form):
    """A vault with an entry for each length."""

    @property
    def name(self):
        return f"passwords-{documents.STREAMS[self.algorithm].lower()}-{self.cipher}-4.{self.minor}"

    def entries(self, sizes):
        """The entries, without attachments."""
        chance, made = random.Random(self.name), []
        for at, length in enumerate(LENGTHS, 1):
            given = {"group": [], "title": f"Entry {at}", "username": "üser", "password": text(chance, length)}
            made.append(given | {"url": "", "notes": f"{length} bytes", "attachments": {}})
        made[-1] |= {"former": text(chance, FORMER), "hidden": {"PIN €": text(chance, HIDDEN)}}
        return made


def all_of_them():
    """Both algorithms with both ciphers, and each algorithm and each cipher with both minor versions."""
    credentials = Credentials("pw", forms.PASSWORD, None)
    ciphers = list(forms.NONCE_SIZE)
    turns = [(turn, ciphers[turn // 2], (turn + turn // 2) % 2) for turn in range(4)]
    return [Case(cipher, minor, credentials, forms.AES_KDF, turn) for turn, cipher, minor in turns]


def given_are_found(case, vault):
    """All protected values of the entries that were given are there."""
    found = {entry["title"]: entry for entry in vault.entries}
    for given in case.entries(()):
        entry = found[given["title"]]
        same(f"the password of {given['title']}", entry["password"], given["password"])
        for name, value in given.get("hidden", {}).items():
            same(f"the string {name}", entry["strings"][name], value)
        if "former" in given:
            same("the former password", entry["history"][0]["Password"], given["former"])


def agree(driver, path, case, algorithm):
    """A vault of a case, from which all read the passwords that were given."""
    figures, vault = exchange.read(driver, path, case.credentials, {"minor": case.minor, "cipher": case.cipher})
    same("the algorithm", vault.payload.algorithm, algorithm)
    given_are_found(case, vault)
    exchange.agree_shown(path, case.credentials, vault)
    return figures


def read(driver, path, case, producer, make):
    """A vault that another program makes."""
    make(path, case, case.credentials)
    return agree(driver, path, case, documents.CHACHA20 if producer == "KeePassXC" else case.algorithm)


def write(driver, path, case):
    """A vault that is written here, of a document whose values the library covered."""
    header = forms.header_of(case) | {"custom": b""}
    path.write_bytes(exchange.written(driver, case.credentials, header, forms.payload_of(driver, case, None)))
    return agree(driver, path, case, case.algorithm)


def rows(table, driver, folder):
    path, cases = folder / "made.kdbx", all_of_them()
    for producer, make in key_files.producers().items():
        for case in cases:
            table.row("read", case.name, producer, "pw", read, driver, path, case, producer, make)
    for case in cases:
        table.row("write", case.name, "us", "pw", write, driver, path, case)
