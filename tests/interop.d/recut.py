"""Vaults in other blocks, for tests/interop (document 02, Item 13): those of each program and of the library, and some
fixtures, cut anew at 1,000 bytes as another maker's program cuts, at single bytes and at odd sizes.

tests/model cuts them, apart from the library. Each program reads the same of the file before and of the file after, and
the library opens both to the same payload, the one after whole and block by block.
"""
import dataclasses
import functools
import itertools
import xml.etree.ElementTree as ElementTree

import documents
import exchange
import forms
import key_files
import library
import peers
from exchange import same
from inputs.recuts import adding_up
from model.recut import recut
from peers import Credentials

# The sizes of the new blocks, in turn, by the name of the cutting; the last block has what is left.
CUTS = {"1000": (1000,), "single": (1,), "odd": (5, 27, 1, 1001, 16)}
# Before the cutting File::KDBX has blocks of 16,384 bytes and of 1 MiB (forms.BLOCKS). Each cipher has a minor version
# and an inner algorithm of its own.
TURNS = {"aes": 13, "chacha": 4}
# The fixtures that are cut, and how.
FIXTURES = {
    "kp2-v40-aes-aeskdf-pw": "1000",
    "kp2-v40-chacha-argon2id-pwkf": "1000",
    "xc-v41-aes-argon2id-pw": "1000",
    "xc-v40-chacha-aeskdf-pw": "odd",
    "py-v40-chacha-aeskdf-kf32": "1000",
    "py-v41-aes-aeskdf-pwkf": "single",
    "block-aes-17": "1000",
    "block-chacha-33": "single",
}
# What each program reads of a vault. KeePassXC exports the items of custom data in another order each time.
READINGS = {
    "KeePassXC": lambda *vault: documents.canonical(ElementTree.fromstring(peers.exported(*vault))),
    "File::KDBX": functools.partial(peers.perl, "read"),
    "pykeepass": functools.partial(peers.pykeepass, "read"),
}


@dataclasses.dataclass(frozen=True)
class Recut(forms.Form):
    """A vault to be made and cut."""

    cut: str

    @property
    def name(self):
        return f"{name_of(self.cut)}{self.cipher}-4.{self.minor}"

    @property
    def sizes(self):
        return (300, 0)

    @property
    def added(self):
        return 2560


def name_of(cut):
    """How the name of a vault begins that is cut so."""
    return f"recut-{cut}-"


def all_of_them():
    credentials = Credentials("pw", forms.PASSWORD, None)
    pairs = itertools.product(CUTS, TURNS.items())
    return [Recut(cipher, turn % 2, credentials, forms.AES_KDF, turn, cut) for cut, (cipher, turn) in pairs]


def reads_the_same(program, before, after, credentials):
    """A program reads the same of two vaults."""
    read = READINGS[program]
    same(f"{program}: what it reads", read(before, credentials), read(after, credentials))


def agree(driver, before, after, credentials, cut):
    """A vault is cut into another file, which all read as before, and not with a byte changed."""
    file = before.read_bytes()
    opened = library.opened(driver, file, credentials)
    sizes = adding_up(itertools.cycle(CUTS[cut]), sum(opened.blocks))
    made = recut(file, opened.t, sizes)
    after.write_bytes(made)
    known = {"minor": opened.minor, "cipher": opened.cipher, "kdf": opened.kdf, "blocks": [*sizes, 0]}
    figures, vault = exchange.read(driver, after, credentials, known)
    same("the payload", vault.payload, opened.payload)
    exchange.at_once({program: (reads_the_same, program, before, after, credentials) for program in figures.by})
    after.write_bytes(library.changed_in_front(driver, made))
    for program in figures.by:
        exchange.refuses(program, key_files.programs()[program], after, credentials)
    return figures


def read(driver, path, form, make):
    """A vault that another program makes."""
    make(path, form, form.credentials)
    return agree(driver, path, path.with_name("recut.kdbx"), form.credentials, form.cut)


def write(driver, path, form):
    """A vault that is written here."""
    header = forms.header_of(form) | {"custom": forms.custom_of(form)}
    path.write_bytes(exchange.written(driver, form.credentials, header, forms.payload_of(driver, form, None)))
    return agree(driver, path, path.with_name("recut.kdbx"), form.credentials, form.cut)


def rows(table, driver, folder):
    path, forms_ = folder / "made.kdbx", all_of_them()
    for producer, make in key_files.producers().items():
        for form in forms_:
            table.row("read", form.name, producer, "pw", read, driver, path, form, make)
    for form in forms_:
        table.row("write", form.name, "us", "pw", write, driver, path, form)
