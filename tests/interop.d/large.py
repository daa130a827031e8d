"""Vaults over the file limit of before, for tests/interop (document 02, Item 7): with a manual as an attachment, made
by the other programs and by the library, with both ciphers.
"""
import dataclasses

import exchange
import forms
import key_files
from exchange import same
from peers import Credentials

FORMER_LIMIT = 4_194_304
# Of the manual, by who makes the vault. File::KDBX's is short because its JSON is slow.
MANUALS = {"File::KDBX": 5_000_000, "KeePassXC": 9_000_000, "pykeepass": 7_000_000, "us": 12_000_000}
# Both have File::KDBX write blocks of 1 MiB (forms.BLOCKS), and each has an inner algorithm of its own.
TURNS = {"aes": 4, "chacha": 9}


@dataclasses.dataclass(frozen=True)
class Large(forms.Form):
    """A vault with a manual, which its maker attaches. (KeePassXC and pykeepass change a vault of File::KDBX.)"""

    maker: str

    @property
    def name(self):
        return f"large-{self.cipher}-4.{self.minor}"

    @property
    def sizes(self):
        return (MANUALS[self.maker],) if self.maker == "File::KDBX" else ()

    @property
    def added(self):
        return MANUALS[self.maker]


def all_of(maker):
    credentials = Credentials("pw", forms.PASSWORD, None)
    return [Large(cipher, turn % 2, credentials, forms.AES_KDF, turn, maker) for cipher, turn in TURNS.items()]


def large(figures):
    """The figures of a vault that was refused before."""
    same("whether it is over the former limit", figures.size > FORMER_LIMIT, True)
    return figures


def read(driver, path, form, make):
    return large(forms.read_made(driver, path, form, make))


def write(driver, path, form):
    header = forms.header_of(form) | {"custom": forms.custom_of(form)}
    payload = forms.payload_of(driver, form, MANUALS[form.maker])
    return large(exchange.write(driver, path, form.credentials, header, payload))


def rows(table, driver, folder):
    path = folder / "made.kdbx"
    for producer, make in key_files.producers().items():
        for form in all_of(producer):
            table.row("read", form.name, producer, "pw", read, driver, path, form, make)
    for form in all_of("us"):
        table.row("write", form.name, "us", "pw", write, driver, path, form)
