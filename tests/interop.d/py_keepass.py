"""pykeepass for tests/interop: a request as JSON on standard input, an answer as JSON on standard output. Bytes are
hexadecimal, and so is a password; an absent password or key file (a path) is null. Run by a Python that has pykeepass.

    py_keepass.py make    path, password, key_file, before, entry    gives a vault, whose password is `before`, these
                                                                     credentials and an entry, which is in its own
                                                                     history too
    py_keepass.py read    path, password, key_file                   answers document, attachments
    py_keepass.py try     path, password, key_file                   answers nothing

The document is answered with its protected values in clear. An entry is {title, username, password, url, notes,
attachments {name: bytes}}, for the root group. A file that does not open ends in a message.
"""
import json
import sys

from lxml import etree
from pykeepass import PyKeePass

FIELDS = ("title", "username", "password", "url", "notes")


def credentials_of(asked):
    password = asked["password"]
    return None if password is None else bytes.fromhex(password).decode(), asked["key_file"]


def load(asked):
    return PyKeePass(asked["path"], *credentials_of(asked))


def make(asked):
    vault = PyKeePass(asked["path"], asked["before"])
    vault.password, vault.keyfile = credentials_of(asked)
    given = asked["entry"]
    entry = vault.add_entry(vault.root_group, **{field: given[field] for field in FIELDS})
    for name, content in given["attachments"].items():
        entry.add_attachment(vault.add_binary(bytes.fromhex(content)), name)
    entry.save_history()
    vault.save()
    return {}


def read(asked):
    vault = load(asked)
    document = etree.tostring(vault.tree, encoding="UTF-8", xml_declaration=True)
    return {"document": document.hex(), "attachments": [content.hex() for content in vault.binaries]}


def try_(asked):
    load(asked)
    return {}


MODES = {"make": make, "read": read, "try": try_}
print(json.dumps(MODES[sys.argv[1]](json.load(sys.stdin))))
