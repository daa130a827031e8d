#!/usr/bin/env python3
"""Write what crates/vectors_inner reads and must print:   tools/vectors_inner.py FIXTURES

FIXTURES is the folder of vaults that other programs wrote, with its manifest.json and keys/: who does not have it
cannot run this script, and needs only crates/vectors_inner/stdin and stdout, which it writes. Each vault that has a
transformed key in the manifest is decrypted by the Python package cryptography, which is OpenSSL, Argon2's vaults too;
its payload, document and attachments are compared with the manifest's lengths, places, flags and hashes. The payloads
that are damaged, and the parts of payloads to be written, are made here. Their numbers and places come from a model of
inner headers (inner_model.py), and from a writer of its own, told here in document 01's order; the number of each, and
the place of each payload, is also told beside it, by hand, and compared. No payload stands at the limit or over it: the
program's stack does not hold one, and tests/differential runs these.
"""
import json
import pathlib
import sys

from digests import sha256
from header_model import FILE_LIMIT, Refused, need
from inner_model import SIZES, field_at, read
from payloads import payload_of
from vaults import text_field, vaults

ROOM = 64


def field(id_, value=b"", size=None):
    return bytes([id_]) + (len(value) if size is None else size).to_bytes(4, "little", signed=True) + value


def write(algorithm, key, run, document, room):
    need(algorithm in (2, 3), 9)

    def attachments_alone(id_):
        need(id_ == 3, 7)
        return SIZES[3]

    at = 0
    while at < len(run):
        _, start, size = field_at(run, at, attachments_alone)
        at = start + size
    n = 19 + len(key) + len(run) + len(document)
    need(n <= FILE_LIMIT, 1)
    need(n <= room, 17)
    return field(1, algorithm.to_bytes(4, "little")) + field(2, key) + run + field(0) + document


class Rows(list):
    def row(self, name, form, figure, number, result=b""):
        self.append(f"{name} {form} {figure} {number} {result.hex()}")

    def read(self, name, s):
        """The rows of a payload; the number and the place of its reading."""
        try:
            algorithm, key, attachments, document, behind_key = read(s)
        except Refused as r:
            self.row("inner", name, r.place, r.no)
            self.row("attachment", name, r.place, r.no)
            return r.no, r.place
        self.row("inner", name, algorithm, 0, key)
        self.row("document", name, document, 0, sha256(s[document:]))
        for i, (flags, start, content) in enumerate(attachments):
            self.row("flags", name, i, 0, bytes([flags]))
            self.row("attachment", name, start, 0, sha256(content))
        self.row("attachment", name, document - 5, 8)
        try:
            again = write(algorithm, key, s[behind_key : document - 5], s[document:], 65536)
            self.row("written", name, len(again), 0, sha256(again))
        except Refused as r:
            self.row("written", name, 0, r.no)
        return 0, 0

    def write(self, name, algorithm, key, run, document, room):
        """The row of a writing; its number."""
        try:
            out = write(algorithm, key, run, document, room)
        except Refused as r:
            self.row("write", name, 0, r.no, b"\xee" * ROOM)
            return r.no
        self.row("write", name, len(out), 0, out + b"\xee" * (ROOM - len(out)))
        return 0


ALGORITHM, KEY, END = field(1, b"\x03\0\0\0"), field(2, b"key"), field(0)
ATTACHMENT = field(3, b"\x01content")
SOUND = ALGORITHM + KEY + ATTACHMENT + END

# Payloads by name, with the number and the place that each is to give. ALGORITHM has 9 bytes, KEY 8, ATTACHMENT 13.
DAMAGED = {
    "sound": (0, 0, SOUND),
    "document": (0, 0, SOUND + b"<document>"),
    "any-order": (0, 0, ATTACHMENT + KEY + field(3, b"\xff") + ALGORITHM + END),
    "three-attachments": (0, 0, ATTACHMENT + ALGORITHM + ATTACHMENT + KEY + field(3, b"\0") + END + ATTACHMENT),
    "empty-key": (0, 0, ALGORITHM + field(2) + END),
    "algorithm-2": (0, 0, field(1, b"\x02\0\0\0") + KEY + END),
    "attachment-behind-end": (0, 0, ALGORITHM + KEY + END + ATTACHMENT),
    "empty": (2, 0, b""),
    "four-bytes": (2, 4, b"\x09\0\0\0"),
    "no-end": (2, 17, ALGORITHM + KEY),
    "value-cut": (2, 29, SOUND[:29]),
    "end-cut": (2, 34, SOUND[:-1]),
    "largest-size": (2, 23, ALGORITHM + KEY + field(3, b"\0", 2**31 - 1)),
    "end-with-size": (5, 17, ALGORITHM + KEY + field(0, b"\0\0\0\0")),
    "end-with-size-cut": (5, 17, ALGORITHM + KEY + field(0, b"", 4)),
    "algorithm-of-3": (5, 0, field(1, b"\3\0\0") + KEY + END),
    "algorithm-of-5": (5, 0, field(1, b"\3\0\0\0\0") + KEY + END),
    "algorithm-of-5-last": (5, 21, KEY + ATTACHMENT + field(1, b"\3\0\0\0\0") + END),
    "no-flags": (5, 17, ALGORITHM + KEY + field(3) + END),
    "no-flags-of-second": (5, 30, ALGORITHM + KEY + ATTACHMENT + field(3) + ATTACHMENT + END),
    "negative-key": (5, 9, ALGORITHM + field(2, b"", -1) + END),
    "negative-attachment": (5, 22, ALGORITHM + ATTACHMENT + field(3, b"\0", -1) + KEY + END),
    "least-size": (5, 9, ALGORITHM + field(2, b"", -(2**31)) + END),
    "second-algorithm": (6, 17, ALGORITHM + KEY + ALGORITHM + END),
    "second-key": (6, 17, ALGORITHM + KEY + field(2) + END),
    "second-key-negative": (6, 17, ALGORITHM + KEY + field(2, b"", -1)),
    "second-key-then-second-algorithm": (6, 30, ALGORITHM + KEY + ATTACHMENT + KEY + ALGORITHM + END),
    "second-key-behind-end": (0, 0, SOUND + KEY),
    "field-4": (7, 17, ALGORITHM + KEY + field(4) + END),
    "field-255": (7, 17, ALGORITHM + KEY + field(255, b"", -1)),
    "field-4-first": (7, 0, field(4) + ALGORITHM + ALGORITHM),
    "nothing-but-end": (8, 0, END),
    "no-algorithm": (8, 8, KEY + END),
    "no-algorithm-two-attachments": (8, 34, ATTACHMENT + KEY + ATTACHMENT + END + ALGORITHM),
    "no-key": (8, 9, ALGORITHM + END),
    "no-key-three-attachments": (8, 48, ATTACHMENT + ATTACHMENT + ALGORITHM + ATTACHMENT + END),
    "no-key-unlisted": (8, 9, field(1, b"\x01\0\0\0") + END),
    "algorithm-0": (9, 0, field(1, b"\0\0\0\0") + KEY + END),
    "algorithm-1": (9, 0, field(1, b"\1\0\0\0") + KEY + END),
    "algorithm-1-last": (9, 21, KEY + ATTACHMENT + field(1, b"\1\0\0\0") + END),
    "algorithm-4": (9, 0, field(1, b"\4\0\0\0") + KEY + END),
    "algorithm-high-byte": (9, 0, field(1, b"\3\0\0\1") + KEY + END),
}

# Parts of a payload by name: the number, algorithm, key, run, document and room.
PARTS = {
    "least": (0, 2, b"", b"", b"", 19),
    "whole": (0, 3, b"key", ATTACHMENT + field(3, b"\0"), b"<>", ROOM),
    "just-room": (0, 3, b"key", ATTACHMENT, b"<>", 37),
    "no-room": (17, 3, b"key", ATTACHMENT, b"<>", 36),
    "no-room-at-all": (17, 2, b"", b"", b"", 0),
    "algorithm-1": (9, 1, b"key", b"", b"", ROOM),
    "algorithm-0-broken-run": (9, 0, b"key", b"\3", b"", 0),
    "run-cut": (2, 2, b"", b"\3\0\0\0", b"", ROOM),
    "run-value-cut": (2, 2, b"", ATTACHMENT[:-1], b"", ROOM),
    "run-of-ends": (7, 2, b"", END, b"", ROOM),
    "run-of-algorithms": (7, 2, b"", ALGORITHM, b"", ROOM),
    "run-of-keys": (7, 2, b"", ATTACHMENT + KEY, b"", ROOM),
    "run-of-4": (7, 2, b"", field(4, b"", -1), b"", 0),
    "run-without-flags": (5, 2, b"", ATTACHMENT + field(3), b"", 0),
    "run-negative": (5, 2, b"", field(3, b"\0", -1), b"", ROOM),
}


def from_vaults(rows, table, folder):
    entries = json.loads((folder / "manifest.json").read_text("utf-8"))
    for vault, entry in zip(vaults(folder), entries, strict=True):
        if vault.t is None:
            continue
        s = payload_of(vault)
        _, _, attachments, document, _ = read(s)
        assert len(s) == entry["payload_length"] and sha256(s).hex() == entry["payload_sha256"], vault.name
        assert sha256(s[document:]).hex() == entry["document_sha256"], vault.name
        shown = [[start, len(content), flags, sha256(content).hex()] for flags, start, content in attachments]
        assert shown == entry["attachments"], vault.name
        table.append(f"read {vault.name} {text_field(s)}")
        assert rows.read(vault.name, s) == (0, 0)


def made_here(rows, table):
    for name, (number, place, s) in DAMAGED.items():
        table.append(f"read {name} {text_field(s)}")
        assert rows.read(name, s) == (number, place), name
    for name, (number, algorithm, key, run, document, room) in PARTS.items():
        parts = " ".join(map(text_field, (key, run, document)))
        table.append(f"write {name} {algorithm} {parts} {room}")
        assert rows.write(name, algorithm, key, run, document, room) == number, name


def long(rows):
    """The rows of `long`: a document of zeros, read and written."""
    header = field(1, b"\x03\0\0\0") + field(2) + END
    payload = header.ljust(4_194_305, b"\0")
    assert rows.read("long", payload) == (0, 0)
    assert rows.write("long", 3, b"", b"", payload, 0) == 17


def main(folder):
    crate = pathlib.Path(__file__).parent.parent / "crates" / "vectors_inner"
    rows, table = Rows(), []
    from_vaults(rows, table, folder)
    made_here(rows, table)
    long(rows)
    (crate / "stdin").write_text("".join(f"{line}\n" for line in table))
    (crate / "stdout").write_text("".join(f"{line}\n" for line in rows))


if len(sys.argv) != 2:
    sys.exit(__doc__)
main(pathlib.Path(sys.argv[1]))
