"""What the scripts take from a folder of vaults that other programs wrote: its manifest.json, keys/ and the vaults.

It is a reader of its own, written from the published KDBX 4 page, for the scripts alone.
"""
import json


def text_field(value):
    """Bytes, or None where they are absent, as a field of the tables that crates/vectors/src/table.rt reads."""
    return "-" if value is None else "=" + value.hex()


class Vault:
    def __init__(self, folder, entry):
        self.name = entry["file"].removesuffix(".kdbx")
        self.password = entry["password"].encode("utf-8") if "password" in entry else None
        self.key_file = (folder / entry["keyfile"]).read_bytes() if "keyfile" in entry else None
        self.composite = bytes.fromhex(entry["composite"])
        self.t = bytes.fromhex(entry["T"]) if "T" in entry else None
        self.file = (folder / entry["file"]).read_bytes()
        self.fields, at = {}, 12
        while 0 not in self.fields:
            size = int.from_bytes(self.file[at + 1 : at + 5], "little")
            self.fields[self.file[at]] = self.file[at + 5 : at + 5 + size]
            at += 5 + size
        self.header_tag = self.file[at + 32 : at + 64]
        self.header = self.file[:at]
        self.master_seed = self.fields[4]
        self.kdf = dictionary(self.fields[11])


def dictionary(bytes_):
    """The items of a dictionary, their names as bytes."""
    items, at = {}, 2
    while bytes_[at] != 0:
        parts, at = [], at + 1
        for _ in range(2):
            size = int.from_bytes(bytes_[at : at + 4], "little")
            parts.append(bytes_[at + 4 : at + 4 + size])
            at += 4 + size
        items[parts[0]] = parts[1]
    return items


def vaults(folder):
    return [Vault(folder, entry) for entry in json.loads((folder / "manifest.json").read_text("utf-8"))]
