#!/usr/bin/env python3
"""Write what crates/open and crates/vectors_open are run on and must print:   tools/vectors_open.py FIXTURES

FIXTURES is the folder of vaults that other programs wrote, with its manifest.json and keys/: who does not have it
cannot run this script, and needs only the files that it writes. The other vaults are bench.kdbx and hex-key.kdbx of
crates/open/data, which tools/sample.py made, damaged copies of the first, and ten that are made here. Numbers, places,
documents and hashes come from the openers of vectors_vault.py and the model of inner headers (inner_model.py), with T
by the AES and the Argon2 of the package cryptography, which is OpenSSL; the documents of the vaults in FIXTURES are
compared with the manifest's hashes. The number and the place expected of each case are told beside it, by hand.
The sentences are the indented lines of docs/REFUSALS.md, so that the gate holds the program to that page. A place other
than 0 stands behind the number, counted in the file, or in the contents where the inner header is refused.
"""
import json
import pathlib
import sys

from cryptography.hazmat.primitives.kdf.argon2 import Argon2d, Argon2id

from header_model import (
    AES_KDF, ARGON2D, ARGON2ID, CHACHA20, FILE_LIMIT, SIGNATURES, Refused, need, read_header, sound_items,
)
from inner_model import read
from key_files import key_file_part
from sample import PASSWORD, transformed
from vaults import text_field
from digests import must, sha256
from vectors_vault import (
    AES, ROUNDS, Keys, blocks, field, flipped, front, header, item, kdf, number, open_whole, text_of,
)

ROOT = pathlib.Path(__file__).parent.parent
DATA = ROOT / "crates" / "open" / "data"
PROGRAM_LIMIT = 65_536
# The refusals that have a sentence, and the words of memory that crates/vectors_open lends.
NUMBERS = (*range(1, 21), 22)
LENT = 524_288


def sentences():
    """The program's line for each number, from docs/REFUSALS.md."""
    page = (ROOT / "docs" / "REFUSALS.md").read_text().splitlines()
    lines = [line[4:] for line in page if line.startswith("    Refused ")]
    must([line.split(":")[0] for line in lines] == [f"Refused {n}" for n in NUMBERS], "docs/REFUSALS.md")
    return dict(zip(NUMBERS, lines))


def composite(password, key_file):
    parts = [] if password is None else [sha256(password)]
    if key_file is not None:
        parts.append(key_file_part(key_file))
    need(parts, 18)
    return sha256(*parts)


class ContentsRefused(Refused):
    """A refusal of the inner header: its place is counted in the payload."""


def document_of(payload):
    """What stands behind the inner header."""
    try:
        _, _, _, document, _ = read(payload)
    except Refused as r:
        raise ContentsRefused(r.no, r.place) from r
    return payload[document:]


def key_of(composite, items):
    """T by the KDF of an accepted header."""
    def figure(name):
        return int.from_bytes(items[name][1], "little")

    uuid, salt = items[b"$UUID"][1], items[b"S"][1]
    if uuid == AES_KDF:
        return transformed(composite, salt, figure(b"R"))
    form = {ARGON2D: Argon2d, ARGON2ID: Argon2id}[uuid]
    m, p = figure(b"M") // 1024, figure(b"P")
    need(128 * (m // (4 * p) * 4 * p) <= LENT, 17)
    return form(salt=salt, length=32, iterations=figure(b"I"), lanes=p, memory_cost=m).derive(composite)


def unlocked(f, password, key_file):
    need(len(f) <= PROGRAM_LIMIT, 1)
    key = composite(password, key_file)
    values, _ = read_header(f, FILE_LIMIT)
    return document_of(open_whole(f, key_of(key, sound_items(values[11])), PROGRAM_LIMIT))


class Cases:
    def __init__(self, folder):
        self.folder, self.lines, self.table, self.rows = folder, sentences(), [], []
        folder.mkdir(exist_ok=True)
        for old in folder.iterdir():
            old.unlink()

    def line(self, r):
        """What a technician sees of a refusal."""
        where = f" at byte {r.place}" if r.place else ""
        if where and isinstance(r, ContentsRefused):
            where += " of the contents"
        return self.lines[r.no].replace(":", where + ":", 1)

    def case(self, name, expected, f, password, key_file=None, file=None, place=0):
        """A vault with its credentials, and the number and the place of its opening; the document."""
        file = f"{name}.kdbx" if file is None else file
        (self.folder / file).write_bytes(f)
        self.table.append(f"{name} {file} {text_field(password)} {text_field(key_file)}")
        try:
            document = unlocked(f, password, key_file)
        except Refused as r:
            must((r.no, r.place) == (expected, place), (name, r.no, r.place))
            self.rows.append(f"{name} {self.line(r)}")
            return None
        must(expected == 0, name)
        self.rows.append(f"document {name} {len(document)} 0 {sha256(document).hex()}")
        return document


def others(cases, folder):
    """Vaults of other programs by each KDF: password, empty password, key file, both; and those that are refused."""
    entries = {entry["file"]: entry for entry in json.loads((folder / "manifest.json").read_text("utf-8"))}
    places = {"argon-i65.kdbx": 133, "argon-salt65.kdbx": 183, "rounds-4000001.kdbx": 137, "unpatched-aes.kdbx": 198}
    for file, expected in (
        ("kp2-v40-aes-aeskdf-pw.kdbx", 0), ("xc-v41-chacha-aeskdf-empty.kdbx", 0),
        ("py-v40-chacha-aeskdf-kf32.kdbx", 0), ("py-v41-aes-aeskdf-pwkf.kdbx", 0), ("v41-aes-aeskdf-kfother.kdbx", 0),
        ("kp2-v40-aes-argon2d-pw.kdbx", 0), ("kp2-v40-chacha-argon2id-pwkf.kdbx", 0),
        ("xc-v41-aes-argon2id-pw.kdbx", 0), ("xc-v40-chacha-argon2d-kfother.kdbx", 0),
        ("py-v41-chacha-argon2id-kf32.kdbx", 0), ("v40-aes-argon2d-empty.kdbx", 0), ("argon-min.kdbx", 0),
        ("argon-odd-m.kdbx", 0), ("argon-m64.kdbx", 17),
        ("argon-i65.kdbx", 22), ("argon-salt65.kdbx", 22), ("rounds-4000001.kdbx", 11), ("unpatched-aes.kdbx", 5),
    ):
        entry, f = entries[file], (folder / file).read_bytes()
        password = entry["password"].encode("utf-8") if "password" in entry else None
        key_file = (folder / entry["keyfile"]).read_bytes() if "keyfile" in entry else None
        document = cases.case(file.removesuffix(".kdbx"), expected, f, password, key_file, place=places.get(file, 0))
        must(document is None or sha256(document).hex() == entry["document_sha256"], file)
    file = "xc-v41-aes-argon2id-pw.kdbx"
    cases.case("argon2_wrong_password", 13, (folder / file).read_bytes(), b"correct hearse", file=file)


def bench(cases):
    """The sample vault, opened; with other credentials; damaged."""
    f, password = (DATA / "bench.kdbx").read_bytes(), PASSWORD.encode()
    _, frames = read_header(f, FILE_LIMIT)
    n = len(b"".join(frames))
    document = cases.case("bench", 0, f, password)
    cases.case("wrong_password", 13, f, b"open the bank", file="bench.kdbx")
    cases.case("empty_password", 13, f, b"", file="bench.kdbx")
    cases.case("key_file_too", 13, f, password, b"key", file="bench.kdbx")
    cases.case("no_credential", 18, f, None, file="bench.kdbx")
    changed = flipped(f, n - 20)
    cases.case("damaged_header", 12, changed, password)
    cases.case("changed_header", 13, changed[:n] + sha256(changed[:n]) + f[n + 32 :], password)
    cases.case("flipped_block", 14, flipped(f, n + 64 + 36 + 1000), password)
    cases.case("cut_header", 2, f[: n - 3], password, place=n - 3)
    cases.case("cut_block", 2, f[: n + 64 + 36 + 1000], password)
    cases.case("one_byte_more", 15, f + b"\0", password)
    cases.case("longest", 15, f.ljust(PROGRAM_LIMIT, b"\0"), password)
    cases.case("too_long", 1, f.ljust(PROGRAM_LIMIT + 1, b"\0"), password)
    cases.case("not_a_vault", 3, b"Unlock codes: ask at the desk.\n", password)
    cases.case("version_3", 4, SIGNATURES + b"\1\0\3\0", password, place=8)
    return document


def hex_key(cases):
    """The vault whose key file is 64 hexadecimal digits, of either case; with other key files; and without a password."""
    f, key_file, password = (DATA / "hex-key.kdbx").read_bytes(), hex_key_file(), PASSWORD.encode()
    cases.case("hex_key", 0, f, password, key_file)
    for name, expected, other in (
        ("upper", 0, key_file.upper()), ("lower", 0, key_file.lower()), ("decoded", 0, key_file_part(key_file)),
        ("hash", 13, sha256(key_file)), ("line_feed", 13, key_file + b"\n"), ("cut", 13, key_file[:63]),
        ("one_other", 13, key_file[:63] + b"g"), ("shifted", 13, key_file[1:] + key_file[:1]),
    ):
        cases.case(f"hex_key_{name}", expected, f, password, other, file="hex_key.kdbx")
    cases.case("hex_key_alone", 13, f, None, key_file, file="hex_key.kdbx")


def hex_key_file():
    return (DATA / "hex-key.key").read_bytes()


def former_rule(cases):
    """A vault that was saved with that key file under document 01's rule, which hashed it: the file's hash opens it."""
    key_file, seed = hex_key_file(), bytes(32)
    t = transformed(sha256(sha256(b"a"), sha256(key_file)), b"\x33" * 32, ROUNDS)
    c = Keys(CHACHA20, bytes(12), seed, t)
    payload = field(1, number(3, 4)) + field(2, bytes(64)) + field(0, b"") + b"<KeePassFile/>"
    f = front(c, header(c, f4=seed)) + blocks(c, text_of(c, payload), [16_384])
    cases.case("former_rule", 13, f, b"a", key_file)
    for name, other in (("hash", sha256(key_file)), ("hash_typed", sha256(key_file).hex().encode())):
        cases.case(f"former_rule_{name}", 0, f, b"a", other, file="former_rule.kdbx")


def made(cases):
    """Vaults that are tagged rightly and end wrongly, and those whose custom dictionary or contents are wrong."""
    t = transformed(composite(b"a", None), b"\x33" * 32, ROUNDS)
    a, c = Keys(AES, bytes(16), bytes(32), t), Keys(CHACHA20, bytes(12), bytes(32), t)
    wrong = a.crypt(bytes(16), False)
    cases.case("wrong_padding", 16, front(a, header(a, f4=bytes(32))) + blocks(a, wrong, [16]), b"a")
    start, algorithm, key, end = front(c, header(c, f4=bytes(32))), field(1, number(3, 4)), field(2, b""), field(0, b"")
    for name, expected, place, payload in (
        ("no_inner_header", 2, 3, b"xml"),
        ("inner_attachment_empty", 5, 40, algorithm + key + field(3, bytes(21)) + field(3, b"") + end),
        ("inner_other_algorithm", 9, 0, field(1, number(1, 4)) + key + end),
        ("inner_no_key", 8, 9, algorithm + end + key),
    ):
        cases.case(name, expected, start + blocks(c, text_of(c, payload), [16]), b"a", place=place)
    twice = b"\0\1" + 2 * item(0x18, b"name", b"bench") + b"\0"
    start = front(c, header(c, f4=bytes(32), f12=twice))
    cases.case("custom_name_twice", 6, start + blocks(c, b"", [16]), b"a", place=219)


def few_rounds(cases):
    """Two vaults that differ in nothing but their rounds, and what follows from them; and one of one round."""
    payload = field(1, number(3, 4)) + field(2, bytes(64)) + field(0, b"") + b"<KeePassFile/>"
    for rounds, expected, place in ((6_000, 0, 0), (5_999, 20, 133), (1, 20, 133)):
        c = Keys(CHACHA20, bytes(12), bytes(32), transformed(composite(b"a", None), b"\x33" * 32, rounds))
        f = front(c, header(c, f4=bytes(32), f11=kdf(rounds=rounds))) + blocks(c, text_of(c, payload), [16_384])
        cases.case(f"rounds_{rounds}", expected, f, b"a", place=place)


def main(folder):
    crate = ROOT / "crates" / "vectors_open"
    cases = Cases(crate / "data")
    others(cases, folder)
    document = bench(cases)
    hex_key(cases)
    former_rule(cases)
    made(cases)
    few_rounds(cases)
    (crate / "stdin").write_text("".join(f"{line}\n" for line in cases.table))
    (crate / "stdout").write_text("".join(f"{line}\n" for line in cases.rows + list(cases.lines.values())))
    crate = ROOT / "crates" / "open"
    (crate / "args").write_text("bench.kdbx\n")
    (crate / "stdin").write_text(f"{PASSWORD}\n")
    (crate / "stdout").write_bytes(document)


if __name__ == "__main__":
    if len(sys.argv) != 2:
        sys.exit(__doc__)
    main(pathlib.Path(sys.argv[1]))
