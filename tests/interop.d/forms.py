"""Vaults made on the spot, for tests/interop: which there are, and how File::KDBX, KeePassXC, pykeepass and the library
make them.
"""
import dataclasses
import itertools
import random

import dictionaries
import documents
import exchange
import library
import peers
from peers import Credentials

NONCE_SIZE = {"aes": 16, "chacha": 12}
MINORS = (0, 1)
AES_KDF = {"kind": "aeskdf", "R": 6000}  # but for the seed, and so below
# Of Argon2: KeePass's own figures but for the memory; the least; blocks that RFC 9106 leaves out; many lanes; the most
# passes. The length of the salt is that of a vault written here; KeePassXC takes 8 to 32 bytes.
ARGON2 = (
    {"I": 2, "M": 1_048_576, "P": 2, "salt": 32},
    {"I": 1, "M": 8_192, "P": 1, "salt": 8},
    {"I": 3, "M": 100_000, "P": 3, "salt": 32},
    {"I": 2, "M": 200_000, "P": 16, "salt": 16},
    {"I": 64, "M": 70_000, "P": 4, "salt": 31},
)
PASSWORD = "pässword € 1"
BASE = Credentials("base", "base", None)
DATA = {"terminal": "bench ä", "revision": "7"}
# Of the data blocks of a vault that File::KDBX writes; 1 MiB is its own and KeePassXC's.
BLOCKS = (17, 33, 1000, 16_384, None)
# Of the attachments of a vault that File::KDBX writes, and of one that KeePassXC or pykeepass adds: the last is past a
# block of theirs.
SIZES = ((), (0, 1, 300), (40_000, 17, 1))
ADDED = (2560, 2560, 33, 2560, 1_300_000)
# Of a payload written here: as it comes; two blocks of AES before document 02's Item 7; the last that AES puts into one
# block; the last of ChaCha20; three blocks.
PAYLOADS = (None, 16_384, 1_048_575, 1_048_576, 2_500_000)


@dataclasses.dataclass(frozen=True)
class Form:
    """A vault to be made. `turn` chooses all else, so that each choice stands beside several others."""

    cipher: str
    minor: int
    credentials: Credentials
    kdf: dict
    turn: int

    @property
    def name(self):
        kind = self.kdf["kind"]
        return f"{self.cipher}-4.{self.minor}-{self.credentials.name}{'' if kind == 'aeskdf' else f'-{kind}'}"

    @property
    def algorithm(self):
        return (documents.CHACHA20, documents.SALSA20)[self.turn % 2]

    @property
    def sizes(self):
        """Of the attachments that File::KDBX writes."""
        return SIZES[self.turn // 2 % 3]

    @property
    def added(self):
        """The size of the attachment that KeePassXC or pykeepass adds."""
        return ADDED[self.turn % 5]

    def bytes_of(self, what, size):
        return random.Random(f"{self.name} {what}").randbytes(size)

    def entries(self, sizes):
        """Three entries, in groups, with an attachment of each size; the first has a history and a hidden string."""
        groups = ([], ["Manuals & tools <1>"], ["Manuals & tools <1>", "Inner ä"])
        passwords = (f"pässwörd-€-{self.name}", "", "]]> & <password>")
        made = []
        for at, (group, password) in enumerate(zip(groups, passwords), 1):
            given = {"group": group, "title": f"Entry {at}", "username": f"user {at}", "password": password}
            attachments = {f"file{size}.bin": self.bytes_of(size, size) for size in sizes[at - 1 :: 3]}
            made.append(given | {"url": f"https://example.org/{at}", "notes": "two\nlines", "attachments": attachments})
        made[0] |= {"former": f"förmer-{self.name}", "hidden": {"PIN €": "0000 ä"}}
        return made


def all_in(folder):
    """All of them, with their key files in a folder: with AES-KDF all credentials, with either Argon2 some."""
    kf32, kfother = folder / "kf32.key", folder / "kfother.key"
    kf32.write_bytes(random.Random("kf32").randbytes(32))
    kfother.write_bytes(random.Random("kfother").randbytes(43))
    credentials = [("pw", PASSWORD, None), ("kf32", None, kf32), ("kfother", None, kfother)]
    credentials += [("both", PASSWORD, kf32), ("empty", "", None)]
    made = [
        Form(cipher, minor, Credentials(*credential), AES_KDF, k + 2 * minor + c)
        for c, cipher in enumerate(NONCE_SIZE)
        for minor in MINORS
        for k, credential in enumerate(credentials)
    ]
    for kind, cipher, minor, _ in itertools.product(("argon2d", "argon2id"), NONCE_SIZE, MINORS, range(2)):
        turn = len(made)
        credential = Credentials(*credentials[(turn + turn // 5) % 5])
        made.append(Form(cipher, minor, credential, {"kind": kind} | ARGON2[turn % 5], turn))
    return made


def make_file_kdbx(path, form, credentials, end=True):
    """A vault that File::KDBX writes."""
    custom = [["text", "püblic"], ["number", 7], ["large", 2**40], ["yes", True], ["bytes", {"bytes": "00ff"}]]
    asked = {"minor": form.minor, "cipher": form.cipher, "kdf": form.kdf, "algorithm": form.algorithm}
    asked |= {"block": BLOCKS[form.turn % 5], "end": end, "custom": custom if form.turn % 3 else [], "data": DATA}
    peers.perl("make", path, credentials, **asked, entries=form.entries(form.sizes))


def make_keepassxc(path, form, credentials):
    """A vault that KeePassXC writes: one of File::KDBX, to which it gives credentials, a group and an entry."""
    make_file_kdbx(path, form, BASE)
    content = path.with_suffix(".content")
    content.write_bytes(form.bytes_of("content", form.added))
    peers.set_credentials(path, BASE, credentials)

    def change(command, *arguments, **more):
        peers.keepassxc(command, path, credentials, *arguments, **more)

    change("mkdir", "XC gröup")
    options = ["--username", "xc user", "--url", "https://example.org/xc", "--notes", "nöte", "--password-prompt"]
    change("add", "/XC gröup/XC entry", options=options, answers=[f"xc-secret-€-{form.name}"])
    change("attachment-import", "/XC gröup/XC entry", "content.bin", content)
    options = ["--username", "xc user again", "--password-prompt"]
    change("edit", "/XC gröup/XC entry", options=options, answers=[f"xc-öther-{form.name}"])
    if form.minor == 1:
        change("mv", "/Entry 1", "/XC gröup")


def make_pykeepass(path, form, credentials):
    """A vault that pykeepass writes: one of File::KDBX, to which it gives credentials and an entry."""
    make_file_kdbx(path, form, BASE)
    entry = {"title": "Py entry", "username": "py user", "password": f"py-secret-€-{form.name}", "notes": "nöte"}
    entry |= {"url": "https://example.org/py", "attachments": {"content.bin": form.bytes_of("content", form.added)}}
    peers.pykeepass("make", path, credentials, before=BASE.password, entry=entry)


def make_by_db_create(path, form, credentials):
    """A new vault of KeePassXC's command line, which is of KDBX 3.1."""
    path.unlink(missing_ok=True)
    peers.create(path, credentials.password)


def make_without_end_bytes(path, form, credentials):
    """A vault of File::KDBX as it comes."""
    make_file_kdbx(path, form, credentials, end=False)


def read_made(driver, path, form, make):
    make(path, form, form.credentials)
    return exchange.read(driver, path, form.credentials, {"minor": form.minor, "cipher": form.cipher})[0]


def refuse_made(driver, path, form, make, number):
    make(path, form, form.credentials)
    return exchange.read_refused(driver, path, form.credentials, number)


def custom_of(form):
    """A custom dictionary: none, one with an item of each type, or one with empty values too."""
    numbers = [(dictionaries.UINT32, 7), (dictionaries.UINT64, 2**63)]
    numbers += [(dictionaries.INT32, -7), (dictionaries.INT64, -(2**40))]
    items = [(type_, b"number %02x" % type_, dictionaries.number(type_, value)) for type_, value in numbers]
    items += [(dictionaries.BOOL, b"yes", b"\x01"), (dictionaries.STRING, b"text", "püblic".encode())]
    items += [(dictionaries.BYTES, b"bytes", bytes(range(256)))]
    empty = [(dictionaries.STRING, b"empty text", b""), (dictionaries.BYTES, b"empty bytes", b"")]
    return dictionaries.dictionary_of(([], items, items + empty)[form.turn % 3])


def attachment_fields(attachments):
    """The run of fields of attachments, every other one to be protected in memory."""
    contents = [bytes([index % 2]) + content for index, content in enumerate(attachments)]
    return b"".join(b"\x03" + dictionaries.sized(content) for content in contents)


def payload_with(driver, algorithm, key, tree, attachments):
    """A payload of an uncovered document, which the library covers, and of attachments."""
    document = documents.covered(tree, library.stream_of(driver, algorithm, key))
    fields = attachment_fields(attachments)
    whole = driver.ask("inner_write", alg=algorithm, key=key, run=fields, data=document)["payload"]
    payload = library.parsed(driver, bytes.fromhex(whole))
    expected = library.Payload(payload.whole, algorithm, key, attachments, document)
    exchange.same("the payload as it is read", payload, expected)
    return payload


def payload_of(driver, form, filling):
    """A payload with a document of ours and some attachments, one of which has `filling` bytes."""
    key, entries = form.bytes_of("inner key", 64), form.entries((33, 0, 1000))
    if filling is not None:
        entries[2]["attachments"]["filling.bin"] = form.bytes_of("filling", filling)
    return payload_with(driver, form.algorithm, key, *documents.document(DATA, entries))


def header_of(form):
    """What the library is asked to write into a header, but for the custom dictionary."""
    kdf = form.kdf | {"S": form.bytes_of("kdf seed", form.kdf.get("salt", 32)).hex()}
    seed, nonce = form.bytes_of("seed", 32), form.bytes_of("nonce", NONCE_SIZE[form.cipher])
    return {"minor": form.minor, "cipher": form.cipher, "seed": seed, "nonce": nonce, "kdf": kdf}


def write_made(driver, path, form):
    payload, due = payload_of(driver, form, None), PAYLOADS[form.turn % 5]
    if due is not None:
        payload = payload_of(driver, form, due - len(payload_of(driver, form, 0).whole))
        exchange.same("the payload's length", len(payload.whole), due)
    return exchange.write(driver, path, form.credentials, header_of(form) | {"custom": custom_of(form)}, payload)
