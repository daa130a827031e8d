"""Key files of hexadecimal digits and those beside them, for tests/interop (document 02, Item 2): which there are, and
what the library and other programs make of them.

A file of 64 bytes that are all digits, of either case, is decoded; one of 32 bytes is taken as it stands; any other is
hashed. By which of these rules a file was written is told from the file and its credentials, with primitives of Python
and OpenSSL: the header's tag is right under one rule alone.

Where a program goes another way (DEPARTURES), it is seen to do so, and is given what the rule makes of the key file as
a key file of 32 bytes. File::KDBX 0.906 decodes 64 digits with a line feed behind them, since `$` in its pattern also
stands before a last line feed. pykeepass 4.0.3 asks Python's int() for digits, which takes white space around them too,
and so cannot read 64 bytes that are 63 digits and a line feed.
"""
import dataclasses
import hashlib
import hmac
import itertools
import random
import string

from cryptography.hazmat.primitives.ciphers import Cipher, algorithms, modes

import dictionaries
import exchange
import forms
import library
import peers
from exchange import same
from peers import Credentials, Failed

STANDS, DECODED, HASHED = "as it stands", "decoded", "hashed"
NO_DIGITS = "/:@G`g"  # the signs beside the three ranges of digits
# By the name of a key file: the rule that a program goes by instead, None where it cannot read the file.
DEPARTURES = {("File::KDBX", "hex-64-lf"): DECODED, ("pykeepass", "hex-63-lf"): None}
# What each program says where the header's tag is wrong, and where it cannot read a key file.
WRONG_KEY = {"KeePassXC": "HMAC mismatch", "File::KDBX": "header HMAC mismatch", "pykeepass": "CredentialsError"}
UNREAD = "Could not read keyfile"
WRONG_TAG = 13


@dataclasses.dataclass(frozen=True)
class KeyFile:
    """A key file, the rule for it, and a key file beside it that must not open its vaults."""

    name: str
    content: bytes
    rule: str
    other: bytes


@dataclasses.dataclass(frozen=True)
class Case:
    """A vault to be made with a key file. The files stand in a folder."""

    key_file: KeyFile
    form: forms.Form

    @property
    def key(self):
        return "key file" if self.form.credentials.password is None else "both"

    def given(self, name, content):
        """The case's credentials with other content in the key file."""
        path = self.form.credentials.key_file.with_name(name)
        path.write_bytes(content)
        return dataclasses.replace(self.form.credentials, key_file=path)


def sha256(bytes_):
    return hashlib.sha256(bytes_).digest()


def shuffled(signs):
    return "".join(random.Random(signs).sample(signs, len(signs)))


def with_sign(digits, sign):
    """Digits with another sign in one place: each of NO_DIGITS in a place of its own, the first and the last too."""
    at = NO_DIGITS.index(sign) * (len(digits) - 1) // (len(NO_DIGITS) - 1)
    return digits[:at] + sign + digits[at + 1 :]


def texts():
    """The texts of them, by the rule for them and by name."""
    lower, mixed = shuffled("0123456789abcdef" * 4), shuffled(string.digits * 4 + "abcdefABCDEF" * 2)
    hashed = {"hex-63": lower[:63], "hex-63-lf": lower[:63] + "\n", "hex-64-lf": lower + "\n"}
    hashed |= {"hex-64-crlf": lower + "\r\n", "hex-65": lower + "0"}
    hashed |= {f"hex-no-{ord(sign):x}": with_sign(lower, sign) for sign in NO_DIGITS}
    decoded = {"hex-lower": lower, "hex-upper": lower.upper(), "hex-mixed": mixed}
    return {DECODED: decoded, STANDS: {"hex-32": lower[:32]}, HASHED: hashed}


def key_files():
    """All of them. What must not open a vault is the hash, by which the library went before; else a byte less."""
    made = []
    for rule, named in texts().items():
        for name, content in ((name, text.encode()) for name, text in named.items()):
            made.append(KeyFile(name, content, rule, content[:-1] if rule == HASHED else sha256(content)))
    # A vault of the rule before asks for the hash as its key file, and the digits must not open it.
    return [*made, KeyFile("hex-before", made[0].other, STANDS, made[0].content)]


def all_in(folder):
    """A case for each of them, with and without a password, and in turn with each cipher and minor version."""
    made = []
    for turn, (key_file, password) in enumerate(itertools.product(key_files(), (None, forms.PASSWORD))):
        path = folder / f"{key_file.name}.key"
        path.write_bytes(key_file.content)
        credentials = Credentials(key_file.name if password is None else f"{key_file.name}-pw", password, path)
        cipher, minor = list(forms.NONCE_SIZE)[turn // 2 % 2], (turn + turn // 4) % 2
        made.append(Case(key_file, forms.Form(cipher, minor, credentials, forms.AES_KDF, turn)))
    return made


def parts_of(content):
    """The part of the composite key that a key file is, by rule: also where the rule is for other files."""
    parts, digits = {STANDS: content, HASHED: sha256(content)}, content.decode("latin-1").strip()
    if set(digits) <= set(string.hexdigits) and len(digits) % 2 == 0:
        parts[DECODED] = bytes.fromhex(digits)
    return parts


def composite_of(password, part):
    return sha256((b"" if password is None else sha256(password.encode())) + part)


def header_fields(file):
    """The fields of the outer header by number, and where it ends."""
    fields, at = {}, 12
    while 0 not in fields:
        behind = at + 5 + int.from_bytes(file[at + 1 : at + 5], "little")
        fields[file[at]], at = file[at + 5 : behind], behind
    return fields, at


def transformed(composite, kdf):
    """T by AES-KDF, whose seed and rounds stand in a dictionary."""
    items = {name: value for _, name, value in dictionaries.items(kdf)}
    encrypt, halves = Cipher(algorithms.AES(items[b"S"]), modes.ECB()).encryptor(), composite
    for _ in range(int.from_bytes(items[b"R"], "little")):
        halves = encrypt.update(halves)
    return sha256(halves)


def tag_is_right(file, composite):
    fields, end = header_fields(file)
    base = hashlib.sha512(fields[4] + transformed(composite, fields[11]) + b"\x01").digest()
    key = hashlib.sha512(b"\xff" * 8 + base).digest()
    return hmac.digest(key, file[:end], "sha256") == file[end + 32 : end + 64]


def rules_of(file, case):
    """The rules under which a file opens with a case's credentials."""
    password, parts = case.form.credentials.password, parts_of(case.key_file.content)
    return [rule for rule, part in parts.items() if tag_is_right(file, composite_of(password, part))]


def programs():
    """How each program is asked to open a vault."""

    def by_script(ask):
        return lambda path, credentials: ask("try", path, credentials)

    asked = {"KeePassXC": peers.exported, "File::KDBX": by_script(peers.perl), "pykeepass": by_script(peers.pykeepass)}
    return {name: ask for name, ask in asked.items() if name != "pykeepass" or peers.pykeepass_python() is not None}


def says(program, message, path, credentials):
    """A program does not open a vault with these credentials, and says why."""
    try:
        programs()[program](path, credentials)
    except Failed as fault:
        if message not in str(fault):
            raise
        return
    raise Failed(f"{program} opens it")


def refused_here(driver, path, credentials):
    """The library refuses a vault with these credentials, by the header's tag."""
    exchange.read_refused(driver, path, credentials, WRONG_TAG)


def taken_by(program, path, case):
    """The credentials with which a program opens a vault of a case: others where it departs, which is seen first."""
    name, content = case.key_file.name, case.key_file.content
    if (program, name) not in DEPARTURES:
        return case.form.credentials
    unread = DEPARTURES[program, name] is None
    says(program, UNREAD if unread else WRONG_KEY[program], path, case.form.credentials)
    return case.given("part.key", parts_of(content)[case.key_file.rule])


def agree(driver, path, case):
    """All programs read from a vault what is read here, and with another key file nobody opens it."""
    file, credentials = path.read_bytes(), case.form.credentials
    same("the rule", rules_of(file, case), [case.key_file.rule])
    opened = library.opened(driver, file, credentials)
    part = parts_of(case.key_file.content)[case.key_file.rule]
    same("the composite key", opened.composite, composite_of(credentials.password, part))
    vault = exchange.shown(driver, opened.payload)
    checks = {"KeePassXC": (exchange.agree_keepassxc, path, credentials, vault)}
    checks["File::KDBX"] = exchange.agree_file_kdbx, path, taken_by("File::KDBX", path, case), vault, opened.custom
    if peers.pykeepass_python() is not None:
        checks["pykeepass"] = exchange.agree_pykeepass, path, taken_by("pykeepass", path, case), vault
    by = exchange.at_once(checks)
    other = case.given("other.key", case.key_file.other)
    refused_here(driver, path, other)
    for program in programs():
        says(program, WRONG_KEY[program], path, other)
    apart = [program for program in programs() if (program, case.key_file.name) in DEPARTURES]
    note = f"({case.key_file.rule}{''.join(f'; not so by {program}' for program in apart)})"
    return exchange.figures_of(opened.minor, opened.cipher, opened.blocks, file, vault, by, note)


def read(driver, path, case, producer, make):
    """A vault that another program makes with a key file."""
    make(path, case.form, case.form.credentials)
    if (producer, case.key_file.name) in DEPARTURES:
        return read_departed(driver, path, case, producer)
    return agree(driver, path, case)


def read_departed(driver, path, case, producer):
    """A vault of a program that goes by another rule: refused here and by the rest, and opened with what it took."""
    rule = DEPARTURES[producer, case.key_file.name]
    same("the rule", rules_of(path.read_bytes(), case), [rule])
    refused_here(driver, path, case.form.credentials)
    for program in programs():
        if program != producer:
            says(program, WRONG_KEY[program], path, case.form.credentials)
    taken = case.given("taken.key", parts_of(case.key_file.content)[rule])
    figures, *_ = exchange.read(driver, path, taken, {})
    return dataclasses.replace(figures, note=f"({rule} by {producer} alone: refused {WRONG_TAG})")


def write(driver, path, case):
    """A vault that is written here with a key file."""
    payload, header = forms.payload_of(driver, case.form, None), forms.header_of(case.form) | {"custom": b""}
    path.write_bytes(exchange.written(driver, case.form.credentials, header, payload))
    return agree(driver, path, case)


def producers():
    """Who makes vaults to be read here, and how."""
    made = {"File::KDBX": forms.make_file_kdbx, "KeePassXC": forms.make_keepassxc}
    return made if peers.pykeepass_python() is None else made | {"pykeepass": forms.make_pykeepass}


def rows(table, driver, folder):
    path, cases = folder / "made.kdbx", all_in(folder)
    for producer, make in producers().items():
        for case in cases:
            # What a program cannot read, it makes no vault with.
            if DEPARTURES.get((producer, case.key_file.name), "") is not None:
                table.row("read", case.form.name, producer, case.key, read, driver, path, case, producer, make)
    for case in cases:
        table.row("write", case.form.name, "us", case.key, write, driver, path, case)
