"""Comparing vaults, for tests/interop: what the library reads from a file or writes into one, and what KeePassXC,
File::KDBX and pykeepass read from the same file. Each check answers figures of the vault, or raises what differs.
"""
import concurrent.futures
import dataclasses
import xml.etree.ElementTree as ElementTree

import dictionaries
import documents
import library
import peers
from peers import Failed


@dataclasses.dataclass
class Figures:
    """What a row says of a vault that passed; `by` are the programs that read from it what is read here."""

    version: str = ""
    cipher: str = ""
    blocks: int | str = ""
    size: int | str = ""
    entries: int | str = ""
    attached: int | str = ""
    stream: str = ""
    hidden: int | str = ""
    by: tuple = ()
    note: str = ""


@dataclasses.dataclass
class Shown:
    """A payload with its document, whose protected values the library uncovered, and the entries in that."""

    payload: library.Payload
    tree: ElementTree.Element
    entries: list


def shown(driver, payload):
    tree = documents.uncovered(payload.document, library.stream_of(driver, payload.algorithm, payload.key))
    return Shown(payload, tree, documents.entries(tree, payload.attachments))


def same(what, ours, theirs):
    if ours != theirs:
        said = f": {ours}, {theirs}"
        raise Failed(f"{what} differs{said if len(said) < 100 else ''}")


def agree_keepassxc(path, credentials, vault, original=None):
    """KeePassXC exports this uncovered document, as `original` where that is given, with the attachments of these
    entries.
    """
    export = peers.exported(path, credentials)
    theirs = documents.canonical(ElementTree.fromstring(export))
    if fault := documents.difference(documents.canonical(vault.tree), theirs):
        raise Failed(f"KeePassXC: {fault}")
    if original is not None:
        same("KeePassXC: the export", original, export)
    for entry in vault.entries:
        for name, content in entry["attachments"].items():
            given = peers.attachment(path, credentials, entry["path"], name)
            same(f"KeePassXC: attachment {name} of {entry['path']}", content, given)


def agree_shown(path, credentials, vault):
    """KeePassXC shows the password of each entry."""
    for entry in vault.entries:
        theirs = peers.shown(path, credentials, entry["path"], "Password")
        same(f"KeePassXC: the password of {entry['path']}", entry["password"], theirs)


def comparable(entry):
    """An entry without its path, in an order of its own: all its strings, those of its history, and its attachments."""
    strings = [sorted(one.items()) for one in (entry["strings"], *entry["history"])]
    return strings, sorted((name, peers.hexadecimal(content)) for name, content in entry["attachments"].items())


def agree_file_kdbx(path, credentials, vault, custom):
    """File::KDBX reads this payload and custom dictionary, with these entries."""
    payload, said = vault.payload, peers.perl("read", path, credentials)
    same("File::KDBX: the inner key", (payload.algorithm, payload.key.hex()), (said["algorithm"], said["key"]))
    same("File::KDBX: the document", payload.document.hex(), said["document"])
    same("File::KDBX: an attachment", [content.hex() for content in payload.attachments], said["attachments"])
    same("File::KDBX: the custom dictionary", dictionaries.as_read(custom), said["custom"])
    same("File::KDBX: an entry", sorted(map(comparable, vault.entries)), sorted(map(comparable, said["entries"])))


def agree_pykeepass(path, credentials, vault):
    """pykeepass reads this uncovered document, and the attachments of this payload."""
    said = peers.pykeepass("read", path, credentials)
    theirs = documents.canonical(ElementTree.fromstring(bytes.fromhex(said["document"])))
    if fault := documents.difference(documents.canonical(vault.tree), theirs):
        raise Failed(f"pykeepass: {fault}")
    same("pykeepass: an attachment", [content.hex() for content in vault.payload.attachments], said["attachments"])


def at_once(checks):
    """Run the check of each program, a function with its arguments, side by side; answers the programs."""
    with concurrent.futures.ThreadPoolExecutor() as pool:
        for ended in [pool.submit(*check) for check in checks.values()]:
            ended.result()
    return tuple(checks)


def refuses(program, ask, *arguments):
    """Another program does not open a file in which a byte was changed."""
    try:
        ask(*arguments)
    except Failed:
        return
    raise AssertionError(f"{program} opens it with a byte changed")


def figures_of(minor, cipher, blocks, file, vault, by, note=""):
    attached = sum(len(entry["attachments"]) for entry in vault.entries)
    stream, hidden = documents.STREAMS[vault.payload.algorithm], len(documents.protected(vault.tree))
    known = f"4.{minor}", cipher, len(blocks) - 1, len(file), len(vault.entries), attached
    return Figures(*known, stream, hidden, by, note)


def read(driver, path, credentials, expected):
    """A vault of another program; `expected` are values of it that are known. Answers figures and what is shown."""
    file = path.read_bytes()
    opened = library.opened(driver, file, credentials)
    for name, value in expected.items():
        same(name, getattr(opened, name), value)
    vault = shown(driver, opened.payload)
    checks = {"KeePassXC": (agree_keepassxc, path, credentials, vault)}
    if dictionaries.without_empty(opened.custom) == opened.custom:
        checks["File::KDBX"] = agree_file_kdbx, path, credentials, vault, opened.custom
    if peers.opens_pykeepass(credentials):
        checks["pykeepass"] = agree_pykeepass, path, credentials, vault
    by = at_once(checks)
    same("the number for a byte changed", number_of(driver, library.changed(file), opened.t), 14)
    return figures_of(opened.minor, opened.cipher, opened.blocks, file, vault, by), vault


def number_of(driver, file, t):
    try:
        driver.ask("open", data=file, T=t)
    except library.Refused as refused:
        return refused.number
    return 0


def read_refused(driver, path, credentials, number):
    """A vault that has to be refused here."""
    try:
        library.opened(driver, path.read_bytes(), credentials)
    except library.Refused as refused:
        same("the number", refused.number, number)
        return Figures(size=path.stat().st_size, note=f"(refused {number})")
    raise Failed("opens")


def for_file_kdbx(form):
    """A form that File::KDBX reads (peers.py): without empty values, and Argon2 with a salt of 32 bytes."""
    kdf = form["kdf"]
    salt = bytes.fromhex(kdf["S"])
    if kdf["kind"] != "aeskdf" and len(salt) != 32:
        kdf = kdf | {"S": (salt * 4)[:32].hex()}
    return form | {"custom": dictionaries.without_empty(form["custom"]), "kdf": kdf}


def written(driver, credentials, form, payload):
    """The file of a payload, under the key of credentials."""
    _, t = library.transformed(driver, credentials, form["kdf"])
    return library.written(driver, form, t, payload.whole)


def write(driver, path, credentials, form, payload, original=None):
    """A payload written here; KeePassXC's export has to be `original`, where that is given."""
    file, other_form = written(driver, credentials, form, payload), for_file_kdbx(form)
    other = file if other_form == form else written(driver, credentials, other_form, payload)
    other_path, vault = path.with_name("other.kdbx"), shown(driver, payload)
    path.write_bytes(file)
    other_path.write_bytes(other)
    checks = {"KeePassXC": (agree_keepassxc, path, credentials, vault, original)}
    checks["File::KDBX"] = agree_file_kdbx, other_path, credentials, vault, other_form["custom"]
    if peers.opens_pykeepass(credentials):
        checks["pykeepass"] = agree_pykeepass, path, credentials, vault
    by = at_once(checks)
    path.write_bytes(library.changed(file))
    refuses("KeePassXC", peers.exported, path, credentials)
    other_path.write_bytes(library.changed_in_front(driver, other))
    refuses("File::KDBX", peers.perl, "try", other_path, credentials)
    blocks = library.block_sizes(file, driver.ask("header", data=file)["length"])
    same("the blocks before the last", blocks[:-2], [library.WRITTEN_BLOCK] * (len(blocks) - 2))
    note = "" if other == file else "(File::KDBX: another)"
    return figures_of(form["minor"], form["cipher"], blocks, file, vault, by, note)
