"""The least rounds of AES-KDF, for tests/interop (document 02, Item 3): vaults of one round and of 5,999, which the
other programs make and open and the library refuses with 20, and of 6,000, which all open. One that is refused opens
once File::KDBX has raised its rounds, which is what docs/REFUSALS.md tells the technician to have done.

The rounds of a vault are read apart from the library, and so is whether its header's tag is right under them.
"""
import dataclasses

import dictionaries
import exchange
import forms
import key_files
import library
import peers
from exchange import same
from peers import Credentials

LEAST = 6_000
TOO_FEW = 20
# How the item R begins, in the header of any program: its type, its name and the size of its value.
ROUNDS_ITEM = b"\x05\x01\0\0\0R\x08\0\0\0"
# By cipher, so that each has a minor version and an inner algorithm of its own.
TURNS = {"aes": 1, "chacha": 6}


@dataclasses.dataclass(frozen=True)
class Rounds(forms.Form):
    """A vault with so many rounds and no attachment of its own, so that it is short enough to be listed."""

    @property
    def name(self):
        return f"rounds-{self.kdf['R']}-{self.cipher}-4.{self.minor}"

    @property
    def sizes(self):
        return ()

    @property
    def added(self):
        return 33


def all_of(rounds):
    credentials = Credentials("pw", forms.PASSWORD, None)
    kdf = {"kind": "aeskdf", "R": rounds}
    return [Rounds(cipher, turn % 2, credentials, kdf, turn) for cipher, turn in TURNS.items()]


def kdf_of(file):
    """What a file asks for, as the driver describes it."""
    items = {name: value for _, name, value in dictionaries.items(key_files.header_fields(file)[0][11])}
    return {"kind": "aeskdf", "S": items[b"S"].hex(), "R": int.from_bytes(items[b"R"], "little")}


def refusal_of(driver, operation, **asked):
    """The number and the place of a refusal."""
    try:
        driver.ask(operation, **asked)
    except library.Refused as refused:
        return refused.number, refused.place
    return 0, None


def refuse(driver, path, form):
    """The others open it, T is made of it here and is right, and every reader of the library answers 20 at the item R."""
    file, credentials = path.read_bytes(), form.credentials
    place = file.index(ROUNDS_ITEM)
    by = exchange.at_once({name: (ask, path, credentials) for name, ask in key_files.programs().items()})
    composite, t = library.transformed(driver, credentials, kdf_of(file))
    same("T, beside one made apart", t, key_files.transformed(composite, key_files.header_fields(file)[0][11]))
    same("whether the tag is right", key_files.tag_is_right(file, composite), True)
    for operation, more in (("header", {}), ("open", {"T": t}), ("steps", {"T": t, "lents": [0]})):
        same(f"the refusal of {operation}", refusal_of(driver, operation, data=file, **more), (TOO_FEW, place))
    same("the listing", driver.ask("list", data=file)["text"], f"R{TOO_FEW} {place}\n")
    return exchange.Figures(size=len(file), by=by, note=f"(refused {TOO_FEW})")


def opens(driver, path, form, rounds):
    """It has so many rounds, and all open it."""
    asked = kdf_of(path.read_bytes())
    same("the rounds", asked["R"], rounds)
    known = {"minor": form.minor, "cipher": form.cipher, "kdf": asked}
    return exchange.read(driver, path, form.credentials, known)[0]


def read(driver, path, form, make):
    make(path, form, form.credentials)
    same("the rounds", kdf_of(path.read_bytes())["R"], form.kdf["R"])
    if form.kdf["R"] < LEAST:
        return refuse(driver, path, form)
    return opens(driver, path, form, form.kdf["R"])


def read_raised(driver, path, form, make):
    """Refused, and opened once its rounds were raised and it was saved again."""
    make(path, form, form.credentials)
    refuse(driver, path, form)
    peers.perl("raise", path, form.credentials, rounds=LEAST)
    return opens(driver, path, form, LEAST)


def write(driver, path, form):
    """Too few rounds are not written; enough are, and the others read them."""
    header, payload = forms.header_of(form) | {"custom": forms.custom_of(form)}, forms.payload_of(driver, form, None)
    if form.kdf["R"] >= LEAST:
        return exchange.write(driver, path, form.credentials, header, payload)
    refusal = refusal_of(driver, "write", **header, T=bytes(32), data=payload.whole)
    same("the refusal", refusal, (TOO_FEW, None))
    return exchange.Figures(note=f"(refused {TOO_FEW})")


def rows(table, driver, folder):
    path = folder / "made.kdbx"
    for rounds in (1, LEAST - 1, LEAST):
        for form in all_of(rounds):
            for producer, make in key_files.producers().items():
                table.row("read", form.name, producer, "pw", read, driver, path, form, make)
            table.row("write", form.name, "us", "pw", write, driver, path, form)
    for form in all_of(1):
        for producer, make in key_files.producers().items():
            table.row("read", f"{form.name}-raised", producer, "pw", read_raised, driver, path, form, make)
