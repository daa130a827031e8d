"""The library of this repository for tests/interop, asked through tests/driver."""
import dataclasses
import functools
import json
import pathlib
import subprocess

DRIVER = pathlib.Path(__file__).resolve().parent.parent / "driver"
BEHIND_HEADER = 64  # the header's hash and tag
BLOCK_HEAD = 36  # a block's tag and size
WRITTEN_BLOCK = 1_048_576  # the data of a block that is written here, but for the last


class Refused(Exception):
    """A number other than 0; of a reader the place too."""

    def __init__(self, operation, number, place):
        super().__init__(f"{operation}: refused with {number}")
        self.number = number
        self.place = place


class Driver:
    def __init__(self):
        self.process = subprocess.Popen([DRIVER], stdin=subprocess.PIPE, stdout=subprocess.PIPE, text=True)

    def ask(self, operation, **fields):
        """The answer to one operation: bytes are given as bytes, and answered as hexadecimal digits."""
        asked = {name: value.hex() if isinstance(value, bytes) else value for name, value in fields.items()}
        self.process.stdin.write(json.dumps({"op": operation, **asked}) + "\n")
        self.process.stdin.flush()
        answer = json.loads(self.process.stdout.readline())
        assert "error" not in answer and "touched" not in answer, f"{operation}: {answer}"
        if answer["no"] != 0:
            raise Refused(operation, answer["no"], answer.get("place"))
        return answer

    def close(self):
        self.process.stdin.close()
        assert self.process.wait() == 0, "the driver did not end well"


def by_aes_kdf(driver, composite, kdf):
    """In helpings of unequal size, the last of which asks for more than is left."""
    rounds = kdf["R"]
    answer = driver.ask("rounds", composite=composite, S=kdf["S"], R=rounds, helpings=[1, rounds // 2, rounds])
    due = [min(1, rounds), min(1 + rounds // 2, rounds), rounds]
    assert [done for done, _ in answer["helpings"]] == due, "helpings of other rounds"
    return bytes.fromhex(answer["T"])


def by_argon2(driver, composite, kdf):
    """With just the words that the run uses: 128 for each of 4 P ⌊m / 4 P⌋ blocks, m being the memory in KiB."""
    columns = 4 * kdf["P"]
    figures = {name: kdf[name] for name in ("kind", "S", "I", "M", "P")}
    lent = 128 * columns * (kdf["M"] // 1024 // columns)
    return bytes.fromhex(driver.ask("argon2", composite=composite, **figures, lent=lent)["T"])


TRANSFORMS = {"aeskdf": by_aes_kdf, "argon2d": by_argon2, "argon2id": by_argon2}


def transformed(driver, credentials, kdf):
    """The composite key of credentials, and T under a KDF as the driver describes it."""
    parts = {}
    if credentials.password is not None:
        parts["password"] = credentials.password.encode()
    if credentials.key_file is not None:
        parts["keyfile"] = credentials.key_file.read_bytes()
    composite = bytes.fromhex(driver.ask("composite", **parts)["key"])
    return composite, TRANSFORMS[kdf["kind"]](driver, composite, kdf)


@dataclasses.dataclass
class Payload:
    """What a payload has in it; `whole` is all of it."""

    whole: bytes
    algorithm: int
    key: bytes
    attachments: list
    document: bytes


@dataclasses.dataclass
class Opened:
    """A file as it is read here."""

    minor: int
    cipher: str
    kdf: dict
    custom: bytes
    composite: bytes
    t: bytes
    blocks: list
    payload: Payload


def block_sizes(file, header_length):
    """The sizes of the blocks in a file, the closing one too."""
    sizes, at = [], header_length + BEHIND_HEADER
    while not sizes or sizes[-1]:
        sizes.append(int.from_bytes(file[at + BLOCK_HEAD - 4 : at + BLOCK_HEAD], "little"))
        at += BLOCK_HEAD + sizes[-1]
    return sizes


def by_steps(driver, file, t, sizes):
    """The payload as the steps hand it over: one for each block, and one more, which has to be refused with 19."""
    lents = [size + 15 for size in sizes] + [0]
    *steps, behind = driver.ask("steps", data=file, T=t, lents=lents)["steps"]
    numbers = [step["no"] for step in steps]
    assert numbers == [0] * len(sizes) and behind["no"] == 19, f"steps: {numbers}, {behind['no']}"
    return b"".join(bytes.fromhex(step["bytes"]) for step in steps)


def parsed(driver, whole):
    """The parts of a payload."""
    inner = driver.ask("inner", data=whole)
    start, length = inner["key_span"]
    attachments = []
    for index, (at, size, flags) in enumerate(inner["attachments"]):
        one = driver.ask("attachment", data=whole, index=index)
        content = whole[at : at + size]
        asked = one["flags"], one["at"], one["length"], one["content"]
        assert asked == (flags, at, size, content.hex()), f"attachment {index} is another by its index"
        attachments.append(content)
    key, document = whole[start : start + length], whole[inner["doc_start"] :]
    return Payload(whole, inner["alg"], key, attachments, document)


def by_positions(driver, algorithm, key, values):
    """Values under the inner stream, each asked for by itself, with just the room that it needs: a value's position is
    the sum of the lengths before it.
    """
    made, position = [], 0
    for value in values:
        answer = driver.ask("stream", alg=algorithm, key=key, position=position, data=value, lent=len(value))
        made.append(bytes.fromhex(answer["bytes"]))
        position += len(value)
    return made


def by_state(driver, algorithm, key, values):
    """Values under the inner stream, by one state that is applied to each in turn."""
    parts = driver.ask("streams", alg=algorithm, key=key, parts=[value.hex() for value in values])["parts"]
    numbers = [part["no"] for part in parts]
    assert numbers == [0] * len(values), f"streams: {numbers}"
    assert not any("touched" in part for part in parts), "streams: touched"
    return [bytes.fromhex(part["bytes"]) for part in parts]


def streamed(driver, algorithm, key, values):
    """Values covered or uncovered, in their order in a document, in both ways, which have to agree."""
    made = by_positions(driver, algorithm, key, values)
    assert by_state(driver, algorithm, key, values) == made, "one state gives other bytes than the positions"
    return made


def stream_of(driver, algorithm, key):
    """What covers and uncovers the values of a document, all at once."""
    return functools.partial(streamed, driver, algorithm, key)


def opened(driver, file, credentials):
    """A file opened whole and block by block, which have to agree. Refused where the header or the opening is."""
    header = driver.ask("header", data=file)
    composite, t = transformed(driver, credentials, header["kdf"])
    whole = bytes.fromhex(driver.ask("open", data=file, T=t)["payload"])
    sizes = block_sizes(file, header["length"])
    assert by_steps(driver, file, t, sizes) == whole, "block by block gives another payload"
    start, length = header["custom_span"] or (0, 0)
    custom = file[start : start + length]
    figures = header["minor"], header["cipher"], header["kdf"], custom
    return Opened(*figures, composite, t, sizes, parsed(driver, whole))


def written(driver, form, t, payload):
    """The file of a payload: `form` has minor, cipher, seed, nonce, kdf and custom."""
    return bytes.fromhex(driver.ask("write", **form, T=t, data=payload)["file"])


def changed_in_front(driver, file):
    """A file with the first byte of its first data block changed."""
    at = driver.ask("header", data=file)["length"] + BEHIND_HEADER + BLOCK_HEAD
    return file[:at] + bytes([file[at] ^ 1]) + file[at + 1 :]


def changed(file):
    """A file with one byte of its last data block changed: the closing block has the last 36."""
    return file[:-37] + bytes([file[-37] ^ 1]) + file[-36:]
