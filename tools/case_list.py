"""What the scripts of tests/replay's cases share: the list of cases, and the parts of files."""
import json

import inner_model
from digests import must
from header_model import FILE_LIMIT, read_header, refusal, sound_items
from vectors_writer import AES, CHACHA20, le

LARGE = 2**64 - 1
# The rounds of the sample headers.
ROUNDS = 6_000
SEED, NONCE, KDF_SEED, T = b"\x11" * 32, b"\x22" * 16, b"\x33" * 32, bytes(range(32))
NAMES = {AES: "aes", CHACHA20: "chacha"}
NONCES = {AES: NONCE, CHACHA20: NONCE[:12]}


def shown(value):
    """A value with its bytes in hexadecimal."""
    if isinstance(value, bytes):
        return value.hex()
    if isinstance(value, dict):
        return {name: shown(part) for name, part in value.items()}
    return [shown(part) for part in value] if isinstance(value, list) else value


def header_refusal(data, **_):
    return refusal(read_header, data, FILE_LIMIT)


def dictionary_refusal(data, **_):
    return refusal(sound_items, data)


# The readers, whose refusals have a place, and what the models answer. Those of a file answer for its header alone.
READERS = {
    "header": header_refusal,
    "open": header_refusal,
    "steps": header_refusal,
    "dict": dictionary_refusal,
    "lookup": dictionary_refusal,
    "inner": lambda data: refusal(inner_model.read, data),
    "attachment": lambda data, index: refusal(inner_model.attachment, data, index),
}


def check_place(op, name, no, place, fields):
    """Compares a reader's answer with the model's. Behind a sound header a refusal of a file has the place 0."""
    data = fields["data"]
    said = READERS[op](**fields | {"data": bytes(data["zeros"]) if isinstance(data, dict) else data})
    due = (no, 0) if said == (0, 0) and op in ("open", "steps") else said
    must((no, place) == due, (op, name, no, place, said))


class Cases:
    def __init__(self):
        self.requests, self.answers, self.names = [], [], set()

    def line(self, request, answer):
        self.requests.append(request)
        self.answers.append(json.dumps(shown(answer)))

    def add(self, op, name, answer, /, **fields):
        """A case; its answer is a number, perhaps with a reader's place, or what is answered beside 0."""
        name = f"{op} {name}"
        must(name not in self.names, name)
        self.names.add(name)
        no, place, more = 0, 0, {}
        if isinstance(answer, dict):
            more = answer
        elif isinstance(answer, tuple):
            no, place = answer
        else:
            no = answer
        if op in READERS:
            check_place(op, name, no, place, fields)
            more = more if no == 0 else {"place": place}
        self.line(json.dumps(shown({"case": name, "op": op} | fields)), {"no": no} | more)

    def error(self, text):
        """A line that the library cannot be asked. tests/replay takes any words for the reason."""
        self.line(text, {"error": ""})


def field(id_, value, size=None):
    return bytes([id_]) + le((len(value) if size is None else size) % 2**32, 4) + value
