"""The driver's operations, and `recut`, which is the model's alone: from a request to its answer, both as JSON objects.

Bytes are lower-case hexadecimal. A refusal answers its number, a reader's its place too, and nothing else.
"""

from . import dictionary, header as outer, inner, keys, recut, stream, vault
from .limits import MESSAGE_LIMIT, Refusal, within
from .primitives import hmac_sha256, sha256, sha512


def octets_of(part):
    """The bytes of a part: hexadecimal, or {"zeros": n} for so many zeros."""
    return bytes(part["zeros"]) if isinstance(part, dict) else bytes.fromhex(part)


def octets(request, name):
    """The bytes of a field, or None where it is absent."""
    part = request.get(name)
    return None if part is None else octets_of(part)


def span(bounds):
    """A start and an end as [start, length]; None stays."""
    return None if bounds is None else [bounds[0], bounds[1] - bounds[0]]


def answer_header(request):
    found = outer.read(octets(request, "data"))
    figures = {key: value.hex() if isinstance(value, bytes) else value for key, value in found.kdf.items()}
    return {
        "minor": found.minor,
        "cipher": found.cipher,
        "length": found.length,
        "seed": found.seed.hex(),
        "nonce": found.nonce.hex(),
        "kdf": figures,
        "kdf_span": span(found.spans[outer.KDF]),
        "custom_span": span(found.spans.get(outer.CUSTOM)),
    }


def answer_list(request):
    return {"text": outer.listing(octets(request, "data"))}


def answer_dict(request):
    dictionary.items(octets(request, "data"))
    return {}


def answer_lookup(request):
    item = dictionary.lookup(octets(request, "data"), octets(request, "name"))
    if item is None:
        return {"found": False}
    return {"found": True, "at": item.at, "size": len(item.value), "value": item.value.hex()}


def answer_composite(request):
    parts = (octets(request, name) for name in ("password", "keyfile", "prehash"))
    return {"key": keys.composite(*parts).hex()}


def answer_rounds(request):
    run = keys.Rounds(octets(request, "composite"), octets(request, "S"), request["R"])
    helpings = []
    for count in request["helpings"]:
        run.helping(count)
        helpings.append([run.done, run.halves.hex()])
    try:
        return {"helpings": helpings, "T": run.transformed().hex(), "T_no": 0}
    except Refusal as refusal:
        return {"helpings": helpings, "T": None, "T_no": refusal.number}


def answer_argon2(request):
    """An absent `lent` is enough."""
    figures = (request[name] for name in ("I", "M", "P"))
    composite, salt = octets(request, "composite"), octets(request, "S")
    return {"T": keys.argon2(request["kind"], composite, salt, *figures, request.get("lent")).hex()}


def answer_keys(request):
    seed, t = octets(request, "seed"), octets(request, "T")
    base = keys.tag_base(seed, t)
    return {
        "cipher_key": keys.cipher_key(seed, t).hex(),
        "tag_base": base.hex(),
        "tag_key": keys.tag_key(request["i"], base).hex(),
    }


def answer_hash(request):
    """R: the limit "counts all feeds together"; a refused feed leaves the state as it was."""
    fed = bytearray()
    feeds = []
    for part in request["parts"]:
        length = part["zeros"] if isinstance(part, dict) else len(part) // 2
        try:
            within(len(fed) + length, MESSAGE_LIMIT)
        except Refusal as refusal:
            feeds.append(refusal.number)
            continue
        fed += octets_of(part)
        feeds.append(0)
    digest = {"sha256": sha256, "sha512": sha512}[request["alg"]]
    return {"feeds": feeds, "digest": digest(bytes(fed)).hex()}


def answer_tag(request):
    data = octets(request, "data")
    within(len(data), MESSAGE_LIMIT)
    return {"tag": hmac_sha256(octets(request, "key"), data).hex()}


def answer_open(request):
    plain = vault.open_whole(octets(request, "data"), octets(request, "T"), request.get("lent"))
    return {"length": len(plain), "payload": plain.hex()}


def file_of_step(data, lengths, index):
    """The file that a step is handed: cut, or filled with zeros, where file_lengths says so."""
    length = lengths.get(str(index))
    if length is None:
        return data
    return data[:length] + bytes(max(0, length - len(data)))


def answer_steps(request):
    data = octets(request, "data")
    header, vault_keys, position = vault.start(data, octets(request, "T"))
    state = vault.State(position)
    lengths = request.get("file_lengths", {})
    made = []
    for index, lent in enumerate(request["lents"]):
        seen = file_of_step(data, lengths, index)
        number, given, state = vault.step(header, vault_keys, state, seen, lent)
        made.append({"no": number, "count": len(given), "bytes": given.hex()})
    return {"steps": made}


def answer_recut(request):
    """What both openers answer to the file cut anew; `cut` is false where the sizes are not positive, or do
    not add up to its ciphertext."""
    made = recut.recut(octets(request, "data"), octets(request, "T"), request["sizes"])
    if made is None:
        return {"cut": False}
    asked = {**request, "data": made.hex()}
    return {"cut": True, **{op: answer({**asked, "op": op}) for op in ("open", "steps")}}


def cipher_identifier(text):
    """ "aes", "chacha", or 32 hex digits of an identifier"."""
    return {"aes": outer.AES, "chacha": outer.CHACHA20}.get(text) or bytes.fromhex(text)


def answer_write(request):
    kdf = dict(request["kdf"], S=bytes.fromhex(request["kdf"]["S"]))
    made = vault.write(
        request["minor"],
        cipher_identifier(request["cipher"]),
        octets(request, "seed"),
        octets(request, "nonce"),
        kdf,
        octets(request, "custom") or b"",
        octets(request, "T"),
        octets(request, "data"),
        request.get("lent"),
    )
    return {"length": len(made), "file": made.hex()}


def answer_inner(request):
    found = inner.read(octets(request, "data"))
    return {
        "alg": found.algorithm,
        "key_span": found.key_span,
        "attachments": found.attachments,
        "doc_start": found.document,
    }


def answer_attachment(request):
    data = octets(request, "data")
    at, length, flags = inner.attachment(data, request["index"])
    return {"flags": flags, "at": at, "length": length, "content": data[at : at + length].hex()}


def answer_inner_write(request):
    parts = (octets(request, name) for name in ("key", "run", "data"))
    made = inner.write(request["alg"], *parts, request.get("lent"))
    return {"length": len(made), "payload": made.hex()}


def answer_stream(request):
    """An absent `lent` is as long as the data."""
    cipher = stream.started(request["alg"], octets(request, "key"))
    made = stream.stretch(cipher, request["position"], octets(request, "data"), request.get("lent"))
    return {"bytes": made.hex()}


def answer_part(state, data):
    """One part of `streams`: its number, and its bytes where it is accepted."""
    try:
        return {"no": 0, "bytes": state.part(data).hex()}
    except Refusal as refusal:
        return {"no": refusal.number}


def answer_streams(request):
    """ "one state, applied to each part in turn"."""
    state = stream.State(request["alg"], octets(request, "key"))
    return {"parts": [answer_part(state, octets_of(part)) for part in request["parts"]]}


OPERATIONS = {
    "header": answer_header,
    "list": answer_list,
    "dict": answer_dict,
    "lookup": answer_lookup,
    "composite": answer_composite,
    "rounds": answer_rounds,
    "argon2": answer_argon2,
    "keys": answer_keys,
    "hash": answer_hash,
    "tag": answer_tag,
    "open": answer_open,
    "steps": answer_steps,
    "recut": answer_recut,
    "write": answer_write,
    "inner": answer_inner,
    "attachment": answer_attachment,
    "inner_write": answer_inner_write,
    "stream": answer_stream,
    "streams": answer_streams,
}


# Item 8: "in every reader". R: "header, lone check, lookup, start, whole opener, inner header, attachment".
READERS = ("header", "dict", "lookup", "steps", "open", "inner", "attachment")


def answer(request):
    """The answer to a request. "On a refusal nothing else"; with Item 8 a reader's "also answers `place`, 0 where the
    number carries none"."""
    try:
        return {"no": 0, **OPERATIONS[request["op"]](request)}
    except Refusal as refusal:
        return {"no": refusal.number, **({"place": refusal.place} if request["op"] in READERS else {})}
