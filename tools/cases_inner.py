"""Cases of the inner header.

The numbers and places are told by hand, from documents 01 and 02, and compared with the model's (inner_model.py).
Attachments and documents of other programs' vaults are the manifest's.
"""
from case_list import LARGE, field
from digests import must, sha256
from payloads import payload_of
from vectors_writer import le

ALGORITHM, KEY, END = field(1, le(3, 4)), field(2, b"key"), field(0, b"")
ATTACHMENT = field(3, b"\x01content")
SOUND = ALGORITHM + KEY + ATTACHMENT + field(3, b"\xff") + END + b"<document>"
# Payloads that are refused, with the number and the place. ALGORITHM has 9 bytes, KEY 8, ATTACHMENT 13, END 5.
WRONG_PAYLOADS = {
    "empty": (2, 0, b""),
    "four bytes": (2, 4, b"\x09\0\0\0"),
    "no end": (2, 17, ALGORITHM + KEY),
    "value cut": (2, 16, SOUND[:16]),
    "largest size": (2, 14, ALGORITHM + field(3, b"", 2**31 - 1)),
    "algorithm of 3 bytes": (5, 0, field(1, b"\3\0\0") + KEY + END),
    "algorithm of 5 bytes, last": (5, 21, KEY + ATTACHMENT + field(1, bytes(5)) + END),
    "negative key": (5, 9, ALGORITHM + field(2, b"", -1)),
    "attachment without flags": (5, 17, ALGORITHM + KEY + field(3, b"") + END),
    "second attachment without flags": (5, 30, ALGORITHM + KEY + ATTACHMENT + field(3, b"") + ATTACHMENT + END),
    "end of size 4": (5, 17, ALGORITHM + KEY + field(0, bytes(4))),
    "second key": (6, 17, ALGORITHM + KEY + KEY + END),
    "second algorithm, then second key": (6, 30, ALGORITHM + KEY + ATTACHMENT + ALGORITHM + KEY + END),
    "field 4": (7, 9, ALGORITHM + field(4, b"") + KEY + END),
    "field 255 behind an attachment": (7, 13, ATTACHMENT + field(255, b"", -1)),
    "end alone": (8, 0, END + ALGORITHM + KEY),
    "no key": (8, 9, ALGORITHM + END),
    "no key, other algorithm": (8, 9, field(1, le(1, 4)) + END),
    "attachments alone": (8, 26, ATTACHMENT + ATTACHMENT + END),
    "other algorithm": (9, 0, field(1, le(1, 4)) + KEY + END),
    "other algorithm, last": (9, 21, KEY + ATTACHMENT + field(1, le(4, 4)) + END),
}


def places(payload):
    """The places of a payload's fields but the attachments, by ID, and the document's."""
    found, at = {}, 0
    while 0 not in found:
        size = int.from_bytes(payload[at + 1 : at + 5], "little")
        found[payload[at]] = [at + 5, size]
        at += 5 + size
    return found, at


def inner_readings(cases, entries):
    for vault, entry in entries:
        if entry["file_length"] > 14_000:
            continue
        payload = payload_of(vault)
        found, document = places(payload)
        must(sha256(payload[document:]).hex() == entry["document_sha256"], vault.name)
        algorithm = int.from_bytes(payload[found[1][0] :][:4], "little")
        must(algorithm == entry.get("inner", algorithm), vault.name)
        told = [[start, length, flags] for start, length, flags, _ in entry["attachments"]]
        answer = {"alg": algorithm, "key_span": found[2], "attachments": told, "doc_start": document}
        cases.add("inner", vault.name, answer, data=payload[: document + 20])
    attachments = [[23, 7, 1], [36, 0, 255]]
    sound = {"alg": 3, "key_span": [14, 3], "attachments": attachments, "doc_start": 41}
    cases.add("inner", "sound", sound, data=SOUND)
    cases.add("inner", "no document", sound, data=SOUND[:41])
    any_order = ATTACHMENT + field(2, b"") + field(1, le(2, 4)) + END
    answer = {"alg": 2, "key_span": [18, 0], "attachments": [[6, 7, 1]], "doc_start": 32}
    cases.add("inner", "any order, empty key", answer, data=any_order)
    for i, (start, length, flags) in enumerate(attachments):
        content = SOUND[start : start + length]
        answer = {"flags": flags, "at": start, "length": length, "content": content}
        cases.add("attachment", f"{i}", answer, data=SOUND, index=i)
    for i in (2, 2**32, LARGE):
        cases.add("attachment", f"{i}", (8, 36), data=SOUND, index=i)
    cases.add("attachment", "none", (8, 17), data=ALGORITHM + KEY + END + ATTACHMENT, index=0)
    cases.add("attachment", "1 of 1, any order", (8, 27), data=any_order, index=1)
    for name, (no, place, data) in WRONG_PAYLOADS.items():
        cases.add("inner", name, (no, place), data=data)
        cases.add("attachment", name, (no, place), data=data, index=9)


def inner_writings(cases):
    asked = {"alg": 3, "key": b"key", "run": ATTACHMENT + field(3, b"\xff"), "data": b"<document>"}
    answer = {"length": len(SOUND), "payload": SOUND}
    cases.add("inner_write", "sound", answer, **asked)
    cases.add("inner_write", "just room", answer, **asked, lent=len(SOUND))
    cases.add("inner_write", "no room", 17, **asked, lent=len(SOUND) - 1)
    least = field(1, le(2, 4)) + field(2, b"") + END
    must(len(least) == 19, "least")
    cases.add("inner_write", "least", {"length": 19, "payload": least}, alg=2, key=b"", run=b"", data=b"")
    for no, name, changed in (
        (9, "algorithm 0, run cut", {"alg": 0, "run": b"\3"}),
        (9, "algorithm 2^32-1", {"alg": 2**32 - 1}),
        (2, "run cut", {"run": b"\3\0\0\0"}),
        (2, "run's value cut", {"run": ATTACHMENT[:-1]}),
        (7, "run of keys", {"run": KEY}),
        (7, "run of ends, no room", {"run": END, "lent": 0}),
        (5, "run without flags", {"run": field(3, b"")}),
        (5, "run negative", {"run": field(3, b"\0", -1)}),
    ):
        cases.add("inner_write", name, no, **asked | changed)


def add_all(cases, entries):
    inner_readings(cases, [(vault, entry) for vault, entry in entries if vault.t])
    inner_writings(cases)
