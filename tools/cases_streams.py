"""Cases of the inner stream.

The numbers are told by hand, from document 02, Item 1. The bytes are those of inner_streams.py; those of other
programs' vaults hold every password that the manifest tells.
"""
import base64
import re

from cases_inner import places
from digests import must
from inner_streams import LIMIT, STREAMS
from messages import pattern
from payloads import payload_of

KEY, TEXT = pattern(64), pattern(200)
PROTECTED = re.compile(rb'Protected="True"[^>]*>([^<]*)<')
# Stretches that are accepted: key, position, length, lent.
ACCEPTED = {
    "23 bytes": (KEY, 0, 23, None),
    "19 behind them": (KEY, 23, 19, None),
    "empty": (KEY, 0, 0, 0),
    "across blocks": (KEY, 61, 200, None),
    "more lent": (KEY, 64, 64, 100),
    "empty key": (b"", 7, 42, None),
    "key of 32 bytes": (KEY[:32], 7, 42, None),
    "the last bytes": (KEY, LIMIT - 42, 42, None),
    "none at the limit": (KEY, LIMIT, 0, None),
}
# Stretches that are refused: number, key, position, length, lent.
REFUSED = {
    "past the limit": (1, KEY, LIMIT - 41, 42, None),
    "none past the limit": (1, KEY, LIMIT + 1, 0, None),
    "largest position": (1, KEY, 2**64 - 1, 1, None),
    "position that wraps": (1, KEY, 2**64 - 16, 42, None),
    "long key": (1, {"zeros": LIMIT + 1}, 0, 42, None),
    "long key, no room": (1, {"zeros": LIMIT + 1}, 0, 42, 41),
    "too far, no room": (1, KEY, LIMIT - 41, 42, 41),
    "no room": (17, KEY, 0, 42, 41),
    "nothing lent": (17, KEY, 0, 1, 0),
}


def lending(lent):
    return {} if lent is None else {"lent": lent}


def stretches(cases):
    for algorithm in STREAMS:
        for name, (key, position, n, lent) in ACCEPTED.items():
            answer = {"bytes": STREAMS[algorithm](key, position, TEXT[:n])}
            fields = {"alg": algorithm, "key": key, "position": position, "data": TEXT[:n]} | lending(lent)
            cases.add("stream", f"{algorithm}, {name}", answer, **fields)
        for name, (no, key, position, n, lent) in REFUSED.items():
            fields = {"alg": algorithm, "key": key, "position": position, "data": TEXT[:n]} | lending(lent)
            cases.add("stream", f"{algorithm}, {name}", no, **fields)
    for algorithm in (0, 1, 4, 2**32 - 1):
        fields = {"alg": algorithm, "position": LIMIT, "data": TEXT[:42], "lent": 41}
        cases.add("stream", f"algorithm {algorithm}", 9, key={"zeros": LIMIT + 1}, **fields)


# Item 9: all of the text at this position is cut at its ends, at borders of blocks, beside them and between.
CUT_FROM, CUT_AT = 61, (0, 1, 3, 4, 66, 67, 100, 199, 200)


def cuts(cases):
    """A stretch in two parts, each at its own position; as parts of a state; and covered twice, uncut and cut."""
    for algorithm in STREAMS:
        covered = STREAMS[algorithm](KEY, CUT_FROM, TEXT)
        for name, data, out in (("covered", TEXT, covered), ("covered twice", covered, TEXT)):
            fields = {"alg": algorithm, "key": KEY}
            for n in CUT_AT:
                for which, start, end in (("first", 0, n), ("second", n, len(TEXT))):
                    asked = fields | {"position": CUT_FROM + start, "data": data[start:end], "lent": end - start}
                    cases.add("stream", f"{algorithm}, {name}, cut at {n}, {which}", {"bytes": out[start:end]}, **asked)
                parts = [TEXT[:CUT_FROM], data[:n], data[n:]]
                answer = carried(algorithm, KEY, parts)
                must(b"".join(part["bytes"] for part in answer["parts"][1:]) == out, (algorithm, name, n))
                cases.add("streams", f"{algorithm}, {name}, cut at {n}", answer, parts=parts, **fields)


def carried(algorithm, key, parts):
    """The parts' answers, one behind the other."""
    answers, position = [], 0
    for part in parts:
        text = bytes(part["zeros"]) if isinstance(part, dict) else part
        if position + len(text) > LIMIT:
            answers.append({"no": 1})
            continue
        answers.append({"no": 0, "bytes": STREAMS[algorithm](key, position, text)})
        position += len(text)
    return {"parts": answers}


def states(cases):
    lists = {
        "23 and 19": [TEXT[:23], TEXT[:19]],
        "none": [],
        "many": [TEXT[:n] for n in (0, 1, 62, 1, 64, 0, 65, 200, 3)],
        "one too long": [TEXT[:64], {"zeros": LIMIT - 63}, TEXT[:64]],
    }
    for algorithm in STREAMS:
        for name, parts in lists.items():
            answer = carried(algorithm, KEY, parts)
            cases.add("streams", f"{algorithm}, {name}", answer, alg=algorithm, key=KEY, parts=parts)
        cases.add("streams", f"{algorithm}, long key", 1, alg=algorithm, key={"zeros": LIMIT + 1}, parts=[b""])
    for algorithm in (0, 1, 4):
        cases.add("streams", f"algorithm {algorithm}", 9, alg=algorithm, key={"zeros": LIMIT + 1}, parts=[TEXT[:42]])


def passwords(cases, entries):
    """The protected values of other programs' vaults."""
    for vault, entry in entries:
        if vault.t is None:
            continue
        payload = payload_of(vault)
        found, document = places(payload)
        algorithm = int.from_bytes(payload[found[1][0] :][:4], "little")
        start, size = found[2]
        key = payload[start : start + size]
        parts = [base64.b64decode(text) for text in PROTECTED.findall(payload[document:])]
        if not parts:
            continue
        answer = carried(algorithm, key, parts)
        shown = [part["bytes"].decode() for part in answer["parts"]]
        must(all(told["password"] in shown for told in entry["entries"] if told["password"]), vault.name)
        cases.add("streams", vault.name, answer, alg=algorithm, key=key, parts=parts)


def add_all(cases, entries):
    stretches(cases)
    states(cases)
    cuts(cases)
    passwords(cases, entries)
