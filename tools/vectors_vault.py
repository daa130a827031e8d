#!/usr/bin/env python3
"""Write what crates/vectors_vault reads and must print:   tools/vectors_vault.py FIXTURES

FIXTURES is the folder of vaults that other programs wrote, with its manifest.json: who does not have it cannot run this
script, and needs only crates/vectors_vault/stdin and stdout, which it writes. All rows come from a model of outer
headers (header_model.py), and from a whole opener and a plain opener told here from document 01, with Python's hashlib
and hmac and the ciphers of the package cryptography, which is OpenSSL. What it opens of the vaults is compared with the
manifest's block sizes, payload lengths and hashes; the numbers and places of made and damaged vaults are told beside
each, by hand, and compared with what the openers say. No file stands at the limit or over it: the program's stack does
not hold one, and tests/differential runs these.
"""
import hmac
import json
import pathlib
import sys

from cryptography.hazmat.primitives.ciphers import Cipher, algorithms, modes
from digests import must, sha256, sha512
from header_model import (
    AES, AES_KDF, ARGON2D, CHACHA20, END, FILE_LIMIT, SIGNATURES, TWOFISH, Refused, int32, need, number, read_header,
)
from messages import pattern
from vaults import text_field, vaults

TABLE_LIMIT = 1_000_000
# The table has no room for all vaults: of two of KeePass 2 with Argon2 one is left out, and those that 22 refuses
# (vectors_open has them).
LEFT_OUT = "kp2-v40-chacha-argon2id-pwkf"
OUTPUT = 65_536
# What is lent for a large file, and where the writer cuts.
LARGE_OUTPUT = 1_050_000
CUT = 1_048_576


def tag_of(base, i, *parts):
    return hmac.digest(sha512(number(i, 8), base), b"".join(parts), "sha256")


# the openers

class Keys:
    def __init__(self, cipher, nonce, seed, t):
        self.cipher, self.nonce = cipher, nonce
        self.key, self.base = sha256(seed, t), sha512(seed, t, b"\1")

    def crypt(self, data, decrypts=True):
        """All of the data by the cipher, the padding still in it."""
        if self.cipher == AES:
            mode = Cipher(algorithms.AES(self.key), modes.CBC(self.nonce))
            crypt = mode.decryptor() if decrypts else mode.encryptor()
            return crypt.update(data[: len(data) // 16 * 16]) + crypt.finalize()
        return Cipher(algorithms.ChaCha20(self.key, bytes(4) + self.nonce), None).decryptor().update(data)

    def handed(self, c):
        """How much of the payload is handed over with c bytes of ciphertext verified."""
        return (max(c, 1) - 1) // 16 * 16 if self.cipher == AES else c

    def payload(self, text):
        """The payload of the whole ciphertext."""
        plain = self.crypt(text)
        if self.cipher == AES:
            need(len(text) > 0 and len(text) % 16 == 0, 16)
            p = plain[-1]
            need(1 <= p <= 16 and plain.endswith(bytes([p]) * p), 16)
            return plain[:-p]
        return plain


def begin(f, t):
    """The checks up to the header's tag: the keys, and the place of the first block."""
    values, frames = read_header(f, FILE_LIMIT)
    n = len(b"".join(frames))
    keys = Keys(values[2], values[7], values[4], t)
    need(len(f) >= n + 64, 2)
    need(f[n : n + 32] == sha256(f[:n]), 12)
    need(f[n + 32 : n + 64] == tag_of(keys.base, 2**64 - 1, f[:n]), 13)
    return keys, n + 64


def judge(keys, f, i, at):
    """The data of block i."""
    need(len(f) <= FILE_LIMIT, 1)
    need(at + 36 <= len(f), 2)
    size = int32(f, at + 32)
    need(size >= 0, 5)
    need(at + 36 + size <= len(f), 2)
    data = f[at + 36 : at + 36 + size]
    need(f[at : at + 32] == tag_of(keys.base, i, number(i, 8), number(size, 4), data), 14)
    return data


def open_whole(f, t, room):
    keys, at = begin(f, t)
    text, i = b"", 0
    while data := judge(keys, f, i, at):
        text, i, at = text + data, i + 1, at + 36 + len(data)
    need(at + 36 == len(f), 15)
    payload = keys.payload(text)
    need(len(payload) <= room, 17)
    return payload


OPEN, CLOSED, ENDED = range(3)


class Plain:
    """The plain opener of demand 3."""

    def __init__(self, keys, at):
        self.phase, self.keys, self.i, self.at, self.text = OPEN, keys, 0, at, b""

    def step(self, f, room):
        try:
            need(self.phase == OPEN, 19)
            return 0, self.taken(f, room)
        except Refused as r:
            if r.no not in (17, 19):
                self.phase = CLOSED
            return r.no, b""

    def taken(self, f, room):
        data = judge(self.keys, f, self.i, self.at)
        text = self.text + data
        before = self.keys.handed(len(self.text))
        if data:
            due = self.keys.crypt(text)[before : self.keys.handed(len(text))]
        else:
            need(self.at + 36 == len(f), 15)
            due = self.keys.payload(text)[before:]
        need(len(due) <= room, 17)
        self.text, self.i, self.at = text, self.i + 1, self.at + 36 + len(data)
        self.phase = OPEN if data else ENDED
        return due


# the rows

def answer(call, *args):
    """The number, the place, and what is answered beside 0."""
    try:
        return 0, 0, call(*args)
    except Refused as r:
        return r.no, r.place, None


def room_of(k, size):
    return (0, 1, max(size - 17, 0), max(size - 2, 0), max(size - 1, 0), size, size + 15, size + 1_000)[k]


class Rows(list):
    def row(self, name, form, figure, no, result=b""):
        self.append(f"{name} {form} {figure} {no} {result.hex()}")

    def opened(self, kind, name, f, t, room):
        no, place, payload = answer(open_whole, f, t, room)
        payload = payload or b""
        self.row(kind, name, place if no else len(payload), no, sha256(payload))
        self.row("output", name, room, 0, sha256(payload.ljust(OUTPUT, b"\xee")))
        return no, place, payload

    def whole(self, name, f, t):
        no, place, payload = self.opened("whole", name, f, t, OUTPUT)
        must(self.opened("just", name, f, t, len(payload)) == (no, place, payload), name)
        less, _, _ = self.opened("less", name, f, t, max(len(payload) - 1, 0))
        must(less == (17 if payload else no), name)
        return no, place, payload

    def steps(self, name, f, t, given):
        """The rows of a block-by-block opening; the last step's number, and all bytes handed over."""
        no, place, begun = answer(begin, f, t)
        opener = Plain(*begun or (None, 0))
        self.row("start", name, opener.at if begun else place, no, opener.keys.base if begun else bytes(64))
        if begun is None:
            opener.phase = CLOSED
        calls, last, handed, told = 0, 0, b"", b""
        while opener.phase == OPEN:
            size = int.from_bytes(given[opener.at + 32 : opener.at + 36], "little") % 60_000
            room = room_of(calls % 8, size)
            last, due = opener.step(given, room)
            calls, handed = calls + 1, handed + due
            told += bytes([last]) + number(len(due), 8) + due.ljust(min(room + 16, OUTPUT), b"\xee")
        must(calls < 4_000, name)
        self.row("steps", name, calls, last, sha256(told))
        self.row("handed", name, len(handed), opener.phase, sha256(handed))
        must(opener.step(given, OUTPUT) == (19, b""), name)
        state = bytes([opener.phase]) + bytes(3 * 8 + 2 * 16 + 32 + 16 + 64 + 60 * 4)
        self.row("after", name, 0, 19, sha256(state, b"\xee" * OUTPUT))
        return no or last, handed

    def large(self, name, f, t):
        """The rows of a large file; the number of its whole opening, its payload, and all bytes handed over."""
        def shown(kind, no, handed):
            handed = handed or b""
            self.row(kind, name, len(handed), no, sha256(handed))
            return handed

        no, _, payload = answer(open_whole, f, t, LARGE_OUTPUT)
        payload = shown("whole", no, payload)
        no_less, _, handed = answer(open_whole, f, t, max(len(payload) - 1, 0))
        shown("less", no_less, handed)
        opener = Plain(*begin(f, t))
        self.row("start", name, opener.at, 0, opener.keys.base)
        handed = b""
        while opener.phase == OPEN:
            handed += shown("step", *opener.step(f, LARGE_OUTPUT))
        must(opener.phase == ENDED, name)
        return no, payload, handed


class Cases:
    def __init__(self):
        self.table, self.rows, self.names = [], Rows(), set()

    def case(self, name, expected, f, t, given=None, steps_expected=None, place=0):
        """A vault; the number of its opening; how many of its bytes the steps are given, and the number of these. The
        place is compared but where it is None."""
        must(name not in self.names, name)
        self.names.add(name)
        given = len(f) if given is None else given
        self.table.append(f"{name} {text_field(t)} {text_field(f)} {given}")
        no, at, payload = self.rows.whole(name, f, t)
        must(no == expected and place in (None, at), (name, no, at, expected, place))
        last, handed = self.rows.steps(name, f, t, f[:given] if given <= len(f) else bytes(given))
        must(last == (no if steps_expected is None else steps_expected), (name, last))
        must(handed == payload or no or steps_expected, name)
        return payload

    def large(self, name, expected, f, t, pieces):
        """A file by rule but for pieces, each a place and bytes; the number of its whole opening. The steps open it."""
        by_rule = bytearray(pattern(len(f)))
        for at, piece in pieces:
            by_rule[at : at + len(piece)] = piece
        must(by_rule == f and len(pieces) <= 5 and pieces[0][0] == 0, name)
        must(name not in self.names, name)
        self.names.add(name)
        more = "".join(f" {at} {text_field(piece)}" for at, piece in pieces[1:])
        self.table.append(f"{name} {text_field(t)} {text_field(pieces[0][1])} {len(f)}{more}")
        no, payload, handed = self.rows.large(name, f, t)
        must(no == expected and handed == open_whole(f, t, len(f)) and payload in (b"", handed), (name, no))


# what is made here

ROUNDS = 6_000


def field(id_, value, size=None):
    return bytes([id_]) + number(len(value) if size is None else size, 4) + value


def item(kind, name, value):
    return bytes([kind]) + field(0, name)[1:] + field(0, value)[1:]


def kdf(uuid=AES_KDF, rounds=ROUNDS, seed=b"\x33" * 32, more=b""):
    items = item(0x42, b"$UUID", uuid), item(5, b"R", number(rounds, 8)), item(0x42, b"S", seed), more
    return b"\0\1" + b"".join(items) + b"\0"


T = bytes(range(32))
SEED = b"\x11" * 32
NONCE = b"\x22" * 16
A = Keys(AES, NONCE, SEED, T)
C = Keys(CHACHA20, NONCE[:12], SEED, T)


def header(keys, version=0x40001, signatures=SIGNATURES, end=field(0, END), more=b"", **changed):
    """A header; f2=VALUE replaces field 2, None leaves it out; `more` stands in front of the end field."""
    values = {2: keys.cipher, 3: bytes(4), 4: SEED, 7: keys.nonce, 11: kdf()}
    values |= {int(name[1:]): value for name, value in changed.items()}
    parts = [field(id_, value) for id_, value in values.items() if value is not None]
    return signatures + number(version, 4) + b"".join(parts) + more + end


def front(keys, head=None, base=None):
    """A header, its hash and tag."""
    head = header(keys) if head is None else head
    return head + sha256(head) + tag_of(base or keys.base, 2**64 - 1, head)


def block(keys, i, data=b"", size=None):
    size = number(len(data) if size is None else size, 4)
    return tag_of(keys.base, i, number(i, 8), size, data) + size + data


def blocks(keys, text, sizes):
    """The ciphertext in blocks of these sizes, the last size once more as often as needed, and the closing block."""
    sizes, out, i = list(sizes), b"", 0
    while text:
        size = sizes[min(i, len(sizes) - 1)]
        out, text, i = out + block(keys, i, text[:size]), text[size:], i + 1
    return out + block(keys, i)


def padded(payload):
    p = 16 - len(payload) % 16
    return payload + bytes([p]) * p


def text_of(keys, payload):
    return keys.crypt(padded(payload) if keys.cipher == AES else payload, False)


def made(keys, payload, *sizes):
    return front(keys) + blocks(keys, text_of(keys, payload), sizes or [16_384])


def flipped(f, at, bit=1):
    at %= len(f)
    return f[:at] + bytes([f[at] ^ bit]) + f[at + 1 :]


FRONT_A = front(A)
BOTH = (("aes", A), ("chacha", C))
PAYLOAD = bytes(37 * i % 251 for i in range(300))


def sound(cases):
    for name, keys in BOTH:
        for n in (0, 1, 15, 16, 17, 31, 32, 33):
            must(cases.case(f"{name}-{n}", 0, made(keys, PAYLOAD[:n]), T) == PAYLOAD[:n], name)
        for n, *sizes in (
            (24, 1), (60, 2), (100, 15), (100, 16), (31, 5, 27), (16, 5, 27), (200, 1, 15, 16, 17, 31, 32, 33),
            (200, 63, 64, 65), (130, 16, 16, 1, 1, 14, 47, 2),
        ):
            whole = made(keys, PAYLOAD[:n], *sizes)
            must(cases.case(f"{name}-{n}-by-" + "-".join(map(str, sizes)), 0, whole, T) == PAYLOAD[:n], name)
    custom = header(A, f12=b"\0\1" + item(0x18, b"a", b"") + b"\0")
    cases.case("custom", 0, front(A, custom) + blocks(A, text_of(A, b"abc"), [48]), T)


def argon2(memory, more=b""):
    """A dictionary of Argon2d with two lanes, the items in byte order of their names."""
    items = [item(0x42, b"$UUID", ARGON2D), item(5, b"I", number(2, 8)), item(5, b"M", number(memory, 8))]
    items += [item(4, b"P", number(2, 4)), item(0x42, b"S", b"\x33" * 32), item(4, b"V", number(0x13, 4)), more]
    return b"\0\1" + b"".join(items) + b"\0"


def damaged_headers(cases):
    """A header's refusals; hash, tag and blocks are right for what stands there, but for the cut ones. The fields stand
    at 12, 33, 42, 79, 96 and 194, and the items of the KDF dictionary, whose value begins at 101, at 103, 133 and 151;
    of Argon2's, I stands at 133, M at 151 and what is more at 239."""
    whole = made(C, b"payload")
    for n in (0, 11, 12, 16, 17, 60, 202):
        cases.case(f"header-cut-{n}", 2, whole[:n], T, place=n)

    def case(name, expected, place, keys=C, **changed):
        cases.case(name, expected, front(keys, header(keys, **changed)) + blocks(keys, b"", [1]), T, place=place)

    case("signature", 3, 0, signatures=bytes(8))
    case("second-signature", 3, 4, signatures=SIGNATURES[:4] + bytes(4))
    case("signature-and-version", 3, 0, signatures=bytes(8), version=0)
    case("version-3.1", 4, 8, version=0x30001)
    case("version-4.2", 4, 8, version=0x40002)
    case("end-bytes", 5, 194, end=field(0, b"\r\n\r\0"))
    case("seed-of-31", 5, 42, f4=bytes(31))
    case("nonce-of-aes", 5, 79, f7=NONCE)
    case("custom-negative", 5, 194, more=field(12, b"", -1))
    case("second-nonce", 6, 194, more=field(7, NONCE[:12]))
    case("second-name", 6, 193, f11=kdf(more=item(5, b"R", bytes(8))))
    case("second-name-of-custom", 6, 211, f12=b"\0\1" + 2 * item(0x18, b"a", b"") + b"\0")
    case("field-1", 7, 194, more=field(1, b""))
    case("no-seed", 8, 157, f4=None)
    case("no-kdf", 8, 96, f11=None)
    case("twofish", 9, 12, f2=TWOFISH)
    case("compressed", 9, 33, f3=number(1, 4))
    case("unlisted-kdf", 9, 103, f11=kdf(bytes(16)))
    case("argon2d-a-then-k", 9, 249, f11=argon2(65_536, item(0x42, b"A", b"") + item(0x42, b"K", b"")))
    case("argon2d-without-items", 10, 101, f11=kdf(ARGON2D))
    case("kdf-seed-of-31", 10, 151, f11=kdf(seed=bytes(31)))
    case("custom-broken", 10, 199, f12=b"\0\2\0")
    case("rounds-over", 11, 133, f11=kdf(rounds=4_000_001))
    case("argon2d-memory-under-lanes", 22, 151, f11=argon2(16_383))
    case("rounds-5999", 20, 133, f11=kdf(rounds=5_999))
    case("rounds-0-of-aes", 20, 137, A, f11=kdf(rounds=0))
    case("rounds-1-and-custom-broken", 20, 133, f11=kdf(rounds=1), f12=b"")
    few = front(C, header(C, f11=kdf(rounds=5_999)))
    cases.case("rounds-5999-cut", 20, few[:-64], T, place=133)
    cases.case("rounds-5999-and-hash", 20, flipped(few, -64) + blocks(C, b"", [1]), T, place=133)
    cases.case("rounds-5999-and-tag", 20, flipped(few, -1) + blocks(C, b"", [1]), T, place=133)


def damaged_tags(cases):
    """The 64 bytes behind the header."""
    whole, n = made(C, b"payload"), len(header(C))
    for k in (0, 1, 31, 32, 63):
        cases.case(f"tags-cut-{k}", 2, whole[: n + k], T)
    cases.case("tags-cut-63-and-hash", 2, flipped(whole, n)[: n + 63], T)
    cases.case("hash-first-bit", 12, flipped(whole, n), T)
    cases.case("hash-last-bit", 12, flipped(whole, n + 31, 128), T)
    cases.case("hash-and-tag", 12, flipped(flipped(whole, n), n + 32), T)
    cases.case("hash-and-other-t", 12, flipped(whole, n), bytes(32))
    cases.case("seed-changed", 12, flipped(whole, whole.index(SEED)), T)
    cases.case("tag-first-bit", 13, flipped(whole, n + 32), T)
    cases.case("tag-last-bit", 13, flipped(whole, n + 63, 128), T)
    cases.case("tag-and-block-cut", 13, flipped(whole, n + 63)[: n + 64], T)
    cases.case("tag-and-block-tag", 13, flipped(flipped(whole, n + 63), n + 64), T)
    cases.case("other-t", 13, whole, flipped(T, 0))
    head = flipped(whole[:n], whole.index(SEED))
    cases.case("seed-changed-and-hashed", 13, head + sha256(head) + whole[n + 32 :], T)
    head = whole[:n]
    for name, tag in (
        ("number-0", tag_of(C.base, 0, head)),
        ("number-2-32", tag_of(C.base, 2**32 - 1, head)),
        ("over-number", tag_of(C.base, 2**64 - 1, number(2**64 - 1, 8), head)),
        ("over-hash", tag_of(C.base, 2**64 - 1, head, sha256(head))),
        ("base-without-01", tag_of(sha512(SEED, T), 2**64 - 1, head)),
    ):
        cases.case(f"tag-{name}", 13, head + sha256(head) + tag + whole[n + 64 :], T)


def damaged_blocks(cases):
    for name, keys in BOTH:
        start = front(keys)
        text = text_of(keys, PAYLOAD[:40])
        first, second, third = (block(keys, i, text[a:b]) for i, a, b in ((0, 0, 17), (1, 17, 37), (2, 37, 99)))
        close = block(keys, 3)
        whole = start + first + second + third + close
        at = len(start) + len(first)

        def case(what, expected, f):
            cases.case(f"{name}-{what}", expected, f, T)

        case("no-block", 2, start)
        case("block-cut-1", 2, start + first[:1])
        case("block-cut-35", 2, start + first[:35])
        case("block-cut-36", 2, start + first[:36])
        case("block-cut-data", 2, start + first[:-1])
        case("second-cut-35", 2, start + first + second[:35])
        case("second-cut-data-and-tag", 2, start + first + flipped(second, 0)[:-1])
        case("no-closing", 2, start + first + second + third)
        case("closing-cut", 2, whole[:-1])
        case("closing-cut-and-tag", 2, flipped(whole, -36)[:-1])
        case("size-largest", 2, start + first + block(keys, 1, text[17:], 2**31 - 1) + close)
        case("size-one-more-than-file", 2, start + first + block(keys, 1, text[17:], len(text) - 16))
        case("size-minus-1", 5, start + block(keys, 0, text, -1) + block(keys, 1))
        case("size-least", 5, start + first + block(keys, 1, text[17:], -(2**31)) + close)
        case("size-minus-1-and-tag", 5, start + first + flipped(block(keys, 1, text[17:], -1), 0) + close)
        case("size-minus-1-and-cut", 5, start + first + block(keys, 1, b"", -1))
        case("tag-first-bit", 14, flipped(whole, at))
        case("tag-last-bit", 14, flipped(whole, at + 31, 128))
        case("size-smaller", 14, flipped(whole, at + 32, 4))
        case("size-zero", 14, whole[: at + 32] + bytes(4) + whole[at + 36 :])
        case("data-first-bit", 14, flipped(whole, at + 36))
        case("data-last-bit", 14, flipped(whole, at + 36 + 19, 128))
        case("first-data", 14, flipped(whole, len(start) + 36))
        case("closing-tag", 14, flipped(whole, -36))
        case("closing-tag-and-behind", 14, flipped(whole, -36) + b"\0")
        case("exchanged", 14, start + second + first + third + close)
        case("repeated", 14, start + first + first + second + third + close)
        case("left-out", 14, start + first + third + close)
        case("closing-early", 14, start + first + second + close)
        case("closing-of-0", 14, start + first + second + third + block(keys, 0))
        case("from-1", 14, start + block(keys, 1, text) + block(keys, 2))
        size = number(len(text), 4)
        for what, tag in (
            ("without-number", tag_of(keys.base, 0, size, text)),
            ("without-size", tag_of(keys.base, 0, number(0, 8), text)),
            ("number-of-4", tag_of(keys.base, 0, number(0, 4), size, text)),
            ("key-of-header", tag_of(keys.base, 2**64 - 1, number(0, 8), size, text)),
            ("other-t", tag_of(sha512(SEED, bytes(32), b"\1"), 0, number(0, 8), size, text)),
        ):
            case(f"tag-{what}", 14, start + tag + size + text + block(keys, 1))
        case("behind-1", 15, whole + b"\0")
        case("behind-closing", 15, whole + block(keys, 4))
        case("behind-closing-again", 15, whole + close)
        case("behind-data", 15, whole + block(keys, 4, text) + block(keys, 5))
        case("closing-first", 15, start + block(keys, 0) + block(keys, 1, text) + block(keys, 2))


def damaged_padding(cases):
    def case(name, expected, plain, *sizes, behind=b""):
        cases.case(f"padding-{name}", expected, FRONT_A + blocks(A, A.crypt(plain, False), sizes or [99]) + behind, T)

    case("0", 16, bytes(16))
    case("17", 16, bytes([17] * 32))
    case("32", 16, bytes([32] * 32))
    case("255", 16, bytes([255] * 16))
    case("16-first-differs", 16, b"\0" + bytes([16] * 15))
    case("2-of-1", 16, bytes(14) + b"\1\2")
    case("5-first-differs", 16, bytes(16) + bytes(11) + b"\4\5\5\5\5")
    case("16-of-two-pieces", 0, bytes(16) + bytes([16] * 16))
    case("only-in-first", 16, bytes([16] * 16) + bytes(16))
    case("in-each", 0, padded(b"abc") + padded(b"def"), 16)
    case("wrong-in-blocks", 16, bytes(48), 5, 27, 1)
    case("wrong-and-behind", 15, bytes(32), 16, behind=b"\0")
    text = text_of(A, PAYLOAD[:40])
    for n in (1, 15, 17, 31, 33, 47):
        cases.case(f"text-of-{n}", 16, FRONT_A + blocks(A, text[:n], [16]), T)
    cases.case("text-of-17-and-behind", 15, FRONT_A + blocks(A, text[:17], [16]) + b"\0", T)
    cases.case("text-of-0", 16, FRONT_A + block(A, 0), T)
    cases.case("text-of-0-and-behind", 15, FRONT_A + block(A, 0) + b"\0", T)
    cases.case("text-of-0-and-tag", 14, FRONT_A + flipped(block(A, 0), 0), T)
    last = flipped(text, 31)
    cases.case("padding-by-earlier-piece", 16, FRONT_A + blocks(A, last, [20]), T)


def other_files(cases):
    """Steps that are given another file than the start."""
    for name, keys in BOTH:
        whole = made(keys, PAYLOAD[:40], 17)
        n = len(front(keys))
        for given in (0, 35, n, n + 35, n + 36 + 16, n + 36 + 17, len(whole) - 1):
            cases.case(f"{name}-steps-given-{given}", 0, whole, T, given, 2)


def large_file(keys, n):
    """A file with n bytes of ciphertext by rule, cut as the writer cuts, and its pieces that are not by rule."""
    head, data = front(keys), []
    at = len(head)
    while n:
        data.append((at + 36, min(n, CUT)))
        at, n = at + 36 + data[-1][1], n - data[-1][1]
    rule = pattern(at)
    text = b"".join(rule[start : start + size] for start, size in data)
    end = b""
    if keys.cipher == AES:
        # CBC from the last piece but one on: the last is eleven bytes and their padding.
        mode = Cipher(algorithms.AES(keys.key), modes.CBC(text[-32:-16]))
        end = mode.encryptor().update(padded(PAYLOAD[:11]))
        text = text[:-16] + end
    f = head + blocks(keys, text, [CUT])
    pieces = [(0, f[: data[0][0]])] + [(start - 36, f[start - 36 : start]) for start, _ in data[1:]]
    return f, pieces + [(at - len(end), f[at - len(end) :])]


def large(cases):
    """Files with full blocks, and one of 4,194,305 bytes, whose payload has no room at once."""
    for name, keys, n, expected in (
        ("aes-cut-at-1048576", A, CUT + 32, 0), ("chacha-cut-at-1048576", C, CUT + 1, 0),
        ("chacha-file-of-4194305", C, 4_193_858, 17),
    ):
        f, pieces = large_file(keys, n)
        must(expected == 0 or len(f) == 4_194_305, len(f))
        cases.large(name, expected, f, T, pieces)


def block_sizes(f, t):
    sizes, (_, at) = [], begin(f, t)
    while 0 not in sizes:
        sizes.append(int32(f, at + 32))
        at += 36 + sizes[-1]
    return sizes


def from_vaults(cases, folder):
    entries = json.loads((folder / "manifest.json").read_text("utf-8"))
    for vault, entry in zip(vaults(folder), entries, strict=True):
        must(sha256(vault.file).hex() == entry["file_sha256"], vault.name)
        expected = entry.get("expect", 0)
        if expected == 22 or vault.name == LEFT_OUT:
            continue
        place = None if expected else 0
        payload = cases.case(vault.name, expected, vault.file, vault.t or bytes(32), place=place)
        if expected == 0:
            must(block_sizes(vault.file, vault.t) == entry["blocks"], vault.name)
            must(len(payload) == entry["payload_length"], vault.name)
            must(sha256(payload).hex() == entry["payload_sha256"], vault.name)


def main(folder):
    cases = Cases()
    from_vaults(cases, folder)
    for part in (sound, damaged_headers, damaged_tags, damaged_blocks, damaged_padding, other_files, large):
        part(cases)
    crate = pathlib.Path(__file__).parent.parent / "crates" / "vectors_vault"
    table = "".join(f"{line}\n" for line in cases.table)
    must(len(table) < TABLE_LIMIT, len(table))
    (crate / "stdin").write_text(table)
    (crate / "stdout").write_text("".join(f"{line}\n" for line in cases.rows))


if __name__ == "__main__":
    if len(sys.argv) != 2:
        sys.exit(__doc__)
    main(pathlib.Path(sys.argv[1]))
