#!/usr/bin/env python3
"""Write what crates/vectors_argon2 reads and must print:   tools/vectors_argon2.py FIXTURES

FIXTURES is the folder of vaults that other programs wrote, with its manifest.json: who does not have it cannot run this
script, and needs only crates/vectors_argon2/stdin and stdout, which it writes. Every tag is computed by libargon2, the
reference implementation (Debian's libargon2-1). Those that RFC 9106 publishes are compared with its text first, and
those of the vaults with the manifest's transformed keys. The refusals' numbers and the words that are used follow
document 02, Item 6; the number of each case at a bound is also told beside it, by hand. The case of long_message and
the rows are those of crates/vectors_argon2/src, told anew here; src/long_message.rt says why no case stands at the
limit of a message.
"""
import ctypes
import pathlib
import sys

from messages import pattern, random
from vaults import text_field, vaults

ARGON2D, ARGON2ID = 0, 2
UUIDS = {"ef636ddf8c29444b91f7a9a403e30a0c": ARGON2D, "9e298b1956db4773b23dfc3ec6f0a1e6": ARGON2ID}
MESSAGE_LIMIT = 33_554_432
MOST_WORDS = 153_600
TOO_LONG, NO_ROOM, FIGURE_OUTSIDE = 1, 17, 22

# RFC 9106, sections 5.1 and 5.3
PUBLISHED = {
    ("5.1", ARGON2D): """
        51 2b 39 1b 6f 11 62 97
        53 71 d3 09 19 73 42 94
        f8 68 e3 be 39 84 f3 c1
        a1 3a 4d b9 fa be 4a cb
    """,
    ("5.3", ARGON2ID): """
        0d 64 0d f5 8d 78 76 6c
        08 c0 37 a3 4a 8b 53 c9
        d0 1e f0 45 2d 75 b6 5e
        b5 25 20 e9 6b 01 e6 59
    """,
}


class Context(ctypes.Structure):
    """argon2_context, of argon2.h."""

    _fields_ = [
        (name, kind)
        for part in ("out", "pwd", "salt", "secret", "ad")
        for name, kind in ((part, ctypes.c_char_p), (f"{part}len", ctypes.c_uint32))
    ] + [(name, ctypes.c_uint32) for name in ("t_cost", "m_cost", "lanes", "threads", "version")] + [
        ("allocate_cbk", ctypes.c_void_p),
        ("free_cbk", ctypes.c_void_p),
        ("flags", ctypes.c_uint32),
    ]


LIBARGON2 = ctypes.CDLL("libargon2.so.1")


def libargon2(kind, password, salt, secret, associated, passes, kibibytes, lanes, length):
    out = ctypes.create_string_buffer(length)
    parts = [x for part in (password, salt, secret, associated) for x in (part, len(part))]
    context = Context(ctypes.addressof(out), length, *parts, passes, kibibytes, lanes, 1, 0x13, None, None, 0)
    status = LIBARGON2.argon2_ctx(ctypes.byref(context), kind)
    assert status == 0, status
    return out.raw


def used(memory, lanes):
    """The words of the blocks that are filled: 128 of each of m' = 4 P floor(m / 4 P), m in KiB."""
    return 128 * 4 * lanes * (memory // 1024 // (4 * lanes))


def number_of(inputs, salt, passes, memory, lanes, words):
    """22, then 1 for a message of H_0 over the limit, then 17."""
    bounds = ((len(salt), 8, 64), (passes, 1, 64), (memory, 8_192, 67_108_864), (lanes, 1, 16))
    if not all(least <= n <= most for n, least, most in bounds) or memory < 8_192 * lanes:
        return FIGURE_OUTSIDE
    if 40 + sum(map(len, inputs)) + len(salt) > MESSAGE_LIMIT:
        return TOO_LONG
    return NO_ROOM if words < used(memory, lanes) else 0


class Cases:
    def __init__(self):
        self.table, self.rows = [], []

    def row(self, name, case, kind, password, salt, secret, associated, passes, memory, lanes, words, length):
        """Both rows of a case; answers its number and the tag."""
        number = number_of((password, secret, associated), salt, passes, memory, lanes, words)
        if number == 0:
            tag = libargon2(kind, password, salt, secret, associated, passes, memory // 1024, lanes, length)
        else:
            tag = bytes(32) if name == "transform" else b"\x5a" * length
        zeros = used(memory, lanes) if number == 0 else 0
        self.rows.append(f"{name} {case} {length} {number} {tag.hex()}")
        self.rows.append(f"memory {case} {zeros} {words - zeros}")
        return number, tag

    def line(self, case, name, kind, password, salt, secret, associated, passes, memory, lanes, words, length):
        assert words <= MOST_WORDS
        given = map(text_field, (password, salt, secret, associated))
        self.table.append(" ".join(map(str, (case, name, kind, *given, passes, memory, lanes, words, length))))
        figures = (passes, memory, lanes, words, length)
        return self.row(name, case, kind, password, salt, secret or b"", associated or b"", *figures)

    def hash(self, case, kind, password, salt, secret, associated, passes, memory, lanes, words, length=32):
        return self.line(case, "hash", kind, password, salt, secret, associated, passes, memory, lanes, words, length)

    def transform(self, case, kind, composite, salt, passes, memory, lanes, words):
        return self.line(case, "transform", kind, composite, salt, None, None, passes, memory, lanes, words, 32)


def published(cases):
    for (section, kind), text in PUBLISHED.items():
        inputs = b"\x01" * 32, b"\x02" * 16, b"\x03" * 8, b"\x04" * 12
        answer = cases.hash(f"rfc9106-{section}", kind, *inputs, 3, 32 * 1024, 4, 32 * 128)
        assert answer == (0, bytes.fromhex(text)), section


def of_vaults(cases, folder):
    """Vaults that other programs wrote; one asks for more memory than is lent."""
    for vault in vaults(folder):
        kind = UUIDS.get(vault.kdf[b"$UUID"].hex())
        if kind is None:
            continue
        passes, memory, lanes = (int.from_bytes(vault.kdf[name], "little") for name in (b"I", b"M", b"P"))
        words = min(memory // 8, MOST_WORDS)
        number, key = cases.transform(vault.name, kind, vault.composite, vault.kdf[b"S"], passes, memory, lanes, words)
        assert number != 0 or key == vault.t, vault.name


class Generator:
    """Pseudo-random bytes and numbers by the rule of messages.random."""

    def __init__(self, state):
        self.state = state

    def bytes(self, n):
        self.state, out = random(self.state, n)
        return out

    def below(self, n):
        return int.from_bytes(self.bytes(4), "big") % n

    def one_of(self, *values):
        return values[self.below(len(values))]


def figures(g, lanes):
    """Pseudo-random passes and memory, so that few blocks are filled where the passes are many; and words."""
    least = 8 * lanes
    blocks = g.one_of(least, least + g.below(4 * lanes), least + g.below(256 - least))
    memory = 1024 * blocks + g.one_of(0, 1, 1023, g.below(1024))
    passes = 1 + g.below(64) if blocks <= 24 else g.one_of(1, 2, 3, 1 + g.below(4))
    return passes, memory, used(memory, lanes) + g.one_of(0, 1, 127, 128, g.below(300))


def salt(g):
    return g.bytes(g.one_of(8, 64, 8 + g.below(57)))


def pseudo_random(cases):
    g = Generator(9106)
    for i in range(192):
        lanes = i // 2 % 16 + 1
        passes, memory, words = figures(g, lanes)
        composite = g.bytes(32)
        cases.transform("random", i % 2 * 2, composite, salt(g), passes, memory, lanes, words)
    for i in range(96):
        lanes = i // 2 % 16 + 1
        passes, memory, words = figures(g, lanes)
        password, secret, associated = (g.bytes(g.below(101)) for _ in range(3))
        length = g.one_of(4, 5, 31, 33, 63, 64, 65, 96, 97, 128)
        cases.hash("random", i % 2 * 2, password, salt(g), secret, associated, passes, memory, lanes, words, length)


def larger(cases):
    """Segments of 99 to 300 blocks: one to three blocks of addresses in a segment of Argon2id's first half pass."""
    g = Generator(2021)
    for lanes, blocks in ((1, 508), (1, 512), (1, 516), (1, 1_024), (1, 1_028), (1, 1_200), (2, 1_200), (3, 1_199)):
        for kind in (ARGON2D, ARGON2ID):
            memory = 1024 * blocks + g.below(1024)
            cases.transform(f"blocks-{blocks}", kind, g.bytes(32), salt(g), 2, memory, lanes, MOST_WORDS)


def bounds(cases):
    """Each figure at its bounds and one beyond, the numbers told by hand; both functions, one of each type."""
    password = pattern(32)

    def both(case, number, s=16, i=1, m=8_192, p=1, words=1_100):
        for answer in (
            cases.hash(case, ARGON2D, password, pattern(s), b"secret", b"data", i, m, p, words, 32),
            cases.transform(case, ARGON2ID, password, pattern(s), i, m, p, words),
        ):
            assert answer[0] == number, case

    for s, number in ((0, 22), (7, 22), (8, 0), (64, 0), (65, 22), (128, 22)):
        both(f"salt-{s}", number, s=s)
    for i, number in ((0, 22), (1, 0), (64, 0), (65, 22), (2**32, 22), (2**32 + 1, 22)):
        both(f"passes-{i}", number, i=i)
    for m, number in ((0, 22), (8_191, 22), (8_192, 0), (67_108_864, 17), (67_108_865, 22), (2**32 + 8_192, 22)):
        both(f"memory-{m}", number, m=m)
    for p, number in ((0, 22), (1, 0), (16, 0), (17, 22), (2**32 - 1, 22)):
        both(f"lanes-{p}", number, p=p, m=139_264, words=17_500)
    for p in (1, 2, 3, 15, 16):
        both(f"lanes-{p}-memory-{8_192 * p - 1}", 22, p=p, m=8_192 * p - 1, words=17_000)
        both(f"lanes-{p}-memory-{8_192 * p}", 0, p=p, m=8_192 * p, words=17_000)
    # m' is less than m: 24 of 28 blocks, 8 of 11, 80 of 119, and 8 of 8 with bytes left over
    for p, m, least in ((3, 29_576, 3_072), (1, 12_287, 1_024), (10, 122_879, 10_240), (1, 9_215, 1_024)):
        both(f"lanes-{p}-memory-{m}-words-{least - 1}", 17, p=p, m=m, words=least - 1)
        both(f"lanes-{p}-memory-{m}-words-{least}", 0, p=p, m=m, words=least)
        both(f"lanes-{p}-memory-{m}-words-{least + 1}", 0, p=p, m=m, words=least + 1)
    both("no-words", 17, words=0)
    both("one-word", 17, words=1)
    both("no-words-and-outside", 22, i=65, words=0)


def long_message(cases):
    """The case of src/long_message.rt: H_0's message has 8,388,609 bytes."""
    long = b"a" * 2_796_187
    answer = cases.row("hash", "long-message", ARGON2ID, long, long[:8], long, long, 1, 8_192, 1, 1_024, 32)
    assert answer[0] == 0


def main(folder):
    crate = pathlib.Path(__file__).parent.parent / "crates" / "vectors_argon2"
    cases = Cases()
    published(cases)
    of_vaults(cases, folder)
    pseudo_random(cases)
    larger(cases)
    bounds(cases)
    long_message(cases)
    (crate / "stdin").write_text("".join(f"{line}\n" for line in cases.table))
    (crate / "stdout").write_text("".join(f"{line}\n" for line in cases.rows))


if len(sys.argv) != 2:
    sys.exit(__doc__)
main(pathlib.Path(sys.argv[1]))
