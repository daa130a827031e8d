"""The model by itself: files of other programs, the worked numbers and the worked listing of document 01, those of
document 02's Items 3, 6, 7 and 8, Item 9's cuts, Item 13's cuttings, and the published numbers of Salsa20, which the
model makes itself.

This is what `tests/differential --self` runs. The fixtures' manifest was made by their own programs.
"""

import json
import os
import struct
from itertools import accumulate, cycle
from random import Random

from inputs.cuts import around_blocks, cut_at, cuts, merged, parts_of, positions, some_rounds
from inputs.places import PLACES
from inputs.recuts import adding_up
from inputs.requests import SHARES, some_vault, stretch_position
from inputs.shapes import Block, sound_vault
from model import header as outer, inner, keys, salsa20, stream, vault
from model.answers import READERS, answer
from model.dictionary import AES_KDF, ARGON2D, ARGON2ID, SIZE_OF_TYPE, kdf_figures
from model.limits import STREAM_LIMIT, Refusal
from model.primitives import cbc_encrypt, sha256
from model.recut import recut

# Item 3: "The listing case of document 01 then uses R = 6,000, whose value bytes are 7017000000000000".
LISTING = """\
03D9A29A67FB4BB501000400
0210000000D6038A2B8B6F4CB5A524339A31DBB59A
030400000000000000
04200000001111111111111111111111111111111111111111111111111111111111111111
070C000000222222222222222222222222
0B5D00000000014205000000245555494410000000C9D9F39A628A4460BF740D08C18A4FEA05010000005208000000701700000000000042010000\
005320000000333333333333333333333333333333333333333333333333333333333333333300
00040000000D0A0D0A
"""

# The examples of Salsa20's specification: section 3 (a quarter round), section 9 (a block).
QUARTER_ROUNDS = (
    ("00000000 00000000 00000000 00000000", "00000000 00000000 00000000 00000000"),
    ("00000001 00000000 00000000 00000000", "08008145 00000080 00010200 20500000"),
    ("00000000 00000001 00000000 00000000", "88000100 00000001 00000200 00402000"),
    ("00000000 00000000 00000001 00000000", "80040000 00000000 00000001 00002000"),
    ("00000000 00000000 00000000 00000001", "00048044 00000080 00010000 20100001"),
    ("e7e8c006 c4f9417d 6479b4b2 68c67137", "e876d72b 9361dfd5 f1460244 948541a3"),
    ("d3917c5b 55f1c407 52a58a7a 8f887a3b", "3e2f308c d90a8f36 6ab2a923 2883524c"),
)
SALSA20_BLOCK = """
    45254427290f6bc1ff8b7a06aae9d9625990b66a1533c841ef31de22d772287e
    68c507e1c5991f02664e4cb054f5f6b8b1a0858206489577c0c384ecea67f64a
"""
# ECRYPT's vectors of Salsa20/20 with a key of 256 bits: key, nonce, and 64 bytes of the stream at a position.
SALSA20_STREAM = (
    ("8000000000000000000000000000000000000000000000000000000000000000", "0000000000000000", (
        (0, """e3be8fdd8beca2e3ea8ef9475b29a6e7003951e1097a5c38d23b7a5fad9f6844
               b22c97559e2723c7cbbd3fe4fc8d9a0744652a83e72a9c461876af4d7ef1a117"""),
        (192, """57be81f47b17d9ae7c4ff15429a73e10acf250ed3a90a93c711308a74c6216a9
                 ed84cd126da7f28e8abf8bb63517e1ca98e712f4fb2e1a6aed9fdc73291faa17"""),
        (256, """958211c4ba2ebd5838c635edb81f513a91a294e194f1c039aeec657dce40aa7e
                 7c0af57cacefa40c9f14b71a4b3456a63e162ec7d8d10b8ffb1810d71001b618"""),
        (448, """696afcfd0cddcc83c7e77f11a649d79acdc3354e9635ff137e929933a0bd6f53
                 77efa105a3a4266b7c0d089d08f1e855cc32b15b93784a36e56a76cc64bc8477"""),
    )),
    ("0053a6f94c9ff24598eb3e91e4378add3083d6297ccf2275c81b6ec11467ba0d", "0d74db42a91077de", (
        (0, """f5fad53f79f9df58c4aea0d0ed9a9601f278112ca7180d565b420a48019670ea
               f24ce493a86263f677b46ace1924773d2bb25571e1aa8593758fc382b1280b71"""),
        (65_472, """b70c50139c63332ef6e77ac54338a4079b82bec9f9a403dfea821b83f7860791
                    650ef1b2489d0590b1de772eeda4e3bcd60fa7ce9cd623d9d2fd5758b8653e70"""),
        (65_536, """81582c65d7562b80aec2f1a673a9d01c9f892a23d4919f6ab47b9154e08e699b
                    4117d7c666477b60f8391481682f5d95d96623dbc489d88daa6956b9f0646b6e"""),
        (131_008, """a13ffa1208f8bf50900886faab40fd10e8caa306e63df39536a1564fb760b242
                     a9d6a4628cdc878762834e27a541da2a5e3b3445989c76f611e0fec6d91acacc"""),
    )),
)


class Tally:
    """Checks made and checks that failed."""

    def __init__(self):
        self.passed = 0
        self.failed = 0

    def same(self, label, given, right):
        if given == right:
            self.passed += 1
        else:
            self.failed += 1
            print("%s: %r, should be %r" % (label, given, right))


def outcome(action, *parts):
    """What an operation gives: its bytes or its number."""
    try:
        return action(*parts)
    except Refusal as refusal:
        return refusal.number


def number_of(action, *parts):
    """The number that an operation refuses with, or 0."""
    given = outcome(action, *parts)
    return given if isinstance(given, int) else 0


def credentials(folder, entry):
    """Password and key file of a fixture, None where absent."""
    password = entry["password"].encode() if "password" in entry else None
    key_file = None
    if "keyfile" in entry:
        with open(os.path.join(folder, entry["keyfile"]), "rb") as file:
            key_file = file.read()
    return password, key_file


def block_sizes(data, at):
    """The sizes of the blocks from there on, without a look at their tags."""
    made = []
    while at < len(data):
        made.append(int.from_bytes(data[at + 32 : at + 36], "little"))
        at += 36 + made[-1]
    return made


def stepped(data, t):
    """The payload by steps with room for each, or the number of the step that was refused."""
    header, vault_keys, at = vault.start(data, t)
    state, made = vault.State(at), b""
    while state.mark == "open":
        number, given, state = vault.step(header, vault_keys, state, data, None)
        made += given
        if number:
            return number
    return made


def transformed(composite, kdf):
    """T by the KDF of a header."""
    if kdf["kind"] == "aeskdf":
        return keys.transformed(composite, kdf["S"], kdf["R"])
    return keys.argon2(kdf["kind"], composite, kdf["S"], kdf["I"], kdf["M"], kdf["P"])


def check_figures(tally, label, entry, kdf):
    """The KDF's figures, as far as the manifest has them: those of AES-KDF, or all of Argon2's."""
    tally.same(label + " KDF", kdf["kind"], entry.get("kdf", "aeskdf"))
    if "R" in entry:
        tally.same(label + " rounds", kdf["R"], entry["R"])
    if "figures" in entry:
        tally.same(label + " figures", dict(kdf, S=kdf["S"].hex()), entry["figures"])


def check_opened(tally, folder, entry, data):
    """A vault: keys, payload, blocks, inner header."""
    label = entry["file"]
    header = outer.read(data)
    tally.same(label + " cipher", header.cipher, entry["cipher"])
    tally.same(label + " version", "4.%d" % header.minor, entry["version"])
    check_figures(tally, label, entry, header.kdf)
    composite = keys.composite(*credentials(folder, entry), None)
    tally.same(label + " composite key", composite.hex(), entry["composite"])
    t = transformed(composite, header.kdf)
    tally.same(label + " T", t.hex(), entry["T"])
    tally.same(label + " blocks", block_sizes(data, header.length + 64), entry["blocks"])
    plain = vault.open_whole(data, t)
    tally.same(label + " payload length", len(plain), entry["payload_length"])
    tally.same(label + " payload", sha256(plain).hex(), entry["payload_sha256"])
    tally.same(label + " by steps", stepped(data, t) == plain, True)
    tally.same(label + " another T", number_of(vault.open_whole, data, bytes(32)), 13)
    check_cut_back(tally, label, data, t, entry["blocks"][:-1])
    if header.kdf.get("R") == 6_000:
        check_round_less(tally, label, data, header.spans[outer.KDF], t)
    check_inner(tally, label, entry, plain)


def check_cut_back(tally, label, data, t, sizes):
    """Item 13 on a file in blocks of these sizes: cut at them it is the same, and so it is when it was cut at others
    before."""
    other = recut(data, t, adding_up(cycle([1000]), sum(sizes)))
    tally.same(label + " cut at its own sizes", recut(data, t, sizes) == data, True)
    tally.same(label + " cut at 1,000, and back", recut(other, t, sizes) == data, True)
    tally.same(label + " cut at 1,000", outcome(vault.open_whole, other, t) == vault.open_whole(data, t), True)


def check_round_less(tally, label, data, kdf_span, t):
    """Item 3 on a file of 6,000 rounds: of 5,999 it is refused, which comes before the header's hash."""
    at = data.index(bytes.fromhex("7017000000000000"), *kdf_span)
    fewer = data[:at] + (5_999).to_bytes(8, "little") + data[at + 8 :]
    tally.same(label + " header, a round less", number_of(outer.read, fewer), 20)
    tally.same(label + " whole, a round less", number_of(vault.open_whole, fewer, t), 20)
    tally.same(label + " by steps, a round less", number_of(stepped, fewer, t), 20)


def check_inner(tally, label, entry, plain):
    """The payload's attachments and document."""
    found = inner.read(plain)
    tally.same(label + " document", sha256(plain[found.document :]).hex(), entry["document_sha256"])
    given = [[at, length, flags, sha256(plain[at : at + length]).hex()] for at, length, flags in found.attachments]
    tally.same(label + " attachments", given, entry["attachments"])


def check_fixtures(tally, folder):
    """Every file of the manifest: opened, or refused with its number."""
    with open(os.path.join(folder, "manifest.json")) as file:
        entries = json.load(file)
    for entry in entries:
        with open(os.path.join(folder, entry["file"]), "rb") as file:
            data = file.read()
        if "expect" in entry:
            tally.same(entry["file"], number_of(outer.read, data), entry["expect"])
        else:
            check_opened(tally, folder, entry, data)


def written(cipher, payload_length, rounds=6_000, custom=b"", minor=1, seed=b"\x33" * 32, lent=None):
    """A file with seeds of bytes 11 and 33 and a nonce of bytes 22, as in the worked listing."""
    nonce = b"\x22" * outer.NONCE_LENGTH[outer.CIPHER_NAMES[cipher]]
    kdf = {"kind": "aeskdf", "S": seed, "R": rounds}
    return vault.write(minor, cipher, b"\x11" * 32, nonce, kdf, custom, bytes(32), bytes(payload_length), lent)


def with_rounds(data, rounds):
    """The file of 6,000 rounds with so many in their place, with hash and tag over the header that this makes."""
    header, vault_keys, at = vault.start(data, bytes(32))
    head = data[: header.length].replace((6_000).to_bytes(8, "little"), rounds.to_bytes(8, "little"))
    return head + sha256(head) + keys.header_tag(vault_keys.tag_base, head) + data[at:]


def check_lengths(tally):
    """ "AES header without custom data: 207 bytes", and the lengths of files."""
    tally.same("KDF dictionary", len(vault.written_aes_kdf(bytes(32), 6_000)), 93)
    for cipher, header_length in ((outer.AES, 207), (outer.CHACHA20, 203)):
        tally.same("header", outer.read(written(cipher, 0)).length, header_length)
    for cipher, payload_length, blocks, length in (
        (outer.AES, 0, 1, 359),
        (outer.CHACHA20, 0, 0, 303),
        (outer.CHACHA20, 1, 1, 340),
        (outer.AES, 16_383, 1, 207 + 64 + 72 + 16_384),
        (outer.CHACHA20, 16_384, 1, 16_723),
        # Item 7: "AES payload 16,384 now makes one data block, file 16,743", in place of document 01's two and 16,779.
        (outer.AES, 16_384, 1, 16_743),
        (outer.AES, 1_048_575, 1, 207 + 64 + 72 + 1_048_576),
        (outer.AES, 1_048_576, 2, 1_048_971),
        (outer.CHACHA20, 1_048_576, 1, 203 + 64 + 72 + 1_048_576),
        (outer.CHACHA20, 1_048_577, 2, 203 + 64 + 108 + 1_048_577),
        (outer.AES, 2_097_152, 3, 207 + 64 + 144 + 2_097_168),
        (outer.CHACHA20, 16_776_337, 16, 16_777_216),
    ):
        data = written(cipher, payload_length)
        sizes = block_sizes(data, outer.read(data).length + 64)
        tally.same("file of %d" % payload_length, (len(data), len(sizes) - 1), (length, blocks))


def check_limits(tally):
    """Item 7's limits in numbers: "Passwords, key files and Item 1 keep 4,194,304." """
    header = written(outer.CHACHA20, 0)[:203]
    inner_header = inner.write(2, b"", b"", b"")
    part, whole = bytes(4_194_304), bytes(16_777_216)
    for label, number, action, *parts in (
        ("a file", 0, outer.read, header + whole[203:]),
        ("a file and a byte", 1, outer.read, header + whole[202:]),
        ("a payload", 0, inner.read, inner_header + whole[19:]),
        ("a payload and a byte", 1, inner.read, inner_header + whole[18:]),
        ("a written payload", 0, inner.write, 2, b"", b"", whole[19:]),
        ("a written payload and a byte", 1, inner.write, 2, b"", b"", whole[18:]),
        ("a written file and a byte", 1, written, outer.CHACHA20, 16_776_338),
        ("a payload whose file is over the limit", 1, written, outer.CHACHA20, 16_777_216),
        ("a password", 0, keys.composite, part, None, None),
        ("a password and a byte", 1, keys.composite, part + b"a", None, None),
        ("a key file", 0, keys.composite, None, part, None),
        ("a key file and a byte", 1, keys.composite, None, part + b"a", None),
        ("a header of a password's limit and a byte", 0, outer.read, header + part[202:]),
    ):
        tally.same(label, number_of(action, *parts), number)
    for message, feeds in ((33_554_432, [0]), (33_554_433, [1])):
        tally.same("a message", answer({"op": "hash", "alg": "sha256", "parts": [{"zeros": message}]})["feeds"], feeds)
        tally.same("a tag", answer({"op": "tag", "key": "", "data": {"zeros": message}})["no"], feeds[0])


def check_former_files(tally):
    """Item 7: "Stored vaults stay valid and open as before. From inputs that the writer took before, a ciphertext over
    16,384 bytes now gives other bytes and fewer tags; any other gives the same bytes." """
    for cipher in (outer.AES, outer.CHACHA20):
        for payload_length in (0, 1, 16_367, 16_368, 16_383, 16_384, 16_385, 1_048_576, 4_000_000):
            data = written(cipher, payload_length)
            header, vault_keys, at = vault.start(data, bytes(32))
            name = outer.CIPHER_NAMES[cipher]
            text = vault.encryption(name, vault_keys.cipher_key, header.nonce, bytes(payload_length))
            former = data[:at] + vault.written_blocks(vault_keys.tag_base, text, 16_384)
            label = "former file, %s %d" % (name, payload_length)
            tally.same(label, former == data, len(text) <= 16_384)
            fewer = len(block_sizes(data, at)) < len(block_sizes(former, at))
            tally.same(label + " tags", fewer, len(text) > 16_384)
            tally.same(label + " whole", vault.open_whole(former, bytes(32)) == bytes(payload_length), True)
            tally.same(label + " by steps", stepped(former, bytes(32)) == bytes(payload_length), True)


def check_recut(tally):
    """Item 13 on written files, by length and by steps, and lists of sizes that are no cutting."""
    for cipher, header, payload_length, sizes in (
        (outer.AES, 207, 31, (5, 27)),
        (outer.AES, 207, 16, (5, 27)),
        (outer.AES, 207, 0, 16 * (1,)),
        (outer.AES, 207, 2_500, (1000, 1000, 512)),
        (outer.CHACHA20, 203, 2_500, (1000, 1000, 500)),
        (outer.CHACHA20, 203, 3, (1, 1, 1)),
        (outer.CHACHA20, 203, 0, ()),
    ):
        label = "%d bytes cut at %s" % (payload_length, sizes)
        data, t = written(cipher, payload_length), bytes(32)
        made = recut(data, t, sizes)
        tally.same(label, len(made), header + 64 + sum(sizes) + 36 * (len(sizes) + 1))
        tally.same(label + ", sizes", block_sizes(made, header + 64), [*sizes, 0])
        tally.same(label + ", whole", outcome(vault.open_whole, made, t), bytes(payload_length))
        tally.same(label + ", by steps", stepped(made, t), bytes(payload_length))
        for other in ((*sizes, 0), (*sizes, 1), (*sizes, 1, -1), (0, *sizes)):
            tally.same(label + ", not at %s" % (other,), recut(data, t, other), None)


def check_handed_over(tally):
    """ "AES blocks of 5 and 27: 0 then 16; padding 1 adds 15, padding 16 adds 0." """
    for payload_length, last in ((31, 15), (16, 0)):
        made = sound_vault(Random(1))
        while made.cipher != "aes":
            made = sound_vault(Random(made.t))
        text = vault.encryption("aes", made.cipher_key, made.nonce, bytes(payload_length))
        made.blocks = [Block(text[:5]), Block(text[5:]), Block(b"")]
        data = made.octets()
        header, vault_keys, at = vault.start(data, made.t)
        state, counts = vault.State(at), []
        while state.mark == "open":
            _, given, state = vault.step(header, vault_keys, state, data, 20)
            counts.append(len(given))
        tally.same("blocks of 5 and 27", counts, [0, 16, last])
    header = outer.read(written(outer.AES, 0))
    tally.same("c = 16 and 17", [vault.handed_over(header, count) for count in (0, 16, 17)], [0, 0, 16])


def check_refusals(tally):
    """The worked refusals."""
    front = written(outer.CHACHA20, 0)[:12]
    tally.same("custom of FFFFFFFF", number_of(outer.read, front + b"\x0c\xff\xff\xff\xff"), 5)
    tally.same("custom of 7FFFFFFF", number_of(outer.read, front + b"\x0c\xff\xff\xff\x7f"), 2)
    tally.same("4,000,000 rounds", number_of(written, outer.AES, 0, 4_000_000), 0)
    tally.same("4,000,001 rounds", number_of(written, outer.AES, 0, 4_000_001), 11)
    tally.same("4,000,001 rounds to start", number_of(keys.Rounds, bytes(32), bytes(32), 4_000_001), 11)
    tally.same("eleven bytes", number_of(outer.read, front[:11]), 2)


def check_rounds(tally):
    """Item 3 in numbers: "Reader and writer shall turn away fewer than 6,000 rounds"; "a header with R = 1 prints
    R20"; "Starting the rounds still checks 11 alone." """
    sound = written(outer.CHACHA20, 5)
    for rounds, number in (
        (0, 20), (1, 20), (5_999, 20), (6_000, 0), (6_001, 0), (65_536, 0), (4_000_000, 0), (4_000_001, 11),
        (2**32, 11), (2**32 + 6_000, 11), (2**63 + 1, 11), (2**64 - 1, 11),
    ):
        label, data = "%d rounds, " % rounds, with_rounds(sound, rounds)
        tally.same(label + "header", number_of(outer.read, data), number)
        lines = LISTING.replace("7017000000000000", rounds.to_bytes(8, "little").hex().upper())
        # Item 8: "Item 3's case prints R20 133."
        tally.same(label + "listing", outer.listing(data), lines if number == 0 else "R%d 133\n" % number)
        tally.same(label + "whole", outcome(vault.open_whole, data, bytes(32)), number or bytes(5))
        tally.same(label + "by steps", outcome(stepped, data, bytes(32)), number or bytes(5))
        tally.same(label + "written", outcome(written, outer.CHACHA20, 5, rounds), number or data)
        begun = 11 if number == 11 else 0
        tally.same(label + "started", number_of(keys.Rounds, bytes(32), bytes(32), rounds), begun)
    # "R = 0 is at its end from the start."
    tally.same("T of no rounds", keys.transformed(bytes(32), bytes(32), 0), sha256(bytes(32)))
    for rounds in (5_999, 6_000):
        asked = bytes(range(32)), bytes(range(40, 72)), rounds
        tally.same("T of %d rounds" % rounds, keys.transformed(*asked), chained(*asked))


def chained(composite, seed, rounds):
    """T in another way: a half after its rounds is the last block of CBC over so many zero blocks, with the half as
    initialization vector."""
    return sha256(*(cbc_encrypt(seed, half, bytes(16 * rounds))[-16:] for half in (composite[:16], composite[16:])))


def check_rounds_order(tally):
    """Item 3's place: "directly after 11", so before the custom dictionary, and behind all that comes before 11."""
    broken, repeated = b"\x00\x01", b"\x00\x01" + 2 * vault.written_item(0x08, b"a", b"\x01") + b"\x00"
    for label, number, changed in (
        ("a broken custom dictionary", 20, {"custom": broken}),
        ("a repeated item", 20, {"custom": repeated}),
        ("a payload over the limit", 20, {"payload_length": 16_777_217}),
        ("no room", 20, {"lent": 0}),
        ("a seed of 31 bytes", 5, {"seed": bytes(31)}),
        ("version 4.2", 4, {"minor": 2}),
    ):
        asked = {"cipher": outer.AES, "payload_length": 0, "rounds": 5_999, **changed}
        tally.same("5,999 rounds and " + label, number_of(lambda: written(**asked)), number)
    for label, number, items in (
        ("no S", 10, {b"S": None}),
        ("an S of 31 bytes", 10, {b"S": (0x42, bytes(31))}),
        ("an S of another type", 10, {b"S": (0x18, bytes(32))}),
        ("an R of another type", 10, {b"R": (0x0D, bytes(8))}),
        ("another KDF", 9, {b"$UUID": (0x42, bytes(16))}),
        ("nothing else", 20, {}),
    ):
        sound = {b"$UUID": (0x42, AES_KDF), b"R": (0x05, (5_999).to_bytes(8, "little")), b"S": (0x42, bytes(32))}
        made = [vault.written_item(item[0], name, item[1]) for name, item in {**sound, **items}.items() if item]
        given = number_of(kdf_figures, b"\x00\x01" + b"".join(made) + b"\x00")
        tally.same("a KDF dictionary of 5,999 rounds and " + label, given, number)


def check_argon2(tally):
    """Item 6's readings in numbers: "M = 29,576 with P = 3 is 24 blocks, not 28", and what one word less gives."""
    for memory, lanes, blocks in ((29_576, 3, 24), (8_192, 1, 8), (67_108_864, 16, 65_536), (131_072, 16, 128)):
        tally.same("words of %d and %d" % (memory, lanes), keys.argon2_words(memory, lanes), 128 * blocks)
    for lent, number in ((None, 0), (3072, 0), (3071, 17), (0, 17)):
        given = number_of(keys.argon2, "argon2d", bytes(32), bytes(8), 1, 29_576, 3, lent)
        tally.same("%s words lent" % lent, given, number)
    for identifier, kind in ((ARGON2D, "argon2d"), (ARGON2ID, "argon2id")):
        found = kdf_figures(vault.written_argon2(identifier, bytes(range(9)), 64, 67_108_864, 16))
        right = {"kind": kind, "V": 0x13, "S": bytes(range(9)), "I": 64, "M": 67_108_864, "P": 16}
        tally.same("%s as written" % kind, found, right)
        # Item 3's rule is for AES-KDF alone.
        few = vault.written_argon2(identifier, bytes(8), 1, 8_192, 1)
        tally.same("%s, one pass" % kind, number_of(kdf_figures, few), 0)
        round_item = vault.written_item(0x05, b"R", (1).to_bytes(8, "little"))
        tally.same("%s with an item R" % kind, number_of(kdf_figures, few[:-1] + round_item + b"\x00"), 0)


def check_key_file(tally):
    """Item 2's readings in numbers: what is decoded, what stands, what is hashed."""
    key = bytes(range(0x5A, 0x7A))
    digits = key.hex().encode()
    for label, key_file, part in (
        ("64 digits", digits, key), ("64 digits in upper case", digits.upper(), key), ("32 bytes", key, key),
        ("32 digits", digits[:32], digits[:32]), ("64 digits and a line feed", digits + b"\n", sha256(digits + b"\n")),
        ("63 digits", digits[:63], sha256(digits[:63])), ("64 bytes", digits[:63] + b"g", sha256(digits[:63] + b"g")),
        ("the old rule's hash", sha256(digits), sha256(digits)),
    ):
        tally.same("key file: " + label, keys.key_file_part(key_file), part)


def words(text):
    """Words in hexadecimal, with spaces between."""
    return tuple(int(word, 16) for word in text.split())


def check_salsa20(tally):
    """Salsa20 in published numbers: many blocks made at once, and each by itself."""
    for given, right in QUARTER_ROUNDS:
        tally.same("quarter round", salsa20.quarter_round(*words(given), salsa20.LOW), words(right))
    key, nonce = bytes([*range(1, 17), *range(201, 217)]), bytes(range(101, 117))
    number = int.from_bytes(nonce[8:], "little")
    tally.same("block", salsa20.salsa20(key, nonce[:8], bytes(64), number), bytes.fromhex(SALSA20_BLOCK))
    for key, nonce, stretches in SALSA20_STREAM:
        key, nonce = bytes.fromhex(key), bytes.fromhex(nonce)
        whole = salsa20.salsa20(key, nonce, bytes(131_072), 0)
        for at, right in stretches:
            tally.same("stream at %d" % at, whole[at : at + 64], bytes.fromhex(right))
            tally.same("block at %d" % at, salsa20.salsa20(key, nonce, bytes(64), at // 64), bytes.fromhex(right))


def stretched(algorithm, key, position, data, lent=None):
    """Item 1's stretch, straight from the inner key."""
    return stream.stretch(stream.started(algorithm, key), position, data, lent)


def check_stream(tally):
    """Item 1 in numbers: "so 23 bytes and then 19 use stream bytes 0 to 22 and 23 to 41", and its refusals in order."""
    for algorithm in (2, 3):
        state, right = stream.State(algorithm, b"key"), stretched(algorithm, b"key", 0, bytes(42))
        tally.same("23 bytes", state.part(bytes(23)), right[:23])
        tally.same("then 19", state.part(bytes(19)), right[23:])
        tally.same("19 alone", stretched(algorithm, b"key", 23, bytes(19)), right[23:])
    most = STREAM_LIMIT
    for algorithm, key, position, data, lent, number in (
        (2, 3, most, 0, 0, 0), (3, 3, most - 1, 1, 1, 0), (3, 3, most, 1, 1, 1), (2, 3, most + 1, 0, 0, 1),
        (3, most, 0, 9, 9, 0), (3, most + 1, 0, 9, 9, 1), (2, 3, 0, most + 1, most, 1), (3, 3, 2**64 - 1, 1, 1, 1),
        (3, 3, 0, 9, 8, 17), (3, 3, 0, 9, 10, 0), (2, most + 1, 0, 9, 8, 1), (2, 3, most, 9, 8, 1),
        (0, 3, 0, 9, 9, 9), (1, 3, 0, 9, 9, 9), (4, 3, 0, 9, 8, 9), (4, most + 1, most, 9, 8, 9),
    ):
        given = number_of(stretched, algorithm, bytes(key), position, bytes(data), lent)
        tally.same("stretch %d %d %d %d %d" % (algorithm, key, position, data, lent), given, number)


def helped(seeds, rounds, helpings):
    """How the rounds stand from the start on behind each helping, and T or its number; or the start's number."""
    run = outcome(keys.Rounds, *seeds, rounds)
    if isinstance(run, int):
        return run
    stands = [(run.done, run.halves)]
    for n in helpings:
        run.helping(n)
        stands.append((run.done, run.halves))
    return stands, outcome(run.transformed)


def check_helpings(tally, count=1000):
    """Item 9 on random helpings: "a helping of a followed by one of b is a helping of a + b", "a helping of 0 changes
    nothing"."""
    for number in range(count):
        rng, label = Random(number), "helpings %d" % number
        rounds, helpings = some_rounds(rng)
        seeds, groups = (rng.randbytes(32), rng.randbytes(32)), merged(rng, helpings)
        cut, uncut = helped(seeds, rounds, helpings), helped(seeds, rounds, [sum(group) for group in groups])
        if cut == 11:
            tally.same(label, (uncut, rounds > 4_000_000), (11, True))
            continue
        (stands, t), at = cut, [0, *accumulate(map(len, groups))]
        tally.same(label, uncut, ([stands[place] for place in at], t))
        still = [(before, after) for n, before, after in zip(helpings, stands, stands[1:]) if n == 0]
        tally.same(label + ", none", [after for _, after in still], [before for before, _ in still])


def check_stretches(tally, count=1000):
    """Item 9 on random stretches: "covering it twice at one position returns the bytes, and cut in two it gives what it
    gives uncut"; in more parts too, and as the parts of a state."""
    for number in range(count):
        rng, label = Random(number), "stretch %d" % number
        cipher, length = (rng.choice((2, 3)), rng.randbytes(32)), around_blocks(rng)
        position, data = stretch_position(rng, length), rng.randbytes(length)
        covered = stretched(*cipher, position, data)
        tally.same(label + " twice", stretched(*cipher, position, covered), data)
        for ends in ([cut_at(rng, position, length), length], cuts(rng, position, length, 4)):
            parts = parts_of(data, ends)
            made = [stretched(*cipher, at, part, len(part)) for at, part in zip(positions(position, parts), parts)]
            tally.same(label + " cut at %s" % ends, b"".join(made), covered)
            state = stream.State(*cipher)
            state.position = position
            tally.same(label + " of a state", b"".join(map(state.part, parts)), covered)
            tally.same(label + " moves it", state.position, position + length)


def check_listing(tally):
    """The worked listing, and the R lines."""
    data = written(outer.CHACHA20, 5)
    tally.same("listing", outer.listing(data[:203]), LISTING)
    tally.same("listing with bytes behind", outer.listing(data), LISTING)
    tally.same("listing of nothing", outer.listing(b""), "R02 0\n")
    tally.same("listing of too much", outer.listing(data + bytes(65_536)), "R01\n")
    tally.same("AES-KDF", AES_KDF in data, True)


# ----- Item 8, places

# The worked header in numbers: the field of the cipher is at 12, compression 33, master seed 42, nonce 79, KDF 96, end
# 194. The KDF dictionary's value begins at 101; its items are at 103 ($UUID), 133 (R) and 151 (S), its end at 193.
WORKED = bytes.fromhex(LISTING)
# The same with Argon2's least figures, as the writer lays them: $UUID is at 103, I 133, M 151, P 169, S 183, V 201, the
# end at 215.
WORKED_ARGON2 = vault.written_argon2(ARGON2D, bytes(8), 1, 8_192, 1)


def put(data, *places):
    """The data with other bytes, in hexadecimal, at these places."""
    made = bytearray(data)
    for place, octets in places:
        made[place : place + len(octets) // 2] = bytes.fromhex(octets)
    return bytes(made)


def with_kdf(kdf):
    """The worked header with that KDF dictionary."""
    return WORKED[:96] + vault.written_field(11, kdf) + WORKED[194:]


def with_custom(at, custom):
    """The worked header with that custom dictionary in a field at that place."""
    return WORKED[:at] + vault.written_field(12, custom) + WORKED[at:]


def check_readers(tally, label, data, number, place):
    """Header, start, whole opener and listing of a refused header."""
    right = {"no": number, "place": place}
    asked = {"data": data.hex(), "T": bytes(32).hex(), "lents": [100]}
    for op in ("header", "steps", "open"):
        tally.same("place, %s: %s" % (op, label), answer({"op": op, **asked}), right)
    tally.same("place, list: " + label, outer.listing(data), "R%02d %d\n" % (number, place))


def check_field_places(tally):
    """The worked header with a fault of its fields. "for 2 its length; for 3 the first signature that differs (0 or 4);
    for 4, 8; for 8 the end field; otherwise the first byte of the field"."""
    nonce_of_16 = WORKED[:79] + vault.written_field(7, bytes(16)) + WORKED[96:]
    for label, data, number, place in (
        *(("%d bytes" % length, WORKED[:length], 2, length) for length in (0, 11, 12, 16, 17, 32, 100, 194, 198, 202)),
        ("a value longer than the file", put(WORKED, (80, "ffffff7f")), 2, 203),
        ("the first signature", put(WORKED, (3, "00")), 3, 0),
        ("the second signature", put(WORKED, (7, "00")), 3, 4),
        ("both signatures", put(WORKED, (3, "00"), (7, "00")), 3, 0),
        ("version 4.2", put(WORKED, (8, "02")), 4, 8),
        ("version 3.1", put(WORKED, (10, "03")), 4, 8),
        ("field 1 for 3", put(WORKED, (33, "01")), 7, 33),
        ("field 2 for 3", put(WORKED, (33, "02")), 6, 33),
        ("field 3 for 0", put(WORKED, (194, "03")), 6, 194),
        ("a cipher of 15 bytes", put(WORKED, (13, "0f")), 5, 12),
        ("a negative size of the nonce", put(WORKED, (80, "ffffffff")), 5, 79),
        ("an end field of 3 bytes", put(WORKED, (195, "03")), 5, 194),
        ("other end bytes", put(WORKED, (202, "0d")), 5, 194),
        ("no cipher", WORKED[:12] + WORKED[33:], 8, 173),
        ("no nonce", WORKED[:79] + WORKED[96:], 8, 177),
        ("no KDF", WORKED[:96] + WORKED[194:], 8, 96),
        ("another cipher", put(WORKED, (17, "00")), 9, 12),
        ("another cipher and compression", put(WORKED, (17, "00"), (38, "01")), 9, 12),
        ("compression", put(WORKED, (41, "01")), 9, 33),
        ("a nonce of 16 bytes", nonce_of_16, 5, 79),
        ("a nonce of 16 bytes and bytes behind", nonce_of_16 + bytes(9), 5, 79),
    ):
        check_readers(tally, label, data, number, place)


def check_kdf_places(tally):
    """The worked header with a fault of its KDF dictionary: "the first byte ... of the dictionary item at fault"; one
    "that belongs to no item points to where the dictionary's value begins"; "Item 3's case prints R20 133." """
    kdf = WORKED[101:194]
    for label, data, number, place in (
        ("version 2", put(WORKED, (102, "02")), 10, 101),
        ("no end", with_kdf(kdf[:-1]), 10, 101),
        ("a byte behind the end", with_kdf(kdf + b"\x00"), 10, 101),
        ("no byte", with_kdf(b""), 10, 101),
        ("type 43 of the first item", put(WORKED, (103, "43")), 10, 103),
        ("type 1 for the end", put(WORKED, (193, "01")), 10, 193),
        ("an item cut before its value", with_kdf(kdf[:60]), 10, 151),
        ("an item cut in its value size", with_kdf(kdf[:58]), 10, 151),
        ("an item cut in its name size", with_kdf(kdf[:35]), 10, 133),
        ("an item cut behind its type", with_kdf(kdf[:33]), 10, 133),
        ("a UInt32 of 8 bytes", put(WORKED, (133, "04")), 10, 133),
        ("a negative name size", put(WORKED, (152, "ffffffff")), 10, 151),
        ("a value that takes the end", put(WORKED, (157, "21")), 10, 101),
        ("a value past the end", put(WORKED, (157, "22")), 10, 151),
        ("S named R", put(WORKED, (156, "52")), 6, 151),
        ("S named R, with another type", put(WORKED, (151, "18"), (156, "52")), 6, 151),
        ("no $UUID", put(WORKED, (112, "45")), 10, 101),
        ("$UUID as a string", put(WORKED, (103, "18")), 10, 103),
        ("another KDF", put(WORKED, (117, "00")), 9, 103),
        ("no S", put(WORKED, (156, "54")), 10, 101),
        ("S as a string", put(WORKED, (151, "18")), 10, 151),
        ("no R", put(WORKED, (138, "51")), 10, 101),
        ("R as Int64", put(WORKED, (133, "0d")), 10, 133),
        ("S before R", put(WORKED, (133, "0d"), (151, "18")), 10, 151),
        ("no S before R", put(WORKED, (133, "0d"), (156, "54")), 10, 101),
        ("S before no R", put(WORKED, (138, "51"), (151, "18")), 10, 151),
        ("4,000,001 rounds", put(WORKED, (143, "01093d00")), 11, 133),
        ("5,999 rounds", put(WORKED, (143, "6f17")), 20, 133),
        ("one round", put(WORKED, (143, "0100")), 20, 133),
    ):
        check_readers(tally, label, data, number, place)


def check_custom_places(tally):
    """The worked header with a custom dictionary, in a field at 194 or at 12, where its value begins at 199 or 17."""
    first, second = vault.written_item(0x08, b"a", b"\x01"), vault.written_item(0x04, b"b", bytes(4))  # 11 and 14 bytes
    for label, custom, number, place in (
        ("no byte", b"", 10, 0),
        ("no end", b"\x00\x01" + first, 10, 0),
        ("a byte behind the end", b"\x00\x01" + first + b"\x00\x00", 10, 0),
        ("type 43", b"\x00\x01" + first + b"\x43" + second[1:] + b"\x00", 10, 13),
        ("a repeated item", b"\x00\x01" + first + second + first + b"\x00", 6, 27),
        ("two repeated items", b"\x00\x01" + first + second + second + first + b"\x00", 6, 27),
        ("two repeated items, turned round", b"\x00\x01" + first + second + first + second + b"\x00", 6, 27),
        ("a repeated item behind the first", b"\x00\x01" + first + first + second + second + b"\x00", 6, 13),
        ("a repeated item with a wrong size", b"\x00\x01" + first + second + put(first, (6, "02")) + b"\x00", 10, 27),
    ):
        for at in (194, 12):
            check_readers(tally, "custom at %d, %s" % (at, label), with_custom(at, custom), number, at + 5 + place)
        for op in ("dict", "lookup"):
            given = answer({"op": op, "data": custom.hex(), "name": b"a".hex()})
            tally.same("place, %s: %s" % (op, label), given, {"no": number, "place": place})
    # The KDF dictionary comes first, wherever the custom one stands.
    check_readers(tally, "no R before a broken custom dictionary", put(with_custom(194, b""), (138, "51")), 10, 101)
    check_readers(tally, "no R behind a broken custom dictionary", put(with_custom(12, b""), (143, "51")), 10, 106)


def check_argon2_places(tally):
    """Item 6's order: 10 for V, S, I, M, P, 9 for V, K, A, 22 for S, I, M, P; "too little M for P, checked last, points
    to M"."""
    worked = with_kdf(WORKED_ARGON2)
    key, data = vault.written_item(0x42, b"K", b""), vault.written_item(0x42, b"A", b"")  # 10 bytes each
    types = {"V": (201, "0c"), "S": (183, "18"), "I": (133, "0d"), "M": (151, "0d"), "P": (169, "0c")}
    names = {"V": (206, "76"), "S": (188, "73"), "I": (138, "69"), "M": (156, "6d"), "P": (174, "70")}
    salt_of_7 = with_kdf(vault.written_argon2(ARGON2ID, bytes(7), 0, 8_191, 17))
    for index, name in enumerate(types):
        behind = list(types.values())[index + 1 :]
        check_readers(tally, "wrongly typed " + name, put(worked, types[name], *behind), 10, types[name][0])
        check_readers(tally, "absent " + name, put(worked, names[name], *behind), 10, 101)
    for label, made, number, place in (
        ("V 0x10", put(worked, (211, "10")), 9, 201),
        ("V 0x10 and K", with_kdf(put(WORKED_ARGON2[:-1] + key + b"\x00", (110, "10"))), 9, 201),
        ("K behind", with_kdf(WORKED_ARGON2[:-1] + key + b"\x00"), 9, 215),
        ("A behind", with_kdf(WORKED_ARGON2[:-1] + data + b"\x00"), 9, 215),
        ("A and K behind", with_kdf(WORKED_ARGON2[:-1] + data + key + b"\x00"), 9, 225),
        ("K and A behind", with_kdf(WORKED_ARGON2[:-1] + key + data + b"\x00"), 9, 215),
        ("A before all, K behind", with_kdf(WORKED_ARGON2[:2] + data + WORKED_ARGON2[2:-1] + key + b"\x00"), 9, 225),
        ("K and no pass", put(with_kdf(WORKED_ARGON2[:-1] + key + b"\x00"), (143, "00")), 9, 215),
        ("all figures", salt_of_7, 22, 183),
        ("I, M, P", put(worked, (143, "00"), (161, "ff1f"), (179, "11")), 22, 133),
        ("M, P", put(worked, (161, "ff1f"), (179, "11")), 22, 151),
        ("17 lanes", put(worked, (179, "11")), 22, 169),
        ("no lane", put(worked, (179, "00")), 22, 169),
        ("two lanes", put(worked, (179, "02")), 22, 151),
        ("a byte too little for two", put(worked, (161, "ff3f"), (179, "02")), 22, 151),
        ("no pass and two lanes", put(worked, (143, "00"), (179, "02")), 22, 133),
    ):
        check_readers(tally, "Argon2, " + label, made, number, place)


def check_inner_places(tally):
    """An inner header: algorithm at 0, key at 9, attachments at 17 and 24, end at 31, document at 36."""
    attached = "030200000000ff"
    sound = bytes.fromhex("010400000002000000" "0203000000aabbcc" + 2 * attached + "0000000000") + b"doc"
    for label, data, number, place in (
        *(("%d bytes" % length, sound[:length], 2, length) for length in (0, 4, 8, 20, 31, 35)),
        ("a value longer than the payload", put(sound, (25, "ffffff7f")), 2, 39),
        ("field 4", put(sound, (24, "04")), 7, 24),
        ("a second key", put(sound, (24, "02")), 6, 24),
        ("a second algorithm", put(sound, (17, "01")), 6, 17),
        ("an algorithm of 3 bytes", put(sound, (1, "03")), 5, 0),
        ("an empty attachment", put(sound, (25, "00")), 5, 24),
        ("a negative size", put(sound, (10, "ffffffff")), 5, 9),
        ("an end field of 1 byte", put(sound, (32, "01")), 5, 31),
        ("no key", sound[:9] + sound[17:], 8, 23),
        ("no algorithm", sound[9:], 8, 22),
        ("algorithm 4", put(sound, (5, "04")), 9, 0),
        ("algorithm 4 at 8", sound[9:17] + put(sound, (5, "04"))[:9] + sound[17:], 9, 8),
        ("no key and algorithm 4", put(sound[:9] + sound[17:], (5, "04")), 8, 23),
    ):
        for op in ("inner", "attachment"):
            given = answer({"op": op, "data": data.hex(), "index": 5})
            tally.same("place, %s: %s" % (op, label), given, {"no": number, "place": place})
    for index in (2, 3, 2**64 - 1):
        given = answer({"op": "attachment", "data": sound.hex(), "index": index})
        tally.same("attachment %d" % index, given, {"no": 8, "place": 31})


def check_no_places(tally):
    """ "from writers, hash, tag and blocks it is zero"; 1 and 12 to 17 carry none. A step and a writer answer none at
    all."""
    data, block = written(outer.CHACHA20, 5), 203 + 64
    asked = {"T": bytes(32).hex(), "lent": 4, "lents": [4, 4], "index": 0}
    for label, number, made in (
        ("no hash", 2, data[:203]),
        ("63 bytes", 2, data[: block - 1]),
        ("another hash", 12, put(data, (203, "00"))),
        ("another tag", 13, put(data, (235, "00"))),
    ):
        for op in ("steps", "open"):
            given = answer({"op": op, "data": made.hex(), **asked})
            tally.same("no place, %s: %s" % (op, label), given, {"no": number, "place": 0})
    for label, number, made in (
        ("no block", 2, data[:block]),
        ("a negative size", 5, put(data, (block + 35, "ff"))),
        ("a cut block", 2, data[: block + 38]),
        ("another block", 14, put(data, (block, "00"))),
        ("a byte behind", 15, data + b"\x00"),
        ("no room", 17, data),
    ):
        given = answer({"op": "open", "data": made.hex(), **asked})
        tally.same("no place, open: " + label, given, {"no": number, "place": 0})
        for step in answer({"op": "steps", "data": made.hex(), **asked})["steps"]:
            tally.same("no place, a step: " + label, sorted(step), ["bytes", "count", "no"])
    for op in ("header", "steps", "open", "inner", "attachment"):
        given = answer({"op": op, "data": {"zeros": 16_777_217}, **asked})
        tally.same("no place, %s: over the limit" % op, given, {"no": 1, "place": 0})
    kdf = {"kind": "aeskdf", "S": "33" * 32, "R": 6_000}
    file_of = {"op": "write", "minor": 1, "cipher": "aes", "seed": "11" * 32, "nonce": "22" * 16, "kdf": kdf}
    tally.same("no place, written", answer({**file_of, **asked, "custom": "0001", "data": ""}), {"no": 10})
    payload_of = {"op": "inner_write", "alg": 2, "key": "", "run": "0400000000", "data": ""}
    tally.same("no place, written inside", answer(payload_of), {"no": 7})


def scanned(data):
    """Number and place of a dictionary by itself, in another way: its items are listed first, up to a fault, and then
    the first name is looked for that stands in the list before."""
    fault, listed, at = (10, 0), [], 2
    while data[1:2] == b"\x01" and at < len(data) and data[at]:
        try:
            kind, size = struct.unpack_from("<BI", data, at)
            (length,) = struct.unpack_from("<I", data, at + 5 + size)
        except struct.error:
            kind = None
        # A negative size, read as one without a sign, passes the end.
        if kind not in SIZE_OF_TYPE or at + 9 + size + length > len(data) or SIZE_OF_TYPE[kind] not in (None, length):
            fault = (10, at)
            break
        listed.append((at, data[at + 5 : at + 5 + size]))
        at += 9 + size + length
    names = [name for _, name in listed]
    repeated = [place for number, (place, name) in enumerate(listed) if name in names[:number]]
    if repeated:
        return 6, repeated[0]
    return (0, 0) if fault == (10, 0) and data[1:2] == b"\x01" and data[at:] == b"\x00" else fault


def check_place(tally, label, request):
    """What holds of every reader's answer. "The place is the one answer beside the number that need not be zero"."""
    given, data = answer(request), bytes.fromhex(request["data"])
    number, place = given["no"], given.get("place", 0)
    if number == 0:
        tally.same(label + " accepted", "place" in given, False)
        return
    tally.same(label + " answers", sorted(given), ["no", "place"])
    behind_header = request["op"] in ("open", "steps") and number_of(outer.read, data) == 0
    if number in (1, *range(12, 20)) or behind_header:
        tally.same(label + " has none", place, 0)
    elif number in (2, 3, 4):
        tally.same(label + " at the front or the length", place in {2: (len(data),), 3: (0, 4), 4: (8,)}[number], True)
    else:
        tally.same(label + " within", place < len(data) or (number, place, data) == (10, 0, b""), True)
    if number == 8:
        tally.same(label + " at the end field", data[place], 0)
    if number == 7:
        listed = (0, 1, 2, 3) if request["op"] in ("inner", "attachment") else outer.FIELD_SIZE
        tally.same(label + " at an ID", data[place] in listed, False)
    if request["op"] in ("dict", "lookup"):
        tally.same(label + " scanned", (number, place), scanned(data))


def check_place_laws(tally, count=250):
    """The fixed requests of Item 8, and random ones of each reader."""
    for index, make in enumerate(PLACES):
        request = make(Random(index))
        if request["op"] in READERS:
            check_place(tally, "place %d, %s" % (index, request["op"]), request)
    for op in READERS:
        for index in range(count):
            check_place(tally, "random place %d, %s" % (index, op), {"op": op, **SHARES[op][1](Random(index))})
    for op in ("header", "open"):
        for index in range(count):
            made = SHARES[op][1](Random(index))
            given = answer({"op": "header", **made})
            if given["no"]:
                data = bytes.fromhex(made["data"])
                check_readers(tally, "random %s %d" % (op, index), data, given["no"], given["place"])


def check_agreement(tally, count=1500):
    """Demand 3 on the model: "Once it is taken, they are the payload, and the whole opener gives the same"; "Where a
    refusal met the start or closed the opening, the whole opener gives that refusal." """
    for number in range(count):
        data, t = some_vault(Random(number))
        tally.same("whole and by steps, %d" % number, outcome(stepped, data, t), outcome(vault.open_whole, data, t))


def check_model(fixtures):
    """All of it; True where every check passed."""
    tally = Tally()
    check_lengths(tally)
    check_limits(tally)
    check_former_files(tally)
    check_recut(tally)
    check_handed_over(tally)
    check_refusals(tally)
    check_rounds(tally)
    check_rounds_order(tally)
    check_argon2(tally)
    check_key_file(tally)
    check_salsa20(tally)
    check_stream(tally)
    check_helpings(tally)
    check_stretches(tally)
    check_listing(tally)
    check_field_places(tally)
    check_kdf_places(tally)
    check_custom_places(tally)
    check_argon2_places(tally)
    check_inner_places(tally)
    check_no_places(tally)
    check_place_laws(tally)
    check_agreement(tally)
    check_fixtures(tally, fixtures)
    print("%d passed, %d failed" % (tally.passed, tally.failed))
    return tally.failed == 0
