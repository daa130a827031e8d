"""One random request of each operation, from a seeded generator.

The request of a seed and an index depends on these two alone, so that any one can be made again by itself.
"""

from random import Random

from model import vault as opening
from model.answers import file_of_step
from model.header import AES, CHACHA20, NONCE_LENGTH
from model.keys import argon2_words
from model.limits import FILE_LIMIT, STREAM_LIMIT, WRITTEN_BLOCK, Refusal

from . import cuts, edits, recuts
from .borders import BORDERS, seeds
from .few_rounds import FEW_ROUNDS
from .places import PLACES
from .shapes import (
    Block, argon2_figures, attachment_run, enough_rounds, few_rounds, kdf_dictionary, long_dictionary,
    sound_dictionary, sound_inner, sound_vault,
)

LARGE = 2**40  # a lent length past memory: large enough
LARGEST = 2**64 - 1

DIGITS = b"0123456789abcdefABCDEF"  # the hexadecimal ones
CASES = (b"0123456789abcdef", b"0123456789ABCDEF", DIGITS, b"0123456789")  # the last has no letters
BESIDE_DIGITS = b"/:@G`g"  # right before and right behind the ranges of digits
TAKEN_ELSEWHERE = b" \t\n\r_+-xX\x00"  # what some readers of numbers skip or take
# What editors and programs put in front of digits and behind them.
AROUND_DIGITS = 3 * ((b"", b"\n"), (b"", b"\r"), (b"", b"\r\n")) + (
    (b"", b" "), (b"", b"\x00"), (b"\n", b""), (b"0x", b""), (b"\xef\xbb\xbf", b""),
)


# ----- the outer header and dictionaries


def header_octets(rng):
    """A header with none to three edits, sometimes with bytes behind it, sometimes edited as bytes. Of some the KDF
    dictionary alone is edited, because it has the most rules; some of these have too few rounds besides."""
    made = sound_vault(rng).header
    if rng.random() < 0.3:
        if rng.random() < 0.2:
            edits.header_few_rounds(rng, made)
        edits.kdf_field(rng, made)
        return made.octets()
    edits.apply(rng, edits.HEADER, made)
    if rng.random() < 0.3:
        made.after = rng.randbytes(rng.randrange(20))
    return edits.octets(rng, made.octets(), 0.15)


def request_header(rng):
    if rng.random() < 0.01:
        return {"data": rng.randbytes(rng.randrange(30)).hex()}
    return {"data": header_octets(rng).hex()}


def some_dictionary(rng):
    """A dictionary of either kind, before edits, a few with many items. It is sound with few rounds too."""
    if rng.random() < 0.03:
        return long_dictionary(rng)
    if rng.random() >= 0.3:
        return sound_dictionary(rng, 7)
    made = kdf_dictionary(rng)
    if rng.random() < 0.2:
        edits.kdf_few_rounds(rng, made)
    return made


def request_dict(rng):
    made = some_dictionary(rng)
    edits.apply(rng, edits.DICTIONARY, made)
    return {"data": edits.octets(rng, made.octets(), 0.15).hex()}


def looked_up_name(rng, made):
    """A name that is there, one near it, or any."""
    names = [item.name for item in made.items] or [b"a"]
    name = rng.choice(names)
    roll = rng.random()
    if roll < 0.6:
        return name
    if roll < 0.8:
        return edits.other_octets(rng, name)
    return rng.choice((b"", b"R", b"S", b"M", b"$UUID", name + name, rng.randbytes(2)))


def request_lookup(rng):
    made = some_dictionary(rng)
    name = looked_up_name(rng, made)
    edits.apply(rng, edits.DICTIONARY, made, (0.6, 0.9, 0.97))
    return {"data": edits.octets(rng, made.octets(), 0.05).hex(), "name": name.hex()}


# ----- keys and primitives


def digits(rng, length):
    """So many hexadecimal digits: lower case, upper case, mixed, or without letters."""
    return bytes(rng.choices(rng.choice(CASES), k=length))


def no_digit(rng):
    """A byte that is no digit: beside the digits, a digit with one bit changed, one that other readers take, or any."""
    made = DIGITS[0]
    while made in DIGITS:
        beside, one_bit = rng.choice(BESIDE_DIGITS), rng.choice(DIGITS) ^ rng.choice((0x10, 0x20, 0x20, 0x40, 0x80))
        made = rng.choice(3 * (beside,) + 2 * (one_bit,) + (rng.choice(TAKEN_ELSEWHERE), rng.randrange(256)))
    return made


def key_file_digits(rng):
    return digits(rng, 64)


def key_file_few_digits(rng):
    """As long as a file that is taken as it stands."""
    return digits(rng, 32)


def key_file_other_count(rng):
    return digits(rng, rng.choice((62, 62, 63, 63, 65, 65, 66, 66, 128, rng.randrange(130))))


def key_file_around(rng):
    """Digits with other bytes in front or behind: 64 digits, or 64 bytes in all."""
    front, behind = rng.choice(AROUND_DIGITS)
    count = rng.choice((64, 64 - len(front + behind)))
    return front + digits(rng, count) + behind


def key_file_spoiled(rng):
    """64 bytes of which one is no digit: the first, the last, or one between."""
    made = bytearray(digits(rng, 64))
    made[rng.choice((0, 63, rng.randrange(1, 63)))] = no_digit(rng)
    return bytes(made)


def key_file_no_digits(rng):
    """64 bytes, none of them a digit."""
    return bytes(no_digit(rng) for _ in range(64))


KEY_FILE = (
    6 * (key_file_spoiled,) + 3 * (key_file_digits, key_file_around, key_file_other_count)
    + (key_file_few_digits, key_file_no_digits)
)


def credential(rng):
    """A credential with a length around those that matter; some are 64 digits."""
    if rng.random() < 0.15:
        return digits(rng, 64)
    return rng.randbytes(rng.choice((0, 1, 31, 32, 33, 64, rng.randrange(100))))


def credentials(rng):
    """Each credential or none of it. A pre-hash is often of the right length, or written as digits."""
    names = [name for name in ("password", "keyfile", "prehash") if rng.random() < 0.5]
    made = {name: credential(rng) for name in names}
    if "prehash" in made:
        right = rng.randbytes(32)
        made["prehash"] = rng.choice((right, right, digits(rng, 64), made["prehash"]))
    return made


def request_composite(rng):
    """Most are a key file, because it has the most rules; half of these have a password too."""
    if rng.random() < 0.6:
        made = {"keyfile": rng.choice(KEY_FILE)(rng)}
        if rng.random() < 0.5:
            made["password"] = credential(rng)
    else:
        made = credentials(rng)
    return {name: part.hex() for name, part in made.items()}


def request_rounds(rng):
    """Rounds in helpings that are cut anywhere (Item 9). Some are around the least of a vault."""
    if rng.random() < 0.04:
        rounds = rng.choice((5_999, 6_000, 6_001, rng.randrange(7_000)))
        helpings = cuts.helpings_of(rng, rounds, rng.randrange(6))
    else:
        rounds, helpings = cuts.some_rounds(rng)
    return {**seeds(rng), "R": rounds, "helpings": helpings}


def request_keys(rng):
    number = rng.choice((0, 1, 255, 256, 2**32 - 1, 2**32, 2**63, 2**64 - 2, 2**64 - 1, rng.randrange(2**64)))
    return {"seed": rng.randbytes(32).hex(), "T": rng.randbytes(32).hex(), "i": number}


def hash_length(rng):
    """A length around the borders of blocks and of padding."""
    border_length = rng.choice((0, 55, 56, 63, 64, 111, 112, 119, 120, 127, 128, 192, 256, 384, 512))
    if rng.random() < 0.02:
        return rng.randrange(5000)
    return max(0, rng.choice((border_length + rng.randrange(-2, 3), rng.randrange(600))))


def some_octets(rng, length):
    """So many random bytes; some are asked for as zeros."""
    return {"zeros": length} if rng.random() < 0.1 else rng.randbytes(length).hex()


def request_hash(rng):
    parts = []
    for _ in range(rng.randrange(7)):
        length = rng.choice((0, 1, 63, 64, 65, 127, 128, 129, hash_length(rng)))
        parts.append(some_octets(rng, length))
    return {"alg": rng.choice(("sha256", "sha512")), "parts": parts}


def request_tag(rng):
    key_length = rng.choice((0, 1, 31, 32, 33, 63, 64, 65, 127, 128, 129, 200, rng.randrange(150)))
    return {"key": rng.randbytes(key_length).hex(), "data": rng.randbytes(hash_length(rng)).hex()}


# ----- Argon2


def small_run(rng):
    """Figures of a run that takes little time: salt, passes, memory, lanes. A few have more than 128 blocks in a
    segment, or the most passes."""
    salt = argon2_figures(rng)[0]
    lanes = rng.choice((1, 1, 2, 3, 4, rng.randrange(1, 17)))
    least = 8_192 * lanes
    memory = least + rng.choice((0, 1, 1023, 1024, 4096 * lanes - 1, 4096 * lanes, rng.randrange(2 * least)))
    passes = rng.choice((1, 1, 2, 3))
    if rng.random() < 0.03:
        passes, lanes, memory = 64, 1, rng.randrange(8_192, 16_384)
    if rng.random() < 0.03:
        lanes, memory = rng.choice(((1, rng.randrange(520_000, 800_000)), (2, rng.randrange(1_040_000, 1_300_000))))
    return salt, passes, memory, lanes


def asked_argon2(kind, salt, passes, memory, lanes):
    """Argon2 as a request has it."""
    return {"kind": kind, "S": salt.hex(), "I": passes, "M": memory, "P": lanes}


def asked_aes_kdf(rng, rounds):
    """AES-KDF as a request has it."""
    return {"kind": "aeskdf", "S": rng.randbytes(32).hex(), "R": rounds}


def asked_figure(rng, kdf):
    """Another figure of a KDF as a request has it."""
    name = rng.choice([name for name in kdf if name in edits.FIGURES])
    kdf[name] = edits.other_figure(rng, name)


def asked_salt(rng, kdf):
    kdf["S"] = edits.other_salt(rng).hex()


def asked_scarce_memory(rng, kdf):
    if kdf["kind"] != "aeskdf":
        kdf["P"], kdf["M"] = edits.scarce_memory(rng)


def asked_unlisted(rng, kdf):
    """The number of no KDF; its figures are Argon2's."""
    kdf.update(asked_argon2(rng.choice((3, 19, 255, 256, 2**16 + 1, 2**31, 2**32 - 1)), *argon2_figures(rng)))


ASKED_KDF = 4 * (asked_figure,) + 2 * (asked_salt, asked_scarce_memory, asked_unlisted)


def lent_words(rng, made):
    """So many words as a run uses, one more or less, none or many more. A run of much memory is lent too few."""
    if made["M"] > 2**21 or not 1 <= made["P"] <= 16:
        return rng.choice((0, 127, 1024))
    need = argon2_words(made["M"], made["P"])
    unrounded = 128 * (made["M"] // 1024)
    return rng.choice((need, need, need, max(0, need - 1), need + 1, need + 128, unrounded, need // 2, 0, LARGEST))


def request_argon2(rng):
    made = {"composite": rng.randbytes(32).hex()}
    made.update(asked_argon2(rng.choice(("argon2d", "argon2id")), *small_run(rng)))
    edits.apply(rng, ASKED_KDF, made, (0.55, 0.9, 0.97))
    if rng.random() < 0.01:
        made["kind"] = "aeskdf"
    if rng.random() < 0.75 or made["M"] > 2**21:
        made["lent"] = lent_words(rng, made)
    return made


# ----- files


def pieces(rng, data):
    """The data cut into few or many pieces, none of them empty."""
    made = []
    sizes = (1, 5, 15, 16, 17, 27, 40, 1000) if len(data) < 1000 else (1000, 4097, 16_384, 10**6)
    longest = rng.choice(sizes)
    while data:
        size = min(len(data), longest if rng.random() < 0.5 else rng.randrange(1, longest + 1))
        if len(made) > 5 and longest < 16:
            size = len(data)
        made.append(data[:size])
        data = data[size:]
    return made


def ciphertext(rng, made):
    """The ciphertext of a random payload, at times padded wrongly, cut short or none at all."""
    length = rng.choice((0, 1, 15, 16, 17, 31, 32, rng.randrange(80), rng.randrange(150)))
    if rng.random() < 0.01:
        length = rng.randrange(1000, 30_000)  # past 256 blocks of ChaCha20
    plain = rng.randbytes(length)
    if made.cipher == "aes" and rng.random() < 0.2:
        return edits.wrongly_padded(rng, made, plain)
    sound = opening.encryption(made.cipher, made.cipher_key, made.nonce, plain)
    roll = rng.random()
    if roll < 0.03:
        return b""
    if roll < 0.1:
        return sound[: rng.randrange(len(sound) + 1)]
    return sound


def some_vault(rng):
    """A file with few edits: of its header (with hash and tag over the edited one), of its blocks, of its bytes. Some
    have too few rounds, most of these with another fault."""
    made = sound_vault(rng)
    made.blocks = [Block(piece) for piece in pieces(rng, ciphertext(rng, made)) + [b""]]
    if rng.random() < 0.25:
        edits.apply(rng, edits.HEADER, made.header, (0.0, 0.7, 0.9))
    few = rng.random() < 0.06
    if few:
        edits.header_few_rounds(rng, made.header)
    edits.apply(rng, edits.FILE, made, (0.4 if few else 0.5, 0.85, 0.96))
    if rng.random() < 0.03:
        edits.no_closing(rng, made)
    if rng.random() < (0.1 if few else 0.01):
        edits.cut_before_blocks(rng, made)
    return edits.octets(rng, made.octets(), 0.12), made.t


def around(rng, need):
    """A length around what is needed."""
    enough = rng.choice((LARGE, LARGEST))
    return rng.choice((need, need, need + 1, need + 15, enough, max(0, need - 1), 0, rng.randrange(need + 20)))


def request_open(rng):
    data, t = some_vault(rng)
    made = {"data": data.hex(), "T": t.hex()}
    if rng.random() < 0.6:
        try:
            made["lent"] = around(rng, len(opening.open_whole(data, t)))
        except Refusal:
            made["lent"] = rng.choice((0, 16, 100))
    return made


def other_length(rng, data, position):
    """Another length of the file for one step."""
    return rng.choice((
        0, max(0, position - 1), position, position + 35, position + 36, position + 37, rng.randrange(len(data) + 40),
        len(data) - 1, len(data), len(data) + 1, len(data) + 36, FILE_LIMIT + 1,
    ))


def lents_for(rng, data, t, lengths):
    """Lent lengths around what each step needs, some too short, with steps after the end."""
    try:
        header, vault_keys, position = opening.start(data, t)
    except Refusal:
        return [rng.choice((0, 16, LARGE)) for _ in range(rng.randrange(3))]
    state = opening.State(position)
    patient = rng.random() < 0.5
    lents = []
    after = rng.randrange(3)
    while len(lents) < 30 and after >= 0:
        if rng.random() < 0.03:
            lengths[str(len(lents))] = other_length(rng, data, state.position)
        seen = file_of_step(data, lengths, len(lents))
        number, given, _ = opening.step(header, vault_keys, state, seen, LARGE)
        lent = rng.choice((LARGE, len(given), len(given) + 1)) if patient else around(rng, len(given))
        lents.append(lent)
        state = opening.step(header, vault_keys, state, seen, lent)[2]
        after -= state.mark != "open"
    return lents


def request_steps(rng):
    data, t = some_vault(rng)
    lengths = {}
    made = {"data": data.hex(), "T": t.hex(), "lents": lents_for(rng, data, t, lengths)}
    if lengths:
        made["file_lengths"] = lengths
    return made


def request_recut_open(rng):
    """Item 13: a file that was cut anew."""
    cutting = recuts.some_cutting(rng)
    made = {"data": cutting.recut().hex(), "T": cutting.t.hex()}
    if rng.random() < 0.6:
        made["lent"] = around(rng, cutting.payload)
    return made


def request_recut_steps(rng):
    """All steps over such a file, some with too little room."""
    cutting = recuts.some_cutting(rng)
    lents = [lent for lent, _ in recuts.lents_for(rng, cutting)]
    return {"data": cutting.recut().hex(), "T": cutting.t.hex(), "lents": lents}


def sound_kdf(rng):
    """A KDF that the writer takes."""
    if rng.random() < 0.4:
        return asked_aes_kdf(rng, enough_rounds(rng))
    return asked_argon2(rng.choice(("argon2d", "argon2id")), *argon2_figures(rng))


def sound_write(rng):
    """What the writer takes."""
    cipher = rng.choice(("aes", "chacha"))
    made = {
        "minor": rng.randrange(2),
        "cipher": cipher,
        "seed": rng.randbytes(32).hex(),
        "nonce": rng.randbytes(NONCE_LENGTH[cipher]).hex(),
        "kdf": sound_kdf(rng),
        "T": rng.randbytes(32).hex(),
        "data": rng.randbytes(payload_length(rng)).hex(),
    }
    if rng.random() < 0.4:
        made["custom"] = sound_dictionary(rng).octets().hex() if rng.random() < 0.9 else ""
    return made


def payload_length(rng):
    """Mostly short; some around the length at which the former writer cut and twice that, a handful around the length
    of a written block."""
    roll = rng.random()
    if roll < 0.0015:
        return WRITTEN_BLOCK + rng.choice((-17, -16, -1, 0, 1, rng.randrange(1000)))
    if roll < 0.04:
        return rng.choice((16_383, 16_384, 16_385, 16_367, 16_368, 32_767, 32_768, 32_769))
    return rng.choice((0, 1, 15, 16, 17, rng.randrange(200)))


def write_minor(rng, made):
    made["minor"] = rng.choice((2, 3, 4, 255, 256, 65_535))


def write_cipher(rng, made):
    other = edits.flipped(AES, rng.randrange(128))
    made["cipher"] = rng.choice((AES, CHACHA20, other, rng.randbytes(16), bytes(16))).hex()


def write_lengths(rng, made):
    length = rng.choice((0, 11, 12, 13, 15, 16, 17, 31, 32, 33, 64))
    octets = rng.randbytes(length).hex()
    made[rng.choice(("seed", "nonce"))] = octets


def write_kdf(rng, made):
    rng.choice(ASKED_KDF)(rng, made["kdf"])


def write_custom(rng, made, table=edits.DICTIONARY):
    custom = sound_dictionary(rng)
    edits.apply(rng, table, custom, (0.0, 0.7, 0.9))
    made["custom"] = custom.octets().hex()


def write_few_rounds(rng, made):
    """Too few rounds; of some the KDF's seed or the custom dictionary is changed too."""
    if made["kdf"]["kind"] == "aeskdf":
        made["kdf"]["R"] = few_rounds(rng)
    else:
        made["kdf"] = asked_aes_kdf(rng, few_rounds(rng))
    roll = rng.random()
    if roll < 0.2:
        asked_salt(rng, made["kdf"])
    if roll >= 0.6:
        write_custom(rng, made, edits.DICTIONARY if roll >= 0.8 else (edits.item_repeated,))


WRITE = 2 * (write_minor, write_cipher, write_lengths, write_custom, write_few_rounds) + 4 * (write_kdf,)


def request_write(rng):
    made = sound_write(rng)
    edits.apply(rng, WRITE, made, (0.4, 0.8, 0.93))
    if rng.random() < 0.6:
        made["lent"] = around(rng, written_length(made))
    return made


def written_length(made):
    """The length of the file that these parts make, were they sound."""
    payload = len(made["data"]) // 2
    text = payload // 16 * 16 + 16 if made["cipher"] == "aes" else payload
    custom = len(made.get("custom", "")) // 2
    header = (207 if made["cipher"] == "aes" else 203) + (5 + custom if custom else 0)
    if made["kdf"]["kind"] != "aeskdf":
        header += 107 - 93 + len(made["kdf"]["S"]) // 2  # the dictionary of Argon2, in place of AES-KDF's
    return header + 64 + text + 36 * (-(-text // WRITTEN_BLOCK) + 1)


# ----- the inner header


def inner_octets(rng):
    """An inner header with none to three edits."""
    made = sound_inner(rng)
    edits.apply(rng, edits.INNER, made)
    return edits.octets(rng, made.octets(), 0.15)


def request_inner(rng):
    return {"data": inner_octets(rng).hex()}


def request_attachment(rng):
    made = sound_inner(rng)
    edits.apply(rng, edits.INNER, made, (0.6, 0.9, 0.97))
    index = rng.choice((0, 0, 1, 1, 2, 3, 4, 256, 2**32, 2**64 - 1))
    return {"data": edits.octets(rng, made.octets(), 0.08).hex(), "index": index}


def run_octets(rng):
    """A run of attachments, perhaps with an edit or a field that is none."""
    fields = attachment_run(rng)
    for field in fields:
        if rng.random() < 0.1:
            field.size = edits.other_size(rng, len(field.value))
        if rng.random() < 0.1:
            field.key = rng.choice((0, 1, 2, 4, 255))
        if rng.random() < 0.06:
            field.value = b""
    return edits.octets(rng, b"".join(field.octets() for field in fields), 0.1)


def request_inner_write(rng):
    algorithm = rng.choice((2, 3)) if rng.random() < 0.85 else rng.choice((0, 1, 4, 258, 2**31 + 2, 2**32 - 1))
    key, run = rng.randbytes(rng.choice((0, 1, 32, 64))), run_octets(rng)
    document = rng.randbytes(rng.choice((0, 1, rng.randrange(60))))
    made = {"alg": algorithm, "key": key.hex(), "run": run.hex(), "data": document.hex()}
    if rng.random() < 0.6:
        made["lent"] = around(rng, 19 + len(key) + len(run) + len(document))
    return made


# ----- the inner stream

OTHER_ALGORITHMS = (0, 1, 4, 5, 258, 259, 2**16 + 3, 2**31 + 2, 2**32 - 1)
BLOCKS = (0, 0, 1, 2, 3, 255, 256, 257, 65_534, 65_535)  # the last one ends at the limit


def inner_key_length(rng):
    return rng.choice((0, 1, 31, 32, 32, 33, 44, 63, 64, 64, 65, 127, 128, hash_length(rng)))


def stretch_length(rng):
    """The lengths of the worked passwords, one around a block's, or any; few are long."""
    if rng.random() < 0.02:
        return rng.randrange(5000)
    return rng.choice((0, 0, 1, 19, 23, 63, 64, 65, 127, 128, 129, rng.randrange(300)))


def stretch_position(rng, length):
    """A position that passes: around a block's border, any, or one of the last for that length."""
    border_position = 64 * rng.choice(BLOCKS + 2 * (rng.randrange(65_536),)) + rng.choice((-1, 0, 0, 1))
    last = STREAM_LIMIT - length
    inside = border_position + rng.randrange(64)
    made = rng.choice((border_position, border_position, inside, inside, rng.randrange(last + 1), last, last - 1))
    return min(max(0, made), last)


def asked_length(part):
    """The length of bytes as a request has them."""
    return part["zeros"] if isinstance(part, dict) else len(part) // 2


def stream_algorithm(rng, made):
    made["alg"] = rng.choice(OTHER_ALGORITHMS)


def stream_past(rng, made):
    """A position from which on the bytes pass the limit, or one at which a number of 32 or 64 bits is cut."""
    length = asked_length(made["data"])
    last = STREAM_LIMIT - length
    cut = rng.choice((2**32, 2**64)) - rng.choice((0, 1, length, length, length + 1))
    huge = rng.choice((2**32 + rng.randrange(100), 2**63, LARGEST, rng.randrange(2**64)))
    position = rng.choice((last + 1, last + 1, last + 2, STREAM_LIMIT, STREAM_LIMIT + 1, cut, huge))
    made["position"] = min(position, LARGEST)


def stream_key(rng, made):
    made["key"] = {"zeros": STREAM_LIMIT + rng.choice((1, 1, 2, 64))}


def stream_data(rng, made):
    """Data over the limit, by itself or with the position."""
    over = STREAM_LIMIT + 1
    made["data"] = {"zeros": rng.choice((over, max(1, over - made["position"])))}


# Few need megabytes.
STREAM = 12 * (stream_algorithm,) + 16 * (stream_past,) + (stream_key, stream_data)


def request_stream(rng):
    length = stretch_length(rng)
    made = {
        "alg": rng.choice((2, 3)),
        "key": some_octets(rng, inner_key_length(rng)),
        "position": stretch_position(rng, length),
        "data": some_octets(rng, length),
    }
    edits.apply(rng, STREAM, made, (0.6, 0.9, 0.98))
    if rng.random() < 0.6:
        made["lent"] = around(rng, length)
    return made


def part_length(rng, position):
    """A length; some end at a block's border."""
    return stretch_length(rng) if rng.random() < 0.8 else -position % 64 + rng.choice((0, 0, 64))


def request_streams(rng):
    """Parts that fit, empty ones too. In few requests some pass the limit and leave the state as it was."""
    parts, position = [], 0
    fewest, share_past = (4, 0.3) if rng.random() < 0.04 else (0, 0.0)
    for _ in range(rng.randrange(fewest, 8 if rng.random() < 0.97 else 40)):
        if rng.random() < share_past:
            parts.append({"zeros": STREAM_LIMIT - position + rng.choice((1, 1, 2, 64))})
            continue
        length = part_length(rng, position)
        parts.append(some_octets(rng, length))
        position += length
    algorithm = rng.choice((2, 3)) if rng.random() < 0.92 else rng.choice(OTHER_ALGORITHMS)
    return {"alg": algorithm, "key": rng.randbytes(inner_key_length(rng)).hex(), "parts": parts}


# ----- one of all

# Shares of the operations in a thousand requests.
SHARES = {
    "header": (160, request_header),
    "list": (55, request_header),
    "dict": (80, request_dict),
    "lookup": (60, request_lookup),
    "composite": (30, request_composite),
    "rounds": (40, request_rounds),
    "argon2": (40, request_argon2),
    "keys": (20, request_keys),
    "hash": (45, request_hash),
    "tag": (40, request_tag),
    "open": (105, request_open),
    "steps": (105, request_steps),
    "write": (60, request_write),
    "inner": (50, request_inner),
    "attachment": (20, request_attachment),
    "inner_write": (20, request_inner_write),
    "stream": (40, request_stream),
    "streams": (30, request_streams),
}
# Beside the thousand, files that were cut anew.
RECUT_SHARES = {"open": (8, request_recut_open), "steps": (8, request_recut_steps)}
TABLE = [
    (op, make)
    for shares in (SHARES, RECUT_SHARES)
    for op, (share, make) in shares.items()
    for _ in range(share)
]


FIXED = BORDERS + FEW_ROUNDS + PLACES  # asked in every run


def request(seed, index):
    """The request of an index; the first ones are the fixed ones."""
    rng = Random(f"{seed}:{index}")
    if index < len(FIXED):
        return FIXED[index](rng)
    op, make = TABLE[rng.randrange(len(TABLE))]
    return {"op": op, **make(rng)}
