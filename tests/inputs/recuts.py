"""Item 13's inputs: accepted files, the sizes at which their ciphertext is cut anew, and wrong cuttings."""

from dataclasses import dataclass
from itertools import accumulate, chain, cycle, islice, pairwise

from model import vault as opening
from model.limits import (
    AFTER_END, BLOCK_TAG, BYTES_AFTER, CUT_SHORT, FILE_LIMIT, LENT_TOO_SHORT, PADDING, WRITTEN_BLOCK,
)
from model.recut import ciphertext, recut

from .shapes import Block, sound_vault

MOST_BLOCKS = 400  # of one file: at each step the model decrypts all that came before
LONGEST = 70_000  # of blocks at random


# ----- sizes


def sizes_of_one(rng, length):
    return cycle([1])


def sizes_in_one(rng, length):
    return cycle([length])


def below(length, *sizes):
    """Those of the sizes that cut such a length."""
    return [size for size in sizes if size < length]


def sizes_equal(rng, length):
    """Another maker's 1,000, the writer's size before Item 7 and since, around a block of AES, or any."""
    known = below(length, *4 * [1000], *2 * [16_384, WRITTEN_BLOCK], 15, 16, 17)
    return cycle([rng.choice([*known, rng.randrange(1, min(length, LONGEST) + 1)])])


def sizes_worked(rng, length):
    """Document 01's 5 and 27."""
    return cycle([5, 27])


def sizes_around(rng, length):
    """Each around a block of AES."""
    return iter(lambda: rng.choice((15, 16, 17)), None)


def sizes_mixed(rng, length):
    """Each of any length up to a longest, with single bytes among them."""
    longest = rng.choice([2, *below(length, 17, 40, 1000, LONGEST)])
    return iter(lambda: rng.choice((1, rng.randrange(1, longest + 1), longest)), None)


SIZES = 3 * (sizes_equal, sizes_mixed) + 2 * (sizes_of_one,) + (sizes_in_one, sizes_worked, sizes_around)


def adding_up(endless, length):
    """The first ones of endless sizes, as many as add up to a length; the last one is cut to what is left."""
    made, left = [], length
    while left:
        made.append(min(next(endless), left))
        left -= made[-1]
    return made


def sizes_for(rng, length):
    """Positive sizes that add up to a length, none for 0. Where they were too many, one block has the rest."""
    if length == 0:
        return []
    endless = rng.choice(SIZES)(rng, length)
    return adding_up(chain(islice(endless, MOST_BLOCKS), [length]), length)


def other_sizes(rng, sizes):
    """Sizes that are no cutting: one is zero or negative, or they add up to less or more."""
    at, more = rng.randrange(len(sizes) + 1), rng.choice((1, 1, 16))
    return rng.choice((
        [*sizes[:at], 0, *sizes[at:]],
        [*sizes[:at], more, -more, *sizes[at:]],
        sizes[:-1] or [1],
        [*sizes[:at], more, *sizes[at:]],
    ))


# ----- files


@dataclass(frozen=True)
class Cutting:
    """An accepted file, its T, its cipher, its payload's length, and the sizes to cut its ciphertext at."""

    data: bytes
    t: bytes
    cipher: str
    payload: int
    sizes: list

    def recut(self):
        return recut(self.data, self.t, self.sizes)


def payload_length(rng):
    """Mostly short, some past 256 bytes and so past 256 blocks of one; few past the block that was written before Item
    7, a handful past the one that is written since."""
    roll = rng.random()
    if roll < 0.004:
        return WRITTEN_BLOCK + rng.choice((-17, -1, 0, 1, rng.randrange(1000)))
    if roll < 0.03:
        return rng.randrange(16_000, 2 * LONGEST)
    if roll < 0.15:
        return rng.choice((999, 1000, 1001, 1983, 1984, 2000, rng.randrange(1000, 5000)))
    if roll < 0.3:
        return rng.randrange(256, MOST_BLOCKS - 16)
    return rng.choice((0, 1, 15, 16, 17, 31, 32, rng.randrange(80), rng.randrange(256)))


def cutting_of(rng, data, t, cipher, payload):
    """A file of a payload of that length, to be cut at random."""
    return Cutting(data, t, cipher, payload, sizes_for(rng, len(ciphertext(data, t))))


def some_cutting(rng):
    """A file of any header, in blocks of any sizes, to be cut at others."""
    made = sound_vault(rng)
    plain = rng.randbytes(payload_length(rng))
    text = opening.encryption(made.cipher, made.cipher_key, made.nonce, plain)
    made.blocks = blocks_of(text, sizes_for(rng, len(text)))
    return cutting_of(rng, made.octets(), made.t, made.cipher, len(plain))


def blocks_of(text, sizes):
    """Blocks of these sizes, and the closing one."""
    return [Block(text[end - size : end]) for size, end in zip(sizes, accumulate(sizes))] + [Block(b"")]


# ----- steps


def bytes_due(cutting):
    """What each step hands over, the closing one last."""
    handed = [opening.handed_over(cutting, count) for count in (0, *accumulate(cutting.sizes))]
    return [after - before for before, after in pairwise([*handed, cutting.payload])]


def lents_for(rng, cutting):
    """Lent lengths, each with the number that is due: for each block one with room, before some of them one or two that
    are too short, and none to two behind the end."""
    made, share = [], rng.choice((0.0, 0.1, 0.5))
    for size, due in zip([*cutting.sizes, 0], bytes_due(cutting)):
        if due and rng.random() < share:
            made += rng.choice((1, 1, 2)) * [(rng.choice((0, due - 1, rng.randrange(due))), LENT_TOO_SHORT)]
        made.append((rng.choice((due, due + 1, size + 15, FILE_LIMIT)), 0))
    return made + rng.randrange(3) * [(rng.choice((0, FILE_LIMIT)), AFTER_END)]


# ----- the model's own operation


def request_recut(rng):
    """A file to be cut and its steps; some lists of sizes are no cutting, and some files are not accepted."""
    cutting = some_cutting(rng)
    roll = rng.random()
    sizes = other_sizes(rng, cutting.sizes) if roll < 0.2 else cutting.sizes
    data = cutting.data + rng.randbytes(rng.choice((1, 36))) if 0.2 <= roll < 0.25 else cutting.data
    lents = [lent for lent, _ in lents_for(rng, cutting)]
    return {"op": "recut", "data": data.hex(), "T": cutting.t.hex(), "sizes": sizes, "lents": lents}


# ----- wrong cuttings


def numbers_stand_still(rng, blocks):
    for block in blocks:
        block.number = 0


def numbers_from_one(rng, blocks):
    for number, block in enumerate(blocks):
        block.number = number + 1


def closing_number_repeated(rng, blocks):
    """The closing block has the last data block's number."""
    blocks[-1].number = len(blocks) - 2


def first_key_for_all(rng, blocks):
    """Each block's number is in its tag's message, but all tags are made with the key of number 0."""
    for block in blocks:
        block.key_number = 0


def front_again(rng, blocks):
    """A block has the ciphertext's first bytes once more, in the place of its own."""
    block = blocks[rng.randrange(1, len(blocks) - 1)]
    text = b"".join(one.data for one in blocks)
    block.data = text[: len(block.data)]


def blocks_exchanged(rng, blocks):
    """Two neighbours change places, and are tagged where they stand."""
    at = rng.randrange(len(blocks) - 2)
    blocks[at], blocks[at + 1] = blocks[at + 1], blocks[at]


def size_of_zero(rng, blocks):
    """It closes the file early, with blocks behind it."""
    blocks.insert(rng.randrange(len(blocks)), Block(b""))


def falls_short(rng, blocks):
    """The file is closed before all of the ciphertext is in it."""
    del blocks[rng.randrange(len(blocks) - 1) : -1]


def not_closed(rng, blocks):
    del blocks[-1]


# Each with the numbers that the whole opener may answer; where it accepts, the payload is another.
WRONG = (
    (numbers_stand_still, (BLOCK_TAG,)),
    (numbers_from_one, (BLOCK_TAG,)),
    (closing_number_repeated, (BLOCK_TAG,)),
    (first_key_for_all, (BLOCK_TAG,)),
    (front_again, (0, PADDING)),
    (blocks_exchanged, (0, PADDING)),
    (size_of_zero, (BYTES_AFTER,)),
    (falls_short, (0, PADDING)),
    (not_closed, (CUT_SHORT,)),
)


def wrong_cutting(rng, cutting, fault):
    """The file cut wrongly, at two sizes or more."""
    blocks = blocks_of(ciphertext(cutting.data, cutting.t), cutting.sizes)
    fault(rng, blocks)
    _, vault_keys, at = opening.start(cutting.data, cutting.t)
    octets = [block.octets(vault_keys.tag_base, place) for place, block in enumerate(blocks)]
    return cutting.data[:at] + b"".join(octets)
