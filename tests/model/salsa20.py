"""Salsa20/20 with a 32-byte key (D. J. Bernstein, "Salsa20 specification"); OpenSSL has none.

All blocks that are asked for are made at once: a word here is an integer with a lane of 64 bits for each block, and the
low 32 bits of a lane are that block's word. With one block it is the word of the specification.
"""

LANE = 8  # bytes
LOW = 2**32 - 1

CONSTANTS = b"expand 32-byte k"
# The places of the words that each quarter round of a column round and of a row round takes, in its own order.
COLUMNS = ((0, 4, 8, 12), (5, 9, 13, 1), (10, 14, 2, 6), (15, 3, 7, 11))
ROWS = ((0, 1, 2, 3), (5, 6, 7, 4), (10, 11, 8, 9), (15, 12, 13, 14))
DOUBLE_ROUNDS = 10


def lanes(values):
    """The values, each in a lane of its own, the first one lowest."""
    return int.from_bytes(b"".join(value.to_bytes(LANE, "little") for value in values), "little")


def rotated_sum(one, other, by, mask):
    """The sum modulo 2^32, rotated to the left, in each lane."""
    total = (one + other) & mask
    return ((total << by) | (total >> (32 - by))) & mask


def quarter_round(y0, y1, y2, y3, mask):
    """Section 3 of the specification."""
    z1 = y1 ^ rotated_sum(y0, y3, 7, mask)
    z2 = y2 ^ rotated_sum(z1, y0, 9, mask)
    z3 = y3 ^ rotated_sum(z2, z1, 13, mask)
    z0 = y0 ^ rotated_sum(z3, z2, 18, mask)
    return z0, z1, z2, z3


def quarter_rounds(words, places, mask):
    """A quarter round on the words of each four places: sections 4 (rows) and 5 (columns)."""
    made = list(words)
    for a, b, c, d in places:
        made[a], made[b], made[c], made[d] = quarter_round(words[a], words[b], words[c], words[d], mask)
    return made


def double_round(words, mask):
    """Section 6: the row round of the column round."""
    return quarter_rounds(quarter_rounds(words, COLUMNS, mask), ROWS, mask)


def core(words, mask=LOW):
    """Section 8: the words plus what ten double rounds make of them."""
    made = words
    for _ in range(DOUBLE_ROUNDS):
        made = double_round(made, mask)
    return [(one + other) & mask for one, other in zip(words, made)]


def words_of(data):
    """Section 7: each four bytes as a number, little-endian."""
    return [int.from_bytes(data[at : at + 4], "little") for at in range(0, len(data), 4)]


def first_words(key, nonce, block, count):
    """Sections 9 and 10: constants, key, nonce and number of so many blocks. The number has 64 bits."""
    each = lanes([1] * count)
    constant, half, other_half, of_nonce = (
        [word * each for word in words_of(part)] for part in (CONSTANTS, key[:16], key[16:], nonce)
    )
    numbers = range(block, block + count)
    of_number = [lanes([number & LOW for number in numbers]), lanes([number >> 32 & LOW for number in numbers])]
    return [constant[0], *half, constant[1], *of_nonce, *of_number, constant[2], *other_half, constant[3]]


def joined(words, count):
    """The blocks one behind the other, the words of each as four bytes."""
    made = bytearray(64 * count)
    for place, word in enumerate(words):
        octets = word.to_bytes(LANE * count, "little")
        for at in range(4):
            made[4 * place + at :: 64] = octets[at::LANE]
    return bytes(made)


def salsa20(key, nonce, data, block):
    """Section 10: the data under the stream from that block on; it is its own inverse."""
    count = -(-len(data) // 64)
    stream = joined(core(first_words(key, nonce, block, count), lanes([LOW] * count)), count)
    return bytes(one ^ other for one, other in zip(data, stream))
