"""Item 9's inputs: helpings and stretches, the places where they are cut, and wrong cuts."""

from itertools import accumulate, pairwise

from model.limits import ROUNDS_LIMIT, STREAM_LIMIT

LARGEST = 2**64 - 1  # of a helping
FEW = 200  # rounds that are asked for in all, where there are many to do
BLOCK = 64  # of the stream
LEAST_TOLD = 4  # bytes: of fewer, two stretches of the stream may be the same by chance


# ----- helpings


def small_rounds(rng):
    return rng.randrange(rng.choice((1, 2, 4, 20, 20, 300, 700)))


def most_rounds(rng):
    """At the limit, or near it: so many that few helpings do not end them."""
    return ROUNDS_LIMIT - rng.choice((0, 0, 1, 2, rng.randrange(1000)))


def too_many_rounds(rng):
    return rng.choice((ROUNDS_LIMIT + 1, 2**32, 2**32 + rng.randrange(20), 2**63, LARGEST))


def some_helping(rng, left):
    """None, few, around what is left, far past the end, or one at which a number of 32 or 64 bits is cut."""
    around = min(max(0, left + rng.choice((-1, 0, 0, 1))), LARGEST)
    past = rng.choice((10_000, 2**31, 2**32 - 1, 2**32, 2**32 + 1, 2**63, LARGEST - 1, LARGEST, LARGEST))
    some = rng.randrange(1 + min(left, FEW))
    return rng.choice((0, 0, 1, 2, rng.randrange(30), some, some, some, around, around, past, past))


def few_helpings(rng, count):
    """Helpings that add up to few rounds."""
    return [rng.choice((0, 1, 2, 7, rng.randrange(1 + FEW // max(1, count)))) for _ in range(count)]


def helpings_of(rng, left, most):
    """At most so many helpings of rounds of which so many are left; few stand behind the end."""
    made = []
    while len(made) < most and (left or rng.random() < 0.6):
        # With the one before, some are the largest that fits.
        fits = made and rng.random() < 0.05
        made.append(LARGEST - made[-1] if fits else some_helping(rng, left))
        left = max(0, left - made[-1])
    return made


def some_rounds(rng):
    """Rounds, and helpings of them. Where they are near the limit, few are done, since each takes its time."""
    most = rng.choice((1, 2, 3, 5, 8, rng.randrange(12)))
    roll = rng.random()
    if roll < 0.1:
        return most_rounds(rng), few_helpings(rng, most)
    rounds = too_many_rounds(rng) if roll < 0.2 else small_rounds(rng)
    return rounds, helpings_of(rng, rounds, most)


def merged(rng, helpings):
    """How many neighbours are taken together, at random: lists of helpings, none without any. Their sum fits its number
    of 64 bits."""
    groups, share = [], rng.choice((0.3, 0.7, 1.0))
    for n in helpings:
        if groups and sum(groups[-1]) + n <= LARGEST and rng.random() < share:
            groups[-1].append(n)
        else:
            groups.append([n])
    return groups


def one_too_many(helpings):
    return [*helpings, 1]


def one_too_few(helpings):
    """The last helping that has any rounds has one less."""
    made = list(helpings)
    at = max((place for place, n in enumerate(made) if n), default=None)
    if at is not None:
        made[at] -= 1
    return made


def rounded_up(unit):
    """Each helping is rounded up to a multiple, where that fits its number."""

    def wrong(helpings):
        return [n if up > LARGEST else up for n in helpings for up in [-(-n // unit) * unit]]

    wrong.__name__ = "rounded_up_to_%d" % unit
    return wrong


def none_does_one(helpings):
    return [n or 1 for n in helpings]


WRONG_HELPINGS = (one_too_many, one_too_few, rounded_up(2), rounded_up(8), none_does_one)


# ----- stretches


def around_blocks(rng):
    """A length: none, one around a block's or a few blocks', any; few are long."""
    border = BLOCK * rng.choice((1, 1, 2, 3)) + rng.choice((-1, 0, 0, 1))
    if rng.random() < 0.03:
        return rng.randrange(1000, 20_000)
    return rng.choice((0, 1, 2, 19, 23, 42, border, border, rng.randrange(300), rng.randrange(300)))


def cut_at(rng, position, length):
    """Where a stretch at a position is cut: at its ends, at a block's border, beside one, or anywhere."""
    border = -position % BLOCK + BLOCK * rng.randrange(1 + length // BLOCK)
    made = rng.choice((0, length, border, border, border - 1, border + 1, rng.randrange(length + 1)))
    return min(max(0, made), length)


def cuts(rng, position, length, count):
    """The ends of so many parts and one more, in order; some parts are empty."""
    return sorted(cut_at(rng, position, length) for _ in range(count)) + [length]


def parts_of(data, ends):
    """The data in parts that end there."""
    return [data[start:end] for start, end in pairwise([0, *ends])]


def lent_for(rng, length):
    """Room for just so many bytes, or for more."""
    return length + rng.choice((0, 0, 1, 15, BLOCK, 1000))


def positions(position, parts):
    """Where each part stands in the stream."""
    return [position + before for before in accumulate(map(len, parts[:-1]), initial=0)]


def at_front(position, cut):
    return 0


def at_first(position, cut):
    """At the position of the first part."""
    return position


def byte_before(position, cut):
    return position + cut - 1


def byte_behind(position, cut):
    return position + cut + 1


WRONG_STRETCHES = (at_front, at_first, byte_before, byte_behind)


def wrong_position(fault, position, cut, length):
    """Where a wrong cut has the second part, of so many bytes in all; None where it is no wrong one, or not to be told
    apart or not accepted."""
    rest, wrong = length - cut, fault(position, cut)
    within = 0 <= wrong <= STREAM_LIMIT - rest
    return wrong if within and rest >= LEAST_TOLD and wrong != position + cut else None
