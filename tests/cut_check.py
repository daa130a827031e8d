"""Item 9 over the library alone: helpings and stretches as they are cut, and uncut.

This is what `tests/differential --cut` runs. What is due is the library's own answer to the uncut run: the state's
bytes wherever both runs stand, what is told there, T and its number; the bytes of a stretch, and the state behind it.
States go on from a start, from the bytes that a call wrote, open, ended or refused ones, and from bytes that no call
wrote. A wrong cut has to be told apart, but for one that comes to the same: past the end of the rounds, or with too few
bytes behind it.
"""

from collections import Counter
from itertools import accumulate
from random import Random

from asking import CHUNK, check_chunks, told
from inputs.borders import asked, seeds
from inputs.cuts import (
    FEW, LARGEST, WRONG_HELPINGS, WRONG_STRETCHES, around_blocks, cut_at, cuts, few_helpings, helpings_of, lent_for,
    merged, parts_of, positions, some_rounds, wrong_position,
)
from inputs.requests import OTHER_ALGORITHMS, inner_key_length, stretch_position
from model.limits import AFTER_END, LENT_TOO_SHORT, ROUNDS, ROUNDS_LIMIT, STREAM_LIMIT, UNLISTED_ALGORITHM

FAR = 70_000  # a position to which a state is moved in the answer of one request

# What has to be met in a long run, beside every wrong cut.
MET = (
    "helpings of none", "helpings taken together", "sums past the end", "sums of 2^64-1", "open rounds", "ended rounds",
    "refused rounds", "rounds of other bytes", "of them with rounds done", "empty parts", "cuts at a block's border",
    "stretches to the limit", "stretches of a state", "refused streams", "states of other bytes",
)


class Case:
    """A case of a seed and an index. Its steps ask requests, are sent the answers, and note what they found."""

    def __init__(self, seed, index):
        self.index = index
        self.rng = Random(f"{seed}:cut:{index}")
        self.counts, self.different, self.missed = Counter(checked=1), [], []
        self.steps = KINDS[index % len(KINDS)](self)

    def go_on(self, answers):
        """The next requests, or None behind the last step."""
        try:
            return self.steps.send(answers)
        except StopIteration:
            return None

    def same(self, words, given, due):
        if given != due:
            self.different.append((self.index, "different: %s" % words))

    def sound(self, *answers):
        """Nothing is refused or touched."""
        self.same("touched or refused", [(one["no"], "touched" in one) for one in answers], len(answers) * [(0, False)])

    def wrong(self, fault, apart):
        """A wrong cut was tried."""
        self.counts["wrong"] += 1
        self.counts[fault.__name__] += 1
        if not apart:
            self.missed.append((self.index, "not told apart: %s" % fault.__name__))

    def count(self, words, times=1):
        self.counts[words] += int(times)


# ----- helpings


def others(rng, state):
    """Bytes in the place of a state's, and whether they were chosen: few are changed, mostly at its ends, where mark
    and numbers are. Otherwise all are equal, or any."""
    made = bytearray.fromhex(state)
    if rng.random() < 0.2:
        return rng.choice((bytes(len(made)), b"\xff" * len(made), rng.randbytes(len(made)))).hex(), False
    for _ in range(rng.choice((1, 1, 2, 4))):
        at = rng.choice((rng.randrange(len(made)), 0, -1 - rng.randrange(8), -1 - rng.randrange(40)))
        made[at] = rng.choice((0, 1, 2, made[at] ^ 1 << rng.randrange(8), 255, rng.randrange(256)))
    return made.hex(), True


def asked_helpings(begun, helpings):
    """Helpings from a start or a state."""
    return {"op": "helpings", **begun, "helpings": helpings}


def compare_helpings(case, helpings, groups, cut, uncut):
    """ "a helping of a followed by one of b is a helping of a + b", wherever both runs stand."""
    stands = [0, *accumulate(map(len, groups))]
    case.sound(cut, uncut)
    case.same("started", cut.get("started"), uncut.get("started"))
    case.same("a state", [cut["states"][at] for at in stands], uncut["states"])
    case.same("what is told", [cut["told"][at - 1] for at in stands[1:]], uncut["told"])
    case.same("T", [cut["T"], cut["T_no"]], [uncut["T"], uncut["T_no"]])
    case.count("helpings taken together", len(helpings) - len(groups))
    case.count("sums of 2^64-1", sum(sum(group) == LARGEST and len(group) > 1 for group in groups))


def compare_nothing(case, helpings, answer, first=True):
    """ "a helping of 0 changes nothing"; it tells what stood before it. The first one is left out of bytes that no call
    wrote."""
    for at, n in enumerate(helpings):
        if n == 0 and (at or first):
            case.count("helpings of none")
            case.same("a state behind a helping of 0", answer["states"][at + 1], answer["states"][at])
        if n == 0 and at:
            case.same("what a helping of 0 tells", answer["told"][at], answer["told"][at - 1])


def compare_counts(case, rounds, done, helpings, answer):
    """ "a helping of n does the lesser of n and what remains", where so many were done before."""
    sums = [done + before for before in accumulate(helpings, initial=0)]
    case.same("the counts", [one[0] for one in answer["told"]], [min(rounds, n) for n in sums[1:]])
    case.same("T's number", answer["T_no"], 0 if sums[-1] >= rounds else AFTER_END)
    case.count("sums past the end", sum(n > rounds for n in sums))
    case.count("ended rounds" if sums[-1] >= rounds else "open rounds")


def compared_helpings(case, begun, helpings, first=True):
    """Asks helpings one by one and neighbours taken together, and compares: what the first way answers."""
    groups = merged(case.rng, helpings)
    ways = helpings, [sum(group) for group in groups]
    cut, uncut = yield [asked_helpings(begun, n) for n in ways]
    compare_helpings(case, helpings, groups, cut, uncut)
    compare_nothing(case, helpings, cut, first)
    return cut


def wrong_helpings(case, begun, rounds, done, helpings, right):
    """Tries the wrong cuts that do not come to the same, where so many rounds were done before. Both the state's bytes
    and what is told have to be others."""
    tried = {fault: fault(helpings) for fault in WRONG_HELPINGS}
    due = min(rounds, done + sum(helpings))
    found = {fault: made for fault, made in tried.items() if min(rounds, done + sum(made)) != due}
    answers = yield [asked_helpings(begun, made) for made in found.values()]
    for fault, wrong in zip(found, answers, strict=True):
        case.wrong(fault, all(wrong[name][-1:] != right[name][-1:] for name in ("states", "told")))


def plain_rounds(case, begun, helpings, right):
    """The operation `rounds` answers the same."""
    [plain] = yield [{"op": "rounds", **begun, "helpings": helpings}]
    due = {"no": 0, "helpings": right["told"], "T": right["T"], "T_no": right["T_no"]}
    case.same("what `rounds` answers", plain, due)


def refused_rounds(case, answer):
    """R: "a helping of it does nothing", and T is 19."""
    case.count("refused rounds")
    case.same("a refused state", (len(set(answer["states"])), answer["T_no"]), (1, AFTER_END))


def helpings_from_start(case):
    """Rounds that are started: cut, uncut, cut wrongly, and by the operation `rounds`."""
    rounds, helpings = some_rounds(case.rng)
    begun = {**seeds(case.rng), "R": rounds}
    cut = yield from compared_helpings(case, begun, helpings)
    case.same("the start's number", cut["started"], 0 if rounds <= ROUNDS_LIMIT else ROUNDS)
    if rounds > ROUNDS_LIMIT:
        refused_rounds(case, cut)
        return
    compare_counts(case, rounds, 0, helpings, cut)
    if helpings[:1] == [0]:
        case.same("what the first helping of 0 tells", cut["told"][0], [0, begun["composite"]])
    yield from wrong_helpings(case, begun, rounds, 0, helpings, cut)
    yield from plain_rounds(case, begun, helpings, cut)


def paused_helpings(case, whole, helpings, at):
    """From the state that a run left there: the helpings that were to come."""
    answer = yield from compared_helpings(case, {"state": whole["states"][at]}, helpings[at:])
    rest = {name: whole[name][at:] for name in ("states", "told")}
    case.same("a paused run", answer, {"no": 0, **rest, "T": whole["T"], "T_no": whole["T_no"]})


def more_helpings(rng, rounds, done):
    """Helpings behind others; few rounds, where many are left."""
    count, left = rng.choice((1, 2, 2, 3, rng.randrange(9))), rounds - done
    return few_helpings(rng, count) if FEW * 10 < left <= ROUNDS_LIMIT else helpings_of(rng, left, count)


def other_helpings(case, state, helpings):
    """From bytes that no call wrote. Their rounds may be many, so few are asked for, but where no byte was chosen."""
    made, chosen = others(case.rng, state)
    few = few_helpings(case.rng, len(helpings)) if chosen else helpings
    answer = yield from compared_helpings(case, {"state": made}, few, first=False)
    case.count("rounds of other bytes", made != state)
    case.count("of them with rounds done", made != state and any(done for done, _ in answer["told"]))


def helpings_from_state(case):
    """From a state that a call left: the helpings that were to come, others, wrong ones; others from other bytes."""
    rounds, helpings = some_rounds(case.rng)
    [whole] = yield [asked_helpings({**seeds(case.rng), "R": rounds}, helpings)]
    at = case.rng.randrange(len(helpings) + 1)
    state, done = whole["states"][at], min(rounds, sum(helpings[:at]))
    more = more_helpings(case.rng, rounds, done)
    yield from paused_helpings(case, whole, helpings, at)
    answer = yield from compared_helpings(case, {"state": state}, more)
    yield from other_helpings(case, state, more)
    if rounds > ROUNDS_LIMIT:
        refused_rounds(case, answer)
        return
    compare_counts(case, rounds, done, more, answer)
    yield from wrong_helpings(case, {"state": state}, rounds, done, more, answer)


# ----- stretches


def joined(answers):
    """The bytes of stretches, one behind the other; a refused one has none."""
    return bytes.fromhex("".join(one.get("bytes", "") for one in answers))


def wrong_stretches(position, cut, length):
    """The wrong cuts that are to be told apart, and where they have the second part."""
    tried = {fault: wrong_position(fault, position, cut, length) for fault in WRONG_STRETCHES}
    return {fault: wrong for fault, wrong in tried.items() if wrong is not None}


class Stretch:
    """Bytes at a position of a stream, and where they are cut: in two, and in more."""

    def __init__(self, rng, length, position):
        self.cipher = {"alg": rng.choice((2, 3)), "key": rng.randbytes(inner_key_length(rng)).hex()}
        self.position, self.data = position, rng.randbytes(length)
        self.cut = cut_at(rng, position, length)
        self.two, self.more = [self.cut, length], cuts(rng, position, length, rng.randrange(2, 7))
        self.second = self.data[self.cut :]
        self.wrong = wrong_stretches(position, self.cut, length)

    def note_cuts(self, case):
        for ends in (self.two, self.more):
            parts = parts_of(self.data, ends)
            borders = sum(at % 64 == 0 for at in positions(self.position, parts)[1:])
            case.count("empty parts", sum(not part for part in parts))
            case.count("cuts at a block's border", borders)
        case.count("stretches to the limit", self.position + len(self.data) == STREAM_LIMIT)


def asked_parts(rng, cipher, position, parts):
    """Parts, each at its own position and with enough room."""
    return [
        {"op": "stream", **cipher, "position": at, "data": part.hex(), "lent": lent_for(rng, len(part))}
        for at, part in zip(positions(position, parts), parts)
    ]


def all_ways(case, one, data):
    """Such bytes uncut, in two parts and in more: what each way makes of them."""
    ways = [parts_of(data, ends) for ends in ([len(data)], one.two, one.more)]
    answers = yield [request for way in ways for request in asked_parts(case.rng, one.cipher, one.position, way)]
    case.sound(*answers)
    given = iter(answers)
    return [joined([next(given) for _ in way]) for way in ways]


def stretch(case):
    """A stretch straight from the inner key: uncut, in two parts, in more, at a wrong position, and covered twice."""
    length = around_blocks(case.rng)
    one = Stretch(case.rng, length, stretch_position(case.rng, length))
    covered, in_two, in_more = yield from all_ways(case, one, one.data)
    case.same("a stretch cut in two", in_two, covered)
    case.same("a stretch cut in more", in_more, covered)
    one.note_cuts(case)
    again = yield from all_ways(case, one, covered)
    case.same("a stretch covered twice", again, 3 * [one.data])
    answers = yield [asked_parts(case.rng, one.cipher, wrong, [one.second])[0] for wrong in one.wrong.values()]
    for fault, wrong in zip(one.wrong, answers, strict=True):
        case.wrong(fault, joined([wrong]) != covered[one.cut :])


def asked_stretches(begun, parts, lents):
    """Parts from a start or a state."""
    return {"op": "stretches", **begun, "parts": [asked(part) for part in parts], "lents": lents}


def with_room(rng, begun, parts):
    """Parts, each with enough room."""
    return asked_stretches(begun, parts, [lent_for(rng, len(part)) for part in parts])


def with_attempts(rng, begun, parts):
    """The same, with some tried before with too little room."""
    tried = []
    for part in parts:
        if part and rng.random() < 0.4:
            tried.append((part, rng.choice((0, len(part) - 1))))
        tried.append((part, lent_for(rng, len(part))))
    return asked_stretches(begun, [part for part, _ in tried], [lent for _, lent in tried])


def compare_stretches(case, words, answer, data, end):
    """Parts of a state come to these bytes and end in this state. One with too little room changes nothing."""
    case.sound(answer)
    taken = [part for part in answer["parts"] if part["no"] != LENT_TOO_SHORT]
    case.same(words + ", numbers", [part.keys() for part in taken], [{"no", "bytes"} for _ in taken])
    case.same(words, joined(taken), data)
    case.same(words + ", the state", answer["states"][-1], end)
    for part, before, after in zip(answer["parts"], answer["states"], answer["states"][1:]):
        if part["no"] == LENT_TOO_SHORT:
            case.same("too little room", (part, after), ({"no": LENT_TOO_SHORT}, before))


def refused_stretches(case):
    """A start that is refused: the state stays, and every part is 19."""
    length = around_blocks(case.rng)
    parts = parts_of(case.rng.randbytes(length), cuts(case.rng, 0, length, 2))
    begun = {"alg": case.rng.choice(OTHER_ALGORITHMS), "key": ""}
    [answer] = yield [with_room(case.rng, begun, parts)]
    case.sound(answer)
    case.count("refused streams")
    case.same("a refused start", answer["started"], UNLISTED_ALGORITHM)
    case.same("a refused state", len(set(answer["states"])), 1)
    case.same("its parts", answer["parts"], [{"no": AFTER_END} for _ in parts])


def stretches_of_state(case, one, state):
    """From the bytes of a state: uncut, in two, in more, covered twice. What it comes to, and the state behind it."""
    begun = {"state": state}
    two, more = (parts_of(one.data, ends) for ends in (one.two, one.more))
    uncut, in_two, in_more, straight = yield [
        with_room(case.rng, begun, [one.data]), with_room(case.rng, begun, two), with_attempts(case.rng, begun, more),
        {"op": "stream", **one.cipher, "position": one.position, "data": one.data.hex()},
    ]
    covered, end = joined(uncut["parts"]), uncut["states"][-1]
    case.same("what `stream` answers", straight, {"no": 0, "bytes": covered.hex()})
    compare_stretches(case, "a stretch of a state", uncut, covered, end)
    compare_stretches(case, "a stretch of a state cut in two", in_two, covered, end)
    compare_stretches(case, "a stretch of a state cut in more", in_more, covered, end)
    answers = yield [with_attempts(case.rng, begun, parts_of(covered, ends)) for ends in ([len(covered)], one.more)]
    for answer in answers:
        compare_stretches(case, "a stretch of a state covered twice", answer, one.data, end)
    return covered, end


def stretches_from_start(case, one, covered, end):
    """From a start, which is moved to the stretch's position, or to a wrong one."""
    two = parts_of(one.data, one.two)
    right, *answers = yield [
        with_room(case.rng, one.cipher, [bytes(one.position), *two]),
        *(with_room(case.rng, one.cipher, [bytes(wrong), one.second]) for wrong in one.wrong.values()),
    ]
    case.same("a stretch from a start", joined(right["parts"][1:]), covered)
    case.same("a stretch from a start, the state", right["states"][-1], end)
    for fault, wrong in zip(one.wrong, answers, strict=True):
        case.wrong(fault, joined(wrong["parts"][1:]) != covered[one.cut :] and wrong["states"][-1] != end)


def other_stretches(case, one, state):
    """From bytes that no call wrote, uncut, in two, and covered twice. A refused stretch says nothing of its parts, but
    where no part would be taken."""
    begun = {"state": others(case.rng, state)[0]}
    case.count("states of other bytes", begun["state"] != state)
    ways = [one.data], parts_of(one.data, one.two)
    uncut, in_two = yield [with_room(case.rng, begun, parts) for parts in ways]
    if uncut["parts"][0]["no"] == AFTER_END:
        case.same("parts of other bytes", in_two["parts"], 2 * uncut["parts"])
        case.same("other bytes", {*uncut["states"], *in_two["states"]}, {begun["state"]})
    if uncut["parts"][0]["no"] == 0:
        covered, end = joined(uncut["parts"]), uncut["states"][-1]
        compare_stretches(case, "a stretch of other bytes", in_two, covered, end)
        [again] = yield [with_room(case.rng, begun, [covered])]
        compare_stretches(case, "other bytes covered twice", again, one.data, end)


def front_length(rng, length):
    """How far a state has come; few come near the limit."""
    if rng.random() < 0.02:
        return STREAM_LIMIT - length - rng.choice((0, 0, 1, 63))
    return rng.choice((0, around_blocks(rng), rng.randrange(300), rng.randrange(FAR) if rng.random() < 0.1 else 64))


def stretches(case):
    """Parts of a state: from the bytes that a part left, from a start, and from bytes that no call wrote."""
    if case.rng.random() < 0.05:
        yield from refused_stretches(case)
        return
    length = around_blocks(case.rng)
    one = Stretch(case.rng, length, front_length(case.rng, length))
    [moved] = yield [asked_stretches(one.cipher, [one.position], [one.position])]
    case.sound(moved)
    state = moved["states"][1]
    covered, end = yield from stretches_of_state(case, one, state)
    if one.position < FAR:
        yield from stretches_from_start(case, one, covered, end)
    yield from other_stretches(case, one, state)
    one.note_cuts(case)
    case.count("stretches of a state")


KINDS = (helpings_from_start, helpings_from_state, stretch, stretches)


# ----- all


def check(task):
    """Check one stretch of cases: what is counted, what differs, which wrong cuts are not told apart. All that is asked
    at one step is asked at once."""
    asking, seed, indexes = task
    cases = [Case(seed, index) for index in indexes]
    waiting = [(case, case.go_on(None)) for case in cases]
    while waiting:
        given = iter(asking.answers([request for _, requests in waiting for request in requests]))
        sent = [(case, case.go_on([next(given) for _ in requests])) for case, requests in waiting]
        waiting = [(case, requests) for case, requests in sent if requests is not None]
    different = [fault for case in cases for fault in case.different]
    missed = [fault for case in cases for fault in case.missed]
    return sum((case.counts for case in cases), Counter()), different, missed


def check_cut(asking, seed, first, count, jobs):
    """Check cases first to count; True where none differs and every wrong cut is told apart. Many cases have to meet
    all that is to be met."""
    counts, different, missed = check_chunks(check, "--cut", asking, seed, first, count, jobs)
    wrong = [fault.__name__ for fault in (*WRONG_HELPINGS, *WRONG_STRETCHES)]
    print("met: " + ", ".join("%d %s" % (counts[words], words) for words in MET))
    print("wrong: " + ", ".join("%d %s" % (counts[name], name) for name in wrong))
    print("%d wrong cuts, %s" % (counts["wrong"], told(missed)))
    print("%d cut, %d different" % (counts["checked"], len({index for index, _ in different})))
    enough = counts["checked"] < 4 * CHUNK or all(counts[words] for words in (*MET, *wrong))
    return enough and not (different or missed)
