#!/usr/bin/env python3
"""Write what crates/vectors_inner_stream must print:

    tools/vectors_inner_stream.py > crates/vectors_inner_stream/stdout

inner_streams.py computes the streams. The stretches, positions and rows are those of crates/vectors_inner_stream/src,
told anew here.
"""
from inner_streams import LIMIT, STREAMS, number
from messages import pattern

P = pattern(200)


def apply(name, form, algorithm, key, position, text, room):
    refusal = number(algorithm, key, position, text, room)
    w = b"" if refusal else STREAMS[algorithm](key, position, text)
    print(name, form, len(text), refusal, (w + bytes([0xAA]) * (room - len(w))).hex())
    return w


def stretch(name, form, algorithm, key_len, position, n, room):
    apply(name, form, algorithm, P[:key_len], position, P[:n], room)


def forms(name, algorithm):
    stretch(name, "first", algorithm, 64, 0, 23, 42)
    stretch(name, "next", algorithm, 64, 23, 19, 42)
    w = apply(name, "twice", algorithm, P[:64], 7, P[:100], 100)
    apply(name, "twice", algorithm, P[:64], 7, w, 100)
    stretch(name, "key0", algorithm, 0, 0, 42, 42)
    stretch(name, "key200", algorithm, 200, 0, 42, 42)
    stretch(name, "last", algorithm, 64, LIMIT - 42, 42, 42)
    stretch(name, "end", algorithm, 64, LIMIT - 41, 42, 42)
    stretch(name, "end", algorithm, 64, LIMIT + 1, 0, 42)
    stretch(name, "wrap", algorithm, 64, 2**64 - 16, 42, 42)
    stretch(name, "room", algorithm, 64, 0, 42, 41)
    stretch(name, "both", algorithm, 64, LIMIT - 41, 42, 41)


class State:
    """A stream that carries over. A refused start closes it."""

    def __init__(self, name, algorithm, key):
        refusal = number(algorithm, key, 0, b"", 0)
        self.name, self.algorithm, self.key, self.closed = name, algorithm, key, refusal != 0
        self.position = 0
        print(name, "start", len(key), refusal, "")

    def number(self, n, room):
        if self.closed or self.position > LIMIT:
            return 19
        return number(self.algorithm, self.key, self.position, P[:n], room)

    def stretch(self, form, n, room):
        refusal = self.number(n, room)
        w = b"" if refusal else STREAMS[self.algorithm](self.key, self.position, P[:n])
        print(self.name, form, n, refusal, (w + bytes([0xAA]) * (room - len(w))).hex())
        self.position += len(w)


def carried(name, algorithm):
    state = State(name, algorithm, P[:64])
    for form, n, room in [
        ("carry", 23, 42),
        ("carry", 19, 42),
        ("short", 42, 41),
        ("carry", 0, 0),
        ("carry", 150, 150),
        ("carry", 1, 2),
    ]:
        state.stretch(form, n, room)
    state.position = LIMIT - 42
    state.stretch("moved", 42, 42)
    state.stretch("moved", 1, 1)
    state.stretch("moved", 0, 1)
    state.position = LIMIT + 1
    state.stretch("past", 0, 1)
    state.stretch("past", 1, 1)


def main():
    for name, algorithm in (("salsa20", 2), ("chacha20", 3)):
        for n in range(151):
            stretch(name, "odd", algorithm, 64, 61 * n + 1, n, n + 2)
    forms("salsa20", 2)
    forms("chacha20", 3)
    stretch("none", "other", 0, 64, 0, 42, 42)
    stretch("arcfour", "other", 1, 64, 0, 42, 42)
    stretch("four", "other", 4, 64, LIMIT - 41, 42, 41)
    carried("salsa20", 2)
    carried("chacha20", 3)
    State("none", 0, P[:64]).stretch("closed", 42, 42)
    State("arcfour", 1, P[:64]).stretch("closed", 42, 41)
    State("four", 4, P[:64]).stretch("closed", 0, 0)
    over = b"\x6b" * (LIMIT + 1)
    apply("salsa20", "longest", 2, over[:-1], 0, b"password", 8)
    apply("chacha20", "longest", 3, over[:-1], 0, b"password", 8)
    apply("salsa20", "over", 2, over, 0, b"password", 7)
    apply("chacha20", "over", 3, over, 0, b"password", 7)
    State("salsa20", 2, over).stretch("closed", 42, 42)
    State("four", 4, over).stretch("closed", 42, 42)


main()
