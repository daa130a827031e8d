"""Edited models: each makes one fault that looks right, and the inputs have to tell it from the model.

This is what `tests/differential --mutants` runs: an edited copy of tests/model answers in the driver's place. It shows
that the inputs would find such a fault in the library too. The edits are in mutants.edits, and in mutants-large.edits
those that only the large inputs tell apart: `# fault`, then `file:`, `old:` (text that occurs once) and `new:`. A line
`asked:` behind the file names the operations whose inputs have to tell this one apart, and a line `each:` in its place
those of which each has to by itself. Those in mutants-recut.edits are faults of a cutting (Item 13), not of an opener:
they are asked the model's own operation `recut`, and have to be told apart by what the openers say of the file.
"""

import os
import re
import shutil
import sys
import tempfile
from random import Random

from inputs.borders import BORDERS
from inputs.recuts import request_recut
from inputs.requests import FIXED, request
from model.answers import answer

HERE = os.path.dirname(os.path.abspath(__file__))
CHUNK = 2000
CHUNKS = 8  # a fault that this many chunks do not show is not told apart
BORDER_CHUNK = 4  # they are large, so no more are held at once
RECUT_CHUNK = 250
EDIT = re.compile(
    r"^# ([^\n]*)\nfile: ([^\n]*)\n(?:(asked|each): ([^\n]*)\n)?old:\n(.*)\nnew:\n(.*)\Z", re.DOTALL
)


class Mutant:
    """An edited model in a folder of its own. Where no operations are named, it is asked all."""

    def __init__(self, folder, fault, file, asked, old, new):
        self.folder = folder
        self.fault = fault
        self.asked = asked
        shutil.copytree(os.path.join(HERE, "model"), os.path.join(folder, "model"))
        path = os.path.join(folder, "model", file)
        with open(path) as source:
            text = source.read()
        if text.count(old) != 1:
            raise SystemExit("the text occurs %d times in %s: %s" % (text.count(old), file, old))
        with open(path, "w") as source:
            source.write(text.replace(old, new))

    def told_apart(self, drive, answers_of, chunk):
        """The index of the first input of a chunk that tells it apart, or None."""
        chunk = [one for one in chunk if self.asked is None or one[1]["op"] in self.asked]
        if not chunk:
            return None
        environment = dict(os.environ, PYTHONDONTWRITEBYTECODE="1")
        requests = [one[1] for one in chunk]
        given, failure = answers_of(*drive([sys.executable, "-m", "model"], requests, environment, self.folder))
        for answered, (index, _, expected) in zip(given, chunk):
            if answered != expected:
                return index
        if failure:
            raise SystemExit("the edited model fails: %s" % failure)
        return None


def edits(name):
    """The edits of a file: fault, model's file, operations asked (None: all), old text, new text."""
    with open(os.path.join(HERE, name)) as file:
        parts = file.read().rstrip("\n").split("\n\n# ")
    for part in [parts[0]] + ["# " + part for part in parts[1:]]:
        fault, file, way, ops, old, new = EDIT.match(part).groups()
        if way == "each":
            for op in ops.split(", "):
                yield "%s, %s" % (fault, op), file, [op], old, new
        else:
            yield fault, file, ops and ops.split(", "), old, new


def mutants(folder, name, wanted):
    """The edited models of a file of edits: those with this text in the name of their fault."""
    chosen = [edit for edit in edits(name) if wanted in edit[0]]
    return [Mutant(os.path.join(folder, str(place)), *edit) for place, edit in enumerate(chosen)]


def chunks(seed, first, limit, size):
    """Inputs in chunks: each input's index, its request and the model's answer. A chunk is made when it is asked."""
    for at in range(first, limit, size):
        requests = [(index, request(seed, index)) for index in range(at, min(at + size, limit))]
        yield [(index, one, answer(one)) for index, one in requests]


def shown(mutant, index):
    """Print what told a mutant apart; False where nothing did."""
    if index is not None:
        print("%-60s told apart by input %d" % (mutant.fault, index), flush=True)
    return index is not None


def try_edits(name, wanted, inputs, drive, answers_of):
    """Try each edit of a file: how many are told apart, and how many not."""
    with tempfile.TemporaryDirectory() as folder:
        left = mutants(folder, name, wanted)
        count = len(left)
        for chunk in inputs if left else ():
            left = [mutant for mutant in left if not shown(mutant, mutant.told_apart(drive, answers_of, chunk))]
            if not left:
                break
        for mutant in left:
            print("%-60s NOT TOLD APART" % mutant.fault, flush=True)
    return count - len(left), len(left)


def small_inputs(seed):
    """A chunk of random inputs, the fixed ones but the large, more random ones."""
    first = len(FIXED)
    yield from chunks(seed, first, first + CHUNK, CHUNK)
    yield from chunks(seed, len(BORDERS), first, CHUNK)
    yield from chunks(seed, first + CHUNK, first + CHUNK * CHUNKS, CHUNK)


def recut_inputs(seed):
    """Files to be cut anew, in chunks."""
    for at in range(0, RECUT_CHUNK * CHUNKS, RECUT_CHUNK):
        requests = [(index, request_recut(Random(f"{seed}:recut:{index}"))) for index in range(at, at + RECUT_CHUNK)]
        yield [(index, one, answer(one)) for index, one in requests]


def try_mutants(seed, wanted, drive, answers_of):
    """Try every edit with this text in the name of its fault; True where all are told apart."""
    tried = [
        try_edits(name, wanted, inputs, drive, answers_of)
        for name, inputs in (
            ("mutants.edits", small_inputs(seed)),
            ("mutants-large.edits", chunks(seed, 0, len(BORDERS), BORDER_CHUNK)),
            ("mutants-recut.edits", recut_inputs(seed)),
        )
    ]
    told, missed = (sum(counts) for counts in zip(*tried))
    print("%d told apart, %d not" % (told, missed))
    return missed == 0
