"""Item 13 over the library alone: files before a cutting and after it, and wrong cuttings.

This is what `tests/differential --recut` runs. Every other file is written by the library, the rest are made with any
header and any blocks. tests/model cuts them anew; what is due is the library's own answer for the file before. Both
openers have to give the same payload for the file after, in as many steps with room as there are sizes and one more;
steps that are lent too little stand between, and count for nothing. A wrong cutting of the file has to be refused, or
to give another payload, by both openers.
"""

from collections import Counter
from random import Random

from asking import CHUNK, check_chunks, told
from inputs.recuts import WRONG, bytes_due, cutting_of, lents_for, payload_length, some_cutting, wrong_cutting
from inputs.requests import sound_write
from model.limits import AFTER_END, FILE_LIMIT


class File:
    """A file of a seed and an index, before and after its cutting, and a wrong cutting where it has two blocks."""

    def __init__(self, seed, index):
        self.index = index
        self.rng = Random(f"{seed}:recut:{index}")
        self.asked = None  # of the writer
        if index % 2:
            data = self.rng.randbytes(payload_length(self.rng))
            self.asked = {"op": "write", **sound_write(self.rng), "data": data.hex()}

    def cut(self, written):
        """Choose the cuttings. `written` is what the library answers to the writer's request."""
        if self.asked is None:
            cutting = some_cutting(self.rng)
        else:
            data, t, payload = (bytes.fromhex(text) for text in (written["file"], self.asked["T"], self.asked["data"]))
            cutting = cutting_of(self.rng, data, t, self.asked["cipher"], len(payload))
        self.cutting, self.after = cutting, cutting.recut()
        self.lents, self.due = zip(*lents_for(self.rng, cutting))
        self.wrong = None
        if len(cutting.sizes) > 1:
            self.fault, self.numbers = WRONG[self.index // 2 % len(WRONG)]
            wrong = wrong_cutting(self.rng, cutting, self.fault)
            # The front or a neighbour may have the same bytes.
            self.wrong = wrong if wrong != self.after else None

    def requests(self):
        """The file before, the file after with just the room and by steps, the wrong cutting in both ways."""
        made = [
            self.request("open", self.cutting.data),
            self.request("open", self.after, lent=self.cutting.payload),
            self.request("steps", self.after, lents=self.lents),
        ]
        if self.wrong is not None:
            made.append(self.request("open", self.wrong))
            made.append(self.request("steps", self.wrong, lents=[FILE_LIMIT] * (len(self.cutting.sizes) + 2)))
        return made

    def request(self, op, data, **more):
        return {"op": op, "data": data.hex(), "T": self.cutting.t.hex(), **more}

    def differs(self, before, after, steps):
        """What of the answers for the file after is not as due; None where all is."""
        if before["no"] != 0 or before["length"] != self.cutting.payload:
            return "different: the file before is not accepted"
        if after != before:
            return "different: whole"
        # Due is 0 once for each size and once for the closing block.
        if steps["no"] != 0 or [step["no"] for step in steps["steps"]] != list(self.due):
            return "different: the numbers of the steps"
        if [step["count"] for step in steps["steps"] if step["no"] == 0] != bytes_due(self.cutting):
            return "different: how many bytes a step hands over"
        if any("touched" in step for step in steps["steps"]):
            return "different: a byte of a step that is not due"
        if "".join(step["bytes"] for step in steps["steps"]) != before["payload"]:
            return "different: the bytes handed over"
        return None

    def told_apart(self, before, whole, steps):
        """Whether both openers tell the wrong cutting from the file before, and agree."""
        made = steps.get("steps", ())
        refused = next((step["no"] for step in made if step["no"] not in (0, AFTER_END)), steps["no"])
        if whole["no"] not in self.numbers or refused != whole["no"]:
            return False
        return refused != 0 or before.get("payload") != whole["payload"] == "".join(step["bytes"] for step in made)


def check(task):
    """Check one stretch of files: how many, how many in other blocks than before and how many wrong cuttings; what
    differs; which cuttings are not told apart."""
    asking, seed, indexes = task
    files = [File(seed, index) for index in indexes]
    written = iter(asking.answers([file.asked for file in files if file.asked]))
    for file in files:
        file.cut(next(written) if file.asked else None)
    given = iter(asking.answers([request for file in files for request in file.requests()]))
    counts = Counter(checked=len(files), other=sum(file.after != file.cutting.data for file in files))
    different, missed = [], []
    for file in files:
        before, after, steps = next(given), next(given), next(given)
        if fault := file.differs(before, after, steps):
            different.append((file.index, fault))
        if file.wrong is not None:
            counts["wrong"] += 1
            if not file.told_apart(before, next(given), next(given)):
                missed.append((file.index, "not told apart: %s" % file.fault.__name__))
    return counts, different, missed


def check_recut(asking, seed, first, count, jobs):
    """Check files first to count; True where none differs and every wrong cutting is told apart. Of many files some have
    to be in other blocks than before, and some wrong cuttings have to be tried."""
    counts, different, missed = check_chunks(check, "--recut", asking, seed, first, count, jobs)
    print("%d in other blocks than before" % counts["other"])
    print("%d wrong cuttings, %s" % (counts["wrong"], told(missed)))
    print("%d recut, %d different" % (counts["checked"], len(different)))
    enough = counts["checked"] < CHUNK or (counts["other"] and counts["wrong"])
    return bool(enough) and not (different or missed)
