"""Asking the library through the driver, in chunks of cases: what --recut and --cut of tests/differential share."""

import multiprocessing
from collections import Counter

CHUNK = 250  # cases for one start of the driver
SHOWN = 10  # differences shown


class Asking:
    """The library, through the driver."""

    def __init__(self, driver, drive, answers_of):
        self.driver, self.drive, self.answers_of = driver, drive, answers_of

    def answers(self, requests):
        """An answer to each request; a failure of the driver ends the run, and so does what is no request."""
        given, failure = self.answers_of(*self.drive(self.driver, requests))
        if failure or len(given) != len(requests):
            raise RuntimeError(failure or "the driver gave %d answers to %d requests" % (len(given), len(requests)))
        for answered in given:
            if "error" in answered:
                raise RuntimeError("no request: %s" % answered["error"])
        return given


def check_chunks(check, flag, asking, seed, first, count, jobs):
    """Check cases first to count, some at a time: `check` gives of a stretch what it counts, what differs and what is
    not told apart, the last two as indexes with words. Prints the first of these, and gives all."""
    tasks = ((asking, seed, range(at, min(at + CHUNK, count))) for at in range(first, count, CHUNK))
    counts, different, missed = Counter(), [], []
    with multiprocessing.Pool(jobs) as pool:
        for counted, found, left in pool.imap(check, tasks):
            counts += counted
            different += found
            missed += left
    for index, fault in (different + missed)[:SHOWN]:
        print("--seed %d %s --only %d: %s" % (seed, flag, index, fault))
    return counts, different, missed


def told(missed):
    """How a list of what is not told apart reads."""
    return "%d not told apart" % len(missed) if missed else "all told apart"
