"""The inner header (document 01, "Inner header"; document 02, Item 8: "the inner header's too")."""

from .limits import (
    ABSENT, CUT_SHORT, LENT_TOO_SHORT, PAYLOAD_LIMIT, REPEATED, SIZE, UNLISTED_ALGORITHM, UNLISTED_ID, int32, require,
    within,
)

END, ALGORITHM, KEY, ATTACHMENT = 0, 1, 2, 3
ALGORITHMS = (2, 3)
# "0 end, size 0; 1 algorithm, Int32, 2 or 3; 2 key, any size; 3 attachment: ... size at least 1"
RIGHT_SIZE = {
    END: lambda size: size == 0,
    ALGORITHM: lambda size: size == 4,
    KEY: lambda size: size >= 0,
    ATTACHMENT: lambda size: size >= 1,
}


class InnerHeader:
    """An accepted inner header: spans are [start, length]; `end` is where the end field is."""

    def __init__(self):
        self.end = None
        self.algorithm = None
        self.key_span = None
        self.attachments = []
        self.document = None


def field(data, at, listed, seen):
    """ "The same field order applies": five bytes (2), ID (7), repeated (6), size (5), value present (2). The ID and
    the value's start and end. The places are those of the outer header's fields."""
    require(at + 5 <= len(data), CUT_SHORT, len(data))
    key = data[at]
    require(key in listed, UNLISTED_ID, at)
    require(key not in seen, REPEATED, at)
    size = int32(data, at + 1)
    require(RIGHT_SIZE[key](size), SIZE, at)
    require(at + 5 + size <= len(data), CUT_SHORT, len(data))
    return key, at + 5, at + 5 + size


def read(data):
    """ "The payload's length (1) is checked first." """
    within(len(data), PAYLOAD_LIMIT)
    made = InnerHeader()
    seen = {}  # the place of each field but attachments
    at = 0
    while made.document is None:
        place = at
        key, start, at = field(data, place, RIGHT_SIZE, seen)
        if key == ATTACHMENT:  # "may recur"
            made.attachments.append([start + 1, at - start - 1, data[start]])
            continue
        seen[key] = place
        if key == ALGORITHM:
            made.algorithm = int32(data, start)
        elif key == KEY:
            made.key_span = [start, at - start]
        else:
            made.end = place
            made.document = at  # "The document is the rest, perhaps empty."
    # "with 1 and 2 required and not repeated; 9 follows 8"
    require(ALGORITHM in seen and KEY in seen, ABSENT, made.end)
    require(made.algorithm in ALGORITHMS, UNLISTED_ALGORITHM, seen[ALGORITHM])
    return made


def attachment(data, index):
    """ "Attachments count from 0; an index past the last is 8, after all the reader's numbers." R: "8 for an attachment
    index: the inner end field"."""
    found = read(data)
    require(index < len(found.attachments), ABSENT, found.end)
    return found.attachments[index]


def check_run(run):
    """R: "five bytes (2), ID is 3 (7, for 0, 1 and 2 too), size (5), value present (2)"."""
    at = 0
    while at < len(run):
        _, _, at = field(run, at, (ATTACHMENT,), ())


def written_field(key, value):
    """A field of the inner header."""
    return bytes([key]) + len(value).to_bytes(4, "little") + value


def write(algorithm, key, run, document, lent=None):
    """ "The writer produces 1, 2, attachments in order, 0, then the document." "Order: algorithm (9); each attachment
    by the reader's order (2, 7, 5); payload length (1); 17." """
    require(algorithm in ALGORITHMS, UNLISTED_ALGORITHM)
    check_run(run)
    made = written_field(ALGORITHM, algorithm.to_bytes(4, "little"))
    made += written_field(KEY, key) + run + written_field(END, b"") + document
    within(len(made), PAYLOAD_LIMIT)
    require(lent is None or lent >= len(made), LENT_TOO_SHORT)
    return made
