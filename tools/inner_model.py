"""A model of the inner header, told from documents 01 and 02 (Item 8) for the scripts alone: it shares no code with the
library.

A check that fails raises header_model's Refused with its number and place, in the documents' order.
"""
from header_model import FILE_LIMIT, int32, need

SIZES = (range(1), range(4, 5), range(2**31), range(1, 2**31))


def field_at(s, at, sizes_of):
    """The field at a place: its ID, its value's place and size. `sizes_of` gives the sizes of an ID, or refuses it."""
    need(at + 5 <= len(s), 2, len(s))
    sizes, size = sizes_of(s[at]), int32(s, at + 1)
    need(size in sizes, 5, at)
    need(at + 5 + size <= len(s), 2, len(s))
    return s[at], at + 5, size


def read(s):
    """The algorithm, the key, the attachments as (flags, start, content), the document's place and that behind the
    key."""
    need(len(s) <= FILE_LIMIT, 1)
    once, attachments, at = {}, [], 0

    def listed(id_):
        need(id_ <= 3, 7, at)
        need(id_ not in once, 6, at)
        return SIZES[id_]

    while 0 not in once:
        id_, start, size = field_at(s, at, listed)
        if id_ == 3:
            attachments.append((s[start], start + 1, s[start + 1 : start + size]))
        else:
            once[id_] = (start, size)
        at = start + size
    need({1, 2} <= once.keys(), 8, at - 5)
    start, size = once[1]
    algorithm = int.from_bytes(s[start : start + size], "little")
    need(algorithm in (2, 3), 9, start - 5)
    start, size = once[2]
    return algorithm, s[start : start + size], attachments, at, start + size


def attachment(s, index):
    """An attachment; an index past the last is refused at the end field."""
    _, _, attachments, document, _ = read(s)
    need(index < len(attachments), 8, document - 5)
    return attachments[index]
