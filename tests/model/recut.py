"""The same vault, other cutting (document 02, Item 13)."""

from itertools import accumulate

from . import vault


def ciphertext(data, t):
    """ "an accepted file's ciphertext": its blocks' data, joined. Another file is refused as the whole opener refuses
    it."""
    header, vault_keys, at = vault.start(data, t)
    pieces, end = vault.data_blocks(data, at, vault_keys.tag_base)
    joined = b"".join(pieces)
    vault.closing(data, end, header, vault_keys, joined)
    return joined


def add_up(sizes, length):
    """ "any positive sizes that add up to it". R: "none where there is no ciphertext (ChaCha20's empty payload)"."""
    return all(size > 0 for size in sizes) and sum(sizes) == length


def recut(data, t, sizes):
    """The file whose ciphertext is "cut anew into blocks of any positive sizes that add up to it, tagged by the
    published rule, closed, behind the file's own header, hash and tag"; None where the sizes are no such list. "within
    the file limit" is for the openers to judge."""
    text = ciphertext(data, t)
    if not add_up(sizes, len(text)):
        return None
    _, vault_keys, at = vault.start(data, t)
    contents = [text[end - size : end] for size, end in zip(sizes, accumulate(sizes))]
    blocks = [vault.written_block(vault_keys.tag_base, i, content) for i, content in enumerate(contents + [b""])]
    return data[:at] + b"".join(blocks)
