"""Cases of vaults whose ciphertext is cut into other blocks (document 02, Item 13), and of wrong cuttings.

Vaults are made by cases_vaults.py, and cut there. Those of other programs keep their header, hash and tag; their blocks
are cut anew by vectors_vault.py. The payload of each is what it was before, and what each step hands over is told by
document 01's count.
"""
from itertools import cycle

from case_list import LARGE, NAMES, T
from cases_vaults import block, ciphertext, front, no_step, sealed, step, steps_of
from messages import pattern
from payloads import ciphertext_of, payload_of
from vectors_vault import Keys, blocks
from vectors_writer import AES, CHACHA20

# By name: the payload's length, and the sizes in turn. The last block has what is left.
CUTTINGS = {
    "at 1,000 bytes": (2_500, (1_000,)),
    "in single bytes": (31, (1,)),
    "at 5 and 27 bytes": (100, (5, 27)),
}
OTHERS = ("xc-custom-aes", "py-v40-chacha-aeskdf-kf32")


def adding_up(turn, length):
    """Sizes in turn that add up to a length."""
    sizes, endless = [], cycle(turn)
    while left := length - sum(sizes):
        sizes.append(min(left, next(endless)))
    return sizes


def opened_both_ways(cases, name, file, t, cipher, payload, sizes):
    """A vault in blocks of these sizes, whole with just the room, and by steps, one of them behind the end."""
    cases.add("open", name, {"length": len(payload), "payload": payload}, data=file, T=t, lent=len(payload))
    told = [*steps_of(cipher, payload, [*sizes, 0]), no_step(19)]
    cases.add("steps", name, {"steps": told}, data=file, T=t, lents=[LARGE] * len(told))


def made(cases):
    for cipher, name in NAMES.items():
        for cut, (n, turn) in CUTTINGS.items():
            payload, text = pattern(n), ciphertext(cipher, pattern(n))
            sizes = adding_up(turn, len(text))
            opened_both_ways(cases, f"{name} cut {cut}", sealed(cipher, text, *sizes), T, cipher, payload, sizes)


def of_other_programs(cases, entries):
    for vault, _ in entries:
        if vault.name in OTHERS:
            cipher, text = vault.fields[2], ciphertext_of(vault)
            sizes = adding_up((1_000,), len(text))
            keys = Keys(cipher, vault.fields[7], vault.master_seed, vault.t)
            file = vault.file[: len(vault.header) + 64] + blocks(keys, text, sizes)
            name = f"{vault.name} cut at 1,000 bytes"
            opened_both_ways(cases, name, file, vault.t, cipher, payload_of(vault), sizes)


def wrong(cases):
    """Wrong cuttings of 20 bytes into 10 and 10, and of 31 of AES's 32 bytes."""
    payload, text = pattern(20), ciphertext(CHACHA20, pattern(20))
    a, b = text[:10], text[10:]
    first, ahead = step(payload[:10]), front(CHACHA20)
    # The cipher is its own inverse.
    again = ciphertext(CHACHA20, a + a)
    for name, file, answer, steps in (
        ("its numbers stand still", block(0, a) + block(0, b) + block(0), 14, [first, no_step(14), no_step(19)]),
        ("a size of zero", block(0, a) + block(1) + block(2, b) + block(3), 15, [first, no_step(15), no_step(19)]),
        ("its closing block has number 0", block(0, a) + block(1, b) + block(0), 14,
         [first, step(payload[10:]), no_step(14)]),
        ("its front again", block(0, a) + block(1, a) + block(2), {"length": 20, "payload": again},
         [first, step(again[10:]), step(b"")]),
        ("sizes that fall short", block(0, a) + block(1), {"length": 10, "payload": payload[:10]},
         [first, step(b""), no_step(19)]),
    ):
        cases.add("open", f"wrong cutting: {name}", answer, data=ahead + file, T=T)
        cases.add("steps", f"wrong cutting: {name}", {"steps": steps}, data=ahead + file, T=T, lents=[99] * 3)
    short = sealed(AES, ciphertext(AES, payload)[:-1], 10, 21)
    steps = [step(b""), step(payload[:16]), no_step(16)]
    cases.add("open", "wrong cutting: AES sizes that fall short", 16, data=short, T=T)
    cases.add("steps", "wrong cutting: AES sizes that fall short", {"steps": steps}, data=short, T=T, lents=[99] * 3)


def add_all(cases, entries):
    made(cases)
    of_other_programs(cases, entries)
    wrong(cases)
