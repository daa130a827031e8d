#!/usr/bin/env python3
"""Write the cases of tests/replay:   tools/cases.py FIXTURES

FIXTURES is the folder of vaults that other programs wrote, with its manifest.json and keys/: who does not have it
cannot run this script, and needs only tests/cases/requests and tests/cases/answers, which it writes, one JSON object a
line. No answer comes from the library: cases_headers.py, cases_keys.py, cases_vaults.py, cases_inner.py,
cases_streams.py, cases_argon2.py, cases_limits.py and cases_recut.py say where theirs come from. A request has its
case's name in "case", at which the driver does not look.
"""
import json
import pathlib
import sys

import cases_argon2
import cases_headers
import cases_inner
import cases_keys
import cases_limits
import cases_recut
import cases_streams
import cases_vaults
from case_list import Cases
from vaults import vaults
from vectors_writer import AES_KDF, dictionary


def unanswered(cases):
    """Lines that are no requests."""
    for text in (
        "", "no JSON", "[]", "{}", '{"op": "other"}', '{"op": "dict"}', '{"op": "dict", "data": "0"}',
        '{"op": "dict", "data": "0G"}', '{"op": "dict", "data": 0}', '{"op": "dict", "data": ""', '{"op": "dict",}',
        '{"op": "dict", "data": "", "data": ""}', '{"op": "attachment", "data": "", "index": -1}',
        '{"op": "attachment", "data": "", "index": 18446744073709551616}', '{"op": "hash", "alg": "md5", "parts": []}',
        '{"op": "open", "data": "", "T": "00"}', '{"op": "tag", "key": "\\ud800", "data": ""}',
        '{"op": "helpings", "state": "00", "helpings": []}', '{"op": "stretches", "state": "00", "parts": []}',
        '{"op": "stretches", "alg": 2, "key": "", "parts": ["00", "00"], "lents": [1]}',
    ):
        cases.error(text)
    cases.add("dict", "behind what is no request", 0, data=dictionary())


def main(folder):
    cases = Cases()
    manifest = json.loads((folder / "manifest.json").read_text("utf-8"))
    by_kdf = {True: [], False: []}
    for vault, entry in zip(vaults(folder), manifest, strict=True):
        by_kdf[vault.kdf[b"$UUID"] == AES_KDF].append((vault, entry))
    for group in (cases_headers, cases_keys, cases_vaults, cases_inner):
        group.add_all(cases, by_kdf[True])
    cases_streams.add_all(cases, by_kdf[True] + by_kdf[False])
    cases_argon2.add_all(cases, by_kdf[False])
    unanswered(cases)
    cases_limits.add_all(cases)
    cases_recut.add_all(cases, by_kdf[True])
    tests = pathlib.Path(__file__).parent.parent / "tests" / "cases"
    tests.mkdir(exist_ok=True)
    (tests / "requests").write_text("".join(f"{line}\n" for line in cases.requests))
    (tests / "answers").write_text("".join(f"{line}\n" for line in cases.answers))


if len(sys.argv) != 2:
    sys.exit(__doc__)
main(pathlib.Path(sys.argv[1]))
