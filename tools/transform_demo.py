#!/usr/bin/env python3
"""Write what crates/transform_demo must print:   tools/transform_demo.py > crates/transform_demo/stdout

The rounds are done by the Python package cryptography, which is OpenSSL, and the hash by Python 3's hashlib, as in
vectors_kdf.py.
"""
from messages import pattern, random
from vectors_kdf import LIMIT, transformed

STEP = 40_000

for done in range(STEP, LIMIT + 1, STEP):
    print(f"{done} of {LIMIT} rounds, {100 * done // LIMIT} %")
_, seed = random(0, 32)
print("transformed", "demo", LIMIT, 0, transformed(pattern(32), seed, LIMIT).hex())
