"""Key files: the part that each gives (document 02, Item 2), and files of hexadecimal digits with their neighbours."""
import base64
import re

from digests import sha256

LOWER = b"00112233445566778899aabbccddeeff0f1e2d3c4b5a69788796a5b4c3d2e1f0"
MIXED = b"00112233445566778899aAbBCcDdeEFf0f1E2d3C4b5A69788796A5b4C3d2E1f0"
DECIMAL = b"0011223344556677889900112233445566778899001122334455667788990011"

# Those that are decoded, then those that are not: other numbers of digits, and 64 bytes of which one is no digit.
DIGITS = {
    "digits-upper": LOWER.upper(), "digits-lower": LOWER, "digits-mixed": MIXED, "digits-decimal": DECIMAL,
    "digits-32": LOWER[:32], "digits-63": LOWER[:63], "digits-65": LOWER + b"0",
    "digits-64-line-feed": LOWER + b"\n", "digits-63-line-feed": LOWER[:63] + b"\n",
    "first-slash": b"/" + LOWER[1:], "first-G": b"G" + LOWER[1:],
    "middle-at": LOWER[:32] + b"@" + LOWER[33:], "middle-g": LOWER[:32] + b"g" + LOWER[33:],
    "last-colon": LOWER[:63] + b":", "last-grave": LOWER[:63] + b"`",
}


def key_file_part(s):
    """32 bytes as they stand, 64 hexadecimal digits of either case decoded, all else hashed."""
    if len(s) == 32:
        return s
    if re.fullmatch(rb"[0-9A-Fa-f]{64}", s):
        return base64.b16decode(s, casefold=True)
    return sha256(s)
