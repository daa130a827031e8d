#!/usr/bin/env python3
"""Write what crates/vectors_salsa20 reads and must print:   tools/vectors_salsa20.py PUBLISHED

PUBLISHED is a folder of files with published vectors, as these packages of Debian have them (of cl-ironclad and
python3-pycryptodome the binary package, of the others the source package): who does not have it cannot run this
script, and needs only crates/vectors_salsa20/stdin and stdout, which it writes.

    Salsa20Test.php   php-phpseclib3        tests/Unit/Crypt
    test_Salsa20.py   python3-pycryptodome  SelfTest/Cipher
    salsa20-test.c    nettle                testsuite
    salsa20.vec       botan                 src/tests/data/stream
    salsa.txt         libcrypto++           TestVectors
    Salsa.hs          haskell-cryptonite    tests
    Salsa20Test.java  bouncycastle          core/src/test/java/org/bouncycastle/crypto/test
    salsa20.testvec   cl-ironclad           testing/test-vectors

No package has the whole of ECRYPT's verified.test-vectors; each but cl-ironclad has some of those for keys of 256 bits,
which are taken. The name of a stretch is ECRYPT's set and vector, as its key and nonce say, and `-atP` where it starts
at position P. With `ironclad-` or `cryptopp-` before it the package made the vector itself, cryptopp's with ECRYPT's
reference code: the names then say only of which kind the key and the nonce are, or `keystream` where of none. `rule` is
published nowhere: a key and a nonce by rule, at positions up to 2^64 and over it, where block 2^58 follows block
2^58 - 1.

Every stretch is computed by libsodium and by nettle, whose counter is set in its context; where a published byte
differs from one of them, or one from the other, the script stops. The text is zeros, so the result is the stream.
"""
import ctypes
import pathlib
import re
import sys

from messages import pattern
from vaults import text_field

SODIUM = ctypes.CDLL("libsodium.so.23")
NETTLE = ctypes.CDLL("libnettle.so.8")
MOST = 1_024

# Positions by rule, and how many bytes from there.
RULE = (
    *((at, 300) for at in (0, 1, 63, 64, 65, 4_194_303)),
    *((2**38 + d, n) for d, n in ((-1024, 1024), (-100, 300), (-1, 2), (0, 64), (1, 200), (65, 129))),
    *((2**63 + d, n) for d, n in ((-33, 100), (61, 67))),
    *((2**64 - d, n) for d, n in ((1024, 1024), (128, 64), (64, 64), (1, 1))),
    *((2**64 - d, n) for d, n in ((128, 192), (100, 300), (64, 65), (63, 128), (1, 2), (1, 1024))),
)


def sodium(key, nonce, block, n):
    """The stream's bytes from the start of a block on."""
    out = ctypes.create_string_buffer(n)
    SODIUM.crypto_stream_salsa20_xor_ic(out, bytes(n), ctypes.c_ulonglong(n), nonce, ctypes.c_uint64(block), key)
    return out.raw


def nettle(key, nonce, block, n):
    """The same. Of the context's sixteen words 8 and 9 are the counter (salsa20.h)."""
    out, context = ctypes.create_string_buffer(n), (ctypes.c_uint32 * 16)()
    NETTLE.nettle_salsa20_256_set_key(context, key)
    NETTLE.nettle_salsa20_set_nonce(context, nonce)
    context[8], context[9] = block % 2**32, block // 2**32
    NETTLE.nettle_salsa20_crypt(context, ctypes.c_size_t(n), out, bytes(n))
    return out.raw


def computed(name, key, nonce, at, n):
    """Byte p of the stream is byte p mod 64 of block p / 64."""
    one, other = (peer(key, nonce, at // 64, at % 64 + n)[at % 64 :] for peer in (sodium, nettle))
    assert one == other, name
    return one


def sets():
    """The keys and nonces of ECRYPT's sets, with the names of their vectors."""
    zero = bytes(8)
    for v in range(256):
        yield (1 << (255 - v)).to_bytes(32, "big"), zero, f"1-{v}"
        yield bytes([v] * 32), zero, f"2-{v}"
        yield bytes((v + i) % 256 for i in range(32)), zero, f"3-{v}"
    for v in range(64):
        yield bytes(32), (1 << (63 - v)).to_bytes(8, "big"), f"5-{v}"
    for v in range(4):
        key = bytes((83 * i + 5 * v) % 256 for i in range(32))
        yield key, zero, f"4-{v}"
        yield key, bytes((103 * i + 9 * v + 13) % 256 for i in range(8)), f"6-{v}"


NAMES = {(key, nonce): name for key, nonce, name in sets()}


def stretch(key, nonce, at, digits, maker=""):
    """A stretch as it is published, all but the position in hexadecimal."""
    key, nonce = bytes.fromhex(key), bytes.fromhex(nonce)
    assert maker or (key, nonce) in NAMES
    name = maker + NAMES.get((key, nonce), "keystream")
    return name if at == 0 else f"{name}-at{at}", key, nonce, at, bytes.fromhex(digits)


def joined(text):
    """A source with each string in one piece."""
    return re.sub(r"""(["'])\s*[.+]?\s*\n\s*[.+]?\s*\1""", "", text)


def phpseclib(text):
    test = r"'key' => '(\w{64})',\s+'iv' => '(\w+)',\s+'result' => '(\w+)'"
    for key, nonce, digits in re.findall(test, joined(text)):
        yield stretch(key, nonce, 0, digits)


def pycryptodome(text):
    test = r"'(\w+)',\s+'(\w{64})',\s+'256 bits[^']*',\s+dict \(iv='(\w+)'(\*8)?\)"
    for digits, key, nonce, zeros in re.findall(test, joined(text)):
        yield stretch(key, 8 * nonce if zeros else nonce, 0, digits)


def nettle_test(text):
    for kind, arguments in re.findall(r"test_salsa20(_stream|)\((SHEX.*?)\);", joined(text), re.S):
        key, nonce, *rest = (s.replace(" ", "") for s in re.findall(r'SHEX\("([\w ]+)"\)', arguments))
        if len(key) != 64:
            continue
        if kind == "":  # zeros and the result
            yield stretch(key, nonce, 0, rest[1])
        else:  # blocks 0, 3, 4 and 7 of the stream, and the sum of blocks 0 to 7
            yield stretch(key, nonce, 0, rest[0][:128])
            yield stretch(key, nonce, 192, rest[0][128:384])
            yield stretch(key, nonce, 448, rest[0][384:])


def botan(text):
    for case in text.split("\n\n"):
        given = dict(re.findall(r"(\w+) = (\w+)", case))
        if len(given["Key"]) == 64 and len(given["Nonce"]) == 16:
            assert "In" not in given
            yield stretch(given["Key"], given["Nonce"], int(given.get("Seek", "0")), given["Out"])


def cryptopp(text):
    given, maker = {}, ""
    for line in re.sub(r"\s*\\\n\s*", "", text).split("Name: XSalsa20")[0].splitlines():
        name, _, value = line.partition(":")
        repeated = re.fullmatch(r" r(\d+) (\w+)", value)
        given[name] = int(repeated[1]) * repeated[2] if repeated else value.strip()
        maker = "cryptopp-" if line.startswith("Comment: Counter crosses") else maker
        if line == "Test: Encrypt" and len(given["Key"]) == 64 and given.get("Rounds", "20") == "20":
            at = int(given["Seek64"], 16) if maker else int(given["Seek"])
            yield stretch(given["Key"], given["IV"], at, given["Ciphertext"], maker)


def cryptonite(text):
    text = text.replace("\\x", "")
    key6, key3 = re.findall(r'"(\w{64})"', text)
    nonce6 = re.search(r'"(\w{16})"', text)[1]
    for i, (at, digits) in enumerate(re.findall(r'\((\d+), "(\w+)"\)', text)):
        yield stretch(key3, "00" * 8, int(at), digits) if i < 3 else stretch(key6, nonce6, int(at), digits)


def bouncycastle(text):
    text = joined(text)
    strings = dict(re.findall(r'String (\w+) = "(\w+)";', text))
    for key, nonce, results in re.findall(r'decode\("(\w{64})"\)\), \S*decode\("(\w+)"\)\),\s*([\w, ]+)\)', text):
        for result in results.split(", "):
            yield stretch(key, nonce, int(result.split("_")[1]), strings[result])


def ironclad(text):
    for key, nonce, zeros, digits in re.findall(r'mode-test #h"(\w{64})" #h"(\w+)" #h"(\w+)" #h"(\w+)"', text):
        assert not zeros.strip("0")
        yield stretch(key, nonce, 0, digits, "ironclad-")
    for key, nonce, digits in re.findall(r'keystream-test #h"(\w{64})" #h"(\w+)" #h"(\w+)"', text):
        yield stretch(key, nonce, 0, digits, "ironclad-")


FILES = {
    "Salsa20Test.php": phpseclib,
    "test_Salsa20.py": pycryptodome,
    "salsa20-test.c": nettle_test,
    "salsa20.vec": botan,
    "salsa.txt": cryptopp,
    "Salsa.hs": cryptonite,
    "Salsa20Test.java": bouncycastle,
    "salsa20.testvec": ironclad,
}


def stretches(folder):
    """Every stretch, once where packages share it, and its bytes."""
    found = {}
    for file, reader in FILES.items():
        published = list(reader((folder / file).read_text(encoding="utf8")))
        assert published, file
        for name, key, nonce, at, stream in published:
            assert stream == computed(name, key, nonce, at, len(stream)), (file, name)
            found[name, key, nonce, at, len(stream)] = stream
    m = pattern(40)
    for at, n in RULE:
        name = f"rule-at{at}"
        found[name, m[:32], m[32:], at, n] = computed(name, m[:32], m[32:], at, n)
    return found


def main(folder):
    crate = pathlib.Path(__file__).parent.parent / "crates" / "vectors_salsa20"
    table, rows = [], []
    for (name, key, nonce, at, n), stream in stretches(folder).items():
        assert n <= MOST, name
        table.append(f"{name} {text_field(key)} {text_field(nonce)} {at} {n}\n")
        rows.append(f"salsa20 {name} {n} 0 {stream.hex()}\n")
    (crate / "stdin").write_text("".join(table))
    (crate / "stdout").write_text("".join(rows))


if len(sys.argv) != 2:
    sys.exit(__doc__)
main(pathlib.Path(sys.argv[1]))
