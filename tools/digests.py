"""What the scripts share: hashes of parts joined, by Python's hashlib, and what a script expects of itself."""
import hashlib
import sys


def must(condition, what):
    """For what a script expects of itself and of the vaults."""
    if not condition:
        sys.exit(f"not as expected: {what}")


def sha256(*parts):
    return hashlib.sha256(b"".join(parts)).digest()


def sha512(*parts):
    return hashlib.sha512(b"".join(parts)).digest()
