"""The messages by rule of crates/vectors/src, told anew for the scripts."""


def pattern(n):
    """The message by rule: byte i is (37 i + 11) mod 251."""
    return bytes((37 * i + 11) % 251 for i in range(n))


def random(x, n):
    """The pseudo-random bytes by rule, and the generator's state behind them."""
    out = []
    for _ in range(n):
        x = (1_664_525 * x + 1_013_904_223) % 2**32
        out.append(x >> 24)
    return x, bytes(out)
