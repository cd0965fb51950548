"""The two tables of the stand-ins, correctly rounded, by whole-number arithmetic alone.

gain()    A[i], i 0..255: the f64 nearest 2^(i/256)
cosines() C[j], j 0..1920: the f64 nearest cos(j pi / 3840)
"""
from math import isqrt

BITS = 320  # fixed-point places


def gain():
    """A[i] = m / 2^52: m the whole number with (2m-1)^256 < 2^(i + 53*256) < (2m+1)^256."""
    out = []
    for i in range(256):
        root = 1 << (i + 256 * 54)
        for _ in range(8):
            root = isqrt(root)
        m = (root + 2) >> 2  # root is the floor of 2^(i/256 + 54), two places beyond m
        power = 1 << (i + 53 * 256)
        assert i == 0 or (2 * m - 1) ** 256 < power < (2 * m + 1) ** 256, i
        out.append(m / (1 << 52))
    return out


def _arctan_inverse(x):
    total, term, n = 0, (1 << BITS) // x, 1
    while term:
        total += term // n if n % 4 == 1 else -(term // n)
        term //= x * x
        n += 2
    return total


def _pi():
    return 4 * (4 * _arctan_inverse(5) - _arctan_inverse(239))


def _cos(x):
    total, term, n = 0, 1 << BITS, 0
    while term:
        total += term if n % 4 == 0 else -term
        term = (term * x >> BITS) * x >> BITS
        term //= (n + 1) * (n + 2)
        n += 2
    return total


def _nearest(c):
    """The f64 nearest c / 2^BITS; a value too near to a halfway point to tell is refused."""
    low, high = (c - (1 << 60)) / (1 << BITS), (c + (1 << 60)) / (1 << BITS)
    assert low == high, c
    return low


def cosines():
    pi = _pi()
    inner = [_nearest(_cos(j * pi // 3840)) for j in range(1, 1920)]
    return [1.0] + inner + [0.0]


def rust():
    """Both tables as Rust text, by their bits."""
    import struct

    def body(values):
        words = ["0x%016X" % struct.unpack("<Q", struct.pack("<d", v))[0] for v in values]
        return ",\n".join("    " + ", ".join(words[k : k + 4]) for k in range(0, len(words), 4))

    return (
        "pub static A_BITS: [u64; 256] = [\n%s,\n];\n" % body(gain())
        + "pub static C_BITS: [u64; 1921] = [\n%s,\n];\n" % body(cosines())
    )
