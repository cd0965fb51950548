"""Spectra on which one cosine's last bit shows.

Two bins, the others 0: the sum at one output lies exactly halfway between two f32, or one f64 step
beside it, so that the next f64 above or below in the table gives another f32."""
import math
import struct
from fractions import Fraction

import tables
import words as w


GAINS = tables.gain()


def to_f32(x):
    return struct.unpack("<f", struct.pack("<f", x))[0]


def fold(j):
    """The table's entry for an angle index, and the cosine's sign."""
    j %= 7680
    if j > 3840:
        j = 7680 - j
    return (j, 1) if j <= 1920 else (3840 - j, -1)


def gain(energy, mean):
    """The band gain of two f32, as document 01 has it."""
    x = to_f32(energy + mean)
    if x <= -150:
        return 0.0
    k = math.floor(256 * x)
    y = (x - k / 256) * math.log(2)
    p = 1 + y * (1 + y * (0.5 + y * (1 / 6)))
    return to_f32(GAINS[k % 256] * p * 2.0 ** (k // 256))


def drawn(seed, count):
    """A band of so many draws, scaled to energy 1, and the seed after them."""
    values = []
    for _ in range(count):
        seed = (seed * 1664525 + 1013904223) % 2**32
        values.append((seed - (seed >> 31 << 32)) >> 20)
    scale = to_f32(1 / to_f32(math.sqrt(to_f32(1e-15 + sum(v * v for v in values)))))
    return [to_f32(v * scale) for v in values], seed


class Halfway:
    def __init__(self):
        self.c = tables.cosines()
        self.bins = {}

    def bins_at(self, n, t):
        """At output t: which bin reads each table entry."""
        if (n, t) not in self.bins:
            angles = (fold((2 * t + 1 + n) * (2 * k + 1) * (960 // n)) for k in range(n))
            self.bins[n, t] = {entry: (k, sign) for k, (entry, sign) in enumerate(angles)}
        return self.bins[n, t]

    def entries(self, n):
        """The entries that a transform of size n reads."""
        step = 960 // n
        return range(step, 1920, 2 * step)

    def spectrum(self, rng, n, entry, up):
        """A spectrum that tells entry from the f64 next above (or below) it."""
        t = rng.choice([t for t in range(8) if math.gcd(2 * t + 1 + n, 15) == 1])
        where = self.bins_at(n, t)
        other = rng.choice([j for j in self.entries(n) if j != entry and j < 1800])
        (k, sign), (k2, sign2) = where[entry], where[other]
        near = math.nextafter(self.c[entry], 2 if up else -2)
        for _ in range(400):
            x = rng.uniform(1, 2) * rng.choice([1, -1])
            x = to_f32(x)
            first = x * (sign * self.c[entry])
            unit = 2.0 ** (math.frexp(first)[1] - 25)  # half the spacing of f32 there
            target = (2 * math.floor(first / unit / 2) + 1) * unit
            y = to_f32((target - first) / (sign2 * self.c[other]))
            sums = []
            for c in (self.c[entry], near):
                terms = sorted([(k, x * (sign * c)), (k2, y * (sign2 * self.c[other]))])
                sums.append(to_f32(0.5 * (terms[0][1] + terms[1][1])))
            if sums[0] != sums[1]:
                out = [0.0] * n
                out[k], out[k2] = x, y
                return w.float_words(out)
        return None

    def cancelling(self, rng, n):
        """Two large terms that cancel at one output, and a small one behind them: summed the other
        way round the small one is rounded at their size."""
        t = rng.choice([t for t in range(2 * n) if (2 * t + 1 + n) % 15 == 0])
        first = rng.randrange(n // 4)
        entry, sign = fold((2 * t + 1 + n) * (2 * first + 1) * (960 // n))
        for second in range(first + 1, n - 1):
            other, turned = fold((2 * t + 1 + n) * (2 * second + 1) * (960 // n))
            if other == entry:
                break
        out = [0.0] * n
        out[first] = rng.choice([1e11, 1e12, 1e13])
        out[second] = -out[first] * sign * turned
        out[rng.randrange(second + 1, n)] = rng.uniform(1, 2)
        return out

    def zero_sum(self, rng, n):
        """Two or four bins of one size that cancel by pairs at some outputs, where the sum is exactly
        zero. The other bins are zeros of either sign."""
        t = rng.choice([t for t in range(n // 2) if (2 * t + 1 + n) % 15 == 0])
        angles = [fold((2 * t + 1 + n) * (2 * k + 1) * (960 // n)) for k in range(n)]
        entry, _ = rng.choice(angles)
        like = [k for k in range(n) if angles[k][0] == entry]
        size = rng.choice([1, -1]) * 10 ** rng.uniform(-40, 38)
        out = [rng.choice([0.0, -0.0]) for _ in range(n)]
        for turn, k in enumerate(sorted(rng.sample(like, rng.choice([2, 2, 4])))):
            out[k] = size * angles[k][1] * (-1) ** turn
        return out

    def near_zero(self, rng, n):
        """Two bins that all but cancel at one output of the first half: the sum is not zero, but its half
        is too small for an f32, so that the output and its mirror are zeros of unlike sign."""
        while True:
            t = rng.randrange(n // 2)
            first, second = sorted(rng.sample(range(n), 2))
            (j, sign), (j2, sign2) = (fold((2 * t + 1 + n) * (2 * k + 1) * (960 // n)) for k in (first, second))
            share = (Fraction(self.c[j]) / Fraction(self.c[j2])).limit_denominator(2**23)
            unit = rng.choice([1, -1]) * 2.0 ** rng.randint(-149, -126)
            out = [0.0] * n
            out[first] = share.denominator * unit
            out[second] = -share.numerator * unit * sign * sign2
            total = out[first] * (sign * self.c[j]) + out[second] * (sign2 * self.c[j2])
            if total != 0 and to_f32(0.5 * total) == 0 and share.numerator < 2**24:
                return out

    def noise_loss(self, rng, lm, entry, up):
        """A seed and the energies of bands 0 and 1 with which a noise loss of these two alone tells one
        cosine from the f64 next above (or below): at one output the first band's sum, and the second's, much smaller, lie
        next to a halfway point of f32."""
        wrong = math.nextafter(self.c[entry], 2 if up else -2)
        m, n = 1 << lm, 120 << lm
        first = (n - 120) // 2
        places = [(t, k) for t in range(first, first + n + 120) for k in range(m)
                  if fold((2 * t + 1 + n) * (2 * k + 1) * (960 // n))[0] == entry]
        while True:
            t, _ = rng.choice(places)
            seed = rng.getrandbits(32)
            one, after = drawn(seed, m)
            other, _ = drawn(after, m)
            angles = [fold((2 * t + 1 + n) * (2 * k + 1) * (960 // n)) for k in range(2 * m)]
            right = [sign * self.c[j] for j, sign in angles]
            turned = [sign * (wrong if j == entry else self.c[j]) for j, sign in angles]
            energy = to_f32(rng.uniform(2, 4))
            loud = [to_f32(x * gain(energy, w.MEANS[0])) for x in one]
            begun = sum(map(float.__mul__, loud, right))
            unit = 2.0 ** (math.frexp(begun)[1] - 25)
            short = (2 * math.floor(begun / unit / 2) + 1) * unit - begun
            share = short / (sum(map(float.__mul__, other, right[m:])) or 1)
            if share <= 0:
                continue
            faint = to_f32(math.log2(share) - w.MEANS[1])
            spectrum = loud + [to_f32(x * gain(faint, w.MEANS[1])) for x in other]
            sums = [to_f32(0.5 * sum(map(float.__mul__, spectrum, c))) for c in (right, turned)]
            if sums[0] != sums[1]:
                return seed, w.bits(energy), w.bits(faint)
