"""Words and float values that the generators draw from; every draw is seeded."""
import math
import struct
from array import array
from random import Random

NANS = [0x7FC00000, 0xFFC00000, 0x7F800001, 0xFF800001, 0x7FFFFFFF, 0xFFFFFFFF, 0x7FA5A5A5]
INFINITIES = [0x7F800000, 0xFF800000]
HUGE = [0x7F7FFFFF, 0xFF7FFFFF, 0x7F000000, 0xFE967699, 0x5F800000, 0xDF000000]
TINY = [0x00000001, 0x80000001, 0x007FFFFF, 0x807FFFFF, 0x00800000, 0x80800000, 0x0C000000]
ZEROS = [0x00000000, 0x80000000]
# The mean energies of the bands; past the last they stay at 3.75.
MEANS = [6.4375, 6.25, 5.75, 5.3125, 5.0625, 4.8125, 4.5, 4.375, 4.875, 4.6875, 4.5625, 4.4375,
         4.875, 4.625, 4.3125, 4.5, 4.375, 4.625, 4.75, 4.4375, 3.75, 3.75, 3.75, 3.75, 3.75]
HOSTILE = NANS + INFINITIES + HUGE + TINY + ZEROS


def bits(x):
    """The word of the f32 nearest x."""
    return struct.unpack("<I", struct.pack("<f", x))[0]


def value(word):
    return struct.unpack("<f", struct.pack("<I", word))[0]


def long_bits(x):
    """Low and high word of an f64."""
    return struct.unpack("<II", struct.pack("<d", x))


def float_words(values):
    """The words of many floats."""
    return array("I", array("f", values).tobytes())


def mixed(a, b, share):
    """The words of 1 - share of one signal and share of another."""
    one, other = (array("f", x.tobytes()) for x in (a, b))
    return float_words([(1 - share) * x + share * y for x, y in zip(one, other)])


def random_words(rng, count):
    return array("I", rng.randbytes(4 * count))


def f32_edges():
    """Around every power of two, the subnormals, the infinities, NaN: both signs."""
    out = []
    for exponent in range(256):
        for fraction in (0, 1, 2, 0x3FFFFF, 0x400000, 0x400001, 0x7FFFFE, 0x7FFFFF):
            out.append(exponent << 23 | fraction)
    out += [3, 5, 0x2AAAAA, 0x555555]
    return out + [w | 0x80000000 for w in out]


class Sounds:
    """Sound of a few kinds, 4,400 samples each, made once: words of f32 at the decoder's scale."""

    LENGTH = 4400

    def __init__(self, seed):
        rng = Random(seed)
        self.kinds = {
            "tone": [self._tone(rng) for _ in range(16)],
            "voice": [self._voice(rng) for _ in range(12)],
            "drum": [self._drum(rng) for _ in range(10)],
            "noise": [self._noise(rng) for _ in range(8)],
            "hiss": [self._hiss(rng) for _ in range(10)],
            "silence": self._silence(rng),
        }
        self.tied = [self._tied(rng) for _ in range(24)]
        self.swelling = [self._swelling(rng) for _ in range(12)]

    def part(self, rng, kind, count):
        whole = rng.choice(self.kinds[kind])
        at = rng.randrange(self.LENGTH - count + 1)
        return whole[at : at + count]

    def _make(self, f):
        return float_words([f(t) for t in range(self.LENGTH)])

    def _tone(self, rng):
        steps = [rng.uniform(0.01, 0.6) for _ in range(rng.randint(1, 3))]
        level = 10 ** rng.uniform(0, 4.4)
        noise = rng.choice([0, 0.001, 0.05])
        return self._make(lambda t: level * (sum(math.sin(s * t) for s in steps)
                                             + noise * rng.gauss(0, 1)))

    def _voice(self, rng):
        """Pulses of one period through a decaying resonance."""
        period, step = rng.randint(60, 800), rng.uniform(0.02, 0.5)
        fall, level = rng.uniform(0.97, 0.999), 10 ** rng.uniform(1, 4.3)
        drift = rng.choice([1, 1, 1.0003, 0.9995])
        return self._make(lambda t: level * drift**t * fall ** (t % period)
                          * math.sin(step * (t % period)) + rng.gauss(0, level * 0.002))

    def _drum(self, rng):
        beat, step = rng.randint(500, 3000), rng.uniform(0.005, 0.06)
        fall, level = rng.uniform(0.98, 0.999), 10 ** rng.uniform(2, 4.5)
        return self._make(lambda t: level * fall ** (t % beat)
                          * (math.sin(step * (t % beat)) + 0.5 * rng.gauss(0, 1)))

    def _noise(self, rng):
        level = 10 ** rng.uniform(-3, 4.5)
        return self._make(lambda t: rng.gauss(0, level))

    def _hiss(self, rng):
        """Noise through a high resonance: neighbouring lags of unlike sign."""
        step, fall, level = rng.uniform(0.6, 1.57), rng.uniform(0.8, 0.99), 10 ** rng.uniform(0, 4)
        a, b = 2 * fall * math.cos(step), -fall * fall
        out = [0.0, 0.0]
        for _ in range(self.LENGTH):
            out.append(a * out[-1] + b * out[-2] + rng.gauss(0, level))
        return float_words(out[2:])

    def _silence(self, rng):
        out = [array("I", [0]) * self.LENGTH, array("I", [0x80000000]) * self.LENGTH]
        for level in (1e-6, 1e-21, 1e-24):
            out.append(self._make(lambda t: rng.gauss(0, level)))
        out.append(array("I", [rng.randrange(1, 1000) for _ in range(self.LENGTH)]))
        return out

    def _tied(self, rng):
        """Short periods in small whole numbers, or a few like pulses: lags that (nearly) tie."""
        period = rng.choice([rng.randint(20, 130), rng.randint(100, 360)])
        cycle = [rng.randint(-8, 8) for _ in range(period)]
        if rng.random() < 0.4:
            cycle = [0] * period
            cycle[0] = rng.choice([1, 1000, 30000])
        spoil = rng.choice([0, 0, 1e-4, 0.3])
        return self._make(lambda t: cycle[t % period] + rng.gauss(0, spoil) if spoil
                          else cycle[t % period])

    def _swelling(self, rng):
        """Grows or falls from cycle to cycle."""
        period, rate = rng.randint(90, 740), rng.choice([0.97, 0.985, 0.995, 0.999, 1.0005, 1.001, 1.004])
        cycle = [rng.gauss(0, 1) for _ in range(period)]
        return self._make(lambda t: cycle[t % period] * rate ** (t - 2048) * 100)


def stable_predictor(rng, reach):
    """24 coefficients built from reflection coefficients within +-reach."""
    lpc = []
    for i in range(24):
        r = rng.uniform(-reach, reach) / (1 + 0.4 * i)
        lpc = [a + r * b for a, b in zip(lpc, reversed(lpc))] + [r]
    return lpc
