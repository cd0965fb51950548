"""Cases of each op by family, seeded and repeatable: (op, family, words)."""
import math
from array import array
from random import Random

import kept
import states as st
import words as w
from ops import GROUPS, OPS


def unlike_zeros(x, y):
    return (x | y) & 0x7FFFFFFF == 0 and x != y


class Cases:
    """`few` is the number of cases of a heavy op and family, `many` of a light one."""

    series = {}  # by op: how many cases one turn of its series has

    def __init__(self, seed, few, many, states=None):
        self.seed, self.few, self.many = seed, few, many
        self.states = states or st.States(1)
        self.sounds, self.halfway = self.states.sounds, self.states.halfway
        self.last = (None, None)

    def group(self, name):
        """All cases of a group of ops as (op, family, words)."""
        for op in OPS:
            if OPS[op].group == name:
                for family, body in self.op(op):
                    assert len(body) == OPS[op].words_in, (op, family, len(body))
                    yield op, family, body
                for k in kept.CASES.get(op, []):
                    yield op, "kept", self.kept(op, k)

    def kept(self, op, k):
        """The k-th case of a further series, one of each family in turn: a hunt goes along it."""
        if op not in self.series:
            self.series[op] = len(self.turn(op, 0))
        turn, at = divmod(k, self.series[op])
        return self.turn(op, turn)[at][1]

    def turn(self, op, turn):
        if self.last[0] != (op, turn):
            cases = list(Cases(f"kept {turn}", 1, 0, self.states).op(op))
            self.last = ((op, turn), cases)
        return self.last[1]

    def op(self, op):
        rng = Random(f"{self.seed} {op}")
        return getattr(self, OPS[op].group)(op, rng)

    # Float helpers.
    def floats(self, op, rng):
        for body in self.float_edges(op, rng):
            yield "edges", body
        for _ in range(self.many):
            body = [rng.getrandbits(32) for _ in range(OPS[op].words_in)]
            if op == 104 and rng.random() < 0.7:
                body[1] = body[1] & 0x800FFFFF | rng.randint(0x368, 0x480) << 20
            if op > 102 or not unlike_zeros(*body):
                yield "random", body

    def float_edges(self, op, rng):
        edges = w.f32_edges()
        if op in (103, 105, 106):
            yield from ([x] for x in edges)
            if op == 103:
                yield from ([x] for x in self.squares(rng))
        elif op == 107:
            yield from ([k << 20 | low] for k in range(0, 4096, 13) for low in (0, 0xFFFFF))
            yield from ([x] for x in (0, 0x7FF00000, 0x7FFFFFFF, 0x80000000, 0xFFFFFFFF))
        elif op == 108:
            ends = [0, 1, 2, 0xFFFF, 0x10000, 0x7FFFFFFF, 0x80000000, 0xFFFFFFFF, 1664525]
            yield from ([a, b] for a in ends for b in ends)
        elif op == 104:
            yield from ([*x] for x in self.double_edges())
        else:
            few = w.HOSTILE + [0x3F800000, 0xBF800000, 0x3F800001, 0x42000000, 0xC2000000]
            yield from ([a, b] for a in few for b in few if not unlike_zeros(a, b))

    def squares(self, rng):
        """Squares of 24-bit numbers and their neighbours, at even and odd exponents."""
        for _ in range(60):
            root = w.value(rng.randrange(0x3F800000, 0x40800000))
            near = w.bits(root * root)
            for step in (-1, 0, 1):
                yield near + step + rng.choice([0, 1 << 23, 40 << 23, -(50 << 23)])

    def double_edges(self):
        """Each f32 exponent: a few values, their halfway points and the neighbours of those."""
        out = []
        for exponent in [*range(-152, -124), *range(-120, 120, 17), *range(124, 131)]:
            for fraction in (0, 1, 2, 0x7FFFFF, 0x2AAAAB):
                # The spacing of f32 at this exponent; below -126 it stays that of subnormals.
                unit = 2.0 ** (max(exponent, -126) - 23)
                near = (1 + fraction * 2.0**-23) * 2.0**exponent
                near = round(near / unit) * unit
                for x in (near, near + unit / 2):
                    low, high = w.long_bits(x)
                    whole = high << 32 | low
                    for step in (-1, 0, 1):
                        if whole + step >= 0:
                            out.append((whole + step & 0xFFFFFFFF, whole + step >> 32))
        ends = [0, 1, 0x000FFFFFFFFFFFFF, 0x0010000000000000, 0x7FEFFFFFFFFFFFFF,
                0x7FF0000000000000, 0x7FF0000000000001, 0x7FF8000000000000, 0x7FFFFFFFFFFFFFFF]
        out += [(x & 0xFFFFFFFF, x >> 32) for x in ends]
        return out + [(low, high | 0x80000000) for low, high in out]

    # Signals of a given length, by family.
    def signals(self, rng, count, few=None):
        few = self.few if few is None else few
        for kind in self.sounds.kinds:
            for _ in range(few):
                yield kind, self.sounds.part(rng, kind, count)
        for name, pool in (("near ties", self.sounds.tied), ("swelling", self.sounds.swelling)):
            for _ in range(few):
                whole = rng.choice(pool)
                at = rng.randrange(len(whole) - count + 1)
                yield name, whole[at : at + count]
        for _ in range(few):
            x = array("I", bytes(4 * count))
            for _ in range(rng.choice([1, 1, 2, 3])):
                x[rng.randrange(count)] = w.bits(rng.choice([1, -1, 1e-20, 20000, 1e19]))
            yield "pulses", x
        for _ in range(few):
            top = rng.choice([1e17, 5e17, 1.8e18, 1e19, 1e30, 3e38])
            x = [top * rng.uniform(0.2, 1) * (-1) ** i for i in range(count)]
            yield "overflow", w.float_words(x)
        for n in range(few):
            x = self.sounds.part(rng, rng.choice(list(self.sounds.kinds)), count)
            if n % 8 == 0:
                x = array("I", [rng.choice(w.HOSTILE)]) * count
            for _ in range(rng.choice([1, 2, 20, count])):
                x[rng.randrange(count)] = rng.choice(w.HOSTILE)
            yield "hostile words", x
        for _ in range(few):
            yield "random words", w.random_words(rng, count)
        yield "zeros", array("I", w.ZEROS * (count // 2))
        for _ in range(few):
            yield "zeros", self.states.zero_words(rng, count)

    def coefficients(self, rng, count):
        draw = rng.random()
        if draw < 0.6:
            values = w.stable_predictor(rng, rng.choice([0.5, 0.9, 0.99]))[:count]
            return w.float_words(values)
        if draw < 0.7:
            return array("I", bytes(4 * count))
        if draw < 0.85:
            return w.float_words([rng.gauss(0, 1) for _ in range(count)])
        if draw < 0.95:
            return array("I", [rng.choice(w.HOSTILE) if rng.random() < 0.2 else
                               w.bits(rng.gauss(0, 0.1)) for _ in range(count)])
        return w.random_words(rng, count)

    # plc.rs.
    def filters(self, op, rng):
        if op == 201:
            yield from self.signals(rng, 1024)
        elif op == 202:
            for family, x in self.signals(rng, 1024):
                if rng.random() < 0.7:
                    window = w.float_words([((i + 0.5) / 120) ** 0.5 for i in range(120)])
                else:
                    window = w.float_words([rng.gauss(0, 1) for _ in range(120)])
                yield family, x + window
        elif op in (203, 204):
            yield from self.correlations(rng, OPS[op].words_in)
        elif op == 208:
            for family, x in self.signals(rng, 1200):
                n = rng.choice([360, 480, 720, 1200])
                x = x[:n] + array("I", bytes(4 * (1200 - n)))
                mem = self.sounds.part(rng, "voice", 24)
                yield family, array("I", [n]) + x + self.coefficients(rng, 24) + mem
        else:
            order = {205: 24, 206: 4, 207: 1}[op]
            for family, x in self.signals(rng, 1024):
                num = self.coefficients(rng, order)
                if order == 1 and rng.random() < 0.7:
                    num = array("I", [0x3F4CCCCD])
                yield family, x + num + self.sounds.part(rng, "tone", order)

    def correlations(self, rng, count):
        """True correlations of short sounds, and words that only look like them."""
        for _ in range(self.few * 10):
            x = [w.value(v) for v in self.sounds.part(rng, rng.choice(["tone", "voice", "noise"]), 90)]
            lags = [sum(a * b for a, b in zip(x[k:], x)) for k in range(count)]
            lags[0] = lags[0] * rng.choice([1, 1.0001]) + 10
            yield "sound", w.float_words(lags)
        for _ in range(self.few * 4):
            lags = [rng.uniform(-1, 1) / (1 + k) for k in range(count)]
            lags[0] = rng.choice([1, 1, 2, 0.5])
            yield "random walk", w.float_words(lags)
        for stop in kept.STOPS:
            yield "early stop", array("I", stop + [0] * (count - 5))
        for _ in range(self.few * 5):
            yield "early stop", w.float_words(self.at_the_stop(rng, count))
        for first in (0x3F800000, 0xBF800000, *w.ZEROS):
            for rest in w.ZEROS:
                yield "zeros", array("I", [first] + [rest] * (count - 1))
        for _ in range(self.few * 2):
            lags = array("I", [rng.choice(w.HOSTILE) if rng.random() < 0.3 else
                               w.bits(rng.gauss(0, 1)) for _ in range(count)])
            lags[0] = rng.choice([0, 0x80000000, 0x7FC00000, 0x7F800000, 0x3F800000, lags[0]])
            yield "hostile words", lags
        for _ in range(self.few * 2):
            yield "random words", w.random_words(rng, count)

    def at_the_stop(self, rng, count):
        """Correlations whose error after two steps is a thousandth of the first, as nearly as f32
        can tell, or a little more or less."""
        first = rng.uniform(1, 2) * 2.0 ** rng.randint(-8, 30)
        r1 = rng.uniform(0.98, 0.99) * rng.choice([1, -1])
        error = first * (1 - r1 * r1)
        share = 0.001 * (1 + rng.choice([1e-4, 1e-2]) * rng.uniform(-1, 1))
        r2 = math.sqrt(1 - share / (1 - r1 * r1)) * rng.choice([1, -1])
        lags = [first, -r1 * first]
        lags.append(-r2 * error - r1 * lags[1])
        return lags + [rng.uniform(-0.5, 0.5) * first for _ in range(count - 3)]

    def search(self, op, rng):
        if op in (303, 304):
            yield from self.sweeps(op, rng)
            return
        count = OPS[op].words_in
        if op == 305:
            yield from self.signals(rng, 1024, 3 * self.few)
            yield from self.refinements()
        elif count == 2048:
            yield from self.signals(rng, 2048)
            yield from self.known_periods(rng, 2048)
        else:
            for family, x in self.signals(rng, 2048):
                other = rng.choice(list(self.sounds.kinds))
                y = rng.choice([x, self.sounds.part(rng, other, 2048), array("I", bytes(8192))])
                yield family, rng.choice([x + y, y + x])

    def refinements(self):
        """One sample at the window's front reads the history off into the correlations: neighbours
        of the best below -1, both infinite, and one of them NaN."""
        large = 1e30
        for best in (2, 100, 306):
            for read in (
                {best - 1: -1.5, best: 1.2, best + 1: 0.45},
                {best: 5, 370: large, best + 9: large, best + 11: large},
                {best: 5, best + 1: 3.5, 370: large, 760: large, best + 9: large, best + 399: -large},
            ):
                y = [0.0] * 1024
                for at, value in {360: 1, **read}.items():
                    y[at] = value
                yield "refinement", w.float_words(y)

    def known_periods(self, rng, count):
        for _ in range(2 * self.few):
            period = rng.randint(102, 720)
            cycle = [rng.gauss(0, 1000) for _ in range(period)]
            yield "known period", w.float_words([cycle[t % period] for t in range(count)])

    def sweeps(self, op, rng):
        """Correlations and samples for the tracker: ties, falling and rising rows, hostile."""
        top, y_len = (155, 487) if op == 303 else (310, 1024)
        for _ in range(6 * self.few):
            x = [rng.gauss(0, 1) for _ in range(top)]
            y = [rng.gauss(0, rng.choice([0.01, 1, 100])) for _ in range(y_len)]
            yield "random", w.float_words(x + y)
        for _ in range(6 * self.few):
            # Few levels, energy mostly level: exact ties.
            x = [rng.choice([-1, 0, 1, 2, 2, 3]) for _ in range(top)]
            y = [rng.choice([0, 0, 0, 1]) for _ in range(y_len)]
            yield "ties", w.float_words(x + y)
        for _ in range(4 * self.few):
            slope = rng.choice([1, -1])
            x = [50 + slope * i * rng.choice([0.1, 0.3]) for i in range(top)]
            y = [rng.choice([0.5, -0.5]) for _ in range(y_len)]
            yield "slopes", w.float_words(x + y)
        for _ in range(4 * self.few):
            x = array("I", [rng.choice(w.HOSTILE) if rng.random() < 0.1 else
                            w.bits(rng.gauss(0, 10)) for _ in range(top)])
            y = array("I", [rng.choice(w.HOSTILE) if rng.random() < 0.01 else
                            w.bits(rng.gauss(0, 1)) for _ in range(y_len)])
            yield "hostile words", x + y
        for _ in range(2 * self.few):
            yield "random words", w.random_words(rng, top + y_len)

    # band_quant.rs.
    def bands(self, op, rng):
        if op == 401:
            for seed in (0, 0x3C6EF35F, 0x47502932, 0xD1CCF6E9, 1, 0x7FFFFFFF, 0x80000000, 0xFFFFFFFF):
                yield "edges", [seed]
            for _ in range(self.many):
                yield "random", [rng.getrandbits(32)]
            return
        for width in range(1, 177):
            yield "noise values", self.band_case(rng, width, lambda: float(rng.randint(-2048, 2047)))
        for width in (1, 2, 8, 22, 176):
            yield "zeros", self.band_case(rng, width, lambda: rng.choice([0.0, -0.0]))
        for _ in range(6 * self.few):
            width = rng.randint(1, 176)
            size = 10 ** rng.uniform(-46, 38)
            yield "any size", self.band_case(rng, width, lambda: rng.uniform(-1, 1) * size)
        for _ in range(4 * self.few):
            yield "order", self.order_case(rng)
        for _ in range(4 * self.few):
            width = rng.randint(1, 176)
            rest = array("I", bytes(4 * (176 - width)))
            some = array("I", [rng.choice(w.HOSTILE) if rng.random() < 0.1 else
                               w.bits(rng.gauss(0, 9)) for _ in range(width)])
            yield "hostile words", array("I", [width]) + some + rest
            yield "random words", array("I", [width]) + w.random_words(rng, width) + rest

    def order_case(self, rng):
        """Small values ahead of one large, the sum of squares just below a tie of f32: summed the
        other way round each small one is lost, and the tie isn't reached."""
        large = rng.randrange(12_000_000, 2**24)
        short = (2**23 - large * large) % 2**24
        others = []
        while short > 2:
            others.append(math.isqrt(short))
            short -= others[-1] ** 2
        values = [0.1249] * (175 - len(others)) + others[::-1] + [large]
        return array("I", [176]) + w.float_words(values)

    def band_case(self, rng, width, draw):
        values = w.float_words([draw() for _ in range(width)])
        return array("I", [width]) + values + array("I", bytes(4 * (176 - width)))

    # custom_mode.rs and the band gain.
    def modes(self, op, rng):
        if op == 502:
            for rate in (48000, 24000, 16000, 12000, 8000):
                for near in (rate - 1, rate, rate + 1):
                    yield "edges", [near]
            for rate in (0, 1, 44100, 96000, 32000, 6000, 0x80000000 + 48000, 0xFFFFFFFF):
                yield "edges", [rate]
            for _ in range(self.few):
                yield "random", [rng.getrandbits(32)]
        elif op in (503, 504, 505):
            for i in range({503: 256, 504: 25, 505: 22}[op]):
                yield "table", [i]
        else:
            yield from self.gains(rng)

    def gains(self, rng):
        mean = lambda: w.bits(rng.choice(w.MEANS[:21]))
        for x in w.HOSTILE:
            yield "hostile words", [x, mean()]
            yield "hostile words", [x, 0]
        ends = [0, -150, -149.99998, -150.00002, -149, -126, -127, -148.5, 32, 31.999998, 32.000004,
                33, 1, -1, 0.5, 2**-20, -(2**-20), 2**-126, -(2**-126), 2**-149, -(2**-149)]
        for x in ends:
            yield "edges", [w.bits(x), 0]
        step = 1 if self.many > 10000 else 331
        for k in range(-150 * 256, 32 * 256 + 1, step):
            at = w.bits(k / 256)
            for near in (at - 1, at, at + 1):
                if k or near == at:
                    yield "whole 256ths", [near, 0]
        for _ in range(self.many):
            yield "random", [w.bits(rng.uniform(-160, 34)), rng.choice([0, mean()])]
        for at in kept.SUMS + kept.TRUNCATED:
            yield "last bit", [at, 0]
        for _ in range(self.many // 4):
            yield "random words", [rng.getrandbits(32), mean()]

    # mdct.rs.
    def transform(self, op, rng):
        if op == 601:
            for i in range(120):
                yield "table", [i]
        elif op == 602:
            for lm in range(4):
                for j in range(0, 120 * 2**lm + 120, 1 if lm == 0 else 7):
                    yield "table", [lm, j]
        elif op == 603:
            for j in range(1921):
                yield "table", [j]
        else:
            yield from self.spectra(rng, OPS[op].words_in)

    def spectra(self, rng, n):
        few = max(1, self.few * 120 // n)
        for _ in range(few):
            level = 10 ** rng.uniform(-6, 9)
            yield "noise", w.float_words([rng.gauss(0, level) for _ in range(n)])
        for _ in range(few):
            x = [0.0] * n
            x[rng.randrange(n)] = rng.choice([1, -1, 1000, 3.4e38, 1e-38, 1e-44])
            yield "one bin", w.float_words(x)
        for _ in range(few):
            x = [0.0] * n
            size = rng.choice([3e38, 1e-45, 1e-38, 10 ** rng.uniform(-3, 6)])
            for _ in range(rng.choice([2, 2, 3])):
                x[rng.randrange(n)] = rng.choice([size, -size])
            yield "like bins", w.float_words(x)
        for _ in range(few):
            yield "every size", w.float_words([rng.gauss(0, 1) * 10 ** rng.uniform(-44, 37)
                                               for _ in range(n)])
        for _ in range(few):
            x = w.float_words([rng.gauss(0, 1) for _ in range(n)])
            for _ in range(rng.choice([1, 2, n])):
                x[rng.randrange(n)] = rng.choice(w.HOSTILE)
            yield "hostile words", x
        yield "silence", array("I", bytes(4 * n))
        for _ in range(few):
            yield "cancelling", w.float_words(self.halfway.cancelling(rng, n))
        entries = list(self.halfway.entries(n))
        if self.many < 10000:
            entries = rng.sample(entries, 24 * 120 // n)
        for entry in entries:
            for up in (True, False):
                yield "last bit", self.halfway.spectrum(rng, n, entry, up)
        yield from self.mirrors(rng, n, few)

    def mirrors(self, rng, n, few):
        """Where an output and its mirror are zeros of like or unlike sign, infinite, NaN or subnormal."""
        for bins in kept.FAINT[n]:
            x = array("I", bytes(4 * n))
            for at, word in bins.items():
                x[at] = word
            yield "faint", x
        for _ in range(few):
            yield "near zero", w.float_words(self.halfway.near_zero(rng, n))
        for _ in range(few):
            yield "zero sums", w.float_words(self.halfway.zero_sum(rng, n))
        yield "zeros", array("I", [0x80000000]) * n
        yield "zeros", array("I", [rng.choice(w.ZEROS) for _ in range(n)])
        for infinite in (w.INFINITIES, w.INFINITIES[:1], w.INFINITIES[1:]):
            x = w.float_words([rng.gauss(0, 1) for _ in range(n)])
            for at, word in zip(rng.sample(range(n), 2), infinite):
                x[at] = word
            yield "infinities", x
        for _ in range(few):
            size = 2.0 ** rng.uniform(-149, -127)
            yield "subnormal", w.float_words([rng.choice([0, rng.uniform(-size, size)]) for _ in range(n)])

    # Parts of decode_lost.
    def frames(self, op, rng):
        for family, x in self.signals(rng, 1920):
            lm, channels = rng.randrange(4), rng.randint(1, 2)
            n = 120 << lm
            rest = array("I", bytes(4 * (960 - n)))
            second = x[960 : 960 + n] + rest if channels == 2 else array("I", bytes(3840))
            mems = [rng.choice(w.HOSTILE) if rng.random() < 0.1 else w.bits(rng.gauss(0, 900))
                    for _ in range(2)]
            head = array("I", [lm, channels, rng.choice(st.FACTORS), *mems])
            yield family, head + x[:n] + rest + second

    def pitch(self, op, rng):
        makers = ["tone", "voice", "drum", "noise", "hiss", "silence", "near ties", "swelling", "filters",
                  "overflow", "hostile words", "random words"]
        for family in makers:
            for s in self.states.make(family, self.few, self.seed):
                yield family, self.pitch_case(s, rng.randint(0, 1))
        for s in self.states.guards():
            yield "energy guard", self.pitch_case(s, 0)

    def pitch_case(self, s, first):
        head = [s[st.LM], first, s[st.LAG], s[st.GAIN], s[st.PERIOD], s[st.TAPSET]]
        return array("I", head) + s[st.LPC : st.LPC + 24] + s[st.HISTORY : st.HISTORY + 2168]

    def noise(self, op, rng):
        for family in ["comfort noise", "energy edges", "hostile words", "random words"]:
            for s in self.states.make(family, self.few, self.seed):
                start = s[st.START]
                head = [s[st.LM], start, max(s[st.END], start + 1), s[st.DOWNSAMPLE], s[st.SEED]]
                if op == 903:
                    head = [s[st.CHANNELS], start, head[2], s[st.LOSSES]]
                    yield family, array("I", head) + s[st.COARSE : st.BACKGROUND]
                    continue
                body = array("I", head) + s[st.BACKGROUND : st.BACKGROUND + 25]
                yield family, body + (s[st.HISTORY : st.HISTORY + 2168] if op == 902 else array("I"))

    def losses(self, op, rng):
        if op == 1003:
            yield from self.silent(rng)
            return
        for family in self.states.categories():
            for s in self.states.make(family, self.few, self.seed):
                need = self.needed(s)
                if op == 1001:
                    lent = rng.choice([need, need, need + 1, 2000, max(need, 1) - 1, 0])
                    history = rng.choice([4336, 4336, 4336, 4336, 4335, 4337])
                    yield family, array("I", [lent, history]) + s
                else:
                    n = rng.choice([0, 12, 13, 16, 16])
                    lent = [rng.choice([need, need, need, 1920, max(need, 1) - 1]) for _ in range(n)]
                    yield family, self.run_case(lent, s)
        if op == 1002:
            yield from self.long_runs(rng)

    def needed(self, s):
        """How many samples a loss writes; of a state that is refused, at most 1,920."""
        if s[st.LM] > 3 or s[st.CHANNELS] > 2 or not 0 < s[st.DOWNSAMPLE] < 7:
            return 1920
        return s[st.CHANNELS] * (120 << s[st.LM]) // s[st.DOWNSAMPLE]

    def run_case(self, lent, s):
        return array("I", [len(lent), *lent, *[0] * (16 - len(lent))]) + s

    def long_runs(self, rng):
        """12 to 16 losses from count 0, each lm and channel count: five by pitch, then by noise, or
        all by noise from start 17; in every third one or two buffers are a sample short."""
        kinds = ["tone", "voice", "drum", "noise", "hiss", "near ties", "swelling", "filters",
                 "changing cycles", "mixed sizes"]
        for turn in range(32):
            s = self.states.make(kinds[turn % 10], 1, f"{self.seed} run {turn}")[0]
            s[st.LM], s[st.CHANNELS], s[st.LOSSES] = turn % 4, 1 + turn // 4 % 2, 0
            if turn % 5 == 4:
                s[st.START], s[st.END] = 17, rng.choice([21, 19])
            lent = [self.needed(s)] * rng.randint(12, 16)
            if turn % 3 == 0:
                for at in rng.sample(range(len(lent)), rng.randint(1, 2)):
                    lent[at] -= 1
            yield "long runs", self.run_case(lent, s)

    def silent(self, rng):
        """Heads alone: every limit and every pair of broken ones, with buffers of all lengths."""
        for head in self.states.heads():
            need = head[st.CHANNELS] * (120 << min(head[st.LM], 3)) // max(head[st.DOWNSAMPLE], 1)
            need = min(need, 1920)
            lent = [need, need, 2000, need + 1, max(need, 1) - 1, 0]
            yield "limits", [rng.choice(lent), rng.choice([4336] * 5 + [4335, 4337]), *head]
            yield "limits", [need, 4336, *head]
