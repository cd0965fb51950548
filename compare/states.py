"""States (document order, 4,497 words) by category, seeded and repeatable."""
import math
from array import array
from functools import lru_cache
from random import Random

import halfway
import kept
import words as w

LM, CHANNELS, START, END, DOWNSAMPLE, LOSSES, SEED, LAG, PERIOD, GAIN, TAPSET = range(11)
COARSE, BACKGROUND, DEEMPH, LPC, HISTORY, STATE = 11, 61, 111, 113, 161, 4497
FACTORS = [1, 2, 3, 4, 6]
PERIODS = [15, 16, 17, 30, 60, 119, 120, 121, 122, 123, 124, 300, 720, 1020, 1021, 1022]
GAINS = [0x00000000, 0x80000000, 0x7FC00000, 0xFFC12345, 0x3E400000, 0x3F400000, 0xBF000000,
         0x3F800000, 0x41200000, 0x7F800000, 0x00000001, 0x7F7FFFFF]


class States:
    def __init__(self, seed):
        self.seed = seed
        self.sounds = w.Sounds(1)
        self.halfway = halfway.Halfway()

    def categories(self):
        return {
            "tone": lambda r: self.ordinary(r, "tone"),
            "voice": lambda r: self.ordinary(r, "voice"),
            "drum": lambda r: self.ordinary(r, "drum"),
            "noise": lambda r: self.ordinary(r, "noise"),
            "hiss": lambda r: self.ordinary(r, "hiss"),
            "silence": lambda r: self.ordinary(r, "silence"),
            "near ties": self.near_ties,
            "swelling": self.swelling,
            "filters": self.filters,
            "comfort noise": self.comfort_noise,
            "energy edges": self.energy_edges,
            "large counts": self.large_counts,
            "overflow": self.overflow,
            "overflow's edge": self.overflow_edge,
            "zeros": self.zeros,
            "silent bands": self.silent_bands,
            "cosines": self.cosines,
            "one place": self.one_place,
            "mixed sizes": self.mixed_sizes,
            "faint": self.faint,
            "read off": self.read_off,
            "level cycles": self.level_cycles,
            "changing cycles": self.changing_cycles,
            "hostile words": self.hostile,
            "random words": self.random_words,
            "one limit": self.one_limit,
            "several limits": self.several_limits,
            "random bytes": self.random_bytes,
            "limits": None,
            "edges": None,
            "kept": None,
        }

    def make(self, category, count, seed=None):
        """`count` states of a category; the same for the same seed, whatever else was made."""
        if category == "kept":
            far = [self.make(name, place + 1, 1)[place] for name, place in kept.FAR]
            return self.guards() + self.floors() + far
        if category == "edges":
            return [self.between(kind, k, n) for kind, k, n in kept.EDGES]
        if category == "limits":
            return self.limits() if count > 4 else self.limits()[::40]
        rng = Random(f"{seed or self.seed} {category}")
        maker = self.categories()[category]
        return [maker(rng) for _ in range(count)]

    def chosen(self):
        """The records, of those of the default size, that tell wrong builds apart."""
        made = {name: self.make(name, 100, 1) for name, _ in kept.STORED}
        return [made[name][place] for name, place in kept.STORED]

    @lru_cache(maxsize=4)
    def ends(self, kind, k):
        """The two ends of a way from one state to another: a state and what is mixed into it."""
        rng = Random(f"between {kind} {k}")
        s = self.changing_cycles(rng) if rng.random() < 0.5 else self.base(rng, self.kind(rng))
        s[LM], s[LOSSES], s[GAIN] = rng.choice([0, 0, 0, 1]), 0, 0
        if kind == "guard":
            s[LOSSES] = rng.randint(1, 4)
            return s, w.stable_predictor(rng, 0.97) * 2
        other = self.sounds.part(rng, rng.choice(["tone", "voice", "drum", "hiss"]), 4336)
        if kind == "quiet lag" or rng.random() < 0.3:
            level = 10 ** rng.uniform(-7 if kind == "quiet lag" else -2.5, 0)
            s[HISTORY:], other = self.scaled(s[HISTORY:], level), self.scaled(other, level)
        return s, other

    def between(self, kind, k, n):
        """A state n / 2^40 of the way between two: on that way the lag turns, the predictor's fit
        stops a step earlier or the energy guard falls, and `compare/hunt` looks where."""
        share = n / 2**40
        s, other = self.ends(kind, k)
        s = s[:]
        if kind == "guard":
            s[LPC:HISTORY] = w.float_words([1.5 * share * x for x in other])
        else:
            s[HISTORY:] = w.mixed(s[HISTORY:], other, share)
        return s

    def guards(self):
        """A repeated loss on one channel with one predictor coefficient, at the energy guard's edge."""
        out = []
        for k, word in kept.GUARDS:
            s = self.base(Random(f"guard {k}"), "voice")
            s[LM], s[CHANNELS], s[LOSSES], s[GAIN], s[PERIOD], s[TAPSET] = 0, 1, 1, 0, 15, 0
            s[LPC : LPC + 24] = array("I", [word] + [0] * 23)
            out.append(s)
        return out

    def floors(self):
        """Noise losses of one band alone, its energy one at which floor and truncation part, or the
        lowest that has a gain."""
        out = []
        for k, (band, word) in enumerate(kept.ENERGIES):
            s = self.base(Random(f"floor {k}"), "silence")
            s[LM], s[START], s[END], s[DOWNSAMPLE], s[LOSSES] = k % 4, 0, 21, 1, 5
            s[BACKGROUND:DEEMPH] = w.float_words([-200] * 50)
            s[BACKGROUND + band] = word
            out.append(s)
        return out

    def noise_losses(self, count):
        """So many accepted states whose loss goes by noise, each lm and channel count in turn, with
        their names: energies ordinary, at the edges, hostile, of silent bands and of cancelling ones."""
        rng = Random(f"{self.seed} noise losses")
        makers = [self.comfort_noise, self.energy_edges, self.hostile_energies, self.silent_bands,
                  self.cancelling_bands, self.mixed_sizes, self.one_place, self.large_counts]
        for turn in range(count):
            s = makers[turn // 8 % len(makers)](rng)
            s[LM], s[CHANNELS] = turn % 4, 1 + turn // 4 % 2
            if s[START] == 0 and s[LOSSES] < 5:
                s[LOSSES] = rng.choice([5, 5, 6, 7, 100])
            yield f"lm {s[LM]}, {'mono' if s[CHANNELS] == 1 else 'stereo'}", s

    # An accepted state to start from.
    def base(self, rng, kind):
        s = array("I", bytes(4 * STATE))
        s[LM] = rng.randrange(4)
        s[CHANNELS] = rng.randint(1, 2)
        s[START] = 0
        s[END] = rng.choice([21, 21, 21, 13, 17, 19, 1, rng.randint(1, 21)])
        s[DOWNSAMPLE] = rng.choice(FACTORS)
        s[LOSSES] = rng.choice([0, 0, 1, 2, 3, 4, 5, 6])
        s[SEED] = rng.getrandbits(32)
        s[LAG] = rng.choice([102, 103, 511, 512, 513, 719, 720, rng.randint(102, 720)])
        s[PERIOD] = rng.choice(PERIODS)
        s[GAIN] = rng.choice([0, 0, w.bits(rng.uniform(-1, 1)), w.bits(0.09375 * rng.randint(1, 8))])
        s[TAPSET] = rng.randrange(3)
        s[COARSE:DEEMPH] = w.float_words([rng.uniform(-9, 12) for _ in range(100)])
        s[DEEMPH:LPC] = w.float_words([rng.gauss(0, 500) for _ in range(2)])
        s[LPC:HISTORY] = w.float_words(w.stable_predictor(rng, 0.8) + w.stable_predictor(rng, 0.95))
        s[HISTORY:] = self.sounds.part(rng, kind, 2168) + self.sounds.part(rng, kind, 2168)
        return s

    def kind(self, rng):
        return rng.choice(list(self.sounds.kinds))

    def ordinary(self, rng, kind):
        return self.base(rng, kind)

    def near_ties(self, rng):
        s = self.base(rng, "tone")
        s[LOSSES] = 0
        for c in range(2):
            whole = rng.choice(self.sounds.tied)
            at = rng.randrange(len(whole) - 2168 + 1)
            s[HISTORY + 2168 * c : HISTORY + 2168 * (c + 1)] = whole[at : at + 2168]
        return s

    def swelling(self, rng):
        s = self.base(rng, "tone")
        s[LOSSES] = rng.choice([0, 0, 1, 3])
        for c in range(2):
            whole = rng.choice(self.sounds.swelling)
            at = rng.randrange(len(whole) - 2168 + 1)
            s[HISTORY + 2168 * c : HISTORY + 2168 * (c + 1)] = whole[at : at + 2168]
        if rng.random() < 0.3:
            s[LPC:HISTORY] = w.float_words(w.stable_predictor(rng, 1.05) * 2)
        return s

    def filters(self, rng):
        s = self.base(rng, self.kind(rng))
        s[LOSSES] = rng.randrange(5)
        s[PERIOD] = rng.choice(PERIODS[:12] + PERIODS[-3:])
        s[GAIN] = rng.choice(GAINS)
        return s

    def comfort_noise(self, rng):
        s = self.base(rng, self.kind(rng))
        if rng.random() < 0.5:
            s[LOSSES] = rng.choice([5, 6, 7, 100])
        else:
            s[START] = rng.choice([17, 17, 1, 20, rng.randint(1, 20)])
            s[END] = rng.randint(s[START] + 1, 21)
            s[LOSSES] = rng.choice([0, 1, 4, 5])
            s[LAG] = rng.choice([0, 101, 721, 5000, 300])
        return s

    def energy_edges(self, rng):
        """Sums at the ends of the gain's range, near whole 256ths, hostile, or all of them faint."""
        s = self.comfort_noise(rng)
        if rng.random() < 0.25:
            s[COARSE:DEEMPH] = w.float_words([rng.uniform(-157, -130) for _ in range(100)])
            return s
        picks = [26, 25.9999, 27, 32, 40, 128, -150, -155, -156.5, -149.5, -140, 0, 2.5625, -6.4375]
        dropped = 1.5 if s[LOSSES] == 0 else 0.5
        for i in range(COARSE, DEEMPH):
            draw = rng.random()
            if draw < 0.2:
                edge = rng.choice([32, -150, -149, -148, 0, rng.randint(-8000, 8000) / 256])
                mean = w.MEANS[(i - COARSE) % 25] - (dropped if i < BACKGROUND else 0)
                s[i] = w.bits(edge - mean) + rng.choice([0, 0, 1, 2, -1, -2]) & 0xFFFFFFFF
            elif draw < 0.4:
                s[i] = w.bits(rng.choice(picks) + rng.choice([0, 0, 2**-17, -(2**-17)]))
            elif draw < 0.55:
                s[i] = w.bits(rng.uniform(-4, 4))
            elif draw < 0.6:
                s[i] = w.bits(rng.randint(-8000, 8000) / 256 + rng.choice([0, 2**-18, -(2**-18)]))
            elif draw < 0.65:
                s[i] = rng.choice(w.HOSTILE)
        return s

    def large_counts(self, rng):
        s = self.base(rng, self.kind(rng))
        s[LOSSES] = rng.choice([0xFFFFFFFE, 0xFFFFFFFD, 0x80000000, 0x7FFFFFFF, rng.getrandbits(31)])
        return s

    def overflow(self, rng):
        """Samples so large, of turning sign or few, that energies run to infinity."""
        s = self.base(rng, self.kind(rng))
        s[LOSSES] = rng.choice([0, 0, 1, 4])
        top = rng.choice([1e17, 5e17, 1.8e18, 1e19, 4e19, 1e30, 3e38])
        every = rng.choice([1, 1, 2, 7, 300])
        for i in range(HISTORY, STATE, every):
            s[i] = w.bits(top * rng.uniform(0.1, 1) * (-1) ** (i // every))
        return s

    def overflow_edge(self, rng):
        """Pulses, or noise, whose energy is about the largest f32: at full rate, or halved. Or a pulse
        behind a small one, whose square the search's filters take beyond it, in silence or noise."""
        s = self.base(rng, "silence")
        s[LOSSES] = rng.choice([0, 0, 0, 1, 4])
        if rng.random() < 0.4:
            level = 10 ** rng.choice([rng.uniform(0, 17), rng.uniform(-30, 0)])
            s[HISTORY:] = array("I", bytes(4 * 4336))
            for at in rng.sample(range(HISTORY, STATE), rng.choice([20, 200, 4336])):
                s[at] = w.bits(level * rng.gauss(0, 1))
            at = HISTORY + 2 * rng.randrange(2, 320)
            s[at - 3 : at + 2] = w.float_words([0, rng.uniform(0.5, 3) * 1e18, 0, rng.uniform(3.6, 3.68) * 1e19, 0])
            s[LOSSES], s[CHANNELS] = 0, 1
            return s
        for c in range(2):
            count = rng.choice([1, 2, 3, 8, 2048])
            top = math.sqrt(rng.uniform(0.2, 1.3) * 3.4e38 / count) * rng.choice([1, 1.4, 2])
            first = HISTORY + 2168 * c
            places = range(2048) if count == 2048 else rng.sample(range(2048), count)
            for at in places:
                s[first + at] = w.bits(max(-3.4e38, min(3.4e38, top * rng.choice([1, -1, rng.gauss(0, 1)]))))
        return s

    def zero_words(self, rng, count):
        """Zeros of one sign, of turning sign, of both at random, or in runs of each."""
        draw = rng.random()
        if draw < 0.5:
            return array("I", [rng.choice(w.ZEROS)]) * count
        if draw < 0.6:
            return array("I", w.ZEROS * (count // 2 + 1))[:count]
        if draw < 0.7:
            return array("I", [rng.choice(w.ZEROS) for _ in range(count)])
        out = array("I")
        while len(out) < count:
            out += array("I", [rng.choice(w.ZEROS)]) * rng.choice([1, 2, 25, 60, 300])
        return out[:count]

    def zeros(self, rng):
        """Zeros of either sign in the history, around a few pulses; predictor and memories likewise."""
        s = self.base(rng, "silence")
        s[LM], s[LOSSES] = rng.choice([0, 0, 1, 3]), rng.choice([0, 1, 1, 2, 4, 5])
        s[GAIN] = rng.choice([0, 0x80000000, 0x3F000000, 0xBF000000])
        s[DEEMPH:LPC] = self.zero_words(rng, 2)
        s[LPC:HISTORY] = self.zero_words(rng, 48)
        s[HISTORY:] = self.zero_words(rng, 4336)
        if rng.random() < 0.15:
            return self.folded_zeros(rng, s)
        for _ in range(rng.choice([0, 1, 3])):
            s[LPC + rng.randrange(48)] = w.bits(rng.choice([0.5, -0.5, 1e-30]))
        for c in range(2):
            for _ in range(rng.choice([0, 1, 2, 5])):
                at = HISTORY + 2168 * c + rng.randrange(1024, 2048)
                s[at] = w.bits(rng.choice([1, -1, 1000, 1e-20]))
        return s

    def folded_zeros(self, rng, s):
        """A predictor of +0 over a history of -0: the synthesis is -0 at each 25th sample from the
        start and from a pulse on, which is placed so that two of them fold onto each other."""
        s[LM], s[LOSSES], s[LAG] = 0, 1, 720
        s[LPC:HISTORY] = array("I", bytes(4 * 48))
        s[HISTORY:] = array("I", [0x80000000]) * 4336
        for c in range(2):
            s[HISTORY + 2168 * c + 1328 + 10 + 25 * rng.randint(5, 8)] = w.bits(-1)
        return s

    def silent_bands(self, rng):
        """Noise losses of silent bands, or of bands so faint that samples round to zeros."""
        s = self.comfort_noise(rng)
        s[LM] = rng.choice([0, 0, 1, 2])
        if rng.random() < 0.6:
            s[END] = s[START] + 1
        low = rng.choice([-400, -157, -155, -150])
        s[COARSE:DEEMPH] = w.float_words([rng.uniform(low, low + 8) for _ in range(100)])
        s[DEEMPH:LPC] = self.zero_words(rng, 2)
        s[HISTORY:] = self.zero_words(rng, 4336)
        return s

    def hostile_energies(self, rng):
        """Noise losses with NaN, infinities, very large, tiny and zero words among the energies, or all
        over them."""
        s = self.comfort_noise(rng)
        share = rng.choice([0.05, 0.3, 1])
        for i in range(COARSE, DEEMPH):
            if rng.random() < share:
                s[i] = rng.choice(w.HOSTILE)
        return s

    def cancelling_bands(self, rng):
        """Noise losses of a few bands of one gain, the others silent: bands of one bin cancel at some
        outputs, and a gain near the least leaves bins of zero and of the least subnormal."""
        s = self.comfort_noise(rng)
        if rng.random() < 0.7:
            s[START], s[END], s[LOSSES] = 0, 21, rng.choice([5, 6, 100])
        level = rng.choice([-149.5, -149, -148, -146, -130, rng.randint(-20, 32)])
        dropped = 1.5 if s[LOSSES] == 0 else 0.5
        s[COARSE:DEEMPH] = w.float_words([-400] * 100)
        bands = range(s[START], s[END])[: rng.choice([8, 21])]
        for band in rng.sample(bands, min(rng.choice([2, 2, 3, 8]), len(bands))):
            for c in (0, 25):
                s[COARSE + c + band] = w.bits(level - w.MEANS[band] + dropped)
                s[BACKGROUND + c + band] = w.bits(level - w.MEANS[band])
        s[DEEMPH:LPC] = self.zero_words(rng, 2)
        s[HISTORY:] = self.zero_words(rng, 4336)
        return s

    def cosines(self, rng):
        """Noise losses of two bands alone, with which one cosine's last bit shows."""
        s = self.base(rng, "silence")
        s[LM], s[START], s[END], s[DOWNSAMPLE], s[LOSSES] = rng.randrange(4), 0, 2, 1, 5
        usual = kept.COSINES[s[LM]]
        entry = rng.choice([usual, usual, rng.choice(self.halfway.entries(120 << s[LM]))])
        s[SEED], *energies = self.halfway.noise_loss(rng, s[LM], entry, rng.random() < 0.5)
        s[BACKGROUND : BACKGROUND + 2] = array("I", energies)
        s[HISTORY:] = array("I", bytes(4 * 4336))
        return s

    def one_place(self, rng):
        """A NaN, an infinity, a very large or a zero in one place only, often at an edge."""
        s = self.base(rng, self.kind(rng))
        s[LM], s[LOSSES] = rng.choice([0, 0, 1, 2, 3]), rng.choice([0, 1, 1, 2, 4, 5])
        edges = [0, 1, 2, 3, 1022, 1023, 1024, 1025, 1143, 1144, 1535, 1536, 1903, 1904, 1927, 1928, 2023,
                 2024, 2046, 2047, 2048, 2049, 2107, 2108, 2166, 2167]
        history = HISTORY + 2168 * rng.randrange(2)
        place = rng.choice([history + rng.choice(edges), history + rng.choice(edges),
                            history + rng.randrange(1024, 2048), history + rng.randrange(1024, 2048),
                            history + rng.randrange(2048, 2168), rng.randrange(DEEMPH, LPC),
                            rng.randrange(LPC, HISTORY), rng.randrange(COARSE, DEEMPH), GAIN])
        s[place] = rng.choice(w.NANS[:4] + w.INFINITIES + w.ZEROS + [
            w.bits(rng.choice([1, -1]) * 10.0 ** rng.randint(5, 19)), w.bits(3e38)])
        s[LAG] = rng.choice([720, 719, 600, 513, s[LAG]])
        return s

    def mixed_sizes(self, rng):
        """Few large values among many small ones, so that the order of a sum shows."""
        s = self.base(rng, "noise")
        s[LOSSES] = rng.choice([0, 0, 1, 3, 5])
        small, large = 10 ** rng.uniform(-2, 2), 10 ** rng.uniform(3, 6)
        s[HISTORY:] = w.float_words([rng.gauss(0, small) for _ in range(4336)])
        for _ in range(rng.choice([4, 40, 400])):
            s[rng.randrange(HISTORY, STATE)] = w.bits(large * rng.uniform(-1, 1))
        s[COARSE:DEEMPH] = w.float_words([rng.choice([-20, -8, 4, 18]) + rng.uniform(-4, 4)
                                          for _ in range(100)])
        return s

    def faint(self, rng):
        """Sound so faint that the floors of 1 and 10 count, or subnormal under one large pulse, which
        brings their last bits into the correlations."""
        s = self.base(rng, "tone")
        s[LOSSES] = rng.choice([0, 0, 0, 1])
        if rng.random() < 0.2:
            s[LOSSES] = 0
            s[HISTORY:] = array("I", [rng.choice(w.ZEROS) | rng.randrange(1, 40) for _ in range(4336)])
            s[HISTORY + rng.randrange(1960, 2048)] = w.bits(10 ** rng.uniform(16, 19))
            return s
        for c in range(2):
            kind = rng.choice(["tone", "voice", "hiss", "hiss", "noise"])
            part = self.sounds.part(rng, kind, 2168)
            s[HISTORY + 2168 * c : HISTORY + 2168 * (c + 1)] = self.scaled(part, 10 ** rng.uniform(-3, 0))
        return s

    def read_off(self, rng):
        """One large pulse at the end, which reads small samples off into the correlations: about 1, where
        raising them to -1 counts."""
        s = self.base(rng, "silence")
        s[LM], s[CHANNELS], s[LOSSES], s[GAIN] = 0, 1, 0, 0
        top, level = 10 ** rng.uniform(2, 6), rng.uniform(0.5, 4)
        s[HISTORY:] = array("I", bytes(4 * 4336))
        first = rng.randrange(1340, 1900)
        for at in range(first, first + rng.choice([4, 8, 16, 40])):
            s[HISTORY + at] = w.bits(level * rng.gauss(0, 1) / top)
        s[HISTORY + 2 * rng.randrange(1000, 1023)] = w.bits(2 * top)
        return s

    def scaled(self, part, level):
        """A sound whose largest sample has the given size."""
        x = array("f", part.tobytes())
        level /= max(map(abs, x)) or 1
        return w.float_words([level * v for v in x])

    def level_cycles(self, rng):
        """Cycles in small whole numbers, all alike or one of another size: energies tie, and sums
        are exact."""
        s = self.base(rng, "silence")
        s[LM], s[LOSSES] = rng.choice([0, 0, 1, 2]), rng.choice([0, 1, 2, 3, 4])
        s[LAG] = rng.choice([102, 103, 128, 256, 511, 512, 513, 720, rng.randint(102, 720)])
        s[LPC:HISTORY] = array("I", bytes(4 * 48))
        if rng.random() < 0.6:
            s[LPC] = s[LPC + 24] = w.bits(rng.choice([-1, -0.5, 0.5, 1, -0.75]))
        for c in range(2):
            cycle = [rng.randint(-3, 3) for _ in range(s[LAG])]
            rise = rng.choice([1, 1, 2, 0.5])
            values = [cycle[t % s[LAG]] * (rise if t < 1400 else 1) for t in range(2168)]
            s[HISTORY + 2168 * c : HISTORY + 2168 * (c + 1)] = w.float_words(values)
        return s

    def changing_cycles(self, rng):
        """Cycles that change from one to the next, so that the nearest one fits best: lags of every
        length, most at the ends of the search."""
        s = self.base(rng, "silence")
        s[LOSSES] = 0
        period = rng.choice([*range(98, 110), *range(712, 724), *range(102, 720, 31)])
        keep, level = rng.choice([0.6, 0.9, 0.98]), 10 ** rng.uniform(-1, 4)
        smooth = rng.choice([0, 0.5, 0.9])
        for c in range(2):
            out, last = [0.0] * period, 0.0
            for t in range(period, period + 2168):
                last = smooth * last + rng.gauss(0, level)
                out.append(keep * out[t - period] + (1 - keep * keep) ** 0.5 * last)
            s[HISTORY + 2168 * c : HISTORY + 2168 * (c + 1)] = w.float_words(out[period:])
        return s

    def hostile(self, rng):
        """A few hostile words anywhere but in the settings, or one kind spread all over."""
        s = self.base(rng, self.kind(rng))
        if rng.random() < 0.2:
            s[START] = rng.choice([1, 17, 20])
            s[END] = 21
        pick = rng.choice([w.HOSTILE, w.NANS, w.INFINITIES, w.TINY])
        places = [GAIN, *range(COARSE, STATE)]
        near = [*range(HISTORY + 1800, HISTORY + 2168), *range(STATE - 360, STATE)]
        for _ in range(rng.choice([1, 2, 5, 50, 4000])):
            s[rng.choice(near if rng.random() < 0.3 else places)] = rng.choice(pick)
        if rng.random() < 0.1:
            s[HISTORY:] = array("I", [rng.choice(pick)]) * 4336
        return s

    def random_words(self, rng):
        s = self.base(rng, "noise")
        s[COARSE:] = w.random_words(rng, STATE - COARSE)
        s[GAIN] = rng.getrandbits(32)
        return s

    LIMITS = [
        (LM, [3], [4, 0xFFFFFFFF]),
        (CHANNELS, [1, 2], [0, 3, 0x80000001]),
        (START, [20], [21, 22, 0xFFFFFFFF]),
        (END, [21], [22, 0, 0xFFFFFFFF]),
        (DOWNSAMPLE, FACTORS, [0, 5, 7, 8, 12, 0x80000002]),
        (LOSSES, [0xFFFFFFFE, 4, 5], [0xFFFFFFFF]),
        (LAG, [102, 720], [101, 721, 0, 0xFFFFFFFF, 0x80000000 + 300]),
        (PERIOD, [15, 1022], [14, 1023, 0, 0xFFFFFFFF, 0x10000 + 20]),
        (TAPSET, [2, 0], [3, 0xFFFFFFFF]),
    ]

    def heads(self):
        """Accepted heads, each limit one inside and one outside, every pair of broken limits."""
        usual = [0, 1, 0, 21, 1, 0, 7, 300, 15, 0, 0]
        out = []

        def head(**changes):
            h = list(usual)
            for place, value in changes.items():
                h[globals()[place]] = value
            out.append(h)

        for lm in range(4):
            for channels in (1, 2):
                for downsample in FACTORS:
                    head(LM=lm, CHANNELS=channels, DOWNSAMPLE=downsample, LOSSES=lm + channels)
        for lag in (0, 101, 102, 103, 719, 720, 721, 0xFFFFFFFF):
            for losses in (0, 1, 2, 3, 4, 5, 6, 0xFFFFFFFE):
                for start in (0, 1):
                    head(LAG=lag, LOSSES=losses, START=start)
        for start in range(19, 23):
            for end in range(18, 24):
                head(START=start, END=end)
        for end in (0, 1, 2, 20, 21, 22, 0xFFFFFFFF):
            for start in (0, 1, 2):
                head(START=start, END=end)
        for period in (0, 13, 14, 15, 16, 121, 122, 1021, 1022, 1023, 1024, 0xFFFFFFFF):
            for gain in (0, 0x3F000000, 0x7FC00000):
                head(PERIOD=period, TAPSET=period % 3, GAIN=gain)
        for place, inside, outside in self.LIMITS:
            for value in inside + outside:
                h = list(usual)
                h[place] = value
                out.append(h)
        for n, (one, _, wrong) in enumerate(self.LIMITS):
            for other, _, bad in self.LIMITS[n + 1 :]:
                h = list(usual)
                h[LOSSES] = 2
                h[one], h[other] = wrong[0], bad[0]
                out.append(h)
        return out

    def limits(self):
        """Whole states with those heads, a NaN of its own in each."""
        out = []
        for n, head in enumerate(self.heads()):
            rng = Random(f"limits {n}")
            s = self.base(rng, "tone")
            s[:11] = array("I", head)
            s[rng.randrange(COARSE, STATE)] = rng.choice(w.NANS)
            out.append(s)
        return out

    def one_limit(self, rng):
        """One limit, one inside or one outside; of a refused state nothing may change."""
        s = self.base(rng, self.kind(rng))
        place, inside, outside = rng.choice(self.LIMITS)
        s[place] = rng.choice(inside if rng.random() < 0.5 else outside)
        if place == START and s[START] <= 20:
            s[END] = rng.choice([21, s[START] + 1, s[START], s[START] - 1])
        if place == LAG:
            s[START] = rng.choice([0, 0, 0, 1])
            s[END] = 21
            s[LOSSES] = rng.choice([0, 1, 2, 4, 5])
        if rng.random() < 0.3:
            s[rng.randrange(COARSE, STATE)] = rng.choice(w.NANS)
        return s

    def several_limits(self, rng):
        s = self.base(rng, "noise")
        for place, inside, outside in rng.sample(self.LIMITS, rng.randint(2, 5)):
            s[place] = rng.choice(inside + outside * 2)
        s[rng.randrange(COARSE, STATE)] = rng.choice(w.NANS)
        return s

    def random_bytes(self, rng):
        s = w.random_words(rng, STATE)
        for place in range(11):
            if rng.random() < 0.8:
                s[place] = rng.randrange(24)
        return s
