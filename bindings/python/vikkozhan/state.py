"""What a decoder carries from frame to frame, laid out as the library has it."""
import ctypes
import operator

from .buffers import floats

HISTORY_SAMPLES = 4336  # 2,168 of each channel, in mono too
PCM_SAMPLES = 1920      # room for the PCM of any frame
PAST, OVERLAP = 2048, 120

# A decoder of 20 ms mono frames at 48 kHz to which no post-filter was sent; all else starts at 0.
FRESH = {"lm": 3, "channels": 1, "end": 21, "downsample": 1, "filter_period": 15}


class State(ctypes.Structure):
    """A decoder's state but for its history: State(lm=3, channels=2, seed=7).

    What is not given is that of a fresh decoder of 20 ms mono frames at 48 kHz. Of each array channel 0's
    values come first; what belongs to an unused channel is carried along.

    lm             the frame is N = 120 * 2^lm samples at 48 kHz: 0 to 3
    channels       1 or 2
    start          first coded band: 0 for CELT alone
    end            one past the last coded band: 1 to 21, above start
    downsample     1, 2, 3, 4, 6 for 48, 24, 16, 12, 8 kHz
    loss_count     frames lost in a row so far: set it to 0 with each decoded frame
    seed           of the noise
    lag            pitch lag, from the first loss on
    filter_period  post-filter: 15 to 1,022; 15 where none was sent
    filter_gain    0 where none was sent
    filter_tapset  0, 1 or 2
    coarse         band energies, base-2 logarithms: 25 a channel
    background     of the background noise: 25 a channel
    memories       de-emphasis: 1 a channel
    predictor      coefficients, from the first loss on: 24 a channel
    """

    _fields_ = [
        ("lm", ctypes.c_uint32),
        ("channels", ctypes.c_uint32),
        ("start", ctypes.c_uint32),
        ("end", ctypes.c_uint32),
        ("downsample", ctypes.c_uint32),
        ("loss_count", ctypes.c_uint32),
        ("seed", ctypes.c_uint32),
        ("lag", ctypes.c_uint32),
        ("filter_period", ctypes.c_uint32),
        ("filter_gain", ctypes.c_float),
        ("filter_tapset", ctypes.c_uint32),
        ("coarse", ctypes.c_float * 50),
        ("background", ctypes.c_float * 50),
        ("memories", ctypes.c_float * 2),
        ("predictor", ctypes.c_float * 48),
    ]

    def __init__(self, **fields):
        unknown = sorted(set(fields) - set(TYPES))
        if unknown:
            raise TypeError("a State has no field %s" % ", ".join(unknown))
        super().__init__()
        for name, value in {**FRESH, **fields}.items():
            setattr(self, name, value)

    def __setattr__(self, name, value):
        kind = TYPES.get(name)
        if kind is None:
            raise AttributeError("a State has no field %s" % name)
        if kind is ctypes.c_uint32:
            value = word(name, value)
        elif kind is not ctypes.c_float:
            value = values(name, value, kind._length_)
        super().__setattr__(name, value)

    def __repr__(self):
        """The fields that are one value each."""
        single = [name for name, kind in self._fields_ if kind in (ctypes.c_uint32, ctypes.c_float)]
        return "State(%s)" % ", ".join("%s=%r" % (name, getattr(self, name)) for name in single)


TYPES = dict(State._fields_)


def word(name, value):
    """A value that 32 bits hold; ctypes by itself keeps the low 32 bits of any number and says nothing."""
    value = operator.index(value)
    if not 0 <= value < 1 << 32:
        raise OverflowError("%s is 0 to 4,294,967,295, not %d" % (name, value))
    return value


def values(name, given, length):
    """As many floats as an array has; ctypes by itself fills up what is too short with zeros."""
    given = tuple(map(float, given))
    if len(given) != length:
        raise ValueError("%s is %d values, not %d" % (name, length, len(given)))
    return given


class History(ctypes.Array):
    """4,336 floats, all 0 at first: of channel 0 and then of channel 1 the 2,048 newest samples ahead of
    de-emphasis, oldest first and scaled by 32,768, and 120 of overlap."""

    _type_ = ctypes.c_float
    _length_ = HISTORY_SAMPLES

    def samples(self, channel):
        """A view of a channel's 2,048 samples; what is written to it is written to the history."""
        return self._part(channel, 0, PAST)

    def overlap(self, channel):
        """A view of a channel's 120 samples of overlap."""
        return self._part(channel, PAST, OVERLAP)

    def _part(self, channel, at, length):
        if channel not in (0, 1):
            raise IndexError("a history has channels 0 and 1, not %r" % (channel,))
        at += channel * (PAST + OVERLAP)
        return floats(self)[at:at + length]
