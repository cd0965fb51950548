"""An outage: losses in a row from one record, what was heard before them, and both as sound."""
import array
import collections
import itertools
import wave

from .concealer import Concealer
from .kinds import Kind
from .state import PAST

RATE = 48000
ALPHA = 0.8500061  # of de-emphasis
FULL_SCALE = 32768


class Outage:
    """Losses in a row from a record, each from what the one before left.

    frames: the frames that were made up, each a Concealed
    What else it tells of is known once a frame was made up: a refused record may hold anything.
    """

    def __init__(self, record):
        self.record = bytes(record)
        self.concealer = Concealer.from_record(self.record)
        self.lost_before = self.concealer.state.loss_count
        self.frames = []

    def lose(self, losses=1):
        """Makes up so many frames more. Where one is refused, those before it stay."""
        for _ in range(losses):
            self.frames.append(self.concealer.conceal())

    @property
    def channels(self):
        return self.concealer.state.channels

    @property
    def rate(self):
        """Samples of a channel in a second."""
        return RATE // self.concealer.state.downsample

    @property
    def heard_samples(self):
        """Samples of a channel that the history holds."""
        return PAST // self.concealer.state.downsample

    @property
    def frame_samples(self):
        """Samples of a channel in a frame."""
        return self.frames[0].samples // self.channels

    def kinds(self):
        """How many frames each path made."""
        return collections.Counter(frame.kind for frame in self.frames)

    def independent_from(self):
        """Which frame is the second by noise: from it on nothing of the record's history matters, ahead of
        de-emphasis. None where there is no such frame, or where a path is new and nothing is known of it."""
        noise = [at for at, frame in enumerate(self.frames) if frame.kind == Kind.NOISE]
        known = set(self.kinds()) <= {Kind.PITCH, Kind.NOISE}
        return noise[1] if known and len(noise) > 1 else None

    def heard(self, channel):
        """A channel's PCM before the outage, from the samples ahead of de-emphasis that the history holds. The memory
        ahead of the oldest is not known; what it would add has faded after 2 ms."""
        pcm, memory = array.array("f"), 0.0
        for sample in Concealer.from_record(self.record).history.samples(channel).tolist():
            pcm.append((sample + memory) / FULL_SCALE)
            memory = ALPHA * (sample + memory)
        downsample = self.concealer.state.downsample
        return pcm[PAST % downsample::downsample]  # the last one a whole step ahead of the first frame

    def made(self, channel):
        """A channel's PCM of all frames."""
        pcm = array.array("f")
        for frame in self.frames:
            pcm.extend(frame.pcm[channel::self.channels].tolist())
        return pcm

    def largest(self):
        """The largest magnitude of what was made up; NaN has none."""
        return max((abs(s) for frame in self.frames for s in frame.pcm.tolist() if s == s), default=0.0)

    def write_wav(self, name):
        """What was heard and what was made up, 16 bits a sample. Gives how many samples a WAV cannot hold: they are
        beyond full scale, and cut to it, or NaN, and silent."""
        heard = zip(*(self.heard(channel) for channel in range(self.channels)))
        made = (frame.pcm.tolist() for frame in self.frames)
        parts = itertools.chain([list(itertools.chain.from_iterable(heard))], made)
        altered = 0
        with open(name, "wb") as file, wave.open(file, "wb") as out:
            out.setnchannels(self.channels)
            out.setsampwidth(2)
            out.setframerate(self.rate)
            for part in parts:
                out.writeframesraw(array.array("h", map(sixteen_bits, part)).tobytes())
                altered += sum(not abs(s) <= 1.0 for s in part)
        return altered


def sixteen_bits(sample):
    return 0 if sample != sample else round(32767 * max(-1.0, min(1.0, sample)))
