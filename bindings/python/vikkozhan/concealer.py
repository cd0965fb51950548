"""The call: a lost frame made up from a state and its history."""
import array
import typing

from . import records
from .buffers import check_apart, floats, lent, numpy
from .kinds import Kind
from .library import Answer, library
from .refusals import Refused
from .state import PCM_SAMPLES, History, State


class Concealed(typing.NamedTuple):
    """A frame that was made up.

    kind:    by which path
    samples: how many floats of pcm are the frame's: channels * N / downsample
    pcm:     the samples, interleaved, full scale 1.0; with a buffer of the caller's this buffer
    """

    kind: Kind
    samples: int
    pcm: typing.Any


class Concealer:
    """A decoder's state and history, from which lost frames are made up.

    Both are the caller's and change with each accepted call: decode into them, conceal from them. The
    history is a History or a buffer of 4,336 float32 laid out like one, and is never copied. Any number
    of threads may conceal at once, each with a Concealer of its own.
    """

    def __init__(self, state, history=None):
        if not isinstance(state, State):
            raise TypeError("state is a State, not %s" % type(state).__name__)
        self.state = state
        self.history = History() if history is None else history
        lent(self.history, "history")  # a buffer that no call can use is told here

    @classmethod
    def from_record(cls, record):
        """The concealer whose state and history a record of 17,988 bytes holds."""
        return cls(*records.unpack(record))

    def to_record(self):
        """State and history as a record of 17,988 bytes. A NaN leaves as 7FC00000."""
        lent(self.history, "history")
        return records.pack(self.state, self.history)

    def conceal(self, pcm=None):
        """Makes up one lost frame and moves state and history past it.

        Without `pcm` the samples come in an array of their own: a numpy array where numpy is there, else
        an array.array. With it they are written to its front, and the rest of it is untouched.

        Raises Refused, and changes nothing, where the state or a buffer does not do.
        """
        own = array.array("f", bytes(4 * PCM_SAMPLES)) if pcm is None else None
        answer = self._call(pcm if own is None else own)
        if answer.number:
            raise Refused(answer.number)
        if own is not None:
            del own[answer.samples:]
            pcm = own if numpy is None else floats(own)
        return Concealed(Kind(answer.kind), answer.samples, pcm)

    def _call(self, pcm):
        """What a call reports. Nothing outlasts it that holds a buffer: one that was too short can be made longer."""
        history, room, answer = lent(self.history, "history"), lent(pcm, "pcm"), Answer()
        check_apart(state=(self.state, records.STATE_BYTES), history=(history.first, 4 * history.length),
                    pcm=(room.first, 4 * room.length))
        library().vikkozhan_decode_lost(self.state, history.first, history.length, room.first, room.length, answer)
        return answer
