"""Concealment of lost CELT frames.

    from vikkozhan import Concealer, Refused, State

    concealer = Concealer(State(lm=3, channels=1))
    concealer.history.samples(0)[:] = ...       # what the decoder has heard
    frame = concealer.conceal()                 # Concealed(kind, samples, pcm)

A Concealer holds what a decoder carries: a State and its History. `conceal` makes up a lost frame and
moves both on. A call that is refused raises Refused and changes nothing.

The library's shared object is loaded by the first call that needs it. It is looked for in the
environment variable VIKKOZHAN_LIBRARY, then in crates/vikkozhan/out of the repository.
"""
from .concealer import Concealed, Concealer
from .kinds import Kind
from .library import LibraryError, version
from .records import RECORD_BYTES, CutRecord, one_nan, read_records
from .refusals import Refused
from .state import HISTORY_SAMPLES, PCM_SAMPLES, History, State

__all__ = ["Concealed", "Concealer", "CutRecord", "HISTORY_SAMPLES", "History", "Kind", "LibraryError", "PCM_SAMPLES",
           "RECORD_BYTES", "Refused", "State", "one_nan", "read_records", "version"]
