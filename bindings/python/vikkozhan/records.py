"""Records: a state and its history as bytes, and files of them."""
import array
import ctypes
import operator
import os

from .refusals import Refused
from .state import HISTORY_SAMPLES, History, State

STATE_BYTES = ctypes.sizeof(State)
RECORD_BYTES = STATE_BYTES + ctypes.sizeof(History)
NAN = 0x7FC00000


class CutRecord(Refused):
    """A file's last record is cut short; every record before it was read.

    index:  which it is, the file's first being 0
    offset: the byte of the file at which it begins
    have:   how many bytes of it there are
    """

    def __init__(self, index, have):
        super().__init__(11)
        self.args = index, have
        self.index, self.offset, self.have = index, index * RECORD_BYTES, have

    def __str__(self):
        return "record %d of the file, from byte %s on, is cut short: %s of its %s bytes are there" % (
            self.index + 1, format(self.offset, ","), format(self.have, ","), format(RECORD_BYTES, ","))


def read_records(file):
    """Yields each record of a file, a path or a file opened for bytes, as 17,988 bytes. Raises CutRecord after the last
    whole one where more bytes follow it."""
    if isinstance(file, (str, os.PathLike)):
        with open(file, "rb") as opened:
            yield from read_records(opened)
        return
    index = 0
    while True:
        record = read_up_to(file, RECORD_BYTES)
        if not record:
            return
        if len(record) < RECORD_BYTES:
            raise CutRecord(index, len(record))
        yield record
        index += 1


def read_up_to(file, size):
    """The next `size` bytes of a file, fewer at its end alone: a pipe may hand them over in pieces."""
    record = bytearray()
    while len(record) < size:
        piece = file.read(size - len(record))
        if isinstance(piece, str):
            raise TypeError("a file of records is opened for bytes: open(name, 'rb')")
        if not piece:
            break
        record += piece
    return bytes(record)


def one_nan(samples):
    """The bytes of a buffer of float32, each NaN as 7FC00000, as records and answers have it."""
    data = memoryview(samples).cast("B")
    values = array.array("f", bytes(data))
    if not any(map(operator.ne, values, values)):
        return bytes(data)
    words = array.array("I", bytes(data))
    for at, value in enumerate(values):
        if value != value:
            words[at] = NAN
    return words.tobytes()


def unpack(record):
    """State and history of a record."""
    if len(record) != RECORD_BYTES:
        raise ValueError("a record has %s bytes, not %s" % (format(RECORD_BYTES, ","), format(len(record), ",")))
    return State.from_buffer_copy(record), History.from_buffer_copy(record, STATE_BYTES)


def pack(state, history):
    """The record of a state and its history."""
    if len(history) != HISTORY_SAMPLES:
        raise Refused(9)
    return b"".join(field_bytes(state, *field) for field in State._fields_) + one_nan(history)


def field_bytes(state, name, kind):
    field = getattr(State, name)
    data = bytes(state)[field.offset:field.offset + field.size]
    return data if kind is ctypes.c_uint32 else one_nan(data)
