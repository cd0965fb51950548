#!/usr/bin/env python3
"""Conceals one lost frame: a record from standard input, the answer and the new record to standard output."""
import pathlib
import struct
import sys

sys.path.insert(0, str(pathlib.Path(__file__).resolve().parents[2] / "bindings" / "python"))

from vikkozhan import Concealer, LibraryError, Refused, one_nan, read_records  # noqa: E402


def answer(record):
    """Number, kind and sample count, the samples, and the record after the loss."""
    concealer = Concealer.from_record(record)
    try:
        frame = concealer.conceal()
    except Refused as refused:
        return struct.pack("<3I", refused.number, 0, 0) + record
    return struct.pack("<3I", 0, frame.kind, frame.samples) + one_nan(frame.pcm) + concealer.to_record()


def main():
    try:
        record = next(read_records(sys.stdin.buffer), None)
        if record is None:
            return "no record on standard input"
        sys.stdout.buffer.write(answer(record))
        sys.stdout.buffer.flush()
    except (Refused, LibraryError, OSError) as error:
        return str(error)
    return None


sys.exit(main())
