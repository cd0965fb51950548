"""Buffers of floats that are lent to the library. It writes where they lie: none is ever copied."""
import collections
import ctypes

try:
    import numpy
except ImportError:
    numpy = None

FLOAT = ("f", "<f", "=f", "@f")

# the buffer's first float, which keeps it alive and in its place, and how many it has
Lent = collections.namedtuple("Lent", "first length")


def floats(buffer):
    """A view of a buffer of float32: a numpy array where numpy is there, else a memoryview."""
    if numpy is not None:
        return numpy.frombuffer(buffer, numpy.float32)
    return memoryview(buffer).cast("B").cast("f")


def lent(buffer, name):
    """`buffer` for a call: a numpy array, an array.array('f') or a ctypes array. One that the library could not write
    in place is an error: it would get a copy, and the result would be lost with it."""
    try:
        view = memoryview(buffer)
    except (TypeError, ValueError, BufferError):
        raise TypeError("%s is a numpy array, an array.array('f') or a ctypes array, not %s"
                        % (name, type(buffer).__name__)) from None
    if view.format not in FLOAT:
        raise TypeError("%s holds float32, not %s" % (name, getattr(buffer, "dtype", "format " + view.format)))
    if view.ndim != 1:
        raise ValueError("%s has one dimension, not %d: lend a flat array" % (name, view.ndim))
    if not view.c_contiguous:
        raise ValueError("%s has its samples side by side: lend a C-contiguous array, not one with strides" % name)
    if view.readonly:
        raise ValueError("%s is written to: lend a buffer that is not read-only" % name)
    # An empty buffer may have no address at all, and the library is owed one.
    first = ctypes.c_float.from_buffer(view) if len(view) else ctypes.c_float()
    if ctypes.addressof(first) % ctypes.alignment(ctypes.c_float):
        raise ValueError("%s starts at an address that is no multiple of 4: lend an aligned array" % name)
    return Lent(first, len(view))


def check_apart(**places):
    """Refuses places, each (ctypes object, bytes), that share memory: the library may not be lent one twice."""
    spans = sorted((ctypes.addressof(start), size, name) for name, (start, size) in places.items() if size)
    for (start, size, name), (after, _, other) in zip(spans, spans[1:]):
        if start + size > after:
            raise ValueError("%s and %s overlap: lend buffers of their own" % (name, other))
