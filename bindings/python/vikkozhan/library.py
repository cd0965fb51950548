"""The library's shared object: where it is, its functions, its version."""
import collections
import ctypes
import functools
import os
import pathlib

from .state import State

MAJOR = 1  # of the header that this package follows
PLACE = pathlib.Path(__file__).resolve().parents[3] / "crates" / "vikkozhan" / "out" / "libvikkozhan.so"


class LibraryError(Exception):
    """The library is not there, cannot be loaded or is of another major version."""


class Answer(ctypes.Structure):
    """What a call reports."""

    _fields_ = [("number", ctypes.c_uint32), ("kind", ctypes.c_uint32), ("samples", ctypes.c_uint32)]


class Version(collections.namedtuple("Version", "major minor patch")):
    __slots__ = ()

    def __str__(self):
        return "%d.%d.%d" % self


def version():
    """The version of the library that is loaded: Version(major, minor, patch)."""
    return version_of(library())


def version_of(loaded):
    number = loaded.vikkozhan_version()
    return Version(number >> 16, number >> 8 & 255, number & 255)


@functools.lru_cache(maxsize=None)
def library():
    """The library, loaded once. ctypes lets go of the interpreter's lock while a call runs, so threads with states of
    their own run side by side."""
    name = os.environ.get("VIKKOZHAN_LIBRARY")
    if not name and not PLACE.exists():
        raise LibraryError("no %s: run `rt lib` in crates/vikkozhan and then `bindings/python/build`, in %s"
                           % (PLACE, PLACE.parents[3]))
    try:
        loaded = declared(ctypes.CDLL(name or str(PLACE)))
    except (OSError, AttributeError) as error:
        source = "VIKKOZHAN_LIBRARY names %s" % name if name else str(PLACE)
        raise LibraryError("%s, which cannot be used: %s" % (source, error)) from None
    found = version_of(loaded)
    if found.major != MAJOR:
        raise LibraryError("%s is version %s, and this package is for version %d: build both from the same sources"
                           % (name or PLACE, found, MAJOR))
    return loaded


def declared(loaded):
    """The library with the types of its functions, as include/vikkozhan.h has them."""
    size, float_pointer = ctypes.c_size_t, ctypes.POINTER(ctypes.c_float)
    loaded.vikkozhan_version.restype = ctypes.c_uint32
    loaded.vikkozhan_version.argtypes = []
    loaded.vikkozhan_decode_lost.restype = ctypes.c_int
    loaded.vikkozhan_decode_lost.argtypes = [
        ctypes.POINTER(State), float_pointer, size, float_pointer, size, ctypes.POINTER(Answer)]
    loaded.vikkozhan_answer.restype = size
    loaded.vikkozhan_answer.argtypes = [ctypes.c_void_p, size, ctypes.c_void_p, size]
    return loaded
