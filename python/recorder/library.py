"""Where the shared library is found, and its loading, with the types of its calls: once, at the first call."""
from __future__ import annotations

import ctypes
import functools
import os
from .declarations import CALLS, Lent

NAME = "librecorder.so.2"
VARIABLE = "RECORDER_LIBRARY"
HERE = os.path.dirname(os.path.abspath(__file__))
# Where bin/install puts the package under a prefix.
INSTALLED = os.path.join("lib", "python3", "dist-packages", "recorder")


def place() -> str:
    """Where the library of this package is: in PREFIX/lib if it is installed, else what bin/install makes in the build's folder."""
    if HERE.endswith(os.sep + INSTALLED):
        return os.path.join(HERE[:-len(INSTALLED)], "lib", NAME)
    return os.path.normpath(os.path.join(HERE, "../../target/install", NAME))


def found() -> str:
    """The library's file: what RECORDER_LIBRARY names, else the package's own if it is there, else its name, for which the loader searches."""
    return os.environ.get(VARIABLE, "") or (place() if os.path.exists(place()) else NAME)


def opened(name: str) -> ctypes.CDLL:
    """A library by its file, or OSError with words on what to do."""
    try:
        return ctypes.CDLL(name)
    except OSError as error:
        looked = "named by %s" % VARIABLE if os.environ.get(VARIABLE) else "looked for as %s and where the loader looks" % place()
        raise OSError("the recorder's library cannot be loaded (%s), %s: run bin/install PREFIX, or let %s name %s"
                      % (error, looked, VARIABLE, NAME)) from None


@functools.lru_cache(maxsize=None)
def library() -> ctypes.CDLL:
    """The loaded library, with the types of its calls."""
    name = found()
    loaded = opened(name)
    for call, (gives, takes) in CALLS.items():
        if not hasattr(loaded, call):
            raise OSError("%s has no call %s: it is of another version" % (name, call))
        function = getattr(loaded, call)
        function.restype = gives
        function.argtypes = [part for kind in takes.values()
                             for part in ((ctypes.c_void_p, ctypes.c_size_t) if isinstance(kind, Lent) else (kind,))]
    return loaded
