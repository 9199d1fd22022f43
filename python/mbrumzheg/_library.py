"""Finds the shared library and declares its functions."""

from __future__ import annotations

import ctypes
import os
from pathlib import Path

NAME = "libmbrumzheg.so"
_ADVICE = f"""There are three ways to one:
- name the folder of a {NAME} in MBRUMZHEG_LIB;
- install one where the system's loader looks, or name its folder in LD_LIBRARY_PATH;
- put one into the folder of this package.
In the repository, tools/shared-library makes one and prints its folder."""

Numbers = ctypes.POINTER(ctypes.c_uint64)
Room = ctypes.POINTER(ctypes.c_uint8)
Bytes = ctypes.c_char_p
Length = ctypes.c_size_t
Number = ctypes.c_uint64

# each function's parameters; memory, account, text, room and record are a pointer and a length, and the last one is the row
_FUNCTIONS = {
    "mbrumzheg_arm": [Numbers, Length, Bytes, Length, Numbers],
    "mbrumzheg_clear": [Numbers, Length, Numbers],
    "mbrumzheg_order": [Numbers, Length, Number, Number, Number, Numbers],
    "mbrumzheg_lockout": [Numbers, Length, Number, Number, Number, Numbers],
    "mbrumzheg_offer": [Numbers, Length, Number, Number, Number, Number, Number, Numbers],
    "mbrumzheg_send": [Numbers, Length] + [Number] * 7 + [Numbers],
    "mbrumzheg_report": [Numbers, Length, Number, Number, Number, Numbers],
    "mbrumzheg_close": [Numbers, Length, Number, Number, Numbers],
    "mbrumzheg_accounted_order": [Numbers, Length, Numbers, Length] + [Number] * 3 + [Numbers],
    "mbrumzheg_accounted_lockout": [Numbers, Length, Numbers, Length] + [Number] * 3 + [Numbers],
    "mbrumzheg_accounted_offer": [Numbers, Length, Numbers, Length] + [Number] * 5 + [Numbers],
    "mbrumzheg_accounted_send": [Numbers, Length, Numbers, Length] + [Number] * 7 + [Numbers],
    "mbrumzheg_accounted_report": [Numbers, Length, Numbers, Length] + [Number] * 3 + [Numbers],
    "mbrumzheg_accounted_close": [Numbers, Length, Numbers, Length] + [Number] * 2 + [Numbers],
    "mbrumzheg_remaining": [Numbers, Length, Number, Number, Number, Numbers],
    "mbrumzheg_status": [Numbers, Length, Numbers],
    "mbrumzheg_root_named": [Numbers, Length, Bytes, Length, Numbers],
    "mbrumzheg_root_name": [Numbers, Length, Number, Room, Length, Numbers],
    "mbrumzheg_rule": [Numbers, Length, Number, Numbers],
    "mbrumzheg_profile": [Numbers, Length, Room, Length, Numbers],
    "mbrumzheg_text": [Number, Room, Length, Numbers],
    "mbrumzheg_read_record16": [Bytes, Length, Numbers],
    "mbrumzheg_write_record16": [Number] * 10 + [Room, Length, Numbers],
    "mbrumzheg_read_record": [Bytes, Length, Numbers],
    "mbrumzheg_write_record": [Number] * 8 + [Room, Length, Numbers],
    "mbrumzheg_widen": [Bytes, Length, Room, Length, Numbers],
    "mbrumzheg_narrow": [Bytes, Length, Room, Length, Numbers],
}


def _place() -> str:
    """Where the library is looked for: the folder that was named, this package's own, or wherever the system's loader looks."""
    named = os.environ.get("MBRUMZHEG_LIB")
    if named is not None:
        return str(Path(named) / NAME)
    own = Path(__file__).with_name(NAME)
    return str(own) if own.exists() else NAME


def load() -> ctypes.PyDLL:
    """The library, its functions declared. They keep the interpreter's lock, so no two calls run on one memory at the same time."""
    try:
        library = ctypes.PyDLL(_place())
    except OSError as error:
        raise ImportError(f"the library was not loaded: {error}\n{_ADVICE}") from error
    for name, parameters in _FUNCTIONS.items():
        function = getattr(library, name)
        function.argtypes = parameters
        function.restype = None
    return library
