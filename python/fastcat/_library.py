"""The shared library: where it is, and its functions as ctypes calls them."""

from __future__ import annotations

import ctypes
import os
import pathlib
from typing import Any, Callable

from ._answers import Answer, Cause, Status

# What the library calls itself whose functions these are; include/fastcat.h has the version.
CALLED = "libfastcat.so.0.2"


class RawAnswer(ctypes.Structure):
    """struct fastcat_answer."""

    _fields_ = [(name, ctypes.c_uint64) for name in ("messages", "read", "written", "message", "offset")] + [
        (name, ctypes.c_uint32) for name in ("status", "cause", "template", "instruction")
    ] + [(name, ctypes.c_uint64) for name in ("packets", "packet")]


class RawSet(ctypes.Structure):
    """struct fastcat_set, a handle of templates: zeros, or made by the library."""

    _fields_ = [("at", ctypes.c_void_p), ("there", ctypes.c_uint32)]


class RawField(ctypes.Structure):
    """struct fastcat_field."""

    _fields_ = [
        ("kind", ctypes.c_uint32),
        ("instruction", ctypes.c_uint32),
        ("name", ctypes.c_uint64),
        ("name_length", ctypes.c_uint64),
        ("optional", ctypes.c_uint32),
        ("length", ctypes.c_uint32),
    ]


class RawSizes(ctypes.Structure):
    """struct fastcat_sizes."""

    _fields_ = [(name, ctypes.c_uint64) for name in ("templates", "fields", "names")]


class RawReader(ctypes.Structure):
    """struct fastcat_reader, a handle as that of templates."""

    _fields_ = [("at", ctypes.c_void_p), ("there", ctypes.c_uint32)]


class RawCounts(ctypes.Structure):
    """struct fastcat_counts."""

    _fields_ = [(name, ctypes.c_uint64) for name in ("used", "messages", "nodes", "bytes")]


def places() -> list[str]:
    """Where the library may be: what FASTCAT_LIBRARY names, and nothing else; or in this folder, in the repository's lib/, or
    where the loader looks."""
    named = os.environ.get("FASTCAT_LIBRARY")
    if named:
        return [str(pathlib.Path(named).resolve())]
    here = pathlib.Path(__file__).resolve().parent
    return [str(here / "libfastcat.so"), str(here.parent.parent / "lib" / "libfastcat.so"), CALLED]


def found() -> ctypes.CDLL:
    for place in places():
        # (what has a path is loaded if it is there: that it cannot be is told as it is)
        if os.sep in place and not os.path.exists(place):
            continue
        try:
            return ctypes.CDLL(place)
        except OSError:
            if os.sep in place:
                raise
    raise ImportError("no library at " + " or ".join(places()) + "; lib/build makes it")


def version_of(library: ctypes.CDLL) -> str:
    number = library.fastcat_version()
    return f"{number // 10_000}.{number // 100 % 100}.{number % 100}"


def load() -> ctypes.CDLL:
    """The library, whose functions know what they are given."""
    library = found()
    of = version_of(library)
    if CALLED != "libfastcat.so." + of.rpartition(".")[0]:
        raise ImportError(f"the library is of version {of}, and this package is for {CALLED}")
    slice_in = [ctypes.c_char_p, ctypes.c_size_t]
    room = [ctypes.c_void_p, ctypes.c_size_t]
    answer = [ctypes.POINTER(RawAnswer)]
    handle = [ctypes.POINTER(RawSet)]
    functions: dict[str, list[Any]] = {
        "fastcat_templates": slice_in + answer,
        "fastcat_version": [],
        "fastcat_set_new": slice_in + handle + answer,
        "fastcat_set_share": handle + handle,
        "fastcat_set_free": handle,
        "fastcat_set_fields": handle + room + room + [ctypes.POINTER(RawSizes)],
    }
    reader = [ctypes.POINTER(RawReader)]
    counts = [ctypes.POINTER(RawCounts)]
    functions |= {
        "fastcat_reader_new": handle + [ctypes.c_uint32, ctypes.c_uint64] + reader,
        # (by an address, so that a chunk is fed on from any place)
        "fastcat_reader_feed": reader + [ctypes.c_void_p, ctypes.c_size_t] + counts + answer,
        "fastcat_reader_packet": reader + [ctypes.c_void_p, ctypes.c_size_t] + counts + answer,
        "fastcat_packet_size": [ctypes.c_uint32] + slice_in + counts + answer,
        "fastcat_reader_take": reader + room + room + counts,
        "fastcat_reader_finish": reader + answer,
        "fastcat_reader_reset": reader,
        "fastcat_reader_free": reader,
    }
    for name, arguments in (
        ("canon", [ctypes.c_uint32] + slice_in + room + answer),
        ("check", [ctypes.c_uint32] + slice_in + answer),
        ("show", [ctypes.c_uint32] + slice_in + room + answer),
        ("write", [ctypes.c_uint32] + slice_in + room + answer),
    ):
        functions[f"fastcat_{name}"] = slice_in + arguments
        functions[f"fastcat_set_{name}"] = handle + arguments
    for name, arguments in functions.items():
        function = getattr(library, name)
        function.argtypes = arguments
        function.restype = None if name.endswith("_free") else ctypes.c_uint32
    return library


library = load()


def answer_of(raw: RawAnswer) -> Answer:
    values = {name: getattr(raw, name) for name, _ in RawAnswer._fields_}
    values["status"] = Status(values["status"])
    values["cause"] = Cause(values["cause"])
    return Answer(**values)


def call(function: Callable[..., int], *arguments: Any) -> Answer:
    """Calls a function that is given an answer last."""
    raw = RawAnswer()
    function(*arguments, ctypes.byref(raw))
    return answer_of(raw)
