"""Templates: their text, and sets that were read once."""

from __future__ import annotations

import contextlib
import ctypes
import dataclasses
import os
import pathlib
import threading
import warnings
from typing import Any, Iterable, Iterator, Literal, Sequence, Union

from . import xml_templates
from ._answers import FastcatError, Status
from ._library import RawAnswer, RawField, RawSet, RawSizes, answer_of, call, library

# A text in JSON or XML, or a file that has one.
Text = Union[str, bytes, bytearray, memoryview, os.PathLike[str]]
Kind = Literal[
    "uInt32", "uInt64", "int32", "int64", "decimal", "ascii", "unicode", "byteVector", "group", "sequence"
]

# By the numbers of enum fastcat_kind.
KINDS: dict[int, Kind] = {
    2: "uInt32",
    3: "uInt64",
    4: "int32",
    5: "int64",
    6: "decimal",
    7: "ascii",
    8: "unicode",
    9: "byteVector",
    10: "group",
    11: "sequence",
}


class XmlError(ValueError):
    """Templates in XML that JSON cannot say, or that are no XML: the line, from 1, and what is wrong."""

    def __init__(self, line: int, words: str) -> None:
        self.line = line
        self.words = words
        super().__init__(line, words)

    def __str__(self) -> str:
        return f"line {self.line}: {self.words}"


class XmlWarning(UserWarning):
    """What a user of templates in XML must know, though they are read."""


def bytes_of(what: str, data: Any) -> bytes:
    # bytes(5) would be five zeros, and a text has no bytes before it is encoded.
    if isinstance(data, (str, int)):
        raise TypeError(f"{what}: bytes are wanted, not {type(data).__name__}; of hex text bytes.fromhex makes them")
    return bytes(data)


def text_of(templates: Text) -> bytes:
    """The text of templates, in JSON."""
    if isinstance(templates, os.PathLike):
        templates = pathlib.Path(templates).read_bytes()
    data = templates.encode() if isinstance(templates, str) else bytes_of("templates", templates)
    return json_of_xml(templates).encode() if is_xml(data) else data


def is_xml(data: bytes) -> bool:
    """Whether a text begins with <, behind marks of an encoding, blanks and the zeros of UTF-16. No JSON does."""
    return data.lstrip(b"\xef\xbb\xbf\xff\xfe\0 \t\r\n").startswith(b"<")


def json_of_xml(templates: Text, drop: Iterable[str] = ()) -> str:
    """The JSON of templates in the XML of FAST 1.1 (docs/FORMAT.md, "Templates in XML"), without the attributes of the names
    that are dropped.

    Raises `XmlError`, and warns by `XmlWarning`.
    """
    dropped = frozenset([drop] if isinstance(drop, str) else drop)
    for name in dropped & xml_templates.OWN_ATTRIBUTES:
        raise ValueError(f"drop: {name} is FAST's own, and what it says would be lost")
    if not xml_templates.is_able():
        raise RuntimeError("Python's expat has to be 2.4.1 or later")
    if isinstance(templates, os.PathLike):
        templates = pathlib.Path(templates).read_bytes()
    if isinstance(templates, str):
        # (the encoding that a text declares is that of a file it was in)
        data = "\ufeff".encode() + templates.removeprefix("\ufeff").encode()
    else:
        data = bytes_of("templates", templates)
    try:
        text, told = xml_templates.converted(data, dropped)
    except xml_templates.Refusal as refusal:
        raise XmlError(refusal.line, refusal.words) from None
    for line, words in told:
        warnings.warn(f"line {line}: {words}", XmlWarning, stacklevel=2)
    return text


@dataclasses.dataclass(frozen=True)
class Field:
    """A field of a template: its name, its kind, the number of its instruction, whether a message may lack it, and of a group
    or a sequence the fields inside."""

    name: str
    kind: Kind
    number: int
    optional: bool
    fields: tuple[Field, ...] = ()


class Templates:
    """Templates that are read once, of a text in JSON or in XML, as `str` or bytes, or of a file, as `os.PathLike`.

    Each function takes them in the place of a text, in any thread. `close` frees them, or the end of a `with` block, or of the
    object; a call in another thread has them until it returns.
    """

    def __init__(self, templates: Text) -> None:
        self._set = RawSet()
        self._lock = threading.Lock()
        self._read: list[tuple[str, int | None, tuple[Field, ...]]] | None = None
        text = text_of(templates)
        answer = call(library.fastcat_set_new, text, len(text), ctypes.byref(self._set))
        if answer.status is not Status.DONE:
            raise FastcatError(answer)

    def _share(self) -> RawSet:
        """A handle for one call, since each is lent to one call at a time."""
        share = RawSet()
        with self._lock:
            status = library.fastcat_set_share(ctypes.byref(self._set), ctypes.byref(share))
        if status != Status.DONE:
            raise FastcatError(answer_of(RawAnswer(status=status)))
        return share

    def _templates(self) -> list[tuple[str, int | None, tuple[Field, ...]]]:
        """Each template's name, its identifier and its fields."""
        if self._read is None:
            with given(self) as (_, arguments):
                self._read = told_templates(*arguments)
        return self._read

    @property
    def names(self) -> tuple[str, ...]:
        """The names of the templates, in their order."""
        return tuple(name for name, _, _ in self._templates())

    @property
    def ids(self) -> dict[int, str]:
        """The names of the templates that have an identifier, by it."""
        return {number: name for name, number, _ in self._templates() if number is not None}

    def fields(self, template: str | int) -> tuple[Field, ...]:
        """The fields of the template of a name or an identifier, in the order of their values in a message. References are
        replaced by what they stand for.

        Raises `KeyError` where there is none.
        """
        for name, number, fields in self._templates():
            if template == (name if isinstance(template, str) else number):
                return fields
        raise KeyError(template)

    def close(self) -> None:
        """Frees the templates; a call with them is refused afterwards. It may be called again."""
        with self._lock:
            library.fastcat_set_free(ctypes.byref(self._set))

    def __del__(self) -> None:
        self.close()

    def __enter__(self) -> Templates:
        return self

    def __exit__(self, *error: object) -> None:
        self.close()

    def __reduce__(self) -> str | tuple[Any, ...]:
        raise TypeError("templates that were read are not copied; their text is")


@contextlib.contextmanager
def given(templates: Text | Templates) -> Iterator[tuple[str, tuple[Any, ...]]]:
    """How the library's functions for templates are named that are read or a text, and the arguments that say which."""
    if not isinstance(templates, Templates):
        text = text_of(templates)
        yield "fastcat_", (text, len(text))
        return
    share = templates._share()
    try:
        yield "fastcat_set_", (ctypes.byref(share),)
    finally:
        library.fastcat_set_free(ctypes.byref(share))


def told_rows(handle: Any) -> tuple[Sequence[RawField], bytes]:
    """The fields of the templates behind a handle, and their names."""
    sizes = RawSizes()
    rows, names = (RawField * 0)(), ctypes.create_string_buffer(0)
    status = library.fastcat_set_fields(handle, rows, 0, names, 0, ctypes.byref(sizes))
    if status == Status.ROOM_TOO_SHORT:
        rows, names = (RawField * sizes.fields)(), ctypes.create_string_buffer(sizes.names)
        status = library.fastcat_set_fields(handle, rows, sizes.fields, names, sizes.names, ctypes.byref(sizes))
    if status != Status.DONE:
        raise FastcatError(answer_of(RawAnswer(status=status)))
    return rows, names.raw


def told_templates(handle: Any) -> list[tuple[str, int | None, tuple[Field, ...]]]:
    """Each template behind a handle: its name, its identifier and its fields."""
    rows, names = told_rows(handle)

    def name_of(row: RawField) -> str:
        return names[row.name : row.name + row.name_length].decode("ascii")

    def level(at: int, end: int) -> Iterator[tuple[RawField, tuple[Field, ...]]]:
        """The rows of one level, each with the fields that are its own."""
        while at < end:
            row = rows[at]
            behind = at + 1 + row.length
            yield row, tuple(field_of(*it) for it in level(at + 1, behind))
            at = behind

    def field_of(row: RawField, inside: tuple[Field, ...]) -> Field:
        return Field(name_of(row), KINDS[row.kind], row.instruction, row.optional == 1, inside)

    return [(name_of(row), row.instruction if row.optional else None, inside) for row, inside in level(0, len(rows))]
