"""Whole streams, recordings and lines in memory."""

from __future__ import annotations

import collections.abc
import ctypes
import decimal
import json as _json
from typing import Any, Iterable, Union

from ._answers import Answer, FastcatError, Status
from ._library import call, library
from ._templates import Templates, Text, bytes_of, given, text_of

Bytes = Union[bytes, bytearray, memoryview]
# A message as a dict, or as its line.
Message = Union[collections.abc.Mapping[str, Any], str, Bytes]


def mode_of(strict: bool, blocks: bool, packets: bool, json: bool = False) -> int:
    return (1 if strict else 0) | (2 if blocks else 0) | (4 if json else 0) | (8 if packets else 0)


def written_by(name: str, templates: Text | Templates, data: bytes, mode: int) -> memoryview:
    """What a function writes into a room, which is grown until it is enough."""
    length = max(len(data), 64)
    with given(templates) as (kind, arguments):
        function = getattr(library, kind + name)
        while True:
            room = ctypes.create_string_buffer(length)
            answer = call(function, *arguments, mode, data, len(data), room, length)
            if answer.status is not Status.ROOM_TOO_SHORT:
                break
            length = answer.written
    written = memoryview(room)[: answer.written]
    if answer.status is not Status.DONE:
        raise FastcatError(answer, bytes(written))
    return written


def canon(
    templates: Text | Templates, stream: Bytes, strict: bool = False, blocks: bool = False, packets: bool = False
) -> bytes:
    """The canonical bytes of a stream, or with `packets` of a recording."""
    return bytes(written_by("canon", templates, bytes_of("stream", stream), mode_of(strict, blocks, packets)))


def show(
    templates: Text | Templates,
    stream: Bytes,
    strict: bool = False,
    blocks: bool = False,
    packets: bool = False,
    json: bool = False,
) -> str:
    """A line for each message of a stream or a recording: of text, in ASCII, or a JSON text, which with `packets` says its
    packet first."""
    return str(written_by("show", templates, bytes_of("stream", stream), mode_of(strict, blocks, packets, json)), "utf-8")


def in_json(value: Any) -> Any:
    """A value of a message as JSON has it. Decimals and byte vectors stand in strings, so that no digit is lost."""
    if isinstance(value, float):
        raise TypeError(f"messages: {value!r} has lost the digits that were sent; decimal.Decimal keeps them")
    if isinstance(value, decimal.Decimal):
        return str(value)
    if isinstance(value, (bytes, bytearray, memoryview)):
        return bytes(value).hex()
    if isinstance(value, collections.abc.Mapping):
        return {name: in_json(inner) for name, inner in value.items()}
    if isinstance(value, (list, tuple)):
        return [in_json(inner) for inner in value]
    return value


def line_of(message: Message) -> bytes:
    """The line of a message, which is a dict or a line of text."""
    if isinstance(message, collections.abc.Mapping):
        return _json.dumps(in_json(message)).encode() + b"\n"
    if not isinstance(message, (str, bytes, bytearray, memoryview)):
        raise TypeError(f"messages: each is a dict or a line of text, not {type(message).__name__}")
    line = (message.encode() if isinstance(message, str) else bytes(message)).removesuffix(b"\n")
    if b"\n" in line:
        raise ValueError("messages: an item is one line, and has no line feed within it")
    return line + b"\n"


def lines_of(messages: str | Bytes | Iterable[Message]) -> bytes:
    """The lines of messages, one for each, or those of a text."""
    if isinstance(messages, str):
        return messages.encode()
    if isinstance(messages, (bytes, bytearray, memoryview)):
        return bytes(messages)
    # (a dict is one message, and would be taken for a list of its keys)
    if isinstance(messages, collections.abc.Mapping) or not isinstance(messages, collections.abc.Iterable):
        raise TypeError(f"messages: messages one after the other or a text of lines are wanted, not {type(messages).__name__}")
    return b"".join(map(line_of, messages))


def write(templates: Text | Templates, messages: str | Bytes | Iterable[Message], packets: bool = False) -> bytes:
    """The canonical bytes of messages, or with `packets` their canonical recording.

    A message is a dict of `template` or `id` or both, and `fields`, and with `packets` of `packet`, the number of its packet,
    as `json.loads` of a line of `show(.., json=True)` gives it with `parse_float=decimal.Decimal`; or such a line, as `str`
    or bytes. Decimals are `decimal.Decimal` or `int`, and a `float` is a `TypeError`. A byte vector is bytes, or hex text.
    `messages` may also be a text of lines. Where one is refused, the answer's `message` is its place, from 1, or its line's.
    """
    return bytes(written_by("write", templates, lines_of(messages), mode_of(False, False, packets, True)))


def check(
    templates: Text | Templates, stream: Bytes, strict: bool = False, blocks: bool = False, packets: bool = False
) -> Answer:
    """How many messages and bytes a stream has, or packets a recording, and in `written` how many canonical bytes."""
    data = bytes_of("stream", stream)
    with given(templates) as (kind, arguments):
        answer = call(
            getattr(library, kind + "check"), *arguments, mode_of(strict, blocks, packets), data, len(data)
        )
    if answer.status is not Status.DONE:
        raise FastcatError(answer)
    return answer


def check_templates(templates: Text | Templates) -> None:
    """Returns where a template text has templates, and raises where it is refused. Templates that were read are not freed."""
    if isinstance(templates, Templates):
        with given(templates):
            return
    text = text_of(templates)
    answer = call(library.fastcat_templates, text, len(text))
    if answer.status is not Status.DONE:
        raise FastcatError(answer)
