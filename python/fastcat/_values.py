"""Nodes of messages as Python's values. `_nodes.c` is the same in C."""

from __future__ import annotations

import decimal
import struct
from typing import Any, Callable, NoReturn

# Of a segment each field's name, and what is inside where it is a group or a sequence.
Layout = tuple[tuple[str, Any], ...]

# struct fastcat_node: kind, instruction, number, mantissa, length, exponent
NODE = struct.Struct("=IIQqIi")
MESSAGE, ABSENT, UINT32, UINT64, INT32, INT64, DECIMAL, ASCII, UNICODE, BYTES, GROUP, SEQUENCE, ELEMENT = range(13)
# A string of so many bytes that is told by its place again is one value.
LONG = 64

# Of a decimal's text, as it is: scaleb and Decimal's operators round by the context that is set.
EXACT = decimal.Context(prec=decimal.MAX_PREC, Emin=decimal.MIN_EMIN, Emax=decimal.MAX_EMAX)
exact_decimal: Callable[[str], decimal.Decimal] = EXACT.create_decimal


def no_message() -> NoReturn:
    raise ValueError("the nodes are not those of messages of these templates")


class Decoder:
    """Makes messages of nodes: of templates whose names and layouts stand by their identifiers. `decimal` makes a decimal of its
    text, as "450025E-2"; without it a decimal is a pair. Segments are dicts, or lists of pairs."""

    def __init__(
        self, layouts: dict[int, tuple[str, Layout]], decimal: Callable[[str], Any] | None, is_pairs: bool
    ) -> None:
        self._layouts = layouts
        self._decimal = decimal
        self._segment: Callable[[Layout, Any, bytes], Any] = self._pairs if is_pairs else self._dict
        self._placed: dict[tuple[int, int, int], str | bytes] = {}

    def decode(self, nodes: Any, count: int, data: Any, length: int, packet: int | None) -> list[dict[str, Any]]:
        """The messages of so many nodes at the front of a room, and so many bytes; with the number of their packet, if it has one.

        Raises `ValueError` where they are no messages of the templates.
        """
        node = NODE.iter_unpack(memoryview(nodes)[: count * NODE.size]).__next__
        front = bytes(memoryview(data)[:length])
        messages = []
        try:
            while True:
                try:
                    kind, number, *_ = node()
                except StopIteration:
                    return messages
                name, layout = self._layouts[number] if kind == MESSAGE else no_message()
                message: dict[str, Any] = {} if packet is None else {"packet": packet}
                message["template"], message["id"], message["fields"] = name, number, self._segment(layout, node, front)
                messages.append(message)
        except (KeyError, StopIteration):
            no_message()
        finally:
            self._placed.clear()

    def _dict(self, layout: Layout, node: Any, data: bytes) -> dict[str, Any]:
        return {name: self._value(inside, node, data) for name, inside in layout}

    def _pairs(self, layout: Layout, node: Any, data: bytes) -> list[tuple[str, Any]]:
        return [(name, self._value(inside, node, data)) for name, inside in layout]

    def _value(self, inside: Layout | None, node: Any, data: bytes) -> Any:
        kind, _, number, mantissa, length, exponent = node()
        if kind == UINT32 or kind == UINT64:
            return number
        if kind == INT32 or kind == INT64:
            return mantissa
        if kind == DECIMAL:
            return self._decimal(f"{mantissa}E{exponent}") if self._decimal else (mantissa, exponent)
        if kind == ABSENT:
            return None
        if ASCII <= kind <= BYTES:
            return self._string(kind, number, length, data)
        if kind == GROUP and inside is not None:
            return self._segment(inside, node, data)
        if kind == SEQUENCE and inside is not None:
            # (each element has a node of its own in front)
            return [self._segment(inside, node, data) if node()[0] == ELEMENT else no_message() for _ in range(number)]
        no_message()

    def _string(self, kind: int, number: int, length: int, data: bytes) -> str | bytes:
        place = number, length, kind
        if length >= LONG and place in self._placed:
            return self._placed[place]
        if number + length > len(data):
            no_message()
        string = data[number : number + length]
        value = string if kind == BYTES else string.decode()
        if length >= LONG:
            self._placed[place] = value
        return value
