"""Recordings: packets one behind the other, each behind its size (docs/FORMAT.md, "Recordings")."""

from __future__ import annotations

import ctypes
import dataclasses
from typing import Iterable, Iterator, NamedTuple, Union

from ._answers import Cause, FastcatError, Status
from ._library import RawAnswer, RawCounts, answer_of, library
from ._templates import bytes_of

# The most bytes of a size.
SIZE_LIMIT = 10


class Packet(NamedTuple):
    """Which packet it is, if that is known; of one of a recording also where its bytes begin, and whether all have come."""

    number: int | None = None
    begin: int | None = None
    is_whole: bool = True


def error_of(raw: RawAnswer, packet: Packet = Packet()) -> FastcatError:
    """What an answer says of a packet. In a recording the offset is counted from its begin, and a packet can end inside a message
    before the recording does."""
    answer = answer_of(raw)
    if packet.number is not None:
        answer = dataclasses.replace(answer, packet=packet.number, packets=packet.number - 1)
    if packet.begin is not None and answer.status is Status.STREAM_REFUSED:
        is_packets_end = packet.is_whole and answer.cause is Cause.Truncated
        cause = Cause.BlockEnd if is_packets_end else answer.cause
        answer = dataclasses.replace(answer, offset=packet.begin + answer.offset, cause=cause)
    return FastcatError(answer)


class Held:
    """The bytes of a recording that have come and are not taken."""

    def __init__(self, pieces: Iterable[Union[bytes, bytearray, memoryview]]) -> None:
        self._pieces = iter(pieces)
        self._bytes = bytearray()
        self._next = 0
        self.taken = 0

    def has(self, count: int) -> bool:
        """Whether so many come. No more pieces are asked for than that takes."""
        while len(self._bytes) - self._next < count:
            piece = next(self._pieces, None)
            if piece is None:
                return False
            del self._bytes[: self._next]
            self._next = 0
            self._bytes += bytes_of("recording", piece)
        return True

    def front(self, count: int) -> bytes:
        """So many, or all."""
        return bytes(self._bytes[self._next : self._next + count])

    def take(self, count: int) -> bytes:
        data = self.front(count)
        self._next += len(data)
        self.taken += len(data)
        return data


def packets_in(pieces: Iterable[Union[bytes, bytearray, memoryview]], mode: int) -> Iterator[tuple[Packet, bytes]]:
    """The packets of a recording. Of the last one not all bytes may have come.

    Raises `FastcatError` behind the packets before a size that is refused.
    """
    held, number = Held(pieces), 0
    counts, answer = RawCounts(), RawAnswer()
    while True:
        number += 1
        while True:
            front = held.front(SIZE_LIMIT)
            library.fastcat_packet_size(mode, front, len(front), ctypes.byref(counts), ctypes.byref(answer))
            if answer.cause != Cause.Truncated or not held.has(len(front) + 1):
                break
        if answer.cause == Cause.Truncated and not front:
            return
        if answer.status != Status.DONE:
            raise error_of(answer, Packet(number, held.taken, False))
        held.take(counts.used)
        packet = Packet(number, held.taken, held.has(counts.bytes))
        yield packet, held.take(counts.bytes)
