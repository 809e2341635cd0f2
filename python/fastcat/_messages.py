"""Messages of streams and packets as data."""

from __future__ import annotations

import collections.abc
import ctypes
import os
import threading
from typing import Any, Iterable, Iterator, Literal, Union

from ._answers import Cause, Status
from ._calls import mode_of
from ._library import RawAnswer, RawCounts, RawReader, library
from ._recordings import Packet, error_of, packets_in
from ._templates import Field, Templates, Text, bytes_of
from ._values import NODE, Layout, exact_decimal

try:
    from ._nodes import Decoder
except ImportError:
    # (it was not built: there was no compiler)
    from ._values import Decoder

# What gives the bytes of a stream.
Source = Union[bytes, bytearray, memoryview, os.PathLike[str], Any, Iterable[Union[bytes, bytearray, memoryview]]]
Decimals = Literal["Decimal", "pair"]
Fields = Literal["dict", "pairs"]


def layout_of(fields: tuple[Field, ...]) -> Layout:
    return tuple((it.name, layout_of(it.fields) if it.kind in ("group", "sequence") else None) for it in fields)


def name_that_stands_twice(layout: Layout) -> str | None:
    """A name that two fields of one segment have, of which a dict would lose one."""
    names = set()
    for name, inside in layout:
        found = name if name in names else name_that_stands_twice(inside or ())
        if found is not None:
            return found
        names.add(name)
    return None


class Reader:
    """Is fed chunks of a stream, however they are cut, or packets, and gives the messages that they end.

    A message is a dict of `template`, its name, `id` and `fields`. Decimals are `decimal.Decimal` with all their digits, or with
    `decimals="pair"` a mantissa and an exponent; byte vectors are bytes; what is left out is None; a group is a dict, a sequence
    a list of dicts. With `fields="pairs"` a list of names and values stands for each dict: templates in which a name stands
    twice are read so only.

    A message whose strings have more than `most_bytes` (0: 64 MiB) is refused.
    """

    def __init__(
        self,
        templates: Text | Templates,
        *,
        strict: bool = False,
        blocks: bool = False,
        decimals: Decimals = "Decimal",
        fields: Fields = "dict",
        most_bytes: int = 0,
    ) -> None:
        self._reader = RawReader()
        self._lock = threading.Lock()
        self._is_open = False
        self._nodes, self._bytes = ctypes.create_string_buffer(1 << 16), ctypes.create_string_buffer(1 << 12)
        if decimals not in ("Decimal", "pair") or fields not in ("dict", "pairs"):
            raise ValueError('decimals are "Decimal" or "pair", and fields "dict" or "pairs"')
        is_pairs = fields == "pairs"
        read = templates if isinstance(templates, Templates) else Templates(templates)
        layouts = {number: (name, layout_of(read.fields(number))) for number, name in read.ids.items()}
        if not is_pairs:
            for name, layout in layouts.values():
                twice = name_that_stands_twice(layout)
                if twice is not None:
                    raise ValueError(f'templates: the name "{twice}" stands twice in "{name}"; fields="pairs" keeps both')
        share = read._share()
        try:
            status = library.fastcat_reader_new(
                ctypes.byref(share), mode_of(strict, blocks, False), most_bytes, ctypes.byref(self._reader)
            )
        finally:
            library.fastcat_set_free(ctypes.byref(share))
        if status != Status.DONE:
            raise error_of(RawAnswer(status=status))
        self._decoder = Decoder(layouts, exact_decimal if decimals == "Decimal" else None, is_pairs)

    def feed(self, chunk: bytes | bytearray | memoryview) -> Iterator[dict[str, Any]]:
        """The messages that the next bytes end. They are read as they are taken: take all before the next call.

        Raises `FastcatError` behind the messages before a fault, and at each later call until a reset.
        """
        return self._read(library.fastcat_reader_feed, bytes_of("chunk", chunk), None)

    def packet(self, data: bytes | bytearray | memoryview, number: int | None = None) -> Iterator[dict[str, Any]]:
        """The messages of a packet, which is a stream of its own, from undefined entries. With a number they say it first, as
        `packet`, and so does an error; `message` and `offset` of an error are those in the packet.

        Raises `FastcatError` behind the messages before a fault; the next packet may be read then.
        """
        return self._packet(Packet(number), bytes_of("packet", data))

    def _packet(self, packet: Packet, data: bytes) -> Iterator[dict[str, Any]]:
        return self._read(library.fastcat_reader_packet, data, packet)

    def _read(self, call: Any, data: bytes, packet: Packet | None) -> Iterator[dict[str, Any]]:
        if self._is_open:
            raise RuntimeError("the messages of the last chunk are not all taken")
        self._is_open = True
        counts, answer = RawCounts(), RawAnswer()
        address, at = ctypes.c_char_p(data), 0
        start = ctypes.cast(address, ctypes.c_void_p).value or 0
        number, ended = packet.number if packet is not None else None, 0
        while True:
            with self._lock:
                status = call(ctypes.byref(self._reader), start + at, len(data) - at, ctypes.byref(counts), ctypes.byref(answer))
                at += counts.used
                ended += counts.messages
                read = self._take(counts, number) if counts.messages else ()
            yield from read
            if status != Status.DONE or at >= len(data):
                break
            # (of a packet the rest is fed)
            call = library.fastcat_reader_feed
        self._is_open = False
        if status == Status.DONE and packet is not None:
            status = self._finish(answer)
            if status == Status.DONE and not packet.is_whole:
                # (a message has ended, and its packet has not)
                status = Status.STREAM_REFUSED
                answer = RawAnswer(status=status, cause=Cause.Truncated, messages=ended, message=ended + 1, offset=len(data))
        if status != Status.DONE:
            raise error_of(answer, packet or Packet())

    def _take(self, waiting: RawCounts, packet: int | None) -> list[dict[str, Any]]:
        """The messages that wait."""
        if waiting.nodes * NODE.size > len(self._nodes):
            self._nodes = ctypes.create_string_buffer(2 * waiting.nodes * NODE.size)
        if waiting.bytes > len(self._bytes):
            self._bytes = ctypes.create_string_buffer(2 * waiting.bytes)
        taken = RawCounts()
        status = library.fastcat_reader_take(
            ctypes.byref(self._reader), self._nodes, len(self._nodes) // NODE.size, self._bytes, len(self._bytes), ctypes.byref(taken)
        )
        if status != Status.DONE:
            raise error_of(RawAnswer(status=status))
        return self._decoder.decode(self._nodes, taken.nodes, self._bytes, taken.bytes, packet)

    def _finish(self, answer: RawAnswer) -> int:
        with self._lock:
            return int(library.fastcat_reader_finish(ctypes.byref(self._reader), ctypes.byref(answer)))

    def finish(self) -> None:
        """The end of the stream.

        Raises `FastcatError` of the cause Truncated inside a message or a block.
        """
        answer = RawAnswer()
        if self._finish(answer) != Status.DONE:
            raise error_of(answer)

    def reset(self) -> None:
        """The beginning of a new stream, from undefined entries. What waits is forgotten."""
        with self._lock:
            status = library.fastcat_reader_reset(ctypes.byref(self._reader))
        if status != Status.DONE:
            raise error_of(RawAnswer(status=status))
        self._is_open = False

    def close(self) -> None:
        """Frees the reader. It may be called again."""
        with self._lock:
            library.fastcat_reader_free(ctypes.byref(self._reader))

    def __del__(self) -> None:
        self.close()

    def __enter__(self) -> Reader:
        return self

    def __exit__(self, *error: object) -> None:
        self.close()


def chunks_of(stream: Source, size: int) -> Iterator[bytes | bytearray | memoryview]:
    """The bytes of a stream, as they come."""
    if isinstance(stream, os.PathLike):
        with open(stream, "rb") as file:
            yield from iter(lambda: file.read(size), b"")
    elif isinstance(stream, (bytes, bytearray, memoryview)):
        view = memoryview(stream)
        yield from (view[at : at + size] for at in range(0, len(view), size))
    elif hasattr(stream, "read1") or hasattr(stream, "read"):
        read = getattr(stream, "read1", None) or stream.read
        yield from iter(lambda: read(size), b"")
    elif hasattr(stream, "recv"):
        yield from iter(lambda: stream.recv(size), b"")
    elif isinstance(stream, collections.abc.Iterable) and not isinstance(stream, str):
        yield from stream
    else:
        raise TypeError(f"stream: bytes, a path, a file, a socket or pieces are wanted, not {type(stream).__name__}")


def packets_of(stream: Source, size: int, mode: int) -> Iterator[tuple[Packet, bytes]]:
    """The packets of a recording, or of an iterable."""
    is_file = isinstance(stream, os.PathLike) or hasattr(stream, "read1") or hasattr(stream, "read")
    if is_file or isinstance(stream, (bytes, bytearray, memoryview)):
        yield from packets_in(chunks_of(stream, size), mode)
    elif isinstance(stream, collections.abc.Iterable) and not isinstance(stream, str) and not hasattr(stream, "recv"):
        yield from ((Packet(number), bytes_of("packet", data)) for number, data in enumerate(stream, 1))
    else:
        raise TypeError(f"stream: a recording or packets one after the other are wanted, not {type(stream).__name__}")


def messages(
    templates: Text | Templates,
    stream: Source,
    *,
    strict: bool = False,
    blocks: bool = False,
    packets: bool = False,
    decimals: Decimals = "Decimal",
    fields: Fields = "dict",
    most_bytes: int = 0,
    chunk: int = 65536,
) -> Iterator[dict[str, Any]]:
    """The messages of a stream: of bytes, of a file by its path or as it is open, of a socket, or of pieces one after the other.
    With `packets` bytes and a file are a recording, of packets each behind its size, and an iterable is packets, as datagrams are.
    Each is a stream of its own, and messages say their packet's number first, from 1, as `packet`; so do errors, whose offset is
    that in the recording, or of an iterable in the packet.

    Nothing of the stream is held but the chunk that is read, and a message or a packet that is not whole. `Reader` tells of
    messages.

    Raises `FastcatError` behind the messages before a fault.
    """
    with Reader(templates, strict=strict, blocks=blocks, decimals=decimals, fields=fields, most_bytes=most_bytes) as reader:
        if packets:
            for packet, data in packets_of(stream, chunk, mode_of(strict, blocks, False)):
                yield from reader._packet(packet, data)
            return
        for piece in chunks_of(stream, chunk):
            yield from reader.feed(piece)
        reader.finish()
