"""What calls of the library answer. The numbers are those of include/fastcat.h."""

from __future__ import annotations

import dataclasses
import enum


class Status(enum.IntEnum):
    """How a call ended."""

    DONE = 0
    STREAM_REFUSED = 1
    TEMPLATES_REFUSED = 2
    ROOM_TOO_SHORT = 3
    NO_MEMORY = 4
    UNKNOWN_MODE = 5
    STREAM_TOO_LONG = 6
    LINE_REFUSED = 7
    WRONG_HANDLE = 8
    NO_MESSAGE = 9
    MESSAGE_TOO_LARGE = 10


class Cause(enum.IntEnum):
    """Why a stream, a line or templates are refused; docs/FORMAT.md, "Causes" and "Lines that are written"."""

    NONE = 0
    D2 = 1
    D4 = 2
    D5 = 3
    D6 = 4
    D7 = 5
    D9 = 6
    D12 = 7
    R1 = 8
    R2 = 9
    R6 = 10
    R7 = 11
    R8 = 12
    R9 = 13
    BlockEnd = 14
    Truncated = 15
    Limit = 16
    S1 = 101
    S2 = 102
    S3 = 103
    S4 = 104
    S5 = 105
    D8 = 106
    DuplicateName = 107
    DuplicateId = 108
    Cycle = 109
    TooDeep = 110
    TooMany = 111
    Json = 201
    Line = 202
    Member = 203
    Mismatch = 204
    D3 = 205
    NotConstant = 206
    TooShort = 207


@dataclasses.dataclass(frozen=True)
class Answer:
    """What a call answers. What it says nothing of is 0.

    `messages`, of a refused stream or packet those before the fault; `packets`, of a recording, of a refused one those
    before the packet that is refused; `read`, the bytes of a stream that was read to its end;
    `written`, the bytes that were written, of a check the canonical bytes, of a room that is too short those that are
    needed. Where a stream is refused: `packet`, of a recording, from 1, `message`, from 1 (in its packet), `offset`, the
    bytes before the piece that is refused, `template`, its identifier, and `instruction`. Where a line is: `message`, the
    line's number, from 1, `template` and `instruction`. Where templates are: `template`, the place in the list, from 1, and
    `instruction`.
    """

    messages: int
    read: int
    written: int
    message: int
    offset: int
    status: Status
    cause: Cause
    template: int
    instruction: int
    packets: int
    packet: int


class FastcatError(Exception):
    """A call that did not end well: its answer, and what was written before a fault of the stream or a refused line.

    What the answer says of why and where are attributes of the error too.
    """

    def __init__(self, answer: Answer, written: bytes = b"") -> None:
        self.answer = answer
        self.written = written
        super().__init__(answer)

    @property
    def status(self) -> Status:
        return self.answer.status

    @property
    def cause(self) -> Cause:
        return self.answer.cause

    @property
    def packet(self) -> int:
        return self.answer.packet

    @property
    def message(self) -> int:
        return self.answer.message

    @property
    def offset(self) -> int:
        return self.answer.offset

    @property
    def template(self) -> int:
        return self.answer.template

    @property
    def instruction(self) -> int:
        return self.answer.instruction

    def __reduce__(self) -> tuple[type[FastcatError], tuple[Answer, bytes]]:
        return type(self), (self.answer, self.written)

    def __str__(self) -> str:
        answer = self.answer
        if answer.status is Status.STREAM_REFUSED:
            packet = f"packet={answer.packet} " if answer.packet else ""
            return (
                f"refused {answer.cause.name} {packet}message={answer.message} offset={answer.offset} "
                f"template={answer.template} instruction={answer.instruction}"
            )
        if answer.status is Status.LINE_REFUSED:
            return (
                f"refused {answer.cause.name} line={answer.message} template={answer.template} "
                f"instruction={answer.instruction}"
            )
        if answer.status is Status.TEMPLATES_REFUSED:
            return (
                f"templates refused {answer.cause.name} template={answer.template} "
                f"instruction={answer.instruction}"
            )
        return answer.status.name.lower().replace("_", " ")
