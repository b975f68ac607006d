"""Messages: a code and data, and their text."""
from __future__ import annotations

import ctypes
from dataclasses import dataclass
from typing import Optional

from ._library import Bytes, MessageStruct, RawStruct, as_bytes, call, whole

MOST_TEXT = 5729
MOST_DATA = 1432
RAW = 0x50


@dataclass(frozen=True)
class Card:
    """The bits of a card. `reader` is which reader of the device has read it, counted from 0. `format` is how
    the bits are to be understood: 0 where that isn't told, 1 for a parity bit, data and a parity bit. `bits`
    is how many there are, and `data` the bytes in which they stand, the first bit highest."""

    reader: int
    format: int
    bits: int
    data: bytes


@dataclass(frozen=True)
class Message:
    """A command of a panel, or a reply of a device: its code and its data, 1,432 bytes at most. `str` gives
    its text, as docs/PROTOCOL.md has it: `OUT 0:5:30`. Where the code and data are those of no message, `str`
    raises OsdpError: UNKNOWN_CODE, BAD_LENGTH, BAD_COUNT.

    Made of a bytearray or a memoryview, it has a copy of its bytes. ValueError: a code above 255, or more
    data. TypeError: the data aren't bytes."""

    code: int
    data: bytes
    is_reply: bool

    def __post_init__(self) -> None:
        whole(self.code, 255, "a code")
        object.__setattr__(self, "data", fitting(self.data))

    def __str__(self) -> str:
        room, length = ctypes.create_string_buffer(MOST_TEXT + 1), ctypes.c_size_t()
        kind = "reply" if self.is_reply else "command"
        call(
            f"osdp_{kind}_text_nonnull",
            self.code,
            self.data,
            len(self.data),
            room,
            len(room),
            ctypes.byref(length),
        )
        return room.raw[: length.value].decode("ascii")

    def card(self) -> Optional[Card]:
        """The card that a reply RAW carries. None of any other message. OsdpError: BAD_LENGTH, BAD_COUNT,
        where the data are those of no RAW."""
        if not self.is_reply or self.code != RAW:
            return None
        raw = RawStruct()
        call("osdp_raw_of", ctypes.byref(as_struct(self)), ctypes.byref(raw))
        return Card(raw.reader, raw.format, raw.bits, bytes(raw.bytes[: raw.length]))


def fitting(data: Bytes) -> bytes:
    """The data of a message. ValueError: they are longer than any has."""
    if len(as_bytes(data)) > MOST_DATA:
        raise ValueError(f"a message has at most {MOST_DATA} bytes of data, and not {len(as_bytes(data))}")
    return as_bytes(data)


def as_struct(message: Message) -> MessageStruct:
    """The message as the library reads it."""
    struct = MessageStruct(length=len(message.data), present=1, code=message.code)
    struct.data[: len(message.data)] = message.data
    return struct


def read(struct: MessageStruct, is_reply: bool) -> Optional[Message]:
    """The message that the library has written, if there is one."""
    return Message(struct.code, bytes(struct.data[: struct.length]), is_reply) if struct.present else None
