"""A device: the other end of the line, such as a card reader."""
from __future__ import annotations

import ctypes
import enum
from dataclasses import dataclass
from typing import Any, Callable, List, Optional, Tuple, Type

from . import message
from ._library import (
    AnswerStruct,
    Bytes,
    DeviceConfigStruct,
    DeviceHandle,
    Machine,
    MessageStruct,
    ProductStruct,
    as_bytes,
    moment,
    whole,
)
from .message import Message, fitting

MOST = 2**32 - 1


class Said(enum.IntEnum):
    """How a packet was answered. NONE: not at all. SECURED: by NAK 5, since it has a security block. ZERO:
    its number is 0, which begins a session anew, and its command was acted on. REPEAT: it has the number of
    the last packet, and the answer that was given goes out once more. TAKEN: its number is the next one, and
    its command was acted on, once. BUSY: by BUSY, and nothing was taken. WRONG: by NAK 4, since its number
    isn't expected. PENDING: not yet; the device has stopped before the command, and no answer that `hear` and
    `tick` give says so. Where a command can't be read, ZERO and TAKEN are a NAK."""

    NONE = 0
    SECURED = 1
    ZERO = 2
    REPEAT = 3
    TAKEN = 4
    BUSY = 5
    WRONG = 6
    PENDING = 7


class Order(enum.IntEnum):
    """What the device is to do with a command. NONE: nothing. ONCE: do it; a repeat of it is never told as an
    order. AGAIN: it came with number 0, with which the same order may come again, so do only what may be done
    twice. REFUSED: it is answered by a NAK, so do nothing of it. PENDING: not yet, as with `Said`."""

    NONE = 0
    ONCE = 1
    AGAIN = 2
    REFUSED = 3
    PENDING = 4


class Expired(enum.IntEnum):
    """What became of an event that was too old. WITHDRAWN: no answer has carried it, and none will. IN_DOUBT:
    an answer has carried it, and that answer may be lost, so the panel may have the event or not."""

    WITHDRAWN = 1
    IN_DOUBT = 2


@dataclass(frozen=True)
class Answer:
    """What a device says to a packet. `data` is to be written to the line. `command` is the one that `order`
    is about, else None. `moved` is the address and the rate in bits per second that a COMSET has set, else
    None: keep both in memory that stays, then write `data` at the old rate, and then set the port to the new
    one. Where the port hasn't that rate, write nothing, and make the device anew where it was."""

    said: Said
    order: Order
    command: Optional[Message]
    data: bytes
    moved: Optional[Tuple[int, int]]


def read_answer(struct: AnswerStruct) -> Answer:
    """The answer that the library has written."""
    moved = (struct.address, struct.baud_rate) if struct.moved else None
    return Answer(
        Said(struct.kind),
        Order(struct.order),
        message.read(struct.command, False),
        bytes(struct.burst.bytes[: struct.burst.length]),
        moved,
    )


class Device(Machine):
    """A device at an address from 0 to 126, with room for `capacity` events, 1 to 1,024. `gap` is after how
    many milliseconds of silence a run of bytes is over, 1 to 3,600,000; 0 as `clock_limit` stands for a day.
    `vendor` has three bytes, `firmware` three numbers, and `capabilities` three bytes for each capability.
    Where `room` is given, the events that wait may have so many bytes together, 1 to 1,467,392, which takes
    less memory: a card of 26 bits has 9. OsdpError: BAD_LENGTH (of the capabilities), DEVICE_OUT_OF_RANGE,
    DEVICE_NO_MEMORY.

    The device answers POLL, ID, CAP and COMSET by itself, a COMSET at whatever rate (see `moved` of
    `Answer`). With each other command it calls `on_command`, if one is given, before it answers: there
    `answer_done`, `answer_refused` and the others set the answer. An exception of `on_command` ends the call
    that handed in the bytes: what follows in them is gone, as if the line had lost it. Where no answer is
    set, LSTAT, ISTAT, OSTAT and RSTAT are answered by the states that were set. LED, BUZ and TEXT are
    answered ACK, and so is an OUT whose outputs are all there. Any other OUT is answered NAK 9, and so is
    each MFG.

    While one thread calls it the others wait. `close` frees it, and so does the end of a `with`; a call after
    that raises OsdpError, NO_MACHINE."""

    _kind = "device"

    def __init__(
        self,
        address: int,
        *,
        capacity: int = 64,
        gap: int = 20,
        serial: int = 0,
        clock_limit: int = 0,
        vendor: Bytes = b"\0\0\0",
        model: int = 0,
        version: int = 0,
        firmware: Tuple[int, int, int] = (0, 0, 0),
        capabilities: Bytes = b"",
        room: Optional[int] = None,
        on_command: Optional[Callable[[Message], None]] = None
    ) -> None:
        self._handle, self._on_command = DeviceHandle(), on_command
        capabilities = as_bytes(capabilities)
        if len(vendor) != 3 or len(firmware) != 3:
            raise ValueError("a vendor has three bytes, and firmware three numbers")
        product = ProductStruct(
            (ctypes.c_uint8 * 3)(*as_bytes(vendor)),
            *(whole(each, 255, "a number of the product") for each in (model, version, *firmware))
        )
        config = DeviceConfigStruct(
            *(whole(each, MOST, "a setting") for each in (address, capacity, gap, serial, clock_limit)),
            product
        )
        if room is None:
            self._call("new_nonnull", ctypes.byref(config), capabilities, len(capabilities))
        else:
            self._call(
                "new_with_room_nonnull",
                ctypes.byref(config),
                capabilities,
                len(capabilities),
                whole(room, MOST, "a room"),
            )

    def _number(self, name: str, kind: Type[Any], *words: object) -> int:
        found = kind()
        self._call(name, *words, ctypes.byref(found))
        return int(found.value)

    def _list(self, name: str, states: Bytes) -> None:
        states = as_bytes(states)
        self._call(name, states, len(states))

    def __enter__(self) -> Device:
        return self

    def set_inputs(self, states: Bytes) -> None:
        """Sets what ISTAT is answered from now on: a byte for each input, 1 where it is active. OsdpError:
        BAD_LENGTH, of more than 1,432."""
        self._list("set_inputs_nonnull", states)

    def set_outputs(self, states: Bytes) -> None:
        """Sets what OSTAT is answered from now on: a byte for each output, 1 where it is on. OsdpError:
        BAD_LENGTH, of more than 1,432."""
        self._list("set_outputs_nonnull", states)

    def set_readers(self, states: Bytes) -> None:
        """Sets what RSTAT is answered from now on: a byte for each reader, 0 where it works. OsdpError:
        BAD_LENGTH, of more than 1,432."""
        self._list("set_readers_nonnull", states)

    def set_local(self, tamper: bool, power: bool) -> None:
        """Sets what LSTAT is answered from now on: whether the device is tampered with, and whether its power
        fails."""
        self._call("set_local", tamper, power)

    def set_busy(self, busy: bool) -> None:
        """Sets whether the device is busy. A busy device answers BUSY to new commands and takes none of them.
        To a repeat it still gives the answer that was given."""
        self._call("set_busy", busy)

    def event(self, text: str) -> None:
        """Puts an event, by its text, such as `KEYPAD 0 31`, after those that wait: it goes out in the answer
        to a POLL. Its age counts from the greatest moment that any call has handed in; put before any, it is
        never too old. OsdpError: BAD_TEXT, EVENTS_FULL."""
        data = text.encode()
        self._call("event_text_nonnull", data, len(data))

    def event_message(self, code: int, data: Bytes) -> None:
        """As `event`, for the code and the data of the reply that carries the event. OsdpError: UNKNOWN_CODE,
        BAD_LENGTH, BAD_COUNT, NO_EVENT, EVENTS_FULL. ValueError: a code above 255, or more than 1,432
        bytes."""
        data = fitting(data)
        self._call("event_nonnull", whole(code, 255, "a code"), data, len(data))

    def hear(self, data: Bytes, now: int) -> List[Answer]:
        """Hands in bytes that have come up to a moment, and gives what the device says, answer by answer: do
        and write them in their order. Call `tick` after it in each turn, since a call with no bytes ends no
        run. OsdpError: MOMENT_TOO_FAR."""
        with self._lock:
            return self._says(as_bytes(data), now)

    def tick(self, now: int) -> List[Answer]:
        """Says that no more bytes have come up to a moment. Where the line was silent for the gap after a
        run, that run is over. Gives what the device says, as `hear` does. OsdpError: MOMENT_TOO_FAR."""
        return self._ends("tick", now)

    def silence(self, now: int) -> List[Answer]:
        """Says that the line was seen silent: the run is over, whatever the gap. Else it is as `tick`.
        OsdpError: MOMENT_TOO_FAR."""
        return self._ends("silence", now)

    def _ends(self, name: str, now: int) -> List[Answer]:
        """The answers of a run that may be over."""
        with self._lock:
            struct = AnswerStruct()
            self._call(name, moment(now), ctypes.byref(struct))
            return [*self._take(struct), *self._says(b"", now)] if struct.kind else []

    def _says(self, data: bytes, now: int) -> List[Answer]:
        """Hands in bytes, and what is left of them after each answer, until there is none."""
        answers: List[Answer] = []
        while True:
            taken, struct = ctypes.c_size_t(), AnswerStruct()
            self._call(
                "step_nonnull", data, len(data), moment(now), ctypes.byref(taken), ctypes.byref(struct)
            )
            data = data[taken.value:]
            if not struct.kind and not data:
                return answers
            answers += self._take(struct)

    def _take(self, struct: AnswerStruct) -> List[Answer]:
        """What the library has written. Before a command it asks the program, and there is no answer yet."""
        if struct.kind != Said.PENDING:
            return [read_answer(struct)] if struct.kind else []
        command = message.read(struct.command, False)
        if self._on_command is not None and command is not None:
            self._on_command(command)
        return []

    def set_moment(self, now: int) -> None:
        """Sets the greatest moment seen, however far it lies after the one before: for a host that slept,
        after MOMENT_TOO_FAR."""
        self._call("set_moment", moment(now))

    def answer_done(self) -> None:
        """Answers the command that is pending by an ACK: an OUT, LED, BUZ, TEXT or MFG. Any other is answered
        NAK 9. OsdpError: NOT_ASKED."""
        self._call("answer_done")

    def answer_local(self, tamper: bool, power: bool) -> None:
        """Answers an LSTAT that is pending by these states. Any other command is answered NAK 9. OsdpError:
        NOT_ASKED."""
        self._call("answer_local", tamper, power)

    def answer_list(self, states: Bytes) -> None:
        """Answers an ISTAT, OSTAT or RSTAT that is pending by these bytes, 1,432 at most. Any other command
        is answered NAK 9. OsdpError: BAD_LENGTH, NOT_ASKED."""
        self._list("answer_list_nonnull", states)

    def answer_refused(self, reason: int) -> None:
        """Answers the command that is pending by a NAK. The reasons 2, 3 and 9 go out as they are, all others
        as 9. OsdpError: NOT_ASKED."""
        self._call("answer_refused", whole(reason, 255, "a reason"))

    def answer_maker(self, vendor: Bytes, data: Bytes) -> None:
        """Answers a MFG that is pending by a message of the maker: the three bytes of the maker's code, and
        1,429 bytes at most. Any other command is answered NAK 9. OsdpError: BAD_LENGTH, NOT_ASKED."""
        if len(vendor) != 3:
            raise ValueError("a vendor has three bytes")
        vendor, data = as_bytes(vendor), as_bytes(data)
        self._call("answer_maker_nonnull", vendor, data, len(data))

    def withdraw_event(self) -> Optional[Message]:
        """Takes back the oldest event that was never offered, in this session or in one before: no answer has
        carried it, and none will. None where there is no such event."""
        struct = MessageStruct()
        self._call("withdraw_event", ctypes.byref(struct))
        return message.read(struct, True)

    def lapse_event(self) -> Optional[Message]:
        """Lets the oldest event go if it was ever offered, in this session or in one before. The answer that
        carried it may be lost, so the panel may have it or not, and a repeat within this session may still
        tell it. If it was never offered, this gives None and changes nothing."""
        struct = MessageStruct()
        self._call("lapse_event", ctypes.byref(struct))
        return message.read(struct, True)

    def address(self) -> int:
        """The address that the device has now."""
        return self._number("address", ctypes.c_uint32)

    def waiting(self) -> int:
        """How many events wait. One that went out, and of which the device doesn't know yet whether it came,
        is counted."""
        return self._number("waiting", ctypes.c_size_t)

    def is_closed(self) -> bool:
        """Whether the session is closed: the device refuses each number but 0, as one does that is new or has
        moved to another address."""
        return bool(self._number("is_closed", ctypes.c_uint32))

    def is_offline(self, now: int) -> bool:
        """Whether no panel is there at a moment: the device has answered no packet for 8,000 ms, or none
        ever. OsdpError: MOMENT_TOO_FAR."""
        return bool(self._number("is_offline", ctypes.c_uint32, moment(now)))

    def expire_events(self, now: int, limit: int) -> List[Tuple[Expired, Message]]:
        """Where no panel is there at a moment (`is_offline`), takes off the oldest events, one by one, while
        they have waited for more than `limit` milliseconds, and gives what became of each. A limit of 0 takes
        none off. Call it in each turn, before `hear`. OsdpError: MOMENT_TOO_FAR."""
        found: List[Tuple[Expired, Message]] = []
        with self._lock:
            while True:
                how, struct = ctypes.c_uint32(), MessageStruct()
                self._call(
                    "expire_event", moment(now), moment(limit), ctypes.byref(how), ctypes.byref(struct)
                )
                event = message.read(struct, True)
                if not how.value or event is None:
                    return found
                found.append((Expired(how.value), event))
