"""A panel: the controller's end of a line with up to sixteen devices."""
from __future__ import annotations

import ctypes
import enum
from dataclasses import dataclass
from typing import List, Optional

from . import message
from ._library import (
    Bytes,
    BurstStruct,
    Machine,
    MessageStruct,
    MomentStruct,
    PanelConfigStruct,
    PanelHandle,
    ReportStruct,
    as_bytes,
    library,
    moment,
    whole,
)
from .message import Message, fitting

MOST = 2**32 - 1
NEVER = 2**64 - 1  # as the last moment of an order


class Kind(enum.IntEnum):
    """What a report tells. docs/GUIDE.md says what a panel does with each.

    OPENED: the session is open, and `reply` says what the device is. SETTLED: `command` was answered by
    `reply`, which may be a NAK: then nothing was done. MOVED: `command`, a COMSET, was answered by `reply`, a
    COM with the same address; the device is there, at the COM's rate, and the session has ended. EVENT:
    `reply` carries an event. ANSWERED: a POLL was answered by `reply`, which is neither an ACK nor an event.
    UNREAD: the answer can't be read, so what became of `command` is unknown. LOST: the session has ended, and
    what became of `command` is unknown. After UNREAD and LOST `command` isn't sent again, and the address
    that a COMSET reserved stays reserved until `retarget`. EXPIRED: the last moment of `command` passed while
    it waited; it was never sent, and it never will be."""

    OPENED = 1
    SETTLED = 2
    MOVED = 3
    EVENT = 4
    ANSWERED = 5
    UNREAD = 6
    LOST = 7
    EXPIRED = 8


class Cause(enum.IntEnum):
    """Why a session was lost: no reply that answers came, though the packet was sent as often as `sends`
    says; the device answered BUSY more often than `busy_limit` allows; or it answered NAK 4, since it didn't
    expect the sequence number, mostly after a restart."""

    NO_REPLY = 1
    TOO_BUSY = 2
    NUMBER_REFUSED = 3


@dataclass(frozen=True)
class Report:
    """What a panel tells of a device, whose number is `entry`. `number` is that of the order which it is
    about, as `submit` gave it, else None. `since` is the moment at which the POLL was first sent that an
    EVENT answers, else None: the device offered the event no earlier. An order for a card lasts from then on:
    so no door opens later than that for it. `command` and `reply` are those that the kind names, else None.
    `cause` is that of LOST, and `code`, the code of the answer, that of UNREAD; else they are None.

    `maybe_again` is true of an EVENT that may have been reported before: it is the first of its session, and
    equal to the one that was reported last. Make no second order of it. `too_late` is true of LOST with an
    order that wasn't sent again, since its last moment had passed."""

    entry: int
    kind: Kind
    number: Optional[int]
    since: Optional[int]
    command: Optional[Message]
    reply: Optional[Message]
    cause: Optional[Cause]
    code: Optional[int]
    maybe_again: bool
    too_late: bool


def last(until: Optional[int]) -> int:
    """The last moment of an order, as the library takes it."""
    return NEVER if until is None else moment(until)


def read_report(struct: ReportStruct) -> Report:
    """The report that the library has written."""
    kind = Kind(struct.kind)
    return Report(
        entry=struct.entry,
        kind=kind,
        number=struct.number if struct.numbered else None,
        since=struct.since if kind is Kind.EVENT else None,
        command=message.read(struct.command, False),
        reply=message.read(struct.reply, True),
        cause=Cause(struct.detail) if kind is Kind.LOST else None,
        code=struct.detail if kind is Kind.UNREAD else None,
        maybe_again=kind is Kind.EVENT and struct.detail == 1,
        too_late=bool(struct.too_late),
    )


class Panel(Machine):
    """A panel without devices. Settings are those of `struct osdp_panel_config`, by their names and with
    their defaults; include/osdp.h says what each means. The times `reply_wait`, `poll_interval`, `busy_wait`,
    `quiet_wait` and `gap` are in milliseconds from 1 to 3,600,000. `check` is 0 for a sum and 1 for a CRC,
    `sends` 1 to 255, `busy_limit` 0 to 255, and `capacity` 1 to 1,024; 0 as `clock_limit` stands for a day.
    A POLL asks a device for its events between any two of its commands, so that commands which come as fast
    as they go keep no card waiting.

    A turn of a program waits for bytes, at most until `next_deadline`. It takes the moment, reads all that is
    there, and hands it to `hear`. It takes the `reports`, and calls `tick`. Where that is true it takes the
    moment anew, and writes what `write` gives at that, whole.

    Where `room` is given, the commands that wait for one device may have so many bytes together, 1 to
    1,467,392, which takes less memory: an OUT of one output has 5. The bytes of the command that is on its
    way count too, unless there is room for each command, however long it is.

    OsdpError: PANEL_OUT_OF_RANGE, PANEL_NO_MEMORY. A name that is no setting raises TypeError.

    While one thread calls it the others wait. `close` frees it, and so does the end of a `with`; a call after
    that raises OsdpError, NO_MACHINE."""

    _kind = "panel"

    def __init__(self, *, room: Optional[int] = None, **settings: int) -> None:
        self._handle = PanelHandle()
        config = PanelConfigStruct()
        library["osdp_panel_defaults"](ctypes.byref(config))
        names = {name for name, _ in PanelConfigStruct._fields_}
        for name, value in settings.items():
            if name not in names:
                raise TypeError(f"a panel has no setting {name}")
            setattr(config, name, whole(value, MOST, name))
        if room is None:
            self._call("new", ctypes.byref(config))
        else:
            self._call("new_with_room", ctypes.byref(config), whole(room, MOST, "a room"))

    def __enter__(self) -> Panel:
        return self

    def add(self, address: int, next_number: int = 0) -> int:
        """Adds a device at an address from 0 to 126, and gives its entry: 0 to 15, in the order of adding.
        Its session is closed. Its first order has the number `next_number`: 0 for a device that never had
        one, and after a restart of the program the one that `next_number` gave last. OsdpError: TOO_MANY,
        PANEL_OUT_OF_RANGE, ADDRESS_TAKEN, PANEL_NO_MEMORY."""
        entry = ctypes.c_size_t()
        self._call("add", whole(address, MOST, "an address"), next_number, ctypes.byref(entry))
        return entry.value

    def next_number(self, entry: int) -> int:
        """The number that the next order of a device has. A program that stores its orders stores this number
        before it submits, and hands it to `add` after a restart. OsdpError: NO_ENTRY."""
        number = ctypes.c_uint64()
        self._call("next_number", entry, ctypes.byref(number))
        return number.value

    def begin(self, entry: int, now: int) -> None:
        """Begins a session of a device: it is left quiet for `quiet_wait`, and then the opening ID goes out
        when its turn comes. A report says what becomes of it, OPENED or LOST. The panel begins no session by
        itself. OsdpError: MOMENT_TOO_FAR, NO_ENTRY, NOT_CLOSED."""
        self._call("begin", entry, moment(now))

    def submit(self, entry: int, text: str, until: Optional[int] = None) -> int:
        """Puts a command, by its text, after those that wait for a device, whether or not its session has
        begun, and gives the number of this order. It may be sent until a moment, which counts as well; None
        is never too late. It waits for its turn, also in a later session, and is gone where the program loses
        power before. Once it was sent a report with its number says what becomes of it. Where its last moment
        passes while it waits, that is told as EXPIRED, and it isn't sent. Before, `withdraw` takes it back.
        OsdpError: BAD_TEXT, NO_ENTRY, NUMBERS_USED_UP (the next number would be 2**64 - 1), POLL_SUBMITTED,
        ADDRESS_OUT_OF_RANGE, ADDRESS_TAKEN, COMMANDS_FULL."""
        data, number = text.encode(), ctypes.c_uint64()
        self._call("submit_text_nonnull", entry, data, len(data), last(until), ctypes.byref(number))
        return number.value

    def submit_message(
        self, entry: int, code: int, data: Bytes = b"", until: Optional[int] = None
    ) -> int:
        """As `submit`, for the code and the data of a command. OsdpError: UNKNOWN_CODE, BAD_LENGTH,
        BAD_COUNT, and those of `submit` without BAD_TEXT. ValueError: a code above 255, or more than 1,432
        bytes."""
        data, number = fitting(data), ctypes.c_uint64()
        code = whole(code, 255, "a code")
        self._call("submit_nonnull", entry, code, data, len(data), last(until), ctypes.byref(number))
        return number.value

    def withdraw(self, entry: int) -> Optional[Message]:
        """Takes back the command that has waited longest for a device, also while a session goes on: it won't
        be sent, and no report tells it. None where none waits, or where a command of the device is on its
        way. OsdpError: NO_ENTRY."""
        struct = MessageStruct()
        self._call("withdraw", entry, ctypes.byref(struct))
        return message.read(struct, False)

    def retarget(self, entry: int, address: int) -> None:
        """Sets the address, 0 to 126, at which the panel looks for a device whose session is closed, and
        frees the address that is reserved for it. Nothing is sent. OsdpError: NO_ENTRY, NOT_CLOSED,
        PANEL_OUT_OF_RANGE, ADDRESS_TAKEN."""
        self._call("retarget", entry, whole(address, MOST, "an address"))

    def hear(self, data: Bytes, now: int) -> None:
        """Hands in bytes that a read of the port gave, in any pieces, and the moment, which was taken before
        the read. Call it in each turn, also where none have come, and take the `reports` after it. OsdpError:
        MOMENT_TOO_FAR."""
        data = as_bytes(data)
        self._call("bytes_nonnull", data, len(data), moment(now))

    def silence(self, now: int) -> None:
        """Says that the line was seen silent: the run of bytes is over, and what was begun is no packet. Only
        a program that sees silence by itself needs it, since `tick` and the next bytes end a run by `gap`.
        OsdpError: MOMENT_TOO_FAR."""
        self._call("silence", moment(now))

    def tick(self, now: int) -> bool:
        """Does what is due at a moment, and tells whether a packet is to go out: then `write` gives it,
        before any other call. There is none in a turn whose bytes brought a report, and none while a report
        waits. A tick may also leave a report, which the next turn takes. OsdpError: MOMENT_TOO_FAR."""
        sends = ctypes.c_uint32()
        self._call("tick", moment(now), ctypes.byref(sends))
        return bool(sends.value)

    def write(self, now: int) -> bytes:
        """The bytes of the packet of the last tick, which go out at a moment, taken just before they are
        written: write them to the line whole, before the next call. They are empty where none are to go out,
        and where the last moment of their order has passed since the tick. Then the packet was lost on the
        line, and what becomes of the order is in doubt. OsdpError: MOMENT_TOO_FAR."""
        burst = BurstStruct()
        self._call("write", moment(now), ctypes.byref(burst))
        return bytes(burst.bytes[: burst.length])

    def set_moment(self, now: int) -> None:
        """Sets the greatest moment seen, however far it lies after the one before: for a host that slept,
        after MOMENT_TOO_FAR."""
        self._call("set_moment", moment(now))

    def next_deadline(self) -> Optional[int]:
        """The moment of the next turn, if no bytes come before. It may lie in the past: then take the turn at
        once. So it is where a report waits or an order is late, and where bytes of the turn before brought a
        report, so that its tick is still to come. None where no turn would do anything before bytes come or
        the program itself calls the panel."""
        found = MomentStruct()
        self._call("next_deadline", ctypes.byref(found))
        return found.moment if found.present else None

    def reports(self) -> List[Report]:
        """Takes all that is to be told: the report that waits, and each order whose last moment has passed
        while it waited. Call it after `hear`: while something is to be told, the panel sends nothing."""
        found: List[Report] = []
        while True:
            struct = ReportStruct()
            self._call("next_report", ctypes.byref(struct))
            if not struct.kind:
                return found
            found.append(read_report(struct))

    def address(self, entry: int) -> int:
        """The address that a device has now. OsdpError: NO_ENTRY."""
        found = ctypes.c_uint32()
        self._call("address", entry, ctypes.byref(found))
        return found.value

    def waiting(self, entry: int) -> int:
        """How many commands wait for a device. The one that is on its way isn't counted. OsdpError:
        NO_ENTRY."""
        found = ctypes.c_size_t()
        self._call("waiting", entry, ctypes.byref(found))
        return found.value

    def is_closed(self, entry: int) -> bool:
        """Whether the session of a device is closed: until `begin`, and again once it is lost or the device
        has moved. OsdpError: NO_ENTRY."""
        found = ctypes.c_uint32()
        self._call("is_closed", entry, ctypes.byref(found))
        return bool(found.value)
