"""A monitor: what happens on a line, and which end breaks its rules."""
from __future__ import annotations

import ctypes
import enum

from ._library import Bytes, Machine, MonitorHandle, as_bytes

ROOM = 4096


class Prints(enum.IntEnum):
    """What has a line of text. FOUND: each accusation, each notice and each refused byte. TALK: each packet
    and each skipped byte too, but no POLL, and no ACK that answers a POLL. PACKETS: these too."""

    FOUND = 0
    TALK = 1
    PACKETS = 2


class Monitor(Machine):
    """A monitor of one line. It tells what it finds in lines of text, which are those of the program `osdp
    monitor`: the manual of that program says what each means. A monitor may begin to listen at any moment:
    what it hasn't heard it doesn't judge. With `standard` it leaves out the accusations that the standard
    doesn't ask for. OsdpError: MONITOR_NO_MEMORY.

    Where there is no memory for what it heard it stops (MONITOR_NO_MEMORY). The text that waited is gone
    then, and each later call but `text` and `close` raises OsdpError, MONITOR_STOPPED: close it, and make
    another one.

    While one thread calls it the others wait. `close` frees it, and so does the end of a `with`; a call after
    that raises OsdpError, NO_MACHINE."""

    _kind = "monitor"

    def __init__(self, prints: Prints = Prints.FOUND, standard: bool = False) -> None:
        self._handle = MonitorHandle()
        self._call("new", Prints(prints), bool(standard))

    def __enter__(self) -> Monitor:
        return self

    def hear(self, data: Bytes) -> None:
        """Hands in bytes that have come on the line, in any pieces. OsdpError: MONITOR_NO_MEMORY,
        MONITOR_TOO_LONG (it has counted 2**60 packets or bytes), MONITOR_STOPPED."""
        data = as_bytes(data)
        self._call("bytes_nonnull", data, len(data))

    def silence(self) -> None:
        """Says that the line was silent for the gap, such as 20 ms: the run of bytes is over, and what was
        begun is no packet. Call it once after bytes, since lines of text count the runs. OsdpError: those of
        `hear`."""
        self._call("silence")

    def tell_table(self) -> None:
        """Puts the table of what was heard of each address after the text that waits, and what is amiss by
        that table. OsdpError: those of `hear`."""
        self._call("table")

    def text(self) -> str:
        """Takes all text that waits. It is empty where none waits. Its lines are whole, since each call tells
        whole lines."""
        room, count, found = ctypes.create_string_buffer(ROOM), ctypes.c_size_t(), bytearray()
        while True:
            self._call("next_text_nonnull", room, ROOM, ctypes.byref(count))
            if not count.value:
                return found.decode()
            found += room.raw[: count.value]

    def is_wrong(self) -> bool:
        """Whether anything was wrong so far: an end was accused, something was refused, or packets came of
        which none could be judged. OsdpError: MONITOR_STOPPED."""
        found = ctypes.c_uint32()
        self._call("is_wrong", ctypes.byref(found))
        return bool(found.value)
