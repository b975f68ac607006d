"""The shared library: where it is, the structs and functions of its header, and what its statuses say. One of
another version, or with structs of other sizes, isn't taken."""
from __future__ import annotations

import ctypes
import enum
import os
import threading
from ctypes import POINTER, c_char_p, c_size_t, c_uint8, c_uint16, c_uint32, c_uint64, c_void_p
from pathlib import Path
from typing import Any, NoReturn, Tuple, Type, Union

VERSION = "0.1.0"  # of this package, and of the library that it takes
Bytes = Union[bytes, bytearray, memoryview]
NAME = "libosdp.so.0"
HERE = Path(__file__).resolve().parent
# the library writes 64 bits for each count, which would go beyond a `c_size_t`
if ctypes.sizeof(c_size_t) != 8:
    raise ImportError("the package osdp needs a Python of 64 bits")


class Status(enum.IntEnum):
    """What became of a call. include/osdp.h says at each constant what it means; `str` of an OsdpError says
    it in a few words."""

    OK = 0
    NO_MACHINE = 1
    IN_USE = 2
    BAD_TEXT = 3
    NO_EVENT = 4
    TOO_SMALL = 5
    NOT_ASKED = 7
    OTHER_MESSAGE = 8
    MOMENT_TOO_FAR = 9
    UNKNOWN_CODE = 11
    BAD_LENGTH = 12
    BAD_COUNT = 13
    PANEL_NO_MEMORY = 21
    TOO_MANY = 22
    ADDRESS_TAKEN = 23
    NO_ENTRY = 24
    PANEL_OUT_OF_RANGE = 25
    ADDRESS_OUT_OF_RANGE = 26
    NUMBERS_USED_UP = 27
    COMMANDS_FULL = 33
    POLL_SUBMITTED = 34
    NOT_CLOSED = 35
    DEVICE_NO_MEMORY = 41
    EVENTS_FULL = 42
    DEVICE_OUT_OF_RANGE = 43
    MONITOR_NO_MEMORY = 51
    MONITOR_TOO_LONG = 52
    MONITOR_OUT_OF_RANGE = 53
    MONITOR_STOPPED = 54


class OsdpError(Exception):
    """A call was refused; `status` says why. It has changed nothing, except that MONITOR_NO_MEMORY and
    MONITOR_TOO_LONG stop a monitor."""

    def __init__(self, status: Status) -> None:
        super().__init__(library["osdp_status_text"](status).decode())
        self.status = status

    def __reduce__(self) -> Tuple[type, Tuple[Status]]:
        return type(self), (self.status,)  # so that it can be copied, and handed to another process


class Machine:
    """A panel, a device or a monitor: it has a handle, of which no copy may be used. While one thread calls
    the library with it the others wait: two calls at once would find no machine, or break it."""

    _kind = ""
    _handle: ctypes.Structure
    _lock: threading.RLock

    def __new__(cls, *_: object, **__: object) -> Machine:
        made = super().__new__(cls)
        made._lock = threading.RLock()
        return made

    def _call(self, name: str, *words: object) -> None:
        with self._lock:
            call(f"osdp_{self._kind}_{name}", ctypes.byref(self._handle), *words)

    def close(self) -> None:
        """Frees the machine. A second call does nothing."""
        with self._lock:
            if getattr(self._handle, f"{self._kind}_live"):
                self._call("free")

    def __exit__(self, *_: object) -> None:
        self.close()

    def __del__(self) -> None:
        if library is not None and hasattr(self, "_handle"):
            self.close()

    def __reduce__(self) -> NoReturn:
        raise TypeError(
            f"a {type(self).__name__} is one machine: it can't be copied, and no other process can have it"
        )


class MessageStruct(ctypes.Structure):
    """A command or a reply, where there is one."""

    _fields_ = [("length", c_uint16), ("present", c_uint8), ("code", c_uint8), ("data", c_uint8 * 1432)]


class BurstStruct(ctypes.Structure):
    """The bytes of one packet, to be written to the line."""

    _fields_ = [("length", c_uint32), ("bytes", c_uint8 * 1440)]


class RawStruct(ctypes.Structure):
    """The bits of a card."""

    _fields_ = [
        ("reader", c_uint8),
        ("format", c_uint8),
        ("bits", c_uint16),
        ("length", c_uint16),
        ("bytes", c_uint8 * 1428),
    ]


class ProductStruct(ctypes.Structure):
    """What a device is, without its serial number."""

    _fields_ = [
        ("vendor", c_uint8 * 3),
        ("model", c_uint8),
        ("version", c_uint8),
        ("firmware_major", c_uint8),
        ("firmware_minor", c_uint8),
        ("firmware_build", c_uint8),
    ]


class PanelHandle(ctypes.Structure):
    """A panel's handle; all zeros is none."""

    _fields_ = [("panel", c_void_p), ("panel_live", c_size_t)]


class PanelConfigStruct(ctypes.Structure):
    """The settings of a panel."""

    _fields_ = [
        (name, c_uint32)
        for name in (
            "check",
            "reply_wait",
            "poll_interval",
            "sends",
            "busy_wait",
            "busy_limit",
            "quiet_wait",
            "gap",
            "capacity",
            "clock_limit",
        )
    ]


class MomentStruct(ctypes.Structure):
    """A moment, where there is one."""

    _fields_ = [("moment", c_uint64), ("present", c_uint64)]


class ReportStruct(ctypes.Structure):
    """A report of a panel."""

    _fields_ = [
        ("entry", c_size_t),
        ("number", c_uint64),
        ("since", c_uint64),
        ("kind", c_uint32),
        ("detail", c_uint32),
        ("numbered", c_uint32),
        ("too_late", c_uint32),
        ("command", MessageStruct),
        ("reply", MessageStruct),
    ]


class DeviceHandle(ctypes.Structure):
    """A device's handle; all zeros is none."""

    _fields_ = [("device", c_void_p), ("device_live", c_size_t)]


class DeviceConfigStruct(ctypes.Structure):
    """The settings of a device, and what it is."""

    _fields_ = [
        ("address", c_uint32),
        ("capacity", c_uint32),
        ("gap", c_uint32),
        ("serial", c_uint32),
        ("clock_limit", c_uint32),
        ("product", ProductStruct),
    ]


class AnswerStruct(ctypes.Structure):
    """What a device says to a packet, or before which command it has stopped."""

    _fields_ = [
        ("kind", c_uint32),
        ("order", c_uint32),
        ("moved", c_uint32),
        ("address", c_uint32),
        ("baud_rate", c_uint32),
        ("command", MessageStruct),
        ("burst", BurstStruct),
    ]


class MonitorHandle(ctypes.Structure):
    """A monitor's handle; all zeros is none."""

    _fields_ = [("monitor", c_void_p), ("monitor_live", c_size_t)]


# the structs by their names in the header
STRUCTS: dict[str, Type[ctypes.Structure]] = {
    "osdp_message": MessageStruct,
    "osdp_burst": BurstStruct,
    "osdp_raw": RawStruct,
    "osdp_product": ProductStruct,
    "osdp_panel": PanelHandle,
    "osdp_panel_config": PanelConfigStruct,
    "osdp_moment": MomentStruct,
    "osdp_report": ReportStruct,
    "osdp_device": DeviceHandle,
    "osdp_device_config": DeviceConfigStruct,
    "osdp_answer": AnswerStruct,
    "osdp_monitor": MonitorHandle,
}
PANEL, DEVICE, MONITOR, MESSAGE, ANSWER = (
    POINTER(PanelHandle),
    POINTER(DeviceHandle),
    POINTER(MonitorHandle),
    POINTER(MessageStruct),
    POINTER(AnswerStruct),
)
SIZE, NUMBER, LONG = POINTER(c_size_t), POINTER(c_uint32), POINTER(c_uint64)
# what each function takes; each gives a status, but for those that give nothing
TAKES: dict[str, Tuple[Any, ...]] = {
    "osdp_command_text_nonnull": (c_uint8, c_char_p, c_size_t, c_char_p, c_size_t, SIZE),
    "osdp_reply_text_nonnull": (c_uint8, c_char_p, c_size_t, c_char_p, c_size_t, SIZE),
    "osdp_raw_of": (MESSAGE, POINTER(RawStruct)),
    "osdp_panel_defaults": (POINTER(PanelConfigStruct),),
    "osdp_panel_new": (PANEL, POINTER(PanelConfigStruct)),
    "osdp_panel_new_with_room": (PANEL, POINTER(PanelConfigStruct), c_size_t),
    "osdp_panel_free": (PANEL,),
    "osdp_panel_add": (PANEL, c_uint32, c_uint64, SIZE),
    "osdp_panel_next_number": (PANEL, c_size_t, LONG),
    "osdp_panel_begin": (PANEL, c_size_t, c_uint64),
    "osdp_panel_submit_nonnull": (PANEL, c_size_t, c_uint8, c_char_p, c_size_t, c_uint64, LONG),
    "osdp_panel_submit_text_nonnull": (PANEL, c_size_t, c_char_p, c_size_t, c_uint64, LONG),
    "osdp_panel_withdraw": (PANEL, c_size_t, MESSAGE),
    "osdp_panel_retarget": (PANEL, c_size_t, c_uint32),
    "osdp_panel_bytes_nonnull": (PANEL, c_char_p, c_size_t, c_uint64),
    "osdp_panel_silence": (PANEL, c_uint64),
    "osdp_panel_tick": (PANEL, c_uint64, NUMBER),
    "osdp_panel_write": (PANEL, c_uint64, POINTER(BurstStruct)),
    "osdp_panel_set_moment": (PANEL, c_uint64),
    "osdp_panel_next_deadline": (PANEL, POINTER(MomentStruct)),
    "osdp_panel_address": (PANEL, c_size_t, NUMBER),
    "osdp_panel_waiting": (PANEL, c_size_t, SIZE),
    "osdp_panel_is_closed": (PANEL, c_size_t, NUMBER),
    "osdp_panel_next_report": (PANEL, POINTER(ReportStruct)),
    "osdp_device_new_nonnull": (DEVICE, POINTER(DeviceConfigStruct), c_char_p, c_size_t),
    "osdp_device_new_with_room_nonnull": (DEVICE, POINTER(DeviceConfigStruct), c_char_p, c_size_t, c_size_t),
    "osdp_device_free": (DEVICE,),
    "osdp_device_set_inputs_nonnull": (DEVICE, c_char_p, c_size_t),
    "osdp_device_set_outputs_nonnull": (DEVICE, c_char_p, c_size_t),
    "osdp_device_set_readers_nonnull": (DEVICE, c_char_p, c_size_t),
    "osdp_device_set_local": (DEVICE, c_uint8, c_uint8),
    "osdp_device_set_busy": (DEVICE, c_uint32),
    "osdp_device_event_nonnull": (DEVICE, c_uint8, c_char_p, c_size_t),
    "osdp_device_event_text_nonnull": (DEVICE, c_char_p, c_size_t),
    "osdp_device_address": (DEVICE, NUMBER),
    "osdp_device_waiting": (DEVICE, SIZE),
    "osdp_device_is_closed": (DEVICE, NUMBER),
    "osdp_device_is_offline": (DEVICE, c_uint64, NUMBER),
    "osdp_device_expire_event": (DEVICE, c_uint64, c_uint64, NUMBER, MESSAGE),
    "osdp_device_withdraw_event": (DEVICE, MESSAGE),
    "osdp_device_lapse_event": (DEVICE, MESSAGE),
    "osdp_device_step_nonnull": (DEVICE, c_char_p, c_size_t, c_uint64, SIZE, ANSWER),
    "osdp_device_tick": (DEVICE, c_uint64, ANSWER),
    "osdp_device_silence": (DEVICE, c_uint64, ANSWER),
    "osdp_device_set_moment": (DEVICE, c_uint64),
    "osdp_device_answer_done": (DEVICE,),
    "osdp_device_answer_local": (DEVICE, c_uint8, c_uint8),
    "osdp_device_answer_list_nonnull": (DEVICE, c_char_p, c_size_t),
    "osdp_device_answer_refused": (DEVICE, c_uint8),
    "osdp_device_answer_maker_nonnull": (DEVICE, c_char_p, c_char_p, c_size_t),
    "osdp_monitor_new": (MONITOR, c_uint32, c_uint32),
    "osdp_monitor_free": (MONITOR,),
    "osdp_monitor_bytes_nonnull": (MONITOR, c_char_p, c_size_t),
    "osdp_monitor_silence": (MONITOR,),
    "osdp_monitor_table": (MONITOR,),
    "osdp_monitor_next_text_nonnull": (MONITOR, c_char_p, c_size_t, SIZE),
    "osdp_monitor_is_wrong": (MONITOR, NUMBER),
}
NO_STATUS = {"osdp_panel_defaults"}
# what the functions beside the machines take, and what they give
TEXTS: dict[str, Tuple[Tuple[Any, ...], Any]] = {
    "osdp_status_text": ((c_uint32,), c_char_p),
    "osdp_version": ((), c_char_p),
    "osdp_struct_size": ((c_char_p,), c_size_t),
}


def is_fit(functions: dict[str, Any]) -> None:
    """Raises ImportError where the library is of another version than this package, or its structs have other
    sizes: its calls would write beyond them."""
    version = functions["osdp_version"]().decode()
    if version != VERSION:
        raise ImportError(f"the library of osdp has the version {version}, and this package {VERSION}")
    for name, struct in STRUCTS.items():
        size = functions["osdp_struct_size"](name.encode())
        if size != ctypes.sizeof(struct):
            raise ImportError(
                f"the library of osdp is of another version than this package: struct {name} has {size} bytes"
                f" there, and {ctypes.sizeof(struct)} here"
            )


def found() -> dict[str, Any]:
    """The functions of the shared library: of the file that the variable OSDP_LIBRARY names, else of the one
    beside this file, else of the system's. ImportError where it isn't there, or is another one."""
    named = os.environ.get("OSDP_LIBRARY")
    beside = HERE / NAME
    try:
        opened = ctypes.CDLL(named or (str(beside) if beside.exists() else NAME))
        functions = {name: opened[name] for name in (*TAKES, *TEXTS)}
    except OSError as error:
        raise ImportError(
            f"the library of osdp can't be opened ({error}): ./install puts it in place, and PYTHONPATH names"
            " its share/osdp/python; or OSDP_LIBRARY names it"
        ) from None
    except AttributeError as error:
        raise ImportError(
            f"the library of osdp is of another version than this package ({error})"
        ) from None
    for name, takes in TAKES.items():
        functions[name].argtypes, functions[name].restype = takes, None if name in NO_STATUS else c_uint32
    for name, (takes, gives) in TEXTS.items():
        functions[name].argtypes, functions[name].restype = takes, gives
    is_fit(functions)
    return functions


library = found()


def library_version() -> str:
    """The version of the shared library."""
    return str(library["osdp_version"]().decode())


def call(name: str, *words: object) -> None:
    """Calls a function of the library. Raises OsdpError where it is refused, and ValueError where ctypes
    would cut a number."""
    for word, kind in zip(words, TAKES[name]):
        if isinstance(word, int):
            whole(word, 256 ** ctypes.sizeof(kind) - 1, "a number")
    status = library[name](*words)
    if status:
        raise OsdpError(Status(status))


def whole(number: int, most: int, what: str) -> int:
    """The number, where the library can be handed it. Raises ValueError where it isn't from 0 to `most`,
    since ctypes would cut it."""
    if not 0 <= number <= most:
        raise ValueError(f"{what} is from 0 to {most}, and not {number}")
    return number


def as_bytes(data: Bytes) -> bytes:
    """The bytes of what has some. TypeError: it is neither bytes, nor a bytearray, nor a memoryview."""
    if not isinstance(data, (bytes, bytearray, memoryview)):
        raise TypeError(f"bytes, a bytearray or a memoryview, and not {type(data).__name__}")
    return bytes(data)


def moment(now: int) -> int:
    """The moment, where the library can be handed it: a number of milliseconds from 0 to 2**64 - 1. Else
    raises ValueError."""
    return whole(now, 2**64 - 1, "a moment")
