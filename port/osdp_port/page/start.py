"""`osdp-port PORT RATE page`: puts together the port, the process that speaks to browsers, and what is done on the line."""
import os
import secrets
import sys
from pathlib import Path

from ..faults import BAD_WORDS, NO_PROGRAM, Stop, is_number
from ..serial_port import Port
from ..trace import Bursts
from .channel import Channel
from .console import PageConsole
from .demo import Demo
from .work import Recorder, Work

LOOPBACK = "127.0.0.1:0"  # this computer alone, and a port that the system chooses


def needs_aiohttp():
    try:
        import aiohttp  # noqa: F401
    except ImportError:
        raise Stop("python3-aiohttp isn't there: call  sudo apt-get install python3-aiohttp", NO_PROGRAM) from None


def listens_at(word):
    """Where browsers find the page: HOST:PORT, of one address of this computer."""
    host, colon, port = word.rpartition(":")
    if not colon or not host or not is_number(port, 0, 65535):
        raise Stop(f"--listen {word}: HOST:PORT, as 127.0.0.1:8080", BAD_WORDS)
    if host in ("0.0.0.0", "[::]", "::", "*"):
        raise Stop(f"--listen {word}: name the one address at which browsers find it, as 192.168.0.7:8080", BAD_WORDS)
    return word


def goes_alone(word):
    if word not in ("goes-on", "ends"):
        raise Stop(f"--alone {word}: goes-on or ends", BAD_WORDS)
    return word


def page(words, console, osdp, moment, goes_on):
    """Shows the line as a page, until Ctrl-C. The status."""
    needs_aiohttp()
    listens_at(words.get("--listen", LOOPBACK)), goes_alone(words.get("--alone", "goes-on"))
    demo = Demo(osdp) if words.get("--demo") else None
    try:
        return shown(words, console, osdp, moment, goes_on, demo)
    finally:
        if demo:
            demo.ends()


def shown(words, console, osdp, moment, goes_on, demo):
    path, rate = (demo.path, demo.rate) if demo else (words.port, words.rate)
    port = Port(path, rate)
    settings = {"listen": words.get("--listen", LOOPBACK), "token": secrets.token_urlsafe(18), "port": "demo" if demo else path, "rate": rate, "osdp": osdp,
                "demo": bool(demo), "alone": words.get("--alone", "goes-on"), "report": str(Path(sys.argv[0]).resolve().parent / "osdp-report")}
    channel = Channel(settings, lambda command: work.takes(command))
    pages = PageConsole(console, channel)
    port.tell = lambda line: channel.tells("say", text=line)
    work = Work(port, osdp, pages, channel, moment, goes_on)
    work.demo, work.ends_alone = demo, settings["alone"] == "ends"
    work.recorder = Recorder(port, channel.tells, os.getcwd())
    port.taps.append(Bursts(lambda since, way, burst: (work.recorder.takes(since, way, burst), channel.burst(since, way, burst))))
    if words.get("--trace"):
        work.recorder.goes_on(words.get("--trace"))
    if demo:
        demo.tells = channel.tells
        work.wanted = {"do": "panel", "addresses": demo.addresses, "rate": rate, "check": "crc", "wait": 400}
    channel.begins()
    try:
        return work.goes()
    finally:
        work.recorder.ends()
        channel.ends()
        port.close()
