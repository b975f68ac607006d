#!/usr/bin/env python3
"""A small reader on a serial port, to copy. `osdp-port` has more: ports that come back, traces.
    reader.py [--keep FILE [--new]] [--late MS] PORT RATE [PROGRAM] [SETTING VALUE]..

It carries the port's bytes to `osdp reader`, with the moments at which they come, and what that sends to the port. PROGRAM is the path of osdp, with a `/` in it,
where it isn't found by its name. Its manual has its settings.
Each line of standard input is handed over too: `event KEYPAD 0 31`, `busy on`, `inputs 0100`, `readers 00`, `local 0 0`. The other calls are made here.
Each line of standard output is such a line, or what is told. `taken` and a command is for the device to do, once: an OUT is done here, before it is
answered. `refused` and a command was answered by a NAK: nothing of it is done. `again` and a command came with number 0, and may come once more.
Events leave that are older than 10 s while no panel is there: by a card of long ago no door is to open. `offline` and `online` tell that the panel went
and came. `withdrawn` and an event: the panel hasn't got it, and never will. `in doubt` and an event: the panel may have it. `expire 0` keeps them all.
The reader has eight outputs, which an OUT switches; the time of an output is counted here. `moved` is a new address and rate. The store of `--keep`, which `--new` makes, has
them, before the panel is told, and a reader that starts again goes by it, and not by the address and the rate that it is given. After `no rate` it hasn't
moved, since the port hasn't that rate: the panel isn't told, and the reader begins anew where it was. Events that waited are gone then.
`stood still`: for more than MS milliseconds, 5000 if not said. What came meanwhile is dropped, since its panel has given it up; a line is to be typed again.
`not done` and a command: the reader stood still before it could do it, and begins anew, as after `no rate`.
Status: 2 bad words or settings, 3 the port or standard output fails, 4 out of memory, 127 there is no such program, 130 at Ctrl-C."""
from lines import Lines, number, take_words, tell
from outputs import Outputs
from place import OPTIONS, Kept
from port import Port
from program import Program

TURN, NAK = 0.01, 0x41  # how long a read waits, in seconds; the code of a reply that says that nothing was done
ABSENT = ("expire", "10000", "presence", "on")  # what it does while no panel is there
CALLS = ("event", "busy", "inputs", "readers", "local")  # what a line of standard input may begin with


class Reader:
    def __init__(self, port, settings, address, kept):
        self.port, self.settings, self.address, self.kept, self.lines, self.outputs = port, settings, address, kept, Lines(), Outputs()
        self.starts()

    def starts(self):
        """Starts the program, as a reader that is where this one is."""
        self.program, self.told = Program("reader", self.settings, ABSENT, self.address), None  # `told`: what it was told of the outputs
        self.tell_outputs()

    def starts_anew(self, why):
        """Begins as after a loss of power. So its panel loses the session, and takes nothing for done that isn't."""
        tell(why)
        self.program.process.stdin.close()
        self.starts()

    def call(self, line):
        """Hands the program a line, and does what its answer says: a packet to send stands before the command that it answers, and goes out after the deed."""
        burst = b""
        for line in [*self.program.call(line)[:-1], "send "]:
            name, *words = line.split()
            if name == "send":
                self.port.write(burst)
                burst = bytes.fromhex("".join(words))
                continue
            is_refused = name in ("taken", "again") and burst[5] == NAK
            if name in ("taken", "moved") and not is_refused and self.port.turns.is_late():
                return self.starts_anew(f"not done {' '.join(words)}")
            if name == "taken" and words[0] == "OUT" and not is_refused:
                self.outputs.switch(words[1:])
                self.tell_outputs()
            tell(f"refused {' '.join(words)}" if is_refused else "refused no room for another event" if line == "refused N2" else line)
            if name == "moved":
                self.move(*map(int, words), burst)
                burst = b""

    def move(self, address, rate, burst):
        """Goes to another place, once the panel is told: where it is kept before, it isn't lost with the power. Where the port hasn't its rate nobody is told."""
        if not self.port.can_have(rate):
            return self.starts_anew(f"no rate {rate}")
        self.kept.keep(address, rate)
        self.port.write(burst)
        self.address = ["address", str(address)]
        self.port.set_rate(rate)

    def tell_outputs(self):
        """Tells the program which outputs are on, where that has changed: by it OSTAT is answered."""
        states = self.outputs.states()
        if states != self.told:
            self.told = states
            self.call(f"outputs {states}")

    def turn(self):
        """Waits for bytes and for lines, and hands them to the program. What came while it stood still is dropped, as a line may lose it."""
        read, lines = self.port.wait(self.lines, TURN)
        self.call(f"at {self.port.turns.now}")
        self.tell_outputs()
        for piece in [] if self.port.turns.stood_still else read:
            self.call(f"bytes {piece.hex()}")
        for line in lines:
            tell(line)
            self.call(line) if line.startswith(CALLS) else tell("refused line")
        self.call("tick")


if __name__ == "__main__":
    path, word, *settings = take_words(__doc__, 2, OPTIONS)
    address, rate = (kept := Kept(OPTIONS)).first(number(word, "rate"))
    reader = Reader(Port(path, rate), settings, address, kept)
    while True:
        reader.turn()
