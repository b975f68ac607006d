"""The panel in C where the library refuses the address at which a device is to be tried: no session begins where it was tried before, that is told, and it is tried again.
`c_refuses.py PANEL` takes a panel that is built with tests/c/refuses.c."""
import select
import sys
import time

from terminals import Script, Terminal


def main(panel):
    terminal = Terminal()
    script = Script(panel, terminal.path, 9600, 5, "check", "sum", "quiet-wait", 60)
    begun, first, told = time.monotonic(), None, []
    while first is None and time.monotonic() < begun + 10:
        script.read()
        for burst in terminal.bursts() if select.select([terminal.end], [], [], 0.01)[0] else ():
            first, told = first or (time.monotonic() - begun, burst), list(script.lines)
    script.process.kill()
    script.process.wait()
    script.read()
    refused = [line for line in script.lines if line.startswith("not begun 1 5 9600: ")]
    if first is None or first[0] < 2 or first[1][1] != 5 or len(refused) != 2:
        sys.exit(f"c_refuses: the first packet {first}, {refused} of {told}")


if __name__ == "__main__":
    main(sys.argv[1])
