"""`osdp monitor` beside the page: it gets each burst of the line, and its objects come back. By them it is known what each device was asked and answered.

The counts are those of `osdp-report` on the same bursts: they come from the same class."""
import asyncio
import json
import re
from collections import deque

from ..figures import Device, Heard, Packet

ROWS = ("polls", "answers", "repeats", "orders", "cards and keys", "damage", "accused")
HEAD = re.compile(r"(cmd|reply) (\d+) seq (\d) (crc|sum) (.*)")
BUCKETS = 240  # of the timelines: quarters of a second
TIMES = 5000  # so many answer times of a device are kept
TOLD = 60  # so many sentences are kept
AROUND = 5  # packets of a device that show what somebody is accused of
MOST_WAITING = 4000000  # bytes that wait for the program at most


class LiveDevice(Device):
    """A device, of which only what is shown is kept."""

    def __init__(self, address):
        super().__init__(address)
        self.times = deque(maxlen=TIMES)
        self.packets = deque(maxlen=AROUND)

    def taken(self):
        """How many of each row have come since this was asked last."""
        points, self.points = self.points, []
        counts = [0] * len(ROWS)
        for _, row in points:
            counts[ROWS.index(row)] += 1
        return counts


class Listener:
    """What goes over the line. `changed` is called with the name of what has changed."""

    def __init__(self, osdp, changed):
        self.osdp, self.changed = osdp, changed
        self.heard = Heard(LiveDevice)
        self.runs, self.first, self.process = deque(), 1, None  # bursts whose objects may still come, and the number of the first one
        self.counts = {"packets": 0, "skipped": 0, "refused": 0, "bytes": 0, "left_out": 0}
        self.told, self.diagnoses, self.accused = deque(maxlen=TOLD), [], 0
        self.buckets, self.number, self.marks = deque(maxlen=BUCKETS), 0, {}
        self.lately = deque(maxlen=40)  # bytes and packets of the last ten seconds, by quarters of a second
        self.before = (0, 0, 0)

    async def begins(self):
        self.process = await asyncio.create_subprocess_exec(
            self.osdp, "monitor", "--json", "--packets", "--every", "1", stdin=asyncio.subprocess.PIPE, stdout=asyncio.subprocess.PIPE, limit=1 << 20)
        return asyncio.ensure_future(self.reads())

    def burst(self, since, way, digits):
        """A burst has gone over the line."""
        self.counts["bytes"] += len(digits) // 2
        if self.process.stdin.transport.get_write_buffer_size() > MOST_WAITING:
            self.counts["left_out"] += 1
            return
        self.runs.append((since, way))
        self.process.stdin.write(digits.encode() + b"\n")

    async def reads(self):
        async for line in self.process.stdout:
            told = json.loads(line)
            getattr(self, f"is_{told['kind']}", self.is_other)(told)

    def run(self, number):
        """The moment and the way of a run. Those before it are over."""
        while self.first < number and len(self.runs) > 1:
            self.runs.popleft()
            self.first += 1
        return self.runs[0] if self.runs else (None, None)

    def is_other(self, told):
        """A count of the program's own table isn't shown: the page counts packets as they come."""

    def is_item(self, told):
        since, way = self.run(told["run"])
        text = told["text"]
        head = HEAD.match(text)
        if head:
            kind, address, number, check, says = head.groups()
            packet = Packet(since, since, way, told["run"], told["place"], kind, int(address), number, check, says)
            self.counts["packets"] += 1
        else:
            kind = text.split(" ", 1)[0]
            packet = Packet(since, since, way, told["run"], told["place"], kind, None, None, None, text)
            self.counts["refused" if kind == "refused" else "skipped"] += 1
        self.heard.takes(packet)
        if head:
            self.heard.devices[packet.address].packets.append({"at": since, "kind": kind, "number": number, "check": check, "text": says[:120]})

    def is_told(self, told):
        since, _ = self.run(told["run"])
        entry = {"at": since, "party": told["party"], "address": told["address"], "text": told["text"], "basis": told["basis"], "took": told.get("took"), "waited": told.get("waited"), "packets": []}
        device = self.heard.devices.get(told["address"])
        if told["party"] != "device" and device and told["basis"]:
            entry["packets"] = list(device.packets)
            self.accused += 1
            self.marks[told["address"]] = self.marks.get(told["address"], 0) + 1
        self.told.append(entry)
        self.changed("told")

    def is_expected(self, told):
        if self.told:
            self.told[-1]["expected"] = told["packet"][:400]

    def is_seen(self, told):
        if self.told:
            self.told[-1]["seen"] = told["packet"][:400]

    def is_line(self, told):
        if self.diagnoses:
            self.diagnoses = []
            self.changed("told")

    def is_diagnosis(self, told):
        self.diagnoses.append(told["text"])
        self.changed("told")

    def tick(self):
        """A quarter of a second is over."""
        counts = {}
        for address, device in self.heard.devices.items():
            taken = device.taken()
            taken[-1] += self.marks.pop(address, 0)
            if any(taken):
                counts[address] = taken
        self.number += 1
        self.buckets.append((self.number, counts))
        now = (self.counts["bytes"], self.counts["packets"], self.counts["refused"])
        self.lately.append(tuple(new - old for new, old in zip(now, self.before)))
        if now != self.before:
            self.changed("counts")
        self.before = now

    def since(self, number):
        """The buckets after one, and no more than there are."""
        return [[at, counts] for at, counts in self.buckets if at > number]

    def pace(self, rate):
        """Of the last ten seconds: the share of time in use, and packets and damage a second."""
        seconds = max(1, len(self.lately)) / 4
        total, packets, damaged = (sum(each[at] for each in self.lately) for at in range(3))
        return {"busy": min(100.0, round(100 * total * 10 / rate / seconds, 1)), "packets": round(packets / seconds, 1), "damaged": round(damaged / seconds, 1)}

    async def ends(self, reading):
        """The line has ended: the last objects come out."""
        self.process.stdin.close()
        try:
            await asyncio.wait_for(reading, 2)
        except asyncio.TimeoutError:
            self.process.kill()
        await self.process.wait()
