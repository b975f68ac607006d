"""Lines whose readers take so long, with moments: which answers `monitor --times` tells as late. Takes the path of the program.

The panel and the reader are made from the rules alone. The panel waits 200 milliseconds for each answer, and then sends its packet again, or goes on with
the next number; it takes an answer with the number of its last packet, and passes over any other. The reader answers each packet that it hears so many
milliseconds after it, from 5 to 590. What it takes within the wait must never be told late, and what takes longer always, with the time that the line was
made with. At losses of 1 and 5 of a hundred packets and answers so, too, but that the answer to a second copy may be told by the time from the first one.
The moments stand in seconds, as dates over the end of a leap February, or in .osdpcap. Prints how many lines were made, how many answers were told late, and how
often something false was told."""
import json
import random
import re
import subprocess
import sys
from collections import Counter
from datetime import datetime, timedelta, timezone

from ends import ACK, LOSSES, packet
from strangers import PROGRAM

POLL = 0x60
WAIT = 200
PACKETS, LOSSY = 60, 200
START = datetime(2024, 2, 29, 23, 59, 55, tzinfo=timezone.utc)
IN_TIME = re.compile(r"^times: 5 answered (\d+) in (\d+) to (\d+) ms, half below (\d+), 95 of 100 below (\d+)$", re.M)
TOOK = re.compile(r" \(it took (\d+) ms, the panel waited (\d+) ms\)$", re.M)
TOLD = re.compile(r"^\S+ (?:in|out|trace) (\d+):0 device 5: a late answer: .*waits(?: \(it took (\d+) ms, the panel waited (\d+) ms\))?$", re.M)
LATE = re.compile(r"^times: 5 answered (\d+) late, after (\d+) ms at most: the panel waits (\d+) ms$", re.M)
counts = Counter()


def line(delay, repeats, loss=0):
    """The bursts of a line: each with its moment in milliseconds, whether it is the panel's, and its bytes. Of the packets the reader doesn't hear its share, and of the
    answers nobody."""
    bursts, answers = [], []
    now, number, tries, chance = 0, 0, 0, random.Random(f"{delay} {repeats} {loss}")
    while len([1 for burst in bursts if burst[1]]) < (LOSSY if loss else PACKETS):
        bursts.append((now, True, packet(5, number, POLL)))
        if all(chance.random() >= loss for _ in range(2)):
            answers.append((now + delay, number))
        tries += 1
        taken = None
        while answers and answers[0][0] <= now + WAIT and taken is None:
            moment, of = answers.pop(0)
            bursts.append((moment, False, packet(5, of, ACK, b"", True)))
            if of == number:
                taken = moment
        if taken is not None:
            now, number, tries = max(taken, now) + 20, number % 3 + 1, 0
        else:
            now += WAIT
            if not repeats or tries == 2:  # a packet is sent twice at most
                number, tries = number % 3 + 1, 0
    return sorted(bursts, key=lambda burst: burst[0])


def in_seconds(bursts):
    """Stamps in seconds."""
    return ["--hex"], "".join(f"# {moment // 1000}.{moment % 1000:03} {'out' if own else 'in'}\n{burst.hex()}\n" for moment, own, burst in bursts)


def in_days(bursts):
    """Stamps with a date."""
    stamps = [(START + timedelta(milliseconds=moment)).strftime("%Y-%m-%dT%H:%M:%S.%f")[:-3] for moment, _, _ in bursts]
    return ["--hex"], "".join(f"# {stamp}Z {'out' if own else 'in'}\n{burst.hex()}\n" for stamp, (_, own, burst) in zip(stamps, bursts))


def in_objects(bursts):
    """Objects of .osdpcap."""
    return ["--osdpcap"], "".join(json.dumps({"timeSec": str(1700000000 + moment // 1000), "timeNano": f"{moment % 1000 * 1000000:09}",
                                             "io": "output" if own else "input", "data": burst.hex()}) + "\n" for moment, own, burst in bursts)


def told(words, text):
    """What the monitor prints."""
    return subprocess.run([PROGRAM, "monitor", *words], input=text.encode(), capture_output=True, check=False).stdout.decode()


def times_of(bursts, delay, loss):
    """For each reply, by its run, the times that may be told of it: how long it took, and how long the panel waited after the packet that it answers, or after the one
    before. Where a first copy's answer is lost, the second one's is told by the time from the first: nobody can tell which of them it answers."""
    sent = [moment for moment, own, _ in bursts if own]
    after = {moment: later - moment for moment, later in zip(sent, sent[1:])}
    before = {later: later - moment for moment, later in zip(sent, sent[1:])}
    replies = {run: moment for run, (moment, own, _) in enumerate(bursts, 1) if not own}
    return {run: {(delay, after.get(moment - delay)), (delay, before.get(moment - delay))} | ({(delay + WAIT, after.get(moment - delay - WAIT))} if loss else set())
            for run, moment in replies.items()}


def line_faults(bursts, delay, repeats, loss, with_times):
    """What is wrong with the times that stand where late answers are told. A panel that doesn't repeat goes on without an answer: after two packets more none is told."""
    times = times_of(bursts, delay, loss)
    told = TOLD.findall(with_times)
    for run, took, waited in told:
        if not took or (int(took), int(waited)) not in times[int(run)]:
            yield f"run {run} is told by {took} ms and {waited} ms, made with {delay} ms and {times[int(run)]}"
    exact = sum(took == str(delay) for _, took, _ in told)
    counts[loss, "answers told late"] += len(told)
    counts[loss, "by the time from the copy before"] += len(told) - exact
    if exact < 0.75 * len(told):
        yield f"of {len(told)} late answers {exact} are told with their time"
    if len(TOOK.findall(with_times)) != sum(bool(took) for _, took, _ in told):
        yield "times stand after another line"
    if bool(told) != (delay > WAIT and (repeats or delay <= 2 * WAIT)):
        yield f"{len(told)} late answers are told"


def faults_of(delay, repeats, loss, form):
    """What is wrong with what is told of a line."""
    bursts = line(delay, repeats, loss)
    words, text = form(bursts)
    with_times = told([*words, "--times"], text)
    late, in_time = LATE.search(with_times), IN_TIME.search(with_times)
    if delay <= WAIT:
        replies = sum(not own for _, own, _ in bursts)
        if late or not in_time or int(in_time[1]) < (replies / 2 if loss else replies - 1) or {in_time[2], in_time[3]} != {str(delay)}:
            yield f"told {late and late[0]}, {in_time and in_time[0]}"
        elif not int(in_time[4]) > delay >= int(in_time[4]) - 5 or in_time[4] != in_time[5]:
            yield f"the shares are not of {delay}: {in_time[0]}"
    elif not late or int(late[2]) not in (delay, delay + WAIT if loss else delay) or late[3] != str(WAIT) or in_time:
        yield f"told {late and late[0]}, {in_time and in_time[0]}"
    yield from line_faults(bursts, delay, repeats, loss, with_times)
    plain = told(words, text)
    with_times = TOOK.sub("", with_times)
    unstamped = re.sub(r"^\S+ (?:in|out|trace) (\d+:)", r"\1", re.sub(r"^times: .*\n", "", with_times, flags=re.M), flags=re.M)
    if unstamped != plain:
        yield "the lines are others than without moments"


def main():
    """Listens to each line, and prints the counts."""
    faults = 0
    for loss in LOSSES:
        for delay in (5, 35, 110, 199, *range(205, 591, 35), 590):
            for repeats in (True, False):
                for form in (in_seconds,) if loss else (in_seconds, in_days, in_objects):
                    counts[loss, "lines"] += 1
                    for fault in faults_of(delay, repeats, loss, form):
                        faults += 1
                        counts[loss, "told falsely"] += 1
                        print(f"late: a reader that takes {delay} ms, {'repeats' if repeats else 'no repeats'}, losses {loss:.0%}, {form.__name__}: {fault}")
    for loss in LOSSES:
        print(f"losses {loss:.0%}: {', '.join(f'{what} {counts[loss, what]}' for what in ('lines', 'answers told late', 'by the time from the copy before', 'told falsely'))}")
    print(f"late: {faults} faults")
    return 1 if faults else 0


if __name__ == "__main__":
    sys.exit(main())
