"""The page: HTML with drawings in SVG, all in one file. Every text of the capture is escaped."""
from html import escape

from . import pace
from .figures import rank

COLUMNS = 600  # of a timeline: packets of one column are one mark
MOST = 200  # so many accusations have their packets
ROWS = (
    ("polls", "#9db4c8"),
    ("answers", "#3b7a57"),
    ("repeats", "#d08700"),
    ("orders", "#1f5fbf"),
    ("cards and keys", "#7b3fb5"),
    ("damage", "#b3261e"),
    ("accused", "#000000"),
)
STYLE = """body{font:15px/1.5 sans-serif;max-width:70em;margin:2em auto;padding:0 1em;color:#1a1a1a}
table{border-collapse:collapse;margin:.7em 0;font-size:13px}td,th{border:1px solid #c8c8c8;
padding:.25em .5em;text-align:right;vertical-align:top}td.text,th.text{text-align:left}
td.text{white-space:nowrap}code,pre{font-size:13px}svg{display:block;margin:.4em 0 1.2em}"""


def milliseconds(time):
    return f"{time * 1000:.0f}"


def often(count):
    return f"{count} time{'' if count == 1 else 's'}"


def table(heads, rows, texts=()):
    """A table; the columns of these names hold text."""
    def cells(kind, row):
        return "".join(
            f'<{kind}{" class=text" if head in texts else ""}>{escape(str(cell))}</{kind}>'
            for head, cell in zip(heads, row)
        )
    return (
        f"<table><tr>{cells('th', heads)}</tr>"
        + "".join(f"<tr>{cells('td', row)}</tr>" for row in rows)
        + "</table>\n"
    )


def late_words(figures):
    """A sentence for each device whose answers come late: how long it took, and how long the panel waited."""
    for address, times in figures.late():
        least, most = min(time for time, _ in times), max(time for time, _ in times)
        wait = rank(sorted(wait for _, wait in times), 50)
        yield (
            f"Reader {address} answers late, {often(len(times))}: after {milliseconds(least)} to"
            f" {milliseconds(most)} ms, and the panel waits {milliseconds(wait)} ms. Lengthen the panel's"
            " wait, or ask the reader's maker why it takes so long."
        )


def online_words(figures):
    for device in figures.rows():
        if device.heard is None:
            yield f"Device {device.address} was never heard."
        elif not device.is_online():
            since = device.heard.stamp or f"run {device.heard.run}"
            yield (
                f"Device {device.address} is offline: its last answer came at {since}, and"
                f" {device.unanswered} packets after it have none."
            )


def judged_words(figures):
    accused = len(figures.accusations())
    if "nothing was judged" in figures.table:
        yield "Nothing was judged: there is too little, or damage before each packet, or Secure Channel."
    elif accused:
        yield f"Somebody broke a rule {often(accused)}: the packets stand below."
    else:
        yield "Nobody broke a rule."


def words(figures):
    """What is likely wrong, in sentences."""
    said = [
        ("Device " if each[0].isdigit() else each[0].upper())
        + each[not each[0].isdigit() :]
        + ("" if each.endswith("?") else ".")
        for each in figures.diagnoses
    ]
    if figures.echoes:
        said.append(
            f"The adapter hands back what is sent: {figures.echoes} runs that came in are those that went out"
            " just before. They are left out."
        )
    said += [*late_words(figures), *online_words(figures), *judged_words(figures)]
    return "<ul>" + "".join(f"<li>{escape(each)}</li>" for each in said) + "</ul>\n"


def device_row(device):
    times = sorted(device.times)
    answer = (
        [milliseconds(each) for each in (times[0], rank(times, 50), rank(times, 95), times[-1])]
        if times
        else ["-"] * 4
    )
    share = 100 * device.repeats // device.asked if device.asked else 0
    damaged = 100 * device.damaged // device.asked if device.asked else 0
    heard = device.heard
    last = "never" if heard is None else heard.stamp or f"run {heard.run}"
    return (
        device.address,
        device.asked,
        device.answered,
        f"{share}%",
        f"{damaged}%",
        *answer,
        device.events,
        device.orders,
        "online" if device.is_online() else "offline",
        last,
    )


def devices(figures):
    heads = (
        "device",
        "asked",
        "answered",
        "repeats",
        "damage",
        "least ms",
        "median ms",
        "95 of 100 ms",
        "greatest ms",
        "cards and keys",
        "orders",
        "state",
        "last heard",
    )
    return table(heads, map(device_row, figures.rows()), ("last heard", "state"))


def line_words(line):
    """What is said of the whole line, in sentences."""
    why = line.why_not()
    if why is not None:
        yield f"{why[0].upper()}{why[1:]}, so nothing is said of a second."
        return
    _, came = line.whole()
    yield f"In the whole capture, {came.seconds:.1f} s: {pace.words(came, line.rate)}."
    busiest = line.busiest()
    if busiest is not None:
        yield f"In its busiest minute, from {busiest[0].stamp} on: {pace.words(busiest[1], line.rate)}."
    if line.rate is None:
        yield (
            "What share of the time is in use isn't said, since the capture tells"
            f" {'more than one' if line.rates else 'no'} rate: osdp-report --rate 9600 does."
        )
    if line.without:
        yield f"{line.without} of {line.without + len(line.runs)} runs have no moment, and are left out here."


def whole_line(figures):
    return "".join(f"<p>{escape(each)}</p>\n" for each in line_words(figures.line))


def span(figures):
    """What tells a packet's place on the time axis, from 0 to 1, and the axis' ends in words. Without moments
    it is the run."""
    moments = [packet.moment for packet in figures.packets]
    if not moments or None in moments or moments[0] == moments[-1]:
        first, last = (figures.packets[0].run, figures.packets[-1].run) if figures.packets else (1, 1)
        ends, of = (f"run {first}", f"run {last}"), lambda packet: packet.run
    else:
        first, last = min(moments), max(moments)
        ends, of = (figures.packets[0].stamp, figures.packets[-1].stamp), lambda packet: packet.moment
    return (lambda packet: (of(packet) - first) / ((last - first) or 1)), ends


def marks(points, place, row, color):
    """A mark for each column of a row that has something; the more packets it has, the darker it is."""
    counts = {}
    for packet in points:
        column = min(COLUMNS - 1, int(place(packet) * COLUMNS))
        counts[column] = counts.get(column, 0) + 1
    most = max(counts.values(), default=1)
    return "".join(
        f'<rect x="{110 + column}" y="{row * 16 + 2}" width="2" height="12" fill="{color}"'
        f' opacity="{0.35 + 0.65 * count / most:.2f}"><title>{count}</title></rect>'
        for column, count in sorted(counts.items())
    )


def timeline(figures, device, place, ends):
    """A drawing of what a device was asked and what it said."""
    points = {name: [] for name, _ in ROWS}
    for packet, row in device.points:
        points[row].append(packet)
    for told in figures.accusations():
        at = figures.places.get((told.run, told.place))
        if told.address == device.address and at is not None:
            points["accused"].append(figures.packets[at])
    drawn = [(name, color) for name, color in ROWS if points[name]]
    height = len(drawn) * 16 + 20
    parts = [
        f'<svg width="{COLUMNS + 120}" height="{height}" role="img" aria-label="timeline of device'
        f' {device.address}">'
    ]
    for row, (name, color) in enumerate(drawn):
        parts.append(
            f'<text x="104" y="{row * 16 + 13}" text-anchor="end" font-size="12">{name}</text>'
            + marks(points[name], place, row, color)
        )
    parts.append(f'<text x="110" y="{height - 4}" font-size="11">{escape(ends[0])}</text>')
    parts.append(
        f'<text x="{COLUMNS + 110}" y="{height - 4}" font-size="11"'
        f' text-anchor="end">{escape(ends[1])}</text></svg>\n'
    )
    return "".join(parts)


def timelines(figures):
    place, ends = span(figures)
    return "".join(
        f"<h3>Device {device.address}</h3>\n{timeline(figures, device, place, ends)}"
        for device in figures.rows()
    )


def accusation(figures, told):
    """An accusation, its packets field by field, and the bytes that had to come and that came."""
    heads = ("run", "moment", "way", "from", "number", "check", "says")
    rows = [
        (
            packet.run,
            packet.stamp or "-",
            packet.way or "-",
            "reader" if packet.kind == "reply" else "panel",
            packet.sequence,
            packet.check,
            packet.text[:200],
        )
        for packet in figures.around(told)
    ]
    bytes_told = f"<pre>{escape(chr(10).join(told.lines))}</pre>" if told.lines else ""
    head = f"<h3>{escape(f'Run {told.run}: {told.party} {told.address}: {told.text}')}</h3>\n"
    return f"{head}{table(heads, rows, heads[1:4] + heads[5:])}{bytes_told}\n"


def accusations(figures):
    told = figures.accusations()
    if not told:
        return "<p>Nobody is accused.</p>\n"
    more = f"<p>{len(told) - MOST} more are left out.</p>\n" if len(told) > MOST else ""
    return "".join(accusation(figures, each) for each in told[:MOST]) + more


def page(figures):
    """The whole page."""
    return (
        "<!DOCTYPE html>\n<html lang=en><head><meta charset=utf-8><title>OSDP line</title>"
        f"<style>{STYLE}</style></head><body>\n"
        "<h1>What happened on this OSDP line</h1>\n"
        f"<h2>What is likely wrong</h2>\n{words(figures)}"
        f"<h2>Devices</h2>\n{devices(figures)}"
        "<p>An answer's time goes from the first byte of the packet to the first byte of its answer, as the"
        " capture has them, where one packet alone waits for an answer.</p>\n"
        f"<h2>The line</h2>\n{whole_line(figures)}"
        f"<h2>Timelines</h2>\n{timelines(figures)}"
        f"<h2>Accusations</h2>\n{accusations(figures)}"
        f"<h2>The monitor's table</h2>\n<pre>{escape(chr(10).join(figures.table))}</pre>\n</body></html>\n"
    )
