// Every text of the page, in one table for each language. {0}, {1} stand for what is put in. Sentences that the programs print stay as they are.
const EN = {
  title: "OSDP line", skip: "To the content", stop: "Stop", take: "Take control", give: "Hand over control", checksum: "checksum",
  where: "{0} at {1} bits a second", "where.demo": "a demo: two readers of ours, joined in memory, at {0} bits a second", "where.gone": "{0} isn't there: it is opened again as soon as it is back",
  "doing.watch": "listening", "doing.find": "searching", "doing.set": "setting up", "doing.panel": "panel runs", "doing.test": "testing",
  "control.yes": "This page has control; {0} here", "control.no": "This page watches; another one has control", "control.free": "Nobody has control", "control.wait": "The page with control is gone; control is free in {0} s",
  "pages.1": "1 page", "pages.n": "{0} pages",
  lost: "The program doesn't answer: it has ended, or this computer can't reach it. This page tries again by itself.",
  "tab.find": "Find", "tab.devices": "Devices", "tab.line": "Line", "tab.test": "Test", "tab.keep": "Keep", "tab.demo": "Demo",

  "find.head": "Find the devices on the line",
  "find.lead": "The page listens first: where another panel speaks, nothing is sent. Then it tries each rate with both checks, and changes nothing. Put one device on the line at a time where you can.",
  "find.first": "Rate to try first", "find.begin": "Find devices", "find.progress": "how far the search is", "find.panel": "Run a panel with what was found", "find.told": "Each line of the search",
  "find.listens": "Listening whether another panel speaks ..", "find.asks": "Asking address {0} at {1} bits a second, with {2}", "find.everybody": "Asking all at once (address 127) at {0} bits a second, with {1}",
  "find.other": "Another panel speaks on the line, at {0} bits a second. Stop it first. Nothing was sent.",
  "find.shared": "Several devices answer at address {0}, {1} bits a second. Take all but one off the line, and give each an address of its own.",
  "find.none": "No device was found.", "find.ended": "The search was stopped.", "find.one": "One device was found.", "find.many": "{0} devices were found. Put one alone on the line to set it up.",
  "found.head": "Device at address {0}", "found.test": "Test it", "found.address": "New address", "found.rate": "New rate", "found.go": "Set address and rate",
  "set.head": "Set this device?", "set.address": "Address", "set.rate": "Rate, bits a second", "set.from": "from {0}", "set.to": "to {0}",
  "set.lost": "The device is asked at its new place whether it is there. Where its answer is lost, it may be at the old place or the new one: search again, and nothing is lost.",
  "set.no": "Leave it", "set.yes": "Set it", "set.done": "Set: the device is at address {0}, {1} bits a second. It has answered there.",
  "set.failed": "Not set. What the device said stands below. Where no answer came, it may be at either place: search again.",
  "field.rate": "rate", "field.check": "check", "field.maker": "maker", "field.model": "model", "field.model.is": "{0}, version {1}", "field.serial": "serial number", "field.firmware": "firmware", "field.claims": "it claims",

  "devices.head": "Devices", "devices.addresses": "Addresses, as 5 or 5,6", "devices.rate": "Rate", "devices.check": "Check", "devices.wait": "Wait for an answer", "devices.begin": "Run a panel", "devices.none": "No device is known yet. Find one, or run a panel with the addresses that you know.",
  "device.head": "Device {0}", "state.online": "online", "state.offline": "offline", "state.sought": "no answer yet", "state.heard": "heard", "state.silent": "silent", "state.none": "not asked",
  "since.online": "online since {0}", "since.offline": "offline since {0}: {1}", "since.sought": "asked since {0}", "cause.no-reply": "no answer", "cause.too-busy": "busy each time", "cause.number-refused": "it keeps to another session",
  "device.secure": "It demands Secure Channel, which isn't spoken here: set it to a mode without.",
  "device.other": "Another device stands here now ({0}). It gets no order: stop the panel, and run it again if it is the right one.",
  "figure.answer": "usual answer", "figure.most": "longest answer", "figure.asked": "packets to it", "figure.repeats": "of them repeats", "figure.ms": "{0} ms", "figure.none": "-",
  "part.input": "input {0}", "part.output": "output {0}", "part.tamper": "tamper", "part.power": "power", "is.on": "on", "is.off": "off", "tamper.0": "none", "tamper.1": "reported", "power.0": "good", "power.1": "failing",
  "try.output": "Output {0} for", "try.seconds": "seconds", "try.open": "Switch on", "try.led": "LED {0}", "try.buzzer": "Buzzer", "try.beep": "Sound once", "try.beeps": "Sound 3 times", "try.text": "Text on the display", "try.show": "Show",
  "try.ask": "Ask anew", "ask.tamper": "tamper and power", "ask.inputs": "inputs", "ask.outputs": "outputs", "ask.id": "what it is", "ask.readers": "readers", "try.blank": "dark",
  "colour.0": "dark", "colour.1": "red", "colour.2": "green", "colour.3": "amber",
  "cap.1.one": "one input", "cap.2.one": "one output", "cap.4.one": "one LED, {2}", "cap.13.one": "one reader", "cap.1": "{1} inputs", "cap.2": "{1} outputs", "cap.3.0": "card data", "cap.3.1": "card data as bits", "cap.3.2": "card data as characters", "cap.3.3": "card data as bits or characters", "cap.4": "{1} LEDs, {2}", "cap.5": "a buzzer", "cap.6": "a display of {2}",
  "cap.7": "a clock", "cap.8.0": "checksum alone", "cap.8.1": "checksum and CRC", "cap.9.0": "no Secure Channel", "cap.9.1": "Secure Channel", "cap.10": "packets of up to {3} bytes", "cap.11": "messages of up to {3} bytes in parts", "cap.12": "smart cards",
  "cap.13": "{1} readers", "cap.14": "biometrics", "cap.15": "secure entry of a PIN", "cap.16": "OSDP version by number {0}", "cap.other": "function {4}",
  "led.1": "on and off", "led.2": "on and off, for a time", "led.3": "two colours", "led.4": "three colours", "display.1": "one row of 16", "display.2": "two rows of 16", "display.3": "four rows of 16", "display.0": "no rows",
  "cards.head": "Cards and keys", "cards.none": "Hold a card to a reader, or press keys, while a panel runs.", "cards.show": "Show digits", "cards.hide": "Hide digits", "cards.card": "Card at device {0}: {1} bits", "cards.chars": "Card at device {0}", "cards.keys": "Device {0}: {1} keys",
  "cards.again": "it may have been told before", "cards.age": "up to {0} s old as it came", "cards.format": "{0}: facility {1}, number {2}", "cards.format.alone": "{0}: number {2}", "cards.bits": "bits {0}", "cards.digits": "digits {0}", "cards.unknown": "no common format fits", "cards.masked": "•••",
  "orders.head": "Orders", "orders.none": "No order yet. Each one shows here what becomes of it.", "orders.back": "Take back", "order.to": "{0} for device {1}",
  "order.OUT": "output {0} on for {1} s", "order.LED": "LED {0} {1}", "order.BUZ": "sound", "order.TEXT": "text", "order.ID": "ask what it is", "order.LSTAT": "ask for tamper and power", "order.ISTAT": "ask for inputs", "order.OSTAT": "ask for outputs", "order.RSTAT": "ask for readers", "order.CAP": "ask what it can", "order.": "an order",
  "life.waiting": "waiting", "life.on the line": "on the line", "life.answered": "answered", "life.unread": "unread", "life.expired": "expired", "life.in doubt": "in doubt", "life.taken back": "taken back", "life.refused": "refused",

  "line.head": "The line", "line.times": "The last minute", "line.wrong": "What is likely wrong, and what to do", "line.nothing": "Nothing is seen that is wrong.", "line.device": "device {0} ", "line.counts": "Counts", "line.told": "What the monitor tells", "line.log": "What the programs told",
  "looks.head": "What faults look like here",
  "looks.nobody": "Nothing comes at all", "looks.nobody.do": "No panel speaks on this port: its name and cable; whether the panel runs.",
  "looks.rate": "Damage and no packets", "looks.rate.do": "A wrong rate, or the two wires are swapped: try each rate by Find, then swap the wires.",
  "looks.silent": "Polls and repeats, and no answers", "looks.silent.do": "The device doesn't hear, or has another address: its power; swap the two wires; its address, rate and check, by Find.",
  "looks.two": "Polls, and damage or two answers after each", "looks.two.do": "Two devices have this address: put one on the line at a time, and give it another address by Find.",
  "looks.late": "A repeat after each poll, and answers all the same", "looks.late.do": "Answers come late: run the panel with a longer wait; a USB adapter's latency timer of 1 ms.",
  "looks.loose": "Repeats and damage now and then", "looks.loose.do": "A loose wire, or noise: a resistor at each end of the line and nowhere else; the ground; the bias.",
  "pace.busy": "time in use", "pace.packets": "packets a second", "pace.damaged": "damaged a second", "pace.all": "packets in all", "pace.accused": "rules broken", "pace.left": "bursts not shown",
  "row.polls": "polls", "row.answers": "answers", "row.repeats": "repeats", "row.orders": "orders", "row.cards": "cards and keys", "row.damage": "damage", "row.accused": "accused",
  "times.label": "Device {0}, the last minute: {1}", "head.device": "device", "head.asked": "asked", "head.answered": "answered", "head.repeats": "repeats", "head.damaged": "damaged", "head.events": "cards, keys", "head.orders": "orders", "head.least": "least ms", "head.median": "median ms", "head.most": "greatest ms", "head.heard": "last heard",
  "told.device": "device {0}: {1}", "told.panel to": "the panel to device {0}: {1}", "told.reader": "reader {0}: {1}", "told.packets": "The packets that show it", "told.is.opened": "A session with the device began.", "told.is.unanswered": "A packet to it had no answer in time.", "told.expected": "had to come: {0}", "told.seen": "came: {0}", "told.took": "it took {0} ms, and the panel waits {1} ms",

  "test.head": "Test", "test.lead": "The rules are tried one after the other, and each has a verdict. A device must be alone on the line, or at least at its address. What moves something is tried only if you allow it here.",
  "test.of": "What", "test.device": "a device: this program is its panel", "test.panel": "a panel: this program is its device", "test.address": "Address", "test.may": "It may", "test.begin": "Test", "test.progress": "how far the test is",
  "may.silence": "be silent for 8 seconds, so that the session ends", "may.led": "switch an LED", "may.buz": "sound the buzzer", "may.text": "show a text", "may.out:0": "switch output 0 off, which a door may be at", "may.comset": "send a COMSET with the same address", "may.beyond": "ask for outputs and LEDs that it doesn't claim", "may.relay:0": "switch output 0 on for a second, by an order that comes twice",
  "test.rule": "Rule {0} of {1}", "test.left": "Left out, and why", "test.left.one": "rule {0}, which isn't allowed above: {1}", "test.left.why": "rule {0}: {1}", "test.save": "Save the report", "test.status.0": "The test is over: no rule is broken.", "test.status.1": "The test is over: see what is broken or left open below.", "test.status.n": "The test has failed: what went wrong stands below.",

  "keep.head": "Keep", "keep.trace": "A trace: all that goes over the line", "keep.is.on": "The trace is on. It is written to {0}", "keep.is.off": "The trace is off.", "keep.was.on": "The trace is off. It is {0}", "keep.on": "Trace on", "keep.off": "Trace off", "keep.save": "Save the trace", "keep.report": "Save its report as a page",
  "keep.settings": "The devices that were set up here", "keep.none": "None yet. Each device that is set up stands here, to hand over with the building.", "keep.csv": "Save as CSV", "keep.place": "place, as front door",
  "setting.when": "when", "setting.place": "place", "setting.address": "address", "setting.rate": "rate", "setting.check": "check", "setting.vendor": "maker", "setting.model": "model", "setting.serial": "serial", "setting.was": "before",

  "demo.head": "The line of the demo", "demo.lead": "Two readers of ours stand on it. What you do here a person would do at the door. The panel learns of it over the line alone.", "demo.loss": "Lost of a hundred packets", "demo.reader": "Reader {0}", "demo.card": "Hold a card to it", "demo.keys": "Press 1 2 3 4", "demo.power.off": "Pull its power", "demo.power.on": "Give it power",
  "demo.input.on": "Close input 0", "demo.input.off": "Open input 0", "demo.tamper.on": "Lift its cover", "demo.tamper.off": "Close its cover", "demo.does": "What it does",
};
const TABLES = { en: EN };
const language = (navigator.languages || ["en"]).map((each) => each.slice(0, 2)).find((each) => each in TABLES) || "en";
document.documentElement.lang = language;

export const has = (key) => key in TABLES[language] || key in EN;
export const text = (key, ...put) => (TABLES[language][key] ?? EN[key] ?? key).replace(/\{(\d)\}/g, (_, at) => put[at] ?? "");

// What to do about what the monitor finds likely: the rows of docs/INSTALLING.md, by the words of the monitor.
export const ADVICE = [
  [/nothing but noise/, "Nothing can be read: try each rate from 9600 to 230400, then swap the two wires."],
  [/never answered/, "It doesn't hear, or has another address: power; swap the two wires; its address, rate and check, by Find."],
  [/two devices may answer/, "Two devices may have this address: put one on the line at a time, find it, and give it another address. Or the driver of the port lets go too late."],
  [/demands Secure Channel/, "Set it to a mode without Secure Channel, which isn't spoken here."],
  [/restarted/, "It restarts, as after a loss of power: its power supply, also while a strike draws from it."],
  [/repeated although answered/, "Its number is that of another session: stop the other panel; switch the device off and on. Or answers come too late."],
  [/a late answer|late/, "Answers come late: stop the panel, and run it with a longer wait for an answer; a USB adapter's latency timer of 1 ms."],
  [/loses|lost/, "It doesn't answer each time: a loose wire; its power; a resistor at each end of the line, and nowhere else."],
  [/an echo of the adapter|echo/, "The adapter hands back what is sent: it does no harm."],
];
export const advice = (said) => (ADVICE.find(([pattern]) => pattern.test(said)) || [null, ""])[1];
