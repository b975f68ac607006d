// A line between a panel and two readers: what is on its way, and what both ends have done. The machines are those of `machines`, the calls of line.c. A schedule
// is kept in the words of `osdp sim`, as long as it has such words: power has none there.
"use strict";

const CAUSES = ["", "no-reply", "too-busy", "number-refused"];
const REPORT = { opened: 1, settled: 2, moved: 3, event: 4, answered: 5, unread: 6, lost: 7 };
const ONCE = 1;
const PAUSE = 1000; // from a session that has ended to the next one, in milliseconds

// The machines, by the calls of the compiled file.
class Machines {
  constructor(exports) {
    this.calls = exports;
  }

  bytes(at, length) {
    return new Uint8Array(this.calls.memory.buffer, at, length).slice();
  }

  hand(bytes) {
    new Uint8Array(this.calls.memory.buffer, this.calls.room(), bytes.length).set(bytes);
    return bytes.length;
  }

  text(length) {
    return new TextDecoder().decode(this.bytes(this.calls.words(), length));
  }

  handText(text) {
    return this.hand(new TextEncoder().encode(text));
  }

  // The text of a whole packet: who speaks to whom, with which number, and the message.
  packetText(packet) {
    const isReply = (packet[1] & 0x80) !== 0;
    const end = packet.length - (packet[4] & 4 ? 2 : 1);
    const length = this.hand(packet.slice(6, end));
    const said = this.text(this.calls.message_text(packet[5], length, isReply ? 1 : 0));
    return `${said || "?"} · ${packet[4] & 3}`;
  }
}

function hex(bytes) {
  return [...bytes].map((each) => each.toString(16).toUpperCase().padStart(2, "0")).join("");
}

class Line {
  constructor(machines) {
    this.machines = machines;
    this.calls = machines.calls;
    this.now = 0;
    this.toReaders = [];
    this.toPanel = [];
    this.said = [];
    this.capture = []; // what has come through, as `osdp monitor` reads it
    this.heard = ""; // what the monitor has told of it
    this.schedule = ["check sum", "reader 5 16", "reader 6 16"];
    this.hasSchedule = true;
    this.panelOn = true;
    this.readers = [0, 1].map(() => ({ on: true, busy: false, relay: 0, begins: null, issued: [], taken: [], settled: [], unsettled: [], withdrawn: [], queued: [], reported: [], ended: [] }));
    this.must(this.calls.start_panel());
    this.must(this.calls.start_monitor());
    for (const which of [0, 1]) {
      this.must(this.calls.start_device(which));
      this.must(this.calls.begin_session(which, 0));
    }
  }

  must(status) {
    if (status !== 0) {
      throw new Error(`the machine says ${status}`);
    }
  }

  tell(line) {
    this.said.push(`${String(this.now).padStart(6)}  ${line}`);
  }

  step(words) {
    if (this.hasSchedule) {
      this.schedule.push(words);
    }
  }

  issue(which, text) {
    const refused = !this.panelOn || this.calls.submit(which, this.machines.handText(text)) !== 0;
    if (refused) {
      this.tell(`${this.panelOn ? "the panel has no room" : "the panel has no power"}: ${text}`);
      return;
    }
    this.step(`issue ${which + 1} ${text}`);
    this.readers[which].issued.push(text);
  }

  queue(which, text) {
    const reader = this.readers[which];
    if (!reader.on || this.calls.tell_event(which, this.machines.handText(text)) !== 0) {
      this.tell(`reader ${which + 1} ${reader.on ? "has no room" : "has no power"}: ${text}`);
      return;
    }
    this.step(`queue ${which + 1} ${text}`);
    reader.queued.push(text);
  }

  busy(which, on) {
    if (this.readers[which].on && this.calls.set_busy(which, on ? 1 : 0) === 0) {
      this.step(`busy ${which + 1} ${on ? "on" : "off"}`);
      this.readers[which].busy = on;
    }
  }

  // So many milliseconds pass, and the panel is asked once what is due.
  wait(ms) {
    this.reopenThoseDue();
    this.now += ms;
    this.step(`wait ${ms}`);
    if (!this.panelOn) {
      return;
    }
    const length = this.calls.panel_tick(this.now);
    if (length) {
      this.toReaders.push(this.machines.bytes(this.calls.burst_bytes(), length));
    }
    this.takeReports();
  }

  // Sessions that have ended begin again after a pause, once the line is quiet.
  reopenThoseDue() {
    this.readers.forEach((reader, which) => {
      if (this.panelOn && reader.begins !== null && reader.begins <= this.now && this.isQuiet()) {
        this.reopen(which);
      }
    });
  }

  isQuiet() {
    return this.toReaders.length + this.toPanel.length === 0;
  }

  // A session that has ended begins again, with nothing on the line.
  reopen(which) {
    if (this.calls.begin_session(which, this.now) === 0) {
      this.step(`reopen ${which + 1}`);
      this.readers[which].begins = null;
    }
  }

  // What becomes of the packet in front: deliver, drop, repeat, or damage.
  front(isToReaders, what) {
    const queue = isToReaders ? this.toReaders : this.toPanel;
    if (!queue.length) {
      return;
    }
    const packet = queue[0];
    const bytes = what === "damage" ? damaged(packet) : packet;
    if (what !== "repeat") {
      queue.shift();
    }
    this.step(`${isToReaders ? "to-reader" : "to-controller"} ${what}${what === "damage" ? ` ${hex(bytes)}` : ""}`);
    if (what === "drop") {
      return;
    }
    this.capture.push(hex(bytes));
    this.must(this.calls.monitor_hears(this.machines.hand(bytes)));
    this.heard += this.monitorText();
    if (isToReaders) {
      this.readers.forEach((reader, which) => reader.on && this.readerHears(which, bytes));
    } else if (this.panelOn) {
      this.must(this.calls.panel_hears(this.machines.hand(bytes), this.now));
      this.takeReports();
    }
  }

  // What the monitor has told and nobody has taken.
  monitorText() {
    let text = "";
    for (let length = this.calls.monitor_text(); length !== 0; length = this.calls.monitor_text()) {
      text += this.machines.text(length);
    }
    return text;
  }

  // What the monitor has told, and its table so far.
  monitorWords() {
    this.must(this.calls.monitor_tells_table());
    return this.heard + this.monitorText();
  }

  readerHears(which, bytes) {
    let at = 0;
    for (;;) {
      this.machines.hand(bytes);
      at += this.calls.device_step(which, at, bytes.length - at, this.now);
      if (this.calls.answer_kind() === 0 && at >= bytes.length) {
        return;
      }
      const length = this.calls.answer_length();
      if (length) {
        this.toPanel.push(this.machines.bytes(this.calls.answer_bytes(), length));
      }
      if (this.calls.answer_order() === ONCE) {
        this.take(which, this.machines.text(this.calls.answer_command()));
      }
    }
  }

  // A reader does what it is to do.
  take(which, command) {
    const reader = this.readers[which];
    reader.taken.push(command);
    reader.relay += command.startsWith("OUT ") ? 1 : 0;
    this.tell(`reader ${which + 1} does ${command}`);
  }

  takeReports() {
    for (let kind = this.calls.next_report(); kind !== 0; kind = this.calls.next_report()) {
      const which = this.calls.report_entry();
      const detail = this.calls.report_detail();
      const command = this.machines.text(this.calls.report_command());
      const reply = this.machines.text(this.calls.report_reply());
      this.heed(which, kind, detail, command, reply);
    }
  }

  heed(which, kind, detail, command, reply) {
    const reader = this.readers[which];
    const name = `reader ${which + 1}`;
    if (kind === REPORT.opened) {
      this.tell(`panel: ${name} is there`);
    } else if (kind === REPORT.settled) {
      reader.settled.push(`${command} = ${reply}`);
      this.tell(`panel: ${command} is settled by ${reply}`);
    } else if (kind === REPORT.event) {
      reader.reported.push(reply);
      this.tell(`panel: ${name} tells ${reply}${detail ? ", maybe again" : ""}`);
    } else if (kind === REPORT.lost) {
      if (command) {
        reader.unsettled.push(command);
      }
      reader.ended.push(CAUSES[detail]);
      reader.begins = this.now + PAUSE;
      this.tell(`panel: ${name} is lost, ${CAUSES[detail]}${command ? `; in doubt: ${command}` : ""}`);
    }
  }

  // Power is pulled, or comes back. A schedule of `osdp sim` has no word for it.
  power(end, on) {
    this.hasSchedule = false;
    if (end === "panel") {
      this.powerPanel(on);
    } else if (this.readers[end].on !== on) {
      this.readers[end].on = on;
      this.readers[end].busy = false;
      this.must(on ? this.calls.start_device(end) : this.calls.stop_device(end));
      this.tell(`reader ${end + 1} ${on ? "has power again: it has forgotten what waited" : "loses power"}`);
    }
  }

  powerPanel(on) {
    if (this.panelOn === on) {
      return;
    }
    this.panelOn = on;
    this.must(on ? this.calls.start_panel() : this.calls.stop_panel());
    this.tell(`the panel ${on ? "has power again: it has forgotten what waited" : "loses power: what it ordered last is in doubt"}`);
    this.readers.forEach((reader) => {
      reader.begins = on ? this.now : null;
    });
  }

  // What each end knows of the other.
  knows(which) {
    const reader = this.readers[which];
    return {
      panel: !this.panelOn ? "no power" : this.calls.panel_is_closed(which) ? "no session" : `session, ${this.calls.panel_waiting(which)} wait`,
      reader: !reader.on ? "no power" : this.calls.device_is_closed(which) ? "no session" : `session, ${this.calls.device_waiting(which)} wait`,
      offline: reader.on && this.calls.device_is_offline(which, this.now) !== 0,
    };
  }

  // The counts of a reader, as the account of `osdp sim` has them.
  account(which) {
    const reader = this.readers[which];
    const names = ["issued", "taken", "settled", "unsettled", "queued", "reported"];
    return `reader ${which + 1} ${names.map((name) => `${name} ${reader[name].length}`).join(" ")}`;
  }
}

// The packet as it comes through damaged: its last byte has other bits.
function damaged(packet) {
  const bytes = packet.slice();
  bytes[bytes.length - 1] ^= 0x55;
  return bytes;
}

if (typeof module !== "undefined") {
  module.exports = { Line, Machines };
}
