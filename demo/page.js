// The page: draws the line, and hands clicks to it. What is shown of both ends is what the machines have answered.
"use strict";

const WASM = "/*WASM*/";
const TURN = 50; // milliseconds of the line for one step
const LISTS = [["issued", "issued"], ["taken", "taken"], ["settled", "settled"], ["unsettled", "in doubt"], ["queued", "events queued"], ["reported", "events reported"]];
const at = (id) => document.getElementById(id);
let line, machines, timer;
let front = "to-reader"; // the lane whose packet in front the menu is about

function made(name, words, parent) {
  const element = Object.assign(document.createElement(name), words);
  parent.append(element);
  return element;
}

function button(text, words, parent, does) {
  const element = made("button", { textContent: text }, parent);
  Object.assign(element.dataset, words);
  element.addEventListener("click", () => {
    does();
    draw();
  });
  return element;
}

// Each reader: its buttons, and where what it knows is shown.
function drawReaders() {
  for (const which of [0, 1]) {
    const box = made("section", { className: "end", id: `reader-${which + 1}` }, at("readers"));
    made("h2", { innerHTML: `Reader ${which + 1} <span class="lamp"></span>` }, box);
    const buttons = made("div", { className: "buttons" }, box);
    button("Card", { does: "card", which }, buttons, () => line.queue(which, `RAW 0 0 26 123456${which ? "8" : "4"}0`));
    button("Key", { does: "key", which }, buttons, () => line.queue(which, "KEYPAD 0 31"));
    button("Order the relay", { does: "relay", which }, buttons, () => line.issue(which, "OUT 0:2:0"));
    button("Busy", { does: "busy", which }, buttons, () => line.busy(which, !line.readers[which].busy));
    button("Pull the power", { does: "power", which }, buttons, () => line.power(which, !line.readers[which].on));
    made("div", { className: "knows" }, box);
  }
}

function drawLane(name, queue) {
  const list = at(name).querySelector("ol");
  list.replaceChildren();
  queue.forEach((packet, place) => {
    const item = made("li", { className: `packet${place === 0 ? " front" : ""}`, textContent: machines.packetText(packet), title: [...packet].map((each) => each.toString(16).padStart(2, "0")).join(" ") }, list);
    item.addEventListener("click", () => {
      front = name;
      draw();
    });
  });
}

function drawLists() {
  const rows = line.readers.map((reader, which) => {
    const cells = LISTS.map(([name]) => `<td data-count="${name}" data-which="${which}">${reader[name].length}<small>${reader[name].slice(-3).map(escaped).join("<br>")}</small></td>`);
    return `<tr><th>reader ${which + 1}</th>${cells.join("")}</tr>`;
  });
  at("lists").innerHTML = `<table><tr><th></th>${LISTS.map(([, title]) => `<th>${title}</th>`).join("")}</tr>${rows.join("")}</table>`;
}

function escaped(text) {
  return text.replace(/[&<>]/g, (each) => ({ "&": "&amp;", "<": "&lt;", ">": "&gt;" })[each]);
}

function drawEnds() {
  at("panel").classList.toggle("off", !line.panelOn);
  at("panel").querySelector("button").textContent = line.panelOn ? "Pull the power" : "Give it power";
  at("panel-knows").innerHTML = [0, 1].map((which) => `<p>reader ${which + 1}: ${line.knows(which).panel}</p>`).join("");
  line.readers.forEach((reader, which) => {
    const box = at(`reader-${which + 1}`);
    const known = line.knows(which);
    box.classList.toggle("off", !reader.on);
    box.querySelector(".lamp").classList.toggle("there", known.reader.startsWith("session"));
    box.querySelector("[data-does=power]").textContent = reader.on ? "Pull the power" : "Give it power";
    box.querySelector("[data-does=busy]").textContent = reader.busy ? "Busy no more" : "Busy";
    box.querySelector(".knows").innerHTML = `<p>panel: ${known.reader}${known.offline ? ", offline" : ""}</p><p>relay switched: ${reader.relay}</p>`;
  });
}

function draw() {
  const lanes = { "to-reader": line.toReaders, "to-controller": line.toPanel };
  if (!lanes[front].length) {
    front = front === "to-reader" ? "to-controller" : "to-reader";
  }
  for (const [name, queue] of Object.entries(lanes)) {
    drawLane(name, queue);
  }
  for (const each of at("menu").querySelectorAll("button")) {
    each.disabled = !lanes[front].length;
  }
  drawLists();
  drawEnds();
  at("clock").textContent = `${(line.now / 1000).toFixed(2)} s of the line`;
  at("said").textContent = line.said.slice(-200).join("\n");
  at("said").scrollTop = at("said").scrollHeight;
  at("schedule").textContent = line.hasSchedule ? line.schedule.join("\n") : "power was pulled: osdp sim has no word for it";
  at("schedule").scrollTop = at("schedule").scrollHeight;
  at("capture").textContent = line.capture.join("\n");
  at("capture").scrollTop = at("capture").scrollHeight;
  at("heard").textContent = line.monitorWords();
  at("heard").scrollTop = at("heard").scrollHeight;
}

// One step: the packet in front comes through, or where nothing is on its way, time passes.
function step() {
  const queue = line.toReaders.length ? true : line.toPanel.length ? false : null;
  if (queue === null) {
    line.wait(TURN);
  } else {
    line.front(queue, Math.random() * 100 < Number(at("loss").value) ? "drop" : "deliver");
  }
}

function run() {
  timer = timer ? clearTimeout(timer) : setTimeout(turn, 0);
  at("run").textContent = timer ? "Stop" : "Run";
}

function turn() {
  step();
  draw();
  timer = setTimeout(turn, 1600 / 2 ** at("speed").value);
}

function ready(instance) {
  machines = new Machines(instance.exports);
  line = new Line(machines);
  drawReaders();
  at("panel").querySelector("button").addEventListener("click", () => {
    line.power("panel", !line.panelOn);
    draw();
  });
  at("run").addEventListener("click", run);
  at("step").addEventListener("click", () => {
    step();
    draw();
  });
  for (const each of at("menu").querySelectorAll("button")) {
    each.addEventListener("click", () => {
      line.front(front === "to-reader", each.dataset.what);
      draw();
    });
  }
  draw();
  document.body.dataset.ready = "yes";
  document.dispatchEvent(new Event("line-ready"));
}

const bytes = Uint8Array.from(atob(WASM), (each) => each.charCodeAt(0));
WebAssembly.instantiate(bytes, {}).then(({ instance }) => ready(instance));
