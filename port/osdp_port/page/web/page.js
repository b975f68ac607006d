// The page: its tabs, its way to the program, and which part is drawn when it has changed. Nothing that comes from the line is put in as markup.
import * as demo from "./demo.js";
import * as devices from "./devices.js";
import * as find from "./find.js";
import * as keep from "./keep.js";
import { announce, at, made, number, put, wire } from "./kit.js";
import * as line from "./line.js";
import * as test from "./test.js";
import { text } from "./texts.js";

const TABS = ["find", "devices", "line", "test", "keep", "demo"];
const AGAIN = 1000; // milliseconds until the program is tried again
const state = { pages: { control: false, pages: 0, free: false, wait: null, revealed: false }, line: null, log: [] };
let socket = null;

// tabs

function show(name, isByKey = false) {
  for (const each of TABS) {
    const isShown = each === name;
    at(`panel-${each}`).hidden = !isShown;
    at(`tab-${each}`).setAttribute("aria-selected", String(isShown));
    at(`tab-${each}`).tabIndex = isShown ? 0 : -1;
  }
  if (isByKey) { at(`tab-${name}`).focus(); }
  history.replaceState(null, "", `#${name}`);
  line.drawTimelines();
}

function moves(event) {
  const shown = TABS.filter((each) => !at(`tab-${each}`).hidden);
  const place = shown.findIndex((each) => at(`tab-${each}`) === document.activeElement);
  const to = { ArrowRight: place + 1, ArrowLeft: place - 1, Home: 0, End: shown.length - 1 }[event.key];
  if (to === undefined || place < 0) { return; }
  event.preventDefault();
  show(shown[(to + shown.length) % shown.length], true);
}

function makeTabs() {
  at("tabs").append(...TABS.map((each) => made("button", { id: `tab-${each}`, textContent: text(`tab.${each}`), hidden: each === "demo", a: { role: "tab", "aria-controls": `panel-${each}` }, on: { click: () => show(each) } })));
  at("tabs").addEventListener("keydown", moves);
}

// who has control

function drawControl() {
  const { control, pages, free, wait } = state.pages;
  const count = pages === 1 ? text("pages.1") : text("pages.n", pages);
  put(at("control"), control ? text("control.yes", count) : free ? text("control.free") : wait === null ? text("control.no") : text("control.wait", wait));
  at("take").hidden = control || !free;
  at("give").hidden = !control || pages < 2;
  const isOpen = socket !== null && socket.readyState === WebSocket.OPEN;
  const isRunning = state.line !== null && state.line.doing === "panel";
  for (const each of document.querySelectorAll(".orders")) { each.disabled = !control || !isOpen || (each.classList.contains("running") && !isRunning); }
}

function drawLine() {
  const now = state.line;
  put(at("where"), !now.is_there ? text("where.gone", now.port) : now.demo ? text("where.demo", number(now.rate)) : text("where", now.port, number(now.rate)));
  at("doing").className = `pill ${now.doing === "watch" ? "" : now.doing === "panel" ? "go" : "busy"}`;
  put(at("doing"), text(`doing.${now.doing}`));
  at("stop").hidden = now.doing === "watch";
  at("tab-demo").hidden = !now.demo;
  keep.drawTrace(now);
}

// what is drawn when a part has changed

const testIt = (found) => { test.takes(found); show("test"); };
const DRAWS = {
  line: drawLine,
  find: () => find.draw(state.find, state.line, testIt),
  devices: () => devices.draw(state.devices, state.line),
  counts: () => { line.drawCounts(state.counts); devices.drawFigures(state.counts); },
  orders: () => devices.drawOrders(state.orders),
  cards: () => devices.drawCards(state.cards, state.pages.revealed),
  told: () => line.drawTold(state.told, state.log),
  log: () => { line.drawLog(state.log); line.drawWrong(state.told.diagnoses, state.log); },
  test: () => test.draw(state.test, state.line),
  setup: () => keep.drawSettings(state.setup),
  demo: () => demo.draw(state.demo),
  pages: () => devices.drawCards(state.cards, state.pages.revealed),
};
const WITH_LINE = ["find", "devices", "test"]; // they show what is done, too

function takes(frame) {
  const { buckets, ...parts } = frame;
  const isFirst = state.line === null;
  Object.assign(state, parts);
  if (buckets) { line.takes(buckets); }
  const names = new Set(Object.keys(parts));
  if (names.has("line")) { WITH_LINE.forEach((each) => names.add(each)); }
  for (const name of Object.keys(DRAWS)) {
    if (names.has(name)) { DRAWS[name](); }
  }
  if (buckets) { line.drawTimelines(); }
  drawControl();
  if (isFirst) {
    if (!location.hash && state.line.doing === "panel") { show("devices"); }
    document.body.dataset.ready = "yes";
  }
}

// the way to the program

function key() {
  const kept = sessionStorage.getItem("osdp-page") || Array.from(crypto.getRandomValues(new Uint8Array(12)), (each) => each.toString(16).padStart(2, "0")).join("");
  sessionStorage.setItem("osdp-page", kept);
  return kept;
}

function lost(isLost) {
  at("lost").hidden = !isLost;
  put(at("lost"), isLost ? text("lost") : "");
  drawControl();
}

function connects() {
  socket = new WebSocket(new URL(`line?key=${key()}`, location.href).href.replace(/^http/, "ws").replace(/#.*/, ""));
  socket.addEventListener("open", () => lost(false));
  socket.addEventListener("message", (event) => takes(JSON.parse(event.data)));
  socket.addEventListener("close", () => {
    lost(true);
    setTimeout(connects, AGAIN);
  });
}

wire.send = (command) => {
  if (socket === null || socket.readyState !== WebSocket.OPEN) { return false; }
  socket.send(JSON.stringify(command));
  return true;
};

function begins() {
  for (const each of document.querySelectorAll("[data-text]")) { each.textContent = text(each.dataset.text); }
  for (const each of document.querySelectorAll("[data-label]")) { each.setAttribute("aria-label", text(each.dataset.label)); }
  document.title = text("title");
  makeTabs();
  find.begin(show);
  [devices, line, test, keep, demo].forEach((each) => each.begin());
  at("stop").addEventListener("click", () => wire.send({ do: "watch" }));
  at("take").addEventListener("click", () => wire.send({ do: "take" }));
  at("give").addEventListener("click", () => wire.send({ do: "give" }));
  const wanted = location.hash.slice(1);
  show(TABS.includes(wanted) && wanted !== "demo" ? wanted : "find");
  if (!TABS.includes(wanted)) { history.replaceState(null, "", location.pathname); }
  connects();
  announce(text("title"));
}

begins();
