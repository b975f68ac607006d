// The line: how busy it is, a timeline of each device, what is likely wrong, and what the monitor tells.
import { at, clock, figures, fill, made, number, put, replace } from "./kit.js";
import { advice, has, text } from "./texts.js";

const ROWS = ["polls", "answers", "repeats", "orders", "cards", "damage", "accused"];
const BUCKETS = 240; // quarters of a second
const buckets = []; // pairs of a number and the counts of each device
let addresses = [];

export function begin() {
  replace(at("legend"), ...ROWS.map((row) => made("span", {}, made("i", { className: `k-${row}` }), text(`row.${row}`))));
  replace(at("looks"), ...LOOKS.map((each) => made("li", {}, text(`looks.${each}`), made("small", { textContent: text(`looks.${each}.do`) }))));
}

const LOOKS = ["nobody", "rate", "silent", "two", "late", "loose"];

export function takes(list) {
  buckets.push(...list);
  buckets.splice(0, Math.max(0, buckets.length - BUCKETS));
}

function timeline(address) {
  return made("div", { className: "time", a: { "data-timeline": address } }, made("div", {}, text("device.head", address), made("small")), made("canvas", { width: BUCKETS * 4, height: 84, a: { role: "img" } }));
}

// Draws the last minute of a device: a row for each kind, the darker the more packets a quarter of a second has.
function drawTimeline(box, address, colours) {
  const canvas = box.querySelector("canvas");
  const pen = canvas.getContext("2d");
  const sums = ROWS.map(() => 0);
  const last = buckets.length ? buckets[buckets.length - 1][0] : 0;
  pen.clearRect(0, 0, canvas.width, canvas.height);
  for (const [place, counts] of buckets) {
    const found = counts[address];
    if (!found) { continue; }
    found.forEach((count, row) => {
      if (!count) { return; }
      sums[row] += count;
      pen.globalAlpha = Math.min(1, 0.45 + count / 8);
      pen.fillStyle = colours[row];
      pen.fillRect((BUCKETS - 1 - (last - place)) * 4, row * 12 + 1, 3, 10);
    });
  }
  const words = ROWS.map((row, at) => [row, sums[at]]).filter(([, sum]) => sum).map(([row, sum]) => `${number(sum)} ${text(`row.${row}`)}`).join(", ");
  canvas.setAttribute("aria-label", text("times.label", address, words));
  put(box.querySelector("small"), sums[5] || sums[2] ? `${sums[2]} ${text("row.repeats")}, ${sums[5]} ${text("row.damage")}` : "");
}

export function drawTimelines() {
  if (at("panel-line").hidden) { return; }
  const style = getComputedStyle(document.documentElement);
  const colours = ROWS.map((row) => style.getPropertyValue(`--${row}`).trim());
  fill(at("timelines"), addresses.map((address) => [address, () => timeline(address)]));
  addresses.forEach((address, place) => drawTimeline(at("timelines").children[place], address, colours));
}

export function drawCounts({ devices, line, pace }) {
  addresses = devices.map((each) => each.address);
  const list = [[text("pace.busy"), `${number(pace.busy)} %`], [text("pace.packets"), number(pace.packets)], [text("pace.damaged"), number(pace.damaged)], [text("pace.all"), number(line.packets)], [text("pace.accused"), number(line.accused)]];
  if (line.left_out) { list.push([text("pace.left"), number(line.left_out)]); }
  replace(at("pace"), ...figures(list));
  const heads = ["device", "asked", "answered", "repeats", "damaged", "events", "orders", "least", "median", "most", "heard"];
  const rows = devices.map((each) => {
    const times = each.times || {};
    const cells = [each.address, each.asked, each.answered, each.repeats, each.damaged, each.events, each.orders, times.least ?? "-", times.median ?? "-", times.greatest ?? "-", each.heard ? clock(each.heard) : "-"];
    return made("tr", { a: { "data-device": each.address } }, ...cells.map((cell) => made("td", { textContent: String(cell) })));
  });
  replace(at("counts"), made("thead", {}, made("tr", {}, ...heads.map((each) => made("th", { textContent: text(`head.${each}`), scope: "col" })))), made("tbody", {}, ...rows));
}

function toldItem(each) {
  const packets = each.packets.map((packet) => made("li", { textContent: `${clock(packet.at)} ${packet.kind} seq ${packet.number} ${packet.check} ${packet.text}` }));
  const bytes = ["expected", "seen"].filter((name) => each[name]).map((name) => made("li", { textContent: text(`told.${name}`, each[name]) }));
  const todo = has(`told.is.${each.text}`) ? text(`told.is.${each.text}`) : advice(each.text);
  return made("li", {}, made("div", { className: "head" }, made("strong", { textContent: text(`told.${each.party}`, each.address, each.text) }), made("span", { className: "small", textContent: each.at ? clock(each.at) : "" })),
    todo ? made("small", { textContent: todo }) : null,
    each.took ? made("small", { textContent: text("told.took", each.took, each.waited) }) : null,
    packets.length ? made("details", {}, made("summary", { textContent: text("told.packets") }), made("ol", { className: "lines" }, ...packets, ...bytes)) : null);
}

export function drawTold({ told, diagnoses }, log) {
  fill(at("told"), [...told].reverse().map((each, place) => [`${each.at} ${each.party} ${each.address} ${each.text} ${each.packets.map((packet) => packet.text).join()} ${each.expected}`, () => toldItem(each)]));
  drawWrong(diagnoses, log);
}

// What is likely wrong: the monitor's diagnoses, and what the panel advises, each with what to do.
export function drawWrong(diagnoses, log) {
  const told = log.filter((each) => each.text.startsWith("advice: ")).slice(-5).map((each) => ({ head: each.text.slice(8), todo: "" }));
  const list = [...diagnoses.map((each) => ({ head: each.replace(/^(\d+) /, (_, address) => text("line.device", address)), todo: advice(each) })), ...told];
  const items = list.map((each) => made("li", {}, each.head, each.todo ? made("small", { textContent: each.todo }) : null));
  replace(at("diagnoses"), ...(items.length ? items : [made("li", { className: "none", textContent: text("line.nothing") })]));
}

export function drawLog(log) {
  fill(at("log"), log.map((each) => [`${each.at} ${each.text}`, () => made("li", { textContent: `${clock(each.at)} ${each.text}` })]));
}
