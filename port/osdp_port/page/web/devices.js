// Devices: what each is, claims and tells, buttons for what it claims, cards, and what becomes of each order.
import { announce, at, clock, figures, fill, made, number, orders, pairs, put, rates, replace } from "./kit.js";
import { identity } from "./find.js";
import { has, text } from "./texts.js";

const ENDED = ["answered", "unread", "expired", "in doubt", "taken back", "refused"];
const KINDS = { online: "go", offline: "bad", sought: "wait", heard: "busy", silent: "wait" };
let doing = "watch";

export function begin() {
  rates(at("panel-rate"), 9600);
  at("panel-form").addEventListener("submit", (event) => {
    event.preventDefault();
    const addresses = at("panel-addresses").value.split(",").map(Number);
    orders({ do: "panel", addresses, rate: Number(at("panel-rate").value), check: at("panel-check").value, wait: Number(at("panel-wait").value) });
  });
  at("reveal").addEventListener("click", () => orders({ do: "reveal", on: at("reveal").getAttribute("aria-pressed") !== "true" }));
}

// What a device claims, in words.
function claim([code, level, count]) {
  const wide = level + 256 * count;
  const exact = has(`cap.${code}.${level}`) ? `cap.${code}.${level}` : count === 1 ? `cap.${code}.one` : "";
  const of = code === 4 ? text(`led.${level}`) : code === 6 ? text(`display.${level}`) : "";
  return text(has(exact) ? exact : has(`cap.${code}`) ? `cap.${code}` : "cap.other", level, count, of, number(wide), code);
}

const order = (address, words) => () => orders({ do: "order", address, order: words });
const tryButton = (words, does, inside = null) => made("button", { className: "orders running", type: "button", on: { click: does } }, inside, words);

const buttons = (...inside) => made("div", { className: "buttons" }, ...inside);
const group = (name, ...inside) => made("div", { className: "row", a: { role: "group", "aria-label": name } }, made("span", { className: "name", textContent: name }), buttons(...inside));

function outputRow(address, output) {
  const id = `seconds-${address}-${output}`;
  const seconds = made("input", { type: "number", id, min: 0.1, max: 6553.5, step: 0.1, value: 3, required: true });
  const form = made("form", { className: "row", a: { "data-output": output } }, made("label", { className: "name", htmlFor: id, textContent: text("try.output", output) }),
    buttons(seconds, made("span", { className: "small", textContent: text("try.seconds") }), made("button", { className: "orders running", textContent: text("try.open") })));
  form.addEventListener("submit", (event) => {
    event.preventDefault();
    orders({ do: "order", address, order: { what: "output", output, tenths: Math.round(Number(seconds.value) * 10) } });
  });
  return form;
}

function textRow(address) {
  const id = `text-${address}`;
  const field = made("input", { id, maxLength: 32, required: true, pattern: "[ -~]{1,32}", autocomplete: "off", size: 18 });
  const form = made("form", { className: "row" }, made("label", { className: "name", htmlFor: id, textContent: text("try.text") }), buttons(field, made("button", { className: "orders running", textContent: text("try.show") })));
  form.addEventListener("submit", (event) => {
    event.preventDefault();
    orders({ do: "order", address, order: { what: "text", text: field.value } });
  });
  return form;
}

function ledRow(address, led, level) {
  const colours = level >= 4 ? [1, 2, 3, 0] : level === 3 ? [1, 2, 0] : [1, 0];
  return group(text("try.led", led), ...colours.map((colour) => tryButton(text(`colour.${colour}`), order(address, { what: "led", led, colour, tenths: 0 }), made("span", { className: `swatch c${colour}` }))));
}

// The buttons of a device: of what it claims, and of nothing else.
function tries(address, caps) {
  const of = (code) => caps.find((each) => each[0] === code) || [code, 0, 0];
  const rows = [];
  for (let output = 0; output < Math.min(8, of(2)[2]); output += 1) { rows.push(outputRow(address, output)); }
  for (let led = 0; led < Math.min(8, of(4)[1] ? of(4)[2] : 0); led += 1) { rows.push(ledRow(address, led, of(4)[1])); }
  if (of(5)[1]) {
    rows.push(group(text("try.buzzer"), tryButton(text("try.beep"), order(address, { what: "buzzer", count: 1 })), tryButton(text("try.beeps"), order(address, { what: "buzzer", count: 3 }))));
  }
  if (of(6)[1] && of(6)[2]) { rows.push(textRow(address)); }
  const asks = ["tamper", ...(of(1)[2] ? ["inputs"] : []), ...(of(2)[2] ? ["outputs"] : [])];
  rows.push(group(text("try.ask"), ...asks.map((each) => tryButton(text(`ask.${each}`), order(address, { what: "ask", of: each })))));
  return rows;
}

function states(device) {
  const said = device.states;
  const claims = (code) => ((device.caps || []).find((each) => each[0] === code) || [0, 0, 255])[2];
  const pill = (name, words, kind) => made("span", { className: `pill ${kind}`, textContent: `${name}: ${words}` });
  return [
    ..."tamper power".split(" ").filter((each) => each in said).map((each) => pill(text(`part.${each}`), text(`${each}.${said[each] ? 1 : 0}`), said[each] ? "bad" : "go")),
    ...["input", "output"].flatMap((each, kind) => (said[`${each}s`] || []).slice(0, claims(kind + 1)).map((on, place) => pill(text(`part.${each}`, place), text(on ? "is.on" : "is.off"), on ? "busy" : ""))),
  ];
}

function sinceWords(device) {
  if (!device.since || !has(`since.${device.state}`)) { return ""; }
  return text(`since.${device.state}`, clock(device.since), device.cause ? text(`cause.${device.cause}`) : "");
}

function card(address) {
  const part = (name, className = "") => made(name, { className });
  const parts = { head: made("h3", { textContent: text("device.head", address) }), pill: part("span"), since: part("p", "since"), warn: part("div"), figures: part("dl", "figures"), identity: part("div"), states: part("div", "states"), tries: part("div", "try") };
  const item = made("li", { a: { "aria-label": text("device.head", address), "data-address": address } }, made("div", { className: "head" }, parts.head, parts.pill), parts.since, parts.warn, parts.figures, parts.states, parts.identity, parts.tries);
  item.parts = parts;
  return item;
}

function drawDevice(item, device) {
  const { parts } = item;
  const state = device.state || "none";
  const before = parts.pill.textContent;
  item.className = ["online", "offline"].includes(state) ? state : "";
  parts.pill.className = `pill ${KINDS[state] || ""}`;
  put(parts.pill, text(`state.${state}`));
  if (before && before !== parts.pill.textContent) { announce(`${text("device.head", device.address)}: ${parts.pill.textContent}`); }
  put(parts.since, sinceWords(device));
  const warnings = [device.secure ? text("device.secure") : null, device.other ? text("device.other", device.other) : null].filter(Boolean);
  replace(parts.warn, ...warnings.map((each) => made("p", { className: "note bad", textContent: each })));
  const told = device.identity ? identity(device.identity) : [];
  if (device.caps) { told.push([text("field.claims"), device.caps.map(claim).join(", ")]); }
  replace(parts.identity, ...(told.length ? [pairs(told)] : []));
  replace(parts.states, ...states(device));
  const kind = device.state === "online" ? JSON.stringify(device.caps || []) : "";
  if (parts.tries.dataset.kind !== kind) {
    parts.tries.dataset.kind = kind;
    parts.tries.replaceChildren(...(kind && device.caps ? tries(device.address, device.caps) : []));
  }
  parts.tries.hidden = !parts.tries.childElementCount;
}

export function draw(devices, line) {
  doing = line.doing;
  at("panel-form").hidden = doing === "panel";
  at("no-device").hidden = devices.length > 0;
  fill(at("devices"), devices.map((each) => [each.address, () => card(each.address)]));
  devices.forEach((each, place) => drawDevice(at("devices").children[place], each));
}

export function drawFigures(counts) {
  for (const each of counts.devices) {
    const item = at("devices").querySelector(`[data-address="${each.address}"]`);
    if (!item) { continue; }
    const ms = (name) => each.times ? text("figure.ms", each.times[name]) : text("figure.none");
    replace(item.parts.figures, ...figures([[text("figure.answer"), ms("median")], [text("figure.most"), ms("greatest")], [text("figure.asked"), number(each.asked)], [text("figure.repeats"), number(each.repeats)]]));
  }
}

function cardItem(each) {
  const isCard = each.what === "card";
  const head = isCard ? each.count === null ? text("cards.chars", each.address) : text("cards.card", each.address, each.count) : text("cards.keys", each.address, each.count);
  const hidden = each.digits === null;
  const masked = (value) => value === null ? text("cards.masked") : value;
  const formats = each.formats.map((found) => text(found.format === "H10302" ? "cards.format.alone" : "cards.format", found.format, masked(found.facility), masked(found.number)));
  const lines = isCard ? [...(formats.length ? formats : [text("cards.unknown")]), text("cards.digits", masked(each.digits)), ...(each.bits || hidden ? [text("cards.bits", masked(each.bits))] : [])] : [masked(each.digits)];
  return made("li", {}, made("div", { className: "head" }, made("strong", { textContent: head }), made("span", { className: "small", textContent: clock(each.at) })),
    ...lines.map((words) => made("div", { textContent: words })), each.again ? made("small", { textContent: text("cards.again") }) : null,
    each.age ? made("small", { textContent: text("cards.age", each.age) }) : null);
}

export function drawCards(cards, isRevealed) {
  at("no-card").hidden = cards.length > 0;
  at("reveal").setAttribute("aria-pressed", String(isRevealed));
  put(at("reveal"), text(isRevealed ? "cards.hide" : "cards.show"));
  fill(at("cards"), [...cards].reverse().map((each) => [`${each.at} ${each.digits}`, () => cardItem(each)]));
  const last = cards[cards.length - 1];
  if (last) { announce(at("cards").firstChild.querySelector("strong").textContent); }
}

function orderWords({ text: said, address }) {
  const [name, ...rest] = said.split(" ");
  const fields = (rest[0] || "").split(":");
  const put = name === "OUT" ? [fields[0], Number(fields[2]) / 10] : name === "LED" ? [fields[1], text(`colour.${fields[fields[8] === "1" ? 11 : 5]}`)] : [];
  return text("order.to", text(has(`order.${name}`) ? `order.${name}` : "order.", ...put), address);
}

function orderItem(each) {
  const last = each.states[each.states.length - 1][0];
  const kind = last === "answered" ? "go" : last === "waiting" ? "wait" : last === "on the line" ? "busy" : "bad";
  const steps = each.states.map(([state, moment]) => made("span", { textContent: `${text(`life.${state}`)} ${clock(moment)}` }));
  return made("li", {}, made("div", { className: "head" }, made("strong", { textContent: orderWords(each) }), made("span", { className: `pill ${kind}`, textContent: text(`life.${last}`) })),
    made("div", { className: "life" }, ...steps), each.why ? made("small", { textContent: each.why }) : null,
    ENDED.includes(last) || last === "on the line" ? null : made("button", { className: "orders quiet", textContent: text("orders.back"), on: { click: () => orders({ do: "take back", number: each.number }) } }));
}

export function drawOrders(list) {
  at("no-order").hidden = list.length > 0;
  fill(at("orders"), [...list].reverse().map((each) => [`${each.number} ${each.states.length}`, () => orderItem(each)]));
  const last = list[list.length - 1];
  if (last) { announce(`${orderWords(last)}: ${text(`life.${last.states[last.states.length - 1][0]}`)}`); }
}
