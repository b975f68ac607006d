// The demo's line: what a person does at the doors, and what the readers do.
import { at, clock, fill, made, orders } from "./kit.js";
import { text } from "./texts.js";

const CARDS = [[17, 4386], [23, 60001]];

function toggle(device, what, isOn = false) {
  let on = isOn;
  const button = made("button", { className: "orders", textContent: text(`demo.${what}.${on ? "off" : "on"}`) });
  button.addEventListener("click", () => {
    on = !on;
    button.textContent = text(`demo.${what}.${on ? "off" : "on"}`);
    orders({ do: "demo", what, device, on });
  });
  return button;
}

function reader(device) {
  const button = (words, command) => made("button", { className: "orders", textContent: words, on: { click: () => orders({ do: "demo", device, ...command }) } });
  const [facility, number] = CARDS[device];
  return made("li", { a: { "data-reader": device } }, made("h3", { textContent: text("demo.reader", device + 1) }), made("div", { className: "row" },
    button(text("demo.card"), { what: "card", facility, number }), button(text("demo.keys"), { what: "keys", keys: "1234" }), toggle(device, "power", true), toggle(device, "input"), toggle(device, "tamper")),
  made("div", { className: "small", textContent: text("demo.does") }), made("ol", { className: "lines" }));
}

export function begin() {
  at("demo-readers").replaceChildren(...[0, 1].map(reader));
  at("demo-loss").addEventListener("change", () => orders({ do: "demo", what: "loss", percent: Number(at("demo-loss").value) }));
}

export function draw(readers) {
  readers.forEach((lines, device) => fill(at("demo-readers").children[device].querySelector("ol"), lines.map((each) => [`${each.at} ${each.text}`, () => made("li", { textContent: `${clock(each.at)} ${each.text}` })])));
}
