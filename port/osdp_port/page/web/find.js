// Find: how far the search is, what was found, and the form that gives a device another place.
import { announce, at, checkName, fill, made, number, orders, pairs, put, rates, RATES, replace } from "./kit.js";
import { text } from "./texts.js";

let shown = null;
let line = null;
let chosen = null; // the device that is to be set, and where

export const identity = (device) => [[text("field.maker"), device.vendor], [text("field.model"), text("field.model.is", device.model, device.version)], [text("field.serial"), device.serial], [text("field.firmware"), device.firmware]];

export function begin(show) {
  rates(at("find-rate"), 9600);
  at("find-form").addEventListener("submit", (event) => {
    event.preventDefault();
    orders({ do: "find", rate: Number(at("find-rate").value) });
  });
  at("found-panel").addEventListener("submit", (event) => {
    event.preventDefault();
    const { rate, check } = shown.found[0];
    orders({ do: "panel", addresses: shown.found.filter((each) => each.rate === rate && each.check === check).map((each) => each.address).slice(0, 16), rate, check, wait: 200 });
    show("devices");
  });
  at("confirm").addEventListener("close", () => {
    if (at("confirm").returnValue === "yes" && chosen) { orders({ do: "set", ...chosen }); }
    chosen = null;
  });
}

function confirms(device, found, address, rate) {
  chosen = { device, address, rate };
  const row = (name, was, now) => [made("dt", { textContent: text(name) }), made("dd", { textContent: text("set.from", was) }), made("dd", { textContent: "→", ariaHidden: "true" }), made("dd", { className: "new", textContent: text("set.to", now) })];
  at("confirm-what").replaceChildren(...row("set.address", found.address, address), ...row("set.rate", number(found.rate), number(rate)));
  at("confirm").returnValue = "no";
  at("confirm").showModal();
  at("confirm-yes").focus();
}

function setForm(device, found) {
  const address = made("input", { type: "number", min: 0, max: 126, required: true, value: found.address, name: "address" });
  const rate = made("select", { name: "rate" });
  rates(rate, RATES.includes(found.rate) ? found.rate : 9600);
  const form = made("form", { className: "row" }, made("label", {}, text("found.address"), address), made("label", {}, text("found.rate"), rate), made("button", { className: "orders", textContent: text("found.go") }));
  form.addEventListener("submit", (event) => {
    event.preventDefault();
    confirms(device, found, Number(address.value), Number(rate.value));
  });
  return form;
}

function foundItem(device, found, isAlone, test) {
  return made("li", { className: "online" },
    made("div", { className: "head" }, made("h3", { textContent: text("found.head", found.address) }), made("span", { className: "pill go", textContent: `${number(found.rate)}, ${checkName(found.check)}` })),
    pairs(identity(found)),
    isAlone ? setForm(device, found) : null,
    made("div", { className: "row" }, made("button", { className: "orders", textContent: text("found.test"), on: { click: () => test(found) } })));
}

// How far the search is, of a hundred: rates and checks first, addresses within them.
function share(asks) {
  const step = 100 / (RATES.length * 2);
  return Math.min(99, (RATES.indexOf(asks.rate) * 2 + (asks.check === "sum" ? 1 : 0)) * step + step * (asks.address === 127 ? 0 : asks.address / 127));
}

function asking(asks) {
  if (!asks) { return text("find.listens"); }
  return asks.address === 127 ? text("find.everybody", number(asks.rate), checkName(asks.check)) : text("find.asks", asks.address, number(asks.rate), checkName(asks.check));
}

function results(find) {
  const note = (words, kind = "") => made("div", { className: `note ${kind}` }, made("p", { textContent: words }));
  const list = find.shared.map((each) => note(text("find.shared", each.address, number(each.rate)), "bad"));
  const result = find.result;
  if (find.other_panel) { list.push(note(text("find.other", number(find.other_panel)), "bad")); }
  if (result && "set" in result) {
    list.push(result.set ? note(text("set.done", result.now.address, number(result.now.rate)), "go") : note(text("set.failed"), "bad"));
  } else if (result && !find.other_panel) {
    list.push(note(result.was_ended ? text("find.ended") : result.found === 0 ? text("find.none") : result.found === 1 ? text("find.one") : text("find.many", result.found), result.found ? "go" : ""));
  }
  return list;
}

export function draw(find, now, test) {
  [shown, line] = [find, now];
  const isGoing = ["find", "set"].includes(line.doing);
  at("find-progress").hidden = !isGoing;
  if (isGoing) {
    put(at("find-asks"), line.doing === "set" ? text("doing.set") : asking(find.asks));
    if (find.asks && line.doing === "find") { at("find-bar").value = share(find.asks); } else { at("find-bar").removeAttribute("value"); }
  }
  const told = results(find);
  replace(at("find-result"), ...told);
  if (find.result && !isGoing) { announce(told.map((each) => each.textContent).join(" ")); }
  const isAlone = Boolean(find.result && find.result.is_alone) && !isGoing;
  fill(at("found"), find.found.map((each, device) => [[device, isAlone, ...Object.values(each)].join(" "), () => foundItem(device, each, isAlone, test)]));
  at("found-panel").hidden = isGoing || !find.found.length;
  at("find-told").hidden = !find.lines.length;
  fill(at("find-lines"), find.lines.map((each, place) => [`${place} ${each}`, () => made("li", { textContent: each })]));
  if (find.result && "set" in find.result && !find.result.set) { at("find-told").open = true; }
}
