// Keep: the trace, its report, and the devices that were set up.
import { at, clock, made, number, orders, put } from "./kit.js";
import { text } from "./texts.js";

let rows = "";

export function begin() {
  at("trace-on").addEventListener("click", () => orders({ do: "trace", on: true }));
  at("trace-off").addEventListener("click", () => orders({ do: "trace", on: false }));
}

export function drawTrace(line) {
  put(at("trace-state"), line.tracing ? text("keep.is.on", line.trace) : text(line.traced ? "keep.was.on" : "keep.is.off", line.traced.replace(/^trace /, "")));
  at("trace-on").hidden = line.tracing;
  at("trace-off").hidden = !line.tracing;
  at("trace-save").hidden = at("trace-report").hidden = !line.trace;
}

function row(each, place) {
  const field = made("input", { value: each.place, maxLength: 80, a: { "aria-label": text("keep.place"), placeholder: text("keep.place") } });
  field.addEventListener("change", () => orders({ do: "name", row: place, place: field.value }));
  const cells = [each.address, number(each.rate), each.check, each.vendor, each.model, each.serial, `${each["address before"]}, ${number(each["rate before"])}`, clock(each.when)];
  return made("tr", {}, made("td", { className: "left" }, field), ...cells.map((cell) => made("td", { textContent: String(cell) })));
}

export function drawSettings(settings) {
  const now = JSON.stringify(settings.map(({ place, ...rest }) => rest));
  at("no-setting").hidden = settings.length > 0;
  at("settings-save").hidden = !settings.length;
  if (now === rows) { return; }
  rows = now;
  const heads = ["place", "address", "rate", "check", "vendor", "model", "serial", "was", "when"];
  at("settings").replaceChildren(...(settings.length ? [made("thead", {}, made("tr", {}, ...heads.map((each) => made("th", { className: each === "place" ? "left" : "", textContent: text(`setting.${each}`), scope: "col" })))), made("tbody", {}, ...settings.map(row))] : []));
}
