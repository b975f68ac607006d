// Test: what is tried and what it may do, how far it is, verdicts as they come, and what was left out.
import { announce, at, fill, made, orders, put, rates, replace } from "./kit.js";
import { has, text } from "./texts.js";

const MAY = ["silence", "led", "buz", "text", "comset", "beyond", "out:0", "relay:0"];

export function begin() {
  rates(at("test-rate"), 9600);
  replace(at("test-may"), ...MAY.map((each) => made("label", {}, made("input", { type: "checkbox", value: each, a: { value: each } }), text(`may.${each}`))));
  at("test-form").addEventListener("submit", (event) => {
    event.preventDefault();
    const may = [...at("test-may").querySelectorAll("input:checked")].map((each) => each.value);
    orders({ do: "test", of: at("test-of").value, address: Number(at("test-address").value), rate: Number(at("test-rate").value), check: at("test-check").value, may });
  });
}

// Fills the form with a device that was found.
export function takes(found) {
  at("test-of").value = "device";
  at("test-address").value = found.address;
  at("test-rate").value = String(found.rate);
  at("test-check").value = found.check;
}

function leftOut([rule, why]) {
  const allow = why.match(/^--may=(\w+)/);
  const may = allow && [`may.${allow[1]}`, `may.${allow[1]}:0`].find(has);
  return made("li", { textContent: may ? text("test.left.one", rule, text(may)) : text("test.left.why", rule, why.replaceAll("-", " ")) });
}

export function draw(test, line) {
  const isGoing = line.doing === "test";
  at("test-progress").hidden = !isGoing;
  if (isGoing) {
    at("test-bar").max = test.of || 1;
    at("test-bar").value = test.rule;
    put(at("test-rule"), text("test.rule", test.rule, test.of));
  }
  const status = test.status === null || isGoing ? "" : text(test.status === 0 ? "test.status.0" : test.status === 1 ? "test.status.1" : "test.status.n");
  put(at("test-status"), status);
  if (status) { announce(status); }
  at("test-save").hidden = isGoing || !test.lines.length;
  fill(at("verdicts"), test.lines.map((each, place) => [`${place} ${each}`, () => made("li", { textContent: each, className: /\bbroken\b/.test(each) && !each.startsWith("rules ") ? "broken" : /^\d+ ok\b/.test(each) ? "ok" : "" })]));
  at("test-left").hidden = !test.left_out.length;
  fill(at("left-out"), test.left_out.map((each) => [each.join(" "), () => leftOut(each)]));
}
