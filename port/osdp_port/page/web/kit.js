// What all parts of the page use: elements, which get texts and never markup, moments, and the way to the line.
import { text } from "./texts.js";

export const at = (id) => document.getElementById(id);
export const RATES = [9600, 19200, 38400, 57600, 115200, 230400];

// An element: its properties, attributes in `a`, and what stands in it. A text is put in as a text.
export function made(name, words = {}, ...inside) {
  const element = document.createElement(name);
  const { a = {}, on = {}, ...properties } = words;
  Object.assign(element, properties);
  for (const [key, value] of Object.entries(a)) { element.setAttribute(key, value); }
  for (const [key, does] of Object.entries(on)) { element.addEventListener(key, does); }
  element.append(...inside.filter((each) => each !== null && each !== undefined));
  return element;
}

export const number = (value) => value.toLocaleString(document.documentElement.lang);
export const clock = (seconds) => new Date(seconds * 1000).toLocaleTimeString(document.documentElement.lang, { hour12: false });
export const checkName = (check) => check === "crc" ? "CRC" : text("checksum");

export function rates(select, chosen) {
  select.replaceChildren(...RATES.map((rate) => made("option", { value: String(rate), textContent: number(rate), selected: rate === chosen })));
}

// Pairs of a name and what it is.
export const pairs = (list, kind = "pairs") => made("dl", { className: kind }, ...list.flatMap(([name, value]) => [made("dt", { textContent: name }), made("dd", { textContent: value })]));
export const figures = (list) => list.map(([name, value]) => made("div", {}, made("dt", { textContent: name }), made("dd", { textContent: value })));

// Fills a list with rows, and keeps the elements of rows that haven't changed. `rows` are pairs of a key and what makes the element.
export function fill(list, rows) {
  const kept = new Map([...list.children].map((each) => [each.dataset.key, each]));
  list.replaceChildren(...rows.map(([key, makes]) => {
    const old = kept.get(String(key));
    if (old) { return old; }
    const element = makes();
    element.dataset.key = key;
    return element;
  }));
}

// Replaces what stands in an element only where it differs, so that a reader of the screen isn't disturbed and the focus stays.
export function replace(element, ...inside) {
  const before = element.innerHTML;
  const other = made(element.tagName, {}, ...inside);
  if (other.innerHTML !== before) { element.replaceChildren(...other.childNodes); }
}

export function put(element, words) {
  if (element.textContent !== words) { element.textContent = words; }
}

let said = "";
export function announce(words) {
  if (words && words !== said) { said = words; at("said").textContent = words; }
}

// The way to the line. `send` is set by page.js.
export const wire = { send: () => false };
export const orders = (command) => wire.send(command);
