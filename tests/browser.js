// Put into a copy of a page: writes down what of it is seen, and where, as one text of JSON. `browser.py` reads it.
"use strict";
const asked = [];
document.addEventListener("securitypolicyviolation", (event) => asked.push(event.effectiveDirective + " " + event.blockedURI));

const numbers = (color) => {
  const found = color.match(/[\d.]+/g).map(Number);
  return { light: (0.3 * found[0] + 0.59 * found[1] + 0.11 * found[2]) / 255, opaque: found.length > 3 ? found[3] : 1 };
};

// How light the ground of an element is: the nearest one that is not transparent, else the paper.
const ground = (element) => {
  for (let at = element; at; at = at.parentElement) {
    const found = numbers(getComputedStyle(at).backgroundColor);
    if (found.opaque > 0.5) { return found.light; }
  }
  return 1;
};

// How opaque an element is, by itself and by what it stands in.
const opacity = (element) => {
  let all = 1;
  for (let at = element; at; at = at.parentElement) { all *= Number(getComputedStyle(at).opacity); }
  return all;
};

const place = (box) => ({ left: box.left + scrollX, top: box.top + scrollY, right: box.right + scrollX, bottom: box.bottom + scrollY });

// What stands in front in the middle of a box, after the page was moved there.
const front = (element, box) => {
  scrollTo(0, box.top + scrollY - innerHeight / 2);
  const now = element.getBoundingClientRect ? element.getBoundingClientRect() : element;
  return document.elementFromPoint((now.left + now.right) / 2, (now.top + now.bottom) / 2);
};

// A text: its lines as they are drawn, and whether each is told from its ground and stands in front.
const text = (node) => {
  const range = document.createRange();
  range.selectNodeContents(node);
  const parent = node.parentElement;
  const style = getComputedStyle(parent);
  const color = numbers(parent.closest("svg") ? style.fill : style.color);
  const boxes = [...range.getClientRects()].filter((box) => box.width > 0 && box.height > 0);
  const before = boxes.map(place);
  const seen = boxes.length > 0 && style.visibility === "visible" && opacity(parent) > 0.3 && color.opaque > 0.5 && Math.abs(color.light - ground(parent)) > 0.3
    && boxes.every((_, at) => { const found = front({ getBoundingClientRect: () => range.getClientRects()[at] }, range.getClientRects()[at]); return found === parent; });
  return { tag: parent.tagName.toLowerCase(), text: node.data, seen, boxes: before };
};

const texts = () => {
  const walker = document.createTreeWalker(document.body, NodeFilter.SHOW_TEXT, (node) =>
    node.data.trim() && !node.parentElement.closest("script, title, style") ? NodeFilter.FILTER_ACCEPT : NodeFilter.FILTER_SKIP);
  const found = [];
  while (walker.nextNode()) { found.push(text(walker.currentNode)); }
  return found;
};

// A mark of a timeline, and whether a mark of its color stands in front in its middle.
const mark = (element) => {
  const box = element.getBoundingClientRect();
  const at = place(box);
  const style = getComputedStyle(element);
  const other = box.width > 0 && box.height > 0 ? front(element, box) : null;
  const color = numbers(style.fill);
  const seen = other !== null && other.tagName === "rect" && getComputedStyle(other).fill === style.fill
    && style.visibility === "visible" && opacity(element) > 0.3 && color.opaque > 0.5 && Math.abs(color.light - ground(element.parentElement)) > 0.2;
  return { ...at, fill: style.fill, seen };
};

const drawing = (svg) => ({ label: svg.getAttribute("aria-label"), ...place(svg.getBoundingClientRect()), marks: [...svg.querySelectorAll("rect")].map(mark) });

addEventListener("load", () => {
  const kept = document.createElement("pre");
  kept.id = "kept";
  const seen = { width: document.documentElement.clientWidth, texts: texts(), drawings: [...document.querySelectorAll("svg")].map(drawing), asked,
    loaded: performance.getEntriesByType("resource").map((each) => each.name) };
  kept.textContent = JSON.stringify(seen);
  document.body.append(kept);
});
