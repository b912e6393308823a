"use strict";
// Elements of the page, made by hand.

const SVG = "http://www.w3.org/2000/svg";

function put(made, attributes, children) {
  for (const [name, value] of Object.entries(attributes)) {
    if (value !== undefined && value !== null) made.setAttribute(name, value);
  }
  made.append(...children);
  return made;
}

function element(tag, attributes = {}, ...children) {
  return put(document.createElement(tag), attributes, children);
}

function drawn(tag, attributes = {}, ...children) {
  return put(document.createElementNS(SVG, tag), attributes, children);
}

/** A drawing with its words for those who do not see it. */
function drawing(width, height, words, ...children) {
  const attributes = { viewBox: `0 0 ${width} ${height}`, width, height, role: "img", "aria-label": words };
  return drawn("svg", attributes, ...children);
}

function button(text, pressed, attributes = {}) {
  const made = element("button", { type: "button", ...attributes }, text);
  made.addEventListener("click", pressed);
  return made;
}

/** The longest number that is shown whole at once. */
const LONGEST_SHOWN = 28;

/** A number as a fraction and, where that has no end, as a decimal; a long one as a decimal, and whole on demand. */
function numberNodes(a) {
  const text = written(a);
  if (text.length <= LONGEST_SHOWN && !text.includes("/")) return [text];
  if (text.length <= LONGEST_SHOWN) return [text, element("small", {}, `≈ ${approximation(a)}`)];
  const digits = text.replace(/[^0-9]/g, "").length;
  return [element("details", {}, element("summary", {}, `≈ ${approximation(a)}`), `${text} (${digits} digits)`)];
}
