"use strict";
// Pictures of what was decided. They are drawn with rounded numbers; nothing is decided by them.

const BARS_AT_FIRST = 24;
const BAR = { height: 24, name: 150, from: 160, to: 480, weight: 500, width: 740 };

/** Where limits stand in a bar, from 0 to 1. */
const LOWER_AT = 0.15, UPPER_AT = 0.85;

/** Where a row's sum stands in its bar: in the middle of that of a free row. On which side of a limit it is drawn is decided
 * exactly. */
function placeOf(row) {
  const { lower, upper, sum } = row;
  if (lower === null && upper === null) return (LOWER_AT + UPPER_AT) / 2;
  const value = near(sum);
  const range = lower !== null && upper !== null ? near(upper) - near(lower) : 0;
  const scale = range > 0 ? range : 1.5 * Math.max(Math.abs(value), Math.abs(near(lower ?? upper)), 1);
  const byLower = upper === null || (lower !== null && value - near(lower) <= near(upper) - value);
  const limit = byLower ? lower : upper, limitAt = byLower ? LOWER_AT : UPPER_AT;
  const away = (UPPER_AT - LOWER_AT) * (value - near(limit)) / scale;
  const side = compare(sum, limit);
  const seen = side === 0 ? 0 : side < 0 ? Math.min(-0.02, away) : Math.max(0.02, away);
  return Math.min(0.99, Math.max(0.01, limitAt + seen));
}

function shortNumber(a) {
  const text = written(a);
  return text.length <= 12 ? text : approximation(a);
}

function shortName(name) {
  return name.length > 20 ? `${name.slice(0, 19)}…` : name;
}

function hasMultiplier(row) {
  return row.multiplier !== undefined && row.multiplier.n !== 0n;
}

function barOf(row, top, greatest) {
  const x = (place) => BAR.from + place * (BAR.to - BAR.from);
  const from = x(row.lower === null ? 0 : LOWER_AT), to = x(row.upper === null ? 1 : UPPER_AT);
  const middle = top + BAR.height / 2;
  const kind = row.fails.length > 0 ? "wrong" : row.slack?.n === 0n ? "tight" : "at";
  const parts = [
    drawn("text", { x: BAR.name, y: middle + 4, "text-anchor": "end" }, shortName(row.name)),
    drawn("rect", { class: "band", x: from, y: top + 5, width: to - from, height: BAR.height - 10 }),
  ];
  const ends = { y1: top + 2, y2: top + BAR.height - 2 };
  if (row.lower !== null) parts.push(drawn("line", { class: "limit", x1: from, x2: from, ...ends }));
  if (row.upper !== null) parts.push(drawn("line", { class: "limit", x1: to, x2: to, ...ends }));
  parts.push(drawn("circle", { class: kind, cx: x(placeOf(row)), cy: middle, r: 5 }));
  if (hasMultiplier(row)) parts.push(...weightOf(row.multiplier, top, greatest));
  return drawn("g", {}, drawn("title", {}, `${row.name}: ${shortNumber(row.sum)} ${stateOf(row)}`), ...parts);
}

/** A multiplier beside its row, as long as it is great. */
function weightOf(multiplier, top, greatest) {
  const width = Math.max(2, greatest === 0 ? 0 : 90 * Math.abs(near(multiplier)) / greatest);
  return [
    drawn("rect", { class: "weight", x: BAR.weight, y: top + 6, width, height: BAR.height - 12 }),
    drawn("text", { x: BAR.weight + 8 + width, y: top + BAR.height / 2 + 4 }, `× ${shortNumber(multiplier)}`),
  ];
}

function drawBars(rows) {
  const greatest = Math.max(0, ...rows.filter(hasMultiplier).map((row) => Math.abs(near(row.multiplier))));
  const words = `The sums of ${rows.length} rows between their limits; the table of rows has the numbers.`;
  const bars = rows.map((row, place) => barOf(row, place * BAR.height, greatest));
  return drawing(BAR.width, rows.length * BAR.height, words, ...bars);
}

/** What fails first, then what has a multiplier, then what is tight. */
function rankOf(row) {
  if (row.fails.length > 0) return 0;
  if (hasMultiplier(row)) return 1;
  return row.slack?.n === 0n ? 2 : 3;
}

/** The rows' sums between their limits, each to its own scale, with the multiplier beside. */
function picturesOfRows(rows) {
  if (rows.length === 0) return [];
  const ranked = rows.map((row) => [rankOf(row), row]).sort(([one], [other]) => one - other).map(([, row]) => row);
  const words = "Each row's sum between its limits, to a scale of its own, with its multiplier beside.";
  const figure = element("figure", {}, drawBars(ranked.slice(0, BARS_AT_FIRST)), element("figcaption", {}, words));
  const drawAll = () => {
    figure.firstChild.replaceWith(drawBars(ranked));
    figure.lastChild.remove();
  };
  if (rows.length > BARS_AT_FIRST) figure.append(button(`Draw all ${rows.length} rows`, drawAll));
  return [element("h3", {}, "Sums between their limits"), figure];
}

/** How many terms of the combination are shown. */
const TERMS_AT_MOST = 8;

/** A sum of terms, as "2 x - y". */
function termsText(terms, more) {
  const parts = terms.map(([name, a], place) => {
    const size = written(a.n < 0n ? negative(a) : a);
    const shown = size.length > 14 ? approximation(a.n < 0n ? negative(a) : a) : size;
    const mark = a.n < 0n ? (place === 0 ? "-" : " - ") : place === 0 ? "" : " + ";
    return `${mark}${shown === "1" ? "" : `${shown} `}${name}`;
  });
  return (parts.join("") || "0") + (more > 0 ? ` and ${more} more` : "");
}

function sumLine(weight, text, relation, product, kind) {
  const number = (a) => element("td", { class: "number" }, ...a === null ? [] : numberNodes(a));
  const words = [text, relation].map((each) => element("td", {}, each));
  return element("tr", { class: kind }, number(weight), ...words, number(product));
}

/** The rows times their multipliers, line by line, and their sum. */
function linesOfRows(found, sum) {
  const lines = found.rows.filter(({ product }) => product !== undefined).map((row) => {
    const relation = sign(row.multiplier) > 0 ? "at least" : "at most";
    const text = `${row.name}: ${termsText(row.terms, row.more)} is ${relation} ${shortNumber(row.used)}`;
    return sumLine(row.multiplier, text, "≥", row.product);
  });
  return [...lines, sumLine(null, `All these added: ${sum} is at least`, "≥", found.required, "total")];
}

/** What the bounds of the columns allow of that sum, line by line. */
function linesOfColumns(found, sum) {
  const lines = found.columns.filter(({ product }) => product !== undefined).map((column) => {
    const relation = sign(column.combined) > 0 ? "at most" : "at least";
    return sumLine(column.combined, `${column.name} is ${relation} ${shortNumber(column.used)}`, "≤", column.product);
  });
  return [...lines, sumLine(null, `So by the bounds ${sum} is at most`, "≤", found.allowed, "total")];
}

/** The combination that contradicts itself, added up line by line. */
function pictureOfContradiction(found) {
  const combined = found.columns.filter((column) => column.combined.n !== 0n);
  const terms = combined.slice(0, TERMS_AT_MOST).map((column) => [column.name, column.combined]);
  const sum = termsText(terms, combined.length - terms.length);
  const heads = ["Times", "What has to hold", "", "Adds up to"].map((title) => element("th", { scope: "col" }, title));
  const body = element("tbody", {}, ...linesOfRows(found, sum), ...linesOfColumns(found, sum));
  const table = element("table", {}, element("thead", {}, element("tr", {}, ...heads)), body);
  const label = "The combination, added up";
  const scroll = element("div", { class: "scroll", tabindex: "0", role: "region", "aria-label": label }, table);
  const gap = minus(found.required, found.allowed);
  const numbers = `at least ${shortNumber(found.required)} and at most ${shortNumber(found.allowed)}`;
  const end = found.failures.length === 0
    ? `It would have to be ${numbers}, and the first is greater by ${shortNumber(gap)}: that cannot be.`
    : "These lines do not contradict each other.";
  return [element("h3", {}, "The contradiction, line by line"), scroll, element("p", { id: "contradiction" }, end)];
}

function picturesOf({ found, plane, facts }) {
  const pictures = [];
  if (plane !== null && found.kind !== "CLASH") pictures.push(...pictureOfPlane(found, plane, facts));
  if (found.kind === "INFEASIBLE") pictures.push(...pictureOfContradiction(found));
  if (found.kind === "OPTIMAL" || found.kind === "UNBOUNDED") pictures.push(...picturesOfRows(found.rows));
  return pictures;
}
