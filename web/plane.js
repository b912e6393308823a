"use strict";
// The picture of a model of two columns: the region, the rows that hold it, the point, and where the objective gets
// better.

const PLANE = { width: 520, height: 410, left: 60, bottom: 40, top: 26, right: 14 };

/** The half planes a x + b y <= c of the limits of rows and the bounds of columns. */
function halfPlanesOf(found, plane) {
  const halves = [];
  const add = (item, a, b, { lower, upper }) => {
    const holds = item.multiplier ? sign(item.multiplier) : 0;
    if (upper !== null) halves.push({ item, a, b, c: near(upper), holds: holds < 0 });
    if (lower !== null) halves.push({ item, a: -a, b: -b, c: -near(lower), holds: holds > 0 });
  };
  found.rows.forEach((row, place) => add(row, near(plane[place][0]), near(plane[place][1]), row));
  found.columns.forEach((column, place) => add(column, place === 0 ? 1 : 0, place === 0 ? 0 : 1, column));
  return halves.filter(({ a, b }) => a !== 0 || b !== 0);
}

function crossing(one, other) {
  const determinant = one.a * other.b - other.a * one.b;
  if (Math.abs(determinant) < 1e-12) return null;
  return [(one.c * other.b - other.c * one.b) / determinant, (one.a * other.c - other.a * one.c) / determinant];
}

function isInside([x, y], { a, b, c }) {
  return a * x + b * y <= c + 1e-9 * (1 + Math.abs(a * x) + Math.abs(b * y) + Math.abs(c));
}

function crossingsOf(halves) {
  const points = [];
  halves.slice(0, 80).forEach((one, place) => {
    for (const other of halves.slice(place + 1, 80)) {
      const point = crossing(one, other);
      if (point !== null) points.push(point);
    }
  });
  return points;
}

/** What is looked at: the corners of the region and the point, with room around them. */
function windowOf(halves, point, ray) {
  const all = crossingsOf(halves);
  const corners = all.filter((each) => halves.every((half) => isInside(each, half)));
  const shown = [...corners.length > 0 ? corners : all.slice(0, 12)];
  if (point !== null) shown.push(point);
  if (point !== null && ray !== null) shown.push([point[0] + 2 * ray[0], point[1] + 2 * ray[1]]);
  if (shown.length === 0) shown.push([0, 0]);
  const range = (axis) => {
    const values = shown.map((each) => each[axis]);
    const least = Math.min(...values), greatest = Math.max(...values);
    const room = (greatest - least || Math.max(1, Math.abs(greatest))) * 0.3;
    return [least - room, greatest + room];
  };
  return { x: range(0), y: range(1) };
}

/** The part of a polygon in a half plane. */
function clipped(polygon, half) {
  const side = ([x, y]) => half.c - half.a * x - half.b * y;
  const kept = [];
  polygon.forEach((point, place) => {
    const next = polygon[(place + 1) % polygon.length];
    const here = side(point), there = side(next);
    if (here >= 0) kept.push(point);
    if ((here < 0) !== (there < 0)) {
      const part = here / (here - there);
      kept.push([point[0] + part * (next[0] - point[0]), point[1] + part * (next[1] - point[1])]);
    }
  });
  return kept;
}

/** The part of the line a x + b y = c in the window, from one of its edges to another. */
function segmentOf({ a, b, c }, { x, y }) {
  const ends = [];
  for (const at of x) if (b !== 0) ends.push([at, (c - a * at) / b]);
  for (const at of y) if (a !== 0) ends.push([(c - b * at) / a, at]);
  const within = ([px, py]) => px >= x[0] - 1e-9 && px <= x[1] + 1e-9 && py >= y[0] - 1e-9 && py <= y[1] + 1e-9;
  const inside = ends.filter(within);
  return inside.length < 2 ? null : farthest(inside);
}

function farthest(points) {
  let best = [points[0], points[0]], length = -1;
  for (const one of points) {
    for (const other of points) {
      const apart = (one[0] - other[0]) ** 2 + (one[1] - other[1]) ** 2;
      if (apart > length) [best, length] = [[one, other], apart];
    }
  }
  return best;
}

/** A step of 1, 2 or 5 times a power of ten, with about five of them in a range. */
function stepOf([from, to]) {
  const raw = (to - from) / 5;
  const power = 10 ** Math.floor(Math.log10(raw));
  return [1, 2, 5, 10].map((factor) => factor * power).find((step) => step >= raw);
}

function ticksOf([from, to]) {
  const step = stepOf([from, to]);
  const first = Math.ceil(from / step);
  return Array.from({ length: Math.max(0, Math.floor(to / step) - first + 1) }, (_, place) => (first + place) * step);
}

class PlaneDrawing {
  constructor(seen) {
    this.seen = seen;
    const { x, y } = seen;
    const across = (PLANE.width - PLANE.left - PLANE.right) / (x[1] - x[0]);
    const down = (PLANE.height - PLANE.top - PLANE.bottom) / (y[1] - y[0]);
    this.at = ([px, py]) => [PLANE.left + across * (px - x[0]), PLANE.top + down * (y[1] - py)];
    this.parts = [];
  }

  polygon(points, kind) {
    if (points.length < 3) return;
    const places = points.map((each) => this.at(each).map((a) => a.toFixed(1)).join(","));
    this.parts.push(drawn("polygon", { class: kind, points: places.join(" ") }));
  }

  line([from, to], kind) {
    const [x1, y1] = this.at(from), [x2, y2] = this.at(to);
    this.parts.push(drawn("line", { class: kind, x1, y1, x2, y2 }));
  }

  text(point, words, { dx = 0, dy = 0, ...more } = {}) {
    const [x, y] = this.at(point);
    this.parts.push(drawn("text", { x: x + dx, y: y + dy, ...more }, words));
  }

  /** An arrow of a length on the paper, from a point of the plane in one of its directions. */
  arrow(from, direction, kind, words) {
    const [x1, y1] = this.at(from), [x2, y2] = this.at([from[0] + direction[0], from[1] + direction[1]]);
    const length = Math.hypot(x2 - x1, y2 - y1);
    if (!(length > 0)) return;
    const [ux, uy] = [(x2 - x1) / length, (y2 - y1) / length];
    const [ex, ey] = [x1 + 64 * ux, y1 + 64 * uy];
    const side = (turn) => [ex - 10 * ux - turn * 5 * uy, ey - 10 * uy + turn * 5 * ux];
    const head = [[ex, ey], side(1), side(-1)];
    this.parts.push(drawn("line", { class: kind, x1, y1, x2: ex - 6 * ux, y2: ey - 6 * uy }));
    this.parts.push(drawn("polygon", { class: `${kind}-head`, points: head.map((each) => each.join(",")).join(" ") }));
    const anchor = ux < -0.3 ? "end" : "start";
    this.parts.push(drawn("text", { x: ex + 8 * ux, y: ey + 8 * uy + 4, "text-anchor": anchor }, words));
  }

  axes(names) {
    const { x, y } = this.seen;
    const number = (at, step) => String(Math.abs(at) < step / 1e6 ? 0 : Number(at.toPrecision(6)));
    for (const at of ticksOf(x)) {
      this.text([at, y[0]], number(at, stepOf(x)), { dy: 16, "text-anchor": "middle", class: "faint" });
    }
    for (const at of ticksOf(y)) {
      this.text([x[0], at], number(at, stepOf(y)), { dx: -6, dy: 4, "text-anchor": "end", class: "faint" });
    }
    this.text([x[1], y[0]], names[0], { dy: 32, "text-anchor": "end" });
    this.text([x[0], y[1]], names[1], { dy: -8 });
    const [left, top] = this.at([x[0], y[1]]), [right, bottom] = this.at([x[1], y[0]]);
    this.parts.push(drawn("rect", { class: "frame", x: left, y: top, width: right - left, height: bottom - top }));
  }
}

function wordsOfPlane(found, point, holding) {
  const names = found.columns.map(({ name }) => name).join(" and ");
  const shaded = point === null
    ? "what each bound and each row with a multiplier allows is shaded, and no point is in all of these shades"
    : "what the rows and the bounds allow is shaded";
  const values = point === null ? [] : found.columns.map((column) => `${column.name} ${shortNumber(column.value)}`);
  const at = point === null ? "" : ` The point is ${values.join(", ")}.`;
  const held = holding.length === 0 ? "" : ` Rows with a multiplier, drawn bold: ${holding.join(", ")}.`;
  return `The plane of ${names}: ${shaded}.${at}${held}`;
}

function drawRows(plane, halves, seen) {
  const labelled = new Set();
  for (const half of halves.filter(({ item }) => item.of === "row").slice(0, 120)) {
    const segment = segmentOf(half, seen);
    if (segment === null) continue;
    plane.line(segment, half.holds ? "holds" : "row");
    if (labelled.has(half.item.name) || labelled.size > 14) continue;
    labelled.add(half.item.name);
    const [from, to] = segment;
    const place = [from[0] + 0.12 * (to[0] - from[0]), from[1] + 0.12 * (to[1] - from[1])];
    const atEnd = place[0] > seen.x[0] + 0.8 * (seen.x[1] - seen.x[0]);
    const anchor = atEnd ? { dx: -7, "text-anchor": "end" } : { dx: 5 };
    plane.text(place, half.item.name, { dy: -5, class: half.holds ? null : "faint", ...anchor });
  }
}

/** The point with the direction in which the objective gets better, and with the ray. */
function drawPoint(plane, found, point, ray, maximize) {
  const better = found.columns.map(({ cost }) => near(cost) * (maximize ? 1 : -1));
  plane.arrow(point, better, "arrow", "better");
  if (ray !== null) plane.arrow(point, ray, "ray", "ray");
  const [cx, cy] = plane.at(point);
  plane.parts.push(drawn("circle", { class: found.failures.length === 0 ? "at" : "wrong", cx, cy, r: 6 }));
}

/** What is allowed: the region, or for an infeasible model what each row with a multiplier and the bounds allow. */
function drawRegion(plane, halves, hasPoint) {
  const { x, y } = plane.seen;
  const whole = [[x[0], y[0]], [x[1], y[0]], [x[1], y[1]], [x[0], y[1]]];
  if (hasPoint) {
    plane.polygon(halves.reduce(clipped, whole), "region");
    return;
  }
  for (const half of halves) {
    if (half.holds || half.item.of === "column") plane.polygon(clipped(whole, half), "region");
  }
}

function pictureOfPlane(found, coefficients, facts) {
  const halves = halfPlanesOf(found, coefficients);
  const point = found.kind === "INFEASIBLE" ? null : found.columns.map(({ value }) => near(value));
  const ray = found.kind === "UNBOUNDED" ? found.columns.map((column) => near(column.ray)) : null;
  const plane = new PlaneDrawing(windowOf(halves, point, ray));
  drawRegion(plane, halves, point !== null);
  plane.axes(found.columns.map(({ name }) => name));
  drawRows(plane, halves, plane.seen);
  if (point !== null) drawPoint(plane, found, point, ray, facts.maximize);
  const holding = [...new Set(halves.filter(({ holds }) => holds).map(({ item }) => item.name))];
  const words = wordsOfPlane(found, point, holding);
  const caption = element("figcaption", {}, `${words} It is drawn with rounded numbers, and decided with exact ones.`);
  const figure = element("figure", {}, drawing(PLANE.width, PLANE.height, words, ...plane.parts), caption);
  return [element("h3", {}, "The plane of the two columns"), figure];
}
