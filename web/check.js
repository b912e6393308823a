"use strict";
// The check: the conditions of each kind of certificate (docs/FORMATS.md, "The check"). All conditions are taken, not
// only up to the first that fails, so that everything that fails can be shown.

/** A number in a sentence: as texts have it, or rounded where that is long. */
function told(a) {
  const text = written(a);
  return text.length <= 40 ? text : `about ${approximation(a)}`;
}

/** What fails, in the order in which the conditions are taken: by condition, and then by place. */
class Findings {
  constructor() {
    this.failures = [];
  }

  /** The item is a row or a column of the report, or null where a condition is of none. */
  fail(condition, item, words) {
    const failure = { condition, of: item?.of ?? "", name: item?.name ?? "", words };
    item?.fails.push(failure);
    this.failures.push(failure);
  }

  inOrder() {
    return this.failures.sort((one, other) => one.condition - other.condition);
  }
}

/** Whether a value lies between two limits; what is wrong goes to the findings. */
function between(findings, condition, item, value, called) {
  const { lower, upper, name } = item;
  const opening = `${called} ${name} is ${told(value)}, and has to be`;
  if (lower !== null && compare(value, lower) < 0) {
    findings.fail(condition, item, `${opening} at least ${told(lower)}: it is ${told(minus(lower, value))} below.`);
  } else if (upper !== null && compare(value, upper) > 0) {
    findings.fail(condition, item, `${opening} at most ${told(upper)}: it is ${told(minus(value, upper))} above.`);
  }
}

/** How far a value is from the nearer of its limits; below 0 outside them, and null where there is none. */
function slackOf(value, { lower, upper }) {
  const down = lower === null ? null : minus(value, lower);
  const up = upper === null ? null : minus(upper, value);
  if (down === null || up === null) return down ?? up;
  return compare(down, up) < 0 ? down : up;
}

function itemsOf(model) {
  const rows = model.rows.map((row) => {
    const { name, type, line } = row;
    return { of: "row", name, type, line, ...limitsOf(row), fails: [] };
  });
  const columns = model.columns.map((column) => ({ of: "column", ...column, fails: [] }));
  return { rows, columns };
}

/** The part of the work that lies between two others, each from 0 to 1. */
function within(progress, from, to) {
  return (stage, part) => progress(stage, from + part * (to - from));
}

/** The sums of the rows at a point of whole numbers, which mostly are limits. */
function sumsOfRows(model, items, point, progress) {
  return model.rows.map((row, place) => {
    progress(place / model.rows.length);
    const sum = new Sum();
    for (const [column, coefficient] of row.entries) {
      if (point.numbers[column].n !== 0n) sum.add(coefficient, point.numbers[column]);
    }
    return sum.over(point.times, [items.rows[place].lower, items.rows[place].upper]);
  });
}

/** For each column a start and then the sum of the multipliers, which are whole numbers, times its coefficients. All are
 * as many times as the multipliers are. */
function sumsOfColumns(model, starts, multipliers, progress) {
  const sums = starts.map((start) => new Sum(multipliers.start(start)));
  model.rows.forEach((row, place) => {
    progress(place / model.rows.length);
    const multiplier = multipliers.numbers[place];
    if (multiplier.n === 0n) return;
    for (const [column, coefficient] of row.entries) sums[column].add(multiplier, coefficient);
  });
  return sums;
}

function sumOfCosts(columns, point, start) {
  const sum = new Sum(point.start(start));
  columns.forEach((column, place) => sum.add(column.cost, point.numbers[place]));
  return sum.over(point.times);
}

/** Conditions 1 and 2 of OPTIMAL and of UNBOUNDED: the point is feasible. What is given is the point in whole numbers. */
function checkPoint(findings, model, items, point, progress) {
  items.columns.forEach((column, place) => {
    column.value = point[place];
    column.slack = slackOf(column.value, column);
    between(findings, 1, column, column.value, "Column");
  });
  const wholes = new Wholes(point, (part) => progress("The sums of the rows", part / 2));
  const sums = sumsOfRows(model, items, wholes, (part) => progress("The sums of the rows", 0.5 + part / 2));
  items.rows.forEach((row, place) => {
    row.sum = sums[place];
    row.slack = slackOf(row.sum, row);
    between(findings, 2, row, row.sum, "The sum of row");
  });
  return wholes;
}

/** A number above 0 asks for the lower limit, one below 0 for the upper. */
function limitFor(item, number) {
  return sign(number) > 0 ? { limit: item.lower, side: "lower" } : { limit: item.upper, side: "upper" };
}

/** Conditions 3 and 4 of OPTIMAL: where a number is not 0, the value is at the limit of its sign. */
function checkAtLimit(findings, condition, item, number, value, { has, limits }) {
  if (number.n === 0n) return;
  const { limit, side } = limitFor(item, number);
  const opening = `${has} ${told(number)}, so it has to be at its ${side} ${limits}`;
  if (limit === null) {
    findings.fail(condition, item, `${opening}, and it has none.`);
  } else if (compare(limit, value) !== 0) {
    findings.fail(condition, item, `${opening} ${told(limit)}, and is ${told(value)}.`);
  }
}

function checkOptimal(model, items, { x, y }, progress) {
  const findings = new Findings();
  const point = checkPoint(findings, model, items, x, within(progress, 0, 0.15));
  const costs = model.columns.map(({ cost }) => model.maximize ? negative(cost) : cost);
  const work = (from, to) => (part) => progress("The reduced costs", from + part * (to - from));
  const multiplied = new Wholes(y.map(negative), work(0.15, 0.25));
  const reduced = sumsOfColumns(model, costs, multiplied, work(0.25, 0.4));
  const lowest = work(0.4, 1);
  items.columns.forEach((column, place) => {
    lowest(place / items.columns.length);
    column.reduced = reduced[place].over(multiplied.times);
    const has = `Column ${column.name} has the reduced cost`;
    checkAtLimit(findings, 3, column, column.reduced, column.value, { has, limits: "bound" });
  });
  items.rows.forEach((row, place) => {
    row.multiplier = y[place];
    const has = `Row ${row.name} has the multiplier`;
    checkAtLimit(findings, 4, row, row.multiplier, row.sum, { has, limits: "limit" });
  });
  return { failures: findings.inOrder(), value: sumOfCosts(model.columns, point, model.offset) };
}

/** Adds a number times the limit that its sign asks for to a sum, to which the number is added as many times as the sum's
 * are, and says where there is no such limit. */
function addProduct(findings, condition, item, number, { limit, side }, sum, often) {
  if (number.n === 0n) return;
  item.used = limit;
  if (limit === null) {
    const words = item.of === "row"
      ? `Row ${item.name} has the multiplier ${told(number)}, and no ${side} limit.`
      : `Column ${item.name} has the sum ${told(number)}, and no ${side} bound.`;
    findings.fail(condition, item, words);
    return;
  }
  item.product = times(number, limit);
  sum.add(often, limit);
}

/** How many terms of a row are shown. */
const TERMS_SHOWN = 8;

/** What the rows that are added up say of the columns. */
function addTerms(model, rows) {
  rows.forEach((row, place) => {
    if (row.product === undefined) return;
    const { entries } = model.rows[place];
    row.terms = entries.slice(0, TERMS_SHOWN).map(([column, coefficient]) => [model.columns[column].name, coefficient]);
    row.more = entries.length - row.terms.length;
  });
}

function checkInfeasible(model, items, { y }, progress) {
  const findings = new Findings();
  const required = new Sum(), allowed = new Sum();
  const work = (from, to) => (part) => progress("The combined row", from + part * (to - from));
  const multipliers = new Wholes(y, work(0, 0.2));
  items.rows.forEach((row, place) => {
    row.multiplier = y[place];
    addProduct(findings, 1, row, row.multiplier, limitFor(row, row.multiplier), required, multipliers.numbers[place]);
  });
  const nothing = model.columns.map(() => ZERO);
  const sums = sumsOfColumns(model, nothing, multipliers, work(0.2, 0.4));
  const lowest = work(0.4, 1);
  items.columns.forEach((column, place) => {
    lowest(place / items.columns.length);
    column.combined = sums[place].over(multipliers.times);
    addProduct(findings, 2, column, column.combined, limitFor(column, negative(column.combined)), allowed, sums[place]);
  });
  addTerms(model, items.rows);
  const totals = { required: required.over(multipliers.times), allowed: allowed.over(multipliers.times) };
  if (findings.failures.length === 0 && compare(totals.allowed, totals.required) >= 0) {
    const { required: least, allowed: most } = totals;
    const words = `The rows require ${told(least)}, and the bounds of the columns allow ${told(most)}`;
    findings.fail(3, null, `${words}, which is not less.`);
  }
  return { failures: findings.inOrder(), ...totals };
}

/** Conditions 3 and 4 of UNBOUNDED: a ray does not lead to a limit. */
function checkAway(findings, condition, item, step, called) {
  const to = sign(step) < 0 ? { limit: item.lower, side: "lower" } : { limit: item.upper, side: "upper" };
  if (step.n === 0n || to.limit === null) return;
  const limit = `${to.side} ${item.of === "row" ? "limit" : "bound"} ${told(to.limit)}`;
  const words = `Along the ray ${called} ${item.name} changes by ${told(step)}`;
  findings.fail(condition, item, `${words}, towards its ${limit}.`);
}

function checkUnbounded(model, items, { x, r }, progress) {
  const findings = new Findings();
  const point = checkPoint(findings, model, items, x, within(progress, 0, 0.5));
  items.columns.forEach((column, place) => {
    column.ray = r[place];
    checkAway(findings, 3, column, column.ray, "column");
  });
  const ray = new Wholes(r, (part) => progress("The ray", 0.5 + part / 4));
  const steps = sumsOfRows(model, items, ray, (part) => progress("The ray", 0.75 + part / 4));
  items.rows.forEach((row, place) => {
    row.ray = steps[place];
    checkAway(findings, 4, row, row.ray, "the sum of row");
  });
  const change = sumOfCosts(model.columns, ray, ZERO);
  if (sign(change) * (model.maximize ? -1 : 1) >= 0) {
    findings.fail(5, null, `Along the ray the objective changes by ${told(change)}, which is not better.`);
  }
  return { failures: findings.inOrder(), value: sumOfCosts(model.columns, point, model.offset), change };
}

function checkClash(items, place) {
  const findings = new Findings();
  const column = items.columns[place];
  const { name, lower, upper } = column;
  const has = (bound, side) => bound === null ? `no ${side} bound` : `the ${side} bound ${told(bound)}`;
  if (lower === null || upper === null || compare(lower, upper) <= 0) {
    const words = `Column ${name} has ${has(lower, "lower")} and ${has(upper, "upper")}`;
    findings.fail(1, column, `${words}: they do not clash.`);
  }
  return { failures: findings.inOrder(), clash: name };
}

/** What a certificate shows of a model: all of its sums, and what fails. */
function check(model, kind, found, progress) {
  const items = itemsOf(model);
  const checks = {
    OPTIMAL: () => checkOptimal(model, items, found, progress),
    INFEASIBLE: () => checkInfeasible(model, items, found, progress),
    UNBOUNDED: () => checkUnbounded(model, items, found, progress),
    CLASH: () => checkClash(items, found.clash),
  };
  return { kind, ...items, ...checks[kind]() };
}
