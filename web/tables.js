"use strict";
// The tables of the rows and of the columns: what fails first, sorted by any of their columns, filtered to what one
// looks for.

function numeric(title, of, none = "none") {
  return { title, of, none, numeric: true };
}

const NAME = { title: "Name", of: (item) => item.name };
const TYPE = { title: "Type", of: (item) => item.type };
const STATE = { title: "State", of: (item) => stateOf(item) };
const LOWER = numeric("Lower", (item) => item.lower);
const UPPER = numeric("Upper", (item) => item.upper);
const SLACK = numeric("Slack", (item) => item.slack);
const COST = numeric("Cost", (item) => item.cost);
const SUM = numeric("Sum", (item) => item.sum);
const VALUE = numeric("Value", (item) => item.value);
const MULTIPLIER = numeric("Multiplier", (item) => item.multiplier);
const REDUCED = numeric("Reduced cost", (item) => item.reduced);
const COMBINED = numeric("In the combination", (item) => item.combined);
const USED = numeric("Limit taken", (item) => item.used, "");
const PRODUCT = numeric("Product", (item) => item.product, "");
const RAY = numeric("Along the ray", (item) => item.ray);

/** What is shown of each kind of certificate. */
const SHOWN_ROWS = {
  OPTIMAL: [NAME, TYPE, LOWER, SUM, UPPER, SLACK, MULTIPLIER, STATE],
  INFEASIBLE: [NAME, TYPE, LOWER, UPPER, MULTIPLIER, USED, PRODUCT, STATE],
  UNBOUNDED: [NAME, TYPE, LOWER, SUM, UPPER, SLACK, RAY, STATE],
  CLASH: [NAME, TYPE, LOWER, UPPER, STATE],
};
const SHOWN_COLUMNS = {
  OPTIMAL: [NAME, COST, LOWER, VALUE, UPPER, SLACK, REDUCED, STATE],
  INFEASIBLE: [NAME, LOWER, UPPER, COMBINED, USED, PRODUCT, STATE],
  UNBOUNDED: [NAME, COST, LOWER, VALUE, UPPER, SLACK, RAY, STATE],
  CLASH: [NAME, COST, LOWER, UPPER, STATE],
};

function isTight(item) {
  return item.slack?.n === 0n;
}

function stateOf(item) {
  if (item.fails.length > 0) return `fails ${item.fails.map(({ condition }) => condition).join(", ")}`;
  return isTight(item) ? "tight" : "";
}

/** Whether a number of the certificate, or one that it leads to, is not 0. */
function counts(item) {
  return [item.value, item.multiplier, item.reduced, item.combined, item.ray].some((a) => a && a.n !== 0n);
}

const FILTERS = {
  all: () => true,
  fails: (item) => item.fails.length > 0,
  tight: isTight,
  "not 0": counts,
};

function compareCells(one, other, column) {
  const a = column.of(one) ?? null, b = column.of(other) ?? null;
  if (a === null || b === null) return a === b ? 0 : a === null ? 1 : -1;
  if (column.numeric) return compare(a, b);
  return a < b ? -1 : a > b ? 1 : 0;
}

function cellOf(item, column, first) {
  const value = column.of(item) ?? null;
  if (first) return element("th", { scope: "row" }, value);
  if (!column.numeric) return element("td", { class: column === STATE ? "state" : null }, value ?? "");
  return element("td", { class: "number" }, ...value === null ? [column.none] : numberNodes(value));
}

function lineOf(item, columns) {
  const kind = item.fails.length > 0 ? "fails" : isTight(item) ? "tight" : null;
  const why = item.fails.map(({ words }) => words).join(" ");
  const cells = columns.map((column, place) => cellOf(item, column, place === 0));
  return element("tr", { class: kind, title: why || null }, ...cells);
}

/** How many lines of a table are there before more are asked for: a browser takes its time over long tables. */
const LINES_AT_FIRST = 100;

class ItemTable {
  constructor(title, items, columns) {
    this.title = title;
    this.columns = columns;
    this.items = [...items.filter(FILTERS.fails), ...items.filter((item) => item.fails.length === 0)];
    this.filter = "all";
    this.wanted = "";
    this.sorted = null;
    this.descending = false;
    this.most = LINES_AT_FIRST;
    this.body = element("tbody");
    this.count = element("span", { role: "status" });
    this.heads = columns.map((column) => this.headOf(column));
    this.more = button("Show all", () => {
      this.most = items.length;
      this.fill();
    });
    this.node = this.build();
    this.fill();
  }

  headOf(column) {
    const head = element("th", { scope: "col", class: column.numeric ? "number" : null });
    head.append(button(column.title, () => this.sortBy(column)));
    return head;
  }

  build() {
    const head = element("thead", {}, element("tr", {}, ...this.heads));
    const table = element("table", { "aria-label": this.title }, head, this.body);
    const scroll = element("div", { class: "scroll", tabindex: "0", role: "region", "aria-label": this.title }, table);
    return element("section", {}, element("h3", {}, this.title), this.filters(), scroll, this.more);
  }

  filters() {
    const options = Object.keys(FILTERS).map((name) => element("option", { value: name }, name));
    const select = element("select", {}, ...options);
    const search = element("input", { type: "search", size: "14" });
    select.addEventListener("change", () => { this.filter = select.value; this.fill(); });
    search.addEventListener("input", () => { this.wanted = search.value; this.fill(); });
    const labels = [element("label", {}, "Show ", select), element("label", {}, "Name with ", search)];
    return element("p", { class: "filters" }, ...labels, this.count);
  }

  sortBy(column) {
    this.descending = this.sorted === column && !this.descending;
    this.sorted = column;
    this.columns.forEach((each, place) => {
      if (each === column) this.heads[place].setAttribute("aria-sort", this.descending ? "descending" : "ascending");
      else this.heads[place].removeAttribute("aria-sort");
    });
    this.fill();
  }

  fill() {
    const items = this.items.filter((item) => FILTERS[this.filter](item) && item.name.includes(this.wanted));
    const turn = this.descending ? -1 : 1;
    if (this.sorted !== null) items.sort((one, other) => turn * compareCells(one, other, this.sorted));
    const shown = items.slice(0, this.most);
    this.body.replaceChildren(...shown.map((item) => lineOf(item, this.columns)));
    this.more.hidden = shown.length === items.length;
    const fitting = this.more.hidden ? "" : `; ${items.length} fit`;
    this.count.textContent = `${shown.length} of ${this.items.length}${fitting}`;
  }
}

function tablesOf({ kind, rows, columns }) {
  const ofRows = new ItemTable("Rows", rows, SHOWN_ROWS[kind]);
  const ofColumns = new ItemTable("Columns", columns, SHOWN_COLUMNS[kind]);
  return [ofRows.node, ofColumns.node];
}
