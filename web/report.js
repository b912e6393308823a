"use strict";
// The report, as text and as JSON: the verdict and all numbers whole.

function numberText(a) {
  return a === null || a === undefined ? "" : written(a);
}

function tableText(title, items, columns) {
  const cell = (column, item) => column.numeric ? numberText(column.of(item)) : column.of(item);
  const lines = items.map((item) => columns.map((column) => cell(column, item)).join("\t"));
  return ["", title, columns.map(({ title: head }) => head).join("\t"), ...lines];
}

function counted(number, one, many = `${one}s`) {
  return `${number} ${number === 1 ? one : many}`;
}

function factsText(facts) {
  const { rows, columns, entries, objective, maximize } = facts;
  const name = facts.name === "" ? "without a name" : facts.name;
  const sense = maximize ? "maximized" : "minimized";
  const counts = [counted(rows, "row"), counted(columns, "column"), counted(entries, "entry", "entries")];
  return `${name}: ${counts.join(", ")}; ${objective} is ${sense}`;
}

function textsText({ model, certificate, form }) {
  const of = (text) => `${text.bytes} bytes${text.sha256 === null ? "" : `, SHA-256 ${text.sha256}`}`;
  const ofCertificate = certificate === null ? "it follows the model in its text" : of(certificate);
  return [`Text of the model, in ${form} form: ${of(model)}`, `Text of the certificate: ${ofCertificate}`];
}

/** The numbers of the whole that a kind of certificate leads to. */
function totalsText({ value, change, required, allowed }) {
  const titles = { "Value of the point": value, "Change along the ray": change, "Required by the rows": required,
    "Allowed by the bounds": allowed };
  return Object.entries(titles).filter(([, a]) => a !== undefined).map(([title, a]) => `${title}: ${written(a)}`);
}

/** The report as lines of text. */
function reportText(verdict) {
  const { line, reason, claim, facts, texts, found } = verdict;
  const lines = ["Check of a certificate of a linear program", "", `Verdict: ${line || "refused"}`, reason];
  if (claim) lines.push(`Claim: ${claim.words}`);
  if (facts) lines.push(`Model: ${factsText(facts)}`);
  lines.push(...textsText(texts));
  if (!found) return `${lines.join("\n")}\n`;
  const { kind, failures, rows, columns } = found;
  const failing = failures.map(({ condition, words }) => `${condition}\t${words}`);
  if (failures.length > 0) lines.push("", "What fails", ...failing);
  lines.push(...totalsText(found));
  lines.push(...tableText("Rows", rows, SHOWN_ROWS[kind]), ...tableText("Columns", columns, SHOWN_COLUMNS[kind]));
  return `${lines.join("\n")}\n`;
}

/** A number as a text, and what holds numbers with texts in their places. */
function plainly(key, value) {
  if (typeof value === "bigint") return value.toString();
  return value !== null && typeof value === "object" && typeof value.n === "bigint" ? written(value) : value;
}

function reportJson(verdict) {
  const { plane, ...rest } = verdict;
  return `${JSON.stringify(rest, plainly, 2)}\n`;
}
