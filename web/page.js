"use strict";
// The page: texts that are pasted, dropped or chosen go to the worker, and its verdict is shown.

const byId = (id) => document.getElementById(id);
const encoder = new TextEncoder();

/** A longer text is held, but not put into its field. */
const LONGEST_EDITED = 300000;

function countText(count) {
  return count.toLocaleString("en");
}

/** How many bytes a text has, which is bytes or a file. */
function sizeOf(text) {
  return text.size ?? text.length;
}

/** A field with a text: the bytes of the file that was given, or where that is long the file, until the field is edited. */
class TextField {
  constructor(name) {
    this.box = byId(`${name}-box`);
    this.area = byId(name);
    this.held = this.box.querySelector(".held");
    this.file = byId(`${name}-file`);
    this.given = null;
    this.area.addEventListener("input", () => { this.given = null; });
    this.area.addEventListener("paste", (event) => this.pasted(event));
    // So that the same file can be chosen once more, as when it was changed.
    this.file.addEventListener("click", () => { this.file.value = ""; });
    this.file.addEventListener("change", () => { if (this.file.files.length > 0) give(this.file.files[0], this); });
  }

  content() {
    return this.given ?? encoder.encode(this.area.value);
  }

  /** Takes bytes, or a file, which is a long one. */
  set(text, name = "The text") {
    const short = sizeOf(text) <= LONGEST_EDITED;
    this.area.value = short ? new TextDecoder().decode(text) : "";
    this.area.hidden = !short;
    this.held.hidden = short;
    const size = `${name} has ${countText(sizeOf(text))} bytes`;
    this.held.textContent = short ? "" : `${size}: it is held, and too long to be shown.`;
    this.given = sizeOf(text) === 0 ? null : text;
  }

  pasted(event) {
    const text = event.clipboardData?.getData("text/plain") ?? "";
    if (text.length <= LONGEST_EDITED) return;
    event.preventDefault();
    this.set(encoder.encode(text), "The pasted text");
  }
}

const fields = { model: new TextField("model"), certificate: new TextField("certificate") };
let worker = null;
let started = 0;
let shown = null;

function startsWith(bytes, pattern) {
  return pattern.test(String.fromCharCode(...bytes.subarray(0, 40)));
}

/** Takes the texts of a page with a result in it. */
function openPage(text) {
  const given = /<script type="application\/json" id="given">(.*?)<\/scr[i]pt>/s.exec(text);
  const taken = given && takeGiven(JSON.parse(given[1]));
  if (!taken) showMessage("This page has no result in it.");
}

function bytesOf(base64) {
  return Uint8Array.from(atob(base64), (letter) => letter.charCodeAt(0));
}

function takeGiven({ model, certificate = "", form = "free", claim = "" }) {
  if (model === undefined) return false;
  fields.model.set(bytesOf(model));
  fields.certificate.set(bytesOf(certificate));
  document.querySelector(`input[name=form][value=${form === "fixed" ? "fixed" : "free"}]`).checked = true;
  byId("claim").value = claim;
  run();
  return true;
}

async function bytesIn(file) {
  return new Uint8Array(await file.arrayBuffer());
}

/** Takes a file for a field, or for the one that it looks like. The worker reads a long one. */
async function give(file, field = null) {
  if (file.size > MOST_BYTES) {
    showMessage(`${file.name} has ${countText(file.size)} bytes, and a text of more than 2^26 bytes is not read.`);
    return;
  }
  const start = await bytesIn(file.slice(0, 40));
  if (startsWith(start, /^<!DOCTYPE html>/i)) {
    openPage(await file.text());
    return;
  }
  const looksLike = startsWith(start, /^(OPTIMAL|INFEASIBLE|UNBOUNDED|CLASH)\b/) ? fields.certificate : fields.model;
  (field ?? looksLike).set(file.size <= LONGEST_EDITED ? await bytesIn(file) : file, file.name);
  if (sizeOf(fields.model.content()) > 0 && sizeOf(fields.certificate.content()) > 0) run();
}

function textsNow() {
  const certificate = fields.certificate.content();
  return {
    model: fields.model.content(),
    certificate: sizeOf(certificate) === 0 ? null : certificate,
    fixed: document.querySelector("input[name=form]:checked").value === "fixed",
    wide: !byId("narrow").checked,
    claim: byId("claim").value.trim(),
  };
}

/** Ends the work that is under way, if there is any. */
function stop() {
  worker?.terminate();
  worker = null;
  byId("working").hidden = true;
}

function startWorker() {
  const source = new Blob([byId("worker").textContent], { type: "text/javascript" });
  const address = URL.createObjectURL(source);
  const started = new Worker(address);
  URL.revokeObjectURL(address);
  return started;
}

function run() {
  stop();
  byId("outcome").hidden = true;
  byId("working").hidden = false;
  byId("progress").value = 0;
  byId("stage").textContent = "Reading";
  byId("left").textContent = "";
  started = performance.now();
  worker = startWorker();
  worker.onmessage = ({ data }) => take(data);
  worker.onerror = () => take({ broken: "the browser does not let a worker run" });
  worker.postMessage(textsNow());
}

/** How long the work still takes, if it goes on as it did for so many milliseconds. */
function leftText(spent, part) {
  if (spent < 1000 || part < 0.02) return "";
  const seconds = Math.ceil(spent / 1000 * (1 - part) / part);
  if (seconds < 2) return "about a second left";
  return seconds < 120 ? `about ${seconds} seconds left` : `about ${Math.ceil(seconds / 60)} minutes left`;
}

function take({ verdict, broken, stage, part }) {
  if (stage !== undefined) {
    byId("stage").textContent = stage;
    byId("progress").value = part;
    byId("left").textContent = leftText(performance.now() - started, part);
    return;
  }
  stop();
  if (broken !== undefined) showMessage(`Nothing was decided: ${broken}`);
  else show(verdict);
}

function showMessage(words) {
  shown = null;
  byId("verdict").replaceChildren(element("p", { class: "card bad" }, words));
  for (const id of ["failures", "pictures", "tables"]) byId(id).replaceChildren();
  byId("report").hidden = true;
  byId("outcome").hidden = false;
  byId("outcome").focus();
}

/** What is to be known of the texts, beside the verdict. */
function notesOn({ facts, wideCertificate = null }) {
  const notes = [`Model ${factsText(facts)}.`];
  const { skipped, firstWide } = facts;
  const lines = skipped.slice(0, 8).join(", ") + (skipped.length > 8 ? ", .." : "");
  if (skipped.length > 0) notes.push(`Cards of other sets are skipped: lines ${lines}.`);
  const wide = [];
  if (firstWide !== null) wide.push(`line ${firstWide} of the model`);
  if (wideCertificate !== null) wide.push(`line ${wideCertificate} of the certificate`);
  const places = wide.join(" and in ");
  if (wide.length > 0) notes.push(`Numbers have more than 127 bits, first in ${places}. ${takenBy(facts)}`);
  if (facts.rows > USUAL.rows || facts.columns > USUAL.columns) {
    notes.push("The model has more than 256 rows or 512 columns: lpd check takes it with --wide.");
  }
  return notes;
}

/** Which commands take texts with such numbers. */
function takenBy({ firstWide }) {
  return firstWide === null ? "lpd check takes them with --wide." : "lpd takes none such in a model.";
}

function title(verdict) {
  if (verdict.accepted) return "✓ Accepted";
  return verdict.refused ? "✗ Refused: nothing was checked" : "✗ Not accepted";
}

function verdictNodes(verdict) {
  const { line, reason, claim, facts } = verdict;
  const heading = [element("strong", {}, title(verdict)), " ", element("code", { id: "line" }, line)];
  const kind = (good) => `card ${good ? "good" : "bad"}`;
  const nodes = [element("div", { class: kind(verdict.accepted) }, ...heading, element("p", { id: "reason" }, reason))];
  if (claim) {
    const words = `${claim.holds ? "✓" : "✗"} ${claim.words}`;
    nodes.push(element("p", { class: kind(claim.holds), id: "claim-said" }, words));
  }
  if (facts) nodes.push(...notesOn(verdict).map((note) => element("p", { class: "quiet" }, note)));
  return nodes;
}

const FAILURES_SHOWN = 20;

function failureNodes({ found }) {
  if (!found || found.failures.length < 2) return [];
  const { failures } = found;
  const item = ({ condition, words }) => element("li", {}, `Condition ${condition}: ${words}`);
  const items = failures.slice(0, FAILURES_SHOWN).map(item);
  const more = failures.length > FAILURES_SHOWN ? `, the first ${FAILURES_SHOWN}` : "";
  return [element("h3", {}, `What fails: ${failures.length}${more}`), element("ol", {}, ...items)];
}

/** Goes to the line of a field at which a text is refused. */
function pointAt({ faultOf, faultLine }) {
  const { area } = fields[faultOf];
  const lines = area.value.split("\n");
  const start = lines.slice(0, faultLine - 1).join("\n").length + (faultLine > 1 ? 1 : 0);
  area.setSelectionRange(start, start + (lines[faultLine - 1] ?? "").length);
  area.focus();
  area.scrollTop = Math.max(0, (faultLine - 4) * area.scrollHeight / lines.length);
}

/** What can be done about a text that is refused. */
function remediesFor(verdict) {
  const { faultOf, faultLine } = verdict;
  const buttons = [];
  const { area } = fields[faultOf];
  if (!area.hidden && area.value !== "" && faultLine <= area.value.split("\n").length) {
    buttons.push(button(`Go to line ${faultLine}`, () => pointAt(verdict), { id: "go-to-line" }));
  }
  if (verdict.before) {
    const words = "Its first line is an answer of lpd: take it as the claim, and check the rest";
    buttons.push(button(words, () => takeAnswer(verdict.before), { id: "take-answer" }));
  }
  return buttons.length === 0 ? [] : [element("p", { class: "buttons" }, ...buttons)];
}

/** Takes the answer that stands in front of a certificate as the claim, and what is behind it as the certificate. */
async function takeAnswer({ answer, end }) {
  const rest = fields.certificate.content().slice(end);
  byId("claim").value = answer;
  fields.certificate.set(rest instanceof Blob && rest.size <= LONGEST_EDITED ? await bytesIn(rest) : rest);
  run();
}

function show(verdict) {
  shown = verdict;
  byId("verdict").replaceChildren(...verdictNodes(verdict));
  if (verdict.faultOf) byId("verdict").append(...remediesFor(verdict));
  byId("failures").replaceChildren(...failureNodes(verdict));
  byId("pictures").replaceChildren(...verdict.found ? picturesOf(verdict) : []);
  byId("tables").replaceChildren(...verdict.found ? tablesOf(verdict.found) : []);
  byId("report").hidden = false;
  byId("copied").textContent = "";
  byId("outcome").hidden = false;
  byId("outcome").focus();
}

function save(name, type, content) {
  const address = URL.createObjectURL(new Blob([content], { type }));
  const link = element("a", { href: address, download: name });
  link.click();
  setTimeout(() => URL.revokeObjectURL(address), 1000);
}

async function copyReport() {
  try {
    await navigator.clipboard.writeText(reportText(shown));
    byId("copied").textContent = "Copied.";
  } catch {
    byId("copied").textContent = "The browser does not let the page copy: save the text.";
  }
}

/** A model of two columns and its certificate. */
const EXAMPLE = {
  model: `NAME bakery
OBJSENSE MAX
ROWS
 N gain
 L flour
 L oven
 L cakes
COLUMNS
 bread gain 3 flour 2
 bread oven 1
 cake gain 5 flour 1
 cake oven 3 cakes 1
RHS
 RHS flour 10 oven 12
 RHS cakes 3.5
ENDATA
`,
  certificate: `OPTIMAL
x bread 3.6
x cake 2.8
y flour -0.8
y oven -1.4
END
`,
  claim: "24.8",
};

function fillExample() {
  fields.model.set(encoder.encode(EXAMPLE.model));
  fields.certificate.set(encoder.encode(EXAMPLE.certificate));
  document.querySelector("input[name=form][value=free]").checked = true;
  byId("claim").value = EXAMPLE.claim;
  run();
}

function clearAll() {
  stop();
  byId("inputs").reset();
  for (const field of Object.values(fields)) field.set(new Uint8Array());
  byId("outcome").hidden = true;
  fields.model.area.focus();
}

async function dropped(event) {
  event.preventDefault();
  for (const field of Object.values(fields)) field.box.classList.remove("over");
  const over = Object.values(fields).find((field) => field.box.contains(event.target)) ?? null;
  const files = [...event.dataTransfer.files];
  for (const file of files) await give(file, files.length === 1 ? over : null);
  const text = event.dataTransfer.getData("text/plain");
  if (files.length === 0 && text !== "") (over ?? fields.model).set(encoder.encode(text), "The dropped text");
}

function dragged(event) {
  event.preventDefault();
  for (const field of Object.values(fields)) field.box.classList.toggle("over", field.box.contains(event.target));
}

function pressed(id, act) {
  byId(id).addEventListener("click", act);
}

byId("inputs").addEventListener("submit", (event) => {
  event.preventDefault();
  run();
});
pressed("example", fillExample);
pressed("clear", clearAll);
pressed("cancel", () => take({ broken: "it was stopped" }));
pressed("save-text", () => save("report.txt", "text/plain", reportText(shown)));
pressed("save-json", () => save("report.json", "application/json", reportJson(shown)));
pressed("copy-text", copyReport);
pressed("save-model", () => save("model.mps", "text/plain", fields.model.content()));
pressed("save-certificate", () => save("certificate.txt", "text/plain", fields.certificate.content()));
document.addEventListener("dragover", dragged);
document.addEventListener("drop", dropped);
takeGiven(JSON.parse(byId("given").textContent));
