"use strict";
// From the two texts to the verdict, with its line as `lpd check` has it and its reason as a sentence.

/** What an accepted certificate of each kind shows. */
const SHOWN = { OPTIMAL: "OPTIMAL", INFEASIBLE: "INFEASIBLE", UNBOUNDED: "UNBOUNDED", CLASH: "INFEASIBLE" };

function refused(line, reason, at) {
  return { line, accepted: false, refused: true, reason, ...at };
}

function tooLong(which) {
  const reason = `The text of the ${which} has more than 2^26 bytes: the server reads no more, nor does this page.`;
  return refused("", reason, { faultOf: which });
}

/** A fault of the model's text; where the other form has none, that is said. */
function faulty({ line, code, words, item }, { model, fixed, wide }) {
  const quoted = item === "" ? "" : ` (${item.slice(0, 80)})`;
  const other = readModel(model, !fixed, wide);
  const hint = other.fault ? "" : ` In ${fixed ? "free" : "fixed"} form the text has no fault.`;
  const reason = `Line ${line} of the model is wrong: ${words}${quoted}.${hint}`;
  return refused(`ERR 8 MPS ${line} M${code}`, reason, { faultOf: "model", faultLine: line });
}

/** The first line of a text where that is an answer of lpd solve, with the certificate behind it, and where it ends. */
function answerLine(bytes) {
  const lines = new Lines(bytes);
  const first = lines.next(), end = lines.at, second = lines.next();
  if (typeof first !== "string" || typeof second !== "string") return null;
  const isAnswer = /^(OPTIMAL\s+\S+|INFEASIBLE|UNBOUNDED)\s*$/.test(first);
  return isAnswer && /^(OPTIMAL|INFEASIBLE|UNBOUNDED|CLASH\s+\S+)\s*$/.test(second) ? { answer: first.trim(), end } : null;
}

function misfitting({ line, words }, certificate) {
  const at = { faultOf: "certificate", faultLine: line, before: certificate && answerLine(certificate) };
  return refused(`ERR 14 CERT ${line}`, `Line ${line} of the certificate does not fit: ${words}.`, at);
}

function mismatched({ unknown, repeated, line }) {
  const at = { faultOf: "certificate", faultLine: line };
  const names = `Line ${line} of the certificate names`;
  if (repeated !== undefined) return refused(`ERR 12 REPEATED ${repeated}`, `${names} ${repeated} once more.`, at);
  return refused(`ERR 5 NAME ${unknown}`, `${names} ${unknown}, which the model does not have.`, at);
}

/** Why an accepted certificate shows what it shows. */
function reasonOf(model, found) {
  const { kind, value, required, allowed, change, clash } = found;
  if (kind === "OPTIMAL") {
    const better = model.maximize ? "greater" : "smaller";
    const feasible = `The point is feasible, and its value is ${told(value)}`;
    return `${feasible}; the multipliers show that no feasible point has a ${better} one.`;
  }
  if (kind === "INFEASIBLE") {
    const rows = `the rows, each times its multiplier, require at least ${told(required)}`;
    return `No point is feasible: ${rows}, and the bounds of the columns allow at most ${told(allowed)}.`;
  }
  if (kind === "UNBOUNDED") {
    const feasible = "The point is feasible, and so are all points from it along the ray";
    return `${feasible}; each step along it changes the objective by ${told(change)}.`;
  }
  const { lower, upper } = found.columns.find(({ name }) => name === clash);
  return `No point is feasible: column ${clash} has to be at least ${told(lower)} and at most ${told(upper)}.`;
}

/** What a claim says: the kind of answer, and the value of an optimal one. Null where it says neither. */
function readClaim(text) {
  const words = text.split(/\s+/).filter((word) => word !== "");
  if (words[0] === "YES") words.shift();
  if (words.length === 1 && (words[0] === "INFEASIBLE" || words[0] === "UNBOUNDED")) return { kind: words[0] };
  if (words[0] === "OPTIMAL") words.shift();
  const number = words.length === 1 ? readNumber(words[0]) : null;
  if (!number?.value) return null;
  return { kind: "OPTIMAL", value: number.value, places: /[.]([0-9]*)$/.exec(words[0])?.[1].length ?? 0 };
}

/** Whether a number is another one rounded to so many places. */
function roundsTo(value, claimed, places) {
  const off = minus(value, claimed);
  return compare(off.n < 0n ? negative(off) : off, { n: 1n, d: 2n * 10n ** BigInt(places) }) <= 0;
}

/** Whether the certificate shows what is claimed. */
function judgeClaim(text, found) {
  const claim = readClaim(text);
  const shown = SHOWN[found.kind];
  const differs = (words) => ({ holds: false, words });
  if (claim === null) return differs("The claim is neither a value nor INFEASIBLE or UNBOUNDED.");
  if (found.failures.length > 0) return differs("The certificate is not accepted, so it does not show the claim.");
  if (claim.kind !== shown) return differs(`The claim is ${claim.kind}, and the certificate shows ${shown}.`);
  if (claim.kind !== "OPTIMAL") return { holds: true, words: "The certificate shows what is claimed." };
  const off = minus(claim.value, found.value);
  if (off.n === 0n) return { holds: true, words: "The certificate shows the claimed value." };
  const rounded = roundsTo(found.value, claim.value, claim.places) ? " It is the value, rounded." : "";
  return differs(`The claimed value is ${told(claim.value)}, which is off by ${told(off)}.${rounded}`);
}

function factsOf(model, { skipped, firstWide }) {
  const { name, objective, maximize, offset, rows, columns } = model;
  const entries = rows.reduce((count, row) => count + row.entries.length, 0);
  return { name, objective, maximize, offset, rows: rows.length, columns: columns.length, entries, skipped, firstWide };
}

/** The entries of a model of two columns, for a picture of its region. */
function planeOf(model) {
  if (model.columns.length !== 2) return null;
  const entry = (row, column) => row.entries.find(([place]) => place === column)?.[1] ?? ZERO;
  return model.rows.map((row) => [entry(row, 0), entry(row, 1)]);
}

/** How much of the work the reading of the texts is. */
const OF_READING = 0.45;

/** The verdict on a model, a certificate and a claim ("" for none). The bytes of the certificate may be null: then it
 * is what comes after ENDATA in the model's text. */
function verdictOn(texts, progress = () => {}) {
  const { model: bytes, certificate, fixed, wide, claim } = texts;
  if (bytes.length > MOST_BYTES) return tooLong("model");
  if (certificate !== null && certificate.length > MOST_BYTES) return tooLong("certificate");
  const ofModel = OF_READING * bytes.length / (bytes.length + (certificate?.length ?? 0));
  const read = readModel(bytes, fixed, wide, (part) => progress("Reading the model", part * ofModel));
  if (read.fault) return faulty(read.fault, texts);
  const facts = factsOf(read.model, read);
  const start = certificate === null ? read.end : 0;
  const ofCertificate = within(progress, ofModel, OF_READING);
  const text = readCertificate(certificate ?? bytes, start, wide, (part) => ofCertificate("Reading the certificate", part));
  if (text.misfit) return { ...misfitting(text.misfit, certificate), facts };
  const values = matched(read.model, text.certificate);
  if (values.line !== undefined) return { ...mismatched(values), facts };
  const found = check(read.model, text.certificate.kind, values, within(progress, OF_READING, 1));
  const more = { facts, wideCertificate: text.firstWide, plane: planeOf(read.model), found };
  return { ...decided(read.model, found, claim), ...more };
}

function decided(model, found, claim) {
  const accepted = found.failures.length === 0;
  const value = found.kind === "OPTIMAL" ? ` ${written(found.value)}` : "";
  return {
    line: accepted ? `YES ${SHOWN[found.kind]}${value}` : `NO ${found.failures[0].condition}`,
    accepted,
    refused: false,
    reason: accepted ? reasonOf(model, found) : found.failures[0].words,
    claim: claim === "" ? null : judgeClaim(claim, found),
  };
}
