"use strict";
// The text of a certificate, and how its parts are matched to a model (docs/FORMATS.md, "Certificates").

/** The letters of the parts that each kind takes. */
const LETTERS = { OPTIMAL: ["x", "y"], INFEASIBLE: ["y"], UNBOUNDED: ["x", "r"] };

/** Why the first line that does not fit does not fit. */
class Misfit extends Error {}

function fitsOnlyIf(condition, why) {
  if (!condition) throw new Misfit(why);
}

function readHead(line) {
  const words = line === null || line === LONG ? [] : wordsOf(line);
  if (words.length === 2 && words[0] === "CLASH") return { kind: "CLASH", clash: words[1] };
  const why = "a certificate begins with OPTIMAL, INFEASIBLE, UNBOUNDED, or CLASH and a column";
  fitsOnlyIf(words.length === 1 && Object.hasOwn(LETTERS, words[0]), why);
  return { kind: words[0], clash: null };
}

function readPart(line, kind, wide) {
  fitsOnlyIf(line !== null, "the certificate ends before END");
  fitsOnlyIf(line !== LONG, "the line is longer than 16,384 bytes");
  const words = wordsOf(line);
  if (words.length === 1 && words[0] === "END") return null;
  fitsOnlyIf(kind !== "CLASH", "after CLASH comes END");
  const letters = LETTERS[kind];
  const isPart = words.length === 3 && letters.includes(words[0]);
  fitsOnlyIf(isPart, `a line is ${letters.join(" or ")}, a name and a number, or END`);
  const number = readNumber(words[2]);
  fitsOnlyIf(number !== null, `${words[2]} is not a number`);
  fitsOnlyIf(number.value !== null && (wide || !number.wide), "the number is too wide");
  return { letter: words[0], name: words[1], value: number.value, wide: number.wide };
}

/** The certificate that a text spells, or its first line that does not fit. */
function readCertificate(bytes, start, wide, progress = () => {}) {
  const lines = new Lines(bytes, start);
  try {
    const { kind, clash } = readHead(lines.next());
    const parts = [];
    let firstWide = null;
    for (let part = readPart(lines.next(), kind, wide); part !== null; part = readPart(lines.next(), kind, wide)) {
      parts.push({ ...part, line: lines.number });
      progress((lines.at - start) / (bytes.length - start));
      if (part.wide) firstWide ??= lines.number;
    }
    return { certificate: { kind, clash, parts }, firstWide };
  } catch (misfit) {
    if (!(misfit instanceof Misfit)) throw misfit;
    return { misfit: { line: lines.number, words: misfit.message } };
  }
}

/** The values of a certificate in the order of the model's columns and rows, or the first name that does not fit. */
function matched(model, certificate) {
  const places = (items) => new Map(items.map((item, place) => [item.name, place]));
  const columns = places(model.columns), rows = places(model.rows);
  if (certificate.kind === "CLASH") {
    const column = columns.get(certificate.clash);
    return column === undefined ? { unknown: certificate.clash, line: 1 } : { clash: column };
  }
  const found = { x: model.columns.map(() => ZERO), y: model.rows.map(() => ZERO), r: model.columns.map(() => ZERO) };
  const seen = { x: new Set(), y: new Set(), r: new Set() };
  for (const { letter, name, value, line } of certificate.parts) {
    const place = (letter === "y" ? rows : columns).get(name);
    if (place === undefined) return { unknown: name, line };
    if (seen[letter].has(place)) return { repeated: name, line };
    seen[letter].add(place);
    found[letter][place] = value;
  }
  return found;
}
