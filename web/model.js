"use strict";
// The text of a model: one model, or a first wrong line with one fault (docs/FORMATS.md, "Texts of models").

const MARKER = "'MARKER'";
const SENSES = { MIN: false, MINIMIZE: false, MAX: true, MAXIMIZE: true };

const FAULTS = {
  1: "this section may not come here",
  2: "there is no such section",
  3: "the card does not have the shape that its section asks for",
  4: "a row is of type N, L, G or E",
  5: "a row before has this name",
  6: "no row has this name",
  7: "this column came before, and the cards of a column are adjacent",
  8: "the row has such a number already",
  9: "this is not a number",
  10: "the number is too wide",
  11: "there is no such kind of bound, or it does not take an infinite value",
  12: "the columns are integer ones, which are not taken",
  13: "the column is semi-continuous, which is not taken",
  14: "no column has this name",
  15: "there is no objective: no row of type N",
  16: "there are too many rows or columns, or the line is longer than 16,384 bytes",
  17: "this is not a name: 1 to 64 bytes between ! and ~",
  18: "the objective takes no range",
  19: "the text ends before ENDATA",
};

/** Why a line is wrong: the fault's number, and what of the line is meant. */
class Fault extends Error {
  constructor(code, item = "") {
    super(FAULTS[code]);
    this.code = code;
    this.item = item;
  }
}

function wrongUnless(condition, code, item) {
  if (!condition) throw new Fault(code, item);
}

/** The fields of a card in fixed form, from the first to the sixth; "" is an absent one. */
const FIELDS = [[2, 3], [5, 12], [15, 22], [25, 36], [40, 47], [50, 61]];
const BETWEEN = [1, 4, 13, 14, 23, 24, 37, 38, 39, 48, 49, 62];

function fieldsOf(line) {
  wrongUnless(!line.slice(0, 62).includes("\t"), 3, "a tab");
  for (const column of BETWEEN) wrongUnless((line[column - 1] ?? " ") === " ", 3, `column ${column}`);
  return FIELDS.map(([first, last]) => line.slice(first - 1, last).replace(/^ +| +$/g, ""));
}

/** Which sections may follow, and once only. */
const AFTER = {
  "": ["NAME", "OBJSENSE", "ROWS"], NAME: ["OBJSENSE", "ROWS"], OBJSENSE: ["NAME", "ROWS"], ROWS: ["COLUMNS"],
  COLUMNS: ["RHS", "RANGES", "BOUNDS", "ENDATA"], RHS: ["RANGES", "BOUNDS", "ENDATA"],
  RANGES: ["RHS", "BOUNDS", "ENDATA"], BOUNDS: ["RHS", "RANGES", "ENDATA"],
};
const SECTIONS = [...Object.keys(AFTER).slice(1), "ENDATA"];

/** Which infinite value a kind of bound takes; FX takes none. */
const INFINITE_FOR = { UP: 1, LO: -1 };

/** Reads the cards of one text, in the order of its lines. */
class ModelReader {
  constructor(fixed, wide) {
    this.fixed = fixed;
    this.wide = wide;
    this.most = wide ? LARGE : USUAL;
    this.line = 0;
    this.section = "";
    this.seen = new Set();
    this.model = { name: "", maximize: null, objective: null, offset: ZERO, rows: [], columns: [] };
    /** By name: a row's place, or -1 for the objective. */
    this.rows = new Map();
    this.columns = new Map();
    /** Of each section with sets the set that is used. */
    this.sets = {};
    /** Of each section the rows that have a number there; of COLUMNS those of the last column. */
    this.given = { RHS: new Set(), RANGES: new Set() };
    this.lowered = new Set();
    this.skipped = [];
    this.firstWide = null;
  }

  /** Takes a line, and says whether it was the last one. */
  take(line, number) {
    this.line = number;
    wrongUnless(line !== null, 19);
    wrongUnless(line !== LONG, 16, "the line");
    if (/^[ \t]*\r?$/.test(line) || line[0] === "*") return false;
    if (line[0] !== " " && line[0] !== "\t") return this.takeSection(wordsOf(line));
    this.takeData(line);
    return false;
  }

  takeSection([word, second]) {
    wrongUnless(SECTIONS.includes(word), 2, word);
    wrongUnless(AFTER[this.section].includes(word) && !this.seen.has(word), 1, word);
    wrongUnless(word !== "COLUMNS" || this.model.objective !== null, 15);
    this.section = word;
    this.seen.add(word);
    if (word === "NAME" && second !== undefined) {
      wrongUnless(isName(second), 17, second);
      this.model.name = second;
    }
    if (word === "OBJSENSE" && second !== undefined) this.takeSense([second]);
    return word === "ENDATA";
  }

  takeSense(words) {
    wrongUnless(words.length === 1 && Object.hasOwn(SENSES, words[0]) && this.model.maximize === null, 3, words[0]);
    this.model.maximize = SENSES[words[0]];
  }

  takeData(line) {
    if (this.section === "OBJSENSE") return this.takeSense(wordsOf(line));
    const words = this.fixed ? fieldsOf(line) : wordsOf(line);
    if (this.section === "ROWS") return this.takeRow(words);
    if (this.section === "COLUMNS") return this.takeColumn(words);
    if (this.section === "RHS" || this.section === "RANGES") return this.takeRowNumbers(words);
    if (this.section === "BOUNDS") return this.takeBound(words);
    throw new Fault(3, "no section takes this card");
  }

  /** What a card has of the fields that its section takes, first the needed ones: in free form all of its words, whose
   * number has to be that of the needed ones, or of all. */
  shaped(words, needed, optional) {
    if (!this.fixed) {
      const short = needed.length, long = short + optional.length;
      wrongUnless(words.length === short || words.length === long, 3);
      return words;
    }
    const present = (field) => words[field - 1] !== "";
    wrongUnless(needed.every(present), 3);
    const more = optional.filter(present);
    wrongUnless(more.length === 0 || more.length === optional.length, 3);
    const taken = [...needed, ...more];
    wrongUnless(words.every((word, place) => word === "" || taken.includes(place + 1)), 3);
    return taken.map((field) => words[field - 1]);
  }

  takeRow(words) {
    const [type, name] = this.shaped(words, [1, 2], []);
    wrongUnless([FREE, "L", "G", "E"].includes(type), 4, type);
    wrongUnless(isName(name) && name !== MARKER, 17, name);
    wrongUnless(!this.rows.has(name), 5, name);
    const { rows } = this.model;
    if (type === FREE && this.model.objective === null) {
      this.model.objective = name;
      this.rows.set(name, OBJECTIVE);
      return;
    }
    wrongUnless(rows.length < this.most.rows, 16, name);
    this.rows.set(name, rows.length);
    rows.push({ name, type, side: ZERO, range: null, entries: [], line: this.line });
  }

  takeColumn(words) {
    wrongUnless(words[this.fixed ? 2 : 1] !== MARKER, 12);
    const [name, ...pairs] = this.shaped(words, [2, 3, 4], [5, 6]);
    wrongUnless(isName(name), 17, name);
    const { columns } = this.model;
    if (columns.length === 0 || columns[columns.length - 1].name !== name) {
      wrongUnless(!this.columns.has(name), 7, name);
      wrongUnless(columns.length < this.most.columns, 16, name);
      this.columns.set(name, columns.length);
      columns.push({ name, cost: ZERO, lower: ZERO, upper: null, line: this.line });
      this.given.COLUMNS = new Set();
    }
    this.takePairs(pairs, (row, value) => {
      if (row === OBJECTIVE) columns[columns.length - 1].cost = value;
      else if (value.n !== 0n) this.model.rows[row].entries.push([columns.length - 1, value]);
    });
  }

  takeRowNumbers(words) {
    const pairs = this.ofSet(this.withoutSet(words));
    if (pairs === null) return;
    this.takePairs(pairs, (row, value) => {
      if (this.section === "RANGES") this.model.rows[row].range = value;
      else if (row === OBJECTIVE) this.model.offset = negative(value);
      else this.model.rows[row].side = value;
    });
  }

  /** The set of a card of RHS or RANGES, null for none, and its pairs. */
  withoutSet(words) {
    if (this.fixed) {
      const pairs = this.shaped(words.with(1, ""), [3, 4], [5, 6]);
      return { set: words[1] === "" ? null : words[1], rest: pairs };
    }
    wrongUnless(words.length >= 2 && words.length <= 5, 3);
    const hasSet = words.length % 2 === 1;
    return { set: hasSet ? words[0] : null, rest: words.slice(hasSet ? 1 : 0) };
  }

  /** The rest of a card, null if it is of another set than the section's first card. */
  ofSet({ set, rest }) {
    if (!Object.hasOwn(this.sets, this.section)) this.sets[this.section] = set;
    if (this.sets[this.section] === set) return rest;
    this.skipped.push(this.line);
    return null;
  }

  takePairs(words, put) {
    for (let at = 0; at < words.length; at += 2) {
      const row = this.rows.get(words[at]);
      wrongUnless(row !== undefined, 6, words[at]);
      wrongUnless(row !== OBJECTIVE || this.section !== "RANGES", 18, words[at]);
      const { value } = this.numberOf(readNumber(words[at + 1]), words[at + 1]);
      if (this.section === "RANGES" && this.model.rows[row].type === FREE) continue;
      const given = this.given[this.section];
      wrongUnless(!given.has(row), 8, words[at]);
      given.add(row);
      put(row, value);
    }
  }

  /** A number that was read, if it is one and may be as wide as it is. */
  numberOf(number, word) {
    wrongUnless(number !== null, 9, word);
    if (number.wide) {
      wrongUnless(this.wide && number.value !== null, 10, word);
      this.firstWide ??= this.line;
    }
    return number;
  }

  takeBound(words) {
    const kind = words[0];
    wrongUnless(!["BV", "LI", "UI"].includes(kind), 12, kind);
    wrongUnless(kind !== "SC", 13, kind);
    wrongUnless(["UP", "LO", "FX", "FR", "MI", "PL"].includes(kind), 11, kind);
    const valued = ["UP", "LO", "FX"].includes(kind);
    const rest = this.ofSet(this.boundWithoutSet(words, valued));
    if (rest === null) return;
    const [name, word] = rest;
    wrongUnless(this.columns.has(name), 14, name);
    const column = this.model.columns[this.columns.get(name)];
    if (!valued) return this.removeBounds(kind, column);
    const number = this.numberOf(readBound(word), word);
    wrongUnless(number.infinite === undefined || number.infinite === INFINITE_FOR[kind], 11, word);
    this.setBounds(kind, column, number.value ?? null);
  }

  boundWithoutSet(words, valued) {
    if (this.fixed) {
      const fields = words.with(1, "");
      const rest = this.shaped(valued ? fields : fields.with(3, ""), valued ? [1, 3, 4] : [1, 3], []);
      return { set: words[1] === "" ? null : words[1], rest: rest.slice(1) };
    }
    const length = valued ? 3 : 2;
    wrongUnless(words.length === length || words.length === length + 1, 3);
    return { set: words.length > length ? words[1] : null, rest: words.slice(words.length - length + 1) };
  }

  removeBounds(kind, column) {
    if (kind !== "PL") {
      column.lower = null;
      this.lowered.add(column);
    }
    if (kind !== "MI") column.upper = null;
  }

  /** The value null is an infinite one. */
  setBounds(kind, column, value) {
    if (kind !== "UP") {
      column.lower = value;
      this.lowered.add(column);
    }
    if (kind !== "LO") column.upper = value;
    if (kind === "UP" && value !== null && value.n < 0n && !this.lowered.has(column)) column.lower = null;
  }
}

const OBJECTIVE = -1;
/** The type of the objective, and of a row without limits. */
const FREE = "N";

/** The model that a text spells, with the place behind its ENDATA, or its fault. */
function readModel(bytes, fixed, wide, progress = () => {}) {
  const lines = new Lines(bytes);
  const reader = new ModelReader(fixed, wide);
  try {
    while (!reader.take(lines.next(), lines.number)) {
      if (lines.number % 20000 === 0) progress(lines.at / bytes.length);
    }
  } catch (fault) {
    if (!(fault instanceof Fault)) throw fault;
    return { fault: { line: lines.number, code: fault.code, words: fault.message, item: fault.item } };
  }
  const { model, skipped, firstWide } = reader;
  model.maximize ??= false;
  return { model, end: Math.min(lines.at, bytes.length), skipped, firstWide };
}

/** What a row's sum lies between; null is no limit. */
function limitsOf(row) {
  const { type, side, range } = row;
  if (type === FREE) return { lower: null, upper: null };
  if (range === null) return { lower: type === "L" ? null : side, upper: type === "G" ? null : side };
  const width = range.n < 0n ? negative(range) : range;
  if (type === "L") return { lower: minus(side, width), upper: side };
  if (type === "G") return { lower: side, upper: plus(side, width) };
  return range.n < 0n ? { lower: minus(side, width), upper: side } : { lower: side, upper: plus(side, width) };
}
