"use strict";
// Lines and words of a text, which is bytes (docs/FORMATS.md, "Formats"). A character stands for one byte.

const LINE_FEED = 10, CARRIAGE_RETURN = 13;
const LONGEST_LINE = 16384;
/** The most rows and columns of a model, and those where numbers may have any width, as for the commands of lpd with --wide. */
const USUAL = { rows: 256, columns: 512 }, LARGE = { rows: 65536, columns: 131072 };
/** The server reads no longer text. */
const MOST_BYTES = 2 ** 26;

/** The lines of a text one by one, each with its number, counted from 1. */
class Lines {
  constructor(bytes, start = 0) {
    this.bytes = bytes;
    this.at = start;
    this.number = 0;
  }

  /** The next line, "long" for one that is too long to be read, and null at the end. */
  next() {
    this.number += 1;
    if (this.at >= this.bytes.length) return null;
    const start = this.at;
    const feed = this.bytes.indexOf(LINE_FEED, start);
    let end = feed < 0 ? this.bytes.length : feed;
    this.at = end + 1;
    if (feed > start && this.bytes[feed - 1] === CARRIAGE_RETURN) end -= 1;
    return end - start > LONGEST_LINE ? LONG : String.fromCharCode.apply(null, this.bytes.subarray(start, end));
  }
}

/** What stands for a line whose bytes are not kept. */
const LONG = Symbol("a line of more than 16,384 bytes");

/** Words are separated by spaces and tabs, and by nothing else. */
function wordsOf(text) {
  return text.split(/[ \t]+/).filter((word) => word !== "");
}

/** A name has 1 to 64 bytes between 33 and 126. */
function isName(text) {
  return /^[!-~]{1,64}$/.test(text);
}
