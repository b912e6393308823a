"use strict";
// The work, beside the page: texts in, a verdict out, and progress on the way.

async function digestOf(bytes) {
  if (!globalThis.crypto?.subtle) return null;
  const digest = new Uint8Array(await crypto.subtle.digest("SHA-256", bytes));
  return Array.from(digest, (byte) => byte.toString(16).padStart(2, "0")).join("");
}

async function described(bytes) {
  return bytes === null ? null : { bytes: bytes.length, sha256: await digestOf(bytes) };
}

/** The bytes of a text, of which a file is read piece by piece; null where there is none. */
async function bytesOf(text, progress) {
  if (!(text instanceof Blob)) return text;
  const bytes = new Uint8Array(text.size);
  const pieces = text.stream().getReader();
  let at = 0;
  for (let piece = await pieces.read(); !piece.done; piece = await pieces.read()) {
    bytes.set(piece.value, at);
    at += piece.value.length;
    progress(at / bytes.length);
  }
  return bytes;
}

/** How much of the work the reading of the files is. */
const OF_FILES = 0.02;

self.onmessage = async ({ data }) => {
  let told = 0;
  const progress = (stage, part) => {
    const now = Date.now();
    if (now - told < 40) return;
    told = now;
    self.postMessage({ stage, part });
  };
  try {
    const files = within(progress, 0, OF_FILES);
    const bytes = {
      model: await bytesOf(data.model, (part) => files("Reading the files", part / 2)),
      certificate: await bytesOf(data.certificate, (part) => files("Reading the files", (1 + part) / 2)),
    };
    const texts = { ...data, ...bytes };
    const verdict = verdictOn(texts, within(progress, OF_FILES, 1));
    const [model, certificate] = [await described(texts.model), await described(texts.certificate)];
    verdict.texts = { model, certificate, form: texts.fixed ? "fixed" : "free" };
    self.postMessage({ verdict });
  } catch (error) {
    self.postMessage({ broken: String(error) });
  }
};
