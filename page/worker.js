'use strict';
// Reads the files and calls the module, so that the page stays alive. A message has a task of these and its words; the answer has `task` too, and
// `error` where there is no answer: 'memory', or what went wrong.

let checker = null;

const bytesOf = async file => new Uint8Array(await file.arrayBuffer());

async function digestOf(bytes) {
  if (!globalThis.crypto?.subtle) return '';
  const digest = new Uint8Array(await crypto.subtle.digest('SHA-256', bytes));
  return Array.from(digest, byte => byte.toString(16).padStart(2, '0')).join('');
}

/** The bytes of the files that are there, by their kinds. */
async function readFiles(files) {
  const read = {};
  for (const [kind, file] of Object.entries(files)) read[kind] = await bytesOf(file);
  return read;
}

function centreOf(refusal) {
  if (!refusal?.place) return null;
  const [x, y, d] = refusal.place.map(Number);
  return [x / d, y / d];
}

/** Text, status, what is said of a refusal, digests of the files. */
async function toldOf(answer, files, read) {
  const line = textOf(answer.texts.at(-1)), refusal = answer.status ? refusalOf(line) : null;
  const names = Object.fromEntries(Object.entries(files).map(([kind, file]) => [kind, file.name]));
  const explained = refusal && new Explained(refusal, read, names);
  const digests = {};
  for (const [kind, bytes] of Object.entries(read)) digests[kind] = await digestOf(bytes);
  return { status: answer.status, text: line, sentences: explained?.sentences ?? [], focus: explained?.focus ?? [], refusal, digests, memory: answer.memory };
}

/** The answer to three tables, by the certificate that is there, or by one that is made and let go. */
function checked({ parcels, covers, classes, cert }) {
  if (cert) return CALLS.check(checker, parcels, covers, classes, cert);
  const made = CALLS.cut(checker, parcels, covers, classes);
  return made.isAnswered && made.status === 0 ? CALLS.check(checker, parcels, covers, classes, made.texts[0]) : made;
}

const TASKS = {
  async begin({ module }) {
    checker = await WebAssembly.compile(module);
    return { digest: await digestOf(module) };
  },

  async digest({ text }) {
    return { digest: await digestOf(new TextEncoder().encode(text)) };
  },

  async digestFile({ file }) {
    return { digest: await digestOf(await bytesOf(file)) };
  },

  async check({ files }) {
    const read = await readFiles(files), began = performance.now();
    const answer = checked(read);
    const seconds = (performance.now() - began) / 1000;
    return answer.isAnswered ? { ...(await toldOf(answer, files, read)), seconds } : { error: 'memory' };
  },

  async cut({ files }) {
    const read = await readFiles(files), began = performance.now();
    const answer = CALLS.cut(checker, read.parcels, read.covers, read.classes);
    const seconds = (performance.now() - began) / 1000;
    if (!answer.isAnswered) return { error: 'memory' };
    const cert = answer.texts[0].length ? new Blob([answer.texts[0]]) : null;
    return { ...(await toldOf(answer, files, read)), cert, seconds };
  },

  /** The areas of one table of polygons, and what its rows begin with. */
  async area({ files }) {
    const read = await readFiles(files), began = performance.now();
    const answer = CALLS.area(checker, read.area);
    const seconds = (performance.now() - began) / 1000;
    return answer.isAnswered ? { ...(await toldOf(answer, files, read)), rows: namesOf(new Table(read.area)), seconds } : { error: 'memory' };
  },

  /** The map and the sums, of which nothing is part of the answer. */
  async draw({ files, focus, refusal, line }) {
    const land = landOf(await readFiles(files));
    const counts = new Map();
    for (const piece of land.pieces) counts.set(piece.parcel, (counts.get(piece.parcel) ?? 0) + 1);
    return { drawing: drawingOf(land, focus, centreOf(refusal), line), sums: sumsOf(land), pieces: land.parcels.map(({ name }) => [name, counts.get(name) ?? 0]) };
  },
};

onmessage = async ({ data }) => {
  try {
    postMessage({ task: data.task, ...(await TASKS[data.task](data)) });
  } catch (error) {
    const isMemory = error instanceof OutOfMemory || error instanceof RangeError;
    postMessage({ task: data.task, error: isMemory ? 'memory' : String(error) });
  }
};
