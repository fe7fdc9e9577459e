'use strict';
// The page's own scripts in Node, for tests/page/test_page.py: node scripts.js TASK <CASES >ANSWERS, both JSON.
//
//     explain   {words, cases: [{line, folder, cert, area}]}       what the page says of a refusal, in each language
//     sums      {map, cases: [{folder}]}                           its sums by class, and its map
//     calls     {module, cases: [{call, inputs, text, cert, status}], least}   runs of the module that differ from what is wanted
//     memory    {module, inputs, pages, room}                      answers to a check with so many pages left for the heap, and in a small room

const fs = require('fs');
const path = require('path');
const vm = require('vm');

const PAGE = path.join(__dirname, '..', '..', 'page');
const NAMES = 'callOnce, CALLS, OutOfMemory, REPLY, MEMORY_PAGE, lay, refusalOf, Explained, landOf, sumsOf, drawingOf, centreOf';

/** The scripts of the worker, and that of the words; `say` and the like are of the languages that `words` has. */
function load({ words, map = {} } = {}) {
  const sources = ['module.js', 'tables.js', 'layers.js', 'refusal.js', 'worker.js', ...(words ? ['words.js'] : [])].map(name => fs.readFileSync(path.join(PAGE, name), 'utf8'));
  const document = { getElementById: () => ({ textContent: JSON.stringify(words) }), documentElement: {}, querySelectorAll: () => [] };
  const context = vm.createContext({ TextDecoder, TextEncoder, WebAssembly, document, navigator: {}, MAP: map });
  const speaking = words ? ', linesOf, setLanguage: name => { language = name; }, LANGUAGES' : '';
  return vm.runInContext(`${sources.join('\n')}\n;({ ${NAMES}${speaking} })`, context);
}

const readTables = folder => Object.fromEntries(['parcels', 'covers', 'classes'].map(name => [name, bytesOf(path.join(folder, `${name}.csv`))]));
const bytesOf = name => (fs.existsSync(name) ? new Uint8Array(fs.readFileSync(name)) : new Uint8Array());

function explain({ words, cases }) {
  const page = load({ words });
  return cases.map(({ line, folder, cert, area }) => {
    const files = readTables(folder), names = Object.fromEntries(Object.keys(files).map(name => [name, path.join(folder, `${name}.csv`)]));
    if (cert) [files.cert, names.cert] = [bytesOf(cert), cert];
    if (area) [files.area, names.area] = [bytesOf(area), area];
    const { sentences } = new page.Explained(page.refusalOf(line), files, names);
    return Object.fromEntries(Object.keys(page.LANGUAGES).map(name => {
      page.setLanguage(name);
      return [name, page.linesOf(sentences)];
    }));
  });
}

function sums({ map, cases }) {
  const page = load({ map });
  return cases.map(({ folder }) => {
    const land = page.landOf(readTables(folder));
    return { sums: page.sumsOf(land), drawing: page.drawingOf(land, [], null, '') };
  });
}

function calls({ module, cases }) {
  const page = load(), compiled = new WebAssembly.Module(fs.readFileSync(module)), differ = [];
  for (const { name, call, inputs, text, cert, status } of cases) {
    const answer = page.CALLS[call](compiled, ...inputs.map(bytesOf));
    const texts = call === 'cut' ? [bytesOf(cert), bytesOf(text)] : [bytesOf(text)];
    const isSame = answer.isAnswered && answer.status === status && texts.every((wanted, number) => Buffer.compare(Buffer.from(answer.texts[number]), Buffer.from(wanted)) === 0);
    if (!isSame) differ.push(`${name}: ${answer.isAnswered} ${answer.status} ${Buffer.from(answer.texts.at(-1) ?? []).toString('latin1').slice(0, 100)}`);
  }
  return { compared: cases.length, differ };
}

/** Answers where all but so many pages of the memory are taken, and of a call with a room that is too small. */
function memory({ module, inputs, pages, room }) {
  const page = load(), compiled = new WebAssembly.Module(fs.readFileSync(module)), files = inputs.map(bytesOf);
  const few = pages.map(left => {
    const { exports } = new WebAssembly.Instance(compiled, {});
    const laid = page.lay(exports.memory, files, [1 << 20]), taken = 65536 - exports.memory.buffer.byteLength / page.MEMORY_PAGE - left;
    exports.memory.grow(taken);
    const isAnswered = Boolean(exports.lpis_check(...laid.words)), reply = new DataView(exports.memory.buffer, laid.start);
    return { isAnswered, status: reply.getUint8(page.REPLY.status), length: Number(reply.getBigUint64(0, true)) };
  });
  const { isAnswered, lengths } = page.callOnce(compiled, 'lpis_check', files, [room]);
  const whole = page.CALLS.check(compiled, ...files);
  return { few, small: { isAnswered, length: lengths[0] }, whole: { isAnswered: whole.isAnswered, length: whole.texts[0].length } };
}

const TASKS = { explain, sums, calls, memory };
process.stdout.write(JSON.stringify(TASKS[process.argv[2]](JSON.parse(fs.readFileSync(0, 'utf8')))));
