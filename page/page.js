'use strict';
// What the page does: takes files, asks the worker, shows what it answers.

const KINDS = ['parcels', 'covers', 'classes', 'cert'];
const WANTED = KINDS.slice(0, 3); // a certificate is made where none is there
const FACTS = JSON.parse($('facts').textContent);
const EXAMPLES = JSON.parse($('examples').textContent);
const files = {};
const known = { program: FACTS.program, module: '', page: '' }; // sha256s; of module and page those of what runs here
let shown = null; // the last result, so that it can be shown in another language
let tables = [];
let passed = []; // what was dropped last and is of no kind, in words

// The worker does one task after another.
const worker = new Worker(URL.createObjectURL(new Blob([$('work').textContent], { type: 'text/javascript' })));
let last = Promise.resolve();

function ask(task, words, transfer = []) {
  const answer = last.then(() => new Promise(done => {
    worker.onmessage = ({ data }) => done(data);
    worker.onerror = event => done({ task, error: event.message || 'worker' });
    worker.postMessage({ task, ...words }, transfer);
  }));
  last = answer;
  return answer;
}

// Files.

function kindOf(name, start) {
  const table = WANTED.find(kind => new RegExp(`${kind}[^/]*\\.csv$`, 'i').test(name));
  if (table || /\.csv$/i.test(name)) return table ?? '';
  if (/\.html?$/i.test(name)) return 'page';
  return start.startsWith('lpis-cert') || /cert|\.txt$/i.test(name) ? 'cert' : '';
}

const PACKAGES = ['GPKG', 'GP10', 'GP11']; // what a GeoPackage has at byte 68
const MOST_PASSED = 5; // files of no kind that are told

/** What a file of no kind is: a key of the words, and their values. */
async function strangerOf(file) {
  const name = file.webkitRelativePath || file.name, bytes = new Uint8Array(await file.slice(0, 4096).arrayBuffer());
  const text = new TextDecoder('latin1').decode(bytes), [first] = text.split(/\r?\n/);
  if (text.startsWith('SQLite format 3') && PACKAGES.includes(text.slice(68, 72))) return ['is package', { name }];
  if (/\.(csv|txt|tsv)$/i.test(name) && /[,;\t]/.test(first)) return ['is table', { name, columns: new TextDecoder().decode(bytes).split(/\r?\n/)[0].split(/[,;\t]/).join(', ') }];
  return ['is other', { name }];
}

const FOLDERS = 3; // how deep folders are looked into

async function filesOfHandle(handle, depth = FOLDERS) {
  if (handle.kind === 'file') return [await handle.getFile()];
  const found = [];
  if (depth) for await (const one of handle.values()) found.push(...(await filesOfHandle(one, depth - 1)));
  return found;
}

async function filesOfEntry(entry, depth = FOLDERS) {
  if (entry.isFile) return [await new Promise((done, failed) => entry.file(done, failed))];
  const reader = entry.createReader(), found = [];
  for (let part = [0]; depth && part.length;) {
    part = await new Promise((done, failed) => reader.readEntries(done, failed));
    for (const one of part) if (one) found.push(...(await filesOfEntry(one, depth - 1)));
  }
  return found;
}

/** The files of what was dropped. A page that lies in a file gets those of a folder by a handle in one browser, and by an entry in another. */
function filesOfItem(item) {
  const entry = item.webkitGetAsEntry?.();
  if (!entry?.isDirectory) return [item.getAsFile()].filter(file => file);
  return item.getAsFileSystemHandle ? item.getAsFileSystemHandle().then(handle => filesOfHandle(handle)) : filesOfEntry(entry);
}

async function addDropped(transfer) {
  try {
    await add((await Promise.all([...transfer.items].map(filesOfItem))).flat());
  } catch (error) {
    showWords('no', 'no folder', { error: String(error) });
  }
}

async function sorted(list) {
  const found = {}, others = [];
  for (const file of list) {
    const kind = kindOf(file.name, await file.slice(0, 16).text());
    if (kind) (found[kind] ??= []).push(file);
    else others.push(file);
  }
  return [found, others];
}

/** Says what the files are that are of no kind. */
async function tellPassed(others) {
  passed = await Promise.all(others.slice(0, MOST_PASSED).map(strangerOf));
  if (others.length > MOST_PASSED) passed.push(['more passed', { count: others.length - MOST_PASSED }]);
}

async function add(list) {
  const [found, others] = await sorted(list);
  await tellPassed(others);
  const doubled = Object.entries(found).find(([kind, all]) => all.length > 1 && kind !== 'page');
  if (doubled) {
    showFiles();
    showWords('no', 'several', { names: doubled[1].map(file => file.webkitRelativePath || file.name).join(', ') });
    return;
  }
  if (KINDS.some(kind => found[kind])) forget();
  if (WANTED.every(kind => found[kind])) delete files.cert; // it was of the tables before
  if (found.page) await showDigestOf(found.page[0]);
  for (const kind of KINDS) if (found[kind]) files[kind] = found[kind][0];
  showFiles();
  if (WANTED.every(kind => files[kind]) && KINDS.some(kind => found[kind])) await check();
}

/** An answer to other files is shown no more; a certificate that was made of them is gone, and so are an example's tables. */
function forget() {
  for (const kind of KINDS) if (files[kind]?.isMadeHere || files[kind]?.isExample) delete files[kind];
  shown = null;
  render();
}

/** Puts a small release in place of all files that are there, and tries it. */
async function tryExample(name) {
  for (const kind of KINDS) delete files[kind];
  passed = [];
  forget();
  for (const [kind, text] of Object.entries(EXAMPLES[name])) {
    files[kind] = new File([text], `${kind}.csv`);
    files[kind].isExample = true;
  }
  showFiles();
  await check();
}

/** What is said of a file, or that it is missing. */
function wordsOf(file, kind) {
  if (!file) return say(WANTED.includes(kind) ? 'missing' : 'not needed');
  if (file.isMadeHere) return say('made here', { bytes: file.size });
  return `${file.isExample ? say('of example', { name: file.name }) : file.name}, ${say('bytes', { bytes: file.size })}`;
}

function showFiles() {
  $('have').replaceChildren(...KINDS.map(kind => {
    const file = files[kind];
    return element('li', `${say(`file ${kind}`)}: ${wordsOf(file, kind)}`, file ? 'there' : '');
  }));
  $('passed').replaceChildren(...passed.map(([key, values]) => element('li', say(key, values))));
  $('check').disabled = $('cut').disabled = !WANTED.every(kind => files[kind]);
  $('save-cert').hidden = !files.cert?.isMadeHere;
}

// Results.

function showWords(kind, key, values = {}) {
  shown = { kind, key, values, sentences: [], result: null, isBusy: kind === 'busy' };
  render();
}

const VERDICTS = {
  area: ['areas told', 'unreadable', 'unreadable'],
  check: ['yes', 'refused', 'unreadable'],
  'check by cert': ['yes by cert', 'refused by cert', 'unreadable'],
  cut: ['cut', 'not cut', 'unreadable'],
};

function verdictOf(result, task, isByCert) {
  if (result.error) return ['no', result.error === 'memory' ? 'no memory' : 'no answer', { error: result.error }];
  const line = result.status === 0 && task !== 'cut' ? '' : result.text.trim();
  return [result.status ? 'no' : task === 'check' ? 'yes' : 'plain', VERDICTS[isByCert ? 'check by cert' : task][result.status] ?? 'no answer', { line, error: `status ${result.status}` }];
}

async function run(task, wanted) {
  showWords('busy', `busy ${task}`);
  const waiting = shown;
  const result = await ask(task, { files: wanted });
  if (shown !== waiting) return {}; // other files came meanwhile
  const [kind, key, values] = verdictOf(result, task, Boolean(wanted.cert)), isBusy = !result.error && task !== 'area' && (task === 'check' || result.status > 0);
  shown = { kind, key, values, sentences: result.sentences ?? [], result: result.error ? null : result, names: wanted, isReport: task === 'check' && result.status === 0, isBusy };
  render();
  if (isBusy) await draw(shown, wanted);
  return result;
}

const filesOf = kinds => Object.fromEntries(kinds.filter(kind => files[kind]).map(kind => [kind, files[kind]]));

async function check() {
  return run('check', filesOf(KINDS));
}

/** The areas of a table of its own, which is none of the release's files. */
async function area(file) {
  return run('area', { area: file });
}

/** Makes a certificate that can be saved, for whoever it is handed over to, and checks the release by it. */
async function cut() {
  const result = await run('cut', filesOf(WANTED));
  if (!result.cert) return;
  files.cert = new File([result.cert], 'release.cert');
  files.cert.isMadeHere = true;
  showFiles();
  await check();
}

async function draw(mine, { parcels, covers, classes }) {
  const { result } = mine;
  const drawn = await ask('draw', { files: { parcels, covers, classes }, focus: result.focus, refusal: result.refusal, line: result.text.slice(0, 200).trim() });
  mine.drawn = drawn.error ? null : drawn;
  mine.drawError = drawn.error;
  mine.isBusy = false;
  if (shown === mine) render();
}

/** The parcels of a report, and its sums. */
function reportOf(text) {
  const parcels = new Map();
  let sums = null;
  for (const line of text.split('\n')) {
    const words = line.split(' ');
    if (words[0] === 'parcel') parcels.set(words[1], [words[3], words[5]]);
    else if (words[0] === 'total') sums = { area: words[2], eligible: words[4] };
  }
  return { parcels, sums };
}

function renderTables({ drawn, result, isReport }) {
  const report = isReport ? reportOf(result.text) : { parcels: new Map(), sums: null };
  const { sums } = drawn;
  showMap(drawn.drawing);
  const isWrong = report.sums && (report.sums.area !== sums.area || report.sums.eligible !== sums.eligible);
  $('wrong').textContent = isWrong ? say('sums differ', { report: `${report.sums.area} ${report.sums.eligible}`, tables: `${sums.area} ${sums.eligible}` }) : '';
  $('totals').textContent = say('totals', sums);
  const rows = drawn.pieces.map(([name, count]) => [name, String(count), ...(report.parcels.get(name) ?? ['', ''])]);
  tables = [new SortedTable($('classes'), ['class', '#percent', '#pieces', '#area', '#eligible'], sums.rows), new SortedTable($('parcels'), ['parcel', '#pieces', '#area', '#eligible'], rows, number => chart.go('parcels', number))];
}

/** The areas that a call of `area` gave, a row each. */
function renderAreas({ result: { text, rows } }) {
  const areas = text.split('\n').slice(0, -1);
  tables = [new SortedTable($('rows'), ['#number', 'name', '#area'], areas.map((area, number) => [String(number + 1), rows[number] ?? '', area]))];
}

function renderDigests() {
  const digests = [[say('program', FACTS), known.program], [say('module'), known.module], [say('page'), known.page]];
  for (const [kind, digest] of Object.entries(shown?.result?.digests ?? {})) digests.push([shown.names[kind].name, digest]);
  $('digests').replaceChildren(...digests.map(([name, digest]) => {
    const row = element('tr');
    row.append(element('td', name), element('td', digest || say('no digest'), 'digest'));
    return row;
  }));
  const differs = (known.module && known.module !== FACTS.module) || (known.page && known.page !== FACTS.page);
  $('differs').textContent = differs ? say('differs') : '';
}

function render() {
  const { kind, key, values, sentences, result, drawn, isReport } = shown ?? {};
  $('result').hidden = !shown;
  document.body.classList.toggle('busy', Boolean(shown?.isBusy));
  if (!shown) return;
  $('verdict').className = kind;
  $('verdict').textContent = say(key, values) + (result ? ` ${say('status', { status: result.status, seconds: result.seconds.toFixed(2) })}` : '');
  $('means').textContent = isReport ? say('yes means') : '';
  $('line').textContent = values?.line ?? '';
  $('sentences').replaceChildren(...linesOf(sentences).map(line => element('li', line)));
  $('save-text').hidden = !result;
  $('rests').hidden = !result;
  $('views').hidden = !drawn;
  $('told').hidden = !isReport;
  const isOfAreas = Boolean(result?.rows && !result.status);
  $('areas').hidden = !isOfAreas;
  $('wrong').textContent = shown.drawError ? say('not drawn', { error: shown.drawError }) : '';
  renderDigests();
  if (drawn) renderTables(shown);
  if (isOfAreas) renderAreas(shown);
}

async function showDigestOf(file) {
  const { digest } = await ask('digestFile', { file });
  showWords('plain', 'digest of', { name: file.name, digest: digest || say('no digest') });
}

// The beginning.

function listenToFiles() {
  const drop = $('drop');
  for (const [name, isOver] of [['dragover', true], ['dragleave', false], ['drop', false]]) {
    document.addEventListener(name, event => {
      event.preventDefault();
      drop.classList.toggle('over', isOver);
    });
  }
  document.addEventListener('drop', event => addDropped(event.dataTransfer));
  for (const id of ['files', 'folder']) $(id).addEventListener('change', async event => {
    await add([...event.target.files]);
    event.target.value = '';
  });
  $('area').addEventListener('change', async event => {
    const [file] = event.target.files;
    event.target.value = '';
    if (file) await area(file);
  });
  for (const name of Object.keys(EXAMPLES)) $(name).addEventListener('click', () => tryExample(name));
  $('check').addEventListener('click', check);
  $('cut').addEventListener('click', cut);
  $('save-cert').addEventListener('click', () => save([files.cert], 'release.cert'));
  $('save-text').addEventListener('click', () => save([shown.result.text], 'report.txt'));
  $('save-areas').addEventListener('click', () => save([tables[0].csv()], 'areas.csv'));
  $('save-classes').addEventListener('click', () => save([tables[0].csv()], 'classes-sums.csv'));
  $('save-parcels').addEventListener('click', () => save([tables[1].csv()], 'parcels-report.csv'));
}

async function begin() {
  offerLanguages($('language'), () => {
    showFiles();
    render();
  });
  speak();
  showFiles();
  listenToFiles();
  const module = Uint8Array.from(atob($('module').textContent), letter => letter.charCodeAt(0));
  const begun = await ask('begin', { module }, [module.buffer]);
  if (begun.error) showWords('no', 'no module', { error: begun.error });
  known.module = begun.digest ?? '';
  known.page = (await ask('digest', { text: ['style', 'words', 'examples', 'work', 'script'].map(id => $(id).textContent).join('') })).digest ?? '';
  document.body.dataset.state = 'ready';
  render();
}

begin();
