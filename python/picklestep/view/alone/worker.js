'use strict';
// The worker of the page without a server: it holds the pickle, runs the program, and answers the page's questions one after another.

const MOST_MEMBERS = 2000;

const page = { program: null, document: null, archive: null, whole: null, reaches: null };

const after = (done) => ({ ...done, ...page.document.state() });

const ANSWERS = {
  // Versions go on `from` those of the worker before, so that no two documents of the page have the same.
  start: ({ from, ...program }) => {
    page.program = program;
    Object.assign(KINDS, program.facts.reaches);
    versions = from;
    return {};
  },
  load: ({ bytes, name, isPickle, many = false, whole = false, unframed = false }) => (isPickle ? open(bytes, name, many, whole, unframed) : load(bytes, name)),
  // What is shown in part: its bytes, and where the page is in it. Another worker reads it whole, what it imports and calls first, and goes there.
  whole: () => page.whole,
  reach: ({ bytes, name, many }) => {
    page.whole = { bytes, name, many };
    page.reaches = Document.reachesOf(page.program, bytes, many, progress);
    return page.reaches.packed();
  },
  found: ({ pickle, reaches, why }) => {
    if (pickle === page.document.pickle) page.document.takeReaches(reaches && Reaches.unpacked(reaches), why);
    return page.document.state();
  },
  marks: () => ({ place: page.document.place, breaks: [...page.document.breaks], edits: page.document.edits, undone: page.document.undone }),
  rest: () => {
    const state = open(page.whole.bytes, page.whole.name, page.whole.many, true);
    page.document.objectsRead = page.document.readObjects(progress);
    return state;
  },
  go: ({ place, breaks, edits, undone }) => {
    page.document.takeEdits(edits, undone);
    for (const each of breaks) page.document.toggleBreak(each);
    return after(page.document.move('goto', place));
  },
  member: async ({ number }) => {
    const { bytes, members } = page.archive;
    return load(await memberBytes(bytes, members[number]), members[number].name);
  },
  again: ({ many, unframed }) => open(page.document.bytes(), page.document.name, many || page.document.options.includes('--many'), false, unframed),
  open: () => after({ said: 'open' }),
  rows: ({ start, count }) => ({ version: page.document.version, rows: page.document.rows(start, count) }),
  objects: ({ start, count }) => ({ objects: page.document.objects(start, count) }),
  briefs: ({ numbers }) => ({ briefs: page.document.briefs(numbers) }),
  reached: ({ start, count }) => ({ reached: page.document.reached(start, count) }),
  holds: ({ number }) => page.document.holds(number),
  effect: () => page.document.effect(),
  about: ({ number }) => page.document.about(number),
  source: () => page.document.source(),
  argument: ({ place }) => page.document.argument(place),
  find: ({ after: from, ...sought }) => ({ place: page.document.find(sought, from) }),
  move: ({ what, place }) => after(page.document.move(what, place)),
  break: ({ place }) => after(page.document.toggleBreak(place)),
  edit: ({ what, place, name, raw, count }) => after(page.document.edit(what, place, name, raw, count)),
  undo: () => after(page.document.undo()),
  redo: () => after(page.document.redo()),
  bytes: () => ({ bytes: page.document.savedBytes() }),
};

function open(bytes, name, many, isWhole = false, isUnframed = false) {
  page.document = Document.open(page.program, bytes, name, many, isWhole || isUnframed, progress, isWhole ? page.reaches : null, isUnframed);
  page.whole = page.document.isPart ? { bytes, name, many } : null;
  return after({ said: 'open' });
}

// Opens a pickle, or answers which members an archive has.
async function load(bytes, name) {
  const { library } = page.program, inner = await unpacked(library, bytes, name), kind = archiveOf(inner.bytes);
  if (!kind) return open(inner.bytes, inner.name, false);
  const { members, why } = membersIn(library, inner.bytes), files = members.filter((member) => !member.name.endsWith('/'));
  page.archive = { bytes: inner.bytes, members: files };
  const shown = files.slice(0, MOST_MEMBERS).map(({ name: shownName, size }) => ({ name: shownName, size }));
  const said = why ? `a ${kind} archive in which readers may find different members: picklestep scan looks at all of them (${why})`
    : `a ${kind} archive with ${files.length} members`;
  return { said, members: shown, more: files.length - shown.length };
}

function progress(text) {
  postMessage({ progress: text });
}

const SOON = 300; // milliseconds, in which the page asks for what is seen

// What takes long and is not seen at once is read when the page has asked for what is.
function readSoon() {
  const { document } = page;
  if (document && !document.objectsRead) setTimeout(() => { busy = busy.then(() => document === page.document && document.final).catch(() => undefined); }, SOON);
}

async function answer({ id, word, asked }) {
  try {
    postMessage({ id, answer: await ANSWERS[word](asked) });
    if (word === 'load' || word === 'member' || word === 'again') readSoon();
  } catch (error) {
    const said = error instanceof Refused ? `refused: ${error.message}` : `not done: ${error.message}`;
    postMessage({ id, answer: { said, code: error.code, failed: true } });
  }
}

let busy = Promise.resolve();
onmessage = (event) => { busy = busy.then(() => answer(event.data)); };
