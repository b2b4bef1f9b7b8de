'use strict';
// How a pickle gets into the page, and the worker that answers its questions. A server gives a pickle, and saves it.

const MOST_SIZE = 1073741824; // the program refuses more

const worker = { asked: new Map(), next: 0, file: null, thread: null, shown: null, reader: null };

const served = JSON.parse(by('served').textContent); // what a server says of its pickle, where the page comes from one

const host = {
  saves: served ? 'A name without a folder is in the one in which picklestep was started.' : 'The browser puts it among your downloads.',

  ask: (word, asked) => askThread(worker.thread, word, asked),

  // Gives the pickle to the server, or to the browser as a download.
  async save(name, over) {
    const answer = await host.ask('bytes');
    if (answer.failed) return answer;
    if (served) return tell('save', { name, over }, answer.bytes).then((done) => { say(done.said, done.failed); return done; });
    const link = element('a');
    link.href = URL.createObjectURL(new Blob([answer.bytes], { type: 'application/octet-stream' }));
    link.download = name;
    link.click();
    setTimeout(() => URL.revokeObjectURL(link.href), 60000);
    say(`saved ${name} among your downloads`);
    return {};
  },

  // Where the bytes of the pickle go, as the server draws it.
  async sizes(width, height) {
    const answer = await host.ask('bytes');
    return answer.failed ? answer : tell('sizes', { width, height, many: view.state.many, unframed: view.state.unframed }, answer.bytes);
  },

  shown() {
    by('welcome').hidden = true;
    by('opening-note').hidden = true;
    if (!EXAMPLES.includes(view.story)) by('example').value = '';
    if (worker.shown === view.state.pickle) return;
    worker.shown = view.state.pickle;
    endReader();
    if (view.state.part) readRest();
  },

  async begin() {
    wireOpening();
    worker.code = URL.createObjectURL(new Blob([by('worker-code').textContent], { type: 'text/javascript' }));
    [view.opcodes, view.plain] = ['opcodes', 'plain'].map((id) => JSON.parse(by(id).textContent));
    worker.program = { opcodes: view.opcodes, facts: JSON.parse(by('source-facts').textContent) };
    try {
      [worker.program.module, worker.program.library] = await Promise.all(['module', 'library'].map(compiled));
    } catch (error) {
      say(`the module does not start: ${error.message}`, true);
      return;
    }
    worker.thread = newThread();
    by('where').textContent = '';
    by('opening').dataset.ready = 'yes';
    if (served) { await openServed(); return; }
    say('Open a pickle, or choose an example.');
    openLink();
  },
};

// A module that the page holds packed.
function compiled(name) {
  const packed = new Blob([latin(atob(by(name).content.textContent))]);
  by(name).remove();
  const stream = packed.stream().pipeThrough(new DecompressionStream('deflate'));
  return WebAssembly.compileStreaming(new Response(stream, { headers: { 'Content-Type': 'application/wasm' } }));
}

// --- Workers ---

const sayOfRest = (text) => { by('rest').textContent = text; };

// Says that the first part is shown alone, and why. What the rest imports and calls stays unknown where it is not known by now.
function failRest(said) {
  const why = said.replace('not done: ', '');
  sayOfRest(`The first part is shown alone: ${why}`);
  tellReaches({ why });
}

// Shows in the first part what all of the pickle imports and calls, or why that is not known.
function tellReaches(found) {
  const asked = { pickle: worker.shown, ...found };
  view.busy = view.busy.then(async () => {
    const state = await host.ask('found', asked);
    if (view.state && state.version !== undefined) await show(state);
  }).catch(() => undefined);
}

// A worker with the program in it.
function newThread() {
  const thread = new Worker(worker.code);
  thread.onmessage = ({ data }) => {
    if (data.progress === undefined) {
      worker.asked.get(data.id).give(data.answer);
      worker.asked.delete(data.id);
    } else if (thread === worker.reader) sayOfRest(`The rest is being read: ${data.progress}`);
    else say(data.progress);
  };
  thread.onerror = (event) => (thread === worker.reader ? failRest(event.message) : say(`the worker has ended: ${event.message}`, true));
  askThread(thread, 'start', { ...worker.program, from: worker.next });
  return thread;
}

function askThread(thread, word, asked, moved) {
  const id = worker.next += 1;
  thread.postMessage({ id, word, asked: asked || {} }, moved || []);
  return new Promise((give) => worker.asked.set(id, { thread, give }));
}

// Ends a worker. What it was asked gets an empty answer.
function endThread(thread) {
  thread.terminate();
  for (const [id, asked] of worker.asked) {
    if (asked.thread !== thread) continue;
    worker.asked.delete(id);
    asked.give({});
  }
}

// Reads the whole of a pickle of which the first part is shown, in a worker of its own, and goes on with that: first what it imports and
// calls, which is shown as soon as it is known, and also where the whole is too long to be shown.
async function readRest() {
  const reader = worker.reader = newThread();
  const { bytes, name, many } = await host.ask('whole');
  const reaches = await askThread(reader, 'reach', { bytes, name, many }, [bytes.buffer]);
  if (worker.reader !== reader) return; // (another pickle was opened)
  if (reaches.failed) { failRest(reaches.said); return; }
  tellReaches({ reaches });
  const answer = await askThread(reader, 'rest');
  if (worker.reader !== reader) return;
  if (answer.failed) failRest(answer.said);
  else view.busy = view.busy.then(() => goOn(reader)).catch(() => undefined);
}

// Shows the whole pickle where the page is in the first part.
async function goOn(reader) {
  if (worker.reader !== reader) return;
  const state = await askThread(reader, 'go', await host.ask('marks'));
  if (state.failed) { failRest(state.said); return; }
  endThread(worker.thread);
  [worker.thread, worker.reader, worker.shown] = [reader, null, state.pickle];
  sayOfRest('');
  say('all is read');
  await show(state);
}

function endReader() {
  if (worker.reader) endThread(worker.reader);
  worker.reader = null;
  sayOfRest('');
}

// --- Opening ---

// A pickle, and a lesson beside it: a file whose name ends in .lesson.txt. A lesson alone is one of the pickle that is open.
async function openFiles(files) {
  const isLesson = (file) => file.name.endsWith('.lesson.txt'), lesson = files.find(isLesson), file = files.find((each) => !isLesson(each));
  const story = lesson && lessonOf(await lesson.text());
  if (file || !story) { await openFile(file, story); return; }
  view.story = story;
  showStory();
  say(view.state ? `lesson ${lesson.name}` : 'Open the pickle of this lesson together with it.', !view.state);
}

async function openFile(file, story) {
  if (!file) return;
  if (file.size > MOST_SIZE) { say(`too large: ${file.size.toLocaleString('en')} bytes, and at most ${MOST_SIZE.toLocaleString('en')} are read`, true); return; }
  say(`reading ${file.name} ..`);
  try {
    await openBytes(new Uint8Array(await file.arrayBuffer()), file.name, false, story);
  } catch (error) {
    say(`not opened: ${error.message}`, true);
  }
}

async function openBytes(bytes, name, isPickle, story) {
  worker.file = { bytes, name };
  await loaded(() => command('load', { bytes, name, isPickle: Boolean(isPickle) }), story);
}

// Shows what was opened: a pickle from its start, or the members of a container. What was there before stays where nothing is opened.
async function loaded(load, story) {
  const before = [view.state, view.story];
  [view.state, view.story] = [null, story || null];
  const answer = await load();
  if (answer.members || answer.failed) [view.state, view.story] = before;
  if (answer.members) showMembers(answer);
  if (answer.members || answer.failed) return;
  by('save-name').value = '';
  by('listing').focus({ preventScroll: true });
}

function showMembers({ members, more, said }) {
  by('members-note').textContent = said + (more ? `; the last ${more} are not shown` : '');
  by('members').replaceChildren(...members.map((member, number) => {
    const made = element('li'), button = element('button', 'thing', `${plain(member.name)}  ${member.size.toLocaleString('en')} bytes`);
    button.type = 'button';
    button.addEventListener('click', () => { by('members-dialog').close(); loaded(() => command('member', { number })); });
    made.append(button);
    return made;
  }));
  by('members-dialog').showModal();
}

// The bytes that a text says: in hexadecimal (with 0x, \x, colons or commas between), or in base64.
function pastedBytes(text) {
  const hex = text.replace(/\\x|0x|[\s:,;'"]+/gi, '');
  if (hex && /^([0-9a-f]{2})+$/i.test(hex)) return bytesOfHex(hex);
  const packed = text.replace(/\s+/g, '').replace(/^data:[^,]*,/, '').replace(/-/g, '+').replace(/_/g, '/');
  if (!packed || !/^[0-9a-z+/]+={0,2}$/i.test(packed)) throw new Error('this is neither hexadecimal nor base64');
  try {
    return latin(atob(packed));
  } catch (error) {
    throw new Error('this is neither hexadecimal nor base64');
  }
}

async function sendPaste(event) {
  event.preventDefault();
  try {
    const bytes = pastedBytes(by('pasted').value);
    by('paste-dialog').close();
    await openBytes(bytes, 'pasted');
  } catch (error) {
    by('paste-error').textContent = error.message;
  }
}

// --- With a server ---

const ALIVE = 10000; // milliseconds between two words to the server, which ends where no page speaks

// Says something to the server, and answers what it answers.
async function tell(word, asked, body) {
  try {
    const response = await fetch(`${word}?${new URLSearchParams(asked)}`, { method: 'POST', body });
    if (!response.ok) throw new Error(`status ${response.status}`);
    return await response.json();
  } catch (error) {
    return { said: `the server does not answer (${error.message})`, failed: true };
  }
}

// Opens the pickle of the server.
async function openServed() {
  say('reading ..');
  try {
    const response = await fetch('pickle');
    if (!response.ok) throw new Error(`status ${response.status}`);
    const bytes = new Uint8Array(await response.arrayBuffer()), { name, many, unframed, whole, lesson } = served;
    await loaded(() => command('load', { bytes, name, isPickle: true, many, unframed, whole }), lesson && lessonOf(lesson));
  } catch (error) {
    say(`the server does not answer (${error.message})`, true);
  }
}

function wireServed() {
  by('welcome').hidden = by('opening').hidden = true;
  addEventListener('pagehide', () => navigator.sendBeacon('closed'));
  addEventListener('pageshow', () => tell('alive'));
  setInterval(() => tell('alive'), ALIVE);
  wireSizes();
  by('help-dialog').querySelector('dl').append(element('dt', '', 'z'), element('dd', '', 'where the bytes go'));
}

// --- Links ---

const MOST_LINKED = 16384; // bytes

// A link has the pickle itself behind its sharp, so that nobody is asked for it: #pickle=HEX&name=NAME&at=PLACE&lesson=TEXT
async function openLink() {
  const link = new URLSearchParams(location.hash.slice(1));
  if (!link.get('pickle')) return;
  try {
    const story = link.get('lesson') ? lessonOf(link.get('lesson')) : null;
    await openBytes(pastedBytes(link.get('pickle')), link.get('name') || 'of a link', true, story);
    if (view.state && Number(link.get('at'))) await go(Number(link.get('at')));
  } catch (error) {
    say(`not opened: ${error.message}`, true);
  }
}

// Puts the pickle as it is and the place into the address of the page.
async function makeLink() {
  const answer = await host.ask('bytes');
  if (answer.failed || answer.bytes.length > MOST_LINKED) { say(answer.said || `too long for a link: at most ${MOST_LINKED.toLocaleString('en')} bytes`, true); return; }
  const lesson = view.story ? { lesson: view.story.text.map(([place, text]) => `${place}: ${text}`).join('\n') } : {};
  history.replaceState(null, '', `#${new URLSearchParams({ pickle: hexOf(answer.bytes), name: view.state.name, at: view.state.place, ...lesson })}`);
  say('the address of this page has the pickle and the place now: copy it');
}

// --- Worked examples ---

function openExample(number) {
  const example = EXAMPLES[number];
  by('example').value = number;
  return openBytes(bytesOfHex(example.hex), example.name, true, example);
}

// --- Beginning ---

function wireOpening() {
  const openPaste = () => { by('paste-error').textContent = ''; by('paste-dialog').showModal(); };
  by('open').addEventListener('click', () => by('file').click());
  by('file').addEventListener('change', () => { openFiles([...by('file').files]); by('file').value = ''; });
  by('link').addEventListener('click', () => { if (view.state) makeLink(); });
  by('watch').addEventListener('click', async () => { await openExample(0); play(true); });
  addEventListener('hashchange', openLink);
  by('paste').addEventListener('click', openPaste);
  by('paste-form').addEventListener('submit', sendPaste);
  by('as-pickle').addEventListener('click', () => { by('members-dialog').close(); openBytes(worker.file.bytes, worker.file.name, true); });
  by('example').append(...EXAMPLES.map((example, at) => { const made = element('option', '', example.name); made.value = at; return made; }));
  by('example').addEventListener('change', () => { if (by('example').value !== '') openExample(Number(by('example').value)); });
  by('example-buttons').append(...EXAMPLES.map((example, at) => {
    const made = element('button', '', example.name);
    made.type = 'button';
    made.addEventListener('click', () => openExample(at));
    return made;
  }));
  document.addEventListener('dragover', (event) => { event.preventDefault(); document.body.classList.add('dropping'); });
  document.addEventListener('dragleave', (event) => { if (!event.relatedTarget) document.body.classList.remove('dropping'); });
  document.addEventListener('drop', (event) => {
    event.preventDefault();
    document.body.classList.remove('dropping');
    openFiles([...event.dataTransfer.files]);
  });
  document.addEventListener('keydown', (event) => {
    const isTyped = event.ctrlKey || event.metaKey || event.altKey || event.target.matches('input:not([type=range], [type=checkbox]), textarea, select');
    if (isTyped || document.querySelector('dialog[open]')) return;
    if (event.key === 'o') by('file').click();
    else if (event.key === 'v') { event.preventDefault(); openPaste(); }
  });
  by('help-dialog').querySelector('dl').append(element('dt', '', 'o, v'), element('dd', '', 'open a file; paste hexadecimal or base64'));
  by('save-over-label').hidden = !served;
  if (served) wireServed();
}

begin();
