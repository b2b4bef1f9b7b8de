'use strict';
// The page asks its worker for what is seen, and puts every text in as text.

const SLOW = 300; // milliseconds, after which the page says that it waits

const by = (id) => document.getElementById(id);
const view = {
  state: null, opcodes: {}, plain: {}, story: null, rows: [], top: 0, selected: 0, chunks: new Map(), waiting: new Set(), objects: 0, reaches: 0,
  asks: 0, pending: 0, busy: Promise.resolve(), // questions and commands that are not answered
};

const formOf = (name) => (view.opcodes[name] ? view.opcodes[name].form : '');
const signOf = (name) => (view.opcodes[name] ? view.opcodes[name].code : '');

// --- Asking ---

async function ask(word, asked) {
  view.asks += 1;
  const answer = await host.ask(word, asked).finally(() => { view.asks -= 1; });
  if (answer.failed) say(answer.said, true, answer.code);
  return answer;
}

// Commands go one after another, in the order in which they were given.
function command(word, asked) {
  view.pending += 1;
  const done = view.busy.then(async () => {
    const slow = setTimeout(say, SLOW, 'working ..');
    const answer = await host.ask(word, asked).finally(() => clearTimeout(slow));
    if (answer.said !== undefined) say(answer.said, answer.failed, answer.code);
    if (answer.version !== undefined) await show(answer);
    return answer;
  }).finally(() => { view.pending -= 1; });
  view.busy = done.catch(() => undefined);
  return done;
}

// What the program says, with what its code means.
function say(text, failed, code) {
  const meaning = view.plain[code];
  by('said').textContent = plain(text) + (meaning ? ` (${meaning})` : '');
  by('said').classList.toggle('failed', Boolean(failed));
}

// --- Elements ---

function element(tag, name, text) {
  const made = document.createElement(tag);
  if (name) made.className = name;
  if (text !== undefined) made.textContent = text;
  return made;
}

// --- The state ---

async function show(state) {
  const old = view.state;
  view.state = state;
  document.body.classList.add('opened');
  if (old === null || old.version !== state.version || old.breaks !== state.breaks) view.chunks.clear();
  if (old === null) {
    view.pointed = null;
    by('about').textContent = 'Point at an object, or choose one.';
    by('source').textContent = '';
  }
  showHeader(state);
  by('bar').max = state.places;
  by('bar').value = state.place;
  by('bar').setAttribute('aria-valuetext', `opcode ${state.place} of ${state.places}`);
  by('rail-in').style.height = Math.min(RAIL, (state.places + 1) * HEIGHT) + 'px';
  if (old === null || old.place !== state.place || old.version !== state.version) select(Math.min(state.place, state.places - 1));
  view.objects = Math.max(0, state.made - PAGE);
  if (old === null || old.version !== state.version) view.reaches = 0;
  draw();
  host.shown();
  showStory();
  await things();
}

function showHeader(state) {
  by('name').textContent = plain(state.name);
  document.title = plain(state.name) + ': picklestep';
  by('where').textContent = `at ${state.place} of ${state.places}, offset ${state.offset}, end ${state.end}` +
    (state.results.length ? ', result ' + state.results.map((number) => '#' + number).join(' ') : '') +
    (state.results_before ? ` after ${state.results_before} others` : '');
  by('reached').textContent = `imports ${state.imports[0]} of ${state.imports[1]}, calls ${state.calls[0]} of ${state.calls[1]}` +
    (state.unknown ? ` in this part: ${state.unknown}` : '');
  by('closing').textContent = state.closing.join('; ');
  by('read-on').hidden = !state.kept;
  by('unframe-all').hidden = !state.isEndOfFrame;
  for (const word of ['undo', 'redo']) {
    by(word).disabled = !state[word];
    by(word).title = state[word] ? `${word === 'undo' ? 'Take back' : 'Make again'}: ${state[word]} (${word[0]})` : `Nothing to ${word} (${word[0]})`;
  }
}

// --- Commands ---

const move = (what, place) => command('move', { what, place: place || 0 });
const go = (place) => move('goto', Math.min(place, view.state.places));
const toggle = (place) => { if (place < view.state.places) command('break', { place }); };

async function find(text) {
  const quoted = quotedIn(text);
  const answer = await ask('find', { text, value: quoted ?? quotedIn(`'${text}'`), isWhole: quoted !== null, numbers: numbersOf(text), after: view.selected });
  if (answer.place === undefined) return;
  if (answer.place === null) { say(`not found${view.state.part ? ' in what is read' : ''}: ${text}`, true); return; }
  select(answer.place);
  say('found at place ' + answer.place, false);
}

// --- Dialogs ---

async function openEdit(what) {
  by('edit-what').value = what || 'replace';
  by('edit-place').value = view.selected;
  by('edit-count').value = 1;
  const never = offer();
  if (never.includes(by('edit-what').value)) by('edit-what').value = never.includes('unframe') ? 'insert' : 'unframe';
  by('edit-error').textContent = '';
  const puts = shape();
  by('edit-dialog').showModal();
  by(puts ? 'edit-name' : 'edit-place').focus(); // (what is hidden would lose it at the next frame)
  await fillEdit();
}

// Begins with the opcode and the value that stand at the place. What was typed while these were asked for stays.
async function fillEdit() {
  const fields = () => ['place', 'name', 'as', 'argument'].map((field) => by(`edit-${field}`).value).join('\n'), before = fields();
  const place = Number(by('edit-place').value), row = place < view.state.places ? rowAt(place) : undefined;
  by('edit-form').setAttribute('aria-busy', 'true');
  const answer = row ? await ask('argument', { place }) : {};
  by('edit-form').setAttribute('aria-busy', 'false');
  if (fields() !== before) return;
  by('edit-name').value = row ? row.opcode : '';
  const form = formOf(by('edit-name').value), typed = form && typeof answer.raw === 'string' ? typedOf(form, answer.raw) : '';
  by('edit-as').value = typed === null ? 'hex' : 'value';
  by('edit-argument').value = typed === null ? answer.raw : typed;
  by('edit-argument').placeholder = form && answer.raw === null ? 'too long to be shown' : '';
  if (shape()) by('edit-name').select();
}

// Shows the fields of what is done, and answers whether that puts an opcode.
function shape() {
  const what = by('edit-what').value, name = by('edit-name').value.trim().toUpperCase();
  const puts = what === 'replace' || what === 'insert';
  document.querySelectorAll('.put').forEach((label) => { label.hidden = !puts; });
  if (view.opcodes[name] && !formOf(name)) document.querySelectorAll('.valued').forEach((label) => { label.hidden = true; });
  document.querySelectorAll('.framed').forEach((label) => { label.hidden = what !== 'frame'; });
  return puts;
}

// Offers only what may be done at the place, and answers what may not: a STOP stays, and a FRAME is taken off, or others come before it. Where the
// lengths of frames are ignored, there are none to be put or taken off.
function offer() {
  const row = rowAt(Number(by('edit-place').value)), word = row ? row.opcode : '';
  const frames = view.state.unframed ? ['frame', 'unframe'] : word === 'FRAME' ? [] : ['unframe'];
  const never = [...frames, ...({ STOP: ['replace', 'delete'], FRAME: ['replace', 'delete'] }[word] || [])];
  for (const option of by('edit-what').options) option.disabled = never.includes(option.value);
  return never;
}

function editAsked() {
  const what = by('edit-what').value, name = by('edit-name').value.trim().toUpperCase();
  const puts = what === 'replace' || what === 'insert';
  const raw = puts ? argumentOf(formOf(name), by('edit-argument').value, by('edit-as').value === 'hex' && formOf(name)) : '';
  return { what, place: Number(by('edit-place').value), name, raw, count: Number(by('edit-count').value) };
}

async function sendEdit(event) {
  event.preventDefault();
  let asked;
  try {
    asked = editAsked();
  } catch (error) {
    by('edit-error').textContent = error.message;
    return;
  }
  const answer = await command('edit', asked);
  if (answer.failed) by('edit-error').textContent = answer.said || 'no answer';
  else { by('edit-dialog').close(); by('listing').focus(); }
}

async function sendSave(event) {
  event.preventDefault();
  const answer = await host.save(by('save-name').value, by('save-over').checked);
  if (answer.failed) by('save-error').textContent = answer.said || 'no answer';
  else by('save-dialog').close();
}

function openSave() {
  by('save-error').textContent = '';
  by('save-where').textContent = host.saves;
  if (!by('save-name').value) by('save-name').value = view.state.name.replace(/(\.[^.]*)?$/, '.edited$1').replace(/^.*[/\\]/, '');
  by('save-dialog').showModal();
  by('save-name').select();
}

// --- Keys ---

const KEYS = {
  ArrowRight: () => step('step'), ArrowLeft: () => step('back'), Home: () => go(0), End: () => go(view.state.places), ' ': () => move('run'),
  n: () => move('next'), p: () => move('previous'), '/': () => by('sought').select(), u: () => command('undo'), r: () => command('redo'),
  '?': () => by('help-dialog').showModal(), b: () => toggle(view.selected), e: () => openEdit('replace'), s: openSave,
  w: () => by('slow').click(), a: () => play(!isPlaying()), Delete: () => command('edit', { what: 'delete', place: view.selected, name: '', raw: '', count: 0 }),
};
const LIST_KEYS = {
  ArrowDown: () => select(view.selected + 1), ArrowUp: () => select(view.selected - 1), PageDown: () => select(view.selected + seen()),
  PageUp: () => select(view.selected - seen()), Enter: () => go(view.selected),
};

// A key that is held asks for its next step when the last one is shown, so that the page stops where the key is let go.
function pressed(event) {
  if (event.ctrlKey || event.metaKey || event.altKey || document.querySelector('dialog[open]') || !view.state) return;
  const target = event.target;
  if (target.matches('input:not([type=range], [type=checkbox]), textarea, select')) {
    if (event.key === 'Escape') by('listing').focus();
    return;
  }
  if (target.closest('[role=tree]') && inTree(event)) return;
  if (target.matches('button, summary, [type=checkbox]') && (event.key === ' ' || event.key === 'Enter')) return;
  const inList = target === document.body || target === by('listing');
  const act = KEYS[event.key] || (inList && LIST_KEYS[event.key]);
  if (!act) return;
  event.preventDefault();
  if (event.repeat && KEYS[event.key] && view.pending) return;
  act();
}

const step = (what) => (isSlow() ? slowStep(what) : move(what));

// --- Beginning ---

// Shows the page of objects, or of imports and calls, that comes before or after.
function turn(name, count) {
  view[name] = Math.max(0, view[name] + count);
  things();
}

function wire() {
  const clicks = {
    home: KEYS.Home, back: KEYS.ArrowLeft, step: KEYS.ArrowRight, run: KEYS[' '], end: KEYS.End, there: LIST_KEYS.Enter, previous: KEYS.p, next: KEYS.n,
    undo: KEYS.u, redo: KEYS.r, edit: KEYS.e, save: KEYS.s, help: KEYS['?'], 'read-on': () => command('again', { many: true }), play: KEYS.a,
    'unframe-all': () => command('again', { unframed: true }),
    'objects-back': () => turn('objects', -PAGE), 'objects-on': () => turn('objects', PAGE),
    'reaches-back': () => turn('reaches', -PAGE), 'reaches-on': () => turn('reaches', PAGE),
  };
  for (const [id, act] of Object.entries(clicks)) by(id).addEventListener('click', () => { if (view.state || id === 'help') act(); });
  document.addEventListener('keydown', pressed);
  document.querySelectorAll('.close').forEach((button) => button.addEventListener('click', () => button.closest('dialog').close()));
  by('edit-what').addEventListener('change', shape);
  by('edit-name').addEventListener('input', shape);
  by('edit-place').addEventListener('change', () => { offer(); fillEdit(); });
  by('edit-form').addEventListener('submit', sendEdit);
  by('save-form').addEventListener('submit', sendSave);
  by('find').addEventListener('submit', (event) => { event.preventDefault(); find(by('sought').value); });
  wireListing();
  wirePanes();
  wireBar();
  wirePlay();
}

function wireBar() {
  let dragged = false;
  by('bar').addEventListener('input', () => {
    if (dragged) return;
    dragged = true;
    view.busy.then(() => { dragged = false; if (view.state) go(Number(by('bar').value)); });
  });
}

async function begin() {
  wire();
  await host.begin();
  by('names').replaceChildren(...Object.keys(view.opcodes).map((name) => { const made = element('option'); made.value = name; return made; }));
  by('listing').focus({ preventScroll: true });
}
