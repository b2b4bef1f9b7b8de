'use strict';
// Stack, memo and objects, what is imported and called, the result, and what the page says about an opcode and an object.

const PAGE = 200;
const MOST_HERE = 28; // letters of an object in About

// A mark on the stack is a number below zero, by the place of its opcode.
const isMark = (entry) => entry < 0;
const placeOfMark = (entry) => -1 - entry;

async function things() {
  const state = view.state;
  const numbers = [...new Set([...state.stack.entries.filter((entry) => !isMark(entry)), ...state.memo.entries.map(({ object }) => object), ...state.results])];
  const [named, made] = await Promise.all([ask('briefs', { numbers }), ask('objects', { start: view.objects, count: PAGE }), reaches()]);
  if (state !== view.state || !named.briefs || !made.objects) return;
  const stack = state.stack.entries.map((entry) => (isMark(entry) ? mark(placeOfMark(entry)) : item('', entry, shownObject(named.briefs[entry]))));
  list(by('stack'), stack.reverse(), state.stack.more && [`${state.stack.more} more below`, 'after']);
  list(by('memo'), state.memo.entries.map(({ memo, object }) => item(`${memo} = `, object, shownObject(named.briefs[object]))), state.memo.more && [`${state.memo.more} more before`, 'before']);
  by('memo').scrollTop = by('memo').scrollHeight;
  showObjects(made.objects);
  tree(by('result'), state.results.map((number) => node('', number, shownObject(named.briefs[number]), [])),
    state.results_before ? `after ${state.results_before} others` : state.results.length ? '' : 'none so far: a STOP takes it');
  await showSource();
}

// The pickle as Python source, which is asked for where it is looked at, and only once as long as nothing is edited. The functions that it
// defines end in an empty line; what comes after them is seen first.
async function showSource() {
  const state = view.state, into = by('source');
  if (!state || by('pane-result').hidden || view.sourceShown === state.version) return;
  into.textContent = '# writing ..';
  const { source: lines = [], more, isLong } = await ask('source');
  if (!view.state || view.state.version !== state.version) return;
  view.sourceShown = state.version;
  const note = isLong ? '# Too long for this page: picklestep source FILE writes it.' : more ? `# ${more} more lines: picklestep source FILE writes them.` : '';
  into.textContent = [...lines.map(shownSource), note].join('\n');
  into.scrollTop = into.scrollHeight * (lines.lastIndexOf('') + 1) / (lines.length + 1);
}

// What is imported and called: asked for again only where it may be other than before. What is before the cursor is done.
async function reaches() {
  const state = view.state, key = [state.version, state.reaches, state.unknown, view.reaches].join(' ');
  if (view.reachesShown !== key) {
    const answer = await ask('reached', { start: view.reaches, count: PAGE });
    if (state !== view.state || !answer.reached) return;
    view.reachesShown = key;
    showReaches(answer.reached);
  }
  by('reaches').querySelectorAll('.thing').forEach((thing) => thing.classList.toggle('done', Number(thing.dataset.place) < state.place));
}

function showObjects(objects) {
  const state = view.state, last = view.objects + objects.length;
  tree(by('objects'), objects.map((thing, at) => node('', view.objects + at, shownObject(thing), [])), '', true);
  by('objects').scrollTop = by('objects').scrollHeight;
  by('objects-shown').textContent = (objects.length ? `#${view.objects} to #${last - 1} of ${state.made}` : 'none made') +
    (objects.some((each) => each && each.isAtEnd) ? ', large ones as they are at the end' : '');
  by('objects-back').disabled = view.objects === 0;
  by('objects-on').disabled = last >= state.made;
}

function showReaches(reached) {
  const state = view.state, last = view.reaches + reached.length;
  list(by('reaches'), reached.map(([place, offset, kind, text]) => {
    const made = element('li', kind), button = element('button', 'thing');
    button.type = 'button';
    button.append(element('span', 'key', `${offset} `), document.createTextNode((kind === 'import' ? 'import ' : '') + reachOfRow(text)));
    button.dataset.place = place;
    button.title = button.textContent;
    button.addEventListener('click', () => (place === null ? say(`offset ${offset} is not read: it cannot be shown`, true) : select(place)));
    made.append(button);
    return made;
  }), state.unknown && [state.unknown, 'after']);
  by('reaches-shown').textContent = reached.length ? `${view.reaches + 1} to ${last} of ${state.reaches}` : '';
  by('reaches-back').disabled = view.reaches === 0;
  by('reaches-on').disabled = last >= state.reaches;
}

// Puts the entries into a list. `more` are words for those that are left out, and 'before' or 'after'.
function list(into, entries, more) {
  if (more) entries.splice(more[1] === 'before' ? 0 : entries.length, 0, element('li', 'note', more[0]));
  if (!entries.length) entries.push(element('li', 'note', 'empty'));
  into.replaceChildren(...entries);
}

// Puts nodes into a tree, of which one can be reached by Tab.
function tree(into, nodes, note, isLast) {
  into.replaceChildren(...nodes, ...(note ? [treeNote(note)] : []));
  const all = into.querySelectorAll('.thing');
  if (all.length) all[isLast ? all.length - 1 : 0].tabIndex = 0;
}

// A line of a tree that is no object.
function treeNote(text) {
  const made = element('p', 'note', text);
  made.setAttribute('role', 'treeitem');
  return made;
}

function mark(place) {
  return element('li', 'mark', `mark, set by the opcode at place ${place}`);
}

function item(key, number, text) {
  const made = element('li');
  made.append(thing(key, number, text));
  return made;
}

function thing(key, number, text) {
  const made = element('button', 'thing');
  made.type = 'button';
  made.append(element('span', 'key', key), element('span', 'number', '#' + number), document.createTextNode(' ' + text));
  made.title = `#${number} ${text}`;
  made.dataset.number = number;
  let waiting = 0;
  made.addEventListener('mouseenter', () => { waiting = setTimeout(point, 80, number); });
  made.addEventListener('mouseleave', () => clearTimeout(waiting));
  made.addEventListener('focus', () => point(number));
  made.addEventListener('click', () => { point(number); if (!made.closest('[role=tree]')) reveal(number); });
  return made;
}

// An object of a tree, which opens to what it holds. `above` are the objects that it is in: one of these is not opened again.
function node(key, number, text, above) {
  const made = element('div', 'node'), isAbove = above.includes(number);
  made.setAttribute('role', 'treeitem');
  const button = thing(key, number, isAbove ? text + ' (holds itself: a cycle)' : text);
  button.tabIndex = -1;
  made.append(button);
  if (isAbove) return made;
  made.setAttribute('aria-expanded', 'false');
  button.addEventListener('click', () => open(made, number, above));
  return made;
}

async function open(made, number, above) {
  const inner = made.querySelector(':scope > .inner');
  made.setAttribute('aria-expanded', String(!inner));
  if (inner) { inner.remove(); return; }
  const group = made.appendChild(element('div', 'inner'));
  group.setAttribute('role', 'group');
  const answer = await ask('holds', { number });
  if (!answer.parts) return;
  group.append(...answer.parts.map(([how, part, shown]) => node(how ? how + ' ' : '', part, shownObject(shown), [...above, number])));
  if (answer.more) group.append(treeNote(`${answer.more} more`));
  if (!answer.parts.length) group.append(treeNote('holds no object'));
}

async function reveal(number) {
  view.objects = Math.max(0, number - PAGE / 2);
  showPane('objects');
  await things();
  const found = by('objects').querySelector(`.thing[data-number="${number}"]`);
  if (found) { found.scrollIntoView({ block: 'center' }); found.focus(); }
}

// --- About ---

// What the selected opcode does, takes and makes.
function explain() {
  const row = rowAt(view.selected), state = view.state;
  const isAt = view.selected === state.place;
  const reached = row ? reachOfRow(row.reach) : '', key = row && state.places ? [state.version, view.selected, isAt, row.opcode, reached].join(' ') : '';
  if (by('opcode').dataset.key === key) return;
  by('opcode').dataset.key = key;
  if (!key) { by('opcode').replaceChildren(); return; }
  const { says, takes, leaves } = view.opcodes[row.opcode];
  const first = element('p');
  first.append(element('span', 'word', row.opcode), document.createTextNode(` ${says}`));
  const effect = element('p', 'effect');
  effect.append(element('span', 'key', 'stack: '), takes || 'nothing', element('span', 'key', ' → '), leaves || 'nothing');
  const here = isAt ? [element('p', 'effect', 'here: ..')] : [];
  by('opcode').replaceChildren(first, effect, ...here, ...(reached ? [element('p', 'reach', `→ ${reached}`)] : []));
  if (isAt) showEffect(here[0], key);
}

// What the opcode at the cursor takes from the stack as it is, what it leaves there, and what it stores.
async function showEffect(into, key) {
  const answer = await ask('effect');
  if (by('opcode').dataset.key !== key) return;
  if (answer.refused) into.textContent = `here: refused, ${answer.refused}`;
  else if (answer.before)
    into.replaceChildren(element('span', 'key', 'here: '), shownTop(answer.before), element('span', 'key', ' → '), shownTop(answer.after),
      ...(answer.memo === undefined ? [] : [element('span', 'key', ', in the memo under '), String(answer.memo)]));
  else into.remove();
}

const cutShort = (text) => (text.length > MOST_HERE ? text.slice(0, MOST_HERE) + '..' : text);
const shownTop = ({ things, more }) => [...(more ? [`${more} more`] : []),
  ...things.map(([entry, thing]) => (isMark(entry) ? 'mark' : cutShort(`#${entry} ${shownObject(thing)}`)))].join(', ') || 'nothing';

// Which opcode made an object, and where else it is.
async function point(number) {
  if (view.pointed === number && view.pointedIn === view.state) return;
  view.pointed = number;
  view.pointedIn = view.state;
  const answer = await ask('about', { number });
  if (view.pointed !== number || !answer.stack) return;
  document.querySelectorAll('.thing').forEach((thing) => thing.classList.toggle('pointed', thing.dataset.number === String(number)));
  const lines = [element('p', '', `#${number}` + (answer.row === null ? '' : ' was made at place ' + answer.maker + ' by'))];
  if (answer.row !== null) {
    const { offset, opcode } = answer.row;
    const button = element('button', 'thing', `${offset}: ${signOf(opcode)} ${opcode} ${shownOpcode(answer.row)}`);
    button.type = 'button';
    button.addEventListener('click', () => { select(answer.maker); by('listing').focus(); });
    lines.push(button);
  }
  const places = [answer.stack.length && 'on the stack at ' + answer.stack.join(', '), answer.memo.length && 'in the memo under ' + answer.memo.join(', '),
    answer.held.length && 'in ' + answer.held.map((holder) => '#' + holder).join(', ')].filter(Boolean);
  lines.push(element('p', '', places.length ? 'It stands ' + places.join('; ') : 'It stands nowhere else now.'));
  by('about').replaceChildren(...lines);
}

// --- Panes ---

const PANES = ['objects', 'reached', 'result'];

function showPane(name) {
  for (const pane of PANES) {
    const isShown = pane === name, tab = by(`tab-${pane}`);
    by(`pane-${pane}`).hidden = !isShown;
    tab.setAttribute('aria-selected', String(isShown));
    tab.tabIndex = isShown ? 0 : -1;
  }
  showSource();
}

function wirePanes() {
  PANES.forEach((pane, at) => {
    const tab = by(`tab-${pane}`);
    tab.addEventListener('click', () => showPane(pane));
    tab.addEventListener('keydown', (event) => {
      const other = { ArrowRight: at + 1, ArrowLeft: at - 1, Home: 0, End: PANES.length - 1 }[event.key];
      if (other === undefined) return;
      const to = PANES[(other + PANES.length) % PANES.length];
      event.preventDefault();
      event.stopPropagation();
      showPane(to);
      by(`tab-${to}`).focus();
    });
  });
}

// The keys of a tree: up and down go from line to line, right opens, left closes.
function inTree(event) {
  const target = event.target;
  if (!target.matches('.thing')) return false;
  const all = [...target.closest('[role=tree]').querySelectorAll('.thing')];
  const to = all[all.indexOf(target) + { ArrowDown: 1, ArrowUp: -1 }[event.key]];
  const isOpen = target.closest('[role=treeitem]').getAttribute('aria-expanded');
  if (to) { target.tabIndex = -1; to.tabIndex = 0; to.focus(); } else if (event.key === 'ArrowRight' && isOpen === 'false') target.click();
  else if (event.key === 'ArrowLeft' && isOpen === 'true') target.click();
  else return ['ArrowDown', 'ArrowUp', 'ArrowRight', 'ArrowLeft'].includes(event.key);
  event.preventDefault();
  return true;
}
