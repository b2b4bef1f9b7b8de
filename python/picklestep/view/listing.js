'use strict';
// The listing: only the rows that are seen.

const HEIGHT = 20;
const CHUNK = 200;
const RAIL = 4000000;

const seen = () => Math.max(1, Math.floor(by('listing').clientHeight / HEIGHT));
const lowest = () => Math.max(0, (view.state ? view.state.places : 0) + 1 - seen());

function scroll(top, fromRail) {
  view.top = Math.min(lowest(), Math.max(0, top));
  if (!fromRail) {
    const rail = by('rail');
    view.railed = Math.round(lowest() ? view.top / lowest() * (rail.scrollHeight - rail.clientHeight) : 0);
    rail.scrollTop = view.railed;
  }
  draw();
}

function select(place) {
  if (!view.state) return; // (another pickle is being opened)
  view.selected = Math.min(Math.max(0, place), Math.max(0, view.state.places - 1));
  if (view.selected < view.top + 1) scroll(view.selected - Math.min(2, seen() - 1));
  else if (view.selected > view.top + seen() - 2) scroll(view.selected - seen() + 3);
  else draw();
}

function draw() {
  if (view.drawing) return;
  view.drawing = true;
  requestAnimationFrame(() => { view.drawing = false; paint(); });
}

function paint() {
  const listing = by('listing');
  const state = view.state;
  if (!state) return;
  const first = Math.floor(view.top);
  const count = seen() + 2;
  while (view.rows.length < count) view.rows.push(listing.appendChild(row()));
  while (view.rows.length > count) view.rows.pop().remove();
  view.rows.forEach((made, at) => fill(made, first + at, (first + at - view.top) * HEIGHT));
  if (view.selected >= first && view.selected < first + count) listing.setAttribute('aria-activedescendant', 'row' + (view.selected - first));
  else listing.removeAttribute('aria-activedescendant');
  fetchChunks(first, first + count);
  explain();
}

function row() {
  const made = element('div', 'row');
  made.setAttribute('role', 'option');
  made.id = 'row' + view.rows.length;
  for (const name of ['gutter', 'pointer', 'offset', 'code', 'name', 'argument']) made.append(element('span', name));
  made.lastChild.append(element('span', 'value'), element('span', 'reach'));
  made.addEventListener('mousedown', (event) => {
    if (!view.state) return;
    const place = Number(made.dataset.place);
    if (event.target.matches('.gutter, .offset')) toggle(place);
    else if (place < view.state.places) select(place);
  });
  made.addEventListener('dblclick', (event) => { if (view.state && !event.target.matches('.gutter, .offset')) go(Number(made.dataset.place)); });
  return made;
}

// The row at a place, where it is known.
function rowAt(place) {
  const chunk = view.chunks.get(Math.floor(place / CHUNK));
  return chunk && chunk[place % CHUNK];
}

const NO_ROW = { offset: '', opcode: '..', marks: 0, kind: '' };

function fill(made, place, top) {
  const state = view.state, isAt = place === state.place;
  const shown = rowAt(place) || (place === state.places ? { ...NO_ROW, opcode: 'the end' } : NO_ROW), { kind, isBroken, isEdited } = shown;
  made.style.top = top + 'px';
  made.dataset.place = place;
  made.hidden = place > state.places;
  const [, pointer, offset, code, name, argument] = made.children;
  const value = shownOpcode(shown), reached = reachOfRow(shown.reach);
  pointer.textContent = isAt ? '▶' : '';
  offset.textContent = shown.offset;
  code.textContent = signOf(shown.opcode);
  name.textContent = shown.opcode;
  name.style.paddingLeft = Math.min(160, 16 * shown.marks) + 'px';
  argument.children[0].textContent = value;
  argument.children[1].textContent = reached && '→ ' + reached;
  argument.title = [value, reached && '→ ' + reached].filter(Boolean).join(' ');
  made.className = ['row', kind, isAt && 'at', isBroken && 'broken', isEdited && 'edited', place === view.selected && 'selected'].filter(Boolean).join(' ');
  made.setAttribute('aria-selected', place === view.selected);
  made.setAttribute('aria-posinset', place + 1);
  made.setAttribute('aria-setsize', state.places);
  made.setAttribute('aria-label', [isAt && 'cursor', isBroken && 'breakpoint', isEdited && 'edited', kind, `${shown.offset}`, shown.opcode, value, reached,
    shown.marks && `${shown.marks} marks open`].filter(Boolean).join(', '));
}

function fetchChunks(first, end) {
  for (let chunk = Math.floor(first / CHUNK); chunk <= Math.floor(end / CHUNK); chunk += 1) fetchChunk(chunk);
}

async function fetchChunk(chunk) {
  const state = view.state;
  const key = chunk + ' ' + state.version + ' ' + state.breaks;
  if (view.chunks.has(chunk) || view.waiting.has(key) || view.waiting.size > 4 || chunk * CHUNK >= state.places) return;
  view.waiting.add(key);
  const answer = await ask('rows', { start: chunk * CHUNK, count: CHUNK });
  view.waiting.delete(key);
  if (answer.rows && view.state && answer.version === view.state.version && state.breaks === view.state.breaks) {
    if (view.chunks.size > 100) view.chunks.clear();
    view.chunks.set(chunk, answer.rows);
  }
  draw();
}

function wireListing() {
  const listing = by('listing');
  listing.addEventListener('wheel', (event) => {
    event.preventDefault();
    scroll(view.top + event.deltaY / (event.deltaMode === 1 ? 1 : HEIGHT));
  }, { passive: false });
  by('rail').addEventListener('scroll', () => {
    const rail = by('rail');
    if (Math.abs(rail.scrollTop - view.railed) < 2) return;
    view.railed = rail.scrollTop;
    scroll(rail.scrollTop / Math.max(1, rail.scrollHeight - rail.clientHeight) * lowest(), true);
  });
  let touched = null;
  listing.addEventListener('touchstart', (event) => { touched = event.touches[0].clientY; }, { passive: true });
  listing.addEventListener('touchmove', (event) => {
    const now = event.touches[0].clientY;
    scroll(view.top + (touched - now) / HEIGHT);
    touched = now;
  }, { passive: true });
  new ResizeObserver(() => { if (view.state) select(view.selected); }).observe(listing);
}
