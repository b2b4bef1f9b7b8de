'use strict';
// Slow steps: what an opcode takes moves from where it stood on the stack to what is made of it.

const FLIGHT = 900; // milliseconds

const isSlow = () => by('slow').checked;

// The rows of the stack with what they show, the top first.
function stackRows() {
  const entries = view.state.stack.entries.slice().reverse();
  return entries.map((entry, at) => ({ entry, shown: by('stack').children[at], box: by('stack').children[at].getBoundingClientRect() }));
}

// Steps, and shows which rows of the stack came and went. The next key waits until that is seen.
async function slowStep(what) {
  if (view.pending) return;
  const before = stackRows();
  await move(what);
  if (!view.state) return; // (another pickle is being opened)
  const after = stackRows();
  let kept = 0; // (how many rows from the bottom are the same)
  while (kept < Math.min(before.length, after.length) && before.at(-1 - kept).entry === after.at(-1 - kept).entry) kept += 1;
  const gone = before.slice(0, before.length - kept), come = after.slice(0, after.length - kept);
  view.pending += 1;
  await Promise.all([...gone.map((row) => leave(row, after[0])), ...come.map(arrive)]);
  view.pending -= 1;
}

const movesLittle = () => matchMedia('(prefers-reduced-motion: reduce)').matches;

// A row that was taken: it moves to the row that is on top now, or goes where none is.
async function leave({ shown, box }, to) {
  const copy = shown.cloneNode(true);
  copy.className = 'flying';
  copy.setAttribute('aria-hidden', 'true');
  Object.assign(copy.style, { left: `${box.left}px`, top: `${box.top}px`, width: `${box.width}px` });
  document.body.append(copy);
  const end = to ? to.box : { left: box.left + 40, top: box.top };
  const moved = movesLittle() ? 'none' : `translate(${end.left - box.left}px, ${end.top - box.top}px)`;
  await copy.animate([{ transform: 'none', opacity: 1 }, { transform: moved, opacity: 0.3 }], { duration: FLIGHT, easing: 'ease-in-out' }).finished;
  copy.remove();
}

// A row that was put on the stack.
function arrive({ shown }) {
  return shown.animate([{ opacity: 0 }, { opacity: 0.2, offset: 0.6 }, { opacity: 1 }], { duration: FLIGHT }).finished;
}

// --- By itself ---

const PAUSE = 900; // milliseconds between two steps,
const TO_READ = 35; // and for each letter that is said there

let playing = 0;

const isPlaying = () => playing !== 0;

// Steps on by itself, or no longer. At the end it begins anew.
async function play(isOn) {
  clearTimeout(playing);
  playing = isOn ? setTimeout(playOn, PAUSE + TO_READ * by('story').textContent.length) : 0;
  by('play').setAttribute('aria-pressed', String(isOn));
  by('play').textContent = isOn ? 'Pause' : 'Play';
  if (isOn && view.state.place === view.state.places) await go(0);
}

async function playOn() {
  const { pickle, version, place } = view.state || {};
  await view.busy;
  await slowStep('step');
  const { state } = view, goesOn = state && state.place > place && state.place < state.places;
  if (isPlaying()) play(Boolean(goesOn && state.version === version && state.pickle === pickle));
}

// A key or a click ends it, but for those that do so themselves.
function wirePlay() {
  const ends = (event) => event.key !== 'a' && !(event.target.closest?.('#play') && [undefined, ' ', 'Enter'].includes(event.key));
  for (const kind of ['keydown', 'pointerdown']) document.addEventListener(kind, (event) => { if (isPlaying() && ends(event)) play(false); }, true);
}

// --- Lessons ---

// What a lesson says from a place on. Each part of its text begins with the place in a line of its own: `4: A mark is set.`
function lessonOf(text) {
  const parts = text.replace(/\r/g, '').split(/^(\d+):[ \t]*/m).slice(1), found = [];
  for (let at = 0; at < parts.length; at += 2) found.push([Number(parts[at]), parts[at + 1].trim()]);
  return { text: found.sort(([one], [other]) => one - other) };
}

// What the example or the lesson says of the place where the cursor is.
function showStory() {
  const part = view.story && view.state ? view.story.text.filter(([place]) => place <= view.state.place).at(-1) : null;
  by('story').hidden = !part;
  by('story').textContent = part ? part[1] : '';
}
