'use strict';
// Where the bytes of the pickle go: the drawing that a server makes, in which each object is a rectangle.

const MOST_MEASURED = 1000000; // opcodes

async function openSizes() {
  by('sizes').replaceChildren();
  by('sizes-said').textContent = 'measuring ..';
  by('sizes-dialog').showModal();
  const isLong = view.state.part || view.state.places > MOST_MEASURED;
  const { drawing, heading, said } = isLong ? {} : await host.sizes(by('sizes').clientWidth, by('sizes').clientHeight);
  by('sizes-said').textContent = isLong ? 'Too long for this page: picklestep size FILE --svg OUT draws it.' : plain((heading || [said]).join('; '));
  if (!drawing) return;
  by('sizes').replaceChildren(treeOf(new DOMParser().parseFromString(drawing, 'image/svg+xml').documentElement));
  const first = by('sizes').querySelector('[role=treeitem]');
  if (first) focusOn(first);
}

// The drawing as a tree of rectangles, of which one can be reached by Tab.
function treeOf(drawing) {
  drawing.setAttribute('role', 'tree');
  drawing.setAttribute('aria-labelledby', 'sizes-title');
  for (const each of drawing.querySelectorAll('g')) {
    each.setAttribute('role', 'treeitem');
    each.setAttribute('aria-label', each.querySelector(':scope > title').textContent);
    each.setAttribute('tabindex', '-1');
  }
  for (const each of drawing.querySelectorAll('g:has(> g)')) {
    const group = document.createElementNS(drawing.namespaceURI, 'g');
    group.setAttribute('role', 'group');
    group.append(...each.querySelectorAll(':scope > g'));
    each.append(group);
  }
  return document.importNode(drawing, true);
}

function focusOn(item) {
  by('sizes').querySelectorAll('[tabindex="0"]').forEach((each) => each.setAttribute('tabindex', '-1'));
  item.setAttribute('tabindex', '0');
  item.focus();
}

// The keys of the drawing: up and down go through all rectangles, left goes out of one, and right into it.
function pressedInSizes(event) {
  const item = event.target.closest('[role=treeitem]');
  if (!item) return;
  const all = [...by('sizes').querySelectorAll('[role=treeitem]')], at = all.indexOf(item);
  const to = { ArrowDown: all[at + 1], ArrowUp: all[at - 1], ArrowRight: item.querySelector('[role=treeitem]'),
    ArrowLeft: item.parentElement.closest('[role=treeitem]'), Home: all[0], End: all.at(-1) }[event.key];
  if (to) focusOn(to);
  else if (event.key === 'Enter' || event.key === ' ') goToMaker(item);
  else return;
  event.preventDefault();
}

// Goes to the opcode that makes the object of a rectangle. (Overhead has none.)
function goToMaker(item) {
  if (item.dataset.place === undefined) return;
  by('sizes-dialog').close();
  select(Number(item.dataset.place));
  by('listing').focus();
}

function wireSizes() {
  KEYS.z = openSizes;
  by('measure').hidden = false;
  by('measure').addEventListener('click', () => { if (view.state) openSizes(); });
  by('sizes').addEventListener('keydown', pressedInSizes);
  by('sizes').addEventListener('click', (event) => {
    const item = event.target.closest('[role=treeitem]');
    if (item) goToMaker(item);
  });
}
