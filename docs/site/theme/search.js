// Looks for words in all pages. The index is a script and no file to fetch, so that it also works where the pages are opened from a disk.
const field = document.getElementById('search');
const found = document.getElementById('found');

function score(entry, words) {
  const title = entry.title.toLowerCase(), text = entry.text.toLowerCase();
  let sum = 0;
  for (const word of words) {
    const times = text.split(word).length - 1;
    if (!times && !title.includes(word)) return 0;
    sum += Math.min(times, 5) + (title.includes(word) ? 20 : 0) + (title === word ? 40 : 0);
  }
  return sum;
}

function excerpt(text, word) {
  const at = Math.max(0, text.toLowerCase().indexOf(word) - 50);
  return (at ? '.. ' : '') + text.slice(at, at + 150).replace(/\s+/g, ' ') + ' ..';
}

function show() {
  const words = field.value.toLowerCase().split(/\s+/).filter(Boolean);
  const entries = words.length ? picklestepIndex.map(entry => [score(entry, words), entry]).filter(([sum]) => sum) : [];
  entries.sort((one, other) => other[0] - one[0]);
  found.replaceChildren(...entries.slice(0, 15).map(([, entry]) => {
    const link = document.createElement('a'), small = document.createElement('small');
    link.href = field.dataset.root + entry.location;
    link.textContent = entry.title;
    small.textContent = excerpt(entry.text, words[0]);
    link.append(small);
    return link;
  }));
  if (words.length && !entries.length) found.textContent = 'Nothing found.';
  found.hidden = !words.length;
}

field.addEventListener('input', show);
document.addEventListener('keydown', event => {
  if (event.key === '/' && document.activeElement !== field) { event.preventDefault(); field.focus(); }
  if (event.key === 'Escape') { field.value = ''; show(); }
});
