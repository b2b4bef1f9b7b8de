'use strict';
// A pickle as Python source, word for word as `picklestep source` writes it: texts are cut after 64 letters and containers after 16 items.

const BRACKETS = { list: ['[', ']'], tuple: ['(', ')'], set: ['{', '}'], dict: ['{', '}'], frozenset: ['frozenset({', '})'] };
const EMPTY = { list: '[]', tuple: '()', dict: '{}', set: 'set()', frozenset: 'frozenset()' };

const PAIR = /[\ud800-\udbff][\udc00-\udfff]/g;

// How many letters a text has for Python.
const lettersOf = (text) => text.length - (text.match(PAIR) || []).length;

// Texts in brackets: in one line where that is short.
function bracketed(start, end, texts, isTuple = false) {
  if (!texts.length) return start + end;
  const inner = texts.join(', '), isOneLine = !inner.includes('\n');
  if (isOneLine && lettersOf(inner) + lettersOf(start) < MOST.columns) return isTuple && texts.length === 1 ? `${start}${inner},${end}` : start + inner + end;
  const longest = Math.max(...texts.map(lettersOf));
  let lines = texts;
  if (longest < MOST.columns / 4 && isOneLine) {
    const count = Math.floor(MOST.columns / (longest + 2));
    lines = Array.from({ length: Math.ceil(texts.length / count) }, (_, at) => texts.slice(count * at, count * (at + 1)).join(', '));
  } else if (!isOneLine) lines = texts.map((text) => text.replaceAll('\n', '\n    '));
  return `${start}\n    ${lines.join(',\n    ')},\n${end}`;
}

class Writer {
  constructor(names) {
    this.names = names;
    this.lines = [];
    this.isCut = false;
  }

  // What stands for so many that are not shown.
  cut(count, before = '') {
    this.isCut = true;
    return `${before}cut(${count})`;
  }

  // A statement ends, with its opcode's offset where it reaches out of the pickle.
  end(statement, offset, note = '') {
    this.lines.push(offset === null ? statement : `${statement}  # ${offset}${note}`);
  }

  // A node comes to be. It gets a statement where it is used more than once, or is deep.
  place(node) {
    const [text, depth] = node.kind === 'atom' ? [this.atom(node), 0] : this.container(node);
    node.isNamed = node.uses > 1 || depth > MOST.depth;
    node.text = node.isNamed ? `_${node.number}` : text;
    if (node.isNamed) this.lines.push(`${node.text} = ${text}`);
    else node.depth = depth;
  }

  // A long plain value.
  atom({ text, isShortened }) {
    if (isShortened) this.isCut = true;
    if (isShortened || lettersOf(text) <= MOST.letters + 20) return text;
    const [, isBytes, quote] = /^(b?)(['"]?)/.exec(text);
    if (!quote || !text.endsWith(quote)) {
      this.isCut = true;
      return cutSource(text, lettersOf(text)).text;
    }
    const signs = signsOfLiteral(text), first = signs.slice(0, MOST.letters);
    if (signs.length <= MOST.letters) return text;
    return this.cut(signs.length - MOST.letters, `${isBytes ? pythonBytes(latin(first.join(''))) : signsSource(first)} + `);
  }

  // The literal of a container, and how deep it is.
  container({ kind, items, inner }) {
    if (!items.length) return [EMPTY[kind], 0];
    const [start, end] = BRACKETS[kind], isDict = kind === 'dict';
    const depth = 1 + inner.reduce((most, node) => Math.max(most, node.depth), 0);
    if (!isDict) return [bracketed(start, end, this.shown(items), kind === 'tuple'), depth];
    const keys = keysOf(items.slice(0, 2 * MOST.items)), more = items.length / 2 - keys.length;
    return [bracketed(start, end, [...keys.map((key, at) => `${key}: ${items[2 * at + 1]}`), ...(more ? [this.cut(more, '**')] : [])]), depth];
  }

  // How entries appear, as many as are shown, and how many more there are.
  shown(entries) {
    const more = entries.length - MOST.items;
    return [...entries.slice(0, MOST.items).map(String), ...(more > 0 ? [this.cut(more, '*')] : [])];
  }

  call({ number, method, called, items, spread, keywords, offset }) {
    const texts = this.shown(items);
    if (spread !== null && spread.kind === 'tuple' && !spread.isNamed) texts.push(...this.shown(spread.items));
    else if (spread !== null && spread !== '()') texts.push(isTuple(spread) ? `*${spread}` : `*arguments(${spread})`);
    if (keywords !== null) texts.push(...this.keywords(keywords));
    this.end(`_${number} = ${bracketed(`${called}${method}(`, ')', texts)}`, offset);
  }

  keywords(keywords) {
    if (keywords.kind !== 'dict') return [`**keywords(${keywords})`];
    if (keywords.isNamed) return [`**${keywords}`];
    const names = keysOf(keywords.items).map((key) => (!isNode(key) && key[0] === "'" ? key.slice(1, -1) : ''));
    const areNames = new Set(names).size === names.length && names.length <= MOST.items && names.every((name) => this.names.isIdentifier(name));
    return areNames ? names.map((name, at) => `${name}=${keywords.items[2 * at + 1]}`) : [`**${keywords}`];
  }

  fill({ form, target, items, isEach, offset }) {
    const texts = this.shown(items);
    for (const text of isEach ? texts : [bracketed('[', ']', texts)]) this.end(form(String(target), text), offset);
  }

  pair({ target, items, offset }) {
    const count = items.length / 2, shown = Math.min(count, MOST.items);
    for (let at = 0; at < shown; at += 1) this.end(`${target}[${items[2 * at]}] = ${items[2 * at + 1]}`, offset);
    if (shown < count) this.end(`${target}.update(${this.cut(count - shown)})`, offset);
  }
}

// How reading ended early, in words.
const earlyWords = (end, lastOffset) => ({ refused: `${endWords(end)} at ${lastOffset}`, fault: endWords(end) }[end.how] || '');

// The source of a pickle: its bytes, the offsets of its opcodes as far as a loader gets, and how reading ended.
function sourceOf(content, offsets, end, { opcodes, facts, reachAt, isPart }) {
  Object.assign(MOST, facts.most);
  const early = earlyWords(end, offsets.at(-1) || 0), { code, kept, of_frame: isOfFrame } = end;
  const builder = new Builder(content, opcodes, facts, reachAt);
  for (let at = 0; at < offsets.length - Number(end.how === 'refused'); at += 1) builder.read(offsets.at(at));
  const left = early ? builder.leave() : [];
  const writer = new Writer(builder.names);
  for (const event of builder.events) event.write(writer);
  if (early) {
    writer.lines.push(`# ${early}: reading ends here${code === 'F1' ? '' : facts.behind}, and the stack is`);
    writer.end(`stack = [${left.map(String).join(', ')}]`, null);
  }
  if (kept) writer.lines.push(`# ${kept} bytes after STOP are not read`);
  for (const hint of hintsOf({ arrayAt: builder.arrayAt, isOfFrame }, facts)) writer.lines.push(`# ${hint}`);
  const heads = early || kept || isPart || builder.arrayAt !== null ? facts.headsOfPart : facts.heads;
  const head = Object.entries(facts.helpers).filter(([need]) => builder.needs.has(need)).map(([, text]) => text);
  return `${heads[Number(writer.isCut)]}${head.join('')}${writer.lines.join('\n')}\n`;
}
