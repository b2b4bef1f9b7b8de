'use strict';
// Reads the opcodes of a pickle, and finds what they build and in which order it happens, as `picklestep source` does. The program says
// which opcodes there are, which of them is refused, and where reading ends; here is only kept which object lies where on the stack and in
// the memo.

const LENGTHS = { string1: 1, string4: 4, bytes1: 1, bytes4: 4, bytes8: 8, bytearray8: 8, unicodestring1: 1, unicodestring4: 4, unicodestring8: 8,
  long1: 1, long4: 4 }; // of the lengths before arguments, by their forms

class Builder {
  // `facts` are what `picklestep source` knows too; `reachAt` answers the fields of a line of `calls --json` by an offset.
  constructor(content, opcodes, facts, reachAt) {
    Object.assign(this, { content, facts, reachAt, view: new DataView(content.buffer, content.byteOffset, content.length) });
    Object.assign(this, { events: [], needs: new Set(), stack: [], results: 0, names: new Names(facts), made: 0, handlers: [] });
    // Where joblib's first array begins; and the class that stands for one, and what is made of it, by their numbers.
    Object.assign(this, { arrayAt: null, arrayClasses: new Set(), arrays: new Set() });
    for (const [name, opcode] of Object.entries(opcodes)) this.handlers[codeOf(opcode.code)] = this.handlerOf(name, opcode.form);
    this.begin();
  }

  // A pickle begins.
  begin() {
    Object.assign(this, { marks: [], memo: new Map(), protocol: 0 });
    this.stack.length = 0;
    this.names.begin();
  }

  // Reads the opcode at an offset.
  read(offset) {
    this.offset = offset;
    this.handlers[this.content[offset]]();
  }

  handlerOf(name, form) {
    const kind = this.facts.kinds[name];
    if (HANDLERS[name]) return () => HANDLERS[name](this);
    if (kind) return () => this.pushContainer(kind[0], kind[1] === null ? this.cut() : this.last(kind[1]));
    if (name.startsWith('EXT')) return () => this.callOwn('extension', [String(this.number(form)), `protocol=${this.protocol}`]);
    if (name.endsWith('PUT')) return () => this.memo.set(this.number(form), this.stack.at(-1));
    if (name.endsWith('GET')) return () => this.stack.push(this.memo.get(this.number(form)));
    return () => this.pushValue(this.valueOf(name, form));
  }

  // --- Arguments ---

  // A number without a sign, or of four bytes, or of a line.
  number(form) {
    const at = this.offset + 1;
    if (form === 'uint1') return this.content[at];
    if (form === 'uint2') return this.view.getUint16(at, true);
    if (form === 'uint4') return this.view.getUint32(at, true);
    if (form === 'int4') return this.view.getInt32(at, true);
    const value = BigInt(binary(this.line()).trim());
    return value <= Number.MAX_SAFE_INTEGER ? Number(value) : value;
  }

  // The bytes that are counted before them.
  counted(form) {
    const at = this.offset + 1, width = LENGTHS[form];
    const count = width === 1 ? this.content[at] : width === 4 ? this.view.getUint32(at, true) : Number(this.view.getBigUint64(at, true));
    return this.content.subarray(at + width, at + width + count);
  }

  // A line, of two the second one where that is asked for.
  line(which = 0) {
    let at = this.offset + 1, end = this.content.indexOf(NEWLINE, at);
    if (which) [at, end] = [end + 1, this.content.indexOf(NEWLINE, end + 1)];
    return this.content.subarray(at, end);
  }

  valueOf(name, form) {
    if (!form) return { NONE: 'None', NEWTRUE: 'True', NEWFALSE: 'False' }[name];
    if (form in NUMBERS) return String(this.number(form));
    if (form === 'float8') return floatSource(this.view.getFloat64(this.offset + 1), this.content[this.offset + 1] > 127);
    if (!(form in LENGTHS)) return lineSource(name, this.line());
    const bytes = this.counted(form);
    if (form.startsWith('long')) return wholeSource(wholeOfHex(hexOf(bytes)));
    if (form.startsWith('string')) return lineSource(name, bytes);
    return form.startsWith('bytes') ? bytesSource(bytes) : textSource(bytes);
  }

  // --- The stack ---

  push(node) {
    this.stack.push(node);
    this.made += 1;
  }

  pushValue(source) {
    if (typeof source === 'string' && lettersOf(source) <= MOST.short) {
      this.push(source);
      return;
    }
    const node = this.pushAtom(source instanceof Failing ? source.source : source);
    node.isPure = true;
    if (source instanceof Failing) this.nameNow(node); // (loading ends there)
  }

  pushAtom(source) {
    const node = new Node('atom', this.made, [], String(source.text || source));
    node.isShortened = source instanceof Shortened;
    this.push(node);
    return node;
  }

  // What is above the topmost mark, which is taken away.
  cut() {
    return this.stack.splice(this.marks.pop());
  }

  last(count) {
    return count ? this.stack.splice(-count) : [];
  }

  stop() {
    const result = this.take(this.stack.pop());
    this.results += 1;
    const name = this.results === 1 ? 'result' : `result_${this.results}`;
    this.events.push(new Statement((value) => `${name} = ${value}`, [result]));
    this.begin();
  }

  pop() {
    if (this.marks.at(-1) === this.stack.length) this.marks.pop();
    else this.stack.pop();
  }

  // --- Containers ---

  // An object is needed by another one. Where it is needed first, its literal ends.
  take(entry) {
    if (!isNode(entry)) return entry;
    entry.uses += 1;
    if (!entry.isTaken) this.events.push(entry);
    entry.isTaken = true;
    return entry;
  }

  // Objects are needed. Answers those of them that are nodes.
  takeAll(entries) {
    const nodes = entries.filter(isNode);
    nodes.forEach((node) => this.take(node));
    return nodes;
  }

  // The object is made here and not later.
  nameNow(node) {
    this.take(node);
    node.uses += 1;
  }

  pushContainer(kind, items) {
    const node = new Node(kind, this.made, items);
    node.inner = this.takeAll(items);
    this.push(node);
    node.isPure = (kind === 'tuple' || kind === 'frozenset') && arePure(node.inner);
    if ((kind === 'frozenset' && !node.isPure) || (kind === 'dict' && !arePure(keysOf(items)))) this.nameNow(node);
  }

  // Puts items into the container on top of the stack, while its literal goes on. Answers the container where a statement has to do it.
  extendLiteral(items, keys) {
    if (!items.length) return null;
    const target = this.stack.at(-1), nodes = this.takeAll(items);
    if (target.isTaken) {
      target.uses += 1;
      return target;
    }
    for (const item of items) target.items.push(item);
    for (const node of nodes) target.inner.push(node);
    if (nodes.length && target.kind !== 'list' && !arePure(keys)) this.nameNow(target);
    return null;
  }

  // What is filled next is filled by statements, where it is of these kinds: no literal says that a byte array grows, or an item is replaced.
  endLiteral(...kinds) {
    const target = this.stack.at(-1);
    if (isNode(target) && kinds.includes(target.kind) && !target.isTaken) this.nameNow(target);
  }

  fill(items, method) {
    this.endLiteral('atom');
    const target = this.extendLiteral(items, items);
    if (!target) return;
    const isEach = items.length === 1 && !target.isOpaque;
    const many = method === 'add' ? 'update' : 'extend';
    let form = (into, item) => `${into}.${isEach ? method : many}(${item})`;
    if (target.isOpaque) {
      const helper = method === 'add' ? 'add_items' : 'extend';
      form = (into, item) => `${helper}(${into}, ${item})`;
      this.needs.add(helper);
    }
    this.events.push(new Filled(form, target, items, isEach, target.isOpaque ? this.offset : null));
  }

  set(items) {
    this.endLiteral('atom', 'list');
    const target = this.extendLiteral(items, keysOf(items));
    if (target) this.events.push(new Paired(target, items, target.isOpaque ? this.offset : null));
  }

  // --- What reaches out ---

  pushName(text = `_${this.made}`) {
    const node = new Node('name', this.made, [], text);
    this.push(node);
    return node;
  }

  // Imports a name, and answers how it is called. What Python 3 imports for one of Python 2 the program says.
  import(module, name) {
    const found = this.protocol >= 3 ? null : newNames(this.reachAt(this.offset));
    const bound = this.names.bind(...(found || [module, name]), this.made, this.protocol >= 4);
    for (const need of bound.needs) this.needs.add(need);
    if (String(name.value).split('.').at(-1) === WRAPPER) this.arrayClasses.add(this.made);
    this.events.push(new Statement(() => bound.statement, [], this.offset, found ? `, in the pickle ${module.shown} ${name.shown}` : ''));
    return bound.text;
  }

  // Imports what two lines name. Where one is no name it fails as C's unpickler does: before anything is imported.
  importLines(encoding) {
    const lines = [this.line(), this.line(1)];
    const names = lines.map((line) => nameOfLine(line, encoding)), at = names.findIndex((name) => !name || !name.value);
    if (at < 0) return this.import(...names);
    const statement = names[at] ? "raise EOFError('a name is empty')" : `${pythonBytes(lines[at])}.decode('${encoding}')`;
    this.events.push(new Statement(() => statement, [], this.offset));
    return `_${this.made}`;
  }

  importTexts() {
    const [module, name] = this.last(2).map((entry) => this.take(entry)), texts = [nameOfEntry(module), nameOfEntry(name)];
    if (texts[0] && texts[1]) {
      this.pushName(this.import(...texts));
      return;
    }
    this.needs.add('find_class').add('unpickle');
    const { made, protocol } = this;
    this.events.push(new Statement((one, other) => `_${made} = find_class(${one}, ${other}, protocol=${protocol})`, [module, name], this.offset));
    this.pushName();
  }

  // A call of what the source is given, or defines.
  callOwn(called, items) {
    this.needs.add(called);
    if (called === 'extension') this.needs.add('unpickle');
    this.call('', called, { items });
  }

  call(method, called, words) {
    for (const entry of [called, ...(words.items || []), words.spread || '', words.keywords || '']) this.take(entry);
    if (words.spread && !isTuple(words.spread)) this.needs.add('arguments');
    if (words.keywords && words.keywords.kind !== 'dict') this.needs.add('keywords');
    if (this.arrayClasses.size && [called, ...(words.items || []), words.spread].some((entry) => this.isArrayClass(entry))) this.arrays.add(this.made);
    this.events.push(new Called(this.made, method, called, words, this.offset));
    this.pushName();
  }

  // Whether it is the class that stands for joblib's arrays, or a tuple with that.
  isArrayClass(entry) {
    return isNode(entry) && (this.arrayClasses.has(entry.number) || (entry.kind === 'tuple' && entry.inner.some((each) => this.isArrayClass(each))));
  }

  instantiate(kind, items) {
    if (items.length) this.call('', kind, { items });
    else this.callOwn('instantiate', [kind]);
  }

  instantiateNamed() {
    const items = this.cut();
    this.instantiate(new Node('name', this.made, [], this.importLines('ascii')), items);
  }

  build() {
    const state = this.take(this.stack.pop()), target = this.take(this.stack.at(-1));
    if (this.arrayAt === null && isNode(target) && this.arrays.has(target.number)) this.arrayAt = this.offset + 1;
    this.needs.add('set_state');
    this.events.push(new Statement((one, other) => `set_state(${one}, ${other})`, [target, state], this.offset));
  }

  nextBuffer() {
    const name = `_${this.made}`;
    this.needs.add('buffers');
    this.events.push(new Statement(() => `${name} = next(buffers)`, [], this.offset));
    this.pushName().kind = 'buffer';
  }

  readonlyBuffer() {
    const buffer = this.stack.at(-1), kind = buffer.kind || '', name = `_${this.made}`;
    if (/^b['"]/.test(String(buffer)) || kind === 'readonly') return;
    this.take(this.stack.pop());
    const view = (one) => `memoryview(${one}).toreadonly()`;
    const form = (one) => `${name} = ${buffer.isOpaque ? `${one} if memoryview(${one}).readonly else ` : ''}${view(one)}`;
    this.events.push(new Statement(form, [buffer], kind === 'name' ? this.offset : null));
    Object.assign(this.pushName(), { kind: 'readonly', isOpaque: false });
  }

  // What is on the stack where reading ends early. It is needed here.
  leave() {
    this.takeAll(this.stack);
    return this.stack;
  }
}

const NUMBERS = { uint1: 1, uint2: 1, int4: 1 };

const HANDLERS = {
  PROTO: (built) => { built.protocol = built.number('uint1'); }, FRAME: () => {}, STOP: (built) => built.stop(),
  MARK: (built) => built.marks.push(built.stack.length), POP: (built) => built.pop(), POP_MARK: (built) => built.cut(),
  DUP: (built) => built.stack.push(built.stack.at(-1)), MEMOIZE: (built) => built.memo.set(built.memo.size, built.stack.at(-1)),
  EMPTY_TUPLE: (built) => built.push('()'), BYTEARRAY8: (built) => built.pushAtom(bytearraySource(built.counted('bytearray8'))),
  APPEND: (built) => built.fill([built.stack.pop()], 'append'), APPENDS: (built) => built.fill(built.cut(), 'append'),
  ADDITEMS: (built) => built.fill(built.cut(), 'add'), SETITEM: (built) => built.set(built.last(2)), SETITEMS: (built) => built.set(built.cut()),
  GLOBAL: (built) => built.pushName(built.importLines('utf-8')), STACK_GLOBAL: (built) => built.importTexts(), INST: (built) => built.instantiateNamed(),
  PERSID: (built) => built.callOwn('persistent_load', [String(lineSource('PERSID', built.line()))]),
  BINPERSID: (built) => built.callOwn('persistent_load', built.last(1)), BUILD: (built) => built.build(),
  REDUCE: (built) => { const [called, spread] = built.last(2); built.call('', called, { spread }); },
  NEWOBJ: (built) => { const [kind, spread] = built.last(2); built.call('.__new__', kind, { items: [kind], spread }); },
  NEWOBJ_EX: (built) => { const [kind, spread, keywords] = built.last(3); built.call('.__new__', kind, { items: [kind], spread, keywords }); },
  OBJ: (built) => { const [kind, ...items] = built.cut(); built.instantiate(kind, items); },
  NEXT_BUFFER: (built) => built.nextBuffer(), READONLY_BUFFER: (built) => built.readonlyBuffer(),
};
