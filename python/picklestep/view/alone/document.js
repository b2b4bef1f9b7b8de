'use strict';
// What the page shows of one pickle: a session, and what the program says of the pickle as it is. It answers the page's questions.

const MOST_HELD = 20000; // objects that others hold: where there are more,
const MOST_HELD_BY_ONE = 1000; // an object that holds more than so many is shown as it is at the end
const MOST_LINES = 2000;
const MOST_PARTS = 500;
const MOST_BRIEF = 100; // of them in the line of an object
const MOST_SHORT = 4096; // bytes of an opcode that the session is asked for
const MOST_ENTRIES = 500;
const MOST_HOLDERS = 20;
const MOST_TRIED = 200; // objects that hold one at the end, of which it is asked whether they do at the cursor
const MOST_RESULTS = 5;
const MOST_TOP = 6;
const MOST_BRIEFS = 2 * MOST_ENTRIES + MOST_RESULTS; // of a stack, a memo and results
const MOST_ARGUMENT = 1 << 16;
const MOST_SOURCE = 1000000; // opcodes of a pickle that is written as Python source,
const MOST_SOURCE_BYTES = 1 << 26; // and its bytes,
const MOST_SOURCE_LINES = 1000; // of which so many lines are shown
const MOST_FIRST = 300000; // opcodes that are shown while the rest is read (or up to the last frame that is whole in them),
const MOST_READ = 16000000; // where these are not more
const MOST_CALLS = 3 << 26; // bytes that are read of `calls --json`, in which a long name may stand again and again
const MOST_HOLES = 2000; // words for FRAMEs that are left out
const SHIFTS = { replace: 0, insert: 1, delete: -1, frame: 1, unframe: -1 };

let versions = 0; // (of all documents, so that the page never shows the lines of one in another)

// That an answer has more lines than are wanted.
class Enough extends Error {}

class Document {
  // Opens a pickle. Where it has many opcodes, only the first of them are opened unless it is `isWhole`: the document is a part.
  static open(program, file, name, many, isWhole, progress, reaches, isUnframed) {
    const document = Document.of(program, file, many, progress, isUnframed);
    Object.assign(document, { name, reaches, breaks: new Set(), edits: [], undone: [], version: 0, place: 0 });
    progress('opening');
    document.listing = isWhole ? document.list(MOST_READ) : document.listFirst();
    document.rest = file.subarray(document.content.length); // (what is read of it, with its edits, is saved before that)
    document.unknown = document.isPart ? 'what the rest imports and calls is not known yet' : '';
    progress('debug: reading the opcodes');
    document.session = new Session(program, document.content, many, isUnframed);
    document.read();
    document.pickle = document.version; // (its edits have others)
    return document;
  }

  static of(program, content, many, progress, isUnframed) {
    const { opcodes, facts } = program, options = [many && '--many', isUnframed && '--unframed'].filter(Boolean), codes = [];
    for (const [name, opcode] of Object.entries(opcodes)) codes[codeOf(opcode.code)] = { name, ...opcode };
    return Object.assign(new Document(), { program, opcodes, facts, codes, content, options, progress });
  }

  // What the whole of a pickle imports and calls.
  static reachesOf(program, content, many, progress) {
    progress('calls');
    return Document.of(program, content, many, progress).readReaches();
  }

  // Whether it is the first part of a pickle.
  get isPart() {
    return this.rest.length > 0;
  }

  said() {
    return `the first ${this.listing.length.toLocaleString('en')} opcodes: the rest is not read`;
  }

  // Takes what the whole of the pickle imports and calls, of which this is a part; or why that is not known.
  takeReaches(reaches, why) {
    if (!this.unknown || this.version !== this.pickle) return;
    this.unknown = reaches ? '' : `what the rest imports and calls is not known: ${why}`;
    if (!reaches) return;
    this.reaches = reaches;
    this.closing = [this.said(), ...reaches.behind, ...hintsOf(reaches, this.facts)];
  }

  // The opcodes, as `list` says them. Where there are more than so many, Enough is thrown, or `cut` is given the first of them.
  list(most = Infinity, cut = null) {
    const listing = new Listing(), lines = new Reading((fields) => listing.take(fields));
    try {
      this.run(['list', '--json', ...this.options], lines, () => { if (listing.length > most) throw new Enough(); });
    } catch (error) {
      if (!(error instanceof Enough)) throw error;
      if (cut) return cut(listing);
      throw new Error(`more than ${most.toLocaleString('en')} opcodes are not read here (picklestep shell opens them)`);
    }
    if (!listing.end) throw new Error('the program gave no whole listing');
    return listing;
  }

  // The listing. Where it has more lines than are shown first, what is behind these is taken off the bytes, unless a frame holds all of them:
  // there is no reading on to the cut within a frame.
  listFirst() {
    return this.list(MOST_FIRST, (listing) => {
      const offset = listing.cut(MOST_FIRST);
      if (offset === null) return this.list(MOST_READ);
      this.content = this.content.slice(0, offset);
      listing.end = { how: 'stopped' };
      return listing;
    });
  }

  // --- The pickle as it is ---

  read() {
    if (this.version) {
      this.content = null;
      this.listing = this.list();
    }
    const { length } = this.session.where();
    this.listed = this.listing.length;
    this.readItems(length);
    this.objectsRead = null;
    if (this.version || !this.reaches) this.reaches = this.readReaches();
    this.closing = this.isPart ? [this.said()] : [...this.listing.closing(), ...this.reaches.behind, ...hintsOf(this.reaches, this.facts)];
    if (this.isPart && this.version) this.unknown = 'what the rest imports and calls is not known: the first part was edited';
    this.version = versions += 1;
    this.makers = null;
    this.edited = editedPlaces(this.edits);
    if (this.hasBreaks) this.breaks = new Set(this.session.breaks());
  }

  // The objects as they are at the end. They are read when they are needed first: the page shows the opcodes before.
  get final() {
    this.objectsRead ??= this.readObjects(() => {});
    return this.objectsRead;
  }

  readObjects(progress) {
    const objects = new Objects();
    this.run(['objects', '--json', ...this.options], new Reading((...line) => objects.take(...line)), () => {}, progress);
    return objects;
  }

  // What is imported and called; of very long lines only the first are read.
  readReaches() {
    const calls = new Lines();
    const check = ({ text }) => { if (text.size > MOST_CALLS) throw new Enough(); };
    try {
      this.run(['calls', '--json', ...(this.options.includes('--many') ? [] : ['--first']), ...this.holes()], calls, check);
    } catch (error) {
      if (!(error instanceof Enough)) throw error;
      return new Reaches(calls, true);
    }
    return new Reaches(calls, false);
  }

  // The words for the FRAMEs, which `calls` leaves out where the lengths of frames are ignored.
  holes() {
    const words = [];
    for (const [place] of this.options.includes('--unframed') ? this.listing.frames : []) words.push('--skip', `${this.listing.offset(place)}:9`);
    if (words.length > MOST_HOLES) throw new Error('too many frames to be left out (picklestep shell --unframed reads them)');
    return words;
  }

  // The bytes of the pickle as it is: after an edit they are made when they are asked for.
  bytes() {
    this.content ??= this.session.bytes();
    return this.content;
  }

  // The bytes that are saved: behind a part those that are not read, as they were.
  savedBytes() {
    return this.isPart ? joined([this.bytes(), this.rest]) : this.bytes();
  }

  // Does a task over the pickle as it is, and says how far it is. `check` may throw to end it.
  run(words, into, check, progress = this.progress) {
    let reported = 0;
    runTask(this.program.module, [words[0], 'file', ...words.slice(1)], this.bytes(), (bytes) => {
      into.feed(bytes);
      check(into);
      if (into.length - reported < 200000) return;
      reported = into.length;
      progress(`${words[0]}: ${reported.toLocaleString('en')} lines`);
    });
  }

  // Adds the opcodes that a listing has not, since it ends where an opcode is refused.
  readItems(length) {
    const bytes = this.bytes();
    for (let size = MOST_SHORT; this.listing.length < length; size *= 2) {
      const last = this.listing.length - 1, start = this.listing.offset(last), found = itemsIn(this.program, bytes.subarray(start, start + size), start);
      for (const item of found.slice(1, length - last)) this.listing.add(item);
    }
  }

  // The places of the opcodes that make the objects, in the order of these. READONLY_BUFFER makes none where its object can only be read
  // already, which the session is asked of each.
  findMakers() {
    const makers = new Numbers(Uint32Array), { place: here } = this.session.where();
    for (let place = 0; place < this.listing.length; place += 1) {
      const { makes, name } = this.codeAt(place);
      if (makes && (name !== 'READONLY_BUFFER' || this.makesObject(place, makers.length))) makers.add(place);
    }
    this.session.move(`goto ${here}`);
    return makers;
  }

  makesObject(place, number) {
    try {
      this.session.move(`goto ${place + 1}`);
      return this.session.has(number);
    } catch (error) {
      if (error instanceof Refused) return false;
      throw error;
    }
  }

  // What is known of the opcode at a place.
  codeAt(place) {
    return this.codes[this.bytes()[this.listing.offset(place)]];
  }

  // Where the opcode ends that is at a place.
  endOf(place) {
    return place + 1 < this.listing.length ? this.listing.offset(place + 1) : this.bytes().length;
  }

  // Opcodes as the session says them. Of a long one the beginning is read off its bytes.
  items(start, end) {
    const items = [], isLong = (place) => this.endOf(place) - this.listing.offset(place) > MOST_SHORT;
    for (let at = start, to; at < end; at = to) {
      to = at + 1;
      if (isLong(at)) {
        items.push(this.longAt(at));
        continue;
      }
      while (to < end && !isLong(to)) to += 1;
      const offset = this.listing.offset(at);
      items.push(...itemsIn(this.program, this.bytes().subarray(offset, this.endOf(to - 1)), offset).slice(0, to - at));
    }
    return items;
  }

  // A long opcode, with the beginning of its argument alone.
  longAt(place) {
    return longOpcode(this.codeAt(place), this.bytes().subarray(this.listing.offset(place) + 1, this.endOf(place)));
  }

  // Rows of the listing: each an opcode with its offset, how many marks are open, how it is coloured, whether it has a breakpoint and was edited,
  // and what it reaches.
  rows(start, count) {
    const end = Math.min(this.listing.length, start + Math.min(count, MOST_LINES));
    return this.items(start, end).map((item, at) => {
      const place = start + at, offset = this.listing.offset(place);
      return { ...shortened(item, CUT), offset, marks: this.listing.marks.at(place), ...this.listing.noteOf(place, item.opcode), kind: this.reaches.kindAt(offset),
        isBroken: this.breaks.has(place), isEdited: this.edited.has(place), reach: this.reaches.reachAt(offset) };
    });
  }

  // Where the session is, with the stack and the memo.
  state() {
    const where = this.session.where(), { options, reaches } = this;
    this.place = where.place;
    this.made = where.objects;
    const [imports, calls] = reaches.before(where.offset), stack = this.session.stack();
    return {
      version: this.version, name: this.name, place: where.place, places: where.length, offset: where.offset,
      results: where.results.slice(-MOST_RESULTS), results_before: Math.max(0, where.results.length - MOST_RESULTS),
      end: this.isPart ? 'not read yet' : endWords(where.end), isEndOfFrame: !this.isPart && Boolean(where.end.of_frame),
      imports: [imports, reaches.counts[0]], calls: [calls, reaches.counts[1]], reaches: reaches.length, unknown: this.unknown,
      stack: { entries: stack.slice(-MOST_ENTRIES), more: Math.max(0, stack.length - MOST_ENTRIES) },
      memo: { entries: this.session.lastOfMemo(MOST_ENTRIES), more: Math.max(0, where.memo_size - MOST_ENTRIES) },
      pickle: this.pickle, part: this.isPart, made: this.made,
      edits: this.edits.length, undone: this.undone.length, undo: describeEdit(this.edits.at(-1)), redo: describeEdit(this.undone.at(-1)),
      breaks: this.breaks.size, many: options.includes('--many'), unframed: options.includes('--unframed'), closing: this.closing, kept: this.isPart ? 0 : this.listing.end.kept || 0 };
  }

  // --- Objects ---

  // Whether an object holds so many others that it is shown as it is at the end.
  isLarge(number) {
    return this.final.held.length > MOST_HELD && number < this.final.length && this.final.size(number) > MOST_HELD_BY_ONE;
  }

  // What an object is at the cursor, and what it holds.
  fieldsOf(number) {
    if (this.isLarge(number)) return { is: this.final.isOf(number), isAtEnd: true, held: this.final.heldBy(number, MOST_PARTS), count: this.final.size(number) };
    if (this.final.long.has(number)) return { ...this.longAt(this.makerOf(number)), is: this.final.isOf(number), held: [], count: 0 };
    const { parts, changes, ...fields } = this.session.object(number), held = heldIn(parts, changes);
    return { ...shortened(fields, CUT), held, count: held.length };
  }

  // The same with what it imports or calls, in a line: the first of what it holds, and how many more there are. Nothing where no object has the number.
  thing(number) {
    try {
      const { held, count, ...fields } = this.fieldsOf(number), shown = held.slice(0, MOST_BRIEF);
      return { ...fields, held: shown, more: count - shown.length, reach: this.reaches.reachOf(number) };
    } catch (error) {
      if (error instanceof Refused) return null;
      throw error;
    }
  }

  objects(start, count) {
    const end = Math.min(this.made, start + Math.min(count, MOST_LINES));
    return Array.from({ length: Math.max(0, end - start) }, (_, at) => this.thing(start + at));
  }

  briefs(numbers) {
    return Object.fromEntries(numbers.slice(0, MOST_BRIEFS).map((number) => [number, this.thing(number)]));
  }

  // What an object holds: each with what it is to the object.
  holds(number) {
    const { held, count } = this.fieldsOf(number), parts = held.slice(0, MOST_PARTS);
    return { parts: parts.map(([how, other]) => [how, other, this.thing(other)]), more: count - parts.length };
  }

  // The opcode that made an object, and where the object is: on the stack, in the memo, in other objects.
  about(number) {
    const maker = number >= 0 && number < this.made ? this.makerOf(number) : null, stack = this.session.stack();
    return { maker, row: maker === null ? null : this.rows(maker, 1)[0],
      stack: stack.flatMap((entry, at) => (entry === number ? [at] : [])).slice(0, MOST_HOLDERS),
      memo: this.session.memo().filter(({ object }) => object === number).map(({ memo }) => memo).slice(0, MOST_HOLDERS), held: this.holders(number) };
  }

  makerOf(number) {
    this.makers ??= this.findMakers();
    return this.makers.at(number);
  }

  // The objects that hold an object at the cursor, the first of them.
  holders(number) {
    const found = [];
    let tried = 0;
    for (const holder of this.final.holders(number)) {
      if (holder >= this.made || found.length === MOST_HOLDERS || tried === MOST_TRIED) break;
      tried += 1;
      if (this.fieldsOf(holder).held.some(([, other]) => other === number) || this.isLarge(holder)) found.push(holder);
    }
    return found;
  }

  // What the opcode at the cursor takes from the stack, what it leaves there, and under which key of the memo; or why it is refused.
  effect() {
    const { place, session } = this;
    try {
      session.ask('step');
    } catch (error) {
      if (error instanceof Refused) return { place, refused: error.message };
      throw error;
    }
    const step = session.ask('trace'), { changed, memo, pushed } = step, isThere = (each) => each !== undefined;
    const stays = [changed, memo].filter(isThere).map(({ object }) => object);
    const after = this.top([...stays, ...[pushed].filter(isThere), ...(step.set_mark ? [markOf(place)] : [])]);
    session.ask('back');
    const before = this.top([...stays, ...[step.cut_mark].filter(isThere).map(markOf), ...step.took]);
    return { place, before, after, ...(memo && { memo: memo.memo }) };
  }

  top(entries) {
    const shown = entries.slice(-MOST_TOP);
    return { things: shown.map((entry) => [entry, entry < 0 ? null : this.thing(entry)]), more: entries.length - shown.length };
  }

  // --- What is imported and called ---

  // Each with its place, or none where that is not read.
  reached(start, count) {
    const end = Math.min(this.reaches.length, start + Math.min(count, MOST_LINES)), rows = [];
    for (let at = start; at < end; at += 1) {
      const offset = this.reaches.offsets.at(at);
      rows.push([this.isRead(offset) ? this.listing.placeOf(offset) : null, offset, this.reaches.kindAt(offset), this.reaches.shownAt(at)]);
    }
    return rows;
  }

  isRead(offset) {
    return !this.isPart || offset < this.bytes().length;
  }

  // The pickle as Python source, as much of it as is shown, and how many lines more there are.
  source() {
    const isLong = this.listing.length > MOST_SOURCE || this.bytes().length > MOST_SOURCE_BYTES || this.reaches.isPart;
    if (isLong) return { source: [], more: 0, isLong: true };
    const offsets = this.listing.offsets.data.subarray(0, this.listed);
    const { opcodes, facts, isPart } = this, reachAt = (offset) => this.reaches.wholeAt(offset);
    const end = isPart ? { how: 'stopped' } : this.listing.end, lines = sourceOf(this.bytes(), offsets, end, { opcodes, facts, reachAt, isPart }).split('\n').slice(0, -1);
    const shown = lines.slice(0, MOST_SOURCE_LINES);
    if (this.isPart) shown.push('# The rest of the pickle is not read.');
    return { source: shown, more: Math.max(0, lines.length - MOST_SOURCE_LINES), isLong: false };
  }

  // --- Moving ---

  move(what, place) {
    if (what === 'run') return ranWords(this.session.ask('run'));
    if (what === 'next' || what === 'previous') return this.toCall(what === 'next' ? 1 : -1);
    return { said: `at ${this.session.move(what === 'step' || what === 'back' ? what : `goto ${place}`)}` };
  }

  toCall(direction) {
    const { offset } = this.session.where(), call = this.reaches.nextCall(offset, direction);
    if (call !== null && !this.isRead(call)) return { said: `the next call is at offset ${call}, which is not read` };
    return { said: call === null ? 'no call there' : `at ${this.session.move(`goto ${this.listing.placeOf(call)}`)}` };
  }

  toggleBreak(place) {
    const word = this.breaks.has(place) ? 'clear' : 'break';
    this.hasBreaks = true;
    this.session.ask(`${word} ${place}`);
    if (word === 'break') this.breaks.add(place);
    else this.breaks.delete(place);
    return { said: `${word} ${place}` };
  }

  // The place that a search finds: an offset, or the next opcode whose name or argument holds the text. `value` is what this stands for as Python
  // writes it; with `isWhole` all of an argument. `numbers` are the arguments that are this number, by their forms.
  find({ text, value = null, isWhole = false, numbers = {} }, after) {
    const count = this.listing.length, content = this.bytes();
    if (isDigits(text) && count && Number(text) <= this.listing.offset(count - 1)) return this.listing.placeOf(Number(text));
    if (!text) return null;
    const codes = this.codes.map((code) => [code.name.includes(text), textStart(code), numbers[code.form] && bytesOfHex(numbers[code.form])]), sought = [[bytesIn(text), false]];
    if (value !== null) sought.push([bytesIn(value), isWhole]);
    for (let step = 1; step <= count; step += 1) {
      const place = (after + step) % count, start = this.listing.offset(place), [isNamed, width, number] = codes[content[start]];
      if (isNamed) return place;
      if (width === null && !number) continue;
      const argument = content.subarray(start + (width ?? 1), this.endOf(place));
      if (number ? number.length === argument.length && number.every((byte, at) => byte === argument[at])
        : sought.some(([bytes, whole]) => holds(argument, bytes, whole))) return place;
    }
    return null;
  }

  // --- Edits ---

  // The whole argument of the opcode at a place, in hexadecimal; none where it is long.
  argument(place) {
    const start = this.listing.offset(place) + 1, next = place + 1 < this.listing.length ? this.listing.offset(place + 1) : start;
    return { raw: next - start > MOST_ARGUMENT ? null : hexOf(this.bytes().subarray(start, next)) };
  }

  edit(what, place, name, raw, count) {
    if (!(what in SHIFTS)) throw new Error('this is no edit');
    const puts = what === 'replace' || what === 'insert';
    const before = { ...this };
    const words = puts ? [name, raw] : what === 'frame' ? [String(count)] : [], done = this.session.edit(what, place, ...words);
    this.edits = [...this.edits, [what, done, puts ? name : '', words]];
    this.undone = [];
    this.readOr('undo', before);
    return { said: `edited ${done}` };
  }

  // Takes the edits of the first part over, and those that are undone.
  takeEdits(edits, undone) {
    if (!edits.length && !undone.length) return;
    for (const [what, place, , words] of [...edits, ...undone.slice().reverse()]) this.session.edit(what, place, ...words);
    undone.forEach(() => this.session.move('undo'));
    Object.assign(this, { edits, undone });
    this.read();
  }

  undo() {
    const before = { ...this }, place = this.session.move('undo'), edit = this.edits.at(-1);
    [this.edits, this.undone] = [this.edits.slice(0, -1), [...this.undone, edit]];
    this.readOr('redo', before);
    return { said: `undone ${place}: ${describeEdit(edit)}` };
  }

  redo() {
    const before = { ...this }, place = this.session.move('redo'), edit = this.undone.at(-1);
    [this.edits, this.undone] = [[...this.edits, edit], this.undone.slice(0, -1)];
    this.readOr('undo', before);
    return { said: `redone ${place}: ${describeEdit(edit)}` };
  }

  // Reads the pickle after an edit. Where that fails (memory runs out), all is as it was before.
  readOr(back, before) {
    try {
      this.read();
    } catch (error) {
      this.session.move(back);
      Object.assign(this, before);
      throw error;
    }
  }
}

// An edit in words, or nothing.
function describeEdit(edit) {
  return edit ? `${edit[0]}${edit[2] && ' ' + edit[2]} at ${edit[1]}` : '';
}

// The places that edits touched, each where it is after those that came later.
function editedPlaces(edits) {
  let places = new Set();
  for (const [what, at] of edits) {
    const shift = SHIFTS[what];
    if (shift > 0) places = new Set([...places].map((place) => place + Number(place >= at)));
    if (shift < 0) places = new Set([...places].filter((place) => place !== at).map((place) => place - Number(place > at)));
    places.add(at);
  }
  return places;
}

const codeOf = (shown) => (shown.length > 1 ? parseInt(shown.slice(2), 16) : shown.charCodeAt(0));
const isDigits = (text) => text !== '' && [...text].every((sign) => sign >= '0' && sign <= '9');

// --- Arguments in their bytes ---

// How many bytes stand before the text of an opcode, its code among them; null where its argument is no text.
function textStart({ form }) {
  return form in LENGTHS && !form.startsWith('long') ? 1 + LENGTHS[form] : form.includes('nl') ? 1 : null;
}

const bytesIn = (value) => (typeof value === 'string' ? new TextEncoder().encode(value) : value);

// Whether an argument holds bytes; with `isWhole` as all of it, or of a line.
function holds(argument, bytes, isWhole) {
  const isEdge = (at) => at < 0 || at === argument.length || argument[at] === NEWLINE;
  if (!bytes.length) return isWhole && !argument.length;
  for (let at = seekIn(argument, bytes, 0); at >= 0; at = seekIn(argument, bytes, at + 1)) if (!isWhole || (isEdge(at - 1) && isEdge(at + bytes.length))) return true;
  return false;
}

// The fields of an opcode whose argument is long, with its beginning alone.
function longOpcode({ name, form }, argument) {
  const opcode = { kind: 'opcode', opcode: name };
  if (form.startsWith('long')) return { ...opcode, ...cutHex('argument_le', argument.subarray(LENGTHS[form])) };
  if (form in LENGTHS) return { ...opcode, ...cutText('argument', argument.subarray(LENGTHS[form])) };
  const [first, second] = [argument.indexOf(NEWLINE), argument.length - 1];
  if (first === second) return { ...opcode, ...cutText('argument', argument.subarray(0, first)) };
  return { ...opcode, ...cutText('module', argument.subarray(0, first)), ...cutText('name', argument.subarray(first + 1, second)) };
}

const cutHex = (name, bytes) => ({ [`${name}_hex`]: hexOf(bytes.subarray(0, CUT)), ...(bytes.length > CUT ? { [`${name}_hex_more`]: 2 * (bytes.length - CUT) } : {}) });

// A text, or else its bytes.
function cutText(name, bytes) {
  try {
    const text = new TextDecoder('utf-8', { fatal: true, ignoreBOM: true }).decode(bytes.subarray(0, CUT), { stream: true });
    return { [name]: text, ...(bytes.length > CUT ? { [`${name}_more`]: bytes.length - CUT } : {}) };
  } catch (error) {
    return cutHex(name, bytes);
  }
}
