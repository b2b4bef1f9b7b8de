'use strict';
// What the pickle imports and calls, by the offsets of the opcodes: the lines of `calls --json`, whose fields docs/reference/json.md has.

// The kinds of lines that come from an opcode, and which of these import, call and change something. They come when the worker starts.
const KINDS = { imports: [], called: [], changes: [], calls: [], events: [] };

const MOST_SAID = 2000; // bytes of a text that are shown
const WRAPPER = 'NumpyArrayWrapper'; // the class of joblib that stands for an array

// Where else to look for what is not read here: behind an array of joblib, and in a frame at which reading ended.
function hintsOf({ arrayAt, isOfFrame }, { hints }) {
  const array = arrayAt === null ? [] : [hints.array.replace('{}', arrayAt)];
  return isOfFrame ? [...array, hints.frame.replace('{}', 'source')] : array;
}

// The fields of a line, whose long texts are cut: how many bytes more they have is in fields that the program does not write.
function shortened(fields, most = MOST_SAID) {
  for (const [name, value] of Object.entries(fields)) {
    if (typeof value === 'object') shortened(value, most);
    else if (value.length > most) {
      const bytes = new TextEncoder().encode(value), decoder = new TextDecoder('utf-8', { ignoreBOM: true });
      Object.assign(fields, { [name]: decoder.decode(bytes.subarray(0, most), { stream: true }), [`${name}_more`]: bytes.length - most });
    }
  }
  return fields;
}

// Whether a line, or a value in it, has the class that stands for an array.
const isWrapper = (fields) => (textIn(fields, 'name')?.text || '').endsWith(WRAPPER);
const hasWrapper = (fields) => isWrapper(fields) || (Array.isArray(fields.args) && fields.args.some(isWrapper));

class Reaches {
  // `isPart`: there are more lines than these, which were too long to be read.
  constructor(lines, isPart) {
    Object.assign(this, { lines, isPart });
    this.offsets = new Numbers();
    this.kinds = [];
    this.imported = new Numbers(); // how many imports, and calls, are before a line
    this.called = new Numbers();
    this.made = new Numbers(); // the objects that lines name, which go up, and the lines
    this.makers = new Numbers();
    this.behind = [];
    this.arrayAt = null; // where joblib's first array begins,
    this.arrays = new Set(); // and the numbers of what stands for such arrays
    this.isOfFrame = false; // whether the reading ended at a frame
    this.counts = [0, 0];
    this.read();
  }

  // As another worker can take it.
  packed() {
    return { text: this.lines.text.all().slice(), isPart: this.isPart };
  }

  static unpacked({ text, isPart }) {
    const lines = new Lines();
    lines.feed(text);
    return new Reaches(lines, isPart);
  }

  read() {
    const sums = [0, 0];
    let at = 0;
    for (; at < this.lines.length; at += 1) {
      const fields = this.fieldsAt(at), { kind, offset, object } = fields;
      if (!KINDS.events.includes(kind)) break;
      this.offsets.add(offset);
      this.kinds.push(kind);
      this.watch(fields);
      this.imported.add(sums[0]);
      this.called.add(sums[1]);
      sums[0] += Number(KINDS.imports.includes(kind));
      sums[1] += Number(KINDS.calls.includes(kind));
      if (!KINDS.changes.includes(kind)) { this.made.add(object); this.makers.add(at); }
    }
    this.sums = sums;
    if (this.isPart) this.counts = sums;
    if (this.isPart) this.behind.push(`imports and calls: the first ${at.toLocaleString('en')} alone, long as they are (picklestep calls shows all)`);
    else this.readEnd(at);
  }

  // The counts, the container that the bytes begin like, whether an import leads to the unpickler, a line for each part: what loaders may
  // reach where this reading has ended, and whether frames may be mixed, with how many opcodes such a loader may take.
  readEnd(from) {
    let heading = '', mixing = '';
    const ends = {
      heading: ({ text }) => { heading = text; },
      ending: (fields) => { this.isOfFrame = Boolean(fields.of_frame); },
      begins: ({ like }) => this.behind.push(`begins like a container: ${like} (picklestep scan looks into it)`),
      warning: ({ text }) => this.behind.push(text),
      counts: ({ imports, calls }) => { this.counts = [imports, calls]; },
    };
    const inPart = { heading: ends.heading, counts: ({ imports, calls }) => this.behind.push(`${heading} ${imports} imports, ${calls} calls (picklestep calls shows them)`) };
    const last = {
      unsure: ({ code, text }) => { if (code === 'U3') this.behind.push(text); },
      mixes: ({ text }) => { mixing = text; },
      opcodes: ({ count }) => this.behind.push(`${mixing} ${count} opcodes (picklestep calls shows them)`),
      too_many_ways: ({ text }) => this.behind.push(text),
    };
    for (let at = from; at < this.lines.length; at += 1) {
      const fields = this.fieldsAt(at), act = (heading ? inPart : ends)[fields.kind] || last[fields.kind];
      if (KINDS.events.includes(fields.kind)) this.watch(fields);
      if (act) act(fields);
    }
  }

  // joblib goes on by itself where what stands for an array gets its state.
  watch(fields) {
    const { kind, offset, object } = fields;
    if (kind === 'state' && this.arrayAt === null && this.arrays.has(object)) this.arrayAt = offset + 1;
    else if (KINDS.called.includes(kind) && hasWrapper(fields)) this.arrays.add(object);
  }

  // The fields of a line.
  fieldsAt(at) {
    return this.lines.at(at);
  }

  // The same, as the page is given them.
  shownAt(at) {
    return shortened({ ...this.fieldsAt(at), text: '' });
  }

  get length() {
    return this.offsets.length;
  }

  // How the line at an offset is coloured: 'call', 'import', 'other' or ''.
  kindAt(offset) {
    const kinds = this.kinds.slice(this.offsets.below(offset), this.offsets.below(offset, true));
    if (kinds.some((kind) => KINDS.calls.includes(kind))) return 'call';
    if (kinds.some((kind) => KINDS.imports.includes(kind))) return 'import';
    return kinds.length ? 'other' : '';
  }

  // The line at an offset, or null.
  lineAt(offset) {
    const at = this.offsets.below(offset);
    return at < this.length && this.offsets.at(at) === offset ? at : null;
  }

  // What the opcode at an offset imports or calls, or null.
  reachAt(offset) {
    const at = this.lineAt(offset);
    return at === null ? null : this.shownAt(at);
  }

  // The same with whole texts.
  wholeAt(offset) {
    const at = this.lineAt(offset);
    return at === null ? null : this.fieldsAt(at);
  }

  // What is said of the object of a number where it is imported, called or asked for, or null.
  reachOf(number) {
    const at = this.made.below(number);
    return at < this.made.length && this.made.at(at) === number ? this.shownAt(this.makers.at(at)) : null;
  }

  // How many imports and calls are before an offset.
  before(offset) {
    const at = this.offsets.below(offset);
    return at < this.length ? [this.imported.at(at), this.called.at(at)] : this.sums;
  }

  // The offset of the next call behind an offset, or before it.
  nextCall(offset, direction) {
    let at = direction > 0 ? this.offsets.below(offset, true) : this.offsets.below(offset) - 1;
    for (; at >= 0 && at < this.length; at += direction) if (KINDS.calls.includes(this.kinds[at])) return this.offsets.at(at);
    return null;
  }
}
