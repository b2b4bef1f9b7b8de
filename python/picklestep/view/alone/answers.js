'use strict';
// What the program says of a whole pickle, kept as numbers: the lines of `list --json` and of `objects --json`.

const NONE = 2 ** 32 - 1;

// The opcodes by their places: where each is, how many marks are open before it, and where the mark is that it takes, or the key of the memo
// under which it stores.
class Listing {
  constructor() {
    this.offsets = new Numbers(Uint32Array);
    this.marks = new Numbers(Uint32Array);
    this.notes = new Numbers(Uint32Array);
    this.frames = []; // the places of the FRAMEs, and where the frames end
    this.left = this.end = null;
  }

  take({ kind, ...fields }) {
    if (kind === 'opcode') this.add(fields);
    else if (kind === 'left') this.left = fields;
    else if (kind === 'end') this.end = fields;
  }

  add({ offset, opcode, argument, marks = 0, mark, memo }) {
    if (opcode === 'FRAME') this.frames.push([this.length, offset + 9 + argument]);
    this.left = null;
    this.offsets.add(offset);
    this.marks.add(marks);
    this.notes.add(mark ?? memo ?? NONE);
  }

  get length() {
    return this.offsets.length;
  }

  offset(place) {
    return this.offsets.at(place);
  }

  // The fields that `list` says of an opcode besides its argument.
  noteOf(place, name) {
    const note = this.notes.at(place);
    return note === NONE ? {} : { [name === 'MEMOIZE' ? 'memo' : 'mark']: note };
  }

  // The place of the opcode that holds an offset.
  placeOf(offset) {
    return Math.max(0, this.offsets.below(offset, true) - 1);
  }

  // Takes away the opcodes from a place on, and also those before it that are in a frame which is not whole then. Answers where they began; nothing
  // where they are more than a half.
  cut(place) {
    const end = this.offset(place), open = this.frames.find(([at, to]) => at < place && to > end), first = open ? open[0] : place;
    if (first <= place / 2) return null;
    const offset = this.offset(first);
    this.offsets.length = this.marks.length = this.notes.length = first;
    return offset;
  }

  // How reading ended, in words.
  closing() {
    const { end, left } = this;
    const how = { stopped: end.kept ? [`kept: ${end.kept} bytes after STOP`] : [], refused: [`refused: ${endWords(end)}`], fault: [`fault: ${endWords(end)}`] };
    return [...(left ? [`left: ${left.objects} objects, ${left.marks} marks`] : []), ...how[end.how],
      ...('protocol' in end ? [`highest protocol among opcodes = ${end.protocol}`] : [])];
  }
}

const HOW = ['', 'append', 'add', 'state', 'key', 'value'];

// What was put into an object: each with how.
function putIn(change) {
  return change.kind === 'set' ? [['key', change.key], ['value', change.value]] : [[change.kind, change.value]];
}

// What an object holds: each with how it was put in.
function heldIn(parts = [], changes = []) {
  return [...parts.map((part) => ['', part]), ...changes.flatMap(putIn)];
}

// The objects by their numbers, as they are at the end: what each is, and what it holds.
class Objects {
  constructor() {
    this.names = [];
    this.kinds = new Numbers(Uint8Array);
    this.starts = new Numbers(Uint32Array);
    this.held = new Numbers(Uint32Array);
    this.hows = new Numbers(Uint8Array);
    this.long = new Set(); // those whose texts are too long to be asked for at each step
  }

  take(fields, isCut) {
    if (fields.kind !== 'object') return;
    if (fields.object === this.length) this.add(fields.is);
    if (isCut) this.long.add(fields.object);
    for (const part of fields.parts || []) this.hold('', part);
    for (const change of fields.changes || []) for (const [how, other] of putIn(change)) this.hold(how, other);
  }

  add(is) {
    if (!this.names.includes(is)) this.names.push(is);
    this.kinds.add(this.names.indexOf(is));
    this.starts.add(this.held.length);
  }

  hold(how, other) {
    this.hows.add(HOW.indexOf(how));
    this.held.add(other);
  }

  get length() {
    return this.kinds.length;
  }

  // How many others an object holds.
  size(number) {
    return (number + 1 < this.length ? this.starts.at(number + 1) : this.held.length) - this.starts.at(number);
  }

  // The first of what an object holds.
  heldBy(number, most) {
    const start = this.starts.at(number);
    return Array.from({ length: Math.min(most, this.size(number)) }, (_, at) => [HOW[this.hows.at(start + at)], this.held.at(start + at)]);
  }

  // What an object is: `list`, for one.
  isOf(number) {
    return this.names[this.kinds.at(number)];
  }

  // The objects that hold an object, in their order.
  * holders(number) {
    const held = this.held.data.subarray(0, this.held.length);
    for (let at = held.indexOf(number), last = -1; at >= 0; at = held.indexOf(number, at + 1)) {
      const holder = this.starts.below(at, true) - 1;
      if (holder !== last) yield holder;
      last = holder;
    }
  }
}
