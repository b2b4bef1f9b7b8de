'use strict';
// The program's lines of JSON: kept with an index of where they begin, or read as they come.

const CUT = 500; // the most bytes of a text in a line that is read as it comes,
const MOST_HEAD = 1 << 22; // where it has more than so many bytes
const NEWLINE = 10, QUOTE = 34, COMMA = 44, LIST = 91, BACKSLASH = 92, LIST_END = 93, LETTER_U = 117, OBJECT = 123;

const ascii = new TextDecoder('latin1');

// Bytes to which others are added.
class Bytes {
  constructor() {
    this.data = new Uint8Array(1 << 12);
    this.size = 0;
  }

  add(bytes) {
    if (this.size + bytes.length > this.data.length) this.grow(this.size + bytes.length);
    this.data.set(bytes, this.size);
    this.size += bytes.length;
  }

  grow(least) {
    const grown = new Uint8Array(Math.max(least, 2 * this.data.length));
    grown.set(this.data.subarray(0, this.size));
    this.data = grown;
  }

  all() {
    return this.data.subarray(0, this.size);
  }

  // The bytes as a text, and none are left.
  take() {
    const text = ascii.decode(this.all());
    this.size = 0;
    return text;
  }
}

// Whole numbers to which others are added. `Type` is an array that has room for them.
class Numbers {
  constructor(Type = Float64Array) {
    this.data = new Type(1 << 10);
    this.length = 0;
  }

  add(number) {
    if (this.length === this.data.length) {
      const grown = new this.data.constructor(2 * this.length);
      grown.set(this.data);
      this.data = grown;
    }
    this.data[this.length] = number;
    this.length += 1;
  }

  at(place) {
    return this.data[place];
  }

  // How many of the numbers, which go up, are below a number; with `same` also those that are the same.
  below(number, same = false) {
    let low = 0, high = this.length;
    while (low < high) {
      const middle = (low + high) >>> 1;
      if (this.data[middle] < number || (same && this.data[middle] === number)) low = middle + 1;
      else high = middle;
    }
    return low;
  }
}

// Lines by their numbers.
class Lines {
  constructor() {
    this.text = new Bytes();
    this.starts = new Numbers();
    this.starts.add(0); // (the last one is where the next line would begin)
  }

  get length() {
    return this.starts.length - 1;
  }

  // Takes the next part of the text.
  feed(block) {
    for (let at = block.indexOf(NEWLINE); at >= 0; at = block.indexOf(NEWLINE, at + 1)) this.starts.add(this.text.size + at + 1);
    this.text.add(block);
  }

  // The fields of a line.
  at(number) {
    return JSON.parse(ascii.decode(this.text.data.subarray(this.starts.at(number), this.starts.at(number + 1))));
  }
}

// Lines that are read as they come: `take` is given the fields of each, and whether texts among them are cut. Those of a very long line are. A long
// list comes in parts, the next ones with the number of the object alone.
class Reading {
  constructor(take, most = MOST_HEAD) {
    Object.assign(this, { take, most });
    this.head = new Bytes(); // of the line that is not at its end
    this.isCut = false;
    this.length = 0;
  }

  // Takes the next part of the text.
  feed(block) {
    const end = block.lastIndexOf(NEWLINE);
    if (end >= 0) this.read(block.subarray(0, end));
    this.head.add(block.subarray(end + 1));
    if (this.head.size > this.most) this.shorten();
  }

  read(bytes) {
    const text = this.head.take() + ascii.decode(bytes);
    for (const fields of JSON.parse(`[${text.replaceAll('\n', ',')}]`)) {
      this.length += 1;
      this.take(fields, this.isCut);
      this.isCut = false;
    }
  }

  shorten() {
    const parts = cutTexts(this.head.all().slice());
    this.head.size = 0;
    for (const part of parts) this.head.add(part);
    this.isCut ||= parts.length > 1;
    if (this.head.size > this.most / 2) this.takePart();
  }

  // Gives what is there of a list that is not at its end, and goes on with the rest of it.
  takePart() {
    const line = this.head.all().slice(), list = line.lastIndexOf(LIST) + 1;
    if (line.indexOf(LIST_END, list) >= 0) return;
    const comma = line[list] === OBJECT ? line.lastIndexOf(OBJECT) - 1 : line.lastIndexOf(COMMA);
    if (comma <= list) return;
    const fields = JSON.parse(`${ascii.decode(line.subarray(0, comma))}]}`);
    this.take(fields, this.isCut);
    const name = 'changes' in fields ? 'changes' : 'parts';
    this.head.size = 0;
    this.head.add(new TextEncoder().encode(`{"kind":"${fields.kind}","object":${fields.object},"${name}":[`));
    this.head.add(line.subarray(comma + 1));
  }
}

// The parts of a line that are left where the texts in it are cut. It may end within a text.
function cutTexts(line) {
  const parts = [];
  let from = 0;
  for (let quote = line.indexOf(QUOTE); quote >= 0;) {
    const end = textEnd(line, quote + 1), kept = textEnd(line, quote + 1, CUT);
    if (kept < end) {
      parts.push(line.subarray(from, kept));
      from = end;
    }
    quote = line[end] === QUOTE ? line.indexOf(QUOTE, end + 1) : -1;
  }
  return [...parts, line.subarray(from)];
}

// Where a text ends whose first letter is at a position of a line: at its quote, or behind its last whole letter up to so many bytes.
function textEnd(line, at, most = Infinity) {
  const last = Math.min(line.length, at + most);
  for (;;) {
    const next = line[at] !== BACKSLASH ? at + 1 : at + (line[at + 1] === LETTER_U ? 6 : 2);
    if (line[at] === QUOTE || next > last) return at;
    at = next;
  }
}

// The first position from one on in which bytes are found in others, or -1.
function seekIn(text, bytes, from) {
  for (let at = text.indexOf(bytes[0], from); at >= 0; at = text.indexOf(bytes[0], at + 1)) {
    let same = 1;
    while (same < bytes.length && text[at + same] === bytes[same]) same += 1;
    if (same === bytes.length) return at;
  }
  return -1;
}
