'use strict';
// The program in the page: runs of it, and a session, whose answers are lines of JSON.

// How a pickle ends, or why an opcode is refused, in words.
function endWords({ how, code, words, byte, offset, memo, object, number }) {
  if (how === 'stopped') return 'stopped';
  if (how === 'fault') return `${code} ${words}${byte === undefined ? '' : ` 0x${hexOf([byte])}`} at ${offset}`;
  return [code, words, ...[memo, object === undefined ? object : `#${object}`, number].filter((each) => each !== undefined)].join(' ');
}

// Why a line is refused, in words.
function refusalWords({ code, words, end, place, edit, fault, offset }) {
  const said = { C2: () => `${words}, ${endWords(end)}`, C3: () => `item ${end.item}: ${endWords(end)}`, C8: () => `edit at ${place} behind the cursor`,
    C9: () => `${edit} ${words}`, X8: () => `${fault} ${words}`, V2: () => `no item at offset ${offset}` };
  return `${code} ${said[code] ? said[code]() : words}`;
}

// Where a run stopped and why, in words, with the code of that.
function ranWords({ place, ...end }) {
  const why = { breakpoint: () => 'breakpoint', refused: () => `refused, ${endWords(end)}` }[end.how] || (() => `end, ${endWords(end)}`);
  return { said: `at ${place}: ${why()}`, code: end.code };
}

// What a session refuses. `code` is that of the reason.
class Refused extends Error {
  constructor(fields) {
    super(refusalWords(fields));
    this.code = fields.edit || (fields.code === 'C3' ? fields.end.code : fields.code);
  }
}

// Runs a task over the bytes of a pickle, and gives what it prints to `output`, part by part.
function runTask(module, words, file, output) {
  new Host(['picklestep', ...words], file, output).run(module);
}

// A mark on the stack is a number below zero, by the place of its opcode.
const markOf = (place) => -1 - place;

// A pickle that is stepped, looked at and edited. What the program refuses is thrown as Refused, and changes nothing.
class Session {
  constructor({ library }, file, many, unframed) {
    this.kept = new Kept(library, file, many, unframed);
  }

  // The line of JSON that answers a line.
  answer(line) {
    return ascii.decode(this.kept.ask(line));
  }

  // Its fields.
  ask(line) {
    const fields = JSON.parse(this.answer(line));
    if (fields.kind === 'refused') throw new Refused(fields);
    return fields;
  }

  // Moves, and answers the place.
  move(line) {
    return this.ask(line).place;
  }

  where() {
    return this.ask('where');
  }

  // What is on the stack, from the bottom: numbers of objects, and marks.
  stack() {
    const { stack, marks } = this.ask('stack'), entries = [];
    let at = 0;
    for (const { item, below } of [...marks, { below: stack.length }]) {
      while (at < below) { entries.push(stack[at]); at += 1; }
      if (item !== undefined) entries.push(markOf(item));
    }
    return entries;
  }

  memo() {
    return this.ask('memo').entries;
  }

  // The last entries of the memo. (Those before them are not read: there may be millions.)
  lastOfMemo(most) {
    const text = this.answer('memo');
    let at = text.length;
    for (let count = 0; count < most && at > 0; count += 1) at = text.lastIndexOf('{', at - 1);
    return at > 0 ? JSON.parse(`{"entries":[${text.slice(at)}`).entries : JSON.parse(text).entries;
  }

  // An object as it is at the cursor.
  object(number) {
    return this.ask(`show ${number}`);
  }

  // Whether there is an object of a number at the cursor.
  has(number) {
    return number < this.where().objects;
  }

  breaks() {
    return this.ask('breaks').places;
  }

  // Edits, and answers the place.
  edit(word, place, ...words) {
    return this.move([word, place, ...words].filter((each) => each !== '').join(' '));
  }

  // The pickle as it is.
  bytes() {
    return this.kept.bytes();
  }
}

// The opcodes in some bytes of a pickle, which begin at an offset.
function itemsIn({ library }, bytes, offset) {
  const { items } = JSON.parse(ascii.decode(new Kept(library, bytes, true, true).ask('items')));
  return items.map((item) => ({ ...item, offset: offset + item.offset }));
}
