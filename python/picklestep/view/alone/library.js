'use strict';
// The library in the page: it keeps the session of a pickle, which is asked line by line.

const FIRST_ROOM = 1 << 16;
const DONE = 0, TOO_LARGE = 2, NO_ROOM = 3, LOST = 5;
const MANY = 1, UNFRAMED = 2;
const SIZE_OF_SESSION = 16, SIZE_OF_WRITTEN = 16;

// An instance of the module: its memory never shrinks.
class Library {
  constructor(module) {
    this.exports = new WebAssembly.Instance(module, {}).exports;
  }

  take(size) {
    const at = this.exports.take(BigInt(size));
    if (!at) throw new Error('out of memory');
    return at;
  }

  bytes(at, size) {
    return new Uint8Array(this.exports.memory.buffer, Number(at), size);
  }

  // Does something with an input in the memory: with its place and its length, as a function takes them.
  withInput(input, act) {
    const at = this.take(input.length + 1); // (no pointer may be nil)
    try {
      this.bytes(at, input.length).set(input);
      return act(at, BigInt(input.length));
    } finally {
      this.exports.give(at);
    }
  }

  // The same with several inputs.
  withInputs([input, ...rest], act, ...places) {
    return input ? this.withInput(input, (...place) => this.withInputs(rest, act, ...places, ...place)) : act(...places);
  }

  // What a function writes about inputs. Where it has no room, it is asked once more, with as much as it needs.
  answer(name, ...inputs) {
    const written = this.take(SIZE_OF_WRITTEN);
    const fill = (room) => this.withInputs(inputs, (...places) => {
      const out = this.take(room), done = this.exports[name](...places, out, BigInt(room), written), size = this.sizeAt(written);
      if (done === NO_ROOM) {
        this.exports.give(out);
        return size;
      }
      if (done !== DONE) throw new Error(done === TOO_LARGE ? 'too large' : 'out of memory');
      return this.bytes(out, size).slice();
    });
    const answer = fill(FIRST_ROOM);
    return typeof answer === 'number' ? fill(answer) : answer;
  }

  // How many bytes were written, or would be.
  sizeAt(written) {
    return Number(new DataView(this.exports.memory.buffer).getBigUint64(Number(written), true));
  }
}

// A session in an instance of its own, whose memory goes with it.
class Kept {
  constructor(module, file, isMany, isUnframed) {
    this.library = new Library(module);
    this.session = this.library.take(SIZE_OF_SESSION);
    this.written = this.library.take(SIZE_OF_WRITTEN);
    this.room = FIRST_ROOM;
    this.out = this.library.take(this.room);
    this.library.bytes(this.session, SIZE_OF_SESSION).fill(0); // (none is open in it)
    const { exports } = this.library;
    const answer = this.library.withInput(file, (at, length) => exports.picklestep_open((isMany ? MANY : 0) | (isUnframed ? UNFRAMED : 0), 0n, at, length, this.session));
    if (answer !== DONE) throw new Error(answer === TOO_LARGE ? 'too large' : 'out of memory');
  }

  // The line of JSON that answers a line.
  ask(line) {
    const { exports } = this.library;
    const answer = this.library.withInput(new TextEncoder().encode(line), (at, length) => exports.picklestep_ask_json(this.session, at, length, ...this.place()));
    return this.text(answer, () => exports.picklestep_again(this.session, ...this.place()));
  }

  // The bytes of the pickle as it is.
  bytes() {
    const again = () => this.library.exports.picklestep_bytes(this.session, ...this.place());
    return this.text(again(), again);
  }

  place() {
    return [this.out, BigInt(this.room), this.written];
  }

  // The bytes that were put into the room; where they have none there, they are asked for once more, with as much as they need.
  text(answer, again) {
    const size = this.library.sizeAt(this.written);
    if (answer === NO_ROOM) {
      const out = this.library.take(size);
      this.library.exports.give(this.out);
      [this.out, this.room] = [out, size];
      return this.text(again(), again);
    }
    if (answer !== DONE) throw new Error(answer === LOST ? 'out of memory: the answer to a line that was obeyed is lost' : 'out of memory');
    return this.library.bytes(this.out, size).slice();
  }
}
