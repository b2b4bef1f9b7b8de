'use strict';
// What the program calls of its system (WASI, preview 1), for one run: it may read the file, and write to standard output and error. Nothing
// else can be opened.

const BADF = 8, INVAL = 28, NOENT = 44, NOTCAPABLE = 76, SPIPE = 70;
const FOLDER = 3, FILE = 4;
const DEVICE = 2, REGULAR = 4; // kinds of files

class Ended extends Error {
  constructor(status) {
    super(`ended with status ${status}`);
    this.status = status;
  }
}

class Host {
  // `output` takes bytes.
  constructor(words, file, output) {
    this.words = words.map((word) => new TextEncoder().encode(word + '\0'));
    this.file = file;
    this.writers = { 1: output, 2: (bytes) => { this.errors += new TextDecoder().decode(bytes); } };
    this.errors = '';
    this.at = 0;
  }

  bytes(at, size) {
    return new Uint8Array(this.memory.buffer, at, size);
  }

  put(at, value) {
    new DataView(this.memory.buffer).setUint32(at, value, true);
  }

  // Where the bytes are that a read fills or a write gives, and how many.
  part(parts) {
    const memory = new DataView(this.memory.buffer);
    return [memory.getUint32(parts, true), memory.getUint32(parts + 4, true)];
  }

  named(at, size) {
    return new TextDecoder().decode(this.bytes(at, size).slice());
  }

  describe(at, kind, size) {
    this.bytes(at, 64).fill(0);
    const memory = new DataView(this.memory.buffer);
    memory.setUint8(at + 16, kind);
    memory.setBigUint64(at + 24, 1n, true);
    memory.setBigUint64(at + 32, BigInt(size), true);
    return 0;
  }

  give(parts, moved, bytes) {
    this.bytes(this.part(parts)[0], bytes.length).set(bytes);
    this.put(moved, bytes.length);
    return 0;
  }

  read(from, parts, count, moved) {
    if (from !== FILE) return BADF;
    const bytes = this.file.subarray(this.at, this.at + this.part(parts)[1]);
    this.at += bytes.length;
    return this.give(parts, moved, bytes);
  }

  write(to, parts, count, moved) {
    if (!this.writers[to]) return BADF;
    const [at, size] = this.part(parts);
    this.writers[to](this.bytes(at, size).slice());
    this.put(moved, size);
    return 0;
  }

  open(name, how, at) {
    if (name !== 'file') return how & 1 ? NOTCAPABLE : NOENT;
    this.at = 0;
    this.put(at, FILE);
    return 0;
  }

  about(name, at) {
    return name === 'file' ? this.describe(at, REGULAR, this.file.length) : NOENT;
  }

  listWords(words, at) {
    for (const word of this.words) {
      this.put(words, at);
      this.bytes(at, word.length).set(word);
      words += 4;
      at += word.length;
    }
    return 0;
  }

  imports() {
    const sizes = (count, size) => (countAt, sizeAt) => { this.put(countAt, count); this.put(sizeAt, size); return 0; };
    return {
      args_sizes_get: sizes(this.words.length, this.words.reduce((sum, word) => sum + word.length, 0)),
      args_get: (words, at) => this.listWords(words, at),
      environ_sizes_get: sizes(0, 0),
      environ_get: () => 0,
      fd_prestat_get: (at, to) => (at === FOLDER ? sizes(0, 1)(to, to + 4) : BADF),
      fd_prestat_dir_name: (at, to) => { this.bytes(to, 1)[0] = 46; return 0; },
      path_open: (folder, flags, at, size, how, rights, more, mode, to) => this.open(this.named(at, size), how, to),
      fd_read: (...words) => this.read(...words),
      fd_write: (...words) => this.write(...words),
      fd_close: (at) => (at === FILE ? 0 : BADF),
      fd_filestat_get: (at, to) => (at === FILE ? this.about('file', to) : this.describe(to, DEVICE, 0)),
      path_filestat_get: (folder, flags, at, size, to) => this.about(this.named(at, size), to),
      path_readlink: () => INVAL,
      fd_seek: () => SPIPE, fd_sync: () => 0, fd_datasync: () => 0,
      fd_filestat_set_size: () => NOTCAPABLE, path_rename: () => NOTCAPABLE, path_unlink_file: () => NOTCAPABLE,
      proc_exit: (status) => { throw new Ended(status); },
    };
  }

  // Runs the program to its end. Throws why it gave no whole answer.
  run(module) {
    try {
      const { exports } = new WebAssembly.Instance(module, { wasi_snapshot_preview1: this.imports() });
      this.memory = exports.memory;
      exports._start();
    } catch (error) {
      this.check(error);
    }
  }

  check(error) {
    if (error instanceof Ended && error.status < 2) return;
    if (error instanceof Ended) throw new Error(this.errors.slice(this.errors.indexOf(': ') + 2).trim() || error.message);
    throw error instanceof RangeError ? new Error('out of memory') : error;
  }
}
