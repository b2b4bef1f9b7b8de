'use strict';
// What a pickle has built so far, and what happens meanwhile, as it goes into Python source. An entry is a short plain value as its source,
// or a node.

// An object that is more than a short plain value. `kind` is that of a container, 'atom' (a long plain value, or a byte array), or 'name',
// 'buffer' or 'readonly' (what comes from elsewhere or from a call). `items` are what it was made of, `inner` the nodes among them. `uses`
// counts where it is needed, and `isTaken` says that it was needed once: from then on a change of it is a statement.
class Node {
  constructor(kind, number, items, text = '') {
    Object.assign(this, { kind, number, items, text, inner: [], uses: 0, depth: 0, isPure: false });
    this.isTaken = this.isNamed = this.isOpaque = kind === 'name';
  }

  toString() {
    return this.text;
  }

  write(writer) {
    writer.place(this);
  }
}

const isNode = (entry) => typeof entry !== 'string';
const isTuple = (entry) => entry === '()' || entry.kind === 'tuple'; // one that the pickle builds itself
const arePure = (entries) => entries.every((entry) => !isNode(entry) || entry.isPure);
const keysOf = (items) => items.filter((_, at) => at % 2 === 0);

// A statement, which `form` writes with its parts. `offset` is where its opcode is, if it reaches out of the pickle.
class Statement {
  constructor(form, parts = [], offset = null, note = '') {
    Object.assign(this, { form, parts, offset, note });
  }

  write(writer) {
    writer.end(this.form(...this.parts.map(String)), this.offset, this.note);
  }
}

// A call, whose value gets a name: arguments one by one, then those of a tuple, then keywords from a dictionary.
class Called {
  constructor(number, method, called, { items = [], spread = null, keywords = null }, offset) {
    Object.assign(this, { number, method, called, items, spread, keywords, offset });
  }

  write(writer) {
    writer.call(this);
  }
}

// Items go into a container, which `form` writes with the container and a list of the items, or with `isEach` one of them.
class Filled {
  constructor(form, target, items, isEach, offset) {
    Object.assign(this, { form, target, items, isEach, offset });
  }

  write(writer) {
    writer.fill(this);
  }
}

// Keys and values in turns are set in a container.
class Paired {
  constructor(target, items, offset) {
    Object.assign(this, { target, items, offset });
  }

  write(writer) {
    writer.pair(this);
  }
}
