'use strict';
// Names for what a pickle imports, as its Python source calls it. A name is the text that it is (`value`), and that text in quotes (`shown`).

const IDENTIFIER = /^[A-Za-z_][A-Za-z0-9_]*$/;
const MOST_NAME = 1000; // letters of a name that stands wherever it is used
const OWN = /^(result)?_[0-9]+$/;
const LITERAL_SIGN = /\\(?:x([0-9a-f]{2})|u([0-9a-f]{4})|U([0-9a-f]{8})|([^]))|[^]/gu;

// A line of GLOBAL or INST, or null where it is no text.
function nameOfLine(bytes, encoding) {
  if (encoding === 'ascii' && bytes.some((byte) => byte > 127)) return null;
  try {
    return nameOfText(strict.decode(bytes));
  } catch (error) {
    return null;
  }
}

const nameOfText = (value) => ({ value, shown: signsSource([...value]) });

// The signs of a text or of bytes that stand in the source in quotes.
function signsOfLiteral(source) {
  return Array.from(source.slice(source[0] === 'b' ? 2 : 1, -1).matchAll(LITERAL_SIGN), ([all, two, four, eight, sign]) => {
    if (two || four || eight) return String.fromCodePoint(parseInt(two || four || eight, 16));
    return sign ? { n: '\n', r: '\r', t: '\t' }[sign] || sign : all;
  });
}

// The name that an entry is, if it is a text.
function nameOfEntry(entry) {
  const source = isNode(entry) ? (entry.kind === 'atom' ? entry.text : '') : entry;
  if (!/^['"]/.test(source)) return null;
  return { value: signsOfLiteral(source).join(''), shown: source };
}

// What Python 3 imports for a name of Python 2, by what the program says of the opcode.
function newNames(reach) {
  const texts = reach && hasOldName(reach) ? ['module', 'name'].map((part) => textIn(reach, part)?.text ?? null) : [null];
  return texts.includes(null) ? null : texts.map(nameOfText);
}

// The names of a source, each for one thing as it is when it is imported: a name which a pickle imports again is another one.
class Names {
  constructor({ taken, keywords }) {
    this.taken = new Map(Object.entries(taken));
    this.keywords = new Set(keywords);
    this.imported = new Set();
  }

  // A pickle begins: what those before it imported is used no more.
  begin() {
    this.imported.clear();
  }

  isIdentifier(text) {
    return IDENTIFIER.test(text) && !this.keywords.has(text);
  }

  // The thing that has a name, which is this one where none had it.
  settle(name, thing) {
    if (!this.taken.has(name)) this.taken.set(name, thing);
    return this.taken.get(name);
  }

  // The statement that imports a name, how the thing is called then, and which helpers that takes.
  bind(module, name, number, isDotted) {
    const [first, ...rest] = isDotted ? name.value.split('.') : [name.value];
    const isNamed = [...module.value.split('.'), first, ...rest].every((part) => this.isIdentifier(part)) && module.value !== '__future__';
    if (!isNamed) {
      const from = `import_module(${module.shown})`;
      const found = rest.length ? `reduce(getattr, ${name.shown}.split('.'), ${from})` : `getattr(${from}, ${name.shown})`;
      return { statement: `_${number} = ${found}`, text: `_${number}`, needs: rest.length ? ['import_module', 'reduce'] : ['import_module'] };
    }
    const own = name.value.length > MOST_NAME ? `_${number}` : this.own(module.value, first, rest, number);
    const more = rest.length ? `; ${own} = ${[own, ...rest].join('.')}` : '';
    return { statement: `from ${module.value} import ${first}${own === first ? '' : ` as ${own}${more}`}`, text: own, needs: [] };
  }

  // A name that is free, or that of the thing itself.
  own(module, first, rest, number) {
    const thing = `${module} ${first}`;
    if (!rest.length && !this.imported.has(first) && !OWN.test(first) && this.settle(first, thing) === thing) {
      this.imported.add(first);
      return first;
    }
    let own = `${[first, ...rest].at(-1)}_${number}`;
    while (this.settle(own, ` ${own}`) !== ` ${own}` || this.imported.has(own)) own += '_';
    this.imported.add(own);
    return own;
  }
}
