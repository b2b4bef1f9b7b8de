'use strict';
// Plain values as Python source: what a loader makes of the bytes that an opcode holds, as Python's `repr` shows it. What no loader takes
// fails in the source as it would there.

// Limits of `picklestep source`, which come with the facts: up to so many bits whole numbers are decimal (`decimalBits`), and so many `letters`
// of a text are shown, `items` of a container, `columns` of a line, brackets in brackets (`depth`), and letters of what is written wherever it
// is used (`short`).
const MOST = {};
const MOST_DIGITS = 4300; // longer decimal numbers are read by no Python
const MOST_WHOLE = 65536; // bytes; a longer text is put into the source with its beginning alone

// A text of the source that is cut already.
class Shortened {
  constructor(text) {
    this.text = text;
  }
}

// The source of what is no value: it raises where a loader does.
class Failing {
  constructor(source) {
    this.source = source;
  }

  toString() {
    return this.source;
  }
}

// --- Texts and bytes ---

const PLAIN = /^[ -&(-[\]-~]*$/; // what is the same in quotes

// A text of UTF-8.
function textSource(bytes) {
  if (bytes.length > MOST_WHOLE) return longText(bytes);
  const text = binary(bytes);
  if (PLAIN.test(text)) return `'${text}'`;
  const signs = signsOf(bytes);
  return signs === null ? new Failing(`${bytesSource(bytes)}.decode('utf-8', 'surrogatepass')`) : signsSource(signs);
}

function signsSource(signs) {
  const text = signs.join('');
  return PLAIN.test(text) ? `'${text}'` : quotedSigns(signs, UNPRINTED);
}

function longText(bytes) {
  if (!isUtf8(bytes)) return new Failing(cutSource(beginningOf(bytes), sizeOfSource(bytes) + ".decode('utf-8', 'surrogatepass')".length));
  let letters = 0, end = 0;
  for (let at = 0; at < bytes.length; at += 1) {
    if ((bytes[at] & 0xc0) === 0x80) continue;
    if (letters === MOST.letters) end = at;
    letters += 1;
  }
  return new Shortened(`${signsSource(signsOf(bytes.subarray(0, end)))} + cut(${letters - MOST.letters})`);
}

// Whether bytes are UTF-8, in which halves of pairs may stand alone.
function isUtf8(bytes) {
  const masked = bytes.slice();
  for (let at = masked.indexOf(0xed); at >= 0; at = masked.indexOf(0xed, at + 1))
    if ((masked[at + 1] & 0xe0) === 0xa0 && (masked[at + 2] & 0xc0) === 0x80) masked.fill(32, at, at + 3);
  try {
    strict.decode(masked);
    return true;
  } catch (error) {
    return false;
  }
}

function bytesSource(bytes) {
  if (bytes.length <= MOST_WHOLE) return pythonBytes(bytes);
  return new Shortened(`${pythonBytes(bytes.subarray(0, MOST.letters))} + cut(${bytes.length - MOST.letters})`);
}

function bytearraySource(bytes) {
  if (bytes.length > MOST_WHOLE) return cutSource(`bytearray(${beginningOf(bytes)}`, sizeOfSource(bytes) + 'bytearray()'.length);
  return `bytearray(${pythonBytes(bytes)})`;
}

// The beginning of bytes in the source, in the quotes that all of them get.
const beginningOf = (bytes) => pythonBytes(bytes.subarray(0, MOST.letters), bytes.includes(39) && !bytes.includes(34) ? '"' : "'");

// How many letters bytes have in the source.
function sizeOfSource(bytes) {
  const widths = Array.from({ length: 256 }, (_, byte) => pythonBytes(Uint8Array.of(byte)).length - 3);
  let size = 3, single = 0, double = 0;
  for (const byte of bytes) {
    size += widths[byte];
    single += Number(byte === 39);
    double += Number(byte === 34);
  }
  return single && double ? size + single : size;
}

// A source of which only the beginning is shown, with how many letters are behind it.
function cutSource(beginning, size) {
  return new Shortened(`cut(${signsSource([...beginning.slice(0, MOST.letters)])}, ${size - MOST.letters})`);
}

// --- Numbers ---

function wholeSource(value) {
  const hex = (value < 0n ? -value : value).toString(16);
  const bits = 4 * hex.length - Math.clz32(parseInt(hex[0], 16)) + 28;
  return bits > MOST.decimalBits ? `${value < 0n ? '-' : ''}0x${hex}` : String(value);
}

function floatSource(value, isNegative) {
  if (Number.isNaN(value)) return isNegative ? "-float('nan')" : "float('nan')";
  return Number.isFinite(value) ? pythonFloat(value) : `float('${pythonFloat(value)}')`;
}

// --- Lines of older protocols ---

const C_NUMBER = /^[ \t\v\f\r]*([+-]?)(0x[0-9a-f]+|0[0-7]*|[1-9][0-9]*)$/i;
const PYTHON_NUMBER = /^[ \t\n\v\f\r]*([+-]?)(0x(?:_?[0-9a-f])+|0o(?:_?[0-7])+|0b(?:_?[01])+|[1-9](?:_?[0-9])*|0(?:_?0)*)[ \t\n\v\f\r]*$/i;
const C_FLOAT = /^([+-]?)((?:[0-9]+\.?[0-9]*|\.[0-9]+)(?:e[+-]?[0-9]+)?|inf(?:inity)?|nan)$/i;

const upToNul = (line) => line.split('\0', 1)[0];

function signed(sign, digits) {
  if (/^[0-9]/.test(digits) && !/^0[xob]/i.test(digits) && digits.length > MOST_DIGITS) throw new Unreadable('too many digits');
  return sign === '-' ? -BigInt(digits) : BigInt(digits);
}

// A number as Python's `int` reads it where it may name its base.
function pythonWhole(line) {
  const match = PYTHON_NUMBER.exec(line);
  if (!match) throw new Unreadable('no number');
  return signed(match[1], match[2].replaceAll('_', ''));
}

// A number as C's `strtol` reads it: one that begins with 0 is octal. None where it does not read the whole line.
function cWhole(line) {
  const match = C_NUMBER.exec(line);
  if (!match) return null;
  const digits = /^0[0-7]/.test(match[2]) ? `0o${match[2].slice(1)}` : match[2];
  const value = signed(match[1], digits);
  return BigInt.asIntN(64, value) === value ? value : null;
}

function intLine(line) {
  const read = upToNul(line), number = read || !line ? cWhole(read) : 0n;
  if (number === null) return wholeSource(pythonWhole(read));
  return line.length === 2 && (number === 0n || number === 1n) ? (number ? 'True' : 'False') : wholeSource(number);
}

// A float as C's `PyOS_string_to_double` reads it.
function floatLine(line) {
  const match = C_FLOAT.exec(upToNul(line));
  const digits = match ? match[2].toLowerCase() : '', isInfinite = digits.startsWith('inf');
  const size = isInfinite ? Infinity : Number(digits); // (of 'nan' that is none)
  if (!match || (size === Infinity && !isInfinite)) throw new Unreadable('no number');
  const isNegative = match[1] === '-';
  return floatSource(isNegative ? -size : size, isNegative);
}

function asciiText(line) {
  if (/[^\0-\x7f]/.test(line)) throw new Unreadable('no ASCII');
  return signsSource([...line]);
}

const LINES = {
  INT: [intLine, (bytes) => `int(${pythonBytes(bytes)}, 0)`],
  LONG: [(line) => wholeSource(pythonWhole(upToNul(line.replace(/L$/, '')))), (bytes) => `int(${pythonBytes(bytes)}, 0)`],
  FLOAT: [floatLine, (bytes) => `float(${pythonBytes(bytes)} + b' is no float')`],
  STRING: [(line) => asciiText(unescapedLine(line.slice(1, -1))), failingString],
  UNICODE: [(line) => signsSource(unicodeSigns(line)), (bytes) => `${pythonBytes(bytes)}.decode('raw-unicode-escape')`],
};
const ASCII_LINE = [asciiText, (bytes) => `${pythonBytes(bytes)}.decode('ascii')`];

function failingString(bytes) {
  try {
    return `${pythonBytes(latin(unescapedLine(binary(bytes.slice(1, -1)))))}.decode('ascii')`;
  } catch (error) {
    return `${pythonBytes(bytes.slice(1, -1))}.decode('unicode_escape')`;
  }
}

// The value of an opcode whose argument is a line, or a text of ASCII.
function lineSource(name, bytes) {
  const [read, failing] = LINES[name] || ASCII_LINE;
  try {
    return read(binary(bytes));
  } catch (error) {
    if (error instanceof Unreadable) return new Failing(failing(bytes));
    throw error;
  }
}
