'use strict';
// Arguments of opcodes as values of Python: read from what is typed, and put into the bytes that stand in the file, and back. The forms
// are those that Python's pickletools names.

class ValueError extends Error {}

// --- What is typed ---

const ESCAPES = { n: '\n', r: '\r', t: '\t', a: '\x07', b: '\b', f: '\f', v: '\v', '\\': '\\', "'": "'", '"': '"' };
const LITERAL = /^(b?)('(?:[^'\\]|\\[^])*'|"(?:[^"\\]|\\[^])*")/i;
const WHOLE = /^[+-]?(?:0x[0-9a-f]+|0o[0-7]+|0b[01]+|[0-9]+)$/i;
const FLOAT = /^[+-]?(?:[0-9]+\.?[0-9]*|\.[0-9]+)(?:e[+-]?[0-9]+)?$/i;
const NAMED = { True: true, False: false, None: null, inf: Infinity, '-inf': -Infinity, nan: NaN };

function unescaped(inner, isBytes) {
  return inner.replace(/\\(?:x([0-9a-f]{2})|u([0-9a-f]{4})|U([0-9a-f]{8})|([0-7]{1,3})|([^]))/gi, (all, two, four, eight, octal, sign) => {
    const isWide = all[1] === 'u' || all[1] === 'U';
    if (two || (isWide && !isBytes && (four || eight))) return String.fromCodePoint(parseInt(two || four || eight, 16));
    if (octal) return String.fromCodePoint(parseInt(octal, 8));
    if (isWide || all[1] === 'x' || all[1] === 'N') {
      if (isBytes && isWide) return all;
      throw new ValueError(`an escape in it is not whole: ${all}`);
    }
    return sign in ESCAPES ? ESCAPES[sign] : all;
  });
}

// A text or bytes in quotes at the beginning, and what comes after them; or null.
function literalAt(text) {
  const match = LITERAL.exec(text);
  if (!match) return null;
  const inner = unescaped(match[2].slice(1, -1), Boolean(match[1]));
  if (!match[1]) return [inner, text.slice(match[0].length)];
  if (/[^\0-\xff]/.test(inner)) throw new ValueError('bytes hold signs of ASCII and escapes alone');
  return [latin(inner), text.slice(match[0].length)];
}

// The value that a text says: a BigInt, a number for a float, a string, a Uint8Array, true, false, null, or an array of two texts.
function readValue(typed) {
  const text = typed.trim();
  if (text in NAMED) return NAMED[text];
  const number = text.replace(/(?<=[0-9a-f])_(?=[0-9a-f])/gi, '');
  if (WHOLE.test(number)) return number[0] === '-' ? -BigInt(number.slice(1)) : BigInt(number.replace('+', ''));
  if (FLOAT.test(number)) return Number(number);
  const inner = /^\((.*)\)$/s.exec(text);
  const first = literalAt(inner ? inner[1].trim() : text);
  if (!first) throw new ValueError("this is no value as Python writes it: 16, 1.5, True, 'a text' and b'bytes' are");
  const second = /^\s*,\s*(.*?)\s*,?\s*$/s.exec(first[1]);
  if (!first[1].trim() && !inner) return first[0];
  const other = second && literalAt(second[1]);
  if (!other || other[1]) throw new ValueError('what comes after the quotes is no value');
  return [first[0], other[0]];
}

// The text or the bytes that a text in quotes stands for; null where it has none.
function quotedIn(text) {
  try {
    const value = readValue(text);
    return typeof value === 'string' || value instanceof Uint8Array ? value : null;
  } catch (error) {
    return null;
  }
}

// --- Into bytes ---

const asLine = (bytes) => {
  if (bytes.includes(10)) throw new ValueError('a line cannot hold a newline');
  return Uint8Array.of(...bytes, 10);
};

function wholeIn(value, low, high) {
  if (typeof value !== 'bigint' || value < low || value > high) throw new ValueError(`a whole number from ${low} to ${high} is wanted`);
  return value;
}

function whole(value) {
  if (typeof value !== 'bigint') throw new ValueError('a whole number is wanted');
  return value;
}

// The bytes of a whole number, the lowest first.
function bytesOfWhole(value, width) {
  const bytes = new Uint8Array(width);
  for (let at = 0, left = BigInt.asUintN(8 * width, value); at < width; at += 1, left >>= 8n) bytes[at] = Number(left & 255n);
  return bytes;
}

// The least bytes that hold a whole number with its sign.
function leastBytes(value) {
  if (value === 0n) return new Uint8Array(0);
  let width = Math.max(1, Math.ceil(((value < 0n ? -value : value).toString(16).length) / 2));
  if (BigInt.asIntN(8 * width, value) !== value) width += 1;
  return bytesOfWhole(value, width);
}

// A text in UTF-8. Halves of pairs that stand alone have three bytes, as Python's pickler writes them.
function utf8Bytes(text) {
  return joined(text.split(/([\ud800-\udfff])/u).map((part, at) => {
    const code = part.charCodeAt(0);
    return at % 2 ? Uint8Array.of(0xe0 | code >> 12, 0x80 | code >> 6 & 63, 0x80 | code & 63) : new TextEncoder().encode(part);
  }));
}

function bytesOf(value) {
  if (value instanceof Uint8Array) return value;
  if (typeof value === 'string') return utf8Bytes(value);
  throw new ValueError("a text or bytes are wanted, in quotes: 'text', b'bytes'");
}

function counted(value, width) {
  const bytes = bytesOf(value);
  if (width === 1 && bytes.length > 255) throw new ValueError('at most 255 bytes are held by this opcode');
  return joined([bytesOfWhole(BigInt(bytes.length), width), bytes]);
}

function countedWhole(value, width) {
  const bytes = leastBytes(whole(value));
  if (width === 1 && bytes.length > 255) throw new ValueError('a number of at most 255 bytes is held by this opcode');
  return joined([bytesOfWhole(BigInt(bytes.length), width), bytes]);
}

function float(value) {
  if (typeof value !== 'number' && typeof value !== 'bigint') throw new ValueError('a number is wanted');
  return Number(value);
}

function float8(value) {
  const bytes = new Uint8Array(8);
  new DataView(bytes.buffer).setFloat64(0, float(value));
  return bytes;
}

// A text in a line, with the escapes of Python's picklers.
function escapedLine(value) {
  if (typeof value !== 'string') return asLine(bytesOf(value));
  const hex = (code, width) => code.toString(16).padStart(width, '0');
  return asLine(latin([...value].map((sign) => {
    const code = sign.codePointAt(0);
    if (code > 0xffff) return '\\U' + hex(code, 8);
    return code > 255 || '\\\0\n\r\x1a'.includes(sign) ? '\\u' + hex(code, 4) : sign;
  }).join('')));
}

function pair(value) {
  if (!Array.isArray(value)) throw new ValueError("two texts are wanted: 'module', 'name'");
  return joined(value.map((each) => asLine(bytesOf(each))));
}

const WRITERS = {
  uint1: (value) => bytesOfWhole(wholeIn(value, 0n, 255n), 1), uint2: (value) => bytesOfWhole(wholeIn(value, 0n, 65535n), 2),
  uint4: (value) => bytesOfWhole(wholeIn(value, 0n, 4294967295n), 4), uint8: (value) => bytesOfWhole(wholeIn(value, 0n, (1n << 64n) - 1n), 8),
  int4: (value) => bytesOfWhole(wholeIn(value, -2147483648n, 2147483647n), 4), float8,
  decimalnl_short: (value) => asLine(latin(typeof value === 'boolean' ? `0${Number(value)}` : String(whole(value)))),
  decimalnl_long: (value) => asLine(latin(`${whole(value)}L`)), floatnl: (value) => asLine(latin(pythonFloat(float(value)))),
  stringnl: (value) => asLine(latin(pythonBytes(bytesOf(value)).slice(1))), stringnl_noescape: (value) => asLine(bytesOf(value)),
  stringnl_noescape_pair: pair, unicodestringnl: escapedLine,
  string1: (value) => counted(value, 1), string4: (value) => counted(value, 4), bytes1: (value) => counted(value, 1), bytes4: (value) => counted(value, 4),
  bytes8: (value) => counted(value, 8), bytearray8: (value) => counted(value, 8), unicodestring1: (value) => counted(value, 1),
  unicodestring4: (value) => counted(value, 4), unicodestring8: (value) => counted(value, 8), long1: (value) => countedWhole(value, 1),
  long4: (value) => countedWhole(value, 4) };

// The argument of an opcode in hexadecimal, of what was typed for a form. Throws ValueError where there is none.
function argumentOf(form, typed, isHex) {
  if (isHex) {
    const hex = typed.replace(/\s+/g, '');
    if (!/^([0-9a-f]{2})*$/i.test(hex)) throw new ValueError('hexadecimal has two digits for each byte');
    return hex.toLowerCase();
  }
  return form ? hexOf(WRITERS[form](readValue(typed))) : '';
}

const OF_NUMBERS = ['uint1', 'uint2', 'uint4', 'uint8', 'int4', 'long1', 'long4', 'float8'];

// The arguments in hexadecimal that are the number which was typed, by their forms.
function numbersOf(typed) {
  const found = {};
  for (const form of OF_NUMBERS) try { found[form] = argumentOf(form, typed); } catch (error) { /* (it is none of this form) */ }
  return found;
}

// --- Back ---

const asText = (bytes) => (utf8(bytes) === null ? pythonBytes(bytes) : pythonText(utf8(bytes)));
const lineText = (bytes) => String.fromCharCode(...bytes.subarray(0, -1));
const wholeText = (bytes) => String(BigInt('0x0' + hexOf(bytes.slice().reverse())));
const READERS = {
  uint1: wholeText, uint2: wholeText, uint4: wholeText, uint8: wholeText, int4: (bytes) => String(new DataView(bytes.slice().buffer).getInt32(0, true)),
  float8: (bytes) => pythonFloat(new DataView(bytes.slice().buffer).getFloat64(0)),
  decimalnl_short: (bytes) => ({ '00': 'False', '01': 'True' }[lineText(bytes)] || lineText(bytes)), decimalnl_long: (bytes) => lineText(bytes).replace(/L$/, ''),
  floatnl: lineText, stringnl: lineText, stringnl_noescape: (bytes) => asText(bytes.subarray(0, -1)),
  stringnl_noescape_pair: (bytes) => {
    const middle = bytes.indexOf(10);
    return `${asText(bytes.subarray(0, middle))}, ${asText(bytes.subarray(middle + 1, -1))}`;
  },
  unicodestringnl: (bytes) => pythonText(lineText(bytes).replace(/\\u([0-9a-f]{4})|\\U([0-9a-f]{8})/g,
    (_, four, eight) => String.fromCodePoint(parseInt(four || eight, 16)))),
  string1: (bytes) => asText(bytes.subarray(1)), string4: (bytes) => asText(bytes.subarray(4)), bytes1: (bytes) => pythonBytes(bytes.subarray(1)),
  bytes4: (bytes) => pythonBytes(bytes.subarray(4)), bytes8: (bytes) => pythonBytes(bytes.subarray(8)), bytearray8: (bytes) => pythonBytes(bytes.subarray(8)),
  unicodestring1: (bytes) => asText(bytes.subarray(1)), unicodestring4: (bytes) => asText(bytes.subarray(4)), unicodestring8: (bytes) => asText(bytes.subarray(8)),
  long1: (bytes) => String(wholeOfHex(hexOf(bytes.subarray(1)))), long4: (bytes) => String(wholeOfHex(hexOf(bytes.subarray(4)))) };

// What can be typed for an argument, or null where only hexadecimal gives the same bytes.
function typedOf(form, hex) {
  try {
    const typed = READERS[form](bytesOfHex(hex));
    return argumentOf(form, typed, false) === hex ? typed : null;
  } catch (error) {
    return null;
  }
}
