'use strict';
// What the program prints of a pickle, as people and Python write it. Nothing here is markup: all that comes out of it is put in as text.

// Signs that Python's repr shows as escapes. Here all that are written from right to left are too, since these would move what stands
// beside them.
const UNPRINTED = /[\p{C}\p{Z}]/u;
const LEFTWARDS = '\\u0590-\\u08ff\\ufb1d-\\ufdff\\ufe70-\\ufeff\\u{10800}-\\u{10fff}\\u{1e800}-\\u{1efff}';
const HIDDEN = new RegExp(`[\\p{C}\\p{Z}${LEFTWARDS}]`, 'u');

const SHORT = { '\\': '\\\\', '\n': '\\n', '\r': '\\r', '\t': '\\t' };

function escapedSign(sign, hidden = HIDDEN) {
  if (SHORT[sign]) return SHORT[sign];
  if (sign === ' ' || !hidden.test(sign)) return sign;
  const code = sign.codePointAt(0).toString(16);
  return code.length <= 2 ? '\\x' + code.padStart(2, '0') : code.length <= 4 ? '\\u' + code.padStart(4, '0') : '\\U' + code.padStart(8, '0');
}

// A text from outside, on one line.
const plain = (text) => [...text].map((sign) => (sign === '\\' ? sign : escapedSign(sign))).join('');

// Python source, in which no sign is written from right to left: in its texts an escape is the same.
const shownSource = (source) => source.replace(new RegExp(`[${LEFTWARDS}]`, 'gu'), (sign) => escapedSign(sign));

// A text as Python writes it.
const pythonText = (text) => quotedSigns([...text], HIDDEN);

function quotedSigns(signs, hidden) {
  const quote = signs.includes("'") && !signs.includes('"') ? '"' : "'";
  return quote + signs.map((sign) => (sign === quote ? '\\' + sign : escapedSign(sign, hidden))).join('') + quote;
}

function pythonBytes(bytes, quote = bytes.includes(39) && !bytes.includes(34) ? '"' : "'") {
  const text = Array.from(bytes, (byte) => String.fromCharCode(byte)).join('');
  return 'b' + quote + [...text].map((sign) => {
    if (sign === quote) return '\\' + sign;
    const code = sign.charCodeAt(0);
    return SHORT[sign] || (code < 32 || code > 126 ? '\\x' + code.toString(16).padStart(2, '0') : sign);
  }).join('') + quote;
}

// A float as Python writes it: the shortest digits that give it back.
function pythonFloat(value) {
  if (!Number.isFinite(value)) return Number.isNaN(value) ? 'nan' : value < 0 ? '-inf' : 'inf';
  if (Object.is(value, -0)) return '-0.0';
  const size = Math.abs(value);
  if (size !== 0 && (size < 1e-4 || size >= 1e16)) return value.toExponential().replace(/e([+-])(\d)$/, 'e$10$2');
  const text = String(value);
  return /[.e]/.test(text) ? text : text + '.0';
}

// A whole number from its bytes, the lowest first, with its sign.
function wholeOfHex(hex) {
  if (!hex) return 0n;
  const bytes = hex.match(/../g).reverse();
  return BigInt.asIntN(4 * hex.length, BigInt('0x' + bytes.join('')));
}

const strict = new TextDecoder('utf-8', { fatal: true, ignoreBOM: true });
const HALF = /(\xed[\xa0-\xbf][\x80-\xbf])/;
const MOST_HALVED = 65536; // bytes

// The text of bytes in UTF-8, or null. Halves of pairs may stand alone, as Python's unpickler lets them.
function utf8(bytes) {
  try {
    return strict.decode(bytes);
  } catch (error) {
    return bytes.length < MOST_HALVED ? withHalves(bytes) && withHalves(bytes).join('') : null;
  }
}

// The same as signs. Two halves that stand alone one after another are two.
function signsOf(bytes) {
  try {
    return [...strict.decode(bytes)];
  } catch (error) {
    return withHalves(bytes);
  }
}

function withHalves(bytes) {
  try {
    return binary(bytes).split(HALF).flatMap((part, at) => {
      const [, second, third] = part;
      if (at % 2) return [String.fromCharCode(0xd000 | (second.charCodeAt(0) & 63) << 6 | third.charCodeAt(0) & 63)];
      return [...strict.decode(latin(part))];
    });
  } catch (error) {
    return null;
  }
}

// --- Lines of older protocols ---

// An argument of which a loader makes no value.
class Unreadable extends Error {}

const ESCAPED = { b: '\b', f: '\f', t: '\t', n: '\n', r: '\r', v: '\v', a: '\x07', '\\': '\\', "'": "'", '"': '"', '\n': '' };

// The bytes that stand between the quotes of a line of STRING.
function unescapedLine(inner) {
  return inner.replace(/\\(?:([0-7]{1,3})|x([0-9a-fA-F]{2})|([^])|$)/g, (all, octal, hex, sign) => {
    if (octal) return String.fromCharCode(parseInt(octal, 8) & 255);
    if (hex) return String.fromCharCode(parseInt(hex, 16));
    if (sign === undefined || sign === 'x') throw new Unreadable('an escape is not whole');
    return sign in ESCAPED ? ESCAPED[sign] : all;
  });
}

// The signs of a line of UNICODE. Halves of pairs that are written as two escapes stay two signs.
function unicodeSigns(line) {
  const signs = [];
  for (const [all, four, eight, wrong] of line.matchAll(/\\(?:u([0-9a-fA-F]{4})|U([0-9a-fA-F]{8})|([uU])|[^])|[^]/g)) {
    const code = parseInt(four || eight, 16);
    if (wrong || code > 0x10ffff) throw new Unreadable('an escape is not whole');
    if (four || eight) signs.push(String.fromCodePoint(code));
    else signs.push(...all);
  }
  return signs;
}

// --- Texts among the fields of a line of JSON ---

// How the name of a field ends whose text JSON does not hold as it is, and the text of its bytes; null where they are none.
const SPELLED = { _hex: utf8, _raw_unicode_escape_hex: (bytes) => unicodeSigns(binary(bytes)).join(''),
  _string_escape_hex: (bytes) => unescapedLine(binary(bytes)), _raw_hex: () => null };

// A text among fields: the text or else its bytes, and how many bytes more it has; null where there is none of the name.
function textIn(fields, name) {
  if (name in fields) return { text: fields[name], more: fields[`${name}_more`] };
  const ending = Object.keys(SPELLED).find((each) => name + each in fields);
  if (!ending) return null;
  const bytes = bytesOfHex(fields[name + ending]), more = fields[`${name}${ending}_more`];
  return { text: more ? null : SPELLED[ending](bytes), bytes, more: more / 2 };
}

// Whether Python 3 imports something else than what the pickle names.
const hasOldName = (fields) => textIn(fields, 'for_module') !== null;
