'use strict';
// What the page shows of opcodes, of objects, and of what is imported and called. It is put in as text.

// --- Arguments ---

// A whole number from its bytes; these as they stand where they are many, or not all.
const pythonWhole = (hex, isCut) => (hex.length > 128 || isCut ? `le:${hex}` : String(wholeOfHex(hex)));

const behindCut = (more) => (more ? ` .. ${more} bytes more` : '');

// The argument among the fields of an opcode or an object.
function shownArgument(fields, form) {
  const { argument, argument_digits: digits, argument_f8_hex: float, argument_le_hex: hex, argument_le_hex_more: more } = fields;
  if (typeof argument === 'number') return String(argument);
  if (digits !== undefined) return digits;
  if (float !== undefined) return pythonFloat(floatOfHex(float));
  if (hex !== undefined) return pythonWhole(hex, more) + behindCut(more / 2);
  if (textIn(fields, 'module')) return `${pythonIn(fields, 'module')} ${pythonIn(fields, 'name')}`;
  if (!textIn(fields, 'argument')) return '';
  return form === 'stringnl' ? lineAsItStands(fields) : pythonIn(fields, 'argument', form.startsWith('bytes') || form === 'bytearray8');
}

// A line of STRING has quotes of its own.
function lineAsItStands(fields) {
  const { text, bytes, more } = textIn(fields, 'argument');
  return (text === null ? plain(binary(bytes)) : plain(text)) + behindCut(more);
}

// The opcode of a row: its argument, and the mark that it takes, or the key of the memo under which it stores.
function shownOpcode(row) {
  const note = 'mark' in row ? `(MARK at ${row.mark})` : 'memo' in row ? `(as ${row.memo})` : '';
  return [shownArgument(row, formOf(row.opcode)), note].filter(Boolean).join(' ');
}

function floatOfHex(hex) {
  return new DataView(bytesOfHex(hex).buffer).getFloat64(0);
}

// --- What an opcode imports or calls: the fields of a line of `calls --json` ---

const DOTTED = /^[\p{L}\p{Nl}_][\p{L}\p{Nl}\p{M}\p{Nd}\p{Pc}]*(\.[\p{L}\p{Nl}_][\p{L}\p{Nl}\p{M}\p{Nd}\p{Pc}]*)*$/u;

// A text among the fields as Python writes it.
function pythonIn(fields, name, isBytes = false) {
  const { text, bytes, more } = textIn(fields, name);
  const shown = text !== null && !isBytes ? pythonText(text) : pythonBytes(bytes || new TextEncoder().encode(text));
  return shown + behindCut(more);
}

// A part of a name. What is no name is shown with quotes, and what is no text is an object.
function partOf(fields, name) {
  if (`${name}_object` in fields) return `#${fields[`${name}_object`]}`;
  const { text, more } = textIn(fields, name);
  return text !== null && !more && DOTTED.test(text) && !HIDDEN.test(text) ? text : pythonIn(fields, name);
}

const pythonName = (fields, before = '') => `${partOf(fields, `${before}module`)}.${partOf(fields, `${before}name`)}`;

// What is imported or called.
function calledIn(fields) {
  if ('extension' in fields) return `extension ${fields.extension}`;
  return 'callee' in fields ? `#${fields.callee}` : pythonName(fields);
}

const VALUES = {
  none: () => 'None', true: () => 'True', false: () => 'False', object: ({ object }) => `#${object}`, extension: ({ number }) => `ext ${number}`,
  int: ({ value, digits, le_hex: hex, more }) => (hex === undefined ? String(value ?? digits) : pythonWhole(hex, more)),
  float: ({ f8_hex: hex }) => pythonFloat(floatOfHex(hex)), global: (value) => ('object' in value ? `global #${value.object}` : pythonName(value)),
  bytes: (value) => pythonIn(value, 'value', true), bytearray: (value) => pythonIn(value, 'value', true), text: (value) => pythonIn(value, 'value'),
  string: (value) => pythonIn(value, 'value'),
};

function pythonValue(value) {
  const shown = VALUES[value.kind] ? VALUES[value.kind](value) : `${value.kind} ${pythonIn(value, 'value')}`;
  return value.more ? `${shown}+${value.more}` : shown;
}

// The values of a tuple, or one value.
function pythonValues(fields, name) {
  const values = fields[name], more = fields[`${name}_more`];
  return Array.isArray(values) ? `(${[...values.map(pythonValue), ...(more ? [`+${more}`] : [])].join(', ')})` : pythonValue(values);
}

// What the object is that a line names, or '' where the line does not say it: `posix.system`, `posix.system('id')`.
function shownReach(fields) {
  const { kind } = fields;
  if (!['import', 'call', 'new', 'inst'].includes(kind)) return '';
  const called = calledIn(fields), old = hasOldName(fields) ? ` (for ${pythonName(fields, 'for_')})` : '';
  if (kind === 'import') return called + old;
  const values = pythonValues(fields, 'args'), keywords = 'keywords' in fields ? ` ${pythonValues(fields, 'keywords')}` : '';
  return `${kind === 'new' ? 'new ' : ''}${called}${Array.isArray(fields.args) ? values : `(*${values})`}${keywords}${old}`;
}

// What a row or the list of imports and calls says of an opcode.
function reachOfRow(fields) {
  if (!fields) return '';
  const { kind, object, count } = fields;
  const said = { persistent: () => ('id' in fields ? pythonValues(fields, 'id') : pythonIn(fields, 'line')), buffer: () => fields.number, readonly: () => `#${fields.of}`,
    state: () => `${pythonValues(fields, 'state')} to #${object}`, append: () => `${count} to #${object}`, add: () => `${count} to #${object}`, set: () => `${count} in #${object}` };
  return said[kind] ? `${kind} ${said[kind]()}` : shownReach(fields);
}

// --- Objects ---

const SIGNS = { append: (other) => ` +#${other}`, add: (other) => ` &#${other}`, state: (other) => ` !#${other}`, key: (other) => ` [#${other}]`,
  value: (other) => `=#${other}` };
const FORMS = { bytes: 'bytes1', bytearray: 'bytearray8', 'string-line': 'stringnl' };

// An object in a line: its kind and value, or what it imports or calls, and what was done to it since.
function shownObject(thing) {
  if (!thing) return '';
  const { is, number, held, more, reach } = thing, known = reach ? shownReach(reach) : '';
  const parts = held.filter(([how]) => !how).map(([, other]) => `#${other}`).join(' '), value = shownArgument(thing, FORMS[is] || '');
  const made = known || [is, number, value, parts && `(${parts})`].filter((each) => each !== undefined && each !== '').join(' ');
  return made + held.map(([how, other]) => (how ? SIGNS[how](other) : '')).join('') + (more ? ` .. ${more} more` : '');
}
