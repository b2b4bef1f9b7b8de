'use strict';
// Runs the worker of picklestep.html in Node: each line of standard input is a question, [word, asked], and each line of output its answer.
// The bytes of a pickle are in `asked.packed`, in base64. A word that begins with a point is an expression over the worker's own names.
const { readFileSync } = require('node:fs'), vm = require('node:vm'), zlib = require('node:zlib');

const page = readFileSync(process.argv[2], 'utf8');
const between = (start, end) => page.slice(page.indexOf(start) + start.length, page.indexOf(end, page.indexOf(start)));
const data = (id) => JSON.parse(between(`<script type="application/json" id="${id}">`, '</script>'));
const wasm = (id) => new WebAssembly.Module(zlib.inflateSync(Buffer.from(between(`<template id="${id}">`, '</template>'), 'base64')));

const answers = new Map();
const context = vm.createContext({ WebAssembly, TextDecoder, TextEncoder, Blob, DecompressionStream, URL, setTimeout, console,
  postMessage: ({ id, answer }) => answers.set(id, answer) });
vm.runInContext(`${between('id="worker-code">', '</script>')}\nglobalThis.tell = answer; globalThis.valueOf = (text) => eval(text);`, context);

let asked = 0;
async function ask(word, words) {
  if (word[0] === '.') return context.valueOf(word.slice(1));
  const id = asked += 1;
  await context.tell({ id, word, asked: words });
  return answers.get(id);
}

(async () => {
  const opcodes = data('opcodes');
  await ask('start', { from: 0, opcodes, facts: data('source-facts'), module: wasm('module'), library: wasm('library') });
  for await (const line of require('node:readline').createInterface({ input: process.stdin })) {
    const [word, words] = JSON.parse(line);
    if (words.packed !== undefined) words.bytes = new Uint8Array(Buffer.from(words.packed, 'base64'));
    const answer = await ask(word, words);
    console.log(JSON.stringify(answer instanceof Uint8Array || answer?.bytes ? Buffer.from(answer.bytes || answer).toString('base64') : answer ?? null));
  }
  process.exit(0);
})();
