// node in_node.mjs LIBRARY PAGES: answers another process by the library as a module, of at most so many pages of memory. A request on
// standard input is a line `FUNCTION OPTIONS INPUTS` and the bytes of each input: OPTIONS has the number that comes before them, or -, and INPUTS,
// with commas between them, how many bytes each has and, behind a slash, of how many of them its length counts one. Its answer is a line `ANSWER
// SIZE USED` and SIZE bytes; USED are microseconds of processor time since it was started. An instance whose memory grew is left after its answer, since a memory never shrinks. It ends with its input.
import { readFileSync, readSync, writeSync } from 'node:fs';
import { setFlagsFromString } from 'node:v8';

setFlagsFromString(`--wasm-max-mem-pages=${process.argv[3]}`);
const module = new WebAssembly.Module(readFileSync(process.argv[2]));
const OUT_OF_MEMORY = { answer: 1, text: new Uint8Array() }, NO_ROOM = 3, MOST_KEPT = 1 << 20;
let held = Buffer.alloc(0);

// Reads on. The end of the input ends this process.
function readMore() {
    const block = Buffer.allocUnsafe(1 << 17);
    let size = 0;
    try {
        size = readSync(0, block);
    } catch (error) {
        if (error.code !== 'EOF') throw error; // (what Windows says at the end of a pipe)
    }
    if (size === 0) process.exit();
    held = Buffer.concat([held, block.subarray(0, size)]);
}

function readLine() {
    for (;;) {
        const end = held.indexOf(10);
        if (end >= 0) {
            const line = held.toString('latin1', 0, end);
            held = held.subarray(end + 1);
            return line;
        }
        readMore();
    }
}

function readBytes(length) {
    while (held.length < length) readMore();
    const bytes = held.subarray(0, length);
    held = held.subarray(length);
    return bytes;
}

function writeAll(bytes) {
    for (let at = 0; at < bytes.length; ) at += writeSync(1, bytes, at);
}

let library = null, least = 0;

// The arguments that say where the inputs are, or null where there is no room for them.
function put(inputs) {
    const given = [];
    for (const { content, size } of inputs) {
        const place = library.take(BigInt(content.length + 1));
        if (!place) return null;
        new Uint8Array(library.memory.buffer).set(content, Number(place));
        given.push(place, BigInt(content.length / size));
    }
    return given;
}

// The answer is read before the next one is asked for. What an answer that is none has taken goes with its instance.
function ask(name, options, inputs) {
    if (!library) {
        library = new WebAssembly.Instance(module, {}).exports;
        least = library.memory.buffer.byteLength;
    }
    if (!library[name]) return OUT_OF_MEMORY; // (a module of an earlier version has not all of them)
    const given = put(inputs), written = library.take(16n);
    if (!given || !written) return OUT_OF_MEMORY;
    for (let room = 1 << 16; ; ) {
        const out = library.take(BigInt(room));
        if (!out) return OUT_OF_MEMORY;
        const answer = library[name](...options, ...given, out, BigInt(room), written);
        const size = Number(new DataView(library.memory.buffer).getBigUint64(Number(written), true));
        const text = answer ? OUT_OF_MEMORY.text : new Uint8Array(library.memory.buffer).slice(Number(out), Number(out) + size);
        library.give(out);
        if (answer !== NO_ROOM) {
            inputs.forEach((_, number) => library.give(given[2 * number]));
            library.give(written);
            return { answer, text };
        }
        room = size;
    }
}

const numbers = (word) => (word === '-' ? [] : word.split(',').map(Number));

function readInput(word) {
    const [length, size] = word.split('/').map(Number);
    return { content: readBytes(length), size };
}

for (;;) {
    const [name, options, inputs] = readLine().split(' ');
    const { answer, text } = ask(name, numbers(options), inputs.split(',').map(readInput));
    if (answer || library.memory.buffer.byteLength > least + MOST_KEPT) library = null;
    const { user, system } = process.cpuUsage();
    writeAll(Buffer.concat([Buffer.from(`${answer} ${text.length} ${user + system}\n`), text]));
}
