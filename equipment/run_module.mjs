// node run_module.mjs RUNS.json: runs the module once for each of the runs, each in an instance of its own, and prints their statuses.
// A run reads AT.in and writes AT.out and AT.err. Where `pages` is not 0, the module's memory has at most so many pages of 64 KiB.
import { closeSync, openSync, readFileSync } from 'node:fs';
import { WASI } from 'node:wasi';
import { setFlagsFromString } from 'node:v8';

setFlagsFromString('--no-turbo-fast-api-calls');

function numberAt(bytes, at) {
    let value = 0;
    for (let shift = 0; ; shift += 7) {
        const byte = bytes[at++];
        value += (byte & 127) * 2 ** shift;
        if (byte < 128) return [value, at];
    }
}

function spelled(value) {
    const bytes = [];
    for (; value > 127; value = Math.floor(value / 128)) bytes.push((value & 127) | 128);
    return [...bytes, value];
}

// The module with a limit in its section of memories (5).
function limited(bytes, pages) {
    for (let at = 8; at < bytes.length; ) {
        const [size, start] = numberAt(bytes, at + 1);
        if (bytes[at] === 5) {
            const [least] = numberAt(bytes, start + 2);
            const section = [1, 1, ...spelled(least), ...spelled(pages)];
            return Buffer.concat([bytes.subarray(0, at + 1), Buffer.from([...spelled(section.length), ...section]), bytes.subarray(start + size)]);
        }
        at = start + size;
    }
    throw new Error('the module has no memory');
}

const asked = JSON.parse(readFileSync(process.argv[2], 'utf8'));
const bytes = readFileSync(asked.module);
const module = new WebAssembly.Module(asked.pages ? limited(bytes, asked.pages) : bytes);
const statuses = asked.runs.map(({ words, at }) => {
    const files = [openSync(`${at}.in`, 'r'), openSync(`${at}.out`, 'w'), openSync(`${at}.err`, 'w')];
    const [stdin, stdout, stderr] = files;
    const wasi = new WASI({ version: 'preview1', args: words, env: { PWD: process.cwd() }, preopens: { '/': '/' }, returnOnExit: true, stdin, stdout, stderr });
    const status = wasi.start(new WebAssembly.Instance(module, wasi.getImportObject()));
    files.forEach((file) => closeSync(file));
    return status;
});
console.log(JSON.stringify(statuses));
