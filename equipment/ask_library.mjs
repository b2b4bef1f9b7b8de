// node ask_library.mjs MODULE: as ask_library.c, with the module; an instance for each line. It has no limit of memory of its own.
import { readFileSync, writeFileSync } from 'node:fs';

const TASKS = {
    'list': ['picklestep_list', 0],
    'list --many': ['picklestep_list', 1],
    'objects': ['picklestep_objects', 0],
    'objects --many': ['picklestep_objects', 1],
    'calls': ['picklestep_calls'],
    'calls --first': ['picklestep_calls_first'],
    'calls --memo kept': ['picklestep_calls_one_memo'],
    'form': ['picklestep_form'],
    'form --json': ['picklestep_form_json'],
    'members': ['picklestep_members'],
    'members --json': ['picklestep_members_json'],
    'assemble': ['picklestep_assemble'],
    'debug': ['picklestep_debug', 0],
    'debug --many': ['picklestep_debug', 1],
};
// What has options is asked of a function that takes them.
const OPTIONS = { '--many': 1, '--unframed': 2, '--first': 4, '--memo': 8, '--full': 16 };
// What a loader was given, for `reach`.
const GRANTED = { '--extensions': 1, '--persistent-ids': 2, '--buffers': 4 };
const module = new WebAssembly.Module(readFileSync(process.argv[2]));
if (WebAssembly.Module.imports(module).length) throw new Error('it has imports');

// The function for a task, and what comes before its other arguments: holes and lists are put into its memory.
function asked(task, library) {
    if (TASKS[task]) return TASKS[task];
    const [, word, json, many, path] = /^(gate|same) (--json )?(--many )?(.+)$/.exec(task) ?? [];
    if (word) {
        const before = readFileSync(path), place = library.take(BigInt(before.length + 1));
        if (place) new Uint8Array(library.memory.buffer).set(before, Number(place));
        return [`picklestep_${word}${json ? '_json' : ''}`, ...(word === 'same' ? [many ? 1 : 0] : []), place, BigInt(before.length)];
    }
    const words = task.split(' '), sum = (values) => words.map((word) => values[word] ?? 0).reduce((all, one) => all | one);
    const options = sum(words[0] === 'reach' ? GRANTED : OPTIONS);
    const name = `picklestep_${words[0]}${words.includes('--json') ? '_json' : words[0] === 'reach' ? '' : '_with'}`;
    if (words[0] !== 'calls') return [name, options];
    const holes = words.filter((_, at) => words[at - 1] === '--skip').flatMap((hole) => hole.split(':').map(BigInt));
    const place = library.take(BigInt(8 * holes.length + 1));
    if (place) new BigUint64Array(library.memory.buffer, Number(place), holes.length).set(holes);
    return [name, options, place, BigInt(holes.length / 2)];
}

// The texts of the lines of a script, asked one after another of a session up to `quit`, or then its bytes.
function askSession(task, content, script) {
    const library = new WebAssembly.Instance(module, {}).exports;
    const put = (bytes) => {
        const place = library.take(BigInt(bytes.length + 1));
        if (!place) throw new RangeError('no memory for an input');
        new Uint8Array(library.memory.buffer).set(bytes, Number(place));
        return place;
    };
    const words = task.split(' '), window = words.includes('--window') ? BigInt(words[words.indexOf('--window') + 1]) : 0n;
    const session = put(new Uint8Array(16)), written = put(new Uint8Array(16)), given = put(content), texts = [];
    let room = 200, out = put(new Uint8Array(room)), status = 0;
    const place = () => [out, BigInt(room), written];
    const text = (answer, again) => {
        const fields = new DataView(library.memory.buffer, Number(written)), size = Number(fields.getBigUint64(0, true));
        if (answer === 3) {
            library.give(out);
            [out, room] = [put(new Uint8Array(size)), size];
            return text(again(), again);
        }
        if (answer) throw new RangeError(`${answer} is answered`);
        status |= fields.getUint8(8);
        return new Uint8Array(library.memory.buffer).slice(Number(out), Number(out) + size);
    };
    const options = words.map((word) => OPTIONS[word] ?? 0).reduce((all, one) => all | one);
    const answer = library.picklestep_open(options, window, given, BigInt(content.length), session);
    if (answer) return { answer, status: 0, text: new Uint8Array() };
    library.give(given);
    for (const line of script.toString('latin1').replace(/\n$/, '').split('\n')) {
        if (line === 'quit') break;
        const said = put(Buffer.from(line, 'latin1'));
        const asks = library[words.includes('--json') ? 'picklestep_ask_json' : 'picklestep_ask'];
        texts.push(text(asks(session, said, BigInt(line.length), ...place()), () => library.picklestep_again(session, ...place())));
        library.give(said);
    }
    if (task.startsWith('saved')) {
        const again = () => library.picklestep_bytes(session, ...place());
        status = 0;
        texts.splice(0, texts.length, text(again(), again));
    }
    if (library.picklestep_close(session)) throw new Error('it is not closed');
    return { answer: 0, status, text: Buffer.concat(texts) };
}

function ask(task, content, script) {
    if (/^(session|saved)/.test(task)) return askSession(task, content, script);
    const library = new WebAssembly.Instance(module, {}).exports;
    const [name, ...first] = asked(task, library);
    const given = library.take(BigInt(content.length + 1)), written = library.take(16n), lines = library.take(BigInt(script.length + 1));
    if (!given || !written || !lines) return { answer: 1, status: 0, text: new Uint8Array() };
    new Uint8Array(library.memory.buffer).set(content, Number(given));
    new Uint8Array(library.memory.buffer).set(script, Number(lines));
    const second = task.startsWith('debug') ? [lines, BigInt(script.length)] : [];
    for (let room = 200; ; ) {
        const out = library.take(BigInt(room));
        if (!out) return { answer: 1, status: 0, text: new Uint8Array() };
        const answer = library[name](...first, given, BigInt(content.length), ...second, out, BigInt(room), written);
        const fields = new DataView(library.memory.buffer, Number(written));
        const size = Number(fields.getBigUint64(0, true));
        if (answer === 3) {
            library.give(out);
            room = size;
            continue;
        }
        const text = answer ? new Uint8Array() : new Uint8Array(library.memory.buffer).slice(Number(out), Number(out) + size);
        return { answer, status: fields.getUint8(8), text };
    }
}

const said = readFileSync(0, 'utf8').split('\n').slice(0, -1).map((line) => {
    const [task, , from, to, lines] = line.split('\t');
    const { answer, status, text } = ask(task, readFileSync(from), readFileSync(lines));
    writeFileSync(to, text);
    return `${answer} ${status}\n`;
});
process.stdout.write(said.join(''));
