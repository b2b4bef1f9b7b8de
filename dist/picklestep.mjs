#!/usr/bin/env node
// node picklestep.mjs WORD..: the program as a module (picklestep.wasm beside this file) under Node's own WASI, Node 20 or later. (An older
// Node has to be able to read this file, to say that it is one.)
import { closeSync, constants, existsSync, fchmodSync, fchownSync, fstatSync, openSync, readFileSync, realpathSync, statSync } from 'node:fs';
import { setFlagsFromString } from 'node:v8';

const OLDEST = 20;
const ON_WINDOWS = process.platform === 'win32';

function tried(act) {
    try {
        return act();
    } catch (error) {
        return undefined;
    }
}

// --- Paths

// A path of Windows as the module has it, in whose root the drives are folders (`/C:`). A word that is no path stays as it is.
function placed(word, current) {
    const [, drive, path] = /^([A-Za-z]:)?(.*)$/s.exec(word.replaceAll('\\', '/'));
    const isWhole = path.startsWith('/');
    if (drive ? !isWhole && drive.toUpperCase() !== current : path.startsWith('//')) {
        throw new Error(`${word} does not begin at the root of a drive`);
    }
    return isWhole ? `/${(drive || current).toUpperCase()}${path}` : path;
}

// What the module is given on Windows for words in a folder: words, that folder, and the drives of all of them.
export function onDrives(words, folder) {
    const current = folder.slice(0, 2).toUpperCase(), drives = new Set();
    function place(path) {
        const whole = placed(path, current);
        if (whole.startsWith('/')) drives.add(whole.slice(1, 3));
        return whole;
    }
    const home = place(folder);
    const args = words.map((word, at) => {
        const [before] = /^--save=/.exec(word) || (words[at - 1] === '--skip' && /^@/.exec(word)) || [''];
        return before + place(word.slice(before.length));
    });
    return { args, home, drives: [...drives] };
}

// Whether the words are UTF-8, as far as Linux says it. For what is not, Node has the character U+FFFD, and the word may be the path of another file.
function areText() {
    return new TextDecoder('utf-8', { fatal: true }).decode(readFileSync('/proc/self/cmdline')) !== '';
}

// The variable that names the folder that paths start from. It is not there where that folder has no path that Node knows: it was removed, or
// it has a name that is not UTF-8. (Then the module finds what begins at the root alone.)
function startingFolder() {
    const path = tried(() => process.cwd());
    const [named, current] = [path, '.'].map((folder) => tried(() => statSync(folder, { bigint: true })));
    return named && current && named.dev === current.dev && named.ino === current.ino ? { PWD: path } : {};
}

// The words, the folder that paths start from, and the folders of the system that the module may open.
function given(words) {
    if (words.some((word) => word.includes('\ufffd')) && !tried(areText)) throw new Error('cannot read');
    if (!ON_WINDOWS) return { args: ['picklestep', ...words], env: startingFolder(), preopens: { '/': '/' } };
    const { args, home, drives } = onDrives(words, process.cwd());
    const roots = drives.map((drive) => [`/${drive}`, `${drive}\\`]).filter(([, root]) => existsSync(root));
    return { args: ['picklestep', ...args], env: { PWD: home }, preopens: Object.fromEntries(roots) };
}

// --- Files

// A path from the root as the system takes it. (Each character of the module's stands for a byte.)
const onSystem = (path) => Buffer.from(`/${path}`, 'latin1');

// A path from the root without links before its name. Node's WASI takes `..` for the folder that is named before it, and the system for the one
// that holds what a link there leads to. (The real path may be there where the system refuses this one: `..` in a folder that it does not search.)
function straight(path) {
    const [, folder, name] = /^(.*\/)?([^/]*)$/s.exec(path);
    const place = onSystem(folder || '');
    statSync(place);
    return `${realpathSync.native(place, 'latin1')}/${name}`.replace(/^\/+/, '');
}

// Gives a new file that has no bytes yet the owner and the mode of the one that it replaces (a change of owner may clear bits of the mode).
// (Who may write in the folder may have put another file there.)
function settle(path, before) {
    const file = openSync(onSystem(path), constants.O_NOFOLLOW | constants.O_NONBLOCK);
    try {
        const made = fstatSync(file);
        if (!made.isFile() || made.nlink > 1 || made.size > 0) throw new Error('it is another file');
        tried(() => fchownSync(file, -1, before.gid));
        tried(() => fchownSync(file, before.uid, -1));
        fchmodSync(file, before.mode & 0o7777);
    } finally {
        closeSync(file);
    }
}

const NO_SUCH_FILE = 44; // (a number of WASI)

// A call of WASI that is made with straight paths, after something else is done with them. `places` are those of the paths among what it is
// given, each with its length behind it. For the time of the call they are in the module's memory, where its stack would end.
function onPaths(call, places, memory, first = () => {}) {
    const bytes = (at, size) => Buffer.from(memory().buffer, at >>> 0, size >>> 0);
    return (...given) => {
        let paths;
        try {
            paths = places.map((at) => straight(bytes(given[at], given[at + 1]).toString('latin1')));
            first(paths, given);
        } catch (error) {
            return NO_SUCH_FILE;
        }
        const room = bytes(0, paths.join('').length), kept = Buffer.from(room);
        let end = 0;
        places.forEach((at, number) => {
            given[at] = end;
            given[at + 1] = room.write(paths[number], end, 'latin1');
            end += given[at + 1];
        });
        const status = call(...given);
        kept.copy(room);
        return status;
    };
}

const CREATES = 1; // (what is new, where WASI opens it)

// The calls of WASI that have paths. WASI itself follows no link then: the system does, as far as it goes (also to `/dev/stdin`). WASI has no
// modes: a new file has what the mask leaves, or where it replaces another, nobody else may read it until it has the mode of that one. It has that
// before its bytes, since the system may take bits away when it is written.
function fileCalls(calls, memory) {
    const mask = process.umask(0o077);
    let before; // (of what was opened last and is not new: where a new file is opened next, the one that it replaces)
    let made; // (the path of the new file)
    let isSettled = true;
    function note([path], [, , , , how]) {
        made = how & CREATES ? path : '';
        if (made) process.umask(before ? 0o077 : mask);
        else before = tried(() => statSync(onSystem(path)));
    }
    function open(folder, follow, ...others) {
        const status = calls.path_open(folder, 0, ...others);
        if (status === 0 && made && before) isSettled = tried(() => settle(made, before) || true);
        return status;
    }
    function check() {
        if (!isSettled) throw new Error('the new file has not the mode of the old one');
    }
    return {
        path_open: onPaths(open, [2], memory, note),
        path_filestat_get: onPaths(calls.path_filestat_get, [2], memory),
        path_readlink: onPaths(calls.path_readlink, [1], memory),
        path_unlink_file: onPaths(calls.path_unlink_file, [1], memory),
        path_rename: onPaths(calls.path_rename, [1, 4], memory, check),
    };
}

// --- The start

// V8 first runs each function as its quick compiler makes it, and a loop that has begun so stays so, to the end of a large pickle. So what
// is called first when that many bytes were read is made by the better compiler at once.
const LARGE = 1 << 22;

function reader(read, memory) {
    let total = 0;
    return (file, parts, count, moved) => {
        const status = read(file, parts, count, moved);
        if (status === 0 && total < LARGE) {
            total += new DataView(memory().buffer).getUint32(moved >>> 0, true);
            if (total >= LARGE) setFlagsFromString('--no-liftoff');
        }
        return status;
    };
}

async function run(words) {
    // Node 20 breaks in the fast calls of its WASI after a longer run. (A Node without such a flag says so among the errors, and goes on.)
    setFlagsFromString('--no-turbo-fast-api-calls');
    // A limit of memory in bytes, for the module alone.
    const most = Number(process.env.PICKLESTEP_MEMORY);
    if (most > 0) setFlagsFromString(`--wasm-max-mem-pages=${Math.floor(most / 65536)}`);
    const warn = process.emitWarning;
    process.emitWarning = () => {};
    const { WASI } = await import('node:wasi');
    process.emitWarning = warn;
    const wasi = new WASI({ version: 'preview1', ...given(words), returnOnExit: true });
    const module = new WebAssembly.Module(readFileSync(new URL('picklestep.wasm', import.meta.url)));
    const { wasi_snapshot_preview1: calls } = wasi.getImportObject();
    const memory = () => instance.exports.memory;
    const own = { ...calls, fd_read: reader(calls.fd_read, memory), ...(ON_WINDOWS ? {} : fileCalls(calls, memory)) };
    const instance = new WebAssembly.Instance(module, { wasi_snapshot_preview1: own });
    return wasi.start(instance);
}

// (Node's own status is 1, and that is the status of an answer.)
function fail(words) {
    console.error(`picklestep: ${words}`);
    process.exitCode = 2;
}

function begin(words) {
    const version = process.versions.node;
    if (parseInt(version, 10) < OLDEST) {
        fail(`the program is a module, which runs with Node ${OLDEST} or later on the path (https://nodejs.org), and this is Node ${version}`);
        return;
    }
    run(words).then(
        (status) => {
            process.exitCode = status;
        },
        // (RangeError: the module's own memory is above the limit.)
        (error) => fail(error instanceof RangeError ? 'out of memory' : error.message),
    );
}

// (A test that asks for its parts alone says so behind its name.)
if (!import.meta.url.endsWith('?parts')) begin(process.argv.slice(2));
