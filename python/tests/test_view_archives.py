"""Which members the page without a server shows of archives, and what bytes: those that `zipfile` and `tarfile` read of the same archive, where the library
says that all readers find these.

The archives are those that libraries wrote: torch (whose writer closes each archive as one above 4 GiB), numpy, pandas and lightning.
"""

from __future__ import annotations

import gzip
import hashlib
import io
import json
import lzma
import shutil
import struct
import subprocess
import tarfile
import tempfile
import unittest
import zipfile
import zlib
from pathlib import Path
from typing import Any, Dict, List

import picklestep
from evasions import with_hole
from pickles import HOSTILE, ROOT, known_opcodes
from scan_support import Unseekable
from test_view_alone import MODELS, InChromium

SCRIPTS = [ROOT / 'python' / 'picklestep' / 'view' / name for name in ('bytes.js', 'alone/lines.js', 'alone/library.js', 'alone/containers.js')]
MODULE = ROOT / 'dist' / 'libpicklestep.wasm'
KEPT = MODELS.parent / 'real'
_BEGIN = '''
const { readFileSync } = require('node:fs'), { createHash } = require('node:crypto'), [wasm, ...scripts] = process.argv.slice(1);
for (const script of scripts) require('node:vm').runInThisContext(readFileSync(script, 'utf8'));
const module = new WebAssembly.Module(readFileSync(wasm)), sumOf = (bytes) => createHash('sha256').update(bytes).digest('hex');
(async () => {
    const answers = [];
    for (const path of readFileSync(0, 'utf8').split('\\n')) {'''
_END = '''
    }
    console.log(JSON.stringify(answers));
})();'''
# Answers for each file which members it has, with the sums of their bytes, and why it has none.
_READ = f'''{_BEGIN}
        const bytes = new Uint8Array(readFileSync(path)), found = {{ ...membersIn(module, bytes), kind: archiveOf(bytes) }};
        for (const member of found.members) member.sum = await memberBytes(bytes, member).then(sumOf, (error) => error.message);
        answers.push(found);{_END}'''
# Answers for each file what it holds, its name and the sum of its bytes, or why it holds nothing.
_UNPACK = f'''{_BEGIN}
        const found = await unpacked(module, new Uint8Array(readFileSync(path)), path).catch((error) => error.message);
        answers.push(found.bytes ? [found.name, sumOf(found.bytes)] : found);{_END}'''


def array_file(descr: str, content: bytes) -> bytes:
    """A file of numpy."""
    header = f"{{'descr': {descr}, 'fortran_order': False, 'shape': (1,), }}".encode().ljust(117) + b'\n'
    return b'\x93NUMPY\x01\x00' + struct.pack('<H', len(header)) + header + content


def sums(path: Path) -> Dict[str, str]:
    """What `zipfile` reads of an archive."""
    with zipfile.ZipFile(path) as archive:
        return {name: hashlib.sha256(archive.read(name)).hexdigest() for name in archive.namelist() if not name.endswith('/')}


def torch_like(members: Dict[str, bytes], in_extra: bool) -> bytes:
    """An archive as torch's writer (miniz) lays it out: padding in extra fields, data that begin at multiples of 64, and a closing record of
    long archives with its locator in each archive. With `in_extra`, each place stands in an extra field, as for members past 4 GiB."""
    body = directory = b''
    for name, data in members.items():
        place, title = len(body), name.encode()
        padding = -(place + 30 + len(title) + 4) % 64
        crc = zipfile.crc32(data)  # type: ignore[attr-defined]
        body += struct.pack('<4sHHHHHIIIHH', b'PK\3\4', 0, 0x808, 0, 0, 0, 0, 0, 0, len(title), padding + 4)
        body += title + struct.pack('<2sH', b'FB', padding) + b'Z' * padding + data + struct.pack('<4sIII', b'PK\7\x08', crc, len(data), len(data))
        extra = struct.pack('<HHQ', 1, 8, place) if in_extra else b''
        directory += struct.pack('<4sHHHHHHIIIHHHHHII', b'PK\1\2', 0, 0, 0x808, 0, 0, 0, crc, len(data), len(data), len(title), len(extra), 0, 0, 0, 0,
                                 0xFFFFFFFF if in_extra else place) + title + extra
    end, count = len(body) + len(directory), len(members)
    return (body + directory + struct.pack('<4sQHHIIQQQQ', b'PK\6\6', 44, 0x31E, 45, 0, 0, count, count, len(directory), len(body))
            + struct.pack('<4sIQI', b'PK\6\7', 0, end, 1) + struct.pack('<4sHHHHIIH', b'PK\5\6', 0, 0, count, count, len(directory), len(body), 0))


@unittest.skipIf(shutil.which('node') is None, 'Node is not there')
class Archives(unittest.TestCase):
    """What the page finds, by its own code in Node."""

    def setUp(self) -> None:
        held = tempfile.TemporaryDirectory()
        self.addCleanup(held.cleanup)
        self.folder = Path(held.name)

    def run_script(self, script: str, paths: List[Path]) -> List[Any]:
        done = subprocess.run(['node', '-e', script, str(MODULE), *map(str, SCRIPTS)], input='\n'.join(map(str, paths)), capture_output=True, text=True, timeout=300,
                              check=False)
        self.assertEqual(done.stderr, '')
        answers: List[Any] = json.loads(done.stdout)
        return answers

    def read(self, paths: List[Path]) -> List[Any]:
        return self.run_script(_READ, paths)

    def same(self, paths: List[Path]) -> None:
        """Compares what the page finds with what `zipfile` reads, and with what the package says."""
        for path, found in zip(paths, self.read(paths)):
            with self.subTest(path.name):
                self.assertEqual((found['kind'], found['why']), ('zip', ''))
                self.assertEqual({member['name']: member['sum'] for member in found['members'] if not member['name'].endswith('/')}, sums(path))
                self.assertEqual([tuple(member[field] for field in ('name', 'start', 'size', 'packed')) for member in found['members']],
                                 [(member.name, member.offset, member.size, member.deflated) for member in picklestep.members(path)])

    def file(self, name: str, data: bytes) -> Path:
        path = self.folder / name
        path.write_bytes(data)
        return path

    def test_what_libraries_wrote(self) -> None:
        paths = [path for path in sorted(MODELS.iterdir()) if zipfile.is_zipfile(path)]
        self.assertLessEqual({'torch_state.pt', 'torch_script.pt', 'numpy_arrays.npz', 'numpy_compressed.npz', 'pandas_frame.pkl.zip'},
                             {path.name for path in paths})
        self.same(paths)

    def test_what_is_kept_of_libraries(self) -> None:
        paths = []
        for library in ('torch', 'lightning', 'numpy'):
            with tarfile.open(fileobj=io.BytesIO(lzma.decompress((KEPT / f'{library}.tar.xz').read_bytes()))) as kept:
                for member in kept:
                    data = kept.extractfile(member)
                    if data is not None:
                        paths.append(self.file(f'{library}_{member.name}', data.read()))
        paths = [path for path in paths if zipfile.is_zipfile(path)]
        self.assertGreater(len(paths), 30)
        self.same(paths)

    def test_long_forms(self) -> None:
        """Keras asks zipfile for long sizes before the data; streams have sizes behind them; above 65,535 members the short count is none."""
        members = {'model/data.pkl': HOSTILE, 'model/version': b'3\n', 'model/data/0': bytes(100)}
        forced, stream, many = io.BytesIO(), Unseekable(), io.BytesIO()
        with zipfile.ZipFile(forced, 'w', zipfile.ZIP_DEFLATED) as archive:
            for name, data in members.items():
                with archive.open(name, 'w', force_zip64=True) as out:
                    out.write(data)
        with zipfile.ZipFile(stream, 'w', zipfile.ZIP_DEFLATED) as archive:
            for name, data in members.items():
                archive.writestr(name, data)
        with zipfile.ZipFile(many, 'w') as archive:
            for number in range(65_536):
                archive.writestr(str(number), b'')
        self.same([self.file('forced.keras', forced.getvalue()), self.file('stream.zip', stream.written),
                   self.file('torch.pt', torch_like(members, False)), self.file('torch_large.pt', torch_like(members, True))])
        found = self.read([self.file('many.zip', many.getvalue())])[0]
        self.assertEqual([member['name'] for member in found['members']], [str(number) for number in range(65_536)])

    def test_names(self) -> None:
        """Names have quotes and letters of all kinds, and the program escapes some."""
        names = ["it's", '\xe9\u2603\U0001F600', "' stored '", '3: 4 deflated to 5', '\u202e']
        held = io.BytesIO()
        with zipfile.ZipFile(held, 'w') as archive:
            for name in names:
                archive.writestr(name, name)
        path = self.file('names.zip', held.getvalue())
        self.same([path])
        self.assertEqual([member['name'] for member in self.read([path])[0]['members']], names)

    def test_another_size(self) -> None:
        """A stream that gives more or fewer bytes than both headers tell."""
        held = io.BytesIO()
        with zipfile.ZipFile(held, 'w', zipfile.ZIP_DEFLATED) as archive:
            archive.writestr('a', HOSTILE)
        content, size = held.getvalue(), struct.pack('<I', len(HOSTILE))
        for told in (len(HOSTILE) - 1, len(HOSTILE) + 1):
            changed = content.replace(size, struct.pack('<I', told))
            self.assertEqual(content.count(size), 2)
            found, = self.read([self.file('a.zip', changed)])
            self.assertEqual([member['sum'] for member in found['members']], [f'it unpacks to another size than {told} bytes, which the archive tells'])

    def test_two_directories(self) -> None:
        """torch reads the directory that stands at the place which is told, and zipfile the one before the closing record."""
        hidden, shown = (torch_like({'a/data.pkl': data}, False) for data in (HOSTILE, b'N.'.rjust(len(HOSTILE), b'N')))
        record = shown[:-42].rfind(b'PK\6\6')
        place = int.from_bytes(shown[record + 48:record + 56], 'little')
        both = hidden + shown
        self.assertEqual((both[place:place + 4], both[len(hidden) + place:][:4]), (b'PK\1\2', b'PK\1\2'))
        between = hidden[:-42] + both[len(hidden):-42] + struct.pack('<4sIQI', b'PK\6\7', 0, record, 1) + both[-22:]
        for found in self.read([self.file('behind.pt', both), self.file('records.pt', between)]):
            self.assertEqual((found['kind'], found['members']), ('zip', []))
            self.assertTrue(found['why'].startswith('not in form: '), found['why'])

    def test_what_is_not_in_form(self) -> None:
        """Readers may find other members there, so the page shows none."""
        short = bytearray(torch_like({'a': b'N.', 'b': HOSTILE}, False))
        at = short.rfind(b'PK\1\2')
        short[at:at + 4] = b'PK\0\0'
        whole, hole = torch_like({'a': b'N.'}, False), with_hole(torch_like({'b': HOSTILE}, False))
        contents = (bytes(short), whole + b'behind', b'PK\3\4', whole[:-1], hole)
        for found in self.read([self.file(f'{number}.pt', content) for number, content in enumerate(contents)]):
            self.assertEqual((found['kind'], found['members']), ('zip', []))
            self.assertTrue(found['why'].startswith('not in form: '), found['why'])

    def test_what_is_packed(self) -> None:
        objects, numbers = (array_file(descr, HOSTILE) for descr in ("'|O'", "'<f8'"))
        files = {'a.pkl': HOSTILE, 'a.pkl.gz': gzip.compress(HOSTILE), 'a.pkl.z': zlib.compress(HOSTILE), 'b.zlib': zlib.compress(HOSTILE, 9), 'a.npy': objects,
                 'a.npy.gz': gzip.compress(objects)}
        found = self.run_script(_UNPACK, [self.file(name, data) for name, data in files.items()])
        self.assertEqual([each[1] for each in found], [hashlib.sha256(HOSTILE).hexdigest()] * len(files))
        self.assertEqual([each[0].rpartition('/')[2] for each in found], ['a.pkl', 'a.pkl', 'a.pkl', 'b', 'a', 'a'])
        why, cut, twice = self.run_script(_UNPACK, [self.file('numbers.npy', numbers), self.file('cut.gz', gzip.compress(HOSTILE)[:-12]), self.file('two.gz', gzip.compress(HOSTILE) * 2)])
        self.assertEqual(why, 'an array of numpy that holds numbers: there is no pickle in it')
        for each in (cut, twice):
            self.assertTrue(each.startswith('a packed file that is not in form: '), each)

    def test_arrays(self) -> None:
        """Those that numpy wrote: the pickle is all that follows the header, whose length stands before it."""
        data = (MODELS / 'numpy_objects.npy').read_bytes()
        behind = data[10 + struct.unpack('<H', data[8:10])[0]:]
        long = b"{'descr': '|O', 'fortran_order': False, 'shape': (1,), }".ljust(115) + b'\n'
        newer = [self.file(f'{version}.npy', b'\x93NUMPY' + bytes((version, 0)) + struct.pack('<I', len(long)) + long + behind) for version in (2, 3)]
        found = self.run_script(_UNPACK, [MODELS / 'numpy_objects.npy', *newer])
        self.assertEqual([each[1] for each in found], [hashlib.sha256(behind).hexdigest()] * 3)
        one = array_file("'|u1'", b'N')
        numbers = [MODELS / 'numpy_floats.npy', self.file('one.npy', one), self.file('two.npy', one * 2), self.file('none.npy', one[:-1])]
        self.assertEqual(self.run_script(_UNPACK, numbers), ['an array of numpy that holds numbers: there is no pickle in it'] * 4)

    def test_arrays_in_another_form(self) -> None:
        """With fields, with a header that is spelled otherwise, that is cut, or that hides a pickle from who looks for a sign."""
        contents = [array_file(descr, HOSTILE) for descr in ("[('a', '<i4'), ('b', '|O')]", "'O'", "'\\x7cO'", "['f', '|O']")]
        contents += [contents[1][:size] for size in (6, 8, 9, 40)] + [array_file("'|O'", b'').replace(b'\x01\x00', bytes((1, minor))) for minor in (1, 255)]
        contents += [b'\x93NUMPY\x02\x00' + size for size in (b'', b'\xff\xff\xff\xff', b'\xff\xff\xff\xff{')]
        files = [self.file(f'{number}.npy', content) for number, content in enumerate(contents)] + [MODELS / 'numpy_fields.npy']
        for each in self.run_script(_UNPACK, files):
            self.assertRegex(each, r'^an array of numpy that is not in form: [0-9]+: .* \(picklestep scan looks into it\)$')

    def test_tar(self) -> None:
        """As tarfile writes them, with long names; and one that is cut."""
        members = {'a.pkl': HOSTILE, 'folder/b.pkl': b'N.', 'x' * 90 + '/' + 'y' * 120 + '.pkl': b'K\x01.', 'caf\xe9.pkl': b'', 'z' * 300: HOSTILE}
        for form in (tarfile.GNU_FORMAT, tarfile.PAX_FORMAT):
            held = io.BytesIO()
            with tarfile.open(fileobj=held, mode='w', format=form) as archive:
                for name, data in members.items():
                    info = tarfile.TarInfo(name)
                    info.size = len(data)
                    archive.addfile(info, io.BytesIO(data))
                archive.addfile(tarfile.TarInfo('folder'))
            found, = self.read([self.file('a.tar', held.getvalue())])
            wanted = {name: hashlib.sha256(data).hexdigest() for name, data in members.items()}
            self.assertEqual({each['name']: each['sum'] for each in found['members'] if each['name'] != 'folder'}, wanted)
            self.assertEqual((found['kind'], found['why']), ('tar', ''))
            cut, = self.read([self.file('cut.tar', held.getvalue()[:1200])])
            self.assertEqual((cut['kind'], cut['members'], cut['why'][:12]), ('tar', [], 'not in form:'))


class InThePage(InChromium):
    """A file of torch.save, opened in a browser."""

    def test_torch_state(self) -> None:
        path = MODELS / 'torch_state.pt'
        self.load()
        self.choose(path)
        self.browser.wait("document.querySelector('#members-dialog').open")
        with zipfile.ZipFile(path) as archive:
            names, data = archive.namelist(), archive.read('archive/data.pkl')
        self.assertEqual([each.split('  ')[0] for each in self.texts('#members .thing')], names)
        self.assertEqual(self.texts('#members-note'), [f'a zip archive with {len(names)} members'])
        self.browser.js(f"document.querySelectorAll('#members .thing')[{names.index('archive/data.pkl')}].click()")
        self.browser.wait(f"document.querySelector('#where').textContent.startsWith('at 0 of {len(known_opcodes(data))},')")
        self.assertEqual((self.texts('#name'), self.browser.errors()), (['archive/data.pkl'], []))
