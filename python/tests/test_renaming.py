"""`picklestep rename` and `picklestep.rename`: the imports of many files have their new names, and what cannot be done leaves a file as it was."""

from __future__ import annotations

import bz2
import collections
import dbm.dumb
import gzip
import io
import itertools
import lzma
import os
import pickle
import pickletools
import random
import subprocess
import sys
import tarfile
import tempfile
import types
import unittest
import zipfile
import zlib
from pathlib import Path
from typing import Any, Dict, List, Tuple
from unittest import mock

import picklestep
import test_renames as shells
from cut_pickles import shape, whole_pickles
from pickles import chosen
from picklestep import NotRenamed
from picklestep.renaming import files, one, small
from picklestep.renaming.packed import unpacked
from picklestep.renaming.pairs import pairs_in, pairs_of
from scan_support import environment

OLD = b'\x80\x02coldapp.tasks\nsend\n.'
NEW = b'\x80\x02cnewapp.tasks\nsend\n.'


class Pickles(unittest.TestCase):
    """`picklestep.rename`."""

    def assert_renamed(self, data: bytes, old: str, new: str) -> bytes:
        made = picklestep.rename(data, {old: new})
        change = (shells.of_name if ':' in old else shells.of_module)(old, new)
        wanted = shape(shells._Renaming(data, change).load())
        self.assertEqual(shape(shells._Renaming(made.content, lambda *names: names).load()), wanted, (data, made))
        for _ in pickletools.genops(made.content):
            pass
        return made.content

    def test_pickles_of_picklers(self) -> None:
        changed, seeds = 0, chosen(range(200), 10)
        for seed in seeds:
            data = shells.dumped(seed)
            with self.subTest(seed=seed):
                changed += self.assert_renamed(data, 'harmless', 'a.b') != data
                changed += self.assert_renamed(data, *random.Random(seed).choice((
                    ('harmless:Plain', 'harmless:Plainer'), ('collections', 'x' * 300), ('collections:OrderedDict', 'b:O')))) != data
        self.assertGreater(changed, len(seeds) * 2 // 3)

    def test_large_pickles(self) -> None:
        """They are read in another way."""
        pairs = {'harmless': 'a.b', 'collections': 'x' * 300}
        for seed in chosen(range(200), 10):
            data = shells.dumped(seed)
            made = picklestep.rename(data, pairs)
            with self.subTest(seed=seed), mock.patch.object(small, 'MOST', 0):
                self.assertEqual(picklestep.rename(data, pairs), made)

    def test_opcodes_at_random(self) -> None:
        """What no pickler writes is renamed as the shell does, or is left."""
        changed = 0
        for seed in chosen(range(300), 30):
            data = shells.opcodes(seed)
            with self.subTest(seed=seed):
                try:
                    made = picklestep.rename(data, {'old': 'fresh'}).content
                except NotRenamed as error:
                    self.assertIn('reading ends early', str(error))
                    continue
                self.assertEqual(made, shells.renamed(data, 'old', 'fresh'))
                changed += made != data
        self.assertGreater(changed, 0)

    def test_real_pickles(self) -> None:
        """Each reads to its end with other names, and the way back makes the same bytes, or an import that has its own text stays."""
        tried, found = 0, chosen(whole_pickles().items(), 25)
        for name, data in found:
            calls = picklestep.calls(data)
            modules = {reach.name.module.decode() for reach in calls if reach.what in ('import', 'inst')}  # type: ignore[union-attr]
            for module in sorted(modules)[:2]:
                with self.subTest(name, module=module):
                    try:
                        made = picklestep.rename(data, {module: 'renamed.by.test'})
                    except NotRenamed as error:
                        self.assertRegex(str(error), 'ends early|unpickler|frames|deeper')
                        continue
                    self.assertEqual(made.content, shells.renamed(data, module, 'renamed.by.test'))
                    tried += bool(made.imports)
        self.assertGreater(tried, len(found) // 5)

    def test_loaded_with_a_module_of_the_new_name(self) -> None:
        values = (['collections', collections.OrderedDict(a=1)], [collections.OrderedDict(), 'collections', 'OrderedDict'], {'collections': collections.Counter('aab')},
                  (collections.deque([1]), collections.OrderedDict, 'deque'))
        new = types.ModuleType('renamed_here')
        vars(new).update(vars(collections), Ordered=collections.OrderedDict)
        with mock.patch.dict(sys.modules, {'renamed_here': new}):
            for protocol, value in itertools.product(range(6), values):
                for data in (pickle.dumps(value, protocol), pickletools.optimize(pickle.dumps(value, protocol))):
                    with self.subTest(value, protocol=protocol):
                        made = picklestep.rename(data, {'collections:OrderedDict': 'renamed_here:Ordered', 'collections': 'renamed_here'})
                        self.assertTrue(made.imports)
                        for load in (pickle.loads, pickle._loads):  # type: ignore[attr-defined]
                            self.assertEqual(load(made.content), value)
                        self.assertNotIn('collections', {reach.name.module.decode() for reach in picklestep.calls(made.content)  # type: ignore[union-attr]
                                                         if reach.what == 'import'})

    def test_several_pickles(self) -> None:
        made = picklestep.rename(OLD + OLD, {'oldapp': 'n'})
        self.assertEqual([each.offset for each in made.imports], [2, 24])
        self.assertEqual(made.content, OLD.replace(b'oldapp', b'n') * 2)
        data = pickle.dumps(collections.OrderedDict(), 4)
        self.assertEqual(len(picklestep.rename(data * 3, {'collections': 'c'}).imports), 3)

    def test_pairs(self) -> None:
        data = b'\x80\x02(cold\nA\ncold.sub\nA\ncold\nB.C\ncolder\nA\nt.'
        for pairs, wanted in (([('old', 'n')], ['n:A', 'n.sub:A', 'n:B.C', 'older:A']), ([('old.*', 'n.*')], ['old:A', 'n.sub:A', 'old:B.C', 'older:A']),
                              ([('old:A', 'Z'), ('old', 'n')], ['old:Z', 'n.sub:A', 'n:B.C', 'older:A']),
                              ([('old:*', 'm:*')], ['m:A', 'old.sub:A', 'm:B.C', 'older:A']), ([('old:B.*', 'X.*')], ['old:A', 'old.sub:A', 'old:X.C', 'older:A']),
                              ([('old', 'older'), ('older', 'old')], ['older:A', 'older.sub:A', 'older:B.C', 'old:A']),
                              ([('old:A', 'old:A'), ('old', 'n')], ['old:A', 'n.sub:A', 'n:B.C', 'older:A'])):
            with self.subTest(pairs):
                made = picklestep.rename(data, pairs).content
                self.assertEqual([b':'.join((reach.name.module, reach.name.name)).decode() for reach in picklestep.calls(made)], wanted)  # type: ignore[union-attr]
        for old, new in (('a', 'b:c'), ('a:b', 'x:'), ('a.*', 'b'), ('a', 'b.*'), ('*', 'b'), ('', 'b'), ('a', '')):
            with self.subTest((old, new)), self.assertRaises(ValueError):
                pairs_of({old: new})
        for text in ('a', 'a b c', 'a b:c', '# nothing'):
            with self.subTest(text), self.assertRaises(ValueError):
                pairs_in(text)

    def test_what_is_left(self) -> None:
        for data, why in ((OLD[:-1], 'reading ends early: F1 ended at 21'), (OLD + b'\xff', 'reading ends early: F2 unknown opcode 0xff at 22'),
                          (b'0' + OLD, 'reading ends early: S2 stack underflow'), (b'', 'F1 ended at 0'), (b'\x80\x04\x95\x40' + bytes(7) + b'N.', 'F7'),
                          (b'cpickle\nUnpickler\ncoldapp\nA\n.', 'leads to the unpickler'), (gzip.compress(OLD), 'reading ends early')):
            with self.subTest(data), self.assertRaisesRegex(NotRenamed, why):
                picklestep.rename(data, {'oldapp': 'newapp'})
        with self.assertRaisesRegex(NotRenamed, 'newline'):
            picklestep.rename(OLD, {'oldapp': 'new\napp'})

    def test_what_is_compared(self) -> None:
        """Where edits would change something else, that is noticed."""
        data = pickle.dumps(['collections', collections.OrderedDict()], 4)
        real = one.renaming_of

        def wrong(*words: Any) -> Any:
            """Replaces the text that is data."""
            found = real(*words)
            return found._replace(edits=[found.edits[0]._replace(place=found.stays[0])])
        for most in (small.MOST, 0):
            with self.subTest(most), mock.patch.object(small, 'MOST', most), mock.patch.object(one, 'renaming_of', wrong):
                self.assertRaisesRegex(NotRenamed, 'object #0 would be another one', picklestep.rename, data, {'collections': 'c'})


class Files(unittest.TestCase):
    """`picklestep rename`."""

    def setUp(self) -> None:
        folder = tempfile.TemporaryDirectory()
        self.addCleanup(folder.cleanup)
        self.folder = Path(folder.name)

    def put(self, **contents: bytes) -> None:
        for name, content in contents.items():
            path = self.folder / name.replace('__', '/')
            path.parent.mkdir(exist_ok=True)
            path.write_bytes(content)

    def run_it(self, *words: str) -> Tuple[int, List[str], str]:
        run = subprocess.run([sys.executable, '-m', 'picklestep', 'rename', *words], cwd=self.folder, env=environment(), capture_output=True,
                             text=True, timeout=600)
        return run.returncode, run.stdout.splitlines(), run.stderr

    def contents(self) -> Dict[str, bytes]:
        return {path.relative_to(self.folder).as_posix(): path.read_bytes() for path in sorted(self.folder.rglob('*')) if path.is_file()}

    def test_archives(self) -> None:
        """Members get other names. All others keep their bytes, times and places, and what cannot be written is left."""
        times, data = (1999, 5, 5, 1, 2, 4), os.urandom(999)
        with zipfile.ZipFile(self.folder / 'a.zip', 'w') as archive:
            for name, content, way in (('a/', b'', 0), ('a/one', OLD, 0), ('two', OLD, 8), ('data', data, 8), ('npy', b'\x93NUMPY\1\0\4\0|O  ' + OLD, 0)):
                archive.writestr(zipfile.ZipInfo(name, times), content, way)
        aligned = io.BytesIO()
        with zipfile.ZipFile(aligned, 'w') as archive:
            for name, content in (('m/data.pkl', OLD), ('m/data/0', data)):
                info, size = zipfile.ZipInfo(name), -(aligned.tell() + 34 + len(name)) % 64
                info.extra = b'FB' + size.to_bytes(2, 'little') + b'Z' * size
                archive.writestr(info, content)
                info.extra = b''  # (so does torch: the directory has none of this)
        with zipfile.ZipFile(self.folder / 'noted.zip', 'w') as archive:
            archive.writestr('one', OLD)
            archive.comment = b'a comment'
        self.put(**{'m.pt': aligned.getvalue(), 'cut.zip': aligned.getvalue()[:-30]})
        before = self.contents()
        for words, is_written in ((('--dry-run',), False), (('--in-place',), True)):
            code, lines, _ = self.run_it('oldapp', 'newapp', '.', *words)
            self.assertEqual((code, lines[-1][:25]), (1, '4 imports renamed in 2 of '[:25] if is_written else '4 imports would be renamed'[:25]))
            self.assertEqual([name for name, content in self.contents().items() if content != before[name]], ['a.zip', 'm.pt'] * is_written)
            self.assertEqual(sum('left as it was: the archive is ' in line for line in lines), 2)
        self.assertIn('./a.zip > npy: 16: oldapp.tasks:send -> newapp.tasks:send', lines)
        with zipfile.ZipFile(self.folder / 'a.zip') as archive:
            self.assertIsNone(archive.testzip())
            self.assertEqual({(info.date_time, info.flag_bits) for info in archive.infolist()}, {(times, 0)})
            self.assertEqual([archive.read(name) for name in archive.namelist()], [b'', NEW, NEW, data, b'\x93NUMPY\1\0\4\0|O  ' + NEW])
        self.assertEqual([(member.offset % 64, member.size) for member in picklestep.members(self.folder / 'm.pt')], [(0, len(NEW)), (0, 999)])

    def test_packed_files(self) -> None:
        """One stream is packed again in the same way, and what says how it was packed stays."""
        with gzip.GzipFile('old.pkl', 'wb', 1, io.BytesIO(), 7) as file:
            file.write(OLD)
            named = file.fileobj
        with_all = b'\x1f\x8b\x08\x1e\0\0\0\0\x02\x03\x03\0abcname\0said\0'
        with_all += (zlib.crc32(with_all) & 0xffff).to_bytes(2, 'little') + gzip.compress(OLD)[10:]
        ways = {'gz': gzip.compress(OLD, mtime=5), 'named': named.getvalue(), 'all': with_all, 'bz2': bz2.compress(OLD, 3), 'xz': lzma.compress(OLD, check=lzma.CHECK_SHA256),
                **{f'z{level}': zlib.compress(OLD, level) for level in (1, 3, 6, 9)}}
        self.put(**{f'jobs__{name}': content for name, content in ways.items()})
        names = sorted(ways)
        code, lines, errors = self.run_it('oldapp', 'newapp', 'jobs', '--in-place')
        wanted = [f'jobs/{name}: 2: oldapp.tasks:send -> newapp.tasks:send' for name in names]
        self.assertEqual((code, lines, errors), (0, [*wanted, f'{len(ways)} imports renamed in {len(ways)} of {len(ways)} files'], ''))
        unpack = {'bz2': bz2.decompress, 'xz': lzma.decompress, **dict.fromkeys(('gz', 'named', 'all'), gzip.decompress)}
        for name in names:
            made = (self.folder / 'jobs' / name).read_bytes()
            self.assertEqual(unpack.get(name, zlib.decompress)(made), NEW, name)
            kept = {'gz': 10, 'named': 18, 'all': len(with_all) - len(gzip.compress(OLD)) + 10, 'bz2': 4, 'xz': 12}.get(name, 2)
            self.assertEqual(made[:kept], ways[name][:kept], name)

    def test_packed_files_that_are_left(self) -> None:
        tar = io.BytesIO()
        with tarfile.open(fileobj=tar, mode='w:gz') as file:
            info = tarfile.TarInfo('a.pkl')
            info.size = len(OLD)
            file.addfile(info, io.BytesIO(OLD))
        one = gzip.compress(OLD)
        wrong_sum = one[:-8] + b'\0\0\0\0' + one[-4:]
        left = {'cut': one[:-3], 'more': one + b'more', 'sum': wrong_sum, 'tar': tar.getvalue(), 'two': one + one, 'xz': lzma.compress(OLD)[:-9]}
        self.put(**{f'jobs__{name}': content for name, content in left.items()}, jobs__early=gzip.compress(OLD[:-1]), jobs__text=bz2.compress(b'some text'))
        before = self.contents()
        code, lines, errors = self.run_it('oldapp', 'newapp', 'jobs', '--in-place')
        why = {**dict.fromkeys(left, 'a container, and nothing is written into one'), 'early': 'reading ends early: F1 ended at 21'}
        self.assertEqual((code, lines[:-1], errors), (1, [f'jobs/{name}: left as it was: {why[name]}' for name in sorted(why)], ''))
        self.assertEqual(lines[-1], '0 imports renamed in 0 of 8 files; 7 left as they were; 1 other file without the old names')
        self.assertEqual(self.contents(), before)

    def test_a_store_of_one_packed_value(self) -> None:
        """The index of dbm.dumb says how long the value is: a longer one would be cut."""
        (self.folder / 'jobs').mkdir()
        with dbm.dumb.open(str(self.folder / 'jobs' / 's'), 'n') as store:
            store['k'] = zlib.compress(OLD)
        self.run_it('oldapp', 'a.much.longer.name', 'jobs', '--in-place')
        with dbm.dumb.open(str(self.folder / 'jobs' / 's'), 'r') as store:
            self.assertEqual(zlib.decompress(store['k']), OLD)

    def test_an_unknown_check(self) -> None:
        """Python unpacks an xz stream with a check that it cannot make: the file is left, and the next one is renamed."""
        made = bytearray(lzma.compress(OLD, check=lzma.CHECK_CRC32))
        made[7] = made[-3] = 2
        made[8:12], made[-12:-8] = (zlib.crc32(bytes(flags)).to_bytes(4, 'little') for flags in (made[6:8], made[-8:-2]))
        self.assertEqual(lzma.decompress(bytes(made)), OLD)
        self.put(jobs__a=bytes(made), jobs__b=OLD)
        code, lines, errors = self.run_it('oldapp', 'newapp', 'jobs', '--in-place')
        self.assertEqual((code, errors, len(lines)), (1, '', 3))
        self.assertIn('jobs/a: left as it was: it cannot be packed in the same way', lines[0])
        self.assertEqual(self.contents(), {'jobs/a': bytes(made), 'jobs/b': NEW})

    def test_what_is_no_stream_any_more(self) -> None:
        self.assertIsNone(unpacked(OLD))

    def test_a_folder(self) -> None:
        self.put(jobs__a=OLD, jobs__b=b'N.', jobs__c=OLD[:-1], jobs__d=b'some text', jobs__e=gzip.compress(OLD) + b'more', pairs=b'# these\noldapp newapp\n')
        before = self.contents()
        lines = ['jobs/a: 2: oldapp.tasks:send -> newapp.tasks:send', 'jobs/c: left as it was: reading ends early: F1 ended at 21',
                 'jobs/e: left as it was: a container, and nothing is written into one']
        left = '2 left as they were; 1 other file without the old names'
        for words, last in ((('--dry-run', '--in-place'), f'1 import would be renamed in 1 of 5 files; {left}'),
                            ((), f'1 import would be renamed in 1 of 5 files; {left}; nothing is written without --in-place or --save DIR')):
            self.assertEqual(self.run_it('oldapp', 'newapp', 'jobs', *words), (1, [*lines, last], ''))
            self.assertEqual(self.contents(), before)
        done = f'1 import renamed in 1 of 5 files; {left}'
        self.assertEqual(self.run_it('--pairs', 'pairs', 'jobs', '--save', 'out/new'), (1, [*lines, done], ''))
        self.assertEqual(self.contents(), {**before, 'out/new/a': NEW})
        self.assertEqual(self.run_it('oldapp', 'newapp', 'jobs', '--in-place', '--jobs', '3'), (1, [*lines, done], ''))
        self.assertEqual(self.contents(), {**before, 'jobs/a': NEW, 'out/new/a': NEW})
        self.assertEqual(self.run_it('oldapp', 'newapp', 'jobs/a', 'jobs/b', '--in-place'), (0, ['0 imports renamed in 0 of 2 files'], ''))

    def test_many_files_at_once(self) -> None:
        for number in range(60):
            self.put(**{f'jobs__{number:03}': pickle.dumps([collections.OrderedDict(a=number)], number % 6)})
        code, lines, errors = self.run_it('collections:OrderedDict', 'Other', 'jobs', '--in-place', '--jobs', '4')
        self.assertEqual((code, errors, lines[-1]), (0, '', '60 imports renamed in 60 of 60 files'))
        self.assertEqual([line.partition(':')[0] for line in lines[:-1]], [f'jobs/{number:03}' for number in range(60)])
        for number, content in enumerate(self.contents().values()):
            self.assertEqual([reach.name for reach in picklestep.calls(content) if reach.what == 'import' and b'coll' in reach.name.module],  # type: ignore[union-attr, operator]
                             [picklestep.Global(b'collections', b'Other')], number)

    @unittest.skipIf(os.name == 'nt', 'Windows has other modes and links')
    def test_modes_and_links(self) -> None:
        self.put(jobs__a=OLD, other=OLD)
        os.chmod(self.folder / 'jobs/a', 0o600)
        os.symlink('a', self.folder / 'jobs/here')
        os.symlink('../other', self.folder / 'jobs/there')
        code, lines, _ = self.run_it('oldapp', 'newapp', 'jobs', '--in-place')
        self.assertEqual((code, lines[0]), (1, 'jobs/there: left as it was: a symbolic link'))
        self.run_it('newapp', 'x', 'jobs/a', '--save', 'out')
        for name in ('jobs/a', 'out/a'):
            self.assertEqual((self.folder / name).stat().st_mode & 0o777, 0o600)
        self.assertEqual((self.folder / 'other').read_bytes(), OLD)
        # A link in the folder of --save does not lead what is saved to another file.
        os.symlink('../other', self.folder / 'out/b')
        self.put(b=OLD)
        code, _, errors = self.run_it('oldapp', 'newapp', 'b', '--save', 'out')
        self.assertEqual((code, (self.folder / 'other').read_bytes()), (2, OLD))
        self.assertIn('a symbolic link leads there', errors)

    def test_pairs_of_an_editor(self) -> None:
        self.put(a=OLD, pairs=b'\xef\xbb\xbfoldapp newapp\r\nnewapp oldapp\r\n')
        self.assertEqual(self.run_it('--pairs', 'pairs', 'a', '--in-place')[0], 0)
        self.assertEqual(self.contents()['a'], NEW)

    def test_a_file_of_two_paths(self) -> None:
        self.put(jobs__a=OLD)
        words = ['jobs/a', './jobs/a', 'jobs', 'jobs/../jobs']
        if os.name != 'nt':
            os.symlink('jobs', self.folder / 'link')
            words.append('link/a')
        code, lines, _ = self.run_it('oldapp', 'oldapp.oldapp', *words, '--in-place')
        self.assertEqual((code, lines[-1]), (0, '1 import renamed in 1 of 1 file'))
        self.assertEqual(self.contents()['jobs/a'], OLD.replace(b'oldapp', b'oldapp.oldapp'))

    def test_a_folder_in_itself(self) -> None:
        other = OLD.replace(b'send', b'other')
        self.put(jobs__a=OLD, jobs__out__a=other)
        code, lines, errors = self.run_it('oldapp', 'newapp', 'jobs', '--save', 'jobs/out')
        self.assertEqual((code, lines, self.contents()), (2, [], {'jobs/a': OLD, 'jobs/out/a': other}))
        self.assertIn('which is one of the files', errors)

    def test_what_is_no_command(self) -> None:
        self.put(a=OLD, b__a=OLD, pairs=b'oldapp\n', latin=b'oldapp n\xe9w\n')
        for words, why in ((['oldapp', 'newapp'], 'it is: OLD NEW FILE..'), (['oldapp', 'new:app', 'a'], "'new:app' is no new name"),
                           (['oldapp', 'n', 'a', '--save', 'x', '--in-place'], 'two ways'), (['--pairs', 'pairs', 'a'], "pairs: line 1: 'oldapp' is no pair"),
                           (['--pairs', 'none', 'a'], 'cannot read none'), (['oldapp', 'n', 'a', 'b/a', '--save', 'x'], 'would both be saved to'),
                           (['oldapp', 'n', 'a', '--save', '.'], 'would be saved to itself'), (['oldapp', 'n', 'a', '--jobs', '0'], 'no whole number above 0'),
                           (['oldapp', 'n', 'a', '--save', ''], '--save takes a folder'), (['oldapp', '.n', 'a'], "'.n' is no new name"),
                           (['oldapp.tasks:send', 'n:b:c', 'a'], "'n:b:c' is no new name"), (['oldapp', 'n.', 'a'], "'n.' is no new name"),
                           (['--pairs', 'latin', 'a'], 'cannot read latin: it is not UTF-8')):
            with self.subTest(words):
                code, lines, errors = self.run_it(*words)
                self.assertEqual((code, lines), (2, []))
                self.assertIn(why, errors)
        self.assertEqual(self.run_it('oldapp', 'n', 'none', '--in-place')[:2], (
            1, ['none: left as it was: No such file or directory', '0 imports renamed in 0 of 1 file; 1 left as it was']))
        self.assertIn('write oldapp.tasks:send', self.run_it('oldapp.tasks.send', 'x', 'a', '--in-place')[2])

    def test_changed_meanwhile(self) -> None:
        self.put(a=OLD)
        path = str(self.folder / 'a')
        real = files.renamed

        def slow(*words: Any) -> Any:
            made = real(*words)
            Path(path).write_bytes(OLD + OLD)
            return made
        with mock.patch.object(files, 'renamed', slow):
            done = files.Renames(pairs_of({'oldapp': 'n'}), frozenset([path]), in_place=True).do(path)
        self.assertEqual((done.left, done.imports), ('it was changed meanwhile', ()))
        self.assertEqual(self.contents(), {'a': OLD + OLD})


if __name__ == '__main__':
    unittest.main()
