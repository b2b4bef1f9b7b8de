"""Where bytes lead loaders: what `scan` asks the program's `reach` and `calls`, of how many bytes, and what it says where it cannot."""

from __future__ import annotations

import datetime
import gzip
import io
import pickle
import random
import struct
import subprocess
import sys
import unittest
import unittest.mock
import zipfile
from array import array
from collections import Counter
from typing import Any, List, Optional
from urllib.parse import ParseResult

import picklestep
from picklestep.scan import Judge, Limits, Options, look
from picklestep.scan import reach as asking
from picklestep.scan.blobs import BytesBlob
from picklestep.scan.reach import leads_of, may_lead_on, reach_of
from scan_support import HOSTILE, ScanCase, names_of, notes_of, places_of

# Three pickles as torch's layout before 1.6 begins, spelled as no torch does, and then a persistent id before the payload.
TORCH = b'L119547037146038801333356L\n.I1001\n.}.' + b'Pstorage\n0' + HOSTILE


def asked_for(data: bytes, knows_ids: bool = False) -> List[str]:
    """The names that a real unpickler asks for which loads again and again."""
    asked: List[str] = []

    class Loader(pickle.Unpickler):
        def find_class(self, module: str, name: str) -> Any:
            asked.append(f'{module}.{name}')
            raise ImportError

        def persistent_load(self, given: Any) -> Any:
            if not knows_ids:
                raise pickle.UnpicklingError
            return None

    file = io.BytesIO(data)
    try:
        while True:
            Loader(file).load()
    except Exception:  # whatever ends it
        return asked


class Settled(unittest.TestCase):
    """Of most bytes the first ones show where all loaders end."""

    def test_first_bytes_say_what_all_say(self) -> None:
        chosen = random.Random(75)
        starts = [b'X', b'B', b'T', b'\x8b', b'I', b'S', b'V', b'p', b'c', b'i', b'\x95', b'N', b'\x8d', b'P', b'(', b'K', b'J', b'G']
        read = 0
        for number in range(1000):
            size = chosen.choice([3, 20, 60, 200])
            counted = b''.join(chosen.choice(starts) + struct.pack('<Q', chosen.randrange(size))[:chosen.choice([1, 4, 8])] for _ in range(chosen.randrange(6)))
            content = (counted + chosen.choice([b'', b'cos\nx\n', b'\n', HOSTILE]) + bytes(chosen.choices(b'N0(.1\n\0\xffcXI', k=size)))[:size]
            whole = reach_of(BytesBlob(content))
            with unittest.mock.patch.object(asking, '_HEADS', (8, 32)):
                first = reach_of(BytesBlob(content))
            self.assertEqual(whole is None, first is None, content)
            read += whole is not None
        self.assertGreater(read, 50)

    def test_raw_numbers_are_not_read_whole(self) -> None:
        """What ends soon is asked about in this process, whatever its size is."""
        chosen = random.Random(76)
        blobs = [BytesBlob(bytes([chosen.randrange(256) for _ in range(64)]) + bytes(100_000)) for _ in range(500)]
        with unittest.mock.patch('picklestep.program.run_program', side_effect=AssertionError):
            self.assertLess(sum(reach_of(blob) is not None for blob in blobs), 5)

    def test_a_stream_whose_first_bytes_do_not_show_it(self) -> None:
        self.assertTrue(may_lead_on(b'X' + struct.pack('<I', 1 << 20) + bytes(1000), False))
        self.assertFalse(may_lead_on(b'X' + struct.pack('<I', 1 << 20) + bytes(1000), True))
        self.assertFalse(may_lead_on(b'text' * 100, False))


class Behind(ScanCase):
    """Files and members in which loaders come to something far from the first byte."""

    CONTENT = b'B' + struct.pack('<I', 3 << 20) + bytes(3 << 20) + b'0' + HOSTILE

    def zipped(self, method: int) -> bytes:
        file = io.BytesIO()
        with zipfile.ZipFile(file, 'w', method) as archive:
            archive.writestr(zipfile.ZipInfo('weights.bin', (1980, 1, 1, 0, 0, 0)), self.CONTENT, method)
        return file.getvalue()

    def test_behind_megabytes(self) -> None:
        self.assertEqual(asked_for(self.CONTENT), ['posix.system'])
        contents = (('a.bin', self.CONTENT), ('a.bin.gz', gzip.compress(self.CONTENT, mtime=0)), ('s.zip', self.zipped(zipfile.ZIP_STORED)),
                    ('d.zip', self.zipped(zipfile.ZIP_DEFLATED)))
        for name, content in contents:
            with self.subTest(name):
                self.assertEqual(names_of(self.look(name, content)), ['posix.system'])

    def test_what_is_too_large_is_told(self) -> None:
        """A member of which not all can be held, and that may lead on behind what can."""
        options = Options(limits=Limits(memory=8 << 20))
        for name, content in (('s.zip', self.zipped(zipfile.ZIP_STORED)), ('d.zip', self.zipped(zipfile.ZIP_DEFLATED))):
            with self.subTest(name):
                result = self.look(name, content, options)
                self.assertTrue([note for note in result.notes if note.missed], notes_of(result))

    def test_a_value_is_asked_about_within_the_limits(self) -> None:
        path = self.table_with(self.CONTENT[:2 << 20])
        waits: List[Optional[float]] = []

        def asked(words: Any, memory: Optional[int] = None, timeout: Optional[float] = None) -> bytes:
            waits.append(timeout)
            raise picklestep.TimedOut('the program took too long')

        with unittest.mock.patch.object(asking, '_HEADS', (64,)), unittest.mock.patch.object(asking, '_is_settled', return_value=False), \
                unittest.mock.patch('picklestep.program.run_program', asked):
            result = look(str(path))
        self.assertTrue(waits)
        self.assertNotIn(None, waits)
        self.assertIn('whether a loader gets anywhere', notes_of(result))

    def test_a_program_that_does_not_answer_is_told(self) -> None:
        with unittest.mock.patch.object(asking.library, 'reach', return_value=None), \
                unittest.mock.patch('picklestep.program.run_program', side_effect=picklestep.TimedOut('the program took too long')):
            result = self.look('a.bin', b'N0N0')
        self.assertIn('whether a loader gets anywhere', notes_of(result))
        self.assertTrue([note for note in result.notes if note.missed])


class Given(ScanCase):
    """Loaders that have more than the bytes."""

    def test_persistent_ids(self) -> None:
        self.assertEqual(asked_for(TORCH), [])
        self.assertEqual(asked_for(TORCH, knows_ids=True), ['posix.system'])
        self.assertIsNone(reach_of(BytesBlob(TORCH)))
        self.assertIn('posix.system', str(leads_of(BytesBlob(TORCH)).reach))
        self.assertEqual(names_of(self.look('pytorch_model', TORCH)), ['posix.system'])

    def test_images_are_none(self) -> None:
        """PNG begins with a persistent id, GIF with a number."""
        for head in (b'\x89PNG\r\n\x1a\n\0\0\0\rIHDR', b'GIF89a' + bytes(20), b'\xff\xd8\xff\xe0\0\x10JFIF\0', b'RIFF\0\0\0\0WEBPVP8 ', b'BM' + bytes(60)):
            with self.subTest(head[:4]):
                self.assertFalse(leads_of(BytesBlob(head)))
                self.assertEqual(list(Judge().looks(self.look('image', head))), [])

    def test_numbers_of_copyreg(self) -> None:
        self.assertTrue(leads_of(BytesBlob(b'\x82\x05)R')))
        self.assertFalse(leads_of(BytesBlob(b'\x82\x05 and more')))

    def test_words_are_no_modules(self) -> None:
        """A text of one line that begins as GLOBAL or INST does. (Only Python's own modules count whatever is behind them.)"""
        for text, leads in ((b'c0ffee12\n', False), (b'compilers and more\n', False), (b'install\n', False), (b'cposix.a b\n\n', True), (b'cposix\nsystem\n', True)):
            with self.subTest(text):
                self.assertEqual(bool(places_of(self.look('notes', text))), leads)

    def test_lists_of_paths_are_none(self) -> None:
        """Lines of a wheel's RECORD: some begin as GLOBAL does, and one as SETITEM."""
        lines = [b'charset-1.dist-info/METADATA,sha256=81,27', b'charset-1.dist-info/RECORD,,', b'charset/md.py,sha256=58,19', b'charset/utils.py,sha256=75,11']
        self.assertFalse(leads_of(BytesBlob(b'\n'.join([*lines, *lines, b'scripts-3/normalizer,sha256=16,2', b'']))))

    def test_texts_that_begin_with_a_point_in_the_first_word(self) -> None:
        """Python would import what stands before the point. Only where it is Python's own, or no text stands around it, these are pickles."""
        texts = (b'commit.yaml: x\nfoo\n', b'cat.0.jpg 0\ncat.1.jpg 0\n', b'image_01.png,3\nimage_02.png,5\n', b'crc32.o: crc32.c zlib.h\ncast.o: cast.c\n',
                 b'com.example.name=a b\ncom.example.size=7\n', b'i.e. two\nlines\n', b'(see\nconfig.yaml for more)\nR\n', b'(please look\ncity.of x\ny\n',
                 b'(city.of x\nfoo\nover there', b'index.html: a\n<b>\n')
        for text in texts:
            with self.subTest(text):
                self.assertTrue(picklestep.reach(text) or text.startswith(b'(please') or text.startswith(b'(see'))
                self.assertFalse(leads_of(BytesBlob(text)))
                result = self.look('notes', text)
                self.assertEqual((notes_of(result), dict(result.forms)), ('', {'no ending' if text.startswith(b'(see') else 'like an import': 1}))
        self.assertEqual(dict(self.look('notes', b'Dear all\n').forms), {'no ending': 1})
        for content in (b'cthis.a b\nx\n', b'(ithis.a b\nx\n', b'\x80\x02cmyapp.a b\nx\n', b'U\x01acmyapp.a b\nx\n', b'K\x01(imyapp.a b\nx\n',
                        b"cmyapp.a b\nf\n(S'id'\ntR", b"capp/part\nf\n(S'id'\ntR"):
            with self.subTest(content):
                self.assertTrue(leads_of(BytesBlob(content)))
                looks = [*Judge().looks(self.look('notes', content))]
                self.assertTrue(looks)
        self.assertIn('Python imports this before it raises', [*Judge().looks(self.look('notes', b'cthis.a b\nx\n'))][0].text)

    def test_a_find_class_that_takes_any_module(self) -> None:
        """torch's takes any module for a name with `Storage`; others answer all names with stubs. They go on behind what can be no module's."""
        asked: List[str] = []

        class Loader(pickle.Unpickler):
            def find_class(self, module: str, name: str) -> Any:
                asked.append(f'{module}.{name}')
                return object

        for begin in (b'ca b\nFloatStorage\n', b'(ia b\nFloatStorage\n', b'U\x03a bU\x0cFloatStorage\x93'):
            with self.subTest(begin):
                asked.clear()
                with self.assertRaises(EOFError):
                    Loader(io.BytesIO(begin + b'cos\nsystem\n')).load()
                self.assertEqual(asked, ['a b.FloatStorage', 'os.system'])
                result = self.look('7', begin + b'cos\nsystem\n')
                self.assertIn('os.system', names_of(result))
                self.assertIn('os.system', [each.name for each in Judge().looks(result)])

    def test_odd_names_in_modules(self) -> None:
        """A module is imported before its member is looked for. Loaders take what is not UTF-8 for Latin-1 where they are given that `encoding`."""
        cases = ((b'cpip.__main__\nx y\n', True), (b"S'\xe9'\nS'x'\n\x93", True), (b'U\x01\xe9U\x01x\x93', True), (b'V\xe9\nVx\n\x93', True),
                 (b'clearly.\nno more\n', False), (b'city\nNew York\nRome\n', False))
        for content, leads in cases:
            with self.subTest(content):
                asked: List[str] = []

                class Loader(pickle.Unpickler):
                    def find_class(self, module: str, name: str) -> Any:
                        asked.append(f'{module}.{name}')
                        raise ImportError

                with self.assertRaises(ImportError):
                    Loader(io.BytesIO(content), encoding='latin-1').load()
                self.assertEqual(len(asked), 1)
                self.assertEqual(bool(places_of(self.look('7', content))), leads)

    def test_raw_numbers_lead_nowhere(self) -> None:
        chosen = random.Random(77)
        makers = (lambda: chosen.randbytes(4096), lambda: array('f', [chosen.gauss(0, .05) for _ in range(1024)]).tobytes(),
                  lambda: array('d', [chosen.gauss(0, 1) for _ in range(512)]).tobytes(),
                  lambda: array('h', [int(chosen.gauss(0, 3000)) for _ in range(2048)]).tobytes())
        self.assertEqual([found for make in makers for found in (leads_of(BytesBlob(make())) for _ in range(500)) if found], [])

    def test_numbers_that_are_words(self) -> None:
        """scipy writes the format of a sparse matrix as an array of three bytes. A loader of these three would look for a module `s`."""
        header = b"{'descr': '|S3', 'fortran_order': False, 'shape': (), }".ljust(117) + b'\n'
        for numbers in (b'csc', b'csr', b'coo'):
            with self.subTest(numbers):
                result = self.look('format.npy', b'\x93NUMPY\x01\0' + struct.pack('<H', len(header)) + header + numbers)
                self.assertEqual(notes_of(result), '')

    def test_what_is_stored_in_an_archive_is_not_behind_an_id(self) -> None:
        """An archive begins with PERSID, and its first line ends in the header of an array. No persistent id has bytes like these."""
        content = io.BytesIO()
        with zipfile.ZipFile(content, 'w') as archive:
            archive.writestr(zipfile.ZipInfo('x\xe9', (2020, 1, 1, 0, 0, 0)), b'\n' + b'\x80\x02ccollections\nOrderedDict\n.')
        self.assertEqual(places_of(self.look('a.zip', content.getvalue())), [])
        self.assertIsNone(leads_of(BytesBlob(content.getvalue())).reach)

    def test_keys_of_python_2(self) -> None:
        """`pickle` and `cPickle` of Python 2 take any line for a key of the memo, and `cPickle` strips blanks around a text."""
        for begin in (b'Np a b\n0', b'Np a b\n0Ng a b\n00', b"S'a' \n0", b'Np a\n0Np b\n0'):
            with self.subTest(begin):
                self.assertEqual(asked_for(begin + HOSTILE), [])
                reach = reach_of(BytesBlob(begin + HOSTILE))
                assert reach is not None
                self.assertEqual((reach.offset, reach.is_beyond), (len(begin), True))
                self.assertTrue(list(Judge().looks(self.look('data.bin', begin + HOSTILE))))

    def test_a_mix_of_frames(self) -> None:
        """A small frame that is read across, and a large one whose rest is dropped: no heading of `calls` shows what is behind."""
        small = b'\x95' + struct.pack('<Q', 3) + b'X\x01\0\0\0a0'
        large = b'B' + struct.pack('<I', 299_991) + bytes(299_991) + b'0X\xff\xff'
        content = small + b'\x95' + struct.pack('<Q', len(large)) + large + b'\x01\0\0\0a0' + HOSTILE
        path = self.file('data.bin', content)
        asked: List[str] = []

        class Loader(pickle.Unpickler):
            def find_class(self, module: str, name: str) -> Any:
                asked.append(f'{module}.{name}')
                raise ImportError

        with open(path, 'rb') as file, self.assertRaises(ImportError):
            Loader(file).load()
        self.assertEqual(asked, ['posix.system'])
        self.assertIn('posix', str(reach_of(BytesBlob(content))))
        self.assertTrue(list(Judge().looks(look(str(path)))))


class Offsets(ScanCase):
    """Classes of date offsets that calls are given: pandas makes objects of them where the call raises a TypeError."""

    def told(self, content: bytes) -> bool:
        looks = list(Judge().looks(self.look('a.pkl', b'\x80\x02' + content)))
        return any(look.rule == 'odd' and 'pandas makes a date offset' in look.text for look in looks)

    def test_calls_that_may_fail(self) -> None:
        for module in (b'pandas._libs.tslibs.offsets', b'pandas.tseries.offsets'):
            day = b'c' + module + b'\nDay\n'
            for content in (b'cbuiltins\nint\n' + day + b'K\x05\x86R.', b'cbuiltins\nint\nq\0K\1\x85R0h\0' + day + b'\x85R.',
                            b'cbuiltins\nlen\n' + day + b'K\x05\x86R.', b'capp\na\n)R' + day + b'\x85R.', day + day + b'\x85R.'):
                with self.subTest(content):
                    self.assertTrue(self.told(content))

    def test_what_picklers_write(self) -> None:
        day = b'cpandas._libs.tslibs.offsets\nDay\n'
        for content in (day + b'K\x05\x88\x86R.', b'ccopy_reg\n_reconstructor\n' + day + b'c__builtin__\nobject\nN\x87R.', day + b'.',
                        b'cfunctools\npartial\n' + day + b'\x85R.', b'cbuiltins\nlist\n(' + day + b'l\x85R.', day + b')\x81.',
                        b'cbuiltins\nint\nX\x28\0\0\0' + b"(global 'pandas._libs.tslibs.offsets' 'D'" + b'\x85R.'):
            with self.subTest(content):
                self.assertFalse(self.told(content))


class Hashes(ScanCase):
    """Tuples that hold one another."""

    def nested(self, levels: int, width: int = 2) -> Any:
        made: Any = ()
        for _ in range(levels):
            made = (made,) * width
        return made

    def test_what_nobody_can_hash(self) -> None:
        for protocol in range(5):
            for levels, width, told in ((20, 2, False), (40, 2, True), (200, 2, True), (3, 100, False), (6, 100, True), (2, 20_000, True)):
                content = pickle.dumps({'key': self.nested(levels, width)}, protocol)
                with self.subTest(protocol=protocol, levels=levels, width=width):
                    self.assertEqual('to hash the tuple' in notes_of(self.look('a.pkl', content)), told)
                    if protocol > 1 and told:
                        self.assertRaisesRegex(picklestep.NotAllowed, 'to hash the tuple', picklestep.check, content, allow=['plain'])

    def named(self, width: int, levels: int) -> Any:
        made: Any = ParseResult(*'abcdef')
        for _ in range(levels):
            made = ParseResult(*[made] * width, *[''] * (6 - width))
        return made

    def test_what_calls_made(self) -> None:
        """Named tuples hash their items, and so does what `tuple` makes of a list, whenever that gets its items."""
        for protocol in (2, 4):
            for width, levels, told in ((6, 5, False), (6, 40, True), (2, 20, False), (2, 40, True)):
                content = pickle.dumps([self.named(width, levels)], protocol)
                with self.subTest(protocol=protocol, width=width, levels=levels):
                    self.assertEqual('to hash ' in notes_of(self.look('a.pkl', content)), told)
                    if told:
                        self.assertRaisesRegex(picklestep.NotAllowed, 'to hash ', picklestep.check, content, allow=['plain'])
        for levels, told in ((10, False), (40, True)):
            begin, again = b'\x80\x02cbuiltins\ntuple\nq\x000]q\x01(NNe0', bytes(range(2, 2 + levels))
            content = begin + b''.join(b'h\0](h%ch%ce\x85Rq%c0' % (each - 1, each - 1, each) for each in again) + b'h%c.' % again[-1]
            with self.subTest(levels=levels):
                self.assertEqual('to hash ' in notes_of(self.look('a.pkl', content)), told)

    def keys(self, levels: int, count: int, begin: bytes, each: bytes, end: bytes) -> bytes:
        """A pickle that hashes a tuple of 2^levels steps so often."""
        made = b'\x80\x04))\x86\x94' + b''.join(b'h%c\x86\x94' % number for number in range(levels))
        return made + b'0' + begin + each.replace(b'?', b'%c' % levels) * count + end

    def test_many_keys(self) -> None:
        """None of them takes too much, and all together do: in dictionaries, sets, frozen sets, and in what makes these of a list."""
        ways = [(b'}(', b'h?N', b'u.'), (b'\x8f(', b'h?', b'\x90.'), (b'(', b'h?', b'\x91.'),
                (b'ccollections\nOrderedDict\n)R(', b'h?N', b'u.')]
        ways += [(b'c' + name + b'\n](', b'h?', b'e\x85R.') for name in (b'builtins\nset', b'builtins\nfrozenset', b'collections\nCounter')]
        ways += [(b'\x8c\x08builtins\x8c\x03set\x93](', b'h?', b'e\x85R.'), (b'(](', b'h?', b'eibuiltins\nset\n.'), (b'(cbuiltins\nset\n](', b'h?', b'eo.'),
                 (b'cbuiltins\ndict\n](', b'h?N\x86', b'e\x85R.')]
        for begin, each, end in ways:
            for levels, count, told in ((22, 2, False), (22, 200, True), (3, 300, False), (16, 3_000, True)):
                with self.subTest(begin, levels=levels, count=count):
                    self.assertEqual('to hash ' in notes_of(self.look('a.pkl', self.keys(levels, count, begin, each, end))), told)

    def test_how_many_steps_all_keys_take(self) -> None:
        content = self.keys(22, 200, b'}(', b'h?N', b'u.')
        self.assertIn(f'to hash all keys and members in it takes {200 * ((4 << 22) - 1):,} steps', notes_of(self.look('a.pkl', content)))

    def test_a_long_tuple_that_is_doubled_seldom(self) -> None:
        for doubled, told in ((5, False), (20, True)):
            content = b'\x80\x04(' + b'N' * 1_000 + b't\x94' + b''.join(b'h%c\x86\x94' % number for number in range(doubled)) + b'.'
            with self.subTest(doubled=doubled):
                self.assertEqual('to hash the tuple' in notes_of(self.look('a.pkl', content)), told)

    def test_lists_that_many_calls_are_given(self) -> None:
        """Each list is gone through once, and where calls are given thousands of lists again and again it is said that they are not counted."""
        begin = b'\x80\x04cbuiltins\ntuple\n\x94]\x94(' + b'N' * 20_000 + b'e\x85\x940(' + b'h\x00h\x02R' * 20_000 + b't.'
        self.assertIn('to hash the tuple', notes_of(self.look('a.pkl', begin)))
        lists = b'\x80\x04capp\nf\n\x940(' + b']Na' * 3_000 + b't\x940(' + b'h\x00h\x01R' * 3_000 + b'l.'
        self.assertIn('they are given the same lists too often', notes_of(self.look('a.pkl', lists)))

    def test_what_honest_pickles_share(self) -> None:
        """Made objects that are there a thousand times, many keys, and lists that are given to many calls."""
        day, zone = datetime.datetime(2000, 1, 1), datetime.timezone(datetime.timedelta(hours=1))
        result = ParseResult(*'abcdef')
        days = [datetime.datetime(2000, 1, 1, tzinfo=zone) + datetime.timedelta(number) for number in range(1_000)]
        for made in ([day] * 1_000, {each: (day, day) for each in days}, [result] * 1_000,
                     {ParseResult(result, number, *[result] * 4): result for number in range(10_000)}, {(tuple(range(100)), number): number for number in range(1_000)}, [{(number, str(number)) for number in range(1_000)}] * 100,
                     [Counter('picklestep') for _ in range(1_000)], [frozenset([(number, other) for other in range(5)]) for number in range(1_000)]):
            for protocol in (2, 4):
                self.assertNotIn('to hash', notes_of(self.look('a.pkl', pickle.dumps(made, protocol))))

    def test_networks_of_many_layers(self) -> None:
        for count, told in ((b'K\x02', False), (b'M\x0f\x27', False), (b'M\x10\x27', True), (b'\x8a\x06' + (10 ** 12).to_bytes(6, 'little'), True)):
            content = b'\x80\x02ctorch.nn.modules.rnn\nRNNBase\nq\0)\x81q\1}q\2X\n\0\0\0num_layersq\3' + count + b'sb.'
            with self.subTest(count):
                self.assertEqual('layers' in notes_of(self.look('a.pkl', content)), told)

    def test_values_of_a_store(self) -> None:
        path = self.table_with(pickle.dumps(self.nested(60), 4))
        self.assertIn('to hash the tuple', notes_of(look(str(path))))

    def test_tuples_that_are_there_often(self) -> None:
        """Honest pickles share tuples, too."""
        shared = [(number, str(number)) for number in range(50)]
        content = pickle.dumps([shared, [tuple(shared[:number]) for number in range(50)]], 4)
        self.assertNotIn('to hash', notes_of(self.look('a.pkl', content)))

    def test_states(self) -> None:
        """What a state holds is not hashed."""
        result = self.look('a.pkl', b'N\x85Nb' * 101 + b'.')
        self.assertEqual((result.error, 'to hash' in notes_of(result)), (None, False))


class Deep(ScanCase):
    """Tuples, and what calls made, so deep in one another that loading them ends Python."""

    def tuples(self, levels: int, end: bytes) -> bytes:
        return b'\x80\x02}N' + b'\x85' * levels + end

    def deques(self, levels: int) -> bytes:
        return b'\x80\x02ccollections\ndeque\nq\x00)R' + b'h\x00)R' * levels + b'a' * levels + b'.'

    def ends(self, content: bytes) -> int:
        """The status of a Python that loads these bytes, and lets go of what they are."""
        words = [sys.executable, '-c', 'import pickle, sys; pickle.load(open(sys.argv[1], "rb"))', str(self.file('loaded', content))]
        return subprocess.run(words, stderr=subprocess.DEVNULL, check=False).returncode

    def told(self, content: bytes, text: str) -> None:
        self.assertIn(text, notes_of(self.look('a.pkl', content)))
        self.assertRaisesRegex(picklestep.NotAllowed, text, picklestep.check, content, allow=['plain'])

    @unittest.skipUnless(sys.platform == 'linux', 'how much stack there is differs')
    def test_python_ends(self) -> None:
        """What the marks are for: these end Python, and the gate of a list lets them pass."""
        for content, text in ((self.tuples(300_000, b'Ns.'), 'nested deeper than 100:'), (self.deques(300_000), 'what calls made in it is nested deeper')):
            with self.subTest(text):
                self.assertLess(self.ends(content), 0)
                self.assertTrue(picklestep.gate(content, allow=['plain']))
                self.told(content, text)

    def test_keys_and_members(self) -> None:
        deep = b'N' + b'\x85' * 101
        for content in (self.tuples(101, b'Ns.'), b'\x80\x04\x8f(' + deep + b'\x90.', b'\x80\x04(' + deep + b'\x91.',
                        *(b'\x80\x02c' + name + b'\n]' + deep + b'a\x85R.' for name in (b'builtins\nset', b'builtins\nfrozenset', b'collections\nCounter')),
                        *(b'\x80\x02c' + name + b'\n]' + deep + b'N\x86a\x85R.' for name in (b'builtins\ndict', b'collections\nOrderedDict')),
                        b'\x80\x02ccollections\nOrderedDict\n)R' + deep + b'Ns.'):
            with self.subTest(content[:30]):
                pickle.loads(content)
                self.told(content, 'nested deeper than 100:')
                self.assertNotIn('nested deeper', notes_of(self.look('a.pkl', content.replace(deep, deep[:-2]))))

    def test_all_protocols(self) -> None:
        made: Any = None
        for _ in range(101):
            made = (made,)
        for protocol in range(6):
            with self.subTest(protocol):
                self.assertIn('nested deeper than 100:', notes_of(self.look('a.pkl', pickle.dumps([made], protocol))))
                self.assertNotIn('nested deeper', notes_of(self.look('a.pkl', pickle.dumps([made[0]], protocol))))

    def test_deep_things_behind_others(self) -> None:
        """They are counted wherever they are in a file, and through the memo."""
        made: Any = None
        tuples = [made := (made,) for _ in range(101)]
        for first in (bytes(5_000_000), tuples):
            self.assertIn('nested deeper than 100:', notes_of(self.look('a.pkl', pickle.dumps([first, made], 4))))

    def test_what_calls_made(self) -> None:
        """As items, in arguments, in a list of these, as a value, in a state that is no dictionary."""
        begin = b'\x80\x02cbuiltins\nslice\nq\x00'
        for levels, told in ((1000, False), (1001, True)):
            for content in (self.deques(levels - 1), begin + b'h\x00' * (levels - 1) + b'N' + b'\x85R' * levels + b'.',
                            begin + b'h\x00]' * (levels - 1) + b'h\x00N\x85R' + b'a\x85R' * (levels - 1) + b'.',
                            begin + b'h\x00N\x85R' * levels + b'b' * (levels - 1) + b'.',
                            b'\x80\x02ccollections\ndefaultdict\nq\x00)R' + b'Nh\x00)R' * (levels - 1) + b's' * (levels - 1) + b'.'):
                with self.subTest(content[:40], levels=levels):
                    self.assertEqual('what calls made in it is nested' in notes_of(self.look('a.pkl', content)), told)

    def test_attributes(self) -> None:
        """Python frees these without end, so that a long chain of objects is nothing to mark."""
        levels = 20_000
        content = b'\x80\x02cargparse\nNamespace\nq\x00)\x81' + b'}X\x04\x00\x00\x00nexth\x00)\x81' * levels + b'sb' * levels + b'.'
        self.assertEqual(self.ends(content), 0)
        self.assertNotIn('nested', notes_of(self.look('a.pkl', content)))


if __name__ == '__main__':
    unittest.main()
