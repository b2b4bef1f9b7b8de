"""What stands beside an answer: that a file of joblib goes on behind its first array, and that a pickle that was cut off goes on in its frame.

The file of joblib is one that the library wrote, with a call behind its array. `scan`, which reads the array, finds it.
"""

from __future__ import annotations

import base64
import contextlib
import io
import os
import pickle
import subprocess
import time
import unittest
from typing import List

import picklestep
from picklestep import scan
from picklestep.hints import Watch
from picklestep.place import find_program, is_module
from picklestep.shell.shell import Shell
from picklestep.view.command import main as view
from picklestep.document import Document
from pickles import REAL, chosen, known_opcodes
from scan_support import environment
from test_entrance import EntranceCase, ways
from test_view_alone import MODELS, InChromium

ARRAYS = (MODELS / 'joblib_arrays.joblib').read_bytes()
# joblib 1.2: dump([numpy.arange(5.0), Computed()]), where the second is reduced to eval('1 + 1').
HIDDEN = base64.b64decode('''
gASVzgAAAAAAAABdlCiME2pvYmxpYi5udW1weV9waWNrbGWUjBFOdW1weUFycmF5V3JhcHBlcpSTlCmBlH2UKIwIc3ViY2xhc3OUjAVudW1weZSMB25kYXJyYXmUk5SMBX
NoYXBllEsFhZSMBW9yZGVylIwBQ5SMBWR0eXBllGgHaA6TlIwCZjiUiYiHlFKUKEsDjAE8lE5OTkr/////Sv////9LAHSUYowKYWxsb3dfbW1hcJSIjBtudW1weV9hcnJh
eV9hbGlnbm1lbnRfYnl0ZXOUSxB1Ygb///////8AAAAAAAAAAAAAAAAAAPA/AAAAAAAAAEAAAAAAAAAIQAAAAAAAABBAlSIAAAAAAAAAjAhidWlsdGluc5SMBGV2YWyUk5
SMBTEgKyAxlIWUUpRlLg==''')
_WRAPPER = b'\x80\x02cjoblib.numpy_pickle\nNumpyArrayWrapper\n)\x81}b'
_CALL = b'cposix\nsystem\n(X\x02\0\0\0idtR'
# The numbers of this array are bytes to whoever takes them for opcodes, and these hold all that joblib reads behind the numbers.
SWALLOWED = _WRAPPER + b'B' + len(_CALL).to_bytes(4, 'little') + _CALL + b'0.'
OF_CLASS = [_WRAPPER, b'\x80\x04\x8c\x06joblib\x8c\x1enumpy_pickle.NumpyArrayWrapper\x93)\x81}b', b'(ijoblib.numpy_pickle\nNumpyArrayWrapper\n}b',
            b'(cjoblib.numpy_pickle\nNumpyArrayWrapper\no}b',
            b'ccopy_reg\n_reconstructor\n(cjoblib.numpy_pickle\nNumpyArrayWrapper\nc__builtin__\nobject\nNtR}b']
CUT = pickle.dumps({'a': list(range(20)), 'b': print}, 4)[:-4]


def array_of(data: bytes) -> int:
    """Where joblib's first array begins: behind the BUILD that follows the last key of a wrapper's state."""
    found = [(known.offset, known.name) for known in known_opcodes(data)]
    return next(offset for offset, name in found if name == 'BUILD' and offset > data.index(b'numpy_array_alignment_bytes')) + 1


class Answers(unittest.TestCase):
    """The functions of the module, the shell, and the page."""

    def test_calls(self) -> None:
        self.assertIn('builtins.eval', [name.name for found in scan.look_at_bytes('a.joblib', HIDDEN).pickles for name in found.imports])
        answer = picklestep.calls(HIDDEN)
        self.assertNotIn('eval', answer.text)
        self.assertEqual(answer.array_at, array_of(HIDDEN))
        self.assertRegex('\n'.join(answer.hints), rf'^a joblib file goes on at {array_of(HIDDEN)} .*`picklestep scan FILE`[^\n]*$')
        for data in (ARRAYS, (MODELS / 'sklearn_logistic.joblib').read_bytes()):
            self.assertEqual(picklestep.calls(data).array_at, array_of(data))

    def test_numbers_that_read_as_opcodes(self) -> None:
        """What joblib reads is then hidden from who reads on, and reading ends as it should."""
        answer = picklestep.calls(SWALLOWED)
        self.assertEqual((answer.calls, answer.end.how, answer.array_at), (2, 'stopped', len(_WRAPPER)))
        self.assertEqual([picklestep.calls(data + b'\x01').array_at for data in OF_CLASS], list(map(len, OF_CLASS)))

    def test_the_lines_for_people_say_the_same(self) -> None:
        real = [path.read_bytes() for path in chosen(REAL, 20)]
        for data in (ARRAYS, HIDDEN, SWALLOWED, CUT, b'N', *OF_CLASS, *(data + b'\x01' for data in OF_CLASS), *real):
            answer, watch = picklestep.calls(data), Watch()
            watch.feed(answer.text.encode('ascii'))
            self.assertEqual((watch.array_at, watch.hints), (answer.array_at, answer.hints), data[:40])

    def test_a_line_with_the_name_again_and_again(self) -> None:
        """It takes the time of a line without it: it was tried from each of them on."""
        watch, begin = Watch(), time.process_time()
        watch.feed(f"9: state ({', '.join([repr('NumpyArrayWrapper')] * 20_000)}) to #2\n".encode('ascii'))
        self.assertEqual((watch.hints, watch.array_at), ((), None))
        self.assertLess(time.process_time() - begin, 3)

    def test_frames(self) -> None:
        self.assertEqual(picklestep.calls(CUT).end.code, 'F7')
        for said in ('\n'.join(picklestep.calls(CUT).hints), picklestep.source(CUT)[-1]):
            self.assertRegex(said, r'`picklestep source --unframed FILE`.*`picklestep mend FILE --save OUT`')
        self.assertNotIn('that frame is', picklestep.source(CUT, unframed=True).text)

    def test_what_ends_at_a_frame(self) -> None:
        """A frame in a frame, one that ends behind the last byte, and an opcode that crosses its end; and what ends elsewhere."""
        frame = b'\x80\x04\x95%b' + bytes(7)
        at_frames = {'F6': frame % b'\x0a' + b'\x95' + bytes(8) + b'N.', 'F7': frame % b'\x09' + b'N.', 'F8': frame % b'\x01' + b'K\x01.'}
        for data in (*at_frames.values(), b'N', b'', b'\x7f', b'0.', b'N.'):
            with picklestep.Session(data) as session:
                ends = [picklestep.listing(data).end, picklestep.objects(data).end, picklestep.calls(data).end, picklestep.source(data).end, session.where().end]
            self.assertEqual({end.of_frame for end in ends}, {data in at_frames.values()}, data)
        self.assertEqual([picklestep.calls(data).end.code for data in at_frames.values()], list(at_frames))
        self.assertTrue(pickle.loads(pickle.dumps(picklestep.calls(at_frames['F7']).end)).of_frame)

    def test_whole_pickles_have_none(self) -> None:
        for path in chosen(REAL, 20):
            answer, written = picklestep.calls(path.read_bytes()), picklestep.source(path.read_bytes())
            self.assertEqual((len(answer.hints), answer.array_at), (int(answer.end.of_frame), None), path.name)
            self.assertEqual('Running this does the same' in written[0], written.end.is_stopped and not written.kept, path.name)

    def test_source(self) -> None:
        """It says that running it does the same only where the whole file was read."""
        for data in (*(data + b'\x01' for data in OF_CLASS), HIDDEN, SWALLOWED, CUT, b'N.N', b'N', b'N0.', b'K\x01.\x00'):
            with self.subTest(data[:40]):
                lines = list(picklestep.source(data, many=data.endswith(b'N.N')))
                self.assertNotIn('Running this does the same', lines[0])
                self.assertRegex(lines[0], 'first: the last lines say why this is not all')
                self.assertRegex('\n'.join(lines[-3:]), '(?m)^# .*(reading ends here|are not read|`picklestep scan FILE`)')
        for data, length in ((HIDDEN, array_of(HIDDEN)), (SWALLOWED, len(_WRAPPER)), *((data + b'\x01', len(data)) for data in OF_CLASS)):
            self.assertRegex(picklestep.source(data)[-1], rf'^# a joblib file goes on at {length} .*`picklestep scan FILE` .* `picklestep calls FILE`')
        self.assertIn('Running this does the same', picklestep.source(b'N.N.', many=True)[0])

    def test_shell(self) -> None:
        for data, hint in ((HIDDEN, f'joblib file goes on at {array_of(HIDDEN)} '), (CUT, '`picklestep shell --unframed FILE`')):
            with Shell(data, '') as shell:
                self.assertIn(hint, '\n'.join(shell.hints()))
                self.assertNotIn(hint, shell.obey('where'))
                end = shell.obey('step 100000')
                self.assertRegex(end, r'(?m)^>.* the end: F[0-9]')
                self.assertIn(hint, end)
        with Shell(SWALLOWED, '') as shell:
            self.assertIn('A joblib file goes on', shell.obey('step 7'))
            self.assertEqual(shell.obey('insert 0 NONE').count('joblib file'), 0)
            self.assertIn(f'goes on at {len(_WRAPPER) + 1} ', shell.obey('where'))

    def test_page(self) -> None:
        for data, hint in ((HIDDEN, picklestep.calls(HIDDEN).hints[0]), (CUT, picklestep.calls(CUT).hints[0])):
            with contextlib.closing(Document(data, 'a')) as document:
                self.assertIn(hint, document.lines.closing)


class Reports(EntranceCase):
    """A report of a part of a file."""

    def test_a_report_of_a_part(self) -> None:
        container = (MODELS / 'torch_state.pt').read_bytes()
        said = {'a.joblib': 'picklestep scan FILE', 'c.pickle': 'picklestep source --unframed FILE', 'd.pickle': 'refused: S2',
                'e.pickle': 'picklestep scan FILE'}
        for (name, why), data in zip(said.items(), (HIDDEN, CUT, b'N0.', SWALLOWED)):
            with self.subTest(name), contextlib.redirect_stderr(io.StringIO()) as errors:
                out = self.folder / f'{name}.html'
                self.assertEqual(view([str(self.file(name, data)), '--export', str(out)]), 1)
                self.assertRegex(errors.getvalue().splitlines()[-1], r'^picklestep: \S+ has not all of the file: ')
                top = out.read_text(encoding='utf-8').partition('<nav>')[0].partition('<header>')[2]
                self.assertIn('Not all of the file is in this report:', top)
                for text in (top.partition('</strong>')[2].partition('</p>')[0], errors.getvalue()):
                    self.assertIn(why, text)
        for name, data in (('f.pickle', b'N.'), ('b.pt', container)):
            out = self.folder / f'{name}.html'
            with contextlib.redirect_stderr(io.StringIO()):
                self.assertEqual(view([str(self.file(name, data)), '--export', str(out)]), 0)
            self.assertNotIn('Not all of the file', out.read_text(encoding='utf-8'))
        with contextlib.closing(Document(container, 'b.pt')) as document:  # (whose bytes are read as they are)
            self.assertIn('begins like a container: a zip archive (picklestep scan looks into it)', document.missing)


class Entrance(EntranceCase):
    """`picklestep calls`, in each way in which it is started."""

    def test_calls(self) -> None:
        whole = pickle.dumps([print, 1], 4)
        for name, data, said in (('b.joblib', SWALLOWED, '`picklestep scan FILE`'),
                                 ('cut.pickle', CUT, '`picklestep source --unframed FILE`'), ('whole.pickle', whole, '')):
            self.file(name, data)
            for words in (['calls', name], ['calls', '--json', name]):
                alone = self.start([find_program(), *words])
                for way, entrance in chosen(ways().items(), 1):
                    with self.subTest((way, words)):
                        run = self.start([*entrance, *words])
                        self.assertEqual((run.returncode, run.stdout), (alone.returncode, alone.stdout))
                        self.assertEqual(len(run.stderr.splitlines()), int(bool(said)), run.stderr)
                        self.assertIn(said, run.stderr)

    @unittest.skipIf(os.name == 'nt' or is_module(find_program()), 'files by descriptors are opened by the program itself')
    def test_what_the_shell_has_opened(self) -> None:
        """As in `picklestep calls <(..)`."""
        with open(self.file('a.pkl', pickle.dumps(print, 4)), 'rb') as file:
            for words in (['calls'], ['list', '--']):
                path = f'/dev/fd/{file.fileno()}'
                alone = subprocess.run([find_program(), *words, path], pass_fds=[file.fileno()], capture_output=True, check=True)
                for way, entrance in ways().items():
                    with self.subTest((way, words)):
                        run = subprocess.run([*entrance, *words, path], cwd=self.folder, env=environment(), pass_fds=[file.fileno()], capture_output=True,
                                             check=False)
                        self.assertEqual((run.returncode, run.stdout), (0, alone.stdout), run.stderr)

    def test_other_words_say_what_the_program_says(self) -> None:
        self.file('a.pkl', CUT)
        for word in ('list', 'objects', 'debug'):
            alone = self.start([find_program(), word, 'a.pkl'])
            for way, entrance in chosen(ways().items(), 1):
                run = self.start([*entrance, word, 'a.pkl'])
                self.assertEqual((run.returncode, run.stdout, run.stderr), (alone.returncode, alone.stdout, alone.stderr), (way, word))


class InThePage(InChromium):
    """The page without a server says the same as the page with one, and writes the same source."""

    def test_what_is_said(self) -> None:
        self.load()
        for number, data in enumerate([HIDDEN, SWALLOWED, CUT, *(data + b'\x01' for data in OF_CLASS)]):
            path = self.file(f'{number}.pickle', data)
            with contextlib.closing(Document(path, path.name)) as document:
                closing: List[str] = document.lines.closing
                written = list(picklestep.source(data))[:1000]
            self.give(path)
            self.assertEqual(self.texts('#closing'), ['; '.join(closing)])
            self.assertRegex(closing[-1], '`picklestep (scan|source --unframed) FILE`')
            self.assertEqual(self.browser.js("host.ask('source').then((answer) => answer.source)"), written)
        self.assertEqual(self.browser.errors(), [])


if __name__ == '__main__':
    unittest.main()
