"""The library in this process: its answers are those of the program, and it keeps to its limits."""

import itertools
import os
import random
import signal
import sys
import tempfile
import threading
import time
import unittest
from pathlib import Path
from typing import Any, List, Optional
from unittest import mock

import picklestep
from pickles import chosen
from picklestep import library, place
from picklestep.program import Process, run_program
from picklestep.scan.blobs import Budget, BytesBlob, Limits
from picklestep.scan.looking import Options, look_at_bytes
from picklestep.scan.reading import Asked

DATA = Path(__file__).resolve().parent.parent.parent / 'crates' / 'real_pickles' / 'data'
PICKLES = sorted(path for path in DATA.glob('*.pickle') if path.stat().st_size <= library.MOST_BYTES)
HOSTILE = b'cposix\nsystem\n(X\x02\0\0\0idtR.'
# A name of many bytes that is imported again and again: its answer grows as the square of its size.
SQUARE = b'\x80\x04\x8c\x01m\x94X' + (30_000).to_bytes(4, 'little') + b'n' * 30_000 + b'\x940' + b'h\0h\x01\x930' * 5_000 + b'N.'
MB = 1 << 20
MODES: List[List[str]] = [[], ['--many'], ['--unframed'], ['--many', '--unframed']]
READINGS = [['calls'], ['calls', '--first'], ['calls', '--memo', 'kept'], ['calls', '--full'], ['calls', '--first', '--full'],
            ['calls', '--memo', 'kept', '--full']]
WORDS = [*([task, *modes] for task in ('list', 'objects') for modes in MODES), ['list', '--json'], ['list', '--many', '--json'], *READINGS,
         ['calls', '--many'],
         ['calls', '--skip', '3:2', '--skip', '9:40'], ['calls', '--full', '--skip', '0:1'], ['form'], ['form', '--json'], ['reach'], ['reach', '--buffers', '--extensions'],
         ['reach', '--json'], ['reach', '--json', '--buffers']]


def has_library() -> bool:
    return library.answer(['list'], b'N.') is not None


@unittest.skipUnless(has_library(), 'there is no library beside the program')
class Answers(unittest.TestCase):
    def wanted(self, words: List[str], content: bytes) -> bytes:
        with tempfile.NamedTemporaryFile() as file:
            file.write(content)
            file.flush()
            return run_program([words[0], file.name, *words[1:]])

    def test_real_pickles(self) -> None:
        self.assertGreater(len(PICKLES), 150)
        for path, words in chosen(itertools.product(PICKLES, WORDS), 25):
            with self.subTest(path.name, words=words):
                wanted = run_program([words[0], str(path), *words[1:]])
                self.assertEqual(library.answer(words, path.read_bytes()), wanted)

    def test_random_changes(self) -> None:
        chance = random.Random(7)
        for _ in chosen(range(300), 12):
            content = bytearray(chance.choice(PICKLES).read_bytes()[:chance.randrange(2, 400)])
            for _ in range(chance.randrange(4)):
                content[chance.randrange(len(content))] = chance.randrange(256)
            words = chance.choice(WORDS)
            self.assertEqual(library.answer(words, bytes(content)), self.wanted(words, bytes(content)))

    def test_what_the_program_is_asked(self) -> None:
        for words in (['list', '--full'], ['objects', '--skip', '1:1'], ['calls', '--memo', 'lost'], ['calls', '--first', '--memo', 'kept'],
                      ['calls', '--skip', '@holes'], ['calls', '--skip', '5:2', '--skip', '6:1'], ['calls', '--skip', f'{1 << 64}:1'],
                      ['calls', '--unframed'], ['debug'], ['form', '--many']):
            with self.subTest(words=words):
                self.assertIsNone(library.answer(words, HOSTILE))

    def test_an_answer_with_more_room(self) -> None:
        content = b'\x8c\xfa' + b'n' * 250 + b'0'
        content = content * (library.MOST_BYTES // len(content))
        answer = library.answer(['objects'], content)
        assert answer is not None
        self.assertGreater(len(answer), library.MOST_BYTES)
        self.assertEqual(answer, self.wanted(['objects'], content))

    def test_empty(self) -> None:
        self.assertEqual(library.answer(['list'], b''), self.wanted(['list'], b''))

    def test_threads(self) -> None:
        wanted = {path: library.answer(['calls'], path.read_bytes()) for path in PICKLES}
        faults: List[str] = []

        def ask(seed: int) -> None:
            chance = random.Random(seed)
            for _ in range(300):
                path = chance.choice(PICKLES)
                memory = chance.choice((None, 9 * MB, 64 * MB))
                if library.answer(['calls'], path.read_bytes(), memory) not in (wanted[path], None):
                    faults.append(path.name)

        threads = [threading.Thread(target=ask, args=(seed,)) for seed in range(8)]
        for thread in threads:
            thread.start()
        for thread in threads:
            thread.join()
        self.assertEqual(faults, [])

    def test_threads_that_ask_first(self) -> None:
        both, have = threading.Barrier(2), []

        def found() -> object:
            both.wait(600)
            return object()

        with mock.patch.object(library, '_libraries', {}), mock.patch.object(library, '_found', found):
            threads = [threading.Thread(target=lambda: have.append(library._library())) for _ in range(2)]
            for thread in threads:
                thread.start()
            for thread in threads:
                thread.join()
        self.assertIs(have[0], have[1])

    def test_a_signal_whose_handler_asks_too(self) -> None:
        """In the midst of another answer, which stays as it was."""
        wanted, others = self.wanted(['list'], HOSTILE), []
        before = signal.signal(signal.SIGALRM, lambda *_: others.append(library.answer(['objects'], b'N.')))
        self.addCleanup(signal.signal, signal.SIGALRM, before)
        self.addCleanup(signal.setitimer, signal.ITIMER_REAL, 0)
        signal.setitimer(signal.ITIMER_REAL, 0.001, 0.001)
        while len(others) < 200:
            self.assertEqual(library.answer(['list'], HOSTILE), wanted)
        self.assertLessEqual(set(others), {None, b'#0 none\nresult #0\n'})


@unittest.skipUnless(has_library(), 'there is no library beside the program')
class InProcess(unittest.TestCase):
    """What is asked here and what of the program. Where it starts none, the program's name may be that of no file."""

    def setUp(self) -> None:
        self.found = place.find_program()

    def started(self) -> 'mock._patch[mock.MagicMock]':
        return mock.patch('picklestep.program.subprocess.Popen', side_effect=AssertionError('a process was started'))

    def test_small_inputs_start_nothing(self) -> None:
        with tempfile.NamedTemporaryFile() as file, self.started():
            file.write(HOSTILE)
            file.flush()
            for source in (HOSTILE, bytearray(HOSTILE), memoryview(HOSTILE), file.name, Path(file.name)):
                self.assertEqual([reach.what for reach in picklestep.calls(source)], ['import', 'call'])
            self.assertEqual(picklestep.calls(b'NN00N0.').end.offset, 6)
            self.assertEqual(picklestep.objects(b'N0.').end.offset, 2)
            self.assertEqual(len(picklestep.listing(HOSTILE, memory=64 * MB)), 6)
            self.assertEqual(len(picklestep.listing(b'\x95' + b'\xff' * 8 + HOSTILE, many=True, unframed=True)), 7)
            self.assertIn('a' * 99, picklestep.calls(HOSTILE.replace(b'\x02', b'\x63').replace(b'id', b'a' * 99), full=True)[1].text)
            self.assertEqual([reach.offset for reach in picklestep.calls(HOSTILE[:14] + b'....' + HOSTILE[14:], skip=[(14, 4)])], [0, 27])

    def test_a_limit_of_time_and_a_large_input_start_the_program(self) -> None:
        for ask in (lambda: picklestep.calls(HOSTILE, timeout=600), lambda: picklestep.calls(b'N' * library.MOST_BYTES + b'.')):
            with self.started(), self.assertRaises(AssertionError):
                ask()

    def test_a_limit_of_memory_stays_an_answer(self) -> None:
        self.assertIsNone(library.answer(['calls'], SQUARE))
        many = b'N' * 65_000 + b'.'
        self.assertIsNone(library.answer(['objects'], many, 9 * MB))
        with self.assertRaises(picklestep.OutOfMemory), mock.patch('picklestep.program.run_program', side_effect=picklestep.OutOfMemory('out of memory')):
            picklestep.objects(many, memory=9 * MB)
        self.assertEqual(len(picklestep.objects(many)), 65_000)

    def test_a_limit_of_memory_holds_where_a_signal_is_handled(self) -> None:
        in_process = sys.modules.get('picklestep.in_process')
        if in_process is None:
            self.skipTest('it is a module, whose limit is the same for all')
        text = in_process.InProcess._text

        def after_another(self: Any, asked: Any, memory: int, room: Any) -> Optional[bytes]:
            if memory < 2 * MB:  # (as a handler asks when the limit is set)
                library.answer(['objects'], HOSTILE)
            return text(self, asked, memory, room)
        with mock.patch.object(in_process.InProcess, '_text', after_another):
            self.assertIsNone(library.answer(['objects'], b'N' * 65_000 + b'.', 9 * MB))

    def test_a_program_that_is_named(self) -> None:
        with mock.patch.dict(os.environ, PICKLESTEP_PROGRAM='/not/there'), self.assertRaises(picklestep.ProgramError):
            picklestep.calls(HOSTILE)

    def test_a_small_pickle_takes_microseconds(self) -> None:
        picklestep.calls(HOSTILE)
        times = []
        for _ in range(300):
            begun = time.perf_counter()
            picklestep.calls(HOSTILE)
            times.append(time.perf_counter() - begun)
        self.assertLess(min(times), 100e-6)


@unittest.skipUnless(has_library(), 'there is no library beside the program')
class Scan(unittest.TestCase):
    """`scan` asks the library within its limits."""

    def test_small_pickles_start_nothing(self) -> None:
        with mock.patch('picklestep.program.Process', side_effect=AssertionError('a process was started')):
            for content in (HOSTILE, b'N.' + HOSTILE, HOSTILE[:-1]):
                found = look_at_bytes('a.pkl', content).pickles[0]
                self.assertEqual([one.name for one in found.imports], ['posix.system'])
            self.assertEqual(look_at_bytes('a.pkl', b'N0.').pickles[0].end.offset, 2)

    def test_what_takes_more_memory_is_asked_of_the_program(self) -> None:
        with Asked(BytesBlob(SQUARE)) as asked, mock.patch('picklestep.program.Process', wraps=Process) as started:
            found = asked.summary(Budget(Limits())).pickle((), len(SQUARE))
            # (the lines are too long for a text in JSON, so they are asked for once more)
            self.assertEqual((started.call_count, len(found.imports), found.imports[0].count), (2, 1, 5000))

    def test_little_time(self) -> None:
        answer = library.answer

        def form_alone(words: List[str], *given: Any) -> Optional[bytes]:  # (whose time is in proportion to the bytes)
            self.assertEqual(list(words), ['form', '--json'])
            return answer(words, *given)
        with mock.patch('picklestep.scan.reading.library.answer', side_effect=form_alone):
            self.assertEqual(len(look_at_bytes('a.pkl', HOSTILE, Options(Limits(seconds=0.9))).pickles), 1)

    def test_lines_are_counted(self) -> None:
        content = b'cos\ngetcwd\nq\x000' + b'h\x00)R0' * 2000 + b'N.'
        result = look_at_bytes('a.pkl', content, Options(Limits(lines=1000)))
        self.assertIn('more than 1,000 lines', ' '.join(note.text for note in result.notes))


if __name__ == '__main__':
    sys.exit(unittest.main())
