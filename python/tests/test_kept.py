"""Sessions that are kept in this process: what the program answers, byte for byte, and all memory given back."""

import ctypes
import gc
import random
import signal
import sys
import tempfile
import threading
import unittest
from pathlib import Path
from typing import List, Optional, Set
from unittest import mock

import picklestep
from pickles import chosen
from picklestep import library
from picklestep.program import run_program
from picklestep.session import Session

DATA = Path(__file__).resolve().parent.parent.parent / 'crates' / 'real_pickles' / 'data'
PICKLES = sorted(path for path in DATA.glob('*.pickle') if path.stat().st_size <= library.MOST_BYTES)
MODES: List[List[str]] = [[], ['--many'], ['--unframed'], ['--window', '3']]
OPCODES = ('NONE', 'POP', 'MARK', 'BININT1 07', 'EMPTY_LIST', 'GLOBAL 6f730a780a', 'STOP', 'NOPE', 'BININT1')
MB = 1 << 20


def kept(content: bytes, modes: List[str]) -> Optional[library.Kept]:
    return library.open_session(content, '--many' in modes, '--unframed' in modes, 3 if '--window' in modes else None)


def line(numbers: random.Random) -> str:
    """A line, which is often one that is obeyed."""
    place = numbers.choice([numbers.randrange(12), numbers.randrange(60), f'@{numbers.randrange(200)}'])
    opcode = numbers.choice(OPCODES)
    return numbers.choice(['step', 'step', 'step', 'back', f'goto {place}', 'run', f'break {place}', f'clear {place}', f'insert {place} {opcode}',
                           f'replace {place} {opcode}', f'delete {place}', f'frame {place} {numbers.randrange(5)}', f'unframe {place}',
                           'undo', 'undo', 'redo', 'items', 'objects', 'stack', 'memo', f'show {numbers.randrange(30)}', 'where', 'fly', '',
                           'x' * 70_000])


@unittest.skipUnless(kept(b'N.', []), 'there is no library that keeps sessions')
class KeptSessions(unittest.TestCase):
    def opened(self, content: bytes, *modes: str) -> library.Kept:
        session = kept(content, list(modes))
        assert session is not None
        self.addCleanup(session.close)
        return session

    def started(self) -> 'mock._patch[mock.MagicMock]':
        return mock.patch('picklestep.program.subprocess.Popen', side_effect=AssertionError('a process was started'))

    def test_random_conversations(self) -> None:
        """The answers to the lines are those to a script of them, and the bytes are those that the program saves after it."""
        chance = random.Random(11)
        for path in chosen(PICKLES, 12):
            modes = chance.choice(MODES)
            lines = [line(chance) for _ in range(60)]
            with self.subTest(path.name, modes=modes), tempfile.TemporaryDirectory() as folder:
                session, out = self.opened(path.read_bytes(), *modes), Path(folder, 'out')
                answers = b''.join([session.ask(each.encode()) for each in lines])
                script = ''.join(f'{each}\n' for each in lines).encode()
                self.assertEqual(answers, run_program(['debug', '--json', str(path), *modes, '--save', str(out)], script=script))
                self.assertEqual(session.content(), out.read_bytes())

    def test_a_long_answer(self) -> None:
        """It has no room at first; the line is obeyed once."""
        session = self.opened(b'N' * 20_000 + b'.')
        self.assertEqual(session.ask(b'step'), at(1))
        self.assertGreater(len(session.ask(b'items')), 1 << 18)
        self.assertEqual(session.ask(b'step'), at(2))
        session.ask(b'insert 3 BINUNICODE ' + (b'\0\x30\0\0' + b'x' * 0x3000).hex().encode())
        session.ask(b'goto 4')
        self.assertEqual(len(session.content()), 20_001 + 5 + 0x3000)

    def test_a_handler_that_asks_in_the_midst(self) -> None:
        """A signal's handler that runs behind the call which finds no room for a text does not change what is answered."""
        session = self.opened(b'N' * 20_000 + b'.')
        items, obey, asked = session.ask(b'items'), session._obey, []

        def interrupted(*given: object) -> object:
            answer = obey(*given)
            if not asked:
                asked.append(b'')
                asked[0] = session.ask(b'where')
            return answer

        session._obey = interrupted
        self.assertEqual((session.ask(b'items'), asked), (items, [session.ask(b'where')]))

    def test_lines_that_say_nothing(self) -> None:
        session = self.opened(b'N.')
        self.assertEqual((session.ask(b''), session.ask(b'quit'), session.ask(b'step')), (b'{"kind":"nothing"}\n', b'{"kind":"quit"}\n', at(1)))
        self.assertEqual(session.ask(b'\xff\0'), b'{"kind":"refused","code":"X1","words":"unknown word"}\n')

    def test_a_session_starts_no_process(self) -> None:
        with self.started(), tempfile.NamedTemporaryFile() as file:
            file.write(b'N.')
            file.flush()
            for source in (b'N.', bytearray(b'N.'), file.name, Path(file.name)):
                with Session(source) as session:
                    self.assertEqual((session.insert(0, 'NONE'), session.run().place, session.bytes()), (0, 3, b'NN.'))
                    self.assertEqual([opcode.name for opcode in session.listing()], ['NONE', 'NONE', 'STOP'])
                    self.assertEqual(session.calls().calls, 0)

    def test_limits_start_one(self) -> None:
        for limits in ({'timeout': 60.0}, {'memory': 64 * MB}):
            with self.started(), self.assertRaises(AssertionError):
                Session(b'N.', **limits)  # type: ignore[arg-type]

    def test_ten_thousand(self) -> None:
        """Half of them are open at once. All memory is given back."""
        data = b'(lp0\n' + b'I1\na' * 20 + b'.'
        for _ in range(2):  # (the first time this process takes what it keeps)
            sessions: List[Session] = []
            for number in range(10_000):
                session = Session(data)
                self.assertEqual(session.step(), 1)
                sessions.append(session)
                if number % 2:
                    sessions.pop(0).close()
            while sessions:
                sessions.pop().close()
            gc.collect()
            before, self.memory = getattr(self, 'memory', 0), allocated()
        self.assertLess(self.memory - before, 1 << 16)

    def test_two_threads(self) -> None:
        faults: List[object] = []

        def walk(seed: int) -> None:
            chance = random.Random(seed)
            for _ in range(200):
                session = kept(b'N0' * 50 + b'N.', [])
                assert session is not None
                places = [session.ask(b'step') for _ in range(chance.randrange(60))]
                if places != [at(place + 1) for place in range(len(places))]:
                    faults.append(places)
                session.close()

        threads = [threading.Thread(target=walk, args=(seed,)) for seed in range(2)]
        for thread in threads:
            thread.start()
        for thread in threads:
            thread.join()
        self.assertEqual(faults, [])

    def test_closed(self) -> None:
        session = self.opened(b'N.')
        session.close()
        session.close()
        for ask in (lambda: session.ask(b'step'), session.content):
            self.assertRaises(ValueError, ask)

    def test_a_signal_whose_handler_asks_too(self) -> None:
        seen: Set[str] = set()
        with Session(b'N.') as session:
            before = signal.signal(signal.SIGALRM, lambda *_: seen.add(session.ask('where')))
            self.addCleanup(signal.signal, signal.SIGALRM, before)
            self.addCleanup(signal.setitimer, signal.ITIMER_REAL, 0)
            signal.setitimer(signal.ITIMER_REAL, 0.001, 0.001)
            while len(seen) < 2:
                self.assertEqual((session.step(), session.back()), (1, 0))
            signal.setitimer(signal.ITIMER_REAL, 0)
        self.assertEqual({text[:4] for text in seen}, {'at 0', 'at 1'})

    def test_memory_that_runs_out(self) -> None:
        """Each line is obeyed or not, whatever the limit, and the session goes on. (A line whose answer is lost may have been refused.)"""
        from picklestep import in_process
        found = library._library()
        assert isinstance(found, in_process.InProcess)
        for most in range(0, 20_000, 500):
            session, done, lost = self.opened(b'N' * 1000 + b'.'), 0, 0
            for _ in range(20):
                found._limit(most)
                try:
                    answer = session.ask(b'insert 0 NONE')
                    done += answer == b'{"kind":"edited","place":0}\n'
                    self.assertIn(answer, (b'{"kind":"edited","place":0}\n', b'{"kind":"refused","code":"M","words":"out of memory"}\n'))
                except picklestep.ProgramError:
                    lost += 1
                finally:
                    found._limit(in_process._NO_LIMIT)
            content = session.content()
            self.assertEqual(content, b'N' * (len(content) - 1) + b'.')
            self.assertTrue(1001 + done <= len(content) <= 1001 + done + lost)
            self.assertEqual(session.ask(b'goto 5'), at(5))


def at(place: int) -> bytes:
    """The answer to a move."""
    return b'{"kind":"at","place":%d}\n' % place


def allocated() -> int:
    """The bytes of the C library's heap that are in use."""
    class Info(ctypes.Structure):
        _fields_ = [(name, ctypes.c_size_t) for name in ('arena', 'ordblks', 'smblks', 'hblks', 'hblkhd', 'usmblks', 'fsmblks', 'uordblks', 'fordblks',
                                                         'keepcost')]
    mallinfo2 = ctypes.CDLL(None).mallinfo2
    mallinfo2.restype = Info
    info = mallinfo2()
    return int(info.uordblks) + int(info.hblkhd)


if __name__ == '__main__':
    sys.exit(unittest.main())
