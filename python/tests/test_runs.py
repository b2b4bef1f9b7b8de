"""Where pickles come from, what can go wrong, and that nothing is left behind."""

from __future__ import annotations

import array
import contextlib
import gc
import io
import mmap
import os
import resource
import shlex
import signal
import stat
import subprocess
import sys
import tempfile
import threading
import time
import unittest
import warnings
from pathlib import Path
from typing import Iterator, Set
from unittest import mock

import picklestep
from picklestep import OutOfMemory, ProgramError, Session, TimedOut, TooLarge, entrance, library
from picklestep import place
from picklestep import program as running, took
from picklestep.program import Process, find_program, time_to_wait
from picklestep.sources import Input, OwnFile, is_opened
from picklestep.took import seconds_of_programs
from pickles import HOSTILE, LIST, chosen

PACKAGE = Path(picklestep.__file__).resolve().parent.parent
MB = 1 << 20


def children() -> Set[int]:
    """The running children of this process."""
    found = set()
    for entry in os.listdir('/proc'):
        with contextlib.suppress(OSError, ValueError):
            fields = Path('/proc', entry, 'stat').read_text().rpartition(')')[2].split()
            if int(fields[1]) == os.getpid() and fields[0] != 'Z':
                found.add(int(entry))
    return found


def open_files() -> int:
    """How many files this process has open."""
    return len(os.listdir('/proc/self/fd'))


def is_running(process: int) -> bool:
    """Whether a process has not ended."""
    try:
        return Path(f'/proc/{process}/stat').read_text().rpartition(')')[2].split()[0] != 'Z'
    except OSError:
        return False


@contextlib.contextmanager
def program(script: str) -> Iterator[None]:
    """Another program than picklestep."""
    with tempfile.TemporaryDirectory() as folder:
        path = Path(folder, 'program')
        path.write_text('#!/bin/sh\n' + script)
        path.chmod(path.stat().st_mode | stat.S_IXUSR)
        with mock.patch.dict(os.environ, PICKLESTEP_PROGRAM=str(path)):
            yield


@contextlib.contextmanager
def pipe(data: bytes) -> Iterator[str]:
    """The path of a pipe that gives these bytes, and which only this process has open."""
    read, write = os.pipe()
    os.write(write, data)
    os.close(write)
    try:
        yield f'/dev/fd/{read}'
    finally:
        os.close(read)


@contextlib.contextmanager
def fifo(data: bytes) -> Iterator[str]:
    """The path of a FIFO that gives these bytes once."""
    with tempfile.TemporaryDirectory() as folder:
        path = Path(folder, 'fifo')
        os.mkfifo(path)
        writer = threading.Thread(target=path.write_bytes, args=(data,), daemon=True)
        writer.start()
        yield str(path)
        writer.join(600)


def shell(folder: str, way: str, *words: str) -> str:
    """What Python prints on these words where a line of the shell starts it."""
    line = way.format(shlex.join([sys.executable, *words]))
    run = subprocess.run(['bash', '-c', line], cwd=folder, env={**os.environ, 'PYTHONPATH': str(PACKAGE)}, stdout=subprocess.PIPE, text=True,
                         timeout=300, check=True)
    return run.stdout


class LeavesNothing(unittest.TestCase):
    """Each test of these leaves no child, no open file, and no file on the disk."""

    def setUp(self) -> None:
        library.answer(['list'], b'N.')  # (where it is a module, the process of Node that answers stays)
        gc.collect()
        self.before = children(), open_files()

    def tearDown(self) -> None:
        gc.collect()
        self.assertEqual((children(), open_files()), self.before)


class Sources(LeavesNothing):
    """Bytes, paths and file objects."""

    def test_bytes(self) -> None:
        text = picklestep.listing(LIST).text
        for source in (bytearray(LIST), memoryview(LIST), memoryview(LIST + b'xx')[:-2], memoryview(LIST[::-1])[::-1], array.array('B', LIST)):
            with self.subTest(type(source)):
                self.assertEqual(picklestep.listing(source).text, text)  # type: ignore[arg-type]
        with mmap.mmap(-1, len(LIST)) as mapped:
            mapped[:] = LIST
            self.assertEqual(picklestep.listing(mapped).text, text)

    def test_paths(self) -> None:
        text = picklestep.listing(LIST).text
        with tempfile.TemporaryDirectory() as folder:
            here = os.getcwd()
            self.addCleanup(os.chdir, here)
            os.chdir(folder)
            for name in ('a pickle', '-dashes', '--many', 'caf\u00e9', os.fsdecode(b'no-\xff-text')):
                with self.subTest(name):
                    Path(name).write_bytes(LIST)
                    for source in (name, Path(name), Path(folder, name)):
                        self.assertEqual(picklestep.listing(source).text, text)
                    with Session(name) as session:
                        os.remove(name)
                        self.assertEqual(session.bytes(), LIST)
            os.chdir(here)

    def test_file_objects(self) -> None:
        text = picklestep.listing(LIST).text
        self.assertEqual(picklestep.listing(io.BytesIO(LIST)).text, text)
        with tempfile.TemporaryFile() as file:
            file.write(b'before' + LIST)
            file.seek(6)
            self.assertEqual(picklestep.listing(file).text, text)
            self.assertEqual(file.read(), b'')
            file.seek(6)
            with Session(file) as session:
                self.assertEqual(session.bytes(), LIST)

    def test_no_sources(self) -> None:
        for source in (None, 7, io.StringIO('N.'), object()):
            with self.subTest(source), self.assertRaises(TypeError):
                picklestep.listing(source)  # type: ignore[arg-type]
            with self.subTest(source), self.assertRaises(TypeError):
                Session(source)  # type: ignore[arg-type]

    def test_without_files_in_memory(self) -> None:
        with tempfile.TemporaryDirectory() as folder, mock.patch.object(tempfile, 'tempdir', folder), mock.patch.object(os, 'memfd_create', None):
            del os.memfd_create
            self.assertEqual(len(picklestep.listing(LIST)), 7)
            with Session(LIST) as session:
                self.assertEqual((session.insert(0, 'MARK'), session.undo(), session.bytes()), (0, 0, LIST))
            self.assertEqual(os.listdir(folder), [])

    def test_a_file_that_is_saved_to_is_not_open(self) -> None:
        """Where it has a name: Windows lets no program replace an open file."""
        with mock.patch('picklestep.sources.opens_descriptors', return_value=False):
            with OwnFile(is_saved_to=True) as file:
                self.assertEqual((open_files(), stat.S_IMODE(os.stat(file.path).st_mode)), (self.before[1], 0o600))
            self.assertFalse(os.path.exists(file.path))
            with Session(LIST) as session:
                self.assertEqual((session.insert(0, 'MARK'), session.bytes()), (0, b'(' + LIST))

    def test_a_file_that_goes_on(self) -> None:
        class Endless:
            given = 0

            def read(self, size: int) -> bytes:
                self.given += 1
                return b'N' * size

        endless = Endless()
        with mock.patch('picklestep.sources.LIMIT', 4 * MB), Input(endless) as given:
            self.assertEqual(os.stat(given.path).st_size, 4 * MB + 1)


class Opened(LeavesNothing):
    """Paths of what this process was given open, which no other process has, and of what gives its bytes once."""

    ASKED = (("calls({})[1].text", "call 'posix' 'system' ('id') as #3"), ("listing({})[4].name", 'REDUCE'), ("objects({})[3].kind", 'call'),
             ("source({}).text.count('system(')", 1), ("tree({}).how", 'call'), ("Session({}).run().place", 6))

    def test_a_pipe(self) -> None:
        for more in ('', ', timeout=600'):
            for asked, wanted in self.ASKED:
                with self.subTest(asked + more), pipe(HOSTILE) as path:
                    self.assertEqual(eval(f'picklestep.{asked.format(repr(path) + more)}'), wanted)

    def test_standard_input(self) -> None:
        """By a pipe and as a file, also behind a link."""
        ways = [(path, way) for path in ('/dev/stdin', '/dev/fd/0', 'link') for way in ('cat a.pickle | {}', '{} < a.pickle')]
        with tempfile.TemporaryDirectory() as folder:
            Path(folder, 'a.pickle').write_bytes(HOSTILE)
            Path(folder, 'link').symlink_to('/dev/stdin')
            for number, ((path, way), (asked, wanted)) in enumerate(zip(ways, self.ASKED)):
                asked = asked.format(f'{path!r}, timeout={60 if number % 3 else None}')
                self.assertEqual(shell(folder, way, '-c', f'import picklestep; print(picklestep.{asked})'), f'{wanted}\n', (way, asked))
                said = shell(folder, way, '-m', 'picklestep', 'source', path).splitlines()
                self.assertEqual(said[1:], ['from posix import system  # 0', "_3 = system('id')  # 23", 'result = _3'], (way, path))

    def test_other_names_of_them(self) -> None:
        with tempfile.TemporaryDirectory() as folder:
            Path(folder, 'link').symlink_to('/dev/fd')
            for path, wanted in ((f'{folder}/link/0', True), ('/proc/self/fd/0', os.path.isdir('/proc/self')), ('/dev/fd/0x', False),
                                 ('/proc/thread-self/fd/0', os.path.isdir('/proc/self')), (f'/proc/{os.getpid()}/fd/0', True),
                                 (f'/proc/{os.getppid()}/fd/0', False), (f'{folder}/fd/0', False)):
                self.assertEqual(is_opened(path), wanted, path)

    def test_a_large_one(self) -> None:
        """It is not asked about in this process."""
        data = b'N' * (2 * library.MOST_BYTES) + b'.'
        with tempfile.TemporaryDirectory() as folder:
            Path(folder, 'a.pickle').write_bytes(data)
            for way in ('cat a.pickle | {}', '{} < a.pickle'):
                self.assertEqual(shell(folder, way, '-m', 'picklestep', 'diff', 'a.pickle', '/dev/stdin'), '', way)
                self.assertEqual(shell(folder, way, '-c', 'import picklestep; print(len(picklestep.listing("/dev/stdin")))'), f'{len(data)}\n', way)

    def test_what_is_asked_several_times(self) -> None:
        """Names of Python 2, and where an opcode is refused."""
        for opened in (pipe, fifo):
            with opened(b'c__builtin__\nlen\n.') as path:
                self.assertEqual(picklestep.tree(path), picklestep.Global(b'builtins', b'len'))
            with opened(b'N0.') as path:
                self.assertEqual(picklestep.calls(path).end.offset, 2)

    def test_a_fifo_without_a_writer(self) -> None:
        with tempfile.TemporaryDirectory() as folder:
            path = Path(folder, 'fifo')
            os.mkfifo(path)
            for ask in (picklestep.tree, picklestep.calls):
                with self.assertRaises(TimedOut):
                    ask(path, timeout=0.5)


class Errors(LeavesNothing):
    """Each way in which the program gives no answer."""

    def test_a_file_that_is_not_there(self) -> None:
        for ask in (picklestep.listing, picklestep.objects, picklestep.calls, Session):
            with self.assertRaises(FileNotFoundError) as caught:
                ask('/not/there')
            self.assertEqual((caught.exception.filename, caught.exception.strerror), ('/not/there', 'No such file or directory'))
        with self.assertRaises(IsADirectoryError):
            picklestep.listing('/')

    def test_too_large(self) -> None:
        with tempfile.NamedTemporaryFile() as file:
            os.truncate(file.name, (1 << 30) + 1)
            for ask in (picklestep.listing, picklestep.objects, picklestep.calls):
                with self.assertRaises(TooLarge) as caught:
                    ask(file.name)
                self.assertEqual((caught.exception.words, caught.exception.status), ('too large', 2))

    def test_a_limit_of_memory(self) -> None:
        data = b'N' * (4 * MB) + b'.'
        for ask in (picklestep.objects, Session):
            with self.assertRaises(OutOfMemory) as caught:
                ask(data, memory=64 * MB)
            self.assertEqual((caught.exception.words, caught.exception.status), ('out of memory', 2))
        self.assertEqual(len(picklestep.objects(b'N.', memory=64 * MB)), 1)
        sizes = (1, MB // 2, MB, MB + 1, 5 * MB // 4, 2 * MB, 3 * MB, *range(3_100 << 10, 3_160 << 10, 4 << 10))
        for size in chosen(sizes, 6):
            for ask in (picklestep.calls, picklestep.listing, Session):
                with self.subTest(size, ask=ask):
                    try:
                        ask(data[-70_000:], memory=size)
                        self.assertGreater(size, MB)  # (the static program needs less than others)
                    except OutOfMemory as error:
                        self.assertEqual(str(error), 'out of memory')

    def test_many_open_marks(self) -> None:
        """What is read of a listing has no blanks for them."""
        begun = time.process_time()
        for ask in (picklestep.listing, picklestep.source):
            self.assertEqual(ask(b'(' * 1_000_000).end.offset, 1_000_000)
        self.assertEqual(picklestep.listing(b'(' * 60_000)[-1].marks, 59_999)
        refused = b'(' * 60_000 + b'R.'
        for ends in (picklestep.objects(refused).end, picklestep.calls(refused).end):
            self.assertEqual((ends.code, ends.offset), ('S2', 60_000))
        self.assertLess(time.process_time() - begun, 30)

    def test_a_limit_that_a_session_meets(self) -> None:
        with Session(b'N0' * 900_000 + b'N.', memory=160 * MB) as session:
            with self.assertRaises(picklestep.Refused) as caught:
                session.goto(1_800_000)
            self.assertEqual(caught.exception.text, 'M out of memory')
            self.assertEqual((session.where().place, session.goto(10)), (0, 10))

    def test_a_limit_that_is_too_small_for_the_program(self) -> None:
        with self.assertRaises(ProgramError):
            picklestep.objects(b'N.', memory=100_000)

    def test_a_program_that_is_not_there(self) -> None:
        with mock.patch.dict(os.environ, PICKLESTEP_PROGRAM='/not/there'):
            for ask in (picklestep.calls, Session):
                with self.assertRaises(ProgramError):
                    ask(b'N.')

    def test_the_newer_program_of_a_source_tree(self) -> None:
        with tempfile.TemporaryDirectory() as folder, mock.patch('picklestep.place._HERE', f'{folder}/python/picklestep'), \
                mock.patch.dict(os.environ):
            os.environ.pop('PICKLESTEP_PROGRAM', None)
            released, built = (Path(folder) / place / 'picklestep' for place in ('dist/linux-x86_64-static', 'crates/picklestep/out'))
            for path, seconds in ((released, 1000), (built, 2000)):
                path.parent.mkdir(parents=True)
                path.touch()
                os.utime(path, (seconds, seconds))
            self.assertEqual(find_program(), str(built))
            os.utime(released, (3000, 3000))
            self.assertEqual(find_program(), str(released))
            released.unlink()
            self.assertEqual(find_program(), str(built))
            built.unlink()
            with self.assertRaises(ProgramError):
                find_program()

    def test_words_that_are_no_task(self) -> None:
        with self.assertRaises(ProgramError) as caught:
            Session(b'N.', window=0)
        self.assertEqual(caught.exception.status, 2)

    def test_a_program_that_is_killed(self) -> None:
        with Session(LIST, timeout=600) as session:
            session.step()
            process, = children() - self.before[0]
            os.kill(process, signal.SIGKILL)
            with self.assertRaises(ProgramError) as caught:
                session.step()
            self.assertEqual((caught.exception.signal, caught.exception.status), (signal.SIGKILL, None))
            with self.assertRaises(ValueError):
                session.step()

    def test_a_program_that_ends_by_a_signal(self) -> None:
        with program('kill -SEGV $$\n'), self.assertRaises(ProgramError) as caught:
            picklestep.listing(b'N.')
        self.assertEqual(caught.exception.signal, signal.SIGSEGV)

    def test_a_program_that_says_nothing(self) -> None:
        with program('exec sleep 60\n'):
            start = time.monotonic()
            with self.assertRaises(TimedOut):
                picklestep.listing(b'N.', timeout=0.2)
            with self.assertRaises(TimeoutError):
                Session(b'N.', timeout=0.2)
            self.assertLess(time.monotonic() - start, 50)

    def test_timeouts_that_are_none(self) -> None:
        with program('exec sleep 60\n'):
            for timeout in (-3, -0.001, float('nan'), float('inf'), 1e12, 2_147_484):
                for ask in (picklestep.calls, picklestep.listing, picklestep.objects, picklestep.form, picklestep.source, picklestep.tree, Session,
                            lambda source, timeout: picklestep.compare(source, source, timeout=timeout)):
                    with self.assertRaisesRegex(ValueError, f'timeout is in seconds, from 0 to 2,147,483: {timeout} is not'):
                        ask(b'N.', timeout=timeout)
            self.assertRaises(TimedOut, picklestep.calls, b'N.', timeout=0)
        self.assertEqual(picklestep.listing(b'N.', timeout=2_147_483).end.how, 'stopped')
        self.assertTrue(Session(b'N.', timeout=2_147_483).run().place)

    def test_a_listing_that_does_not_end(self) -> None:
        """The offset of a refused opcode is looked for within the time that is left."""
        said = subprocess.run([find_program(), 'calls', '--json', '/dev/stdin'], input=b'0.', stdout=subprocess.PIPE).stdout.decode()
        with program(f"case $1 in list) exec sleep 60;; esac\ncat <<'END'\n{said}END\nexit 1\n"):
            start = time.monotonic()
            with self.assertRaises(TimedOut):
                picklestep.calls(b'0.', timeout=0.3)
            self.assertLess(time.monotonic() - start, 50)

    def test_a_closed_session(self) -> None:
        session = Session(LIST)
        session.close()
        session.close()
        for action in (session.step, session.where, session.bytes, session.items):
            with self.assertRaises(ValueError):
                action()

    def test_an_interrupted_question(self) -> None:
        with Session(LIST, timeout=600) as session:
            with mock.patch('os.read', side_effect=KeyboardInterrupt), self.assertRaises(KeyboardInterrupt):
                session.step()
            with self.assertRaises(ValueError):  # the answer to that step was never read
                session.step()


class NothingLeft(LeavesNothing):
    """Nothing is left running, open, or on the disk."""

    def test_after_an_exception(self) -> None:
        with contextlib.suppress(ZeroDivisionError), Session(LIST) as session:
            session.step()
            1 // 0

    def test_a_session_that_nobody_closes(self) -> None:
        with warnings.catch_warnings():
            warnings.simplefilter('error')
            session = Session(LIST)
            session.step()
            del session
            gc.collect()

    def test_after_a_kill_of_the_interpreter(self) -> None:
        code = ('import sys, time, picklestep.program as p\n'
                'process = p.Process(["list"])\nprint(process._popen.pid, flush=True)\ntime.sleep(60)\n')
        with program('exec sleep 60\n'):
            self.check_kill(code)

    def test_after_a_kill_with_a_session(self) -> None:
        self.check_kill('import sys, time, picklestep\nsession = picklestep.Session(b"N.", timeout=600)\n'
                        'print(session._talk._process._popen.pid, flush=True)\ntime.sleep(60)\n')

    def check_kill(self, code: str) -> None:
        """The program ends when the interpreter that started it is killed."""
        environment = {**os.environ, 'PYTHONPATH': str(PACKAGE)}
        with subprocess.Popen([sys.executable, '-c', code], stdout=subprocess.PIPE, env=environment) as interpreter:
            assert interpreter.stdout is not None
            process = int(interpreter.stdout.readline())
            self.assertTrue(is_running(process))
            interpreter.kill()
            interpreter.wait()
        for _ in range(2000):
            if not is_running(process):
                break
            time.sleep(0.05)
        self.assertFalse(is_running(process))

    def test_when_the_interpreter_ends(self) -> None:
        code = 'import picklestep\nsession = picklestep.Session(b"N.", timeout=600)\nprint(session._talk._process._popen.pid)\n'
        run = subprocess.run([sys.executable, '-W', 'error', '-c', code], stdout=subprocess.PIPE, stderr=subprocess.PIPE, check=True,
                             env={**os.environ, 'PYTHONPATH': str(PACKAGE)})
        self.assertEqual(run.stderr, b'')
        self.assertFalse(is_running(int(run.stdout)))

    def test_a_hundred_thousand_commands(self) -> None:
        with Session(b'N0' * 10 + b'N.') as session:
            session.goto(10)
            for _ in range(2000):
                session.step(), session.back()
            memory, files = memory_of(), open_files()
            for _ in range(49_000):
                session.step()
                session.back()
            for _ in range(500):
                session.insert(12, 'NONE')
                session.undo()
                session.items()
                session.where()
            self.assertEqual(open_files(), files)
            self.assertLess(memory_of() - memory, 2 * MB)

    def test_a_thousand_runs(self) -> None:
        for _ in range(200):
            picklestep.calls(LIST)
        files = open_files()
        for _ in range(300):
            picklestep.calls(LIST)
        self.assertEqual(open_files(), files)


def memory_of() -> int:
    """How many bytes of this process lie in memory."""
    gc.collect()
    return int(Path('/proc/self/statm').read_text().split()[1]) * resource.getpagesize()


class Untold(unittest.TestCase):
    """Where the system neither tells nor limits what processor time a program takes."""

    def setUp(self) -> None:
        for module, name in ((running, 'resource'), (took, 'resource'), (running, '_HAS_POLL'), (running, '_HAS_LIMITS')):
            patch = mock.patch.object(module, name, None)
            patch.start()
            self.addCleanup(patch.stop)

    def test_the_time_counts_that_it_is_waited_for(self) -> None:
        before = seconds_of_programs()
        with program('sleep 0.3\necho answer\n'):
            self.assertEqual(b''.join(Process(['list']).blocks()), b'answer\n')
            self.assertEqual(Process(['list']).communicate(None, None), b'answer\n')
        self.assertGreater(seconds_of_programs() - before, 0.5)

    def test_the_clock_ends_it(self) -> None:
        self.assertEqual([time_to_wait(seconds) - time_to_wait(0) for seconds in (-1, 1, 60)], [0, 1, 60])


class OverNode(unittest.TestCase):
    def setUp(self) -> None:
        environment = {'PICKLESTEP_PROGRAM': '/nowhere/picklestep.mjs', **dict.fromkeys(place.NOT_FOR_NODE, '/nowhere')}
        for patch in (mock.patch.dict(os.environ, environment), mock.patch('picklestep.place.node_path', return_value='/nowhere/node')):
            patch.start()
            self.addCleanup(patch.stop)

    def test_no_certificates_and_options_are_read(self) -> None:
        for memory in (None, 64 * MB):
            with mock.patch('picklestep.program.subprocess.Popen', side_effect=OSError) as started, self.assertRaises(ProgramError):
                picklestep.calls(b'N.', timeout=5, memory=memory)
            given = started.call_args[1]['env']
            self.assertFalse(given.keys() & place.NOT_FOR_NODE)
            self.assertEqual('PICKLESTEP_MEMORY' in given, memory is not None)

    def test_nor_where_the_program_is_handed_over(self) -> None:
        with mock.patch('picklestep.entrance._become', side_effect=lambda command: len(os.environ.keys() & place.NOT_FOR_NODE)), \
                tempfile.NamedTemporaryFile() as file:
            file.write(LIST)
            file.flush()
            self.assertEqual(entrance.main(['list', file.name]), 0)  # (nothing else is said of a pickle)
        self.assertIn(f'unset {" ".join(place.NOT_FOR_NODE)} ', Path(entrance.__file__).with_name('help').joinpath('start.sh').read_text())


class Answers(unittest.TestCase):
    """A long answer."""

    def test_a_million_opcodes(self) -> None:
        data = b'K\x070' * 500_000 + b'N.'
        answer = picklestep.listing(data)
        count = sum(1 for opcode in answer if opcode.name == 'BININT1' and opcode.argument == 7)
        self.assertEqual((count, len(answer), answer[-1].name), (500_000, 1_000_002, 'STOP'))
        kept = sys.getsizeof(answer.json) + sys.getsizeof(answer._starts)
        self.assertLess(kept / len(answer), 300)


class CommandLine(unittest.TestCase):
    """`python -m picklestep` gives the program its words."""

    def test_words_of_the_program(self) -> None:
        with tempfile.NamedTemporaryFile() as file:
            file.write(LIST)
            file.flush()
            wanted = subprocess.run([find_program(), 'list', file.name], stdout=subprocess.PIPE, check=True).stdout
            run = subprocess.run([sys.executable, '-m', 'picklestep', 'list', file.name], stdout=subprocess.PIPE, check=True,
                                 env={**os.environ, 'PYTHONPATH': str(PACKAGE)})
            self.assertEqual(run.stdout, wanted)


if __name__ == '__main__':
    unittest.main()
