"""`reach`: no loader comes to an import where it says that none does, and where it says that one may there is one in known examples."""

import io
import os
import pickle
import random
import subprocess
import sys
import tempfile
import unittest
import zipfile
from ast import literal_eval
from pathlib import Path
from typing import Any, BinaryIO, Callable, Iterator, List, Type

import picklestep
from pickles import chosen
from picklestep import library
from picklestep.program import run_program

SYSTEM = b'cposix\nsystem\n'
# Pieces of pickles: what loaders take to an import of os.getcwd, what they drop, and frames that do not fit.
_WHOLE = [b'N', b'K\x01', b')', b']', b'}', b'0', b'(', b'1', b'.', b'2', b'I1\n', b'L1 L\n', b'VX\n', b'\x94', b'cos\ngetcwd\n', b'(ios\ngetcwd\n', b'\x8c\x02os\x8c\x06getcwd\x93']
_TEXTS = [b'X', b'B', b'T', b'\x8e', b'\x96', b'\x8d', b'\x8c', b'C', b'U', b'V', b'c', b'S']


class _Reached(Exception):
    """An import."""


def _loader(kind: Type[Any]) -> Callable[[BinaryIO], Any]:
    """An unpickler that imports nothing, and says that it would."""

    class Loader(kind):  # type: ignore[misc]
        def find_class(self, module: str, name: str) -> Any:
            if module == 'os':
                raise _Reached
            raise ImportError(module)

    return Loader


C, PYTHON = _loader(pickle.Unpickler), _loader(pickle._Unpickler)


def _reaches(loader: Callable[[BinaryIO], Any], file: BinaryIO) -> bool:
    """Whether an unpickler comes to the import that loads again and again, as long as it can."""
    try:
        for _ in range(20):
            loader(file).load()
    except _Reached:
        return True
    except Exception:
        pass
    return False


def _random_bytes(chance: random.Random) -> bytes:
    made = bytearray()
    for _ in range(chance.randrange(2, 14)):
        kind = chance.random()
        if kind < 0.25:
            made += b'\x95' + chance.choice([chance.randrange(40), chance.randrange(9000)]).to_bytes(8, 'little')
        elif kind < 0.4:
            code = chance.choice(_TEXTS)
            made += code + chance.choice([b'', bytes([chance.randrange(30)]), chance.randrange(30).to_bytes(4, 'little'), b'\x05' + bytes(7)])
        elif kind < 0.45:
            made += b'N0' * chance.choice([5, 4090, 4095])
        else:
            made += chance.choice(_WHOLE)
    return bytes(made)


class Loaders(unittest.TestCase):
    """Beside CPython's unpicklers, from bytes and from files that show some bytes ahead, or none."""

    def files(self, content: bytes) -> Iterator[BinaryIO]:
        yield io.BytesIO(content)
        with tempfile.TemporaryDirectory() as folder:
            path = Path(folder, 'pickle')
            path.write_bytes(content)
            for buffering in (0, 16, 8192):
                with open(path, 'rb', buffering=buffering) as file:
                    yield file

    def test_no_loader_reaches_what_none_does(self) -> None:
        chance, counts = random.Random(11), [0, 0]
        for _ in chosen(range(2000), 400):
            content = _random_bytes(chance)
            answer = picklestep.reach(content)
            for file in self.files(content):
                for loader in (C, PYTHON):
                    file.seek(0)
                    reached = _reaches(loader, file)
                    counts[reached] += 1
                    self.assertFalse(reached and not answer, content)
        self.assertGreater(min(counts), 100)

    def test_a_mix_of_frames(self) -> None:
        """The first frame is dropped, and the second is shown."""
        content = b'\x95\xf8\x1f' + bytes(6) + b'N0' * 4090 + b'X' + b'\xff\xff\xff\x01\0\0\0a0' + b'\x95\x03' + bytes(7) + b'NX\x01\0\0\0a00cos\ngetcwd\n)R.'
        with tempfile.TemporaryDirectory() as folder:
            path = Path(folder, 'pickle')
            path.write_bytes(content)
            with open(path, 'rb', buffering=8192) as file:
                self.assertTrue(_reaches(C, file))
        answer = picklestep.reach(content)
        self.assertEqual((answer.offset, answer.line), (content.index(b'cos'), "GLOBAL 'os' 'getcwd'"))


# Modules in folders and in an archive, each of which says that it runs; and what asks for some of them as a pickle does.
_FILES = ('alone.py', 'package/__init__.py', 'package/part.py')
_PACKED = ('packed/__init__.py', 'packed/part.py')
_SAYS = 'import builtins; builtins.ran.append(__name__)'
_IMPORTS = """
import ast, builtins, io, pickle, sys
sys.path[:0] = sys.argv[1:3]
for content in ast.literal_eval(sys.stdin.read()):
    for kind in pickle.Unpickler, pickle._Unpickler:
        builtins.ran, before = [], set(sys.modules)
        try:
            kind(io.BytesIO(content)).load()
        except Exception:
            pass
        for name in set(sys.modules) - before:
            del sys.modules[name]
        print(builtins.ran)
"""


class Imports(unittest.TestCase):
    """What Python imports of a name before it raises."""

    # What is imported of each name first, and whether `reach` takes it for a module's.
    NAMES = (
        (b'alone', 'alone', True), (b'alone.a b', 'alone', True), (b'alone.', 'alone', True), (b'alone. ', 'alone', True), (b'alone.a/b', 'alone', True),
        (b'alone.\0', 'alone', True), (b'package.part.a b', 'package', True), (b'package..part', 'package', True), (b'package.a,b.c', 'package', True),
        (b'.alone', '.alone', True), (b'.alone.a b', '.alone', True), (b'packed/part', 'packed/part', True), (b'packed/part.a b', 'packed/part', True),
        (b'packed/__init__', 'packed/__init__', True), (b'alone ', '', False), (b'alone .x', '', False), (b'alone\r', '', False),
        (b'a b.alone', '', False), (b' alone', '', False), (b'alone:x.y', '', False), (b'', '', False), (b'package/part', '', True), (b'alone\\x', '', True))

    def test_what_stands_before_a_point_is_imported(self) -> None:
        asked = [content for name, _, _ in self.NAMES for content in (b'c' + name + b'\n \n.', b'U' + bytes([len(name)]) + name + b'U\x01 \x93.')]
        with tempfile.TemporaryDirectory() as folder:
            for path in _FILES:
                Path(folder, path).parent.mkdir(exist_ok=True)
                Path(folder, path).write_text(_SAYS, encoding='ascii')
            packed = Path(folder, 'packed.zip')
            with zipfile.ZipFile(packed, 'w') as archive:
                for path in _PACKED:
                    archive.writestr(path, _SAYS)
            done = subprocess.run([sys.executable, '-B', '-c', _IMPORTS, folder, packed], input=ascii(asked), stdout=subprocess.PIPE, text=True, check=True)
        ran = [*map(literal_eval, done.stdout.splitlines())]
        for number, (name, first, leads) in enumerate(self.NAMES):
            with self.subTest(name):
                self.assertEqual([each[:1] for each in ran[4 * number:4 * number + 4]], [[first] if first else []] * 4)
                self.assertEqual([bool(picklestep.reach(content)) for content in asked[2 * number:2 * number + 2]], [leads, leads])


class Answers(unittest.TestCase):
    """What is answered, and in which way it is asked."""

    def test_what_a_loader_was_given(self) -> None:
        for content, option in ((b'P1\n.', 'persistent_ids'), (b'NQ.', 'persistent_ids'), (b'\x82\x01.', 'extensions'), (b'\x97.', 'buffers')):
            with self.subTest(content):
                self.assertFalse(picklestep.reach(content))
                self.assertTrue(picklestep.reach(content, **{option: True}))
                others = {name: True for name in ('persistent_ids', 'extensions', 'buffers') if name != option}
                self.assertFalse(picklestep.reach(content, **others))

    def test_the_line(self) -> None:
        answer = picklestep.reach(b'N.' + SYSTEM)
        self.assertEqual((answer.reached, answer.offset, answer.line, answer.text, answer.what, answer.names),
                         (True, 2, "GLOBAL 'posix' 'system'", "reached at 2: GLOBAL 'posix' 'system'", 'import', (b'posix', b'system')))
        answer = picklestep.reach(b'NN\x93' + SYSTEM)
        self.assertEqual((answer.reached, answer.offset, answer.line, answer.text), (False, 2, '', 'nothing reached: every loader ends by 2, whatever follows'))
        self.assertEqual([picklestep.reach(content).whatever_follows for content in (b'NN\x93', b'N\0', b'NN', b'X\5\0\0\0a')], [True, True, False, False])

    def test_what_is_reached(self) -> None:
        for content, options, what, names in ((b'\x82\x01.', ['extensions'], 'extension', None), (b'P1\n.', ['persistent_ids'], 'persistent', None),
                                              (b'\x97.', ['buffers'], 'buffer', None), (b'ia/b\n\xff\n', [], 'import', (b'a/b', b'\xff')),
                                              (b'\x8c\x02os\x8c\x06system\x93.', [], 'import', None)):
            answer = picklestep.reach(content, **{option: True for option in options})
            self.assertEqual((answer.what, answer.names), (what, names))
            self.assertIn(answer.frames, ('ignored', 'buffered', 'held'))

    def test_too_many_ways(self) -> None:
        frames = b''.join(b'\x95' + (3390 - 11 * n).to_bytes(8, 'little') + b'N' for n in range(300))
        answer = picklestep.reach(frames + b'N' * 400 + b'.')
        self.assertEqual((answer.reached, answer.offset, answer.line), (True, None, ''))

    def test_the_program_and_the_library(self) -> None:
        for content in (b'', b'N.', SYSTEM, b'P1\n.', bytes(range(256)), b'N' * 200_000 + SYSTEM):
            with tempfile.NamedTemporaryFile() as file:
                file.write(content)
                file.flush()
                for granted in range(8):
                    words = [word for bit, word in ((1, '--extensions'), (2, '--persistent-ids'), (4, '--buffers')) if granted & bit]
                    for json in ([], ['--json']):
                        asked = [library.answer(['reach', *words, *json], content), *([library.reach(content, granted)] if json else [])]
                        found: List[bytes] = [answer for answer in asked if answer is not None]
                        self.assertEqual(found, [run_program(['reach', file.name, *words, *json])] * len(found))

    def test_a_file(self) -> None:
        """Also one that is larger than what is asked about in this process."""
        with tempfile.TemporaryDirectory() as folder:
            path = os.path.join(folder, 'numbers')
            Path(path).write_bytes(b'\x80\x04' + b'N0' * 1_000_000 + SYSTEM)
            self.assertEqual(picklestep.reach(path).offset, 2_000_002)
            self.assertEqual(picklestep.reach(path, timeout=600).offset, 2_000_002)


if __name__ == '__main__':
    unittest.main()
