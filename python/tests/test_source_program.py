"""The source that the program writes, as `source --full` prints it: running it gives what loading the pickle gives."""

from __future__ import annotations

import ast
import subprocess
import tempfile
import unittest
from dataclasses import dataclass
from typing import Iterator, List
from unittest import mock

import picklestep
import test_source
from picklestep.place import find_program, program_words
from picklestep.records import End
from pickles import HOSTILE


@dataclass(frozen=True)
class Written:
    """What the program wrote, and how a listing says that reading ended."""

    text: str
    end: End

    def __iter__(self) -> Iterator[str]:
        return iter(self.text.splitlines())


def written(data: bytes, many: bool = False, unframed: bool = False) -> Written:
    modes = [mode for mode, is_given in (('--many', many), ('--unframed', unframed)) if is_given]
    with tempfile.NamedTemporaryFile() as file:
        file.write(data)
        file.flush()
        done = subprocess.run([*program_words(find_program()), 'source', *modes, file.name], stdout=subprocess.PIPE, timeout=600)
    end = picklestep.listing(data, many=many, unframed=unframed).end
    if done.returncode != (0 if end.is_stopped else 1):
        raise AssertionError(f'status {done.returncode}')
    return Written(done.stdout.decode('utf-8'), end)


class OfProgram(unittest.TestCase):
    """Cases of the package's own source, with that of the program in its place."""

    def setUp(self) -> None:
        patched = mock.patch.object(test_source, 'source', written)
        patched.start()
        self.addCleanup(patched.stop)


class Equality(OfProgram, test_source.Equality):
    """What the source makes is what the pickle makes."""

    test_names_of_results_are_taken = None  # type: ignore[assignment]  # (it is about the names that the package gives)


class Real(OfProgram, test_source.Real):
    """The same of pickles of libraries."""

    test_libraries = None  # type: ignore[assignment]  # (another Python loads them, by the package's own source)


class Reaching(OfProgram, test_source.Reaching):
    """Each statement that reaches out of the pickle has the offset that `calls` gives."""


class Shown(OfProgram):
    """How the source looks."""

    def test_hostile(self) -> None:
        self.assertEqual(written(HOSTILE).text.splitlines(), [
            '# What loading the pickle would do. Running this does the same.', 'from picklestep.running import *', 'from posix import system as system_0  # 0',
            "_3 = system_0('id')  # 23", 'result = _3'])

    def test_results_have_names_of_their_own(self) -> None:
        lines = written(b'N.K\x05.ca\nresult_2\n.ca\nresult\n.', many=True).text.splitlines()
        names = [line.partition(' = ')[0] for line in lines if ' = ' in line]
        self.assertEqual(names, ['result', 'result_2', 'result_3', '_3', 'result_4'])
        self.assertIn('from a import result_2 as result_2_2  # 5', lines)
        self.assertIn("_3 = find_class('a', 'result', protocol=0)  # 18", lines)

    def test_ends_early(self) -> None:
        for data, stack in ((b'(lp0\nI1\na', [[1]]), (b'K\x050', []), (b'', []), (b'K\x01ea.', [1]), (b'NK\x02X\x01\0\0\0a', [None, 2, 'a'])):
            with self.subTest(data):
                text = written(data).text
                self.assertTrue(text.startswith('# What loading the file would do first'), text)
                self.assertEqual(test_source.executed(text)['stack'], stack)

    def test_bytes_behind(self) -> None:
        self.assertEqual(written(b'N.abc').text.splitlines()[-2:], ['result = None', '# 3 bytes after STOP are not read'])

    def test_a_long_value_stands_once(self) -> None:
        data = b'(' + b'X\x64\0\0\0' + b'x' * 100 + b'q\0' + b'h\0' * 1000 + b't.'
        text = written(data).text
        self.assertLess(len(text), 10_000)
        self.assertEqual(test_source.executed(text)['result'], ('x' * 100,) * 1001)

    def test_minus_zero(self) -> None:
        """C's unpickler makes False of it."""
        self.assertIs(test_source.executed(written(b'I-0\n.').text)['result'], False)

    def test_each_statement_is_one_line(self) -> None:
        for data in some_pickles():
            text = written(data).text
            for line in text.splitlines():
                ast.parse(line)


def some_pickles() -> List[bytes]:
    """Real pickles, which are read and not run."""
    return [*test_source.real_pickles().values()][:60]


if __name__ == '__main__':
    unittest.main()
