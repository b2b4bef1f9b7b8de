"""Values at the prompt: conditions of breaks, what is displayed, and what `print` shows."""

from __future__ import annotations

import contextlib
import io
import os
import pickle
import re
import tempfile
import time
import unittest
from pathlib import Path
from typing import Any, Callable, Iterator, List, Tuple
from unittest import mock

from picklestep.shell.complete import completions
from picklestep.shell.expressions import NAMES, Expression, ExpressionError
from picklestep.shell.shell import Shell, WordError
from picklestep.shell.words import SAMPLE
from terminals import Terminal

DATA = [
    pickle.dumps({'a': [1, (2, 3, 'a')], 'b': {7: 'x', None: 2.5}}, protocol) for protocol in (0, 2, 4)] + [
    pickle.dumps([b'x', {3, 4}, frozenset([1]), -1.5], 4),
    pickle.dumps([[], [[1]], 'os', ['os', True, False, -1], bytearray(b'xy'), 1 << 70], 5), b'](K\1K\2e(K\3K\4K\5e0}K\1]s.']


def stacks(data: bytes) -> Iterator[Tuple[List[Any], int]]:
    """What Python's own unpickler has on its stack above the last mark before each opcode, and how many marks are open."""
    machine: Any = pickle._Unpickler(io.BytesIO(data))  # type: ignore[attr-defined]
    machine._unframer = pickle._Unframer(machine._file_read, machine._file_readline)  # type: ignore[attr-defined]
    machine.read, machine.readinto, machine.readline = machine._unframer.read, machine._unframer.readinto, machine._unframer.readline
    machine.metastack, machine.stack, machine.proto = [], [], 0
    machine.append = machine.stack.append
    with contextlib.suppress(pickle._Stop):  # type: ignore[attr-defined]
        while True:
            yield machine.stack, len(machine.metastack)
            machine.dispatch[machine.read(1)[0]](machine)


class Conditions(unittest.TestCase):
    """Breaks that stop where something is true."""

    def shell(self, data: bytes) -> Shell:
        shell = Shell(data, '')
        self.addCleanup(shell.pickle.close)
        return shell

    def stops(self, shell: Shell, line: str) -> List[int]:
        """The places at which a break stops, which are the same both ways. It is not asked at the start, and at the end there is no opcode."""
        shell.obey(line)
        ways: List[List[int]] = []
        for start, word in (('goto 0', 'run'), (f'goto {len(shell.pickle.lines)}', 'run back')):
            shell.obey(start)
            ways.append([])
            while shell.obey(word) and shell.pickle.session.where().place not in (0, len(shell.pickle.lines)):
                ways[-1].append(shell.pickle.session.where().place)
        self.assertEqual(ways[0], ways[1][::-1], line)
        shell.obey(f'clear {shell.obey("break").partition(":")[0]}')
        return ways[0]

    def test_the_top_is_that_of_python(self) -> None:
        """At each opcode, for each value that comes on top: equal, longer, with a member."""
        for data in DATA:
            shell, seen = self.shell(data), {}
            for stack, _ in stacks(data):
                if stack:
                    seen[repr(stack[-1])] = eval(repr(stack[-1]))
            self.assertGreater(len(seen), 5)
            for text, value in seen.items():
                wanted = [place for place, (stack, _) in enumerate(stacks(data)) if place and stack and stack[-1] == value]
                if not re.search(r'\w\(', text):  # (calls are no part of an expression)
                    self.assertEqual(self.stops(shell, f'break if top == {text}'), wanted, text)
            tests: List[Tuple[str, Callable[[Any], bool]]] = [
                ('len(top) > 1', lambda top: len(top) > 1), ("'a' in top", lambda top: 'a' in top), ('not top', lambda top: not top),
                ('1 < top <= 3', lambda top: 1 < top <= 3), ("top[0] == 'a' or top[7] != 1", lambda top: top[0] == 'a' or top[7] != 1)]
            for text, is_true in tests:
                wanted = []
                for place, (stack, _) in enumerate(stacks(data)):
                    with contextlib.suppress(TypeError, LookupError):
                        if place and stack and is_true(stack[-1]):
                            wanted.append(place)
                self.assertEqual(self.stops(shell, f'break if {text}'), wanted, text)
            marks = [place for place, (_, count) in enumerate(stacks(data)) if place and count == 2]
            self.assertEqual(self.stops(shell, 'break if marks == 2'), marks)

    def test_with_each_kind(self) -> None:
        shell = self.shell(SAMPLE)
        for line, wanted in (("break opcode BINPUT if top == 'bob'", [4]), ('break import oldapp.* if memo == 0', []), ('break 8 if top == (\'bob\', 3)', [8]),
                             ('break 8 if top == 3', []), ('break oldapp.tasks.send if 3 in top', [8]), ('break memo 2 if kind(top) == "tuple"', [7]),
                             ("break text ' if ' if place > 3", []), ('break text bob if opcode == "BINUNICODE"', [3]),
                             ('break if stack[0] == oldapp.tasks.send and len(stack) == 3', [6]), ('break if argument == 3', [5, 9]),
                             ('break if offset > 33 and not #1 != "bob"', [6, 7, 8, 9, 10]), ('break if #4 is top', [9, 10]),
                             ('break if memo[1] == "bob" and $pc < 7', [5, 6]), ('break if #9 == 1 or result == 2', [])):
            self.assertEqual(self.stops(shell, line), wanted, line)
        for line in ('goto 0', 'break if top == 7', "break 5 if top == 'bob'", 'over 9'):
            shell.obey(line)
        self.assertEqual(shell.pickle.session.where().place, 5)

    def test_behind_a_refused_opcode(self) -> None:
        shell = self.shell(b'K\1K\2aK\3.')
        shell.obey('break if top == 3')
        self.assertTrue(shell.obey('run').startswith('refused, S5'))
        self.assertEqual(shell.pickle.session.where().place, 2)

    def test_the_word_condition(self) -> None:
        shell = self.shell(SAMPLE)
        shell.obey('break opcode BINPUT')
        self.assertEqual(shell.obey("condition 1 top == 'bob'"), "1: opcode BINPUT if top == 'bob'")
        shell.obey('run')
        self.assertEqual(shell.pickle.session.where().place, 4)
        self.assertEqual((shell.obey('off 1'), shell.obey('condition 1 if place > 4')), ("1: opcode BINPUT if top == 'bob' (off)",
                                                                                        '1: opcode BINPUT if place > 4 (off)'))
        self.assertEqual((shell.obey('on 1'), shell.obey('condition 1')), ('1: opcode BINPUT if place > 4', '1: opcode BINPUT'))
        shell.obey('run')
        self.assertEqual(shell.pickle.session.where().place, 7)
        self.assertEqual(shell.obey('break if top == 3'), '2: if top == 3')
        for line in ('condition', 'condition 7 top', 'condition 2', 'condition 1 nothing'):
            with self.assertRaises(WordError):
                shell.obey(line)

    def test_what_is_no_expression(self) -> None:
        """It is refused when it is typed, and nothing of it is run."""
        shell = self.shell(SAMPLE)
        texts = ['', 'top ==', 'nothing', 'top = 3', "__import__('os').system('touch x')", 'len()', 'len(top, top)', 'len(x=top)', 'open("x")', 'top.append(3)',
                 'lambda: 1', '[each for each in stack]', 'top if top else 1', 'top + 1', 'f"{top}"', '(yield)', 'top[1:2]', '#', 'top #', "'a", 'object', '*top',
                 '(' * 2000, '-' * 997 + '1', 'top' + ' == top' * 400, '[' * 300 + ']' * 300, 'len.x()', "'a'.join(stack)", '(top).x', 'await top', 'top; top', 'top\x00']
        shell.obey('break 3')
        with mock.patch('builtins.open', side_effect=AssertionError), mock.patch('os.system', side_effect=AssertionError):
            for text in texts:
                for line in (f'break if {text}', f'condition 1 {text}', f'print {text}', f'display ({text})'):
                    if text or line.startswith('break'):
                        with self.subTest(line[:60]), self.assertRaises(WordError):
                            shell.obey(line)
        self.assertEqual(shell.obey('display'), 'nothing is displayed')

    def test_values_that_are_not_there(self) -> None:
        """Then a condition is not true."""
        shell = self.shell(b'(](h\0.')
        for text in ('top < 1', 'memo[3]', '#5 == 1', 'result', 'stack[7]', 'len(1)', '-top', '#0 < 3', 'top[0]', 'argument[0]', '{#0: 1}', '{**memo}'):
            shell.obey('goto 1')
            with self.assertRaises(ExpressionError, msg=text):
                Expression(text).value(shell.pickle)
            self.assertFalse(Expression(text).is_true(shell.pickle))
        self.assertEqual([shell.obey(f'print kind({each})') for each in ('stack[0]', 'stack', 'memo')], ["'mark'", "'stack'", "'memo'"])
        self.assertEqual(shell.obey('print stack[0]'), 'mark of 0')

    def test_what_holds_itself_or_much(self) -> None:
        shell = self.shell(b']q\0h\0a(' + b'K\7' * 30_000 + b'l]q\1h\1a.')
        shell.obey('run')
        for text, value in (('#0 == #0', 'True'), ('#0 == #30001', 'False'), ('#0 == [1]', 'False'), ('len(#0)', '1'), ('#30000 == [7]', 'False'),
                            ('#0[0] == 3', 'False'), ('#1 == #2', 'True'), ('#1 in (6, 7)', 'True')):
            self.assertEqual(shell.obey(f'print {text}'), value, text)
        with self.assertRaisesRegex(WordError, 'has no value here'):
            shell.obey('print len(#30000)')
        deep = b'K\1' + b'2\x86' * 60 + b'.'
        shell = self.shell(deep)
        shell.obey('goto 121')
        self.assertEqual(shell.obey('print kind(top)'), "'tuple'")

    def test_print(self) -> None:
        shell = self.shell(SAMPLE)
        shell.obey('goto 8')
        for text, wanted in (('top', shell.obey('show 3')), ('memo[1]', shell.obey('show 1')), ('stack', "#3 ('bob', 3) | #0 oldapp.tasks.send"),
                             ('memo', "2: #3 ('bob', 3) | 1: #1 'bob' | 0: #0 oldapp.tasks.send"), ('len(memo)', '3'), ('opcode', "'REDUCE'"), ('argument', 'None'),
                             ('$pc', '8'), ('offset', '38'), ('top[0]', "'bob'"), ('oldapp.tasks.send', 'oldapp.tasks.send'), ('-3', '-3'), ("b'#1'", "b'#1'"),
                             ("'#1' == #1", 'False'), ('top == (#1, #2)', 'True')):
            for word in ('print', 'p', 'show', 'p/x', 'print/d'):
                self.assertEqual(shell.obey(f'{word} {text}'), wanted, text)

    def test_names_that_are_completed(self) -> None:
        shell = self.shell(SAMPLE)
        for before in ('print ', 'display ', 'break if ', 'break 3 if not ', 'condition 1 '):
            self.assertEqual(completions(shell.pickle, before), list(NAMES), before)
        self.assertEqual((completions(shell.pickle, 'break call * if ar'), completions(shell.pickle, 'rev'), completions(shell.pickle, 'undis')),
                         (['argument'], ['reverse-step', 'reverse-stepi', 'reverse-next', 'reverse-nexti', 'reverse-continue'], ['undisplay']))


class Displays(unittest.TestCase):
    """What is shown at each stop."""

    def test_displays(self) -> None:
        with Shell(SAMPLE, '') as shell:
            self.assertEqual(shell.obey('display top'), '1: top has no value here')
            self.assertEqual(shell.obey('display hex . 2'), '2: hex . 2\n' + shell.obey('hex . 2'))
            for line, top in (('goto 4', "#1 'bob'"), ('step', "#1 'bob'"), ('n', '#2 3'), ('back', "#1 'bob'"), ('until 7', "#3 ('bob', 3)")):
                rows = shell.obey(line).split('\n')
                self.assertEqual(rows[-3:], [f'1: top = {top}', '2: hex . 2', shell.obey('hex . 2')], line)
            self.assertEqual(shell.obey('display').split('\n')[0], "1: top = #3 ('bob', 3)")
            self.assertEqual(shell.obey('info display'), shell.obey('display'))
            for line in ('where', 'stack', 'list'):
                self.assertNotIn('1: top =', shell.obey(line))
            shell.obey('display stack')
            self.assertEqual(shell.obey('undisplay 2'), 'display 2 is gone')
            self.assertEqual(shell.obey('step').split('\n')[-2:], ["1: top = #3 ('bob', 3)", "3: stack = #3 ('bob', 3) | #0 oldapp.tasks.send"])
            for line in ('undisplay 2', 'display save x', 'display step', 'display display', 'display nothing', 'undisplay x'):
                with self.assertRaises(WordError):
                    shell.obey(line)
            self.assertEqual((shell.obey('undisplay'), shell.obey('display')), ('nothing is displayed', 'nothing is displayed'))
            self.assertTrue(shell.obey('step').split('\n')[-1].startswith('made:'))

    def test_what_somebody_from_gdb_deletes(self) -> None:
        with Shell(SAMPLE, '') as shell:
            shell.obey('break 3')
            self.assertIn('`clear 1` takes break 1 away', shell.obey('delete 1'))
            shell.obey('undo')
            self.assertNotIn('clear', shell.obey('delete 2'))
            before = shell.pickle.content()
            for line, instead in (('delete', '`clear N`'), ('frame', '`where`'), ('frame 0', '`where`'), ('set var x = 3', 'number of an object')):
                with self.assertRaisesRegex(WordError, f'^it is: .*{instead}'):
                    shell.obey(line)
            self.assertEqual(shell.pickle.content(), before)

    def test_short_words_of_gdb(self) -> None:
        with Shell(SAMPLE, '') as one, Shell(SAMPLE, '') as other:
            for line, same in (('break 3', 'break 3'), ('dis 1', 'off 1'), ('en 1', 'on 1'), ('i b', 'break'), ('j 4', 'goto 4'), ('goto 0', 'goto 0'),
                               ('set var 2 = 41', 'set 2 to 41'), ('set #2=5', 'set 2 to 5')):
                self.assertEqual(one.obey(line), other.obey(same), line)
            self.assertEqual(one.pickle.content(), other.pickle.content())

    def test_words_of_gdb_that_are_none(self) -> None:
        """What does something of the kind is named."""
        with Shell(SAMPLE, '') as shell:
            for word, instead in (('tbreak 3', 'until'), ('tb 3', 'until'), ('commands 1', 'display'), ('ignore 1 2', 'condition'), ('d 1', 'clear'), ('up', 'stack')):
                with self.assertRaisesRegex(WordError, f'there is no word .*: .*`{instead}'):
                    shell.obey(word)
            shell.obey('goto 8')
            self.assertEqual(shell.obey('display/i $pc'), '1: list $pc +1\n' + shell.obey('list . +1'))
            self.assertEqual((shell.obey('display/x top'), shell.obey('print/2i $pc')), ("2: top = #3 ('bob', 3)", shell.obey('list . +2')))
            self.assertIn('info breakpoints', shell.obey('help info'))

    def test_watch(self) -> None:
        with Shell(SAMPLE, '') as shell:
            self.assertEqual([shell.obey(line) for line in ('watch #3', 'watch 3', 'watch memo[2]', 'watch memo 2 if place > 3', 'list 2,4')][:4],
                             ['1: change 3', '2: change 3', '3: store 2', '4: store 2 if place > 3'])
            self.assertEqual(shell.obey('list 2,4'), shell.obey('list 2 4'))


class Again(unittest.TestCase):
    """A session that was ended within an answer, as Ctrl-C does it where a process of its own has it."""

    def test_opened_again(self) -> None:
        with tempfile.TemporaryDirectory() as folder:
            path = os.path.join(folder, 'a.pickle')
            Path(path).write_bytes(SAMPLE)
            with Shell(path, path) as shell:
                for line in ('set 2 to 4', "set 1 to 'x'", 'undo', 'break 8', 'goto 6', 'display top'):
                    shell.obey(line)
                shell.settled()
                before = shell.obey('where'), shell.obey('list 0'), shell.obey('break'), shell.obey('display')
                for _ in range(2):
                    shell.pickle.session.close()
                    self.assertFalse(shell.is_open)
                    shell.pickle.reopen()
                    self.assertTrue(shell.is_open)
                    self.assertEqual((shell.obey('where'), shell.obey('list 0'), shell.obey('break'), shell.obey('display')), before)
                with self.assertRaisesRegex(WordError, 'C7'):
                    shell.obey('redo')
                self.assertIn('undone 5', shell.obey('undo'))
                self.assertEqual(shell.pickle.content(), SAMPLE)
                shell.obey('set 2 to 5')
                shell.obey('save')
            self.assertEqual(Path(path).read_bytes(), SAMPLE.replace(b'K\x03', b'K\x05'))

    def test_ctrl_c_in_a_process_of_its_own(self) -> None:
        """At a terminal: the edits, the breaks and the place are still there."""
        size = 17 << 20  # (so many bytes that the session is no part of the shell's process)
        data = b'](B' + size.to_bytes(4, 'little') + bytes(size) + b'K\7' * 400_000 + b'e.'
        with tempfile.TemporaryDirectory() as folder:
            Path(folder, 'a.pickle').write_bytes(data)
            terminal = Terminal(['a.pickle'], folder)
            self.addCleanup(terminal.process.kill)
            terminal.until('(pickle) ', seconds=600)
            terminal.type('set 2 to 8')
            terminal.type('goto 3')
            terminal.type('break if top == 10')
            os.write(terminal.master, b'run\n')
            time.sleep(3)
            os.write(terminal.master, b'\x03')
            terminal.until('(pickle) ', seconds=600)
            self.assertEqual(terminal.type('break'), '1: if top == 10')
            self.assertIn(f'>       3 {size + 7}:', terminal.type('list 0 4'))
            self.assertIn('BININT1 8', terminal.type('list 3 3'))
            os.write(terminal.master, b'quit\n')
            terminal.until('(yes/no) ')
            os.write(terminal.master, b'yes\n')
            self.assertEqual(terminal.process.wait(600), 0)


if __name__ == '__main__':
    unittest.main()
