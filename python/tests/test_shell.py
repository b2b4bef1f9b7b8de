"""The shell, as somebody has it who types at a terminal."""

from __future__ import annotations

import collections
import contextlib
import io
import os
import pickle
import pickletools
import random
import re
import signal
import subprocess
import sys
import tempfile
import time
import unittest
from pathlib import Path
from typing import List
from unittest import mock

import picklestep
from examples_of_pages import stories
from picklestep.opcodes import BY_NAME, TABLE
from picklestep.plain import PLAIN
from picklestep.shell.complete import completions
from picklestep.later import Later
from picklestep.shell.opened import Opened
from picklestep.shell.shell import Shell, WordError
from picklestep.shell.words import OTHERS, SAMPLE, WORDS, whole_word
from picklestep.document import Document
from pickles import ROOT, changed_pickles, chosen, real_pickles
from terminals import Terminal, heed_ctrl_c

_QUESTION = '(yes/no) '


class AtATerminal(unittest.TestCase):
    """Over a pseudo-terminal."""

    def setUp(self) -> None:
        folder = tempfile.TemporaryDirectory()
        self.addCleanup(folder.cleanup)
        self.folder = folder.name

    def begun(self, data: bytes, *words: str) -> Terminal:
        """A shell that is being opened. The last of the words is the file."""
        words = words or ('a.pickle',)
        Path(self.folder, words[-1]).write_bytes(data)
        terminal = Terminal([*words], self.folder)
        self.addCleanup(terminal.process.wait)
        self.addCleanup(terminal.process.kill)
        return terminal

    def opened(self, data: bytes, *words: str) -> Terminal:
        """A shell that waits for a line."""
        terminal = self.begun(data, *words)
        terminal.until('(pickle) ')
        return terminal

    def test_stories_of_the_page(self) -> None:
        found = list(stories())
        self.assertEqual(len(found), 4)
        for name, data, words, typed in found:
            self.assertEqual(words[-1], name)
            terminal = self.opened(data, *words)
            for line, wanted in typed:
                with self.subTest(name, line=line):
                    if _QUESTION in wanted:
                        question, _, rest = wanted.partition(_QUESTION)
                        answer, _, rest = rest.partition('\n')
                        self.assertEqual(terminal.type(line, _QUESTION), question)
                        self.assertEqual(terminal.type(answer) + '\n', rest)
                    else:
                        self.assertEqual(terminal.type(line), wanted.rstrip('\n'))
            self.assertEqual(terminal.close(), 0)
        self.assertEqual(Path(self.folder, 'fixed.pickle').read_bytes(), found[1][1].replace(b'oldapp', b'newapp'))
        self.assertEqual(pickle.loads(Path(self.folder, 'new.pickle').read_bytes()), {'user': 'bob', 'size': 2.5})
        self.assertEqual(Path(self.folder, 'new.pickle').read_bytes()[:2], b'\x80\x04')

    def test_help_and_the_example_of_each_word(self) -> None:
        names = list(WORDS)
        for first in range(0, len(names), 6):  # (they open together, which takes less time than one after another)
            terminals = [(name, self.begun(SAMPLE)) for name in names[first:first + 6]]
            for name, terminal in terminals:
                with self.subTest(name), Shell(SAMPLE, '') as shell:
                    wanted = [shell.obey(line) for line in WORDS[name].example]
                    self.assertIn(WORDS[name].page, shell.obey(f'help {name}'))
                    terminal.until('(pickle) ')
                    shown = [terminal.type(line) for line in WORDS[name].example]
                    self.assertEqual(shown, wanted)
                    self.assertEqual([answer for answer in shown if answer.startswith(('refused', 'there is no'))], [])
                    self.assertEqual(terminal.close() if name == 'quit' else 0, 0)

    def test_enter_and_history(self) -> None:
        terminal = self.opened(SAMPLE)
        self.assertIn('>       1 ', terminal.type('s'))
        self.assertIn('>       2 ', terminal.type(''))
        self.assertIn('there is no word', terminal.type('bogus'))
        terminal.type('quit')
        self.assertEqual(terminal.close(), 0)
        self.assertIn('bogus', Path(self.folder, 'picklestep', 'shell_history').read_text(encoding='utf-8'))
        self.assertEqual(os.stat(Path(self.folder, 'picklestep', 'shell_history')).st_mode & 0o077, 0)

    def test_tab_and_lines_of_the_run_before(self) -> None:
        """By readline: a word and a name are completed, and a key brings back what was typed before the shell was opened again."""
        terminal = self.opened(SAMPLE)
        self.assertIn('>       2 ', terminal.type('unt\t 2'))
        self.assertIn('call oldapp.tasks.send', terminal.type('break call old\t'))
        self.assertEqual((terminal.type('quit'), terminal.close()), ('', 0))
        history = Path(self.folder, 'picklestep', 'shell_history').read_text(encoding='utf-8').splitlines()
        self.assertEqual(history[-3:], ['until 2', 'break call oldapp.tasks.send', 'quit'])
        terminal = self.opened(SAMPLE)
        self.assertIn('>       2 ', terminal.type('\x10\x10\x10'))
        self.assertEqual((terminal.type('quit'), terminal.close()), ('', 0))

    def test_an_interrupted_answer(self) -> None:
        """Ctrl-C ends the answer and not the shell, also while it is shown: what was edited is still there."""
        terminal = self.opened(pickle.dumps([number % 256 for number in range(300_000)], 4))
        terminal.type('insert 5 NONE')
        terminal.type('where')
        for is_shown in (False, True):
            os.write(terminal.master, b'source full\n')
            if is_shown:
                terminal.raw_until('217, 218')  # (the beginning of a long answer, of which the rest waits until it is read)
            else:
                time.sleep(0.3)
            os.write(terminal.master, b'\x03')  # (the system drops what was not read yet, perhaps with the next prompt)
            self.assertIn('^C', terminal.raw_until('^C'))
        os.write(terminal.master, b'undo\n')
        self.assertNotIn('217, 218', terminal.raw_until('undone 5'))
        os.write(terminal.master, b'quit\n')
        self.assertEqual(terminal.process.wait(600), 0)

    def test_prompt_toolkit(self) -> None:
        if subprocess.run([sys.executable, '-c', 'import prompt_toolkit'], stderr=subprocess.DEVNULL, check=False).returncode:
            self.skipTest('there is no prompt_toolkit')
        Path(self.folder, 'a.pickle').write_bytes(SAMPLE)
        terminal = Terminal(['a.pickle'], self.folder, TERM='xterm', PROMPT_TOOLKIT_NO_CPR='1')
        self.addCleanup(terminal.process.kill)
        time.sleep(1)
        os.write(terminal.master, b'go 3\r')
        time.sleep(1)
        os.write(terminal.master, b'quit\r')
        shown = terminal.until('never')
        self.assertIn('35: TUPLE2', shown)
        self.assertEqual(terminal.close(), 0)


    def test_colours(self) -> None:
        """Where rich is installed imports are yellow and calls red, at a terminal alone, and nowhere where that is not wanted."""
        if subprocess.run([sys.executable, '-c', 'import rich'], stderr=subprocess.DEVNULL, check=False).returncode:
            self.skipTest('there is no rich')
        Path(self.folder, 'a.pickle').write_bytes(SAMPLE)
        for wanted, environment in ((True, {}), (False, {'NO_COLOR': '1'}), (False, {'TERM': 'dumb'})):
            terminal = Terminal(['a.pickle'], self.folder, **{'TERM': 'xterm-256color', 'PROMPT_TOOLKIT_NO_CPR': '1', **environment})
            self.addCleanup(terminal.process.kill)
            shown = terminal.raw_until('`help` shows the words.')
            os.write(terminal.master, b'goto 8\r')
            shown += terminal.raw_until('stack: ')
            for colour, text in (('\x1b[33m', '<- import'), ('\x1b[1;31m', '<- call')):
                is_coloured = any(colour in line and text in line for line in shown.split('\n'))
                self.assertEqual(is_coloured, wanted, (text, environment, shown))
            terminal.close()
        path = {**os.environ, 'PYTHONPATH': os.path.dirname(os.path.dirname(picklestep.__file__)) + os.pathsep + os.environ.get('PYTHONPATH', '')}
        piped = subprocess.run([sys.executable, '-m', 'picklestep', 'shell', 'a.pickle'], input='run\n', cwd=self.folder, capture_output=True, text=True,
                               env={**path, 'TERM': 'xterm-256color', 'FORCE_COLOR': '1'}, timeout=300, check=False)
        self.assertNotIn('\x1b', piped.stdout)


class Words(unittest.TestCase):
    """What the words do."""

    def shell(self, data: bytes, path: str = '', many: bool = False) -> Shell:
        shell = Shell(data, path, many)
        self.addCleanup(shell.pickle.close)
        return shell

    def test_explained_are_the_opcodes(self) -> None:
        self.assertEqual([info.name for info in TABLE], [opcode.name for opcode in pickletools.opcodes])
        self.assertEqual(len({info.sentence for info in TABLE}), len(TABLE))

    def test_long_bytes_are_shown_wherever_they_are_cut(self) -> None:
        for count in range(4):
            with self.subTest(count), Shell(pickle.dumps(b'a' * count + b'\xff' * 1000, 4), '') as shell:
                for line in ('goto 2', 'list 2 3', 'back', 'step'):
                    self.assertIn(f"BINBYTES '{'a' * count}\\xff", shell.obey(line))
                self.assertIn(' bytes more', shell.obey('list 2 3'))
                self.assertRaisesRegex(WordError, 'argument has no value here', shell.obey, 'print argument')

    def test_bytes_after_stop(self) -> None:
        """They are named, in the program's words, wherever the shell shows all that there is."""
        call = b'cold\nf\n)R.'
        data = b'\x80\x02cold\ng\n.' + call
        stream = io.BytesIO(data)
        collections.deque(pickletools.genops(stream), 0)
        said = f'kept: {len(data) - stream.tell()} bytes after STOP'
        self.assertEqual(picklestep.listing(data).text.split('\n')[-3], said)
        with self.subTest('one'), Shell(data, '') as shell:
            for line in (*'calls run where explain list'.split(), 'rename old new', 'diff'):
                self.assertIn(f'{said} (try --many)', shell.obey(line).split('\n'), line)
            with self.assertRaisesRegex(WordError, r"'other'; kept: .* \(try --many\)$"):
                shell.obey('rename other new')
            self.assertEqual(shell.pickle.content(), data.replace(b'old', b'new', 1))
            self.assertNotIn('kept', shell.obey('goto 1') + shell.obey('list 0 1'))
        with Shell(data, '', many=True) as shell:
            self.assertNotIn('kept', ''.join(map(shell.obey, ('calls', 'run', 'list 0', 'rename old new', 'diff'))))
            self.assertEqual(shell.pickle.content(), data.replace(b'old', b'new'))

    def test_what_opcodes_take_and_leave(self) -> None:
        """As much as `pickletools` says, which takes what is only looked at for nothing."""
        for opcode in pickletools.opcodes:
            found = tuple(len(words.split(', ')) if words else 0 for words in (BY_NAME[opcode.name].takes, BY_NAME[opcode.name].leaves))
            wanted = (1, 1) if opcode.name.endswith('PUT') else (len(opcode.stack_before), len(opcode.stack_after))
            self.assertEqual(found, wanted, opcode.name)

    def place(self, shell: Shell) -> int:
        shell.pickle.settle()
        return shell.pickle.session.where().place

    def test_breaks(self) -> None:
        shell = self.shell(SAMPLE)
        for what, places in (('opcode BINPUT', [2, 4, 7, 9]), ('import oldapp.*', [1]), ('call *.send', [8]), ('text bob', [3]), ('memo 2', [7]),
                             ('@33', [5]), ('10', [10])):
            with self.subTest(what):
                shell.obey('goto 0')
                shell.obey(f'break {what}')
                found = []
                while True:
                    shell.obey('run')
                    if self.place(shell) == 11:
                        break
                    found.append(self.place(shell))
                self.assertEqual(found, places)
                for place in reversed(places):
                    shell.obey('run back')
                    self.assertEqual(self.place(shell), place)
                shell.obey('run back')
                self.assertEqual(self.place(shell), 0)
                shell.obey(f'clear {shell.obey("break").partition(":")[0]}')

    def test_breaks_on_names_that_are_no_texts(self) -> None:
        """`*` stops at each line of `calls` that imports or calls. A pattern is compared with the name as that line has it."""
        data = b'\x80\x02(X\x02\0\0\0osc__builtin__\nstr\n)R\x93)R\x82\x07)Rcos\ngetcwd\n)R)R(ia\nB\nt.'
        calls = picklestep.calls(data)
        shell = self.shell(data)
        for word, kinds in (('import', ('import', 'inst')), ('call', ('inst', 'call', 'new'))):
            reaches = [reach for reach in calls if reach.what in kinds]
            self.assertEqual(self.stops(shell, f'break {word} *'), sorted({reach.offset for reach in reaches}))
            for reach in reaches:
                named = re.match(r"\w+ ('(\w+)' (?:'(\w+)'|(#\d+))|#\d+|ext \d+)", reach.text)
                assert named is not None
                pattern = f'{named[2]}.{named[3] or named[4]}' if named[2] else named[1]
                self.assertIn(reach.offset, self.stops(shell, f'break {word} {pattern}'), pattern)
        self.assertEqual(self.stops(shell, 'break import __builtin__.*'), [data.index(b'c__builtin__')])

    def stops(self, shell: Shell, line: str) -> List[int]:
        """The offsets at which a break stops, one after another, both ways."""
        ways: List[List[int]] = []
        shell.obey(line)
        for start, word in (('goto 0', 'run'), (f'goto {len(shell.pickle.lines)}', 'run back')):
            shell.obey(start)
            ways.append([])
            while shell.obey(word) and self.place(shell) not in (0, len(shell.pickle.lines)):
                ways[-1].append(shell.pickle.session.where().offset)
        self.assertEqual(ways[0], ways[1][::-1])
        shell.obey(f'clear {shell.obey("break").partition(":")[0]}')
        return ways[0]

    def test_breaks_come_back_with_their_opcodes(self) -> None:
        """They are where a session of the program has them after the same edits."""
        rng = random.Random(51)
        for _ in chosen(range(20), 2):
            shell = self.shell(SAMPLE)
            with picklestep.Session(SAMPLE) as session:
                for place in rng.sample(range(10), 4):
                    shell.obey(f'break {place}')
                    session.set_break(place)
                for _ in range(25):
                    place = rng.randrange(1, 8)
                    line = rng.choice((f'delete {place}', f'insert {place} NONE', f'replace {place} NONE', 'undo', 'undo', 'redo', f'break {place}'))
                    said = f'{line} ' if line.endswith('NONE') else line
                    try:
                        session.ask(said)
                    except picklestep.Refused:
                        if line not in ('undo', 'redo'):
                            continue
                    with contextlib.suppress(WordError):
                        shell.obey(line)
                    wanted = {item.place for item in session.items() if item.has_break}
                    found = shell.obey('break')
                    self.assertEqual({int(row.split()[2]) for row in found.split('\n') if row[0].isdecimal()}, wanted, line)
                    numbers = [row.partition(':')[0] for row in found.split('\n')]
                    self.assertEqual(len(numbers), len(set(numbers)))

    def test_breaks_after_an_edit_that_is_taken_back(self) -> None:
        """Where the edited pickle cannot be read."""
        shell = self.shell(SAMPLE)
        for place in (3, 8):
            shell.obey(f'break {place}')
        before = shell.obey('break')
        for line in ('delete 3', 'insert 1 NONE', 'rename oldapp newapp'):
            fails = picklestep.ProgramError('it fails')
            # (which of them reads depends on what is known by then)
            with mock.patch.object(Opened, '_take', side_effect=fails), mock.patch.object(Opened, '_read_beside', side_effect=fails):
                with self.assertRaisesRegex(WordError, 'it fails'):
                    shell.obey(line)
                    shell.obey('calls')  # (which waits until the pickle is read)
            self.assertEqual((shell.obey('break'), shell.pickle.content()), (before, SAMPLE), line)

    def test_an_edit_whose_reading_ends_at_once(self) -> None:
        """That it failed is told by the next word, however early it ended."""
        start = Later.start
        with mock.patch.object(Later, 'start', lambda work: [start(work), work.wait()][0]):
            self.test_breaks_after_an_edit_that_is_taken_back()

    def test_words_of_other_debuggers(self) -> None:
        """Each does what the shell's own word does."""
        for typed, own in (('n', 'over'), ('next', 'over'), ('stepi', 'step'), ('si', 'step'), ('finish', 'out'), ('return', 'out'), ('reverse-step', 'back'),
                           ('rn', 'back'), ('reverse-continue', 'run back'), ('cont', 'run'), ('start', 'goto 0'), ('jump 3', 'goto 3'),
                           ('advance 9', 'until 9'), ('print 2', 'show 2'), ('print #2', 'show 2'), ('whatis 2', 'show 2'), ('bt', 'stack'), ('disas', 'list'),
                           ('disassemble 2 4', 'list 2 4'), ('info breakpoints', 'break'), ('info b', 'break'), ('info stack', 'stack'), ('info frame', 'where'),
                           ('info var', 'memo'), ('info functions', 'calls'), ('x/16xb @23', 'hex @23 16'), ('x/4xw 0x17', 'hex @23 16'),
                           ('x/3i @2', 'list 1 3'), ('x/2i $pc', 'list 8 9'), ('list .', 'list 8'), ('break *0x17', 'break @23'), ('watch 3', 'break change 3'),
                           ('rwatch 2', 'break memo 2'), ('search bob', 'find bob')):
            answers = []
            for line in (typed, own):
                shell = self.shell(SAMPLE)
                shell.obey('goto 8')
                answers.append((shell.obey(line), shell.pickle.session.where(), [str(point) for point in shell.breaks]))
            self.assertEqual(*answers, typed)
        shell = self.shell(SAMPLE)
        shell.obey('break 3')
        self.assertEqual((shell.obey('disable 1'), shell.obey('enable 1')), ('1: at 3 (off)', '1: at 3'))
        for line in ('info', 'info nothing', 'x/', 'x/5z_ 3'):
            with self.assertRaises(WordError):
                shell.obey(f'{line} here')
        for word in OTHERS:
            self.assertNotIn(word, WORDS)
            self.assertIn(WORDS[whole_word(word)[0]].page, shell.obey(f'help {word}'))

    def test_bytes_from_any_offset(self) -> None:
        shell = self.shell(SAMPLE)
        self.assertEqual(shell.obey('hex @3 4'), f'      3: {SAMPLE[3:7].hex(" "):47}  {SAMPLE[3:7].decode()}')
        self.assertEqual(bytes.fromhex(''.join(row[9:56] for row in shell.obey('x/600xb @0').split('\n'))), SAMPLE)
        self.assertIn('there are 42 bytes', shell.obey('x/1xb @42'))

    def test_over_and_out(self) -> None:
        shell = self.shell(b'N(K\1(K\2K\3K\4K\5t(K\6K\7lt0.')
        self.assertEqual([opcode.name for opcode, _, _ in pickletools.genops(shell.pickle.content())][8:14], ['TUPLE', 'MARK', 'BININT1', 'BININT1', 'LIST', 'TUPLE'])
        found = []
        for line in ('over', 'over', 'back 12', 'over', 'over', 'back 2', 'out', 'out', 'goto 4', 'break 6', 'out', 'clear 1', 'out', 'out', 'over'):
            shell.obey(line)
            found.append(self.place(shell))
        self.assertEqual(found, [1, 14, 2, 3, 9, 7, 9, 14, 4, 4, 6, 6, 9, 14, 15])
        shell.obey('over')
        with self.assertRaisesRegex(WordError, 'C2'):
            shell.obey('over')

    def test_breaks_on_changes(self) -> None:
        data = b']q\0]q\1K\1aK\2a0h\0(K\3K\4eh\0K\5a0.'
        known = [(opcode.name, offset) for opcode, _, offset in pickletools.genops(data)]
        changes = [offset for name, offset in known if name.startswith('APPEND')]
        for line, wanted in (('change 1', changes[:2]), ('change 0', changes[2:]), ('change 2', []), ('change 99', []), ('store 1', [4]), ('store 9', []),
                             ('memo 0', [offset for name, offset in known if offset == 1 or name == 'BINGET'])):
            self.assertEqual(self.stops(self.shell(data), f'break {line}'), wanted, line)

    def test_codes_have_sentences(self) -> None:
        shell = self.shell(b'NN000.')
        for line, wanted in (('back', 'C1 at the start (You are at the start.)'), ('goto 99', 'C4 no such place (The pickle has no opcode there.)'),
                             ('undo', 'C6 nothing to undo (Nothing was edited.)'), ('delete 5', 'C9 E2 stop item (The STOP of a pickle stays.)')):
            with self.assertRaises(WordError) as caught:
                shell.obey(line)
            self.assertEqual(str(caught.exception), f'refused: {wanted}')
        sentence = 'S2 stack underflow (The stack has fewer objects than the opcode takes.)'
        self.assertTrue(shell.obey('run').startswith(f'refused, {sentence}\n'))
        self.assertIn(f'it is refused here: {sentence}', shell.obey('explain'))
        with self.assertRaisesRegex(WordError, r'C3 item 4: S2 stack underflow \(The stack'):
            shell.obey('step')
        shell = self.shell(b'N.')
        shell.obey('run')
        with self.assertRaisesRegex(WordError, r'C2 at the end, stopped \(You are at the end\.\)$'):
            shell.obey('step')
        # Each code of the page is one that CODES has.
        known = set(re.findall(r'^- \*\*([A-Z][0-9]+) ', (ROOT / 'docs' / 'reference' / 'codes.md').read_text(encoding='utf-8'), re.MULTILINE))
        self.assertLessEqual(set(PLAIN), known)

    def test_depth(self) -> None:
        shell = self.shell(b'((N1N0N.')
        shell.obey(f'break depth {10 ** 30}')
        shell.obey('break depth 2')
        shell.obey('run')
        self.assertEqual(self.place(shell), 2)

    def test_who(self) -> None:
        for name, data in chosen(real_pickles().items(), 10):
            heap = picklestep.objects(data, many=True)
            with self.subTest(name), Shell(data, '', many=True) as shell:
                names = [opcode.name for opcode in picklestep.listing(data, many=True)]
                self.assertIsNone(shell.pickle.maker(len(heap)))
                for made in heap:
                    if made.changes and {change.how for change in made.changes} <= {'append', 'state'}:
                        changers = [names[place] for place in shell.pickle.changers(made.number).places]
                        self.assertTrue(set(changers) <= {'APPEND', 'APPENDS', 'BUILD'}, changers)
                        self.assertEqual(changers.count('BUILD'), [change.how for change in made.changes].count('state'))

    def test_texts_of_python_2_beyond_ascii(self) -> None:
        """A text that Python 2 wrote as bytes becomes one that Python 3 loads as it was typed; one of ASCII stays of the opcode that is there."""
        for data, number, place, name in (
                (b"(S'Andre'\np0\nlp1\n.", 0, 1, 'UNICODE'), (b']q\x00U\x05Andreq\x01a.', 1, 2, 'BINUNICODE'),
                (b'\x80\x02]q\x00U\x05Andreq\x01a.', 1, 3, 'BINUNICODE'), (b'\x80\x02]q\x00T\x05\0\0\0Andreq\x01a.', 1, 3, 'BINUNICODE')):
            was = picklestep.listing(data)[place].name
            for text, wanted in (('Andr\xe9!', name), ('\u20ac', name), ('Andrea', was)):
                with self.subTest((was, text)), Shell(data, '') as shell:
                    shell.obey(f'set {number} to {text!r}')
                    content = shell.pickle.content()
                    self.assertEqual((picklestep.listing(content)[place].name, pickle.loads(content)), (wanted, [text]))

    def test_edits_by_values(self) -> None:
        shell = self.shell(pickle.dumps(['a', 1, 2.5, b'x', None, 1 << 40], 4))
        for line, wanted in (("replace 5 'newapp'", "SHORT_BINUNICODE 'newapp'"), ('replace 7 300', 'BININT2 300'), ('replace 8 -0.5', 'BINFLOAT -0.5'),
                             ("replace 9 b'\\x00'", "SHORT_BINBYTES b'\\x00'"), ('replace 11 True', 'NEWTRUE'), ('replace 12 7', 'LONG1 7'),
                             ("replace 5 SHORT_BINUNICODE hex 0161", "SHORT_BINUNICODE 'a'"), ("replace 5 '" + 'z' * 300 + "'", 'BINUNICODE')):
            with self.subTest(line):
                self.assertIn(f': {wanted}', shell.obey(line))
        self.assertEqual(pickle.loads(shell.pickle.content()), ['z' * 300, 300, -0.5, b'\0', True, 7])
        self.assertTrue(shell.is_unsaved)
        for _ in range(8):
            shell.obey('undo')
        self.assertFalse(shell.is_unsaved)
        self.assertEqual(shell.obey('diff'), 'as the file')

    def test_values_where_no_plain_one_is(self) -> None:
        """The argument of the opcode that is there, if that can have it."""
        shell = self.shell(SAMPLE)
        for line, wanted in (('replace 0 4', '0: PROTO 4 (was PROTO 2)'), ('replace 2 9', '2: BINPUT 9 (was BINPUT 0)'),
                             ("replace 1 ('a', 'b')", "1: GLOBAL 'a' 'b' (was GLOBAL 'oldapp.tasks' 'send')"),
                             ("set 0 to ('c', 'd')", "1: GLOBAL 'c' 'd' (was GLOBAL 'a' 'b')"),
                             ('replace 5 -inf', "5: BINFLOAT float('-inf') (was BININT1 3)"),
                             ("replace 5 float('nan')", "5: BINFLOAT float('nan') (was BINFLOAT float('-inf'))")):
            self.assertEqual(shell.obey(line), wanted)
        shell.obey('replace 0 5')
        self.assertEqual(shell.obey("replace 5 bytearray(b'x')"), "5: BYTEARRAY8 bytearray(b'x') (was BINFLOAT float('nan'))")

    def test_again(self) -> None:
        """`list` and `find` go on where they ended, as long as the cursor is where it was."""
        shell = self.shell(b'K\x01' * 50 + b'0' * 49 + b'.')
        self.assertEqual([shell.obey(line).split('\n')[0].split()[-3] for line in ('list', '', '')], ['0:', '40:', '80:'])
        self.assertEqual([shell.obey(line).split('\n')[-1] for line in ('find POP', 'find POP', '')], ['at 50', 'at 51', 'at 52'])
        shell.obey('step')
        self.assertEqual(shell.obey('find POP').split('\n')[-1], 'at 50')

    def test_texts_of_breaks_and_names_in_any_case(self) -> None:
        shell = self.shell(SAMPLE)
        self.assertEqual([shell.obey(line) for line in ("break text 'bob'", 'break opcode reduce')], ['1: text bob', '2: opcode REDUCE'])
        self.assertEqual(shell.obey('explain reduce'), 'REDUCE: ' + BY_NAME['REDUCE'].sentence)
        deep = "''" + "+''" * 20_000
        self.assertEqual(shell.obey(f'break text {deep}'), f'3: text {deep}')
        with self.assertRaisesRegex(WordError, 'is no value'):
            shell.obey(f'replace 3 {deep}')

    def test_rename_by_the_memo(self) -> None:
        names = b'\x8c\x0aold.module\x94\x8c\x01A\x94\x93h\x00\x8c\x01B\x93cold.module.inner\nC\nh\x00'
        shell = self.shell(b'\x80\x04(' + names + b't.')
        said = shell.obey('rename old.module new')
        self.assertEqual(said.count('(was '), 2)
        reached = [picklestep.Global(*name) for name in ((b'new', b'A'), (b'new', b'B'), (b'new.inner', b'C'))]
        self.assertEqual([reach.name for reach in picklestep.calls(shell.pickle.content())], reached)

    def test_refused(self) -> None:
        shell = self.shell(SAMPLE)
        for line in ('bogus', 'goto', 'goto x', 'goto 99', 'goto @3', 'until 0', 'back', 'break depth x', 'break opcode NOPE', 'clear 7', 'go 99',
                     'who 99', 'show 99', 'memo 5', 'find nothing', 'hex 99', 'replace 10 1', 'replace 3 bob', "replace 3 {}", 'insert 99 1',
                     'delete 10', 'delete 99', 'frame 1', 'unframe 1', 'set 99 to 1', 'set 2', 'rename none other', 'undo', 'redo', 'save', 'help nope',
                     'step x', 'who', 'go', 'show x', 'clear', 'off', 'on', 'undo 2', 'where x', 'source x', 'list 1 2 3', 'list 99', 'list 5 3',
                     'replace', 'insert',
                     'replace 8 7', 'set 3 to 1', 'set 4 to 1', 'break opcode', 'break text', 'rename oldapp',
                     "replace 3 BININT1 300", 'replace 3 NONE 1', 'replace 3 BININT1 hex zz', 'run on'):
            with self.subTest(line):
                with self.assertRaises(WordError):
                    shell.obey(line)
                self.assertEqual(shell.pickle.content(), SAMPLE)
        self.assertEqual(self.place(shell), 0)

    def test_what_is_known_after_edits(self) -> None:
        """The opcodes and the objects that they make are those that a shell finds which reads the edited pickle."""
        rng = random.Random(51)
        for name, data in chosen(sorted(real_pickles().items(), key=lambda each: len(each[1]))[10:130:6], 2):
            with Shell(data, '', many=True) as shell:
                for _ in range(12):
                    place = rng.randrange(len(shell.pickle.lines) + 1)
                    line = rng.choice((f'insert {place} NONE', f'insert {place} MARK', f'delete {place}', f'replace {place} NONE', f'frame {place} 2',
                                       f'unframe {place}', f'goto {place}', 'undo', 'undo', 'redo'))
                    with contextlib.suppress(WordError):
                        shell.obey(line)
                    with self.subTest(name, line=line), Shell(shell.pickle.content(), '', many=True) as fresh:
                        self.assertEqual(shell.pickle.lines.codes, fresh.pickle.lines.codes)
                        self.assertEqual(*[[*map(each.pickle.lines.at, range(len(each.pickle.lines)))] for each in (shell, fresh)])
                        self.assertEqual(shell.pickle._final.text, fresh.pickle._final.text)
                        self.assertEqual(shell.pickle.reaches.answer.text, fresh.pickle.reaches.answer.text)
                        self.assertEqual(shell.pickle.lines.closing, fresh.pickle.lines.closing)
                        made = len(fresh.pickle._final.text.split(b'\n')) - 1
                        self.assertEqual([*map(shell.pickle.maker, range(made))], [*map(fresh.pickle.maker, range(made))])

    def test_undone_and_made_again(self) -> None:
        """What was read before an edit is known again where that is undone, and is not taken for what another edit made."""
        shell = self.shell(SAMPLE)
        rows, made = shell.obey('list 0'), {}
        for value, edited in (('4', SAMPLE.replace(b'K\x03', b'K\x04')), ('5', SAMPLE.replace(b'K\x03', b'K\x05'))):
            shell.obey(f'set 2 to {value}')
            made[value] = shell.obey('list 0')
            with mock.patch.object(Document, '_read', side_effect=AssertionError):
                for line, wanted, data in (('undo', rows, SAMPLE), ('redo', made[value], edited), ('undo', rows, SAMPLE)):
                    shell.obey(line)
                    self.assertEqual((shell.obey('list 0'), shell.pickle.content()), (wanted, data))
                    self.assertEqual(shell.obey('diff') == 'as the file', data == SAMPLE)
        self.assertNotEqual(made['4'], made['5'])
        shell.obey('redo')
        shell.obey("set 1 to 'x'")
        both = shell.obey('list 0')
        for line, wanted in (('undo', made['5']), ('undo', rows), ('redo', made['5']), ('redo', both), ('undo', made['5'])):
            shell.obey(line)
            self.assertEqual(shell.obey('list 0'), wanted)
        with mock.patch.object(Document, '_read', side_effect=ValueError('not read')):
            shell.obey('insert 0 NONE')
            with self.assertRaisesRegex(WordError, 'not read'):
                shell.obey('where')
        shell.obey('undo')
        self.assertEqual((shell.obey('list 0'), shell.pickle.content()), (rows, SAMPLE))

    def test_edits_behind_a_refused_opcode(self) -> None:
        """Also where the first of several pickles leaves something on the stack, of which the listing has a line."""
        for line, left in (('delete 4', b'NN.R.'), ('replace 4 True', b'NN.RI01\n.'), ('insert 4 MARK', b'NN.R(N.')):
            with self.subTest(line), Shell(b'NN.RNN.'[:4] + b'N.', '', many=True) as shell:
                shell.obey(line)
                self.assertEqual(shell.pickle.content(), left)
                self.assertEqual(len(shell.pickle.lines), shell.pickle.session.where().places)
        frame = b'\x95\x01\0\0\0\0\0\0\0'
        with Shell(b'N0R' + frame + b'N.', '', unframed=True) as shell:  # (`list` does not come to this frame, of which `calls` is told)
            shell.obey('insert 1 NONE')
            self.assertEqual((shell.pickle.content(), shell.obey('list 4').split('\n')[0]), (b'NN0R' + frame + b'N.', '        4     4: FRAME 1'))

    def test_what_a_step_changed(self) -> None:
        shell = self.shell(b']q\x00K\x01a}K\x02Nsb.')
        said = [shell.obey('step').split('\n')[-1] for _ in range(4)]
        self.assertEqual(said, ['made:  #0 []', 'stored: 0: #0 []', 'made:  #1 1', 'changed: #0 [1]'])

    def test_what_steps_changed(self) -> None:
        """Of several steps: what they made, what they changed that was there before, and what they stored, the latest of each."""
        shell = self.shell(pickle.dumps({'a': [1, 2, {'x': (1, 2)}], 'b': 7}, 4))
        shell.obey('step 5')
        for line, wanted in (('step 5', ["made:  #1 'a', #2 []", "stored: 1: #1 'a', 2: #2 []"]), ('until 13', ['made:  #3 1, #4 2, #5 {}']), ('back 5', []),
                             ('run', ['made:  6 more, #9 (1, 2), #10 \'b\', #11 7', "changed: #2 [1, 2, dict of 1], #0 {'a': list of 3, 'b': 7}",
                                     "stored: 2 more, 4: #6 'x', 5: #9 (1, 2), 6: #10 'b'"])):
            with self.subTest(line):
                rows = shell.obey(line).split('\n')
                self.assertEqual([row for row in rows if row.startswith(('made', 'changed', 'stored'))], wanted)

    def test_results_are_what_loading_gives(self) -> None:
        """Of plain data that is changed in each way, one pickle after another in one shell."""
        wanted = {}
        for data in changed_pickles():
            with contextlib.suppress(Exception):
                loaded = pickle.loads(data)
                if not isinstance(loaded, (list, dict)) or len(loaded) <= 4:  # (of others the first are shown)
                    wanted[data] = repr(loaded) if isinstance(loaded, tuple) else re.sub(r'\(\d,\)', 'tuple of 1', repr(loaded))
        wanted = {data: text for data, text in wanted.items() if picklestep.calls(data).end.is_stopped}
        self.assertGreater(len(wanted), 500)
        shell = self.shell(b''.join(wanted), many=True)
        shell.obey('run')
        shown = [shell.pickle.described(number) for number in shell.pickle.session.where().results]
        self.assertEqual(*[[sorted(text) if 'tuple of' in text else text for text in texts] for texts in (shown, wanted.values())])

    def test_texts_that_are_long_or_have_quotes(self) -> None:
        """They are found in the whole argument, and as they are typed."""
        texts = ["it's", 'a\\b', 'x' * 5000 + 'needle' + 'y' * 5000, 'x' * 5000, 'x' * 600 + "the'n", 'a needle']
        data = pickle.dumps(texts, 3)
        shell = self.shell(data)
        places = {value: place for place, (_, value, _) in enumerate(pickletools.genops(data)) if isinstance(value, str)}
        for wanted in ("it's", 'a\\b', 'needle', "the'n", 'y' * 100):
            with self.subTest(wanted):
                shell.obey('goto 0')
                holders = [places[text] for text in texts if wanted in text]
                found = [int(shell.obey(f'find {wanted}').rpartition(' ')[2]) for _ in range(len(holders) + 1)]
                self.assertEqual(found, [*holders, holders[0]])
                shell.obey(f'break text {wanted}')
                shell.obey('goto 0')
                stops = [self.place(shell) for _ in holders if shell.obey('run')]
                self.assertEqual(stops, holders)
                shell.obey('run')
                self.assertEqual([self.place(shell) for _ in holders if shell.obey('run back')], holders[::-1])
                shell.obey(f'clear {shell._breaks[-1].number}')
        with self.assertRaisesRegex(WordError, 'is in no opcode'):
            shell.obey('find nowhere')

    def test_many_objects(self) -> None:
        """Where it is not known what they hold at the cursor, the shell says so."""
        note = '(What objects hold is as it is at the end.)'
        shell = self.shell(pickle.dumps({'a': list(range(15_000)), 'b': list(range(15_000)), 'c': {'x': 1}}))
        for line, is_there in (('goto 10000', False), ('show 0', False), ('goto 30000', True), ('show 0', True), ('stack', True), ('memo', True),
                               ('objects 5', True), ('explain', True), ('list', False), ('run', False), ('show 0', False)):
            self.assertEqual(note in shell.obey(line), is_there, line)

    def test_explained_where_it_is_refused(self) -> None:
        for data, code in ((b'K\x01K\x02a.', 'S5'), (b'Nh\x05.', 'S3'), (b'K\x01K\x02R.', 'S9'), (b'N\x82\x00.', 'S7'), (b'N0a.', 'S2'), (b'Ne.', 'S1')):
            self.assertEqual(picklestep.listing(data).end.code, code)
            shell = self.shell(data)
            shell.obey('run')
            self.assertIn(f'it is refused here: {code} ', shell.obey('explain'))
            self.assertNotIn('refused', shell.obey('explain 0'))

    def test_explained_by_its_step(self) -> None:
        """What an opcode that makes nothing takes, changes, stores and puts on the stack, as the machine of Python has it."""
        for data, place, wanted in ((b']K\x01a.', 2, ['it takes #1 1', 'it changes #0 []']),
                                    (b'](NNe.', 4, ['it takes the mark of 1, #1 None, #2 None', 'it changes #0 []']),
                                    (b'](e.', 2, ['it takes the mark of 1']), (b'K\x07q\x05.', 1, ['it stores #0 7 under 5']),
                                    (b'K\x07q\x050h\x05.', 3, ['it puts #0 7 on the stack']), (b'K\x072.', 1, ['it puts #0 7 on the stack']),
                                    (b'N(0.', 2, ['it takes the mark of 1']), (b'N(.', 1, []), (b'K\x07.', 1, ['it takes #0 7'])):
            with self.subTest((data, place)):
                self.assertEqual([row for row in self.shell(data).obey(f'explain {place}').split('\n') if row.startswith('it ')], wanted)

    def test_words_that_fail(self) -> None:
        """The shell goes on, with its edits, whatever happens in a word."""
        shell = self.shell(SAMPLE)
        shell.obey("set 2 to 'x'")
        for error in (AttributeError('no such thing'), IndexError('1'), KeyError(1), RecursionError('deep'), MemoryError(), AssertionError()):
            with mock.patch.dict(shell._words, where=mock.Mock(side_effect=error)), self.assertRaisesRegex(WordError, type(error).__name__):
                shell.obey('where')
        self.assertIn('undone', shell.obey('undo'))
        for data in (SAMPLE, b'N.'):
            with self.assertRaisesRegex(WordError, 'calls counts from 1'):
                self.shell(data).obey('calls 0')

    def test_completions(self) -> None:
        shell = self.shell(SAMPLE)
        for before, wanted in (('ru', ['run']), ('break o', ['opcode']), ('break opcode REDU', ['REDUCE']), ('goto @3', ['@31', '@33', '@35', '@36', '@38', '@39']),
                               ('break call ', ['oldapp.tasks.send']), ('rename old', ['oldapp.tasks']), ('help wher', ['where']), ('replace 3 BINF', ['BINFLOAT'])):
            self.assertEqual(completions(shell.pickle, before), wanted, before)

    def test_the_cursor_stays_at_its_opcode(self) -> None:
        shell = self.shell(SAMPLE)
        for line, place in (('goto 8', 8), ('insert 3 POP', 9), ('delete 3', 8), ('insert 8 NONE', 8), ("set 1 to 'x'", 8)):
            shell.obey(line)
            self.assertEqual(self.place(shell), place)

    def test_nothing_that_a_terminal_would_obey(self) -> None:
        evil = '\x1b]0;x\x07\u202e\x9b'
        data = f'c{evil}\n{evil}\n'.encode() + b'X' + len(evil.encode()).to_bytes(4, 'little') + evil.encode() + b'\x85R.'
        shell = self.shell(data)
        for line in ('run', 'calls', 'objects 0', 'show 0', 'show 3', 'list 0', 'goto 2', 'stack', 'explain', 'hex 0', 'source', 'who 1',
                     'replace 1 1', 'diff', 'find x'):
            self.assertTrue(all(row.isprintable() for row in shell.obey(line).split('\n')), line)

    def test_refused_opcodes_and_cut_files(self) -> None:
        shell = self.shell(b'K\x01q\x00h\x07.')
        self.assertIn('refused, S3 no memo entry 7', shell.obey('run'))
        self.assertEqual(self.place(shell), 2)
        self.assertIn('the end: F1', self.shell(b'(K\x01').obey('run'))
        self.assertIn('the end: F1', self.shell(b'').obey('w'))
        for frame in (b'\x95\x07\0\0\0\0\0\0\0NN.', b'\x95\x01\0\0\0\0\0\0\0K\x01.', b'\x95\x03\0\0\0\0\0\0\0N\x95\1\0\0\0\0\0\0\0..'):
            with self.subTest(frame):
                said = self.shell(b'\x80\x04' + frame).obey('run')
                self.assertRegex(said, r'the end: F[678] .*\n\(What is .*`picklestep shell --unframed FILE`.*`picklestep mend FILE --save OUT`')

    def test_unframed(self) -> None:
        """A pickle that was cut off is stepped to the cut, and what is imported up to there is renamed. That reading ends there is said."""
        data = b'\x80\x04cold\nA\n\x95\x40\0\0\0\0\0\0\0cold\nB\n'
        with self.assertRaisesRegex(picklestep.NoResult, 'F7 .*unframed=True'):
            picklestep.tree(data)
        with Shell(data, '') as shell:
            shell.obey('insert 0 POP')
            self.assertRegex(shell.obey('diff'), r'the results cannot be compared: F7 .* \(--unframed reads that frame\)')
        with Shell(data, '', unframed=True) as shell:
            self.assertIn('the end: F1 ended at 25', shell.obey('run'))
            self.assertIn('(Reading ends early', shell.obey('rename old new'))
            self.assertEqual(shell.pickle.content(), data.replace(b'old', b'new'))
            for line in ('unframe 2', 'frame 3 1'):
                with self.assertRaisesRegex(WordError, 'E3'):
                    shell.obey(line)
            self.assertIn('(was GLOBAL', shell.obey('rename new newer'))

    def test_a_cut_pickle_with_a_frame(self) -> None:
        """Read unframed, it shows what the whole one imports and calls up to the cut, breaks there, and is renamed."""
        # (pickle.dumps([OrderedDict(a=1, b=[2, 3]), Counter('hello')], 4): where `collections.abc` was the first import of `collections`, the two
        # classes hold two texts with the name of the module, and the pickle would have both)
        whole = (b'\x80\x04\x95h\0\0\0\0\0\0\0]\x94(\x8c\x0bcollections\x94\x8c\x0bOrderedDict\x94\x93\x94)R\x94(\x8c\1a\x94K\1\x8c\1b\x94]\x94(K\2K\3eu'
                 b'h\1\x8c\x07Counter\x94\x93\x94}\x94(\x8c\1h\x94K\1\x8c\1e\x94K\1\x8c\1l\x94K\2\x8c\1o\x94K\1u\x85\x94R\x94e.')
        found = list(pickletools.genops(whole))
        offsets = {word: [position for opcode, _, position in found if opcode.code == code] for word, code in (('import', '\x93'), ('call', 'R'))}
        with Shell(whole[:-3], '', unframed=True) as shell, Shell(whole, '') as framed:
            places = len(shell.pickle.lines)
            self.assertEqual(shell.obey(f'list 0 {places - 1}'), framed.obey(f'list 0 {places - 1}'))
            rows = shell.obey(f'list 0 {places - 1}').split('\n')
            for word in ('import', 'call'):
                self.assertEqual([int(row[10:].partition(':')[0]) for row in rows if f'<- {word} ' in row], offsets[word])
                shell.obey(f'goto {places}')
                shell.obey(f'break {word} collections.Counter')
                shell.obey('run back')
                self.assertEqual(shell.pickle.session.where().offset, offsets[word][1])
                shell.obey('clear 1')
            self.assertEqual(shell.obey('calls').split('\n')[-1], f'2 imports, 3 calls, F1 ended at {len(whole) - 3}')
            self.assertEqual(shell.obey('source').split('\n')[-1], 'stack = [[], _5, _24]')
            shell.obey('rename collections:Counter Other')
            self.assertEqual(shell.pickle.content(), whole[:-3].replace(b'\x07Counter', b'\x05Other'))
            self.assertEqual(shell.obey('diff').split('\n')[-5:], [
                'the results cannot be compared: F1 ended at 112', "- import 'collections' 'Counter'", "- call 'collections' 'Counter' (#)",
                "+ import 'collections' 'Other'", "+ call 'collections' 'Other' (#)"])

    def test_frames_that_do_not_fit(self) -> None:
        """Read unframed, a whole pickle has its result, also where it has many frames."""
        for count in (1, 3_000):
            data = b'\x80\x04](' + (b'\x95' + b'\xff' * 8 + b'cold\nA\n)R') * count + b'e.'
            with self.subTest(count), Shell(data, '', unframed=True) as shell:
                self.assertEqual(shell.pickle.reaches.counts, (count, count))
                shell.obey('replace 4 GLOBAL hex 6e65770a410a')
                self.assertEqual(shell.obey('diff').split('\n')[-1], '[0].name: old.A -> new.A')

    def test_what_an_opcode_takes_here(self) -> None:
        shell = self.shell(b'](K\x01K\x02e}(K\x03NK\x04Nuc_\nC\n)R}b(0(NN10q\x000' + b'K\x09' * 6 + b'0' * 4 + b'\x86' + b'.')
        said = {}
        for place in range(len(shell.pickle.lines)):
            rows = [line for line in shell.obey(f'explain {place}').split('\n') if line.startswith(('it takes', 'it changes', 'it stores', 'it puts'))]
            said.update({place: '; '.join(rows)} if rows else {})
        self.assertEqual(said, {
            4: 'it takes the mark of 1, #1 1, #2 2; it changes #0 []', 11: 'it takes the mark of 6, #4 3, #5 None, #6 4, #7 None; it changes #3 {}',
            16: 'it takes #11 {}; it changes #10 _.C()', 18: 'it takes the mark of 17', 22: 'it takes the mark of 19, #12 None, #13 None',
            23: 'it takes #10 _.C()', 24: 'it stores #3 dict of 2 under 0', 25: 'it takes #3 dict of 2',
            **{place: f'it takes #{51 - place} 9' for place in range(32, 36)}, 37: 'it takes #20 tuple of 2'})
        self.assertEqual(self.place(shell), 0)

    def test_save(self) -> None:
        with tempfile.TemporaryDirectory() as folder:
            path = os.path.join(folder, 'a pickle')
            Path(path).write_bytes(SAMPLE)
            with Shell(path, path) as shell:
                shell.obey('set 2 to 4')
                self.assertTrue(shell.is_unsaved)
                shell.obey('save')
                self.assertFalse(shell.is_unsaved)
                shell.obey(f"save '{path} 2'")
            self.assertEqual(Path(path).read_bytes(), SAMPLE.replace(b'K\x03', b'K\x04'))
            self.assertEqual(Path(path + ' 2').read_bytes(), SAMPLE.replace(b'K\x03', b'K\x04'))

    def test_save_to_names_with_blanks(self) -> None:
        with tempfile.TemporaryDirectory() as folder:
            shell = self.shell(SAMPLE)
            with self.assertRaisesRegex(WordError, 'in quotes'):
                shell.obey(f'save {folder}/my file.pickle')
            self.assertEqual(os.listdir(folder), [])
            shell.obey(f"save '{folder}/my file.pickle'")
            self.assertEqual(os.listdir(folder), ['my file.pickle'])

    def test_save_to_names_with_backslashes(self) -> None:
        """Windows has them between folders."""
        shell = self.shell(SAMPLE)
        for line, name in (('C:\\tmp\\#1.pickle', 'C:\\tmp\\#1.pickle'), ('"C:\\my files\\a.pickle"', 'C:\\my files\\a.pickle'), ("'a\\ b\\'", 'a\\ b\\')):
            with mock.patch.object(shell.pickle, 'save') as save:
                self.assertEqual(shell.obey(f'save {line}'), f'saved {name}')
                save.assert_called_once_with(name)

    def test_batch(self) -> None:
        with tempfile.TemporaryDirectory() as folder:
            pickled, script = Path(folder, 'a.pickle'), Path(folder, 'script')
            pickled.write_bytes(SAMPLE)
            words = [sys.executable, '-m', 'picklestep', 'shell', '--batch', str(script), str(pickled)]
            path = {**os.environ, 'PYTHONPATH': os.path.dirname(os.path.dirname(picklestep.__file__))}
            for lines, status, errors in (('# a comment\n\nset 2 to 4\nsave\nquit\nbogus\n', 0, ''),
                                          ('step\nbogus\nstep\n', 1, f"picklestep: {script}, line 2: there is no word 'bogus'; `help` shows them\n")):
                script.write_text(lines)
                done = subprocess.run(words, env=path, capture_output=True, text=True, timeout=300, check=False)
                self.assertEqual((done.returncode, done.stderr), (status, errors))
            self.assertEqual(pickled.read_bytes(), SAMPLE.replace(b'K\x03', b'K\x04'))
            script.write_bytes(b'where\n\xff\n')
            done = subprocess.run(words, env=path, capture_output=True, text=True, timeout=300, check=False)
            self.assertEqual((done.returncode, done.stderr), (2, f'picklestep: cannot read {script}: it is not UTF-8\n'))
            piped = subprocess.run([*words[:4], str(pickled)], input='run\nback\nlist\n', env={**path, 'TERM': 'xterm-256color', 'FORCE_COLOR': '1'},
                                   capture_output=True, text=True, timeout=300, check=False)
            self.assertEqual((piped.returncode, '\x1b' in piped.stdout, 'the end: stopped' in piped.stdout), (0, False, True))
            done = subprocess.run([*words[:-1], os.path.join(folder, 'none')], env=path, capture_output=True, text=True, timeout=300, check=False)
            self.assertEqual(done.returncode, 2)

    def test_an_interrupted_script(self) -> None:
        with tempfile.TemporaryDirectory() as folder:
            Path(folder, 'a.pickle').write_bytes(SAMPLE)
            path = {**os.environ, 'PYTHONPATH': os.path.dirname(os.path.dirname(picklestep.__file__))}
            with subprocess.Popen([sys.executable, '-m', 'picklestep', 'shell', 'a.pickle'], cwd=folder, env=path, stdin=subprocess.PIPE,
                                  stdout=subprocess.PIPE, stderr=subprocess.PIPE, preexec_fn=heed_ctrl_c, start_new_session=True) as run:
                assert run.stdin is not None and run.stdout is not None and run.stderr is not None
                run.stdin.write(b'where\n')
                run.stdin.flush()
                run.stdout.read(1)
                os.killpg(run.pid, signal.SIGINT)
                self.assertEqual((run.wait(300), run.stderr.read()), (130, b'picklestep: interrupted\n'))


if __name__ == '__main__':
    unittest.main()
