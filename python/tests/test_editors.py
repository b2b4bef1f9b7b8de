"""Real clients of `picklestep dap`: Emacs with dap-mode, Google's go-dap, and Kate with its debugger plugin. Each steps through a pickle both ways, hits
each kind of breakpoint, edits and saves. A client that is not installed is skipped."""

from __future__ import annotations

import glob
import os
import pickletools
import shutil
import subprocess
import sys
import tempfile
import unittest
from pathlib import Path
from typing import Dict, List, Tuple

import picklestep
from kate import Kate
from pickles import ROOT
from scan_support import environment

_CLIENTS = Path(__file__).parent / 'clients'
_GO = Path('/usr/share/gocode')
_PACKAGE = 'github.com/google/go-dap'
_GO_DAP = _GO / 'src' / _PACKAGE
_ADAPTER = [sys.executable, '-m', 'picklestep', 'dap']
_DATA = (ROOT / 'crates' / 'real_pickles' / 'data' / 'log_record_protocol_4.pickle').read_bytes()
_OPCODES = [(opcode.name, value, offset or 0) for opcode, value, offset in pickletools.genops(_DATA)]
_NAMES = [name for name, _, _ in _OPCODES]
# A text among the attributes of the record, which the edit replaces.
_EDITED = max(place for place, (name, _, _) in enumerate(_OPCODES) if name == 'SHORT_BINUNICODE')
_NEW = 'MainProcess 2'


class Clients(unittest.TestCase):
    """What each of them prints."""

    def setUp(self) -> None:
        folder = tempfile.TemporaryDirectory()
        self.addCleanup(folder.cleanup)
        self.folder = folder.name
        Path(self.folder, 'a.pickle').write_bytes(_DATA)

    def said(self, words: List[str], **more: str) -> Dict[str, str]:
        """What a client prints: what is before the colon, and what is behind it."""
        run = subprocess.run(words, cwd=self.folder, env={**environment(), 'HOME': self.folder, **more}, capture_output=True, text=True, timeout=300, check=False)
        self.assertEqual(run.returncode, 0, run.stdout + run.stderr)
        return dict(line.split(': ', 1) for line in run.stdout.split('\n') if ': ' in line)

    def wanted(self, places: List[int], of_place: Dict[int, str]) -> Dict[str, str]:
        """What clients print that name places so."""
        called = _NAMES.index('NEWOBJ')
        hits = {'line': ([called], 'breakpoint'), 'condition': ([called], 'breakpoint'),
                'function': ([_NAMES.index('STACK_GLOBAL'), called], 'function breakpoint'), 'instruction': ([3], 'instruction breakpoint'),
                'call': ([called], 'breakpoint'), 'data': ([_NAMES.index('MEMOIZE')], 'data breakpoint')}
        found = {'forwards': ' '.join(of_place[place] for place in places[1:]), 'back': ' '.join(of_place[place] for place in places[-2::-1])}
        for kind, (stops, why) in hits.items():
            shown = [f'{of_place[place]} ({why})' for place in stops]
            found[f'{kind} to the end'], found[f'{kind} to the start'] = ' '.join(shown), ' '.join(shown[::-1])
        return found

    def more_wanted(self, of_place: Dict[int, str]) -> Dict[str, str]:
        """What Emacs and go-dap print besides: of a line of the Python code, and of the object that the pickle makes."""
        hits = {'code': ('NEWOBJ', 'breakpoint'), 'change': ('BUILD', 'data breakpoint')}
        return {f'{kind} to the {end}': f'{of_place[_NAMES.index(name)]} ({why})' for kind, (name, why) in hits.items() for end in ('end', 'start')}

    def line_of_code(self) -> str:
        """The line of the Python code that makes this object."""
        ends = f'  # {_OPCODES[_NAMES.index("NEWOBJ")][2]}'
        return str(1 + next(at for at, line in enumerate(picklestep.source(_DATA, full=False).text.split('\n')) if line.endswith(ends)))

    def steps(self) -> List[str]:
        """The arguments that are the same for all."""
        called = _NAMES.index('NEWOBJ')
        return ['a.pickle', 'b.pickle', str(called + 1), 'top == () and stack[-2] == logging.LogRecord', 'logging.*', hex(_OPCODES[3][2])]

    def check_saved(self) -> None:
        """One value is another one, as Python's own tools read the file."""
        saved = [(opcode.name, value) for opcode, value, _ in pickletools.genops(Path(self.folder, 'b.pickle').read_bytes())]
        wanted = [(name, _NEW if place == _EDITED else value) for place, (name, value, _) in enumerate(_OPCODES)]
        self.assertEqual([each for each in saved if each[0] != 'FRAME'], [each for each in wanted if each[0] != 'FRAME'])
        self.assertNotEqual(_OPCODES[_EDITED][1], _NEW)
        self.assertEqual(Path(self.folder, 'a.pickle').read_bytes(), _DATA)

    def built(self) -> str:
        """The client in Go, by either compiler."""
        program, source = os.path.join(self.folder, 'steps'), str(_CLIENTS / 'steps.go')
        compiler = shutil.which('gccgo-12') or shutil.which('gccgo')
        if not _GO_DAP.is_dir() or compiler is None and shutil.which('go') is None:
            self.skipTest('there is no go-dap, or no compiler of Go')
        if compiler is None:
            paths = {'GO111MODULE': 'off', 'GOPATH': str(_GO), 'GOCACHE': os.path.join(self.folder, 'cache'), 'GOFLAGS': ''}
            subprocess.run(['go', 'build', '-o', program, source], env={**os.environ, **paths}, check=True, timeout=300)
            return program
        package = Path(self.folder, f'{_PACKAGE}.o')
        package.parent.mkdir(parents=True)
        parts = [str(path) for path in sorted(_GO_DAP.glob('*.go')) if not path.name.endswith('_test.go')]
        for words in (['-c', f'-fgo-pkgpath={_PACKAGE}', '-o', str(package), *parts], ['-I', self.folder, '-o', program, source, str(package)]):
            subprocess.run([compiler, *words], check=True, timeout=300)
        return program

    def test_go(self) -> None:
        program = self.built()
        said = self.said([program, *self.steps(), self.line_of_code(), str(_EDITED), repr(_NEW), *_ADAPTER])
        offsets = {place: str(offset) for place, (_, _, offset) in enumerate(_OPCODES)}
        offsets[len(_OPCODES)] = str(len(_DATA))
        refused = said.pop('refused setVariable')
        self.assertTrue(refused.startswith('refused: C5 behind the cursor'), refused)
        self.assertEqual(said, {'goes back': 'true', 'entry': 'true', **self.wanted(list(offsets), offsets), **self.more_wanted(offsets), 'paused': 'true',
                                'saved': 'true', 'ended': 'true'})
        self.check_saved()

    def test_emacs(self) -> None:
        if shutil.which('emacs') is None or not glob.glob('/usr/share/emacs/site-lisp/elpa/dap-mode-*'):
            self.skipTest('there is no emacs, or no dap-mode')
        said = self.said(['emacs', '-Q', '--batch', '-l', str(_CLIENTS / 'steps.el'), *self.steps(), self.line_of_code(), f'replace {_EDITED} {_NEW!r}',
                          *_ADAPTER])
        places = {place: str(place) for place in range(len(_OPCODES) + 1)}
        edited, was = said.pop('said'), _OPCODES[_EDITED][1]
        self.assertEqual(edited, 'saved b.pickle', was)
        self.assertEqual(said, {'entry': '0', **self.wanted(list(places), places), **self.more_wanted(places), 'ended': '0'})
        self.check_saved()

    def test_kate(self) -> None:
        if shutil.which('kate') is None:
            self.skipTest('there is no kate')
        kate = Kate(self.folder, os.path.join(self.folder, 'a.pickle'), _ADAPTER, {**environment(), 'HOME': self.folder})
        try:
            kate.start()
            self.assertEqual(kate.go('continue'), ('entry', 1))
            self.there_and_back(kate)
            self.hit_breakpoints(kate)
            self.edit_and_save(kate)
            self.use_the_menu(kate)
        finally:
            kate.close()

    def runs(self, kate: Kate, line: str, end: int) -> List[Tuple[str, int]]:
        """Each stop where a line is typed until the last one is at an end."""
        found = [kate.walk(line)]
        while found[-1][1] != end:
            found.append(kate.walk(line))
        return found

    def there_and_back(self, kate: Kate) -> None:
        """Steps to the end, over what is behind the mark, and back over all that was before."""
        marked, last = _NAMES.index('MARK') + 1, len(_OPCODES) + 1
        on = [*range(2, marked + 1), *range(_NAMES.index('SETITEMS') + 2, last + 1)]
        self.assertEqual(self.runs(kate, 'next', last), [('step', line) for line in on])
        self.assertEqual(kate.walk('print !reverse-step'), ('step', last - 1))
        self.assertEqual(kate.walk(f'jump {marked}'), ('goto', marked))
        self.assertEqual(self.runs(kate, 'print !reverse-step', 1), [('step', line) for line in range(marked - 1, 0, -1)])

    def hit_breakpoints(self, kate: Kate) -> None:
        """Hits each kind both ways: those of lines by Kate's own words, the others by those of the shell, which have no kind of the protocol."""
        lines = {place: str(place + 1) for place in range(len(_OPCODES) + 1)}
        wanted = self.wanted(list(lines), lines)
        _, _, line, condition, pattern, offset = self.steps()
        of_kate = {'line': f'b {line}', 'condition': f'b {line} when {{{condition}}}'}
        of_shell = {'function': (f'import {pattern}', f'call {pattern}'), 'instruction': (f'*{offset}',), 'call': ('call *',), 'data': ('store 0',)}
        for kind in (*of_kate, *of_shell):
            if kind in of_kate:
                self.assertEqual([each['verified'] for each in kate.set_breakpoint(of_kate[kind])], [True])
            numbers = [kate.say(f'!break {each}').partition(':')[0] for each in of_shell.get(kind, ())]
            for way, typed, end in (('end', 'continue', len(_OPCODES) + 1), ('start', 'print !run back', 1)):
                stops = self.runs(kate, typed, end)[:-1]
                self.assertEqual(' '.join(f'{at} ({why})' for why, at in stops), wanted[f'{kind} to the {way}'].replace(f'{kind} b', 'b'), kind)
            if kind in of_kate:
                self.assertEqual(kate.set_breakpoint(f'boff {line}'), [])
            for number in numbers:
                kate.say(f'!clear {number}')

    def edit_and_save(self, kate: Kate) -> None:
        """Edits by the command line, and saves."""
        self.assertIn(_NEW, kate.say(f'!replace {_EDITED} {_NEW!r}'))
        path = os.path.join(self.folder, 'b.pickle')
        self.assertEqual(kate.say(f'!save {path!r}'), f'saved {path}')
        self.check_saved()

    def use_the_menu(self, kate: Kate) -> None:
        """Steps and goes back by keys of the menu, and stops at a breakpoint that is set so."""
        self.assertEqual([kate.go(word) for word in ('step_in', 'step_over', 'step_in')], [('step', 2), ('step', 3), ('step', 4)])
        self.assertEqual(kate.go('Escape', 'Up', 'Up', 'Up', 'move_pc'), ('goto', 1))  # (Escape leads to the listing)
        kate.press('Escape', 'Down', 'Down', 'Down', 'Down')
        self.assertEqual([each['line'] for each in kate.set_breakpoint()], [5])
        self.assertEqual(kate.go('continue'), ('breakpoint', 5))
        kate.press('kill')
        kate.wait(lambda said: any(each.get('command') == 'disconnect' for each in said))
        self.assertTrue({'setBreakpoints', 'gotoTargets', 'goto', 'next', 'stepIn', 'continue'} <= {each['command'] for each in kate.asked()})


if __name__ == '__main__':
    unittest.main()
