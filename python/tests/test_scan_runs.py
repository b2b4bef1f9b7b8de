"""Runs of `scan` over many files: several at once, ended, killed, gone on with, and on a cluster."""

from __future__ import annotations

import dbm.dumb
import errno
import hashlib
import io
import json
import os
import pickle
import pty
import re
import select
import shutil
import signal
import sqlite3
import subprocess
import sys
import time
import unittest
import unittest.mock
from collections import OrderedDict
from contextlib import closing, redirect_stderr, redirect_stdout
from pathlib import Path
from typing import Callable, Dict, Iterator, List, Tuple

from pickles import chosen
from picklestep import pool as processes
from picklestep.program import find_program
from picklestep.scan import Options, Result, cluster, command, look, look_at_bytes, outputs, pool
from scan_support import HARMLESS, HOSTILE, MODELS, ScanCase, environment, names_of, python_with
from terminals import heed_ctrl_c

# A number of seconds by which a sleeping process is told from others.
SLEEP = f'601.{os.getpid()}'


class RunCase(ScanCase):
    """A test with a folder of files, and a program that does something else first."""

    def setUp(self) -> None:
        super().setUp()
        self.files = self.folder / 'files'
        self.files.mkdir()
        self.program = find_program()

    def fill(self, count: int) -> List[str]:
        """Files of a few bytes, each with its name in it; every tenth is hostile."""
        names = [f'{number:04}.pkl' for number in range(count)]
        for number, name in enumerate(names):
            argument = f'id {name}'.encode()
            hostile = HOSTILE.replace(b'\x02\0\0\0id', len(argument).to_bytes(4, 'little') + argument)
            (self.files / name).write_bytes(hostile if number % 10 == 0 else pickle.dumps((name, OrderedDict), 4))
        return names

    def wrapped(self, line: str) -> Dict[str, str]:
        """An environment whose program first does what a line of shell says; `$file` is the name in what it is given, which may be a copy."""
        script = self.folder / 'program'
        script.write_text(f'#!/bin/bash\nfile=$(grep -ao "[0-9]*\\.pkl" -- "${{!#}}")\n{line}\nexec {self.program} "$@"\n')
        script.chmod(0o755)
        return {**environment(), 'PICKLESTEP_PROGRAM': str(script)}

    def start(self, words: List[str], env: Dict[str, str], python: str = sys.executable) -> 'subprocess.Popen[str]':
        """A run that goes on, as a group of its own, which Ctrl-C reaches."""
        return subprocess.Popen([python, '-m', 'picklestep', 'scan', *words], cwd=self.folder, env=env, stdout=subprocess.PIPE,
                                stderr=subprocess.PIPE, text=True, preexec_fn=heed_ctrl_c, start_new_session=True)

    def wait_for(self, test: Callable[[], bool]) -> None:
        """Waits until something holds, ten minutes at most."""
        end = time.monotonic() + 600
        while not test():
            self.assertLess(time.monotonic(), end)
            time.sleep(0.05)


class Opened(RunCase):
    """What the command is given open: standard input, and pipes of the shell."""

    def shell(self, line: str, status: int = 1) -> str:
        """The output of a line of the shell, where `$scan` is the command."""
        scan = f'{sys.executable} -m picklestep scan --brief'
        run = subprocess.run(['bash', '-c', line], cwd=self.folder, env={**environment(), 'scan': scan}, timeout=300, capture_output=True, text=True)
        self.assertEqual((run.returncode, run.stderr), (status, ''), (line, run.stdout))
        return run.stdout

    def test_each_is_looked_at(self) -> None:
        self.file('a.pkl', HOSTILE)
        self.file('b.pkl', HARMLESS)
        for line, place in (('cat a.pkl | $scan --allow plain /dev/stdin', '/dev/stdin'), ('cat a.pkl | $scan --jobs 2 -- b.pkl /dev/stdin', '/dev/stdin'),
                            ('$scan --jobs 2 /dev/stdin b.pkl <a.pkl', '/dev/stdin'), ('$scan --jobs 3 b.pkl /dev/fd/7 b.pkl 7<a.pkl', '/dev/fd/7'),
                            ('cat a.pkl | $scan /proc/self/fd/0', '/proc/self/fd/0'), ('cat a.pkl | (cd /dev; $scan stdin)', 'stdin'),
                            ('ln -s /dev/stdin in; cat a.pkl | $scan in', 'in'), ('$scan --jobs 2 in b.pkl <a.pkl', 'in'),
                            ('tar c a.pkl b.pkl | $scan /dev/stdin', '/dev/stdin > a.pkl'), ('gzip -nc a.pkl | $scan /dev/stdin', '/dev/stdin > (gzip)')):
            self.assertIn(f'! {place}: import posix.system once, first at 0', self.shell(line), line)
        self.assertRegex(self.shell('$scan <(cat b.pkl) <(cat a.pkl)'), r'! /dev/fd/[0-9]+: import posix.system once')
        self.assertIn('1 file, 1 pickle', self.shell('cat b.pkl | $scan /dev/stdin', 0))
        self.assertIn('1 file, 1 pickle in 1 of them, 1 skipped', self.shell('mkfifo files/f.pkl; cp b.pkl files; $scan files', 0))

    def test_more_than_may_be_held(self) -> None:
        self.assertIn('! /dev/stdin: it gives more than the 16,777,216 bytes that may be held at once: the first of them are looked at\n',
                      self.shell('head -c 16777217 /dev/zero | $scan --max-memory 64M /dev/stdin', 3))
        self.shell('head -c 16777216 /dev/zero | $scan --max-memory 64M /dev/stdin', 0)


class Runs(RunCase):
    """Started as a user starts them."""

    def test_jobs_answer_as_one_does(self) -> None:
        for model in MODELS.glob('*_*'):
            shutil.copy(model, self.files)
        one, four = self.scan('files', '--json'), self.scan('files', '--json', '--jobs', '4')
        self.assertEqual(sorted(one.stdout.splitlines()), sorted(four.stdout.splitlines()))
        self.assertEqual((one.returncode, one.stderr), (four.returncode, four.stderr))

    def test_seconds_that_no_clock_counts(self) -> None:
        (self.files / 'a.pkl').write_bytes(b'N' * (1 << 17) + b'.')
        runs = [self.scan('files', '--json', '--max-seconds', str(seconds)) for seconds in (60, 10**7, 10**30)]
        self.assertEqual([(run.returncode, run.stdout) for run in runs], [(runs[0].returncode, runs[0].stdout)] * 3)
        self.assertNotIn('cannot be read', runs[0].stdout)

    def test_a_worker_that_dies_costs_a_second_try(self) -> None:
        names = self.fill(8)
        env = self.wrapped('case $file in *0003.pkl) [ -e "$0.seen" ] || { : >"$0.seen"; kill -9 $PPID; sleep 1; };; esac')
        run = subprocess.run([sys.executable, '-m', 'picklestep', 'scan', 'files', '--json', '--jobs', '2'], cwd=self.folder, env=env,
                             capture_output=True, text=True, timeout=600)
        results = [json.loads(line) for line in run.stdout.splitlines()]
        self.assertEqual(sorted(result['path'] for result in results), [f'files/{name}' for name in names])
        self.assertEqual([result['error'] for result in results], [None] * 8)
        self.assertTrue(os.path.exists(f'{self.folder}/program.seen'))

    def test_a_worker_that_dies_at_one_of_many_small_files(self) -> None:
        names = self.fill(len(chosen(range(120), 12)))
        fatal = names[len(names) * 3 // 4 - 1]
        env = self.wrapped(f'case $file in *{fatal}) kill -9 $PPID; sleep 1;; esac')
        run = subprocess.run([sys.executable, '-m', 'picklestep', 'scan', 'files', '--json', '--jobs', '2'], cwd=self.folder, env=env,
                             capture_output=True, text=True, timeout=300)
        results = {result['path']: result['error'] for result in map(json.loads, run.stdout.splitlines())}
        self.assertEqual(sorted(results), [f'files/{name}' for name in names])
        self.assertEqual([path for path, error in results.items() if error is not None], [f'files/{fatal}'])

    def test_a_file_that_kills_each_worker(self) -> None:
        self.fill(6)
        env = self.wrapped('case $file in *0003.pkl) kill -9 $PPID; sleep 1;; esac')
        run = subprocess.run([sys.executable, '-m', 'picklestep', 'scan', 'files', '--jobs', '2'], cwd=self.folder, env=env,
                             capture_output=True, text=True, timeout=600)
        self.assertEqual(run.returncode, 1)
        self.assertIn('! files/0003.pkl: cannot be read: the process that looked at it ended without an answer, 2 times', run.stdout)
        self.assertIn('6 files, 5 pickles', run.stdout)

    def test_a_program_that_dies(self) -> None:
        self.fill(3)
        env = self.wrapped('case $file in *0001.pkl) kill -9 $$;; esac')
        run = subprocess.run([sys.executable, '-m', 'picklestep', 'scan', 'files'], cwd=self.folder, env=env, capture_output=True, text=True,
                             timeout=600)
        self.assertIn('! files/0001.pkl: the program did not read all of it: ended by signal 9', run.stdout)
        self.assertIn('3 files, 3 pickles', run.stdout)
        self.assertIn('1 pickle not read to a STOP, 1 file not looked at whole', run.stdout)

    def test_ctrl_c(self) -> None:
        self.fill(30)
        env = self.wrapped(f'case $file in *001*.pkl) exec sleep {SLEEP};; esac')
        for jobs in ('1', '3'):
            with self.subTest(jobs):
                run = self.start(['files', '--jobs', jobs], env)
                assert run.stdout is not None
                first = run.stdout.readline()
                self.wait_for(lambda: self.sleeping() > 0)
                begin = time.monotonic()
                os.killpg(run.pid, signal.SIGINT)  # (as a terminal does)
                rest, errors = run.communicate(timeout=600)
                self.assertLess(time.monotonic() - begin, 300)
                self.assertEqual((run.returncode, errors), (130, ''))
                self.assertRegex(first, r'^  files/\d+\.pkl: ')
                self.assertRegex(rest, r'(?m)^interrupted: this is what was found in \d+ files$')
                self.assertRegex(rest, r'(?m)^[! ] (posix\.system|collections\.OrderedDict): ')
                self.wait_for(lambda: self.sleeping() == 0)

    def sleeping(self) -> int:
        """How many of the sleeping programs there are."""
        count = 0
        for place in Path('/proc').glob('[0-9]*/cmdline'):
            try:
                count += place.read_bytes() == f'sleep\0{SLEEP}\0'.encode()
            except OSError:
                pass
        return count

    def test_going_on_from_a_log(self) -> None:
        names = self.fill(6)
        whole = self.scan('files', '--json').stdout.splitlines(keepends=True)
        log = self.file('log', ''.join(whole[:3]).encode() + whole[3][:40].encode())
        run = self.scan('files', '--json', '--resume', 'log')
        self.assertEqual(run.stdout, ''.join(whole[3:]))
        self.assertRegex(run.stderr, r'^6 files, 6 pickles')
        log.write_text(''.join(whole))
        self.assertEqual(self.scan('files', '--json', '--resume', 'log').stdout, '')
        (self.files / names[2]).write_bytes(HOSTILE + HOSTILE)
        run = self.scan('files', '--json', '--resume', 'log')
        self.assertEqual([json.loads(line)['path'] for line in run.stdout.splitlines()], [f'files/{names[2]}'])
        self.assertEqual(self.scan('files', '--resume', 'no_such_log').returncode, 2)

    def test_files_of_one_tick_that_change_places(self) -> None:
        """Their sizes and times are the same, and no inode changes where their folders are renamed."""
        def times(name: str) -> Tuple[int, int]:
            state = os.stat(self.folder / name / 'a.pkl')
            return state.st_mtime_ns, state.st_ctime_ns
        for _ in range(500):
            self.file('one/a.pkl', HOSTILE)
            self.file('other/a.pkl', HOSTILE.replace(b'posix', b'poxis'))
            for name in ('one', 'other'):
                os.utime(self.folder / name / 'a.pkl', (1, 1))
            if times('one') == times('other'):
                break
        else:
            self.skipTest('the clock of this file system is too fine')
        self.file('log', self.scan('other', '--json').stdout.encode())
        for name, new in (('one', 'kept'), ('other', 'one'), ('kept', 'other')):
            os.rename(self.folder / name, self.folder / new)
        run = self.scan('other', '--json', '--resume', 'log')
        self.assertEqual(run.returncode, 1)
        self.assertEqual([look['name'] for look in json.loads(run.stdout)['looks']], ['posix.system'])

    def test_other_bytes_in_the_same_file(self) -> None:
        self.file('a.pkl', HARMLESS)
        log = self.scan('a.pkl', '--json').stdout
        self.assertEqual(json.loads(log)['sha256'], hashlib.sha256(HARMLESS).hexdigest())
        self.file('log', log.encode())
        self.assertEqual(self.scan('a.pkl', '--json', '--resume', 'log').stdout, '')
        self.file('log', log.replace(hashlib.sha256(HARMLESS).hexdigest(), hashlib.sha256(HOSTILE).hexdigest()).encode())
        self.assertEqual(len(self.scan('a.pkl', '--json', '--resume', 'log').stdout.splitlines()), 1)

    def test_what_is_beside_it_and_read_with_it(self) -> None:
        """The index of `dbm.dumb` says which bytes are a value, and SQLite reads its log."""
        content = b'\x80\x03C' + bytes([len(HOSTILE)]) + HOSTILE + b'q\0.'
        self.file('files/a.dat', content)
        self.file('files/a.dir', f"'k', (0, {len(content)})\n".encode())
        with closing(sqlite3.connect(self.files / 'a.db')) as connection:
            connection.execute('PRAGMA journal_mode=WAL')
            connection.execute('CREATE TABLE a (b)')
            connection.commit()
        run = self.scan('files', '--json')
        self.assertEqual(run.returncode, 0, run.stdout)
        self.file('log', run.stdout.encode())
        self.file('files/a.dir', f"'k', (4, {len(HOSTILE)})\n".encode())
        with dbm.dumb.open(str(self.files / 'a'), 'r') as values:
            self.assertEqual(values[b'k'], HOSTILE)
        with closing(sqlite3.connect(self.files / 'a.db')) as connection:
            connection.execute('PRAGMA wal_autocheckpoint=0')
            connection.execute('INSERT INTO a VALUES (?)', (HOSTILE,))
            connection.commit()
            modified = {found['path']: found['modified'] for found in map(json.loads, (self.folder / 'log').read_text().splitlines())}
            self.assertEqual(modified['files/a.db'], os.stat(self.files / 'a.db').st_mtime_ns)
            run = self.scan('files', '--json', '--resume', 'log')
        named = {found['path']: [each['name'] for each in found['looks']] for found in map(json.loads, run.stdout.splitlines())}
        self.assertEqual(run.returncode, 1)
        self.assertIn('posix.system', named['files/a.dat'])
        self.assertIn('posix.system', named['files/a.db'])

    def test_a_log_that_is_none(self) -> None:
        """Its lines count as not there."""
        self.fill(2)
        odd = '{"path": [], "size": 1, "modified": 1, "changed": 1, "pickles": [], "notes": [], "not_pickles": 0, "forms": {}, "error": null, "skipped": null}'
        self.file('log', '\n'.join(['[' * 100_000, '{"path": ' * 100_000, '[]', '""', 'null', odd, '']).encode())
        run = self.scan('files', '--json', '--resume', 'log')
        self.assertEqual(len(run.stdout.splitlines()), 2)
        self.assertRegex(run.stderr, r'^2 files, 2 pickles')

    def test_going_on_in_the_same_log(self) -> None:
        names = self.fill(30)
        env = self.wrapped('sleep 0.02')
        log = self.folder / 'log'
        run = self.start(['files', '--json'], env)
        assert run.stdout is not None and run.stderr is not None
        # What a pipe had brought when the run was killed: three lines, and a part of the fourth.
        log.write_text(''.join(run.stdout.readline() for _ in range(3)) + run.stdout.read(50))
        run.kill()
        run.wait(600)
        run.stdout.close()
        run.stderr.close()
        for _ in range(2):  # (the second run finds nothing to do, and writes nothing)
            with open(log, 'ab') as out:
                again = subprocess.run([sys.executable, '-m', 'picklestep', 'scan', 'files', '--json', '--resume', 'log'], cwd=self.folder,
                                       env=environment(), stdout=out, stderr=subprocess.PIPE, text=True, timeout=600)
            self.assertRegex(again.stderr, '^30 files, 30 pickles')
        lines = log.read_text().splitlines()
        self.assertEqual(len(lines), 31)
        self.assertEqual(len(lines.pop(3)), 50)
        self.assertEqual([json.loads(line)['path'] for line in lines], [f'files/{name}' for name in names])
        # What goes into another file begins with its own first line.
        log.write_text('{"path": "cut')
        with open(self.folder / 'other', 'wb') as out:
            subprocess.run([sys.executable, '-m', 'picklestep', 'scan', 'files/0001.pkl', '--json', '--resume', 'log'], cwd=self.folder,
                           env=environment(), stdout=out, stderr=subprocess.DEVNULL, timeout=600)
        self.assertTrue((self.folder / 'other').read_text().startswith('{"path": "files/0001.pkl"'))

    def leave(self, *words: str) -> None:
        """Reads the first line of a run, and leaves."""
        run = self.start(['files', *words], environment())
        assert run.stdout is not None and run.stderr is not None
        run.stdout.readline()
        run.stdout.close()
        self.assertEqual(run.wait(600), 128 + signal.SIGPIPE)
        self.assertEqual(run.stderr.read(), '')
        run.stderr.close()

    # (a pipe holds 64 KiB: what is printed must not fit into it, or all of it may be written before the reader leaves)
    def test_a_reader_that_leaves(self) -> None:
        self.fill(600)
        self.leave('--json')

    def test_a_reader_that_leaves_and_other_files(self) -> None:
        """These are written whole."""
        self.fill(600)
        self.scan('files', '--sarif', 'whole', '--write-allow', 'whole.txt')
        self.leave('--sarif', 'left', '--write-allow', 'left.txt')
        for whole, left in (('whole', 'left'), ('whole.txt', 'left.txt')):
            self.assertEqual((self.folder / left).read_text(), (self.folder / whole).read_text())

    def test_what_is_done_without_end(self) -> None:
        """Until Ctrl-C, at which other files are written; what is not done is refused."""
        url = 'redis://127.0.0.1:1/0'
        for words in (['--brief'], ['--jobs', '2'], ['--cluster', 'tcp://127.0.0.1:1'], ['--resume', 'log'], ['--sample', '3'], ['--null']):
            run = self.scan('--follow', url, *words)
            self.assertEqual((run.returncode, run.stdout, run.stderr), (2, '', f'picklestep: --follow takes no {words[0]}\n'))

        def follow(*_: object) -> Iterator[Result]:
            yield look_at_bytes('key', HOSTILE)
            raise KeyboardInterrupt

        sarif, names, out, summary = self.folder / 'a.sarif', self.folder / 'a.txt', io.StringIO(), io.StringIO()
        with unittest.mock.patch('picklestep.scan.stores.follow.follow', follow), redirect_stdout(out), redirect_stderr(summary):
            self.assertEqual(command.main(['--follow', url, '--sarif', str(sarif), '--write-allow', str(names)]), 130)
        self.assertEqual([json.loads(line)['path'] for line in out.getvalue().splitlines()], ['key'])
        self.assertIn('! posix.system: once', summary.getvalue())
        self.assertIn('posix.system', names.read_text())
        self.assertTrue(json.loads(sarif.read_text())['runs'][0]['results'])

    def test_a_reader_that_leaves_ends_what_has_no_end(self) -> None:
        def follow(*_: object) -> Iterator[Result]:
            while True:
                yield look_at_bytes('key', HOSTILE)

        sarif = self.folder / 'a.sarif'
        left = unittest.mock.patch.object(outputs.Report, 'write', side_effect=BrokenPipeError)
        stays = [unittest.mock.patch.object(module, 'leave') for module in (command, outputs)]
        with unittest.mock.patch('picklestep.scan.stores.follow.follow', follow), stays[0], stays[1], left:
            self.assertEqual(command.main(['--follow', 'redis://127.0.0.1:1/0', '--sarif', str(sarif)]), 141)
        self.assertEqual(len(json.loads(sarif.read_text())['runs'][0]['results']), 1)

    def test_other_files_that_cannot_be_written(self) -> None:
        """The run says so before the first file. What was there stays as it was, and what was not there is not there."""
        self.fill(1)
        kept = self.file('kept', b'mine')
        before = kept.stat()
        for option in ('--sarif', '--write-allow'):
            other = '--sarif' if option == '--write-allow' else '--write-allow'
            for name, why in (('none/list', errno.ENOENT), ('files', errno.EISDIR), ('n' * 300, errno.ENAMETOOLONG)):
                for beside in ('kept', 'new'):
                    run = self.scan('files', option, name, other, beside)
                    self.assertEqual((run.returncode, run.stdout, run.stderr), (2, '', f'picklestep: cannot write {name}: {os.strerror(why)}\n'))
        self.assertEqual((kept.read_bytes(), kept.stat().st_mtime_ns), (b'mine', before.st_mtime_ns))
        self.assertEqual(sorted(os.listdir(self.folder)), ['files', 'kept'])

    @unittest.skipUnless(os.path.exists('/dev/full'), 'there is no /dev/full')
    def test_a_full_disk_loses_no_summary(self) -> None:
        self.fill(1)
        for words in (['--sarif', '/dev/full', '--write-allow', 'other'], ['--write-allow', '/dev/full', '--sarif', 'other']):
            run = self.scan('files', '--brief', *words)
            self.assertEqual((run.returncode, run.stderr), (2, 'picklestep: cannot write /dev/full: No space left on device\n'))
            self.assertIn('1 file, 1 pickle in 1 of them, 1 import to look at\n! posix.system: once', run.stdout)
            other = self.folder / 'other'
            self.assertIn('posix.system', other.read_text())
            other.unlink()

    @unittest.skipUnless(hasattr(os, 'mkfifo'), 'the system has no FIFOs')
    def test_other_files_at_the_end_of_links_and_pipes(self) -> None:
        self.fill(1)
        (self.folder / 'link').symlink_to('new')
        os.mkfifo(self.folder / 'pipe')
        with subprocess.Popen(['timeout', '300', 'cat', 'pipe'], cwd=self.folder, stdout=subprocess.PIPE, text=True) as reader:
            self.assertEqual(self.scan('files', '--sarif', 'link', '--write-allow', 'pipe').stderr, '')
            assert reader.stdout is not None
            self.assertIn('posix.system', reader.stdout.read())
        self.assertTrue((self.folder / 'link').is_symlink() and json.loads((self.folder / 'new').read_text())['runs'])

    @unittest.skipUnless(os.path.exists('/dev/stdout'), 'standard output has no name')
    def test_standard_output_has_all(self) -> None:
        """Opened anew, a file would be emptied."""
        self.fill(1)
        with open(self.folder / 'out', 'w') as out:
            subprocess.run([sys.executable, '-m', 'picklestep', 'scan', 'files', '--brief', '--sarif', '/dev/stdout'], cwd=self.folder,
                           env=environment(), stdout=out, timeout=300, check=False)
        report, brace, rest = (self.folder / 'out').read_text().partition('{')
        self.assertIn('1 import to look at', report)
        self.assertTrue(json.loads(brace + rest)['runs'])

    def test_words_that_do_nothing_are_refused(self) -> None:
        self.fill(1)
        for words, wanted in ((['--match', 'a*'], 'a server'), (['--sample', '3'], 'a server'), (['--null'], '-, which')):
            run = self.scan('files', *words)
            self.assertEqual((run.returncode, run.stdout), (2, ''))
            self.assertRegex(run.stderr, f'^picklestep: {words[0]} wants {wanted}')

    def test_numbers_that_are_none(self) -> None:
        for option in ('--jobs', '--sample', '--max-members', '--max-depth', '--max-seconds', '--max-lines'):
            for number in ('x', '0', '-1', '0.5', 'nan', ''):
                with self.subTest((option, number)), redirect_stderr(io.StringIO()) as told, self.assertRaises(SystemExit) as end:
                    command.main(['files', f'{option}={number}'])
                self.assertEqual(end.exception.code, 2)
                self.assertTrue(told.getvalue().endswith(f'error: argument {option}: {number!r} is no whole number above 0\n'), told.getvalue())

    def test_progress_on_a_terminal(self) -> None:
        self.fill(5)
        for python in (python_with('rich'), sys.executable):
            if python is None:
                continue
            with self.subTest(python):
                # (the line that counts is wiped out at the last file, the bar of `rich` is with it)
                self.assertRegex(re.sub(r'\x1b\[[0-9;?]*[a-zA-Z]', '', self.on_terminal(python)), '[45] of 5 files')

    def on_terminal(self, python: str) -> str:
        """What a run writes on a terminal as its standard error."""
        near, far = pty.openpty()
        run = subprocess.Popen([python, '-m', 'picklestep', 'scan', 'files'], cwd=self.folder, env={**environment(), 'TERM': 'xterm'},
                               stdout=subprocess.DEVNULL, stderr=far)
        os.close(far)
        told = b''
        while True:
            try:
                if not select.select([near], [], [], 600)[0]:
                    break
                piece = os.read(near, 4096)
            except OSError:
                break
            if not piece:
                break
            told += piece
        os.close(near)
        self.assertEqual(run.wait(600), 1)
        return told.decode()


class Cluster(RunCase):
    """A Dask cluster with a scheduler and two workers on the loopback address."""

    def setUp(self) -> None:
        super().setUp()
        self.python = python_with('distributed') or ''
        if not self.python:
            self.skipTest('dask.distributed is not installed')

    def started(self, module: str, *words: str, env: Dict[str, str]) -> 'subprocess.Popen[bytes]':
        process = subprocess.Popen([self.python, '-m', f'distributed.cli.{module}', *words], cwd=self.folder, env=env,
                                   stdout=subprocess.DEVNULL, stderr=subprocess.DEVNULL)
        self.addCleanup(process.wait)
        self.addCleanup(process.kill)
        return process

    def test_one_of_two_workers_is_killed(self) -> None:
        names = self.fill(60)
        env = self.wrapped('sleep 0.05')
        told = self.folder / 'scheduler.json'
        self.started('dask_scheduler', '--host', '127.0.0.1', '--port', '0', '--no-dashboard', '--scheduler-file', str(told), env=env)
        self.wait_for(lambda: told.exists() and told.stat().st_size > 0)
        address = json.loads(told.read_text())['address']
        workers = [self.started('dask_worker', address, '--no-nanny', '--no-dashboard', '--nthreads', '2', env=env) for _ in range(2)]
        run = self.start(['files', '--json', '--cluster', address], env, self.python)
        assert run.stdout is not None and run.stderr is not None
        lines = [run.stdout.readline() for _ in range(10)]
        workers[0].kill()
        lines += run.stdout.readlines()
        errors = run.stderr.read()
        self.assertEqual(run.wait(600), 1, errors)
        results = [json.loads(line) for line in lines]
        self.assertEqual(sorted(result['path'] for result in results), [f'files/{name}' for name in names])
        self.assertEqual([result['error'] for result in results], [None] * 60)
        self.assertIn('60 files, 60 pickles in 60 of them', errors)
        self.assertIsNotNone(workers[0].wait(600))
        self.assertIsNone(workers[1].poll())
        run.stdout.close()
        run.stderr.close()

    def test_no_cluster(self) -> None:
        self.fill(1)
        run = self.scan('files', '--cluster', 'tcp://127.0.0.1:1', python=self.python)
        self.assertEqual(run.returncode, 2)
        self.assertRegex(run.stderr, '(?m)^picklestep: no cluster answers at tcp://127.0.0.1:1')

    def test_no_address(self) -> None:
        """It is refused, and nothing that was half made says more at the end of Python."""
        self.fill(1)
        for address in ('foo', 'foo://127.0.0.1:1', 'tcp://127.0.0.1:x', 'tls://127.0.0.1:1'):
            run = self.scan('files', '--cluster', address, python=self.python)
            self.assertEqual((run.returncode, run.stdout), (2, ''))
            self.assertRegex(run.stderr, rf'\Apicklestep: (no cluster answers at )?{address}(: TLS| is no address of a cluster).*\n\Z')


class AFewWorkers(ScanCase):
    """The processes of `--jobs`, asked directly."""

    def test_results(self) -> None:
        paths = [str(self.file(f'{number}.pkl', HOSTILE)) for number in range(5)] + [str(self.folder / 'none')]
        results = {result.path: result for result in pool.look_at_all(paths, Options(), 3)}
        self.assertEqual(results, {path: look(path) for path in paths})
        self.assertEqual(names_of(results[paths[0]]), ['posix.system'])

    def test_nothing_to_do(self) -> None:
        self.assertEqual(list(pool.look_at_all([], Options(), 4)), [])

    def test_many_at_once_come_once_each(self) -> None:
        paths = [str(self.file(f'{number}.pkl', HOSTILE)) for number in range(200)]
        self.assertEqual(sorted(result.path for result in pool.look_at_all(paths, Options(), 2)), sorted(paths))

    def test_a_worker_answers_in_time(self) -> None:
        paths = [str(self.file(f'{number}.pkl', HOSTILE)) for number in range(5)]
        for turn, count in ((0.0, 1), (60.0, 5)):
            with unittest.mock.patch.object(processes, '_TURN', turn):
                self.assertEqual([result.path for result in processes._first_results(paths, pool.Looks(Options()))], paths[:count])

    def test_ctrl_c_while_a_copy_is_made(self) -> None:
        """A copy that it reaches ends without a word, and does nothing that the parent would do."""
        path = self.file('a.pkl', HOSTILE)
        code = ('import os, signal, sys\nsys.path.insert(0, sys.argv[1])\nfrom picklestep.scan import Options, pool\nfork = os.fork\n'
                'os.fork = lambda: fork() or os.kill(os.getpid(), signal.SIGINT) or 0\n'
                'print(sum(len(each.pickles) for each in pool.look_at_all(sys.argv[2:] * 3, Options(), 2)), flush=True)\n')
        words = [sys.executable, '-I', '-c', code, os.path.dirname(os.path.dirname(os.path.dirname(pool.__file__))), str(path)]
        run = subprocess.run(words, capture_output=True, text=True, timeout=600, preexec_fn=heed_ctrl_c)
        self.assertEqual((run.stdout, run.stderr), ('3\n', ''))

    def test_no_dask(self) -> None:
        if python_with('distributed') == sys.executable:
            self.skipTest('dask.distributed is installed')
        with self.assertRaises(cluster.NoCluster):
            list(cluster.look_on_cluster(['x'], Options(), 'tcp://127.0.0.1:1'))


if __name__ == '__main__':
    unittest.main()
