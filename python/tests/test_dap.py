"""Whole conversations of an editor with `picklestep dap`."""

from __future__ import annotations

import base64
import contextlib
import io
import json
import os
import pickle
import pickletools
import random
import re
import socket
import subprocess
import sys
import tempfile
import unittest
import zipfile
from pathlib import Path
from typing import Any, List, Tuple
from unittest import mock

import picklestep
from dap_client import Client, Failed, framed, messages_in
from dap_schema import OF_CAPABILITIES
from picklestep.dap.adapter import Adapter
from picklestep.dap.command import converse
from picklestep.shell.words import SAMPLE
from pickles import REAL, ROOT
from scan_support import environment

# What is nested: `{'a': [1, (2, 3, 4, 5)], 'b': {}}`.
NESTED = pickle.dumps({'a': [1, (2, 3, 4, 5)], 'b': {}}, 4)


class DapCase(unittest.TestCase):
    """With files in a folder of its own."""

    def setUp(self) -> None:
        folder = tempfile.TemporaryDirectory()
        self.addCleanup(folder.cleanup)
        self.folder = folder.name

    def file(self, data: bytes, name: str = 'a.pickle') -> str:
        path = Path(self.folder, name)
        path.write_bytes(data)
        return str(path)

    def client(self) -> Client:
        client = Client.here()
        self.addCleanup(client.close)
        return client

    def launched(self, data: bytes, **arguments: Any) -> Client:
        client = self.client()
        client.launch(self.file(data), **arguments)
        return client

    def fails(self, client: Client, why: str, command: str, **arguments: Any) -> None:
        with self.assertRaisesRegex(Failed, why):
            client.ask(command, **arguments)


class Moves(DapCase):
    """Forwards and back."""

    def test_pause(self) -> None:
        """A run that would take minutes is over at once, on both ways, and goes on from where it was."""
        client = self.launched(b'\x80\x04' + b'N0' * 30_000 + b'N.')
        client.type('goto 30000')
        client.type("break if top == 'never'")
        places = [client.line()]
        for command in ('continue', 'reverseContinue'):
            for _ in range(2):
                client.events.clear()
                client.ask(command, threadId=1)
                self.assertEqual(client.ask('pause', threadId=1), {})
                self.assertEqual(client.events, [])  # (the answer comes first)
                self.assertEqual(client.event('stopped'), {'reason': 'pause', 'threadId': 1, 'allThreadsStopped': True})
                places.append(client.line())
        self.assertEqual((places[:3], places[2:]), (sorted(places[:3]), sorted(places[2:], reverse=True)))
        client.ask('pause', threadId=1)
        self.assertEqual((client.line(), client.events), (places[-1], []))  # (nothing goes on)
        client.ask('continue', threadId=1)
        self.assertEqual(client.leave(), 0)

    def test_progress(self) -> None:
        """Only an editor that shows it is told how long something takes: to open a pickle, and to run."""
        path = self.file(b'\x80\x04' + b'N0' * 30_000 + b'N.')
        for is_shown in (True, False):
            client = self.client()
            client.ask('initialize', adapterID='pickle', supportsProgressReporting=is_shown)
            with mock.patch('picklestep.waiting._TOLD_AFTER', 0):
                client.ask('launch', program=path)
                told = [each for each in client.events if each['event'].startswith('progress')]
                if not is_shown:
                    self.assertEqual(told, [])
                    continue
                self.assertEqual((told[0]['event'], told[-1]['event']), ('progressStart', 'progressEnd'))
                self.assertRegex(told[0]['body']['message'], r' \.\. 0 s$')
                client.event('initialized')
                client.configured()
                client.type("break if top == 'never'")
                client.ask('continue', threadId=1)
                client.events.clear()  # (those of the request itself)
                number = client.event('progressStart')['progressId']
                client.ask('pause', threadId=1)
                self.assertEqual(client.event('progressEnd')['progressId'], number)
                self.assertGreater(int(number), int(told[-1]['body']['progressId']))
            self.assertEqual((client.event('stopped')['reason'], client.leave()), ('pause', 0))

    def test_long_ways_without_conditions(self) -> None:
        """They end where a short one does."""
        client = self.launched(b'\x80\x04' + b'N0' * 60_000 + b'K\x01R.')
        self.assertEqual((client.go('continue')['text'][:2], client.line()), ('S2', 120_003))
        self.assertEqual((client.go('reverseContinue')['description'], client.line()), ('You are at the start.', 1))

    def test_real_pickles_forwards_and_back(self) -> None:
        """It is where `pickletools` has the opcodes."""
        small = [path.read_bytes() for path in REAL if path.stat().st_size < 600]
        for data in random.Random(1).sample([data for data in small if picklestep.listing(data).end.is_stopped], 4):
            offsets = [offset for _, _, offset in pickletools.genops(data) if offset is not None]
            client = self.launched(data)
            for offset in [*offsets[1:], offsets[-1] + 1]:
                self.assertEqual(client.go('stepIn')['reason'], 'step')
                self.assertEqual(client.offset(), offset)
            self.assertEqual(client.go('stepIn')['description'], 'You are at the end: stopped.')
            for offset in reversed(offsets):
                client.go('stepBack')
                self.assertEqual(client.offset(), offset)
            self.assertEqual(client.go('stepBack')['description'], 'You are at the start.')
            self.assertEqual(client.go('continue')['reason'], 'pause')
            self.assertEqual(client.offset(), offsets[-1] + 1)
            self.assertEqual(client.go('reverseContinue')['description'], 'You are at the start.')
            self.assertEqual(client.leave(), 0)

    def places(self, client: Client, *commands: str) -> List[int]:
        found = []
        for command in commands:
            client.go(*command.split()[:1], **({'granularity': 'instruction'} if command.endswith('one') else {}))
            found.append(client.line() - 1)
        return found

    def test_over_in_and_out(self) -> None:
        names = [opcode.name for opcode, _, _ in pickletools.genops(NESTED)]
        self.assertEqual(names[4:10], ['MARK', 'SHORT_BINUNICODE', 'MEMOIZE', 'EMPTY_LIST', 'MEMOIZE', 'MARK'])
        inner, taken = 11, names.index('TUPLE')
        self.assertEqual((names[inner], names[taken + 2]), ('MARK', 'APPENDS'))
        client = self.launched(NESTED)
        self.assertEqual(self.places(client, 'next', 'next', 'next', 'next'), [1, 2, 3, 4])
        self.assertEqual(self.places(client, 'next'), [names.index('SETITEMS') + 1])
        self.assertEqual(self.places(client, 'stepBack', *['stepBack'] * 3)[-1], names.index('SETITEMS') - 3)
        client.ask('goto', threadId=1, targetId=inner)
        self.assertEqual(client.event('stopped')['reason'], 'goto')
        self.assertEqual(self.places(client, 'next one', 'stepOut', 'stepOut', 'stepOut'),
                         [inner + 1, taken + 1, taken + 3, names.index('SETITEMS') + 1])

    def test_frames_are_the_marks(self) -> None:
        client = self.launched(NESTED)
        client.ask('goto', threadId=1, targetId=13)
        client.event('stopped')
        frames = client.frames()
        self.assertEqual([(frame['name'], frame['line'] - 1) for frame in frames],
                         [('mark of 11', 13), ('mark of 9', 11), ('mark of 4', 9), ('a.pickle', 4)])
        self.assertEqual(client.ask('stackTrace', threadId=1, startFrame=1, levels=2)['stackFrames'], frames[1:3])
        stacks = [[each['value'] for each in client.variables(client.scope('Stack', frame['id']))] for frame in frames]
        self.assertEqual(stacks[0], ['2', 'mark of 11', '1', 'mark of 9', '[]', "'a'", 'mark of 4', '{}'])
        self.assertEqual(stacks[1:], [stacks[0][2:], stacks[0][4:], stacks[0][7:]])
        self.assertEqual(list(client.shown('Marks').values()), ['set by opcode 4', 'set by opcode 9', 'set by opcode 11'])
        self.fails(client, 'there is no frame 5', 'scopes', frameId=5)

    def test_an_opcode_that_is_refused(self) -> None:
        for data, place, code in ((b'NNN0000.', 6, 'S2'), (b'Ne.', 1, 'S1')):
            client = self.launched(data)
            for command in ('continue', 'stepIn', 'next', 'continue'):
                stopped = client.go(command)
                self.assertEqual((stopped['reason'], stopped['text'][:2], client.line() - 1), ('exception', code, place), command)
            self.assertEqual(client.ask('exceptionInfo', threadId=1)['exceptionId'], code)
            client.ask('goto', threadId=1, targetId=len(data))
            self.assertEqual(client.event('stopped')['reason'], 'exception')
            self.assertEqual(client.go('stepBack')['reason'], 'step')
            self.fails(client, 'is not refused', 'exceptionInfo', threadId=1)

    def test_targets_to_go_to(self) -> None:
        client = self.launched(SAMPLE)
        source = client.frames()[0]['source']
        target, = client.ask('gotoTargets', source=source, line=7)['targets']
        self.assertEqual(int(target['instructionPointerReference'], 16), 35)
        client.ask('goto', threadId=1, targetId=target['id'])
        client.event('stopped')
        self.assertEqual(client.offset(), 35)
        self.assertEqual(client.ask('gotoTargets', source=source, line=12)['targets'], [])
        self.assertEqual(client.ask('gotoTargets', source={'name': 'other.py'}, line=1)['targets'], [])
        client.ask('goto', threadId=1, targetId=12)
        self.assertIn('there is no target 12', client.event('output')['output'])
        client.event('stopped')
        self.assertEqual(client.offset(), 35)

    def test_nothing_is_run(self) -> None:
        """By a process of its own, too."""
        mark = Path(self.folder, 'ran')
        client = Client.started(self.folder)
        self.addCleanup(client.close)
        client.launch(self.file(b'cposix\nsystem\n(X%c\0\0\0touch %stR.' % (6 + len(os.fsencode(mark)), os.fsencode(mark))))
        client.go('continue')
        self.assertRegex(client.shown('Result')['result'], r"^posix\.system\('touch ")
        self.assertEqual(client.leave(), 0)
        self.assertFalse(mark.exists())

    def test_lines_from_0(self) -> None:
        client = self.client()
        client.ask('initialize', adapterID='pickle', linesStartAt1=False, columnsStartAt1=False)
        client.ask('launch', program=self.file(SAMPLE))
        client.event('initialized')
        client.configured()
        self.assertEqual((client.line(), client.frames()[0]['column']), (0, 0))
        self.assertEqual(client.ask('completions', text='bre', column=3)['targets'], [{'label': 'break', 'start': 0, 'length': 3}])


class Breakpoints(DapCase):
    """Each kind is set and hit, both ways."""

    def stops(self, client: Client, reason: str) -> List[int]:
        """The offsets at which it stops, which are the same both ways."""
        ways: List[List[int]] = []
        for command, end in (('continue', 'end'), ('reverseContinue', 'start')):
            found: List[int] = []
            while end not in (stopped := client.go(command)).get('description', ''):
                self.assertEqual(stopped['reason'], reason)
                self.assertEqual(len(stopped['hitBreakpointIds']), 1)
                found.append(client.offset())
            ways.append(found)
        self.assertEqual(ways[0], ways[1][::-1])
        return ways[0]

    def test_lines(self) -> None:
        client = self.launched(SAMPLE)
        listing, python = client.ask('loadedSources')['sources']
        rows = client.ask('source', sourceReference=listing['sourceReference'], source=listing)['content'].split('\n')
        wanted = [offset for _, _, offset in pickletools.genops(SAMPLE)]
        self.assertEqual([int(row.partition(':')[0]) for row in rows[:len(wanted)]], wanted)
        found = client.ask('setBreakpoints', source=listing, breakpoints=[{'line': 4}, {'line': 9}, {'line': 12}, {'line': 0}])['breakpoints']
        self.assertEqual([each['verified'] for each in found], [True, True, False, False])
        self.assertEqual(self.stops(client, 'breakpoint'), [wanted[3], wanted[8]])
        # Those of one source take the place of its own alone.
        code = client.ask('source', sourceReference=python['sourceReference'])['content'].split('\n')
        at = 1 + next(at for at, row in enumerate(code) if 'send(' in row)
        self.assertRegex(code[at - 1], r'  # 38$')
        found = client.ask('setBreakpoints', source=python, breakpoints=[{'line': at}, {'line': 1}])['breakpoints']
        self.assertEqual([(each['verified'], 'message' in each) for each in found], [(True, False), (False, True)])
        client.ask('setBreakpoints', source=listing, breakpoints=[])
        self.assertEqual(self.stops(client, 'breakpoint'), [38])
        found = client.ask('setBreakpoints', source={'path': '/tmp/other.py'}, breakpoints=[{'line': 1}])['breakpoints']
        self.assertEqual([each['verified'] for each in found], [False])
        self.assertEqual(self.stops(client, 'breakpoint'), [38])

    def test_lines_of_files(self) -> None:
        """As editors have them that show files alone."""
        client = self.launched(SAMPLE, files=True)
        listing, python = [Path(each['path']) for each in client.ask('loadedSources')['sources']]
        self.assertEqual(listing.stat().st_mode & 0o777 & listing.parent.stat().st_mode & 0o077, 0)
        self.assertEqual(client.frames()[0]['source']['path'], str(listing))
        self.assertEqual(python.read_text(encoding='utf-8'), picklestep.source(SAMPLE, full=False).text)
        for path, line in ((listing, 9), (python, 3)):
            found, = client.ask('setBreakpoints', source={'path': str(path)}, breakpoints=[{'line': line}])['breakpoints']
            self.assertTrue(found['verified'])
            self.assertEqual(self.stops(client, 'breakpoint'), [38])
            client.ask('setBreakpoints', source={'path': str(path)}, breakpoints=[])
        client.type("set 1 to 'alice'")
        self.assertEqual(client.event('loadedSource')['reason'], 'changed')
        self.assertIn("BINUNICODE 'alice'", listing.read_text(encoding='utf-8'))
        self.assertIn("send('alice', 3)", python.read_text(encoding='utf-8'))
        self.assertEqual(client.leave(), 0)
        self.assertFalse(listing.parent.exists())

    def test_functions(self) -> None:
        client = self.client()
        client.ask('initialize', adapterID='pickle')
        client.ask('launch', program=self.file(SAMPLE), stopOnEntry=False)
        client.event('initialized')
        found = client.ask('setFunctionBreakpoints', breakpoints=[{'name': 'oldapp.*'}, {'name': 'os.*'}, {'name': ' '}])['breakpoints']
        self.assertEqual([each['verified'] for each in found], [True, False, False])
        stopped = client.configured()
        self.assertEqual((stopped['reason'], stopped['hitBreakpointIds'], client.offset()), ('function breakpoint', [found[0]['id']], 2))
        client.go('stepBack')
        self.assertEqual(self.stops(client, 'function breakpoint'), [2, 38])
        self.assertEqual(client.ask('setFunctionBreakpoints', breakpoints=None), {'breakpoints': []})  # (so go-dap writes an empty array)
        for name, wanted in (('import *', [2]), ('call *.send', [38])):
            client.ask('setFunctionBreakpoints', breakpoints=[{'name': name}])
            self.assertEqual(self.stops(client, 'function breakpoint'), wanted)

    def test_data(self) -> None:
        data = b']q\0]q\1K\1aK\2a0h\0(K\3K\4eh\0K\5a0.'
        changes = [offset for opcode, _, offset in pickletools.genops(data) if opcode.name.startswith('APPEND')]
        client = self.launched(data)
        client.ask('goto', threadId=1, targetId=4)
        client.event('stopped')
        memo = client.scope('Memo')
        lists = {each['name']: each for each in client.variables(memo)}
        self.assertEqual([lists[key]['value'] for key in '01'], ['[]', '[]'])
        set_key = client.ask('dataBreakpointInfo', variablesReference=memo['variablesReference'], name='1')
        self.assertEqual(set_key['accessTypes'], ['write'])
        stack = client.scope('Stack')
        self.assertEqual([each['name'] for each in client.variables(stack)], ['1', '0'])
        ids = [client.ask('dataBreakpointInfo', variablesReference=stack['variablesReference'], name=name)['dataId'] for name in '01']
        for datum, wanted in ((ids[0], changes[2:]), (ids[1], changes[:2]), (set_key['dataId'], [4])):
            found, = client.ask('setDataBreakpoints', breakpoints=[{'dataId': datum, 'accessType': 'write'}])['breakpoints']
            self.assertTrue(found['verified'])
            client.go('reverseContinue')
            while 'start' not in client.go('reverseContinue').get('description', ''):
                pass
            self.assertEqual(self.stops(client, 'data breakpoint'), wanted)
        self.assertIsNone(client.ask('dataBreakpointInfo', name='x')['dataId'])
        found, = client.ask('setDataBreakpoints', breakpoints=[{'dataId': 'text a'}])['breakpoints']
        self.assertFalse(found['verified'])

    def test_instructions(self) -> None:
        client = self.launched(SAMPLE)
        found = client.ask('setInstructionBreakpoints', breakpoints=[
            {'instructionReference': '0x17'}, {'instructionReference': '0x0', 'offset': 38}, {'instructionReference': '0x3'},
            {'instructionReference': 'here'}])['breakpoints']
        self.assertEqual([each['verified'] for each in found], [True, True, False, False])
        self.assertEqual(self.stops(client, 'instruction breakpoint'), [23, 38])

    def test_each_import_and_call(self) -> None:
        client = self.launched(SAMPLE)
        for filters, wanted in ((['import'], [2]), (['call'], [38]), (['import', 'call'], [2, 38]), ([], [])):
            client.ask('setExceptionBreakpoints', filters=filters)
            self.assertEqual(self.stops(client, 'breakpoint'), wanted)

    def test_conditions(self) -> None:
        """Each kind may have one. One that is none is not set."""
        client = self.launched(SAMPLE)
        listing = client.ask('loadedSources')['sources'][0]
        memo = client.go('continue') and client.scope('Memo')
        client.variables(memo)
        key = client.ask('dataBreakpointInfo', variablesReference=memo['variablesReference'], name='1')['dataId']
        for kind, fields, source in (('Breakpoints', {'line': 9}, {'source': listing}), ('FunctionBreakpoints', {'name': 'call *'}, {}),
                                     ('InstructionBreakpoints', {'instructionReference': '0x26'}, {}), ('DataBreakpoints', {'dataId': key}, {})):
            for condition, is_hit in (("top == 'bob' or 3 in stack[-1]", True), ('top == 4', False)):
                found, = client.ask(f'set{kind}', breakpoints=[{**fields, 'condition': condition}], **source)['breakpoints']
                self.assertTrue(found['verified'])
                client.ask('goto', threadId=1, targetId=0)
                client.event('stopped')
                stopped = client.go('continue')
                self.assertEqual(stopped.get('hitBreakpointIds', []), [found['id']] if is_hit else [], kind)
            found, = client.ask(f'set{kind}', breakpoints=[{**fields, 'condition': 'nothing'}], **source)['breakpoints']
            self.assertEqual((found['verified'], found['message'][:8]), (False, 'there is'))
            client.ask(f'set{kind}', breakpoints=[], **source)

    def test_those_that_are_typed(self) -> None:
        client = self.launched(SAMPLE)
        client.type('break opcode REDUCE')
        self.assertEqual((client.event('breakpoint')['reason'], self.stops(client, 'breakpoint')), ('new', [38]))
        client.type('clear 1')
        self.assertEqual((client.event('breakpoint')['reason'], self.stops(client, 'breakpoint')), ('removed', []))

    def test_they_stay_with_their_opcodes(self) -> None:
        client = self.launched(SAMPLE)
        listing = client.ask('loadedSources')['sources'][0]
        client.ask('setBreakpoints', source=listing, breakpoints=[{'line': 9}])
        client.type('insert 1 POP')
        self.assertEqual(client.event('breakpoint')['breakpoint']['line'], 10)
        client.type('undo')
        self.assertEqual(client.event('breakpoint')['breakpoint']['line'], 9)


class Looks(DapCase):
    """What is shown."""

    def test_variables(self) -> None:
        client = self.launched(SAMPLE)
        client.go('continue')
        self.assertEqual(client.shown('Memo'), {'0': 'oldapp.tasks.send', '1': "'bob'", '2': "('bob', 3)", '3': "oldapp.tasks.send('bob', 3)"})
        self.assertEqual(client.shown('Imports and calls'), {
            '0': "2: import 'oldapp.tasks' 'send' as #0", '1': "38: call 'oldapp.tasks' 'send' ('bob', int 3) as #4"})
        result, = client.variables(client.scope('Result'))
        self.assertEqual((result['type'], result['evaluateName'], int(result['memoryReference'], 16)), ('call', '#4', 38))
        name, given = client.variables(result)
        self.assertEqual((name['value'], name['variablesReference']), ('oldapp.tasks.send', 0))
        self.assertEqual([each['value'] for each in client.variables(given)], ["'bob'", '3'])
        client.go('stepBack')
        self.fails(client, 'nothing has the reference', 'variables', variablesReference=result['variablesReference'])

    def test_nested(self) -> None:
        client = self.launched(NESTED)
        client.go('continue')
        result, = client.variables(client.scope('Result'))
        inner = {each['name']: each for each in client.variables(result)}
        self.assertEqual({name: each['value'] for name, each in inner.items()}, {"'a'": '[1, tuple of 4]', "'b'": '{}'})
        self.assertEqual(inner["'b'"]['variablesReference'], 0)
        pair = client.variables(inner["'a'"])[1]
        self.assertEqual([each['value'] for each in client.variables(pair)], ['2', '3', '4', '5'])

    def test_a_dictionary_of_one_opcode(self) -> None:
        """Also where more is set later."""
        client = self.launched(b'(K\1K\2K\3K\4d(K\5K\6uK\7K\x08s.')
        client.go('continue')
        result, = client.variables(client.scope('Result'))
        self.assertEqual({each['name']: each['value'] for each in client.variables(result)}, {'1': '2', '3': '4', '5': '6', '7': '8'})

    def test_pages(self) -> None:
        client = self.launched(pickle.dumps([[number] for number in range(300)], 4))
        client.go('continue')
        result, = client.variables(client.scope('Result'))
        self.assertEqual(result['indexedVariables'], 300)
        page = client.variables(result, start=290, count=100, filter='indexed')
        self.assertEqual([each['value'] for each in page], [f'[{number}]' for number in range(290, 300)])
        self.assertEqual(client.variables(result, filter='named'), [])
        opcodes = client.scope('Opcodes')
        self.assertEqual(len(client.variables(opcodes, start=0, count=opcodes['indexedVariables'])), opcodes['indexedVariables'])
        self.assertEqual(client.variables(result, start=300, count=1), [])

    def test_the_bytes(self) -> None:
        client = self.launched(SAMPLE)
        for reference, offset, count, begin, end in (('0x0', 0, 1000, 0, 1000), ('0x17', 2, 3, 25, 28), ('0x17', -23, 2, 0, 2), ('99', 0, 4, 99, 103)):
            found = client.ask('readMemory', memoryReference=reference, offset=offset, count=count)
            self.assertEqual(base64.b64decode(found['data']), SAMPLE[begin:end])
            self.assertEqual((int(found['address'], 16), found['unreadableBytes']), (begin, count - len(SAMPLE[begin:end])))
        self.fails(client, 'count has to be', 'readMemory', memoryReference='0x0', count=-1)

    def test_instructions(self) -> None:
        client = self.launched(SAMPLE)
        known = list(pickletools.genops(SAMPLE))
        for offset, by, count in ((0, 0, 11), (0, -3, 20), (23, -2, 4), (23, 3, 20), (1000, -4, 6), (0, 0, 0)):
            found = client.ask('disassemble', memoryReference=hex(offset), instructionOffset=by, instructionCount=count)['instructions']
            self.assertEqual(len(found), count)
            first = ([at for _, _, at in known].index(offset) if offset < len(SAMPLE) else len(known)) + by
            for place, each in enumerate(found, first):
                if 0 <= place < len(known):
                    opcode, _, at = known[place]
                    self.assertEqual((each['instruction'].split()[0], int(each['address'], 16)), (opcode.name, at))
                    self.assertTrue(SAMPLE[at or 0:].startswith(bytes.fromhex(each['instructionBytes'].rstrip(' .'))))
                else:
                    self.assertEqual(each['presentationHint'], 'invalid')
        self.assertIn("call 'oldapp.tasks' 'send'", client.ask('disassemble', memoryReference='0x26', instructionCount=1)['instructions'][0]['symbol'])

    def test_the_console(self) -> None:
        client = self.launched(SAMPLE)
        self.assertIn('>       4 ', client.type('step 4'))
        self.assertEqual((client.event('stopped')['reason'], client.line()), ('step', 5))
        self.assertIn('oldapp.tasks.send', client.type('bt'))
        self.assertRegex(client.type('info breakpoints'), 'no breaks')
        self.assertEqual(client.type('#1', 'watch'), "'bob'")
        self.assertEqual(client.type('x/2xb @0', 'watch'), client.type('hex @0 2'))
        self.assertEqual([client.type(line, 'watch') for line in ('top', 'len(stack)', "memo[0] == oldapp.tasks.send", 'memo 0')],
                         ["'bob'", '2', 'True', client.type('memo 0')])
        self.assertEqual(client.ask('evaluate', expression='stack[0]', context='hover')['type'], 'global')
        self.fails(client, 'has no value here', 'evaluate', expression='memo[7]', context='watch')
        self.assertEqual(client.type('reduce', 'hover'), 'Takes arguments and a function, and calls it: this runs code.')
        for line in ('step', 'set 1 to 2', 'save /dev/null', 'quit', 'nonsense', '!step'):
            self.fails(client, '.', 'evaluate', expression=line, context='watch')
        self.assertEqual(client.line(), 5)
        self.fails(client, 'not made yet', 'evaluate', expression='#3')
        self.fails(client, 'there is no word', 'evaluate', expression='nonsense')
        self.fails(client, r'C4 no such place \(The pickle has no opcode there\.\)', 'evaluate', expression='goto 99')
        labels = [each['label'] for each in client.ask('completions', text='break im', column=9)['targets']]
        self.assertEqual(labels, ['import'])
        self.assertEqual([each['label'] for each in client.ask('completions', text='help', column=1)['targets']][:2], ['step', 'back'])

    def test_the_command_line_of_kate(self) -> None:
        """Behind a `!` its watch is a line of the console."""
        client = self.client()
        client.ask('initialize', adapterID='qdap')
        client.ask('launch', program=self.file(SAMPLE))
        client.event('initialized')
        client.configured()
        self.assertIn('>       4 ', client.type('!step 4', 'watch'))
        self.assertEqual((client.event('stopped')['reason'], client.line()), ('step', 5))
        self.assertIn("'eve'", client.type("! set 1 to 'eve'", 'watch'))
        client.event('invalidated')
        self.assertEqual(client.type('top', 'watch'), "'eve'")
        self.fails(client, 'C4 no such place', 'evaluate', expression='!goto 99', context='watch')
        for line, context in (('back', 'watch'), ('!back', 'hover')):
            self.fails(client, 'is evaluated; ! before the line lets it do others', 'evaluate', expression=line, context=context)

    def test_a_line_of_the_pickle_in_kate(self) -> None:
        """*Print Value* sends what is selected: it may be a text of the pickle."""
        client = self.client()
        client.ask('initialize', adapterID='qdap')
        client.ask('launch', program=self.file(b'X\x0c\0\0\0!save /tmp/x0X\x01\0\0\0a.'))
        client.event('initialized')
        client.configured()
        self.fails(client, 'this line stands in the pickle', 'evaluate', expression='!save /tmp/x', context='watch')
        self.assertIn('>       1 ', client.type('!step', 'watch'))

    def test_ends(self) -> None:
        for ends in (lambda client: client.type('quit'), lambda client: client.ask('terminate')):
            client = self.launched(SAMPLE)
            ends(client)
            self.assertEqual(client.event('terminated'), {})
            self.assertEqual(client.leave(), 0)

    def test_what_cannot_be_opened(self) -> None:
        client = self.client()
        self.fails(client, 'nothing is launched', 'configurationDone')
        self.fails(client, 'nothing is launched', 'next', threadId=1)
        self.fails(client, 'cannot read', 'launch', program=os.path.join(self.folder, 'none'))
        self.fails(client, 'program has to be a text', 'launch', program=3)
        self.fails(client, 'many has to be', 'launch', program='a', many='yes')
        client.launch(self.file(b''))
        self.assertEqual((client.offset(), client.go('continue')['description']), (0, 'You are at the end: F1 ended at 0.'))
        self.fails(client, 'a pickle is open', 'launch', program='a')


class Edits(DapCase):
    """What is edited, and saved."""

    def test_an_opcode_ahead_and_one_behind(self) -> None:
        client = self.launched(SAMPLE)
        client.ask('goto', threadId=1, targetId=4)
        client.event('stopped')
        opcodes = client.scope('Opcodes')
        rows = {each['name']: each for each in client.variables(opcodes)}
        self.assertEqual({name for name, each in rows.items() if 'presentationHint' in each}, set('0123'))
        self.fails(client, r'^refused: C5 behind the cursor', 'setVariable', variablesReference=opcodes['variablesReference'], name='3', value="'al'")
        stack = client.scope('Stack')
        client.variables(stack)
        self.fails(client, r'^refused: C5 behind the cursor', 'setVariable', variablesReference=stack['variablesReference'], name='1', value="'al'")
        self.fails(client, 'is no value of Python', 'setVariable', variablesReference=opcodes['variablesReference'], name='5', value='bob')
        self.fails(client, r'^refused: C9 E2 stop item', 'setVariable', variablesReference=opcodes['variablesReference'], name='10', value='NONE')
        self.fails(client, 'this is no opcode', 'setVariable', variablesReference=opcodes['variablesReference'], name='99', value='1')
        self.assertEqual(client.ask('setVariable', variablesReference=opcodes['variablesReference'], name='5', value='70000')['value'], 'BININT 70000')
        self.assertEqual(client.event('invalidated'), {'areas': ['all']})
        self.assertEqual(client.offset(), 31)
        self.assertIn('BININT     70000', client.ask('source', sourceReference=client.frames()[0]['source']['sourceReference'])['content'])
        stack = client.scope('Stack')
        self.assertEqual(len(client.variables(stack)), 2)
        client.type("set 1 to 'alice'")
        self.fails(client, 'nothing has the reference', 'variables', variablesReference=stack['variablesReference'])
        self.assertEqual(client.shown('Stack'), {'1': "'alice'", '0': 'oldapp.tasks.send'})
        self.fails(client, 'outside of the console', 'evaluate', expression='save', context='watch')
        self.assertEqual(client.type('save'), f'saved {os.path.join(self.folder, "a.pickle")}')
        saved = Path(self.folder, 'a.pickle').read_bytes()
        self.assertEqual([value for opcode, value, _ in pickletools.genops(saved) if opcode.name in ('BINUNICODE', 'BININT')], ['alice', 70000])
        self.assertEqual(client.leave(), 0)
        self.assertEqual([event['body'] for event in client.events if event['event'] == 'output'][1:], [])

    def test_bytes(self) -> None:
        data = pickle.dumps(['bob', 300, 7], 2)
        client = self.launched(data)
        at = data.index(b'bob')

        def write(offset: int, new: bytes) -> Any:
            return client.ask('writeMemory', memoryReference=hex(offset), data=base64.b64encode(new).decode())

        self.assertEqual(write(at, b'eve')['bytesWritten'], 3)
        with self.assertRaisesRegex(Failed, 'C9|X8'):
            write(at - 4, b'\x09')  # (its length)
        with self.assertRaisesRegex(Failed, 'no opcode has the byte 0x01'):
            write(at - 5, b'\x01')
        with self.assertRaisesRegex(Failed, 'the opcodes are in the bytes'):
            write(len(data) - 1, b'..')
        with self.assertRaisesRegex(Failed, 'no base64'):
            client.ask('writeMemory', memoryReference='0x0', data='!')
        number, other = data.index(b'M'), data.index(b'K')
        write(number, b'M\x01\x00K\x08')
        new = Path(self.folder, 'new.pickle')
        self.assertEqual(client.type(f"save '{new}'"), f'saved {new}')
        self.assertEqual(pickle.loads(new.read_bytes()), ['eve', 1, 8])
        self.assertEqual(number + 3, other)
        client.go('continue')
        with self.assertRaisesRegex(Failed, 'C5'):
            write(at, b'bob')
        self.assertEqual(write(at, b'eve')['bytesWritten'], 3)

    def test_what_was_not_saved_is_said(self) -> None:
        client = self.launched(SAMPLE)
        client.type('delete 9')
        client.events.clear()
        self.assertEqual(client.leave(), 0)
        self.assertEqual(client.events[-1]['body'], {'category': 'important', 'output': 'the edits were not saved\n'})

    def test_a_pickle_in_an_archive(self) -> None:
        path = os.path.join(self.folder, 'a.zip')
        with zipfile.ZipFile(path, 'w') as archive:
            archive.writestr('inner.pkl', SAMPLE)
        client = self.client()
        client.launch(f'{path} > inner.pkl')
        client.type("set 1 to 'alice'")
        for line in ('save', f"save '{path}'", f"save '{path} > inner.pkl'"):
            self.fails(client, 'it has no file|nothing is written into a container', 'evaluate', expression=line)
        self.assertEqual(zipfile.ZipFile(path).read('inner.pkl'), SAMPLE)


class Messages(DapCase):
    """How messages come, good and bad."""

    def answered(self, data: bytes) -> Tuple[int, List[Any], str]:
        """The status, the messages that come back, and what is said on standard error."""
        output, errors = io.BytesIO(), io.StringIO()
        with contextlib.redirect_stderr(errors):
            status = converse(io.BytesIO(data), output)
        return status, messages_in(output.getvalue()), errors.getvalue()

    def test_bad_frames(self) -> None:
        first = framed(b'{"seq": 1, "type": "request", "command": "initialize"}')
        web = b'POST / HTTP/1.1\r\nHost: 127.0.0.1\r\nContent-Length: 2\r\n\r\n{}'
        for bad in (b'{}', b'\r\n', b'\n', b'Content-Length: -1\r\n\r\n', b'Content-Length: 2\n\n{}', b'Content-Length: two\r\n\r\n{}', web,
                    b'Content-Length: 2\r\nOrigin: here\r\n\r\n{}', b'Content-Length: 99999999999\r\n\r\n{}', b'Content-Length: 1000000000000000000000\r\n\r\n',
                    b'Content-Length', b'x' * 100_000):
            status, said, errors = self.answered(first + bad + first)
            self.assertEqual((status, [each['success'] for each in said]), (2, [True, False]), bad[:60])
            self.assertEqual(errors, f'picklestep: {said[1]["message"]}\n')
        run = subprocess.run([sys.executable, '-m', 'picklestep', 'dap'], input=first + web, capture_output=True, env=environment(), timeout=600, check=False)
        status, said, errors = self.answered(first + web)
        self.assertEqual((run.returncode, messages_in(run.stdout), run.stderr.decode()), (status, said, errors))

    def test_ends_of_the_input(self) -> None:
        path = self.file(SAMPLE)
        whole = b''.join(framed(json.dumps({'seq': 1, 'type': 'request', 'command': command, 'arguments': {'program': path}}).encode())
                         for command in ('initialize', 'launch', 'configurationDone'))
        self.assertEqual((self.answered(b'')[0], self.answered(whole)[0]), (0, 0))
        for end in (1, 40, 90):
            status, said, errors = self.answered(whole[:-end])
            self.assertEqual((status, said[-1]['success'], errors[:12]), (2, False, 'picklestep: '), end)

    def test_bad_messages(self) -> None:
        """Each is answered, and the next one too."""
        client = self.launched(SAMPLE)
        for bad in (b'', b'{', b'[]', b'3', b'{}', b'\xff', b'[' * 100_000, b'{"type": "request"}', b'{"type": "response", "command": "next"}',
                    b'{"type": "request", "seq": "1", "command": 3}', b'{"type": "request", "seq": true, "command": "next", "arguments": []}',
                    b'{"seq": ' + b'9' * 10_000 + b'}', b'{"type": "request", "seq": 1, "command": "' + b'x' * 10_000 + b'"}'):
            client.send(bad)
            answer = client.answer()
            self.assertFalse(answer['success'])
            self.assertLess(len(answer['command']), 100)
            client.send(b'{"type": "request", "seq": 1, "command": "disconnect", "arguments": []}')
            self.assertFalse(client.answer()['success'])
        self.assertEqual(client.offset(), 0)

    def test_arguments_of_any_kind(self) -> None:
        """No request ends the conversation, whatever it has."""
        rng = random.Random(83)
        commands = sorted({*Adapter(print)._requests, *(each for group in OF_CAPABILITIES.values() for each in group), 'next', 'stepIn', 'stepOut', 'continue',
                           'goto', 'threads', 'stackTrace', 'scopes', 'variables', 'source', 'evaluate', 'setBreakpoints', 'setExceptionBreakpoints'}
                          - {'disconnect', 'terminate'})
        names = ('threadId', 'frameId', 'variablesReference', 'start', 'count', 'name', 'value', 'expression', 'context', 'text', 'column', 'line', 'source',
                 'breakpoints', 'filters', 'memoryReference', 'offset', 'instructionOffset', 'instructionCount', 'data', 'targetId', 'sourceReference',
                 'startFrame', 'levels', 'filter', 'granularity', 'program')
        values = (None, True, -1, 0, 1, 7, 10 ** 30, 1.5, '', '0', '0x2', 'step', 'a' * 3000, '\udc80', [], [3], [{}], {}, {'sourceReference': 1}, {'name': 3},
                  [{'line': 2}], [{'name': '*'}], [{'dataId': 'change 9'}], [{'instructionReference': '0x2'}], ['call'])
        client = self.launched(SAMPLE)
        for _ in range(600):
            command = rng.choice(commands)
            arguments = {name: rng.choice(values) for name in rng.sample(names, rng.randrange(len(names)))}
            with contextlib.suppress(Failed):
                client.ask(command, **arguments)
        self.assertEqual(client.leave(), 0)

    def test_capabilities(self) -> None:
        """What they say is there, and nothing else."""
        client = self.client()
        known = client.ask('initialize', adapterID='pickle')
        client.ask('launch', program=self.file(SAMPLE))
        client.event('initialized')
        client.configured()
        for name, commands in OF_CAPABILITIES.items():
            for command in commands:
                try:
                    client.ask(command)
                    is_there = True
                except Failed as error:
                    is_there = 'there is no request' not in str(error)
                self.assertEqual(is_there, known.get(name, False), command)
        for command in ('attach', 'setHitCount', 'restart', '__init__'):
            self.fails(client, 'there is no request', command)

    def test_a_port(self) -> None:
        self.file(SAMPLE)
        process = subprocess.Popen([sys.executable, '-m', 'picklestep', 'dap', '--port', '0'], stdout=subprocess.PIPE, cwd=self.folder, env=environment())
        self.addCleanup(process.wait)
        self.addCleanup(process.kill)
        assert process.stdout is not None
        with process.stdout as output:
            match = re.fullmatch(r'127\.0\.0\.1:([0-9]+)\n', output.readline().decode())
            assert match is not None
            port = int(match[1])
            with socket.create_connection(('127.0.0.1', port)) as connection, connection.makefile('rb') as reader, connection.makefile('wb') as writer:
                client = Client(reader, writer, lambda: process.wait(600))
                client.launch('a.pickle')
                client.go('continue')
                self.assertEqual(client.leave(), 0)
            self.assertEqual(output.read(), b'')

    def test_ports_that_cannot_be(self) -> None:
        with socket.create_server(('127.0.0.1', 0)) as taken:
            for port, why in ((str(taken.getsockname()[1]), 'cannot listen on 127.0.0.1'), ('x', 'is no port'), ('65536', 'is no port')):
                run = subprocess.run([sys.executable, '-m', 'picklestep', 'dap', '--port', port], capture_output=True, text=True, env=environment(), timeout=600,
                                     check=False)
                self.assertEqual((run.returncode, run.stdout), (2, ''))
                self.assertIn(why, run.stderr)


class Editors(unittest.TestCase):
    """What editors read."""

    def test_the_package_of_vs_code(self) -> None:
        package = json.loads((ROOT / 'editors' / 'vscode' / 'package.json').read_text(encoding='utf-8'))
        debugger, = package['contributes']['debuggers']
        self.assertEqual(debugger['type'], 'pickle')
        self.assertFalse({'main', 'browser', 'activationEvents'} & set(package))
        properties = debugger['configurationAttributes']['launch']['properties']
        self.assertEqual(set(properties), {'program', 'many', 'unframed', 'whole', 'files', 'stopOnEntry'})


if __name__ == '__main__':
    unittest.main()
