"""What is marked without any list: 46 hostile files, each made here in a way of its own. Each only names what it would call; none is loaded."""

from __future__ import annotations

import base64
import bz2
import gzip
import io
import json
import pickle
import tarfile
import unittest
import zipfile
from typing import Dict, List

import picklestep
from picklestep.scan import Judge, Options, look
from picklestep.scan.known import known_names, known_note
from picklestep.scan.looking import look_at_bytes
from picklestep.scan.names import Names
from picklestep.scan.results import from_json, to_json
from scan_support import HARMLESS, HOSTILE, MODELS, ScanCase

DATA = MODELS.parent


def text(value: str) -> bytes:
    """A text as an argument."""
    data = value.encode()
    return b'X' + len(data).to_bytes(4, 'little') + data


def called(module: str, name: str, *arguments: str) -> bytes:
    """A call by GLOBAL and REDUCE."""
    return f'c{module}\n{name}\n('.encode() + b''.join(map(text, arguments)) + b'tR'


def by_text(module: str, name: str, *arguments: str) -> bytes:
    """A call of what two texts name, of protocol 4."""
    return text(module) + text(name) + b'\x93(' + b''.join(map(text, arguments)) + b'tR'


def zipped(**members: bytes) -> bytes:
    held = io.BytesIO()
    with zipfile.ZipFile(held, 'w', zipfile.ZIP_DEFLATED) as archive:
        for name, data in members.items():
            archive.writestr(name, data)
    return held.getvalue()


def tarred(data: bytes) -> bytes:
    held = io.BytesIO()
    with tarfile.open(fileobj=held, mode='w') as archive:
        told = tarfile.TarInfo('model')
        told.size = len(data)
        archive.addfile(told, io.BytesIO(data))
    return held.getvalue()


def array(data: bytes) -> bytes:
    header = b"{'descr': '|O', 'fortran_order': False, 'shape': (1,), }\n"
    return b'\x93NUMPY\x01\x00' + len(header).to_bytes(2, 'little') + header + data


class Outer:
    """A class with others in it."""

    class Inner:
        def method(self) -> None:
            """Does nothing."""

    class _Hidden:
        pass


SHELL = called('os', 'system', 'id') + b'.'
FILES: Dict[str, bytes] = {
    # by each opcode that calls
    'reduce': SHELL, 'inst': b'(' + text('id') + b'ios\nsystem\n.', 'obj': b'(cos\nsystem\n' + text('id') + b'o.',
    'newobj': b'\x80\x02csubprocess\nPopen\n' + text('id') + b'\x85\x81.', 'newobj_ex': b'\x80\x04csubprocess\nPopen\n' + text('id') + b'\x85}\x92.',
    'build': b'\x80\x02cmodule\nKind\n)\x81}' + text('__setstate__') + b'cos\nsystem\nsb' + text('id') + b'b.',
    'stack_global': b'\x80\x04' + by_text('os', 'system', 'id') + b'.',
    'memo': b'\x80\x04' + text('posix') + b'\x94' + text('system') + b'\x940h\x00h\x01\x93' + text('id') + b'\x85R.',
    'persistent': text('a') + b'0' + called('os', 'popen', 'id') + b'Q.', 'append': b']' + called('builtins', 'exec', 'pass') + b'a.',
    # text that is run as Python
    'exec': called('builtins', 'exec', 'pass') + b'.', 'eval': called('__builtin__', 'eval', '1') + b'.',
    'compile': called('builtins', 'compile', '1', 'a', 'eval') + b'.', 'code': called('code', 'interact') + b'.',
    'interpreter': b'\x80\x04' + by_text('code', 'InteractiveInterpreter.runsource', '1') + b'.', 'timeit': called('timeit', 'timeit', '1') + b'.',
    'profile': called('cProfile', 'run', '1') + b'.', 'pdb': called('pdb', 'run', '1') + b'.', 'doctest': called('doctest', 'debug_script', '1') + b'.',
    'runstring': called('numpy.testing._private.utils', 'runstring', '1', '') + b'.', 'pandas': called('pandas', 'eval', '1') + b'.',
    'sympy': called('sympy', 'sympify', '1') + b'.', 'runpy': called('runpy', 'run_path', 'a.py') + b'.',
    # what is had by name
    'getattr': called('builtins', 'getattr', 'a', 'b') + b'.', 'methodcaller': called('operator', 'methodcaller', 'a') + b'.',
    'attrgetter': called('_operator', 'attrgetter', 'a') + b'.', 'importlib': called('importlib', 'import_module', 'a') + b'.',
    'ufunc': called('numpy.core', '_ufunc_reconstruct', 'os', 'system') + b'.', 'resolve': called('pkgutil', 'resolve_name', 'a') + b'.',
    # what changes the tables by which later names are looked up
    'old_names': b'c_compat_pickle\nNAME_MAPPING\n(' + text('json') + text('dumps') + b't(' + text('os') + text('system') + b'ts0'
                 + called('json', 'dumps', 'id') + b'.',
    'old_modules': b'\x80\x04' + text('pickle') + text('_compat_pickle.IMPORT_MAPPING') + b'\x93' + text('json') + text('os') + b's.',
    'registry': b'ccopyreg\n_inverted_registry\nK\x01(' + text('os') + text('system') + b'ts.',
    'through': b'\x80\x04' + by_text('logging', 'os.system', 'id') + b'.',
    'inside': b'\x80\x04' + by_text('collections', 'OrderedDict.__class__.__subclasses__') + b'.',
    'worked_out': b'\x80\x04' + text('os') + called('module', 'name') + b'\x93)R.', 'number': b'\x80\x02\x82\x07)R.',
    # other pickles, files, connections
    'loads': called('pickle', 'loads', 'N.') + b'.', 'torch': called('torch.storage', '_load_from_bytes', 'N.') + b'.',
    'rmtree': called('shutil', 'rmtree', '/none') + b'.', 'open': called('io', 'open', '/none') + b'.',
    'socket': called('socket', 'create_connection', 'a') + b'.', 'browser': called('webbrowser', 'open', 'http://a') + b'.',
    # in other files, behind other bytes
    'gzip': gzip.compress(SHELL), 'zip': zipped(**{'archive/data.pkl': SHELL}), 'tar': tarred(bz2.compress(SHELL)), 'npy': array(SHELL),
}

# A pickle that reaches the unpickler that loads it: real unpicklers called `os.getpid` by each, and `calls` has no line of that call, or one
# with another name.
TURNED = b'KN' + b'cpickle\n_Unpickler.load_stack_global\nsK\x88cpickle\n_Unpickler.load_reduce\ns' + text('os') + text('getpid') + b'N)\x88.'
OTHER = b'C\x0fcos\ngetpid\nq\x00N.'
REACHING: Dict[str, bytes] = {
    # its table of opcodes, and that of joblib, from which it also takes what it puts in
    'table': b'\x80\x04cpickle\n_Unpickler.dispatch\n' + TURNED,
    'table of joblib': b'\x80\x04' + b''.join(part + b'cjoblib.numpy_pickle\nNumpyUnpickler.dispatch.__getitem__\nK' + code + b'\x85Rs' for part, code in (
        (b'cjoblib.numpy_pickle\nNumpyUnpickler.dispatch\nKN', b'\x93'), (b'K\x88', b'R'))) + text('os') + text('getpid') + b'N)\x88.',
    # its memo, among all objects
    'memo': b'\x80\x04cjson\ndumps\nq\x000cgc\nget_objects\n)Rq\x010c_pickle\nUnpickler\ncio\nBytesIO\n' + OTHER + b'\x85R\x85Rq\x030'
            + b'c_pickle\nUnpickler.load\nh\x03\x85R0' + called('operator', 'attrgetter', 'memo') + b'h\x03\x85Rq\x020coperator\ngetitem\nh\x01'
            + b'coperator\nindexOf\ncbuiltins\nmap\ncbuiltins\ntype\nh\x01\x86Rc_pickle\nUnpickler\n\x86R\x86R' + b'N}' + text('memo') + b'h\x02s\x86bh\x00)R.',
    # its stack, by a frame
    'frame': b'\x80\x04csys\n_getframe\n)Rq\x000' + called('operator', 'attrgetter', 'f_locals') + b'h\x00\x85Rq\x010'
             + called('operator', 'itemgetter', 'stack') + b'h\x01\x85Rq\x020cos\ngetpid\nq\x030cjson\ndumps\nh\x02K\x00h\x03s0)R.',
    # its file: three bytes are skipped, so what is in a BINBYTES is read as opcodes
    'file': b'\x80\x04cos\nlseek\nK\x03K\x03K\x01\x87R0C\x10cos\ngetpid\n)R0N.0N.',
}
# The names of the list in docs/why/loaders.md, and what others call the same.
NAMES_THAT_REACH = (
    'pickle._Unpickler pickle._Unpickler.dispatch pickle._Unframer pickle._Unframer.load_frame pickle.Unpickler pickle.Unpickler.load _pickle.Unpickler '
    '_pickle.UnpicklerMemoProxy _pickle.load _pickle.loads joblib.numpy_pickle.NumpyUnpickler joblib.numpy_pickle.NumpyUnpickler.dispatch '
    'joblib.numpy_pickle_compat.ZipNumpyUnpickler dill._dill.Unpickler dill._dill.StockUnpickler pandas.compat.pickle_compat.Unpickler '
    'pandas.compat.pickle_compat.Unpickler.dispatch pandas.compat.pickle_compat._class_locations_map torch._weights_only_unpickler.Unpickler '
    'torch._weights_only_unpickler.Unpickler.load gc.get_objects gc.get_referrers gc.get_referents sys._getframe sys._current_frames sys.settrace '
    'sys.setprofile inspect.currentframe inspect.stack inspect.getouterframes traceback.walk_stack logging.currentframe '
    'copyreg._extension_registry copyreg._inverted_registry copyreg._extension_cache sys.modules _compat_pickle.NAME_MAPPING '
    '_compat_pickle.IMPORT_MAPPING json.__dict__ os.lseek os.dup2 os.read os.set_blocking io.FileIO io.open builtins.open ctypes.CDLL builtins.eval '
    'builtins.exec').split()


class Reaching(ScanCase):
    """Pickles that change the unpickler that loads them, and the names by which one can."""

    def test_each_is_marked_before_its_effect(self) -> None:
        for name, content in REACHING.items():
            with self.subTest(name):
                result = self.look(f'{name}.bin', content)
                self.assertTrue([each for each in Judge().looks(result) if each.rule == 'known'])
                self.file('reaching.pkl', content)
                self.assertEqual(self.scan('reaching.pkl').returncode, 1)
                self.assertTrue(result.pickles[0].end.is_stopped, result.pickles[0].end)

    def test_each_name_is_marked(self) -> None:
        for name in NAMES_THAT_REACH:
            self.assertIsNotNone(Judge().mark(name), name)


class Hostile(ScanCase):
    """All of them, without any list."""

    def test_each_is_marked(self) -> None:
        self.assertEqual(len(FILES), 46)
        for name, content in FILES.items():
            with self.subTest(name):
                looks = list(Judge().looks(self.look(f'{name}.bin', content)))
                self.assertTrue([each for each in looks if each.rule in ('known', 'worked-out')], looks)

    def test_names_that_are_not_dotted(self) -> None:
        """Python imports from a folder whatever it is named: `lib-dynload` is beside the standard library. Such a name is marked wherever it stands."""
        pickles = (b'\x80\x04' + by_text('lib-dynload._ctypes', 'dlopen', 'libc.so.6') + b'.', called('lib-dynload._ctypes', 'dlopen', 'libc.so.6') + b'.')
        for number, content in enumerate(pickles):
            values = {'in a file': content, 'behind four bytes': b'\xfe\xdc\xba\x98' + content,
                      'in JSON': json.dumps({'body': base64.b64encode(content).decode()}).encode(), 'everywhere': bytes(range(256)) * 8 + content + b'\xff' * 99}
            for name, value in values.items():
                result = look_at_bytes('a.bin', value, Options(everywhere=name == 'everywhere'))
                for judge, why in ((Judge(), 'no dotted name'), (Judge(Names(['collections.*'])), 'not allowed')):
                    with self.subTest(name, number=number, why=why):
                        told = [look.text for look in judge.looks(result)]
                        self.assertTrue([text for text in told if text.startswith("import 'lib-dynload._ctypes' 'dlopen' once") and why in text], told)

    def test_members_that_go_through_a_module(self) -> None:
        """Modules that others import are marked by rule. What picklers write with a point, such as a class in a class, is not."""
        for module, member, why in (
                ('sklearn.base', 'np.load', 'goes through np'), ('torch.nn.modules.module', 'torch.load', 'goes through torch'),
                ('sklearn.base', 'np', 'the module np'), ('inspect', 'os', 'the module os'), ('xml.sax.saxutils', 'io.open', ''),
                ('app.models', 'Model.np.load', 'goes through np'), ('app.models', '_net.run', 'goes through _net'), ('app', 'PIL.x', 'goes through PIL'),
                ('app', '_np', 'the module np'), ('app', '__loader__.x', ''), ('app', 'instance.method', 'goes through instance')):
            with self.subTest(member, module=module):
                result = look_at_bytes('a.pkl', b'\x80\x04' + by_text(module, member, 'a') + b'.')
                for judge in (Judge(), Judge(Names([f'{module}.**', 'app.*.*'])), Judge(Names(['collections.*']))):
                    told = [look.text for look in judge.looks(result)]
                    self.assertTrue([text for text in told if text.startswith(f'import {module}.{member} once') and why in text], told)
                for judge in (Judge(Names([f'{module}.{member}'])), Judge(Names(['**'])), Judge(with_known=False)):
                    self.assertEqual([look for look in judge.looks(result) if look.name], [])

    def test_members_that_picklers_write(self) -> None:
        for value in (Outer.Inner, Outer.Inner(), Outer.Inner.method, Outer._Hidden):
            result = look_at_bytes('a.pkl', pickle.dumps(value, 4))
            self.assertTrue(result.pickles[0].imports[0].member.startswith('Outer.'))
            self.assertEqual(from_json(json.loads(json.dumps(to_json(result)))), result)
            self.assertEqual(list(Judge().looks(result)), [])
            judge = Judge(Names([f"{__name__}.Outer.*", f"{__name__}.Outer.*.*"]))
            allowed = look_at_bytes("a.pkl", pickle.dumps(value, 4), Options(lists=judge.lists()))
            self.assertEqual(list(judge.looks(allowed)), [])
        for name in ('PIL.Image.Image', 'datetime.datetime', 'numpy.random', 'array.array'):
            self.assertIsNone(Judge().mark(name))
        # (A class that begins with a small letter, of a set of the package.)
        self.assertIsNone(Judge().mark('scipy.interpolate._interpolate.interp1d._call_linear', 'interp1d._call_linear'))

    def test_padding_behind_a_pickle_hides_nothing(self) -> None:
        for content in (HARMLESS + bytes(64) + SHELL, HARMLESS + SHELL, b'N.' * 64 + SHELL):
            looks = list(Judge().looks(self.look('a.pkl', content)))
            self.assertTrue(looks)

    def test_status_and_lines(self) -> None:
        self.file('a.pkl', HARMLESS)
        self.file('b.pkl', by_text('operator', 'attrgetter', 'system') + b'cos\npath\n\x85R' + text('id') + b'\x85R.')
        run = self.scan('a.pkl', 'b.pkl', '--brief')
        self.assertEqual((run.returncode, run.stderr), (1, ''))
        self.assertEqual(run.stdout.splitlines()[:3], [
            '! b.pkl: import operator.attrgetter once, first at 28: gets any attribute by name',
            "! b.pkl: call operator.attrgetter once, first at 42: call 'operator' 'attrgetter' ('system') as #5",
            "! b.pkl: call of what the pickle made 2 times, first at 53: call #5 (global 'os' 'path') as #8"])
        self.file('c.pkl', HOSTILE)
        self.assertEqual(self.scan('a.pkl', 'c.pkl', '--no-known').returncode, 0)

    def test_own_lists(self) -> None:
        self.file('a.pkl', HARMLESS)
        self.file('b.pkl', HOSTILE)
        self.file('deny', b'collections.*  # not here\n')
        self.file('allow', b'collections.*\nposix.system  # we looked\n')
        run = self.scan('a.pkl', '--deny', 'deny', '--brief')
        self.assertEqual((run.returncode, run.stdout.splitlines()[0]), (1, '! a.pkl: import collections.OrderedDict once, first at 2: denied: not here'))
        self.assertEqual(self.scan('a.pkl', 'b.pkl', '--allow', 'allow').returncode, 0)
        self.assertEqual(self.scan('a.pkl', '--allow', 'allow', '--deny', 'deny').returncode, 1)

    def test_written_lists(self) -> None:
        self.file('files/a.pkl', HARMLESS + HARMLESS)
        self.file('files/b.pkl', HOSTILE + b'cos \nx*\n.' + b'cos \ny\n.' + HARMLESS)
        self.scan('files', '--write-allow', 'list')
        self.assertEqual((self.folder / 'list').read_text().splitlines(), [
            "# 'os ' 'x*':  # once in 1 pickle, first in files/b.pkl", '# once in 1 pickle, first in files/b.pkl', "'os ' 'y':",
            'collections.OrderedDict:  # 3 times in 2 pickles, first in files/a.pkl',
            '# posix.system: call  # runs a shell command; once in 1 pickle, first in files/b.pkl'])
        self.assertEqual(self.scan('files/a.pkl', '--allow', 'list').returncode, 0)
        run = self.scan('files/b.pkl', '--allow', 'list', '--brief')
        self.assertEqual([line.split(',')[0] for line in run.stdout.splitlines() if line.startswith('! files/b.pkl: import')],
                         ['! files/b.pkl: import posix.system once', "! files/b.pkl: import 'os ' 'x*' once"])

    def test_good_files_have_no_mark(self) -> None:
        for file in MODELS.iterdir():
            if file.name != 'WRITTEN_BY.txt':
                self.assertEqual([each.text for each in Judge().looks(look(str(file))) if each.name], [], file.name)


class TheList(unittest.TestCase):
    """The names themselves."""

    def test_each_has_a_reason(self) -> None:
        names = known_names()
        notes = [*names.names.values(), *(note for _, _, note in names.patterns)]
        self.assertGreaterEqual(len(notes), 150)
        self.assertTrue(all(notes))

    def test_a_name_is_looked_for_by_its_first_part(self) -> None:
        names = known_names()
        patterns = [pattern.replace('**', 'a.b').replace('*', 'c') for pattern, _, _ in names.patterns]
        for name in (*names.names, *patterns, *(f'x.{name}' for name in names.names), *(name.partition('.')[2] for name in names.names), '', '.', '*.a'):
            self.assertEqual(known_note(name), names.note(name), name)

    def test_names_that_were_seen_to_run_something(self) -> None:
        """Names that a call of was seen or read to run, load, write or reach what it is given; one of each module, where that is all of it."""
        for name in (DATA / 'names_that_run.txt').read_text().split():
            with self.subTest(name):
                self.assertIsNotNone(known_note(name))

    def test_names_of_protocol_2(self) -> None:
        for name in ('__builtin__.eval', 'cPickle.loads', 'commands.getoutput', 'urllib2.urlopen', '__builtin__.reduce', 'itertools.imap'):
            module, _, attribute = name.rpartition('.')
            result = look_at_bytes('a.pkl', f'c{module}\n{attribute}\n.'.encode())
            self.assertIn('known', [look.rule for look in Judge().looks(result)], name)

    def test_modules_under_names_of_their_own(self) -> None:
        for name in ('enum.bltns.eval', 'numpy._builtins.eval', 'random._os.system', 'collections._sys.modules', 'a._subprocess.Popen',
                     'a._posix.system', 'a.b._importlib.import_module', 'enum.types.FunctionType'):
            self.assertIsNotNone(known_note(name), name)
        for name in ('enum.types.DynamicClassAttribute', 'a._system.b', 'torch._utils._rebuild'):
            self.assertIsNone(known_note(name), name)

    def test_a_long_name_takes_no_long_time(self) -> None:
        self.assertIsNone(Names(known_names_lines()).note('a.' * 200_000 + 'b'))


def known_names_lines() -> List[str]:
    names = known_names()
    return [*names.names, *(pattern for pattern, _, _ in names.patterns)]


class Checked(ScanCase):
    """`check`, from Python."""

    def test_what_is_good_comes_back(self) -> None:
        path = self.file('a.pkl', HARMLESS)
        self.assertEqual(picklestep.check(io.BytesIO(HARMLESS)), HARMLESS)
        for source in (HARMLESS, bytearray(HARMLESS), path, str(path)):
            self.assertEqual(picklestep.check(source), HARMLESS)
            self.assertEqual(picklestep.check(source, names=['collections.OrderedDict']), HARMLESS)
        state = MODELS / 'torch_state.pt'
        self.assertEqual(picklestep.check(state, allow=['torch']), state.read_bytes())

    def test_notebooks(self) -> None:
        view = look(str(self.file('<b>.pkl', HARMLESS + HOSTILE)))._repr_html_()
        self.assertIn('&lt;b&gt;.pkl', view)
        self.assertIn('\n!     import posix.system once, first at 28: runs a shell command\n', view)
        with self.assertRaises(picklestep.NotAllowed) as caught:
            picklestep.check(HOSTILE)
        self.assertEqual(caught.exception._render_traceback_()[1], '! pickle: import posix.system once, first at 0: runs a shell command')

    def test_what_is_not_raises(self) -> None:
        for content in [*FILES.values(), b'text', b'', HARMLESS[:-1], b"(S'abc'\np0\ncos\nsystem\n" + text('id') + b'\x85Rtp1\n.']:
            with self.assertRaises(picklestep.NotAllowed) as caught:
                picklestep.check(content)
            self.assertTrue(caught.exception.lines)
        with self.assertRaises(picklestep.NotAllowed) as caught:
            picklestep.check(self.file('a.pkl', HARMLESS), names=['posix.*'])
        self.assertEqual(caught.exception.lines[0],
                         f'{self.folder}/a.pkl: import collections.OrderedDict once, first at 2: not allowed: is in sets plain, torch')
        with self.assertRaises(FileNotFoundError):
            picklestep.check('/not/there')
        with self.assertRaises(FileNotFoundError):
            picklestep.check(HARMLESS, allow=['no_such_set'])


if __name__ == '__main__':
    unittest.main()
