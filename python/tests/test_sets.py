"""The sets of allowed names, on real files of their libraries and beside the list of known names."""

from __future__ import annotations

import itertools
import re
import subprocess
import sys
import tarfile
import tempfile
import unittest
from pathlib import Path
from typing import Dict, FrozenSet, Tuple

from picklestep import NotAllowed, check, gate
from picklestep.scan import Judge, Options
from picklestep.scan.allow import SETS, read_lines, read_names
from picklestep.scan.known import known_note
from picklestep.scan.names import read_line
from evasions import NO_PARTS, kind, long
from made_pickles import WORD_OF, Made, Named
from real_files import KEPT, MODULES
from scan_support import MODELS, ScanCase, looks_at, looks_in, python_with

WRITER = Path(__file__).resolve().parent / 'real_files.py'
# Each set alone is enough for the files of its library, since it includes what it needs. Whole models, and models that joblib dumps, have sets
# of their own: their files, by how their names begin.
LIBRARIES = ('plain', 'numpy', 'scipy', 'pandas', 'sklearn', 'torch', 'joblib', 'xgboost', 'networkx', 'xarray', 'transformers', 'lightning')
MODELS_OF: Dict[str, Tuple[str, Tuple[str, ...]]] = {
    'torch': ('torch-modules', ('module_', 'torch_module')), 'joblib': ('sklearn', ('model.', 'all.'))}
# No package of the machine has these. What torch alone writes of them is among the real files; files with the documented names of their
# settings are made here.
BY_NAMES = ('transformers', 'lightning')
# In protocols 2 and 3 these get a method of interp1d by `getattr`, which no set allows.
BY_GETATTR = ('linear_2.pkl', 'linear_3.pkl')
# It holds code, which no set allows.
SCRIPT = 'torch_script.pt'


def set_for(library: str, file: str) -> str:
    """The set that is to be enough for a file of a library."""
    other, beginnings = MODELS_OF.get(library, (library, ()))
    return other if file.startswith(beginnings) else library


def write_files(folder: Path, library: str) -> bool:
    """Has a library of this machine write its files, with each value in each protocol, as far as sets allow them. False where it is not installed."""
    python = sys.executable if library == 'plain' else python_with(MODULES.get(library, library))
    if python is None:
        return False
    subprocess.run([python, str(WRITER), '--each', str(folder), library], check=True, timeout=900, cwd=tempfile.gettempdir())
    for name in BY_GETATTR:
        (folder / name).unlink(missing_ok=True)
    return True


class Names(unittest.TestCase):
    """Each name of each set."""

    def test_no_name_is_known_to_run_what_it_is_given(self) -> None:
        for word in SETS:
            for name in read_names([word]).names:
                self.assertIsNone(known_note(name), f'{word}: {name}')

    def test_each_name_is_whole_and_has_a_reason(self) -> None:
        for word in SETS:
            names = read_names([word], with_needed=False)
            self.assertEqual(names.patterns, [], word)
            self.assertTrue(names.names)
            for name, note in names.names.items():
                self.assertTrue(note, f'{word}: {name}')

    def test_each_line_says_what_may_be_done_with_what_calls_make(self) -> None:
        """One that does not would allow everything, also to what a line of another list lets be called."""
        for word in SETS:
            for text in read_lines([word], with_needed=False):
                line = read_line(text)
                self.assertTrue(line is None or any(each.startswith('made') for each in line.words), f'{word}: {text}')

    def test_each_set_is_tried(self) -> None:
        self.assertEqual({*LIBRARIES, *(word for word, _ in MODELS_OF.values())}, set(SETS))


class Kinds(ScanCase):
    """What a pickle says of numpy's kinds of items, which numpy believes."""

    def test_states_that_no_pickler_gives(self) -> None:
        objects = kind(b'O8', long(b'|') + NO_PARTS + b'?')
        scalar = b'cnumpy.core.multiarray\nscalar\n'

        def parts(of: bytes, flags: bytes) -> bytes:
            return kind(b'V8', long(b'|') + b'N' + long(b'a') + b'\x85}' + long(b'a') + of + b'K\0\x86sK\x08K\1K' + flags)

        raw = kind(b'i8', long(b'<') + NO_PARTS + b'\0')
        for name, content, is_marked in (
                ('objects as raw bytes', kind(b'O8', long(b'|') + NO_PARTS + b'\0'), True),
                ('raw bytes as objects', kind(b'V8', long(b'|') + NO_PARTS + b'?'), True),
                ('parts that are objects', scalar + parts(objects, b'\0') + b'C\x08AAAAAAAA\x86R', True), ('parts of raw bytes', parts(raw, b'\x1b'), True),
                ('an object as a number', scalar + objects + b'N\x86R', True), ('a number of an unknown kind', scalar + b'NN\x86R', True),
                ('parts of a text', kind(b'S8', long(b'|') + raw + b'K\1\x85\x86NNK\x08K\1K\0'), True),
                ('a state of something else', b'cnumpy\ndtype\ncnumpy\nint64\n)\x81' + raw[raw.index(b'('):], True),
                ('objects', objects, False), ('numbers', scalar + raw + b'C\x08AAAAAAAA\x86R', False), ('parts', parts(raw, b'\x10'), False),
                ('parts with objects', parts(objects, b'\x1b'), False), ('objects, and parts without', objects + parts(raw, b'\x10') + b'\x86', False)):
            with self.subTest(name):
                looks = looks_in(Judge(read_names(['numpy', 'plain'])), b'\x80\3' + content + b'.')
                self.assertEqual(any('numpy.dtype' in line for each in looks for line in each.lines), is_marked, looks)

    def test_arrays_are_not_called(self) -> None:
        judge = Judge(read_names(['numpy', 'plain']))
        for content, is_marked in ((b'cnumpy\nndarray\n)\x81', True), (b'cnumpy.ma\nMaskedArray\nN\x85R', True), (b'cnumpy\npoly1d\n)\x81', False),
                                   (b'cnumpy\npoly1d\n)R', True), (b'cnumpy\nndarray\n', False)):
            looks = looks_in(judge, b'\x80\3' + content + b'.')
            self.assertEqual(bool(looks), is_marked, content)


class RealFiles(ScanCase):
    """Files that libraries wrote: kept ones, and what those of this machine write."""

    def tried(self, library: str) -> None:
        """Looks at the files in the folder, each with one set alone."""
        files = sorted(self.folder.iterdir())
        for file in files:
            word = set_for(library, file.name)
            looks = [each.lines for each in looks_at(Judge(read_names([word])), file)]
            self.assertEqual(looks, [], f'{word}: {file.name}')
        self.assertGreaterEqual(len(files), 10)

    def kept(self, library: str) -> None:
        """Looks at the files of a library that are kept."""
        with tarfile.open(KEPT / f'{library}.tar.xz') as archive:
            for member in archive:
                content = archive.extractfile(member)
                assert content is not None
                self.file(member.name, content.read())
        self.tried(library)

    def written(self, library: str) -> None:
        """Looks at what a library of this machine writes, in each protocol."""
        if not write_files(self.folder, library):
            self.skipTest(f'{library} is not installed; its kept files are looked at')
        self.tried(library)

    def test_all_are_kept(self) -> None:
        self.assertEqual({path.name.partition('.')[0] for path in KEPT.iterdir()}, set(LIBRARIES) - {'plain'})
        self.assertLess(sum(path.stat().st_size for path in KEPT.iterdir()), 300_000)


    def test_model_files(self) -> None:
        """Those of the tests, with one set alone."""
        for file in sorted(MODELS.iterdir()):
            if file.name not in ('WRITTEN_BY.txt', SCRIPT):
                word = set_for(file.name.partition('_')[0], file.name)
                looks = looks_at(Judge(read_names([word])), file)
                # (The gate knows no array with fields.)
                is_passed = [each.rule for each in looks] == ['not-passed'] if file.name == 'numpy_fields.npy' else not looks
                self.assertTrue(is_passed, f'{word}: {file.name}: {looks}')


def _add(library: str) -> None:
    setattr(RealFiles, f'test_{library}', lambda self: self.written(library))
    if library != 'plain':  # (the standard library is on each machine)
        setattr(RealFiles, f'test_{library}_kept', lambda self: self.kept(library))


for _library in LIBRARIES:
    _add(_library)


class ByNames(ScanCase):
    """Files that hold the documented names of libraries which no package has."""

    def test_each_name(self) -> None:
        for library in BY_NAMES:
            judge = Judge(read_names([library]))
            names = read_names([library], with_needed=False)
            self.assertGreaterEqual(len(names.names), 10)
            for number, name in enumerate(names.names):
                module, _, attribute = name.rpartition('.')
                made = b')\x81' * names.allows_done('new', name)
                made += b'}X\x01\0\0\0bK\x01sb' * (bool(made) and any('made-state' in words for words in names.words_of(name)))
                content = b'\x80\x02}X\x01\0\0\0ac' + f'{module}\n{attribute}\n'.encode() + made + b's.'
                result = self.look(f'{library}{number}.ckpt', content, Options(lists=judge.lists()))
                self.assertEqual([found.name for found in result.pickles[0].imports], [name])
                self.assertEqual(list(judge.looks(result)), [], name)


# What a pickler does with what a call of each name makes, by the `__reduce__` of its class; a set is enough for each. Nothing else passes.
NOTHING, STATE, ITEMS = frozenset(), frozenset(('state',)), frozenset(('items', 'pairs'))
DAY = (b'\x07\xe4\x01\x01',)
MADE: Tuple[Tuple[str, Made, FrozenSet[str]], ...] = (
    ('plain', Made('datetime.date', DAY), NOTHING), ('plain', Made('collections.OrderedDict'), ITEMS), ('plain', Made('collections.defaultdict'), ITEMS),
    ('plain', Made('collections.Counter', ({'a': 1},)), NOTHING), ('plain', Made('collections.deque', ((), 5)), ITEMS),
    ('plain', Made('random.Random', state=(3, (1, 2), None)), STATE), ('plain', Made('uuid.UUID', is_new=True), STATE),
    ('plain', Made('urllib.parse.ParseResult', ('a',), is_new=True), NOTHING), ('plain', Made('builtins.ValueError', ('a',)), STATE),
    ('plain', Made('copyreg._reconstructor', (Named('argparse.Namespace'), object, None)), STATE),
    ('numpy', Made('numpy.dtype', ('f8', False, True), state=(3, '<', None, None, None, -1, -1, 0)), STATE),
    ('numpy', Made('numpy.ma.core.MaskedConstant'), NOTHING),
    ('numpy', Made('numpy.core.multiarray._reconstruct', (Named('numpy.ndarray'), (0,), b'b')), STATE),
    ('numpy', Made('numpy._core.multiarray._reconstruct', (Named('numpy.ndarray'), (0,), b'b')), STATE),
    ('numpy', Made('numpy.core.numeric._frombuffer', (b'a',)), NOTHING), ('numpy', Made('numpy.random._pickle.__randomstate_ctor', ('MT19937',)), STATE),
    ('joblib', Made('joblib.numpy_pickle.NumpyArrayWrapper', is_new=True), STATE),
    ('pandas', Made('pandas._libs.internals._unpickle_block', (1,)), NOTHING), ('pandas', Made('pandas._libs.arrays.__pyx_unpickle_NDArrayBacked', (1,)), STATE),
    ('pandas', Made('pandas.core.frame.DataFrame', is_new=True), STATE), ('pandas', Made('pandas._libs.tslibs.timestamps._unpickle_timestamp', (1,)), NOTHING),
    ('scipy', Made('scipy.sparse._csr.csr_matrix', is_new=True), STATE), ('scipy', Made('scipy.optimize._optimize.OptimizeResult', is_new=True), STATE | ITEMS),
    ('sklearn', Made('sklearn.tree._tree.Tree', (1,)), STATE), ('sklearn', Made('sklearn.linear_model._sgd_fast.Hinge', (1.0,)), NOTHING),
    ('sklearn', Made('sklearn.utils._bunch.Bunch', is_new=True), STATE | ITEMS), ('sklearn', Made('sklearn.svm._classes.SVC', is_new=True), STATE),
    ('torch', Made('torch._utils._rebuild_tensor_v2', (1,)), NOTHING), ('torch', Made('collections.OrderedDict'), STATE | ITEMS),
    ('torch', Made('torch._utils._rebuild_parameter', (1,)), NOTHING), ('torch', Made('torch.Size', ((1,),)), NOTHING),
    ('torch-modules', Made('torch.nn.modules.linear.Linear', is_new=True), STATE), ('xgboost', Made('xgboost.core.Booster', is_new=True), STATE),
    ('networkx', Made('networkx.classes.graph.Graph', is_new=True), STATE), ('xarray', Made('xarray.core.variable.Variable', is_new=True), STATE),
    ('lightning', Made('lightning.fabric.utilities.data.AttributeDict', is_new=True), STATE | ITEMS),
    ('transformers', Made('transformers.trainer_utils.IntervalStrategy', ('no',)), NOTHING),
    ('transformers', Made('transformers.training_args.TrainingArguments', is_new=True), STATE))


class WhatCallsMake(unittest.TestCase):
    """What may be done with it."""

    def test_each_set_has_a_row(self) -> None:
        self.assertEqual({word for word, _, _ in MADE}, set(SETS))

    def test_rows(self) -> None:
        for word, made, passing in MADE:
            for use, protocol in itertools.product(('', *WORD_OF), (2, 4)):
                with self.subTest(word, name=made.name, use=use, protocol=protocol):
                    content = made.pickled(use, protocol)
                    answer = gate(content, allow=[word])
                    self.assertEqual(bool(answer), not use or use in passing, answer.line)
                    if not answer:
                        self.assertEqual(answer.kind, 'not allowed')
                        with self.assertRaisesRegex(NotAllowed, f'{WORD_OF[use]} {re.escape(made.name)}'):
                            check(content, allow=[word])

    def test_what_only_protocols_0_and_1_make(self) -> None:
        """`copyreg._reduce_ex` gives a state, and never items; what else `copyreg` makes gets a state at most, too."""
        for name, given in (('_reconstructor', (object, None)), ('__newobj__', ()), ('__newobj_ex__', ((), {}))):
            made = Made(f'copyreg.{name}', (Named('argparse.Namespace'), *given))
            for use, protocol in itertools.product(('', 'state', 'items', 'pairs', 'call'), (0, 1)):
                with self.subTest(name, use=use, protocol=protocol):
                    answer = gate(made.pickled(use, protocol), allow=['plain'])
                    self.assertEqual(bool(answer), use in ('', 'state'), answer.line)

    def test_a_line_beside_a_set_says_what_may_be_done(self) -> None:
        """The set only lets the name be imported."""
        for use in WORD_OF:
            content = Made('numpy.mean', (1,)).pickled(use, 4)
            for line, passes in (('numpy.mean: call made', False), (f'numpy.mean: call {WORD_OF[use]}', True), ('numpy.mean: call', True)):
                self.assertEqual(bool(gate(content, allow=['numpy'], names=[line])), passes, (use, line))

    def test_what_getattr_gives(self) -> None:
        """It goes by `getattr`, so a line for that says what may be done with it."""
        for use in WORD_OF:
            content = Made('builtins.getattr', (Named('argparse.Namespace'), 'mro')).pickled(use, 4)
            for line, passes in (('builtins.getattr: call made', False), (f'builtins.getattr: call {WORD_OF[use]}', True)):
                self.assertEqual(bool(gate(content, allow=['plain'], names=[line])), passes, (use, line))


class Done(unittest.TestCase):
    """What may be done with the names of the sets."""

    def test_each_name_is_limited(self) -> None:
        """What a pickler imports is called or passed on. It gets no state, and nothing is put into it."""
        for name in SETS:
            names = read_names([name])
            for each in (*names.names, *(pattern for pattern, _, _ in names.patterns)):
                with self.subTest(name, name=each):
                    self.assertFalse(names.allows_done('state', each) or names.allows_done('set', each) or names.allows_done('append', each))
        torch = read_names(['torch'])
        self.assertTrue(torch.allows_done('call', 'torch._utils._rebuild_tensor_v2'))
        self.assertFalse(torch.allows_done('call', 'torch.FloatStorage') or torch.allows_done('inst', 'torch.float32'))


if __name__ == '__main__':
    unittest.main()
