#!/usr/bin/python3
"""Writes into the sets of allowed names what may be done with what a call of each name makes: `made-state`, `made-fill`, or `made` for nothing.

    /usr/bin/python3 tools/made_words.py [SET=FILE..]

Needs the libraries of Debian that the sets are for: python3-sklearn, python3-pandas, python3-networkx, python3-sympy, python3-dateutil. Of a library
that is not here the kept files show what it writes (python/tests/data/real). FILEs are looked at besides, each for a set. Give honest ones only, since
what they do is allowed from then on. It takes two minutes; read over what it changes, and what it prints.

These are the rules:

1. The words of a line stay, since somebody has read them over. The tool adds words, and takes away only a `made` that allows nothing.
2. What files of a set do with what a call of a name makes is allowed. These are the files that the set is for, or a set that includes it.
3. A line with `new`, and without `call`, has a class whose objects `object.__reduce_ex__` writes (`reduce_newobj` in Objects/typeobject.c). These may
   have a state where the class has a place for attributes. Subclasses of list and dict are filled.
4. A call of Cython's `__pyx_unpickle_..` makes what gets a state. So does one of an exception: `BaseException.__reduce__` gives its `__dict__`.
5. All else gets `made`. A name of a function, of which no file shows a call, is printed: read what its library writes, and put a word into the set.
6. What may be neither called nor made by `new` gets `made`, too: else the line would allow everything to what a line of another list lets be called.

`copyreg.__newobj__` and `__newobj_ex__` are called by protocols 0 and 1 alone, where a class asks `object.__reduce_ex__` for protocol 2. No file shows
that, and no class of a set does so. They have `made-state`, as most objects have a state, and a list of one's own can say `made-fill`.
"""

from __future__ import annotations

import builtins
import copyreg
import importlib
import itertools
import pickle
import sys
import tarfile
import tempfile
import warnings
from pathlib import Path
from typing import Any, Dict, FrozenSet, Iterable, Iterator, List, Optional, Set, Tuple

TOP = Path(__file__).resolve().parent.parent
sys.path[:0] = [str(TOP / 'python'), str(TOP / 'python' / 'tests'), str(TOP / 'equipment' / 'real_pickles')]

import honest  # noqa: E402
import hostile  # noqa: E402
import library_pickles  # noqa: E402
import real_files  # noqa: E402
from picklestep.scan import Options, look_at_bytes  # noqa: E402
from picklestep.scan.allow import SETS, read_names  # noqa: E402
from picklestep.scan.blobs import Limits  # noqa: E402
from picklestep.scan.names import Line, read_line  # noqa: E402
from test_sets import set_for  # noqa: E402

# The sets for libraries that have none of their own.
OTHERS = {'dateutil': 'pandas', 'pytz': 'pandas'}
# What torch alone writes is not what the set `plain` is for, which these two include.
BY_TORCH = {'lightning': 'torch', 'transformers': 'torch'}
FOLDER = TOP / 'python' / 'picklestep' / 'scan' / 'allow'
# With this list it is said of everything that is done with what a call made.
ALL = Options(limits=Limits(shapes=('**: call new state fill made',)))
WORDS = ('call', 'new', 'state', 'fill')
# Notes of a set begin in one column, but for lines longer than this.
WIDEST = 76

# The name of a file, what is in it, and the set that is for it.
File = Tuple[str, bytes, str]
# What calls make gets done, by the set that files are for, and then by the name that is called.
Seen = Dict[str, Dict[str, Set[str]]]


# --- What honest files do ---

def kept_files() -> Iterator[File]:
    """What libraries wrote on some machine."""
    for path in sorted(real_files.KEPT.iterdir()):
        library = path.name.partition('.')[0]
        with tarfile.open(path) as archive:
            for member in archive:
                content = archive.extractfile(member)
                assert content is not None
                yield member.name, content.read(), BY_TORCH.get(library) or set_for(library, member.name)


def written_files() -> Iterator[File]:
    """What the writers of the tests write here, in each protocol."""
    real_files.PROTOCOLS = range(6)
    for name, write in real_files.WRITERS.items():
        with tempfile.TemporaryDirectory() as folder:
            try:
                write(Path(folder))
            except ImportError as error:
                print(f'{name} is not here, and the kept files stand for it: {error}', file=sys.stderr)
            yield from ((path.name, path.read_bytes(), BY_TORCH.get(name) or set_for(name, path.name)) for path in files_in(Path(folder)))
    for maker, word in ((honest.of_python, 'plain'), (honest.of_numpy, 'numpy'), (honest.of_joblib, 'sklearn'), (honest.of_pandas, 'pandas'),
                        (honest.of_torch, 'torch-modules')):
        with tempfile.TemporaryDirectory() as folder:
            honest.FOLDER = folder
            try:
                maker()
            except ImportError as error:
                print(f'{maker.__name__}: {error}', file=sys.stderr)
            yield from ((path.name, path.read_bytes(), word) for path in files_in(Path(folder)))
    for name, make in library_pickles._LIBRARIES.items():
        for number, content in enumerate(library_pickles._pickles(make())):
            yield f'{number}.pkl', content, name if name in SETS else OTHERS.get(name, 'plain')


def files_in(folder: Path) -> List[Path]:
    """All files under a folder."""
    return sorted(path for path in folder.rglob('*') if path.is_file())


def own_pickles() -> Iterator[File]:
    """The pickles of the equipment, but for the hostile ones."""
    others = {name for name, _, _ in hostile.pickles()}
    for path in sorted((TOP / 'crates' / 'real_pickles' / 'data').glob('*.pickle')):
        if path.stem not in others:
            word = path.name.partition('_')[0]
            yield path.name, path.read_bytes(), word if word in SETS else 'plain'


def values() -> Iterator[Any]:
    """What the makers above leave out."""
    import argparse
    import numpy
    import numpy.ma.mrecords
    yield [numpy.random.Generator(kind(1)) for kind in (numpy.random.MT19937, numpy.random.PCG64, numpy.random.PCG64DXSM, numpy.random.Philox, numpy.random.SFC64)]
    yield [numpy.random.MT19937(1), numpy.random.SeedSequence(1), numpy.poly1d([1, 2]), numpy.ma.masked, numpy.matrix([[1]]), numpy.mean, numpy.dtype(('i4', (2,)))]
    yield [numpy.polynomial.Chebyshev([1]), numpy.polynomial.Legendre([1]), numpy.polynomial.Hermite([1]), numpy.polynomial.HermiteE([1]), numpy.polynomial.Laguerre([1])]
    yield [numpy.ma.mrecords.fromarrays([[1, 2]], names='a'), numpy.rec.array([(1,)], dtype=[('a', int)])[0], numpy.char.array(['a'])]
    kinds = [getattr(builtins, name.partition('.')[2], None) for name in read_names(['plain']).names if name.startswith('builtins.')]
    yield from (made_exception(kind) for kind in kinds if isinstance(kind, type) and issubclass(kind, Exception))
    told = ValueError('a')
    told.note = argparse.Namespace(a=1)  # type: ignore[attr-defined]
    yield told


def made_exception(kind: Any) -> Any:
    """An exception of a kind, by the arguments that it takes."""
    for given in (('a',), ('a', [ValueError('b')]), ('ascii', b'\xff', 0, 1, 'x'), ('ascii', 'a', 0, 1, 'x'), ('a', 0, 1, 'x')):
        try:
            return kind(*given)
        except TypeError:
            continue
    return None


def pandas_values() -> Iterator[Any]:
    """What pandas has besides tables."""
    import dateutil.relativedelta
    import dateutil.tz
    import pandas
    from pandas.tseries import offsets
    for name in offsets.__all__:
        try:
            yield getattr(offsets, name)()
        except TypeError:
            continue
    yield [offsets.DateOffset(months=1), offsets.CustomBusinessDay(weekmask='Mon'), offsets.Easter(), pandas.offsets.FY5253(weekday=1, startingMonth=1)]
    frame = pandas.DataFrame({'a': [1, 2], 'b': ['x', 'y']})
    yield [frame.dtypes, pandas.Series([1, 2], dtype='category'), pandas.IntervalIndex.from_breaks([0, 1]).dtype, pandas.PeriodIndex(['2020'], freq='D').dtype]
    for kind in ('Int8', 'Int16', 'Int32', 'Int64', 'UInt8', 'UInt16', 'UInt32', 'UInt64', 'Float32', 'Float64', 'boolean', 'string'):
        yield pandas.array([1 if kind != 'string' else 'a', None], dtype=kind)
    yield [pandas.Timestamp('2020-01-01', tz=zone) for zone in ('UTC', 'Europe/Paris', 'Etc/GMT+5', 'dateutil/Europe/Paris')]
    yield [dateutil.tz.tzlocal(), dateutil.tz.tzutc(), dateutil.relativedelta.relativedelta(weekday=dateutil.relativedelta.MO(1))]
    yield [pandas.arrays.SparseArray([0, 1], kind='block'), pandas.arrays.PandasArray(frame.a.to_numpy()), frame.a.array.dtype, frame.groupby('b').groups]


def scipy_values() -> Iterator[Any]:
    """What scipy has besides."""
    import numpy
    from scipy import interpolate, optimize, sparse
    x = numpy.linspace(0, 1, 8)
    for form, kind in itertools.product(('csr', 'csc', 'coo', 'bsr', 'dia', 'lil', 'dok'), ('matrix', 'array')):
        yield getattr(sparse, f'{form}_{kind}')(numpy.eye(3))
    grid = numpy.outer(x, x)
    yield [interpolate.Akima1DInterpolator(x, x), interpolate.CubicHermiteSpline(x, x, x), interpolate.PPoly([[1.0]], [0, 1]), interpolate.BPoly([[1.0]], [0, 1])]
    yield [interpolate.UnivariateSpline(x, x), interpolate.InterpolatedUnivariateSpline(x, x), interpolate.LSQUnivariateSpline(x, x, [0.5])]
    yield [interpolate.RectBivariateSpline(x, x, grid), interpolate.RegularGridInterpolator((x, x), grid), interpolate.RBFInterpolator(x[:, None], x)]
    yield [interpolate.BarycentricInterpolator(x, x), interpolate.KroghInterpolator(x, x), interpolate.interp1d(x, x, 'cubic')]
    yield [interpolate.NdPPoly(numpy.ones((1, 1, 1, 1)), ([0, 1], [0, 1])), optimize.minimize(lambda a: float(a @ a), [1.0], method='L-BFGS-B').get('hess_inv')]


def more_files() -> Iterator[File]:
    """Pickles of all these values."""
    for make, word in ((values, 'numpy'), (pandas_values, 'pandas'), (scipy_values, 'scipy')):
        for value, protocol in itertools.product(make(), range(6)):
            try:
                yield f'{word}.pkl', pickle.dumps(value, protocol), word
            except (TypeError, ValueError, NotImplementedError, pickle.PicklingError, AttributeError):
                continue


def see(files: Iterable[File], seen: Seen) -> int:
    """Adds what files do with what calls made; where nothing is done, there are no words. The number of pickles."""
    pickles = 0
    for name, content, word in files:
        by_name = seen.setdefault(word, {})
        for found in look_at_bytes(name, content, ALL).pickles:
            pickles += 1
            for done in found.calls:
                if done.what in ('call', 'new', 'inst') and done.name:
                    by_name.setdefault(done.name, set())
                elif done.what.startswith('made-'):
                    by_name.setdefault(done.name, set()).add(done.what[len('made-'):])
    return pickles


def seen_by(word: str, seen: Seen) -> Dict[str, Set[str]]:
    """What the files show that a set is for, or one that includes it."""
    found: Dict[str, Set[str]] = {}
    for other, by_name in seen.items():
        if word in sets_in(other):
            for name, done in by_name.items():
                found.setdefault(name, set()).update(done)
    return found


def sets_in(word: str) -> Set[str]:
    """A set, those that it includes, and so on."""
    lines = map(read_line, (FOLDER / f'{word}.txt').read_text().splitlines())
    return {word}.union(*(sets_in(line.name) for line in lines if line is not None and line.is_include))


# --- What each line says ---

def imported(name: str) -> Any:
    """What a name stands for; None where its library is not here."""
    parts = name.split('.')
    for count in range(len(parts) - 1, 0, -1):
        try:
            found: Any = importlib.import_module('.'.join(parts[:count]))
            for part in parts[count:]:
                found = getattr(found, part)
            return found
        except (ImportError, AttributeError):
            continue
    return None


def by_reduce(kind: Any) -> Set[str]:
    """What `object.__reduce_ex__` may give an object of a class besides what makes it; None stands for a class that is not here."""
    if not isinstance(kind, type):
        return {'state'}
    has_place = bool(kind.__dictoffset__ or copyreg._slotnames(kind))  # type: ignore[attr-defined]
    has_own = any('__getstate__' in vars(each) for each in kind.__mro__ if each is not object)
    return {word for word, is_given in (('state', has_place or has_own), ('fill', issubclass(kind, (list, dict)))) if is_given}


def may_be_done(line: Line, seen: Dict[str, Set[str]], unseen: List[str]) -> FrozenSet[str]:
    """What a line is to say of what calls make."""
    stands = line.made or frozenset()
    if not line.words & {'call', 'new'}:
        return stands
    kind = imported(line.name)
    found = seen.get(line.name, set())
    if 'call' not in line.words:
        return stands | found | by_reduce(kind)
    if line.name.rpartition('.')[2].startswith('__pyx_unpickle_') or isinstance(kind, type) and issubclass(kind, BaseException):
        return stands | found | {'state'}
    if line.name not in seen and line.made is None:
        unseen.append(line.name)
    return stands | found


def rewritten(text: str, seen: Dict[str, Set[str]], unseen: List[str]) -> Optional[Tuple[str, str]]:
    """The entry of a line, and its note; None where it has no entry."""
    line = read_line(text)
    if line is None or line.is_include:
        return None
    entry = text.partition('#')[0].strip()
    kept = [word for word in split_words(entry) if word != 'made' and not word.startswith('made-')]
    made = may_be_done(line, seen, unseen)
    return ' '.join([*kept, *(f'made-{word}' for word in WORDS if word in made)] if made else [*kept, 'made']), line.note


def split_words(entry: str) -> List[str]:
    """What stands between the blanks of an entry, but for those within parentheses."""
    words: List[str] = []
    for word in entry.split():
        if words and words[-1].count('(') > words[-1].count(')'):
            words[-1] += f' {word}'
        else:
            words.append(word)
    return words


def write(path: Path, seen: Seen) -> None:
    """Writes a set anew."""
    unseen: List[str] = []
    by_name = seen_by(path.stem, seen)
    lines = path.read_text().splitlines()
    found = [rewritten(line, by_name, unseen) for line in lines]
    width = max(len(each[0]) for each in found if each is not None and len(each[0]) <= WIDEST)
    path.write_text(''.join(f'{line if each is None else f"{each[0]:{width}}  # {each[1]}"}\n' for line, each in zip(lines, found)))
    count = sum(each is not None for each in found)
    print(f'{path.stem}: {count} entries')
    if unseen:
        print(f'  no file shows what is done with what these make: {" ".join(unseen)}')


def write_all(more: Iterable[File] = ()) -> None:
    """Looks at all files, and writes all sets anew."""
    warnings.simplefilter('ignore')
    seen: Seen = {}
    for name, files in (('kept', kept_files()), ('written here', written_files()), ('of the equipment', own_pickles()), ('further values', more_files()),
                        ('given', more)):
        print(f'{name}: {see(files, seen)} pickles')
    for word in SETS:
        write(FOLDER / f'{word}.txt', seen)


if __name__ == '__main__':
    write_all((path, Path(path).read_bytes(), word) for word, _, path in (given.partition('=') for given in sys.argv[1:]))
