"""Real pickles that `convert` and `optimize` write anew: what they are loaded as, before and after.

    alike_pickles.py [FOLDER ..]     writes all real pickles of the repository, and those of folders, in each way, and prints what came of it

It loads in the Python that runs it. Nothing that a pickle names is imported: stand-ins write down what they are made of. A pickle that `gate` lets pass
by the set `plain` is loaded as it is, too. Files whose names begin with `attack` are left out.
"""

from __future__ import annotations

import codecs
import collections
import copyreg
import io
import itertools
import lzma
import pickle
import sys
import tarfile
from pathlib import Path
from typing import Any, Callable, Counter, Dict, Iterator, List, NamedTuple, Optional, Sequence, Tuple

import picklestep
from cut_pickles import Names, shape
from picklestep import NotConverted
from pickles import real_pickles

_DATA = Path(__file__).resolve().parent / 'data'
_LEGACY = {'STRING', 'BINSTRING', 'SHORT_BINSTRING'}
ENCODINGS = ('latin1', 'utf-8', 'ascii', 'bytes')
# What picklers call where a protocol has no opcode.
_REAL = {('_codecs', 'encode'): codecs.encode, ('copyreg', '__newobj__'): copyreg.__newobj__, ('copyreg', '__newobj_ex__'): copyreg.__newobj_ex__,  # type: ignore[attr-defined]
         **{('builtins', kind.__name__): kind for kind in (bytes, bytearray, set, frozenset)}}
_REFUSED, _FAILS, _STANDS, _AS_IT_IS = 'refused', 'fails alike', 'loads alike with stand-ins', 'loads alike as it is'
# What the unpickler in C says of keys of the memo that are too large for it. The result has small ones.
_OF_LARGE_KEYS = (MemoryError, OverflowError)
_LOADS = 'loads, and FILE had keys that are too large for a loader'


class Way(NamedTuple):
    """How a pickle is written anew, and by which encoding it is loaded before."""

    name: str
    write: Callable[[bytes], bytes]
    encoding: str = 'ASCII'


def ways_for(data: bytes) -> Iterator[Way]:
    """The ways to write a pickle anew: those of Python 2 for one that has its texts."""
    for protocol in range(6):
        yield Way(f'--protocol {protocol}', lambda data, protocol=protocol: picklestep.convert(data, protocol=protocol, many=True))  # type: ignore[misc]
    yield Way('optimize', picklestep.optimize)
    if any(opcode.name in _LEGACY for opcode in picklestep.listing(data, many=True)):
        for encoding in ENCODINGS:
            yield Way(f'--python2 --encoding {encoding}', lambda data, encoding=encoding: picklestep.convert(data, encoding), encoding)  # type: ignore[misc]
        yield Way('--python2 --encoding latin1 --protocol 4', lambda data: picklestep.convert(data, 'latin1', protocol=4, many=True), 'latin1')


# --- Loading ---

class _Found:
    """What is found for the names of a pickle: stand-ins, but for what picklers call where a protocol has no opcode."""

    def __init__(self, data: bytes, encoding: str = 'ASCII') -> None:
        super().__init__(io.BytesIO(data), encoding=encoding, buffers=(bytearray(b'%d' % number) for number in itertools.count()))  # type: ignore[call-arg]
        self._names = Names()
        self._maps = data[:1] != pickle.PROTO or data[1] < 3

    def find_class(self, module: str, name: str) -> Any:
        if self._maps:
            module, name = _name_of(module, name)
        if (module, name) == ('builtins', 'getattr'):
            return lambda made, part: self._names.find(made.name[0], f'{made.name[1]}.{part}')
        return _REAL.get((module, name)) or self._names.find(module, name)

    def persistent_load(self, identity: Any) -> Any:
        return self._names.find('', 'persistent')(identity)


class _InC(_Found, pickle.Unpickler):
    pass


class _InPython(_Found, pickle._Unpickler):  # type: ignore[name-defined,misc]
    pass


def _name_of(module: str, name: str) -> Tuple[str, str]:
    """The name that Python 3 imports for one of Python 2."""
    import _compat_pickle
    found = _compat_pickle.NAME_MAPPING.get((module, name))
    return found or (_compat_pickle.IMPORT_MAPPING.get(module, module), name)


class _Writer(pickle._Pickler):  # type: ignore[name-defined,misc]
    """Writes a value, in the same bytes where it is equal and shared in the same way. (Which texts and bytes are one object, and the order in a set,
    loaders choose.)"""

    def memoize(self, made: Any) -> None:
        if not isinstance(made, (str, bytes)):
            super().memoize(made)

    def save(self, made: Any, *more: Any) -> None:
        super().save([type(made).__name__, sorted(map(_written, made))] if type(made) in (set, frozenset) else made, *more)


def _written(value: Any) -> bytes:
    file = io.BytesIO()
    _Writer(file, 4).dump(value)
    return file.getvalue()


def loaded(data: bytes, encoding: str = 'ASCII', as_it_is: bool = False) -> List[Any]:
    """What each pickle is loaded as, by both unpicklers; or the kind of the error."""
    loads: Sequence[Callable[[bytes], Any]] = [lambda each, kind=kind: shape(kind(each, encoding).load()) for kind in (_InC, _InPython)]  # type: ignore[misc]
    if as_it_is:
        loads = [lambda each, load=load: _written(load(each, encoding=encoding)) for load in (pickle.loads, pickle._loads)]  # type: ignore[attr-defined,misc]
    return [_result(load, each) for load in loads for each in _pickles_in(data)]


def _pickles_in(data: bytes) -> Iterator[bytes]:
    begin = 0
    for opcode in picklestep.listing(data, many=True):
        if opcode.name == 'STOP':
            yield data[begin:opcode.offset + 1]
            begin = opcode.offset + 1


def _result(load: Callable[[bytes], Any], data: bytes) -> Any:
    try:
        return load(data)
    except Exception as error:  # (what a stand-in cannot do both cannot)
        return type(error)


# --- What is tried ---

class Tried:
    """What came of the ways to write pickles anew: how often, and a line for each fault."""

    def __init__(self) -> None:
        self.counts: Counter[str] = collections.Counter()
        self.faults: List[str] = []

    def write(self, name: str, data: bytes, way: Way) -> Optional[bytes]:
        """Writes a pickle anew, and loads both. Answers the bytes."""
        try:
            made = way.write(data)
        except NotConverted as error:
            if any('would' in line for line in error.lines):
                self.faults.append(f'{name} {way.name}: {error.lines[0]}')
            self.counts[_REFUSED] += 1
            return None
        before, after = loaded(data, way.encoding), loaded(made)
        has_large_keys = any(each in _OF_LARGE_KEYS for each in before)
        if [each for each in zip(before, after) if each[0] != each[1] and each[0] not in _OF_LARGE_KEYS]:
            self.faults.append(f'{name} {way.name}: {before} and not {after}'[:600])
        self.counts[_LOADS if has_large_keys else _FAILS if all(isinstance(each, type) for each in before) else _STANDS] += 1
        if picklestep.gate(data, allow=['plain']):
            before, after = loaded(data, way.encoding, as_it_is=True), loaded(made, as_it_is=True)
            if before != after:
                self.faults.append(f'{name} {way.name} as it is: {before} and not {after}'[:600])
            self.counts[_AS_IT_IS] += not all(isinstance(each, type) for each in before)
        return made


def _kept() -> Iterator[Tuple[str, bytes]]:
    """The pickles that are kept of each library, and the model files that are pickles."""
    for path in sorted((_DATA / 'real').glob('*.tar.xz')):
        with tarfile.open(fileobj=io.BytesIO(lzma.decompress(path.read_bytes()))) as archive:
            for member in archive:
                file = archive.extractfile(member)
                if file is not None and member.name.endswith('.pkl'):
                    yield f'{path.name} > {member.name}', file.read()
    yield from _files(_DATA / 'models')


def _files(folder: Path) -> Iterator[Tuple[str, bytes]]:
    for path in sorted(folder.rglob('*')):
        if path.is_file() and path.suffix in ('.pkl', '.pck', '.pickle') and not path.name.startswith('attack'):
            yield path.name, path.read_bytes()


def all_real(folders: Sequence[str] = ()) -> Dict[str, bytes]:
    """All real pickles that read to their end, each content once: those of the repository, and those of folders."""
    found: Dict[bytes, str] = {}
    for name, data in itertools.chain(real_pickles().items(), _kept(), *(_files(Path(folder)) for folder in folders)):
        if data not in found and picklestep.calls(data).end.is_stopped:
            found[data] = name
    return {name: data for data, name in found.items()}


def main(folders: List[str]) -> int:
    tried, pickles = Tried(), all_real(folders)
    by_way: Counter[str] = collections.Counter()
    for name, data in pickles.items():
        for way in ways_for(data):
            by_way[way.name] += tried.write(name, data, way) is not None
    print(f'Python {sys.version.split()[0]}: {len(pickles)} real pickles; written:')
    for kind, count in (*by_way.items(), *tried.counts.items(), ('faults', len(tried.faults))):
        print(f'{count:6} {kind}')
    print(*tried.faults, sep='\n')
    return 1 if tried.faults else 0


if __name__ == '__main__':
    sys.exit(main(sys.argv[1:]))
