"""Writes files that people have: by torch, numpy, joblib, scikit-learn, pandas, the standard library and the usual command lines.

    python3 honest.py FOLDER

What a library or a program that is not here would write is left out; a line says which.
"""

from __future__ import annotations

import bz2
import collections
import datetime
import fractions
import gzip
import importlib
import io
import itertools
import lzma
import os
import pickle
import pickletools
import shutil
import subprocess
import sys
import tarfile
import warnings
import zipfile
import zlib
from typing import Any, Callable, Dict, List

FOLDER = ''


def path(kind: str, name: str) -> str:
    """Where a file goes."""
    os.makedirs(os.path.join(FOLDER, kind), exist_ok=True)
    return os.path.join(FOLDER, kind, name)


def put(kind: str, name: str, content: bytes) -> None:
    """Writes a file."""
    with open(path(kind, name), 'wb') as file:
        file.write(content)


def values() -> Dict[str, Any]:
    """What programs pickle."""
    return {'plain': {'a': [1, 2.5, None, True, -(1 << 70)], 'b': ('x', b'y', 'été ☃'), 'c': {1, 2}, 'd': frozenset('ab')},
            'deep': [[[[]]], {'k': {'k': {}}}], 'dates': [datetime.date(2020, 1, 2), datetime.timedelta(5), fractions.Fraction(1, 3)],
            'shared': [[1]] * 3, 'long': ['text ' * 9000, b'\0' * 70_000, bytearray(b'x' * 300)], 'many': {str(each): each for each in range(3000)},
            'ordered': collections.OrderedDict(a=1), 'counter': collections.Counter('hello'), 'complex': 1 + 2j, 'slice': slice(1, 2), 'none': None,
            'escapes': ['a\\b', 'a\nb', '\0\r\x1a', '\ud800', 'Ā', '\U0001F600', "it's", '"'], 'error': ValueError('x', 1)}


def of_python() -> None:
    """Pickles of each protocol, in rows, optimized, by the pickler in Python, and in each container of the standard library."""
    for (name, value), protocol in itertools.product(values().items(), range(6)):
        content = pickle.dumps(value, protocol)
        put('pickles', f'{name}_{protocol}.pkl', content)
        if protocol > 1:
            put('pickles', f'{name}_{protocol}_optimized.pkl', pickletools.optimize(content))
    for protocol in range(6):
        held = io.BytesIO()
        pickle._Pickler(held, protocol).dump(values()['plain'])  # type: ignore[attr-defined]
        put('pickles', f'python_{protocol}.pkl', held.getvalue())
        put('pickles', f'row_{protocol}.pkl', b''.join(pickle.dumps(value, protocol) for value in values().values()))
    content = pickle.dumps(values()['plain'])
    for name, pack in (('gz', gzip.compress), ('bz2', bz2.compress), ('xz', lzma.compress), ('z', zlib.compress),
                       ('lzma', lambda content: lzma.compress(content, lzma.FORMAT_ALONE))):
        put('packed', f'data.pkl.{name}', pack(content))
        put('packed', f'text.txt.{name}', pack(b'hello ' * 5000))
        put('packed', f'empty.{name}', pack(b''))
    with gzip.open(path('packed', 'named.pkl.gz'), 'wb') as file:
        file.write(content)
    _archives(content)


def _archives(content: bytes) -> None:
    members = [('a.txt', b'text'), ('sub/m.pkl', content), ('sub/' + 'long' * 30 + '.bin', bytes(3000)), ('été.txt', b'x'), ('empty', b'')]
    for method in (zipfile.ZIP_STORED, zipfile.ZIP_DEFLATED, zipfile.ZIP_BZIP2, zipfile.ZIP_LZMA):
        with zipfile.ZipFile(path('zip', f'method_{method}.zip'), 'w', method) as archive:
            for name, each in members:
                archive.writestr(name, each)
            archive.writestr('folder/', b'')
            with archive.open('large.txt', 'w', force_zip64=True) as member:
                member.write(b'hello' * 100)
    for count, mode in enumerate(('w', 'a')):
        with zipfile.ZipFile(path('zip', 'appended.zip'), mode) as archive:  # type: ignore[arg-type]
            archive.writestr(f'{count}', b'x')
    with zipfile.ZipFile(path('zip', 'nested.zip'), 'w') as archive:
        archive.write(path('zip', 'method_0.zip'), 'inner.zip')
    for format, pack in itertools.product((tarfile.USTAR_FORMAT, tarfile.GNU_FORMAT, tarfile.PAX_FORMAT), ('', ':gz', ':bz2', ':xz')):
        with tarfile.open(path('tar', f'format_{format}.tar{pack.replace(":", ".")}'), 'w' + pack, format=format) as archive:  # type: ignore[call-overload]
            for name, each in members:
                told = tarfile.TarInfo(name if format != tarfile.USTAR_FORMAT else name[:90])
                told.size, told.mtime = len(each), 1_600_000_000
                archive.addfile(told, io.BytesIO(each))
    with tarfile.open(path('tar', 'inner.tar'), 'w') as archive:
        archive.add(path('zip', 'method_0.zip'), 'last.zip')
    with tarfile.open(path('tar', 'nothing.tar'), 'w'):
        pass


def of_texts() -> None:
    """What is no pickle, under names that say so or nothing."""
    for name, text in (('cats.txt', 'cats are animals\nand dogs are too\n'), ('Notes', 'Notes: Iterate.\nPhew\n'), ('vocab', 'the\na\ncat\nof\n'),
                       ('names.csv', 'city,name\nc,d\n'), ('a.py', 'import os\nclass A:\n    pass\n'), ('b.json', '{"a": [1, 2]}\n'),
                       ('c.md', '# Title\n\n(see below)\n\n- item\n'), ('d.rst', 'install\n-------\n\ncode::\n'), ('page.html', '<p>text</p>\n'),
                       ('pip', 'pip\nsetuptools\nwheel\n'), ('I', 'I am a line\ncat\ndog\n'), ('g', 'g++ -O2\np 1\n'), ('lua', 'local x\nreturn x\n')):
        put('texts', name, text.encode())
    for seed in range(20):
        put('texts', f'{seed}.raw', b''.join(zlib.crc32(bytes([seed, each % 256, each >> 8])).to_bytes(4, 'little') for each in range(500)))
    put('texts', 'weights.safetensors', (60).to_bytes(8, 'little') + b'{"w":{"dtype":"F32","shape":[2],"data_offsets":[0,8]}}'.ljust(60) + bytes(8))
    put('texts', 'image.png', b'\x89PNG\r\n\x1a\n\0\0\0\rIHDR' + bytes(50))


def of_torch() -> None:
    """Tensors and modules in both layouts of torch."""
    import torch
    base = torch.arange(100.)
    module = torch.nn.Sequential(torch.nn.Linear(3, 4), torch.nn.ReLU(), torch.nn.BatchNorm1d(4))
    things: Dict[str, Any] = {
        'state': module.state_dict(), 'module': module, 'scalar': torch.tensor(3.5), 'empty': torch.empty(0), 'views': [base[:10], base[20:30], base],
        'turned': torch.randn(3, 4).t(), 'parameter': torch.nn.Parameter(torch.randn(3, 3)), 'size': torch.Size([2, 3]), 'none': None,
        'device': torch.device('cpu'), 'dtype': torch.float16, 'lstm': torch.nn.LSTM(3, 4, 2), 'bytes': torch.randint(0, 256, (30_000,), dtype=torch.uint8),
        'optimizer': torch.optim.Adam(module.parameters()).state_dict(), 'many': {f'layer{each}': torch.randn(3) for each in range(50)},
        'zeros': torch.zeros(10_000), 'mixed': {'epoch': 3, 'loss': 0.25, 'note': 'été ☃', 'w': torch.ones(2)}, 'rng': torch.get_rng_state()}
    for kind in ('bool', 'uint8', 'int8', 'int16', 'int32', 'int64', 'float16', 'bfloat16', 'float64', 'complex64', 'complex128'):
        things[kind] = torch.ones(5).to(getattr(torch, kind))
    for (name, thing), is_new in itertools.product(things.items(), (True, False)):
        torch.save(thing, path('torch', f'{name}{"" if is_new else "_old"}.{"pt" if is_new else "bin"}'), _use_new_zipfile_serialization=is_new)
    for protocol, is_new in itertools.product((2, 3, 4, 5), (True, False)):
        torch.save(things['mixed'], path('torch', f'protocol_{protocol}_{is_new}.pth'), pickle_protocol=protocol, _use_new_zipfile_serialization=is_new)
    torch.save(things['state'], path('torch', 'checkpoint.pth.tar'))
    torch.jit.save(torch.jit.script(module.eval()), path('torch', 'script.pt'))  # type: ignore[no-untyped-call]


def of_numpy() -> None:
    """Arrays of each kind of items."""
    import numpy
    arrays: Dict[str, Any] = {kind: numpy.ones(7, dtype=kind) for kind in ('f8', 'f4', 'f2', 'i8', 'i4', 'u1', 'u2', 'c16', '>f8', '?', 'S3', 'U4', 'V5', 'O')}
    arrays.update(order=numpy.asfortranarray(numpy.ones((3, 4))), scalar=numpy.array(3), empty=numpy.zeros((0, 3)),
                  fields=numpy.zeros(2, dtype=[('a', '<i4'), ('b', 'O'), ('c', '<f4', (2, 3))]), nested=numpy.zeros(2, dtype=[('p', [('x', 'f4')]), ('q', 'i2')]),
                  days=numpy.array(['2020-01-01'], 'M8[D]'), steps=numpy.array([5], 'm8[ns]'), objects=numpy.array([1, 'a', None, {}], dtype=object),
                  aligned=numpy.zeros(2, dtype=numpy.dtype([('a', 'i1'), ('b', 'f8')], align=True)))
    for name, array in arrays.items():
        numpy.save(path('numpy', f'{name.replace(">", "big_").replace("?", "bool")}.npy'), array)
    numpy.savez(path('numpy', 'all.npz'), **{f'x{index}': array for index, array in enumerate(arrays.values())})
    numpy.savez_compressed(path('numpy', 'all_packed.npz'), **{f'x{index}': array for index, array in enumerate(arrays.values())})
    for protocol in range(2, 6):
        put('numpy', f'dump_{protocol}.pkl', pickle.dumps(list(arrays.values()), protocol))


def of_joblib() -> None:
    """Arrays between opcodes, packed in each way, and models."""
    import joblib
    import numpy
    things: Dict[str, Any] = {'list': [numpy.arange(5.), numpy.ones((2, 3), order='F'), numpy.array([1, 'a'], dtype=object)], 'plain': {'a': 1},
                              'dates': numpy.array(['2020-01-01'], 'M8[D]'), 'fields': numpy.zeros(2, dtype=[('a', 'i4'), ('b', 'U3')]),
                              'empty': numpy.zeros(0), 'many': [numpy.full(3, each) for each in range(60)], 'text': numpy.array(['a', 'bcd'])}
    for (name, thing), pack in itertools.product(things.items(), ('none', 'zlib', 'gzip', 'bz2', 'lzma', 'xz')):
        joblib.dump(thing, path('joblib', f'{name}_{pack}.joblib'), compress=0 if pack == 'none' else (pack, 3))
    for protocol in (2, 3, 4, 5):
        joblib.dump(things['list'], path('joblib', f'protocol_{protocol}.joblib'), protocol=protocol)
    for module, names in (('ensemble', ('RandomForestClassifier',)), ('linear_model', ('LogisticRegression', 'Ridge')), ('svm', ('SVC',)),
                          ('neighbors', ('KNeighborsClassifier',)), ('tree', ('DecisionTreeClassifier',))):
        for name in names:
            model = getattr(importlib.import_module(f'sklearn.{module}'), name)()
            model.fit(numpy.arange(60.).reshape(20, 3), numpy.arange(20) % 2)
            joblib.dump(model, path('sklearn', f'{name}.joblib'))
            put('sklearn', f'{name}.pkl', pickle.dumps(model))


def of_pandas() -> None:
    """Frames in each container."""
    import pandas
    frame = pandas.DataFrame({'a': [1, 2], 'b': ['x', None], 'c': pandas.to_datetime(['2020-01-01', '2021-02-03']), 'd': pandas.Categorical(['u', 'v'])})
    for ending in ('pkl', 'pkl.gz', 'pkl.bz2', 'pkl.xz', 'pkl.zip', 'pkl.tar', 'pkl.tar.gz'):
        frame.to_pickle(path('pandas', f'frame.{ending}'))
    for protocol in range(2, 6):
        frame.to_pickle(path('pandas', f'protocol_{protocol}.pkl'), protocol=protocol)


def of_functions() -> None:
    """Functions and classes by dill and cloudpickle."""
    for module in ('dill', 'cloudpickle'):
        try:
            writer = importlib.import_module(module)
        except ImportError as error:
            print(error)
            continue
        local = 5
        for protocol, (name, thing) in itertools.product((2, 4, 5), {'lambda': lambda x: x + local, 'sorted': sorted, 'values': values()['plain']}.items()):
            put('functions', f'{module}_{name}_{protocol}.pkl', writer.dumps(thing, protocol=protocol))


def of_commands() -> None:
    """Archives by the usual command lines. The tree has one of each kind."""
    tree = path('commands/tree', '')
    for name, content in (('a.txt', b'hello\n'), ('m.pkl', pickle.dumps(values()['plain'])), ('sub/é.txt', b'x'), ('empty', b'')):
        put(os.path.join('commands/tree', os.path.dirname(name)), os.path.basename(name), content)
    os.symlink('a.txt', os.path.join(tree, 'link'))
    lines = [f'tar --format={format} -cf {format}.tar tree' for format in ('gnu', 'oldgnu', 'pax', 'posix', 'ustar')]
    lines += ['tar -czf t.tar.gz tree', 'tar -cjf t.tar.bz2 tree', 'tar -cJf t.tar.xz tree', 'tar -cf dot.tar -C tree .']
    lines += [f'bsdtar --format={format} -cf bsd_{format}.tar tree' for format in ('gnutar', 'pax', 'ustar')] + ['bsdtar --format=zip -cf bsd.zip tree']
    lines += [f'{program} -c tree/m.pkl >{program}.pkl.{ending}' for program, ending in (('gzip', 'gz'), ('pigz', 'gz'), ('bzip2', 'bz2'), ('xz', 'xz'))]
    lines += ['xz --format=lzma -c tree/m.pkl >m.pkl.lzma', 'gzip -k tree/m.pkl -c >named.pkl.gz', 'xz -T2 -c tree/m.pkl >threads.pkl.xz', 'pigz -z -c tree/m.pkl >m.pkl.z']
    lines += ['zip -qr info.zip tree', 'zip -q0r info_0.zip tree', 'zip -qrX info_x.zip tree', 'zip -qry info_links.zip tree', 'zip -qr - tree | cat >info_pipe.zip']
    lines += ['7zz a -bd -tzip seven.zip tree', '7zz a -bd -tgzip seven.pkl.gz tree/m.pkl', '7zz a -bd -ttar seven.tar tree', '7zz a -bd -txz seven.pkl.xz tree/m.pkl']
    lines += ['git init -q g && cd g && cp ../tree/a.txt . && git add -A && git -c user.email=a@b -c user.name=a commit -qm x && '
              'for f in tar zip tar.gz; do git archive -o ../git.$f HEAD; done']
    for program, own in itertools.groupby(sorted(lines), lambda line: line.split()[0]):
        _run(program, list(own), os.path.dirname(tree.rstrip('/')))
    shutil.rmtree(os.path.join(FOLDER, 'commands', 'g'), ignore_errors=True)
    shutil.make_archive(path('commands', 'shutil'), 'zip', tree)
    shutil.make_archive(path('commands', 'shutil'), 'gztar', tree)


def _run(program: str, lines: List[str], folder: str) -> None:
    """Runs the lines of a program, or says that it is not here, or which of them failed."""
    if shutil.which(program) is None:
        print(f'no program {program}')
        return
    for line in lines:
        run = subprocess.run(['bash', '-c', line], cwd=folder, capture_output=True, text=True, check=False)
        if run.returncode != 0:
            print(f'{line.partition(" && ")[0]}: status {run.returncode} {run.stderr.strip()[:100]}')


MAKERS: List[Callable[[], None]] = [of_python, of_texts, of_torch, of_numpy, of_joblib, of_pandas, of_functions, of_commands]


def main() -> None:
    """Writes all of them."""
    global FOLDER
    FOLDER = sys.argv[1]
    warnings.simplefilter('ignore')
    for maker in MAKERS:
        try:
            maker()
        except (ImportError, AttributeError) as error:  # (or only a part of a library is there)
            print(f'{maker.__name__}: {error}')


if __name__ == '__main__':
    main()
