"""Writes real files with the libraries of this machine. A file of its own, for an interpreter that has them.

    real_files.py FOLDER LIBRARY         writes the files of a library into a folder
    real_files.py --each FOLDER LIBRARY  the same, with each value in each protocol
    real_files.py --keep                 writes those of each library that is installed into data/real, as an archive

Each library's writer is a function of its name here. `test_sets` looks at what they write, and at what is kept, so that it needs no
library; each writes ten files or more. Numbers at random have a seed, and the clock stands still, so that the files are the same again (but
for scipy's UnivariateSpline, which keeps memory that nothing was written to).
"""

from __future__ import annotations

import importlib
import io
import lzma
import pickle
import random
import sys
import tarfile
import tempfile
import time
import warnings
from pathlib import Path
from typing import Any, Callable, Dict, Sequence

KEPT = Path(__file__).resolve().parent / 'data' / 'real'


# The protocols in which each value is written. Where there are none, these are 2 to 5 in turn.
PROTOCOLS: Sequence[int] = ()


def dump(folder: Path, values: Dict[str, Any]) -> None:
    """A pickle of each value."""
    for number, (name, value) in enumerate(values.items()):
        if not PROTOCOLS:
            (folder / f'{name}.pkl').write_bytes(pickle.dumps(value, 2 + number % 4))
        for protocol in PROTOCOLS:
            try:
                content = pickle.dumps(value, protocol)
            except TypeError:  # (protocols 0 and 1 have no objects with slots)
                continue
            (folder / f'{name}_{protocol}.pkl').write_bytes(content)


def plain(folder: Path) -> None:
    """What queues, caches and settings hold."""
    import argparse
    import array
    import collections
    import datetime
    import decimal
    import fractions
    import ipaddress
    import logging
    import pathlib
    import re
    import types
    import uuid
    named = logging.LogRecord('app', 20, 'main.py', 1, 'message', (), None)
    dump(folder, {
        'containers': [collections.deque([1]), collections.Counter('aab'), collections.defaultdict(list, a=[1]), collections.OrderedDict(a=1)],
        'sets': [{1, 2}, frozenset({3}), {'a': {'b': {4}}}], 'numbers': [decimal.Decimal('1.5'), fractions.Fraction(1, 3), 2j, 1 << 200],
        'dates': [datetime.datetime.now(datetime.timezone.utc), datetime.date.today(), datetime.timedelta(1), datetime.time(1)],
        'job': {'id': uuid.uuid4(), 'kwargs': {'a': 1}, 'at': datetime.datetime.now()},
        'paths': [pathlib.Path('/a'), pathlib.PurePosixPath('b'), pathlib.PureWindowsPath('c')], 'pattern': re.compile('a+', re.I),
        'arguments': argparse.Namespace(a=1, b=pathlib.Path('c')), 'bytes': [b'abc', bytearray(b'de'), b''], 'array': array.array('d', [1, 2]),
        'namespace': types.SimpleNamespace(a=1), 'addresses': [ipaddress.ip_address('127.0.0.1'), ipaddress.ip_network('10.0.0.0/8')],
        'record': named.__dict__, 'logged': named, 'exceptions': [ValueError('a'), KeyError('b'), OSError(2, 'c')],
        'slices': [slice(1, 2), range(3)], 'random': random.Random(1),
    })


def numpy(folder: Path) -> None:
    import numpy as np
    dump(folder, {
        'floats': np.arange(6.0), 'shaped': np.ones((3, 4), order='F'), 'scalars': [np.float32(1), np.int64(2), np.bool_(True)],
        'objects': np.array([1, 'a', None], dtype=object), 'texts': np.array(['a', 'bc']), 'times': np.array(['2020-01-01'], dtype='M8[D]'),
        'records': np.array([(1, 2.0)], dtype=[('a', 'i4'), ('b', 'f8')]), 'masked': np.ma.masked_array([1, 2], [True, False]),
        'types': [np.dtype('f8'), np.float64, np.int32], 'random': np.random.RandomState(1), 'generator': np.random.default_rng(1),
        'recarray': np.rec.array([(1, 2)], dtype=[('a', int), ('b', int)]), 'polynomial': np.polynomial.Polynomial([1, 2]),
    })
    np.save(folder / 'objects.npy', np.array([{'a': 1}], dtype=object), allow_pickle=True)
    np.savez(folder / 'several.npz', a=np.arange(3), b=np.array([None], dtype=object))


def scipy(folder: Path) -> None:
    import numpy as np
    from scipy import interpolate, optimize, sparse, spatial, stats
    eye = sparse.eye(3)
    x = np.linspace(0, 1, 8)
    dump(folder, {**{form: eye.asformat(form) for form in ('csr', 'csc', 'coo', 'bsr', 'dia', 'lil', 'dok')}, 'array': sparse.csr_array(np.eye(3)),
                  'spline': interpolate.CubicSpline(x, x), 'smooth': interpolate.UnivariateSpline(x, x), 'linear': interpolate.interp1d(x, x),
                  'monotone': interpolate.PchipInterpolator(x, x), 'density': stats.gaussian_kde(x),
                  'result': optimize.minimize(lambda a: (a[0] - 1) ** 2, [0.0]), 'turn': spatial.transform.Rotation.identity(),
                  'basis': interpolate.BSpline(np.arange(8.0), np.arange(4.0), 3)})


def pandas(folder: Path) -> None:
    import pandas as pd
    days = pd.date_range('2020', periods=3)
    frame = pd.DataFrame({'a': [1, 2, 3], 'b': ['x', 'y', 'z'], 'c': days, 'd': [0.1, 0.2, 0.3]})
    dump(folder, {
        'frame': frame, 'series': frame.a, 'named': frame.set_index('b'), 'multi': frame.set_index(['a', 'b']), 'days': days,
        'zoned': days.tz_localize('UTC'), 'categories': frame.b.astype('category'), 'periods': pd.period_range('2020', periods=3),
        'times': pd.to_timedelta([1, 2], unit='D'), 'intervals': pd.interval_range(0, 3), 'nullable': pd.Series([1, None], dtype='Int64'),
        'strings': pd.Series(['a', None], dtype='string'), 'booleans': pd.Series([True, None], dtype='boolean'),
        'sparse': pd.Series([0.0, 1.0], dtype='Sparse[float]'), 'values': [pd.Timestamp('2020'), pd.Timedelta(1), pd.NaT, pd.Period('2020'), pd.NA],
        'grouped': frame.groupby('b').d.mean(), 'described': frame.describe(), 'floating': pd.Series([0.5, None], dtype='Float64'),
    })
    frame.to_pickle(folder / 'frame.pkl.gz')
    frame.to_pickle(folder / 'frame.pkl.zip')


def sklearn(folder: Path) -> None:
    import numpy as np
    from sklearn import cluster, compose, decomposition, ensemble, linear_model, naive_bayes, neighbors, neural_network, pipeline, preprocessing
    from sklearn import feature_extraction, gaussian_process, model_selection, svm, tree
    x = np.random.RandomState(0).normal(size=(60, 4))
    y = (x[:, 0] > 0).astype(int)
    models = {
        'logistic': linear_model.LogisticRegression(), 'ridge': linear_model.Ridge(), 'forest': ensemble.RandomForestClassifier(5),
        'boosting': ensemble.GradientBoostingClassifier(n_estimators=5), 'histogram': ensemble.HistGradientBoostingClassifier(max_iter=3),
        'vectors': svm.SVC(), 'means': cluster.KMeans(2, n_init=1), 'components': decomposition.PCA(2), 'tree': tree.DecisionTreeRegressor(),
        'bayes': naive_bayes.GaussianNB(), 'neighbours': neighbors.KNeighborsClassifier(), 'network': neural_network.MLPClassifier(max_iter=5),
        'process': gaussian_process.GaussianProcessRegressor(), 'descent': linear_model.SGDClassifier(),
        'pipe': pipeline.make_pipeline(preprocessing.StandardScaler(), linear_model.LogisticRegression()),
        'columns': compose.make_column_transformer((preprocessing.OneHotEncoder(handle_unknown='ignore'), [0]), remainder='passthrough'),
        'search': model_selection.GridSearchCV(linear_model.Ridge(), {'alpha': [0.1, 1]}), 'isolation': ensemble.IsolationForest(n_estimators=3),
        'splines': preprocessing.SplineTransformer(), 'quantiles': preprocessing.QuantileTransformer(n_quantiles=10),
        'voting': ensemble.VotingClassifier([('a', linear_model.LogisticRegression()), ('b', tree.DecisionTreeClassifier())]),
    }
    dump(folder, {name: model.fit(x, y) for name, model in models.items()})
    texts = ['some words', 'other words', 'no more']
    dump(folder, {'words': feature_extraction.text.TfidfVectorizer().fit(texts), 'hashed': feature_extraction.text.HashingVectorizer().fit(texts),
                  'labels': preprocessing.LabelEncoder().fit(texts)})


def torch(folder: Path) -> None:
    import torch
    from torch import nn
    model = nn.Sequential(nn.Linear(4, 8), nn.BatchNorm1d(8), nn.ReLU(), nn.Dropout(), nn.Linear(8, 2))
    model(torch.ones(3, 4)).sum().backward()
    values: Dict[str, Any] = {'state.pt': model.state_dict(), 'tensor.pt': torch.ones(2, 3), 'parameter.pt': nn.Parameter(torch.ones(2)),
                              'tensors.pt': [torch.ones(2, dtype=kind) for kind in (torch.float16, torch.bfloat16, torch.int8, torch.bool)],
                              'sparse.pt': torch.eye(3).to_sparse(), 'sizes.pt': [torch.Size([1, 2]), torch.device('cpu'), torch.float32],
                              'buffers.pt': {'step': 3, 'ema': {name: value.clone() for name, value in model.state_dict().items()}},
                              'generator.pt': torch.get_rng_state(), 'storage.pt': torch.FloatStorage([1, 2, 3])}
    for kind in (torch.optim.SGD, torch.optim.Adam, torch.optim.AdamW):
        optimizer = kind(model.parameters(), lr=0.1)
        optimizer.step()
        values[f'{kind.__name__}.pt'] = {'epoch': 1, 'model': model.state_dict(), 'optimizer': optimizer.state_dict()}
        values[f'{kind.__name__}_whole.pt'] = optimizer
    modules = {'whole.pt': model, 'recurrent.pt': nn.LSTM(3, 4), 'transformer.pt': nn.TransformerEncoderLayer(8, 2, 16),
               'convolution.pt': nn.Sequential(nn.Conv2d(1, 2, 3), nn.MaxPool2d(2), nn.Flatten()), 'embedding.pt': nn.Embedding(10, 4)}
    for name, value in {**values, **{f'module_{name}': value for name, value in modules.items()}}.items():
        torch.save(value, folder / name)


def joblib(folder: Path) -> None:
    import joblib as library
    import numpy as np
    from sklearn.linear_model import LinearRegression
    x = np.arange(8.0).reshape(4, 2)
    values = {'values': {'a': [1, 2]}, 'model': LinearRegression().fit(x, x[:, 0]), 'array': x, 'arrays': {'x': x, 'y': [x, x]},
              'objects': np.array([1, None], dtype=object), 'empty': np.zeros((0, 3))}
    for name, value in values.items():
        library.dump(value, folder / f'{name}.joblib')
        library.dump(value, folder / f'{name}.joblib.gz', compress=('gzip', 3))
    library.dump(values, folder / 'all.joblib.z', compress=3)


def xgboost(folder: Path) -> None:
    import numpy as np
    import xgboost as library
    x = np.random.RandomState(0).normal(size=(40, 3))
    y = (x[:, 0] > 0).astype(int)
    models: Dict[str, Any] = {f'{kind.__name__}_{depth}': kind(n_estimators=3, max_depth=depth).fit(x, y) for depth in (1, 2)
                              for kind in (library.XGBClassifier, library.XGBRegressor, library.XGBRFClassifier, library.XGBRFRegressor)}
    booster = library.train({'max_depth': 2}, library.DMatrix(x, y), 3)
    ranker = library.XGBRanker(n_estimators=2).fit(x, y, group=[40])
    dump(folder, {**models, 'booster': booster, 'state': {'booster': booster, 'names': ['a', 'b']}, 'ranker': ranker})


def networkx(folder: Path) -> None:
    import networkx as nx
    graph = nx.path_graph(4)
    graph.nodes[0]['label'] = 'a'
    dump(folder, {'path': graph, 'directed': nx.DiGraph([(1, 2)]), 'multi': nx.MultiGraph([(1, 2), (1, 2)]), 'both': nx.MultiDiGraph([(1, 2)]),
                  'weighted': nx.Graph([(1, 2, {'weight': 0.5})]), 'complete': nx.complete_graph(5), 'grid': nx.grid_2d_graph(3, 3),
                  'tree': nx.balanced_tree(2, 3), 'club': nx.karate_club_graph(), 'empty': nx.Graph(), 'views': list(nx.connected_components(graph))})


def xarray(folder: Path) -> None:
    import numpy as np
    import pandas as pd
    import xarray as xr
    days = pd.date_range('2020', periods=3)
    array = xr.DataArray(np.arange(3.0), dims='t', coords={'t': days}, name='a')
    dump(folder, {'array': array, 'dataset': array.to_dataset(), 'variable': array.variable, 'grid': xr.DataArray(np.ones((2, 2))),
                  'two': xr.Dataset({'a': array, 'b': array * 2}), 'texts': xr.DataArray(['a', 'b']), 'attributes': array.assign_attrs(unit='m'),
                  'numbers': xr.DataArray([1, 2], dims='x', coords={'x': [10, 20]}), 'stacked': xr.DataArray(np.ones((2, 2)), dims=('x', 'y')).T,
                  'index': array.t})


def transformers(folder: Path) -> None:
    """What transformers' Trainer keeps beside settings, which are its own: state dictionaries and states of random numbers, by torch alone."""
    import numpy as np
    import torch
    from torch import nn
    model = nn.Sequential(nn.Embedding(8, 4), nn.LayerNorm(4), nn.Linear(4, 2))
    optimizer = torch.optim.AdamW(model.parameters(), lr=0.1)
    model(torch.tensor([1, 2])).sum().backward()
    optimizer.step()
    schedule = torch.optim.lr_scheduler.LambdaLR(optimizer, lambda step: 1 / (1 + step))
    states: Dict[str, Any] = {'python': random.getstate(), 'numpy': np.random.get_state(), 'cpu': torch.random.get_rng_state()}
    halves = {name: value.half() for name, value in model.state_dict().items()}
    values: Dict[str, Any] = {'pytorch_model.bin': model.state_dict(), 'optimizer.pt': optimizer.state_dict(), 'scheduler.pt': schedule.state_dict(),
                              'rng_state.pth': states, 'scaler.pt': torch.cuda.amp.GradScaler(enabled=False).state_dict(),
                              'pytorch_model-00001-of-00002.bin': dict(list(halves.items())[:2]),
                              'pytorch_model-00002-of-00002.bin': dict(list(halves.items())[2:]), 'adapter_model.bin': {'lora_A.weight': torch.ones(2, 4)},
                              'rng_state_0.pth': {**states, 'cuda': [torch.zeros(16, dtype=torch.uint8)]}, 'learned_embeds.bin': {'<a>': torch.ones(4)}}
    for name, value in values.items():
        torch.save(value, folder / name)


def lightning(folder: Path) -> None:
    """Checkpoints of Lightning in their documented layout, by torch alone: settings and callbacks are dictionaries there."""
    import torch
    from torch import nn
    for number, kind in enumerate((torch.optim.SGD, torch.optim.Adam, torch.optim.AdamW, torch.optim.RMSprop, torch.optim.Adagrad) * 2):
        model = nn.Sequential(nn.Linear(2, 3), nn.Tanh(), nn.Linear(3, 1))
        optimizer = kind(model.parameters(), lr=0.1)
        schedule = torch.optim.lr_scheduler.StepLR(optimizer, 2)
        model(torch.ones(1, 2)).sum().backward()
        optimizer.step()
        stopped = {'wait_count': 0, 'stopped_epoch': 0, 'best_score': torch.tensor(0.5), 'patience': 3}
        best = {'monitor': 'loss', 'best_model_score': torch.tensor(0.5), 'best_model_path': 'a.ckpt', 'best_k_models': {'a.ckpt': torch.tensor(0.5)}}
        fit = {'state_dict': {}, 'epoch_progress': {'total': {'ready': 1, 'completed': 1}, 'current': {'ready': 1, 'completed': 1}}}
        made = {'epoch': number, 'global_step': 10, 'pytorch-lightning_version': '2.4.0', 'state_dict': model.state_dict(),
                'loops': {'fit_loop': fit}, 'callbacks': {'EarlyStopping{}': stopped, "ModelCheckpoint{'monitor': 'loss'}": best},
                'optimizer_states': [optimizer.state_dict()], 'lr_schedulers': [schedule.state_dict()],
                'hparams_name': 'kwargs', 'hyper_parameters': {'rate': 0.1, 'layers': [2, 3, 1], 'name': None}}
        if number >= 5:
            made['MixedPrecision'] = {'scale': 65536.0, 'growth_factor': 2.0, 'backoff_factor': 0.5, 'growth_interval': 2000, '_growth_tracker': 0}
            made['datamodule_hyper_parameters'] = {'folder': 'data', 'size': 32}
        torch.save(made, folder / f'epoch={number}-step=10.ckpt')


WRITERS: Dict[str, Callable[[Path], None]] = {each.__name__: each for each in (
    plain, numpy, scipy, pandas, sklearn, torch, joblib, xgboost, networkx, xarray, transformers, lightning)}
# Which module a writer needs, where that is another than its name says.
MODULES = {'plain': 'pickle', 'joblib': 'sklearn', 'transformers': 'torch', 'lightning': 'torch'}


def write(folder: Path, library: str) -> None:
    """Writes the files of a library, the same ones each time."""
    warnings.simplefilter('ignore')
    time.time = lambda: 1.6e9  # (formats keep the time of day)
    random.seed(0)
    for name, seed in (('numpy', 'random.seed'), ('torch', 'manual_seed')):
        try:
            module = importlib.import_module(name)
        except ImportError:
            continue
        function: Any = module
        for part in seed.split('.'):
            function = getattr(function, part)
        function(0)
    WRITERS[library](folder)


def keep(library: str) -> None:
    """Keeps the files of a library as an archive."""
    KEPT.mkdir(exist_ok=True)
    with tempfile.TemporaryDirectory() as folder:
        write(Path(folder), library)
        archive = io.BytesIO()
        with tarfile.open(fileobj=archive, mode='w', format=tarfile.USTAR_FORMAT) as tar:
            for file in sorted(Path(folder).iterdir()):
                member = tarfile.TarInfo(file.name)
                member.size = file.stat().st_size
                tar.addfile(member, io.BytesIO(file.read_bytes()))
    (KEPT / f'{library}.tar.xz').write_bytes(lzma.compress(archive.getvalue(), preset=9))


def is_installed(library: str) -> bool:
    """Whether the module that a writer needs is here."""
    try:
        importlib.import_module(MODULES.get(library, library))
    except ImportError:
        return False
    return True


if __name__ == '__main__':
    if sys.argv[1:] == ['--keep']:
        for each in WRITERS:
            if each != 'plain' and is_installed(each):
                keep(each)
    else:
        PROTOCOLS = range(6) if sys.argv[1] == '--each' else ()
        write(Path(sys.argv[-2]), sys.argv[-1])
