"""Pickles of real libraries: makes them, and compares what their source makes with what loading makes.

    library_pickles.py      writes the number of pickles of each library that is installed, and what was wrong with one
"""

from __future__ import annotations

import pickle
import sys
from typing import Any, Callable, Dict, Iterator, List

from harmless import canonical, executed
from picklestep.python_source import source


def _numpy() -> List[Any]:
    import numpy as np
    grid = np.arange(12.0).reshape(3, 4)
    structured = np.array([(1, 'a')], dtype=[('number', 'i4'), ('text', 'U3')])
    return [grid, grid.T, np.float32(2.5), np.datetime64('2020-01-02'), np.array(['a', None], dtype=object), structured,
            np.random.RandomState(3), np.ma.masked_array([1, 2], [0, 1]), [grid, grid]]


def _scipy() -> List[Any]:
    import scipy.interpolate
    import scipy.sparse
    import scipy.spatial.transform
    import scipy.stats
    return [scipy.sparse.eye(3, format=kind) for kind in ('csr', 'csc', 'bsr', 'dia', 'coo', 'lil', 'dok')] + [
        scipy.interpolate.BSpline([0, 1, 2, 3], [1, 2], 1), scipy.interpolate.CubicSpline([0, 1, 2], [1, 4, 2]),
        scipy.spatial.cKDTree([[0.0, 1], [1, 0]]), scipy.spatial.transform.Rotation.from_euler('x', 1), scipy.stats.norm(1, 2)]


def _pandas() -> List[Any]:
    import pandas as pd
    frame = pd.DataFrame({'a': [1, 2], 'b': ['x', None], 'c': pd.to_datetime(['2020-01-01', None])})
    return [frame, frame['a'], frame.set_index('b'), pd.Categorical(['a', 'b', 'a']), pd.Timestamp('2020-01-01', tz='UTC'),
            pd.Interval(0, 1), pd.MultiIndex.from_tuples([(1, 'a'), (2, 'b')]), pd.Timedelta('1 day'), pd.period_range('2020', periods=2),
            pd.array([1, None], dtype='Int64'), pd.Series([1.0, 2], dtype='Sparse[float]'), frame.groupby('a').sum(numeric_only=True)]


def _sklearn() -> List[Any]:
    from sklearn import cluster, ensemble, feature_extraction, linear_model, naive_bayes, neighbors, pipeline, preprocessing, svm, tree
    data, labels = [[0.0, 1.0], [1.0, 0.0], [2.0, 1.0], [3.0, 3.0]], [0, 0, 1, 1]
    models = [linear_model.LogisticRegression(), tree.DecisionTreeClassifier(random_state=0), svm.SVC(),
              ensemble.RandomForestClassifier(3, random_state=0), preprocessing.StandardScaler(), cluster.KMeans(2, n_init=1, random_state=0),
              ensemble.GradientBoostingClassifier(n_estimators=2, random_state=0), preprocessing.OneHotEncoder(), naive_bayes.GaussianNB(),
              neighbors.KNeighborsClassifier(1), pipeline.make_pipeline(preprocessing.MinMaxScaler(), linear_model.Ridge())]
    counter = feature_extraction.text.CountVectorizer().fit(['a word', 'and a word'])
    return [model.fit(data, labels) for model in models] + [counter]


def _networkx() -> List[Any]:
    import networkx as nx
    directed = nx.DiGraph([(1, 2), (2, 3)])
    directed.nodes[1]['colour'] = 'red'
    return [nx.path_graph(4), directed, nx.MultiGraph([(1, 2), (1, 2)]), nx.complete_graph(3)]


def _sympy() -> List[Any]:
    import sympy
    x, y = sympy.symbols('x y')
    return [x + 1, sympy.sin(x) * y, sympy.Matrix([[1, x]]), sympy.Rational(1, 3), sympy.Integral(x, y), sympy.Eq(x, y),
            sympy.Piecewise((x, x > 0), (y, True)), sympy.FiniteSet(x, 1), sympy.oo]


def _dateutil() -> List[Any]:
    import dateutil.relativedelta
    import dateutil.tz
    return [dateutil.relativedelta.relativedelta(days=3), dateutil.tz.tzutc(), dateutil.tz.tzoffset('A', 60)]


def _joblib() -> List[Any]:
    import joblib
    return [joblib.Parallel(n_jobs=1), joblib.delayed(len)([1]), joblib.Memory(None)]


def _pytz() -> List[Any]:
    import pytz
    return [pytz.utc, pytz.timezone('Europe/Paris'), pytz.FixedOffset(60)]


def _packaging() -> List[Any]:
    from packaging import requirements, specifiers, version
    return [version.Version('1.2.3'), specifiers.SpecifierSet('>=1,<2'), requirements.Requirement('a>=1')]


def _standard() -> List[Any]:
    import argparse
    import array
    import collections
    import datetime
    import ipaddress
    import logging
    import pathlib
    import random
    import types
    record = logging.LogRecord('a', 20, 'b.py', 3, 'text %s', ('x',), None)
    return [record, array.array('d', [1, 2]), collections.deque([1, [2]], 5), collections.Counter('aab'),
            collections.defaultdict(list, a=[1]), datetime.datetime(2020, 1, 2, tzinfo=datetime.timezone.utc), ipaddress.ip_network('10.0.0.0/8'),
            pathlib.PurePosixPath('a/b'), random.Random(3), types.SimpleNamespace(a=1), argparse.Namespace(x=[1]), ValueError('a', 1)]


_LIBRARIES: Dict[str, Callable[[], List[Any]]] = {
    'numpy': _numpy, 'scipy': _scipy, 'pandas': _pandas, 'sklearn': _sklearn, 'networkx': _networkx, 'sympy': _sympy,
    'dateutil': _dateutil, 'joblib': _joblib, 'pytz': _pytz, 'packaging': _packaging, 'standard': _standard}


def _pickles(values: List[Any]) -> Iterator[bytes]:
    for value in values:
        for protocol in range(6):
            try:
                yield pickle.dumps(value, protocol)
            except (NotImplementedError, TypeError, ValueError, pickle.PicklingError):  # (not every protocol has what the object needs)
                continue


def compare(data: bytes) -> bool:
    """Whether a pickle's source makes what loading it makes, and loading it twice makes the same."""
    wanted = canonical(pickle.loads(data))
    if wanted != canonical(pickle.loads(data)):
        raise ValueError('it is never the same')
    return canonical(executed(source(data).text)['result']) == wanted


def main() -> int:
    """Compares all of them."""
    for name, make in _LIBRARIES.items():
        try:
            values = make()
        except ImportError:
            continue
        tried = 0
        for data in _pickles(values):
            tried += 1
            if not compare(data):
                print(f'{name}: {data!r:.300}')
                return 1
        print(name, tried)
    return 0


if __name__ == '__main__':
    sys.exit(main())
