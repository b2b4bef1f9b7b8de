"""Pickles of numpy, pandas and scikit-learn, as the packages of Debian write them."""

from __future__ import annotations

import pickle
from collections.abc import Iterator
from typing import Any

import numpy
import pandas
from sklearn.neighbors import KNeighborsClassifier
from sklearn.pipeline import Pipeline
from sklearn.preprocessing import LabelEncoder, MinMaxScaler
from sklearn.tree import DecisionTreeClassifier


def arrays() -> dict[str, Any]:
    return {'floats': numpy.arange(6, dtype=float).reshape(2, 3), 'bytes': numpy.array([1, 255], dtype='u1'),
            'columns': numpy.asfortranarray(numpy.eye(3, dtype='>i4')), 'texts': numpy.array(['a', 'bcd']),
            'objects': numpy.array([None, 'x', (1, 2)], dtype=object), 'scalar': numpy.float32(0.5),
            'truth': numpy.bool_(True), 'empty': numpy.zeros((0, 4))}


def records() -> list[Any]:
    kind = numpy.dtype([('name', 'S4'), ('when', 'M8[s]'), ('place', [('x', '<f4'), ('y', '<f4')], (2,))])
    table = numpy.zeros(3, dtype=kind)
    table['name'] = [b'one', b'two', b'tree']
    return [table, kind, numpy.ma.masked_array([1, 2, 3], mask=[False, True, False])]  # type: ignore[no-untyped-call]


def frame() -> pandas.DataFrame:
    return pandas.DataFrame({'city': ['Oslo', 'Bern', 'Rome'], 'people': [709000, 134000, None],
                             'since': pandas.to_datetime(['1048-01-01', '1191-01-01', None], errors='coerce'),
                             'size': pandas.Categorical(['large', 'small', 'large'])},
                            index=pandas.Index([10, 20, 30], name='number'))


def series() -> pandas.Series:
    return pandas.Series([1.5, 2.5], index=pandas.period_range('2024-01', periods=2, freq='M'), name='sales')


def models() -> tuple[Any, Any, Any]:
    points, kinds = numpy.array([[0., 0.], [1., 1.], [0., 4.], [1., 4.]]), ['low', 'low', 'high', 'high']
    tree = DecisionTreeClassifier(random_state=0).fit(points, kinds)
    chain = Pipeline([('scale', MinMaxScaler()), ('near', KNeighborsClassifier(1, algorithm='brute'))]).fit(points, kinds)
    return tree, chain, LabelEncoder().fit(kinds)


def out_of_band() -> bytes:
    beside: list[Any] = []
    return pickle.dumps([numpy.arange(10.0), numpy.arange(4, dtype='i2')[::2]], 5, buffer_callback=beside.append)


def pickles() -> Iterator[tuple[str, bytes, str]]:
    """Each pickle's name, bytes, and what it holds."""
    tree, chain, encoder = models()
    for protocol in (0, 2, 4, 5):
        yield 'numpy_arrays_protocol_%d' % protocol, pickle.dumps(arrays(), protocol), 'numpy arrays'
    for protocol in (3, 4):
        yield 'numpy_records_protocol_%d' % protocol, pickle.dumps(records(), protocol), 'numpy records and a masked array'
    yield 'numpy_arrays_out_of_band_protocol_5', out_of_band(), 'numpy arrays outside the pickle'
    for protocol in (2, 4, 5):
        yield 'pandas_frame_protocol_%d' % protocol, pickle.dumps(frame(), protocol), 'a pandas frame'
    yield 'pandas_series_protocol_4', pickle.dumps(series(), 4), 'a pandas series'
    yield 'sklearn_tree_protocol_4', pickle.dumps(tree, 4), 'a decision tree of scikit-learn'
    yield 'sklearn_tree_protocol_2', pickle.dumps(tree, 2), 'a decision tree of scikit-learn'
    yield 'sklearn_pipeline_protocol_4', pickle.dumps(chain, 4), 'a chain of scikit-learn'
    yield 'sklearn_encoder_protocol_0', pickle.dumps(encoder, 0), 'a label encoder of scikit-learn'
