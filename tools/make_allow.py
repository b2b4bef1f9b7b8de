#!/usr/bin/python3
"""Writes the sets of allowed names that are made from a library: torch-modules and sklearn, in python/picklestep/scan/allow.

    /usr/bin/python3 tools/make_allow.py

Needs torch and scikit-learn (Debian: python3-torch python3-sklearn); without one of them its set stays as it is. Classes are found by their base
class. What fitted models hold besides is found by fitting each estimator with its defaults and reading the names of its pickle. Lines that a set has
stay. Read the others over before they are kept: no name in them may run text or import by name. `python/tests/test_sets.py` tries each against the list
of known names. At the end `made_words.py` writes into all sets what may be done with what calls make.
"""

from __future__ import annotations

import importlib
import inspect
import pickle
import pickletools
import pkgutil
import sys
import warnings
from pathlib import Path
from types import ModuleType
from typing import Any, Iterator, Set, Tuple

import made_words
import numpy
import sklearn
import sklearn.gaussian_process.kernels
from sklearn.base import BaseEstimator
from sklearn.utils import all_estimators

from made_words import read_line

MADE_BY = 'Made by tools/make_allow.py, and read over.'
FOLDER = Path(__file__).resolve().parent.parent / 'python' / 'picklestep' / 'scan' / 'allow'
# They take a list of other models, so they have no defaults that can be fitted.
ARGUMENTS = {
    'ClassifierChain': 'classifier', 'ColumnTransformer': 'columns', 'FeatureUnion': 'pairs', 'GridSearchCV': 'search',
    'HalvingGridSearchCV': 'search', 'HalvingRandomSearchCV': 'search', 'MultiOutputClassifier': 'classifier',
    'MultiOutputRegressor': 'classifier', 'OneVsOneClassifier': 'classifier', 'OneVsRestClassifier': 'classifier',
    'OutputCodeClassifier': 'classifier', 'Pipeline': 'pairs', 'RandomizedSearchCV': 'search', 'RegressorChain': 'classifier',
    'RFE': 'classifier', 'RFECV': 'classifier', 'SelectFromModel': 'classifier', 'SequentialFeatureSelector': 'classifier',
    'StackingClassifier': 'pairs', 'StackingRegressor': 'pairs', 'VotingClassifier': 'pairs', 'VotingRegressor': 'pairs',
}


def modules_of(package: ModuleType) -> Iterator[ModuleType]:
    """A package's modules, without tests."""
    yield package
    for found in pkgutil.walk_packages(package.__path__, package.__name__ + '.'):
        if not any(part in ('tests', 'conftest', 'setup', 'externals', '_build_utils', 'datasets') for part in found.name.split('.')):
            try:
                yield importlib.import_module(found.name)
            except Exception as error:  # a part that needs what is not installed
                print(f'{found.name}: {error}', file=sys.stderr)


def classes_of(package: ModuleType, base: type) -> Set[str]:
    """The names under which pickles have the classes of a package that come from a base class."""
    return {f'{each.__module__}.{each.__qualname__}' for module in modules_of(package) for each in vars(module).values()
            if inspect.isclass(each) and issubclass(each, base) and each.__module__ == module.__name__}


# Modules whose classes are parts of fitted models, and functions that models take by name.
PARTS = ('sklearn.metrics._dist_metrics', 'sklearn.linear_model._sgd_fast', 'sklearn.ensemble._gb_losses', 'sklearn._loss.link',
         'sklearn._loss.loss', 'sklearn._loss._loss', 'sklearn.neighbors._ball_tree', 'sklearn.neighbors._kd_tree', 'sklearn.utils._bunch')
SCORES = ('chi2', 'f_classif', 'f_regression', 'mutual_info_classif', 'mutual_info_regression', 'r_regression')

FUNCTIONS = ('relu', 'gelu', 'silu', 'elu', 'selu', 'leaky_relu', 'softmax', 'log_softmax', 'sigmoid', 'tanh', 'mish', 'softplus')


def parts() -> Set[str]:
    """The names of the classes and functions that models hold."""
    from sklearn import feature_selection
    names = {f'{each.__module__}.{each.__qualname__}' for module in map(importlib.import_module, PARTS) for each in vars(module).values()
             if inspect.isclass(each) and each.__module__ == module.__name__ and not issubclass(each, BaseException)}
    names |= {f'{module}.newObj' for module in PARTS if hasattr(importlib.import_module(module), 'newObj')}
    return names | {f'{getattr(feature_selection, name).__module__}.{name}' for name in SCORES}


def names_in(data: bytes) -> Set[str]:
    """The names that a pickle of protocol 2 imports."""
    return {str(argument).replace(' ', '.') for opcode, argument, _ in pickletools.genops(data) if opcode.name == 'GLOBAL'}


def made(name: str, kind: Any) -> Any:
    """An estimator with its defaults."""
    from sklearn.linear_model import LogisticRegression, Ridge
    model = Ridge() if 'Regressor' in name else LogisticRegression()
    how = ARGUMENTS.get(name)
    if how == 'classifier':
        return kind(model)
    if how == 'pairs':
        return kind([('one', model)])
    if how == 'columns':
        return kind([('one', 'passthrough', [0])])
    if how == 'search':
        return kind(model, {'alpha' if 'Regressor' in name else 'C': [1.0, 2.0]})
    return kind()


def fitted_names() -> Set[str]:
    """What pickles of fitted estimators import."""
    numbers = numpy.abs(numpy.random.RandomState(0).normal(size=(40, 4))) + 0.1
    classes = numpy.arange(40) % 2
    texts = ['some words', 'other words'] * 20
    names: Set[str] = set()
    for name, kind in all_estimators():
        for data in ((numbers, classes), (numbers, numbers[:, :2]), (numbers, classes.astype(float)), (texts, classes), (classes * 1.0, numbers[:, 0])):
            try:
                names |= names_in(pickle.dumps(made(name, kind).fit(*data), 2))
                break
            except Exception:
                continue
        else:
            print(f'not fitted: {name}', file=sys.stderr)
    return names


def used(name: str) -> str:
    """What picklers do with a name, as far as that is seen here: they only import functions (but makers), and make objects of a class without
    a call where it has no `__reduce__` of its own. Where it has one, read what that gives: many only name the class."""
    module, _, attribute = name.rpartition('.')
    found = getattr(importlib.import_module(module), attribute, None)
    if not isinstance(found, type):
        return ' call' if attribute.startswith('__pyx_unpickle_') or attribute == 'newObj' else ''
    has_own = any('__reduce__' in vars(each) or '__reduce_ex__' in vars(each) for each in found.__mro__ if each is not object)
    return ' call' if has_own else ' new'


def write(name: str, head: str, needed: Tuple[str, ...], names: Set[str], note: str) -> None:
    """Writes a set, which includes the sets that it needs. The lines that it has stay, since somebody has read them over."""
    path = FOLDER / f'{name}.txt'
    having = {line.name: text for text in path.read_text().splitlines() for line in [read_line(text)] if line is not None and not line.is_include}
    lines = [f'# {line}' for line in head.splitlines()] + [f'include {each}' for each in needed]
    path.write_text('\n'.join([*lines, *having.values(), *(f'{each}:{used(each)}  # {note}' for each in sorted(names - set(having)))]) + '\n')
    print(f'{name}: {len(names - set(having))} names more')


def main() -> None:
    warnings.simplefilter('ignore')
    try:
        write_torch()
    except ImportError as error:
        print(f'torch-modules stays: {error}', file=sys.stderr)
    write_sklearn()
    made_words.write_all()


def write_torch() -> None:
    """The layers of torch."""
    import torch
    write('torch-modules', f'The classes of torch.nn.modules ({torch.__version__}): whole models are pickled with them. Their code runs\n'
          f'when a model is used. {MADE_BY}', ('torch',),
          classes_of(importlib.import_module('torch.nn.modules'), torch.nn.Module) | {f'torch.nn.functional.{name}' for name in FUNCTIONS},
          'layer, or a function that one has')


def write_sklearn() -> None:
    """The models of scikit-learn."""
    kernels = classes_of(sklearn.gaussian_process, sklearn.gaussian_process.kernels.Kernel)
    estimators = classes_of(sklearn, BaseEstimator)
    fitted = fitted_names()
    print('in other sets:', *sorted(name for name in fitted if not name.startswith('sklearn.')))
    write('sklearn', f'All estimators of scikit-learn ({sklearn.__version__}), and what fitted ones hold. joblib dumps many of them.\n'
          f'{MADE_BY} Other versions may have other names.', ('scipy', 'joblib'),
          kernels | estimators | parts() | {name for name in fitted if name.startswith('sklearn.')}, 'model, or a part of one')


if __name__ == '__main__':
    main()
