"""The examples of docs/reference/python.md and check.md, and of the docstrings."""

from __future__ import annotations

import doctest
import importlib
import inspect
import os
import pkgutil
import tempfile
import unittest
from functools import cached_property
from pathlib import Path
from types import FunctionType

import picklestep
from pickles import ROOT

# (each of these has tests of its own, and words that may need other packages)
_APART = ('picklestep.scan', 'picklestep.view', 'picklestep.__main__')


class Examples(unittest.TestCase):
    """Each example gives what is below it."""

    def setUp(self) -> None:
        folder = tempfile.TemporaryDirectory()
        self.addCleanup(folder.cleanup)
        self.addCleanup(os.chdir, os.getcwd())
        os.chdir(folder.name)

    def test_docs(self) -> None:
        for name, least in (('python', 20), ('check', 3)):
            results = doctest.testfile(str(ROOT / 'docs' / 'reference' / f'{name}.md'), module_relative=False, encoding='utf-8')
            self.assertEqual(results.failed, 0, name)
            self.assertGreater(results.attempted, least, name)

    def test_docstrings(self) -> None:
        for found in pkgutil.walk_packages(picklestep.__path__, 'picklestep.'):
            if not found.name.startswith(_APART):
                with self.subTest(found.name):
                    self.assertEqual(doctest.testmod(importlib.import_module(found.name)).failed, 0)

    def test_each_public_name_has_an_example(self) -> None:
        for name in picklestep.__all__:
            found = getattr(picklestep, name)
            if not (inspect.isclass(found) or inspect.isfunction(found)):
                continue  # (the name of a type)
            with self.subTest(name):
                self.assertIn('>>>', found.__doc__ or '')

    def test_each_method_and_property_has_an_example(self) -> None:
        kinds = [found for found in (getattr(picklestep, name) for name in picklestep.__all__) if inspect.isclass(found)]
        asked = 0
        for kind in kinds:
            for name, member in vars(kind).items():
                if not name.startswith('_') and isinstance(member, (FunctionType, property, cached_property)):
                    with self.subTest(f'{kind.__name__}.{name}'):
                        self.assertIn('>>>', member.__doc__ or '')
                    asked += 1
        self.assertGreater(asked, 30)


if __name__ == '__main__':
    unittest.main()
