"""The table of opcodes: the package's is that of the program, and both say what pickletools says."""

from __future__ import annotations

import json
import pickletools
import unittest

from json_schema import assert_fit
from picklestep.opcodes import TABLE, OpcodeInfo
from picklestep.program import run_program
from pickles import ROOT

SCHEMA = ROOT / 'share' / 'picklestep-lines.schema.json'


class Table(unittest.TestCase):
    """What `opcodes` prints."""

    def setUp(self) -> None:
        self.lines = run_program(['opcodes', '--json']).decode('ascii').splitlines()

    def test_is_that_of_the_package(self) -> None:
        """Field by field. (The kind of a line says of what the line is.)"""
        found = []
        for fields in map(json.loads, self.lines):
            self.assertEqual(fields.pop('kind'), 'entry')
            found.append(OpcodeInfo(kind=fields.pop('object_is'), **fields))
        self.assertEqual(tuple(found), TABLE)

    def test_is_that_of_pickletools(self) -> None:
        found = [(fields['name'], chr(fields['code']), fields['protocol'], fields['argument']) for fields in map(json.loads, self.lines)]
        self.assertEqual(found, [(each.name, each.code, each.proto, each.arg.name if each.arg is not None else '') for each in pickletools.opcodes])

    def test_text(self) -> None:
        said = run_program(['opcodes']).decode('ascii').splitlines()
        self.assertEqual(said, [f'{fields["name"]}: {fields["sentence"]}' for fields in map(json.loads, self.lines)])

    def test_schema(self) -> None:
        assert_fit(self, SCHEMA, self.lines, '#/definitions/opcodes')


if __name__ == '__main__':
    unittest.main()
