"""Checks values against a JSON Schema with the keywords that the schemas here use, so that their tests need no package."""

from __future__ import annotations

import json
import re
import subprocess
import unittest
from pathlib import Path
from typing import Any, Dict, Iterator, List, Optional, Sequence, Union

from scan_support import python_with

__all__ = ['assert_fit', 'faults']

_TYPES: Dict[str, Any] = {'null': type(None), 'object': dict, 'array': list, 'string': str, 'integer': int, 'number': (int, float), 'boolean': bool}
# (What `format` says is a note, as in a validator that is not told to check it.)
_KEYWORDS = {'$schema', '$comment', '$ref', 'title', 'description', 'definitions', 'oneOf', 'minLength', 'type', 'required', 'additionalProperties', 'properties', 'minimum', 'items', 'format', 'anyOf', 'enum',
             'uniqueItems', 'pattern', 'minItems', 'allOf', 'maximum', 'propertyNames'}

_BY_PACKAGE = """import json, sys, jsonschema
schema = json.load(open(sys.argv[1]))
validator = jsonschema.Draft7Validator({**schema, '$ref': sys.argv[2]} if sys.argv[2:] else schema)
for line in sys.stdin: validator.validate(json.loads(line))"""


def assert_fit(case: unittest.TestCase, file: Path, lines: Sequence[str], *part: str) -> None:
    """Each line of JSON fits the schema of a file, or this part of it, also as the package says. Skips the test where there is no package."""
    whole = json.loads(file.read_text())
    for line in lines:
        case.assertEqual(list(faults({'$ref': part[0]} if part else whole, json.loads(line), whole=whole)), [], line[:200])
    python = python_with('jsonschema')
    if python is None:
        case.skipTest('there is no jsonschema (python3-jsonschema): the schema is compared by json_schema.py alone')
    run = subprocess.run([python, '-c', _BY_PACKAGE, str(file), *part], input='\n'.join(lines), text=True, capture_output=True, check=False)
    case.assertEqual((run.returncode, run.stderr), (0, ''))


def faults(schema: Dict[str, Any], value: Any, place: str = '', whole: Optional[Dict[str, Any]] = None) -> Iterator[str]:
    """Where and why a value does not fit the schema.

    Raises NotImplementedError where the schema has another keyword, since a check that leaves one out says nothing.

    >>> list(faults({'type': 'object', 'required': ['a'], 'properties': {'b': {'minimum': 1}}}, {'b': 0}))
    [': a is missing', '/b: less than 1, or more than None']
    """
    whole = schema if whole is None else whole
    if '$ref' in schema:
        schema = whole['definitions'][schema['$ref'].rpartition('/')[2]]
    if set(schema) - _KEYWORDS:
        raise NotImplementedError(f'keywords of JSON Schema: {sorted(set(schema) - _KEYWORDS)}')
    if 'type' in schema and not _is_of_type(value, schema['type']):
        yield f'{place}: no {schema["type"]}'
        return
    if 'enum' in schema and value not in schema['enum']:
        yield f'{place}: none of {schema["enum"]}'
    if isinstance(value, dict):
        yield from _faults_of_object(schema, value, place, whole)
    elif isinstance(value, list):
        yield from _faults_of_array(schema, value, place, whole)
    elif isinstance(value, str) and len(value) < schema.get('minLength', 0):
        yield f'{place}: too short'
    elif isinstance(value, str) and re.search(schema.get('pattern', ''), value) is None:
        yield f'{place}: not of the form {schema["pattern"]}'
    elif isinstance(value, (int, float)) and not schema.get('minimum', value) <= value <= schema.get('maximum', value):
        yield f'{place}: less than {schema.get("minimum")}, or more than {schema.get("maximum")}'
    for each in schema.get('allOf', ()):
        yield from faults(each, value, place, whole)
    if 'anyOf' in schema and all(any(faults(each, value, place, whole)) for each in schema['anyOf']):
        yield f'{place}: fits none of the forms'
    if 'oneOf' in schema and sum(not any(faults(each, value, place, whole)) for each in schema['oneOf']) != 1:
        yield f'{place}: fits not one of the forms'


def _is_of_type(value: Any, word: Union[str, List[str]]) -> bool:
    if isinstance(word, list):
        return any(_is_of_type(value, each) for each in word)
    return isinstance(value, _TYPES[word]) and (word == 'boolean' or not isinstance(value, bool))


def _faults_of_object(schema: Dict[str, Any], value: Dict[str, Any], place: str, whole: Dict[str, Any]) -> Iterator[str]:
    yield from (f'{place}: {name} is missing' for name in schema.get('required', ()) if name not in value)
    known, others = schema.get('properties', {}), schema.get('additionalProperties', True)
    for name, inner in value.items():
        yield from faults(schema.get('propertyNames', {}), name, place, whole)
        if name in known:
            yield from faults(known[name], inner, f'{place}/{name}', whole)
        elif others is False:
            yield f'{place}: {name} is not known'
        elif others is not True:
            yield from faults(others, inner, f'{place}/{name}', whole)


def _faults_of_array(schema: Dict[str, Any], value: List[Any], place: str, whole: Dict[str, Any]) -> Iterator[str]:
    if len(value) < schema.get('minItems', 0):
        yield f'{place}: fewer than {schema["minItems"]}'
    if schema.get('uniqueItems') and any(each in value[:number] for number, each in enumerate(value)):
        yield f'{place}: two items are the same'
    for number, inner in enumerate(value):
        yield from faults(schema.get('items', {}), inner, f'{place}/{number}', whole)
