"""What to look at, as SARIF 2.1.0: the form in which code hosts take the findings of a tool."""

from __future__ import annotations

import os
import urllib.parse
from typing import Any, Dict, List, Sequence

from .. import __version__
from .advice import ADVICE
from .fingerprints import fingerprint
from .looks import RULES, Look
from .results import Result
from .severity import STEPS, severity_of
from .wording import place_of

__all__ = ['Sarif']

_SCHEMA = 'https://json.schemastore.org/sarif-2.1.0.json'


class Sarif:
    """Keeps what is to be looked at, file by file, and answers the whole as the object of a SARIF file."""

    def __init__(self) -> None:
        self._results: List[Dict[str, Any]] = []

    def add(self, result: Result, looks: Sequence[Look]) -> None:
        """Keeps what is to be looked at in a file."""
        self._results.extend(_result(result.path, look) for look in looks)

    def object(self) -> Dict[str, Any]:
        """The log, with one run."""
        driver = {'name': 'picklestep', 'version': __version__, 'semanticVersion': __version__, 'rules': [_rule(rule) for rule in RULES]}
        return {'$schema': _SCHEMA, 'version': '2.1.0', 'runs': [{
            'tool': {'driver': driver}, 'invocations': [{'executionSuccessful': True}], 'results': self._results}]}


def _rule(rule: str) -> Dict[str, Any]:
    step = STEPS[severity_of(rule)]
    return {'id': rule, 'shortDescription': {'text': RULES[rule]}, 'fullDescription': {'text': f'{RULES[rule]} {step.means}'},
            'help': {'text': ADVICE[rule]}, 'defaultConfiguration': {'level': step.level},
            'properties': {'security-severity': step.score, 'tags': ['security']}}


def _result(path: str, look: Look) -> Dict[str, Any]:
    # (A pickle has no lines; code hosts ask for one. The offset is in the pickle, which is the file where it is in no container.)
    region: Dict[str, int] = {'startLine': 1}
    if look.offset is not None and not look.where:
        region.update(byteOffset=look.offset, byteLength=1)  # (an opcode has one byte at least)
    place = {'physicalLocation': {'artifactLocation': {'uri': _uri(path)}, 'region': region},
             'logicalLocations': [{'fullyQualifiedName': place_of(path, look.where), 'kind': 'member'}]}
    return {'ruleId': look.rule, 'ruleIndex': list(RULES).index(look.rule), 'level': STEPS[look.severity].level,
            'message': {'text': '\n'.join([f'{place_of(path, look.where)}: {look.text}', *look.calls])}, 'locations': [place],
            'partialFingerprints': {'look/v2': fingerprint(look)}, 'properties': {'severity': look.severity}}


def _uri(path: str) -> str:
    """A path as a URI: relative where the path is."""
    if '://' in path:
        return urllib.parse.quote(path, safe='/:%?&=#@+,;~')
    quoted = urllib.parse.quote(os.fsencode(path.replace(os.sep, '/')), safe="/~!$&'()*+,;=@-._")
    return f'file://{quoted}' if quoted.startswith('/') else quoted
