"""What CI servers read: JUnit's XML and GitLab's JSON of code quality."""

from __future__ import annotations

import hashlib
import json
import os
from typing import Dict, Iterator, List
from xml.sax.saxutils import escape, quoteattr

from ..fingerprints import fingerprint
from ..severity import STEPS, UNREAD
from ..wording import place_of, shown
from .findings import About, Findings, Row

__all__ = ['code_quality', 'junit']


def junit(findings: Findings, about: About) -> str:
    """A test for each file: a failure where there is a finding, an error where something was not looked at."""
    rows = findings.rows()
    failed = sum(row.severity not in (None, UNREAD) for row in rows)
    errors = sum(row.severity == UNREAD for row in rows)
    skipped = sum(bool(row.left) and row.severity is None for row in rows)
    counts = f'tests="{len(rows)}" failures="{failed}" errors="{errors}" skipped="{skipped}"'
    name = quoteattr(f'picklestep {about.version}')
    return ''.join(['<?xml version="1.0" encoding="UTF-8"?>\n', f'<testsuites {counts}>\n<testsuite name={name} {counts}>\n',
                    *(part for row in rows for part in _test(row)), '</testsuite>\n</testsuites>\n'])


def _test(row: Row) -> Iterator[str]:
    yield f'<testcase classname="picklestep" name={quoteattr(shown(row.path))}>'
    if row.severity is not None:
        kind = 'error' if row.severity == UNREAD else 'failure'
        lines = '\n'.join(f'{place_of(row.path, look.where)}: {shown(line)}' for look in row.looks for line in look.lines)
        yield f'<{kind} type="{row.severity}" message={quoteattr(shown(row.looks[0].text))}>{escape(lines)}</{kind}>'
    elif row.left:
        yield f'<skipped message={quoteattr(shown(row.left))}/>'
    yield '</testcase>\n'


def code_quality(findings: Findings, about: About) -> str:
    """An entry for each mark, as GitLab shows them in a merge request."""
    entries: List[Dict[str, object]] = []
    seen: Dict[str, int] = {}
    for row in findings.rows():
        path = row.path if '://' in row.path else os.path.normpath(row.path).replace(os.sep, '/')
        for look in row.looks:
            sign = hashlib.sha256(json.dumps([path, fingerprint(look)]).encode()).hexdigest()
            # (two marks of a file may be told apart by their numbers alone, and GitLab wants each sign once)
            number = seen[sign] = seen.get(sign, -1) + 1
            entries.append({
                'description': f'{place_of(row.path, look.where)}: {shown(look.text)}', 'check_name': f'picklestep/{look.rule}',
                'fingerprint': sign if not number else hashlib.sha256(f'{sign} {number}'.encode()).hexdigest(),
                'severity': STEPS[look.severity].gitlab, 'location': {'path': shown(path), 'lines': {'begin': 1}}})
    return json.dumps(entries, indent=1) + '\n'
