"""The report as one page of HTML. It has no script and asks for nothing, and all texts from files are escaped."""

from __future__ import annotations

import html
from typing import Iterable, Iterator, List

from ..advice import advice_for, commands_for
from ..looks import RULES
from ..severity import STEPS
from ..wording import place_of, shown
from .findings import About, Findings, Row, bounded

__all__ = ['html_report']

# Behind so many letters of details a file has a row and no details, and of a path so many letters are shown.
_MOST_DETAILS, _MOST_PATH = 3_000_000, 200
_STYLE = ('body{font:15px/1.5 system-ui,sans-serif;max-width:70em;margin:2em auto;padding:0 1em;color:#1b1b1b;background:#fff}'
          'table{border-collapse:collapse;width:100%}td,th{text-align:left;padding:.2em .6em;border-bottom:1px solid #ddd;vertical-align:top;'
          'overflow-wrap:anywhere}pre{background:#f5f5f5;padding:.6em;overflow-x:auto;white-space:pre-wrap;overflow-wrap:anywhere}'
          'summary{cursor:pointer;overflow-wrap:anywhere}details{margin:.4em 0}b{padding:0 .4em;border-radius:.2em;color:#fff}'
          '.critical{background:#9b1c1c}.high{background:#a34a00}.medium{background:#6b5900}.unread{background:#4a4a4a}'
          '@media(prefers-color-scheme:dark){body{color:#e8e8e8;background:#161616}pre{background:#242424}td,th{border-color:#444}}')
_HEAD = ('<!DOCTYPE html>\n<html lang="en">\n<head>\n<meta charset="utf-8">\n'
         '<meta http-equiv="Content-Security-Policy" content="default-src \'none\'; style-src \'unsafe-inline\'">\n'
         '<meta name="viewport" content="width=device-width">\n<title>picklestep scan</title>\n'
         f'<style>{_STYLE}</style>\n</head>\n<body>\n')


def html_report(findings: Findings, about: About) -> str:
    """The whole page."""
    rows = findings.with_sources()
    lines = [_HEAD, '<h1>What the pickles in these files import and call</h1>\n', f'<p>{_text(findings.summary())}.</p>\n', *_about(about),
             *_steps(findings), '<h2>Files with marks</h2>\n']
    room = _MOST_DETAILS
    left: List[Row] = []
    for row in (row for row in rows if row.severity is not None):
        details = ''.join(_details(row)) if room else ''
        room = room - len(details) if len(details) <= room else 0
        if room:
            lines.append(details)
        else:
            left.append(row)
    if left:
        lines += [f'<p>{len(left):,} more have marks. <code>picklestep scan --brief</code> prints them.</p>\n', *_table(left)]
    if findings.taken:
        taken = bounded(map(_text, findings.taken), len(findings.taken))
        lines += [f'<h2>Marks that the policy takes: {findings.counts["taken"]}</h2>\n<pre>', *(f'{line}\n' for line in taken), '</pre>\n']
    lines += ['<h2>Files without marks</h2>\n', '<p>A file without a mark may still do harm.</p>\n', *_table(row for row in rows if row.severity is None),
              '</body>\n</html>\n']
    return ''.join(lines)


def _text(text: str) -> str:
    """A text from anywhere."""
    return html.escape(shown(text))


def _path(path: str) -> str:
    return _text(path if len(path) <= _MOST_PATH else f'{path[:_MOST_PATH // 2]}..{path[-_MOST_PATH // 2:]}')


def _about(about: About) -> Iterator[str]:
    yield f'<p>Made by picklestep {_text(about.version)} on {_text(about.made)}'
    yield f', with the policy {_text(about.policy)}' if about.policy else ', without a policy'
    yield f'. Nothing of the files was run or loaded. Good files have marks too. {_text(about.unseen)}</p>\n'


def _steps(findings: Findings) -> Iterator[str]:
    counts = findings.severities()
    yield '<table>\n<tr><th>Severity</th><th>What it means</th><th>Files</th></tr>\n'
    for step in STEPS.values():
        yield f'<tr><td><b class="{step.name}">{step.name}</b></td><td>{_text(step.means)}</td><td>{counts[step.name]}</td></tr>\n'
    yield '</table>\n'


def _details(row: Row) -> Iterator[str]:
    """All that is said of a file with marks."""
    worst = row.looks[0]
    yield f'<details><summary><b class="{row.severity}">{row.severity}</b> {_path(row.path)}: {_text(worst.text[:_MOST_PATH])}</summary>\n<table>\n'
    facts = (('File', row.path), ('SHA-256', row.digest), ('Size', f'{row.size:,} bytes' if row.size else ''), ('Kind', row.kind),
             ('Why', RULES[worst.rule]), ('What to do', advice_for(worst)))
    yield from (f'<tr><th>{name}</th><td>{_text(value)}</td></tr>\n' for name, value in facts if value)
    commands = commands_for(row.path, worst)
    if commands:
        yield f'<tr><th>Look further</th><td>{"<br>".join(f"<code>{_text(command)}</code>" for command in commands)}</td></tr>\n'
    yield '</table>\n<pre>'
    shown_lines = (f'{look.severity:8}  {_text(place_of(row.path, look.where))}: {_text(line)}' for look in row.looks for line in look.lines)
    yield from (f'{line}\n' for line in bounded(shown_lines, sum(len(look.lines) for look in row.looks)))
    if row.more:
        yield f'.. {row.more:,} marks more\n'
    yield '</pre>\n'
    if row.source:
        yield '<details><summary>The pickle as Python source</summary>\n<pre>'
        yield from (f'{_text(line)}\n' for line in row.source.splitlines())
        yield '</pre>\n</details>\n'
    yield '</details>\n'


def _table(rows: Iterable[Row]) -> Iterator[str]:
    yield '<table>\n<tr><th>File</th><th>Bytes</th><th>Kind</th><th>SHA-256</th></tr>\n'
    for row in rows:
        kind = _text(f'skipped: {row.left}' if row.left else row.kind)
        yield f'<tr><td>{_path(row.path)}</td><td>{row.size}</td><td>{kind}</td><td>{row.digest[:16]}</td></tr>\n'
    yield '</table>\n'
