"""The examples of docs/reference that are typed into a terminal."""

from __future__ import annotations

import re
from typing import Iterator, List, Tuple

from pickles import ROOT

_HEX = re.compile(r'\$ echo ([0-9a-f]+) \| xxd -r -p > (\S+)')


def blocks(name: str) -> List[List[str]]:
    """The examples of a page of docs/reference, by their lines."""
    text = (ROOT / 'docs' / 'reference' / f'{name}.md').read_text(encoding='utf-8')
    return [[line[4:] for line in block.splitlines()] for block in re.findall(r'(?:^    .*\n)+', text, re.MULTILINE)]


def stories() -> Iterator[Tuple[str, bytes, List[str], List[Tuple[str, str]]]]:
    """The examples of the shell: a file, what is in it, the words that open it, and each line that is typed with what is shown then."""
    for lines in blocks('shell'):
        match = _HEX.fullmatch(lines[0])
        if match is None:
            continue
        typed: List[Tuple[str, str]] = []
        for line in lines[2:]:
            if line.startswith('(pickle) '):
                typed.append((line[9:], ''))
            else:
                typed[-1] = typed[-1][0], typed[-1][1] + line + '\n'
        yield match[2], bytes.fromhex(match[1]), lines[1].split()[3:], typed
