#!/usr/bin/python3
"""Builds a site of the pages, and says which of its links lead nowhere, and which pages its menu leaves out.

    python3 tools/make_site.py OUT

OUT is a folder that gets the site. It needs Debian's packages mkdocs and python3-sphinx. The site asks nothing of the network, and can be opened from a disk: begin with
OUT/index.html. The pages stay as they are: what they link to is copied beside them, and lists get the indents that mkdocs asks for. One page more
has each name of the Python package, as Sphinx shows its docstring.
"""

from __future__ import annotations

import inspect
import json
import os
import re
import shutil
import subprocess
import sys
import tempfile
from html.parser import HTMLParser
from pathlib import Path
from typing import Any, Dict, Iterator, List, Optional, Set, Tuple
from urllib.parse import unquote, urlsplit

ROOT = Path(__file__).resolve().parent.parent
SITE = ROOT / 'docs' / 'site'
# Debian's packages of the programs that make the site.
NEEDED = {'mkdocs': 'mkdocs', 'sphinx-build': 'python3-sphinx'}
sys.path[:0] = [str(ROOT / 'equipment'), str(ROOT / 'python')]

from pages import without_code  # noqa: E402

_FENCE = '```'
_ITEM = re.compile(r'( *)(- |\d+\. )')


# --- Pages, as mkdocs reads them ---

def targets(page: Path) -> Iterator[Path]:
    """The files that a page links to."""
    for link in re.findall(r'\]\(([^)\s]+)\)', without_code(page.read_text(encoding='utf-8'))):
        name = link.partition('#')[0]
        if name and not re.match(r'[a-z]+:', name):
            yield (page.parent / name).resolve()


def copied(folder: Path) -> List[Path]:
    """Copies all pages, and what they link to, under the names that they have in the repository."""
    waiting = [ROOT / 'README.md', *sorted((ROOT / 'docs').rglob('*.md'))]
    seen: Set[Path] = set()
    while waiting:
        file = waiting.pop()
        if file in seen or not file.is_file():
            continue
        seen.add(file)
        copy = folder / file.relative_to(ROOT)
        copy.parent.mkdir(parents=True, exist_ok=True)
        shutil.copy(file, copy)
        if file.suffix == '.md':
            waiting += targets(file)
    return sorted(seen)


def indented(line: str) -> str:
    """A line of a list with four blanks for each level, as Python's Markdown wants them, in place of two."""
    blanks = len(line) - len(line.lstrip(' '))
    if blanks >= 6:  # (code within an item)
        return '  ' + line
    return ' ' * (4 * (blanks // 2)) + line.lstrip(' ')  # (below a numbered item a level has three blanks)


def with_lists(text: str) -> str:
    """A page whose lists are lists for Python's Markdown: with an empty line before each, and with wider indents."""
    lines: List[str] = []
    in_list = in_fence = has_parts = False
    for line in text.split('\n'):
        before = lines[-1] if lines else ''
        if line.startswith(_FENCE):
            in_fence = not in_fence
        elif not in_fence and line.strip():
            item = _ITEM.match(line)
            if item is not None and not item[1]:
                if before.strip() and (has_parts or not in_list):  # (an item of several parts ends at an empty line alone)
                    lines.append('')
                in_list, has_parts = True, False
            elif not line.startswith(' ') and not (in_list and before.strip()):
                in_list = False
            elif in_list:
                line = indented(line)
                has_parts = has_parts or not before.strip()
        lines.append(line)
    return '\n'.join(lines)


# --- The names of the package ---

# What Sphinx makes of a name: what each is, and what it has that users call.
SETTINGS = '''extensions = ['sphinx.ext.autodoc']
default_role = 'code'
smartquotes = False
html_permalinks = False
html_theme = 'basic'
autodoc_member_order = 'bysource'


def setup(app):
    app.connect('autodoc-skip-member', lambda app, what, name, found, skip, options: skip or (found.__doc__ or '').startswith('Alias for field'))
'''
OF_SPHINX = '<div class="names">'


def page_of_names(folder: Path) -> str:
    """Each public name of the package, with what its docstring says, as Sphinx shows it."""
    import picklestep

    lines = ['Names', '=====', '', '.. currentmodule:: picklestep']
    for name in sorted(picklestep.__all__, key=str.lower):
        found = getattr(picklestep, name)
        if inspect.isclass(found):
            lines += ['', name, '-' * len(name), '', f'.. autoclass:: {name}', '   :members:']
        elif inspect.isfunction(found):
            lines += ['', name, '-' * len(name), '', f'.. autofunction:: {name}']
    folder.mkdir()
    (folder / 'conf.py').write_text(SETTINGS, encoding='utf-8')
    (folder / 'index.rst').write_text('\n'.join(lines) + '\n', encoding='utf-8')
    environment = {**os.environ, 'PYTHONPATH': str(ROOT / 'python'), 'PYTHONDONTWRITEBYTECODE': '1'}
    subprocess.run(['sphinx-build', '-b', 'html', '-Q', str(folder), str(folder / 'out')], env=environment, check=True)
    page = (folder / 'out' / 'index.html').read_text(encoding='utf-8')
    body = page.partition('<section id="names">')[2].rpartition('</section>')[0].partition('</h1>')[2]
    intro = '[From Python](python.md) explains how they belong together. `help` in Python shows the same.'
    return f'# All names of the package\n\n{intro}\n\n{OF_SPHINX}\n{body}\n</div>\n'


# --- What mkdocs asks this file for ---

def slug(heading: str, separator: str) -> str:
    """The anchor that GitHub makes of a heading, which the pages link to."""
    return re.sub(r'[^\w\- ]', '', heading.strip().lower()).replace(' ', separator)


def on_config(config: Any) -> Any:
    config['mdx_configs'].setdefault('toc', {})['slugify'] = slug
    return config


def on_page_markdown(markdown: str, **_: Any) -> str:
    return markdown if OF_SPHINX in markdown else with_lists(markdown)


# --- Links ---

class Links(HTMLParser):
    """The anchors of a page, and where its links lead."""

    def __init__(self) -> None:
        super().__init__()
        self.anchors: Set[str] = set()
        self.links: List[str] = []

    def handle_starttag(self, tag: str, attrs: List[Tuple[str, Optional[str]]]) -> None:
        for name, value in attrs:
            if name == 'id' and value:
                self.anchors.add(value)
            elif name in ('href', 'src') and value:
                self.links.append(value)


def read(page: Path) -> Links:
    links = Links()
    links.feed(page.read_text(encoding='utf-8'))
    return links


def faults(out: Path) -> Iterator[str]:
    """The links that lead nowhere."""
    pages: Dict[Path, Links] = {page.resolve(): read(page) for page in sorted(out.rglob('*.html')) if page.name != 'picklestep.html'}
    for page, found in pages.items():
        for link in found.links:
            parts = urlsplit(link)
            if parts.scheme or parts.netloc:
                continue
            target = (page.parent / unquote(parts.path)).resolve() if parts.path else page
            if not target.is_file():
                yield f'{page.relative_to(out)}: {link}: there is no such file'
            elif parts.fragment and target in pages and unquote(parts.fragment) not in pages[target].anchors:
                yield f'{page.relative_to(out)}: {link}: there is no such heading'


def left_out() -> Iterator[str]:
    """The pages of docs that the menu does not name."""
    named = set(re.findall(r': (\S+\.md)$', (SITE / 'mkdocs.yml').read_text(encoding='utf-8'), flags=re.M))
    for page in sorted((ROOT / 'docs').rglob('*.md')):
        if str(page.relative_to(ROOT)) not in named:
            yield f'docs/site/mkdocs.yml does not name {page.relative_to(ROOT)}'


# --- The site ---

def build(out: Path) -> None:
    with tempfile.TemporaryDirectory() as name:
        folder = Path(name)
        copied(folder / 'pages')
        (folder / 'pages' / 'docs' / 'reference' / 'names.md').write_text(page_of_names(folder / 'names'), encoding='utf-8')
        shutil.copytree(SITE / 'theme', folder / 'theme')
        config = (SITE / 'mkdocs.yml').read_text(encoding='utf-8')
        settings = {'docs_dir': str(folder / 'pages'), 'site_dir': str(out), 'hooks': [str(Path(__file__).resolve())]}
        (folder / 'mkdocs.yml').write_text(config + ''.join(f'{key}: {json.dumps(value)}\n' for key, value in settings.items()), encoding='utf-8')
        environment = {**os.environ, 'PYTHONDONTWRITEBYTECODE': '1'}
        subprocess.run(['mkdocs', 'build', '--strict', '--quiet', '--clean', '-f', str(folder / 'mkdocs.yml')], env=environment, check=True)
    index = json.loads((out / 'search' / 'search_index.json').read_text(encoding='utf-8'))
    entries = [{key: entry[key] for key in ('location', 'title', 'text')} for entry in index['docs']]
    (out / 'search' / 'index.js').write_text(f'const picklestepIndex = {json.dumps(entries)};\n', encoding='utf-8')


def main(words: List[str]) -> int:
    if len(words) != 1:
        print(__doc__, file=sys.stderr)
        return 2
    for program, package in NEEDED.items():
        if shutil.which(program) is None:
            print(f'make_site: {program} is not installed: apt-get install {package}', file=sys.stderr)
            return 2
    out = Path(words[0]).resolve()
    build(out)
    found = [*faults(out), *left_out()]
    print(*found, sep='\n', end='\n' if found else '')
    print(f'{len(list(out.rglob("*.html")))} pages, {len(found)} faults')
    return 1 if found else 0


if __name__ == '__main__':
    sys.exit(main(sys.argv[1:]))
