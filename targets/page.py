"""Makes the page: one file with the program, the library, the page and its scripts in it.

    python3 targets/page.py FOLDER          makes FOLDER/picklestep.html of the two modules there, and puts its sum into FOLDER/SHA256SUMS
    python3 targets/page.py --check FOLDER  only compares; status 1 where the page is not the one that would be made

It is also the page that `picklestep view` serves (python/picklestep/view). No time and no path is in it. Other
versions of zlib pack a module in another way: what is packed in the page that is there stays, where it is the same module.
"""

from __future__ import annotations

import base64
import hashlib
import json
import re
import sys
import zlib
from pathlib import Path

ROOT = Path(__file__).resolve().parent.parent
sys.path.insert(0, str(ROOT / 'python'))
sys.dont_write_bytecode = True

from picklestep.plain import PLAIN  # noqa: E402
from picklestep.view.opcodes import opcode_table, source_facts  # noqa: E402

VIEW = ROOT / 'python/picklestep/view'
NAME = 'picklestep.html'
MOST = 3_000_000
# The modules, by the elements that hold them.
MODULES = {'module': 'picklestep.wasm', 'library': 'libpicklestep.wasm'}
# The scripts of the worker; those of the page are what page.html names, with these behind them.
WORKER = ('bytes.js', 'words.js', *(f'alone/{name}.js' for name in (
    'wasi', 'library', 'session', 'lines', 'answers', 'reaches', 'literals', 'source_nodes', 'source_names', 'source_builder', 'source', 'document', 'containers',
    'worker')))
ALONE = ('alone/examples.js', 'alone/opening.js')
# What the page may do: its own script and style, the module, a worker and a download of its own; no request to anywhere.
POLICY = ("default-src 'none'; script-src 'sha256-{script}' 'wasm-unsafe-eval'; style-src 'sha256-{style}'; worker-src blob:; img-src data:; "
          "base-uri 'none'; form-action 'none'")


def read(*names: str) -> str:
    return '\n'.join((VIEW / name).read_text(encoding='utf-8') for name in names)


def digest(text: str) -> str:
    """The sum of a script or a style, as a policy names it."""
    return base64.b64encode(hashlib.sha256(text.encode('utf-8')).digest()).decode('ascii')


def element(tag: str, text: str, attributes: str = '') -> str:
    """An element that holds a text as it is."""
    if re.search(rf'</{tag}|<!--', text, re.IGNORECASE):
        raise ValueError(f'a {tag} would end within its text')
    return f'<{tag}{attributes}>{text}</{tag}>'


def packed(name: str, module: bytes, before: str) -> str:
    """The element of a name with a module in it; the one of the page `before`, where that holds the same."""
    found = re.search(rf'<template id="{name}">([A-Za-z0-9+/=]*)</template>', before)
    try:
        if found and zlib.decompress(base64.b64decode(found[1])) == module:
            return found[0]
    except (ValueError, zlib.error):
        pass
    # (as a text of that length in a script, it would take most of the time in which the page starts)
    return element('template', base64.b64encode(zlib.compress(module, 9)).decode('ascii'), f' id="{name}"')


def make(folder: Path, before: Path) -> bytes:
    """The page of the modules in a folder, where there may be a page `before`."""
    kept = before.read_text(encoding='utf-8', errors='replace') if before.exists() else ''
    page = read('page.html')
    scripts = re.findall(r'<script src="([a-z]+\.js)" defer></script>\n', page)
    script, style = read(*scripts, *ALONE), read('style.css', 'sizes.css')
    icon = base64.b64encode((VIEW / 'icon.svg').read_bytes()).decode('ascii')
    policy = POLICY.format(script=digest(script), style=digest(style))
    page = re.sub(r'<script src="[a-z]+\.js" defer></script>\n', '', page)
    data = [element('script', read(*WORKER), ' type="text/plain" id="worker-code"'),
            *(element('script', json.dumps(facts, separators=(',', ':')), f' type="application/json" id="{name}"')
              for name, facts in (('opcodes', opcode_table()), ('source-facts', source_facts()), ('plain', PLAIN))),
            *(packed(name, (folder / file).read_bytes(), kept) for name, file in MODULES.items())]
    for old, new in (('<meta charset="utf-8">', f'<meta charset="utf-8">\n<meta http-equiv="Content-Security-Policy" content="{policy}">'),
                     ('href="icon.svg"', f'href="data:image/svg+xml;base64,{icon}"'),
                     ('<link rel="stylesheet" href="style.css">\n<link rel="stylesheet" href="sizes.css">', element('style', style)),
                     ('<!-- opening -->\n', read('alone/opening.html')),
                     ('</body>', '\n'.join([*data, element('script', script), '</body>']))):
        if page.count(old) != 1:
            raise ValueError(f'page.html has not one {old}')
        page = page.replace(old, new)
    made = page.encode('utf-8')
    if len(made) > MOST:
        raise ValueError(f'the page has {len(made):,} bytes, and at most {MOST:,} are wanted')
    return made


def put(folder: Path, made: bytes) -> None:
    """Puts the page into its place, whole or not at all, and its sum among the others."""
    sums = folder / 'SHA256SUMS'
    wanted = with_sum(sums.read_text() if sums.exists() else '', made)
    for file, content in ((folder / NAME, made), (sums, wanted.encode('ascii'))):
        if not file.exists() or file.read_bytes() != content:
            new = file.with_name(f'{file.name}.new')
            new.write_bytes(content)
            new.chmod(0o644)
            new.replace(file)


def with_sum(sums: str, made: bytes) -> str:
    """The lines of sums with that of the page, in the place of the one that was there, or else as the last."""
    line = f'{hashlib.sha256(made).hexdigest()}  {NAME}\n'
    lines = [line if other.endswith(f'  {NAME}\n') else other for other in sums.splitlines(keepends=True)]
    return ''.join(lines if line in lines else [*lines, line])


def main() -> int:
    *options, name = sys.argv[1:] or ['']
    if not name or options not in ([], ['--check']):
        print('usage: page.py [--check] FOLDER', file=sys.stderr)
        return 2
    folder = Path(name)
    try:
        made = make(folder, folder / NAME)
        if not options:
            put(folder, made)
        elif not (folder / NAME).exists() or (folder / NAME).read_bytes() != made:
            print(f'{folder.name}/{NAME} is not the page of its sources')
            return 1
    except (OSError, ValueError) as error:
        print(f'picklestep: {error}', file=sys.stderr)
        return 2
    return 0


if __name__ == '__main__':
    sys.exit(main())
