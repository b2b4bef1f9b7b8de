"""No folder of the package imports from one that imports from it, at once or later. (What only the types name does not count.)"""

from __future__ import annotations

import ast
import unittest
from pathlib import Path
from typing import Dict, Iterator, List, Set

import picklestep

PACKAGE = Path(picklestep.__file__).parent


def folder_of(path: Path) -> str:
    """The folder of a module, right in the package."""
    parts = path.relative_to(PACKAGE).parts
    return parts[0] if len(parts) > 1 else ''


def imports(path: Path) -> Iterator[str]:
    """The folders from which a module imports."""
    waiting: List[ast.AST] = [ast.parse(path.read_text(encoding='utf-8'))]
    while waiting:
        node = waiting.pop()
        if isinstance(node, ast.If) and 'TYPE_CHECKING' in ast.dump(node.test):
            continue
        if isinstance(node, ast.ImportFrom) and node.level:
            base = path.parents[node.level - 1]
            names = [node.module.replace('.', '/')] if node.module else [alias.name for alias in node.names]
            yield from (folder_of(base / name / '_') if (base / name).is_dir() else folder_of(base / name) for name in names)
        waiting.extend(ast.iter_child_nodes(node))


class Imports(unittest.TestCase):
    def test_folders(self) -> None:
        found: Dict[str, Set[str]] = {}
        for path in PACKAGE.rglob('*.py'):
            found.setdefault(folder_of(path), set()).update(imports(path))
        found = {folder: others - {folder, ''} for folder, others in found.items() if folder}
        self.assertIn('shell', found['dap'])
        while found:  # (those that import from no other are taken out, again and again)
            lowest = {folder for folder, others in found.items() if not others & {*found}}
            self.assertNotEqual(lowest, set(), f'a circle: {found}')
            found = {folder: others for folder, others in found.items() if folder not in lowest}


if __name__ == '__main__':
    unittest.main()
