"""Makes the screenshots of docs/reference/view.md: the page of `picklestep view` on real pickles. It needs chromium.

    python3 tools/make_screenshots.py
"""

from __future__ import annotations

import sys
import threading
import time
from pathlib import Path
from typing import Sequence

ROOT = Path(__file__).resolve().parent.parent
sys.path[:0] = [str(ROOT / 'python'), str(ROOT / 'python' / 'tests')]

from chromium import PROGRAM, Browser  # noqa: E402
from picklestep.view.server import Served, Viewer  # noqa: E402

MODELS = ROOT / 'python' / 'tests' / 'data' / 'models'


def settle(browser: Browser) -> None:
    """Waits until the page has its answers."""
    browser.js('new Promise((done) => setTimeout(done, 700))')


def take(browser: Browser, source: Path, keys: Sequence[str], shots: Sequence[Sequence[object]]) -> None:
    """Opens a pickle, presses keys, points at the top of the stack, and takes pictures: a name, a scheme, a width and a height."""
    viewer = Viewer(Served(source, source.name))
    thread = threading.Thread(target=viewer.serve)
    thread.start()
    try:
        browser.size(int(str(shots[0][2])), int(str(shots[0][3])))
        browser.go(viewer.address)
        browser.wait("document.querySelector('#where')?.textContent.startsWith('at ')")
        for key in keys:
            browser.key(key)
            time.sleep(0.3)
        for name, scheme, width, height in shots:
            browser.scheme(str(scheme))
            browser.size(int(str(width)), int(str(height)))
            settle(browser)
            browser.js("document.querySelector('#stack .thing')?.focus({ preventScroll: true })")
            settle(browser)
            browser.screenshot(ROOT / 'docs' / f'{name}.png')
    finally:
        viewer.stop()
        thread.join()
        viewer.__exit__()


def main() -> int:
    """Makes all screenshots."""
    if PROGRAM is None:
        print('there is no chromium', file=sys.stderr)
        return 1
    browser = Browser()
    try:
        shots = [('view_light', 'light', 1280, 800), ('view_narrow', 'light', 600, 1100)]
        take(browser, MODELS / 'sklearn_tree.pkl', ['n'] * 4 + ['b'], shots)
        take(browser, MODELS / 'pandas_frame.pkl', ['n'] * 3, [('view_dark', 'dark', 1280, 800)])
        take(browser, MODELS / 'sklearn_boosting.pkl', ['z'], [('view_sizes', 'light', 1200, 700)])
    finally:
        browser.close()
    return 0


if __name__ == '__main__':
    sys.exit(main())
