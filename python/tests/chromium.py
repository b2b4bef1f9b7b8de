"""A headless Chromium, driven over the pipes of its remote-debugging protocol."""

from __future__ import annotations

import base64
import json
import os
import shutil
import signal
import subprocess
import sys
import tempfile
import time
from pathlib import Path
from select import select
from typing import Any, Dict, List, Optional, Tuple

PROGRAM = next((path for path in map(shutil.which, ('chromium', 'chromium-browser', 'google-chrome')) if path), None)
_FLAGS = ['--headless=new', '--no-sandbox', '--disable-gpu', '--disable-dev-shm-usage', '--no-first-run', '--disable-extensions',
          '--disable-background-networking', '--disable-component-update', '--disable-sync', '--hide-scrollbars=false',
          '--remote-debugging-pipe']
# The browser takes its commands from descriptor 3, and answers on 4.
_BECOME = '''import fcntl, os, sys
ends = [fcntl.fcntl(int(word), fcntl.F_DUPFD, 100) for word in sys.argv[1:3]]
for end, wanted in zip(ends, (3, 4)):
    os.dup2(end, wanted)
    os.close(end)
os.execv(sys.argv[3], sys.argv[3:])'''
KEYS = {'ArrowRight': 39, 'ArrowLeft': 37, 'ArrowDown': 40, 'ArrowUp': 38, 'Home': 36, 'End': 35, 'PageUp': 33, 'PageDown': 34, 'Delete': 46,
        'Enter': 13, ' ': 32, 'Tab': 9, 'Escape': 27}

# A script whose value are the faults that some people could not use the page for.
ACCESSIBILITY = (Path(__file__).parent / 'accessibility.js').read_text(encoding='utf-8')
# How much each text that is seen stands out from what is behind it, by the formula of the Web Content Accessibility Guidelines.
CONTRASTS = '''(() => {
    const parts = (colour) => colour.match(/[0-9.]+/g).map(Number);
    const light = (colour) => parts(colour).slice(0, 3).map((part) => part / 255)
        .map((part) => part <= 0.04045 ? part / 12.92 : ((part + 0.055) / 1.055) ** 2.4)
        .reduce((sum, part, at) => sum + part * [0.2126, 0.7152, 0.0722][at], 0);
    const behind = (each) => { const colour = getComputedStyle(each).backgroundColor;
        return (parts(colour)[3] ?? 1) === 1 ? colour : behind(each.parentElement); };
    return [...document.querySelectorAll('body *')].filter((each) => each.checkVisibility() && !each.disabled && !each.closest('.hidden') &&
        [...each.childNodes].some((child) => child.nodeType === Node.TEXT_NODE && child.textContent.trim())).map((each) => {
            const [low, high] = [light(getComputedStyle(each).color), light(behind(each))].sort((left, right) => left - right);
            return [each.className + ' ' + each.textContent.slice(0, 40), (high + 0.05) / (low + 0.05)]; });
})()'''
# The form of edits has what stands at the place, which is read when the form opens and when its place changes.
FILLED = "document.querySelector('#edit-form').getAttribute('aria-busy') === 'false'"
# How much of the line around what has the focus is cut off by what it is in, in pixels, with what that is.
FOCUS_LINE = '''(() => {
    const each = document.activeElement, style = getComputedStyle(each), box = each.getBoundingClientRect();
    const inner = getComputedStyle(each, '::after');
    const drawn = style.outlineStyle !== 'none' ? parseFloat(style.outlineWidth) : inner.borderStyle === 'solid' ? parseFloat(inner.borderTopWidth) : 0;
    const out = style.outlineStyle === 'none' ? 0 : drawn + parseFloat(style.outlineOffset);
    let cut = Math.max(-Math.min(box.left, box.top) + out, box.right + out - innerWidth, box.bottom + out - innerHeight);
    for (let at = each.parentElement; at && at !== document.documentElement; at = at.parentElement) {
        if (getComputedStyle(at).overflow === 'visible') continue;
        const hull = at.getBoundingClientRect();
        cut = Math.max(cut, hull.left - box.left + out, hull.top - box.top + out, box.right + out - hull.right, box.bottom + out - hull.bottom);
    }
    return [each.tagName + ' ' + each.id + ' ' + each.className, drawn, cut];
})()'''
# The page without a server can be given a pickle.
READY = "document.querySelector('#opening')?.dataset.ready === 'yes'"
# Everything that was asked for is shown.
SETTLED = '''(async () => {
    do {
        await view.busy;
        await new Promise(requestAnimationFrame);
    } while (view.asks || view.drawing || view.pending);
    return true; })()'''
# What people see of a page.
SEEN = '''(() => {
    const texts = (selector) => [...document.querySelectorAll(selector)].map((each) => each.textContent);
    return { rows: Object.fromEntries([...document.querySelectorAll('.row:not([hidden])')].map((row) =>
            [row.dataset.place, [row.className, row.getAttribute('aria-label'), row.textContent]])),
        title: document.title, ...Object.fromEntries(['#name', '#where', '#reached', '#closing', '#said', '#stack li', '#memo li', '#objects .thing', '#objects .inner .thing',
            '#objects-shown', '#reaches li', '#reaches-shown', '#result .thing', '#result .note', '#source', '#opcode', '#about', '#undo', '#redo']
            .map((selector) => [selector, texts(selector)])), titles: ['undo', 'redo'].map((id) => document.getElementById(id).title),
        readOn: document.querySelector('#read-on').hidden, focus: document.activeElement.id,
        open: [...document.querySelectorAll('dialog[open]')].map((dialog) => [dialog.id, ...[...dialog.querySelectorAll('input, select, [role=alert]')]
            .filter((each) => each.checkVisibility() && each.id !== 'save-over').map((each) => [each.id, each.checked, each.value ?? each.textContent])]),
        slow: document.querySelector('#slow').checked, bar: document.querySelector('#bar').value }; })()'''


class BrowserError(Exception):
    """What the browser could not do."""


class Page:
    """What tests ask of a page, whatever browser shows it."""

    def js(self, text: str) -> Any:
        """The value of an expression on the page, which may be a promise."""
        raise NotImplementedError

    def wait(self, text: str, seconds: float = 600) -> Any:
        """Waits until an expression is true, and answers it."""
        deadline = time.monotonic() + seconds
        while True:
            value = self.js(text)
            if value:
                return value
            if time.monotonic() > deadline:
                raise BrowserError(f'never true: {text}; the page says {self.js("document.body.innerText.slice(0, 400)")!r}')
            time.sleep(0.02)


class Browser(Page):
    """A browser with one page."""

    def __init__(self, width: int = 1280, height: int = 800) -> None:
        assert PROGRAM is not None
        self._profile = tempfile.mkdtemp(prefix='picklestep-chromium-')
        to_read, self._write = os.pipe()
        self._read, to_write = os.pipe()
        command = [sys.executable, '-c', _BECOME, str(to_read), str(to_write), PROGRAM, *_FLAGS,
                   f'--user-data-dir={self._profile}', f'--window-size={width},{height}', 'about:blank']
        self._process = subprocess.Popen(command, pass_fds=(to_read, to_write), stdin=subprocess.DEVNULL, stdout=subprocess.DEVNULL,
                                         stderr=subprocess.DEVNULL, start_new_session=True)
        os.close(to_read)
        os.close(to_write)
        self._left = b''
        self._number = 0
        self._session: Optional[str] = None
        self.told: List[Dict[str, Any]] = []
        self._attach()
        self.size(width, height)

    def _attach(self) -> None:
        targets = self.call('Target.getTargets')['targetInfos']
        page = next(target for target in targets if target['type'] == 'page')
        self._session = str(self.call('Target.attachToTarget', targetId=page['targetId'], flatten=True)['sessionId'])
        for domain in ('Page', 'Runtime', 'Log'):
            self.call(f'{domain}.enable')

    def call(self, method: str, **words: Any) -> Dict[str, Any]:
        """Asks the browser, and answers what it answers."""
        self._number += 1
        message: Dict[str, Any] = {'id': self._number, 'method': method, 'params': words}
        if self._session is not None:
            message['sessionId'] = self._session
        os.write(self._write, json.dumps(message).encode('ascii') + b'\0')
        deadline = time.monotonic() + 600
        while True:
            told = self._next(deadline)
            if told.get('id') == self._number:
                if 'error' in told:
                    raise BrowserError(told['error']['message'])
                return dict(told['result'])
            self.told.append(told)

    def _next(self, deadline: float) -> Dict[str, Any]:
        while b'\0' not in self._left:
            if not select([self._read], [], [], max(0.0, deadline - time.monotonic()))[0]:
                raise BrowserError('no answer')
            block = os.read(self._read, 1 << 20)
            if not block:
                raise BrowserError('the browser ended')
            self._left += block
        message, _, self._left = self._left.partition(b'\0')
        return dict(json.loads(message))

    def size(self, width: int, height: int) -> None:
        """Sets the size of the page."""
        self.call('Emulation.setDeviceMetricsOverride', width=width, height=height, deviceScaleFactor=1, mobile=False)

    def scheme(self, name: str) -> None:
        """Sets 'light' or 'dark'."""
        self.call('Emulation.setEmulatedMedia', features=[{'name': 'prefers-color-scheme', 'value': name}])

    def go(self, address: str) -> None:
        """Opens a page."""
        self.call('Page.navigate', url=address)

    def js(self, text: str) -> Any:
        answer = self.call('Runtime.evaluate', expression=text, returnByValue=True, awaitPromise=True)
        if 'exceptionDetails' in answer:
            raise BrowserError(str(answer['exceptionDetails'].get('exception', {}).get('description', answer)))
        return answer['result'].get('value')

    def key(self, key: str) -> None:
        """Presses a key."""
        code = KEYS.get(key, 0)
        words: Dict[str, Any] = {'key': key, 'windowsVirtualKeyCode': code}
        text = '\r' if key == 'Enter' else key if len(key) == 1 else ''
        self.call('Input.dispatchKeyEvent', type='keyDown' if text else 'rawKeyDown', text=text, **words)
        self.call('Input.dispatchKeyEvent', type='keyUp', **words)

    def type(self, text: str) -> None:
        """Types a text into the field that has the focus."""
        self.call('Input.insertText', text=text)

    def click(self, selector: str, count: int = 1) -> None:
        """Clicks in the middle of an element."""
        x, y = self._middle(selector)
        self.pointer(x, y)
        for kind in ('mousePressed', 'mouseReleased'):
            self.mouse(kind, x, y, count)

    def _middle(self, selector: str) -> Tuple[float, float]:
        x, y = self.js(f'(() => {{ const r = document.querySelector({json.dumps(selector)}).getBoundingClientRect();'
                       'return [r.left + r.width / 2, r.top + r.height / 2]; })()')
        return float(x), float(y)

    def mouse(self, kind: str, x: float, y: float, count: int = 1) -> None:
        """Presses, moves or releases the left button."""
        self.call('Input.dispatchMouseEvent', type=kind, x=x, y=y, button='left', buttons=0 if kind == 'mouseReleased' else 1, clickCount=count)

    def pointer(self, x: float, y: float) -> None:
        """Moves the pointer."""
        self.call('Input.dispatchMouseEvent', type='mouseMoved', x=x, y=y)

    def choose(self, selector: str, path: Path) -> None:
        """Chooses a file."""
        field = self.call('Runtime.evaluate', expression=f'document.querySelector({json.dumps(selector)})')['result']['objectId']
        self.call('DOM.setFileInputFiles', files=[str(path)], objectId=field)

    def tap(self, selector: str) -> None:
        """Touches the middle of an element, as a finger does."""
        self.drag_finger(selector, 0)

    def drag_finger(self, selector: str, distance: float) -> None:
        """Touches the middle of an element, and moves down before the finger is lifted."""
        x, y = self._middle(selector)
        self.call('Input.dispatchTouchEvent', type='touchStart', touchPoints=[{'x': x, 'y': y}])
        for part in (1, 2, 3, 4) if distance else ():
            self.call('Input.dispatchTouchEvent', type='touchMove', touchPoints=[{'x': x, 'y': y + distance * part / 4}])
        self.call('Input.dispatchTouchEvent', type='touchEnd', touchPoints=[])

    def screenshot(self, path: Path) -> None:
        """Writes what the page looks like."""
        path.write_bytes(base64.b64decode(self.call('Page.captureScreenshot', format='png')['data']))

    def requested(self) -> List[str]:
        """What the browser asked for, where the domain Network is enabled."""
        return [told['params']['request']['url'] for told in self.told if told.get('method') == 'Network.requestWillBeSent']

    def errors(self) -> List[str]:
        """What the page's script or its policy complained of."""
        texts = []
        for told in self.told:
            if told.get('method') == 'Runtime.exceptionThrown':
                texts.append(str(told['params']['exceptionDetails']))
            elif told.get('method') == 'Log.entryAdded' and told['params']['entry']['level'] == 'error':
                texts.append(str(told['params']['entry']['text']))
        return texts

    @property
    def process(self) -> int:
        """The number of its first process."""
        return self._process.pid

    def close(self) -> None:
        """Ends the browser, and takes its files away."""
        for file in (self._write, self._read):
            os.close(file)
        try:
            self._process.wait(5)
        except subprocess.TimeoutExpired:
            os.killpg(self._process.pid, signal.SIGKILL)
            self._process.wait()
        shutil.rmtree(self._profile, ignore_errors=True)
