"""The server of the page: what it gives, who may ask, what it saves, and how it ends. No browser is needed."""

from __future__ import annotations

import contextlib
import errno
import http.client
import io
import json
import os
import re
import signal
import socket
import subprocess
import sys
import tempfile
import threading
import unittest
from pathlib import Path
from typing import Any, Dict, List, Optional, Tuple
from unittest import mock
from urllib.parse import quote, urlsplit

import picklestep
from pickles import ROOT
from picklestep.document import Document
from picklestep.view import export
from picklestep.view.command import main
from picklestep.view.server import IDLE, Served, Viewer

PACKAGE = Path(picklestep.__file__).resolve().parent.parent
PAGE = ROOT / 'dist' / 'picklestep.html'
SYSTEM = b'cposix\nsystem\n(X\x02\x00\x00\x00idtR.'
HOSTILE = b'c</script><img src=x onerror=alert(1)>\n<b>&\n.'


class Asking(unittest.TestCase):
    """Who may ask the server."""

    def setUp(self) -> None:
        folder = tempfile.TemporaryDirectory()
        self.addCleanup(folder.cleanup)
        self.folder = Path(folder.name)
        self.file = self.folder / 'a.pickle'
        self.file.write_bytes(SYSTEM)
        self.viewer = Viewer(Served(self.file, '</script><b>', True, lesson='0: <!-- it begins'))
        self.thread = threading.Thread(target=self.viewer.serve, daemon=True)
        self.thread.start()
        self.addCleanup(self._end, self.thread)

    def _end(self, thread: threading.Thread) -> None:
        self.viewer.stop()
        thread.join()
        self.viewer.__exit__()

    def raw(self, request: bytes) -> Tuple[int, Dict[str, str], bytes]:
        """The status, the headers and the body of the answer to bytes that need be no request."""
        host, port = self.viewer.host.split(':')
        with socket.create_connection((host, int(port)), 600) as connection:
            connection.sendall(request)
            response = http.client.HTTPResponse(connection, method=request.partition(b' ')[0].decode('latin-1'))
            response.begin()
            return response.status, dict(response.getheaders()), response.read()

    def ask(self, method: str, path: str, body: bytes = b'', **headers: Optional[str]) -> Tuple[int, Dict[str, str], bytes]:
        """The status, the headers and the body of an answer."""
        host, port = self.viewer.host.split(':')
        connection = http.client.HTTPConnection(host, int(port), timeout=600)
        sent: Dict[str, Optional[str]] = {'Host': self.viewer.host, 'Origin': f'http://{self.viewer.host}', **headers}
        connection.putrequest(method, path, skip_host=True)
        for name, value in sent.items():
            if value is not None:
                connection.putheader(name, value)
        if method == 'POST':
            connection.putheader('Content-Length', str(len(body)))
        connection.endheaders(body if method == 'POST' else None)
        response = connection.getresponse()
        with contextlib.closing(connection):
            return response.status, dict(response.getheaders()), response.read()

    def test_only_the_loopback_address(self) -> None:
        self.assertEqual(self.viewer._server.server_address[0], '127.0.0.1')

    def say(self, word: str, body: bytes = b'') -> Any:
        """What the server answers to a question."""
        status, _, answer = self.ask('POST', f'/{self.viewer.token}/{word}', body)
        self.assertEqual(status, 200)
        return json.loads(answer)

    def test_the_page(self) -> None:
        """It is the one that stands alone, with what it is to show, and it may ask this server alone."""
        status, headers, body = self.ask('GET', f'/{self.viewer.token}/')
        text, alone = body.decode('utf-8'), PAGE.read_text(encoding='utf-8')
        self.assertEqual((status, headers['Content-Type']), (200, 'text/html; charset=utf-8'))
        told = re.search('<script id="served" type="application/json">(.*)</script>\n', text)
        assert told is not None
        self.assertNotIn('<', told[1])
        self.assertEqual(json.loads(told[1]), {'name': '</script><b>', 'many': True, 'unframed': False, 'whole': False, 'lesson': '0: <!-- it begins'})
        self.assertEqual(text.replace(told[1], 'null').replace("; connect-src 'self'", ''), alone)
        self.assertRegex(headers['Content-Security-Policy'], "^default-src 'none'; script-src 'sha256-[^']+' 'wasm-unsafe-eval'; .*; connect-src 'self'; "
                                                             "frame-ancestors 'none'$")
        self.assertIn(headers['Content-Security-Policy'].replace("; frame-ancestors 'none'", ''), text)
        self.assertNotIn('unsafe-inline', headers['Content-Security-Policy'])
        self.assertEqual(self.ask('GET', f'/{self.viewer.token}/style.css')[0], 404)

    def test_the_pickle(self) -> None:
        for data in (SYSTEM, SYSTEM * 200_000, b''):
            self.file.write_bytes(data)
            status, headers, body = self.ask('GET', f'/{self.viewer.token}/pickle')
            self.assertEqual((status, headers['Content-Type'], body), (200, 'application/octet-stream', data))
        self.file.unlink()
        self.assertEqual(self.ask('GET', f'/{self.viewer.token}/pickle')[::2], (404, b'the pickle cannot be read\n'))

    def test_saving(self) -> None:
        path = self.folder / 'saved & more.pickle'
        name = f'save?name={quote(str(path))}'
        self.assertEqual(self.say(f'{name}&over=false', b'N.'), {'said': f'saved {path}'})
        self.assertEqual(path.read_bytes(), b'N.')
        self.assertEqual(self.say(f'{name}&over=false', SYSTEM), {'said': 'not saved: there is such a file', 'failed': True})
        self.assertEqual(path.read_bytes(), b'N.')
        path.chmod(0o640)
        self.assertEqual(self.say(f'{name}&over=true', SYSTEM * 200_000), {'said': f'saved {path}'})
        self.assertEqual((path.read_bytes(), path.stat().st_mode & 0o777), (SYSTEM * 200_000, 0o640))
        for wrong, said in (('', 'not done: a name is wanted'), ('%20', 'not done: a name is wanted'), ('/nowhere/at/all', 'not done: [Errno 2]'), ('a%00', 'not done: '),
                            (quote(f'{self.file} > b'), f'not done: cannot write {self.file} > b: nothing is written into a container')):
            answer = self.say(f'save?name={wrong}', SYSTEM)
            self.assertEqual((answer['said'][:len(said)], answer['failed']), (said, True))
        self.assertEqual(sorted(os.listdir(self.folder)), ['a.pickle', path.name])

    def test_what_is_not_saved_whole(self) -> None:
        """A browser that goes away leaves no file behind."""
        path, token = self.folder / 'half.pickle', self.viewer.token
        host, port = self.viewer.host.split(':')
        for over in ('false', 'true'):
            with socket.create_connection((host, int(port)), 600) as connection:
                connection.sendall(f'POST /{token}/save?name={quote(str(path))}&over={over} HTTP/1.1\r\nHost: {self.viewer.host}\r\n'
                                   f'Origin: http://{self.viewer.host}\r\nContent-Length: 99\r\n\r\nN.'.encode('ascii'))
            self.assertEqual(self.say('alive'), {})
            for _ in range(500):
                if os.listdir(self.folder) == ['a.pickle']:
                    break
                threading.Event().wait(0.02)
            self.assertEqual(os.listdir(self.folder), ['a.pickle'])

    def test_the_container_stays(self) -> None:
        with contextlib.ExitStack() as stack:
            viewer = stack.enter_context(Viewer(Served(b'N.', 'a.zip::a', container=str(self.file))))
            self.viewer, before = viewer, self.viewer
            thread = threading.Thread(target=viewer.serve, daemon=True)
            thread.start()
            answer = self.say(f'save?name={quote(str(self.file))}&over=true', b'N.')
            viewer.stop()
            thread.join()
            self.viewer = before
        self.assertEqual((answer['failed'], self.file.read_bytes()), (True, SYSTEM))

    def test_where_the_bytes_go(self) -> None:
        answer = self.say('sizes?width=300&height=200&many=false&unframed=false', SYSTEM)
        self.assertEqual(answer['heading'], ['25 bytes: 4 objects of 23 bytes, 2 of overhead, protocol 1'])
        self.assertIn('<svg xmlns="http://www.w3.org/2000/svg" viewBox="0 0 300 200"', answer['drawing'])
        for query in ('width=x&height=1', 'width=' + '9' * 5000):
            self.assertTrue(self.say(f'sizes?{query}', SYSTEM)['said'].startswith('not done: '))

    def test_every_answer_has_the_policy_and_own_words(self) -> None:
        token = self.viewer.token
        asked = [(method, path) for method in ('GET', 'HEAD', 'POST', 'PUT', 'DELETE', 'OPTIONS', 'TRACE', 'BURN')
                 for path in ('/', '/x/', f'/{token}/', f'/{token}/other', f'/{token}/pickle', f'/{token}/alive', f'/{token}')]
        answers = [(f'{method} {path}', self.ask(method, path)) for method, path in asked]
        host = f'\r\nHost: {self.viewer.host}\r\n\r\n'.encode('ascii')
        for line in (b'burn', b'GET', b'GET /%s/' % token.encode('ascii'), b'PUT /', b'GET / HTTP/9.9', b'GET / HTTP/x', b'POST / HTTP/1.1 x',
                     b'\xff\0', b'GET /' + b'x' * 70_000, b'GET / HTTP/1.1' + b'\r\na: b' * 200, b'GET / HTTP/1.1\r\na: ' + b'b' * 70_000):
            answers.append((repr(line[:40]), self.raw(line + host)))
        for name, (status, headers, body) in answers:
            with self.subTest(name):
                self.assertTrue(headers['Content-Security-Policy'].startswith("default-src 'none';"))
                self.assertEqual((headers['X-Content-Type-Options'], headers['Cache-Control']), ('nosniff', 'no-store'))
                self.assertIn(status, (200, 400, 403, 404, 414, 431, 501, 505))
                if status != 200:
                    self.assertIn(body, (b'', b'refused\n', b'no such page\n', b'no such question\n', b'no such request\n'))
        statuses = {name: status for name, (status, _, _) in answers}
        self.assertEqual([statuses[f'{method} /x/'] for method in ('GET', 'HEAD', 'POST', 'PUT', 'BURN')], [403] * 5)
        self.assertEqual([statuses[f'{method} /{token}/'] for method in ('GET', 'HEAD', 'POST', 'PUT', 'BURN')], [200, 200, 404, 501, 501])
        self.assertEqual([self.ask('HEAD', f'/{token}/{name}')[2] for name in ('', 'pickle')], [b'', b''])

    def test_without_the_token(self) -> None:
        for path in ('/', '/pickle', '/alive', f'/{self.viewer.token[:-1]}/', f'/{self.viewer.token}', '/x/../pickle', '//', '*', '/?x=/' + self.viewer.token):
            self.assertEqual(self.ask('GET', path)[0], 404 if path == f'/{self.viewer.token}' else 403, path)
            if path != f'/{self.viewer.token}':
                self.assertEqual(self.ask('POST', path)[0], 403, path)

    def test_wrong_host_and_origin(self) -> None:
        path = f'/{self.viewer.token}/alive'
        port = self.viewer.host.split(':')[1]
        for host in ('127.0.0.1', f'localhost:{port}', 'evil.example', f'evil.example:{port}', '', None):
            self.assertEqual(self.ask('POST', path, Host=host)[0], 403, host)
            for name in ('', 'pickle'):
                self.assertEqual(self.ask('GET', f'/{self.viewer.token}/{name}', Host=host, Origin=None)[0], 403, host)
        for origin in ('null', 'http://evil.example', f'https://{self.viewer.host}', f'http://localhost:{port}', '', None):
            self.assertEqual(self.ask('POST', path, Origin=origin)[0], 403, origin)
            if origin is not None:
                self.assertEqual(self.ask('GET', f'/{self.viewer.token}/pickle', Origin=origin)[0], 403, origin)
        self.assertEqual(self.ask('POST', path)[0], 200)

    def test_odd_questions_get_an_answer_and_no_traceback(self) -> None:
        with contextlib.redirect_stderr(io.StringIO()) as told:
            for length in ('9' * 5000, '-1', '+1', '1_0', '', str((1 << 30) + 1)):
                status, _, _ = self.raw(f'POST /{self.viewer.token}/alive HTTP/1.1\r\nHost: {self.viewer.host}\r\nOrigin: http://{self.viewer.host}\r\n'
                                        f'Content-Length: {length}\r\n\r\n'.encode('ascii'))
                self.assertEqual(status, 413)
            self.assertEqual(self.say('alive?' + 'a=b&' * 900), {})
            self.assertEqual(self.say('sizes?width=300&height=300', b'\xff')['heading'][0][:7], '1 byte:')
        self.assertEqual(told.getvalue(), '')

    def test_it_ends_when_its_page_was_closed(self) -> None:
        """And does not wait for pages as long as else."""
        with mock.patch('picklestep.view.server._CLOSED', 0.5):
            self.assertEqual(self.ask('POST', f'/{self.viewer.token}/closed')[0], 200)
        self.thread.join(IDLE - 10)
        self.assertFalse(self.thread.is_alive())

    def test_many_at_a_time(self) -> None:
        said: List[str] = []

        def save(name: str) -> None:
            for _ in range(10):
                said.append(self.say(f'save?name={quote(str(self.folder / name))}&over=true', name.encode() * 100_000)['said'])

        threads = [threading.Thread(target=save, args=(name,)) for name in 'abcd']
        for thread in threads:
            thread.start()
        for thread in threads:
            thread.join()
        self.assertEqual(len([each for each in said if each.startswith('saved ')]), 40)
        self.assertEqual([(self.folder / name).read_bytes() for name in 'abcd'], [name.encode() * 100_000 for name in 'abcd'])


class Running(unittest.TestCase):
    """The command, from its start to its end."""

    def setUp(self) -> None:
        folder = tempfile.TemporaryDirectory()
        self.addCleanup(folder.cleanup)
        self.folder = Path(folder.name)
        self.file = self.folder / 'a.pickle'
        self.file.write_bytes(SYSTEM)

    def start(self, *words: str) -> Tuple['subprocess.Popen[str]', str]:
        """A running server, and its address."""
        # A script that runs the tests in the background ignores interrupts, and a process passes that on to those that it starts.
        before = signal.signal(signal.SIGINT, signal.default_int_handler)
        self.addCleanup(signal.signal, signal.SIGINT, before)
        command = [sys.executable, '-m', 'picklestep', 'view', str(self.file), '--no-browser', *words]
        process = subprocess.Popen(command, cwd=PACKAGE, stdout=subprocess.PIPE, stderr=subprocess.PIPE, text=True)
        assert process.stdout is not None and process.stderr is not None
        self.addCleanup(process.stderr.close)
        self.addCleanup(process.stdout.close)
        self.addCleanup(process.wait)
        self.addCleanup(process.kill)
        return process, process.stdout.readline().strip()

    def children(self, process: int) -> List[str]:
        """The processes below a process."""
        return Path(f'/proc/{process}/task/{process}/children').read_text(encoding='ascii').split()

    def test_nothing_is_left_after_a_signal(self) -> None:
        for number in (signal.SIGINT, signal.SIGTERM, signal.SIGHUP):
            with self.subTest(number):
                self._end_by(number)

    def _end_by(self, number: signal.Signals) -> None:
        """Ends a server by a signal, and looks at what is left."""
        process, address = self.start()
        children = self.children(process.pid)  # (none, where the library keeps the session)
        process.send_signal(number)
        self.assertEqual(process.wait(600), 0)
        assert process.stderr is not None
        self.assertEqual(process.stderr.read(), '')
        self.assertFalse([child for child in children if Path(f'/proc/{child}').exists()])
        with self.assertRaises(OSError):
            http.client.HTTPConnection(urlsplit(address).netloc, timeout=600).request('GET', '/')

    def test_it_ends_where_no_page_is_open(self) -> None:
        process, _ = self.start('--idle', '1')
        self.assertEqual(process.wait(600), 0)

    def test_what_cannot_be_opened(self) -> None:
        with contextlib.redirect_stderr(io.StringIO()) as told:
            self.assertEqual(main([str(self.folder / 'absent'), '--no-browser']), 2)
            self.assertEqual(main([]), 2)
        self.assertIn('picklestep: cannot read', told.getvalue())

    def test_how_long_it_waits(self) -> None:
        for number in ('-1', '0', 'nan', 'inf', 'x', ''):
            with self.subTest(number), contextlib.redirect_stderr(io.StringIO()) as told:
                self.assertEqual(main([str(self.file), f'--idle={number}']), 2)
                self.assertTrue(told.getvalue().endswith(f'error: argument --idle: {number!r} is no number of seconds above 0\n'), told.getvalue())

    def test_an_export_that_cannot_be_written_is_named_as_it_was_given(self) -> None:
        places = [(self.folder / 'none' / 'out.html', errno.ENOENT), (self.folder, errno.EISDIR)]
        places += [(Path('/dev/full'), errno.ENOSPC)] if os.path.exists('/dev/full') else []
        for place, why in places:
            with self.subTest(place), contextlib.redirect_stderr(io.StringIO()) as told:
                self.assertEqual(main([str(self.file), '--export', str(place)]), 2)
                self.assertEqual(told.getvalue(), f'picklestep: cannot write {place}: {os.strerror(why)}\n')
        late = mock.patch('picklestep.view.command.write_report', side_effect=picklestep.TimedOut('it takes too long'))
        with late, contextlib.redirect_stderr(io.StringIO()) as told:
            self.assertEqual(main([str(self.file), '--export', str(self.folder / 'out.html')]), 2)
        self.assertEqual(told.getvalue(), 'picklestep: it takes too long\n')

    def test_export(self) -> None:
        out = self.folder / 'out.html'
        self.assertEqual(main([str(self.file), '--export', str(out)]), 0)
        text = out.read_text(encoding='utf-8')
        for wanted in ("&#x27;posix&#x27; &#x27;system&#x27;", '<a href="#at23">23</a>', 'REDUCE', '6 opcodes, 1 imports, 1 calls'):
            self.assertIn(wanted, text)
        self.assertNotRegex(text, '<script|https?:|unsafe')

    def test_export_asks_before_it_writes_over_a_file(self) -> None:
        out = self.folder / 'out.html'
        out.write_text('mine')
        out.chmod(0o640)
        with contextlib.redirect_stderr(io.StringIO()) as told:
            self.assertEqual(main([str(self.file), '--export', str(out)]), 2)
        self.assertEqual((told.getvalue(), out.read_text()), (f'picklestep: {out} is there; with --force it is written over\n', 'mine'))
        link = self.folder / 'link.html'
        link.symlink_to(out)
        self.assertEqual(main([str(self.file), '--export', str(link), '--force']), 0)
        self.assertTrue(link.is_symlink() and out.read_text().startswith('<!DOCTYPE html>'))
        self.assertEqual((out.stat().st_mode & 0o777, sorted(os.listdir(self.folder))), (0o640, ['a.pickle', 'link.html', 'out.html']))
        self.assertEqual(main([str(self.file), '--export', '/dev/null']), 0)
        self.assertTrue(Path('/dev/null').is_char_device())

    def test_export_leaves_nothing_after_an_error(self) -> None:
        out = self.folder / 'out.html'

        def broken(document: Document, file: Any) -> Tuple[int, int]:
            file.write('half a page')
            raise OSError(28, 'No space left on device')

        for before in ((), ('mine',)):
            for text in before:
                out.write_text(text)
            with mock.patch('picklestep.view.command.write_report', broken), contextlib.redirect_stderr(io.StringIO()):
                self.assertEqual(main([str(self.file), '--export', str(out), '--force']), 2)
            self.assertEqual(sorted(os.listdir(self.folder)), ['a.pickle', *(['out.html'] if before else [])])
        self.assertEqual(out.read_text(), 'mine')

    def test_export_of_several_pickles(self) -> None:
        self.file.write_bytes(SYSTEM + SYSTEM)
        out = self.folder / 'out.html'
        self.assertEqual(main([str(self.file), '--export', str(out)]), 1)
        self.assertIn(f'6 opcodes, 1 imports, 1 calls. kept: {len(SYSTEM)} bytes after STOP; highest protocol among opcodes = 1.', out.read_text())
        self.assertEqual(main([str(self.file), '--many', '--export', str(out), '--force']), 0)
        self.assertIn('12 opcodes, 2 imports, 2 calls.', out.read_text())

    def test_export_puts_texts_in_as_text(self) -> None:
        hostile = self.folder / '<img onerror=alert(1)>.pickle'
        hostile.write_bytes(HOSTILE)
        out = self.folder / 'out.html'
        self.assertEqual(main([str(hostile), '--export', str(out)]), 0)
        text = out.read_text(encoding='utf-8')
        self.assertNotRegex(text, '<(img|script|b>)')
        self.assertEqual(text.count('&lt;/script&gt;&lt;img src=x onerror=alert(1)&gt;'), 3)

    def test_export_says_what_it_leaves_out(self) -> None:
        self.file.write_bytes(b'(' + b'K\x01' * 30_000 + b't.')
        out = self.folder / 'out.html'
        with contextlib.redirect_stderr(io.StringIO()) as told:
            self.assertEqual(main([str(self.file), '--export', str(out)]), 0)
        self.assertIn('the first 20,000 of 30,003 opcodes', told.getvalue())
        text = out.read_text(encoding='utf-8')
        self.assertIn('The first 20,000 of 30,003 are shown.', text)
        self.assertEqual(len(re.findall('<tr id="at', text)), export.MOST)


if __name__ == '__main__':
    unittest.main()
