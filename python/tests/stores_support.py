"""What the tests of stores share: an interpreter that has the libraries, and servers that run for one test on the loopback alone."""

from __future__ import annotations

import os
import pwd
import re
import shutil
import signal
import socket
import subprocess
import sys
import tempfile
import time
import unittest
from pathlib import Path
from typing import Any, Callable, Dict, List, Optional

from scan_support import ScanCase, environment

FILL = Path(__file__).resolve().parent / 'fill_stores.py'
# What is done with a marked import has a line of its own.
_DONE = re.compile(r': (call|new|inst|state|append|set|add|persistent id) ')
# A password that must be in no output.
SECRET = 'a-secret'


def python_with(*modules: str) -> str:
    """An interpreter that has all these modules: the one that runs the tests, or the system's. Skips the test where there is none."""
    for python in (sys.executable, '/usr/bin/python3'):
        if os.path.exists(python) and subprocess.run([python, '-c', f'import {", ".join(modules)}'], capture_output=True).returncode == 0:
            return python
    raise unittest.SkipTest(f'there is no {" or no ".join(modules)} for Python')


def program(*names: str) -> str:
    """The path of a server's program. Skips the test where it is not installed."""
    places = os.pathsep.join([os.environ['PATH'], '/usr/sbin', *map(str, Path('/usr/lib/postgresql').glob('*/bin'))])
    for name in names:
        found = shutil.which(name, path=places)
        if found is not None:
            return found
    raise unittest.SkipTest(f'{names[0]} is not installed')


def free_port() -> int:
    """A port of the loopback that nobody has."""
    with socket.socket() as probe:
        probe.bind(('127.0.0.1', 0))
        port: int = probe.getsockname()[1]
        return port


class StoreCase(ScanCase):
    """A test with a folder of its own, servers of its own, and libraries that fill stores."""

    def fill(self, python: str, name: str, *words: str) -> None:
        """Fills a store by a library."""
        done = subprocess.run([python, str(FILL), name, *words], cwd=self.folder, capture_output=True, text=True, timeout=600)
        self.assertEqual((done.returncode, done.stderr[-2000:] if done.returncode else ''), (0, ''))

    def told(self, *words: str, python: str = sys.executable, **variables: str) -> List[str]:
        """The lines of `scan --brief` that are marked: each import is, by a list without a name. No traceback, and no password, is in what
        it writes."""
        run = subprocess.run([python, '-m', 'picklestep', 'scan', '--brief', '--allow', os.devnull, *words], cwd=self.folder, capture_output=True,
                             text=True, errors='surrogateescape', timeout=600, env={**environment(), **variables})
        self.assertNotIn('Traceback', run.stderr)
        self.assertNotIn(SECRET, run.stdout + run.stderr)
        lines = run.stdout.splitlines()
        found = [line for line in lines if line.startswith('! ') and ': import ' in line or ': cannot be read' in line or self.is_note(line)]
        self.assertIn(run.returncode, (1, 3) if found else (0,), run.stdout[-2000:] + run.stderr[-2000:])
        return found

    @staticmethod
    def is_note(line: str) -> bool:
        """Whether a line with a place says that something was not looked at."""
        return line.startswith('! ') and ': ' in line and ', in ' not in line and _DONE.search(line) is None

    # --- Servers ---

    def start(self, words: List[str], user: Optional[str] = None, end: int = signal.SIGKILL) -> 'subprocess.Popen[bytes]':
        """Starts a server, which is ended after the test by a signal. (Nobody wants its data.) As root it runs as another user, since some
        refuse to be root."""
        more: Dict[str, Any] = {'user': user, 'group': pwd.getpwnam(user).pw_gid} if user is not None else {}
        log = open(self.folder / 'server.log', 'ab')
        self.addCleanup(log.close)
        process = subprocess.Popen(words, cwd=self.home, stdin=subprocess.DEVNULL, stdout=log, stderr=log, **more)

        def stop() -> None:
            process.send_signal(end)
            try:
                process.wait(60)
            except subprocess.TimeoutExpired:
                process.kill()
                process.wait()
        self.addCleanup(stop)
        return process

    def setUp(self) -> None:
        super().setUp()
        held = tempfile.TemporaryDirectory()
        self.addCleanup(held.cleanup)
        self.home = Path(held.name)

    def user_for(self, name: str) -> Optional[str]:
        """The user that a server runs as, who owns the server's folder: another one where the tests run as root."""
        if os.getuid():
            return None
        try:
            user = pwd.getpwnam(name)
        except KeyError:
            raise unittest.SkipTest(f'there is no user {name}') from None
        os.chown(self.home, user.pw_uid, user.pw_gid)
        return name

    def wait_for_port(self, port: int, is_ready: Callable[[], bool] = lambda: True) -> None:
        """Waits until the server answers, ten minutes at most, and no longer than it runs."""
        end = time.monotonic() + 600
        while True:
            has_ended = self.server.poll() is not None
            try:
                socket.create_connection(('127.0.0.1', port), 1).close()
                if is_ready():
                    return
                raise OSError
            except OSError:
                log = (self.folder / 'server.log').read_text(errors='replace')[-1000:]
                self.assertFalse(has_ended, f'the server ended: {log}')
                self.assertLess(time.monotonic(), end, log)
                time.sleep(0.05)

    def certify(self) -> Path:
        """The certificate of an authority, which nobody knows. Beside it is that of a server `localhost` with its key."""
        def openssl(*words: str) -> None:
            subprocess.run([program('openssl'), *words], cwd=self.home, check=True, capture_output=True)
        new = ['-newkey', 'ec', '-pkeyopt', 'ec_paramgen_curve:prime256v1', '-nodes']
        (self.home / 'names').write_text('subjectAltName=DNS:localhost\n')
        openssl('req', '-x509', *new, '-days', '2', '-subj', '/CN=an authority', '-keyout', 'ca.key', '-out', 'ca.pem')
        openssl('req', *new, '-subj', '/CN=localhost', '-keyout', 'server.key', '-out', 'server.csr')
        openssl('x509', '-req', '-in', 'server.csr', '-CA', 'ca.pem', '-CAkey', 'ca.key', '-CAcreateserial', '-days', '2', '-extfile', 'names',
                '-out', 'server.pem')
        for name in ('server.key', 'server.pem'):
            (self.home / name).chmod(0o600)
            if not os.getuid():
                shutil.chown(self.home / name, self.home.owner(), self.home.group())
        return Path(shutil.copy(self.home / 'ca.pem', self.folder))

    def redis(self, port: int = 0, *words: str) -> int:
        """The port of a Redis server, whose password is SECRET."""
        port = port or free_port()
        self.server = self.start([program('redis-server'), '--port', str(port), '--bind', '127.0.0.1', '--dir', str(self.home), '--save', '',
                                  '--requirepass', SECRET, *words])
        self.wait_for_port(port)
        return port

    def memcached(self, *words: str, tls: bool = True) -> int:
        """The port of a memcached server. With words for TLS it has another for that."""
        port = free_port()
        first = [program('memcached'), '-l', f'{"notls:" if words and tls else ""}127.0.0.1:{port}', '-U', '0', '-m', '400', '-I', '8m']
        self.server = self.start([*first, *words, *([] if os.getuid() else ['-u', 'root' if words else 'nobody'])])
        self.wait_for_port(port)
        return port

    def postgresql(self, tls: bool = False, encoding: str = 'UTF8') -> int:
        """The port of a PostgreSQL server with a user `tester`, whose password is SECRET. With `tls` it wants that, and has a certificate."""
        port, user = free_port(), self.user_for('postgres')
        given = self.home / 'given'
        given.write_text(SECRET)
        given.chmod(0o644)
        more: Dict[str, Any] = {'user': user, 'group': pwd.getpwnam(user).pw_gid} if user is not None else {}
        subprocess.run([program('initdb'), '-D', str(self.home / 'data'), '-U', 'tester', '--auth=scram-sha-256', f'--pwfile={given}', '--no-sync',
                        '--locale=C', f'--encoding={encoding}'],
                       cwd=self.home, check=True, capture_output=True, **more)
        words: List[str] = []
        if tls:
            self.certify()
            (self.home / 'data' / 'pg_hba.conf').write_text('hostssl all all 127.0.0.1/32 scram-sha-256\n')
            words = ['-c', 'ssl=on', '-c', f'ssl_cert_file={self.home}/server.pem', '-c', f'ssl_key_file={self.home}/server.key']
        # (it takes connections before it is ready, and refuses them then)
        asks = [program('pg_isready'), '-q', '-h', '127.0.0.1', '-p', str(port)]
        self.server = self.start([program('postgres'), '-D', str(self.home / 'data'), '-p', str(port), '-h', '127.0.0.1', '-k', str(self.home),
                                  '-F', *words], user, signal.SIGQUIT)
        self.wait_for_port(port, lambda: subprocess.run(asks, check=False).returncode == 0)
        return port

    def mysql(self, tls: bool = False) -> int:
        """The port of a MariaDB server, whose root comes by the socket `s` without a password."""
        port, user = free_port(), self.user_for('mysql')
        more: Dict[str, Any] = {'user': user, 'group': pwd.getpwnam(user).pw_gid} if user is not None else {}
        subprocess.run([program('mariadb-install-db'), '--no-defaults', f'--datadir={self.home}/data', '--auth-root-authentication-method=normal',
                        '--skip-test-db'], cwd=self.home, check=True, capture_output=True, **more)
        words: List[str] = []
        if tls:
            self.certify()
            words = [f'--ssl-cert={self.home}/server.pem', f'--ssl-key={self.home}/server.key', '--require-secure-transport=ON']
        self.server = self.start([program('mariadbd'), '--no-defaults', f'--datadir={self.home}/data', f'--tmpdir={self.home}', f'--port={port}',
                                  '--bind-address=127.0.0.1', f'--socket={self.home}/s', '--max-allowed-packet=64M', *words], user)
        self.wait_for_port(port)
        return port
