"""Hides from the package what another system has not. The tests themselves, and Python's own modules, keep it.

An interpreter imports it as it starts where a `.pth` file among its packages says so. PICKLESTEP_LESSER names the system: `windows`, or
`macos`. What the package would call there and Linux has not stands in as its documentation has it.
"""

import builtins
import os
import posixpath
import select
import signal
import subprocess
import sys
import types
from typing import Any, Dict, FrozenSet, Mapping, Optional

_SYSTEM = os.environ.get('PICKLESTEP_LESSER', 'windows')
_ON_WINDOWS = _SYSTEM == 'windows'

# --- What is not there ---

_NO_MODULES = frozenset(('fcntl', 'resource', 'termios', 'tty', 'pty', 'pwd', 'grp', 'syslog')) if _ON_WINDOWS else frozenset()
_NOT_OF_LINUX_ALONE = ('memfd_create', 'MFD_CLOEXEC', 'sched_getaffinity', 'pidfd_open', 'sendfile', 'pipe2', 'posix_fadvise')
_OF_POSIX = (
    'chown', 'chroot', 'confstr', 'ctermid', 'execv', 'execve', 'execvp', 'fchdir', 'fchmod', 'fork', 'forkpty', 'fwalk', 'get_blocking', 'getegid',
    'geteuid', 'getgid', 'getpgid', 'getpriority', 'getuid', 'kill', 'killpg', 'mkfifo', 'mknod', 'nice', 'openpty', 'posix_spawn', 'pread', 'preadv',
    'pwrite', 'pwritev', 'readv', 'register_at_fork', 'sched_yield', 'set_blocking', 'setpgid', 'setsid', 'statvfs', 'sync', 'sysconf',
    'tcsetpgrp', 'ttyname', 'uname', 'wait', 'wait3', 'wait4', 'waitid', 'writev', 'EX_OK', 'WNOHANG', 'WEXITSTATUS',
    'O_ASYNC', 'O_CLOEXEC', 'O_DIRECTORY', 'O_NOCTTY', 'O_NOFOLLOW', 'O_NONBLOCK', 'O_SYNC', 'O_PATH', 'O_TMPFILE',
)
# (Windows has execv and kill: the first comes back to the shell at once, and the second ends a process whatever the signal.)
_NO_SIGNALS = tuple(name for name in dir(signal) if name.startswith('SIG') and name not in
                    ('SIGABRT', 'SIGFPE', 'SIGILL', 'SIGINT', 'SIGSEGV', 'SIGTERM', 'SIG_DFL', 'SIG_IGN'))
_OF_SIGNALS = (*_NO_SIGNALS, 'alarm', 'pause', 'pthread_kill', 'pthread_sigmask', 'setitimer', 'siginterrupt', 'sigwait', 'SIG_BLOCK',
               'SIG_SETMASK', 'SIG_UNBLOCK')
# Folders whose files are those of Linux.
_NO_FOLDERS = ('/proc', '/dev/shm', '/dev/fd') if _ON_WINDOWS else ('/proc', '/dev/shm')


class _Lesser(types.ModuleType):
    """A module as another system has it: the names of a set are not there, and others are what stands in for them."""

    def __init__(self, module: types.ModuleType, hidden: FrozenSet[str], others: Mapping[str, Any]) -> None:
        super().__init__(module.__name__, module.__doc__)
        self.__dict__.update(_module=module, _hidden=hidden, _others=dict(others))
        for name in ('__file__', '__spec__', '__path__', '__loader__', '__package__'):
            self.__dict__.pop(name, None)

    def __getattr__(self, name: str) -> Any:
        own = self.__dict__
        if name in own['_hidden']:
            raise AttributeError(f'{own["_module"].__name__}.{name} is hidden')
        return own['_others'][name] if name in own['_others'] else getattr(own['_module'], name)

    def __setattr__(self, name: str, value: Any) -> None:
        """(A test may put something else there for a while.)"""
        if name in self.__dict__['_others']:
            self.__dict__[name] = value
        else:
            setattr(self.__dict__['_module'], name, value)

    def __delattr__(self, name: str) -> None:
        if name in self.__dict__:
            del self.__dict__[name]
        else:
            delattr(self.__dict__['_module'], name)


def _is_hidden(path: object) -> bool:
    """Whether a path is that of a folder that is not there, or of what is in it."""
    return isinstance(path, str) and any(path == folder or path.startswith(f'{folder}/') for folder in _NO_FOLDERS)


def _lesser_path() -> _Lesser:
    def unless(function: Any) -> Any:
        return lambda path: not _is_hidden(path) and function(path)
    return _Lesser(posixpath, frozenset(), {name: unless(getattr(posixpath, name)) for name in ('exists', 'isdir', 'isfile', 'lexists')})


def _without_folders(function: Any) -> Any:
    def opened(path: Any, *words: Any, **named: Any) -> Any:
        if _is_hidden(path):
            raise FileNotFoundError(2, 'hidden', path)
        return function(path, *words, **named)
    return opened


# --- What stands in for Windows ---

def _refuse_open(path: Any) -> None:
    """Refuses, as Windows does, to replace or to remove a file that this process has open."""
    if os.path.isfile(path) and any(os.path.realpath(f'/proc/self/fd/{file}') == os.path.realpath(path) for file in os.listdir('/proc/self/fd')):
        raise PermissionError(13, 'it is open', path)


def _unless_open(function: Any) -> Any:
    def done(path: Any, *words: Any, **named: Any) -> Any:
        for each in (path, *words):
            _refuse_open(each)
        return function(path, *words, **named)
    return done


class _Startup:
    """subprocess.STARTUPINFO: handles that a child inherits."""

    def __init__(self, lpAttributeList: Optional[Dict[str, Any]] = None) -> None:
        self.lpAttributeList = lpAttributeList or {}


class _Popen(subprocess.Popen):  # type: ignore[type-arg]
    """A process as Windows starts it: it inherits handles by its STARTUPINFO, and nothing by `pass_fds`."""

    def __init__(self, command: Any, *words: Any, pass_fds: Any = (), startupinfo: Optional[_Startup] = None, creationflags: int = 0,
                 preexec_fn: Any = None, **named: Any) -> None:
        if pass_fds or preexec_fn is not None:
            raise ValueError('pass_fds and preexec_fn are not supported on Windows platforms')
        if not isinstance(command, str) and str(command[0]).startswith(('/bin/', '/usr/bin/env')):
            raise FileNotFoundError(2, 'hidden', command[0])
        if '--save' in command:
            _refuse_open(command[command.index('--save') + 1])
        handles = startupinfo.lpAttributeList.get('handle_list', []) if startupinfo is not None else []
        # (A group of its own gets no Ctrl-C; here that is one without a terminal.)
        super().__init__(command, *words, pass_fds=handles, start_new_session=bool(creationflags & _WINDOWS['CREATE_NEW_PROCESS_GROUP']), **named)


_WINDOWS: Dict[str, Any] = {'STARTUPINFO': _Startup, 'Popen': _Popen, 'CREATE_NEW_PROCESS_GROUP': 512}

_MODULES: Dict[str, _Lesser] = {
    'os': _Lesser(os, frozenset((*_NOT_OF_LINUX_ALONE, *(_OF_POSIX if _ON_WINDOWS else ()))),
                  {'path': _lesser_path(), 'readlink': _without_folders(os.readlink), 'open': _without_folders(os.open),
                   **({name: _unless_open(getattr(os, name)) for name in ('remove', 'rename', 'replace', 'unlink')} if _ON_WINDOWS else {}),
                   **({'name': 'nt', 'O_BINARY': 0, 'O_NOINHERIT': 0, 'set_handle_inheritable': lambda handle, inheritable: None}
                      if _ON_WINDOWS else {})}),
    'select': _Lesser(select, frozenset(('poll', 'epoll', 'kqueue') if _ON_WINDOWS else ('epoll',)), {}),
    'signal': _Lesser(signal, frozenset(_OF_SIGNALS if _ON_WINDOWS else ()), {}),
    'subprocess': _Lesser(subprocess, frozenset(), _WINDOWS if _ON_WINDOWS else {}),
}
if _ON_WINDOWS:
    import mmap
    import socket
    _MODULES['mmap'] = _Lesser(mmap, frozenset(name for name in dir(mmap) if name.startswith(('MAP_', 'MADV_', 'PROT_'))), {})
    _MODULES['socket'] = _Lesser(socket, frozenset(('AF_UNIX', 'socketpair', 'send_fds', 'recv_fds')), {})
else:
    import fcntl
    import resource
    _MODULES['fcntl'] = _Lesser(fcntl, frozenset(('F_SETSIG', 'F_GETSIG', 'F_SETPIPE_SZ', 'F_GETPIPE_SZ', 'F_NOTIFY')), {})
    _MODULES['resource'] = _Lesser(resource, frozenset(('prlimit',)), {})


# --- How the package is given it ---

_import, _open = builtins.__import__, builtins.open


def _is_of_package(scope: Optional[Mapping[str, Any]]) -> bool:
    """Whether the code of a module is the package's. (A script of it is called `__main__`.)"""
    name = str((scope or {}).get('__name__'))
    if name == '__main__':
        return f'{os.sep}picklestep{os.sep}' in str((scope or {}).get('__file__'))
    return name.split('.')[0] == 'picklestep'


def _lesser_import(name: str, into: Optional[Mapping[str, Any]] = None, *others: Any, **more: Any) -> Any:
    if _is_of_package(into):
        if name in _NO_MODULES:
            raise ImportError(f'{name} is hidden')
        if name in _MODULES:
            return _MODULES[name]
        if name == 'os.path':
            return _MODULES['os'].path
    return _import(name, into, *others, **more)


def _lesser_open(path: Any, *words: Any, **named: Any) -> Any:
    if _is_hidden(path) and _is_of_package(sys._getframe(1).f_globals):
        raise FileNotFoundError(2, 'hidden', path)
    return _open(path, *words, **named)


builtins.__import__ = _lesser_import
builtins.open = _lesser_open  # type: ignore[assignment]
