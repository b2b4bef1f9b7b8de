"""Where the proved program is. This imports only what an interpreter has loaded when it starts, since the entrance uses it."""

import os

__all__ = ['NOT_FOR_NODE', 'commit', 'files_of', 'find_library', 'find_program', 'is_module', 'node_path', 'on_path', 'program_words', 'toolchain_of']

_HERE = os.path.dirname(os.path.realpath(__file__))
# The released programs, by the system and the machine that each is for.
_FOLDERS = {('Linux', 'x86_64'): 'linux-x86_64-static', ('Linux', 'aarch64'): 'linux-aarch64'}
# Among the released programs, the folder that has the name of the toolchain that built all of them.
_BUILT = 'linux-x86_64'
# What runs on any machine where there is Node: it starts the module, which lies beside it.
_MODULE = 'picklestep.mjs'
_STARTED = 'picklestep.wasm'
_LIBRARY = 'libpicklestep.so'
_MODULE_OF_LIBRARY = 'libpicklestep.wasm'
# What Node does not get of the environment: certificates, which it reads longer than all the rest of its start takes, and options, with which
# it may end before the module begins. (help/start.sh has them too.)
NOT_FOR_NODE = ('NODE_EXTRA_CA_CERTS', 'NODE_OPTIONS')


def find_program() -> str:
    """The path of the program: PICKLESTEP_PROGRAM, else the package's own copy, else that of the source tree.

    There it is the newer one of the program that was built and of the released one for this machine. Where there is none it is the start of
    the module, if Node is there to run it. Raises ProgramError where nothing runs on this machine.
    """
    named = os.environ.get('PICKLESTEP_PROGRAM')
    if named:
        return named
    root = os.path.dirname(os.path.dirname(_HERE))
    dist = os.path.join(root, 'dist')
    machine = _machine()
    released = [os.path.join(dist, _FOLDERS[machine], 'picklestep')] if machine in _FOLDERS else []
    built = os.path.join(root, 'crates', 'picklestep', 'out', 'picklestep')
    in_tree = sorted(filter(os.path.isfile, [*released, built]), key=os.path.getmtime, reverse=True)
    for path in (os.path.join(_HERE, 'bin', 'picklestep'), *in_tree):
        if os.path.isfile(path):
            return path
    for path in (os.path.join(_HERE, 'bin', _MODULE), os.path.join(dist, _MODULE)):
        if os.path.isfile(path) and program_words(path):
            return path
    raise _no_program('build it by ./build in a clone, or set PICKLESTEP_PROGRAM to its path')


def program_words(program: str) -> 'list[str]':
    """The words that start a program: where it is the module, Node starts it. Raises ProgramError where Node is not there."""
    if not is_module(program):
        return [program]
    node = node_path()
    if node is None:
        raise _no_program('its module runs with Node 20 or later on the path (https://nodejs.org)')
    return [node, program]


def _no_program(way: str) -> Exception:
    """That nothing runs on this machine, and what to do."""
    from .errors import ProgramError
    return ProgramError(f'there is no program for this machine ({" ".join(_machine())}): {way}')


def files_of(program: str) -> 'list[str]':
    """The files that a program is: where it is the module, its start and the module itself."""
    return [program, os.path.join(os.path.dirname(program), _STARTED)] if is_module(program) else [program]


def is_module(program: str) -> bool:
    """Whether a program is the module, which Node starts."""
    return program.endswith('.mjs')


def find_library(program: str) -> 'str | None':
    """The path of the library that was made with a program: beside it in the package, in a folder of its own among the released ones."""
    folder = os.path.dirname(os.path.realpath(program))
    if is_module(program):
        path = os.path.join(folder, _MODULE_OF_LIBRARY)
        return path if os.path.isfile(path) else None
    machine = os.path.basename(folder).replace('-static', '')
    for path in (os.path.join(folder, _LIBRARY), os.path.join(os.path.dirname(folder), f'{machine}-library', 'lib', _LIBRARY)):
        if os.path.isfile(path):
            return path
    return None


def _machine() -> 'tuple[str, str]':
    """The system and the machine, as uname says them."""
    if not hasattr(os, 'uname'):
        return 'Windows', os.environ.get('PROCESSOR_ARCHITECTURE', 'unknown')
    machine = os.uname()
    return machine.sysname, machine.machine


def node_path() -> 'str | None':
    """Where Node is, if it is on the path."""
    return on_path('node')


def on_path(name: str) -> 'str | None':
    """Where a command is, if it is on the path. (Windows would take one of the current folder first.)"""
    if os.name == 'nt':
        name += '.exe'
    for folder in os.environ.get('PATH', os.defpath).split(os.pathsep):
        path = os.path.join(folder, name)
        if os.path.isabs(path) and os.access(path, os.X_OK):
            return path
    return None


def commit() -> str:
    """The commit that this copy is of: what ./install or the wheel wrote, in a clone what git says. Empty where neither is known."""
    try:
        with open(os.path.join(_HERE, 'bin', 'COMMIT'), encoding='utf-8') as file:
            return file.read().strip()
    except OSError:
        pass
    root = os.path.dirname(os.path.dirname(_HERE))
    git = on_path('git')
    # (A copy may lie in another project's repository.)
    if git is None or not all(os.path.exists(os.path.join(root, name)) for name in ('.git', 'crates.txt')):
        return ''
    import subprocess
    asked = subprocess.run([git, '-C', root, 'rev-parse', '--short', 'HEAD'], stdin=subprocess.DEVNULL, capture_output=True, check=False)
    return asked.stdout.decode('ascii', 'replace').strip() if asked.returncode == 0 else ''


def toolchain_of(program: str) -> str:
    """The toolchain that built a program, as a file next to it says, or one among the released programs."""
    folder = os.path.dirname(os.path.realpath(program))
    for near in (folder, os.path.join(folder, _BUILT), os.path.join(os.path.dirname(folder), _BUILT)):
        try:
            with open(os.path.join(near, 'TOOLCHAIN'), encoding='utf-8') as file:
                return file.read().strip()
        except OSError:
            pass
    return 'not known'
