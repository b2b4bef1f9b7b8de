"""Makes the programs that users start, from the crates that `./build` has proved and built:

    python3 targets/make.py FOLDER

FOLDER gets linux-x86_64-static/picklestep (musl, static), linux-aarch64/picklestep (glibc, static), picklestep.wasm, picklestep.mjs and
picklestep.html (page.py); the library for both (linux-MACHINE-library) and as a module without imports (libpicklestep.wasm); TOOLS, the
versions of what made them, and SHA256SUMS over all. Status 2 and a sentence where a tool is missing or has another version than the one that the released sums
were made with: equipment/install_targets installs them.

Rattle hands clang one LLVM module for the program and one for the library. They are kept here, and compiled for each machine: a module
names no machine, has 64-bit pointers and lays all out by offsets of bytes.
"""

from __future__ import annotations

import functools
import hashlib
import os
import re
import shutil
import subprocess
import sys
import tempfile
from concurrent.futures import ThreadPoolExecutor
from dataclasses import dataclass
from pathlib import Path

import page

HERE = Path(__file__).resolve().parent
ROOT = HERE.parent
KIT = Path('/opt/rattle')
CLANG = KIT / 'toolchain/bin/clang'
LINKER = KIT / 'toolchain/bin/ld.lld'
ARCHIVER = KIT / 'toolchain/bin/llvm-ar'
MUSL = Path('/usr/lib/x86_64-linux-musl')
MUSL_HEADERS = Path('/usr/include/x86_64-linux-musl')
ARM_HEADERS = Path('/usr/aarch64-linux-gnu/include')
# Debian's packages that put bytes into what is made, and their versions.
PACKAGES = {
    'musl-dev': '1.2.3-1',
    'binaryen': '108-1',
    'gcc-12-aarch64-linux-gnu': '12.2.0-14cross1',
    'libgcc-12-dev-arm64-cross': '12.2.0-14cross1',
    'libc6-dev-arm64-cross': '2.36-8cross1',
    'binutils-aarch64-linux-gnu': '2.40-2',
}
# What rattle itself gives clang for a module.
COMPILE = ['-O3', '-ffunction-sections', '-fdata-sections', '-mllvm', '-trap-unreachable', '-mllvm', '-disable-machine-licm', '-mllvm',
           '-disable-postra-machine-licm', '-mllvm', '-sink-common-insts=false', '-Werror']
FEATURES = ['-mcpu=mvp', '-mbulk-memory', '-mbulk-memory-opt', '-msign-ext', '-mnontrapping-fptoint', '-mmutable-globals']
LOWERING = ['--enable-memory64', '--enable-bulk-memory', '--enable-sign-ext', '--enable-nontrapping-float-to-int', '--enable-mutable-globals',
            '--memory64-lowering']
# What is written shorter, so that it is smaller and sooner compiled. No function is put into another: an engine makes a loop better only where
# its function is called again (picklestep.mjs).
SHORTER = ['-O3', '--always-inline-max-function-size=0', '--flexible-inline-max-function-size=0', '--one-caller-inline-max-function-size=0']
X86, ARM, WASM = 'x86_64-unknown-linux-gnu', 'aarch64-unknown-linux-gnu', 'wasm64-unknown-unknown'
# What clang cannot do by itself for a 64-bit module.
EXPANDED = ['-mllvm', '-expand-div-rem-bits=64', '-mllvm', '-expand-fp-convert-bits=64']
PROGRAMS = ('linux-x86_64-static/picklestep', 'linux-aarch64/picklestep', 'picklestep.wasm', 'libpicklestep.wasm', 'picklestep.mjs', page.NAME)
LIBRARIES = {X86: 'linux-x86_64-library', ARM: 'linux-aarch64-library'}
PARTS = ('include/picklestep.h', 'lib/libpicklestep.a', 'lib/libpicklestep.so', 'lib/pkgconfig/picklestep.pc')
TOOLS = 'TOOLS'
MADE = (*PROGRAMS, *(f'{folder}/{part}' for folder in LIBRARIES.values() for part in PARTS), TOOLS)
# What a crate is to rattle: its row of crates.txt, its root file, and words.
CRATES = {'picklestep': ('picklestep:', 'src/main.rt', []),
          'picklestep_library': ('picklestep_library staticlib:', 'src/lib.rt', ['--crate-type', 'staticlib'])}
# The crate that only the library uses.
BESIDE = 'library_answers'
# The keeper stands in for clang while rattle builds. The object file that rattle asks it for is used by nobody, so it is an empty one: to
# compile the module would take as long as for a target.
KEEPER = """#!/bin/bash
[ -f module.bc ] || exec {clang} "$@"
cp -- module.bc '{kept}' && exec {clang} --no-default-config --target={target} -c -x c /dev/null -o module.o
"""


class Fault(Exception):
    """Why nothing was made, in a sentence."""


def run(*words: 'str | Path', at: Path | None = None) -> str:
    done = subprocess.run([str(word) for word in words], cwd=at, capture_output=True, check=False, env={**os.environ, 'LC_ALL': 'C'})
    if done.returncode != 0:
        said = (done.stderr + done.stdout).decode(errors='replace').strip().splitlines()
        raise Fault(f'{Path(str(words[0])).name} fails: {said[-1] if said else done.returncode}')
    return done.stdout.decode()


def installed(package: str) -> str:
    """The version of a package of Debian that is installed, or nothing."""
    if shutil.which('dpkg-query') is None:
        return ''
    asked = subprocess.run(['dpkg-query', '-W', '-f', '${Version}', package], capture_output=True, text=True, check=False)
    return asked.stdout if asked.returncode == 0 else ''


def check_tools() -> str:
    """The versions of the packages, a line each. (That of the toolchain stands beside the first program.) Another version is told before
    one that is missing: it makes other programs."""
    found = {name: installed(name) for name in PACKAGES}
    for name, wanted in PACKAGES.items():
        if found[name] not in ('', wanted):
            raise Fault(f"Debian's {name} is {found[name]}, and the released sums are of {wanted}: run equipment/install_targets")
    for name, wanted in PACKAGES.items():
        if not found[name]:
            raise Fault(f"Debian's {name} {wanted} is not installed: run equipment/install_targets")
    if not CLANG.exists():
        raise Fault(f'the toolchain is not in {KIT}')
    return ''.join(f'{name} {version}\n' for name, version in PACKAGES.items())


def libraries(row: str) -> list[str]:
    """What rattle is told of the crates that a crate uses, as rt tells it."""
    line = next(line for line in (ROOT / 'crates.txt').read_text().splitlines() if line.startswith(row))
    words: list[str] = []
    for name in ['std', *line[len(row):].split()]:
        own = ROOT / 'crates' / name / 'out/rlib'
        if (ROOT / 'crates' / name).is_dir():
            words += ['--extern', f'{name}={own}/{name}.rlib', '-L', f'dependency={own}']
        else:
            words += ['--extern', f'{name}={KIT}/rlibs/{name}.rlib']
    for own in sorted((ROOT / 'crates').glob('*/out/rlib')):
        if f'dependency={own}' not in words:
            words += ['-L', f'dependency={own}']
    return words


def build_beside() -> None:
    """Proves and builds what `./build` does not. What `rt ci` built is of the sources as they are, and it leaves no stamp."""
    own = ROOT / 'crates' / BESIDE / 'out/rlib'
    if (own / 'stamp').exists() or not (own / f'{BESIDE}.rlib').exists():
        run(KIT / 'bin/rt', 'lib', at=ROOT / 'crates' / BESIDE)


def keep_module(crate: str, folder: Path) -> Path:
    """The LLVM module of a crate, which is proved here where it is not yet. It is for a plain x86-64 processor: for a newer one a program
    would ask the processor at its start."""
    row, root, words = CRATES[crate]
    tools = folder / crate / 'tools'
    (tools / 'bin').mkdir(parents=True)
    (tools / 'lib').symlink_to(KIT / 'toolchain/lib')
    for name in ('ld.lld', 'llvm-ar', 'rattle-x64'):
        (tools / 'bin' / name).symlink_to(KIT / 'toolchain/bin' / name)
    module = folder / crate / 'module.bc'
    clang = tools / 'bin/clang'
    clang.write_text(KEEPER.format(kept=module, clang=CLANG, target=X86))
    clang.chmod(0o755)
    (ROOT / 'crates' / crate / 'out').mkdir(exist_ok=True)
    run(KIT / 'bin/rattle', 'build', '--crate-name', crate, root, *words, *libraries(row), '-L', f'dependency={KIT}/rlibs',
        '--antt-project', KIT / 'rattle/logic/antt-project.json', '--logic-built', KIT / 'logic_built', '--incremental', 'out/incremental',
        '--links', f'{crate}=', '--toolchain', tools, '--cpu', 'x86-64', '-o', folder / crate / 'made', at=ROOT / 'crates' / crate)
    if not module.exists():
        raise Fault('rattle handed clang no module')
    return module


@dataclass
class Maker:
    folder: Path
    program: Path  # the modules as text, without the names of a processor
    library: Path

    def compile(self, module: Path, target: str, *flags: str) -> Path:
        """The object file of a module for a target."""
        made = self.folder / f'{target}-{module.stem}.o'
        run(CLANG, '--no-default-config', f'--target={target}', '-Wno-override-module', *COMPILE, *flags, '-c', '-x', 'ir', module, '-o', made)
        return made

    def compile_c(self, target: str, name: str, *flags: 'str | Path', use: str = 'c') -> Path:
        """The object file of a file of ours. (Two uses of a file are compiled side by side.)"""
        made = self.folder / f'{target}-{use}-{name}.o'
        run(CLANG, '--no-default-config', f'--target={target}', '-O3', '-fno-stack-protector', '-fno-builtin', '-ffile-prefix-map=/=', *flags,
            '-c', HERE / 'c' / f'{name}.c', '-o', made)
        return made

    def headers(self, target: str) -> 'list[str | Path]':
        """Where the headers of the C library are, and stddef.h and the like, which are the compiler's."""
        own = run('gcc', '-print-file-name=include').strip()
        return ['-nostdinc', '-isystem', MUSL_HEADERS if target == X86 else ARM_HEADERS, '-isystem', own]

    def make_static(self, to: Path) -> None:
        program = self.compile(self.program, X86, '-mcmodel=small')
        others = [self.compile_c(X86, name, *self.headers(X86), '-ffunction-sections') for name in ('start', 'musl', 'heap', 'blocks')]
        run(LINKER, '-flavor', 'gnu', '-static', '-z', 'noexecstack', '--gc-sections', '--strip-all', '--wrap=main', '-o', to, MUSL / 'crt1.o',
            MUSL / 'crti.o', program, *others, MUSL / 'libc.a', MUSL / 'crtn.o')

    def make_arm(self, to: Path) -> None:
        program = self.compile(self.program, ARM)
        others = [self.compile_c(ARM, name, *self.headers(ARM)) for name in ('start', 'heap')]
        run('aarch64-linux-gnu-gcc-12', '-static', '-Wl,--gc-sections,--strip-all,--build-id=none', '-o', to, program, *others)

    def make_wasm(self, to: Path) -> None:
        self.link_wasm(self.program, ('wasi', 'heap', 'products'), to)

    def make_library_wasm(self, to: Path) -> None:
        self.link_wasm(self.library, ('exports', 'heap', 'products'), to, *(f'--export={name}' for name in functions()))

    def link_wasm(self, module: Path, names: tuple[str, ...], to: Path, *exports: str) -> None:
        objects = [self.compile(module, WASM, *FEATURES, *EXPANDED)]
        objects += [self.compile_c(WASM, name, *FEATURES, '-ffreestanding', use=module.stem) for name in names]
        linked, bare = (self.folder / f'{module.stem}-{word}.wasm' for word in ('linked', 'bare'))
        run(LINKER, '-flavor', 'wasm', '-m', 'wasm64', '--no-entry', '--gc-sections', '--strip-all', '--stack-first', '-z', 'stack-size=1048576',
            *exports, *objects, '-o', linked)
        bare.write_bytes(without_table(linked.read_bytes()))
        run('wasm-opt', *LOWERING, *SHORTER, bare, '-o', to)

    def make_library(self, target: str, to: Path) -> None:
        """The library with what a C compiler needs of it. It names no C library: what it calls of one, the process has."""
        for part in PARTS:
            (to / part).parent.mkdir(parents=True, exist_ok=True)
        # (With a section for each function the archive would be a fifth larger, and a program that links one function 110 KB smaller.)
        objects = [self.compile(self.library, target, '-fPIC', '-fno-function-sections', '-fno-data-sections'),
                   self.compile_c(target, 'limited', *self.headers(target), '-fPIC', '-ffunction-sections')]
        script = self.folder / f'{target}.exports'
        script.write_text(f'{{ global: {" ".join(f"{name};" for name in (*functions(), "picklestep_limit_memory"))} local: *; }};\n')
        run(ARCHIVER, 'rcsD', to / PARTS[1], *objects)
        run(LINKER, '-flavor', 'gnu', '-shared', '-soname', 'libpicklestep.so', '-z', 'noexecstack', '-z', 'relro', '-z', 'now', '--gc-sections',
            '--strip-all', '--version-script', script, '-o', to / PARTS[2], *objects)
        shutil.copy(HERE / 'library/picklestep.h', to / PARTS[0])
        shutil.copy(HERE / 'library/picklestep.pc', to / PARTS[3])


def functions() -> list[str]:
    """The functions of the library, as the header has them."""
    return re.findall(r'^uint8_t (picklestep_\w+)\(', (HERE / 'library/picklestep.h').read_text(), re.M)


def without_table(module: bytes) -> bytes:
    """The module without its table, which lld writes also where no function pointer is, and in a form that Binaryen does not read."""
    out, at = bytearray(module[:8]), 8
    while at < len(module):
        start, kind = at, module[at]
        size, at = number_at(module, at + 1)
        at += size
        if kind == 9:
            raise Fault('the module has an element section: its table is used')
        if kind != 4:
            out += module[start:at]
    return bytes(out)


def number_at(data: bytes, at: int) -> tuple[int, int]:
    """A number in LEB128, and where it ends."""
    value = shift = 0
    while True:
        byte = data[at]
        at += 1
        value |= (byte & 127) << shift
        shift += 7
        if not byte & 128:
            return value, at


def plain_text(module: Path, folder: Path, name: str) -> Path:
    """The module as text. It names no machine, but its functions name the processor that they are for."""
    whole, plain = folder / f'{name}-whole.ll', folder / f'{name}.ll'
    run(CLANG, '--no-default-config', f'--target={X86}', '-Wno-override-module', '-S', '-emit-llvm', '-Xclang',
        '-disable-llvm-passes', '-x', 'ir', module, '-o', whole)
    text = whole.read_text()
    text = re.sub(r' "(probe-stack|stack-probe-size|target-cpu|target-features|frame-pointer)"="[^"]*"', '', text)
    text = re.sub(r'^target (triple|datalayout) = .*\n', '', text, flags=re.M)
    plain.write_text(text)
    return plain


def make_all(to: Path) -> None:
    tools = check_tools()
    with tempfile.TemporaryDirectory() as name:
        folder = Path(name)
        made = folder / 'made'
        for file in MADE:
            (made / file).parent.mkdir(parents=True, exist_ok=True)
        kept = os.environ.get('PICKLESTEP_MODULES')  # (a folder of them, while one works on this file)
        if not kept:
            build_beside()
        with ThreadPoolExecutor() as pool:
            modules = dict(zip(CRATES, pool.map(lambda crate: Path(kept, f'{crate}.bc') if kept else keep_module(crate, folder), CRATES)))
        maker = Maker(folder, *(plain_text(module, folder, crate) for crate, module in modules.items()))
        makes = [(maker.make_static, PROGRAMS[0]), (maker.make_arm, PROGRAMS[1]), (maker.make_wasm, PROGRAMS[2]), (maker.make_library_wasm, PROGRAMS[3]),
                 *((functools.partial(maker.make_library, target), file) for target, file in LIBRARIES.items())]
        with ThreadPoolExecutor() as pool:
            for done in [pool.submit(make, made / file) for make, file in makes]:
                done.result()
        shutil.copy(HERE / 'picklestep.mjs', made / PROGRAMS[4])
        (made / page.NAME).write_bytes(page.make(made, to / page.NAME))
        (made / TOOLS).write_text(tools)
        (made / 'SHA256SUMS').write_text(''.join(f'{hashlib.sha256((made / file).read_bytes()).hexdigest()}  {file}\n' for file in MADE))
        for file in (*MADE, 'SHA256SUMS'):
            put(made / file, to / file, 0o755 if file.endswith(('/picklestep', '.mjs', '.so')) else 0o644)


def put(file: Path, to: Path, mode: int) -> None:
    """Puts a file into its place, whole or not at all."""
    to.parent.mkdir(parents=True, exist_ok=True)
    new = to.with_name(f'{to.name}.new')
    shutil.copyfile(file, new)
    new.chmod(mode)
    new.replace(to)


def main() -> int:
    if len(sys.argv) != 2:
        print('usage: make.py FOLDER', file=sys.stderr)
        return 2
    try:
        make_all(Path(sys.argv[1]))
    except (Fault, OSError, ValueError) as fault:
        print(f'picklestep: {fault}', file=sys.stderr)
        return 2
    return 0


if __name__ == '__main__':
    sys.exit(main())
