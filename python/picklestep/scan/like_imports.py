"""Whether what a loader would import is what picklers write, or a text by its looks. Which names may be a module's the program's `reach` says."""

from __future__ import annotations


from .. import library
from ..patterns import pattern
from ..verdicts import reach_answer
from .blobs import spooled
from .canonical.standard import STANDARD_MODULES

__all__ = ['is_begun_alone', 'is_dotted', 'is_text', 'may_be_begun', 'may_be_imported']

# Control characters that are in no text.
_NOT_IN_TEXTS = pattern(rb'[\0-\x08\x0e-\x1a\x1c-\x1f\x7f]')


def is_dotted(text: bytes) -> bool:
    """Whether this is a plain name, or several with dots between them.

    >>> is_dotted(b'os.path'), is_dotted(b'os '), is_dotted(b'')
    (True, False, False)
    """
    try:
        return all(part.isidentifier() for part in text.decode('utf-8').split('.'))
    except UnicodeDecodeError:
        return False


def is_text(begin: bytes) -> bool:
    """Whether these may be the first bytes of a text, in any encoding that extends ASCII.

    >>> is_text(b'(see '), is_text(b'\\x80\\x04')
    (True, False)
    """
    return not _NOT_IN_TEXTS.search(begin)


def may_be_begun(module: bytes) -> bool:
    """Whether Python may import what stands before the first point of a name, whatever follows. It raises where the rest is no module's.

    >>> [may_be_begun(module) for module in (b'myapp.a b', b'.myapp', b'my app.a', b'myapp')]
    [True, True, False, True]
    """
    line = module.decode('utf-8', 'replace').replace('\n', ' ')
    content = f'c{line}\n\n'.encode('utf-8')
    text = library.reach(content)
    return reach_answer(_of_program(content) if text is None else text).reached


def is_begun_alone(module: bytes) -> bool:
    """Whether it may import that, and nothing that has the whole name, unless an archive has it.

    >>> [is_begun_alone(module) for module in (b'myapp.a b', b'myapp/a', b'myapp.a', b'my app.a')]
    [True, True, False, False]
    """
    return may_be_begun(module) and not _is_whole(module)


def may_be_imported(module: bytes, name: bytes) -> bool:
    """Whether something may be imported by these two: the module is printable, without blanks, and has none of the signs of text and code.

    A module is imported before what is in it is looked for, however odd the name of that is. Only where the module is one word (many texts begin
    so) and none of Python's own, the name has to be printable and without blanks as well.

    >>> may_be_imported(b'lib-dynload._ctypes', b'dlopen'), may_be_imported(b'os.a b', b''), may_be_imported(b'a,b', b'c')
    (True, True, False)
    >>> may_be_imported(b'pip.__main__', b'a b'), may_be_imported(b'pip.', b'a b'), may_be_imported(b'\\xe9', b'c')
    (True, False, True)
    """
    # (of `.os` Python looks for a file of the name `os`)
    if module[module[:1] == b'.':].partition(b'.')[0].decode('latin-1') in STANDARD_MODULES:
        return True
    named = _decoded(module)
    return _may_be_name(named) and _is_whole(module) and ('.' in named.strip('.') or _may_be_name(_decoded(name)))


def _of_program(content: bytes) -> bytes:
    from ..program import run_program
    copy = spooled([content])
    with copy.file:
        return run_program(['reach', '--json', copy.path()])


def _is_whole(module: bytes) -> bool:
    """Whether Python may import all of a name, and not from an archive."""
    return b'/' not in module and may_be_begun(module.replace(b'.', b'_'))


def _decoded(text: bytes) -> str:
    """A text as loaders read it. What is not UTF-8 is Latin-1 to one that was given this `encoding`."""
    try:
        return text.decode('utf-8', 'surrogatepass')
    except UnicodeDecodeError:
        return text.decode('latin-1')


def _may_be_name(named: str) -> bool:
    return named.isprintable() and ' ' not in named and any(letter.isalnum() or letter == '_' for letter in named)
