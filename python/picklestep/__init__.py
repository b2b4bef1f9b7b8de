"""picklestep: what would a pickle import, call and build? Nothing of it is run.

Every answer comes from the proved program, which runs as a process of its own.

    import picklestep
    for reach in picklestep.calls('model.pkl'):
        print(reach.offset, reach.text)

What is public is imported when it is first used: the entrance starts faster, and it imports nothing before it knows from where.
"""

__version__ = '1.1.0'

__all__ = ['Again', 'Answer', 'Argument', 'Brief', 'Briefs', 'Call', 'Calls', 'Change', 'Changed', 'Changer', 'Difference', 'End', 'Extension', 'FoundPickle',
           'FoundPickles', 'GateAnswer', 'Global', 'Heap', 'Item', 'Items', 'Listing', 'Made', 'Mark', 'Member', 'MemoSize', 'Mended', 'Name', 'NoResult',
           'NotAllowed', 'NotAssembled', 'NotConverted', 'NotOpened', 'NotRenamed', 'Object', 'Objects', 'Opcode', 'OtherForm', 'OutOfMemory', 'Part',
           'PathSize', 'PicklestepError', 'PlainValue', 'ProgramError', 'PythonSource', 'Ran', 'Reach', 'ReachAnswer', 'Reached', 'Ref', 'Refused',
           'Renamed', 'RenamedImport', 'SameAnswer', 'Saving', 'Session', 'Shown', 'ShownObjects', 'Sized', 'Sizes', 'Step', 'Stored', 'TimedOut',
           'TooCrooked', 'TooLarge', 'Try', 'Value', 'Where', 'assemble', 'calls', 'check', 'compare', 'convert', 'form', 'gate', 'listing', 'members',
           'mended', 'objects', 'opcode_differences', 'optimize', 'pickles_in', 'reach', 'rename', 'same', 'size', 'source', 'tree']

TYPE_CHECKING = False  # (`typing` would be an import)
if TYPE_CHECKING:
    from typing import Any, Callable
    from .addresses import FoundPickle, FoundPickles, pickles_in
    from .answers import Answer, Calls, Listing, Objects, Part, Reached
    from .assembling import assemble
    from .comparing import Difference, compare
    from .converting import convert
    from .diff import opcode_differences
    from .errors import NoResult, NotAllowed, NotAssembled, NotConverted, NotOpened, NotRenamed, OutOfMemory, PicklestepError, ProgramError, Refused, TimedOut, TooLarge
    from .listing_records import Change, Object, Opcode
    from .mending import Mended, TooCrooked, Try, mended
    from .optimizing import optimize
    from .python_source import PythonSource, source
    from .records import Argument, Brief, Briefs, End, Extension, Global, Name, Reach, Ref, Value
    from .renaming.one import Renamed, RenamedImport, rename
    from .sameness import same
    from .scan.checking import check
    from .scan.gating import gate
    from .session import Session
    from .session_answers import Heap, Items, ShownObjects
    from .session_records import Changed, Changer, Item, Made, Mark, Ran, Shown, Step, Stored, Where
    from .short_records import GateAnswer, Member, OtherForm, ReachAnswer, SameAnswer
    from .sizing import Again, MemoSize, PathSize, Saving, Sized, Sizes, size
    from .tasks import calls, form, listing, members, objects, reach
    from .trees import Call, tree
    from .values import PlainValue

# Which module has which public names. (Most need a few modules alone.) No public name is that of a module: who imports the module would get that in
# its place.
_MODULES = {
    'addresses': ('FoundPickle', 'FoundPickles', 'pickles_in'),
    'answers': ('Answer', 'Calls', 'Listing', 'Objects', 'Part', 'Reached'),
    'assembling': ('assemble',),
    'comparing': ('Difference', 'compare'),
    'converting': ('convert',),
    'diff': ('opcode_differences',),
    'errors': ('NoResult', 'NotAllowed', 'NotAssembled', 'NotConverted', 'NotOpened', 'NotRenamed', 'OutOfMemory', 'PicklestepError', 'ProgramError', 'Refused', 'TimedOut', 'TooLarge'),
    'listing_records': ('Change', 'Object', 'Opcode'),
    'mending': ('Mended', 'TooCrooked', 'Try', 'mended'),
    'optimizing': ('optimize',),
    'python_source': ('PythonSource', 'source'),
    'records': ('Argument', 'Brief', 'Briefs', 'End', 'Extension', 'Global', 'Name', 'Reach', 'Ref', 'Value'),
    'renaming.one': ('Renamed', 'RenamedImport', 'rename'),
    'sameness': ('same',),
    'scan.checking': ('check',),
    'scan.gating': ('gate',),
    'session': ('Session',),
    'session_answers': ('Heap', 'Items', 'ShownObjects'),
    'session_records': ('Changed', 'Changer', 'Item', 'Made', 'Mark', 'Ran', 'Shown', 'Step', 'Stored', 'Where'),
    'short_records': ('GateAnswer', 'Member', 'OtherForm', 'ReachAnswer', 'SameAnswer'),
    'sizing': ('Again', 'MemoSize', 'PathSize', 'Saving', 'Sized', 'Sizes', 'size'),
    'tasks': ('calls', 'form', 'listing', 'members', 'objects', 'reach'),
    'trees': ('Call', 'tree'),
    'values': ('PlainValue',),
}


def check_python() -> None:
    """Raises ImportError in a Python that is too old. (The proved program's own words work with one.)"""
    from sys import version_info
    if version_info < (3, 8):
        raise ImportError('picklestep needs Python 3.8 or later')


def lazily(module: 'dict[str, Any]', modules: 'dict[str, tuple[str, ...]]') -> 'tuple[Callable[[str], object], Callable[[], list[str]]]':
    """The `__getattr__` and the `__dir__` of a package, by its globals and by which of its modules have which public names."""
    def __getattr__(name: str) -> object:
        for under, names in modules.items():
            if name in names:
                check_python()
                from importlib import import_module
                module[name] = getattr(import_module(f'{module["__name__"]}.{under}'), name)
                return module[name]
        raise AttributeError(f'module {module["__name__"]!r} has no attribute {name!r}')

    def __dir__() -> 'list[str]':
        return sorted({*module, *(name for names in modules.values() for name in names)})
    return __getattr__, __dir__


__getattr__, __dir__ = lazily(globals(), _MODULES)
