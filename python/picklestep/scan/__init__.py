"""Many files: what the pickles in them import and call. The command `picklestep scan`.

    picklestep scan models/ --allow torch --jobs 4

What is public is imported when it is first used, as in `picklestep`.
"""

from .. import check_python, lazily

check_python()

__all__ = ['Call', 'Found', 'Import', 'Judge', 'Limits', 'Look', 'Note', 'Options', 'Pickle', 'Result', 'Scan', 'folder', 'from_json', 'look',
           'look_at_bytes', 'main', 'to_dataframe', 'to_json']

TYPE_CHECKING = False
if TYPE_CHECKING:
    from .blobs import Limits
    from .command import main
    from .folders import Found, Scan, folder, to_dataframe
    from .looking import Options, look, look_at_bytes
    from .looks import Judge, Look
    from .results import Call, Import, Note, Pickle, Result, from_json, to_json

# Which module has which public names. No public name is that of a module.
_MODULES = {
    'blobs': ('Limits',),
    'command': ('main',),
    'folders': ('Found', 'Scan', 'folder', 'to_dataframe'),
    'looking': ('Options', 'look', 'look_at_bytes'),
    'looks': ('Judge', 'Look'),
    'results': ('Call', 'Import', 'Note', 'Pickle', 'Result', 'from_json', 'to_json'),
}

__getattr__, __dir__ = lazily(globals(), _MODULES)
