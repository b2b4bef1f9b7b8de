"""What an answer does not show, in lines for people: where else to look. The lines that the program prints are fixed; these stand beside them."""

from __future__ import annotations

from typing import Iterator, Optional, Set, Tuple

__all__ = ['ARRAY', 'AT_FRAMES', 'FRAME', 'IN_FRAMES', 'OLD_TORCH', 'PAST_END', 'WRAPPER', 'Watch', 'is_array_wrapper', 'of_array', 'of_frame']

# The lines, with a place for an offset, and for the word that reads on.
ARRAY = ('a joblib file goes on at {} with an array, which is not read here: `picklestep scan FILE` reads on behind it, and `picklestep calls FILE` too if '
         'joblib wrote the file')
FRAME = 'what is in that frame is not read: `picklestep {} --unframed FILE` does, `picklestep mend FILE --save OUT` keeps it'

# What ends a reading at a frame, in the lines for people. (Those of JSON say it by `of_frame`.)
_OF_FRAMES = ('F6', 'F7', 'F8')
# A frame in a frame, and an opcode that crosses the end of one: the reading of raw numbers does not get there.
IN_FRAMES = ('F6', 'F8')
# An argument and a frame that end behind the last byte: that of raw numbers does.
PAST_END = ('F3', 'F7')
# Where a mix of frames may lead a loader on without a heading.
AT_FRAMES = (*IN_FRAMES, *PAST_END, 'U1', 'U2')
# joblib goes on by itself where such an object gets its state: it reads an array, whose numbers are no opcodes.
_WRAPPER = 'NumpyArrayWrapper'
WRAPPER = _WRAPPER.encode('ascii')
# The number at the beginning of torch's layout before 1.6, in protocols 2 and later: LONG1 and its bytes. Its tensors are behind five pickles.
OLD_TORCH = b'\x8a\x0al\xfc\x9cF\xf9 j\xa8P\x19'
_STATE, _MADE, _TO = b': state ', b' as #', b' to #'
_FAULT = b'fault: F'
_ENDED = tuple(b'\nfault: %b ' % code.encode('ascii') for code in _OF_FRAMES)
_HEADING = b' may go on:\n'


def is_array_wrapper(name: str) -> bool:
    """Whether an import is that of joblib's class, by its name in whatever module.

    >>> is_array_wrapper('NumpyArrayWrapper'), is_array_wrapper('numpy_pickle.NumpyArrayWrapper'), is_array_wrapper('ndarray')
    (True, True, False)
    """
    return name.rpartition('.')[2] == _WRAPPER


def of_array(offset: int) -> str:
    """What is said of a file of joblib with an array that begins at an offset.

    >>> of_array(217)[:70]
    'a joblib file goes on at 217 with an array, which is not read here: `p'
    """
    return ARRAY.format(offset)


def of_frame(word: str = 'source') -> str:
    """What is said where reading ended at a frame, to who may read on with a word.

    >>> of_frame()
    'what is in that frame is not read: `picklestep source --unframed FILE` does, `picklestep mend FILE --save OUT` keeps it'
    """
    return FRAME.format(word)


def _lines_with(sign: bytes, text: bytes) -> Iterator[bytes]:
    """The lines in which a sign stands. (A line may have it a hundred thousand times: it is looked for once.)"""
    at = text.find(sign)
    while at >= 0:
        end = text.find(b'\n', at)
        yield text[text.rfind(b'\n', 0, at) + 1:end]
        at = text.find(sign, end) if end >= 0 else end


class Watch:
    """Reads an answer of `calls` as it comes, in pieces of whole lines. `array_at` is where joblib's first array begins, and `is_at_frame` says that reading
    ended at a frame. This one reads the lines for people; `reaches.FieldsWatch` reads those of `calls --json`.

    >>> watch = Watch()
    >>> watch.feed(b'0 imports, 0 calls\\nfault: F7 frame past the end at 2\\n')
    >>> watch.array_at, watch.hints == (of_frame(),)
    (None, True)
    """

    def __init__(self) -> None:
        self.array_at: Optional[int] = None
        self.is_at_frame = False
        self._is_behind = False  # (the strict reading is over)
        self._wrappers: Set[bytes] = set()

    def feed(self, lines: bytes) -> None:
        """Reads some lines."""
        if self.array_at is None:
            made = (line.partition(b': ')[2] for line in _lines_with(WRAPPER + b"'", lines))
            self._wrappers.update(said.rpartition(_MADE)[2] for said in made if not said.startswith(b'import ') and _MADE in said)
            states = _lines_with(_STATE, lines) if self._wrappers else ()
            self.array_at = next((int(line.partition(b': ')[0]) + 1 for line in states if line.rpartition(_TO)[2] in self._wrappers), None)
        if not self._is_behind:
            heading = lines.find(_HEADING)
            self._is_behind, end = heading >= 0, heading if heading >= 0 else len(lines)
            if lines.find(_FAULT, 0, end) >= 0 and any((b'\n' + lines).find(sign, 0, end) >= 0 for sign in _ENDED):
                self.is_at_frame = True

    @property
    def hints(self) -> Tuple[str, ...]:
        """What the lines do not show, as far as they were read."""
        array = () if self.array_at is None else (of_array(self.array_at),)
        return array + self.hints_of_frames

    @property
    def hints_of_frames(self) -> Tuple[str, ...]:
        """The same where arrays are left out."""
        return (of_frame(),) if self.is_at_frame else ()
