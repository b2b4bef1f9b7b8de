"""The words of the shell: how each is called, what it does, and an example."""

from __future__ import annotations

from typing import Dict, List, NamedTuple, Tuple

from ..patterns import pattern

__all__ = ['NotThere', 'OTHERS', 'SAMPLE', 'WORDS', 'Word', 'WordError', 'examples', 'help_page', 'help_pages', 'it_is', 'no_word', 'understood', 'whole_word']

# The pickle of the examples: a call of a function of a module that was renamed.
SAMPLE = b'\x80\x02coldapp.tasks\nsend\nq\x00X\x03\x00\x00\x00bobq\x01K\x03\x86q\x02Rq\x03.'


class WordError(ValueError):
    """A line that the shell cannot run, and why."""


class NotThere(WordError):
    """A line about something that is not in what was read: where that is a part of the pickle, it may be in the rest."""


class Word(NamedTuple):
    """A word: its group, how it is called, what it does, and lines of an example. `is_again` says that Enter does it again."""

    group: str
    usage: str
    page: str
    example: Tuple[str, ...]
    is_again: bool = False


WORDS: Dict[str, Word] = {
    'step': Word('go', 'step [N]', 'Goes over one opcode, or N. It stops before an opcode that is refused.', ('step', 'step 5'), True),
    'back': Word('go', 'back [N]', 'Goes back over one opcode, or N: stack, memo and objects are as they were.', ('step 5', 'back 2'), True),
    'over': Word('go', 'over [N]', 'Goes over one opcode, or N; from one that sets a mark, past the opcode that takes this mark.', ('over', 'over 2'), True),
    'out': Word('go', 'out', 'Goes past the opcode that takes the mark which was set last.', ('out',), True),
    'goto': Word('go', 'goto PLACE', 'Goes to a place. A place is the number of an opcode, or its offset after @.', ('goto 8', 'goto @2')),
    'until': Word('go', 'until PLACE', 'Goes on to a place ahead, or to an opcode before it that is refused.', ('until @33',)),
    'run': Word('go', 'run, run back', 'Goes on to the next break, a refused opcode or the end; `run back` to the break before, or the start.',
                ('break call *', 'run', 'run back'), True),
    'go': Word('go', 'go N', 'Goes to the opcode that makes object N.', ('go 3',)),
    'break': Word('break', 'break [PLACE | PATTERN | opcode NAME | import PATTERN | call PATTERN | text TEXT | memo KEY | store KEY | change N | depth N] '
                  '[if CONDITION]',
                  'Sets a break, or shows all. PATTERN is a module and a name, as os.* (or #4), alone it is a call; N an object, or a number of open marks. '
                  'At `store` the key of the memo is set, at `memo` it is set or read. CONDITION is an EXPRESSION of `show`; with it alone each opcode '
                  'is asked.',
                  ('break 8', 'break opcode REDUCE', 'break import oldapp.*', 'break change 3', "break if top == 'bob'", 'break', 'run')),
    'condition': Word('break', 'condition N [CONDITION]', 'Gives break N a condition, or takes it away.',
                      ('break opcode BINPUT', "condition 1 top == 'bob'", 'run')),
    'clear': Word('break', 'clear N', 'Takes break N away.', ('break 8', 'clear 1')),
    'off': Word('break', 'off N', 'Switches break N off.', ('break 8', 'off 1', 'run')),
    'on': Word('break', 'on N', 'Switches break N on again.', ('break 8', 'off 1', 'on 1')),
    'where': Word('look', 'where', 'Shows the place with its neighbours, and the top of the stack.', ('where',)),
    'list': Word('look', 'list [PLACE [PLACE | +N]]', 'Shows opcodes, up to a place or N of them, else 20, each with what it imports or calls; again those behind them.',
             ('list 0 3',), True),
    'calls': Word('look', 'calls [N]', 'Shows what the pickle imports and calls, from line N on; also of a long pickle all of it.', ('calls',)),
    'find': Word('look', 'find TEXT', 'Finds the next opcode that has a text in its name, argument or note, or the opcode at an offset; again the one behind it.',
                 ('find bob',), True),
    'hex': Word('look', 'hex [PLACE [COUNT]]', 'Shows the bytes of an opcode, or so many from its first.', ('hex 1', 'hex @2 32')),
    'explain': Word('look', 'explain [PLACE | NAME]', 'Says what an opcode does, and what it takes and makes here.', ('goto 8', 'explain')),
    'who': Word('look', 'who N', 'Shows the opcode that made object N, and each that changed it.', ('who 3',)),
    'show': Word('look', 'show N | EXPRESSION',
                 'Shows object N and what it holds, or a value. EXPRESSION is as in Python, of top, stack[-2], memo[1], #3, result, opcode, argument, place, '
                 "offset, marks, len(#3) and kind(top), with ==, !=, <, >, in, and, or, not; a text has quotes, and what is imported none, as in "
                 'stack[0] == os.system.',
                 ('goto 7', 'show 3', 'show top', "show stack[0] == oldapp.tasks.send and #1 != 'eve'")),
    'display': Word('look', 'display [EXPRESSION | WORD]', 'Shows a value, or what a word like `hex` answers, wherever the cursor stops; alone it shows all of '
                    'them now.', ('display top', 'display hex . 4', 'step 4')),
    'undisplay': Word('look', 'undisplay [N]', 'Displays N no longer, or nothing.', ('display top', 'undisplay 1')),
    'stack': Word('look', 'stack', 'Shows the stack, the top last.', ('goto 6', 'stack')),
    'memo': Word('look', 'memo [KEY]', 'Shows the memo, or what is under a key.', ('goto 6', 'memo')),
    'objects': Word('look', 'objects [N]', 'Shows the objects that were made before the cursor, from N on.', ('goto 6', 'objects 0')),
    'source': Word('look', 'source [full]', 'Shows the pickle as Python source; cut, or full.', ('source',)),
    'replace': Word('edit', 'replace [PLACE] VALUE | NAME [VALUE] | NAME hex BYTES',
                    'Replaces an opcode. VALUE is as in Python: the opcode that can hold it is found, or it is the argument of the one that is there.',
                    ("replace @23 'alice'", 'replace 5 70000')),
    'insert': Word('edit', 'insert [PLACE] VALUE | NAME [VALUE] | NAME hex BYTES', 'Puts an opcode before a place.',
                   ('insert 10 POP', 'insert 10 None')),
    'delete': Word('edit', 'delete PLACE', 'Takes an opcode out; `delete .` the one at the cursor.', ('delete 9',)),
    'set': Word('edit', 'set N to VALUE', 'Replaces the opcode that makes object N.', ('set 2 to 41',)),
    'rename': Word('edit', 'rename OLD NEW',
                   'Renames a module in all imports. MODULE:NAME is one name: NEW is a name in that module, or MODULE:NAME. MODULE.* is what is below a '
                   'module. A text that is data too stays, and the import gets its own.',
                   ('rename oldapp newapp', 'rename newapp.tasks:send post')),
    'frame': Word('edit', 'frame PLACE COUNT', 'Puts a frame around opcodes.', ('frame 1 3', 'list 1 2')),
    'unframe': Word('edit', 'unframe [PLACE]', 'Takes a FRAME away, and leaves what is in it.', ('frame 1 3', 'unframe 1')),
    'undo': Word('edit', 'undo', 'Takes back what the latest word edited.', ('delete 9', 'undo')),
    'redo': Word('edit', 'redo', 'Makes again what was taken back.', ('delete 9', 'undo', 'redo')),
    'diff': Word('file', 'diff', 'Shows what was edited, and what the results differ in.', ("set 2 to 'x'", 'diff')),
    'whole': Word('file', 'whole',
                  'Reads all of a long pickle, of which the first opcodes alone were read, and says before what that may take. Edits and breaks stay.',
                  ('whole',)),
    'save': Word('file', 'save [FILE]', 'Writes the pickle as it is; without FILE to the file that was opened. A name with blanks is in quotes.',
                 ('set 2 to 41', 'save /dev/null')),
    'quit': Word('file', 'quit', 'Ends. It asks where something is not saved.', ('quit',)),
    'help': Word('file', 'help [WORD]', 'Shows the words, or the page of one.', ('help go',)),
}

_SHORT: Dict[str, Tuple[str, str]] = {
    's': ('step', ''), 'n': ('over', ''), 'b': ('break', ''), 'c': ('run', ''), 'continue': ('run', ''), 'r': ('run', ''), 'rs': ('back', ''),
    'rc': ('run', 'back'), 'g': ('goto', ''), 'u': ('until', ''), 'l': ('list', ''), 'p': ('show', ''), 'x': ('explain', ''), 'w': ('where', ''),
    'q': ('quit', ''), 'h': ('help', ''), '?': ('help', ''), 'f': ('find', ''), 'items': ('list', ''), 'exit': ('quit', '')}

# Words of gdb and pdb, and the shell's for them. (`info` and `x/` take what is behind them, too.)
OTHERS: Dict[str, Tuple[str, str]] = {
    'next': ('over', ''), **dict.fromkeys(('stepi', 'si', 'nexti', 'ni'), ('step', '')), **dict.fromkeys(('finish', 'return'), ('out', '')),
    **dict.fromkeys(('reverse-step', 'reverse-stepi', 'reverse-next', 'reverse-nexti', 'rsi', 'rn', 'rni'), ('back', '')),
    'reverse-continue': ('run', 'back'), 'cont': ('run', ''), 'start': ('goto', '0'), 'jump': ('goto', ''), 'advance': ('until', ''),
    **dict.fromkeys(('print', 'pp', 'inspect', 'ptype', 'whatis'), ('show', '')), **dict.fromkeys(('disassemble', 'disas', 'll'), ('list', '')),
    **dict.fromkeys(('backtrace', 'bt'), ('stack', '')), 'watch': ('break', 'change'), 'rwatch': ('break', 'memo'), 'disable': ('off', ''),
    'enable': ('on', ''), 'search': ('find', ''), 'fin': ('out', ''), 'dis': ('off', ''), 'en': ('on', ''), 'j': ('goto', '')}

# Words of gdb and pdb that are none here, and what does something of the kind.
_NO_WORDS: Dict[str, str] = {
    **dict.fromkeys(('tbreak', 'tb'), '`until PLACE` goes on to a place, and `run` then goes on from there'), 'commands': '`display` shows something wherever the cursor stops', 'kill': '`quit` ends',
    'ignore': 'a break may have a condition, as `condition 1 place > 8`', 'args': '`explain` shows what an opcode takes',
    **dict.fromkeys(('up', 'down'), '`stack` shows all of the stack'), **dict.fromkeys(('d', 'del'), '`clear N` takes a break away, `delete PLACE` an opcode')}

# What else may have been meant by who gives a word what it does not take.
_MEANT: Dict[str, str] = {
    'delete': '`clear N` takes a break away', 'frame': '`where` shows where you are, and `stack` the stack with its marks',
    'set': 'N is the number of an object, as `made:` and `show` have it'}

# Those that `help` shows.
_SHOWN = ('next', 'finish', 'reverse-step', 'reverse-continue', 'print', 'disassemble', 'bt', 'watch', 'disable', 'enable')
# What `info` shows, by the word after it or a beginning of this.
_INFO: Dict[str, str] = {
    'breakpoints': 'break', 'watchpoints': 'break', 'display': 'display', 'stack': 'stack', 'frame': 'where', 'line': 'where', 'program': 'where', 'registers': 'where',
    'locals': 'stack', 'variables': 'memo', 'functions': 'calls', 'source': 'source'}
_INFO_IS = 'info breakpoints, info stack, info frame, info variables or info functions'
# Bytes of a unit, as `x/8xw` has it.
_UNITS = {'b': 1, 'h': 2, 'w': 4, 'g': 8}
_EXAMINE = pattern(r'x/([0-9]{0,6})([a-z]{0,2})')
# A word that prints, with a form, of which there is one and that of opcodes; and a key of the memo, to be watched.
_PRINT = pattern(r'(p|print|inspect|display)/([a-z0-9]+)')
_KEY = pattern(r'memo ?\[?([0-9]+)\]?')
# An object and its new value, as gdb has them.
_SET = pattern(r'(?:var(?:iable)?\s+)?#?([0-9]+)\s*=\s*(.+)')


def understood(line: str) -> Tuple[str, str]:
    """The word of a line and what comes after it, both as the shell has them. Raises ValueError where `info` has nothing to show.

    >>> understood('x/16xb @23'), understood('info b'), understood('set var 2 = 3')
    (('hex', '@23 16'), ('break', ''), ('set', '2 to 3'))
    """
    word, _, rest = line.partition(' ')
    rest = rest.strip()
    examined = _EXAMINE.fullmatch(word)
    if examined is not None:
        count, place = int(examined[1] or 1), rest or '.'
        if 'i' in examined[2]:
            return 'list', f'{place} +{count}'
        return 'hex', f'{place} {count * max([_UNITS.get(letter, 1) for letter in examined[2]], default=1)}'
    if word in ('info', 'i'):
        found = [name for known, name in _INFO.items() if rest and known.startswith(rest)]
        if not found:
            raise ValueError(f'it is: {_INFO_IS}')
        return found[0], ''
    assigned = _SET.fullmatch(rest) if word == 'set' else None
    if assigned is not None:
        return 'set', f'{assigned[1]} to {assigned[2]}'
    printed, key = _PRINT.fullmatch(word), _KEY.match(rest) if word == 'watch' else None
    if key is not None:
        return 'break', f'store {key[1]}{rest[key.end():]}'
    if printed is not None and printed[2].endswith('i'):
        before = 'display ' if printed[1] == 'display' else ''
        return (before or 'list').strip(), f'{"list " if before else ""}{rest or "."} +{printed[2][:-1] or 1}'
    name, before = whole_word(printed[1] if printed is not None else word)
    return name, f'{before} {rest}'.strip()


def whole_word(word: str) -> Tuple[str, str]:
    """The word that a short one stands for, or one of gdb and pdb, and what comes before its rest: a beginning that only one word has will do."""
    if word in WORDS:
        return word, ''
    if word in _SHORT or word in OTHERS:
        return _SHORT.get(word) or OTHERS[word]
    known = [name for name in WORDS if name.startswith(word)]
    return (known[0], '') if len(known) == 1 else (word, '')


def it_is(name: str) -> str:
    """What is said where a word is given what it does not take.

    >>> it_is('delete')
    'it is: delete PLACE (`clear N` takes a break away)'
    """
    return f'it is: {WORDS[name].usage}' + (f' ({_MEANT[name]})' if name in _MEANT else '')


def no_word(word: str) -> str:
    """What is said of a word that is none.

    >>> no_word('kill'), no_word('stepp')
    ("there is no word 'kill': `quit` ends", "there is no word 'stepp'; `help` shows them")
    """
    return f'there is no word {word[:40]!r}' + (f': {_NO_WORDS[word]}' if word in _NO_WORDS else '; `help` shows them')


def help_pages() -> str:
    """All words, by their groups."""
    rows: List[str] = []
    for group in ('go', 'break', 'look', 'edit', 'file'):
        rows.append(f'{group:6} ' + ', '.join(name for name, word in WORDS.items() if word.group == group))
    short = ', '.join(f'{short} {" ".join(whole).strip()}' for short, whole in _SHORT.items() if len(short) < 3)
    others = ', '.join(f'{other} {" ".join(whole).strip()}' for other, whole in OTHERS.items() if other in _SHOWN)
    return '\n'.join([*rows, f'short: {short}', f'as gdb: {others}, info, x/16xb @OFFSET, x/5i @OFFSET',
                      'Enter does the last one again. `help WORD` shows its page.'])


def help_page(name: str) -> str:
    """The page of a word."""
    if name == 'info':
        return f'{_INFO_IS}\n\nAs gdb has them.'
    word = WORDS[name]
    return '\n'.join([word.usage, '', word.page, '', 'Example:', *(f'    {line}' for line in word.example)])


def examples() -> Dict[str, Tuple[str, ...]]:
    """The lines of each word's example."""
    return {name: word.example for name, word in WORDS.items()}
