"""What codes mean, in plain sentences."""

from __future__ import annotations

from typing import Dict

__all__ = ['PLAIN', 'plainly']

PLAIN: Dict[str, str] = {
    'C1': 'You are at the start.',
    'C2': 'You are at the end.',
    'C4': 'The pickle has no opcode there.',
    'C5': 'You have already stepped over that opcode: go back first.',
    'C6': 'Nothing was edited.',
    'C7': 'Nothing was undone that could be made again.',
    'C8': 'You have already stepped over that edit: go back first.',
    'E1': 'The pickle has no such opcodes.',
    'E2': 'The STOP of a pickle stays.',
    'E3': 'A FRAME is put around opcodes or taken off, and not edited otherwise.',
    'E4': 'Nothing can stand behind the last STOP.',
    'E5': 'The bytes in this frame cannot all be read: edit the opcodes in it.',
    'E6': 'An opcode there is in a frame already: take that off first.',
    'S1': 'No mark is open that the opcode could take.',
    'S2': 'The stack has fewer objects than the opcode takes.',
    'S3': 'Nothing is stored in the memo under this key.',
    'S4': 'A key has no value.',
    'S5': 'The object cannot take such items.',
    'S6': 'The pickle may come from a later Python.',
    'S7': 'An extension code has to be above 0.',
    'S8': 'A module and its member are named by texts.',
    'S9': 'This object cannot be called.',
    'S10': 'The arguments of a call are a tuple or a list.',
    'S11': 'The keywords of a call are a dictionary.',
}


def plainly(text: str, *codes: str) -> str:
    """A text with what its codes mean: the first of them that has a meaning here.

    >>> plainly('C2 at the end, stopped', 'C2'), plainly('M out of memory', 'M')
    ('C2 at the end, stopped (You are at the end.)', 'M out of memory')
    >>> plainly('C3 item 2: S1 no mark', 'C3', 'S1')
    'C3 item 2: S1 no mark (No mark is open that the opcode could take.)'
    """
    # (The shell has no more than the text of some refusals: then its words are looked at.)
    meaning = next((PLAIN[code] for code in codes or text.split() if code in PLAIN), None)
    return f'{text} ({meaning})' if meaning else text
