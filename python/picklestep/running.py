# mypy: ignore-errors
"""What the statements of a source call, where Python has no statement for what an opcode does. `picklestep source` shows these texts, so they have no
types.

Each function does what C's unpickler does, which `pickle.loads` is: it asks an object only for what they fetch, once, and no `__class__` (as
`isinstance` does) or `__iter__` of a type of its own. `persistent_load` and `buffers` are names that whoever runs a source gives.
"""

from __future__ import annotations

from pickle import loads as unpickle

__all__ = ['add_items', 'arguments', 'extend', 'extension', 'find_class', 'instantiate', 'keywords', 'set_state', 'unpickle']


def arguments(items):
    """What a call takes as its arguments: only a tuple."""
    if not issubclass(type(items), tuple):
        raise TypeError('the arguments are no tuple')
    return tuple.__iter__(items)


def keywords(items):
    """What NEWOBJ_EX takes as keywords: only a dictionary."""
    if not issubclass(type(items), dict):
        raise TypeError('the keywords are no dictionary')
    return dict(dict.items(items))


def extension(code, protocol):
    """What EXT1, EXT2 and EXT4 stand for: what loading PROTO, EXT4 and STOP gives."""
    return unpickle(b'\x80%c\x84%b.' % (protocol, code.to_bytes(4, 'little')))


def find_class(module, name, protocol):
    """What STACK_GLOBAL imports: what loading PROTO, two buffers, STACK_GLOBAL and STOP gives."""
    return unpickle(b'\x80%c\x97\x97\x93.' % protocol, buffers=[module, name])


def instantiate(kind):
    """What INST and OBJ make without arguments."""
    if issubclass(type(kind), type) and not hasattr(kind, '__getinitargs__'):
        return kind.__new__(kind)
    return kind()


def set_state(thing, state):
    """What BUILD does."""
    missing = object()
    method = getattr(thing, '__setstate__', missing)
    if method is not missing:
        method(state)
        return
    slots = {}
    if issubclass(type(state), tuple) and tuple.__len__(state) == 2:
        state, slots = tuple.__iter__(state)
    if state is not None:
        items, attributes = dict.items(state), thing.__dict__
        for name, value in items:
            attributes[name] = value
    for name, value in dict.items(slots):
        setattr(thing, name, value)


def extend(thing, items):
    """What APPEND and APPENDS do to an object that is no plain list. Without items it is asked for nothing."""
    if not items:
        return
    missing = object()
    method = getattr(thing, 'extend', missing)
    if method is not missing:
        method(items)
        return
    append = thing.append
    for item in items:
        append(item)


def add_items(thing, items):
    """What ADDITEMS does to an object that is no plain set. Without items it is asked for nothing."""
    if not items:
        return
    if issubclass(type(thing), set):
        set.update(thing, items)
        return
    add = thing.add
    for item in items:
        add(item)
