"""Opcodes of a protocol in those of the one before it, as picklers write the same values there."""

from __future__ import annotations

from dataclasses import replace
from typing import Callable, Dict, List, Optional, Sequence, Tuple

from ..opcodes import of_kinds
from .reading import Op, Rewriting, Slot, Taken, obey

__all__ = ['lowered']

# Opcodes that may run code, which may look at what is made at the time.
_RUNS = frozenset((*of_kinds('call', 'new', 'new-ex', 'inst', 'obj', 'persistent'), 'BUILD'))
# Names with more parts are none that Python gives to what is in a class.
_MOST_PARTS = 100
_TUPLES = of_kinds('tuple')


def lowered(ops: Sequence[Op], protocol: int) -> Tuple[List[Op], List[str]]:
    """The opcodes with none that only a later protocol has, but for spellings; and lines about what cannot be said."""
    result = list(ops)
    for below, rules in _STEPS:
        # (What is stored is noted for the other rules alone.)
        if protocol <= below and not {op.name for op in result}.isdisjoint(rules.keys() - {'PUT'}):
            for each in (_DOUBLES, rules):
                work = Rewriting(result)
                step = _Step(work, protocol)
                obey(step, each, result)
                if work.problems:
                    return result, work.problems
                result = step.made()
    return result, []


def sees(ops: Sequence[Op], target: Slot, first: int, place: int) -> bool:
    """Whether something that runs from `first` on may look at what is changed at a place: then it matters when it is changed."""
    last = next((each for each in range(place - 1, first - 1, -1) if ops[each].name in _RUNS), None)
    if last is None:
        return False
    keys = {ops[each].value for each in target.places if ops[each].name == 'PUT'}
    begins = ops[target.begin].name
    return begins in ('GET', 'DUP') or any(op.name == 'DUP' or op.name == 'GET' and op.value in keys for op in ops[target.begin:last])


class _Step:
    """One step down, for what is to be of a protocol in the end."""

    def __init__(self, work: Rewriting, protocol: int) -> None:
        self.work = work
        self._protocol = protocol
        self._builtins = b'builtins' if protocol > 2 else b'__builtin__'
        self._copyreg = b'copyreg' if protocol > 2 else b'copy_reg'
        self._taken_keys = work.taken_keys()
        # What texts are in the memo, and at which places those are left out.
        self._texts: Dict[object, str] = {}
        self._left_out: Dict[int, Op] = {}

    def _global(self, module: bytes, name: bytes) -> Op:
        return Op('GLOBAL', (module, name), shared=True)

    def take_again(self, place: int, op: Op, taken: Taken) -> None:
        """What stands before DUP goes into the memo, so that something else may come between both."""
        key = -1 - place - len(self.work.ops)
        self.work.put(place, Op('PUT', key, offset=op.offset), Op('GET', key, offset=op.offset))

    # --- From 5 to 4 ---

    def refuse_buffer(self, place: int, op: Op, taken: Taken) -> None:
        self.work.refuse(place, 'its bytes are not in the pickle, which needs protocol 5')

    def make_bytearray(self, place: int, op: Op, taken: Taken) -> None:
        given = [Op('BINBYTES', bytes(op.value)), Op('TUPLE1')] if op.value else [Op('EMPTY_TUPLE')]  # type: ignore[arg-type]
        self.work.put(place, self._global(self._builtins, b'bytearray'), *given, Op('REDUCE', None, op.stands, op.offset))

    # --- From 4 to 3 ---

    def note_put(self, place: int, op: Op, taken: Taken) -> None:
        maker = self.work.ops[taken.named[0].places[0]]
        if maker.name == 'BINUNICODE' and isinstance(maker.value, str):
            self._texts[op.value] = maker.value
        elif maker.name == 'GET' and maker.value in self._texts:
            self._texts[op.value] = self._texts[maker.value]
        else:
            self._texts.pop(op.value, None)

    def make_global(self, place: int, op: Op, taken: Taken) -> None:
        names = [self._text_of(slot) for slot in taken.named]
        if None in names:
            self.work.refuse(place, 'its names are no texts that stand in front of it')
            return
        module, name = (str(each) for each in names)
        dotted = name.split('.') if op.protocol >= 4 else [name]
        if not all(each and '\n' not in each for each in (module, *dotted)) or '<locals>' in dotted or len(dotted) > _MOST_PARTS:
            self.work.refuse(place, 'no line can be its names')
            return
        try:
            lines = module.encode('utf-8'), dotted[0].encode('utf-8')
        except UnicodeEncodeError:
            self.work.refuse(place, 'its names are no UTF-8')
            return
        for slot in taken.named:
            for each in range(slot.begin, slot.end):
                self._left_out[each] = self.work.ops[slot.begin]
                self.work.put(each)
        parts = [Op('GLOBAL', lines, op.stands if len(dotted) == 1 else None, op.offset)]
        for at, part in enumerate(dotted[1:], 2):
            parts = [self._global(self._builtins, b'getattr'), *parts, Op('BINUNICODE', part), Op('TUPLE2'),
                     Op('REDUCE', None, op.stands if at == len(dotted) else None, op.offset)]
        self.work.put(place, *parts)

    def _text_of(self, slot: Slot) -> Optional[str]:
        """The text that a slot holds, where nothing else was done for it."""
        op = self.work.ops[slot.begin]
        if not self.work.is_alone(slot):
            return None
        if op.name == 'GET':
            return self._texts.get(op.value)
        return op.value if op.name == 'BINUNICODE' and isinstance(op.value, str) else None

    def call_new_with_keywords(self, place: int, op: Op, taken: Taken) -> None:
        self.work.put_before(taken.named[0].begin, self._global(self._copyreg, b'__newobj_ex__'))
        self.work.put(place, Op('TUPLE3'), Op('REDUCE', None, op.stands, op.offset))

    def make_set(self, place: int, op: Op, taken: Taken) -> None:
        self.work.put(place, self._global(self._builtins, b'set'), Op('EMPTY_LIST'), Op('TUPLE1'), Op('REDUCE', None, op.stands, op.offset))

    def add_items(self, place: int, op: Op, taken: Taken) -> None:
        """The items go into a list, of which the set is made behind them. What stored the set comes behind that."""
        slot, work = taken.named[0], self.work
        if work.ops[slot.begin].name != 'EMPTY_SET' or {work.ops[each].name for each in slot.places[1:]} - {'PUT', 'ADDITEMS'}:
            work.refuse(place, 'it adds to what is no set that is made right before it')
            return
        keys = {work.ops[each].value for each in slot.places if work.ops[each].name == 'PUT'}
        if any(each.name == 'GET' and each.value in keys or each.name == 'DUP' for each in work.ops[slot.begin:place]):
            work.refuse(place, 'a set that is taken before it is full needs protocol 4')
            return
        last = next(each for each in reversed(slot.places) if work.ops[each].name in ('EMPTY_SET', 'ADDITEMS'))
        *kept, of_tuple, call = (each for each in work.at(last) if each.name != 'PUT')
        puts = [each for at in slot.places if at >= last for each in work.at(at) if each.name == 'PUT']
        for each in slot.places:
            if each > last:
                work.put(each)
        work.put(last, *kept)
        is_one = len(taken.items) == 1 and last == slot.begin
        work.put(place, self._filled(taken, is_one), of_tuple, call, *puts)

    def make_frozen_set(self, place: int, op: Op, taken: Taken) -> None:
        assert taken.mark is not None
        filled = [self._filled(taken, len(taken.items) == 1)] if taken.items else []
        mark = self.work.at(taken.mark.begin) if len(taken.items) > 1 else []
        self.work.put(taken.mark.begin, self._global(self._builtins, b'frozenset'), Op('EMPTY_LIST'), *mark)
        self.work.put(place, *filled, Op('TUPLE1'), Op('REDUCE', None, op.stands, op.offset))

    def _filled(self, taken: Taken, is_one: bool) -> Op:
        """What puts the items of a set into a list: one alone without a mark, as picklers do."""
        assert taken.mark is not None
        if is_one:
            self.work.put(taken.mark.begin)
        return Op('APPEND' if is_one else 'APPENDS', offset=self.work.ops[taken.mark.begin].offset)

    # --- From 3 to 2 ---

    def make_bytes(self, place: int, op: Op, taken: Taken) -> None:
        assert isinstance(op.value, bytes)
        call = Op('REDUCE', None, op.stands, op.offset)
        if not op.value:
            self.work.put(place, self._global(self._builtins, b'bytes'), Op('EMPTY_TUPLE'), call)
        else:
            self.work.put(place, self._global(b'_codecs', b'encode'), Op('BINUNICODE', op.value.decode('latin1')),
                          Op('BINUNICODE', 'latin1', shared=True), Op('TUPLE2'), call)

    def check_names(self, place: int, op: Op, taken: Taken) -> None:
        assert isinstance(op.value, tuple)
        if not b''.join(op.value).isascii():  # type: ignore[arg-type]
            self.work.refuse(place, 'names that are not ASCII need protocol 3')

    # --- From 2 to 1 ---

    def make_tuple(self, place: int, op: Op, taken: Taken) -> None:
        self.work.put_before(taken.named[0].begin, Op('MARK', offset=op.offset))
        self.work.put(place, replace(op, name='TUPLE'))

    def call_new(self, place: int, op: Op, taken: Taken) -> None:
        """The class comes into the tuple of arguments, if only this call has that."""
        of_class, given = taken.named
        maker = given.places[0]
        puts = given.places[1:]
        is_own = (self.work.ops[maker].name in _TUPLES and place == maker + len(given.places)
                  and not any(self.work.ops[each].name != 'PUT' or self.work.ops[each].value in self._taken_keys for each in puts))
        call = Op('REDUCE', None, op.stands, op.offset)
        if not is_own:
            self.work.put_before(of_class.begin, self._global(self._copyreg, b'__newobj_ex__'), Op('MARK'))
            self.work.put(place, Op('EMPTY_DICT'), Op('TUPLE'), call)
            return
        if self.work.ops[maker].name == 'TUPLE':
            self.work.put(given.begin)
        elif self.work.ops[maker].name != 'EMPTY_TUPLE':
            self.work.take_back(given.begin, 1)
        for each in (maker, *puts):
            self.work.put(each)
        self.work.put_before(of_class.begin, self._global(self._copyreg, b'__newobj__'), Op('MARK'))
        self.work.put(place, Op('TUPLE'), call)

    def refuse_extension(self, place: int, op: Op, taken: Taken) -> None:
        self.work.refuse(place, 'codes of extensions need protocol 2')

    # --- From 1 to 0 ---

    def make_empty(self, place: int, op: Op, taken: Taken) -> None:
        self.work.put(place, Op('MARK'), replace(op, name=op.name[len('EMPTY_'):]))

    def append_each(self, place: int, op: Op, taken: Taken) -> None:
        self._one_by_one(place, op, taken, 'APPEND', 1)

    def set_each(self, place: int, op: Op, taken: Taken) -> None:
        self._one_by_one(place, op, taken, 'SETITEM', 2)

    def _one_by_one(self, place: int, op: Op, taken: Taken, name: str, size: int) -> None:
        assert taken.mark is not None
        if len(taken.items) > size and sees(self.work.ops, taken.named[0], taken.mark.begin, place):
            self.work.refuse(place, 'what is called meanwhile may look at it')
            return
        self.work.put(taken.mark.begin)
        for item in taken.items[size::size]:
            self.work.put_before(item.begin, Op(name, offset=op.offset))
        self.work.put(place, *[replace(op, name=name)] * bool(taken.items))

    def pop_mark(self, place: int, op: Op, taken: Taken) -> None:
        self.work.put(place, *[replace(op, name='POP')] * (len(taken.items) + 1))

    def refuse_object(self, place: int, op: Op, taken: Taken) -> None:
        self.work.refuse(place, 'it needs protocol 1')

    def persistent_line(self, place: int, op: Op, taken: Taken) -> None:
        slot = taken.named[0]
        text = self.work.ops[slot.begin].value
        keys = {self.work.ops[each].value for each in slot.places[1:]}
        if not self.work.is_alone(slot) or not isinstance(text, str) or not text.isascii() or '\n' in text or keys & self._taken_keys:
            self.work.refuse(place, 'a persistent id that is no line of ASCII letters needs protocol 1')
            return
        for each in range(slot.begin, slot.end):
            self.work.put(each)
        self.work.put(place, replace(op, name='PERSID', value=text.encode('ascii')))

    # --- In the end ---

    def made(self) -> List[Op]:
        """The opcodes of the step. A text that was left out, and is taken from the memo elsewhere, is made where it is taken first."""
        if not self._left_out:
            return self.work.made()
        lost: Dict[object, Op] = {}
        for place, op in enumerate(self.work.ops):
            if op.name == 'PUT' and place in self._left_out:
                text = self._left_out[place]
                lost[op.value] = lost[text.value] if text.name == 'GET' and text.value in lost else text
            elif op.name == 'PUT':
                lost.pop(op.value, None)
            elif op.name == 'GET' and place not in self._left_out and op.value in lost:
                self.work.put(place, *self._again(lost, op))
        return self.work.made()

    def _again(self, lost: Dict[object, Op], op: Op) -> List[Op]:
        """A text that is made where it is taken first, and stored under all keys that it has."""
        text = lost[op.value]
        keys = [key for key, each in lost.items() if each is text]
        for key in keys:
            del lost[key]
        return [text, *(Op('PUT', key, offset=op.offset) for key in keys)]  # type: ignore[arg-type]


_Rule = Callable[[_Step, int, Op, Taken], None]
# (Other rules put opcodes before what an opcode takes.)
_DOUBLES: Dict[str, _Rule] = {'DUP': _Step.take_again}
_STEPS: Sequence[Tuple[int, Dict[str, _Rule]]] = (
    (4, {'BYTEARRAY8': _Step.make_bytearray, 'NEXT_BUFFER': _Step.refuse_buffer, 'READONLY_BUFFER': _Step.refuse_buffer}),
    (3, {'PUT': _Step.note_put, 'STACK_GLOBAL': _Step.make_global, 'NEWOBJ_EX': _Step.call_new_with_keywords, 'EMPTY_SET': _Step.make_set,
         'ADDITEMS': _Step.add_items, 'FROZENSET': _Step.make_frozen_set}),
    (2, {'BINBYTES': _Step.make_bytes, 'GLOBAL': _Step.check_names, 'INST': _Step.check_names}),
    (1, {'TUPLE1': _Step.make_tuple, 'TUPLE2': _Step.make_tuple, 'TUPLE3': _Step.make_tuple, 'NEWOBJ': _Step.call_new, 'EXT1': _Step.refuse_extension, 'EXT2': _Step.refuse_extension,
         'EXT4': _Step.refuse_extension}),
    (0, {'EMPTY_LIST': _Step.make_empty, 'EMPTY_DICT': _Step.make_empty, 'EMPTY_TUPLE': _Step.make_empty, 'APPENDS': _Step.append_each, 'SETITEMS': _Step.set_each,
         'POP_MARK': _Step.pop_mark, 'OBJ': _Step.refuse_object, 'BINPERSID': _Step.persistent_line}))
