"""Compares the table of opcodes with Python's pickletools, and with it the lists of opcodes of the package and of the tests.

The table is the macro `opcodes!` in crates/pickle_ops/src/opcode.rt. The proofs say that it is the table of crates/pickle_ops/specs/Table.antt, and that
`opcodes` prints it; that all of it is right is what is tried here.
"""

from __future__ import annotations

import functools
import json
import pickletools
import re
import subprocess
import sys
from dataclasses import dataclass
from pathlib import Path
from random import Random

import fuzz
from picklestep.opcodes import TABLE as TABLE_OF_PACKAGE

from trials.trial import Trial

TABLE = "crates/pickle_ops/src/opcode.rt"
RECORD = re.compile(r"^ +\w+ +\{ (b'.'.*|0x.*) \}$", re.MULTILINE)
COLUMN = re.compile(r"""b'.'|b?"[^"]*"|\([^)]*\)|[^\s"(]+""")

# The form of each argument of pickletools, as the enum `Form` of the table names it. The lines of GET and PUT are digits here, and quotes are asked for in STRING alone.
FORMS = {
    "uint1": "Uint1", "uint2": "Uint2", "uint4": "Uint4", "uint8": "Uint8", "int4": "Int4", "float8": "Float8", "long1": "Bytes1", "long4": "String4", "string1": "Bytes1",
    "string4": "String4", "bytes1": "Bytes1", "bytes4": "Bytes4", "bytes8": "Bytes8", "bytearray8": "Bytes8", "unicodestring1": "Bytes1", "unicodestring4": "Bytes4",
    "unicodestring8": "Bytes8", "stringnl": "Quoted", "stringnl_noescape": "Line", "stringnl_noescape_pair": "Two", "unicodestringnl": "Line",
    "decimalnl_short": "Line", "decimalnl_long": "Line", "floatnl": "Line",
}
FORMS_OF = {"GET": "Decimal", "PUT": "Decimal"}

SEED = 1

# The rows of opcodes that make an object of their own, whatever their kind.
MAKERS = {"Buffer", "ReadOnly"}


@dataclass(frozen=True)
class Record:
    """A record of the table: its columns, as they are written there."""

    written_code: str
    written_name: str
    protocol: str
    form: str
    row: str
    kind: str
    code_on_a_page: str
    name_on_a_page: str
    length_of_name: str

    @property
    def code(self) -> int:
        return code_of(self.written_code)

    @property
    def name(self) -> str:
        return self.written_name.strip('"')


def code_of(written: str) -> int:
    return ord(written[2]) if written.startswith("b'") else int(written, 16)


def records(root: Path) -> list[Record]:
    text = (root / TABLE).read_text(encoding="utf-8")
    return [Record(*COLUMN.findall(columns)) for columns in RECORD.findall(text)]


def difference(found: object, wanted: object) -> str:
    return "" if found == wanted else f"{found}, and not {wanted}"


# --- The table ---


def wanted_form(opcode: pickletools.OpcodeInfo) -> str:
    if opcode.arg is None:
        return "Empty"
    return FORMS_OF.get(opcode.name, FORMS[opcode.arg.name])


def fault_of_table(root: Path) -> str:
    found = [(record.name, record.code, int(record.protocol), record.form) for record in records(root)]
    wanted = [(opcode.name, ord(opcode.code), opcode.proto, wanted_form(opcode)) for opcode in pickletools.opcodes]
    faults = [difference(*pair) for pair in zip(found, wanted)]
    return next(filter(None, faults), "") or difference(len(found), len(wanted))


# --- What the program knows ---

# What no edit puts in, and why.
NOT_PUT_IN = {"STOP": "refused: C9 E2 stop item", "FRAME": "refused: C9 E3 frame item"}


def fault_of_opcode(program: str, file: Path, opcode: pickletools.OpcodeInfo) -> str:
    """The program lists an opcode by its code, and an edit puts it in by its name."""
    argument = fuzz.argument(opcode.name, Random(SEED))
    file.write_bytes(opcode.code.encode("latin-1") + argument)
    listed = subprocess.run([program, "list", "--unframed", str(file)], capture_output=True, timeout=600, check=False).stdout.decode().splitlines()
    code = opcode.code if opcode.code.isprintable() and opcode.code.isascii() else f"\\x{ord(opcode.code):02x}"
    begin = f"    0: {code:<4} {opcode.name}"
    if not listed or not f"{listed[0]} ".startswith(f"{begin} ") or listed[-1] != f"highest protocol among opcodes = {opcode.proto}":
        return f"{opcode.name} of protocol {opcode.proto} is listed as {listed}"
    file.write_bytes(b".")
    script = f"insert 0 {opcode.name} {argument.hex()}\nitems\n".encode()
    answers = subprocess.run([program, "debug", str(file)], input=script, capture_output=True, timeout=600, check=False).stdout.decode().splitlines()
    shown = f">     0     0: {'STOP' if opcode.name in NOT_PUT_IN else opcode.name}"
    if len(answers) < 2 or answers[0] != NOT_PUT_IN.get(opcode.name, "edited 0") or not f"{answers[1]} ".startswith(f"{shown} "):
        return f"{opcode.name} is put in as {answers}"
    return ""


def fault_of_program(program: str, folder: Path) -> str:
    folder.mkdir(parents=True, exist_ok=True)
    return next(filter(None, (fault_of_opcode(program, folder / "one.pickle", opcode) for opcode in pickletools.opcodes)), "")


def fault_of_answer(program: str) -> str:
    """What the program prints of the table: what pickletools says, in its order, and the same sentences in the text for people."""
    text, lines = (subprocess.run([program, "opcodes", *options], capture_output=True, timeout=600, check=True).stdout.decode("ascii") for options in ((), ("--json",)))
    printed = [json.loads(line) for line in lines.splitlines()]
    found = [tuple(fields[name] for name in ("kind", "name", "code", "protocol", "argument")) for fields in printed]
    wanted = [("entry", opcode.name, ord(opcode.code), opcode.proto, opcode.arg.name if opcode.arg is not None else "") for opcode in pickletools.opcodes]
    faults = [difference(*pair) for pair in zip(found, wanted)]
    said = "".join(f"{fields['name']}: {fields['sentence']}\n" for fields in printed)
    return next(filter(None, faults), "") or difference(len(found), len(wanted)) or difference(text, said)


# --- Other lists ---


def fault_of_rows(root: Path) -> str:
    """The unit tests have a row for each row of the table, with each kind and each form that go with it: a comment names the opcode."""
    text = (root / "crates/unit_tests/src/machine/rows.rt").read_text(encoding="utf-8")
    tested = set(re.findall(r"^    // ([A-Z][A-Z0-9_]+)$", text, re.MULTILINE))
    table = {record.name: (record.row, record.kind, record.form) for record in records(root)}
    shapes = {table.get(name) for name in tested}
    return difference(sorted(tested - set(table)), []) or difference([name for name, shape in table.items() if shape not in shapes], [])


def fault_of_package(root: Path, program: str) -> str:
    """The table of the package is made of the program's answer, and says of arguments what pickletools says; an opcode that makes no object has no
    kind."""
    made = subprocess.run([sys.executable, "-B", str(root / "tools/make_opcodes.py"), program], capture_output=True, timeout=600, check=True).stdout
    if made != (root / "python/picklestep/opcodes.py").read_bytes():
        return "python3 tools/make_opcodes.py makes another"
    arguments = {opcode.name: opcode.arg.name if opcode.arg is not None else "" for opcode in pickletools.opcodes}
    wanted = {record.name for record in records(root) if record.kind == "_" and record.row not in MAKERS}
    return difference({info.name: info.argument for info in TABLE_OF_PACKAGE}, arguments) or difference(
        {info.name for info in TABLE_OF_PACKAGE if not info.makes}, wanted)


def fault_of_fuzzer(root: Path) -> str:
    """The fuzzer can make the argument of each opcode."""
    lacking = [record.name for record in records(root) if record.form != "Empty" and record.name not in fuzz.KEYED
               and (record.name not in fuzz.OPCODES or fuzz.OPCODES[record.name].arg.name not in fuzz.ARGUMENTS)]
    return difference(lacking, [])


def trials(root: Path, program: str, folder: Path) -> list[Trial]:
    return [
        Trial("the table of opcodes, against pickletools", functools.partial(fault_of_table, root)),
        Trial("each opcode as it is listed and put in, against pickletools", functools.partial(fault_of_program, program, folder)),
        Trial("the rows of the unit tests, for each row, kind and form", functools.partial(fault_of_rows, root)),
        Trial("the table that the program prints, against pickletools", functools.partial(fault_of_answer, program)),
        Trial("the table of the package", functools.partial(fault_of_package, root, program)),
        Trial("the arguments that the fuzzer makes", functools.partial(fault_of_fuzzer, root)),
    ]
