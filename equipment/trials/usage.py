"""What the program says of words that are no task, and where it is asked for help, a row for each.

The texts are those of clap 4: they go to standard error, with status 2, and standard output gets nothing.
"""

from __future__ import annotations

from collections.abc import Sequence

from .room import Room
from .row import Row, fails, misused, repeated, trials_of, unexpected, valueless
from .trial import Trial

OF_ONE_FILE = ("list", "objects", "calls", "debug", "form")
TASKS = (*OF_ONE_FILE, "gate", "reach", "members", "assemble", "same", "source", "opcodes")
# (the entrance has words of its own for these)
OF_PYTHON = ("source",)
ANY_TASK = "<COMMAND>"
GATE = "gate <LIST> <FILE>..."
MEMBERS = "members <FILE>"
SAME = "same <FILE> <OTHER>"
MISSING = "the following required arguments were not provided:"
FILE_MISSING = f"{MISSING}\n  <FILE>"

# What the entrance has words of its own for.
NO_TASKS = (
    misused(
        "no words",
        why=f"'picklestep' requires a subcommand but one was not provided\n  [subcommands: {', '.join(TASKS)}, help]",
        usage=ANY_TASK,
        is_bare=True,
    ),
    misused("an unknown subcommand", "fly", "pair.pickle", why="unrecognized subcommand 'fly'", usage=ANY_TASK, is_bare=True),
    misused("a subcommand that is spelled wrong", "lst", "pair.pickle", why="unrecognized subcommand 'lst'\n\n  tip: a similar subcommand exists: 'list'", usage=ANY_TASK, is_bare=True),
    misused("an unknown option", "--fast", why="unexpected argument '--fast' found", usage=ANY_TASK, is_bare=True),
)

WORDS = (
    *(misused(f"{task} without a file", task, why=FILE_MISSING, usage=f"{task} <FILE>", is_bare=task in OF_PYTHON) for task in TASKS if task not in ("gate", "same", "opcodes")),
    *(
        misused(f"{task} with two files", task, "pair.pickle", "none.pickle", why="unexpected argument 'none.pickle' found", usage=f"{task} [OPTIONS] <FILE>", is_bare=task in OF_PYTHON)
        for task in TASKS
        if task not in ("gate", "assemble", "same", "opcodes")
    ),
    misused("assemble with two files", "assemble", "pair.pickle", "none.pickle", why="unexpected argument 'none.pickle' found", usage="assemble <FILE>"),
    misused("same without a file", "same", why=f"{FILE_MISSING}\n  <OTHER>", usage=SAME),
    misused("same with one file", "same", "pair.pickle", why=f"{MISSING}\n  <OTHER>", usage=SAME),
    misused("same with three files", "same", "pair.pickle", "none.pickle", "pair.pickle", why="unexpected argument 'pair.pickle' found", usage=SAME.replace(" ", " [OPTIONS] ", 1)),
    unexpected("unframed pickles that are compared", "--unframed", SAME, "same", "pair.pickle", "none.pickle", "--unframed"),
    misused("opcodes with a file", "opcodes", "pair.pickle", why="unexpected argument 'pair.pickle' found", usage="opcodes [OPTIONS]"),
    misused("several pickles of no file", "opcodes", "--many", why="unexpected argument '--many' found", usage="opcodes [OPTIONS]"),
    misused("a gate without a file", "gate", why=f"{MISSING}\n  <LIST>\n  <FILE>...", usage=GATE),
    misused("a gate with a list alone", "gate", "names.list", why=f"{FILE_MISSING}...", usage=GATE),
    unexpected("several pickles of a file at a gate", "--many", GATE, "gate", "names.list", "pair.pickle", "--many"),
    unexpected("JSON of a source", "--json", "source <FILE>", "source", "pair.pickle", "--json", is_bare=True),
    unexpected("several pickles for members", "--many", MEMBERS, "members", "pair.pickle", "--many"),
    unexpected("an unknown option of list", "--fast", "list [OPTIONS] <FILE>", "list", "--fast", "pair.pickle"),
    unexpected("an unknown option of list after its file", "--fast", "list <FILE>", "list", "pair.pickle", "--fast"),
    misused("an option that is spelled wrong", "list", "--mani", "pair.pickle", why="unexpected argument '--mani' found\n\n  tip: a similar argument exists: '--many'", usage="list --many <FILE>"),
    unexpected("a window of calls", "--window", "calls <FILE>", "calls", "pair.pickle", "--window", "2"),
    unexpected("bytes of list that are left out", "--skip", "list <FILE>", "list", "pair.pickle", "--skip", "1:1"),
    unexpected("what several pickles reach", "--many", "reach <FILE>", "reach", "pair.pickle", "--many"),
    repeated("buffers given twice", "--buffers", "reach", "pair.pickle", "--buffers", "--buffers"),
    unexpected("an unframed form", "--unframed", "form <FILE>", "form", "pair.pickle", "--unframed"),
    repeated("an option given twice", "--many", "list", "pair.pickle", "--many", "--many"),
    repeated("JSON asked for twice", "--json", "list", "pair.pickle", "--json", "--json"),
    fails("a word that is not text", "cannot read", "list", b"\xff"),
    fails("a word that is not text after others", "cannot read", "debug", "pair.pickle", "--save", b"a\xff"),
)

NO_HOLES = ("", "1", ":", "1:", ":1", "1:-1", "+1:1", "1:1:1", "1,1", "0x1:1", " 1:1", "1:9223372036854775808", "18446744073709551616:1")
NO_HOLE = "is no OFFSET:LENGTH, or does not stand behind the bytes that are left out before it"
NO_READING = "'--memo' takes the word 'kept', and does not go with '--first'"
UNFIT = '''printf '0:1\\n 1:x \\n2:1\\n' >unfit.txt; "$@"'''


def no_hole(name: str, hole: str, *options: str, through: str = "") -> Row:
    """`calls` names the first text that is no hole, whatever else is wrong with its options."""
    return misused(name, "calls", "pair.pickle", *options, why=f"'{hole}' {NO_HOLE}", usage=ANY_TASK, through=through)


def no_reading(*options: str) -> Row:
    """`calls` is asked for no reading that there is."""
    return misused(f"calls {' '.join(options)}", "calls", "pair.pickle", *options, why=NO_READING, usage=ANY_TASK)


CALLS = (
    *(no_hole(f"a hole '{hole}'", hole, "--skip", hole) for hole in NO_HOLES),
    no_hole("a hole before another", "1:1", "--skip", "2:1", "--skip", "1:1"),
    no_hole("a hole over another", "2:1", "--skip", "0:3", "--skip", "2:1"),
    no_hole("two texts that are no holes", "x", "--skip", "x", "--skip", "y"),
    no_hole("a hole before another, and a text that is none", "1:1", "--skip", "2:1", "--skip", "1:1", "--skip", "x"),
    no_hole("a line that is no hole", "1:x", "--skip", "@unfit.txt", through=UNFIT),
    valueless("a hole without bytes or a file", "--skip <OFFSET:LENGTH>", "calls", "pair.pickle", "--skip"),
    no_reading("--memo", "lost"),
    no_reading("--memo", "Kept"),
    no_reading("--memo", "kept "),
    no_reading("--memo", ""),
    no_reading("--first", "--memo", "kept"),
    no_reading("--memo=kept", "--first"),
    no_reading("--first", "--memo", "lost"),
    no_reading("--memo", "lost", "--skip", "1:1"),
    no_hole("no memo and no hole", "x", "--memo", "lost", "--skip", "x"),
    no_hole("no hole and no memo", "x", "--skip", "x", "--memo", "lost"),
    no_hole("one pickle with a memo, and a hole before another", "0:1", "--first", "--memo", "kept", "--skip", "1:1", "--skip", "0:1"),
    valueless("a memo without a word", "--memo <kept>", "calls", "pair.pickle", "--memo"),
    repeated("two memos", "--memo <kept>", "calls", "pair.pickle", "--memo", "kept", "--memo", "kept"),
)

FILE = (("<FILE>", "the pickle"),)
MANY_HELP = "read FILE as pickles that follow one another: go on after each STOP"
UNFRAMED_HELP = "take FRAME for an opcode like others, as a pickle needs that was cut off"
WHOLE_HELP = "print arguments so that `assemble` makes the same bytes again; with --json this changes nothing"
JSON_HELP = ("    --json", "print JSON Lines, for programs: an object in each line")
WHAT_EACH_DOES = (
    ("list", "Lists the opcodes of FILE with their offsets and arguments"),
    ("objects", "Prints the objects that the opcodes of FILE make, and which of them is the result"),
    ("calls", "Prints what the pickles of FILE would import and call, a line for each opcode that does so"),
    ("debug", "Runs the commands of standard input on FILE: steps forwards and back, shows, edits"),
    ("form", "Says whether FILE is a pickle in the form that picklers write, else where it is not and why"),
)
GATE_DOES = ("gate", "Says whether all that the pickle in FILE imports and uses is in LIST, else what is not")
REACH_DOES = ("reach", "Says whether any loader of FILE comes to an import or a call, whatever FILE is")
MEMBERS_DOES = ("members", "Prints the members of FILE, if it is an archive in the form that writers write, else where it is not and why")
ASSEMBLE_DOES = ("assemble", "Writes the pickle whose opcodes stand in FILE as `list` prints them, else says which line is none")
SAME_DOES = ("same", "Says whether the pickles in FILE and OTHER make the same objects in the same order, else how they differ")
SOURCE_DOES = ("source", "Prints the pickle in FILE as statements of Python, which do what loading it does")
OPCODES_DOES = ("opcodes", "Prints the table of all opcodes, with what each does")
SAME_FILES = (("<FILE>", "the pickle"), ("<OTHER>", "the pickle that it is compared with"))
SAME_MANY = ("    --many", "read both files as pickles that follow one another: go on after each STOP")
GATE_FILES = (("<LIST>", "the list of names, and of what may be done with each"), ("<FILE>...", "a pickle or an archive, or several"))
OPTIONS = {
    "list": (("    --many", MANY_HELP), ("    --unframed", UNFRAMED_HELP), JSON_HELP, ("    --whole", WHOLE_HELP)),
    "objects": (("    --many", MANY_HELP), ("    --unframed", UNFRAMED_HELP), JSON_HELP),
    "form": (("    --many", "changes nothing: FILE is to be one pickle"), JSON_HELP),
    "reach": (
        ("    --extensions", "the loader knows extension codes"),
        ("    --persistent-ids", "the loader has a persistent_load"),
        ("    --buffers", "the loader was given buffers"),
        JSON_HELP,
    ),
    "calls": (
        ("    --many", "changes nothing: all pickles of FILE are read without it too"),
        ("    --first", "read the first pickle alone, up to its STOP"),
        ("    --memo <kept>", "read FILE as one unpickler does that loads again and again and keeps its memo"),
        ("    --full", "print arguments in full: whole texts, and all parts of a tuple"),
        ("    --skip <OFFSET:LENGTH>", "leave bytes of FILE out, as raw numbers between opcodes; offsets stay those in FILE"),
        JSON_HELP,
    ),
    "debug": (
        ("    --many", MANY_HELP),
        ("    --unframed", UNFRAMED_HELP),
        ("    --window <N>", "keep the records of the latest N steps; to go back further, run from the start again"),
        ("    --save <OUT>", "write the pickle to OUT after the last line"),
        JSON_HELP,
    ),
}
NO_MORE_HELP = ("-h, --help", "Print help")


def columns(heading: str, rows: Sequence[tuple[str, str]]) -> str:
    width = max(len(name) for name, _ in rows)
    return heading + "".join(f"  {name:<{width}}  {words}\n" for name, words in rows)


def help_of(does: tuple[str, str], usage: str, files: Sequence[tuple[str, str]] = FILE, options: Sequence[tuple[str, str]] = ()) -> Row:
    """The help of a subcommand of the program itself; the entrance has its own."""
    rows = (columns("Arguments:\n", files) + "\n" if files else "") + columns("Options:\n", (*options, NO_MORE_HELP))
    return Row(f"the help of {does[0]}", (does[0], "--help"), status=2, errors=f"{does[1]}\n\nUsage: picklestep {does[0]} {usage}\n\n{rows}", is_bare=True)


PROGRAM_HELP = (
    "Shows what a Python pickle would import, call and build, and runs nothing of it\n\nUsage: picklestep <COMMAND>\n\n"
    + columns("Commands:\n", (*WHAT_EACH_DOES, GATE_DOES, REACH_DOES, MEMBERS_DOES, ASSEMBLE_DOES, SAME_DOES, SOURCE_DOES, OPCODES_DOES, ("help", "Print this message or the help of the given subcommand(s)")))
    + columns("\nOptions:\n", (NO_MORE_HELP,))
)
HELPS = (
    *(Row(f"the help of the program, by {word}", (word,), status=2, errors=PROGRAM_HELP, is_bare=True) for word in ("--help", "-h", "help")),
    *(help_of(does, "[OPTIONS] <FILE>", options=OPTIONS[does[0]]) for does in (*WHAT_EACH_DOES, REACH_DOES)),
    help_of(GATE_DOES, "[OPTIONS] <LIST> <FILE>...", GATE_FILES, (JSON_HELP,)),
    help_of(SAME_DOES, "[OPTIONS] <FILE> <OTHER>", SAME_FILES, (SAME_MANY, JSON_HELP)),
    help_of(SOURCE_DOES, "[OPTIONS] <FILE>", options=(("    --many", MANY_HELP), ("    --unframed", UNFRAMED_HELP))),
    help_of(OPCODES_DOES, "[OPTIONS]", (), (JSON_HELP,)),
    help_of(MEMBERS_DOES, "[OPTIONS] <FILE>", options=(JSON_HELP,)),
    help_of(ASSEMBLE_DOES, "<FILE>"),
)


def trials(room: Room) -> list[Trial]:
    return trials_of((*NO_TASKS, *WORDS, *CALLS, *HELPS), room)
