"""Evaluates definitions of the crates' specs/*.antt.

Only what the definitions use is read: clauses over constructors, lists, numbers and records, `λ`, `if`, `let`. Each definition becomes a
Python function when it is needed first. What is not known here ends the evaluation with an error that names it: nothing is passed over.
The words of the standard library are those of antt_words.py.
"""

from __future__ import annotations

import functools
import pathlib
import re
from collections.abc import Callable, Iterator, Mapping, Sequence
from dataclasses import dataclass, field
from typing import Any, Optional

import antt_words
from antt_words import Function, Made, Value, apply

TOKEN = re.compile(r'\s+|--[^\n]*|(?P<text>"(?:[^"\\]|\\.)*")|(?P<sign>[(){};,.])|(?P<word>[^\s(){}.;,@"«»]+)')
# How much an operator binds: what is on its left, and what on its right.
INFIX = {
    "⧺": (10, 11), "||": (30, 31), "&&": (35, 36), "==": (41, 41), "++": (65, 66), "+": (65, 66), "-": (65, 66), "∷": (68, 67),
    "*": (70, 71), "/": (70, 71), "%": (70, 71), "^": (76, 75),
}
ENDS = (")", "}", ";", ",", "then", "else", "in", "=", "|", "")
ESCAPES = {"\\": "\\", '"': '"', "n": "\n"}
VARIANTS = ".TheVariants"
CONSTANTS = ".TheConstants"
FEW = 4


class Unknown(Exception):
    """A definition has what this evaluator does not know."""


@dataclass(frozen=True)
class Token:
    """A word or a sign. `joined` says that no blank is before it."""

    word: str
    joined: bool


def tokens(text: str) -> list[Token]:
    """The tokens of a text."""
    found: list[Token] = []
    at, joined = 0, False
    while at < len(text):
        match = TOKEN.match(text, at)
        if match is None:
            raise Unknown(f"no token at {text[at:at + 20]!r}")
        at = match.end()
        if match.lastgroup is not None:
            found.append(Token(match[0], joined))
        joined = match.lastgroup is not None
    return found


# ---- files


@dataclass
class Module:
    """A file: its clauses by name, its constructors, and where the names are from that it uses."""

    path: str
    clauses: dict[str, list[str]] = field(default_factory=dict)
    constructors: set[str] = field(default_factory=set)
    names: dict[str, tuple[str, str]] = field(default_factory=dict)
    aliases: dict[str, str] = field(default_factory=dict)

    @property
    def last(self) -> str:
        return self.path.rsplit(".", 1)[-1]


def chunks(text: str) -> Iterator[str]:
    """The declarations of a file: a line that is not indented, with the indented ones below it, and a bracket that ends it."""
    chunk: list[str] = []
    for line in text.splitlines():
        if line.lstrip().startswith("--") or not line.strip():
            continue
        if chunk and not line.startswith((" ", "}")):
            yield "\n".join(chunk)
            chunk = []
        chunk.append(line)
    if chunk:
        yield "\n".join(chunk)


def read_module(path: str, text: str) -> Module:
    """Reads the declarations of a file, and none of its definitions."""
    module = Module(path)
    for chunk in chunks(text):
        first, *_ = words = chunk.split(None, 3)
        if "use" in words[:2]:
            _use(module, chunk)
        elif words[:2] == ["pub", "data"]:
            module.constructors.update(line.split()[0] for line in chunk.splitlines()[1:])
        elif first not in ("pub", "abbrev", "unfoldable", "infixr", "infixl", "infix", "module"):
            module.clauses.setdefault(first, []).append(chunk)
    return module


def _use(module: Module, chunk: str) -> None:
    text = " ".join(chunk.split()).partition("use ")[2]
    path, brace, names = text.partition(".{")
    if not brace:
        path, _, alias = text.partition(" as ")
        module.aliases[alias or path.rsplit(".", 1)[-1]] = path
        return
    for word in names.rstrip("}").split(","):
        name, _, other = word.strip().partition(" as ")
        module.names[other or name] = (path, name)


# ---- clauses, as Python


@dataclass(frozen=True)
class Code:
    """A Python expression. Of a function, `call` begins the call that takes so many values; of a constructor, `made` is its name."""

    text: str
    call: str = ""
    arity: int = 0
    made: str = ""


@dataclass(frozen=True)
class Pattern:
    """A constructor with patterns of its parts; without one any value, under a local name if it has one."""

    made: str = ""
    parts: tuple["Pattern", ...] = ()
    local: str = ""

    def tests(self, value: str) -> Iterator[str]:
        """What has to hold of a value."""
        if self.made:
            yield TESTS.get(self.made, "{}.name == {!r}").format(value, self.made)
        for at, part in enumerate(self.parts):
            yield from part.tests(self._part(value, at))

    def locals(self, value: str) -> Iterator[str]:
        """What the local names are of a value that passes."""
        if self.local:
            yield f"{self.local} = {value}"
        for at, part in enumerate(self.parts):
            yield from part.locals(self._part(value, at))

    def _part(self, value: str, at: int) -> str:
        if self.made == "∷":
            return f"{value}[1:]" if at else f"{value}[0]"
        return f"({value} - 1)" if self.made == "suc" else f"{value}.parts[{at}]"


TESTS = {"true": "{}", "false": "not {}", "zero": "not {}", "suc": "{}", "[]": "not {}", "∷": "{}"}


@dataclass
class Scope:
    """The local names of a clause, each with its name in Python."""

    names: dict[str, str] = field(default_factory=dict)
    count: list[int] = field(default_factory=lambda: [0])

    def inner(self) -> "Scope":
        return Scope(dict(self.names), self.count)

    def add(self, name: str) -> str:
        self.count[0] += 1
        self.names[name] = f"v{self.count[0]}"
        return self.names[name]


@dataclass(frozen=True)
class Clause:
    patterns: tuple[Pattern, ...]
    code: str

    def lines(self) -> list[str]:
        """The clause as a part of a Python function of the values a0, a1 .."""
        named = list(enumerate(self.patterns))
        tests = [test for at, pattern in named for test in pattern.tests(f"a{at}")]
        found = [local for at, pattern in named for local in pattern.locals(f"a{at}")]
        return [f" if {' and '.join(tests) or True}:", *(f"  {local}" for local in found), f"  return {self.code}"]


class Parser:
    """Reads one clause."""

    def __init__(self, program: "Program", module: Module, text: str) -> None:
        self.program = program
        self.module = module
        self.tokens = tokens(text)
        self.at = 0

    @property
    def word(self) -> str:
        return self.tokens[self.at].word if self.at < len(self.tokens) else ""

    def next(self) -> str:
        self.at += 1
        return self.tokens[self.at - 1].word

    def expect(self, word: str) -> None:
        if self.word != word:
            after = " ".join(token.word for token in self.tokens[self.at:self.at + 8])
            raise Unknown(f"{self.module.path}: {word!r} is expected before {after!r}")
        self.at += 1

    def is_field(self) -> bool:
        """Whether a dot with no blank before it comes."""
        return self.word == "." and self.tokens[self.at].joined

    # --- Patterns ---

    def clause(self) -> Clause:
        """`name pattern .. = expression`."""
        scope = Scope()
        self.next()
        patterns = []
        while self.word != "=":
            patterns.append(self.pattern_atom(scope))
        self.expect("=")
        code = self.expression(scope, 0)
        if self.at != len(self.tokens):
            raise Unknown(f"{self.module.path}: {self.word!r} is left")
        return Clause(tuple(patterns), code.text)

    def pattern_atom(self, scope: Scope) -> Pattern:
        word = self.next()
        if word == "(":
            pattern = self.pattern(scope)
            self.expect(")")
            return pattern
        if word == "_":
            return Pattern()
        if self.is_field():
            self.next()
            return Pattern(self.program.member(self.module, word, self.next()))
        made = self.program.constructor(self.module, word)
        return Pattern(made) if made else Pattern(local=scope.add(word))

    def pattern(self, scope: Scope) -> Pattern:
        first = self.pattern_atom(scope)
        if self.word == "∷":
            self.next()
            return Pattern("∷", (first, self.pattern(scope)))
        parts = []
        while self.word != ")":
            parts.append(self.pattern_atom(scope))
        if parts and not first.made:
            raise Unknown(f"{self.module.path}: a pattern begins with no constructor")
        return Pattern(first.made, tuple(parts)) if parts else first

    # --- Expressions ---

    def expression(self, scope: Scope, power: int) -> Code:
        """An expression whose operators bind at least so much."""
        left = self.prefix(scope)
        while self.word in INFIX and INFIX[self.word][0] >= power:
            word = self.next()
            right = self.expression(scope, INFIX[word][1])
            left = Code(antt_words.INFIX[word].format(left.text, right.text))
        return left

    def prefix(self, scope: Scope) -> Code:
        special = {"λ": self.function, "if": self.choice, "let": self.bound}.get(self.word)
        return special(scope) if special else self.application(scope)

    def function(self, scope: Scope) -> Code:
        self.next()
        inner = scope.inner()
        names = []
        while self.word != ".":
            if self.word == "(":
                self.next()
                names.append(inner.add(self.next()))
                while self.next() != ")":
                    pass
            else:
                names.append(inner.add(self.next()))
        self.expect(".")
        return Code(f"Function({len(names)}, lambda {', '.join(names)}: {self.expression(inner, 0).text})")

    def choice(self, scope: Scope) -> Code:
        self.next()
        test = self.expression(scope, 0)
        self.expect("then")
        yes = self.expression(scope, 0)
        self.expect("else")
        no = self.expression(scope, 0)
        return Code(f"({yes.text} if {test.text} else {no.text})")

    def bound(self, scope: Scope) -> Code:
        self.next()
        inner = scope.inner()
        name = self.next()
        self.expect("=")
        value = self.expression(scope, 0)
        self.expect("in")
        local = inner.add(name)
        return Code(f"(lambda {local}: {self.expression(inner, 0).text})({value.text})")

    def application(self, scope: Scope) -> Code:
        function = self.atom(scope)
        values: list[str] = []
        while self.word not in ENDS and self.word not in INFIX:
            values.append((self.prefix(scope) if self.word in ("λ", "if", "let") else self.atom(scope)).text)
        return _applied(function, values) if values else function

    def atom(self, scope: Scope) -> Code:
        """A name, a number, a text or what is in brackets, with the fields that are read of it."""
        word = self.next()
        if word == "record":
            return self.record(scope)
        code = self.brackets(scope) if word == "(" else self.name(scope, word)
        while self.is_field():
            self.next()
            name = self.next()
            code = Code(f"{code.text}.parts[{name}]" if name.isdigit() else f"{code.text}[{name!r}]")
        return code

    def brackets(self, scope: Scope) -> Code:
        parts = [self.expression(scope, 0)]
        while self.word == ",":
            self.next()
            parts.append(self.expression(scope, 0))
        self.expect(")")
        return parts[0] if len(parts) == 1 else _applied(Code("", made=","), [part.text for part in parts])

    def record(self, scope: Scope) -> Code:
        fields = [] if self.word == "{" else [f"**{self.atom(scope).text}"]
        self.expect("{")
        while self.word != "}":
            name = self.next()
            self.expect("=")
            fields.append(f"{name!r}: {self.expression(scope, 0).text}")
            if self.word == ";":
                self.next()
        self.next()
        return Code(f"{{{', '.join(fields)}}}")

    def name(self, scope: Scope, word: str) -> Code:
        if word in scope.names:
            return Code(scope.names[word])
        if word[0].isdigit():
            return Code(str(int(word, 0)))
        if word[0] == '"':
            return Code(repr(re.sub(r"\\(.)", _unescaped, word[1:-1])))
        if self.is_field() and word in self.module.aliases:
            self.next()
            return self.program.name_in(self.module.aliases[word], self.next())
        return self.program.name(self.module, word)


def _unescaped(match: re.Match[str]) -> str:
    """What a backslash and the sign behind it stand for in a text."""
    if match[1] not in ESCAPES:
        raise Unknown(f"{match[0]} in a text")
    return ESCAPES[match[1]]


def _applied(function: Code, values: Sequence[str]) -> Code:
    """A function of values: a call at once where it takes so many."""
    if function.made == "suc" and len(values) == 1:
        return Code(f"({values[0]} + 1)")
    if function.made:
        return Code(f"Made({function.made!r}, ({', '.join(values)},))")
    if function.call and len(values) >= function.arity:
        call = f"{function.call}({', '.join(values[:function.arity])})"
        rest = values[function.arity:]
        return Code(f"apply({call}, {', '.join(rest)})" if rest else call)
    return Code(f"apply({function.text}, {', '.join(values)})")


# ---- programs


def _function(name: str, clauses: Sequence[Clause]) -> list[str]:
    """A Python function that takes the first clause that fits."""
    values = ", ".join(f"a{at}" for at in range(len(clauses[0].patterns)))
    lines = [line for clause in clauses for line in clause.lines()]
    return [f"def {name}({values}):", *lines, f" raise Unknown('no clause of {name} takes', {values})"]


def _table(name: str, clauses: Sequence[Clause]) -> Optional[list[str]]:
    """The same of many clauses, by a constructor that all have at one place, or None."""
    for at in range(len(clauses[0].patterns)):
        tags = {clause.patterns[at].made for clause in clauses} - {""}
        if len(tags) <= FEW or any(tag in TESTS for tag in tags):
            continue
        lines: list[str] = []
        entries: list[str] = []
        for number, tag in enumerate([*sorted(tags), ""]):
            lines += _function(f"{name}_{number}", [clause for clause in clauses if clause.patterns[at].made in (tag, "")] or clauses[:1])
            entries.append(f"{tag!r}: {name}_{number}")
        values = ", ".join(f"a{place}" for place in range(len(clauses[0].patterns)))
        return [*lines, f"{name}_by = {{{', '.join(entries)}}}", f"def {name}({values}):", f" return {name}_by.get(a{at}.name, {name}_by[''])({values})"]
    return None


def _kept(function: Callable[[Value], Value]) -> Callable[[Value], Value]:
    """A function of one value that keeps its answers for numbers and constructors without parts."""
    answers: dict[Value, Value] = {}

    def run(value: Value) -> Value:
        key = value if type(value) is int else value.name if type(value) is Made and not value.parts else None
        if key is None:
            return function(value)
        if key not in answers:
            answers[key] = function(value)
        return answers[key]
    return run


class Program:
    """The definitions of a folder of crates. `constants` are those of Rattle's files."""

    def __init__(self, crates: pathlib.Path, constants: Mapping[str, Value]) -> None:
        self.crates = crates
        self.modules: dict[str, Module] = {}
        self.codes: dict[tuple[str, str], Code] = {}
        # (names of definitions of plain values, whose answers are kept: who asks them of the same values again and again says so)
        self.kept: set[str] = set()
        self.space: dict[str, Any] = {"Made": Made, "Function": Function, "apply": apply, "Unknown": Unknown, "made": {}}
        self.space.update({f"w_{name}": word.run for name, word in antt_words.WORDS.items()})
        self.space.update({f"W_{name}": word for name, word in antt_words.WORDS.items()})
        self.space.update({f"c_{name}": value for name, value in constants.items()})

    # --- Names ---

    def module(self, path: str) -> Optional[Module]:
        """A file of specs/; None where it is none of the crates'."""
        if path not in self.modules:
            first, crate, *rest = path.split(".")
            file = self.crates.joinpath(crate, *rest).with_suffix(".antt")
            if first != "Rattle" or not file.is_file():
                return None
            self.modules[path] = read_module(path, file.read_text())
        return self.modules[path]

    def member(self, module: Module, alias: str, name: str) -> str:
        """A constructor behind an alias, as `kind.Text`."""
        path = module.aliases.get(alias, "")
        if not path.endswith(VARIANTS):
            raise Unknown(f"{module.path}: {alias}.{name} is no constructor")
        return f"{path.split('.')[-2]}.{name}"

    def constructor(self, module: Module, name: str) -> str:
        """The constructor that a name stands for in a file, or an empty text."""
        if name in antt_words.CONSTRUCTORS:
            return name
        if name in module.constructors:
            return f"{module.last}.{name}"
        path, given = module.names.get(name, ("", ""))
        other = self.module(path) if path else None
        return self.constructor(other, given) if other else ""

    def name(self, module: Module, name: str) -> Code:
        """What a name stands for in a file."""
        made = self.constructor(module, name)
        if made:
            return self._made(made)
        if name in module.clauses:
            return self._defined(module, name)
        if name not in module.names:
            raise Unknown(f"{module.path}: {name}")
        return self.name_in(*module.names[name])

    def name_in(self, path: str, name: str) -> Code:
        """What a name of another file stands for."""
        if path.endswith(VARIANTS):
            return self._made(f"{path.split('.')[-2]}.{name}")
        if path.endswith(CONSTANTS) and f"c_{name}" in self.space:
            return Code(f"c_{name}")
        other = self.module(path)
        if other is not None:
            return self.name(other, name)
        if name not in antt_words.WORDS:
            raise Unknown(f"{path}.{name}")
        return Code(f"W_{name}", f"w_{name}", antt_words.WORDS[name].arity)

    def _made(self, made: str) -> Code:
        if made in antt_words.PLAIN:
            return Code(antt_words.PLAIN[made], made=made if made == "suc" else "")
        self.space["made"].setdefault(made, Made(made))
        return Code(f"made[{made!r}]", made=made)

    # --- Definitions ---

    def _defined(self, module: Module, name: str) -> Code:
        """A definition. It may be its own part, so that its name is there before its body."""
        key = (module.path, name)
        if key not in self.codes:
            arity = self._arity(module, module.clauses[name][0])
            python = f"d{len(self.codes)}_{name if name.isascii() and name.isidentifier() else ''}"
            self.codes[key] = Code(python.upper() if arity else f"{python}()", python if arity else "", arity)
            self._compile(module, name, python, arity)
        return self.codes[key]

    def _arity(self, module: Module, text: str) -> int:
        parser = Parser(self, module, text)
        parser.next()
        scope = Scope()
        count = 0
        while parser.word != "=":
            parser.pattern_atom(scope)
            count += 1
        return count

    def _compile(self, module: Module, name: str, python: str, arity: int) -> None:
        clauses = [Parser(self, module, text).clause() for text in module.clauses[name]]
        if any(len(clause.patterns) != arity for clause in clauses):
            raise Unknown(f"{module.path}: the clauses of {python} have not one number of patterns")
        lines = _table(python, clauses) if len(clauses) > FEW else None
        exec("\n".join(lines or _function(python, clauses)), self.space)
        if arity < 2:
            self.space[python] = functools.cache(self.space[python]) if not arity else _kept(self.space[python])
        elif name in self.kept:
            self.space[python] = functools.cache(self.space[python])
        self.space[python.upper()] = Function(arity, self.space[python])

    def value(self, path: str, name: str) -> Any:
        """The value of a name: a Python function takes its values at once."""
        value = eval(self.name_in(path, name).text, self.space)
        return (lambda *values: apply(value, *values)) if isinstance(value, Function) else value
