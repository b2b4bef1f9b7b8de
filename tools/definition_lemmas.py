#!/usr/bin/env python3
"""Writes lemmas that say what the definition of the unpickler comes to, as antt.py evaluates it, for the prover to check by computing.

    definition_lemmas.py crates SEED COUNT >crates/pickle_loader/proofs/Cases.antt

With a line `pub mod Cases` in proofs/Lib.antt `rt check` in crates/pickle_loader refuses each case at which antt.py is wrong. Neither is
kept: the file is some megabytes large, and follows the definition. No group of trials runs this: run it by hand where the definition of the
unpickler or antt.py was changed.
"""

from __future__ import annotations

import itertools
import pathlib
import random
import sys
import threading
from collections.abc import Iterator, Sequence

sys.path.insert(0, str(pathlib.Path(__file__).resolve().parents[1] / "equipment"))

import load_cases
import loads
from antt_words import Function, Made, Value
from definition import Definition

MOST_BYTES = 60
MOST_OPCODES = 40
REPLIES = ("PyOther",) * 8 + ("PyStr", "PyTuple", "PyDict", "PyByteArray", "PyList", "Raises")
COUNT = 30
STACK = 256 << 20
INTEGERS = ("Kind.Int", "Kind.Ext", "Environment.Extension")
ALIASES = {"Kind": "kind", "Filling": "filling"}
HEAD = """\
-- What the definitions come to.
use Rattle.std.specs.Prelude.{◌≡◌, ℕ, pos, negsuc, true, false, List, [], ◌∷◌, length, slice_get, Some, None}
use Rattle.std.specs.Option.{unwrap_or}
use Rattle.std.proofs.Common.{refl}
use Rattle.pickle_ops.specs.declared.kind.Kind.TheVariants as kind
use Rattle.pickle_ops.specs.declared.row.Filling.TheVariants as filling
use Rattle.pickle_lenient.specs.declared.taken.Frames.TheVariants as frames
use Rattle.pickle_lenient.specs.Stream.{taken}
use Rattle.pickle_lenient.specs.Lenient.{lenient}
use Rattle.pickle_further.specs.declared.way.Pickles.TheVariants as pickles
use Rattle.pickle_loader.specs.Environment.{PyType, PyStr, PyTuple, PyList, PyDict, PySet, PyFrozenSet, PyByteArray, PyMemoryView, PyOther}
use Rattle.pickle_loader.specs.Environment.{Value, Plain, Own, Foreign, Line, Given, Act, Make, Find, Extension, Call, New, NewEx, Instance}
use Rattle.pickle_loader.specs.Environment.{SetState, Fill, Persist, NextBuffer, View, Method, Reply, Raises, Answers, World}
use Rattle.pickle_loader.specs.Dispatch.{Going, Ended, Failed}
use Rattle.pickle_loader.specs.Bytes.{load_bytes}
use Rattle.pickle_loader.specs.Onward.{load_way}
use Rattle.pickle_loader.specs.CLoad.{CGoing, CEnded, CFailed, c_load_way}
"""


def spelled(value: Value) -> str:
    """A value as antt writes it, in brackets where it has parts."""
    if isinstance(value, int):
        return str(value)
    if isinstance(value, tuple):
        return f"({items(value)})"
    if isinstance(value, dict):
        return f"(record {{ {'; '.join(f'{name} = {spelled(part)}' for name, part in value.items())} }})"
    made: str = value.name
    module, _, name = made.rpartition(".")
    if made == ",":
        return f"({', '.join(map(spelled, value.parts))})"
    name = f"{ALIASES[module]}.{name}" if module in ALIASES else name
    parts = [integer(part) if made in INTEGERS else spelled(part) for part in value.parts]
    return f"({' '.join([name, *parts])})" if parts else name


def integer(number: int) -> str:
    return f"(pos {number})" if number >= 0 else f"(negsuc {-number - 1})"


def items(values: Sequence[Value]) -> str:
    return "".join(f"{spelled(value)} ∷ " for value in values) + "[]"


def truth(value: bool) -> str:
    return "true" if value else "false"


class World:
    """An environment by tables: what act number n comes to."""

    def __init__(self, chance: random.Random) -> None:
        self.replies = [chance.choice(REPLIES) for _ in range(COUNT)]
        self.flags = {name: chance.random() < 0.5 for name in ("readonly", "mapping", "strings_are_bytes", "looks_up_for_nothing")}

    def reply(self, acts: Sequence[Value], act: Value) -> Made:
        name = self.replies[len(acts)] if len(acts) < COUNT else "PyOther"
        return _reply(name)

    def record(self) -> dict[str, Value]:
        return {
            "fails": Function(2, lambda before, op: False),
            "reply": Function(2, self.reply),
            "readonly": Function(2, lambda acts, value: self.flags["readonly"]),
            "mapping": Function(2, lambda acts, value: self.flags["mapping"]),
            **{name: self.flags[name] for name in ("strings_are_bytes", "looks_up_for_nothing")},
        }

    def lines(self, number: int) -> Iterator[str]:
        yield f"replies_{number} : List Reply"
        yield f"replies_{number} = {items([_reply(name) for name in self.replies])}"
        yield f"world_{number} : World"
        reply = f"λ acts a. unwrap_or (slice_get replies_{number} (length acts)) (Answers PyOther)"
        flags = {name: truth(value) for name, value in self.flags.items()}
        functions = {"fails": "λ before o. false", "reply": reply, "readonly": f"λ acts v. {flags.pop('readonly')}"}
        functions |= {"stays_readonly": "λ acts more v e. e", "mapping": f"λ acts v. {flags.pop('mapping')}"}
        yield f"world_{number} = record {{ {'; '.join(f'{name} = {text}' for name, text in {**functions, **flags}.items())} }}"


def _reply(name: str) -> Made:
    return Made("Environment.Raises") if name == "Raises" else Made("Environment.Answers", (Made(f"Environment.{name}"),))


def lemma(definition: Definition, chance: random.Random, number: int, case: bytes) -> Iterator[str]:
    """What the definition does with a pickle, in an environment and a way made by chance."""
    world = World(chance)
    count = min(len(case) + 1, MOST_OPCODES)
    if chance.random() < 0.5:
        many = chance.random() < 0.7
        found = definition.load_bytes(world.record(), many, tuple(case), count)
        term = f"load_bytes world_{number} {truth(many)} bytes_{number} {count}"
    else:
        pickles, frames = chance.choice(("First", "All", "OneMemo")), chance.choice(("Ignored", "Buffered"))
        way = {"pickles": Made(f"Pickles.{pickles}"), "frames": Made(f"Frames.{frames}")}
        name = chance.choice(("load_way", "c_load_way"))
        load = definition.load_way if name == "load_way" else definition.c_load_way
        found = load(world.record(), way, tuple(case), count)
        term = f"{name} world_{number} (record {{ pickles = pickles.{pickles}; frames = frames.{frames} }}) bytes_{number} {count}"
    yield from world.lines(number)
    yield f"bytes_{number} : List ℕ"
    yield f"bytes_{number} = {items(tuple(case))}"
    yield f"case_{number} : ({term}).now ≡ {spelled(found['now'])}"
    yield f"unfolding load_bytes load_way c_load_way taken lenient bytes_{number} world_{number} replies_{number}"
    yield f"case_{number} = refl"
    yield ""


def write(crates: pathlib.Path, seed: int, count: int) -> None:
    definition, chance = Definition(crates), random.Random(seed)
    made = itertools.chain(load_cases.singles(seed, 8 * count, []), load_cases.rows(seed, count), (row.data for row in loads.oddities()))
    cases = [case for case in made if len(case) <= MOST_BYTES]
    chance.shuffle(cases)
    print(HEAD)
    for number, case in enumerate(cases[:count]):
        print("\n".join(lemma(definition, chance, number, case)))


def main() -> None:
    sys.setrecursionlimit(1_000_000)
    threading.stack_size(STACK)
    thread = threading.Thread(target=write, args=(pathlib.Path(sys.argv[1]), int(sys.argv[2]), int(sys.argv[3])))
    thread.start()
    thread.join()


if __name__ == "__main__":
    main()
