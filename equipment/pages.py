"""Checks README.md and the pages of docs/: links, widths, the examples of codes, drawings and checklists; and that commits say what users see."""

from __future__ import annotations

import functools
import itertools
import os
import re
import shutil
import subprocess
import sys
from collections.abc import Iterator
from dataclasses import dataclass, field
from pathlib import Path

import costs
import reference
from reference import text_of
from trials.trial import Lack, Trial

# A page is as long as its readers need, but who meets the README decides by two screens whether to read on.
LINES_OF_README = 90
# A page that answers one question is read while somebody does it.
LINES_OF_HOWTO = 60
HOWTO = Path("docs/howto")
COLUMNS = 100

# What the package and the tests from outside have.
PACKAGE = ["python/picklestep/**/*"]
OUTSIDE = ["equipment/*", "equipment/trials/*", "share/**/*", "targets/library/*"]
FIELD_OF_SCAN = "scan has a field of that name"
SCAN = ["python/picklestep/scan/**/*", "python/tests/*.py", "python/pyproject.toml", "equipment/*"]


@dataclass(frozen=True)
class Checklist:
    """A numbered list of files: its heading, how its sample is named, and where files are looked for.

    `others` are files that name the sample, but not as one of its kind, each with what they do: these are in no list.
    """

    heading: str
    sample: str
    patterns: list[str]
    others: dict[str, str] = field(default_factory=dict)


# The checklists of the program, in docs/DESIGN.md.
CHECKLISTS = [
    Checklist(
        "To add an opcode",
        r"(?m)^ +BinInt2 +\{|_of op\.BinInt2\b|'BININT2': (\('|')",
        ["crates/*/src/**/*.rt", "crates/*/specs/**/*.antt", "bench/*", *OUTSIDE, *PACKAGE],
    ),
    Checklist(
        "To add a number that picklers write",
        r"\b(BININT2|BinInt2)\b",
        ["crates/pickle_form/**/*.rt", "crates/pickle_form/**/*.antt", "equipment/*.py", *PACKAGE],
        {
            "python/picklestep/arguments.py": "an example",
            "python/picklestep/session.py": "an example",
            "python/picklestep/opcodes.py": "made of what the program answers",
        },
    ),
    Checklist(
        "To add a word of the debugger",
        r"(?i)unframe(?![rd])",
        ["crates/pickle_script/**/*.rt", "crates/pickle_script/**/*.antt", *OUTSIDE, *PACKAGE, "python/tests/test_sessions.py"],
        {"equipment/surface.txt": "names of the specification"},
    ),
    Checklist(
        "To add an edit",
        r"\b(Edit::|edit\.)Unframe\b|\bCommand::unframe\(|\b(mod|pub fn) unframe\b|fn unframing\b",
        ["crates/*_tests/src/**/*.rt", "crates/real_pickles/src/*.rt", "crates/pickle_doc/src/*.rt", "crates/pickle_doc/specs/*.antt",
         "crates/pickle_session/proofs/**/*.antt", "crates/session_laws/proofs/**/*.antt"],
    ),
    Checklist(
        "To add a question of the debugger",
        r"(?m)\b(write_where|where_text|def where_of)\b|\bQuery::Where\b|\b(plain|query)\.Where\b|^debug> where$|^  where items|Ic where\b|(?<!obey\()(?<!type\()[\"']where(\\n)?[\"']|`where`: where",
        ["crates/pickle*/src/**/*.rt", "crates/pickle*/specs/**/*.antt", "crates/pickle*/proofs/**/*.antt", "crates/*_tests/src/**/*.rt", *OUTSIDE, *PACKAGE,
         "python/tests/test_sessions.py"],
        {
            "equipment/surface.txt": "names of the specification",
            "equipment/trials/large.py": "asks it of a large pickle",
            "python/picklestep/shell/words.py": "the shell has words of its own",
            "python/picklestep/view/alone/session.js": "asks it, as the page needs it",
            **dict.fromkeys((f"python/picklestep/view/{name}" for name in ("alone/opening.js", "page.html", "script.js")), "the page has an element of that name"),
            **dict.fromkeys((f"python/picklestep/scan/{name}.py" for name in ("folders", "policy/baseline", "results")), FIELD_OF_SCAN),
            **dict.fromkeys(("equipment/trials/begins.py", "share/picklestep-scan.schema.json"), FIELD_OF_SCAN),
        },
    ),
    Checklist(
        "To add a field of an answer",
        r"\bmemo_size\b",
        ["crates/debug_json/**/*.rt", "crates/debug_json/**/*.antt", *OUTSIDE, *PACKAGE],
        {"python/picklestep/view/alone/document.js": "the page shows it"},
    ),
    Checklist(
        "To add a text or a command",
        r"(?m)\b(?:Text|Task)::Calls\b|\btext\.Calls\b|\bIsCalls(?:Text)?\b|\bpub fn calls<|\bcalls\(alloc, pickles\b|[\"']calls[\"':]|Cm calls|objects calls|\bpicklestep_calls\b|^usage: picklestep calls|^  calls  |objects, calls, form",
        ["crates/*/src/**/*.rt", "crates/*/specs/**/*.antt", *OUTSIDE, *PACKAGE, "python/tests/*.py"],
        {
            "equipment/trials/begins.py": "asks it what bytes begin like",
            "equipment/reference.py": "a table has that name",
            "equipment/trials/examples.py": "a page has that name",
            "python/picklestep/scan/reading.py": "scan asks it",
            "python/picklestep/shell/words.py": "the shell has words of its own",
            "python/picklestep/view/alone/document.js": "the page shows it",
            "python/picklestep/view/export.py": "the page shows it",
            "python/picklestep/view/opcodes.py": "a table for the page has that name",
            "python/picklestep/pickle_lines.py": "a document asks it",
            "python/tests/test_other_systems.py": "asks it of files on other drives",
            "python/tests/test_shell.py": "the shell has words of its own",
            **dict.fromkeys((f"python/picklestep/scan/{name}.py" for name in ("report", "results")), FIELD_OF_SCAN),
            **dict.fromkeys(("python/tests/test_gate.py", "share/picklestep-scan.schema.json"), FIELD_OF_SCAN),
        },
    ),
]

# Those of the package, in python/CONTRIBUTING.md.
CHECKLISTS_OF_PACKAGE = [
    Checklist("To add a container", r"(?i)(?<!t)zfile", SCAN),
    Checklist("To add a source", r"(?i)memcached(?!_vanish)", SCAN),
    Checklist("To add a known name", r"(?m)^uuid\._popen\b", ["python/picklestep/scan/**/*", "python/tests/*.py", "python/tests/data/*.txt"]),
    Checklist("To add a name to a set", r"CubicSpline", ["python/picklestep/**/*", "python/tests/*.py"]),
    Checklist("To add an option of scan", r"write[-_]allow", [*OUTSIDE, *PACKAGE]),
    Checklist(
        "To add a word of the package",
        r"(?m)['\"]mend['\":]|prog='picklestep mend'|Cm mend|diff mend |^  mend ",
        [*OUTSIDE, *PACKAGE, "python/tests/*.py"],
    ),
]


# --- Links ---


def without_code(text: str) -> str:
    """A page without its blocks of code and its spans of code."""
    text = re.sub(r"^```.*?^```$", "", text, flags=re.M | re.S)
    lines = [line for line in text.splitlines() if not line.startswith("    ")]
    return re.sub(r"`[^`]*`", "", "\n".join(lines))


def anchors(page: Path) -> set[str]:
    """The anchors that GitHub makes of the headings."""
    found = set()
    for line in page.read_text(encoding="utf-8").splitlines():
        if line.startswith("#"):
            words = line.lstrip("#").strip().lower()
            found.add(re.sub(r"[^\w\- ]", "", words).replace(" ", "-"))
    return found


def fault_of_links(page: Path) -> str:
    faults = []
    for link in re.findall(r"\]\(([^)\s]+)\)", without_code(page.read_text(encoding="utf-8"))):
        name, _, anchor = link.partition("#")
        if re.match(r"[a-z]+:", name):
            continue
        target = page.parent / name if name else page
        if not target.exists():
            faults.append(f"{link}: there is no such file")
        elif anchor and anchor not in anchors(target):
            faults.append(f"{link}: there is no such heading")
    return "; ".join(faults)


# --- Questions ---

QUESTIONS = Path("equipment/questions.txt")


def fault_of_questions(root: Path) -> str:
    """There are thirty, and each names a heading that is there."""
    text = "".join(line for line in (root / QUESTIONS).read_text(encoding="utf-8").splitlines(keepends=True) if not line.startswith("#")).lstrip()
    found = list(re.finditer(r"^(\d+)\. \S.*\? (\S+\.md)(?:#(\S+))?\n", text, flags=re.M))
    if "".join(match[0] for match in found) != text or [match[1] for match in found] != [str(number) for number in range(1, 31)]:
        return "they are not numbered from 1 to 30, each with a page"
    faults = []
    for match in found:
        page = root / match[2]
        if not page.exists() or match[3] and match[3] not in anchors(page):
            faults.append(f"{match[1]}: there is no {match[2]}{'#' + match[3] if match[3] else ''}")
    return "; ".join(faults)


# --- Widths ---


def fault_of_widths(pages: list[Path]) -> str:
    """No line is wider than a terminal shows, and the README has at most two screens."""
    faults = []
    for page in pages:
        lines = page.read_text(encoding="utf-8").splitlines()
        if page.name == "README.md" and len(lines) > LINES_OF_README:
            faults.append(f"README.md has {len(lines)} lines, and not at most {LINES_OF_README}")
        for number, line in enumerate(lines, 1):
            # (a row of a table cannot be broken, and what a program prints in an example is as it is)
            if len(line) > COLUMNS and not line.startswith(("|", "    ")):
                faults.append(f"{page.name}, line {number}: {len(line)} columns, and not at most {COLUMNS}")
    return "; ".join(faults)


def fault_of_howto(root: Path) -> str:
    """Each page that answers a question is short, and the index of these pages names it."""
    index = text_of(root / HOWTO / "README.md")
    faults = []
    for page in sorted((root / HOWTO).glob("*.md")):
        lines = len(text_of(page).splitlines())
        if lines > LINES_OF_HOWTO:
            faults.append(f"{page.name} has {lines} lines, and not at most {LINES_OF_HOWTO}")
        if page.name != "README.md" and f"]({page.name})" not in index:
            faults.append(f"the index does not name {page.name}")
    return "; ".join(faults)


# --- The examples of codes ---

PAGES_OF_CODES = ("docs/reference/codes.md", "docs/why/loaders.md")


@dataclass
class Example:
    code: str
    pickle: str
    commands: list[str]


def bullets(text: str) -> Iterator[tuple[str, str]]:
    """The items of the page's lists, each with the heading that it is below."""
    heading, item = "", ""
    for line in [*text.splitlines(), ""]:
        if item and not line.startswith("  "):
            yield heading, item
            item = ""
        if line.startswith("#"):
            heading = line.lstrip("# ")
        elif line.startswith("- "):
            item = line[2:]
        elif item:
            item += " " + line.strip()


def examples(text: str) -> Iterator[Example]:
    for heading, item in bullets(text):
        named = re.match(r"\*\*(.+?)\*\*, ((?:`[^`]+`(?:: |, )?)+)", item)
        if named:
            spans = re.findall(r"`([^`]+)`", named[2])
            # (where no pickle is named, it is this one)
            pickle, commands = (spans[0], spans[1:]) if re.fullmatch(r"[0-9a-f ]+", spans[0]) else ("4e 2e", spans)
            yield Example(named[1], pickle, commands)
        elif heading.startswith("What loaders take"):
            for span in re.findall(r"\(`([0-9a-f ]+)`[):]", item):
                yield Example(item.split(",")[0] + " ..", span, [])


def fault_of_example(program: str, example: Example, file: Path) -> str:
    file.parent.mkdir(parents=True, exist_ok=True)
    file.write_bytes(bytes.fromhex(example.pickle))
    # (an example without commands is listed; a pickle that refers to an earlier one needs --many, and only calls is unsure, of one code with
    # --memo kept, or warns)
    words = {"S3 ..": ["list", "--many"], "U1": ["calls"], "U2": ["calls", "--memo", "kept"], "U3": ["calls"], "warning:": ["calls"]}
    listed = words.get(example.code if example.code == "S3 .." else example.code.split()[0], ["list"])
    command = ["debug"] if example.commands else listed
    script = "".join(line + "\n" for line in example.commands).encode()
    done = subprocess.run([program, *command, str(file)], input=script, capture_output=True, timeout=600)
    said = done.stdout.decode("latin-1").splitlines()
    last = [line for line in said if line.startswith(("refused: ", "fault: ", "unsure: ", "warning: "))] if not example.commands else said[-1:]
    # (a code whose words depend on the pickle is known by its first word)
    wanted = example.code if not re.search(r"\.\.|\b[KO]\b", example.code) else example.code.split()[0] + " "
    if not any(wanted in line for line in last):
        return f"{example.pickle} {example.commands}: {last}"
    return ""


# --- Drawings ---

DRAWINGS = Path("docs/drawings")


def fault_of_drawings(root: Path, program: str, folder: Path) -> str:
    """The drawings are what their script makes of the program's answers, and a page shows each."""
    made = folder / "drawings"
    words = [sys.executable, "-B", str(root / "tools" / "make_drawings.py"), str(made)]
    done = subprocess.run(words, env={**os.environ, "PICKLESTEP_PROGRAM": program}, capture_output=True, text=True, timeout=600)
    if done.returncode != 0:
        return done.stderr.strip()[-200:]
    names = sorted({file.name for file in [*made.iterdir(), *(root / DRAWINGS).iterdir()]})
    shown = "".join(page.read_text(encoding="utf-8") for page in (root / "docs").rglob("*.md"))
    faults = []
    for name in names:
        files = [made / name, root / DRAWINGS / name]
        if not all(file.is_file() for file in files) or files[0].read_bytes() != files[1].read_bytes():
            faults.append(f"{name} is not what tools/make_drawings.py makes")
        if f"{DRAWINGS.name}/{name})" not in shown:
            faults.append(f"no page shows {name}")
    return "; ".join(faults)


# --- Checklists ---


def expanded(name: str) -> list[str]:
    """The names that braces stand for."""
    found = re.search(r"\{([^{}]*)\}", name)
    if not found:
        return [name]
    return list(itertools.chain.from_iterable(expanded(name[: found.start()] + part + name[found.end() :]) for part in found[1].split(",")))


def listed(root: Path, page: str, heading: str) -> set[str]:
    """The files that the numbered list below a heading names."""
    section = re.split(r"^#+ ", page.partition(f"# {heading}\n")[2], maxsplit=1, flags=re.M)[0]
    items = re.findall(r"^\d+\. .*(?:\n   .*)*", section, flags=re.M)
    names = [name for item in items for span in re.findall(r"`([^`]+/[^`]+)`", item) for name in expanded(span)]
    return {f"crates/{name}" if (root / "crates" / name.split("/")[0]).is_dir() else name for name in names}


def has_sample(file: Path, sample: str) -> bool:
    return re.search(sample, text_of(file)) is not None


def fault_of_checklist(root: Path, page: str, checklist: Checklist) -> str:
    named = listed(root, page, checklist.heading)
    found = set()
    for pattern in checklist.patterns:
        for file in root.glob(pattern):
            name = str(file.relative_to(root))
            # (what was built of a crate has its sources once more)
            is_source = file.is_file() and file.suffix != ".pyc" and "out" not in file.relative_to(root).parts
            if is_source and name != "equipment/pages.py" and has_sample(file, checklist.sample):
                found.add(name)
    for name in sorted(named - found):
        if not (root / name).is_file():
            return f"{name} is not there"
        if not has_sample(root / name, checklist.sample):
            return f"{name} is listed and does not name the sample"
    others = set(checklist.others)
    if others - found or others & named:
        return f"{', '.join(sorted(others - found | others & named))}: it does not name the sample, or is listed, and is among others"
    missing = sorted(found - named - others)
    return f"it lacks {', '.join(missing)}" if missing else "" if named else "it lists no file"


# --- The version ---

# Where it stands: the package has it, `picklestep --version` and the wheel read it there, and the others are the same.
VERSIONS = {
    "python/picklestep/__init__.py": r"^__version__ = '(\S+)'$",
    "CHANGELOG.md": r"^## (\S+)$",
    "targets/library/picklestep.pc": r"^Version: (\S+)$",
    "CITATION.cff": r"^version: (\S+)$",
}


def fault_of_version(root: Path) -> str:
    """The newest version of the change log is that of the package and of the library."""
    found = {name: re.search(pattern, (root / name).read_text(encoding="utf-8"), flags=re.M) for name, pattern in VERSIONS.items()}
    versions = {name: match[1] if match else "none" for name, match in found.items()}
    return "" if len(set(versions.values())) == 1 else ", ".join(f"{name} has {version}" for name, version in versions.items())


# --- The change log ---

SORTS = ("New", "Changed", "Fixed", "Security")


def fault_of_change_log(page: Path) -> str:
    """Below each version the entries stand under these headings, in this order."""
    _, *versions = re.split(r"^## ", page.read_text(encoding="utf-8"), flags=re.M)
    for version in versions:
        head, *parts = re.split(r"^### ", version, flags=re.M)
        sorts = [part.partition("\n")[0] for part in parts]
        if sorts != [sort for sort in SORTS if sort in sorts] or not sorts:
            return f"{head.split()[0]} has the headings {', '.join(sorts) or 'none'}, and not some of {', '.join(SORTS)}"
        if re.search(r"^[-#]", head.partition("\n")[2], flags=re.M):
            return f"{head.split()[0]} has an entry above the first heading"
    return ""


# --- The notices of third parties ---

# Of these Rattle's libraries the notices are in a section of their own.
OF_KIT = ("core", "json", "std_alloc", "ucd_age", "ucd_category")
# Debian's packages that only work on what is linked.
TOOLS = ("binaryen", "gcc-12-aarch64-linux-gnu", "binutils-aarch64-linux-gnu")
KIT = Path("/opt/rattle/rattle")


def fault_of_notices(root: Path) -> str:
    """THIRD-PARTY names each library of others that is linked in, with the licence that the toolchain has of it, where that is there."""
    notices = (root / "THIRD-PARTY").read_text(encoding="utf-8")
    lines = [line.split(":") for line in (root / "crates.txt").read_text(encoding="utf-8").splitlines() if line.strip() and not line.startswith("#")]
    libraries = {line[0].split()[0]: line[1].split() for line in lines}
    own, linked = set(libraries), {"picklestep", "picklestep_library"}
    used = functools.reduce(lambda found, _: found | {name for crate in found & own for name in libraries[crate]}, own, linked)
    lacking = [f"the crate {name}" for name in sorted(used - own - set(OF_KIT)) if f"\n{name}, after the crate " not in notices]
    packages = [line.split() for line in (root / "dist" / "TOOLS").read_text(encoding="utf-8").splitlines()]
    lacking += [f"{name} {version}" for name, version in packages if name not in TOOLS and f"{name} {version}" not in " ".join(notices.split())]
    for name in sorted(used - own):
        licences = [*(KIT / name).glob("LICENSE"), *(KIT / name).glob("LICENSE-MIT")]
        if licences and " ".join(licences[0].read_text(encoding="utf-8").split()) not in " ".join(notices.split()):
            lacking.append(f"the text of {licences[0]}")
    return f"THIRD-PARTY lacks {', '.join(lacking)}" if lacking else ""


# --- Commits ---

# What users see has a sentence in the body of its commit, from this day on.
BODIES_SINCE = "2026-11-28"
CHANGE_LOG = "CHANGELOG.md"
# So it has where what users read about the program changes, from this day on.
BODIES_OF_TEXTS_SINCE = "2026-11-29"
TEXTS_FOR_USERS = ("docs/reference/codes.md", "docs/reference/debug.md", "docs/why/loaders.md", "docs/reference/look.md", "docs/reference/common.md", "python/picklestep/help/", "share/")


def wants_body(day: str, counts: str) -> bool:
    """Whether users see what a commit of this day does, by git's lines of the files: the lines that are new, those that are gone, the name."""
    for line in counts.splitlines():
        added, _, name = line.split("\t")
        if name == CHANGE_LOG and added != "0" and day >= BODIES_SINCE or name.startswith(TEXTS_FOR_USERS) and day >= BODIES_OF_TEXTS_SINCE:
            return True
    return False


def fault_of_bodies(root: Path) -> str:
    """Each commit that adds lines to the change log, or changes what users read, has a body. Where there is no git, or not the whole repository,
    there is nothing to look at."""
    if not (root / ".git").exists() or shutil.which("git") is None:
        return ""

    def git(*words: str) -> str:
        done = subprocess.run(["git", "-C", str(root), *words], capture_output=True, encoding="utf-8", errors="replace", timeout=600)
        return done.stdout if done.returncode == 0 else ""

    if git("rev-parse", "--is-shallow-repository").strip() != "false":  # (the first commit of a part seems to add all lines)
        return ""
    log = git("log", "--no-merges", f"--since={BODIES_SINCE}T00:00:00", "--date=short", "--no-renames", "--numstat", "--format=%x00%h %ad%x00%b%x00", "--",
              CHANGE_LOG, *TEXTS_FOR_USERS)
    _, *parts = log.split("\0")
    faults = []
    for commit, body, counts in zip(parts[::3], parts[1::3], parts[2::3]):
        name, day = commit.split()
        if not body.strip() and wants_body(day, counts.strip("\n")):
            faults.append(name)
    return f"no body, though users see what they change: {', '.join(faults)}" if faults else ""


# --- The laws ---

# The laws stand below a heading of the first pages. A law may stand on the last instead, but not on two.
LAWS_PAGES = ("docs/why/proved.md", "docs/why/proved_unpicklers.md")
CONTRACTS_PAGES = ("docs/why/contracts.md", "docs/why/contracts_archives.md")


def laws_of_crates(root: Path) -> set[tuple[str, str]]:
    """The laws, each with its crate: the public functions of the files of laws."""
    found = set()
    for file in root.glob("crates/*/src/*laws.rt"):
        found |= {(file.parent.parent.name, name) for name in re.findall(r"^pub fn (\w+)", text_of(file), flags=re.M)}
    return found


def fault_of_laws(root: Path) -> str:
    """These pages together name each law with its crate, once, and no other."""
    laws_part = "\n".join(text_of(root / page).partition("\n## Laws\n")[2].partition("\n## ")[0] for page in LAWS_PAGES)
    text = " ".join("\n".join((laws_part, *(text_of(root / page) for page in CONTRACTS_PAGES))).split())
    named = [(crate, name) for crate, names in re.findall(r"`(\w+)`: ((?:(?:, )?`\w+`)+)", text) for name in re.findall(r"\w+", names)]
    laws = laws_of_crates(root)
    faults = [f"{crate}: {name} is no law" for crate, name in sorted(set(named) - laws)]
    faults += [f"{crate}: {name} is not named" for crate, name in sorted(laws - set(named))]
    faults += [f"{crate}: {name} is named {named.count((crate, name))} times" for crate, name in sorted(set(named)) if named.count((crate, name)) > 1]
    return "; ".join(faults)


def fault_of_picture(root: Path) -> str:
    """The picture is the one that its script draws, and the crates that it names are there."""
    done = subprocess.run([sys.executable, "-B", str(root / "tools" / "make_proof_picture.py")], capture_output=True, text=True, timeout=600)
    if done.returncode != 0:
        return done.stderr.strip()[:200]
    if done.stdout != text_of(root / "docs" / "why" / "proved.svg"):
        return "python3 tools/make_proof_picture.py >docs/why/proved.svg makes another"
    missing = sorted(name for name in set(re.findall(r"\bpickle_\w+", done.stdout)) if not (root / "crates" / name).is_dir())
    return f"there is no crate {', '.join(missing)}" if missing else ""


def fault_of_site(root: Path, folder: Path) -> str:
    """The pages make a site, in which each link leads somewhere."""
    for name in ("mkdocs", "sphinx-build"):
        if shutil.which(name) is None:
            raise Lack(f"{name} is not installed")
    words = [sys.executable, "-B", str(root / "tools" / "make_site.py"), str(folder / "site")]
    done = subprocess.run(words, capture_output=True, text=True, timeout=300)
    return "" if done.returncode == 0 else (done.stdout + done.stderr).strip()[-300:]


def fault_of_script(root: Path, *words: str) -> str:
    """A script of the repository finds nothing wrong."""
    done = subprocess.run([sys.executable, "-B", *words], cwd=root, capture_output=True, text=True, timeout=600)
    return "" if done.returncode == 0 else done.stderr.strip()[:200]


def fault_of_costs() -> str:
    """A row of the page Measured, of what costs.py prints of processes that are made up."""
    names = {1: "proof of gap_list", 2: "tests of gap_list", 3: "base of the edits of gap_list", 4: "edit of gap_list: a", 5: "edit of gap_list: b", 6: "python3 -B -m"}
    printed = costs.Costs(0, names, {1: 61.2, 2: 20.0, 3: 40.0, 4: 5.0, 5: 7.0, 6: 300.0}).table()
    log = costs.Log.of(["processor seconds: python 240, listings 4", *printed, "     52.6  gap_list::grow", "     61.2  gap_list, 9 functions"])
    page = "\n".join(costs.page_of(log, "2026-12-01"))
    rows = "| the trials | 4 |", "| **all together** | 7 |", "| `gap_list` | 61 | 20 | 40 | 12 | 7 | ", "| `python` | 240 |", "| `gap_list::grow` | 53 |"
    return ", ".join(f"there is no row {row}" for row in rows if f"\n{row}" not in page)


def trials(root: Path, program: str, folder: Path) -> list[Trial]:
    """What is checked. FOLDER gets the pickles of docs/reference/codes.md and docs/why/loaders.md."""
    pages = [root / "README.md", *sorted((root / "docs").rglob("*.md"))]
    others = [page for page in sorted([*root.glob("*.md"), *root.glob("python/*.md")]) if page not in pages]
    found = [Trial(f"the links of {page.relative_to(root)}", functools.partial(fault_of_links, page)) for page in [*pages, *others]]
    found.append(Trial("the widths of the pages", functools.partial(fault_of_widths, [*pages, *others])))
    found.append(Trial("the pages that say how to do a thing", functools.partial(fault_of_howto, root)))
    for example in itertools.chain.from_iterable(examples(text_of(root / page)) for page in PAGES_OF_CODES):
        name = f"the example of {example.code}, {' '.join([example.pickle, *example.commands])}"
        found.append(Trial(name, functools.partial(fault_of_example, program, example, folder / "code.pickle")))
    found += reference.trials(root, program)
    found.append(Trial("the pages that answer the thirty questions", functools.partial(fault_of_questions, root)))
    found.append(Trial("the site", functools.partial(fault_of_site, root, folder)))
    found.append(Trial("the drawings", functools.partial(fault_of_drawings, root, program, folder)))
    for name, checklists in (("docs/DESIGN.md", CHECKLISTS), ("python/CONTRIBUTING.md", CHECKLISTS_OF_PACKAGE)):
        page = (root / name).read_text(encoding="utf-8")
        for checklist in checklists:
            found.append(Trial(f"the checklist '{checklist.heading}'", functools.partial(fault_of_checklist, root, page, checklist)))
    found.append(Trial("the version of the change log", functools.partial(fault_of_version, root)))
    found.append(Trial("the sorts of the change log", functools.partial(fault_of_change_log, root / "CHANGELOG.md")))
    found.append(Trial("the notices of third parties", functools.partial(fault_of_notices, root)))
    found.append(Trial("the bodies of commits", functools.partial(fault_of_bodies, root)))
    found.append(Trial("the index of definitions", functools.partial(fault_of_script, root, "tools/definitions.py")))
    found.append(Trial("the numbers of the page Measured", functools.partial(fault_of_script, root, "bench/measured_page.py", "--check")))
    found.append(Trial("the tables of costs", fault_of_costs))
    found.append(Trial("the laws of PROVED", functools.partial(fault_of_laws, root)))
    found.append(Trial("the picture of PROVED", functools.partial(fault_of_picture, root)))
    return found
