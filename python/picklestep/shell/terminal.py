"""Where lines are typed and answers are shown: with history and completion where the system has what this takes."""

from __future__ import annotations

import contextlib
import os
import sys
from pathlib import Path
from typing import Any, Callable, Iterator, List, Optional

__all__ = ['Terminal', 'is_terminal']

_PROMPT = '(pickle) '

Completer = Callable[[str], List[str]]


def is_terminal() -> bool:
    """Whether somebody types."""
    return sys.stdin.isatty() and sys.stdout.isatty()


def history_file() -> Optional[Path]:
    """The file of the lines that were typed, which only its owner can read; none where it cannot be made."""
    state = os.environ.get('XDG_STATE_HOME') or os.path.join(os.path.expanduser('~'), '.local', 'state')
    path = Path(state, 'picklestep', 'shell_history')
    try:
        path.parent.mkdir(mode=0o700, parents=True, exist_ok=True)
        path.touch(0o600)
    except OSError:
        return None
    return path


class Terminal:
    """Reads lines that are typed, and shows answers."""

    def __init__(self, completer: Completer) -> None:
        self._history = history_file()
        self._read = _prompting(completer, self._history) or _reading(completer, self._history)
        self._console = _console()

    def lines(self) -> Iterator[str]:
        """The lines that are typed, up to the end of the input."""
        while True:
            try:
                yield self._read(_PROMPT)
            except KeyboardInterrupt:
                print('^C (quit ends)')
            except EOFError:
                print()
                return

    def ask(self, question: str) -> bool:
        """Whether the answer to a question is yes."""
        try:
            return input(question).strip().lower() in ('y', 'yes')
        except KeyboardInterrupt:
            return False
        except EOFError:  # (nobody is there any more)
            return True

    def show(self, answer: str) -> None:
        """Shows an answer, with colours where there can be some; nothing where it is empty."""
        if not answer:
            return
        if self._console is None:
            print(answer)
            return
        from rich.text import Text
        for line in answer.split('\n'):
            self._console.print(Text(line, style=_style(line)), soft_wrap=True)

    def close(self) -> None:
        """Keeps the lines that were typed."""
        if self._history is not None and 'readline' in sys.modules and 'prompt_toolkit' not in sys.modules:
            import readline
            with contextlib.suppress(OSError):
                readline.set_history_length(1000)
                readline.write_history_file(self._history)


def _style(line: str) -> str:
    reached = line.partition('   <- ')[2]
    colour = '' if not reached else 'yellow' if reached.startswith('import') else 'red' if not reached.startswith(('persistent', 'buffer')) else 'blue'
    return ('bold ' if line.startswith('>') else '') + colour


def _console() -> Any:
    """A console of rich, if that is installed and colours are wanted."""
    if os.environ.get('NO_COLOR') or os.environ.get('TERM') == 'dumb':
        return None
    try:
        from rich.console import Console
    except ImportError:
        return None
    return Console(highlight=False, markup=False)


def _prompting(completer: Completer, history: Optional[Path]) -> Optional[Callable[[str], str]]:
    """Reads lines by prompt_toolkit, if that is installed."""
    if os.environ.get('TERM', 'dumb') == 'dumb':
        return None
    try:
        from prompt_toolkit import PromptSession
        from prompt_toolkit.completion import Completer as ToolkitCompleter, Completion
        from prompt_toolkit.history import FileHistory, InMemoryHistory
    except ImportError:
        return None

    class Words(ToolkitCompleter):  # type: ignore[misc]
        def get_completions(self, document: Any, event: Any) -> Iterator[Any]:
            before = document.text_before_cursor
            begun = before.rpartition(' ')[2]
            for word in completer(before):
                yield Completion(word, start_position=-len(begun))

    session: Any = PromptSession(history=FileHistory(str(history)) if history else InMemoryHistory(), completer=Words(),
                                 complete_while_typing=False)
    return lambda prompt: str(session.prompt(prompt))


def _reading(completer: Completer, history: Optional[Path]) -> Callable[[str], str]:
    """Reads lines by readline, or as they are where Python has none."""
    try:
        import readline
    except ImportError:
        return input
    found: List[str] = []

    def complete(begun: str, state: int) -> Optional[str]:
        if state == 0:
            found[:] = completer(readline.get_line_buffer()[:readline.get_endidx()])
        return found[state] if state < len(found) else None

    readline.set_completer_delims(' ')
    readline.set_completer(complete)
    readline.parse_and_bind('tab: complete')
    if history is not None:
        with contextlib.suppress(OSError):
            readline.read_history_file(history)
    return input
