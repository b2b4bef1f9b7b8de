"""What is written to standard output."""

import sys

__all__ = ['print_text']


def print_text(text: str) -> None:
    """Writes a text to standard output. Letters that this has not are written with their escapes, which are the same text in Python."""
    encoding = sys.stdout.encoding or 'ascii'
    sys.stdout.write(text.encode(encoding, 'backslashreplace').decode(encoding))
    sys.stdout.flush()
