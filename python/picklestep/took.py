"""The processor time that programs took."""

from __future__ import annotations

try:
    import resource
except ImportError:  # (Windows has none)
    resource = None  # type: ignore[assignment]

__all__ = ['count_ended', 'count_seconds', 'seconds_of_programs']


class _Counted:
    """The seconds of other processes that the system does not count."""

    seconds = 0.0


def count_seconds(seconds: float) -> None:
    """Counts processor time of a process that goes on. (The system counts it after its end.)"""
    _Counted.seconds += seconds


def count_ended(seconds: float) -> None:
    """Counts it no more, where the system counts it now."""
    if resource is not None:
        _Counted.seconds -= seconds


def seconds_of_programs() -> float:
    """The processor time of all programs that this process waited for, and of Node as it goes on."""
    if resource is None:
        return _Counted.seconds
    children = resource.getrusage(resource.RUSAGE_CHILDREN)
    return children.ru_utime + children.ru_stime + _Counted.seconds
