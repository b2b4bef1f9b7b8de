#!/usr/bin/env python3
"""Gives pickles to the loader of a library, and writes down what they import and call. Runs in the Python that has the library.

    other_loaders.py LIBRARY FOLDER

What is printed is JSON: the library's version, and for each load its name, the pickle, what was done, and how it ended. What is imported is
heard by Python's own audit event; what is called is noted by the functions of the module `noted`, which is made here. The pickles are
harmless: they call nothing else.
"""

from __future__ import annotations

import io
import json
import os
import pathlib
import pickle
import struct
import sys
import types
import warnings
import zipfile
import zlib
from collections.abc import Callable, Iterator
from typing import Any, Optional

Load = tuple[str, bytes, Callable[[], Any]]


def frame(size: int) -> bytes:
    return b"\x95" + struct.pack("<Q", size)


# An act without frames; behind a frame that is crossed in its length, which only a loader takes that reads frames as from bytes; and behind
# one that is crossed at its end, which only a loader takes that buffers it.
ACT = b"cnoted\nact\n(K\x01tR"
BUFFERED = b"N0" * 5000 + b"X\xff\xff\xff"
SHAPES = {
    "plain": ACT + b".",
    "crossed as from bytes": frame(3) + b"NX\x01\0\0\0a00" + ACT + b".",
    "crossed as a buffer": frame(len(BUFFERED)) + BUFFERED + b"\x01\0\0\0a0" + ACT + b".",
}
done: list[list[str]] = []


def act(*_: Any) -> int:
    """The function that pickles call."""
    done.append(["call", "noted", "act"])
    return 5


class Acts:
    """An object whose pickle calls that function."""

    def __reduce__(self) -> tuple[Any, ...]:
        return act, (1,)


def heard(event: str, words: tuple[Any, ...]) -> None:
    if event == "pickle.find_class":
        done.append(["import", *words])


def of_numpy(folder: pathlib.Path) -> Iterator[Load]:
    import numpy
    path = folder / "a.pickle"
    for name, data in SHAPES.items():
        yield name, data, lambda: (path.write_bytes(data), numpy.load(path, allow_pickle=True))
    yield "not allowed", SHAPES["plain"], lambda: (path.write_bytes(SHAPES["plain"]), numpy.load(path))
    old = b"c__builtin__\nlen\n(U\x01atR."
    yield "fix_imports=False", old, lambda: (path.write_bytes(old), numpy.load(path, allow_pickle=True, fix_imports=False))
    array = folder / "a.npy"
    numpy.save(array, numpy.array([Acts()], dtype=object), allow_pickle=True)
    data = array.read_bytes()
    yield "an array of objects", data[data.index(b"\n") + 1:], lambda: numpy.load(array, allow_pickle=True)


def of_joblib(folder: pathlib.Path) -> Iterator[Load]:
    import joblib
    import numpy
    path = folder / "a.joblib"
    for name, data in SHAPES.items():
        yield name, data, lambda: (path.write_bytes(data), joblib.load(path))
    behind = folder / "behind.joblib"
    joblib.dump([numpy.arange(3), Acts()], behind)
    yield "an act behind an array", behind.read_bytes(), lambda: joblib.load(behind)
    # (This comes last: opcodes mean other things from there on.)
    turned = b"cjoblib.numpy_pickle\nNumpyUnpickler.dispatch\nKN"
    turned = b"\x80\x04" + turned + b"cpickle\n_Unpickler.load_stack_global\nsK\x88cpickle\n_Unpickler.load_reduce\nsVnoted\nVact\nN)\x88."
    yield "a table that is changed", turned, lambda: (path.write_bytes(turned), joblib.load(path))


def of_pandas(folder: pathlib.Path) -> Iterator[Load]:
    import pandas
    from pandas.tseries.offsets import Day

    class Offset(Day):
        def __new__(cls, *_: Any) -> Any:
            done.append(["new", "noted", "Offset"])
            return 5

    sys.modules["noted"].Offset = Offset  # type: ignore[attr-defined]
    path = folder / "a.pickle"
    others = {
        "a call that raises TypeError": b"cbuiltins\nint\ncnoted\nOffset\nK\x05\x86R.",
        "a module that is not there": ACT + b"0cno_such_module\nx\n.",
        "a text of Python 2": ACT + b"0U\x01\xff.",
    }
    for name, data in {**SHAPES, **others}.items():
        yield name, data, lambda: (path.write_bytes(data), pandas.read_pickle(path))


def of_torch(folder: pathlib.Path) -> Iterator[Load]:
    import torch
    path = folder / "a.pt"
    held = io.BytesIO()
    torch.save({"w": torch.zeros(2)}, held)
    written = zipfile.ZipFile(held)
    pickled = next(name for name in written.namelist() if name.endswith("data.pkl"))

    def put(data: bytes) -> pathlib.Path:
        with zipfile.ZipFile(path, "w") as archive:
            for name in written.namelist():
                archive.writestr(name, data if name == pickled else written.read(name))
        return path

    for name, data in {**SHAPES, "as it is": written.read(pickled)}.items():
        yield name, data, lambda: torch.load(put(data), weights_only=False)
    yield "weights_only", SHAPES["plain"], lambda: torch.load(put(SHAPES["plain"]), weights_only=True)
    for name, data in SHAPES.items():
        yield f"old form, {name}", data, lambda: (path.write_bytes(data), torch.load(path, weights_only=False))


def of_dill(folder: pathlib.Path) -> Iterator[Load]:
    import dill
    path = folder / "a.pickle"
    for name, data in SHAPES.items():
        yield f"loads, {name}", data, lambda: dill.loads(data)
        yield f"load of a file, {name}", data, lambda: (path.write_bytes(data), dill.load(path.open("rb")))
    made = type("Made", (), {"__module__": "__main__"})
    theirs, globals()["Made"] = made(), type("Made", (), {})
    sys.modules["noted"].theirs = theirs  # type: ignore[attr-defined]
    yield "the class of what comes of it", b"cnoted\ntheirs\n.", lambda: (dill.loads(b"cnoted\ntheirs\n."), _is_of(theirs, globals()["Made"]))
    filled = b"c__builtin__\n__main__\nX\x01\0\0\0qK\x05s."
    yield "the dictionary of __main__", filled, lambda: (dill.loads(filled), _is_of(globals().get("q"), int))


def _is_of(value: Any, kind: type) -> bool:
    """Notes that something was changed, if the value is of this type."""
    if type(value) is kind:
        done.append(["changed", "", ""])
    return type(value) is kind


def of_cloudpickle(folder: pathlib.Path) -> Iterator[Load]:
    import cloudpickle
    assert cloudpickle.load is pickle.load and cloudpickle.loads is pickle.loads
    data = cloudpickle.dumps(lambda: act())
    yield "a function", data, lambda: cloudpickle.loads(data)


def of_django(folder: pathlib.Path) -> Iterator[Load]:
    from django.conf import settings
    settings.configure(SECRET_KEY="none", CACHES={
        "default": {"BACKEND": "django.core.cache.backends.filebased.FileBasedCache", "LOCATION": str(folder / "cache")},
        "memory": {"BACKEND": "django.core.cache.backends.locmem.LocMemCache"},
    })
    from django.core.cache import caches
    cache, memory = caches["default"], caches["memory"]
    cache.set("k", 1)
    path = pathlib.Path(cache._key_to_file("k"))
    memory.set("k", Acts())
    yield "memory", pickle.dumps(Acts()), lambda: memory.get("k")
    for name, data in SHAPES.items():
        expiry = data[:-1] + b"0N."
        yield f"file, time, {name}", expiry, lambda: (path.write_bytes(expiry + zlib.compress(b"N.")), cache.get("k"))
        yield f"file, value, {name}", data, lambda: (path.write_bytes(b"N." + zlib.compress(data)), cache.get("k"))
    try:
        from django.contrib.sessions.serializers import PickleSerializer  # (there is none from Django 5.0 on)
    except ImportError:
        return
    for name, data in SHAPES.items():
        yield f"session, {name}", data, lambda: PickleSerializer().loads(data)


def of_celery(folder: pathlib.Path) -> Iterator[Load]:
    import celery  # noqa: F401 (for its version)
    from kombu import serialization
    kind = "application/x-python-serialize"
    for name, data in SHAPES.items():
        yield name, data, lambda: serialization.loads(data, kind, "binary", accept=[kind])
    yield "not accepted", SHAPES["plain"], lambda: serialization.loads(SHAPES["plain"], kind, "binary")


def of_zarr(folder: pathlib.Path) -> Iterator[Load]:
    import numcodecs
    import zarr
    path = folder / "a.zarr"
    zarr.open(str(path), mode="w", shape=2, dtype=object, object_codec=numcodecs.Pickle(), compressor=None)[:] = ["a", "b"]
    for name, data in SHAPES.items():
        yield name, data, lambda: ((path / "0").write_bytes(data), zarr.open(str(path))[:])


LIBRARIES = {
    "cloudpickle": of_cloudpickle, "celery": of_celery, "dill": of_dill, "django": of_django, "joblib": of_joblib, "numpy": of_numpy,
    "pandas": of_pandas, "torch": of_torch, "zarr": of_zarr,
}


def main(library: str, folder: pathlib.Path) -> None:
    warnings.simplefilter("ignore")
    noted = types.ModuleType("noted")
    noted.act = act  # type: ignore[attr-defined]
    act.__module__ = "noted"
    sys.modules["noted"] = noted
    sys.addaudithook(heard)
    folder.mkdir(parents=True, exist_ok=True)
    rows = []
    for name, data, load in LIBRARIES[library](folder):
        done.clear()
        end: Optional[str] = None
        try:
            load()
        except Exception as error:
            end = type(error).__name__
        rows.append({"name": name, "data": data.hex(), "done": list(done), "end": end})
    version = getattr(sys.modules[library], "__version__", None) or __import__(library).__version__
    print(json.dumps({"version": version, "python": sys.version.split()[0], "rows": rows}))


if __name__ == "__main__":
    main(sys.argv[1], pathlib.Path(os.path.abspath(sys.argv[2])))
