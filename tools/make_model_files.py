#!/usr/bin/python3
"""Writes the model files of python/tests/data/models with the libraries that people use.

    /usr/bin/python3 tools/make_model_files.py [FOLDER]

Needs torch, numpy, joblib, scikit-learn and pandas (Debian: python3-torch python3-numpy python3-joblib python3-sklearn
python3-pandas). The files are in the repository, so that the tests need none of these. `WRITTEN_BY.txt` is written
with them: the versions, and for each file the call that made it and the names that Python's `pickletools` finds in its
pickles where these can be cut out with the standard library alone.
"""

from __future__ import annotations

import bz2
import gzip
import io
import lzma
import pickle
import pickletools
import sys
import tarfile
import warnings
import zipfile
import zlib
from collections import OrderedDict
from pathlib import Path
from typing import Any, Callable, Iterator

import joblib
import numpy as np
import pandas as pd
import sklearn
import torch
from sklearn.cluster import KMeans
from sklearn.compose import ColumnTransformer
from sklearn.decomposition import PCA
from sklearn.ensemble import GradientBoostingClassifier, RandomForestClassifier
from sklearn.feature_extraction.text import CountVectorizer
from sklearn.linear_model import LinearRegression, LogisticRegression, Ridge
from sklearn.naive_bayes import GaussianNB
from sklearn.neighbors import KNeighborsClassifier
from sklearn.pipeline import Pipeline
from sklearn.preprocessing import MinMaxScaler, OneHotEncoder, StandardScaler
from sklearn.svm import SVC
from sklearn.tree import DecisionTreeClassifier

HERE = Path(__file__).resolve().parent.parent / "python" / "tests" / "data" / "models"

# The offsets in a pickle depend on nothing but these seeds and the versions.
torch.manual_seed(7)
RANDOM = np.random.RandomState(7)


def layers() -> torch.nn.Module:
    return torch.nn.Sequential(
        torch.nn.Linear(4, 8), torch.nn.BatchNorm1d(8), torch.nn.ReLU(), torch.nn.Dropout(0.1), torch.nn.Linear(8, 2)
    )


def tensors() -> dict[str, Any]:
    """A tensor of each kind that a state dictionary holds."""
    kinds = {
        "float": torch.float32, "double": torch.float64, "half": torch.float16, "bfloat16": torch.bfloat16,
        "long": torch.int64, "int": torch.int32, "short": torch.int16, "char": torch.int8, "byte": torch.uint8,
        "bool": torch.bool, "complex": torch.complex64, "complex_double": torch.complex128,
    }
    made: dict[str, Any] = {name: torch.zeros(3, 2, dtype=kind) for name, kind in kinds.items()}
    made["parameter"] = torch.nn.Parameter(torch.ones(2))
    made["view"] = torch.arange(6).reshape(2, 3).t()
    made["size"] = torch.Size([2, 3])
    made["dtypes"] = list(kinds.values())
    made["device"] = torch.device("cpu")
    return made


def trained() -> dict[str, Any]:
    """A checkpoint as training scripts write it: the model, the optimizer, and where training was."""
    model = layers()
    optimizer = torch.optim.Adam(model.parameters(), lr=0.01)
    model(torch.ones(3, 4)).sum().backward()
    optimizer.step()
    return {"epoch": 3, "model": model.state_dict(), "optimizer": optimizer.state_dict(), "loss": 0.25}


def arrays() -> dict[str, np.ndarray[Any, Any]]:
    return {
        "floats": RANDOM.rand(5, 3),
        "words": np.array(["red", "green"]),
        "objects": np.array([None, "two", 3.0, {"four": 4}], dtype=object),
    }


def scalars() -> dict[str, Any]:
    """Arrays and scalars as pickle itself writes them."""
    return {
        "float": np.float64(0.5), "int": np.int32(7), "bool": np.bool_(True), "array": np.arange(6.0).reshape(2, 3),
        "fortran": np.asfortranarray(np.arange(6).reshape(2, 3)), "empty": np.zeros((0, 3)), "words": np.array(["a", "bc"]),
        "record": np.array([(1, 2.0)], dtype=[("a", "i4"), ("b", "f8")]), "time": np.datetime64("2026-11-24"),
        "masked": np.ma.masked_array([1, 2, 3], mask=[0, 1, 0]), "objects": np.array([None, "x"], dtype=object),
        "dtype": np.dtype("float32"), "generator": np.random.RandomState(1), "matrix": np.matrix([[1, 2], [3, 4]]),
    }


def samples() -> tuple[Any, Any]:
    inputs = RANDOM.rand(30, 3)
    return inputs, (inputs[:, 0] > 0.5).astype(int)


def fitted() -> dict[str, Any]:
    inputs, answers = samples()
    estimators: dict[str, Any] = {
        "linear": LinearRegression(), "ridge": Ridge(), "logistic": LogisticRegression(), "tree": DecisionTreeClassifier(max_depth=2),
        "forest": RandomForestClassifier(n_estimators=2, max_depth=2, random_state=1),
        "boosting": GradientBoostingClassifier(n_estimators=2, max_depth=2, random_state=1),
        "bayes": GaussianNB(), "neighbours": KNeighborsClassifier(3), "vectors": SVC(),
        "means": KMeans(2, n_init=1, random_state=1), "components": PCA(2),
        "pipeline": Pipeline([("scale", StandardScaler()), ("range", MinMaxScaler()), ("fit", LogisticRegression())]),
        "columns": ColumnTransformer([("scale", StandardScaler(), [0, 1]), ("code", OneHotEncoder(handle_unknown="ignore"), [2])]),
    }
    for name, estimator in estimators.items():
        estimator.fit(np.round(inputs, 1) if name == "columns" else inputs, answers)
    estimators["words"] = CountVectorizer().fit(["red green", "green blue"])
    return estimators


def frame() -> pd.DataFrame:
    return pd.DataFrame(
        {"number": [1, 2, 3], "text": ["a", "b", None], "when": pd.date_range("2026-11-24", periods=3), "kind": pd.Categorical(["x", "y", "x"])}
    )


def saved(save: Callable[..., Any], value: Any, **options: Any) -> bytes:
    held = io.BytesIO()
    save(value, held, **options)
    return held.getvalue()


def with_joblib(value: Any, **options: Any) -> bytes:
    return saved(joblib.dump, value, **options)


def scripted() -> bytes:
    held = io.BytesIO()
    torch.jit.save(torch.jit.script(torch.nn.Linear(2, 2)), held)
    return held.getvalue()


def torch_files() -> Iterator[tuple[str, str, bytes]]:
    legacy = {"_use_new_zipfile_serialization": False}
    yield "torch_state.pt", "torch.save(model.state_dict())", saved(torch.save, layers().state_dict())
    yield "torch_state_legacy.pt", "torch.save(.., _use_new_zipfile_serialization=False)", saved(torch.save, layers().state_dict(), **legacy)
    yield "torch_tensors.pt", "torch.save of a tensor of each kind", saved(torch.save, tensors())
    yield "torch_checkpoint.pth", "torch.save of model and optimizer", saved(torch.save, trained())
    yield "torch_module.pt", "torch.save(model)", saved(torch.save, layers())
    yield "torch_module_legacy.pt", "torch.save(model, .., _use_new_zipfile_serialization=False)", saved(torch.save, layers(), **legacy)
    yield "torch_script.pt", "torch.jit.save", scripted()


def numpy_files() -> Iterator[tuple[str, str, bytes]]:
    objects = np.array([{"a": 1}, None, "text"], dtype=object)
    fields = np.array([(1, None)], dtype=[("a", "i4"), ("b", "O")])
    compressed = io.BytesIO()
    np.savez_compressed(compressed, **arrays())
    plain = io.BytesIO()
    np.savez(plain, **arrays())
    yield "numpy_arrays.npz", "numpy.savez", plain.getvalue()
    yield "numpy_compressed.npz", "numpy.savez_compressed", compressed.getvalue()
    yield "numpy_objects.npy", "numpy.save of objects", saved(lambda value, held: np.save(held, value), objects)
    yield "numpy_fields.npy", "numpy.save of a record with an object", saved(lambda value, held: np.save(held, value), fields)
    yield "numpy_floats.npy", "numpy.save", saved(lambda value, held: np.save(held, value), np.arange(6.0))
    for protocol in (2, 3, 4, 5):
        yield f"numpy_values_{protocol}.pkl", f"pickle.dumps(.., {protocol}) of arrays and scalars", pickle.dumps(scalars(), protocol)


def joblib_files() -> Iterator[tuple[str, str, bytes]]:
    value = {"weights": np.arange(12.0).reshape(3, 4), "names": ["a", "b"], "last": OrderedDict(k=1)}
    yield "joblib_arrays.joblib", "joblib.dump of arrays", with_joblib(value)
    yield "joblib_plain.joblib", "joblib.dump of lists", with_joblib({"names": ["a", "b"], "last": OrderedDict(k=1)})
    for kind in ("zlib", "gzip", "bz2", "xz", "lzma"):
        yield f"joblib_plain_{kind}.joblib", f"joblib.dump(.., compress=('{kind}', 3)) of lists", with_joblib({"names": ["a", "b"]}, compress=(kind, 3))
    yield "joblib_arrays_zlib.joblib", "joblib.dump(.., compress=3) of arrays", with_joblib(value, compress=3)


def sklearn_files() -> Iterator[tuple[str, str, bytes]]:
    models = fitted()
    for name, model in models.items():
        yield f"sklearn_{name}.pkl", f"pickle.dumps of a fitted {type(model).__name__}", pickle.dumps(model, 4)
    yield "sklearn_logistic.joblib", "joblib.dump of a fitted model", with_joblib(models["logistic"])
    yield "sklearn_logistic_zlib.joblib", "joblib.dump(.., compress=3) of a fitted model", with_joblib(models["logistic"], compress=3)


def pandas_files() -> Iterator[tuple[str, str, bytes]]:
    data = pickle.dumps(frame(), 5)
    yield "pandas_frame.pkl", "frame.to_pickle", data
    for kind in ("gzip", "bz2", "xz", "zip", "tar"):
        held = io.BytesIO()
        frame().to_pickle(held, compression=kind)
        yield f"pandas_frame.pkl.{kind}", f"frame.to_pickle(compression='{kind}')", held.getvalue()


def all_files() -> Iterator[tuple[str, str, bytes]]:
    yield from torch_files()
    yield from numpy_files()
    yield from joblib_files()
    yield from sklearn_files()
    yield from pandas_files()


def pickles_in(content: bytes) -> Iterator[bytes]:
    """The pickles of a file, cut out with the standard library alone."""
    if content[:2] == b"PK":
        with zipfile.ZipFile(io.BytesIO(content)) as archive:
            for name in archive.namelist():
                if not name.endswith(".py"):
                    yield from pickles_in(archive.read(name))
    elif content[257:262] == b"ustar":
        with tarfile.open(fileobj=io.BytesIO(content)) as archive:
            for member in archive:
                yield from pickles_in(archive.extractfile(member).read())
    elif content[:6] == b"\x93NUMPY":
        width = 2 if content[6] == 1 else 4
        yield content[8 + width + int.from_bytes(content[8 : 8 + width], "little") :]
    else:
        for unpack in (gzip.decompress, bz2.decompress, lzma.decompress, zlib.decompress):
            try:
                content = unpack(content)
                break
            except (OSError, EOFError, lzma.LZMAError, zlib.error):
                pass
        yield content


def names_in(content: bytes) -> set[str]:
    """What `pickletools` says that the opcodes GLOBAL and INST, or two texts before a STACK_GLOBAL, name."""
    names = set()
    texts: list[str] = []
    memo: dict[int, Any] = {}
    last: Any = None
    stream = io.BytesIO(content)
    try:
        for opcode, value, _ in (each for _ in content for each in pickletools.genops(stream)):
            if opcode.name in ("GLOBAL", "INST"):
                names.add(value.replace(" ", "."))
            elif opcode.name == "STACK_GLOBAL":
                names.add(".".join(texts[-2:]))
            elif opcode.name == "STOP":
                memo.clear()
            elif opcode.name == "MEMOIZE":
                memo[len(memo)] = last
                continue
            elif opcode.name in ("BINGET", "LONG_BINGET", "GET"):
                value = memo.get(int(value))
            elif opcode.name in ("BINPUT", "LONG_BINPUT", "PUT"):
                memo[int(value)] = last
                continue
            last = value if isinstance(value, str) else None
            if last is not None:
                texts.append(last)
    except Exception:  # raw storages and arrays are among or after the opcodes
        pass
    return names


def main() -> None:
    warnings.simplefilter("ignore")
    folder = Path(sys.argv[1]) if len(sys.argv) > 1 else HERE
    folder.mkdir(parents=True, exist_ok=True)
    lines = [
        f"Written by tools/make_model_files.py with Python {sys.version.split()[0]}, torch {torch.__version__}, numpy {np.__version__},",
        f"joblib {joblib.__version__}, scikit-learn {sklearn.__version__} and pandas {pd.__version__}. After each file: the call, and the names that pickletools finds.",
        "",
    ]
    for name, call, content in all_files():
        (folder / name).write_bytes(content)
        names = sorted({found for piece in pickles_in(content) for found in names_in(piece)})
        lines.append(f"{name}: {call}")
        lines.extend(f"    {found}" for found in names)
    (folder / "WRITTEN_BY.txt").write_text("\n".join(lines) + "\n")


if __name__ == "__main__":
    main()
