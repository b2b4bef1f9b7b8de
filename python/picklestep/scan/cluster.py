"""Files on the workers of a Dask cluster.

The cluster is somebody else's: its scheduler hands out the files, and gives a file to another worker where one dies. The workers need this
package, the program, and the files under the same paths (a shared folder, or URLs).
"""

from __future__ import annotations

from contextlib import suppress
from typing import TYPE_CHECKING, Any, Generator, Iterable, Iterator, List, Union

from ..errors import PicklestepError
from ..wording import shown
from .looking import Options, work_on
from .results import Result

if TYPE_CHECKING:
    from .stores.server import Task

__all__ = ['NoCluster', 'look_on_cluster']

# This many files are handed out before the first answers: enough for a large cluster, and few enough for the memory here.
AHEAD = 2_000


class NoCluster(PicklestepError):
    """Dask is not installed, the address is none, or no cluster answers there."""


def look_on_cluster(paths: Iterable[Union[str, Task]], options: Options, address: str) -> Generator[Result, None, None]:
    """The results of the files, as they are ready."""
    try:
        import distributed
    except ImportError:
        raise NoCluster("a cluster needs dask.distributed: pip install distributed") from None
    try:
        distributed.comm.get_address_host_port(address)
    except ValueError:
        raise NoCluster(f'{shown(address)} is no address of a cluster, as tcp://scheduler:8786 is') from None
    with _connected(distributed, address) as client:
        yield from _results(distributed, client, paths, options)


def _connected(distributed: Any, address: str) -> Any:
    """A client of the cluster. One that failed is closed here: at the end of Python its threads are gone, and it would wait for them."""
    # (Its constructor connects. So it is called apart, and there is something to close.)
    client = distributed.Client.__new__(distributed.Client)
    try:
        client.__init__(address, timeout='20s', set_as_default=False)
    except Exception as error:  # also TypeError where TLS has no certificate, ImportError where versions do not go together
        with suppress(Exception):
            client.close()
        raise NoCluster(shown(f'no cluster answers at {address}: {error}')) from None
    return client


def _results(distributed: Any, client: Any, paths: Iterable[Union[str, Task]], options: Options) -> Iterator[Result]:
    waiting = iter(paths)
    handed = {}

    def hand_out() -> List[Any]:
        path = next(waiting, None)
        if path is None:
            return []
        # Not pure: a path that comes again is looked at again, and results are not kept by name.
        future = client.submit(work_on, path, options, pure=False)
        handed[future.key] = str(path)
        return [future]

    answers = distributed.as_completed([future for _ in range(AHEAD) for future in hand_out()], loop=client.loop)
    for future in answers:
        path = handed.pop(future.key)
        yield _result_of(future, path)
        for another in hand_out():
            answers.add(another)


def _result_of(future: Any, path: str) -> Result:
    """What a worker found, or why the cluster gave the file up."""
    try:
        result: Result = future.result()
    except Exception as error:  # a killed worker, a package that is missing there
        return Result(path, error=f'the cluster gave no answer: {type(error).__name__}: {error}')
    finally:
        future.release()
    return result
