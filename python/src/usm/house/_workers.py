"""Who scans: the workers of a Dask cluster, or processes on this machine."""

from __future__ import annotations

import concurrent.futures
import multiprocessing
import signal
from collections.abc import Iterator
from concurrent.futures import Executor, Future, ProcessPoolExecutor
from concurrent.futures.process import BrokenProcessPool
from contextlib import contextmanager
from typing import Protocol

from usm._held import Wanted
from usm.house._database import Database
from usm.house._tasks import Tasks
from usm.house._work import Done, work

# How many tasks are under way for each worker, so that none waits for its next one.
_TASKS_OF_ONE = 4
# How often a task is tried when its worker is lost.
_TRIES = 5

UnderWay = dict["Future[Done]", "list[Wanted]"]


class Workers(Protocol):
    def scan(self, database: Database, tasks: Tasks) -> Iterator[Done]:
        """Scans the films of all tasks, and yields what each task did."""


def _scan(executor: Executor, at_once: int, database: Database, tasks: Tasks, under_way: UnderWay) -> Iterator[Done]:
    """Hands out tasks, only a few at once: a scheduler should not have to hold a whole house."""

    def hand_out() -> None:
        films = tasks.next()
        if films:
            under_way[executor.submit(work, database, films)] = films

    for _ in range(at_once):
        hand_out()
    while under_way:
        for future in concurrent.futures.wait(under_way, return_when=concurrent.futures.FIRST_COMPLETED).done:
            done = future.result()
            del under_way[future]
            tasks.took(done)
            hand_out()
            yield done


class Cluster:
    """The workers of a Dask cluster, by the address of its scheduler, which itself retries the tasks of a lost worker."""

    def __init__(self, address: str) -> None:
        self._address = address

    def scan(self, database: Database, tasks: Tasks) -> Iterator[Done]:
        import distributed

        with distributed.Client(self._address) as client:
            at_once = _TASKS_OF_ONE * max(1, sum(client.nthreads().values()))
            try:
                yield from _scan(client.get_executor(pure=False, retries=_TRIES), at_once, database, tasks, {})
            except distributed.KilledWorker as error:
                raise OSError(f"the cluster: {error}") from error


class Processes:
    """Processes on this machine. If one is lost, new ones are started, and the tasks under way are handed out again."""

    def __init__(self, count: int) -> None:
        self._count = count

    def scan(self, database: Database, tasks: Tasks) -> Iterator[Done]:
        for _ in range(_TRIES):
            under_way: UnderWay = {}
            try:
                with _processes(self._count) as executor:
                    yield from _scan(executor, _TASKS_OF_ONE * self._count, database, tasks, under_way)
                return
            except BrokenProcessPool:
                tasks.put_back(film for films in under_way.values() for film in films)
        raise OSError(f"a worker was lost {_TRIES} times: out of memory?")


@contextmanager
def _processes(count: int) -> Iterator[Executor]:
    # Not forked: a child must not inherit a connection to SQLite.
    context = multiprocessing.get_context("spawn")
    executor = ProcessPoolExecutor(count, mp_context=context, initializer=_leave_interrupts)
    try:
        yield executor
    finally:
        executor.shutdown(cancel_futures=True)


def _leave_interrupts() -> None:
    """Ctrl-C reaches every process of a terminal. Only the coordinator heeds it, and ends the others."""
    signal.signal(signal.SIGINT, signal.SIG_IGN)
