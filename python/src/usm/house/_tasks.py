"""Films in tasks for the workers."""

from __future__ import annotations

import itertools
from collections.abc import Iterable, Iterator

from usm._held import Wanted
from usm.house._work import Done

# How long a task should take, in seconds: long enough that handing it out and its one transaction cost little in comparison,
# short enough that little is done again when a worker is lost.
_SECONDS = 0.25
_FILMS_AT_FIRST = 4
_MOST_FILMS = 256


class Tasks:
    """Films in tasks of about equal length, judged by what the last task took."""

    def __init__(self, films: Iterator[Wanted]) -> None:
        self._films = films
        self._count = _FILMS_AT_FIRST

    def next(self) -> list[Wanted]:
        """The films of the next task. There are none when all have been handed out."""
        return list(itertools.islice(self._films, self._count))

    def put_back(self, films: Iterable[Wanted]) -> None:
        """Takes back films of tasks that were not done."""
        self._films = itertools.chain(list(films), self._films)

    def took(self, done: Done) -> None:
        """Learns from a task that is done. Since films differ, the next ones are at most twice as large."""
        fitting = int(done.films * _SECONDS / max(done.seconds, 0.001))
        self._count = max(1, min(fitting, 2 * self._count, _MOST_FILMS))
