"""Calls side by side, with their answers in order."""
from __future__ import annotations

import threading
from collections.abc import Generator, Iterable, Iterator
from queue import SimpleQueue
from typing import Callable, Generic, Optional, TypeVar

_Given = TypeVar("_Given")
_Result = TypeVar("_Result")

# How many of the given are read ahead for each job.
_AHEAD = 4


def side_by_side(call: Callable[[_Given], _Result], given: Iterable[_Given],
                 jobs: int) -> Generator[_Result, None, None]:
    """What a call returns for each of the given, in their order, each as soon as it is known. Up to `jobs` calls run at
    once.

    Where the iterator is closed, what waits is dropped, and nobody waits for what runs.
    """
    run = _Run(call, given, jobs)
    # (Those of `concurrent.futures` would keep the process until all are done.)
    for target in (run.read, *[run.work] * jobs):
        threading.Thread(target=target, daemon=True).start()
    try:
        yield from run.answers()
    finally:
        run.stop(jobs)


class _Answer(Generic[_Result]):
    """What a call answers or raises. (A `Future` does the same, and takes longer than a small check.)"""

    __slots__ = ("_done", "_result", "_error")

    def __init__(self) -> None:
        self._done = threading.Lock()
        self._done.acquire()
        self._error: Optional[BaseException] = None

    def set(self, result: _Result) -> None:
        self._result = result
        self._done.release()

    def fail(self, error: BaseException) -> None:
        self._error = error
        self._done.release()

    def result(self) -> _Result:
        """Waits for the call."""
        self._done.acquire()
        if self._error is not None:
            raise self._error
        return self._result


class _Run(Generic[_Given, _Result]):
    """One thread reads the given, others make the calls, and the caller's has the answers."""

    def __init__(self, call: Callable[[_Given], _Result], given: Iterable[_Given], jobs: int) -> None:
        self._call, self._given = call, given
        self._is_stopped = False
        # One for each that may be read ahead.
        self._room: SimpleQueue[None] = SimpleQueue()
        for _ in range(_AHEAD * jobs):
            self._room.put(None)
        self._waiting: SimpleQueue[Optional[tuple[_Answer[_Result], _Given]]] = SimpleQueue()
        self._ordered: SimpleQueue[Optional[_Answer[_Result]]] = SimpleQueue()

    def read(self) -> None:
        """Hands out the given, a few before their answers are taken."""
        try:
            for it in self._given:
                answer: _Answer[_Result] = _Answer()
                self._waiting.put((answer, it))
                self._ordered.put(answer)
                self._room.get()
                if self._is_stopped:
                    return
        except BaseException as error:
            failed: _Answer[_Result] = _Answer()
            failed.fail(error)
            self._ordered.put(failed)
        self._ordered.put(None)

    def work(self) -> None:
        """Makes one call after another."""
        while (job := self._waiting.get()) is not None and not self._is_stopped:
            answer, it = job
            try:
                answer.set(self._call(it))
            except BaseException as error:
                answer.fail(error)

    def answers(self) -> Iterator[_Result]:
        """The answers in order."""
        while (answer := self._ordered.get()) is not None:
            yield answer.result()
            self._room.put(None)

    def stop(self, jobs: int) -> None:
        """Ends the threads when they are done with what they do."""
        self._is_stopped = True
        self._room.put(None)
        for _ in range(jobs):
            self._waiting.put(None)
