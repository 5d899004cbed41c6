"""Processes that make calls side by side, where threads would wait for Python's lock."""
from __future__ import annotations

import mmap
import os
import pickle
import signal
from collections.abc import Iterable, Sequence
from queue import SimpleQueue
from typing import Any, Callable, Generic, NoReturn, TypeVar, Union

from ..errors import EngineError

_Given = TypeVar("_Given")
_Answer = TypeVar("_Answer")

# The bytes of data that a process takes out of memory.
_ROOM = 1 << 20


class Workers(Generic[_Given, _Answer]):
    """Processes that make the same call, each for one at a time. At the end of the context they are killed.

    They are forked, so that each has all that the call needs; no other thread may run while they start. What is passed
    in beside the data, and what the call returns, must be picklable. (The modules of `multiprocessing` take longer to
    load than thousands of small checks.)
    """

    def __init__(self, call: Callable[[_Given, bytes], _Answer], count: int) -> None:
        self._call, self._count = call, count
        self._workers: list[_Worker] = []
        self._free: SimpleQueue[_Worker] = SimpleQueue()

    def ask(self, given: _Given, data: bytes) -> _Answer:
        """What the call returns in a process that is free; of as many threads as there are processes each finds one.

        Raises what the call raises, and `EngineError` if the process has ended.
        """
        worker = self._free.get()
        try:
            answer: _Answer = worker.ask(given, data)
            return answer
        finally:
            self._free.put(worker)

    def __enter__(self) -> Workers[_Given, _Answer]:
        try:
            self._start()
        except BaseException:
            self._kill()
            raise
        return self

    def __exit__(self, *_: object) -> None:
        self._kill()

    def _start(self) -> None:
        # Where the end of processes is ignored, as what starts this one may have it, none is heard of.
        signal.signal(signal.SIGCHLD, signal.SIG_DFL)
        # An interrupt is for this process alone: the others start with it blocked.
        before = signal.pthread_sigmask(signal.SIG_BLOCK, {signal.SIGINT})
        try:
            for _ in range(self._count):
                worker = _Worker(self._call, self._workers)
                self._workers.append(worker)
                self._free.put(worker)
        except OSError as error:
            raise EngineError(f"no process can be started: {error.strerror}") from error
        finally:
            signal.pthread_sigmask(signal.SIG_SETMASK, before)

    def _kill(self) -> None:
        for worker in self._workers:
            os.kill(worker.process, signal.SIGKILL)
        for worker in self._workers:
            os.waitpid(worker.process, 0)


class _Memory:
    """Memory that two processes share. (Much data takes long through a pipe.)"""

    def __init__(self) -> None:
        self._shared = mmap.mmap(-1, _ROOM)

    def put(self, data: bytes) -> Union[bytes, int]:
        """Puts data there. Returns what the other process gets it by: the data itself, where it is large."""
        if len(data) > _ROOM:
            return data
        self._shared[:len(data)] = data
        return len(data)

    def get(self, put: Union[bytes, int]) -> bytes:
        """The data that was put there."""
        return self._shared[:put] if isinstance(put, int) else put


class _Connection:
    """Pickled values, from another process and to it."""

    def __init__(self, reading: int, writing: int) -> None:
        self._reader, self._writer = open(reading, "rb"), open(writing, "wb")

    def send(self, value: Any) -> None:
        pickle.dump(value, self._writer, pickle.HIGHEST_PROTOCOL)
        self._writer.flush()

    def receive(self) -> Any:
        """The next value. Raises `EOFError` if the other process has ended."""
        try:
            return pickle.load(self._reader)
        except pickle.UnpicklingError as error:
            raise EOFError from error

    def close(self) -> None:
        self._reader.close()
        self._writer.close()


def _connected() -> tuple[_Connection, _Connection]:
    """Two connections, each to the other."""
    (our_reading, their_writing), (their_reading, our_writing) = os.pipe(), os.pipe()
    return _Connection(our_reading, our_writing), _Connection(their_reading, their_writing)


class _Worker:
    """A process, and the connection to it."""

    def __init__(self, call: Callable[[Any, bytes], Any], others: Sequence[_Worker]) -> None:
        self._memory = _Memory()
        self._connection, theirs = _connected()
        #: The number of the process.
        self.process = os.fork()
        if self.process == 0:
            # (Of each connection the parent alone has its end, so that the other notices when it ends.)
            _work(call, theirs, self._memory, [it._connection for it in (self, *others)])
        theirs.close()

    def ask(self, given: Any, data: bytes) -> Any:
        """What the call returns. Raises what it raises."""
        try:
            self._connection.send((given, self._memory.put(data)))
            answer, error = self._connection.receive()
        except (EOFError, OSError):
            raise EngineError(f"a process that checks {self._ending()}") from None
        if error is not None:
            raise error
        return answer

    def _ending(self) -> str:
        ended = os.waitid(os.P_PID, self.process, os.WEXITED | os.WNOWAIT)
        assert ended is not None
        how = "ended with status" if ended.si_code == os.CLD_EXITED else "was killed by signal"
        return f"{how} {ended.si_status}"


def _work(call: Callable[[Any, bytes], Any], connection: _Connection, memory: _Memory,
          others: Iterable[_Connection]) -> NoReturn:
    """What a process does until it is killed, or the connection is closed: one call after another."""
    try:
        for it in others:
            it.close()
        while True:
            given, put = connection.receive()
            connection.send(_answer(call, given, memory.get(put)))
    finally:
        # (Whatever it is, the process at the other end reports that this one has ended.)
        os._exit(1)


def _answer(call: Callable[[Any, bytes], Any], given: Any, data: bytes) -> tuple[Any, Any]:
    try:
        return call(given, data), None
    except Exception as error:
        return None, error
