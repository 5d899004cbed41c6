"""Calls that need a large stack, on threads that may have a small one.

The stack that the library uses grows with the nesting of the schema applications and of the JSON text. What is within
its limits needs less than 1 MiB; the rest is for Python's own calls.
"""
from __future__ import annotations

import ctypes
import os
import threading
from typing import Any, Callable, Optional, TypeVar

from .errors import EngineError

NEEDED = 2 << 20
#: At least the bytes of a `pthread_attr_t`.
_ATTRIBUTES = 256

_Result = TypeVar("_Result")
_system = ctypes.CDLL(None)


def _size() -> int:
    """The size of this thread's stack; 0 if the system doesn't tell."""
    try:
        attributes = ctypes.create_string_buffer(_ATTRIBUTES)
        _system.pthread_self.restype = ctypes.c_void_p
        if _system.pthread_getattr_np(ctypes.c_void_p(_system.pthread_self()), attributes) != 0:
            return 0
        lowest, size = ctypes.c_void_p(), ctypes.c_size_t()
        _system.pthread_attr_getstack(attributes, ctypes.byref(lowest), ctypes.byref(size))
        _system.pthread_attr_destroy(attributes)
    except AttributeError:
        return 0
    return size.value


class _Stack(threading.local):
    """Of each thread, whether its stack is large. Looked up once."""

    def __init__(self) -> None:
        self.is_large = _size() >= NEEDED


_stack = _Stack()
# A thread gets the size that is set for all of them, so it is set while one thread starts.
_starting = threading.RLock()


def _after_fork() -> None:
    # Another thread of the parent may have held it.
    global _starting
    _starting = threading.RLock()


os.register_at_fork(after_in_child=_after_fork)


def on_large_stack(call: Callable[..., _Result], *arguments: Any) -> _Result:
    """What a call returns. It is made on a thread of its own where the stack of this one is small or unknown."""
    return call(*arguments) if _stack.is_large else _on_own_thread(call, arguments)


def _on_own_thread(call: Callable[..., _Result], arguments: tuple[Any, ...]) -> _Result:
    answers: list[_Result] = []
    raised: list[BaseException] = []

    def run() -> None:
        try:
            answers.append(call(*arguments))
        except BaseException as error:
            raised.append(error)

    _start(threading.Thread(target=run, daemon=True)).join()
    for error in raised:
        raise error
    return answers[0]


def _start(thread: threading.Thread) -> threading.Thread:
    with _starting:
        before: Optional[int] = None
        try:
            before = threading.stack_size(NEEDED)
            thread.start()
        except (RuntimeError, ValueError) as error:
            raise EngineError(f"this thread's stack is small, and no other can be started: {error}") from error
        finally:
            if before is not None:
                threading.stack_size(before)
    return thread
