"""Runs a function with room for results as deep as the limits allow."""
import concurrent.futures
import gc
import sys
import threading

STACK_BYTES = 512 * 1024 * 1024
DEEPEST_CALLS = 100_000


def with_deep_stack(function, seconds=None):
    """Answers what the function answers, and raises what it raises, `SystemExit` included.

    Raises `TimeoutError` where it takes longer than `seconds`; the process can then end at once.
    """
    sys.setrecursionlimit(DEEPEST_CALLS)
    # Trees have no cycles, and the search for some takes half of the time.
    gc.disable()
    threading.stack_size(STACK_BYTES)
    outcome = concurrent.futures.Future()

    def settle():
        try:
            outcome.set_result(function())
        except BaseException as error:
            outcome.set_exception(error)

    # A daemon, so that one that hangs doesn't keep the process.
    threading.Thread(target=settle, daemon=True).start()
    # The threads that the function starts need no such stack.
    threading.stack_size(0)
    if concurrent.futures.wait([outcome], seconds).not_done:
        raise TimeoutError(f"no end after {seconds} s")
    return outcome.result()
