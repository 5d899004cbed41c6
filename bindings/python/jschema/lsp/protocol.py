"""The base protocol of LSP 3.17: JSON-RPC 2.0 messages with headers, over two streams of bytes."""
from __future__ import annotations

import json
import queue
import threading
from enum import IntEnum
from typing import Any, BinaryIO, Optional, Union

Message = dict[str, Any]
Id = Union[int, str, None]

# The longest message that is read. A document of the largest size that the validator takes fits, with escapes.
_LONGEST = 1 << 28


class Code(IntEnum):
    """The codes of errors."""

    PARSE_ERROR = -32700
    INVALID_REQUEST = -32600
    METHOD_NOT_FOUND = -32601
    INVALID_PARAMS = -32602
    INTERNAL_ERROR = -32603
    NOT_INITIALIZED = -32002
    REQUEST_FAILED = -32803
    REQUEST_CANCELLED = -32800


class Failure(Exception):
    """The error that a request is answered with."""

    def __init__(self, code: Code, message: str) -> None:
        super().__init__(code, message)
        self.code, self.message = code, message


class Connection:
    """Messages to and from a client. A thread reads them, so that a request can be cancelled before its turn comes."""

    def __init__(self, reader: BinaryIO, writer: BinaryIO) -> None:
        self._reader, self._writer = reader, writer
        # None stands for the end of the stream.
        self._messages: queue.SimpleQueue[Optional[Message]] = queue.SimpleQueue()
        self._cancelled: set[Id] = set()
        self._writing = threading.Lock()
        self._requests = 0

    def start(self) -> None:
        """Begins to read. The thread ends with the process."""
        threading.Thread(target=self._read_all, daemon=True).start()

    def receive(self, timeout: Optional[float] = None) -> Optional[Message]:
        """The next message; None at the end of the stream. Raises `queue.Empty` if none comes in time."""
        return self._messages.get(timeout=timeout)

    def is_idle(self) -> bool:
        """Whether no message waits."""
        return self._messages.empty()

    def check_cancelled(self, request: Id) -> None:
        """Raises `Failure` if the client has cancelled a request."""
        if request in self._cancelled:
            raise Failure(Code.REQUEST_CANCELLED, "the request was cancelled")

    def respond(self, request: Id, result: Any) -> None:
        """Answers a request."""
        self._cancelled.discard(request)
        self._send({"id": request, "result": result})

    def fail(self, request: Id, failure: Failure) -> None:
        """Answers a request with an error."""
        self._cancelled.discard(request)
        self._send({"id": request, "error": {"code": int(failure.code), "message": failure.message}})

    def notify(self, method: str, params: Message) -> None:
        """Sends a notification."""
        self._send({"method": method, "params": params})

    def request(self, method: str, params: Message) -> str:
        """Sends a request, and returns its id."""
        self._requests += 1
        name = f"jschema-{self._requests}"
        self._send({"id": name, "method": method, "params": params})
        return name

    def _send(self, message: Message) -> None:
        body = json.dumps({"jsonrpc": "2.0", **message}, separators=(",", ":")).encode()
        with self._writing:
            self._writer.write(b"Content-Length: %d\r\n\r\n%b" % (len(body), body))
            self._writer.flush()

    def _read_all(self) -> None:
        try:
            while (message := self._next()) is not None:
                self._take(message)
                if isinstance(message, dict) and message.get("method") == "exit":
                    # (A thread that waits for more would keep the stream, and so the process.)
                    return
        except (OSError, ValueError):
            # The stream broke off, or isn't what the protocol says: there is no way to find the next message.
            pass
        self._messages.put(None)

    def _take(self, message: Any) -> None:
        if not isinstance(message, dict):
            self.fail(None, Failure(Code.INVALID_REQUEST, "a message is an object"))
        elif message.get("method") == "$/cancelRequest":
            self._cancelled.add(message.get("params", {}).get("id"))
        else:
            self._messages.put(message)

    def _next(self) -> Any:
        """The next message; None at the end. Raises `ValueError` for headers that can't be read."""
        while True:
            length = self._length()
            if length is None:
                return None
            body = self._reader.read(length)
            if len(body) < length:
                return None
            try:
                return json.loads(body)
            except ValueError as error:
                self.fail(None, Failure(Code.PARSE_ERROR, f"the message isn't JSON: {error}"))

    def _length(self) -> Optional[int]:
        """The length that the headers of a message give; None at the end of the stream."""
        length = None
        while (line := self._reader.readline(1 << 16)) not in (b"\r\n", b"\n"):
            if not line:
                return None
            name, _, value = line.partition(b":")
            if name.strip().lower() == b"content-length":
                length = int(value)
        if length is None or not 0 <= length <= _LONGEST:
            raise ValueError("a message without a length")
        return length
