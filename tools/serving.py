"""Serves the playground and what it is made of: the files that its page may ask for, and no others."""
import posixpath
import sys
from http.server import BaseHTTPRequestHandler, ThreadingHTTPServer
from pathlib import Path
from urllib.parse import unquote, urlsplit

HOME = Path(__file__).resolve().parents[1]
PAGE, BUILT = "/docs/playground/", "/playground/"
MODULE = "/out/wasm/jschema.wasm"
PACKAGE = "/bindings/javascript/src/"

TYPES = {
    ".html": "text/html; charset=utf-8",
    ".js": "text/javascript; charset=utf-8",
    ".css": "text/css; charset=utf-8",
    ".json": "application/json",
    ".wasm": "application/wasm",
}


class Handler(BaseHTTPRequestHandler):
    """Answers to GET and HEAD. The page has a policy of its own; what the server adds, a page can't say."""

    server_version = "jschema"
    protocol_version = "HTTP/1.1"
    # A response is sent at once and whole. (By default its headers are sent alone, and its body only after they have
    # been acknowledged: a browser that uses the connection again takes up to 40 ms for that.)
    wbufsize = -1
    disable_nagle_algorithm = True

    def do_GET(self):  # noqa: N802
        self.answer(True)

    def do_HEAD(self):  # noqa: N802
        self.answer(False)

    def answer(self, has_body):
        path = unquote(urlsplit(self.path).path)
        if path in ("/", self.server.page.rstrip("/")):
            return self.reply(302, b"", {"Location": self.server.page}, has_body)
        path = f"{path}index.html" if path.endswith("/") else path
        file, media_type = self.server.file_of(path), TYPES.get(posixpath.splitext(path)[1])
        if file is None or media_type is None:
            return self.reply(404, b"not found\n", {"Content-Type": "text/plain"}, has_body)
        return self.reply(200, file.read_bytes(), {"Content-Type": media_type}, has_body)

    def reply(self, status, body, headers, has_body):
        # (With "no-cache" a browser would write all of it to its disk while it loads the page.)
        fixed = {"Content-Length": str(len(body)), "Cache-Control": "no-store", "X-Content-Type-Options": "nosniff",
                 "Referrer-Policy": "no-referrer", "Content-Security-Policy": "frame-ancestors 'none'"}
        self.send_response(status)
        for name, value in {**fixed, **headers}.items():
            self.send_header(name, value)
        self.end_headers()
        if has_body:
            self.wfile.write(body)

    def log_message(self, *words):
        if self.server.is_logging:
            super().log_message(*words)


def built_files(folder):
    """What tools/build-playground made in a folder, by the paths under which it is served."""
    return {f"{BUILT}{it.name}": it for it in Path(folder).iterdir()}


class Server(ThreadingHTTPServer):
    """Files of the repository, for this machine alone. `others` has files by the path under which they are served.

    A request for no file is redirected to `page`.
    """

    daemon_threads = True

    def __init__(self, port, module, others=(), handler=Handler, is_logging=False, page=PAGE):
        super().__init__(("127.0.0.1", port), handler)
        self.others = {MODULE: Path(module), **dict(others)}
        self.is_logging = is_logging
        self.page = page

    @property
    def url(self):
        return f"http://127.0.0.1:{self.server_address[1]}"

    def handle_error(self, request, client_address):
        # (A browser that leaves a page takes no more of it.)
        if not isinstance(sys.exc_info()[1], ConnectionError):
            super().handle_error(request, client_address)

    def file_of(self, path):
        """The file that a path names, or None."""
        found = self.others.get(path)
        if found is None and posixpath.normpath(path) == path and path.startswith((PAGE, PACKAGE)):
            found = HOME / path.removeprefix("/")
        return found if found is not None and found.is_file() else None
