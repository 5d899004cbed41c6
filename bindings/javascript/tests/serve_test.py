"""What tools/serve serves, and what tools/build-playground makes."""
import re
import shutil
import subprocess
import sys
import tempfile
import unittest
from http.client import HTTPConnection
from pathlib import Path
from socket import create_connection

HOME = Path(__file__).resolve().parents[3]
SERVE = HOME / "tools" / "serve"
BUILD = HOME / "tools" / "build-playground"


class Serve:
    """A server that was started."""

    def __init__(self, page, *words):
        self.job = subprocess.Popen([SERVE, "--port", "0", *words], stdout=subprocess.PIPE, stderr=subprocess.DEVNULL,
                                    text=True)
        self.address = re.fullmatch(rf"http://(127\.0\.0\.1:\d+){page}\n", self.job.stdout.readline())[1]

    def end(self):
        self.job.terminate()
        self.job.wait()
        self.job.stdout.close()

    def ask(self, path, method="GET"):
        """The status, the headers and the body."""
        connection = HTTPConnection(self.address, timeout=30)
        try:
            connection.request(method, path)
            response = connection.getresponse()
            return response.status, dict(response.getheaders()), response.read()
        finally:
            connection.close()


class Serving(unittest.TestCase):
    @classmethod
    def setUpClass(cls):
        cls.folder = tempfile.TemporaryDirectory()
        cls.module = Path(cls.folder.name, "module.wasm")
        cls.module.write_bytes(b"\0asm\1\0\0\0")
        cls.server = Serve("/docs/playground/", "--module", cls.module)
        cls.address, cls.ask = cls.server.address, cls.server.ask

    @classmethod
    def tearDownClass(cls):
        cls.server.end()
        cls.folder.cleanup()

    def test_types(self):
        for path, begin, kind in (
                ("/docs/playground/", b"<!doctype html>", "text/html; charset=utf-8"),
                ("/docs/playground/?x#y", b"<!doctype html>", "text/html; charset=utf-8"),
                ("/docs/playground/main.js", b"/**", "text/javascript; charset=utf-8"),
                ("/docs/playground/style.css", b"/*", "text/css; charset=utf-8"),
                ("/bindings/javascript/src/index.js", b"/**", "text/javascript; charset=utf-8"),
                ("/out/wasm/jschema.wasm", b"\0asm", "application/wasm")):
            status, headers, body = self.ask(path)
            self.assertEqual((status, headers["Content-Type"], body[:len(begin)]), (200, kind, begin), path)
            self.assertEqual(headers["X-Content-Type-Options"], "nosniff")
            self.assertEqual(headers["Content-Security-Policy"], "frame-ancestors 'none'")
            self.assertEqual(headers["Cache-Control"], "no-store")
            self.assertEqual(self.ask(path, "HEAD")[2], b"")

    def test_a_response_is_sent_whole(self):
        """Headers and body come together, also on a connection that was used before."""
        host, port = self.address.split(":")
        path = "/docs/playground/elements.js"
        body = (HOME / path[1:]).read_bytes()
        with create_connection((host, int(port)), 30) as connection:
            for _ in range(3):
                connection.sendall(f"GET {path} HTTP/1.1\r\nHost: {self.address}\r\n\r\n".encode())
                self.assertTrue(connection.recv(1 << 16).endswith(body))

    def test_nothing_else(self):
        for path in ("/README.md", "/docs/USING.md", "/docs/playground/../USING.md", "/docs/playground/%2e%2e/USING.md",
                     "/docs/playground//etc/passwd", "/bindings/javascript/package.json", "/docs/playground/none.js",
                     "/bindings/javascript/src/../test", "/bindings/javascript/src", "/bindings/javascript/src/",
                     "/playground/", "//etc/passwd"):
            self.assertEqual(self.ask(path)[0], 404, path)
        self.assertEqual(self.ask("/", "POST")[0], 501)

    def test_redirects(self):
        for path in ("/", "/docs/playground"):
            status, headers, _ = self.ask(path)
            self.assertEqual((status, headers["Location"]), (302, "/docs/playground/"))

    def test_what_is_published(self):
        with tempfile.TemporaryDirectory() as folder:
            files = {"index.html": b"<!doctype html>", "jschema.wasm": b"\0asm"}
            for name, content in files.items():
                Path(folder, name).write_bytes(content)
            server = Serve("/playground/", "--built", folder)
            try:
                for path, name in (("/playground/", "index.html"), ("/playground/jschema.wasm", "jschema.wasm")):
                    status, _, body = server.ask(path)
                    self.assertEqual((status, body), (200, files[name]))
                for path in ("/", "/playground"):
                    self.assertEqual(server.ask(path)[1]["Location"], "/playground/")
                self.assertEqual(server.ask("/playground/none")[0], 404)
            finally:
                server.end()

    def test_faults(self):
        for words, status, says in ((["--port", "x"], 2, "invalid int"), (["--module", "/none"], 4, "no module"),
                                    (["--built", "/none"], 4, "no page"),
                                    (["--built", "/none", "--module", "/none"], 2, "not allowed with"),
                                    (["--module", self.module, "--port", self.address.split(":")[1]], 4, "in use")):
            ended = subprocess.run([SERVE, *words], capture_output=True, text=True, timeout=60)
            self.assertEqual(ended.returncode, status, ended)
            self.assertIn(says, ended.stderr)


class Built(unittest.TestCase):
    """What is published."""

    def made(self, *words):
        return subprocess.run([BUILD, *words], capture_output=True, text=True, timeout=120)

    def test_faults(self):
        self.assertEqual(self.made("--bad").returncode, 2)
        self.assertEqual(self.made("--module", "/none").returncode, 4)

    @unittest.skipIf(shutil.which("esbuild") is None, "the playground as it is published: esbuild isn't installed")
    def test_twice_the_same(self):
        with tempfile.TemporaryDirectory() as folder:
            one, two = [Path(folder, name) for name in ("one", "two")]
            for made in (one, two):
                ended = self.made("--module", sys.executable, "--out", made)
                self.assertEqual(ended.returncode, 0, ended)
            names = ["index.html", "jschema.wasm", "playground.html"]
            self.assertEqual(sorted(it.name for it in one.iterdir()), names)
            for name in names:
                self.assertEqual((one / name).read_bytes(), (two / name).read_bytes(), name)
            self.assertEqual((one / "jschema.wasm").read_bytes(), Path(sys.executable).read_bytes())
            self.judge((one / "index.html").read_text("utf-8"), "; connect-src 'self'", 2, ["jschema.wasm"])
            self.judge((one / "playground.html").read_text("utf-8"), "", 1, [])

    def judge(self, page, connections, scripts, asked):
        """The policy allows these connections and scripts, nothing else is loaded, and the page names these files."""
        policy = re.search(r"default-src[^\"]*", page)[0]
        hashed = r"'sha256-[\w+/]{43}='"
        expected = (f"default-src 'none'; script-src( {hashed}){{{scripts}}} 'wasm-unsafe-eval'; "
                    f"style-src {hashed}{connections}; worker-src blob:; img-src data:; base-uri 'none'; "
                    "form-action 'none'")
        self.assertRegex(policy, f"^{expected}$")
        head = re.sub(r"(<(script|style)[^>]*>).*?</\2>", r"\1", page.split("</head>")[0], flags=re.S)
        self.assertEqual(re.findall(r'(?:src|href|data-module)="(?!data:)([^"]*)"', head), asked)


if __name__ == "__main__":
    unittest.main()
