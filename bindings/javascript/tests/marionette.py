"""Firefox, asked over its own protocol: Debian has no driver for it."""
import json
import socket
import subprocess
import time
from pathlib import Path


class Firefox:
    """A headless Firefox with an empty profile in a folder."""

    def __init__(self, folder, seconds):
        Path(folder, "user.js").write_text('user_pref("marionette.port", 0);\n', encoding="utf-8")
        self.job = subprocess.Popen(["firefox-esr", "--headless", "--no-remote", "--marionette", "--profile", folder],
                                    stdout=subprocess.DEVNULL, stderr=subprocess.DEVNULL)
        self.read_bytes, self.number, self.seconds = b"", 0, seconds
        try:
            port = int(self.until(lambda: port_of(folder)))
            self.connection = socket.create_connection(("127.0.0.1", port), timeout=seconds)
            self.message()
            self.ask("WebDriver:NewSession")
        except BaseException:
            self.end()
            raise

    def end(self):
        self.job.terminate()
        self.job.wait()
        if hasattr(self, "connection"):
            self.connection.close()

    def until(self, found):
        """What is found, once it is."""
        end = time.monotonic() + self.seconds
        while not (it := found()):
            if time.monotonic() > end or self.job.poll() is not None:
                raise TimeoutError("Firefox doesn't come to it")
            time.sleep(0.05)
        return it

    def message(self):
        """A message: its length, a colon, JSON."""
        while b":" not in self.read_bytes:
            self.receive()
        length, _, self.read_bytes = self.read_bytes.partition(b":")
        while len(self.read_bytes) < int(length):
            self.receive()
        text, self.read_bytes = self.read_bytes[:int(length)], self.read_bytes[int(length):]
        return json.loads(text)

    def receive(self):
        received = self.connection.recv(1 << 16)
        if not received:
            raise ConnectionError("Firefox has ended")
        self.read_bytes += received

    def ask(self, name, **parameters):
        self.number += 1
        text = json.dumps([0, self.number, name, parameters]).encode()
        self.connection.sendall(b"%d:%b" % (len(text), text))
        _, _, fault, answer = self.message()
        if fault:
            raise RuntimeError(f"{name}: {fault['message']}")
        return answer

    def go(self, url):
        self.ask("WebDriver:Navigate", url=url)

    def run(self, script, *words):
        """What a script of the page returns."""
        return self.ask("WebDriver:ExecuteScript", script=script, args=words)["value"]

    def run_until_called(self, script):
        """What a script passes to its last argument, a function."""
        return self.ask("WebDriver:ExecuteAsyncScript", script=script, args=[])["value"]


def port_of(folder):
    """The port that Firefox writes into its profile; nothing until then."""
    path = Path(folder, "MarionetteActivePort")
    return path.read_text(encoding="utf-8").strip() if path.exists() else ""
