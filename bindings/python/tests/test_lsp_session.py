"""The language server's session: its beginning and end, requests that are wrong or cancelled, versions."""
import json
import time

import jschema

from lsp_client import SECONDS, Session

CANCELLED, NOT_INITIALIZED, NOT_JSON = -32800, -32002, -32700
BAD_REQUEST, NO_METHOD, BAD_PARAMS = -32600, -32601, -32602
LARGE = json.dumps({"rows": [{"id": number, "tags": ["a", {"b": None}]} for number in range(5000)]}, indent=1)


class Lifecycle(Session):
    with_both = True

    def test_whole_session(self):
        result = self.start()
        self.assertEqual(result["serverInfo"], {"name": "jschema-lsp", "version": jschema.__version__})
        self.assertEqual(result["capabilities"]["positionEncoding"], "utf-16")
        self.assertEqual(result["capabilities"]["textDocumentSync"]["change"], 2)
        self.assertEqual(self.client.end(), 0)

    def test_exit_without_shutdown(self):
        self.start()
        self.client.notify("exit")
        self.assertEqual(self.client.process.wait(SECONDS), 1)

    def test_end_of_input(self):
        self.start()
        self.client.process.stdin.close()
        self.assertEqual(self.client.process.wait(SECONDS), 1)

    def test_order(self):
        self.assertEqual(self.error("textDocument/hover", textDocument={"uri": "file:///a"}), NOT_INITIALIZED)
        self.client.notify("textDocument/didOpen", textDocument={})
        self.start()
        self.assertEqual(self.error("initialize", capabilities={}), BAD_REQUEST)
        self.client.call("shutdown")
        self.assertEqual(self.error("textDocument/hover", textDocument={"uri": "file:///a"}), BAD_REQUEST)

    def test_wrong_requests(self):
        self.start()
        self.assertEqual(self.error("textDocument/rename", textDocument={"uri": "file:///a"}), NO_METHOD)
        self.assertEqual(self.error("textDocument/hover", textDocument={"uri": "file:///a"}), BAD_PARAMS)
        self.assertEqual(self.error("textDocument/hover"), BAD_PARAMS)
        self.open("a.json", "{}")
        self.assertEqual(self.error("textDocument/hover", textDocument={"uri": self.uri("a.json")}), BAD_PARAMS)
        self.client.notify("$/unknown")
        self.client.notify("textDocument/didOpen")
        self.assertIsNone(self.client.call("shutdown"))

    def test_wrong_messages(self):
        self.start()
        self.client.send_bytes(b"Content-Length: 3\r\nContent-Type: x\r\n\r\n{]}")
        self.assertEqual(self.client.response(None)["error"]["code"], NOT_JSON)
        self.client.send_bytes(b"content-length: 2\r\n\r\n[]")
        self.assertEqual(self.client.response(None)["error"]["code"], BAD_REQUEST)
        self.assertIsNone(self.client.call("shutdown"))
        self.client.send_bytes(b"Content-Length: x\r\n\r\n{}")
        self.assertEqual(self.client.process.wait(SECONDS), 1)


class Requests(Session):
    def test_cancelled(self):
        """Of two requests the second is cancelled while the server is busy with the first."""
        self.start()
        self.open("large.json", LARGE)
        document = {"textDocument": {"uri": self.uri("large.json")}}
        method = "textDocument/documentSymbol"
        messages = [{"id": "a", "method": method, "params": document},
                    {"id": "b", "method": method, "params": document},
                    {"method": "$/cancelRequest", "params": {"id": "b"}}]
        self.client.send_bytes(b"".join(self.client.framed(it) for it in messages))
        self.assertEqual(self.client.response("b")["error"]["code"], CANCELLED)
        self.assertEqual([it["name"] for it in self.client.response("a")["result"]], ["rows"])

    def test_cancelled_on_the_way(self):
        self.start()
        self.open("large.json", LARGE)
        request = self.client.ask("textDocument/documentSymbol", textDocument={"uri": self.uri("large.json")})
        time.sleep(0.05)
        self.client.notify("$/cancelRequest", id=request)
        response = self.client.response(request)
        self.assertEqual(response["error"]["code"] if "error" in response else CANCELLED, CANCELLED)
        self.client.notify("$/cancelRequest", id=request)
        self.assertIsNone(self.client.call("shutdown"))


class Versions(Session):
    with_both = True

    def test_versions(self):
        """Each version may have diagnostics, and the last one has; one that is out of order isn't taken."""
        self.start()
        self.open("a.person.json", "{}")
        for version in range(2, 30):
            self.change("a.person.json", version, '{"age": -%d}' % version)
        self.assertEqual([it["code"] for it in self.client.diagnostics(self.uri("a.person.json"), 29)],
                         ["minimum", "required"])
        self.change("a.person.json", 29, "{}")
        self.change("a.person.json", 28, "{}")
        message = self.client.wait(lambda it: it.get("method") == "window/showMessage")
        self.assertIn("out of order", message["params"]["message"])
        self.change("a.person.json", 31, '{"name": "A"}')
        self.assertEqual(self.client.diagnostics(self.uri("a.person.json"), 31), [])

    def test_closed(self):
        self.start()
        self.open("a.person.json", "{}")
        self.client.notify("textDocument/didClose", textDocument={"uri": self.uri("a.person.json")})
        self.assertEqual(self.client.diagnostics(self.uri("a.person.json"), None), [])
        self.assertEqual(self.error("textDocument/hover", textDocument={"uri": self.uri("a.person.json")}), BAD_PARAMS)
