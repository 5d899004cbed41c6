"""The language server asks for its settings, where the client has an answer (`workspace/configuration`)."""
from lsp_client import SCHEMAS, Session

OTHERS = [{"fileMatch": ["*.other.json"], "schema": "person.schema.json"}]
BAD = '{"name": 1}'


class Settings(Session):
    WORKSPACE = {"configuration": True, "didChangeConfiguration": {"dynamicRegistration": True}}

    def asked(self):
        """The id of the server's request for settings."""
        message = self.client.wait(lambda it: it.get("method") == "workspace/configuration")
        self.assertEqual(message["params"], {"items": [{"section": "jschema"}]})
        return message["id"]

    def answer(self, number, *settings):
        self.client.send({"id": number, "result": [*settings]})

    def wait_for(self, name, *codes):
        """Waits until a document's diagnostics are of these codes: they are made again when its settings come."""
        self.client.wait(lambda it: it.get("method") == "textDocument/publishDiagnostics" and
                         it["params"]["uri"] == self.uri(name) and
                         [found["code"] for found in it["params"]["diagnostics"]] == [*codes])

    def test_after_the_beginning(self):
        """What the client answers takes the place of what it began with, and a change of it is asked for again."""
        self.start(schemas=SCHEMAS)
        registered = self.client.wait(lambda it: it.get("method") == "client/registerCapability")
        self.assertEqual([it["method"] for it in registered["params"]["registrations"]],
                         ["workspace/didChangeConfiguration"])
        number = self.asked()
        self.assertEqual(self.open("a.other.json", BAD), [])
        self.answer(number, {"schemas": OTHERS})
        self.wait_for("a.other.json", "type")
        self.assertEqual(self.open("a.person.json", BAD), [])
        self.client.notify("workspace/didChangeConfiguration", settings=None)
        self.answer(self.asked(), {"schemas": SCHEMAS})
        self.wait_for("a.person.json", "type")
        self.wait_for("a.other.json")

    def test_nothing_to_answer(self):
        """Without an answer those settings stay that the client has sent."""
        self.start(schemas=OTHERS)
        self.answer(self.asked(), None)
        self.assertEqual([it["code"] for it in self.open("a.other.json", BAD)], ["type"])
        self.client.notify("workspace/didChangeConfiguration", settings={"jschema": {"schemas": SCHEMAS}})
        self.client.send({"id": self.asked(), "error": {"code": -32601, "message": "no such method"}})
        self.assertEqual([it["code"] for it in self.open("a.person.json", BAD)], ["type"])

    def test_wrong_answers(self):
        self.start(schemas=SCHEMAS)
        number = self.asked()
        self.client.send({"id": "nobody asked", "result": [1]})
        self.client.send({"id": number, "result": [{"schemas": 1}]})
        message = self.client.wait(lambda it: it.get("method") == "window/showMessage")
        self.assertEqual(message["params"]["message"], "schemas isn't a list")
        self.assertIsNone(self.client.call("shutdown"))


class WithoutAnswers(Session):
    def test_not_asked(self):
        self.start(schemas=SCHEMAS)
        self.client.notify("workspace/didChangeConfiguration", settings={"schemas": OTHERS})
        self.assertEqual([it["code"] for it in self.open("a.other.json", BAD)], ["type"])
        self.assertFalse([it for it in self.client.kept if it.get("method") == "workspace/configuration"])
