"""What the command reads: folders and links, what can't be read, names, and how much of an input."""
import ctypes
import json
import os
import resource
import socket
import string
import subprocess
from urllib.parse import quote

from commands import AGE, SOME, Case

LARGEST = 2**24

# What a process may take where an input has no end.
ROOM = 1 << 30
# linux/prctl.h, linux/capability.h
PR_CAPBSET_DROP = 24
CAP_DAC_OVERRIDE, CAP_DAC_READ_SEARCH = 1, 2


class Inputs(Case):
    #: What the memory of a process counts as.
    LIMIT = resource.RLIMIT_AS

    def bounded(self):
        """Bounds the memory of this process, and takes root's right to read everything from what it runs."""
        resource.setrlimit(self.LIMIT, (ROOM, ROOM))
        for right in (CAP_DAC_OVERRIDE, CAP_DAC_READ_SEARCH):
            ctypes.CDLL(None).prctl(PR_CAPBSET_DROP, right, 0, 0, 0)

    def ended(self, *words, given=None):
        """The status, standard output and standard error of a run that may not take much memory, nor read what nobody
        may read."""
        done = subprocess.run([*self.COMMAND, "validate", "--format", "short", *words], cwd=self.folder, check=False,
                              stdin=given or subprocess.DEVNULL, stdout=subprocess.PIPE, stderr=subprocess.PIPE,
                              timeout=180, preexec_fn=self.bounded)
        return done.returncode, done.stdout.decode(), done.stderr.decode()


class Folders(Inputs):
    def test_links(self):
        self.write("links/ok.json", '{"name": "A"}')
        for name, to in (("dangling", "nowhere"), ("loop", "loop.json")):
            os.symlink(to, self.folder / "links" / f"{name}.json")
        self.judge(["links"], "",
                   "links/dangling.json: failed: No such file or directory\n"
                   "links/loop.json: failed: Too many levels of symbolic links\n"
                   "1 valid, 0 invalid, 2 failed\n", 4)

    def test_suffix_in_capitals(self):
        self.write("capitals/X.JSON", "{}")
        self.write("capitals/Y.JsonL", '{"name": "A"}')
        self.assertEqual(self.run_command(*SOME, "capitals")[1:], ("0 valid, 1 invalid (1 error)\n", 1))
        self.assertEqual(self.run_command(*SOME, "--lines", "capitals")[1:], ("1 valid, 0 invalid\n", 0))

    def test_no_regular_file(self):
        os.mkdir(self.folder / "special")
        os.mkfifo(self.folder / "special" / "pipe.json")
        with socket.socket(socket.AF_UNIX) as it:
            it.bind(str(self.folder / "special" / "socket.json"))
        self.judge(["special"], "", "special/pipe.json: failed: not a regular file\n"
                   "special/socket.json: failed: not a regular file\n0 valid, 0 invalid, 2 failed\n", 4)

    def test_order_and_names(self):
        for name in ("order/b.json", "order/a/z.json", "order/a.json", "order/c/d/e.json"):
            self.write(name, "{}")
        for folder, begin in (("order", "order/"), ("./order//", "order/"), (str(self.folder / "order"),
                                                                              f"{self.folder}/order/")):
            out = self.run_command(*SOME, folder)[0]
            self.assertEqual([line.partition(":")[0] for line in out.splitlines()],
                             [begin + name for name in ("a/z.json", "a.json", "b.json", "c/d/e.json")])

    def test_no_permission(self):
        self.write("rights/ok.json", '{"name": "A"}')
        self.write("rights/secret.json", '{"name": "A"}', 0)
        self.write("rights/locked/bad.json", "{}")
        os.chmod(self.folder / "rights/locked", 0)
        self.addCleanup(os.chmod, self.folder / "rights/locked", 0o755)
        for words, said in ((["rights"], "rights/locked: failed: Permission denied\n"
                                         "rights/secret.json: failed: Permission denied\n"),
                            (["rights/ok.json", "rights/locked/bad.json"],
                             "rights/locked/bad.json: failed: Permission denied\n"),
                            (["rights/locked", "rights/ok.json"], "rights/locked: failed: Permission denied\n")):
            with self.subTest(words):
                count = said.count("\n")
                self.assertEqual(self.ended(*SOME[1:], *words), (4, "", f"{said}1 valid, 0 invalid, {count} failed\n"))


class Paths(Inputs):
    def test_bad_path_ends_only_itself(self):
        long = "n" * 5000
        self.judge([long, "data/ada.json"], "",
                   f"{long}: failed: File name too long\n1 valid, 0 invalid, 1 failed\n", 4)
        self.judge(["data/ada.json/x", "data/ada.json"], "",
                   "data/ada.json/x: failed: Not a directory\n1 valid, 0 invalid, 1 failed\n", 4)

    def test_name_with_a_hyphen(self):
        """After `--` come files."""
        for name in ("-x.json", "--", "--jobs"):
            self.write(name, '{"name": "A"}')
            with self.subTest(name):
                self.judge(["data/ada.json", "--", name, "data/ada.json"], "", "3 valid, 0 invalid\n", 0)

    def test_lint_of_a_name_with_a_hyphen(self):
        """After `--` come files."""
        for name in ("-x.json", "--", "--jobs"):
            self.write(name, '{"name": "A"}')
            with self.subTest(name):
                out, _, status = self.run_inside("lint", "--format", "short", "--", name)
                self.assertEqual((out.split(" ")[0], status), (f"{name}:1:2:", 0))

    def test_every_character(self):
        """Documents are referred to by their files' names, as the URL standard writes them in a path."""
        references, words = [], []
        for character in [*(it for it in map(chr, range(32, 127)) if it != "/"), "\x7f", "\n", "é", "\U0001f600"]:
            # These mean something else in a reference.
            reference = quote(character, safe="") if character in "%#?\\\n" else character
            references.append({"$ref": f"./o{reference}.json"})
            words += ["--ref", self.write(f"names/o{character}.json", '{"type": "string"}')]
        main = self.write("names/main.json", json.dumps({"allOf": references}))
        self.assertEqual(self.run_command("validate", "--schema", main, *words, "-", given='"A"'),
                         ("", "1 valid, 0 invalid\n", 0))

    def test_ascii_signs_in_a_folder(self):
        folder = "".join(it for it in string.punctuation if it not in "/%#?\\")
        main = self.write(f"{folder}/main.json", json.dumps({"$ref": "o.json"}))
        name = self.write(f"{folder}/o.json", '{"type": "string"}')
        self.assertEqual(self.run_command("validate", "--schema", main, "--ref", name, "-", given='"A"'),
                         ("", "1 valid, 0 invalid\n", 0))

    def test_own_uri_that_is_none(self):
        """A zero byte or a lone surrogate in an `$id` is left to the validator."""
        self.write("zero.json", '{"$id": "https://a.example/\\u0000"}')
        self.assertEqual(self.run_command("validate", "--schema", "zero.json", "-", given="1"),
                         ("", "1 valid, 0 invalid\n", 0))
        self.write("lone.json", '{"$id": "https://a.example/\\ud800"}')
        out, said, status = self.run_command("validate", "--format", "short", "--schema", "lone.json", "-", given="1")
        self.assertEqual((out, status), ("", 3))
        self.assertRegex(said, r"\Alone\.json:1:9: refused: not a JSON text, .* \(root; NotJson\)\n\Z")


class Bounds(Inputs):
    """No more is read than tells that an input is too large."""

    REFUSED = "refused: more than 16,777,216 bytes (root; InputTooLarge)\n"

    def test_no_end(self):
        for words in (["/dev/zero", "data/ada.json"], ["--lines", "/dev/zero", "data/rows.jsonl"],
                      ["--lines", "--jobs", "2", "/dev/zero", "data/rows.jsonl"]):
            with self.subTest(words):
                status, out, said = self.ended(*SOME[1:], *words)
                self.assertEqual(status, 3)
                self.assertIn(f"/dev/zero:1:1: {self.REFUSED}", said)
                self.assertIn("1 valid, ", said)
        for words in (["-"], ["--lines", "-"]):
            with self.subTest(words), open("/dev/zero", "rb") as zero:
                self.assertEqual(self.ended(*SOME[1:], *words, given=zero)[::2],
                                 (3, f"<stdin>:1:1: {self.REFUSED}0 valid, 0 invalid, 1 refused\n"))

    def test_schema_without_end(self):
        for words in (["--schema", "/dev/zero"], ["--schema", "schema.json", "--ref", "urn:x=/dev/zero"]):
            with self.subTest(words):
                self.assertEqual(self.ended(*words, "data/ada.json"), (3, "", f"/dev/zero:1:1: {self.REFUSED}"))

    def test_limit(self):
        """The largest text is read, and the next one isn't; a line may have its end beside it."""
        text = '{"name": "A"}'
        for beyond in (0, 1):
            self.write("large.json", text + " " * (LARGEST - len(text) + beyond))
            self.assertEqual(self.ended(*SOME[1:], "large.json"),
                             (3, "", f"large.json:1:1: {self.REFUSED}0 valid, 0 invalid, 1 refused\n") if beyond else
                             (0, "", "1 valid, 0 invalid\n"))
        for beyond, end in ((0, "\n"), (0, "\r\n"), (0, ""), (1, "\n"), (1, "\r\n"), (1, "")):
            with self.subTest(beyond, end=end):
                self.write("large.jsonl", text + " " * (LARGEST - len(text) + beyond) + end + '{"name": "B"}\n\n{}'
                           if end else text + " " * (LARGEST - len(text) + beyond))
                status, out, said = self.ended(*SOME[1:], "--lines", "large.jsonl")
                self.assertEqual("large.jsonl:1:1: " + self.REFUSED in said, beyond == 1)
                self.assertEqual("large.jsonl:4:1: missing" in out, end != "", out)
                self.assertEqual(status, 3 if beyond else 1 if end else 0)

    def test_blank_lines(self):
        """A line counts as empty where it has nothing but JSON's white space."""
        self.assertEqual(self.run_command(*SOME, "--lines", "-", given=' \t\r\n{"name": "A", "age": -1}\n\x0c\n')[0],
                         f"<stdin>:2:22: less than 0 (/age; minimum, {AGE})\n")
        self.assertEqual(self.run_command(*SOME, "--lines", "-", given="\x0c\n")[2], 3)
