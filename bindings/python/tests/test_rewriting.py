"""The options of the command for patterns and numbers, and what its reports say of rewritten schemas."""
import json

from commands import Case

SCHEMA = """{"$id": "https://example.com/tag",
 "properties": {"name": {"pattern": "^(?!aws:)(?!.*:$)[\\\\w:]+$"}, "size": {"minimum": 0.5}},
 "patternProperties": {"^\\\\d+$": {"type": "string", "format": "date"}}}"""
TAG = "https://example.com/tag#"
INSTANCE = '{"name": "aws:",\n "size": 0.0, "12": 1e0}'


def column(line, part):
    """The column of a part of a line of the schema."""
    return SCHEMA.splitlines()[line - 1].index(part) + 1


class Options(Case):
    def setUp(self):
        self.write("tag.json", SCHEMA)
        self.write("instance.json", INSTANCE)

    def test_default(self):
        """Each error is at the line of the instance as it is written, and at the keyword of the schema's file."""
        self.judge(["instance.json"],
                   f"instance.json:2:21: type is integer (/12; type, {TAG}/patternProperties/%5E%5Cd+$/type)\n"
                   f"instance.json:1:10: no match (/name; pattern, {TAG}/properties/name/pattern)\n"
                   f"instance.json:2:10: less than 0.5 (/size; minimum, {TAG}/properties/size/minimum)\n",
                   "0 valid, 1 invalid (3 errors)\n", 1, schema="tag.json")
        out, _, _ = self.run_command("validate", "tag.json", "instance.json", "--format", "json")
        places = {it["keywordLocation"].rpartition("/")[2]: (it["schema"]["line"], it["schema"]["column"])
                  for it in json.loads(out)[0]["errors"]}
        self.assertEqual(places, {"type": (3, column(3, '"type"')), "pattern": (2, column(2, '"pattern"')),
                                  "minimum": (2, column(2, '"minimum"'))})

    def test_off(self):
        pattern, number = (f"tag.json:2:{column(2, part)}: refused" for part in ('"^(?!', "0.5"))
        for options, place in ((["--patterns", "regex"], pattern), (["--numbers", "whole"], number),
                               (["--patterns", "regex", "--numbers", "whole"], number)):
            with self.subTest(options):
                _, said, status = self.run_command("validate", "tag.json", "instance.json", "--format", "short",
                                                   *options)
                self.assertEqual((said[:len(place)], status), (place, 3))

    def test_texts(self):
        self.write("default.json", '{"default": 0.5}')
        words = ["validate", "default.json", "instance.json", "--format", "short"]
        self.assertEqual(self.run_command(*words)[2], 3)
        self.assertEqual(self.run_command(*words, "--numbers", "texts")[2], 0)
        self.assertEqual(self.run_command(*words, "--numbers", "all")[2], 2)

    def test_tree(self):
        """A page has one error where one keyword became several."""
        out, _, status = self.run_command("validate", "tag.json", "instance.json", "--format", "html")
        self.assertEqual((status, out.count("no match"), out.count("the subschema holds")), (1, 1, 0))
        self.assertIn(f"{TAG}/properties/name/pattern<", out)

    def test_output(self):
        """The validator's outputs have the keywords that it has got."""
        out, _, _ = self.run_command("validate", "tag.json", "instance.json", "--format", "basic")
        self.assertIn("/properties/name/allOf/0/not", out)

    def test_formats(self):
        """A warning names the pattern of the schema."""
        out, said, status = self.run_command("validate", "tag.json", "-", "--formats", given='{"12": "x"}')
        self.assertEqual(status, 0)
        self.assertIn(f"tag.json:3:{column(3, chr(34) + 'format')}: format", out + said)
        self.assertIn(f"{TAG}/patternProperties/%5E%5Cd+$/format", out + said)
