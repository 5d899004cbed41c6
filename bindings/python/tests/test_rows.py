"""Every row that is a check, through the package. The rows are of the program, which upgrades nothing."""
import json
import pickle
import unittest

import jschema
from jschema.locations import pointer
from tests.support.rows import checks


def refusal_line(refused):
    """The program's line for a refusal."""
    subject = f"{refused.subject} {refused.index}" if refused.subject == "document" else refused.subject
    place = "" if refused.place is None else f" at {json.dumps(refused.place, ensure_ascii=False)}"
    return f"refused: {subject}{place}: {refused.kind}\n"


class Rows(unittest.TestCase):
    def test_checks(self):
        for check in checks():
            with self.subTest(check.name):
                self.judge(check)

    def judge(self, check):
        try:
            with jschema.Schemas(check.documents, upgrade=False) as schemas:
                output = schemas.output_text(check.entry, check.instance, format=check.format)
                self.assertEqual(output, check.output)
                self.assertIn(check.status, (0, 1))
                if check.format not in ("flag", "basic"):
                    self.assertEqual(schemas.is_valid(check.entry, check.instance), check.status == 0)
                if check.format == "basic":
                    self.judge_errors(schemas.errors(check.entry, check.instance), check)
        except jschema.Refused as refused:
            self.assertEqual((refusal_line(refused), 3), (check.refusal, check.status))
            if refused.subject == "document":
                self.assertEqual(refused.document, check.documents[refused.index][0])

    def judge_errors(self, errors, check):
        """The errors make up the output again, also after they were pickled."""
        for found in (errors, pickle.loads(pickle.dumps(errors))):
            units = [{"valid": False, "error": it.message, "instanceLocation": it.instance_location,
                      "keywordLocation": it.keyword_location,
                      "absoluteKeywordLocation": it.absolute_keyword_location} for it in found]
            self.assertEqual(units, json.loads(check.output)["errors"] if check.status else [])
            for error in found:
                self.assertEqual(pointer(list(map(str, error.path))), error.instance_location)
                self.assertEqual(pointer(list(map(str, error.schema_path))), error.keyword_location)
                self.assertLess(error.position.offset, len(check.instance))
