"""What the command reads and writes for machines: the expectations of the Python package's command."""
import os
import resource
import unittest

from this_command import OnThisCommand

import test_inputs as inputs  # isort: skip
import test_machines as machines  # isort: skip
import test_meanings as meanings  # isort: skip


class Bounded(OnThisCommand):
    # (Node reserves much more room than it takes.)
    LIMIT = resource.RLIMIT_DATA


class Folders(Bounded, inputs.Folders):
    pass


class Paths(Bounded, inputs.Paths):
    pass


class Bounds(Bounded, inputs.Bounds):
    pass


class Lines(OnThisCommand, machines.Lines):
    pass


class RefusedSchema(OnThisCommand, machines.RefusedSchema):
    pass


class Encodings(OnThisCommand, machines.Encodings):
    FORMATS = ("flag", "basic", "json", "github", "sarif", "junit")

    def test_file_that_is_not_found(self):
        """Node reads U+FFFD in place of bytes that aren't UTF-8, so such a file isn't found."""
        with open(os.fsencode(self.folder) + b"/empty/\xff.json", "wb") as file:
            file.write(b'{"name": "A"}')
        self.assertEqual(self.run_command(*machines.SOME, "empty")[1:],
                         ("empty/\ufffd.json: failed: No such file or directory\n0 valid, 0 invalid, 1 failed\n", 4))


class Meanings(OnThisCommand, meanings.Command):
    pass


if __name__ == "__main__":
    unittest.main()
