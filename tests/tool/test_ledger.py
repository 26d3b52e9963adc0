"""A ledger in a file, by the tool's commands: what they print, and what they leave in the file."""

import os
import shutil
import tempfile
import unittest

from recorded import count, folds, images, inputs
from test_library import ABSENT
from tool_case import SAMPLES, ToolCase

from jamfell.library import ARCHIVE, shared_object


@unittest.skipUnless(ARCHIVE.is_file(), ABSENT)
class Ledgers(ToolCase):
    @classmethod
    def setUpClass(cls):
        """The shared object is made once, and not by every command."""
        cls.made = tempfile.mkdtemp()
        cls.addClassCleanup(shutil.rmtree, cls.made)
        cls.library = shared_object(ARCHIVE, cls.made)

    def run_tool(self, *words, given=b""):
        return super().run_tool(*words, "--library", self.library, given=given)

    def setUp(self):
        super().setUp()
        self.image = self.folder / "ledger.img"

    def new(self):
        self.image.unlink(missing_ok=True)
        self.assertEqual(self.good("ledger", "new", self.image), "registries 0 credentials 0\n")
        self.assertEqual(self.image.read_bytes(), bytes(4))

    def test_inputs(self):
        """Files of attempts in bytes: the printed program's lines stand at the start of those that are not indented."""
        for path, data, lines in inputs():
            self.new()
            if lines[-1] == "broken":
                self.assertIn(f"{path}: byte ", self.refused("ledger", "apply", "--bytes", self.image, path))
                self.assertEqual(self.image.read_bytes(), bytes(4))
                continue
            said = self.good("ledger", "apply", "--bytes", self.image, path).splitlines()
            starts = [line for line in said if not line.startswith("    ")]
            self.assertEqual([line.split("  ")[0] for line in starts], lines)
            count("inputs applied to a file")

    def test_refused_images(self):
        """An image that is refused stays as it is, and its fault is told with its place."""
        for expected, image in images():
            if expected[0] and len(image) < 3000:
                self.image.write_bytes(image)
                said = self.refused("ledger", "apply", self.image, SAMPLES / "registry.txt")
                self.assertRegex(said, r"the image is refused with 1 Malformed: byte \d+ \(")
                self.assertEqual(self.refused("ledger", "standing", self.image, "E:r", "E:c"), said)
                self.assertEqual(self.image.read_bytes(), image)
                count("images refused in a file")

    def test_file(self):
        """A new ledger takes no file's place; one that is changed keeps its mode, and one that is not keeps its very file."""
        self.assertIn("it is not there; `ledger new` makes an empty one", self.refused("ledger", "apply", self.image, SAMPLES / "issue.txt"))
        self.new()
        self.assertEqual(self.refused("ledger", "new", self.image), f"{self.image}: it is there already, and is left as it is")
        self.image.chmod(0o640)
        before = os.stat(self.image).st_ino
        self.good("ledger", "apply", self.image, SAMPLES / "issue.txt")
        self.assertEqual((os.stat(self.image).st_ino, self.image.read_bytes()), (before, bytes(4)))
        self.good("ledger", "apply", self.image, SAMPLES / "registry.txt")
        self.assertEqual((os.stat(self.image).st_mode & 0o777, len(self.image.read_bytes())), (0o640, 126))
        self.assertEqual(os.listdir(self.folder), ["ledger.img"])

    def test_wrong_text(self):
        """Nothing is applied of a text that has a fault."""
        self.new()
        text = (SAMPLES / "registry.txt").read_text() + (SAMPLES / "mistake.txt").read_text()
        self.assertIn("line 15: credential: ", self.refused("ledger", "apply", self.image, self.file("a.txt", text)))
        self.assertEqual(self.image.read_bytes(), bytes(4))

    def test_status(self):
        """The recorded inputs of `status`, one for each number."""
        found = {report[0]: parts[3] for call, report, parts in folds() if call == 5}
        self.assertEqual(sorted(found), [0, 1] + list(range(31, 40)))
        for number, data in found.items():
            said = self.good("status", "--bytes", self.file("status.bin", data))
            self.assertEqual(said.split()[0], str(number))
