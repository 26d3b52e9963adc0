"""The library through the tool: that its answers are those that are recorded, and that one which answers nonsense is told apart."""

import shutil
import subprocess
import tempfile
import unittest
from pathlib import Path

from recorded import count, folds, images, inputs

from jamfell.answers import decode_report
from jamfell.decode import cut_frames, decode_image
from jamfell.faults import Fault
from jamfell.library import ARCHIVE, LEDGER_LENGTH, Library

ABSENT = "the library, target/staticlib/libhost.a, is not there"


@unittest.skipUnless(ARCHIVE.is_file(), ABSENT)
class Answers(unittest.TestCase):
    @classmethod
    def setUpClass(cls):
        cls.library = Library()

    def test_inputs(self):
        """Every attempt of the printed program's inputs, on a ledger that starts empty."""
        for path, data, lines in inputs():
            frames, _ = cut_frames(data)
            ledger = self.library.empty()
            for position, (_, attempt) in enumerate(frames, 1):
                report = self.library.apply(ledger, attempt)
                self.assertEqual(f"{position} {report.number} {report.letter}", lines[position - 1], path)
                count("attempts applied")
            report, image = self.library.write_image(ledger)
            held, _ = decode_image(image)
            if lines[-1] != "broken":
                self.assertEqual(f"registries {len(held.registries)} credentials {len(held.credentials)}", lines[-1])

    def test_images(self):
        """Each image into one ledger, written again, and its key looked up."""
        ledger, before = self.library.empty(), bytes(4)
        for expected, image in images():
            number = self.library.read_image(ledger, image).number
            self.assertEqual(number, expected[0])
            before = before if number else image
            self.assertEqual(self.library.write_image(ledger)[1], before)
            report = self.library.look_up(ledger, expected[12:45], expected[45:78])
            self.assertEqual((report.number, sum(report.values)), tuple(expected[10:12]))
            count("images read by the library")

    def test_keys(self):
        """A key of another length is refused."""
        for registry, credential in ((b"", b"E" * 33), (b"E" * 33, b"E" * 32), (b"E" * 34, b"E" * 33)):
            self.assertEqual(self.library.look_up(self.library.empty(), registry, credential).number, 1)

    def test_status(self):
        for call, expected, (_, _, _, data) in folds():
            if call == 5:
                self.assertEqual(self.library.status(data), decode_report(expected))
                count("inputs of status")

    def test_any_bits(self):
        """A ledger of whatever bits gets an answer."""
        ledger = self.library.empty()
        for place in range(LEDGER_LENGTH // 8):
            ledger[place] = 0x4545454545454545
        self.assertEqual(self.library.apply(ledger, b"").number, 1)
        self.assertEqual(self.library.look_up(ledger, b"E" * 33, b"E" * 33).number, 1)
        self.assertEqual(self.library.write_image(ledger)[0].number, 1)


# Calls that answer what can't be: another number than their report, a letter that is none, a value too few; and none for `status`.
NONSENSE = """
#include <stddef.h>
#include <stdint.h>
#include <string.h>
void jamfell_empty(void *ledger) { memset(ledger, 0, 47760); }
static uint8_t tell(uint8_t *report, uint8_t number, uint8_t letter) { memset(report, 0, 36); report[0] = number; report[1] = letter; return number; }
uint8_t jamfell_apply(void *l, const uint8_t *a, size_t n, uint8_t *report) { return tell(report, 3, 'C') + 1; }
uint8_t jamfell_read_image(void *l, const uint8_t *a, size_t n, uint8_t *report) { return tell(report, n == 4 ? 0 : 1, n == 4 ? 'A' : '?'); }
uint8_t jamfell_write_image(void *l, uint8_t *a, size_t n, uint8_t *report) { return tell(report, 0, 'A'); }
"""


@unittest.skipUnless(shutil.which("gcc") and shutil.which("ar"), "there is no gcc")
class Nonsense(unittest.TestCase):
    @classmethod
    def setUpClass(cls):
        cls.folder = Path(tempfile.mkdtemp())
        cls.addClassCleanup(shutil.rmtree, cls.folder)
        (cls.folder / "nonsense.c").write_text(NONSENSE)
        for words in ("gcc -fPIC -c nonsense.c", "ar rc libnonsense.a nonsense.o"):
            subprocess.run(words.split(), cwd=cls.folder, check=True)
        cls.library = Library(cls.folder / "libnonsense.a")

    def said(self, call, *words):
        with self.assertRaises(Fault) as found:
            call(*words)
        return str(found.exception)

    def test_told(self):
        ledger = self.library.empty()
        self.assertIn("jamfell_apply answers 4, and its report says 3", self.said(self.library.apply, ledger, b""))
        self.assertIn("jamfell_read_image wrote a report that can't be", self.said(self.library.read_image, ledger, b""))
        self.assertEqual(self.library.read_image(ledger, bytes(4)).number, 0)
        self.assertIn("jamfell_write_image wrote a report with 0 values", self.said(self.library.write_image, ledger))
        self.assertIn("the library has no call jamfell_status", self.said(self.library.status, b""))

    def test_no_library(self):
        """Files that are none, with the endings of an archive and of a shared object."""
        for name in ("text.a", "text.so"):
            (self.folder / name).write_text("no library")
            self.assertIn(f"{self.folder / name}: ", self.said(Library, self.folder / name))
