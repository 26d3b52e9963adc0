"""The commands that need no library. No input may end in a traceback."""

import os
import subprocess
import sys

from recorded import ROOT, images, inputs
from test_text import IMAGE
from tool_case import SAMPLES, TOOL, ToolCase


class Commands(ToolCase):
    def test_inputs(self):
        """show, then make, gives an input again, malformed attempts included. Where it is broken, only what is whole comes back."""
        for path, data, lines in inputs():
            status, text, err = self.run_tool("show", path)
            malformed = [line.split()[0] for line in lines[:-1] if line.split()[1] == "1"]
            self.assertEqual(status, 1 if malformed or lines[-1] == "broken" else 0)
            for position in malformed:
                self.assertIn(f"{path}: attempt {position} is malformed: byte ", err)
            self.assertEqual(lines[-1] == "broken", f"{path}: broken: byte " in err)
            self.assertEqual(err.count("\n"), len(malformed) + (lines[-1] == "broken"))
            self.good("make", self.file("again.txt", text), "-o", "again.bin")
            again = (self.folder / "again.bin").read_bytes()
            self.assertEqual(int.from_bytes(again[:2], "big"), len(lines) - 1)
            self.assertTrue(again == data if lines[-1] != "broken" else data[2:].startswith(again[2:]))

    def test_images(self):
        """show and make of images: those that are refused too, as far as their layout goes."""
        seen = set()
        for expected, image in images():
            if len(image) > 3000 or image in seen:
                continue
            seen.add(image)
            path = self.file("ledger.img", image)
            status, text, err = self.run_tool("show", "--image", path)
            self.assertEqual(status == 0, expected[0] == 0)
            if expected[0]:
                self.assertRegex(err, r"^jamfell: .*ledger.img: byte \d+ \(")
            if status == 0:
                self.good("make", "--image", self.file("again.txt", text), "-o", "again.img")
                self.assertEqual((self.folder / "again.img").read_bytes(), image)

    def test_forms(self):
        """Each form by its switch, through standard input and output."""
        for form, text in (
            ("--status", (SAMPLES / "status.txt").read_text()),
            ("--attempt", (SAMPLES / "issue.txt").read_text()),
            ("--image", IMAGE),
            ("--registry", IMAGE[: IMAGE.index("credential-state")]),
            ("--credential", IMAGE[IMAGE.index("credential-state") :]),
        ):
            said = subprocess.run([TOOL, "make", form, "-", "-o", "-"], input=text.encode(), capture_output=True)
            self.assertEqual((said.returncode, said.stderr), (0, b""), form)
            names = self.file("names.txt", text)
            told = self.good("show", form, "-", "--names", names, given=said.stdout)
            plain = [line.split("#")[0].split() for line in text.splitlines()]
            self.assertEqual([line.split() for line in told.splitlines() if line.split("#")[0]], [line for line in plain if line], form)

    def test_editors(self):
        """Other line ends, and the mark that some editors put in front, make the same bytes."""
        text = (SAMPLES / "day.txt").read_text()
        for name, data in (("plain", text), ("other", "\ufeff" + text.replace("\n", "\r\n"))):
            self.good("make", self.file(f"{name}.txt", data), "-o", f"{name}.bin")
        self.assertEqual((self.folder / "plain.bin").read_bytes(), (self.folder / "other.bin").read_bytes())

    def test_reading_rules(self):
        """Text that would make an image which no ledger reads."""
        second = IMAGE + IMAGE[: IMAGE.index("credential-state")]
        for text, said in (
            (second, "line 15: registry 2: it has the id of registry 1"),
            (IMAGE + IMAGE[IMAGE.index("credential-state") :], "line 14: credential 2: it has the key of credential 1"),
            (IMAGE.replace("registry E:r", "registry E:q"), "line 9: credential 1: its registry is not held"),
            (IMAGE.replace("E:c\n  sn 0", "E:c\n  sn 2"), "line 9: credential 1: its sn is 2, and not 0 or 1"),
            (IMAGE.replace("toad 0", "toad 1"), "line 2: registry 1: its toad is 1, which does not fit 0 backers"),
            (IMAGE.replace("toad 0", "toad 1\nbacker B:b"), "line 2: registry 1: it has the trait NoBackers, and backers"),
            (IMAGE.replace("toad 0", "toad 1\nbacker B:b\nbacker B:b"), "line 2: registry 1: its backer at position 1 is one that stands before it"),
            (IMAGE[: IMAGE.index("credential-state")] * 17, "line 130: an image has at most 16 'registry-state'"),
            ("attempt raw\n", "line 1: an image has registry-states and credential-states, and no 'attempt raw'"),
        ):
            path = self.file("image.txt", text)
            self.assertEqual(self.refused("make", "--image", path, "-o", "x.img"), f"{path}: {said}")
            self.assertFalse((self.folder / "x.img").exists())

    def test_refused(self):
        """Inputs that are no inputs."""
        binary = self.file("a.bin", b"\x00\x01\xff\xfe")
        missing = self.folder / "missing"
        empty = self.file("empty.txt", "")
        two = self.file("two.txt", (SAMPLES / "issue.txt").read_text() * 2)
        for words, said in (
            (("make", binary, "-o", "x"), f"{binary}: byte 2: this is no text; `show` reads files of bytes"),
            (("make", missing, "-o", "x"), f"{missing}: No such file or directory"),
            (("show", self.folder), f"{self.folder}: Is a directory"),
            (("make", empty, "-o", missing / "x"), f"{missing / 'x'}: No such file or directory"),
            (("make", "--status", empty, "-o", "x"), f"{empty}: one 'status' is wanted, and here is nothing"),
            (("make", "--attempt", two, "-o", "x"), f"{two}: one 'attempt' is wanted, and here is attempt iss, attempt iss"),
            (("make", SAMPLES / "status.txt", "-o", "x"), f"{SAMPLES / 'status.txt'}: line 2: here attempts are wanted, and this is 'status'"),
            (("show", "--registry", binary), f"{binary}: byte 0 (registry state, id): the bytes end too early: 33 are needed here, and 4 left"),
            (("show", "--attempt", binary), f"{binary}: byte 0 (kind): the kind byte is 0, and not 1 to 6"),
            (("show", "--image", binary), f"{binary}: byte 2 (registry 1, id): the bytes end too early: 33 are needed here, and 2 left"),
            (("show", empty), f"{empty}: broken: byte 0 (the count of attempts): the bytes end too early: 2 are needed here, and 0 left"),
            (("show", self.file("a.img", bytes(4))), f"{self.folder / 'a.img'}: broken: byte 2 (behind the end): 2 bytes too many: nothing may follow the last section; it can be read with --image"),
            (("show", self.file("b.txt", "atte")), f"{self.folder / 'b.txt'}: broken: byte 4 (attempt 1 of 24948): the bytes end too early: 29797 are needed here, and 0 left; it is text, which `make` reads"),
            (("show", SAMPLES / "issue.txt", "--names", binary), f"{binary}: byte 2: this is no text; `show` reads files of bytes"),
            (("explain", "40"), "there is no number 40: the numbers are 0 to 39"),
            (("explain", "\u0663"), "'\u0663' is no number: the numbers are 0 to 39"),
            (("explain", "--report", "0041"), "byte 2 (report): a report has 36 bytes, and this one 2"),
            (("explain", "--report", "xy"), "a report is given in hex digits, two for each byte, and not as 'xy'"),
            (("ledger", "standing", "x.img", "B:r", "E:c"), "REGISTRY: 'B:r': a said has the letter E, F, G, H or I, not B"),
            (("ledger", "standing", "x.img", "E:r", "c"), "CREDENTIAL: 'c' is no said: it is a letter with 64 hex digits, or a letter, a colon and a name, as E:pipe-12"),
            (("ledger", "new", "x.img", "--library", missing), f"{missing}: the library is not there; tools/library.sh makes it"),
            (("ledger", "new", "x.img", "--library", binary), None),
        ):
            found = self.refused(*words)
            if said is not None:
                self.assertEqual(found, said)

    def test_usage(self):
        for words in ((), ("show",), ("make", "x"), ("show", "--image", "--status", "x"), ("ledger",), ("nothing",)):
            status, _, err = self.run_tool(*words)
            self.assertEqual((status, err[:6]), (2, "usage:"), words)

    def test_reader_goes_away(self):
        """Whoever reads the output may stop."""
        words = [sys.executable, "-B", str(TOOL), "show", str(ROOT / "crates/attempts/stdin")]
        tool = subprocess.Popen(words, stdout=subprocess.PIPE, stderr=subprocess.PIPE)
        tool.stdout.readline()
        tool.stdout.close()
        self.assertNotIn(b"Traceback", tool.stderr.read())
        tool.stderr.close()
        tool.wait()

    def test_full(self):
        """An output that takes nothing is told too."""
        with open("/dev/full", "wb") as full:
            said = subprocess.run([TOOL, "explain"], stdout=full, stderr=subprocess.PIPE)
        self.assertEqual((said.returncode, said.stderr), (1, b"jamfell: output: No space left on device\n"))

    def test_closed(self):
        """Closed streams are empty ones."""
        for words in ("explain 1 >&-", "explain 99 2>&-", "show - <&- 2>/dev/null"):
            said = subprocess.run(["bash", "-c", f"'{TOOL}' {words}"], capture_output=True)
            self.assertEqual((said.returncode, said.stderr), (0 if words == "explain 1 >&-" else 1, b""), words)

    def test_folder_stays(self):
        """The tool leaves nothing in the repository."""
        before = sorted(os.listdir(ROOT / "tools/jamfell"))
        subprocess.run([TOOL, "explain", "1"], capture_output=True, check=True)
        self.assertEqual(sorted(os.listdir(ROOT / "tools/jamfell")), before)

    def test_all_numbers(self):
        lines = self.good("explain").splitlines()
        self.assertEqual([int(line.split()[0]) for line in lines], list(range(40)))
        for number in range(40):
            self.assertEqual(self.good("explain", str(number)).split()[0], str(number))
